"""Names for every element that takes the focus, contrast, narrow screens, light and dark."""
import time

VIEWS = ("tables/Painter", "inbox", "ask", "mappings", "violations", "log", "workspace")

CONTRAST = r"""(() => {
const luminance = c => { const [r, g, b] = c.map(x => (x /= 255) <= 0.03928 ? x / 12.92 : ((x + 0.055) / 1.055) ** 2.4); return 0.2126 * r + 0.7152 * g + 0.0722 * b; };
const canvas = new OffscreenCanvas(1, 1).getContext('2d', {willReadFrequently: true});
const colour = s => { canvas.clearRect(0, 0, 1, 1); canvas.fillStyle = s; canvas.fillRect(0, 0, 1, 1); return [...canvas.getImageData(0, 0, 1, 1).data]; };
const low = new Set();
for (const e of document.querySelectorAll('body *')) {
  if (!e.checkVisibility() || e.disabled || e.closest('fieldset:disabled, .skip') || ![...e.childNodes].some(n => n.nodeType === 3 && n.data.trim())) continue;
  let p = e, ground;
  do { ground = colour(getComputedStyle(p).backgroundColor); p = p.parentElement; } while (p && ground[3] === 0);
  const style = getComputedStyle(e), ink = colour(e instanceof SVGElement ? style.fill : style.color);
  const a = luminance(ink.slice(0, 3)), b = luminance(ground.slice(0, 3)), ratio = (Math.max(a, b) + 0.05) / (Math.min(a, b) + 0.05);
  if (ratio < 4.5) low.add(`${e.tagName}.${e.className?.baseVal ?? e.className} ${ratio.toFixed(2)} ${e.textContent.slice(0, 20)}`);
}
return [...low];
})()"""


def filled(stage):
    """A workspace with something in each view."""
    served = stage.serve()
    served.says('insert Hangs("Girl with a Pearl Earring", "Room 15")')
    served.says('insert Hangs("The Goldfinch", "Room 14")')
    served.says("answer 7 new")
    served.says("undo 3")
    return served


def shown(page, view):
    page.go(view)
    page.until(view + " is drawn", "!document.querySelector('#main').innerText.includes('Connecting') && document.querySelector('#nav [aria-current]')?.innerText.toLowerCase().startsWith(%r)" % view.split("/")[0])
    time.sleep(1)


def everything_has_a_name_and_contrast(stage):
    bob = stage.page(filled(stage), "bob")
    for scheme in ("light", "dark"):
        bob.scheme(scheme)
        for view in VIEWS:
            shown(bob, view)
            low = bob.js(CONTRAST)
            assert not low, (scheme, view, low)
            nodes = bob.send("Accessibility.getFullAXTree")["nodes"]
            nameless = [n["role"]["value"] for n in nodes if not n.get("ignored") and n["role"]["value"] not in ("RootWebArea", "generic", "main") and
                        any(p["name"] == "focusable" and p["value"]["value"] for p in n.get("properties", [])) and not n.get("name", {}).get("value")]
            assert not nameless, (view, nameless)
        if scheme == "dark":
            shown(bob, "mappings")
            stage.picture(bob, "mappings")


def narrow_screens_need_no_scrolling_to_the_side(stage):
    bob = stage.page(filled(stage), "bob")
    bob.size(390, 780, mobile=True)
    for view in VIEWS:
        shown(bob, view)
        wide = bob.js("document.documentElement.scrollWidth")
        assert wide <= 390, (view, wide)
    shown(bob, "tables/Painter")
    bob.click(".rows td", "Rembrandt")
    bob.sees("#details", "Why it is there")
    stage.picture(bob, "narrow")
    bob.press("Escape")
    bob.until("Escape closes the details", "document.querySelector('#details').hidden")


def the_theme_is_kept(stage):
    bob = stage.page(stage.serve(), "bob")
    bob.scheme("light")
    light = bob.js("getComputedStyle(document.body).backgroundColor")
    bob.click("#theme")
    bob.sees("#theme", "dark")
    dark = bob.js("getComputedStyle(document.body).backgroundColor")
    assert light != dark
    bob.send("Page.reload")
    bob.sees("#theme", "dark")
    assert bob.js("getComputedStyle(document.body).backgroundColor") == dark


STORIES = [everything_has_a_name_and_contrast, narrow_screens_need_no_scrolling_to_the_side, the_theme_is_kept]

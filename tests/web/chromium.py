"""Chromium, driven by its own protocol over a pipe: pages with a storage of their own, real clicks and keys, and the console."""
import base64
import json
import os
import shutil
import subprocess
import tempfile
import threading
import time

PATIENCE = float(os.environ.get("PATIENCE", 60))      # seconds that a page has to do what is expected
NAMES = ("chromium", "chromium-browser", "google-chrome", "google-chrome-stable")
KEYS = {"Enter": (13, "\r"), "Tab": (9, ""), "Escape": (27, ""), "ArrowDown": (40, ""), "ArrowUp": (38, ""), " ": (32, " ")}


def program():
    """The path of Chromium, or None."""
    return next((p for p in map(shutil.which, NAMES) if p), None)


class Chromium:
    """One process; `page` opens a page in a profile of its own."""

    def __init__(self):
        self.folder = tempfile.mkdtemp()
        to_us, from_it = os.pipe()
        from_us, to_it = os.pipe()
        words = [program(), "--headless=new", "--no-sandbox", "--disable-gpu", "--disable-dev-shm-usage", "--no-first-run",
                 "--hide-scrollbars", "--force-color-profile=srgb", "--remote-debugging-pipe", "--user-data-dir=" + self.folder]
        # The protocol reads from descriptor 3 and writes to 4.
        plumbing = "exec \"$@\" 3<&%d 4>&%d" % (from_us, from_it)
        self.process = subprocess.Popen(["bash", "-c", plumbing, "chromium"] + words, pass_fds=(from_us, from_it),
                                        stdout=subprocess.DEVNULL, stderr=subprocess.DEVNULL)
        os.close(from_us)
        os.close(from_it)
        self.to, self.answers, self.listeners, self.number = os.fdopen(to_it, "wb", 0), {}, {}, 0
        self.changed = threading.Condition()
        threading.Thread(target=self.listen, args=(os.fdopen(to_us, "rb", 0),), daemon=True).start()

    def listen(self, pipe):
        rest = b""
        while True:
            data = pipe.read(1 << 16)
            if not data:
                break
            *whole, rest = (rest + data).split(b"\0")
            for text in whole:
                self.take(json.loads(text))

    def take(self, message):
        with self.changed:
            if "id" in message:
                self.answers[message["id"]] = message
            else:
                listener = self.listeners.get(message.get("sessionId"))
                if listener:
                    listener(message["method"], message["params"])
            self.changed.notify_all()

    def send(self, method, session=None, seconds=2 * PATIENCE, **params):
        """Sends one command of the protocol, and returns its result."""
        with self.changed:
            self.number += 1
            number = self.number
            message = {"id": number, "method": method, "params": params}
            if session:
                message["sessionId"] = session
            self.to.write(json.dumps(message).encode() + b"\0")
            if not self.changed.wait_for(lambda: number in self.answers, seconds):
                raise AssertionError("Chromium does not answer " + method)
            answer = self.answers.pop(number)
        if "error" in answer:
            raise AssertionError("%s: %s" % (method, answer["error"]["message"]))
        return answer["result"]

    def page(self, name, url, width=1280, height=860):
        return Page(self, name, url, width, height)

    def close(self):
        try:
            self.send("Browser.close", seconds=10)
        except (AssertionError, OSError):
            self.process.kill()
        self.process.wait()
        shutil.rmtree(self.folder, ignore_errors=True)


class Page:
    """One page in a profile of its own. `said` has the output of its console."""

    def __init__(self, chromium, name, url, width, height):
        self.chromium, self.name, self.said = chromium, name, []
        context = chromium.send("Target.createBrowserContext")["browserContextId"]
        target = chromium.send("Target.createTarget", url="about:blank", browserContextId=context, width=width, height=height)
        self.context = context
        self.session = chromium.send("Target.attachToTarget", targetId=target["targetId"], flatten=True)["sessionId"]
        chromium.listeners[self.session] = self.heard
        for domain in ("Page", "Runtime", "Log", "DOM", "Accessibility"):
            self.send(domain + ".enable")
        self.size(width, height)
        self.send("Page.navigate", url=url)

    def send(self, method, **params):
        return self.chromium.send(method, self.session, **params)

    def close(self):
        self.chromium.listeners.pop(self.session, None)
        self.chromium.send("Target.disposeBrowserContext", browserContextId=self.context)

    def heard(self, method, params):
        if method == "Runtime.consoleAPICalled":
            self.said.append(" ".join(str(a.get("value", a.get("description"))) for a in params["args"]))
        elif method == "Runtime.exceptionThrown":
            self.said.append(params["exceptionDetails"].get("exception", {}).get("description") or params["exceptionDetails"]["text"])
        elif method == "Log.entryAdded":
            self.said.append(params["entry"]["text"])

    def size(self, width, height, mobile=False):
        self.send("Emulation.setDeviceMetricsOverride", width=width, height=height, deviceScaleFactor=1, mobile=mobile)

    def scheme(self, light_or_dark):
        self.send("Emulation.setEmulatedMedia", features=[{"name": "prefers-color-scheme", "value": light_or_dark}])

    def js(self, expression):
        """The value of an expression in the page. If it is a promise, its result is awaited."""
        result = self.send("Runtime.evaluate", expression=expression, returnByValue=True, awaitPromise=True)
        if "exceptionDetails" in result:
            details = result["exceptionDetails"]
            raise AssertionError("%s in the page: %s" % (details.get("exception", {}).get("description", details["text"]), expression))
        return result["result"].get("value")

    # ---- what a person does ----

    def find(self, css, words=None, seconds=PATIENCE):
        """Waits for the first visible and usable element of this selector that contains these words; returns its middle."""
        expression = """(() => { const e = [...document.querySelectorAll(%s)].find(e => e.checkVisibility() && !e.disabled && !e.closest('fieldset:disabled, [inert]') &&
            (e.innerText + ' ' + (e.getAttribute('aria-label') ?? '')).includes(%s));
            if (!e) return null;
            e.scrollIntoView({block: 'nearest'}); const r = e.getBoundingClientRect();
            const x = r.x + r.width / 2, y = r.y + r.height / 2, top = document.elementFromPoint(x, y);
            return top && (e.contains(top) || top.contains(e)) ? [x, y] : e.focus() ?? (e.scrollIntoView({block: 'center'}), null); })()""" % (
            json.dumps(css), json.dumps(words or ""))
        end = time.time() + seconds
        while time.time() < end:
            place = self.js(expression)
            if place:
                return place
            time.sleep(0.1)
        raise AssertionError("%s: there is no %s %s; the page says: %s" % (self.name, css, words or "", self.text("body")[:1500]))

    def click(self, css, words=None):
        """Clicks on what `find` finds. If the page put something else there meanwhile, it is looked for again."""
        end = time.time() + PATIENCE
        while time.time() < end:
            x, y = self.find(css, words)
            self.js("""window.clicked = false; addEventListener('click', event => { const e = event.target.closest(%s);
                window.clicked = Boolean(e) && (e.innerText + ' ' + (e.getAttribute('aria-label') ?? '')).includes(%s); }, {capture: true, once: true})""" % (
                json.dumps(css), json.dumps(words or "")))
            for kind in ("mousePressed", "mouseReleased"):
                self.send("Input.dispatchMouseEvent", type=kind, x=x, y=y, button="left", clickCount=1)
            if self.js("window.clicked"):
                return
        raise AssertionError("%s: %s %s was never hit" % (self.name, css, words or ""))

    def press(self, *keys):
        """Presses keys by name; any other text is typed."""
        for key in keys:
            if key in KEYS:
                code, text = KEYS[key]
                for kind in ("keyDown", "keyUp"):
                    self.send("Input.dispatchKeyEvent", type=kind, key=key, code=key, windowsVirtualKeyCode=code, text=text if kind == "keyDown" else "")
            else:
                self.send("Input.insertText", text=key)

    def type(self, css, text):
        """Puts a text into a field, in place of its content. If the page replaced the field meanwhile, it is typed again."""
        end = time.time() + PATIENCE
        while time.time() < end:
            self.click(css)
            self.js("document.activeElement.select()")
            self.press(text)
            if self.js("[...document.querySelectorAll(%s)].some(e => e.value === %s)" % (json.dumps(css), json.dumps(text))):
                return
        raise AssertionError("%s: %s never took the text %s" % (self.name, css, text))

    def choose(self, css, words):
        """Chooses an option of the first visible list of this selector."""
        self.find(css)
        self.js("""(() => { const e = [...document.querySelectorAll(%s)].find(e => e.checkVisibility());
            e.value = [...e.options].find(o => o.text === %s).value; e.dispatchEvent(new Event('change')); })()""" % (json.dumps(css), json.dumps(words)))

    def upload(self, css, path, text):
        """Writes a file, and gives it to a field for files."""
        with open(path, "w") as file:
            file.write(text)
        self.until("there is %s" % css, "Boolean(document.querySelector(%s))" % json.dumps(css))
        root = self.send("DOM.getDocument")["root"]["nodeId"]
        node = self.send("DOM.querySelector", nodeId=root, selector=css)["nodeId"]
        self.send("DOM.setFileInputFiles", nodeId=node, files=[path])

    def downloads(self, folder):
        """Sets the folder for files that this page saves."""
        self.chromium.send("Browser.setDownloadBehavior", behavior="allow", downloadPath=folder, browserContextId=self.context)

    def go(self, part):
        self.js("location.hash = %s" % json.dumps(part))

    # ---- what a person sees ----

    def text(self, css):
        return self.js("document.querySelector(%s)?.innerText ?? ''" % json.dumps(css))

    def until(self, what, expression, seconds=PATIENCE):
        """Waits until an expression of the page is true."""
        end = time.time() + seconds
        while time.time() < end:
            value = self.js("(%s)" % expression)
            if value:
                return value
            time.sleep(0.1)
        raise AssertionError("%s: %s; the page says: %s" % (self.name, what, self.text("body")[:1500]))

    def sees(self, css, *words):
        """Waits until an element of this selector contains these words, or one of these words."""
        return self.until("%s says %s" % (css, " or ".join(words)), "[...document.querySelectorAll(%s)].some(e => %s.some(w => (e.innerText ?? e.textContent).replace(/\\s+/g, ' ').includes(w)))" % (
            json.dumps(css), json.dumps(words)))

    def picture(self, path):
        """Saves a picture of the page as a PNG."""
        time.sleep(0.3)
        data = self.send("Page.captureScreenshot", format="png")["data"]
        with open(path, "wb") as file:
            file.write(base64.b64decode(data))

"""yt: pictures. DOT of the mappings and of an explanation; one page of HTML with the graph as inline SVG."""
import html
import os

from . import text as T


def dot_text(s):
    return '"%s"' % s.replace("\\", "\\\\").replace('"', '\\"')


def edges(space):
    """[(mapping, in force, left relations, right relations)]"""
    out = []
    for name in space.force + space.proposed():
        m = space.mappings[name]
        rel = lambda atoms: sorted({r for r, _ in atoms})
        out.append((name, name in space.force, rel(m.left), rel(m.right)))
    return out


def graph_dot(space):
    out = ["digraph mappings {", "  rankdir=LR;", "  node [shape=box];"]
    for r, (name, _) in enumerate(space.schema.relations):
        out.append("  r%d [label=%s];" % (r, dot_text(space.schema.form(r))))
    for i, (name, force, left, right) in enumerate(edges(space)):
        out.append("  m%d [label=%s, shape=ellipse%s];" % (i, dot_text(name), "" if force else ", style=dashed"))
        out += ["  r%d -> m%d;" % (r, i) for r in left] + ["  m%d -> r%d;" % (i, r) for r in right]
    return out + ["}"]


def why_dot(doer, reasons):
    out, number, stack = ["digraph why {", "  rankdir=BT;", "  node [shape=box];"], {}, []
    for t, item, h, depth, again in reasons:
        if t is None:
            continue
        key = (t, item.number if item else None, h[0])
        new = key not in number
        n = number.setdefault(key, len(number))
        if new:
            words = {"base": "base", "inserted": "inserted"}.get(h[0]) or (h[1] if h[0] == "generated" else "filled in")
            who = " %d %s" % (item.number, item.curator) if item else ""
            out.append("  t%d [label=%s];" % (n, dot_text(doer.fact(t)) [:-1] + "\\n" + words + who + '"'))
        stack = stack[:depth]
        if stack:
            edge = "  t%d -> t%d;" % (n, stack[-1])
            if edge not in out:
                out.append(edge)
        stack.append(n)
    return out + ["}"]


# ---- the page ----

def esc(s):
    return html.escape("".join("\\u{%x}" % ord(c) if T.control(c) and c not in "\n\t" else c for c in s), quote=True)


def svg(space):
    """Relations and mappings in columns: a relation stands after the mappings that lead to it, as far as there is no cycle."""
    rels = [n for n, _ in space.schema.relations]
    es = edges(space)
    rank = {("r", i): 0 for i in range(len(rels))}
    for _ in range(len(rels)):
        for i, (_, _, left, right) in enumerate(es):
            rank[("m", i)] = min(2 * len(rels) - 1, 1 + max(rank[("r", r)] for r in left))
            for r in right:
                if r not in left and rank[("r", r)] < rank[("m", i)] + 1 <= 2 * min(len(rels), 8):
                    rank[("r", r)] = rank[("m", i)] + 1
    columns = {}
    for node in sorted(rank, key=lambda n: (rank[n], n[0], n[1])):
        columns.setdefault(rank[node], []).append(node)
    name = lambda n: rels[n[1]] if n[0] == "r" else es[n[1]][0]
    x, where = 10, {}
    height = 0
    for c in sorted(columns):
        w = max(16 + 8 * T.width(name(n)) for n in columns[c])
        for j, n in enumerate(columns[c]):
            where[n] = (x, 10 + 46 * j, 16 + 8 * T.width(name(n)))
            height = max(height, 10 + 46 * j + 40)
        x += w + 50
    out = ['<svg role="img" aria-label="The mappings between the tables" width="%d" height="%d" viewBox="0 0 %d %d">' % (
        x, height + 30, x, height + 30),
        '<defs><marker id="a" viewBox="0 0 8 8" refX="8" refY="4" markerWidth="7" markerHeight="7" orient="auto">'
        '<path d="M0 0L8 4L0 8z" class="tip"/></marker></defs>']
    for i, (_, force, left, right) in enumerate(es):
        for a, b in [(("r", r), ("m", i)) for r in left] + [(("m", i), ("r", r)) for r in right]:
            x1, y1, w1 = where[a]
            x2, y2, w2 = where[b]
            if x2 > x1:
                d = "M%d %dC%d %d %d %d %d %d" % (x1 + w1, y1 + 15, x1 + w1 + 30, y1 + 15, x2 - 30, y2 + 15, x2, y2 + 15)
            else:
                d = "M%d %dC%d %d %d %d %d %d" % (x1 + w1 // 2, y1 + 30, x1 + w1 // 2, height + 25, x2 + w2 // 2, height + 25,
                                                 x2 + w2 // 2, y2 + 30)
            out.append('<path d="%s" class="edge%s" marker-end="url(#a)"/>' % (d, "" if force else " open"))
    for n, (px, py, w) in where.items():
        kind = "rel" if n[0] == "r" else "map" if es[n[1]][1] else "map open"
        out.append('<rect x="%d" y="%d" width="%d" height="30" rx="%d" class="%s"/><text x="%d" y="%d">%s</text>' % (
            px, py, w, 2 if n[0] == "r" else 15, kind, px + 8, py + 20, esc(name(n))))
    return "".join(out) + "</svg>"


STYLE = """:root{color-scheme:light dark;--fg:#1b1b1b;--bg:#fff;--line:#767676;--soft:#f1f1ee;--mark:#8a4b00}
@media(prefers-color-scheme:dark){:root{--fg:#ececec;--bg:#161616;--line:#8c8c8c;--soft:#242424;--mark:#ffbe6b}}
body{font:16px/1.5 system-ui,sans-serif;color:var(--fg);background:var(--bg);margin:2rem auto;max-width:70rem;padding:0 1rem}
table{border-collapse:collapse;margin:.5rem 0 1.5rem}caption{text-align:left;font-weight:600}
th,td{border:1px solid var(--line);padding:.2rem .6rem;text-align:left;vertical-align:top}td.n{text-align:right}
th{background:var(--soft)}.u{color:var(--mark);font-style:italic}code{background:var(--soft);padding:0 .25rem}
.wide{overflow-x:auto}svg text{font:14px monospace;fill:var(--fg)}.rel,.map{fill:var(--soft);stroke:var(--line)}
.edge{fill:none;stroke:var(--line)}.open{stroke-dasharray:5 3}.tip{fill:var(--line)}"""


def page_html(doer):
    s, w = doer.space, []
    name = os.path.basename(doer.ws.path)
    w.append('<!doctype html>')
    w.append('<html lang="en"><head><meta charset="utf-8"><meta name="viewport" content="width=device-width">')
    w.append("<title>%s</title><style>%s</style></head><body>" % (esc(name), STYLE))
    unknowns = sorted({s.name_of[v[1:3]] for t in s.facts.all for v in t[1] if v[0] == 2})
    w.append("<h1>%s</h1><p>At record %d; last update %d. Tuples: %d. Unknowns: %d. Waiting: %d.</p>" % (
        esc(name), s.at, s.last, len(s.visible()), len(unknowns), len(s.waiting)))
    w.append('<nav><a href="#questions">Questions</a> · <a href="#tables">Tables</a> · <a href="#unknowns">Unknowns</a> · '
             '<a href="#mappings">Mappings</a> · <a href="#log">Log</a></nav>')
    w.append('<h2 id="questions">Questions</h2>')
    for n in sorted(s.waiting):
        item = s.waiting[n]
        stop = s.run(item, peek=True)
        w.append("<h3>%d %s: <code>%s</code></h3>" % (n, esc(item.curator), esc(doer.line(item.line))))
        if stop is None or stop.why != "question":
            w.append("<p>%s</p>" % esc(doer.why_waits(stop)))
            continue
        q = stop.question
        if q["kind"] == "positive":
            w.append("<p><code>%s</code> wants <code>%s</code>. Is it one of these?</p>" % (
                esc(doer.pattern(q)), esc(doer.fact(q["wanted"]))))
            w.append("<p>Since %s.</p>" % ", ".join("<code>%s</code>" % esc(doer.fact(t)) for t in q["since"]))
        else:
            w.append("<p><code>%s</code> no longer holds for these. Which of them go?</p>" % esc(doer.pattern(q)))
        w.append('<table><tr><th scope="col">Candidate</th><th scope="col">Command</th></tr>')
        for i, t in enumerate(q["candidates"], 1):
            w.append("<tr><td><code>%s</code></td><td><code>answer %d %d --at %d</code></td></tr>" % (
                esc(doer.fact(t)), n, i, s.at))
        if q["kind"] == "positive":
            w.append("<tr><td>none of them</td><td><code>answer %d new --at %d</code></td></tr>" % (n, s.at))
        w.append("</table>")
    if not s.waiting:
        w.append("<p>No questions.</p>")
    w.append('<h2 id="tables">Tables</h2>')
    for r, (rel, cols) in enumerate(s.schema.relations):
        rows = [s.named(t) for t in s.facts.relation(r)]
        w.append('<div class="wide"><table><caption>%s, %d %s</caption><tr>%s</tr>' % (
            esc(rel), len(rows), "row" if len(rows) == 1 else "rows",
            "".join('<th scope="col">%s</th>' % esc(c + ("*" if k else "")) for c, k in cols)))
        for t in rows:
            w.append("<tr>%s</tr>" % "".join(
                '<td class="u">%s</td>' % T.show_value(v) if v[0] == 2 else '<td class="n">%d</td>' % v[1] if v[0] == 0
                else "<td>%s</td>" % esc(v[1].decode()) for v in t[1]))
        w.append("</table></div>")
    w.append('<h2 id="unknowns">Unknowns</h2>')
    if unknowns:
        w.append('<table><tr><th scope="col">Unknown</th><th scope="col">Stands in</th><th scope="col">Command</th></tr>')
        for n in unknowns:
            where = [s.named(t) for t in s.facts.occurs(*s.null_of[n])]
            w.append('<tr><td class="u">?%d.%d</td><td>%s</td><td><code>replace ?%d.%d with VALUE</code></td></tr>' % (
                n[0], n[1], "<br>".join("<code>%s</code>" % esc(doer.fact(t)) for t in where[:20]), n[0], n[1]))
        w.append("</table>")
    else:
        w.append("<p>None.</p>")
    w.append('<h2 id="mappings">Mappings</h2>')
    if s.standing_mappings():
        w.append('<div class="wide">%s</div><ul>' % svg(s))
        for m in s.force + s.proposed():
            bad = 0 if m in s.force else len(s.violations(m))
            w.append("<li><code>%s</code> %s</li>" % (esc(s.show_mapping(s.mappings[m])),
                     "in force" if m in s.force else "proposed, %d violations" % bad))
        w.append("</ul>")
    else:
        w.append("<p>None.</p>")
    w.append('<h2 id="log">Log</h2><div class="wide"><table><tr><th scope="col">Record</th><th scope="col">When</th>'
             '<th scope="col">Who</th><th scope="col">Update</th><th scope="col">Command</th><th scope="col">State</th></tr>')
    for e in s.records:
        for number, c, _ in e["lines"]:
            state = ("done" if s.items[number].state == "stands" else s.items[number].state) if number else ""
            w.append('<tr><td class="n">%d</td><td>%s</td><td>%s</td><td class="n">%s</td><td><code>%s</code></td><td>%s</td></tr>'
                     % (e["at"], esc(e["time"]), esc(e["curator"]), number or "", esc(doer.line(c)), state))
    w.append("</table></div></body></html>")
    return w

"""Values that look like markup, commands, numbers or unknowns, or that change the direction; and requests that no page sends."""
import http.client
import json
import os
import subprocess

import server

VALUES = ['<img src=x onerror="document.title=1"><script>alert(1)</script>', 'a"b\\c, d") ; undo 1', "abc\u202etxt.exe\u200f", "9007199254740993",
          '" spaced "', "=cmd|'/C calc'!A0", "?1.1x", '"?6.1"', "\u00e9\u4e2d\U0001f600", "null", "constructor", "{\"digits\":\"12345678901234567890\"}"]


def hostile_values_stay_values(stage):
    served = stage.serve()
    ann = stage.page(served, "ann", "tables/Thing")
    for number, value in enumerate(VALUES):
        ann.click("[data-key=add]")
        ann.type("#field0", str(number))
        ann.type("#field1", value)
        ann.click("#dialog form button.main")
        ann.until("value %d is in" % number, "document.querySelectorAll('.rows tbody tr').length === %d && !document.querySelector('#dialog').open" % (number + 1))
    there = [json.loads(line)["row"]["text"] for line in served.says("export Thing --json").splitlines()]
    wanted = [int(v) if v.isdigit() else v.strip('"') if v.startswith('"') else v for v in VALUES]
    assert there == wanted, (there, wanted)
    ann.until("no markup came of it", "!document.querySelector('#main img, #main script')")
    ann.sees(".rows", "U+202E")
    ann.sees(".rows", "9007199254740993")
    ann.sees(".rows", "12345678901234567890")
    stage.picture(ann, "hostile")
    # each can be opened, changed to itself, and deleted
    for number in range(len(VALUES)):
        ann.click(".rows tbody tr:first-child .open")
        ann.sees("#details dl", "code %d" % number)
        ann.click("#details button", "Change")
        ann.find("#field1")
        ann.press("Enter")
        ann.sees("#dialog", "Nothing changes")
        ann.press("Escape")
        ann.click("#details button.danger")
        ann.sees("#dialog", "1 row goes")
        ann.click("#dialog button.main")
        ann.until("value %d is gone" % number, "document.querySelectorAll('.rows tbody tr').length === %d" % (len(VALUES) - number - 1))


def a_line_feed_in_a_value_is_kept(stage):
    served = stage.serve()
    served.says('insert Thing(1, "two\\nlines\\u{7}")')
    ann = stage.page(served, "ann", "tables/Thing")
    ann.click(".rows .open")
    ann.click("#details button", "Change")
    ann.type("#field0", "2")
    ann.press("Enter")
    ann.sees(".rows", "2 two")
    assert 'Thing(2, "two\\nlines\\u{7}")' in served.says("log"), served.says("log")


def no_text_becomes_code(stage):
    served = stage.serve()
    ann = stage.page(served, "ann")
    for words in ("'TrustedHTML'", "'TrustedScript'", "Function constructor"):
        stage.allow(words)
    stage.allow("Content Security Policy")
    assert ann.js("(() => { try { document.body.innerHTML = '<b>'; return 'set'; } catch (e) { return e.name; } })()") == "TypeError"
    ann.js("(() => { const s = document.createElement('style'); s.textContent = 'body { color: red }'; document.head.append(s); })()")
    assert ann.js("getComputedStyle(document.body).color") != "rgb(255, 0, 0)"
    ann.js("setTimeout(() => { try { Function('1'); window.made = 'code'; } catch (e) { window.made = e.name; } })")
    ann.until("no code is made of text", "window.made && window.made !== 'code'")
    assert ann.js("fetch('https://example.org/').then(() => 'sent', e => e.name)") == "TypeError"


def the_files_of_the_server_are_closed(stage):
    served = stage.serve()
    ann = stage.page(served, "ann")
    for line in ("load Thing /etc/hostname", "export Thing --to " + served.file, "try load Thing /etc/hostname --create"):
        fault = ann.js("import('./link.js').then(m => m.link.ask(%s)).then(() => 'done', e => e.reply.words)" % json.dumps(line))
        assert fault == "files are closed", (line, fault)
    assert served.says("status").startswith("museum.yt")


def other_sites_do_not_get_in(stage):
    served = stage.serve()
    upgrade = {"Connection": "Upgrade", "Upgrade": "websocket", "Sec-WebSocket-Version": "13", "Sec-WebSocket-Key": "dGhlIHNhbXBsZSBub25jZQ=="}
    def status(method, path, headers):
        line = http.client.HTTPConnection("127.0.0.1", served.port, timeout=20)
        line.request(method, path, headers=headers)
        reply = line.getresponse()
        return reply.status, dict(reply.getheaders())
    assert status("GET", "/yt", dict(upgrade, Origin="http://elsewhere.example"))[0] == 403
    assert status("GET", "/yt", dict(upgrade, Origin=served.url.rstrip("/")))[0] == 101
    code, headers = status("GET", "/", {})
    assert code == 200 and headers["Content-Security-Policy"] == "frame-ancestors 'none'" and headers["X-Content-Type-Options"] == "nosniff", headers
    for path in ("/serve", "/../serve", "/%2e%2e/serve", "/connection"):
        assert status("GET", path, {})[0] in (301, 400, 404), (path, status("GET", path, {}))


def a_login_gives_the_name(stage):
    served = stage.serve()
    def said(line, login, **environment):
        words = [os.path.join(server.SHARE, "connection"), server.YT, served.file] + (["login"] if login else [])
        done = subprocess.run(words, input=line, capture_output=True, text=True, env=dict(PATH=os.environ["PATH"], **environment))
        return json.loads(done.stdout.splitlines()[0])
    assert said("status\n", True, HTTP_X_REMOTE_USER="ann", QUERY_STRING="as=bob")["curator"] == "ann"
    assert said("status\n", False, HTTP_X_REMOTE_USER="ann", QUERY_STRING="as=bob")["curator"] == "bob"
    assert said("status\n", False)["curator"] == "someone"
    assert said("status\n", True, QUERY_STRING="as=bob")["words"] == "nobody is logged in"
    assert said("status\n", False, QUERY_STRING="as=$(touch x);'\"")["curator"].startswith("__touch_x_")


STORIES = [hostile_values_stay_values, a_line_feed_in_a_value_is_kept, no_text_becomes_code, the_files_of_the_server_are_closed,
           other_sites_do_not_get_in, a_login_gives_the_name]

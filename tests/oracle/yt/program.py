"""The program: words, a script, a shell."""
import os
import re
import sys

from . import text as T
from .helping import USAGE, VERSION, help_text
from .replies import DAMAGED, MEMORY, READ, REFUSED, SPENT, WAITS, WORDS, WRITE, Reply, fault_reply
from .workspace import Workspace


def curator(name):
    n = re.sub(r"[^A-Za-z0-9_]", "_", name or "")
    if not n:
        return "someone"
    return n if re.match(r"[A-Za-z_]", n) else "_" + n


def is_text(word):
    """Whether a word of the command line is UTF-8; here, bytes that are not UTF-8 are surrogates."""
    return not any("\udc80" <= letter <= "\udcff" for letter in word)


def wants_json(argv):
    """Whether --json stands in front of the command, in words that may have faults."""
    i, files = 0, 0
    while i < len(argv) and files < 2:
        if argv[i] == "--json":
            return True
        files += not argv[i].startswith("-")
        i += 2 if argv[i] in ("--as", "--wait") else 1
    return False


def words_of(argv):
    """(options, file, command or None) or a usage fault."""
    opts, i, path = {}, 0, None
    while i < len(argv):
        w = argv[i]
        if path is None and w in ("-h", "--help"):
            return {"help": True}, None, None
        if path is None and w in ("-V", "--version"):
            return {"version": True}, None, None
        if w in ("--json", "--keep-going", "--no-files"):
            opts[w[2:]] = True
        elif w in ("--as", "--wait"):
            i += 1
            if i == len(argv):
                raise T.Fault("%s takes a value" % w)
            opts[w[2:]] = argv[i]
        elif w.startswith("--as=") or w.startswith("--wait="):
            k, _, v = w[2:].partition("=")
            opts[k] = v
        elif w.startswith("-") and w != "-":
            raise T.Fault("there is no option %s" % w, None, T.mean(w, ["--json", "--as", "--wait", "--keep-going", "--no-files",
                                                                      "--help", "--version"]) or "options of a command stand behind it")
        elif path is None:
            path = w
        else:
            break
        i += 1
    if path is None:
        raise T.Fault("a file is missing", None, USAGE)
    if "wait" in opts and not re.fullmatch(r"[0-9]{1,4}", opts["wait"]):
        raise T.Fault("--wait takes a number of seconds, 0 to 9999")
    if "as" in opts and not re.fullmatch(r"[A-Za-z_][A-Za-z0-9_]*", opts["as"]):
        raise T.Fault("--as takes a name: letters, digits and _")
    return opts, path, (" ".join(argv[i:]) if i < len(argv) else None)


def next_lines(count):
    """(bytes, number of lines): this number of lines of standard input, or as many as there are."""
    out, n = [], 0
    while n < count:
        raw = sys.stdin.buffer.readline()
        if not raw:
            break
        n += 1
        if count <= 1000000:
            out.append(raw)
    return b"".join(out), n


STOPS = {WORDS, REFUSED, READ, WRITE, MEMORY, DAMAGED, SPENT}


def main(argv):
    out, err = sys.stdout.buffer, sys.stderr.buffer

    def fault(words, hint=None):
        words, hint = T.escaped(words), hint and T.escaped(hint)
        if wants_json(argv):
            out.write((Reply(WORDS, [], dict([("reply", "fault"), ("words", words)] +
                                             ([("hint", hint)] if hint else []))).json()[0] + "\n").encode("utf-8", "replace"))
        else:
            err.write(("yt: %s\n" % words + ("  %s\n" % hint if hint else "")).encode("utf-8", "replace"))
        return WORDS

    for number, word in enumerate(argv, 1):
        if not is_text(word):
            return fault("word %d is not UTF-8" % number)
    if os.environ.get("YT_TIME") and not re.fullmatch(r"\d{4}-\d\d-\d\dT\d\d:\d\d:\d\dZ", os.environ["YT_TIME"]):
        return fault("YT_TIME is no time of the form 2026-11-30T09:00:00Z")
    try:
        opts, path, command = words_of(argv)
    except T.Fault as f:
        return fault(f.words, f.hint)
    if "help" in opts:
        out.write(("\n".join(help_text(None)) + "\n").encode())
        return 0
    if "version" in opts:
        out.write((VERSION + "\n").encode())
        return 0
    if path in T.VERBS and not os.path.exists(path):
        return fault("the file comes first", "yt FILE %s" % " ".join(argv[argv.index(path):]))
    who = curator(opts.get("as") or os.environ.get("YT_CURATOR") or os.environ.get("USER"))
    ws = Workspace(path, who, int(opts.get("wait", "10")), "no-files" in opts, "json" in opts)

    def give(reply, number):
        try:
            if "json" in opts:
                if number is not None and reply.obj.get("reply") == "fault":
                    reply.obj["line"] = number
                out.write("".join(x + "\n" for x in reply.json()).encode("utf-8", "replace"))
            elif reply.obj.get("reply") == "fault":
                words = "" if number is None else "line %d%s" % (number, ", " if "column" in reply.obj else ": ")
                err.write(("yt: %s%s\n" % (words, "\n".join(reply.lines))).encode("utf-8", "replace"))
            else:
                out.write("".join(x + "\n" for x in reply.lines).encode())
            out.flush()
            err.flush()
            return reply.status
        except OSError:
            return WRITE

    def unread(e):
        words = "cannot read standard input: %s" % (e.strerror or "fault").lower()
        return give(Reply(READ, [words], {"reply": "fault", "words": words}), None)

    if command is not None:
        if "\n" in command:
            return fault("a command is one line")
        data = None
        try:
            if T.lines_of(command):
                data = next_lines(T.lines_of(command))
            elif T.reads_input(command):
                data = (sys.stdin.buffer.read(), 0)
        except OSError as e:
            return unread(e)
        reply = ws.command(command, data)
        return give(reply, None) if reply else 0
    terminal = sys.stdin.isatty()
    worst, number, after, asked = 0, 0, 0, False
    while True:
        if terminal:
            out.write(b"yt> ")
            out.flush()
        try:
            raw = sys.stdin.buffer.readline()
        except OSError as e:
            return unread(e)
        if not raw:
            break
        number += after + 1
        data, after = None, 0
        count = T.lines_of(raw.decode("utf-8", "replace").lstrip("\ufeff"))
        if count:
            try:
                data = next_lines(count)
            except OSError as e:
                return unread(e)
            after = data[1]
        try:
            line = raw.decode().rstrip("\n")
        except UnicodeDecodeError as e:
            reply = fault_reply(T.Fault("the line is not UTF-8, at byte %d of it" % (e.start + 1)), "")
        else:
            if number == 1 and line.startswith("\ufeff"):
                line = line[1:]
            reply = ws.command(line, data)
        if reply is None:
            continue
        if reply.obj.get("reply") == "quit":
            break
        status = give(reply, None if terminal else number)
        if status in STOPS and not terminal:
            if "keep-going" not in opts:
                return status
            worst = worst if worst in STOPS else status
        elif status == WAITS and reply.obj.get("reply") == "change":
            asked = True
    if asked and not terminal and worst == 0:
        last = ws.command("status")
        if last is None or last.obj.get("waits", True):
            return WAITS
    return 0 if terminal else worst

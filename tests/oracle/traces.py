"""The text of a trace: one line of compact JSON for each entry of a history."""
import json

from .printing import choice_text, tuple_text


def compact(value):
    return json.dumps(value, ensure_ascii=False, sort_keys=True, separators=(",", ":")).encode()


def cause_object(cause):
    """A conflict with the writer, or a dependence on an update."""
    kind, reader, read, other = cause[:4]
    return {"kind": kind, "reader": reader, "read": read, "writer" if kind == "conflict" else "on": other}


def write_text(relations, write):
    insertion, t = write
    return (b"+" if insertion else b"-") + tuple_text(relations, t, inner=True)


def entry_line(relations, entry):
    kind = entry["event"]
    line = {"event": kind, "update": entry["update"]}
    if kind == "stepped":
        line["attempt"] = entry["attempt"]
        line["writes"] = [write_text(relations, write).decode() for write in entry["writes"]]
    if kind in ("stepped", "withdrawn"):
        line["causes"] = [cause_object(cause) for cause in entry["causes"]]
        line["committed"] = entry["committed"]
    if kind in ("stepped", "delivered", "answered"):
        line["status"] = entry["standing"][0]
    if kind == "answered":
        line["choice"] = choice_text(relations, entry["choice"]).decode()
    return compact(line)


def trace_text(relations, history):
    return b"trace %d\n" % len(history) + b"".join(entry_line(relations, entry) + b"\n" for entry in history)

"""What leaves the workspace: dump, export, graph, page."""
import json
import os

from . import text as T
from .databases import write_database
from .dumps import dump_text
from .files import FileFault
from .pictures import graph_dot, page_html
from .replies import DONE, WRITE, Reply


def write_text(path, text):
    with open(path, "wb") as f:
        f.write(text.encode())


class Sending:
    """Sends texts to a file or to the output."""

    def sent(self, text, opts, kind):
        """Sends a text to --to FILE, or to the output; a database to --sqlite FILE."""
        if "sqlite" in opts:
            return self.wrote(opts["sqlite"], "\n".join(text) + "\n", write_database)
        if "to" in opts:
            return self.wrote(opts["to"], "\n".join(text) + "\n", write_text)
        return Reply(DONE, text, {"reply": kind, "text": "\n".join(text) + "\n"})

    def wrote(self, path, text, write):
        if os.path.exists(path) and os.path.samefile(path, self.ws.path):
            raise FileFault(WRITE, "cannot write %s: it is the workspace" % self.ws.say(path))
        try:
            write(path, text)
        except OSError as e:
            raise FileFault(WRITE, "cannot write %s: %s" % (self.ws.say(path), (e.strerror or "fault").lower()))
        return Reply(DONE, ["wrote %s" % T.escaped(path)], {"reply": "wrote", "file": path})

    def do_graph(self, cmd):
        return self.sent(graph_dot(self.space), cmd[-1], "dot")

    def do_page(self, cmd):
        return self.sent(page_html(self), cmd[-1], "page")

    def do_dump(self, cmd):
        return self.sent(dump_text(self.space).rstrip("\n").split("\n"), cmd[-1], "session")

    def do_export(self, cmd):
        s, opts = self.space, cmd[-1]
        if sum(k in opts for k in ("csv", "sql", "json", "sqlite")) > 1 or "sqlite" in opts and "to" in opts:
            raise T.Fault("one of --csv, --sql and --json", None, "or --sqlite FILE alone" if "sqlite" in opts else None)
        rels = [cmd[1]] if cmd[1] is not None else list(range(len(s.schema.relations)))
        if "sql" in opts or "sqlite" in opts:
            return self.sent(self.sql(rels), opts, "sql")
        if "json" in opts:
            out = []
            for r in rels:
                name, cols = s.schema.relations[r]
                for t in s.facts.relation(r):
                    row = {c: self.json_value(s.named_value(v)) for (c, _), v in zip(cols, t[1])}
                    out.append(json.dumps({"relation": name, "row": row}, ensure_ascii=False, separators=(",", ":")))
            return self.sent(out, opts, "rows")
        if len(rels) != 1:
            raise T.Fault("csv has one table: export RELATION", None, "or export --sql, export --json", 3)
        name, cols = s.schema.relations[rels[0]]
        out = [",".join(c for c, _ in cols)]
        for t in s.facts.relation(rels[0]):
            out.append(",".join(T.csv_cell(v[1].decode()) if v[0] == 1 else T.show_value(s.named_value(v)) for v in t[1]))
        return self.sent(out, opts, "csv")

    def sql(self, rels):
        s = self.space
        ident = lambda x: '"%s"' % x
        text = lambda b: "'" + b.replace("'", "''") + "'"
        out, unknown = ["BEGIN;"], []
        for r in rels:
            name, cols = s.schema.relations[r]
            rows = s.facts.relation(r)
            kinds = ["BIGINT" if rows and all(t[1][i][0] != 1 for t in rows) and any(t[1][i][0] == 0 for t in rows) else "TEXT"
                     for i in range(len(cols))]
            out.append("CREATE TABLE %s (yt_row BIGINT PRIMARY KEY, %s);" % (
                ident(name), ", ".join("%s %s" % (ident(c), k) for (c, _), k in zip(cols, kinds))))
            for n, t in enumerate(rows, 1):
                cells = []
                for (c, _), kind, v in zip(cols, kinds, t[1]):
                    if v[0] == 2:
                        cells.append("NULL")
                        unknown.append((name, n, c, T.show_value(s.named_value(v))))
                    elif kind == "BIGINT":
                        cells.append(str(v[1]))
                    else:
                        cells.append(text(v[1].decode() if v[0] == 1 else str(v[1])))
                out.append("INSERT INTO %s VALUES (%d, %s);" % (ident(name), n, ", ".join(cells)))
        out.append('CREATE TABLE yt_unknown (yt_relation TEXT, yt_row BIGINT, yt_column TEXT, yt_name TEXT);')
        for rel, n, c, u in unknown:
            out.append("INSERT INTO yt_unknown VALUES (%s, %d, %s, %s);" % (text(rel), n, text(c), text(u)))
        return out + ["COMMIT;"]

    def do_help(self, cmd):
        return self.ws.do_help(cmd)

    def do_quit(self, cmd):
        return Reply(DONE, [], {"reply": "quit"})

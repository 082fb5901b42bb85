"""The verbs of the commands of yt, their options, and the words that others use for them."""


VERBS = ["relation", "mapping", "adopt", "drop", "insert", "delete", "replace", "answer", "undo", "redo", "try", "load",
         "fold", "show", "ask", "why", "questions", "violations", "log", "status", "graph", "page", "export", "dump", "help",
         "quit"]
CHANGES = {"relation", "mapping", "adopt", "drop", "insert", "delete", "replace", "answer", "undo", "redo", "load", "fold"}
OPTIONS = {      # verb: {option: None for a flag, otherwise the kind of its value}
    "insert": {"only": None, "steps": "number"}, "delete": {"only": None, "cascade": None, "steps": "number"},
    "replace": {"only": None, "cascade": None, "steps": "number"}, "answer": {"at": "number"}, "undo": {"answers": None},
    "adopt": {"steps": "number"},
    "load": {"create": None, "empty": "word", "separator": "word", "text": "word", "unknowns": None, "steps": "number",
             "null": "word", "columns": "word", "lines": "number"},
    "show": {"limit": "number", "unknowns": None, "from": "number", "like": "word"}, "ask": {"unknowns": None, "limit": "number"}, "why": {"dot": None},
    "questions": {"like": "word", "limit": "number", "mine": None}, "violations": {"limit": "number"}, "log": {"limit": "number", "since": "number"},
    "export": {"csv": None, "sql": None, "json": None, "to": "word"}, "page": {"to": "word"},
    "graph": {"to": "word"}, "dump": {"to": "word"}}
UNTOLD = {"export": {"sqlite": "word"}}  # options that no fault lists
RECORDS = {"at", "since", "still"}       # options that take the number of a record
for _verb in CHANGES:
    OPTIONS.setdefault(_verb, {})["still"] = "number"
SAME = {"add": "insert", "put": "insert", "remove": "delete", "del": "delete", "rm": "delete", "update": "replace",
        "set": "replace", "change": "replace", "select": "ask", "query": "ask", "repair": "adopt", "fix": "adopt",
        "withdraw": "undo", "revert": "undo", "rollback": "undo", "import": "load", "check": "violations",
        "lint": "violations", "explain": "why", "history": "log", "tables": "status", "ls": "status", "save": "dump",
        "diff": "try", "create": "relation", "table": "relation", "rule": "mapping", "expand": "answer", "unify": "answer"}

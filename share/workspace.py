"""The man page and the completions of yt, made of the tables of its help (crates/ws_help, crates/ws_command) and of words.tsv."""
import re
from pathlib import Path

CRATES = Path(__file__).resolve().parent.parent / "crates"
TEXT = r'"((?:[^"\\]|\\.)*)"'
GROUPS = {"RULES": "Tables and rules", "CHANGES": "Changes", "LOOKING": "Looking", "OUT": "Out"}
WORDS = {"empty": "new text skip refuse", "separator": "tab"}    # what some options of commands take
FILES_TAKEN = ("to", "sqlite")                                   # the options that take a file
UNTOLD = {"export": ("sqlite", "--sqlite FILE makes a database of SQLite with the tables of --sql in FILE.")}    # not in the help


def source(crate, file):
    return (CRATES / crate / "src" / file).read_text()


def plain(literal):
    """The text that a literal of Rust stands for."""
    return re.sub(r"\\(.)", lambda m: {"n": "\n"}.get(m[1], m[1]), literal)


def function(text, name):
    """The body of a function of one `match` over verbs."""
    return re.search(rf"fn {name}\(.*?\n(?:    )?}}\n", text, re.S)[0]


def texts(name):
    """What a function of the help's table gives for each verb."""
    arms = re.findall(rf"Verb::(\w+) =>\s*{TEXT}", function(source("ws_help", "texts.rt"), name))
    return {verb.lower(): plain(text) for verb, text in arms}


def details():
    """The further lines of each verb, as one paragraph."""
    text = source("ws_help", "details.rt")
    named = {name: plain(said) for name, said in re.findall(rf"const (\w+): &str =\s*{TEXT};", text)}
    arms = re.findall(r"((?:Verb::\w+(?: \| )?)+) => (\w+|\"\"),", function(text, "details_of"))
    told = {verb.lower(): " ".join(named.get(name, "").split())
            for verbs, name in arms for verb in re.findall(r"Verb::(\w+)", verbs)}
    return {verb: ". ".join([told.get(verb, ""), *UNTOLD.get(verb, ())[1:]]) for verb in FORMS}


def options():
    """The options of each verb."""
    text = source("ws_command", "options.rt")
    names = dict(re.findall(rf"Opt::(\w+) => {TEXT}", function(text, "name")))
    lists = {name: re.findall(r"Opt::(\w+)", of) for name, of in re.findall(r"const (\w+): \[Opt; \d+\] =\s*\[(.*?)\];", text, re.S)}
    arms = re.findall(r"((?:Verb::\w+(?:\s*\| )?)+)\s*=>\s*&(\w+|\[\])", function(text, "options"))
    return {verb.lower(): [names[o] for o in lists.get(name, [])] + [*UNTOLD.get(verb.lower(), ())[:1]]
            for verbs, name in arms for verb in re.findall(r"Verb::(\w+)", verbs)}


def groups():
    """Each group of the help with its verbs, in order."""
    text = source("ws_help", "pages.rt")
    for name, verbs in re.findall(r"const (\w+): \[Verb; \d+\] =\s*\[(.*?)\];", text, re.S):
        yield GROUPS[name], [verb.lower() for verb in re.findall(r"Verb::(\w+)", verbs)]


def statuses():
    """The statuses as the help tells them."""
    told = re.search(rf"const STATUSES: &str = {TEXT};", source("ws_help", "pages.rt"))[1].split("Statuses: ")[1]
    return re.findall(r"(\d+) ([a-z ]+?)(?=, \d|\.)", " ".join(told.split()))


def used():
    """The options that the usage names, each with its value."""
    usage = re.search(rf"const USAGE: &str =\s*{TEXT};", source("ws_help", "pages.rt"))[1]
    return re.findall(r"\[--([a-z-]+) ?([A-Z]*)\]", usage)


FORMS, SHORTS, EXAMPLES = texts("form_of"), texts("short_of"), texts("example_of")
DETAILS, OPTIONS = details(), options()
VERBS = [verb for _, verbs in groups() for verb in verbs]


def letter(entry):
    """The letter of an option that has one."""
    return entry.words if len(entry.words) == 1 else ""


# ---- the man page

def roff(text):
    text = text.replace("\\", "\\e").replace("-", "\\-").replace('"', "\\(dq").replace("`", "\\(ga")
    return "\\&" + text if text[:1] in (".", "'") else text


def sentence(text, more=""):
    return roff(f"{text[0].upper()}{text[1:]}. {more}".rstrip())


def command_item(verb):
    return (f".TP\n.B \"{roff(FORMS[verb])}\"\n{sentence(SHORTS[verb], DETAILS[verb])}\n"
            f".RS\n.PP\n.EX\n{roff(EXAMPLES[verb])}\n.EE\n.RE\n")


def option_item(entry):
    short = f"\\-{letter(entry)}, " if letter(entry) else ""
    value = f" \\fI{entry.value}\\fR" if entry.value else ""
    return f".TP\n.B {short}\\-\\-{roff(entry.name)}{value}\n{sentence(entry.text, entry.more)}\n"


MAN = r'''.TH YT 1 "" "youtopia" "User Commands"
.SH NAME
yt \- a shared workspace of tables with unknown values, in one file
.SH SYNOPSIS
.B yt
[\fIOPTIONS\fR]
.I FILE
[\fICOMMAND\fR ..]
.SH DESCRIPTION
A workspace is one file with tables, mappings between them, and all that was ever said. Several people work on it at once, each
by commands of one line: a command locks the file, reads what is new, is done, and is recorded before the reply is told. A value
may be unknown, such as \fB?12.1\fR. Each update is repaired by the mappings; if more than one repair is possible it waits, and
asks which one is meant. The first relation makes the file.
.PP
Without a command the lines of the standard input are commands, with a prompt at a terminal.
.SH OPTIONS
Options stand before the command, before or after the file. Those of a command stand at its end.
%(options)s.SH COMMANDS
A value is a number, a text between quotes, or an unknown. # begins a comment.
%(commands)s.SH ENVIRONMENT
.TP
.B YT_CURATOR
Who speaks, if \fB\-\-as\fR does not say it. Else it is \fBUSER\fR, else someone.
.TP
.B YT_TIME
Stands for the clock, in the form 2026\-11\-30T09:00:00Z.
.SH EXIT STATUS
A script stops at the first command with the status 2, 3, 5, 6, 7, 12 or 14, and ends with it; each of these, and 13, leaves the
workspace as it was, but for 6: the record may be there then.
%(statuses)s.SH EXAMPLES
.EX
yt museum.yt 'relation Painting(title*, painter)'
yt museum.yt load Painting paintings.csv \-\-empty new
yt museum.yt questions
yt museum.yt < commands
.EE
.SH SEE ALSO
.BR youtopia (1),
.BR yt_live (1)
'''


def man(entries):
    return MAN % {
        "options": "".join(map(option_item, entries)),
        "commands": "".join(f".SS {title}\n" + "".join(map(command_item, verbs)) for title, verbs in groups()),
        "statuses": "".join(f".TP\n.B {number}\n{sentence(text)}\n" for number, text in statuses()),
    }


# ---- completions

def bash(entries):
    own = " ".join("--" + e.name for e in entries)
    valued = "|".join("--" + e.name for e in entries if e.value)
    of_verbs = "".join(f'    {verb}) options="{" ".join("--" + o for o in OPTIONS[verb])}" ;;\n' for verb in VERBS if OPTIONS[verb])
    words = "".join(f'    --{name}) COMPREPLY=($(compgen -W "{said}" -- "$word")); return ;;\n' for name, said in WORDS.items())
    return f'''# Completion of yt for bash, made by share/write.
_yt() {{
  local word=${{COMP_WORDS[COMP_CWORD]}} before=${{COMP_WORDS[COMP_CWORD - 1]}}
  local verbs="{" ".join(VERBS)}"
  local options file= verb= i
  COMPREPLY=()
  for ((i = 1; i < COMP_CWORD; i++)); do
    case $verb${{COMP_WORDS[i]}} in
      {valued}) i=$((i + 1)) ;;
      -*) ;;
      *) if [ -z "$file" ]; then file=${{COMP_WORDS[i]}}; elif [ -z "$verb" ] || [ "$verb" = try ]; then verb=${{COMP_WORDS[i]}}; fi ;;
    esac
  done
  case $verb$before in {valued}) return ;; esac
  case $before in
{words}    {"|".join("--" + name for name in FILES_TAKEN)}) COMPREPLY=($(compgen -f -- "$word")); return ;;
  esac
  case $verb in
    '') options="{own}" ;;
{of_verbs}  esac
  case $word in
    -*) COMPREPLY=($(compgen -W "$options" -- "$word")) ;;
    *)
      if [ -z "$file" ] || [ "$verb" = load ]; then COMPREPLY=($(compgen -f -- "$word"))
      elif [ -z "$verb" ] || [ "$verb" = try ] || [ "$verb" = help ]; then COMPREPLY=($(compgen -W "$verbs" -- "$word")); fi ;;
  esac
}}
complete -F _yt yt
'''


def quoted(text):
    return "'" + text.replace("'", "'\\''") + "'"


def zsh(entries):
    def option(e):
        text = e.text.replace("[", "\\[").replace("]", "\\]")
        if letter(e):
            return "'(- *)'{-%s,--%s}%s" % (letter(e), e.name, quoted(f"[{text}]"))
        return quoted(f"--{e.name}{'=' if e.value else ''}[{text}]" + (f":{e.value.lower()}: " if e.value else ""))
    commands = " ".join(verb + "\\:" + re.sub(r"([ ;:,])", r"\\\1", SHORTS[verb]) for verb in VERBS)
    lines = [option(e) for e in entries] + ["'1:workspace:_files'", quoted(f"2:command:(({commands}))"), "'*:word:_files'"]
    head = "#compdef yt\n# Completion of yt for zsh, made by share/write.\n_arguments -s"
    return head + "".join(" \\\n  " + line for line in lines) + "\n"


def fish(entries):
    lines = ["# Completion of yt for fish, made by share/write.",
             f"function __yt_needs_command\n    not __fish_seen_subcommand_from {' '.join(VERBS)}\nend"]
    for e in entries:
        short = f" -s {letter(e)}" if letter(e) else ""
        lines.append(f"complete -c yt -n __yt_needs_command{short} -l {e.name}{' -x' if e.value else ''} -d {quoted(e.text)}")
    lines += [f"complete -c yt -n __yt_needs_command -a {verb} -d {quoted(SHORTS[verb])}" for verb in VERBS]
    for verb in VERBS:
        for name in OPTIONS[verb]:
            value = f" -x -a {quoted(WORDS[name])}" if name in WORDS else " -r" if name in FILES_TAKEN else ""
            lines.append(f"complete -c yt -n '__fish_seen_subcommand_from {verb}' -l {name}{value}")
    return "\n".join(lines) + "\n"


def differences(entries):
    """What the table of words has otherwise than the usage."""
    wanted = [(e.name, e.value) for e in entries if not letter(e)]
    for name, value in sorted(set(wanted) ^ set(used())):
        yield f"option {name} {value}: {'the usage' if (name, value) in used() else 'the table'} alone has it"


MADE = {"yt.1": man, "yt.bash": bash, "_yt": zsh, "yt.fish": fish}

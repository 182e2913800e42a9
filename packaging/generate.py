#!/usr/bin/env python3
"""Writes the manual page of `ranges` and its completions for bash, zsh and fish, from `ranges --help` and from the rules and the table of
exit statuses in docs/RANGES.md. Run at the top of the project after `make`.

    packaging/generate.py [--check]

With --check nothing is written, and the status is 1 if a file differs from what would be."""
import pathlib
import re
import subprocess
import sys
from dataclasses import dataclass, field
from typing import List, Optional

HERE = pathlib.Path(__file__).resolve().parent
TOP = HERE.parent
EXAMPLES = (
    "ranges check",
    "ranges explain '>=1.2 <2 || 3.x'",
    "ranges within '>=1.3' '^1.2'",
    "git tag | ranges best --tags --skip-invalid '^1.2'",
)
DESCRIPTION = (
    "A version is three numbers, such as `1.2.3`. A pre-release and a build may follow, as in `1.2.3-rc.1+linux`.",
    "A range, such as `>=1.2 <2 || 3.x`, says which versions a package accepts. Its grammar is npm's by default; you can also choose the normalized "
    "grammar, or the strict grammar of package specifiers. A tag, such as `latest`, is a name that a registry gives a version.",
    "By npm's rule a pre-release between the bounds matches only if a bound is itself a pre-release of the same three numbers. With `--pre` every "
    "pre-release between the bounds matches.",
    "The canonical form of a range writes each alternative in one standard way, such as `^1.2.0` for `>=1.2 <2`.",
    "`-` stands for standard input. `check` reads it as a file; a command that takes a list reads every line; any other command reads one line. After "
    "`--` no argument is an option, even if it begins with a hyphen.",
)
ENVIRONMENT = (
    ("NO_COLOR", "If it is set and not empty, `ranges` prints no colours, unless you give `--color=always`."),
    ("TERM", "If it is `dumb`, `ranges` prints no colours, unless you give `--color=always`."),
)
PROGRAM = TOP / "crates/ranges/out/ranges"
PAGE = TOP / "docs/RANGES.md"
LEVELS = ("off", "warn", "error")
# The options that may be given several times.
REPEATED = ("exclude", "package", "range", "rule")


@dataclass
class Option:
    name: str
    help: str
    short: Optional[str] = None
    value: Optional[str] = None
    choices: List[str] = field(default_factory=list)

    def names(self):
        return [f"-{self.short}"] * bool(self.short) + [f"--{self.name}"]

    def values(self):
        """The values that are completed."""
        if self.name == "rule":
            return [f"{name}={level}" for name in rules() for level in LEVELS]
        return self.choices


@dataclass
class Command:
    name: str
    help: str
    usage: str
    arguments: list
    options: List[Option]
    aliases: List[str]

    def names(self):
        return [self.name, *self.aliases]

    def takes_files(self):
        return any(term.startswith(("<FILE", "[FILE")) for term, _ in self.arguments)

    def takes_folder(self):
        return any(term.startswith(("<FOLDER", "[FOLDER")) for term, _ in self.arguments)

    def words(self):
        """What the first argument may be, if it is one of several words."""
        first = self.arguments[0][1] if self.arguments else ""
        found = re.search(r"\[possible values: ([^]]*)\]", first)
        return found.group(1).split(", ") if found else []


def help_of(*arguments):
    return subprocess.run([PROGRAM, *arguments, "--help"], capture_output=True, text=True, check=True).stdout


def rows(text, heading):
    """The rows below a heading of a help text, each split into the term and its description."""
    found = re.search(rf"^{heading}:\n((?:  .*\n?)+)", text, re.M)
    return [re.split(r"  +", row.strip(), maxsplit=1) for row in found.group(1).splitlines()] if found else []


def option(term, description):
    choices = re.search(r" ?\[possible values: ([^]]*)\]", description)
    value = re.search(r"<([\w,=]+)>", term)
    short = re.match(r"-(\w),", term)
    return Option(
        name=re.search(r"--([a-z-]+)", term).group(1),
        help=description.replace(choices.group(), "") if choices else description,
        short=short and short.group(1),
        value=value and value.group(1),
        choices=choices.group(1).split(", ") if choices else [],
    )


def command(name, description):
    text = help_of(name)
    usage = re.search(r"^Usage: ranges (.*)", text, re.M).group(1)
    description, _, aliases = description.removesuffix("]").partition(" [alias: ")
    options = [option(*row) for row in rows(text, "Options")]
    return Command(name, description, usage, rows(text, "Arguments"), options, aliases.split(", ") if aliases else [])


def rules():
    """The rules, each with what the page says of it."""
    return dict(re.findall(r"^### ([a-z0-9-]+)\n\n((?:.+\n)+)", PAGE.read_text(), re.M))


def statuses():
    """The exit statuses, each with its meaning."""
    table = PAGE.read_text().split("| Status | Means |\n|---|---|\n")[1].split("\n\n")[0]
    return [[cell.strip() for cell in row.strip("|").split("|")] for row in table.splitlines()]


def roff(text):
    """The text for roff: what stands between backticks is bold."""
    return re.sub("`([^`]*)`", r"\\fB\1\\fR", text.replace("\\", "\\e").replace("-", "\\-").replace("'", "\\(aq"))


def bold(text):
    return f"\\fB{roff(text)}\\fR"


def manual(description, commands):
    lines = [".TH RANGES 1", ".SH NAME", f"ranges \\- {roff(description)}", ".SH SYNOPSIS", ".B ranges", "\\fICOMMAND\\fR [\\fIARGUMENT\\fR]..."]
    lines += [".SH DESCRIPTION", *("\n.PP\n".join(map(roff, DESCRIPTION))).split("\n"), ".SH COMMANDS"]
    for each in commands:
        alias = f" Its other name is ranges {', '.join(each.aliases)}." if each.aliases else ""
        lines += [f".SS {bold('ranges ' + each.usage.replace('[OPTIONS] ', ''))}", roff(f"{each.help}.{alias}")]
        for term, text in each.arguments:
            name = re.search("[A-Z]+", term).group()
            lines += [".TP", f"\\fI{name}\\fR", roff(text) + "."]
    lines.append(".SH OPTIONS")
    for name, text in sorted({(each.name, each.help) for one in commands for each in one.options}):
        having = [(one.name, each) for one in commands for each in one.options if (each.name, each.help) == (name, text)]
        found = having[0][1]
        choices = f" ({', '.join(found.choices)})" if found.choices else ""
        only = "" if len(having) == len(commands) else f" Only for {', '.join(one for one, _ in having)}."
        names = f"-{found.short}, --{name}" if found.short else f"--{name}"
        lines += [".TP", bold(names) + (f" \\fI{found.value}\\fR" if found.value else ""), roff(f"{found.help}{choices}.{only}")]
    lines += [".SH RULES", roff('`--rule NAME=LEVEL` sets one of these to `off`, `warn` or `error`, and `--rule all=LEVEL` sets all of them. The section "ranges" of a manifest sets them too.'), ".nf"]
    lines += [".in +4", roff('{"ranges": {"rules": {"any-zero": "off", "no-match": "error"}}}'), ".in", ".fi"]
    for name, text in rules().items():
        lines += [".TP", bold(name), roff(" ".join(re.sub(r"\[(\w+)\]\([^)]*\)", r"\1", text).split()))]
    lines.append(".SH EXIT STATUS")
    for status, meaning in statuses():
        lines += [".TP", bold(status), roff(meaning) + "."]
    lines.append(".SH ENVIRONMENT")
    for name, meaning in ENVIRONMENT:
        lines += [".TP", bold(name), roff(meaning)]
    lines += [".SH EXAMPLES", ".nf", *map(roff, EXAMPLES), ".fi", ".SH SEE ALSO", ".BR npmver (1)"]
    return "\n".join(lines) + "\n"


def bash(commands):
    def names_of(command):
        return " ".join(name for one in command.options for name in one.names())

    cases = [f'        {"|".join(each.names())}) options="{names_of(each)}" ;;' for each in commands]
    with_files = "|".join(name for each in commands if each.takes_files() for name in each.names())
    with_folder = "|".join(name for each in commands if each.takes_folder() for name in each.names())
    words = [
        f'        {"|".join(each.names())}) case $before in {"|".join(each.words())}) ;; *) COMPREPLY=($(compgen -W "{" ".join(each.words())}" -- "$word")) ;; esac ;;'
        for each in commands
        if each.words()
    ]
    having = {one.name: one for each in commands for one in each.options if one.choices}.values()
    values = [f'        {"|".join(it.names())}) COMPREPLY=($(compgen -W "{" ".join(it.choices)}" -- "$word")); return ;;' for it in having]
    names = " ".join(name for each in commands for name in each.names())
    values += [
        f'        --rule) COMPREPLY=($(compgen -S = -W "{" ".join(rules())}" -- "$word")); compopt -o nospace 2>/dev/null; return ;;',
        f'        {"|".join(rules())}) COMPREPLY=($(compgen -W "{" ".join(LEVELS)}" -- "$word")); return ;;',
    ]
    return "\n".join([
        "_ranges() {",
        '    local word=${COMP_WORDS[COMP_CWORD]} before=${COMP_WORDS[COMP_CWORD - 1]} options=""',
        "    COMPREPLY=()",
        "    # The words of --OPTION=VALUE are three.",
        '    if [ "$word" = = ]; then word=""; elif [ "$before" = = ]; then before=${COMP_WORDS[COMP_CWORD - 2]}; fi',
        "    case $before in", *values, "    esac",
        '    if [ "$COMP_CWORD" = 1 ]; then',
        f'        COMPREPLY=($(compgen -W "{names} help --help --version" -- "$word"))',
        "        return",
        "    fi",
        "    case ${COMP_WORDS[1]} in", *cases, "    esac",
        '    case $word in -*) COMPREPLY=($(compgen -W "$options" -- "$word")); return ;; esac',
        f"    case ${{COMP_WORDS[1]}} in {with_files})",
        "        compopt -o filenames 2>/dev/null",
        '        mapfile -t COMPREPLY < <(compgen -f -- "$word") ;;',
        f"        {with_folder})",
        "        compopt -o filenames 2>/dev/null",
        '        mapfile -t COMPREPLY < <(compgen -d -- "$word") ;;',
        *words,
        "    esac",
        "}",
        "complete -o default -F _ranges ranges",
        "",
    ])


def zsh(commands):
    def quoted(text):
        return re.sub(r"([\[\]:])", r"\\\1", text.replace("'", "'\\''"))

    lines = ["#compdef ranges", "local -a commands", "commands=("]
    lines += [f"    '{name}:{quoted(each.help)}'" for each in commands for name in each.names()] + [")"]
    lines += ["if (( CURRENT == 2 )); then", "    _describe command commands", "    return", "fi", "case $words[2] in"]
    for each in commands:
        lines.append(f"    {'|'.join(each.names())}) _arguments \\")
        for one in each.options:
            value = f":{one.value}:({' '.join(one.values())})" if one.values() else f":{one.value}:" if one.value else ""
            plus, equals = ("+", "=") if one.value else ("", "")
            short, long = f"-{one.short}{plus}", f"--{one.name}{equals}"
            star = "*" if one.name in REPEATED else ""
            names = f"'(-{one.short} --{one.name})'{{{short},{long}}}'" if one.short else f"'{star}{long}"
            lines.append(f"        {names}[{quoted(one.help)}]{value}' \\")
        if each.words():
            lines += ["        '1: :' \\", f"        '2:{each.arguments[0][0].strip('<>[]')}:({' '.join(each.words())})' \\"]
        kind = "file:_files" if each.takes_files() else "folder:_files -/" if each.takes_folder() else "argument:"
        lines.append(f"        '*:{kind}' ;;")
    return "\n".join([*lines, "esac", ""])


def fish(commands):
    def quoted(text):
        return "'" + text.replace("\\", "\\\\").replace("'", "\\'") + "'"

    lines = ["complete -c ranges -f"]
    for each in commands:
        seen = f"'__fish_seen_subcommand_from {' '.join(each.names())}'"
        for name in each.names():
            lines.append(f"complete -c ranges -n __fish_use_subcommand -a {name} -d {quoted(each.help)}")
        for one in each.options:
            value = f" -x -a {quoted(' '.join(one.values()))}" if one.value else ""
            short = f" -s {one.short}" if one.short else ""
            lines.append(f"complete -c ranges -n {seen}{short} -l {one.name}{value} -d {quoted(one.help)}")
        if each.takes_files():
            lines.append(f"complete -c ranges -n {seen} -F")
        if each.takes_folder():
            lines.append(f"complete -c ranges -n {seen} -a '(__fish_complete_directories)'")
        if each.words():
            words = " ".join(each.words())
            first = f"{seen[1:-1]}; and not __fish_seen_subcommand_from {words}"
            lines.append(f"complete -c ranges -n {quoted(first)} -a {quoted(words)}")
    return "\n".join([*lines, ""])


def main():
    text = help_of()
    commands = [command(*row) for row in rows(text, "Commands") if row[0] != "help"]
    made = {
        "man/ranges.1": manual(text.splitlines()[0], commands),
        "completions/ranges.bash": bash(commands),
        "completions/_ranges": zsh(commands),
        "completions/ranges.fish": fish(commands),
    }
    if sys.argv[1:] == ["--check"]:
        stale = [name for name, made_of in made.items() if (HERE / name).read_text() != made_of]
        for name in stale:
            print(f"packaging/{name} is stale: run packaging/generate.py")
        return 1 if stale else 0
    for name, made_of in made.items():
        (HERE / name).parent.mkdir(exist_ok=True)
        (HERE / name).write_text(made_of)
    return 0


sys.exit(main())

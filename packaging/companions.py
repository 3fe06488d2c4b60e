"""Manual pages and completions of the commands beside the program, made from what each tells at --help."""

import dataclasses
import os
import re
import subprocess
import sys

ENTRY = re.compile(r"  (\S.*?)(?:  +(\S.*))?$")
NAMES = re.compile(r"--?[a-z-]+")
BASH = """# Completion of {name}, for bash.

{function}() {{
    local word=${{COMP_WORDS[COMP_CWORD]}}
    COMPREPLY=()
    case "$word" in
        -*) mapfile -t COMPREPLY < <(compgen -W '{options}' -- "$word") ;;
        *)
            mapfile -t COMPREPLY < <(compgen -W '{words}' -- "$word"; compgen -f -- "$word")
            compopt -o filenames 2>/dev/null
            ;;
    esac
}}

complete -F {function} {name}
"""


@dataclasses.dataclass
class Entry:
    """A place or an option: how it is written, and what it is."""

    written: str
    told: str = ""


@dataclasses.dataclass
class Help:
    """What a command tells of itself."""

    name: str
    usage: str
    paragraphs: list[str]
    places: list[Entry]
    options: list[Entry]

    def choices(self):
        """The words that a place may be, where it is one of some."""
        return [word for place in self.places if place.written.startswith("{") for word in place.written[1:-1].split(",")]


def help_of(name, module, package):
    """What a command tells, its lines so wide that each entry's text stands on one."""
    environment = os.environ | {"COLUMNS": "2000", "PYTHONPATH": str(package)}
    words = [sys.executable, "-B", "-m", module, "--help"]
    return read(name, subprocess.run(words, check=True, env=environment, stdout=subprocess.PIPE, text=True).stdout)


def read(name, text):
    """The parts of a help text."""
    usage, *paragraphs = text.strip("\n").split("\n\n")
    places, options = (entries(paragraphs, title) for title in ("positional arguments:", "options:"))
    kept = [paragraph for paragraph in paragraphs if not paragraph.startswith(("positional arguments:", "options:"))]
    return Help(name, usage.removeprefix(f"usage: {name} "), kept, places, options)


def entries(paragraphs, title):
    """The entries below a title; a text that has no room beside its entry stands on the next line."""
    found = []
    for line in next((paragraph.split("\n")[1:] for paragraph in paragraphs if paragraph.startswith(title)), []):
        if match := ENTRY.match(line):
            found.append(Entry(match[1], match[2] or ""))
        else:
            found[-1].told = f"{found[-1].told} {line.strip()}".strip()
    return found


def page(told, version):
    """The manual page."""
    name = escaped(told.name)
    about = escaped(" ".join(told.paragraphs[0].split()).partition(". ")[0].rstrip("."))
    lines = [f'.TH {name.upper()} 1 "" "mosaic {version}" "User Commands"', ".SH NAME", f"{name} \\- {about[0].lower()}{about[1:]}"]
    lines += [".SH SYNOPSIS", f".B {name}", escaped(told.usage), ".SH DESCRIPTION"]
    for paragraph in told.paragraphs:
        verbatim = paragraph.startswith(" ")
        lines += [".PP", *[".EX"] * verbatim, *map(escaped, paragraph.split("\n")), *[".EE"] * verbatim]
    for title, those in (("ARGUMENTS", told.places), ("OPTIONS", told.options)):
        lines.append(f".SH {title}")
        for entry in those:
            lines += [".TP", f".B {escaped(entry.written)}", escaped(entry.told) or "\\&"]
    return "\n".join([*lines, ".SH SEE ALSO", ".BR mosaic (1)"]) + "\n"


def escaped(text):
    """A line that troff takes as it is."""
    safe = text.replace("\\", "\\e").replace("-", "\\-")
    return "\\&" + safe if safe.startswith((".", "'")) else safe


def bash(told):
    """The completions for bash: options after a hyphen, else a place's words and files."""
    options = [name for entry in told.options for name in NAMES.findall(entry.written)]
    function = "_" + told.name.replace("-", "_")
    return BASH.format(name=told.name, function=function, options=" ".join(options), words=" ".join(told.choices()))


def fish(told):
    """The completions for fish, with the texts of the options."""
    lines = [f"# Completion of {told.name}, for fish.", ""]
    for entry in told.options:
        names = [f"-{'l' if name.startswith('--') else 's'} {name.lstrip('-')}" for name in NAMES.findall(entry.written)]
        value = " -r" if " " in entry.written.split(", ")[-1] else ""
        lines.append(f"complete -c {told.name} {' '.join(names)}{value} -d {quoted(entry.told)}")
    if words := told.choices():
        lines.append(f"complete -c {told.name} -a {quoted(' '.join(words))}")
    return "\n".join(lines) + "\n"


def quoted(text):
    """A word of fish."""
    return "'" + text.replace("\\", "\\\\").replace("'", "\\'") + "'"

"""Reads what `rvcollide --help` and `rvcollide COMMAND --help` print, and CHANGELOG.md, for the scripts of this folder."""
import pathlib
import re
import subprocess
import sys
from typing import NamedTuple

TOP = pathlib.Path(__file__).resolve().parent.parent

# The values that are files, by the names that the help gives them, and those that are folders.
FILES, FOLDERS = ("FILE", "IMAGE", "SCHEDULE", "SOURCE", "TABLE"), ("DIR",)


class Argument(NamedTuple):
    name: str  # ends in ... where there may be several
    text: str


class Option(NamedTuple):
    short: str  # as -h, or nothing
    name: str  # as --harts
    value: str  # as N, or nothing
    text: str


class Help(NamedTuple):
    about: str
    usage: str
    arguments: list
    options: list
    blocks: list  # of each block behind the options its lines


def printed(program, *words):
    """What the program prints. It must end well."""
    try:
        ran = subprocess.run([program, *words], capture_output=True, text=True, timeout=60)
    except (OSError, subprocess.SubprocessError, ValueError) as error:
        sys.exit(f"{program} {' '.join(words)}: it does not run: {error}")
    if ran.returncode:
        sys.exit(f"{program} {' '.join(words)}: it ends with status {ran.returncode}: {ran.stderr.strip()}")
    return ran.stdout


def blocks_of(text):
    """The parts of a text between empty lines, each as its lines."""
    return [block.splitlines() for block in re.split(r"\n\n+", text.strip("\n"))]


def rows(lines):
    """Pairs of what stands before a gap and behind it; a line that begins further to the right goes on with the one before."""
    found = []
    for line in lines:
        pair = re.fullmatch(r" {1,8}(\S.*?)(?: {2,}(\S.*))?", line)
        if pair:
            found.append([pair[1], pair[2] or ""])
        elif found:
            found[-1][1] = f"{found[-1][1]} {line.strip()}".strip()
    return found


def option_of(words, text):
    """An option, of words such as `-h, --help` or `--harts <N>`."""
    short, name, value = re.fullmatch(r"(?:(-\w), )?(--[\w-]+)(?: <(.+)>)?", words).groups()
    return Option(short or "", name, value or "", text)


def help_of(program, *command):
    """The help of a command, or with none of the program."""
    return help_in(printed(program, *command, "--help"))


def help_in(text):
    """The parts of a text as help has it."""
    about, *rest = blocks_of(text)
    made = Help(" ".join(about), "", [], [], [])
    for lines in rest:
        if lines[0].startswith("Usage: "):
            made = made._replace(usage=" ".join(it.strip() for it in lines).removeprefix("Usage: "))
        elif lines[0] == "Arguments:":
            made.arguments.extend(Argument(re.sub(r"[<>]", "", name), said) for name, said in rows(lines[1:]))
        elif lines[0] == "Options:":
            made.options.extend(option_of(words, said) for words, said in rows(lines[1:]))
        else:
            made.blocks.append(lines)
    return made


def groups(program):
    """The groups of commands that the program's help has: of each its head, and its commands with what they do."""
    found = []
    for lines in help_of(program).blocks:
        if lines[0].endswith(":") and all(re.fullmatch(r"  [a-z]+ {2,}\S.*", it) for it in lines[1:]):
            found.append((lines[0].rstrip(":"), [Argument(*it) for it in rows(lines[1:])]))
    return found


def commands(program):
    """The commands, in the order of the program's help, each with what it does."""
    return [it for _, group in groups(program) for it in group]


def version(program):
    """The program's version, as in 0.1.0."""
    name, number = printed(program, "--version").split()
    if name != "rvcollide" or not re.fullmatch(r"\d+\.\d+\.\d+", number):
        sys.exit(f"{program}: it is not rvcollide")
    return number


def releases():
    """The versions that CHANGELOG.md has, the last one first: of each its number, its day, and its changes."""
    found = re.findall(r"(?ms)^## (\d+\.\d+\.\d+), (\d{4}-\d\d-\d\d)$(.*?)(?=^## |\Z)", (TOP / "CHANGELOG.md").read_text())
    return [(number, day, [it[2:].replace("\n  ", " ") for it in re.findall(r"(?m)^- .*(?:\n  .*)*", text)]) for number, day, text in found]


def released(number):
    """The day of a version."""
    days = [day for it, day, _ in releases() if it == number]
    return days[0] if days else sys.exit(f"CHANGELOG.md has no heading '## {number}, YEAR-MONTH-DAY'")

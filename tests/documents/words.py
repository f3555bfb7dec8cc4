"""The words of each command: of the grammar, of the manual page's synopsis and of the completions. Each gives for a
command's name its options, in their order, as pairs of the option and whether it has a value."""

from __future__ import annotations

import re

from tests.documents.contracts import read
from tests.finding import found

# Of a command's name its options, in order, and whether each has a value.
Words = dict[str, list[tuple[str, bool]]]

OPTION = re.compile(r'(text|number|letter|flag) (?:\(codes "(\w+)"\)|(\d+))')


def in_grammar() -> Words:
    """What specs/Grammar.antt lists."""
    grammar = read("crates", "fax_tool", "specs", "Grammar.antt")
    lists = {name: grammar.split(f"\n{name} = ")[1].split("\n\n")[0] for name in ("part", "form_items", "commands")}
    text = re.sub(r"\b(part|form_items)\b", lambda it: lists[it[1]], lists["commands"])
    options: Words = {}
    for command in re.split(r"\(\s*(?=codes \"\w+\",)", text)[1:]:
        name = found(r'codes "(\w+)"', command).group(1)
        options[name] = [
            ("-" + chr(int(letter)) if kind == "letter" else "--" + long, kind != "flag")
            for kind, long, letter in OPTION.findall(command)
        ]
    return options


def in_synopsis(lines: list[str]) -> Words:
    """What the lines of the synopsis have, but for that of the version: an option, and its value beside it if it has
    one."""
    options: Words = {}
    for line in lines:
        if line == "faxpages --version":
            continue
        name, rest = found(r"faxpages (\w+) (.*)", line).groups()
        options[name] = [(option, value != "") for option, value in re.findall(r"(--?\w+)( [^\]\s]+)?", rest)]
    return options


def in_bash() -> Words:
    text = read("completions", "faxpages.bash")
    names = found(r"words='([\w ]+)'", text).group(1).split()
    cases = re.findall(r"^    ([\w |]+)\) echo (-.*) ;;", text, re.M)
    options = {name: given for case, given in cases for name in case.split(" | ")}
    valued = set(re.findall(r"--?\w+", " ".join(re.findall(r"^        (-[-\w| ]+)\)", text, re.M))))
    return {name: [(option, option in valued) for option in options.get(name, "").split()] for name in names}


def in_zsh() -> Words:
    text = read("completions", "_faxpages")
    names = re.findall(r"'(\w+):", text.split("commands=(")[1].split("\n)")[0])
    lists = {f"${name}": text.split(f"\n{name}=(")[1].split("\n)")[0] for name in ("part", "written")}
    cases = text.split("case $command in\n")[1].split("\nesac")[0]
    options: Words = {}
    for name in names:
        case = found(rf"^(?:\w+ \| )?{name}(?: \| \w+)?\)(.*?);;", cases, re.M | re.S).group(1)
        case = re.sub(r"\$\w+", lambda it: lists[it[0]], case)
        options[name] = [(option, value != "") for option, value in re.findall(r"'(--?\w+)\[[^\]]*\](:?)", case)]
    return options


def in_fish() -> Words:
    text = read("completions", "faxpages.fish")
    options: Words = {name: [] for name in found(r"set -l commands ([\w ]+)", text).group(1).split()}
    for line in re.findall(r"__fish_seen_subcommand_from (\w.*)", text):
        option = re.match(r"([\w ]+)' -(l|s) (\w+)( -x)?", line)
        if option:
            names, kind, name, value = option.groups()
            for command in names.split():
                options[command].append((("--" if kind == "l" else "-") + name, value is not None))
    return options

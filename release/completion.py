"""What the shells complete: the words of each program, and the files that complete them for bash, zsh and fish."""

from __future__ import annotations

import argparse
import re
from collections.abc import Iterator
from dataclasses import dataclass

from sefwllon.cli import parser
from sefwllon.markdown import Table, blocks
from sefwllon.pages import cut


@dataclass(frozen=True)
class Option:
    """An option, with the words that it may have."""

    name: str
    values: tuple[str, ...] = ()
    takes: bool = True
    """Whether a value stands behind it."""
    does: str = ""


@dataclass(frozen=True)
class Words:
    """What may stand behind a command, or behind a program that has no commands."""

    options: tuple[Option, ...]
    first: tuple[str, ...] = ()
    """Words that may stand there beside files."""
    does: str = ""


@dataclass(frozen=True)
class Program:
    """A program with its commands; with none it has its own words."""

    name: str
    commands: dict[str, Words]
    own: Words
    files: bool = False
    """Whether files may stand among its words."""


def programs(names: list[str], text: str) -> list[Program]:
    """`sefwllon` by its own words, and these programs by the text of docs/formats."""
    return [front(), *(of_formats(name, text) for name in names)]


def front() -> Program:
    """What `sefwllon` takes."""
    found = next(it for it in parser()._actions if isinstance(it, argparse._SubParsersAction))
    does = {it.dest: it.help or "" for it in found._choices_actions}
    commands = {name: words_of(command, does.get(name, "")) for name, command in found.choices.items()}
    return Program("sefwllon", commands, Words((Option("--help", takes=False), Option("--version", takes=False))), files=True)


def words_of(command: argparse.ArgumentParser, does: str) -> Words:
    """The words of a command."""
    options, first = list[Option](), list[str]()
    for action in command._actions:
        values = tuple(str(it) for it in action.choices or ())
        named = [it for it in action.option_strings if it.startswith("--")]
        if not action.option_strings:
            first += values or alternatives(action.metavar)
        options += [Option(it, values, action.nargs != 0, (action.help or "").replace("%%", "%")) for it in named]
    return Words(tuple(options), tuple(first), does)


def alternatives(told: object) -> list[str]:
    """The words that stand between brackets in what a usage calls a place, as [graph|tree]."""
    found = re.match(r"\[([a-z|]+)\]", told) if isinstance(told, str) else None
    return found[1].split("|") if found else []


def of_formats(name: str, text: str) -> Program:
    """What a proved program takes."""
    tables = [(heading.text, block) for heading, below in cut(blocks(text)) for block in below if isinstance(block, Table)]
    rows = {title: table.rows for title, table in tables if table.head[0] in ("Command", "Option")}
    if name == "dcop":
        known = {option.name: option for option in map(option_of, rows["Options"])}
        commands = {bare(row[0]): Words(tuple(known[it] for it in re.findall(r"--\w+", row[3])), does=row[2].replace("`", "")) for row in rows["Commands"]}
        return Program(name, commands, Words(()))
    return Program(name, {}, Words(tuple(map(option_of, rows.get(f"Words of `{name}`", ())))))


def option_of(row: tuple[str, ...]) -> Option:
    """An option by its row: its name, its values, its default, what it means."""
    return Option(bare(row[0]), tuple(re.findall(r"`(\w+)`", row[1])), does=row[3].replace("`", ""))


def bare(cell: str) -> str:
    return cell.strip("`")


def places(program: Program) -> Iterator[tuple[str, Words]]:
    """Each command with its words, and the program's own by an empty name."""
    yield from program.commands.items()
    if not program.commands:
        yield "", program.own


def bash(program: Program) -> str:
    """The file that completes a program for bash."""
    name = f"_sefwllon_{program.name}"
    values = [(f"{command} {it.name}", it.values) for command, words in places(program) for it in words.options if it.takes]
    found = [(f"option {command}", tuple(it.name for it in words.options)) for command, words in places(program)]
    found += [(f"word {command}", words.first) for command, words in places(program)]
    start = (*program.commands, *(it.name for it in program.own.options))
    return "\n".join([
        f"# Completes {program.name} in bash. It is made by release/completion.py.",
        f"{name}() {{",
        "    local word=${COMP_WORDS[COMP_CWORD]} before=${COMP_WORDS[COMP_CWORD-1]} words='' what=option command=''",
        *(["    compopt -o default 2> /dev/null", "    [[ $word == -* ]] || what=word"] if program.files else []),
        *(["    command=${COMP_WORDS[1]}", "    (( COMP_CWORD == 1 )) && what=command"] if program.commands else []),
        '    case "$command $before" in',
        *(f"        {quoted(place)}) what=value words={quoted(' '.join(words))} ;;" for place, words in values),
        "    esac",
        '    case "$what $command" in',
        *([f"        'command '*) words={quoted(' '.join(start))} ;;"] if program.commands else []),
        *(f"        {quoted(place)}) words={quoted(' '.join(words))} ;;" for place, words in found if words),
        "    esac",
        '    COMPREPLY=($(compgen -W "$words" -- "$word"))',
        "}",
        f"complete -F {name} {program.name}",
        "",
    ])  # fmt: skip


def zsh(program: Program) -> str:
    """The file that completes a program for zsh."""
    command, before = ("$words[2]", "$words[CURRENT-1]") if program.commands else ("", "$words[CURRENT-1]")
    told = [f"#compdef {program.name}", "# It is made by release/completion.py.", "local -a found"]
    if program.commands:
        commands = " ".join(quoted(f"{name}:{words.does}") for name, words in program.commands.items())
        own = " ".join(it.name for it in program.own.options)
        told += ["if (( CURRENT == 2 )); then", f"    found=({commands})", "    _describe command found", f"    compadd -- {own}", "    return", "fi"]
    told.append(f'case "{command} {before}" in')
    for name, words in places(program):
        values = [(it, f"compadd -- {' '.join(it.values)}" if it.values else "_files" if program.files else "true") for it in words.options if it.takes]
        told += [f"    {quoted(f'{name} {it.name}')}) {does}; return ;;" for it, does in values]
    told += ["esac", f'case "{command}" in']
    for name, words in places(program):
        options = " ".join(quoted(f"{it.name}:{it.does}") for it in words.options)
        files = f"[[ $PREFIX != -* ]] && {{ compadd -- {' '.join(words.first)}; _files; return; }}; " if program.files else ""
        told.append(f"    {quoted(name)}) {files}found=({options}); _describe option found ;;")
    return "\n".join([*told, "esac", ""])


def quoted(text: str) -> str:
    return "'" + text.replace("'", "'\\''") + "'"


def fish(program: Program) -> str:
    """The file that completes a program for fish."""
    told = [f"# Completes {program.name} in fish. It is made by release/completion.py."]
    at = f"complete -c {program.name}"
    if program.commands:
        told += [f"{at} -n __fish_use_subcommand -f -l {it.name[2:]}" for it in program.own.options]
    for command, words in places(program):
        where = f" -n '__fish_seen_subcommand_from {command}'" if command else ""
        if command:
            told.append(f"{at} -n __fish_use_subcommand -f -a {command} -d {in_fish(words.does)}")
        if not program.files:
            told.append(f"{at}{where} -f")
        if words.first:
            told.append(f"{at}{where} -a '{' '.join(words.first)}'")
        for it in words.options:
            value = f" -x -a '{' '.join(it.values)}'" if it.values else (" -r" if program.files else " -x") if it.takes else ""
            told.append(f"{at}{where} -l {it.name[2:]}{value} -d {in_fish(it.does)}")
    return "\n".join([*told, ""])


def in_fish(text: str) -> str:
    return "'" + text.replace("\\", "\\\\").replace("'", "\\'") + "'"

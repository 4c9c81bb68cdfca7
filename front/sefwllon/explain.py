"""Refusals of `dcop` in sentences, with the line itself and what to do."""

from __future__ import annotations

import re

from .problem import MOST_NAME, is_name, is_number

TEXT = {
    1: "the first line with words must be `dcop 1` or `dcop 2`",
    2: "the line has none of the forms that a problem has",
    3: "a number was expected: 1 to 19 digits, without sign, point or comma",
    4: "the table names a variable that no earlier line declares",
    5: "the name is already taken",
    6: "the line `end` is missing: it must be the last one",
    8: "words follow after the line `end`",
    9: "the text is longer than 2^28 bytes",
}
PROBLEM = {
    1: "there is no variable",
    2: "a variable has 1 to 1,024 values",
    3: "a table has one to four variables (one or two under `dcop 1`: write `dcop 2`)",
    5: "a variable is twice in the table",
    6: "the number of costs must be the number of choices of values of the table's variables",
    7: "a cost is at most 2^50 = 1125899906842624",
    8: "the sum of the greatest costs of all tables is above 2^62: write smaller costs",
    9: "all tables together have more than 4,194,304 costs: use fewer values or fewer tables",
    10: "there are more than 1,000 variables",
}
REPORT = {
    1: "the line does not have the form that a report needs here",
    2: "a number has not 1 to 19 digits, or is above 2^62",
    3: "a name is not in the problem, or is not that of the next variable",
    4: "the number of cells must be the number of choices of values of the line's variables",
    5: "the report has no certificate: make the report with `--certificate yes` and a method other than plain",
    6: "the report has no line `end`",
    7: "words follow after the report's line `end`",
    8: "a value is not one of its variable's values",
    9: "the certificate is not a log, so there is nothing to replay",
}
LINES = ("goal", "var", "table", "end")
WORDS = {
    1: "no command is given: solve, tree, check, replay, drill, upgrade or edit",
    2: "that is not a command: solve, tree, check, replay, drill, upgrade or edit",
    3: "that is not an option",
    4: "the option needs a value after it",
    5: "the option is given twice",
    6: "a number was expected",
    7: "the number is not in the option's range",
    8: "the option does not have this value",
    9: "the option cannot be used with this command or this method",
    10: "the words are right, but this program is too old for them: build it again",
}
WCSP = {
    1: "a whole number from 0 up was expected",
    2: "the text ends too early: words are missing",
    3: "a function names a variable that does not exist, or names a variable twice",
    4: "a tuple names a value that its variable does not have",
    5: "a function has more than four variables",
    8: "words follow after the last function",
}
EDIT = {
    1: "the line is none of `set`, `fill`, `answer`, `end`",
    2: "a number was expected: 1 to 19 digits",
    3: "there is no table of this number",
    4: "the table does not have this cell, or does not have this number of cells",
    5: "a cost is at most 2^50 = 1125899906842624",
    6: "the sum of the greatest costs of all tables would be above 2^62",
    7: "the line `end` is missing: it must be the last one",
}
EVENTS = {
    "nobody": "names an agent that does not exist",
    "ended": "is of an agent that has already ended",
    "nothing": "takes no message, or takes none from a sender that it names",
    "order": "names its senders in a wrong order",
}


def explain(answer: str, text: str = "", words: list[str] | None = None) -> str:
    """What a refusal says, in sentences."""
    try:
        return explained(answer, text, words)
    except (ValueError, IndexError):
        return "That is not a refusal of dcop."


def explained(answer: str, text: str, words: list[str] | None) -> str:
    told = answer.split()
    match told:
        case ["refused", "words", "at", place, "kind", kind]:
            here = f" (word {place}" + (f", `{words[int(place) - 1]}`" if words and int(place) <= len(words) else "") + ")"
            return f"The words are refused{here}: {WORDS.get(int(kind), 'kind ' + kind)}."
        case ["refused", "text", "line", line, "kind", kind, *rest]:
            return of_text(int(line), int(kind), int(rest[1]) if len(rest) == 2 else 0, text)
        case ["refused", "report", "line", line, "kind", kind]:
            return of_report(int(line), int(kind), text)
        case ["refused", "wcsp", "line", line, "kind", kind, *rest]:
            what = PROBLEM.get(int(rest[1]), "") if len(rest) == 2 else WCSP.get(int(kind), f"kind {kind}")
            return quoted(text, int(line)) + f"The WCSP is refused: {what}."
        case ["refused", "edit", "line", line, "kind", kind]:
            return quoted(text, int(line)) + f"The edit is refused: {EDIT.get(int(kind), 'kind ' + kind)}."
        case ["refused", "wide", "agent", name, "cells", cells, "limit", limit]:
            return (
                f"DPOP would need a table of {int(cells):,} cells at {name}; the limit is {int(limit):,}. "
                "Change the order of the `var` lines, use fewer values or fewer tables, or use dcop_search, cut or adopt."
            )
        case ["refused", "wide", "total", "cells", cells, "limit", limit]:
            return (
                f"DPOP, or one turn of cut (all turns with a certificate), would send {int(cells):,} cells in all; the limit is "
                f"{int(limit):,}. Change the order of the `var` lines, or use fewer values. You can also use cut with a smaller "
                "`--cells` or without a certificate, or use dcop_search or adopt."
            )
        case ["refused", "many", "turns", count, "limit", limit]:
            return (
                f"To keep its tables small, cut would fix several variables and need {int(count):,} turns, one for each choice of "
                f"their values; the limit is {int(limit):,}. Larger tables mean fewer turns: give a larger `--cells`, up to "
                "1,048,576. You can also try another order of the `var` lines (from dcop_order), or use dcop_search or adopt."
            )
        case ["refused", "many", what, count, "limit", limit]:
            return f"There are {int(count):,} {what} to try; the limit is {int(limit):,}. Use another method."
        case ["refused", "read"]:
            return "Reading the input failed: try again."
        case ["refused", "link"]:
            return "A connection between two nodes failed: try again."
        case ["refused", "differs", *_] | ["refused", "bytes", *_]:
            return "What one node sent is not what the other node received: try again, and find out what lies between the two nodes."
        case ["status", "no", *_]:
            return differs(answer)
        case []:
            return "The program printed nothing: it was out of memory, or its output could not be written."
    return "That is not a refusal of dcop."


def of_report(line: int, kind: int, text: str) -> str:
    """A report's fault, by the report's own lines where the text is a problem and the report behind it."""
    lines = text.split("\n")
    ends = [number for number, it in enumerate(lines, 1) if it.split("#")[0].split() == ["end"]]
    first = ends[0] if ends and ends[0] < line else 0
    place = quoted("\n".join(lines[first:]), line - first).replace("Line", "The report's line" if first else "Line", 1)
    return place + f"The report is refused: {REPORT.get(kind, f'kind {kind}')}."


def differs(answer: str) -> str:
    """What `dcop check` or `dcop replay` says where it says no, in a sentence."""
    line = next((it for it in answer.splitlines() if it.startswith("differs ")), "")
    told = line.split()[1:]
    where = ""
    if told[:1] == ["turn"] and len(told) > 2:
        where, told = f"in turn {told[1]} ", told[2:]
    return where + of_difference(told) + f" (`{line}`)"


def of_difference(told: list[str]) -> str:
    match told:
        case ["tree", "roots", count]:
            return f"{count} variables have no parent, but exactly one must have none"
        case ["tree", "loop", name]:
            return f"the parents of {name} form a circle"
        case ["tree", "pair", one, other]:
            return f"{one} and {other} share a table, but neither is above the other in the tree"
        case ["scope", name]:
            return f"the table of {name} must be over its separator, from the root down"
        case ["cell", name, cell, value, "left", left, "right", right]:
            return f"cell {cell} of {name} claims that its branch costs at least {left}, but with value {value} it costs {right}"
        case ["root", "left", left, "right", right]:
            return f"the root's cell claims the bound {left}, but the values cost {right}"
        case ["event", number, kind] if kind in EVENTS:
            return f"event {number} {EVENTS[kind]}"
        case ["event", number, "too-many", name, "left", left, "right", right]:
            return f"event {number} takes {left} messages from {name}, but only {right} {'is' if right == '1' else 'are'} there"
        case ["stamp", number, "left", left, "right", right]:
            return f"event {number} has the stamp {left}, but it must be {right}"
        case ["status", status]:
            return f"the report says `{status}`, but its run did not end like that"
        case ["value", name]:
            return f"the run ends with another value of {name}"
        case [what, "left", left, "right", right]:
            return f"the report says `{what} {left}`, but {right} is right"
    return "the report differs"


def quoted(text: str, line: int) -> str:
    lines = text.split("\n")
    return f"Line {line}: `{lines[line - 1].strip()[:120]}`\n" if 1 <= line <= len(lines) and lines[line - 1].strip() else f"Line {line}. "


def of_text(line: int, kind: int, number: int, text: str) -> str:
    what = PROBLEM.get(number, f"problem {number}") if kind == 7 else TEXT.get(kind, f"kind {kind}")
    lines = text.split("\n")
    bare = lines[line - 1] if 1 <= line <= len(lines) else ""
    return f"{quoted(text, line)}{what[0].upper()}{what[1:]}.{hint(bare, kind, number, text)}"


def hint(line: str, kind: int, number: int, text: str) -> str:
    """What probably is meant, where the line shows it."""
    words = line.split("#")[0].split()
    if "\0" in text:
        return " The file has bytes that are not text, for example from UTF-16: save it as UTF-8."
    if kind == 6 and not text.split():
        return " The file is empty: a problem is `dcop 2`, lines `var ..` and `table ..`, and `end`."
    if kind == 1 and text.startswith("\ufeff"):
        return " The file begins with a byte order mark: save it as UTF-8 without one."
    if kind == 1 and text.lstrip()[:1] in "{<":
        return " The file seems to be that of another tool: see `sefwllon from`."
    if kind == 2 and any(w != ":" and ":" in w for w in words):
        return " Write blanks on both sides of the colon."
    if kind == 2 and words[:1] == ["var"]:
        if words[2:3] == [":"] and re.match(r"\s*dcop\s+1\b", text):
            return " Names of values are for `dcop 2`: write it in place of `dcop 1`."
        return of_var(words)
    if kind == 2 and words[:1] == ["table"] and ":" not in words:
        return " Write a colon with blanks on both sides between the variables and the costs."
    if kind == 2 and words[:1] == ["goal"]:
        return " `goal min` or `goal max` must be the line after `dcop 2`."
    if kind == 2 and words and words[0].lower() in LINES and words[0] not in LINES:
        return f" Write `{words[0].lower()}` in small letters."
    if kind == 2 and words and words[0] not in LINES:
        return f" A line begins with `goal`, `var`, `table` or `end`, not with `{words[0]}`."
    if kind == 3:
        return of_number(words)
    if kind == 4:
        return of_unknown(words, text)
    if kind == 7 and number == 6:
        return of_cells(words, text)
    return ""


def of_var(words: list[str]) -> str:
    if len(words) > 1 and not is_name(words[1]):
        return " " + of_name(words[1])
    for word in words[2:]:
        if word != ":" and not is_name(word) and ":" in words:
            return " " + of_name(word)
    return " A variable is `var NAME SIZE` or, under `dcop 2`, `var NAME : VALUE VALUE ..`."


def of_name(word: str) -> str:
    if "," in word:
        return f"`{word}` has a comma: names are separated by blanks."
    if word[:1].isdigit() or word[:1] in "-.":
        return f"`{word}` begins with `{word[0]}`: a name begins with a letter or `_`."
    if len(word) > MOST_NAME:
        return f"`{word}` is longer than {MOST_NAME} letters."
    bad = next((c for c in word if not (c.isascii() and (c.isalnum() or c in "_-."))), "")
    return f"`{word}` has `{bad}`: a name has the letters A to Z, digits, `_`, `-` and `.`."


def of_number(words: list[str]) -> str:
    bad = next((w for w in words[words.index(":") + 1 :] if not is_number(w)), "") if ":" in words else (words or [""])[-1]
    if re.fullmatch(r"-\d+(\.\d+)?", bad):
        return f" `{bad}` is negative: add the same number to all costs of the table, so that the least cost is 0."
    if re.fullmatch(r"\d*[.,]\d+", bad):
        return f" `{bad}` is not a whole number: multiply all costs of all tables by 10, 100 or more."
    if bad.endswith(","):
        return f" `{bad}` has a comma: costs are separated by blanks."
    if re.fullmatch(r"\+\d+", bad):
        return f" Leave out the sign of `{bad}`."
    if re.fullmatch(r"\d{20,}", bad):
        return f" `{bad}` is too long: a cost is at most 2^50 = 1125899906842624."
    return f" `{bad}` is not a number." if bad else ""


def of_unknown(words: list[str], text: str) -> str:
    known = re.findall(r"^[ \t]*var[ \t]+(\S+)", text, re.MULTILINE)
    names = words[1 : words.index(":")] if ":" in words else words[1:]
    bad = next((w for w in names if w not in known), "")
    if "," in bad:
        return f" `{bad}` has a comma: names are separated by blanks."
    near = [k for k in known if k.lower() == bad.lower()]
    if near:
        return f" `{bad}` is not `{near[0]}`: capital letters count."
    return f" No earlier line declares `{bad}`." if bad else " Its variable is declared only later."


def of_cells(words: list[str], text: str) -> str:
    sizes: dict[str, int] = {}
    for name, rest in re.findall(r"^[ \t]*var[ \t]+(\S+)[ \t]+([^#\n]*)", text, re.MULTILINE):
        parts = rest.split()
        sizes[name] = len(parts) - 1 if parts[:1] == [":"] else int(parts[0]) if parts and is_number(parts[0]) else 0
    at = words.index(":")
    wanted = 1
    for name in words[1:at]:
        wanted *= sizes.get(name, 0)
    return f" It has {len(words) - at - 1} costs and needs {wanted}."

#!/usr/bin/env python3
"""A stand-in for `dcop` that tries all assignments, and for `dcop_order`, which turns the order round. FAKE tells how it
misbehaves, by words: wide: dpop is too wide; turns: a cut has too many turns; turned: it has them in the order of the
names alone; heavy: its tables are too many where they may have above 65536 cells; long: it takes for ever; earlier: no cut
is served yet; lies: it prints a cost that is one too low; forges: its check says no; slow: it takes for ever,
once it has written a word to the file FAKE_MARK; spends: adopt is spent below a budget of 100000, with an assignment
that is worse each time; logs: adopt prints a log of eight events, and replay knows it; stuck: replay says that the
third event is unlawful; lingers: a search for an order takes for ever, once it has written a word to the file FAKE_MARK; drops: it
leaves out a table; fails: it is ended by a signal. Each call writes its words to the file FAKE_CALLS, where that is named."""

import itertools
import os
import signal
import sys
import time
from pathlib import Path

sys.path.insert(0, str(Path(__file__).resolve().parents[1]))

from sefwllon.problem import TextFault, is_number, parse  # noqa: E402
from sefwllon.report import read_report  # noqa: E402

FAKE = os.environ.get("FAKE", "").split()


def main() -> int:
    words = sys.argv[1:]
    if "FAKE_CALLS" in os.environ:
        with open(os.environ["FAKE_CALLS"], "a") as calls:
            calls.write(" ".join(words) + "\n")
    text = sys.stdin.read()
    if words[0] == "check":
        return check(text)
    if words == ["tree", "--format", "wcsp"]:
        return wcsp_tree(text)
    if words[0] == "replay" and "logs" in FAKE:
        return replay(text, int(words[2]))
    if words[0] == "upgrade":
        try:
            print(parse(text).text(), end="")
        except TextFault as fault:
            print(f"refused text line {fault.line} kind 2")
            return 3
        return 0
    if words[0] == "--tries":
        problem = parse(text)
        if "lingers" in FAKE:
            linger()
        if "fails" in FAKE:
            os.kill(os.getpid(), signal.SIGKILL)
        if "drops" in FAKE:
            problem.tables.pop()
        print(problem.reordered([v.name for v in reversed(problem.variables)]).text(), end="")
        return 0
    options = dict(zip(words[1::2], words[2::2]))
    method = options.get("--method", "plain")
    if "slow" in FAKE:
        linger()
    if method == "dpop" and "wide" in FAKE:
        print("refused wide agent a cells 2097152 limit 1048576")
        return 4
    if words[0] == "replay" or unserved(method, "--certificate" in options):
        print("refused words at 1 kind 10")
        return 2
    if method == "cut":
        refused = cut_refusal(text, int(options.get("--cells", "1048576")), "--certificate" in options)
        if refused is not None:
            return refused
    return solve(text, method, int(options.get("--budget", "1000000")), "--certificate" in options)


def linger() -> None:
    if "FAKE_MARK" in os.environ:
        Path(os.environ["FAKE_MARK"]).write_text("begun")
    time.sleep(60)


def unserved(method: str, certificate: bool) -> bool:
    if method == "cut":
        return "earlier" in FAKE
    return method == "adopt" and certificate and "logs" not in FAKE


def cut_refusal(text: str, cells: int, certified: bool) -> int | None:
    """The exit status of a cut that is refused; None where it is not."""
    if "long" in FAKE:
        time.sleep(60)
    names = [v.name for v in parse(text).variables]
    if "turns" in FAKE or ("turned" in FAKE and names == sorted(names)):
        print("refused many turns 1048576 limit 65536")
        return 11
    if certified or ("heavy" in FAKE and cells > 65_536):
        print("refused wide total cells 5000000 limit 4194304")
        return 4
    return None


def solve(text: str, method: str, budget: int, certified: bool) -> int:
    problem = parse(text)
    ranked = sorted(
        itertools.product(*(range(v.size) for v in problem.variables)),
        key=lambda a: problem.cost(list(a)) * (1 if problem.goal == "min" else -1),
    )
    best = problem.cost(list(ranked[0]))
    spent = method == "adopt" and "spends" in FAKE and budget < 100_000
    values = list(ranked[min(len(ranked) - 1, budget // 1000)] if spent else ranked[0])
    cost = problem.cost(values) - (1 if "lies" in FAKE else 0)
    print(f"status {'spent' if spent else 'solved'}\nmethod {method}")
    if problem.goal == "max":
        print("goal max")
    print(f"error 0\ndeliveries {budget if spent else 2}\ncost {cost}")
    print(f"lower {0 if spent else cost}\nupper {cost}" if problem.goal == "min" else f"lower {cost}\nupper {cost}")
    for variable, value in zip(problem.variables, values):
        print(f"value {variable.name} {variable.value_name(value)}")
    if method == "dpop" and certified:
        print(f"certificate tables\nutil a - : : {best}")
    if method == "adopt" and certified and "logs" in FAKE:
        print("certificate log")
        for stamp in range(1, 9):
            print(f"event x {stamp} y {stamp}" if stamp % 2 else f"event y {stamp} x 1")
    print("end")
    return 1 if spent else 0


def wcsp_tree(text: str) -> int:
    """Refuses the first word behind the name that is no number."""
    words = [(number, word) for number, line in enumerate(text.split("\n"), 1) for word in line.split()]
    bad = next((number for number, word in words[1:] if not is_number(word)), None)
    print("status tree\nend" if bad is None else f"refused wcsp line {bad} kind 1")
    return 0 if bad is None else 3


def check(text: str) -> int:
    problem_text, report_text = text.split("\nend\n", 1)
    problem = parse(problem_text + "\nend\n")
    report = read_report(report_text, problem)
    if "forges" in FAKE or problem.cost(report.values) != report.cost:
        print("status no\ndiffers cost left 1 right 2\nend")
        return 10
    print(f"status yes\ncost {report.cost}\nerror 0\nend")
    return 0


def replay(text: str, after: int) -> int:
    problem = parse(text.split("\nend\n", 1)[0] + "\nend\n")
    if "stuck" in FAKE and after > 2:
        print("status no\ndiffers event 3 too-many y left 3 right 1\nend")
        return 10
    print(f"status replay\nevents {after}")
    for variable in problem.variables:
        upper = "-" if after < 3 else str(10 - after)
        print(f"agent {variable.name} value 0 lower {after // 4} upper {upper} threshold 0 ended no")
    print("end")
    return 0


if __name__ == "__main__":
    raise SystemExit(main())

"""The trials of random.sh, which says what they are."""
import glob, itertools, math, os, random, sys, tempfile, time
from collections import Counter
from alter import altered, altered_in_form, altered_words, near
from sefwllon.problem import TextFault, parse
from trial import Answer, small_problem, values_of, wcsp_text
from verdict import verdict

STARTS = {0: (b"status solved\n", b"status tree\n", b"status yes\n", b"status replay\n", b"dcop ", b"# bar ", b"answer 1\n", b"end\n"),
          1: (b"status spent\n",), 2: (b"refused words at ",), 3: (b"refused text line ", b"refused report line ", b"refused wcsp line ", b"refused edit line "),
          4: (b"refused wide ",), 10: (b"status no\ndiffers ",), 11: (b"refused many ",)}
# Who asks for that many messages may wait longer.
MOST_SECONDS, MANY = 1.0, 100_000
FEW, MOST = 1_000, 65_536


def edit_lines(rng, problem):
    lines = []
    for _ in range(rng.randint(0, 6)):
        if problem.tables and rng.random() < 0.6:
            at = rng.randrange(len(problem.tables))
            size = len(problem.tables[at].costs)
            if rng.random() < 0.6:
                lines.append(f"set {at} {rng.randrange(size)} {rng.randint(0, 9)}")
            else:
                lines.append(f"fill {at} : " + " ".join(str(rng.randint(0, 9)) for _ in range(size)))
        else:
            lines.append("answer")
    return ("\n".join([*lines, "answer", "end"]) + "\n").encode()


def sum_best(problem):
    """The best sum of all assignments, tried one by one."""
    sums = (problem.cost(list(it)) for it in itertools.product(*(range(v.size) for v in problem.variables)))
    return min(sums) if problem.goal == "min" else max(sums)


def assignments(problem):
    return math.prod(v.size for v in problem.variables)


class Trials:
    """All trials of a seed."""
    def __init__(self, top, program, seed):
        self.program, self.seed = program, seed
        rng = random.Random(f"{seed} problems")
        texts = [small_problem(rng) for _ in range(60)]
        paths = sorted(glob.glob(f"{top}/examples/*.dcop") + glob.glob(f"{top}/crates/worked_cases/data/samples/*.dcop"))
        texts += [data for data in (open(path, "rb").read() for path in paths) if len(data) < 50_000]
        self.problems = []
        for text in texts:
            if Answer(program, ["upgrade"], text).status == 0:
                # as `check` asks: nothing behind the line `end`
                problem = parse(text.decode("latin-1"))
                self.problems.append((problem.source.encode("latin-1"), problem))
        self.best = {}
        self.tables, self.logs, self.cuts = [], [], []
        with open(f"{top}/crates/worked_cases/data/samples/paw.dcop", "rb") as paw, open(f"{top}/crates/worked_cases/data/samples/paw-cut.report", "rb") as cut:
            paw, turns = paw.read(), cut.read()
        for at, (text, problem) in enumerate(self.problems):
            plain = Answer(program, ["solve", "--method", "plain"], text)
            if plain.status == 0:
                self.best[at] = plain.number("cost")
                if assignments(problem) <= FEW and self.best[at] != sum_best(problem):
                    sys.exit(f"plain says {self.best[at]}, and {sum_best(problem)} is the best sum of:\n{text.decode()}")
            report = Answer(program, ["solve", "--method", "dpop", "--certificate", "yes"], text)
            if report.status == 0:
                self.tables.append((at, report.out))
            report = Answer(program, ["solve", "--method", "cut", "--certificate", "yes"], text)
            if report.status == 0 and len(report.out) < 100_000:
                self.cuts.append((at, report.out))
            if text == paw:
                # (a cut of more turns than one, which small problems do not need)
                self.cuts += [(at, turns)] * 40
            for error, budget, workers in (("0", "2000", "1"), ("3", "2000", "3"), ("0", "7", "1")):
                report = Answer(program, ["solve", "--method", "adopt", "--certificate", "yes", "--error", error, "--budget", budget, "--workers", workers], text)
                if report.status in (0, 1):
                    self.logs.append((at, report.out))
        print(f"seed {seed}: {len(self.problems)} problems, {len(self.best)} of which plain takes, {len(self.tables)} reports with tables, {len(self.logs)} with logs and {len(self.cuts)} with cuts", flush=True)
        self.kinds = [self.of_words] * 3 + [self.of_text] * 5 + [self.of_tables] * 5 + [self.of_log] * 5 + [self.of_cut] * 3 + [self.of_wcsp, self.of_edits]

    def make(self, number):
        """Trial so many: its kind, its words, its input, and what further is asked of the answer."""
        rng = random.Random(f"{self.seed} {number}")
        return rng.choice(self.kinds)(rng)

    def of_words(self, rng):
        command = rng.choice((b"solve", b"solve", b"solve", b"tree", b"check", b"replay", b"drill", b"drill", b"upgrade", b"edit"))
        options = {
            b"--method": lambda: rng.choice((b"plain", b"dpop", b"adopt", b"auto", b"cut", b"best")), b"--workers": lambda: near(rng, 1, 64),
            b"--error": lambda: near(rng, 0, 2**62), b"--budget": lambda: near(rng, 0, 10**7) if command != b"drill" else rng.choice((b"0", b"1", b"500", b"10000001")),
            b"--nodes": lambda: near(rng, 1, 8), b"--certificate": lambda: rng.choice((b"yes", b"no", b"maybe")), b"--after": lambda: near(rng, 0, 10**9),
            b"--seed": lambda: near(rng, 0, 10**19 - 1), b"--vars": lambda: rng.choice((b"0", b"1", b"2", b"20", b"40", b"1000", b"1001")),
            b"--size": lambda: near(rng, 1, 16), b"--degree": lambda: rng.choice((b"0", b"1", b"1", b"2", b"8", b"9")), b"--top": lambda: near(rng, 0, 10**6),
            b"--format": lambda: rng.choice((b"dcop", b"wcsp", b"xml")), b"--cells": lambda: near(rng, 1024, 1048576),
        }
        likely = {b"solve": list(options)[:6] + list(options)[-2:], b"drill": list(options)[:5] + list(options)[7:12], b"replay": [b"--after"],
                  b"tree": [b"--workers", b"--format"], b"check": [b"--format"], b"upgrade": [b"--format"], b"edit": [b"--format"]}[command]
        names = rng.sample(likely, rng.randint(0, min(4, len(likely)))) if rng.random() < 0.8 else rng.sample(list(options), 3)
        if command == b"drill" and b"--budget" not in names and not rng.random() < 0.2:
            names.append(b"--budget")
        words = [command]
        for name in names:
            words += [name, options[name]()]
        if rng.random() < 0.6:
            words = altered_words(rng, words)
        at, report = rng.choice(self.logs if command == b"replay" else self.tables)
        text, problem = self.problems[at]
        return "words", words, text + report if command in (b"check", b"replay") else text, lambda answer: None

    def of_text(self, rng):
        text, _ = rng.choice(self.problems)
        text = altered(rng, text)
        words = rng.choice(([b"solve", b"--method", b"plain"], [b"solve", b"--method", b"dpop"], [b"solve", b"--method", b"adopt", b"--budget", b"2000"],
                            [b"solve", b"--budget", b"2000", b"--workers", b"3"], [b"tree"], [b"upgrade"], [b"check"]))
        return "text", words, text, lambda answer: self.fault_of_solved(words, text, answer)

    def of_report(self, rng, what, reports):
        at, report = rng.choice(reports)
        report = altered(rng, report) if rng.random() < 0.5 else altered_in_form(rng, report)
        text, problem = self.problems[at]
        if what == "log" and rng.random() < 0.3:
            words = [b"replay"] if rng.random() < 0.5 else [b"replay", b"--after", near(rng, 0, 30)]
            return "replay", words, text + report, lambda answer: None
        return what, [b"check"], text + report, lambda answer: self.fault_of_yes(at, problem, report, answer) or (
            self.fault_of_verdict(problem, report, answer) if what == "tables" else None)

    def of_tables(self, rng):
        return self.of_report(rng, "tables", self.tables)

    def of_log(self, rng):
        return self.of_report(rng, "log", self.logs)

    def of_cut(self, rng):
        return self.of_report(rng, "cut", self.cuts)

    def of_wcsp(self, rng):
        text = altered(rng, wcsp_text(rng))
        command = rng.choice(([b"solve", b"--budget", b"2000"], [b"tree"], [b"upgrade"], [b"check"]))
        return "wcsp", [*command, b"--format", b"wcsp"], text, lambda answer: None

    def of_edits(self, rng):
        text, problem = rng.choice(self.problems)
        return "edit", [b"edit"], text + altered(rng, edit_lines(rng, problem)), lambda answer: None

    def fault_of_solved(self, words, text, answer):
        """What is wrong with an accepted problem's answer, by a reader in Python."""
        if answer.status not in (0, 1):
            return None
        try:
            problem = parse(text.decode("latin-1"))
        except TextFault as fault:
            return f"the reader in Python refuses the text: {fault}"
        if words[0] == b"upgrade":
            told = parse(answer.out.decode("latin-1"))
            return None if (told.goal, told.variables, told.tables) == (problem.goal, problem.variables, problem.tables) else "upgrade writes another problem"
        if words[0] != b"solve":
            return None
        values = values_of(problem, answer.lines)
        if values is None or problem.cost(values) != answer.number("cost"):
            return "the values do not cost what is printed"
        exact = answer.status == 0 and assignments(problem) <= FEW
        return "another assignment is better" if exact and sum_best(problem) != answer.number("cost") else None

    def fault_of_yes(self, at, problem, report, answer):
        """What is wrong with a yes to an altered report."""
        if answer.status != 0:
            return None
        cost, error = answer.number("cost"), answer.number("error")
        if answer.out != b"status yes\ncost %d\nerror %d\nend\n" % (cost, error):
            return "the answer is not of its form"
        lines = [line.split() for line in report.decode("latin-1").splitlines()]
        values = values_of(problem, lines)
        if values is None or problem.cost(values) != cost:
            return "check says yes to values that do not cost what it says"
        printed = [int(words[1]) for words in lines if words[:1] == ["cost"] and len(words) == 2]
        if printed != [cost]:
            return "check says yes to a report with another cost"
        if at in self.best:
            missed = (cost - self.best[at]) * (1 if problem.goal == "min" else -1)
            if not 0 <= missed <= error:
                return f"check says that the cost misses the best one by at most {error}, and plain tells {self.best[at]}"
        return None

    def fault_of_verdict(self, problem, report, answer):
        """Whether a report with tables that can be read gets another answer than the one reckoned anew in Python."""
        if answer.status not in (0, 10) or len(report) > 2_000:
            return None
        wanted = verdict(problem, [line.split() for line in report.decode("latin-1").splitlines()])
        return None if wanted.encode() == answer.out else f"the answer should be {wanted!r}"

    def fault_of(self, words, answer):
        """What is wrong with an answer, whatever it was asked."""
        if answer.err:
            return f"it wrote to standard error: {answer.err[:200]!r}"
        if answer.status == 12 and not answer.out and any(not is_text(word) for word in words):
            return None
        if answer.status not in STARTS:
            return f"it ended with {answer.status}"
        if not answer.out.endswith(b"\n"):
            return "its output ends in no line"
        if not answer.out.startswith(STARTS[answer.status]):
            return f"its output does not begin as status {answer.status} asks"
        if answer.seconds > MOST_SECONDS and (answer.number("deliveries") or 0) < MANY:
            return f"it took {answer.seconds:.2f} s"
        return None


def is_text(word):
    try:
        word.decode()
        return True
    except UnicodeDecodeError:
        return False


def main():
    top, program, seed, count, first = *sys.argv[1:3], int(sys.argv[3]), int(sys.argv[4]), int(sys.argv[5])
    program = os.path.abspath(program)
    began, trials, told, slowest = time.monotonic(), Trials(top, program, seed), Counter(), 0.0
    for number in range(first, first + count):
        kind, words, data, further = trials.make(number)
        answer = Answer(program, words, data)
        fault = trials.fault_of(words, answer) or further(answer)
        if fault:
            with tempfile.NamedTemporaryFile(prefix="random-", suffix=".input", delete=False) as it:
                it.write(data)
            said = " ".join(repr(word.decode(errors="backslashreplace")) for word in words)
            sys.exit(f"trial {number} of seed {seed}, {kind}: {fault}\n  dcop {said} < {it.name}\n  status {answer.status}, {answer.out[:400]!r}")
        told[kind, answer.status] += 1
        slowest = max(slowest, answer.seconds if (answer.number("deliveries") or 0) < MANY else 0)
        if (number + 1 - first) % 10_000 == 0:
            print(f"  {number + 1 - first:,} trials, {time.monotonic() - began:.0f} s", flush=True)
    for kind in sorted({it for it, _ in told}):
        ends = ", ".join(f"{status}: {told[kind, status]:,}" for status in sorted(s for k, s in told if k == kind))
        print(f"{kind}: {sum(n for (k, _), n in told.items() if k == kind):,} trials; by exit status {ends}")
    print(f"{sum(told.values()):,} trials of seed {seed} in {time.monotonic() - began:.0f} s, none of which was wrong; the slowest took {slowest:.2f} s of processor time")


main()

"""What the scripts of random trials share: a run of a program, small problems drawn at random, and values that are told."""
import math, os, resource, signal
from sefwllon.problem import Problem, Table, Variable


class Answer:
    """What a run ended with: its status, its output, its complaints, its processor time in seconds."""
    def __init__(self, program, words, data):
        given, out, err = (os.memfd_create(it) for it in ("in", "out", "err"))
        try:
            os.write(given, data)
            os.lseek(given, 0, os.SEEK_SET)
            actions = [(os.POSIX_SPAWN_DUP2, fd, to) for to, fd in enumerate((given, out, err))]
            child = os.posix_spawn(program, [program, *words], {}, file_actions=actions)
            resource.prlimit(child, resource.RLIMIT_CPU, (60, 60))
            signal.signal(signal.SIGALRM, lambda *_: os.kill(child, signal.SIGKILL))
            signal.alarm(900)
            _, status, used = os.wait4(child, 0)
            signal.alarm(0)
            self.status, self.seconds = os.waitstatus_to_exitcode(status), used.ru_utime + used.ru_stime
            self.out, self.err = (os.pread(fd, os.fstat(fd).st_size, 0) for fd in (out, err))
        finally:
            for fd in (given, out, err):
                os.close(fd)
        self.lines = [line.split() for line in self.out.decode("latin-1").splitlines()]

    def number(self, what):
        return next((int(words[1]) for words in self.lines if len(words) == 2 and words[0] == what), None)


def small_problem(rng, most=6):
    """A problem of up to so many variables, of either version and goal."""
    wide = rng.random() < 0.5
    named = wide and rng.random() < 0.5
    variables = []
    for i in range(rng.randint(1, most)):
        size = rng.randint(1, 4)
        variables.append(Variable(f"v{i}", size, tuple(f"n{k}" for k in range(size)) if named and rng.random() < 0.7 else None))
    top = rng.choice((0, 1, 9, 9, 1000, 2**50))
    tables = []
    for _ in range(rng.randint(0, 2 * len(variables))):
        scope = tuple(rng.sample(range(len(variables)), min(len(variables), rng.randint(1, 4 if wide else 2))))
        tables.append(Table(scope, tuple(rng.choices(range(top + 1), k=math.prod(variables[v].size for v in scope)))))
    problem = Problem(rng.choice(("min", "max")) if wide else "min", variables, tables)
    text = problem.text()
    return (text if wide else text.replace("dcop 2", "dcop 1", 1)).encode()


def wcsp_text(rng):
    sizes = [rng.randint(1, 3) for _ in range(rng.randint(1, 4))]
    functions = []
    for _ in range(rng.randint(0, 4)):
        scope = rng.sample(range(len(sizes)), rng.randint(0, min(4, len(sizes))))
        tuples = [[rng.randrange(sizes[v]) for v in scope] + [rng.randint(0, 20)] for _ in range(rng.randint(0, 5) if scope else 0)]
        functions.append([len(scope), *scope, rng.randint(0, 3), len(tuples), *(n for it in tuples for n in it)])
    head = f"p {len(sizes)} {max(sizes)} {len(functions)} {rng.choice((1, 10, 1000))}\n"
    return (head + "\n".join(" ".join(map(str, it)) for it in [sizes, *functions]) + "\n").encode()


def values_of(problem, lines):
    """The values that `value` lines tell, one for each variable in order; None where they do not."""
    told = [words[1:] for words in lines if words[:1] == ["value"]]
    if [it[0] for it in told if len(it) == 2] != [v.name for v in problem.variables] or len(told) != len(problem.variables):
        return None
    values = [v.value_of(it[1]) for v, it in zip(problem.variables, told)]
    return None if None in values else values

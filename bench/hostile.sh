#!/usr/bin/env bash
# What the built program does where memory is refused: at every single request, one at a time.
#
# usage: bench/hostile.sh PROGRAM [CASE ..]
# PROGRAM is the built program `dcop`. Each worked case that is named, or of those below, is run once for each request for memory that it
# makes, with that one refused, and once more with that one and all later ones refused; a library in C that stands
# before the C library's `malloc` refuses them, which needs `cc`. Each run must end with the case's exit status and
# output, or with exit 7 and nothing written, and write nothing to standard error, within a minute. Where the first requests are refused,
# by which the program's runtime makes the list of words, main is refused its words: then the exit is 12, with nothing
# written. Once a run has ended with 7, none may end with 12. Between nodes a request may be one of the event loop or of
# a socket: these count as a link that failed, so there a run may end with exit 8 and `refused link` too; and only one
# request is refused there, since the event loop of the kit, where it is refused memory for good, asks again for ever.
# A case that is not there, or that a program of an earlier day does not serve, is left out, which is said. Prints how many requests there were of each case
# and how the runs ended; stops with status 1 at the first run that is wrong.
# `pair-two-nodes` is run over wires in memory too, by the program of crates/worked_cases where that is built: there the
# status must be the case's, or 7 with nothing written, unless what was refused was a request of that program itself, which
# reads and compares the case.
set -eu
program=${1:?usage: bench/hostile.sh PROGRAM [CASE ..]}
shift
. "$(dirname "$0")/common.sh"
cat > "$folder/refuse.c" <<'C'
#include <errno.h>
#include <stdlib.h>
#include <unistd.h>
extern void *__libc_malloc(size_t), *__libc_calloc(size_t, size_t), *__libc_realloc(void *, size_t), *__libc_memalign(size_t, size_t);
static long at, count;
static int all;
/* REFUSE is the number of the first request to be refused; with ALL, later ones are refused too. Where one is, file 3 says so. */
__attribute__((constructor)) static void begin(void) {
    const char *number = getenv("REFUSE");
    all = getenv("ALL") != NULL;
    at = number ? atol(number) : 0;
}
static int refused(void) {
    if (at == 0) return 0;
    long now = __atomic_add_fetch(&count, 1, __ATOMIC_SEQ_CST);
    if (now != at && !(all && now > at)) return 0;
    if (now == at && write(3, "r", 1) != 1) abort();
    errno = ENOMEM;
    return 1;
}
void *malloc(size_t size) { return refused() ? NULL : __libc_malloc(size); }
void *calloc(size_t many, size_t size) { return refused() ? NULL : __libc_calloc(many, size); }
void *realloc(void *old, size_t size) { return refused() ? NULL : __libc_realloc(old, size); }
void *memalign(size_t to, size_t size) { return refused() ? NULL : __libc_memalign(to, size); }
void *aligned_alloc(size_t to, size_t size) { return refused() ? NULL : __libc_memalign(to, size); }
int posix_memalign(void **made, size_t to, size_t size) { return (*made = refused() ? NULL : __libc_memalign(to, size)) ? 0 : ENOMEM; }
C
cc -O1 -shared -fPIC -o "$folder/refuse.so" "$folder/refuse.c"
python3 - "$program" "$folder" "$top/crates/worked_cases" "$@" <<'PY'
import os, shutil, signal, sys
from collections import Counter
program, folder, crate, *named = sys.argv[1:]
program, data, cases = os.path.abspath(program), f"{crate}/data", f"{crate}/out/worked_cases"
CASES = named or ("paw-certificate", "pair-log", "pair-two-nodes", "paw-check", "pair-log-check", "paw-tree", "upgrade-pair",
                  "drill-two-1234567", "pair-plain", "pair-dpop-workers", "cut-paw-certified", "cut-check")
class Case:
    """A worked case: its words, its input, its status and its output."""
    def __init__(self, name):
        self.words, self.text, self.status, self.told, replaced = [], b"", None, b"", []
        at = None
        for line in open(f"{data}/cases/{name}.case", encoding="ascii"):
            line = line.rstrip("\n")
            if line.startswith("| ") or line == "|":
                if "\\" in line:
                    sys.exit(f"{name}: escapes in a text are not read here")
                if at == "output" and self.status is not None:
                    self.told += line[2:].encode() + b"\n"
                elif at == "input":
                    self.text += line[2:].encode() + b"\n"
                continue
            word, *rest = line.split() or [""]
            if word in ("", "#") or line.startswith("#"):
                continue
            at = word
            if word == "words":
                self.words = rest
            elif word == "input":
                for file in rest:
                    self.text += Case(file[6:-5]).told if file.endswith(".case") else open(f"{data}/{file}", "rb").read()
            elif word == "replace":
                replaced.append(line[8:].encode())
            elif word == "by":
                self.text = self.text.replace(replaced[-1], line[3:].encode(), 1)
            elif word == "status" and self.status is None:
                self.status = int(rest[0])
            elif word != "output" and (word, rest) != ("failing-reads", ["0"]):
                sys.exit(f"{name}: lines `{word}` are not read here")
def run(command, text, number, later):
    """A run's status, its output, what it wrote to standard error, and whether a request was refused."""
    paths = [f"{folder}/{it}" for it in ("out", "err", "refused")]
    with open(f"{folder}/in", "wb") as it:
        it.write(text)
    given = os.open(f"{folder}/in", os.O_RDONLY)
    files = [given, *(os.open(path, os.O_RDWR | os.O_CREAT | os.O_TRUNC) for path in paths)]
    moved = [os.dup2(fd, 100 + to) for to, fd in enumerate(files)]
    actions = [(os.POSIX_SPAWN_DUP2, fd, to) for to, fd in enumerate(moved)]
    environment = {"LD_PRELOAD": f"{folder}/refuse.so", "REFUSE": str(number)} | ({"ALL": "1"} if later else {})
    child = os.posix_spawn(command[0], command, environment, file_actions=actions)
    signal.signal(signal.SIGALRM, lambda *_: os.kill(child, signal.SIGKILL))
    signal.alarm(60)
    _, status = os.waitpid(child, 0)
    signal.alarm(0)
    for fd in [*files, *moved]:
        os.close(fd)
    out, err, refused = (open(path, "rb").read() for path in paths)
    return os.waitstatus_to_exitcode(status), out, err, refused != b""
def each(command, text, name, varies, modes, end_of):
    """Refuses each request of a run, alone or with all later ones; how many there were, and how the runs ended by `end_of`, which tells None of a wrong one."""
    ends, number, quiet, before_main = Counter(), 0, 0, True
    while quiet < (20 if varies else 1):
        number += 1
        for later in modes:
            status, out, err, refused = run(command, text, number, later)
            end = "exit 12" if before_main and (status, out, err) == (12, b"", b"") else end_of(status, out, err)
            before_main = before_main and end not in ("exit 7", "exit 8")
            if end is None:
                sys.exit(f"{name}, request {number} refused{' and all later ones' if later else ''}: status {status}, {out[:400]!r}, standard error {err[:200]!r}")
            ends[end] += refused
        quiet = 0 if refused else quiet + 1
    return number - quiet, ends
left_out = []
for name in CASES:
    path = f"{data}/cases/{name}.case"
    case = Case(name) if os.path.isfile(path) else None
    command = [program, *case.words] if case else []
    if case is None or b"kind 10\n" in run(command, case.text, 10**9, False)[1]:
        left_out.append(name)
        continue
    status, out, _, _ = run(command, case.text, 10**9, False)
    if (status, out) != (case.status, case.told):
        sys.exit(f"{name}, nothing refused: status {status}, {out[:400]!r}")
    nodes = "--nodes" in case.words
    allowed = {(case.status, case.told): "its answer", (7, b""): "exit 7"} | ({(8, b"refused link\n"): "exit 8"} if nodes else {})
    # with several workers, or over sockets, a run may make a request more than the one before it
    count, ends = each(command, case.text, name, nodes or "--workers" in case.words, (False,) if nodes else (False, True),
                       lambda status, out, err: None if err else allowed.get((status, out)))
    links = f", {ends['exit 8']} with exit 8" if nodes else ""
    print(f"{name}: {count} requests, each refused alone{'' if nodes else ' and with all later ones'}: {ends['exit 12']} runs ended with exit 12, {ends['exit 7']} with exit 7{links} and {ends['its answer']} with the answer")
def end_in_memory(status, out, err):
    """How `solve` ended in a run of the worked cases, by what they print of it."""
    lines = out.decode().splitlines()
    told = [at for at, line in enumerate(lines) if line.startswith("found: status ")]
    if not told:
        return "its answer" if (status, out) == (0, b"1 cases, 1 runs\n") else "its own request"
    text = any(line.startswith("|") for line in lines[told[0]:])
    # a sink in memory that finds none keeps nothing
    return {("found: status 7", False): "exit 7", ("found: status 0", False): "its own request"}.get((lines[told[0]], text))
name = "pair-two-nodes"
if name in CASES and os.path.isfile(cases):
    for part, file in (("cases", f"{name}.case"), ("samples", "pair.dcop")):
        os.makedirs(f"{folder}/{part}")
        shutil.copy(f"{data}/{part}/{file}", f"{folder}/{part}")
    os.chdir(folder)
    if end_in_memory(*run([cases], b"", 10**9, False)[:3]) != "its answer":
        sys.exit(f"{name} over wires in memory, nothing refused: {run([cases], b'', 10**9, False)}")
    count, ends = each([cases], b"", f"{name} over wires in memory", False, (False, True), end_in_memory)
    print(f"{name} over wires in memory: {count} requests, each refused alone and with all later ones: {ends['exit 7']} runs ended with exit 7, {ends['its answer']} with the answer, and in {ends['its own request'] + ends['exit 12']} it was a request of the program that runs the case")
elif name in CASES:
    print(f"{name} was not run over wires in memory, since {cases} is not built")
if left_out:
    print(f"not served yet, or no such case: {', '.join(left_out)}")
PY

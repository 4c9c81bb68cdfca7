#!/usr/bin/env bash
# Whether a program of several nodes leaves anything behind, over many runs.
#
# usage: bench/nodes_soak.sh PROGRAM [RUNS]
# PROGRAM is the built program `dcop`, RUNS how many runs there are, else 1,000. The runs go through 2 to 8 nodes, 1, 2 and 4
# workers, dpop and adopt, and the files of examples/*.dcop that dpop solves with one node, besides a random tree of 100 variables
# of size 3, which adopt solves within an error of 50. A run by dpop must write the bytes of the run with one node; a run by adopt
# must be solved at that cost, or within the error. Each run must end within 120 s, with nothing on standard error. No run gets more
# descriptors than docs/formats/command-words.md says: two for each two nodes, and nine more.
#
# 32 runs go on beside each other. While they last, their descriptors and threads are looked at again and again. Before the
# first 32 and behind each 32 the script looks at its own descriptors, at its children, and at the sockets over IPv4 by their
# state; where the machine allows it, all of this is done in a network of its own, so no other socket is counted. Behind 32
# runs no child and no socket may be left, but such as wait out their time (TIME_WAIT), which belong to no process. Prints a table
# by the number of nodes: the runs, the middle and the longest time, the same of processor time, and the most descriptors and
# threads that were seen. Stops with status 1 at the first run that is wrong.
set -eu
program=$(realpath "${1:?usage: bench/nodes_soak.sh PROGRAM [RUNS]}")
runs=${2:-1000}
. "$(dirname "$0")/common.sh"
apart=()
if unshare -rn true 2> /dev/null; then
    apart=(unshare -rn)
fi
cat > "$folder/soak.py" <<'PY'
import itertools, os, random, subprocess, sys, time
from collections import Counter
from statistics import median

program, runs, folder, apart, *paths = sys.argv[1], int(sys.argv[2]), sys.argv[3], sys.argv[4] == "apart", *sys.argv[5:]
PATIENCE = 120
"""The seconds within which a run has to end."""
BESIDE = 32
"""How many runs go on beside each other."""
STATES = {"01": "ESTABLISHED", "04": "FIN_WAIT1", "05": "FIN_WAIT2", "06": "TIME_WAIT", "08": "CLOSE_WAIT", "09": "LAST_ACK", "0A": "LISTEN"}


def descriptors(nodes):
    """How many descriptors are enough for so many nodes."""
    return nodes * (nodes - 1) + 9


def sockets():
    """The sockets over IPv4, by their state."""
    with open("/proc/net/tcp") as lines:
        return Counter(STATES.get(line.split()[3], "other") for line in list(lines)[1:])


def children():
    """The processes that this one has begun and not yet waited for, dead ones too."""
    with open(f"/proc/self/task/{os.getpid()}/children") as file:
        return file.read().split()


def now():
    """What this process has: descriptors, children, sockets of this network."""
    return len(os.listdir("/proc/self/fd")), len(children()), sockets()


def held(pid):
    """The descriptors and threads that a process has now; none where it has ended."""
    try:
        fds = len(os.listdir(f"/proc/{pid}/fd"))
        return fds, len(os.listdir(f"/proc/{pid}/task"))
    except (FileNotFoundError, ProcessLookupError):
        return 0, 0


class Run:
    """A run of the program: its words, its file, and what was seen of it."""

    def __init__(self, words, path, limit, slot=0):
        self.words, self.path, self.told, self.most, self.looks, self.status = words, path, f"{folder}/told{slot}", (0, 0), 0, None
        command = ["prlimit", f"--nofile={limit}:{limit}", program, "solve", *words]
        with open(path) as text, open(self.told, "wb") as out:
            self.begun = time.monotonic()
            self.child = subprocess.Popen(command, stdin=text, stdout=out, stderr=out)

    def look(self):
        """Whether it has ended; what it has is looked at."""
        pid, status, used = os.wait4(self.child.pid, os.WNOHANG)
        self.took = time.monotonic() - self.begun
        if pid:
            self.child.returncode = self.status = os.waitstatus_to_exitcode(status)
            self.spent = used.ru_utime + used.ru_stime
            with open(self.told, "rb") as out:
                self.out = out.read()
            return True
        self.most = tuple(map(max, self.most, held(self.child.pid)))
        self.looks += 1
        if self.took > PATIENCE:
            sys.exit(f"{self} has not ended after {PATIENCE} s")
        return False

    def __str__(self):
        return f"solve {' '.join(self.words)} < {self.path}"


def all_ended(runs):
    """The runs, once all have ended."""
    left = runs
    while left := [run for run in left if not run.look()]:
        time.sleep(0.001)
    return runs


def cost(out):
    """The cost of what was solved; `None` where nothing was."""
    lines = [line.split() for line in out.decode().splitlines()]
    return next((int(line[1]) for line in lines if line[:1] == ["cost"]), None) if lines[:1] == [["status", "solved"]] else None


random.seed(59)
with open(f"{folder}/tree.dcop", "w") as file:
    file.write("dcop 1\n" + "".join(f"var v{i} 3\n" for i in range(100)))
    for i in range(1, 100):
        file.write(f"table v{i // 2} v{i} : {' '.join(str(random.randrange(10)) for _ in range(9))}\n")
    file.write("end\n")
paths.append(f"{folder}/tree.dcop")
alone = {path: all_ended([Run(["--method", "dpop"], path, 64)])[0] for path in paths}
left_out = [os.path.basename(path) for path, run in alone.items() if run.status or cost(run.out) is None]
alone = {path: run.out for path, run in alone.items() if os.path.basename(path) not in left_out}
error = {path: 50 if path == paths[-1] else 0 for path in alone}


def begun_at(turn):
    """The run of a turn, with its number of nodes and its method."""
    nodes, workers, path, method = turns[turn % len(turns)]
    words = ["--method", method, "--nodes", str(nodes), "--workers", str(workers)]
    if method == "adopt":
        words += ["--error", str(error[path])]
    run = Run(words, path, descriptors(nodes), turn % BESIDE)
    run.nodes, run.method = nodes, method
    return run


def right(run):
    """Whether a run ended as it has to."""
    if run.method == "dpop":
        return run.status == 0 and run.out == alone[run.path]
    return run.status == 0 and cost(run.out) is not None and abs(cost(run.out) - cost(alone[run.path])) <= error[run.path]


turns = list(itertools.product(range(2, 9), (1, 2, 4), alone, ("dpop", "adopt")))
random.shuffle(turns)
told, begun = {nodes: [] for nodes in range(2, 9)}, time.monotonic()
before = now()
for first in range(0, runs, BESIDE):
    for run in all_ended([begun_at(turn) for turn in range(first, min(first + BESIDE, runs))]):
        if not right(run):
            sys.exit(f"{run}: status {run.status}, {run.out[:400]!r}")
        told[run.nodes].append(run)
    behind = now()
    left = behind[2] - before[2]
    del left["TIME_WAIT"]
    if behind[:2] != before[:2] or apart and left:
        sys.exit(f"behind run {first + BESIDE}: {behind[:2]} descriptors and children, {before[:2]} before, sockets {dict(left)}")
    if first // BESIDE % 4 == 3:
        print(f"{first + BESIDE} runs in {time.monotonic() - begun:.0f} s", file=sys.stderr, flush=True)
behind = now()
took = time.monotonic() - begun
print(f"{runs:,} runs of {program} in {took:.0f} s, at a load of {os.getloadavg()[0]:.0f} on {os.cpu_count()} processors, over {len(alone)} problems; dpop does not solve {', '.join(left_out)}")
print("| Nodes | Runs, dpop and adopt | Time, middle and longest | Processor time, middle and longest | Descriptors, most seen and allowed | Threads |")
print("|---|---|---|---|---|---|")
for nodes, ended in told.items():
    if ended:
        count = Counter(run.method for run in ended)
        times, spent = [run.took for run in ended], [run.spent for run in ended]
        fds, threads = map(max, zip(*(run.most for run in ended)))
        print(f"| {nodes} | {count['dpop']} and {count['adopt']} | {median(times):.2f} and {max(times):.1f} s | {median(spent):.3f} and {max(spent):.2f} s | {fds} and {descriptors(nodes)} | {threads} |")
print(f"a run was looked at {median(run.looks for ended in told.values() for run in ended):.0f} times in the middle")
for when, (fds, count, net) in ("before", before), ("behind", behind):
    print(f"{when}: {fds} descriptors and {count} children of the script; sockets {'of its own network' if apart else 'of the machine'}: {', '.join(f'{name} {many}' for name, many in sorted(net.items())) or 'none'}")
PY
"${apart[@]}" bash -c 'if [ "$3" = apart ]; then ip link set lo up; fi; exec python3 "$0" "$1" "$2" "$4" "$3" "${@:5}"' \
    "$folder/soak.py" "$program" "$runs" "${apart[0]:+apart}" "$folder" "$top"/examples/*.dcop

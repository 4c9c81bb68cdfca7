"""How long commands take."""
import os, resource, signal, subprocess, tempfile, time


def once(words, path):
    """Runs a command on a file. Its time in seconds, its exit status, its memory in MB, and what it writes."""
    with open(path) as text:
        begin = time.perf_counter()
        child = subprocess.Popen(words, stdin=text, stdout=subprocess.PIPE)
        out = child.stdout.read()
        _, status, used = os.wait4(child.pid, 0)
        return time.perf_counter() - begin, os.waitstatus_to_exitcode(status), used.ru_maxrss / 1024, out


def peak(words, path):
    """The memory of a command on a file in MB, told by GNU time. What `once` tells is at least the memory of this process."""
    with open(path) as text, tempfile.NamedTemporaryFile("r") as told:
        subprocess.run(["time", "-f", "%M", "-o", told.name, *words], stdin=text, stdout=subprocess.DEVNULL)
        return int(told.read().split()[-1]) / 1024


def best(words, path, runs=5, status=0):
    """The best time of some runs, the most memory of one, and what the last one writes. All end with this status."""
    times, peaks, out = [], [], b""
    for _ in range(runs):
        took, ended, peak, out = once(words, path)
        assert ended == status, (words, ended, out[:200])
        times.append(took)
        peaks.append(peak)
    return min(times), max(peaks), out


def best_in_turn(commands, path, runs=25):
    """What `best` gives of each command and its wanted status, where in each round of runs each command has its turn."""
    done = [[] for _ in commands]
    for _ in range(runs):
        for (words, status), before in zip(commands, done):
            took, ended, peak, out = once(words, path)
            assert ended == status, (words, ended, out[:200])
            before.append((took, peak, out))
    return [(min(took for took, _, _ in runs), max(peak for _, peak, _ in runs), runs[-1][2]) for runs in done]


def spent(words, path, limit, short=0.2, runs=3):
    """The processor time of a command on a file in seconds, the least of some runs where it is short, and its exit status.
    The status is `None` where it was ended for having taken `limit` seconds."""
    times = []
    while not times or (times[0] < short and len(times) < runs):
        with open(path) as text:
            child = subprocess.Popen(words, stdin=text, stdout=subprocess.DEVNULL)
            resource.prlimit(child.pid, resource.RLIMIT_CPU, (limit, limit))
            _, status, used = os.wait4(child.pid, 0)
        status = os.waitstatus_to_exitcode(status)
        if status in (-signal.SIGXCPU, -signal.SIGKILL):
            return limit, None
        times.append(used.ru_utime + used.ru_stime)
    return min(times), status


def told(what, ratio, goal, most=False, more=""):
    """A row of a table: what is compared, the ratio, its goal, and whether that is met. The goal is the least or the most that is wanted."""
    met = ratio <= goal if most else ratio >= goal
    return f"{what:<64} ratio {ratio:5.2f}, goal at {'most' if most else 'least'} {goal}: {'met' if met else 'missed'}{more and '; ' + more}"

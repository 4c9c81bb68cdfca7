#!/usr/bin/env bash
# What a server does where most of its clients do harm.
#
# usage: bench/soak.sh SERVER PROGRAM [RUNS [PORT]]
# SERVER is the built program `dcop_serve`, PROGRAM the built program `dcop`, RUNS how often it is done, else 1, PORT the first of
# five times as many ports that are free, else 21000. 64 clients connect in an order by chance, of which 16 say nothing, 16 ask for long
# replies and never read, 16 send bytes by chance, and 16 ask ten times for a random problem each and compare the replies with what
# `dcop` writes; 16 workers serve them. Each honest client has to be served within three times the time for which a connection
# waits, and the summary has to tell of each session what may come of it. Prints how long that took, how the sessions ended, and the
# most memory, threads and descriptors that the server had; and the same of the honest clients alone. Then three more servers have 64
# clients each, which is the most that they take, and 6 workers: ten waves of 6 honest clients ask, one wave behind the other, while the
# last four wait. One server keeps all replies, one a single reply, and one a single reply where the C library keeps no blocks for
# threads. Prints what the first one holds before the first wave and behind each: memory, how much of it lies in the stacks of
# threads, in the C library's heaps and in files, threads and descriptors; and for each server what it grew by. Behind each
# server nothing may listen at its port. A run takes three to five minutes. Stops with status 1 at the first run that is wrong.
set -eu
server=${1:?usage: bench/soak.sh SERVER PROGRAM [RUNS [PORT]]}
program=${2:?usage: bench/soak.sh SERVER PROGRAM [RUNS [PORT]]}
runs=${3:-1}
port=${4:-21000}
. "$(dirname "$0")/common.sh"
python3 - "$server" "$program" "$runs" "$port" <<'PY'
import os, random, re, socket, struct, subprocess, sys, threading, time
from collections import Counter

server, program, runs, port = sys.argv[1], sys.argv[2], int(sys.argv[3]), int(sys.argv[4])
SILENCE, WORKERS, EACH, REQUESTS = 30, 16, 16, 10
"""The seconds for which a connection waits; the workers; the clients of each kind; and the requests of an honest one."""
WAVES, WAVE, REST = 10, 6, 4
"""The waves; the clients and workers of each; and the clients that wait meanwhile."""
KINDS = ("silent", "unread", "garbage", "honest")
MAY_END = {"silent": ("read",), "unread": ("write", "read", "limit", "cut"), "garbage": ("long", "closed", "cut", "read", "write"), "honest": ("closed",)}


def frame(payload):
    return struct.pack(">I", len(payload)) + payload


def problem(number):
    random.seed(number)
    text = ["dcop 1"] + [f"var v{i} 4" for i in range(8)]
    for i in range(1, 8):
        text.append(f"table v{random.randrange(i)} v{i} : " + " ".join(str(random.randrange(100)) for _ in range(16)))
    return "\n".join(text + ["end", ""]).encode()


def answer(text):
    return subprocess.run([program, "solve", "--method", "dpop"], input=text, capture_output=True).stdout


def connected(at):
    for _ in range(400):
        try:
            return socket.create_connection(("127.0.0.1", at), 20 * SILENCE)
        except ConnectionRefusedError:
            time.sleep(0.05)
    sys.exit(f"nothing listens at port {at}")


LONG = "\n".join(["dcop 1", *(f"var v{i:031} 2" for i in range(1000)), "end", ""]).encode()
ASKED = [problem(number) for number in range(EACH)]
TOLD = [answer(text) for text in ASKED]


class Client(threading.Thread):
    """A client of one of the kinds, by its number among them."""

    def __init__(self, kind, number, link):
        super().__init__(daemon=True)
        self.kind, self.number, self.link, self.took, self.wrong = kind, number, link, None, None

    def run(self):
        begun = time.monotonic()
        try:
            getattr(self, self.kind)()
        except OSError as fault:
            if self.kind == "honest":
                self.wrong = repr(fault)
        self.took = time.monotonic() - begun

    def silent(self):
        self.link.recv(1)

    def unread(self):
        self.link.setsockopt(socket.SOL_SOCKET, socket.SO_RCVBUF, 8192)
        for _ in range(990):
            self.link.sendall(frame(LONG))
        while self.link.send(b"\0" * 4, socket.MSG_DONTWAIT):
            time.sleep(0.2)

    def garbage(self):
        chance = random.Random(self.number)
        for _ in range(200):
            self.link.sendall(chance.randbytes(chance.randrange(1, 5000)) if chance.random() < 0.5 else frame(chance.randbytes(300)))
        self.link.shutdown(socket.SHUT_WR)
        while self.link.recv(65536):
            pass

    def honest(self):
        with self.link.makefile("rb") as stream:
            for _ in range(REQUESTS):
                self.link.sendall(frame(ASKED[self.number]))
                want = frame(TOLD[self.number])
                got = stream.read(len(want))
                if got != want:
                    self.wrong = f"{got[:80]!r} in place of {want[:80]!r}"
                    return
        self.link.close()


# What a process holds now: memory in MB, threads and descriptors.
def held(child):
    with open(f"/proc/{child.pid}/status") as file:
        told = dict(line.split(":", 1) for line in file)
    return int(told["VmRSS"].split()[0]) / 1024, int(told["Threads"]), len(os.listdir(f"/proc/{child.pid}/fd"))


# Serves clients of these kinds, in this order. How long the honest ones took at most, and what the process held at most.
def serve(at, kinds):
    child = subprocess.Popen([server, str(at), str(len(kinds)), "16", str(WORKERS)], stdout=subprocess.PIPE)
    numbers, clients = Counter(), []
    for kind in kinds:
        clients.append(Client(kind, numbers[kind], connected(at)))
        numbers[kind] += 1
    begun = time.monotonic()
    for client in clients:
        client.start()
    most = [0, 0, 0]
    while child.poll() is None:
        try:
            most = [max(pair) for pair in zip(most, held(child))]
        except (OSError, KeyError):
            break
        time.sleep(0.1)
        if time.monotonic() - begun > 20 * SILENCE:
            child.kill()
            sys.exit(f"the server has not ended after {20 * SILENCE} s")
    told = child.communicate()[0].decode()
    took = time.monotonic() - begun
    for client in clients:
        client.join(10)
        client.link.close()
    lines = told.splitlines()
    if child.returncode != 0 or len(lines) != len(kinds) + 3 or lines[-1] != "end":
        sys.exit(f"exit {child.returncode}: {told!r}")
    ends, served = Counter(), 0
    for number, (client, line) in enumerate(zip(clients, lines)):
        word, place, end, count = line.split()
        served += int(count)
        ends[f"{client.kind} {end}"] += 1
        if (word, place) != ("session", str(number)) or end not in MAY_END[client.kind] or client.kind == "silent" and count != "0" or client.kind == "honest" and count != str(REQUESTS):
            sys.exit(f"a {client.kind} client: {line}")
        if client.wrong or client.kind == "honest" and (client.took is None or client.took > 3 * SILENCE):
            sys.exit(f"client {number}, {client.kind}: {client.wrong or f'served after {client.took} s'}")
    if lines[-3:-1] != [f"served {served}", lines[-2]] or not lines[-2].startswith("looks "):
        sys.exit(f"not the sum: {lines[-3:]}")
    alone(at)
    slowest = max(client.took for client in clients if client.kind == "honest")
    return slowest, took, most, ends


# Behind a server nothing listens at its port.
def alone(at):
    try:
        socket.create_connection(("127.0.0.1", at), 5).close()
    except ConnectionRefusedError:
        return
    sys.exit(f"something still listens at port {at}")


# The MB of a process that are in memory, by what they are: stacks of threads, which lie behind a page that nobody may touch; heaps of
# the C library, of which those of threads begin at each 64 MiB; files, such as the program; and the rest.
def shares(child):
    found, before = dict.fromkeys(("stacks", "heaps", "files", "rest"), 0), None
    with open(f"/proc/{child.pid}/smaps") as file:
        for line in file:
            words = re.match(r"([0-9a-f]+)-([0-9a-f]+) (\S+) \S+ \S+ (\d+)\s*(.*)", line)
            if words:
                start, end, rights, node, name = int(words[1], 16), int(words[2], 16), words[3], words[4], words[5]
                if node != "0":
                    kind = "files"
                elif name == "[heap]" or rights.startswith("rw") and start % 2**26 == 0:
                    kind = "heaps"
                elif rights.startswith("rw") and before == start:
                    kind = "stacks"
                else:
                    kind = "rest"
                before = end if rights.startswith("---") and end - start <= 65536 else None
            elif line.startswith("Rss:"):
                found[kind] += int(line.split()[1]) / 1024
    return found


# Ten waves of honest clients, and four that wait until all are done; what the server holds behind each, if all replies are kept.
def waves(at, entries, kept_for_threads=True):
    many = WAVES * WAVE + REST
    sparing = {**os.environ, "MALLOC_ARENA_MAX": "1", "GLIBC_TUNABLES": "glibc.malloc.tcache_count=0"}
    child = subprocess.Popen([server, str(at), str(many), str(entries), str(WAVE)], stdout=subprocess.PIPE, env=None if kept_for_threads else sparing)
    clients = [Client("honest", number % EACH, connected(at)) for number in range(many)]
    held_behind = []
    for wave in range(WAVES + 1):
        time.sleep(1)
        share = shares(child)
        held_behind.append((*held(child), share))
        if entries == EACH:
            memory, threads, fds = held_behind[-1][:3]
            print(f"  {f'behind wave {wave}' if wave else 'before the first'}: {memory:.2f} MB, of which stacks {share['stacks']:.2f}, heaps {share['heaps']:.2f}, files {share['files']:.2f}; {threads} threads, {fds} descriptors", flush=True)
        now = clients[wave * WAVE:(wave + 1) * WAVE]
        for client in now:
            client.start()
        for client in now:
            client.join(10 * SILENCE)
            if client.wrong or client.took is None:
                sys.exit(f"wave {wave + 1}: {client.wrong or 'not served'}")
    lines = child.communicate()[0].decode().splitlines()
    if child.returncode != 0 or lines[:-3] != [f"session {number} closed {REQUESTS}" for number in range(many)]:
        sys.exit(f"exit {child.returncode}: {lines}")
    alone(at)
    (first, one, *_, before), (last, ten, *_, behind) = held_behind[1], held_behind[WAVES]
    served = (WAVES - 1) * WAVE
    grown = {kind: (behind[kind] - before[kind]) * 1024 / served for kind in behind}
    print(f"  from the first wave to the tenth, entries {entries}{'' if kept_for_threads else ', no blocks kept for threads'}: {first:.2f} MB and {last:.2f}, {one} threads and {ten}: {(last - first) * 1024 / served:.0f} kB for each client, "
          + ", ".join(f"{kind} {kb:.0f}" for kind, kb in grown.items()) + f"; a thread's stack has {behind['stacks'] * 1024 / (ten - 1):.0f} kB in memory", flush=True)


for run in range(runs):
    random.seed(f"order {run}")
    kinds = [kind for kind in KINDS for _ in range(EACH)]
    random.shuffle(kinds)
    slowest, took, most, ends = serve(port + 5 * run, kinds)
    print(f"run {run + 1}: honest clients were served within {slowest:.1f} s, all sessions ended in {took:.1f} s; at most {most[0]:.1f} MB, {most[1]} threads, {most[2]} descriptors")
    print("  " + ", ".join(f"{name} {count}" for name, count in sorted(ends.items())), flush=True)
    slowest, took, most, ends = serve(port + 5 * run + 1, ["honest"] * EACH)
    print(f"  honest ones alone: within {slowest:.1f} s; at most {most[0]:.1f} MB, {most[1]} threads, {most[2]} descriptors", flush=True)
    waves(port + 5 * run + 2, EACH)
    waves(port + 5 * run + 3, 1)
    waves(port + 5 * run + 4, 1, False)
print(f"load {os.getloadavg()[0]:.0f} on {os.cpu_count()} processors")
PY

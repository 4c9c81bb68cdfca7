#!/usr/bin/env bash
# How long a server takes for 64 clients, each with 1,000 requests of ten problems, and how much memory;
# how much quicker sixteen workers are than one where each reply is long and all are kept; and whether its
# memory grows over ten runs of the same requests.
#
# usage: bench/serve.sh SERVER PROGRAM [PORT]
# SERVER is the built program `dcop_serve`, PROGRAM the built program `dcop`, PORT the first of twenty
# ports that are free, else 20000. The problems are random, of 12 variables of size 4 with 16 tables. Prints
# for 1, 4 and 16 workers, with a cache for all ten and with a cache of one entry, the time of a request
# and the most memory that the server had; and the time of a call of `dcop` on the same problems. Then 64
# clients ask for one problem of 1,000 variables without tables, whose reply is of 41 kB: for 1 and 16 workers
# it prints the replies of a second, best of five runs, and their ratio. There a plain program asks, which `rustc`
# builds from bench/serve/, so that asking takes little of the processors: it compares the first reply to each
# client, and drops the others. Then,
# for 1 and 6 workers and both caches, one server serves ten runs, each of 6 clients with 990 requests:
# after each it prints the memory that the server holds and the most that it held, and after all how
# much it holds at the end, as a ratio to what it held after the second run. The replies of all other parts are
# compared with what `dcop` writes.
set -eu
server=${1:?usage: bench/serve.sh SERVER PROGRAM [PORT]}
program=${2:?usage: bench/serve.sh SERVER PROGRAM [PORT]}
port=${3:-20000}
. "$(dirname "$0")/common.sh"
rustc -O --edition 2024 -o "$folder/asker" "$top/bench/serve/asker.rs"
python3 - "$server" "$program" "$port" "$folder" <<'PY'
import os, random, socket, struct, subprocess, sys, threading, time
from timing import best

server, program, port, folder = sys.argv[1:]
CLIENTS, BATCHES = 64, 100
RUNS, CLIENTS_A_RUN = 10, 6
PATIENCE = 600


def problem(number):
    random.seed(number)
    text = ["dcop 1"] + [f"var v{i} 4" for i in range(12)]
    pairs = {(random.randrange(i), i) for i in range(1, 12)}
    while len(pairs) < 16:
        pairs.add(tuple(sorted(random.sample(range(12), 2))))
    for i, j in sorted(pairs):
        text.append(f"table v{i} v{j} : " + " ".join(str(random.randrange(100)) for _ in range(16)))
    return "\n".join(text + ["end", ""]).encode()


def frame(payload):
    return struct.pack(">I", len(payload)) + payload


def connected(at):
    for _ in range(200):
        try:
            return socket.create_connection(("127.0.0.1", at), PATIENCE)
        except ConnectionRefusedError:
            time.sleep(0.05)
    sys.exit(f"nothing listens at port {at}")


# A server at this port, and so many connections to it.
def begin(at, clients, entries, workers):
    words = [server, str(at), str(clients), str(entries), str(workers)]
    child = subprocess.Popen(words, stdout=subprocess.PIPE)
    return child, [connected(at) for _ in range(clients)]


# Closes the connections to a server, which ends well behind so many requests. The most memory it had.
def end(child, connections, count):
    for connection in connections:
        connection.close()
    told = child.stdout.read().decode()
    _, status, used = os.wait4(child.pid, 0)
    assert os.waitstatus_to_exitcode(status) == 0 and f"served {count}\n" in told, (status, told[-200:])
    return used.ru_maxrss / 1024


# Asks for all problems so often over a connection.
def ask(connection, batches):
    with connection.makefile("rb") as stream:
        for _ in range(batches):
            connection.sendall(requests)
            if stream.read(len(replies)) != replies:
                wrong.append(connection)
                return


# Asks over connections one after another, and closes each then that does not stay.
def ask_in_turn(connections, batches, stay):
    for connection in connections:
        ask(connection, batches)
        if connection not in stay:
            connection.close()


# Asks over groups of connections beside each other, and how long that takes.
def ask_beside(groups, batches, stay=()):
    threads = [threading.Thread(target=ask_in_turn, args=(group, batches, stay)) for group in groups]
    begun = time.perf_counter()
    for thread in threads:
        thread.start()
    for thread in threads:
        thread.join()
    assert not wrong
    return time.perf_counter() - begun


# The memory that a process holds, and the most that it held, in MB.
def memory(child):
    with open(f"/proc/{child.pid}/status") as file:
        told = dict(line.split(":", 1) for line in file)
    return [int(told[name].split()[0]) / 1024 for name in ("VmRSS", "VmHWM")]


problems = [problem(number) for number in range(10)]
texts, alone, wrong = [], 0.0, []
for number, text in enumerate(problems):
    path = f"{folder}/problem{number}"
    with open(path, "wb") as file:
        file.write(text)
    took, _, reply = best([program, "solve", "--method", "dpop"], path)
    alone += took
    texts.append(reply)
print(f"a call of dcop: {alone / len(problems) * 1e6:.0f} us")
requests, replies = b"".join(map(frame, problems)), b"".join(map(frame, texts))

at = int(port)
count = CLIENTS * BATCHES * len(problems)
for workers in 1, 4, 16:
    for entries in 16, 1:
        child, connections = begin(at, CLIENTS, entries, workers)
        took = ask_beside([[connection] for connection in connections], BATCHES)
        most = end(child, connections, count)
        print(f"workers {workers}, entries {entries}: {took / count * 1e6:.1f} us a request, {most:.1f} MB")
        at += 1

# Long replies, all of them kept. One worker and sixteen have their turns after each other, so that a slow moment of the machine meets both.
LONG, TURNS = 1000, 5
text = "\n".join(["dcop 1", *(f"var v{i:031} 2" for i in range(LONG)), "end", ""]).encode()
path = f"{folder}/long"
with open(path, "wb") as file:
    file.write(text)
_, _, reply = best([program, "solve", "--method", "dpop"], path)
for name, payload in ("request", text), ("reply", reply):
    with open(f"{folder}/{name}", "wb") as file:
        file.write(frame(payload))


# The replies of a second, where so many workers answer so many clients, each so often.
def long_rate(at, workers, count):
    child = subprocess.Popen([server, str(at), str(CLIENTS), "16", str(workers)], stdout=subprocess.PIPE)
    connected(at).close()
    words = [f"{folder}/asker", str(at), str(CLIENTS - 1), str(count), f"{folder}/request", f"{folder}/reply"]
    asker = subprocess.Popen(words, stdin=subprocess.PIPE, stdout=subprocess.PIPE)
    assert asker.stdout.readline() == b"connected\n"
    begun = time.perf_counter()
    asker.communicate(b"go\n")
    took = time.perf_counter() - begun
    told = child.communicate()[0].decode()
    count *= CLIENTS - 1
    assert asker.returncode == 0 and child.returncode == 0 and f"served {count}\n" in told, (asker.returncode, told[-200:])
    return count / took


rates = {1: [], 16: []}
for _ in range(TURNS):
    for workers, found in rates.items():
        found.append(long_rate(at, workers, 200))
        at += 1
for workers, found in rates.items():
    print(f"workers {workers}, replies of {len(reply) / 1000:.1f} kB: {max(found):.0f} a second, {min(found):.0f} in the slowest run")
print(f"16 workers answer {max(rates[16]) / max(rates[1]):.2f} times as many as one")

# Clients are served in the order in which they came, each as soon as a worker is free: in each run come the
# next. The last stay while memory is read, and ask less than a session may, so that the server has not ended.
clients, batches = RUNS * CLIENTS_A_RUN, BATCHES - 1
for workers in 1, CLIENTS_A_RUN:
    turn = CLIENTS_A_RUN // workers
    for entries in 16, 1:
        child, connections = begin(at, clients, entries, workers)
        held = []
        for run in range(RUNS):
            firsts = range(run * CLIENTS_A_RUN, (run + 1) * CLIENTS_A_RUN, turn)
            groups = [connections[first:first + turn] for first in firsts]
            last = [group[-1] for group in groups]
            ask_beside(groups, batches, last)
            now, most = memory(child)
            held.append(now)
            print(f"workers {workers}, entries {entries}, run {run + 1}: {now:.2f} MB, {most:.2f} MB at most")
            for connection in last:
                connection.close()
        end(child, connections, clients * batches * len(problems))
        print(f"workers {workers}, entries {entries}: {held[-1] / held[1]:.4f} of the second run's")
        at += 1
PY

#!/bin/sh
# Asks a server to solve problems, over one connection, and prints each reply.
#
# usage: ./ask.sh PORT FILE...
# A server is the built program `dcop_serve`, as `dcop_serve 2000 1 16 1`, which listens at PORT of
# this machine. Each FILE holds a problem. A request is its length as four bytes, the greatest first,
# and its bytes; a reply is the same of the text that `dcop solve --method dpop` writes. Ends with 0
# where each reply came.
set -eu
port=${1:?usage: ./ask.sh PORT FILE...}
shift
exec python3 - "$port" "$@" <<'PY'
import socket, struct, sys


def take(stream, count):
    taken = stream.read(count)
    if len(taken) < count:
        sys.exit("the server closed the connection")
    return taken


with socket.create_connection(("127.0.0.1", int(sys.argv[1]))) as server:
    stream = server.makefile("rb")
    for path in sys.argv[2:]:
        with open(path, "rb") as file:
            problem = file.read()
        server.sendall(struct.pack(">I", len(problem)) + problem)
        (length,) = struct.unpack(">I", take(stream, 4))
        print(take(stream, length).decode(), end="")
PY

"""The program `dcop_serve`, where it is built: whose turn it is, and what a client may count on."""

from __future__ import annotations

import contextlib
import resource
import socket
import struct
import subprocess
import time
import unittest
from collections.abc import Iterator
from typing import BinaryIO

from .case import PAIR, SERVE

PATIENCE = 120
"""How many seconds a test waits for what comes in less than one on an idle machine."""
SHORT = 0.5
"""For how many seconds a test looks whether something comes that must not come."""


def frame(text: bytes) -> bytes:
    return struct.pack(">I", len(text)) + text


def free_port() -> int:
    """A port of this machine at which nobody listens."""
    with socket.socket() as taken:
        taken.bind(("127.0.0.1", 0))
        port: int = taken.getsockname()[1]
        return port


@contextlib.contextmanager
def serving(clients: int, workers: int, descriptors: int | None = None) -> Iterator[tuple[int, subprocess.Popen[str]]]:
    """A server for so many clients, which may have so many descriptors, and its port."""

    def limit() -> None:
        if descriptors is not None:
            resource.setrlimit(resource.RLIMIT_NOFILE, (descriptors, descriptors))

    port = free_port()
    words = [SERVE or "", str(port), str(clients), "16", str(workers)]
    child = subprocess.Popen(words, stdout=subprocess.PIPE, text=True, preexec_fn=limit)
    try:
        yield port, child
    finally:
        child.kill()
        child.communicate()


class Link:
    """A connection of a client."""

    def __init__(self, port: int, waits: bool = True):
        until = time.monotonic() + (PATIENCE if waits else 0)
        while True:
            try:
                self.socket = socket.create_connection(("127.0.0.1", port), PATIENCE)
                break
            except ConnectionRefusedError:
                if time.monotonic() > until:
                    raise
                time.sleep(0.01)
        self.stream: BinaryIO = self.socket.makefile("rb")

    def ask(self, text: str = PAIR) -> None:
        self.socket.sendall(frame(text.encode()))

    def reply(self) -> str:
        """The next reply, or nothing where the connection is closed."""
        length = self.stream.read(4)
        return self.stream.read(*struct.unpack(">I", length)).decode() if length else ""

    def hears_nothing(self) -> bool:
        """Whether nothing comes for a short time."""
        self.socket.settimeout(SHORT)
        try:
            self.socket.recv(1, socket.MSG_PEEK)
            return False
        except TimeoutError:
            return True
        finally:
            self.socket.settimeout(PATIENCE)

    def close(self) -> None:
        self.stream.close()
        self.socket.close()


@unittest.skipUnless(SERVE, "no dcop_serve")
class Server(unittest.TestCase):
    def solved(self, link: Link) -> None:
        link.ask()
        self.assertTrue(link.reply().startswith("status solved\nmethod dpop\n"))

    def told(self, child: subprocess.Popen[str]) -> list[str]:
        out, _ = child.communicate(timeout=PATIENCE)
        self.assertEqual(child.returncode, 0)
        return out.splitlines()

    def test_workers_take_the_next_client_when_they_are_free(self) -> None:
        with serving(5, 2) as (port, child):
            links = [Link(port) for _ in range(5)]
            for link in links:
                link.ask()
            self.assertIn("status solved", links[0].reply())
            self.assertIn("status solved", links[1].reply())
            self.assertTrue(links[2].hears_nothing())
            links[1].close()
            self.assertIn("status solved", links[2].reply())
            self.assertTrue(links[3].hears_nothing())
            links[2].close()
            self.assertIn("status solved", links[3].reply())
            self.solved(links[0])
            for link in (links[0], links[3], links[4]):
                link.socket.shutdown(socket.SHUT_WR)
            self.assertIn("status solved", links[4].reply())
            self.assertEqual(
                self.told(child),
                ["session 0 closed 2", *(f"session {number} closed 1" for number in range(1, 5)), "served 6", "looks 6", "end"],
            )
            for link in links:
                link.close()

    def test_each_worker_serves_a_client_where_there_is_one_more(self) -> None:
        with serving(17, 16) as (port, child):
            links = [Link(port) for _ in range(17)]
            for link in links[:16]:
                self.solved(link)
            links[5].close()
            self.solved(links[16])
            for link in links:
                link.close()
            self.assertEqual(self.told(child)[-3:], ["served 17", "looks 17", "end"])

    def test_a_client_that_gives_up_takes_no_other_with_it(self) -> None:
        with serving(4, 1) as (port, child):
            links = [Link(port) for _ in range(4)]
            for link in links[:3]:
                link.socket.setsockopt(socket.SOL_SOCKET, socket.SO_LINGER, struct.pack("ii", 1, 0))
                link.close()
            self.solved(links[3])
            links[3].close()
            lines = self.told(child)
            self.assertEqual(lines[3:], ["session 3 closed 1", "served 1", "looks 1", "end"])
            for line in lines[:3]:
                self.assertRegex(line, r"^session \d (read|closed|write) 0$")

    def test_want_of_descriptors_ends_the_server_and_closes_what_it_accepted(self) -> None:
        with serving(20, 2, descriptors=16) as (port, child):
            links = [Link(port)]
            with contextlib.suppress(OSError):
                for _ in range(17):
                    links.append(Link(port, waits=False))
            out, _ = child.communicate(timeout=PATIENCE)
            self.assertEqual((child.returncode, out), (8, "refused link\n"))
            for link in links:
                with contextlib.suppress(ConnectionResetError):
                    self.assertEqual(link.reply(), "")
                link.close()

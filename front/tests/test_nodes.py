"""Tests of nodes of agents over sockets: with few descriptors, with dials and accepts that fail, and with strangers who connect first.

Which port a node listens at is chosen by the system and known to nobody before. So a library in C, which stands before the C
library, is a stranger who always comes first: behind each `listen` it connects to that port, before the node does.
"""

from __future__ import annotations

import contextlib
import functools
import os
import resource
import shutil
import socket
import subprocess
import tempfile
import time
import unittest
from pathlib import Path

from .case import PROBLEMS, REAL
from .serving import PATIENCE

SOLVE = ("solve", "--method", "dpop", "--nodes", "2")
DRILL = ("drill", "--method", "dpop", "--vars", "8", "--seed", "1", "--nodes", "3")
REFUSED = (8, "refused link\n", "")
AT_ONCE = 25
"""A run that waits for nothing ends within so many seconds, however much else is run here: a node gives a connection 30."""

LIBRARY = r"""
#define _GNU_SOURCE
#include <dlfcn.h>
#include <errno.h>
#include <netinet/in.h>
#include <stdlib.h>
#include <sys/socket.h>
#include <unistd.h>
static int number(const char *name) { const char *word = getenv(name); return word ? atoi(word) : 0; }
static int dial(int fd, const struct sockaddr *to, socklen_t size) {
    return ((int (*)(int, const struct sockaddr *, socklen_t))dlsym(RTLD_NEXT, "connect"))(fd, to, size);
}
static void come(const struct sockaddr *to, socklen_t size) {
    struct linger reset = {1, 0};
    int stranger = socket(AF_INET, SOCK_STREAM | SOCK_CLOEXEC, 0);
    if (stranger < 0 || dial(stranger, to, size) != 0) abort();
    if (number("SPEAKS") && write(stranger, "I am no node", 12) != 12) abort();
    if (number("RESETS")) setsockopt(stranger, SOL_SOCKET, SO_LINGER, &reset, sizeof reset);
    if (number("RESETS") || number("LEAVES")) close(stranger);
}
/* STRANGERS connect to each new port, and stay, or leave, or reset what they opened; then the node goes on after SLOW milliseconds. */
int listen(int fd, int backlog) {
    struct sockaddr_in at;
    socklen_t size = sizeof at;
    if (((int (*)(int, int))dlsym(RTLD_NEXT, "listen"))(fd, backlog) != 0) return -1;
    if (getsockname(fd, (struct sockaddr *)&at, &size) != 0) abort();
    for (int k = number("STRANGERS"); k > 0; k--) come((struct sockaddr *)&at, size);
    usleep(number("SLOW") * 1000);
    return 0;
}
/* The dial with the number REFUSED fails. */
int connect(int fd, const struct sockaddr *to, socklen_t size) {
    static int came;
    if (++came != number("REFUSED")) return dial(fd, to, size);
    errno = EADDRNOTAVAIL;
    return -1;
}
/* The first accepts, so many as ABORTED says, find a connection that was given up; that with the number FULL has no descriptor left. */
int accept4(int fd, struct sockaddr *from, socklen_t *size, int flags) {
    static int came;
    came++;
    errno = came == number("FULL") ? EMFILE : ECONNABORTED;
    if (came <= number("ABORTED") || came == number("FULL")) return -1;
    return ((int (*)(int, struct sockaddr *, socklen_t *, int))dlsym(RTLD_NEXT, "accept4"))(fd, from, size, flags);
}
"""


def begun(words: tuple[str, ...], environment: dict[str, str], descriptors: int | None = None) -> subprocess.Popen[str]:
    """A run of the program over the pair, which is given no more descriptors than these."""
    limited = functools.partial(resource.setrlimit, resource.RLIMIT_NOFILE, (descriptors, descriptors)) if descriptors else None
    with open(PROBLEMS / "pair.dcop") as given:
        return subprocess.Popen(
            [str(REAL), *words], env={**os.environ, **environment}, preexec_fn=limited,
            stdin=given, stdout=subprocess.PIPE, stderr=subprocess.PIPE, text=True,
        )


def ended(process: subprocess.Popen[str]) -> tuple[int, str, str]:
    """How a run ends: its exit status, and what it wrote."""
    try:
        told, why = process.communicate(timeout=PATIENCE)
    finally:
        process.kill()
    return process.wait(), told, why


def run(words: tuple[str, ...], descriptors: int | None = None, **environment: str) -> tuple[int, str, str]:
    """How a run of the program ends."""
    return ended(begun(words, environment, descriptors))


def ports_of(process: int) -> set[int]:
    """The ports of 127.0.0.1 at which a process listens; none where it has ended."""
    try:
        held = {os.readlink(path) for path in Path(f"/proc/{process}/fd").iterdir()}
    except OSError:
        return set()
    lines = [line.split() for line in Path("/proc/net/tcp").read_text().splitlines()]
    return {int(it[1].split(":")[1], 16) for it in lines if it[1].startswith("0100007F:") and it[3] == "0A" and f"socket:[{it[9]}]" in held}


@unittest.skipUnless(REAL, "no built program")
class Descriptors(unittest.TestCase):
    def test_with_few_descriptors_each_run_ends(self):
        """Either with the answer, or with `refused link`; who has enough is not refused for having more."""
        for words in (SOLVE, DRILL):
            answer, answered = run(words), False
            self.assertEqual((answer[0], answer[1].splitlines()[0], answer[2]), (0, "status solved", ""))
            for descriptors in range(8, 33):
                with self.subTest(words=words, descriptors=descriptors):
                    end = run(words, descriptors)
                    self.assertIn(end, [answer] if answered else [answer, REFUSED])
                    answered = end == answer
            self.assertTrue(answered)
            self.assertEqual(run(words, 8), REFUSED)


@unittest.skipUnless(REAL and shutil.which("cc"), "no built program, or no C compiler")
class Strangers(unittest.TestCase):
    @classmethod
    def setUpClass(cls) -> None:
        folder = tempfile.TemporaryDirectory()
        cls.addClassCleanup(folder.cleanup)
        Path(folder.name, "first.c").write_text(LIBRARY)
        cls.library = f"{folder.name}/first.so"
        subprocess.run(["cc", "-O1", "-shared", "-fPIC", "-o", cls.library, f"{folder.name}/first.c", "-ldl"], check=True)
        cls.answers = {words: run(words) for words in (SOLVE, DRILL)}

    def test_a_stranger_who_connects_first_changes_nothing(self):
        for how in ({}, {"STRANGERS": "1"}, {"STRANGERS": "1", "SPEAKS": "1"}, {"STRANGERS": "1", "LEAVES": "1"}, {"STRANGERS": "100"},
                    {"STRANGERS": "100", "SPEAKS": "1", "RESETS": "1"}, {"ABORTED": "1"}, {"ABORTED": "3", "STRANGERS": "2"}):
            for words, answer in self.answers.items():
                with self.subTest(words=words, **how):
                    self.assertEqual(run(words, LD_PRELOAD=self.library, **how), answer)

    def test_a_dial_or_an_accept_that_fails_ends_it_at_once(self):
        for words, links in ((SOLVE, 1), (DRILL, 3)):
            for how in ("REFUSED", "FULL"):
                with self.subTest(words=words, how=how):
                    for at in range(1, links + 1):
                        begin = time.monotonic()
                        self.assertEqual(run(words, LD_PRELOAD=self.library, **{how: str(at)}), REFUSED)
                        self.assertLess(time.monotonic() - begin, AT_ONCE)

    def test_strangers_who_find_the_port_change_nothing(self):
        """Another process, which connects to each port at which the run listens, as often as it can."""
        for words, answer in self.answers.items():
            with self.subTest(words=words), contextlib.ExitStack() as strangers:
                came = 0
                for _ in range(20):
                    process = begun(words, {"LD_PRELOAD": self.library, "SLOW": "100"})
                    until = time.monotonic() + PATIENCE
                    while process.poll() is None and time.monotonic() < until:
                        for port in ports_of(process.pid):
                            with contextlib.suppress(OSError):
                                strangers.enter_context(socket.create_connection(("127.0.0.1", port), timeout=1))
                                came += 1
                    self.assertEqual(ended(process), answer)
                    if came:
                        break
                self.assertGreater(came, 0)

"""The process of a job: reads what is asked as JSON, does it as the commands do, and prints one line of JSON.

Standard output gets `{"answer": ..}` or `{"refused": SENTENCE}`; while it runs, each line of standard error says how far it is.
SIGINT stops it as ctrl-C stops a command: the best that was found is the answer.
"""

from __future__ import annotations

import io
import json
import os
import re
import signal
import sys
from typing import Any, TextIO

from ..explain import explain
from ..problem import Trouble
from ..programs import crash
from ..solving import Refused
from . import answers

KNOWN = re.compile(r"cost (-?[\d.]+), gap ([\d.]+)")
"""The cost and the gap in what a command says on a terminal."""

REFUSED = re.compile(r"sefwllon(?: \w+: error)?: ")
"""How a command begins what it refuses."""


class Teller(io.TextIOBase):
    """Takes what a command says on a terminal's standard error, and tells it as lines of JSON; a refusal is kept."""

    def __init__(self, out: TextIO):
        self.out = out
        self.refusal = ""

    def isatty(self) -> bool:
        return True

    def writable(self) -> bool:
        return True

    def write(self, text: str) -> int:
        for part in re.split(r"[\r\n]", text):
            said = part.replace("\x1b[K", "").strip()
            refused = REFUSED.match(said)
            if refused:
                self.refusal = said[refused.end() :]
            elif self.refusal and said:
                self.refusal += "\n" + said
            elif said:
                self.say(said)
        return len(text)

    def say(self, said: str) -> None:
        found = KNOWN.search(said)
        told: dict[str, Any] = {"said": said}
        if found:
            told["bounds"] = dict(zip(("cost", "gap"), map(float, found.groups())))
        print(json.dumps(told), file=self.out, flush=True)


def main() -> int:
    signal.signal(signal.SIGINT, signal.default_int_handler)
    os.environ["COLUMNS"] = "1000"  # what is said is not cut as for a terminal
    teller = Teller(sys.stderr)
    text = ""
    try:
        request = json.loads(sys.stdin.buffer.read())
        text = str(request.get("text", ""))
        sys.stderr = teller  # type: ignore[assignment]
        told = answers.KINDS[request.pop("kind")](request, teller)
    except Refused as refused:
        told = {"refused": crash(refused.answer) or explain(refused.answer.text, text)}
    except Trouble as trouble:
        told = {"refused": str(trouble)}
    except KeyboardInterrupt:
        told = {"refused": "it was stopped before there was an answer"}
    finally:
        sys.stderr = teller.out
    print(json.dumps(told, ensure_ascii=True, default=str))
    return 0


if __name__ == "__main__":
    sys.exit(main())

"""One run of `dcop_search` on a slice of a problem."""

from __future__ import annotations

from collections.abc import Mapping
from typing import Any

from .measured import measured


def run(job: dict[str, Any], programs: Mapping[str, str]) -> dict[str, object]:
    """What the program prints. A job has the slice's text, the program's words, the sum that is to be bettered, and the time limit."""
    ran = measured([programs["dcop_search"], *job["words"]], job["text"], clock=job["time"])
    return {"text": ran.text, "status": ran.status, "seconds": ran.seconds, "better": job["better"]}

"""What `sefwllon solve --cluster` does: it opens the pool, shares the problem out, and closes the pool."""

from __future__ import annotations

import argparse
import shutil
from contextlib import closing

from ..arguments import natural
from ..asking import aim_of, deadline
from ..best import Best
from ..problem import Trouble
from ..programs import Programs, missing
from ..progress import Progress
from ..translate import Translation
from .pool import Local, Pool
from .sharing import Sharing


def pool_at(address: str, programs: dict[str, str]) -> Pool:
    """The workers at an address: those of a Dask scheduler, or processes of this machine by `local` or `local:N`."""
    name, _, count = address.partition(":")
    if name == "local":
        if count and not (count.isdigit() and natural(count)):
            raise Trouble(f"{address} must name a number of processes, such as local:4")
        return Local(programs, int(count) if count else None)
    from .cluster import Cluster

    return Cluster(address, programs)


def shared_out(programs: Programs, told: Translation, options: argparse.Namespace, error: int) -> tuple[Best, dict[str, object]]:
    """Solves a problem by a pool. Gives what is known, and what is told of the slices in JSON."""
    if options.method not in ("auto", "search"):
        raise Trouble("--cluster works only with the search: leave --method out")
    if programs.search is None:
        raise Trouble(missing("dcop_search"))
    search = shutil.which(programs.search) or programs.search
    with closing(pool_at(options.cluster, {"dcop_search": search})) as pool, Progress(told, options.began) as progress:
        sharing = Sharing(
            told.problem,
            pool,
            search,
            aim_of(told, options, error),
            deadline(options),
            options.cells,
            progress.tell,
            Best(began=options.began),
        )
        return sharing.solve(), sharing.told()

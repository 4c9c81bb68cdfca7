"""The agents' tree of a problem, as `dcop tree` answers it: the figures of a run follow from it without a second program."""

from __future__ import annotations

from ..problem import Problem
from ..report import Node


def tree_of(problem: Problem) -> list[Node]:
    """The depth-first tree from the first variable, each node before those below it. A search goes to the lowest neighbour that it has
    not visited."""
    near = connected(problem)
    ways = [iter(sorted(it)) for it in near]
    place, order, parents, path = {0: 0}, [0], {0: -1}, [0]
    while path:
        at = next((it for it in ways[path[-1]] if it not in place), None)
        if at is None:
            path.pop()
            continue
        place[at], parents[at] = len(order), path[-1]
        order.append(at)
        path.append(at)
    above = [{it for it in near[at] if place[it] < place[at]} for at in range(len(near))]
    for at in reversed(order[1:]):
        above[parents[at]] |= above[at] - {parents[at]}
    names = [variable.name for variable in problem.variables]
    root, *below = order
    nodes = [Node(names[at], names[parents[at]], [names[it] for it in sorted(above[at], key=place.__getitem__)]) for at in below]
    return [Node(names[root], None), *nodes]


def connected(problem: Problem) -> list[set[int]]:
    """For each variable those that it shares a table or a joint with. A joint ties the first variable to that of each other part."""
    near = problem.neighbours()
    seen: set[int] = set()
    for first in range(len(near)):
        if first in seen:
            continue
        if first:
            near[0].add(first)
            near[first].add(0)
        seen.add(first)
        reached = [first]
        while reached:
            new = near[reached.pop()] - seen
            seen |= new
            reached += new
    return near

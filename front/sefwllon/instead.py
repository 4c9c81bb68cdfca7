"""A problem that is solved by a smaller one: each part of that has a solver of its own."""

from __future__ import annotations

from typing import TYPE_CHECKING

from .best import SMALLER, is_better
from .smaller import Smaller

if TYPE_CHECKING:
    from .solving import Solver


class Instead:
    """The solvers of the parts of a smaller problem, and what they come to for the problem."""

    def __init__(self, solver: Solver, smaller: Smaller):
        self.solver, self.smaller = solver, smaller
        self.nodes, self.messages = solver.best.nodes, solver.best.messages
        self.parts = [solver.part(part.problem, self.gather) for part in smaller.parts]
        self.lifted: list[int | None] | None = None
        """What the parts' assignments cost that were lifted last."""
        if solver.best.values is not None:
            for it, values in zip(self.parts, smaller.lowered(solver.best.values)):
                it.best.start(values, it.problem)

    @property
    def decided(self) -> bool:
        """Whether nothing is left to ask of the parts."""
        return all(it.decided for it in self.parts)

    def go(self, budget: int, first: bool = False) -> None:
        """Takes a step with each part that is not decided: at first by DPOP, and then by the search with this budget."""
        for it in self.parts:
            it.aim.error = self.solver.aim.allowed(self.solver.best) if len(self.parts) == 1 else 0
            it.advance(budget, first)
            self.gather()
            self.solver.best.stopped = it.best.stopped
            if self.solver.best.stopped or (self.solver.decided and not first):
                return
        self.gather()

    def gather(self) -> None:
        """Takes what the parts come to: a bound, and an assignment that is lifted and added up."""
        best, goal = self.solver.best, self.solver.problem.goal
        best.nodes, best.messages = self.nodes + sum(it.best.nodes for it in self.parts), self.messages + sum(it.best.messages for it in self.parts)
        bounds = [it.best.bound(goal) for it in self.parts]
        known = [bound for bound in bounds if bound is not None]
        if len(known) == len(bounds) and any(it.best.proved is not None for it in self.parts):
            bound = self.smaller.sum_of(known)
            now = best.bound(goal)
            if now is None or is_better(now, bound, goal):
                best.method, best.smaller = SMALLER, True
                best.narrow(bound, goal)
        values = [it.best.values for it in self.parts if it.best.values is not None]
        costs = [it.best.cost for it in self.parts]
        if len(values) == len(bounds) and costs != self.lifted:
            self.lifted = costs
            self.take(self.smaller.lifted(values))
        best.settle(goal)

    def take(self, values: list[int]) -> None:
        """Takes an assignment where it is better than the one that is known."""
        best, problem = self.solver.best, self.solver.problem
        cost = problem.cost(values)
        if best.cost is None or is_better(cost, best.cost, problem.goal):
            best.method = SMALLER
            best.take_better(values, cost, problem.goal)

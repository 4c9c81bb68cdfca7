"""What `check` has to say of a report with tables, reckoned anew from docs/formats/checking.md."""
import itertools


def turned(problem):
    """The costs of the tables as a least sum is sought, and the sum of the greatest cells."""
    if problem.goal == "min":
        return [list(table.costs) for table in problem.tables], 0
    greatest = [max(table.costs) for table in problem.tables]
    return [[most - cost for cost in table.costs] for table, most in zip(problem.tables, greatest)], sum(greatest)


def ties(problem):
    """The pairs that share a table, and those that join a part without tables to the part of variable 0."""
    pairs, part = set(), list(range(len(problem.variables)))
    for table in problem.tables:
        for one, other in itertools.permutations(table.scope, 2):
            pairs.add((one, other))
            old, new = part[one], part[other]
            part = [new if it == old else it for it in part]
    firsts = {part[v]: v for v in reversed(range(len(part)))}
    for first in firsts.values():
        if first:
            pairs |= {(0, first), (first, 0)}
    return pairs


def verdict(problem, lines):
    """The answer of `check` on a report that it can read, by the words of its lines."""
    found = difference(problem, lines)
    if found:
        return f"status no\ndiffers {found}\nend\n"
    cost = next(int(words[1]) for words in lines if words[:1] == ["cost"])
    return f"status yes\ncost {cost}\nerror 0\nend\n"


def difference(problem, lines):
    """The first difference, None where the report holds."""
    told = {words[0]: words[1] for words in reversed(lines) if len(words) == 2}
    names = [v.name for v in problem.variables]
    sizes = [v.size for v in problem.variables]
    values = [v.value_of(words[2]) if v.values else int(words[2]) for v, words in zip(problem.variables, (w for w in lines if w[:1] == ["value"]))]
    parent, scope, cells = {}, {}, {}
    for words in lines:
        if words[:1] == ["util"]:
            first = words.index(":")
            second = words.index(":", first + 1)
            at = names.index(words[1])
            parent[at] = None if words[2] == "-" else names.index(words[2])
            scope[at] = [names.index(word) for word in words[first + 1:second]]
            cells[at] = [int(word) for word in words[second + 1:]]
    count, pairs = len(names), ties(problem)
    roots = sum(above is None for above in parent.values())
    if roots != 1:
        return f"tree roots {roots}"
    above = {}
    for at in range(count):
        way, here = [], parent[at]
        while here is not None and len(way) <= count:
            way.append(here)
            here = parent[here]
        if len(way) > count:
            return f"tree loop {names[at]}"
        above[at] = way[::-1]
    for one, other in sorted(pairs):
        if one < other and one not in above[other] and other not in above[one]:
            return f"tree pair {names[one]} {names[other]}"
    for at in range(count):
        branch = [v for v in range(count) if v == at or at in above[v]]
        if scope[at] != [v for v in above[at] if any((v, low) in pairs for low in branch)]:
            return f"scope {names[at]}"
    costs, most = turned(problem)
    for at in range(count):
        own = [k for k, table in enumerate(problem.tables) if at in table.scope and all(v == at or v in above[at] for v in table.scope)]
        children = [v for v in range(count) if parent[v] == at]
        for number, choice in enumerate(itertools.product(*(range(sizes[v]) for v in scope[at]))):
            known = dict(zip(scope[at], choice))
            for value in range(sizes[at]):
                known[at] = value
                right = sum(costs[k][place(problem.tables[k].scope, known, sizes)] for k in own)
                right += sum(cells[v][place(scope[v], known, sizes)] for v in children)
                if cells[at][number] > right:
                    return f"cell {names[at]} {number} {value} left {cells[at][number]} right {right}"
    cost = problem.cost(values)
    if int(told["cost"]) != cost:
        return f"cost left {int(told['cost'])} right {cost}"
    root = next(at for at in parent if parent[at] is None)
    least = cost if problem.goal == "min" else most - cost
    if cells[root][0] != least:
        return f"root left {cells[root][0]} right {least}"
    for what, right in (("lower", cost), ("upper", cost), ("error", 0), ("deliveries", 2 * (count - 1))):
        if int(told[what]) != right:
            return f"{what} left {int(told[what])} right {right}"
    return "status spent" if told["status"] == "spent" else None


def place(scope, known, sizes):
    """The number of a cell, the last variable's value moving fastest."""
    at = 0
    for variable in scope:
        at = at * sizes[variable] + known[variable]
    return at

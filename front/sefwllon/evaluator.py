"""Costs told by formulas: a small part of Python, evaluated without Python's `eval`."""

from __future__ import annotations

import ast
import math
import operator
from collections.abc import Iterable, Iterator
from fractions import Fraction

from .problem import Trouble

_BINARY = {
    ast.Add: operator.add,
    ast.Sub: operator.sub,
    ast.Mult: operator.mul,
    ast.Div: operator.truediv,
    ast.FloorDiv: operator.floordiv,
    ast.Mod: operator.mod,
}
_COMPARE = {
    ast.Eq: operator.eq,
    ast.NotEq: operator.ne,
    ast.Lt: operator.lt,
    ast.LtE: operator.le,
    ast.Gt: operator.gt,
    ast.GtE: operator.ge,
    ast.In: lambda a, b: a in b,
    ast.NotIn: lambda a, b: a not in b,
    ast.Is: operator.is_,
    ast.IsNot: operator.is_not,
}
_UNARY = {ast.UAdd: operator.pos, ast.USub: operator.neg, ast.Not: operator.not_}
_CALLS = {
    "abs": abs, "min": min, "max": max, "round": round, "int": int, "float": lambda a: exactly(float(a)), "sum": sum, "len": len,
    "pow": lambda a, b: _power(a, b), "sqrt": math.sqrt, "str": lambda a: str(float(a) if isinstance(a, Fraction) else a), "bool": bool,
    "range": lambda *ends: _range(*ends), "any": any, "all": all, "sorted": sorted, "list": list, "tuple": tuple, "set": set,
    "zip": lambda *parts: list(zip(*parts)), "enumerate": lambda *parts: list(enumerate(*parts)),
}  # fmt: skip
_NAMES = {"True": True, "False": False, "None": None, "inf": math.inf, "infinity": math.inf, "pi": math.pi}
_MOST_STEPS = 10_000
_MOST_POWER = 64
_MOST_BITS = 1_000
"""How long a number or a fraction's denominator may be that is reckoned with exactly."""
_Loops = (ast.ListComp, ast.SetComp, ast.DictComp, ast.GeneratorExp)


class _Return(Exception):
    def __init__(self, value: object):
        self.value = value


def _power(a: object, b: object) -> object:
    if not isinstance(a, (int, float, Fraction)) or not isinstance(b, (int, float, Fraction)) or abs(b) > _MOST_POWER or abs(a) > 1e15:
        raise Trouble("a power in a formula is too large")
    if isinstance(a, int) and isinstance(b, int) and b < 0:
        return Fraction(a) ** b
    return a**b


def _range(*ends: int) -> list[int]:
    told = range(*ends)
    if len(told) > _MOST_STEPS:
        raise Trouble("a range in a formula is too long")
    return list(told)


def exactly(value: object) -> object:
    """A value of a variable, or a number of a formula, as formulas reckon with it: decimals as they are written, so 0.1 is a tenth."""
    if isinstance(value, float) and math.isfinite(value):
        return Fraction(repr(value))
    return value.meant if isinstance(value, Switch) else value


class Switch:
    """A word that YAML takes as true or false: `on`, `off`, `yes` or `no`. It is told as it is written, and formulas have what is meant."""

    def __init__(self, word: str):
        self.word = word
        self.meant = word.lower() in ("on", "yes")

    def __str__(self) -> str:
        return self.word

    def __repr__(self) -> str:
        return repr(self.word)

    def __eq__(self, other: object) -> bool:
        return isinstance(other, Switch) and other.word == self.word

    def __hash__(self) -> int:
        return hash(self.word)

    def __bool__(self) -> bool:
        return self.meant


def free_names(node: ast.AST, bound: frozenset[str] = frozenset()) -> Iterator[str]:
    """The names that a part of a formula takes from outside; those of a comprehension's own loops are its own."""
    if isinstance(node, ast.Name):
        if node.id not in bound and not isinstance(node.ctx, ast.Store):
            yield node.id
    elif isinstance(node, _Loops):
        inner = bound
        for loop in node.generators:
            yield from free_names(loop.iter, inner)
            inner |= {part.id for part in ast.walk(loop.target) if isinstance(part, ast.Name)}
            for test in loop.ifs:
                yield from free_names(test, inner)
        for part in (node.key, node.value) if isinstance(node, ast.DictComp) else (node.elt,):
            yield from free_names(part, inner)
    else:
        for child in ast.iter_child_nodes(node):
            yield from free_names(child, bound)


class Formula:
    """A formula: an expression, or the lines of a function with `if`, assignments and `return`."""

    def __init__(self, text: str, where: str):
        self.where = where
        self.text = text.strip()
        try:
            self.body: list[ast.stmt] = [ast.Return(ast.parse(self.text, mode="eval").body)]
        except SyntaxError:
            try:
                lines = "\n".join("    " + line for line in self.text.split("\n"))
                (function,) = ast.parse(f"def formula():\n{lines}\n").body
                assert isinstance(function, ast.FunctionDef)
                self.body = function.body
            except (SyntaxError, ValueError) as fault:
                raise Trouble(f"{where}: the formula can't be read: {fault}") from None

        for node in (node for part in self.body for node in ast.walk(part)):
            if isinstance(node, (ast.Lambda, ast.Attribute)):
                raise Trouble(f"{where}: a formula may not have `{ast.unparse(node)}`")

    def names(self) -> list[str]:
        """The names that it takes from outside, in the order in which they stand."""
        assigned = {
            target.id
            for part in self.body
            for node in ast.walk(part)
            if isinstance(node, ast.Assign)
            for target in node.targets
            if isinstance(target, ast.Name)
        }
        found: list[str] = []
        for name in (name for part in self.body for name in free_names(part)):
            if name not in (*_NAMES, *_CALLS, *assigned, *found):
                found.append(name)
        return sorted(found, key=lambda name: self.text.find(name))

    def terms(self) -> list[Formula]:
        """The parts whose sum an expression is; itself where it is no sum."""
        match self.body:
            case [ast.Return(value=ast.expr() as whole)]:
                parts = [Formula(text, self.where) for text in map(ast.unparse, summed(whole))]
                return parts if len(parts) > 1 else [self]
        return [self]

    def value(self, given: dict[str, object]) -> object:
        """What it gives where the names have these values."""
        self.steps = 0
        names = {name: exactly(value) for name, value in given.items()}
        try:
            self._run(self.body, names)
        except _Return as result:
            return result.value
        except (TypeError, ValueError, ZeroDivisionError, OverflowError, LookupError) as fault:
            raise Trouble(f"{self.where}: the formula fails at {shown(given)} ({type(fault).__name__}: {fault})") from None
        raise Trouble(f"{self.where}: the formula has no result at {shown(given)}")

    def _run(self, body: list[ast.stmt], names: dict[str, object]) -> None:
        for part in body:
            match part:
                case ast.Return(value=value) if value is not None:
                    raise _Return(self._eval(value, names))
                case ast.If():
                    self._run(part.body if self._eval(part.test, names) else part.orelse, names)
                case ast.Assign(targets=[ast.Name(id=name)]):
                    names[name] = self._eval(part.value, names)
                case ast.Pass():
                    pass
                case _:
                    raise Trouble(f"{self.where}: a formula may not have `{ast.unparse(part)}`")

    def _eval(self, node: ast.expr, names: dict[str, object]) -> object:
        self.steps += 1
        if self.steps > _MOST_STEPS:
            raise Trouble(f"{self.where}: the formula takes too long to compute")
        match node:
            case ast.Constant(value=value) if isinstance(value, (int, float, str, bool, type(None))):
                return exactly(value)
            case ast.Name(id=name):
                if name in names:
                    return names[name]
                if name in _NAMES:
                    return _NAMES[name]
                raise Trouble(f"{self.where}: the formula names {name}, which is not a variable")
            case ast.Tuple() | ast.List() | ast.Set() | ast.Dict() | ast.ListComp() | ast.GeneratorExp() | ast.SetComp() | ast.DictComp():
                return self._several(node, names)
            case ast.IfExp():
                return self._eval(node.body if self._eval(node.test, names) else node.orelse, names)
            case ast.BoolOp():
                return self._logic(node, names)
            case ast.UnaryOp() if type(node.op) in _UNARY:
                return _UNARY[type(node.op)](self._eval(node.operand, names))
            case ast.BinOp() if type(node.op) is ast.Pow:
                return _power(self._eval(node.left, names), self._eval(node.right, names))
            case ast.BinOp() if type(node.op) in _BINARY:
                return self._binary(node, names)
            case ast.Compare():
                return self._compare(node, names)
            case ast.Call(func=ast.Name(id=name), args=args, keywords=[]) if name in _CALLS:
                return _CALLS[name](*(self._eval(arg, names) for arg in args))
            case ast.Subscript():
                return self._eval(node.value, names)[self._eval(node.slice, names)]
            case _:
                raise Trouble(f"{self.where}: a formula may not have `{ast.unparse(node)}`")

    def _several(self, node: ast.expr, names: dict[str, object]) -> object:
        """A list, a set or a dict."""
        match node:
            case ast.Tuple() | ast.List():
                return [self._eval(part, names) for part in node.elts]
            case ast.Set():
                return {self._eval(part, names) for part in node.elts}
            case ast.Dict() if None not in node.keys:
                pairs = zip(node.keys, node.values)
                return {self._eval(key, names): self._eval(value, names) for key, value in pairs if key is not None}
            case ast.ListComp() | ast.GeneratorExp():
                return [self._eval(node.elt, inner) for inner in self._loops(node.generators, names)]
            case ast.SetComp():
                return {self._eval(node.elt, inner) for inner in self._loops(node.generators, names)}
            case ast.DictComp():
                return {self._eval(node.key, inner): self._eval(node.value, inner) for inner in self._loops(node.generators, names)}
            case _:
                raise Trouble(f"{self.where}: a formula may not have `{ast.unparse(node)}`")

    def _loops(self, loops: list[ast.comprehension], names: dict[str, object]) -> Iterator[dict[str, object]]:
        """The names in each turn of a comprehension."""
        if not loops:
            yield names
            return
        several = self._eval(loops[0].iter, names)
        if not isinstance(several, Iterable):
            raise Trouble(f"{self.where}: `{ast.unparse(loops[0].iter)}` is not a list, but `for` needs one")
        for value in several:
            inner = dict(names)
            self._bind(loops[0].target, value, inner)
            if all(self._eval(test, inner) for test in loops[0].ifs):
                yield from self._loops(loops[1:], inner)

    def _bind(self, target: ast.expr, value: object, names: dict[str, object]) -> None:
        """Gives a value to a loop's name, or its parts to several names."""
        match target:
            case ast.Name(id=name):
                names[name] = value
            case ast.Tuple(elts=targets) | ast.List(elts=targets) if isinstance(value, (list, tuple, str)) and len(value) == len(targets):
                for part, told in zip(targets, value):
                    self._bind(part, told, names)
            case _:
                raise Trouble(f"{self.where}: `{ast.unparse(target)}` can't take the value {value!r}")

    def _binary(self, node: ast.BinOp, names: dict[str, object]) -> object:
        left = self._eval(node.left, names)
        right = self._eval(node.right, names)
        numbers = isinstance(left, (int, float, Fraction)) and isinstance(right, (int, float, Fraction))
        if not numbers and not (isinstance(node.op, ast.Add) and isinstance(left, str) and isinstance(right, str)):
            raise Trouble(f"{self.where}: `{ast.unparse(node)}` calculates with something that is not a number")
        if isinstance(node.op, ast.Div) and isinstance(left, int) and isinstance(right, int):
            return Fraction(left, right)
        result = _BINARY[type(node.op)](left, right)
        if isinstance(result, int) and result.bit_length() > _MOST_BITS:
            raise Trouble(f"{self.where}: `{ast.unparse(node)}` is too large")
        return float(result) if isinstance(result, Fraction) and result.denominator.bit_length() > _MOST_BITS else result

    def _logic(self, node: ast.BoolOp, names: dict[str, object]) -> object:
        wanted = isinstance(node.op, ast.Or)
        result: object = not wanted
        for part in node.values:
            result = self._eval(part, names)
            if bool(result) == wanted:
                break
        return result

    def _compare(self, node: ast.Compare, names: dict[str, object]) -> bool:
        left = self._eval(node.left, names)
        for how, part in zip(node.ops, node.comparators):
            right = self._eval(part, names)
            if not _COMPARE[type(how)](left, right):
                return False
            left = right
        return True


def summed(node: ast.expr, sign: bool = True) -> Iterator[ast.expr]:
    """The parts whose sum an expression is."""
    match node:
        case ast.BinOp(left=left, op=ast.Add() | ast.Sub() as op, right=right):
            yield from summed(left, sign)
            yield from summed(right, sign == isinstance(op, ast.Add))
        case ast.UnaryOp(op=ast.USub(), operand=operand):
            yield from summed(operand, not sign)
        case ast.Call(func=ast.Name(id="sum"), args=[ast.List(elts=parts) | ast.Tuple(elts=parts)], keywords=[]) if parts:
            for part in parts:
                yield from summed(part, sign)
        case _:
            yield node if sign else ast.UnaryOp(ast.USub(), node)


def shown(given: dict[str, object]) -> str:
    """The values of names, for people."""
    return ", ".join(f"{name} = {value!r}" for name, value in given.items())


INFINITE = {
    "min": "with the goal min an infinite cost must be infinity, not -infinity",
    "max": "with the goal max an infinite cost must be -infinity, not infinity",
}
"""What is wrong with an infinite cost that does not forbid, by the goal."""


def exact(number: object, where: str) -> Fraction | None:
    """A number exactly as it is written, 0.1 as a tenth; None for an infinite one."""
    if isinstance(number, (int, Switch)):
        return Fraction(int(bool(number)) if isinstance(number, Switch) else int(number))
    if isinstance(number, Fraction):
        return number
    if isinstance(number, float):
        if math.isnan(number):
            raise Trouble(f"{where}: the cost is not a number")
        return None if math.isinf(number) else Fraction(repr(number))
    if isinstance(number, str):
        try:
            value = float(number)
            return None if math.isinf(value) else Fraction(number.strip())
        except ValueError:
            pass
    raise Trouble(f"{where}: a cost must be a number, not {number!r}")

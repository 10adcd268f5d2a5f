#!/usr/bin/env python3
"""Every path through the function that finds a word's place, callees included, with the comparisons on it (M-101).

    tests/paths.py      a second, or a minute where the crates below requests have yet to be proved

It reads the code as the prover has it (`rt check --generated`), so that it sees what a `match`, and a flag that a callee returns, come to. A
comparison is settled where those before it on its path leave only one answer; so is a flag that the path has made true or false. To
find that out, numbers are tried: an open comparison has numbers for both of its answers. As numbers are only compared, small ones do.
Prints each path and the place that it finds, and ends with 1 where something settled is asked.
"""
import itertools
import re
import subprocess
import sys
import tempfile
from pathlib import Path

ROOT = Path(__file__).resolve().parent.parent
FUNCTION = "requests::place::find_place"
SOURCE = ROOT / "crates/requests/src/place.rt"
STRUCT = ROOT / "crates/collector/src/state.rt"
VARIANTS = ["Copy", "At"]

# a test by its name in the compiler's code: what it says, its sign, and the sign where it does not hold
TESTS = {
    "eq": (lambda x, y: x == y, "=", "≠"),
    "ne": (lambda x, y: x != y, "≠", "="),
    "lt": (lambda x, y: x < y, "<", "≥"),
    "le": (lambda x, y: x <= y, "≤", ">"),
}


def parsed(text):
    """A term in brackets as nested lists; the modules that its words stand in are left out."""
    stack = [[]]
    for token in re.findall(r"[()]|[^\s(),]+", text):
        if token == "(":
            stack.append([])
        elif token == ")":
            last = stack.pop()
            stack[-1].append(last)
        else:
            stack[-1].append(token if token.endswith(".name") else token.removeprefix("Syntax.").removeprefix("List."))
    return stack[0][0] if len(stack[0]) == 1 else stack[0]


def listed(term):
    """The elements of a list of the prover's code."""
    while term != "[]":
        yield term[1]
        term = term[2]


class Code:
    """The code of each function, by its name, read when it is asked for."""

    def __init__(self):
        self.folder = tempfile.TemporaryDirectory()
        self.read = {}

    def __getitem__(self, name):
        if name not in self.read:
            crate, *path = name.split("::")
            command = ["rt", "check", "--generated", self.folder.name, "--start", path[-1]]
            done = subprocess.run(command, cwd=ROOT / "crates" / crate, stdout=subprocess.PIPE, stderr=subprocess.STDOUT, text=True)
            file = Path(self.folder.name, f"Rattle-{crate}-proofs", *path, "Code/Mir.antt")
            if not file.exists():
                sys.exit(f"no code of {name}:\n{done.stdout}")
            self.read[name] = self.named(file.read_text())
        return self.read[name]

    def named(self, text):
        """The body, the names that it is put together from replaced by what they stand for, and a callee's symbol by its name."""
        callees = {}
        for module, other in re.findall(r"^use Rattle\.(\S+)\.Symbol(?: as (\S+))?$", text, re.M):
            crate, _, *path = module.split(".")
            callees[f"{other or 'Symbol'}.name"] = "::".join([crate, *path])
        bodies = dict(re.findall(r"^((?:by_name-)?[st]-\d+) =\s((?:.|\n(?! *\n))*)", text, re.M))

        def whole(term):
            if isinstance(term, list):
                return [whole(part) for part in term]
            return whole(parsed(bodies[term])) if term in bodies else callees.get(term, term)

        # with types of a name, the code is put together under `by_name`, and then spelled out
        return next(whole(name) for name in ("by_name-t-1", "by_name-s-1", "t-1", "s-1") if name in bodies)


def holds(test, numbers):
    """Whether a test holds of the numbers that its names have."""
    name, left, right = test
    return TESTS[name][0](numbers.get(left, left), numbers.get(right, right))


def answers_left(asked, test):
    """The answers that a test can have after those before it."""
    if isinstance(test, bool):
        return {test}
    terms = [term for one, _ in asked + [(test, None)] for term in one[1:]]
    names = sorted({term for term in terms if isinstance(term, str)})
    largest = max((term for term in terms if isinstance(term, int)), default=0)
    left = set()
    for chosen in itertools.product(range(largest + 3), repeat=len(names)):
        numbers = dict(zip(names, chosen))
        if all(holds(one, numbers) == answer for one, answer in asked):
            left.add(holds(test, numbers))
        if len(left) == 2:
            break
    return left


def shown(asked):
    """The tests of a path, as they came out."""
    return ", ".join(f"{left} {TESTS[name][1 if answer else 2]} {right}" for (name, left, right), answer in asked) or "nothing"


class Walk:
    """Paths through code. A value is a name, a number, a bool, a test, or a list of parts."""

    def __init__(self, code):
        self.code = code
        self.fields = re.findall(r"pub (\w+):", STRUCT.read_text())
        self.settled = []

    def operand(self, term, values):
        if term in ("opd_true", "opd_false"):
            return term == "opd_true"
        if term[0] == "int":
            return int(term[2])
        _, local, steps = term[1]
        value = values[local]
        for step in listed(steps):
            if step[0] == "field" and value == "s":
                value = self.fields[int(step[1])]
        return value

    def computed(self, term, values):
        kind = term[0]
        if kind == "aggregate":
            return [self.operand(part, values) for part in listed(term[1])]
        if kind == "rv_opd" or kind == "op1" and term[1][0] == "cast":
            return self.operand(term[-1], values)
        if kind == "op2":
            name = term[1] if isinstance(term[1], str) else term[1][0]
            left, right = self.operand(term[2], values), self.operand(term[3], values)
            if name in TESTS:
                return (name, left, right)
            if name == "mul":
                return left  # an index, times the bytes of an element
            if name in ("offset", "add"):
                return f"{left}[{right}]" if name == "offset" else f"{left} + {right}"
        sys.exit(f"not understood: {term}")

    def paths(self, term, values, asked):
        """Each way through a piece of code: on, out of so many blocks, or returned; then the values, and the tests so far."""
        if term == "skip":
            yield "on", values, asked
        elif term == "return":
            yield "returned", values, asked
        elif term[0] == "exit":
            yield int(term[1]), values, asked
        elif term[0] == "assign":
            yield "on", {**values, term[1][1]: self.computed(term[2], values)}, asked
        elif term[0] == "seq":
            for way, then, so_far in self.paths(term[1], values, asked):
                yield from self.paths(term[2], then, so_far) if way == "on" else [(way, then, so_far)]
        elif term[0] == "block":
            for way, then, so_far in self.paths(term[1], values, asked):
                yield "on" if way == 0 else way - 1 if isinstance(way, int) else way, then, so_far
        elif term[0] == "call":
            arguments = {str(i): self.operand(part, values) for i, part in enumerate(listed(term[2]), 1)}
            for _, then, so_far in self.paths(self.code[term[1]], arguments, asked):
                yield "on", {**values, term[3][1]: then["0"]}, so_far
        elif term[0] == "cond":
            test = self.operand(term[1], values)
            left = answers_left(asked, test)
            if len(left) < 2:
                self.settled.append(f"settled: {'a flag' if isinstance(test, bool) else shown([(test, True)])}, after {shown(asked)}")
            for answer in sorted(left, reverse=True):
                so_far = asked if isinstance(test, bool) else asked + [(test, answer)]
                yield from self.paths(term[2 if answer else 3], values, so_far)
        else:
            sys.exit(f"not understood: {term[0]}")


def main():
    walk = Walk(Code())
    head = re.search(r"fn find_place\(([^)]*)\)", SOURCE.read_text())[1]
    names = {str(i): part.split(":")[0].strip() for i, part in enumerate(head.split(","), 1)}
    for number, (_, values, asked) in enumerate(walk.paths(walk.code[FUNCTION], names, []), 1):
        variant, *parts = values["0"]
        print(f"{number}. {shown(asked)}: {VARIANTS[variant]} {' '.join(parts)}".rstrip())
    if walk.settled:
        sys.exit("\n".join(walk.settled))
    print("paths: nothing settled is asked")


if __name__ == "__main__":
    main()

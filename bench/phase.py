#!/usr/bin/env python3
"""Builds modules of growing size that give the simplify phase much to do, with the program `coreopt`, and prints for each its nodes, the steps of its log, the seconds of the processor that
lint and build take (the least of three runs; where a run takes five seconds or more, of that one alone), and, of the build, the steps a second, the nanoseconds a node, the nanoseconds a step
and node of the definition in which the step is taken, since a step copies what it makes, and the peak memory. There are fifteen kinds of modules: 400 lets of variables, one in another, around
a body of many variables, where each binds the variable of the one before; the same, where the body uses all of them; definitions of 450 lets that are used once, of a case of a constructor
below 450 lets that stay, and of a lambda of 225 arguments; definitions that nothing needs, in a chain; a group of recursive binds, to which no row applies; definitions each with an applied
lambda, with a cast between equal types, with a case of a name that is known, and with one of a name of which nothing is known; a case whose alternatives are dead; definitions, and binds of a
group, each of which is known as soon as the one behind it is, so that all binds are searched for each step; and binds each of which is known as soon as the one before it is, for
comparison. It takes some minutes. Run it from anywhere, on a machine where the program is built (`./coreopt build examples/Shapes.fc`), or with another program as its only word."""
import os
import re
import sys
import tempfile
from collections import Counter
from importlib.machinery import SourceFileLoader
from importlib.util import module_from_spec, spec_from_loader

from measured import TOP, best, write

RUNS = 3
# the seconds of a run that is not repeated
LONG = 5
FUNCTION = "(fun (fun T T) (fun T T T) T T)"


def interfaces():
    """The script of the gate that knows how nodes are counted."""
    loader = SourceFileLoader("interfaces", os.path.join(TOP, ".ci", "interfaces"))
    module = module_from_spec(spec_from_loader("interfaces", loader))
    sys.dont_write_bytecode = True
    loader.exec_module(module)
    return module


def function(number, body):
    """A definition of a function of two functions and a value, by its body."""
    return f"(def d{number} {FUNCTION} (lam ((f (fun T T)) (g (fun T T T)) (x T)) {body}))"


def tree(variables):
    """A balanced tree of constructors with these variables."""
    if len(variables) == 1:
        return variables[0]
    half = len(variables) // 2
    return f"(con P {tree(variables[:half])} {tree(variables[half:])})"


def nested(binds, body):
    """Lets, one in another, of these words and right sides."""
    return "".join(f"(let ({word} T {right}) " for word, right in binds) + body + ")" * len(binds)


def chain(lets, right):
    """The words and the right sides of lets, each of the variable of the one before, which stands in place of the brackets; the first is of x."""
    return [(f"y{k}", right.format(f"y{k - 1}" if k else "x")) for k in range(lets)]


def atoms(count, lets=400):
    yield function(0, nested(chain(lets, "{0}"), tree([f"y{lets - 1}"] * count)))


def atoms_all_used(count, lets=400):
    binds = [(f"y{k}", "x") for k in range(lets)]
    yield function(0, nested(binds, tree([f"y{k % lets}" for k in range(count)])))


def used_once(count, lets=450):
    for number in range(count):
        yield function(number, nested(chain(lets, "(app f {0})"), f"y{lets - 1}"))


def case_below_lets(count, lets=450):
    known = f"(case (con P y{lets - 1} y{lets - 1}) (z T) T (P ((a T) (b T)) (app g a b)))"
    for number in range(count):
        yield function(number, nested(chain(lets, "(app g {0} {0})"), known))


def arguments(count, parameters=225):
    binders = " ".join(f"(x{k} T)" for k in range(parameters))
    for number in range(count):
        yield function(number, f"(app (lam ({binders}) x0){' (app f x)' * parameters})")


def dead(count):
    yield "(def d0 T (con K))"
    for number in range(count):
        yield f"(def dead{number} T {f'(con P dead{number - 1} dead{number - 1})' if number else '(con K)'})"


def group(count):
    binds = " ".join(f"(y{k} T (con P y{(k + 1) % count} y{(k + 7) % count}))" for k in range(count))
    yield f"(def d0 T (letrec ({binds}) y0))"


def applied(count):
    for number in range(count):
        yield f"(def d{number} (fun T T) (lam ((x T)) (app (lam ((y T)) (con P y y)) x)))"


def casts(count):
    for number in range(count):
        yield f"(def d{number} (fun T T) (lam ((x T)) (cast x (refl R T))))"


def case_of(word):
    return f"(case {word} (z T) T (K () (con K)) (P ((a T) (b T)) a))"


def known_names(count):
    yield "(def known T (con P known known))"
    for number in range(count):
        yield f"(def d{number} T {case_of('known')})"


def unknown_names(count):
    for number in range(count):
        yield f"(def d{number} T {case_of(f'd{(number + 1) % count}')})"


def dead_alternatives(count):
    alternatives = " ".join(f"({k}# x)" for k in range(count))
    yield f"(def d0 (fun T Int# T) (lam ((x T) (n Int#)) (case n (m Int#) T (default (case n (k Int#) T (default x) {alternatives})) {alternatives})))"


def known_behind(count):
    for number in range(count):
        yield f"(def d{number} T {case_of(f'd{number + 1}')})"
    yield f"(def d{count} T (con K))"


def binds_known(count, step):
    """A group of binds, each of which looks at its neighbour on one side; the last one there is known at first."""
    known = count if step > 0 else 0
    binds = " ".join(f"(y{k} T {'(con K)' if k == known else case_of(f'y{k + step}')})" for k in range(count + 1))
    yield f"(def d0 T (letrec ({binds}) (con P y0 y{count})))"


def binds_known_behind(count):
    return binds_known(count, 1)


def binds_known_before(count):
    return binds_known(count, -1)


# the name of a kind, its definitions, and their numbers
KINDS = [
    ("lets of variables", atoms, [1_000, 10_000, 100_000]),
    ("lets of variables, all used", atoms_all_used, [1_000, 10_000, 100_000]),
    ("lets used once", used_once, [10, 40]),
    ("a case below lets", case_below_lets, [10, 40]),
    ("arguments", arguments, [10, 40]),
    ("dead definitions", dead, [1_000, 10_000, 60_000]),
    ("a group", group, [5_000, 20_000]),
    ("applied lambdas", applied, [300, 1_000, 3_000]),
    ("casts", casts, [300, 1_000, 3_000]),
    ("known names", known_names, [300, 1_000, 3_000]),
    ("unknown names", unknown_names, [300, 1_000, 3_000]),
    ("dead alternatives", dead_alternatives, [500, 1_000, 2_000]),
    ("known by the one behind", known_behind, [100, 300, 900]),
    ("a group, known from behind", binds_known_behind, [100, 300, 900]),
    ("a group, known from before", binds_known_before, [100, 300, 900]),
]


def module(kind, count):
    """The text of a module, which exports all definitions but those that are to be dead."""
    lines = list(kind(count))
    exports = " ".join(word for word in re.findall(r"\(def (\S+)", "\n".join(lines)) if not word.startswith("dead"))
    return "\n ".join([f"(module B (imports) (exports {exports})", "(data T () (K ()) (P () T T))", *lines]) + ")\n"


def nodes_of(text, gate):
    """The nodes of each definition of a module."""
    return {form[1]: 1 + gate.nodes(form[3]) for form in gate.forms_of(text)[0] if form[0] == "def"}


def steps_in(folder):
    """How many steps the log of the module has in each definition; def-dead, which is of the module, is counted under a hyphen."""
    with open(os.path.join(folder, "B.why"), encoding="ascii") as it:
        return Counter(line.split()[2] for line in it if line.startswith("step "))


def least(command, folder):
    """The seconds and the peak memory of a command on the module."""
    first = best([command, "B.fc"], folder, 1)
    return first if first[0] >= LONG else min(first, best([command, "B.fc"], folder, RUNS - 1))


def main():
    sys.setrecursionlimit(10_000)
    gate = interfaces()
    print("| Kind | Number | Nodes | Steps | Lint: seconds | Build: seconds | Steps a second | Nanoseconds a node | Nanoseconds a step and node | Peak MB |")
    print("|---|---|---|---|---|---|---|---|---|---|")
    for name, kind, counts in KINDS:
        for count in counts:
            with tempfile.TemporaryDirectory() as folder:
                text = module(kind, count)
                write(folder, "B.fc", text)
                lint, _ = least("lint", folder)
                build, peak = least("build", folder)
                nodes, steps = nodes_of(text, gate), steps_in(folder)
            whole, taken = sum(nodes.values()), sum(steps.values())
            copied = sum(number * nodes.get(word, whole) for word, number in steps.items())
            seconds = f"{lint:.3f} | {build:.3f}"
            rates = f"{taken / build:,.0f} | {build / whole * 1e9:,.0f} | {f'{build / copied * 1e9:,.1f}' if copied else '-'}"
            print(f"| {name} | {count:,} | {whole:,} | {taken:,} | {seconds} | {rates} | {peak} |", flush=True)


if __name__ == "__main__":
    main()

#!/usr/bin/env python3
"""Runs calls of the probe on nameless modules of growing size, up to the limits of a module: copies, measures, naming back, arguments in place of variables, what binds without
its binders, and how often something occurs. Prints for each the pieces of the module, the processor seconds (the least of five runs), the nanoseconds a piece, and how many
times that of the smallest size this is. Each call reads the module and makes it nameless first, and all but the measures and the counts name it back and print it, so the same
module under `resolve`, which prints what its declarations refer to, and under `name_back` stands for comparison. There are six kinds of modules: lets nested as deep as the limits let
them, in many definitions; the same where all of them bind one word; one group of recursive binds, each of which uses the next; the same behind hundreds of lambdas; one group of
binds that use one variable around it twice each; and one group that does not use it. The last definition applies a lambda around these, so that its variable is what is replaced and
counted. Run it from anywhere, on a machine where the probe is built, or with
another program as its only word."""
import os
import subprocess
import sys
import tempfile

import measured
from measured import best, write

RUNS = 5
LETS = 480

if len(sys.argv) == 1:
    measured.PROGRAM = os.path.join(measured.TOP, "crates", "fc_probe", "out", "fc_probe")


def lets(used):
    """Lets nested deep, of which each but the first uses the one before; the first uses `used`."""
    inner = "".join(f"(let (y{k} T (con S {used if k == 0 else f'y{k - 1}'})) " for k in range(LETS))
    return f"{inner}y{LETS - 1}{')' * LETS}"


def lets_of_one_word(used):
    """The same, where each binds the word of the one before."""
    inner = "".join(f"(let (y T (con S {used if k == 0 else 'y'})) " for k in range(LETS))
    return f"{inner}y{')' * LETS}"


def deep(count, nested=lets):
    """Definitions that are lets nested deep behind a lambda, and a last one that applies such a lambda."""
    for k in range(count):
        yield f"(def d{k} (fun T T) (lam ((x T)) {nested('x')}))"
    yield f"(def e T (app (lam ((x T)) {nested('x')}) (con K)))"


def deep_of_one_word(count):
    return deep(count, lets_of_one_word)


def group(count):
    """A lambda around one group of recursive binds, each of which uses the next and the variable of the lambda, applied."""
    binds = " ".join(f"(b{k} T (con P b{(k + 1) % count} x))" for k in range(count))
    yield f"(def e T (app (lam ((x T)) (letrec ({binds}) b0)) (con K)))"


def around(count):
    """The same behind as many lambdas as the limits let them be, whose variables the binds use in turn."""
    names = [f"x{k}" for k in range(LETS - 10)]
    binds = " ".join(f"(b{k} T (con P b{(k + 1) % count} {names[k % len(names)]}))" for k in range(count))
    yield f"(def e (fun {'T ' * (len(names) - 1)}T) (app (lam ({' '.join(f'({name} T)' for name in names)}) (letrec ({binds}) b0)) (con K)))"


def uses(count):
    """A lambda around one group of binds that use its variable, so often in all, applied."""
    binds = " ".join(f"(b{k} T (con P x x))" for k in range(count // 2))
    yield f"(def e T (app (lam ((x T)) (letrec ({binds}) x)) (con K)))"


def unused(count):
    """A lambda around one group of binds that do not use its variable, applied."""
    binds = " ".join(f"(b{k} T (con S (con K)))" for k in range(count))
    yield f"(def e T (app (lam ((x T)) (letrec ({binds}) (con K))) (con K)))"


def module(kind, count):
    lines = ["(module M (imports) (exports e)", " (data T () (K ()) (S () T) (P () T T))", *kind(count)]
    return "\n".join(lines) + ")\n"


# the name of a kind, what makes it, and its numbers
KINDS = [
    ("lets", deep, [40, 80, 160]),
    ("one word", deep_of_one_word, [40, 80, 160]),
    ("group", group, [12_500, 25_000, 50_000]),
    ("around", around, [12_500, 25_000, 50_000]),
    ("uses", uses, [25_000, 50_000, 100_000]),
    ("unused", unused, [16_000, 32_000, 64_000]),
]
# the calls; the last definition is an application to which the place `-` and the place 0 lead, of its lambda
CALLS = [["resolve"], ["name_back", "-"], ["copy"], ["measures"], ["substitute", "-"], ["leave_binders", "0"], ["occurs", "0"]]


def pieces(folder):
    """How many pieces the module has, as the call that measures says at its end."""
    said = subprocess.run([measured.PROGRAM, "measures", "M.fc"], cwd=folder, capture_output=True, text=True, check=True).stdout
    return int(said.split(", ")[-1].split(" ")[1])


def main():
    print("| Kind | Pieces | Call | Seconds | Nanoseconds a piece | Of the smallest |\n|---|---|---|---|---|---|")
    for name, kind, counts in KINDS:
        first = {}
        for count in counts:
            with tempfile.TemporaryDirectory() as folder:
                write(folder, "M.fc", module(kind, count))
                size = pieces(folder)
                for call in CALLS:
                    seconds, _ = best([*call, "M.fc"], folder, RUNS)
                    each = seconds / size * 1e9
                    first.setdefault(call[0], each)
                    print(f"| {name} | {size:,} | {call[0]} | {seconds:.3f} | {each:,.0f} | {each / first[call[0]]:.2f} |")


if __name__ == "__main__":
    main()

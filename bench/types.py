#!/usr/bin/env python3
"""Lints modules whose types are what takes time, with the program `coreopt`, and prints for each size the bytes, the processor seconds (the least of three runs), the peak memory, and
the growth: the exponent of time in bytes since the size before, where that took a tenth of a second. There are eight kinds: a join point with n types and n values of them (joins);
the same binders in an alternative of a constructor that has none, which is refused (alternatives); a function of n types that is applied at n types of n
parts each (arguments); eighty definitions of lambdas over n types and n values (foralls); a type variable of a kind of n parts that is an argument n/2 times (kinds); one that the type of a
definition mentions n/2 times (declared); n foralls around a coercion that is taken to instances n times and back (coercions); and a data type over a kind
of n parts that n/2 coercions build of a variable (built). Run it from anywhere, on a machine where the program is built (`./coreopt build examples/Shapes.fc`), or with another
program as its only word."""
import math
import tempfile

from measured import best, write

RUNS = 3


def binders(count):
    """So many types, and a value of each."""
    return " ".join([*(f"(type a{k} *)" for k in range(count)), *(f"(x{k} a{k})" for k in range(count))])


def over(count, body):
    """A type behind so many foralls."""
    return "".join(f"(forall (a{k} *) " for k in range(count)) + body + ")" * count


def functions(count):
    """Functions from so many type variables."""
    return f"(fun {' '.join(f'a{k}' for k in range(count))} T)"


def kind(count):
    """A kind of so many parts."""
    return "*" if count == 1 else f"(-> {kind(count // 2)} {kind(count - count // 2)})"


def joins(count):
    yield f"(def f T (join T (j ({binders(count)}) (con K)) (con K)))"


def alternatives(count):
    yield f"(def f (fun T T) (lam ((t T)) (case t (x T) T (K ({binders(count)}) t))))"


def arguments(count):
    part = f"(fun {'T ' * count}T)"
    yield f"(def f {over(count, functions(count))} (fail {over(count, functions(count))}))"
    yield f"(def g (fun {' '.join([part] * count)} T) (app f {' '.join([f'(type {part})'] * count)}))"


def foralls(count):
    for number in range(80):
        yield f"(def f{number} {over(count, functions(count))} (lam ({binders(count)}) (con K)))"


def kinds(count):
    of = kind(count)
    yield f"(def f (forall (a {of}) T) (fail (forall (a {of}) T)))"
    yield f"(def g (forall (b {of}) T) (lam ((type b {of})) (letrec ({' '.join(f'(y{k} T (app f (type b)))' for k in range(count // 2))}) (con K))))"


def pairs(count, leaf):
    """Functions from and to so many of a type, as deep as they have to be."""
    return leaf if count == 1 else f"(fun {pairs(count // 2, leaf)} {pairs(count - count // 2, leaf)})"


def declared(count):
    of = kind(count)
    yield f"(family F ((a {of})) *)"
    yield f"(def f (forall (a {of}) {pairs(count // 2, '(F a)')}) f)"


def coercions(count):
    of = over(count, functions(count))
    around = "".join(f"(allco (a{k} *) " for k in range(count)) + "(inst " * count
    at = "".join(f" (refl N a{k}))" for k in range(count))
    yield f"(def f {of} (cast (fail {of}) (sub {around}(refl N {of}){at}{')' * count})))"


def built(count):
    of = kind(count)
    yield f"(data D ((a {of} N)) (L ()))"
    casts = " ".join(f"(y{k} (fun (D b) (D b)) (lam ((x (D b))) (cast x (sub (tc N D (refl N b))))))" for k in range(count // 2))
    yield f"(def g (forall (b {of}) T) (lam ((type b {of})) (letrec ({casts}) (con K))))"


# the name of a kind, what makes it, its sizes, and the status
KINDS = [
    ("joins", joins, (1_200, 2_400, 4_800), 0),
    ("alternatives", alternatives, (1_500, 3_000, 6_000), 1),
    ("arguments", arguments, (60, 120, 240), 0),
    ("foralls", foralls, (60, 120, 240), 0),
    ("kinds", kinds, (4_500, 9_000, 18_000), 0),
    ("declared", declared, (4_000, 8_000, 16_000), 0),
    ("coercions", coercions, (30, 60, 120), 0),
    ("built", built, (4_000, 8_000, 16_000), 0),
]


def main():
    print("| Kind | Bytes | Size | Lint: seconds | Growth | Peak MB |\n|---|---|---|---|---|---|")
    for name, make, counts, status in KINDS:
        before = None
        for count in counts:
            text = "(module M (imports) (exports)\n (data T () (K ()))\n" + "\n".join(make(count)) + ")\n"
            with tempfile.TemporaryDirectory() as folder:
                write(folder, "M.fc", text)
                seconds, peak = best(["lint", "M.fc"], folder, RUNS, status)
            growth = f"{math.log(seconds / before[1]) / math.log(len(text) / before[0]):.1f}" if before and before[1] >= 0.1 else ""
            print(f"| {name} | {len(text):,} | {count:,} | {seconds:.2f} | {growth} | {peak} |", flush=True)
            before = len(text), seconds


if __name__ == "__main__":
    main()

#!/usr/bin/env python3
"""Lints and builds modules of growing size with the program `coreopt`, and prints for each the seconds, the bytes a second of both and
the peak memory of a build; the seconds are those of the processor, the least of five runs. There are eleven kinds of modules: constants that give a constructor two names of other definitions; functions whose bodies
are lets and applications, a hundred deep; small functions that call others; functions by case; one alternative of many binders, the
outermost of which is used many times, which is refused for the number of its binders when all of it was judged; data types with parameters,
existential types and equalities, newtypes and families with their axioms; applications whose argument has a type of 65,535 pieces; polymorphic
functions, which call others at types made of their own variables; join points, fifty deep, with jumps in their alternatives; applications of a
polymorphic function, whose type has 65,535 pieces, each at a type of its own; and functions that cast what they take and what they answer. Run it from anywhere, on a
machine where the program is built (`./coreopt build examples/Shapes.fc`), or with another program as its only word."""
import tempfile

from measured import best, write

RUNS = 5
DEEP = 100


def others(i, count):
    """The numbers of two other definitions, before and after the one at i."""
    return 10_000 + (i * 7_919 + 1) % count, 10_000 + (i * 104_729 + 2) % count


def names(count):
    """Constants, each with two names of other definitions, before and after it."""
    for i in range(count):
        left, right = others(i, count)
        yield f" (def d{10_000 + i} T (con P d{left} d{right}))"


def deep(count):
    """Functions: fifty lets, one inside another, around fifty applications, each the argument of the one before."""
    for i in range(count):
        other, _ = others(i, count)
        lets = "".join(f"(let (y{k} T (app d{other} {'x' if k == 0 else f'y{k - 1}'})) " for k in range(DEEP // 2))
        body = f"(app d{other} " * (DEEP // 2) + f"y{DEEP // 2 - 1}" + ")" * (DEEP // 2)
        yield f" (def d{10_000 + i} (fun T T) (lam ((x T)) {lets}{body}{')' * (DEEP // 2)}))"


def small(count):
    """Functions of two arguments that call two others."""
    for i in range(count):
        left, right = others(i, count)
        yield f" (def d{10_000 + i} (fun T T T) (lam ((x T) (y T)) (app d{left} y (app d{right} x y))))"


def cases(count):
    """Functions by case, whose two alternatives build a constructor and call two others."""
    for i in range(count):
        left, right = others(i, count)
        alternatives = f"(K () (con P y x)) (P ((a T) (b T)) (app d{left} (app d{right} b)))"
        yield f" (def d{10_000 + i} (fun T T) (lam ((x T)) (case x (y T) T {alternatives})))"


def wide(count):
    """A function by case, whose only alternative has `count` binders and uses the first of them, the outermost, twice as often."""
    binders = " ".join(f"(a{i} T)" for i in range(count))
    uses = " ".join(["a0"] * (2 * count))
    yield f" (def d10000 (fun T T) (lam ((x T)) (case x (y T) T (P ({binders}) (con P {uses})))))"


def declarations(count):
    """Data types with two parameters, an existential type and an equality, which name others; every third with a newtype, and with a
    family and an equation."""
    yield " (def d10000 T (con K))"
    for i in range(count):
        left, right = others(i, count)
        one, two = f"D{left - 10_000}", f"D{right - 10_000}"
        yield (
            f" (data D{i} ((a * N) (f (-> * *) R)) (E{i} () (f a) ({one} a f) (fun a ({two} a f)))"
            f" (G{i} ((type b *) (co c R a (f b))) (forall (d *) (fun d b ({one} b f)))))"
        )
        if i % 3 == 0:
            yield f" (newtype W{i} ((a * N)) (fun a (forall (f (-> * *)) ({one} a f))) C{i})"
            yield f" (family F{i} ((a *) (b *)) *) (axiom Q{i} ((a *)) (F{i} a T) (fun a (W{i} a)))"


def balanced(depth, leaf="T"):
    """A type of functions between functions, a balanced tree of 2 ** (depth + 1) - 1 pieces."""
    return leaf if depth == 0 else f"(fun {balanced(depth - 1, leaf)} {balanced(depth - 1, leaf)})"


def shared(count):
    """Applications of one function, whose argument has a large type."""
    large = balanced(15)
    yield f" (def h {large} h) (def f (fun {large} T) f)"
    for i in range(count):
        yield f" (def d{10_000 + i} T (app f h))"


def polymorphic(count):
    """Functions over two types, which call two others, one of them at a type of functions between these two."""
    for i in range(count):
        left, right = others(i, count)
        inner = f"(lam ((g (fun a b))) (app d{right} (type a) (type b) g x))"
        yield (
            f" (def d{10_000 + i} (forall (a *) (forall (b *) (fun (fun a b) a b)))"
            f" (lam ((type a *) (type b *) (f (fun a b)) (x a)) (app d{left} (type (fun a b)) (type b) {inner} f)))"
        )


def joins(count):
    """Functions of fifty join points, each in the body of the one before, to which both of its alternatives jump; and a loop in the innermost."""
    for i in range(count):
        other, _ = others(i, count)
        points = "".join(
            f"(join T (j{k} ((y T)) (case y (z T) T (K () (jump j{k - 1} z)) (P ((a T) (b T)) (jump j{k - 1} b)))) " for k in range(1, DEEP // 2)
        )
        loop = f"(joinrec T ((r ((y T)) (case y (z T) T (default (jump j{DEEP // 2 - 1} z)) (P ((a T) (b T)) (jump r b))))) (jump r x))"
        yield f" (def d{10_000 + i} (fun T T) (lam ((x T)) (join T (j0 ((y T)) (app d{other} y)) {points}{loop}{')' * (DEEP // 2)}))"


def numeral(i):
    """A type for each number: the types of what a function takes are its binary digits."""
    return "T" if i == 0 else f"(fun {'T' if i % 2 else '(fun T T)'} {numeral(i // 2)})"


def instances(count):
    """Applications of one polymorphic function of a large type to an argument of a large polymorphic type, both at one type."""
    large = balanced(15, "a")
    yield f" (def h (forall (a *) {large}) h) (def f (forall (a *) (fun {large} T)) f)"
    for i in range(count):
        yield f" (def d{10_000 + i} T (app f (type {numeral(i)}) (app h (type {numeral(i)}))))"


def coercions(count):
    """Functions that cast their arguments and what they answer, to a newtype and from it, alone and below a type, and back."""
    yield " (newtype N () T A) (data D ((a * R)) (E () a))"
    below = "(tc R D (ax A))"
    for i in range(count):
        other, _ = others(i, count)
        first = f"(cast x (trans {below} (sym {below})))"
        second = "(cast (cast y (sym (ax A))) (ax A))"
        answer = f"(cast (app d{other} {first} {second}) (trans (sym {below}) {below}))"
        yield f" (def d{10_000 + i} (fun (D N) T (D T)) (lam ((x (D N)) (y T)) {answer}))"


# the name of a kind, its definitions, their numbers, and the status that is wanted
KINDS = [
    ("names", names, [11_000, 22_000, 60_000], 0),
    ("deep", deep, [100, 300, 900], 0),
    ("small functions", small, [4_000, 8_000, 16_000], 0),
    ("cases", cases, [3_000, 6_000, 12_000], 0),
    ("wide", wide, [2_500, 5_000, 9_000], 1),
    ("declarations", declarations, [1_000, 2_000, 4_000], 0),
    ("shared", shared, [1_000, 3_000], 0),
    ("polymorphic", polymorphic, [2_000, 4_000, 8_000], 0),
    ("joins", joins, [60, 120, 240], 0),
    ("instances", instances, [1_000, 3_000], 0),
    ("coercions", coercions, [1_500, 3_000, 6_000], 0),
]


def module(kind, count):
    lines = ["(module B (imports) (exports d10000)", " (data T () (K ()) (P () T T))", *kind(count)]
    return "\n".join(lines) + ")\n"


def main():
    print("kind  bytes  definitions or binders  lint: seconds  bytes/second  build: seconds  bytes/second  peak MB")
    for name, kind, counts, wanted in KINDS:
        for count in counts:
            with tempfile.TemporaryDirectory() as folder:
                text = module(kind, count)
                write(folder, "B.fc", text)
                lint, _ = best(["lint", "B.fc"], folder, RUNS, wanted)
                build, peak = best(["build", "B.fc"], folder, RUNS, wanted)
                rates = f"{lint:.2f}  {len(text) / lint:.0f}  {build:.2f}  {len(text) / build:.0f}"
                print(f"{name}  {len(text)}  {count}  {rates}  {peak}")


if __name__ == "__main__":
    main()

#!/usr/bin/env python3
"""Builds one module of growing size with the program `coreopt`, and prints for each size the bytes, the processor seconds of lint and build (the least of
five runs), the bytes a second of the build and its peak memory. In a chain each definition mentions the next; in a ring the last mentions the first too, so
that all reach themselves and no right side is told; in a web each mentions a hundred others, of which many reach each other. Run it from anywhere, on a
machine where the program is built (`./coreopt build examples/Shapes.fc`), or with another program as its only word."""
import tempfile

from measured import best, write

RUNS = 5
WEB = 100


def chain(count, last):
    """Definitions, each of which mentions the next, and the last `last`."""
    for i in range(count):
        yield f" (def d{10_000 + i} T {last if i == count - 1 else f'd{10_001 + i}'})"


def web(count):
    """Definitions, each of which mentions a hundred others before and after it."""
    for i in range(count):
        fields = " ".join(f"d{10_000 + (i * 7_919 + k * 104_729) % count}" for k in range(WEB))
        yield f" (def d{10_000 + i} T (app w {fields}))"


def text_of(kind, count):
    """A module of this kind."""
    lines = [" (data T () (K ()))"]
    if kind == "web":
        function = f"(fun{' T' * (WEB + 1)})"
        lines += [f" (def w {function} (fail {function}))", *web(count)]
    else:
        lines += chain(count, "(con K)" if kind == "chain" else "d10000")
    return "(module M (imports) (exports)\n" + "\n".join(lines) + ")\n"


def main():
    print("| Kind | Bytes | Definitions | Lint: seconds | Build: seconds | Bytes a second | Peak MB |\n|---|---|---|---|---|---|---|")
    for kind, counts in (("chain", (15_000, 30_000, 60_000)), ("ring", (15_000, 30_000, 60_000)), ("web", (400, 800, 1_600))):
        for count in counts:
            with tempfile.TemporaryDirectory() as folder:
                text = text_of(kind, count)
                write(folder, "M.fc", text)
                lint, _ = best(["lint", "M.fc"], folder, RUNS)
                build, peak = best(["build", "M.fc"], folder, RUNS)
                print(f"| {kind} | {len(text):,} | {count:,} | {lint:.3f} | {build:.3f} | {round(len(text) / build, -5):,.0f} | {peak} |")


if __name__ == "__main__":
    main()

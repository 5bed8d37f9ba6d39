#!/usr/bin/env python3
"""Lints a set of a hundred modules, each of which imports the one before, and one module with the same definitions, with the program `coreopt`, and prints
for each size the bytes, the seconds of the processor (the least of nine runs), the bytes a second and the peak memory. Half of the functions of a module
call others of their own module, half take a value of the type of the module before and call one of its functions. The same definitions are written in two
ways: in as few bytes as they take, with names of one letter and a number (dense), and with whole words, and lines as the examples have them (plain). Run it
from anywhere, on a machine where the program is built (`./coreopt lint examples/Shapes.fc`), or with another program as its only word."""
import tempfile

from measured import best, write

RUNS = 9
MODULES = 100


class Dense:
    """Names of one letter and a number, and one line for each definition."""

    module, tree, leaf, call, convert, value, seen, line, deeper = "M", "T", "K", "d", "e", "x", "y", "\n ", " "


class Plain:
    """Whole words, and lines as the examples have them."""

    module, tree, leaf, call, convert, value, seen, line, deeper = "Part", "Tree", "Leaf", "measure", "convert", "tree", "seen", "\n  ", "\n      "


def definitions(words, i, count, own, before):
    """The declarations of the module i: `own` and `before` make a name of it and one of the module before."""
    tree, value, deeper = own(words.tree), words.value, words.deeper
    yield f"(data {tree} () ({own(words.leaf)} ()))"
    for k in range(count):
        other = own(f"{words.call}{2 * ((k * 7_919 + 1) % (count // 2))}")
        if k % 2 == 0 or i == 0:
            yield f"(def {own(f'{words.call}{k}')} (fun {tree} {tree}){deeper}(lam (({value} {tree})){deeper}(app {other} (app {other} {value}))))"
        else:
            last, first = before(words.tree), f"{words.call}0"
            yield (f"(def {own(f'{words.convert}{k}')} (fun {last} {tree}){deeper}(lam (({value} {last})){deeper}(case (app {before(first)} {value}) "
                   f"({words.seen} {last}) {tree}{deeper}(default (app {own(first)} (con {own(words.leaf)}))))))")


def set_of(words, count):
    """The texts of the modules of a set, by the names of their files."""
    for i in range(MODULES):
        name, last = f"{words.module}{i}", f"{words.module}{i - 1}"
        body = words.line.join(definitions(words, i, count, lambda w: w, lambda w: f"{last}.{w}"))
        imports = f" {last}" if i else ""
        yield f"{name}.fc", f"(module {name} (imports{imports}) (exports {words.tree} {words.call}0){words.line}{body})\n"


def one_of(words, count):
    """The text of one module with the same definitions."""
    parts = []
    for i in range(MODULES):
        parts.extend(definitions(words, i, count, lambda w: f"{w}x{i}", lambda w: f"{w}x{i - 1}"))
    yield "One.fc", f"(module One (imports) (exports){words.line}{words.line.join(parts)})\n"


def best_lint(files):
    """The least processor seconds of linting the files, and the peak memory in MB."""
    with tempfile.TemporaryDirectory() as folder:
        for name, text in files:
            write(folder, name, text)
        return best(["lint", *[name for name, _ in files]], folder, RUNS)


def main():
    print("| Text | Modules | Bytes | Lint: seconds | Bytes a second | Peak MB |")
    print("|---|---|---|---|---|---|")
    for text, words in (("dense", Dense), ("plain", Plain)):
        for count in (20, 60, 140):
            for what, files in ((MODULES, list(set_of(words, count))), (1, list(one_of(words, count)))):
                size = sum(len(content) for _, content in files)
                seconds, peak = best_lint(files)
                print(f"| {text} | {what} | {size:,} | {seconds:.3f} | {int(size / seconds):,} | {peak} |")


main()

#!/usr/bin/env python3
"""What the gate costs: runs a command, which is `rt ci` where none is named, and looks once a second at the prover's processes below it. Prints in processor
minutes for each crate what its check took (with the programs that are built), its must-fail edits and its tests, the dearest crates first, and all together; and the
minutes by the clock. What a process uses between the last look and its end is missing, at most a second each.

    bench/gate.py [COMMAND WORD ..]
"""
import collections
import os
import subprocess
import sys
import time

TICKS = os.sysconf("SC_CLK_TCK")


def is_prover(number):
    with open(f"/proc/{number}/comm", encoding="ascii", errors="replace") as it:
        return it.read().strip() == "rattle"


def processes():
    """The prover's processes, by their number and when they began: the crate, what is done for it, and the seconds used so far. A process that one of them
    has made is counted by that one, which waits for it."""
    for number in filter(str.isdigit, os.listdir("/proc")):
        try:
            with open(f"/proc/{number}/cmdline", "rb") as it:
                words = it.read().decode(errors="replace").split("\0")
            if "--crate-name" not in words or os.path.basename(words[0]) != "rattle":
                continue
            with open(f"/proc/{number}/stat", encoding="ascii", errors="replace") as it:
                said = it.read().rpartition(")")[2].split()
            is_edit = "rt-edit" in os.readlink(f"/proc/{number}/cwd")
            if is_prover(said[1]):
                continue
        except OSError:
            continue
        what = "edits" if is_edit else "tests" if "--test" in words else "check"
        # (of the process, and of those that it waited for)
        used = sum(map(int, said[11:15])) / TICKS
        yield (number, said[19]), (words[words.index("--crate-name") + 1], what, used)


def main():
    began, seen = time.time(), {}
    running = subprocess.Popen(sys.argv[1:] or ["rt", "ci"])
    while running.poll() is None:
        seen.update(processes())
        time.sleep(1)
    crates = collections.defaultdict(collections.Counter)
    for crate, what, used in seen.values():
        crates[crate][what] += used / 60
    print("| Crate | Check | Edits | Tests |\n|---|---|---|---|")
    for crate in sorted(crates, key=lambda it: -crates[it].total()):
        print(f"| {crate} | " + " | ".join(f"{crates[crate][it]:.1f}" if crates[crate][it] else "" for it in ("check", "edits", "tests")) + " |")
    whole = sum(crates.values(), collections.Counter())
    print(f"whole: {whole.total():.0f} processor minutes, of which check {whole['check']:.0f}, edits {whole['edits']:.0f}, tests {whole['tests']:.0f};", end=" ")
    print(f"{(time.time() - began) / 60:.0f} minutes by the clock")
    return running.returncode


if __name__ == "__main__":
    sys.exit(main())

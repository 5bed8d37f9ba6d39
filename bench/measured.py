"""Runs of the program that are measured, for the benches beside this file."""
import os
import subprocess
import sys

TOP = os.path.dirname(os.path.dirname(os.path.abspath(__file__)))
# another program may be given as the only word
PROGRAM = os.path.abspath(sys.argv[1]) if len(sys.argv) > 1 else os.path.join(TOP, "crates", "coreopt", "out", "coreopt")


def write(folder, name, text):
    """Puts a file into a folder."""
    with open(os.path.join(folder, name), "w", encoding="ascii") as it:
        it.write(text)


def run(words, folder):
    """The status of a run in a folder with these words, its processor seconds and its peak memory in MB. A small child of its own starts it, so that what the
    bench itself takes does not count; a peak of some 13 MB is that of the child."""
    code = (
        "import resource, subprocess, sys;"
        "status = subprocess.run(sys.argv[1:], stdout=subprocess.DEVNULL, stderr=subprocess.DEVNULL).returncode;"
        "used = resource.getrusage(resource.RUSAGE_CHILDREN);"
        "print(status, used.ru_utime + used.ru_stime, used.ru_maxrss)"
    )
    said = subprocess.run([sys.executable, "-c", code, PROGRAM, *words], cwd=folder, capture_output=True, text=True, check=True).stdout.split()
    return int(said[0]), float(said[1]), int(said[2]) // 1024


def best(words, folder, runs, wanted=0):
    """The least processor seconds of so many runs with these words, each of which has to end with this status, and their peak memory in MB."""
    if not os.access(PROGRAM, os.X_OK):
        sys.exit("the program is not built")
    found = [run(words, folder) for _ in range(runs)]
    for status, _, _ in found:
        if status != wanted:
            sys.exit(f"{' '.join(words[:2])}: status {status}")
    return min(seconds for _, seconds, _ in found), max(peak for _, _, peak in found)

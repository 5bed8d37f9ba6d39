#!/usr/bin/env python3
"""Out of memory, one allocation at a time: builds each example with a malloc whose Nth call fails, for N = 1, 2, .. as long as a call
has that number. The answer must be 5, with a prefix of the work, or the same as with ample memory. Needs a C compiler.

    bench/memory.py [EXAMPLE ..]        names such as Lists; all of examples/ where none is given
"""
import os
import subprocess
import sys
import tempfile

TOP = os.path.dirname(os.path.dirname(os.path.abspath(__file__)))
PROGRAM = os.path.join(TOP, "crates", "coreopt", "out", "coreopt")
MALLOC = """
#include <fcntl.h>
#include <stdlib.h>
#include <unistd.h>
extern void *__libc_malloc(size_t), *__libc_realloc(void *, size_t), *__libc_calloc(size_t, size_t);
static long calls;
static int fails(void) {
    char *at = getenv("FAIL_AT"), *told = getenv("FAIL_TOLD");
    if (!at || !told || ++calls != atol(at)) return 0;
    close(creat(told, 0600));
    return 1;
}
void *malloc(size_t n) { return fails() ? 0 : __libc_malloc(n); }
void *realloc(void *p, size_t n) { return fails() ? 0 : __libc_realloc(p, n); }
void *calloc(size_t m, size_t n) { return fails() ? 0 : __libc_calloc(m, n); }
"""


def build(shim, example, at):
    """The status, the two streams and the files of a build in which call `at` fails, and whether there was such a call."""
    with tempfile.TemporaryDirectory() as folder, tempfile.TemporaryDirectory() as aside:
        told = os.path.join(aside, "told")
        env = dict(os.environ, LD_PRELOAD=shim, FAIL_AT=str(at), FAIL_TOLD=told)
        text = os.path.join(TOP, "examples", example + ".fc")
        ran = subprocess.run([PROGRAM, "build", text], cwd=folder, env=env, capture_output=True, timeout=60)
        files = {}
        for name in sorted(os.listdir(folder)):
            with open(os.path.join(folder, name), "rb") as file:
                files[name] = file.read()
        return (ran.returncode, ran.stdout, ran.stderr, files), os.path.exists(told)


def is_prefix(example, files, whole):
    """Some first files, all but the last of them whole."""
    names = [example + ".opt.fc", example + ".fci", example + ".why"][: len(files)]
    return set(files) == set(names) and all(files[name] == whole[name] for name in names[:-1])


def try_each(shim, example):
    """How many builds were wrong; prints what came."""
    whole, _ = build(shim, example, 0)
    wanting = wrong = 0
    at = 1
    ran, failed = build(shim, example, at)
    while failed:
        if ran[0] == 5 and ran[1] == b"" and b"out of memory\n".startswith(ran[2]) and is_prefix(example, ran[3], whole[3]):
            wanting += 1
        elif ran != whole:
            wrong += 1
            print(f"{example}: allocation {at}: status {ran[0]}, {ran[1]}, {ran[2]}, {list(ran[3])}")
        at += 1
        ran, failed = build(shim, example, at)
    print(f"{example}: {at - 1} allocations, {wanting} times out of memory, {wrong} wrong")
    return wrong


def main():
    """Tries the examples that are named, or all."""
    subprocess.run([os.path.join(TOP, "coreopt")], capture_output=True, check=False)
    names = sys.argv[1:] or sorted(name[:-3] for name in os.listdir(os.path.join(TOP, "examples")) if name.endswith(".fc"))
    with tempfile.TemporaryDirectory() as folder:
        source, shim = os.path.join(folder, "malloc.c"), os.path.join(folder, "malloc.so")
        with open(source, "w", encoding="ascii") as file:
            file.write(MALLOC)
        subprocess.run(["cc", "-shared", "-fPIC", "-O1", "-o", shim, source], check=True)
        sys.exit(min(1, sum(try_each(shim, name) for name in names)))


main()

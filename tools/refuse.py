#!/usr/bin/env python3
"""Refuses the allocations of tests in turn: of each test named `.._memory_is_refused`.

    python3 tools/refuse.py [PROGRAM..]

The programs are those of tests that `rt ci` leaves (`crates/NAME/out/NAME_tests`); without any, those of all crates
that have such a test. Each test runs with its first allocation refused, then with its second, and so on until a run
asks for no more; and once more for each of them, with all refused from there on. The start of a thread counts as an
allocation. Of a test that asks for many, the first and the last are refused and some between, which its line says.

A `malloc`, a `realloc` and a `pthread_create` stand before the C library's by LD_PRELOAD; so a C compiler is needed, and
where there is none the last line counts a failure. Its last line is `refuse: N passed, M failed`, by tests.
"""
import concurrent.futures
import glob
import itertools
import os
import re
import shutil
import subprocess
import sys
import tempfile
import time

REFUSING = r"""
#define _GNU_SOURCE
#include <dlfcn.h>
#include <errno.h>
#include <pthread.h>
#include <stdatomic.h>
#include <stdio.h>
#include <stdlib.h>
#include <sys/syscall.h>
#include <unistd.h>
static atomic_long count, refused;
static long first, last;
static void *(*real_malloc)(size_t);
static void *(*real_realloc)(void *, size_t);
static int (*real_create)(pthread_t *, const pthread_attr_t *, void *(*)(void *), void *);
__attribute__((constructor)) static void begin(void) {
    const char *from = getenv("REFUSED_FROM"), *to = getenv("REFUSED_TO");
    real_malloc = dlsym(RTLD_NEXT, "malloc");
    real_realloc = dlsym(RTLD_NEXT, "realloc");
    real_create = dlsym(RTLD_NEXT, "pthread_create");
    atomic_store(&count, 0);
    last = to ? atol(to) : 0;
    first = from ? atol(from) : 1;
}
static int is_refused(void) {
    long number = atomic_fetch_add(&count, 1) + 1;
    if (number < first || number > last) return 0;
    atomic_fetch_add(&refused, 1);
    errno = ENOMEM;
    return 1;
}
void *malloc(size_t size) {
    if (!real_malloc) real_malloc = dlsym(RTLD_NEXT, "malloc");
    return is_refused() ? NULL : real_malloc(size);
}
void *realloc(void *old, size_t size) {
    if (!real_realloc) real_realloc = dlsym(RTLD_NEXT, "realloc");
    return is_refused() ? NULL : real_realloc(old, size);
}
int pthread_create(pthread_t *thread, const pthread_attr_t *how, void *(*body)(void *), void *given) {
    return is_refused() ? EAGAIN : real_create(thread, how, body, given);
}
void _exit(int status) {
    dprintf(2, "\nallocations=%ld refused=%ld\n", atomic_load(&count), atomic_load(&refused));
    syscall(SYS_exit_group, status);
    __builtin_unreachable();
}
"""

# More allocations than these are not refused one by one.
MANY = 4000

# Of many the first so many and the last are refused, and each one so far apart between.
ENDS, APART = 300, 97

# A test whose memory is refused ends within so many seconds.
SECONDS = 60

# A test at which so many refusals went wrong is given up.
WRONG = 5

# More than every allocation of a test.
ALL = 2**62

# A test that makes a refused call again, which then has to succeed: there not all may be refused.
AGAIN = ("cells_where_memory_is_refused",)

NAMED = re.compile(r"fn (\w*memory_is_refused)\b")


class Refusal:
    """Runs a test with some of its allocations refused."""

    def __init__(self, program, test, library):
        self.program, self.test, self.library = program, test, library

    def run(self, first, last):
        """Runs the test with the allocations of these numbers refused: how many it asks for, how many are refused, and what is
        wrong with it, or an empty text."""
        words = {**os.environ, "LD_PRELOAD": self.library, "REFUSED_FROM": str(first), "REFUSED_TO": str(last)}
        how = {"env": words, "stdout": subprocess.DEVNULL, "stderr": subprocess.PIPE, "close_fds": False}
        try:
            ran = subprocess.run([self.program, self.test], timeout=SECONDS, **how)
        except subprocess.TimeoutExpired:
            return 0, 0, f"it had not ended after {SECONDS} seconds"
        said = ran.stderr.decode(errors="replace")
        told = re.search(r"\nallocations=(\d+) refused=(\d+)\n\Z", said)
        if not told:
            return 0, 0, f"status {ran.returncode}, and it doesn't tell its allocations: {said.strip()[-300:]}"
        text = re.sub(r"\s*\n\s*", "; ", said[: told.start()].strip())
        why = f"status {ran.returncode}: {text[-300:]}" if ran.returncode else ""
        return int(told[1]), int(told[2]), why

    def refuse(self, number, is_from):
        """Refuses this allocation, or all from it on: whether one was refused, and what is wrong, if anything."""
        _, refused, why = self.run(number, ALL if is_from else number)
        return refused > 0, f"{'all from ' if is_from else ''}allocation {number}: {why}" if why else ""

    def in_turn(self, is_from, pool):
        """Refuses each in turn: what was done in words, and what is wrong."""
        total, _, why = self.run(1, 0)
        if why:
            return "", [f"with all of its memory: {why}"]
        numbers, words = list(range(1, total + 1)), f"{total} allocations, each"
        if total > MANY:
            numbers = sorted({*numbers[:ENDS], *numbers[ENDS::APART], *numbers[-ENDS:]})
            words = f"{total} allocations, the first {ENDS}, each {APART}th and the last {ENDS}"
        wrong = []

        def refuse(number):
            """Refuses this one, unless enough went wrong, and returns whether there was one to refuse."""
            if len(wrong) >= WRONG:
                return False
            is_met, why = self.refuse(number, is_from)
            wrong.extend([why] if why else [])
            return is_met

        list(pool.map(refuse, numbers))
        # (how many there are may depend on the schedule: until three runs in a row ask for no more)
        idle = 0
        for number in itertools.count(total + 1):
            if idle == 3 or wrong:
                break
            idle = 0 if refuse(number) else idle + 1
        return words, wrong


def compiled(room):
    """Compiles what refuses, and returns its file, or None where there is no C compiler."""
    source, library = f"{room}/refusing.c", f"{room}/refusing.so"
    with open(source, "w", encoding="utf-8") as file:
        file.write(REFUSING)
    for compiler in (os.environ.get("CC"), "cc", "gcc", "clang"):
        if compiler and shutil.which(compiler):
            words = [compiler, "-O2", "-shared", "-fPIC", "-o", library, source, "-ldl", "-lpthread"]
            if subprocess.run(words, check=False).returncode == 0:
                return library
    return None


def written():
    """Returns the tests that the crates have written, by their programs."""
    top, found = os.path.dirname(os.path.dirname(os.path.abspath(__file__))), {}
    for file in glob.glob(f"{top}/crates/*/src/**/*.rt", recursive=True):
        with open(file, encoding="utf-8") as text:
            names = NAMED.findall(text.read())
        crate = os.path.relpath(file, f"{top}/crates").split(os.sep)[0]
        if names:
            found.setdefault(f"{top}/crates/{crate}/out/{crate}_tests", set()).update(names)
    return found


def tests_of(program):
    """Returns the full names of a program's tests that stand refusals."""
    listed = subprocess.run([program, "--list"], capture_output=True, text=True, check=False).stdout
    names = re.findall(r"^(\S+): test$", listed, re.M)
    return [it for it in names if it.endswith("memory_is_refused")]


def judge(program, test, library, pool):
    """Refuses a test's allocations, says what came of it, and returns whether all is well."""
    name = f"{os.path.basename(program)} {test}"
    done, wrong = Refusal(program, test, library).in_turn(False, pool)
    if not test.endswith(AGAIN) and not wrong:
        _, wrong = Refusal(program, test, library).in_turn(True, pool)
        done += ", and all from it on"
    for it in wrong:
        print(f"{name}: {it}", flush=True)
    print(f"{name}: {'FAILED' if wrong else done}", flush=True)
    return not wrong


def main(programs):
    begun, passed, failed = time.monotonic(), 0, 0
    wanted = {os.path.abspath(it): set() for it in programs} or written()
    with tempfile.TemporaryDirectory() as room, concurrent.futures.ThreadPoolExecutor(os.cpu_count()) as pool:
        library = compiled(room)
        if not library:
            print("no C compiler is here, so nothing is refused")
            failed = 1
        for program, names in sorted(wanted.items()) if library else ():
            tests = tests_of(program) if os.path.isfile(program) else []
            lacking = sorted(names - {it.rsplit("::")[-1] for it in tests})
            if lacking or not tests:
                print(f"{os.path.basename(program)}: no such test is built: {' '.join(lacking)}")
                failed += 1
            results = [judge(program, test, library, pool) for test in tests]
            passed, failed = passed + sum(results), failed + len(results) - sum(results)
    print(f"refuse: took {time.monotonic() - begun:.0f} s")
    print(f"refuse: {passed} passed, {failed} failed")
    return 1 if failed else 0


if __name__ == "__main__":
    sys.exit(main(sys.argv[1:]))

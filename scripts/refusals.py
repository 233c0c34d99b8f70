#!/usr/bin/env python3
"""Has each request of a program for memory refused in turn, and each of its reads and writes fail or be short.

    python3 scripts/refusals.py PROGRAM WORD..
    python3 scripts/refusals.py --calls PROGRAM [NAME..]

PROGRAM is run with these words, as syncat with its four: each run has to end as the undisturbed one, or with status 1 (2 where
not even its words can be read), one line on standard error and, unless a write fails, nothing on standard output. A short read
or write must change nothing.

With --calls PROGRAM is syntect_check_faults, run in crates/syntect_check_faults/data: with the word `calls` it prints the names of calls, with
`call NAME` it makes one three times over. Of each call, or of those named here, only the requests and reads between the start and
the end of the first call are disturbed. The call then has to answer as undisturbed, or that there is no memory (of a read: that it
failed) with what it left as it was before; and made again it has to answer as undisturbed. Calls that look for a syntax in a
file's first line are to show no more of a first read that is short than the front that it gave.

It needs cc and a C library whose allocation can be replaced (glibc on Linux). It prints a line for each call or each kind of
fault with its figures, and each wrong run; its status is 1 if there is one.
"""

import os
import subprocess
import sys
import tempfile
from collections import Counter
from concurrent.futures import ThreadPoolExecutor

# What stands before the C library: counts requests, and refuses the one whose number it is given.
LAYER = r"""
#define _GNU_SOURCE
#include <errno.h>
#include <fcntl.h>
#include <stdio.h>
#include <stdlib.h>
#include <string.h>
#include <sys/syscall.h>
#include <unistd.h>
extern void *__libc_malloc(size_t), *__libc_calloc(size_t, size_t), *__libc_realloc(void *, size_t);
extern void *__libc_memalign(size_t, size_t);
static long memory, reads, writes, at_memory = -1, at_read = -1, at_write = -1, short_read = -1, short_write = -1;
static long marks[4];
static long number(const char *name) { const char *text = getenv(name); return text ? atol(text) : -1; }
__attribute__((constructor)) static void begin(void) {
    at_memory = number("REFUSE_MEMORY"); at_read = number("REFUSE_READ"); at_write = number("REFUSE_WRITE");
    short_read = number("SHORT_READ"); short_write = number("SHORT_WRITE");
    memory = reads = writes = 0;
}
__attribute__((destructor)) static void end(void) {
    const char *name = getenv("REFUSE_COUNTS");
    char text[200];
    if (!name) return;
    int length = snprintf(text, sizeof text, "%ld %ld %ld %ld %ld %ld %ld\n", memory, reads, writes,
                          marks[0], marks[1], marks[2], marks[3]);
    int file = syscall(SYS_openat, AT_FDCWD, name, O_WRONLY | O_CREAT | O_TRUNC, 0600);
    syscall(SYS_write, file, text, length);
    syscall(SYS_close, file);
}
static int refused(void) { if (++memory != at_memory) return 0; errno = ENOMEM; return 1; }
void *malloc(size_t size) { return refused() ? 0 : __libc_malloc(size); }
void *calloc(size_t count, size_t size) { return refused() ? 0 : __libc_calloc(count, size); }
void *realloc(void *old, size_t size) { return refused() ? 0 : __libc_realloc(old, size); }
void *aligned_alloc(size_t step, size_t size) { return refused() ? 0 : __libc_memalign(step, size); }
int posix_memalign(void **place, size_t step, size_t size) {
    if (refused() || !(*place = __libc_memalign(step, size))) return ENOMEM;
    return 0;
}
static ssize_t moved(long call, int file, const void *bytes, size_t size, long count, long fails, long one) {
    if (count == fails) { errno = EIO; return -1; }
    return syscall(call, file, bytes, count == one && size > 1 ? 1 : size);
}
ssize_t read(int file, void *bytes, size_t size) {
    return moved(SYS_read, file, bytes, size, ++reads, at_read, short_read);
}
ssize_t __read(int file, void *bytes, size_t size) { return read(file, bytes, size); }
static void mark(const char *bytes, size_t size, const char *word, long *mark) {
    if (size < 4 || memcmp(bytes, word, 4) || mark[0]) return;
    mark[0] = memory; mark[1] = reads;
}
ssize_t write(int file, const void *bytes, size_t size) {
    mark(bytes, size, "call", marks);
    mark(bytes, size, "made", marks + 2);
    return moved(SYS_write, file, bytes, size, ++writes, at_write, short_write);
}
ssize_t __write(int file, const void *bytes, size_t size) { return write(file, bytes, size); }
"""

KINDS = ["REFUSE_MEMORY", "REFUSE_READ", "SHORT_READ", "REFUSE_WRITE", "SHORT_WRITE"]
WORKERS = 2


class Runs:
    """Runs of a program behind the layer."""

    def __init__(self, work, program, folder):
        self.layer = os.path.join(work, "layer.so")
        self.counts = os.path.join(work, "counts")
        self.program = program
        self.folder = folder
        source = os.path.join(work, "layer.c")
        with open(source, "w") as file:
            file.write(LAYER)
        subprocess.run(["cc", "-O1", "-shared", "-fPIC", "-fno-builtin", "-w", "-o", self.layer, source], check=True)

    def run(self, words, **more):
        """Status, standard output and standard error; a status below 0 is a signal, and none is time that ran out."""
        env = {"LD_PRELOAD": self.layer, **{name: str(value) for name, value in more.items()}}
        try:
            done = subprocess.run(
                [self.program, *words], cwd=self.folder, env=env, capture_output=True, timeout=60, stdin=subprocess.DEVNULL
            )
        except subprocess.TimeoutExpired:
            return (None, b"", b"")
        return (done.returncode, done.stdout, done.stderr)

    def counted(self, words):
        """The undisturbed run, and how many requests, reads and writes it makes."""
        outcome = self.run(words, REFUSE_COUNTS=self.counts)
        with open(self.counts) as file:
            memory, reads, writes, *marks = (int(word) for word in file.read().split())
        return outcome, {"MEMORY": memory, "READ": reads, "WRITE": writes}, marks

    def each(self, words, kind, numbers):
        """The runs in which the one of each number is disturbed."""
        with ThreadPoolExecutor(WORKERS) as pool:
            return list(pool.map(lambda number: self.run(words, **{kind: number}), numbers))


def is_fault(outcome, kind, whole):
    """Whether a run ends with status 1, or 2 where the words can't be read, and one line; where a write fails, with a front."""
    status, out, err = outcome
    front = whole.startswith(out) if kind == "REFUSE_WRITE" else out == b""
    told = err.count(b"\n") == 1 or (kind == "REFUSE_WRITE" and err == b"")
    return status in (1, 2) and front and told


def program(runs, words):
    """A program with its words."""
    outcome, counts, _ = runs.counted(words)
    print(f"undisturbed: status {outcome[0]}, {len(outcome[1])} bytes, {counts}")
    wrong = False
    for kind in KINDS:
        figures = Counter()
        numbers = range(1, counts[kind.split("_")[1]] + 1)
        for number, disturbed in zip(numbers, runs.each(words, kind, numbers)):
            if disturbed == outcome:
                verdict = "as undisturbed"
            elif not kind.startswith("SHORT") and is_fault(disturbed, kind, outcome[1]):
                verdict = disturbed[2].decode(errors="replace").strip() or "no line"
            else:
                verdict = "WRONG"
                wrong = True
                print(f"{kind} {number}: {disturbed[0]} {disturbed[1][:200]} {disturbed[2][:200]}")
            figures[verdict] += 1
        told = ", ".join(f"{value} {verdict}" for verdict, value in sorted(figures.items()))
        print(f"{kind.lower().replace('_', ' ')}: {told}", flush=True)
    return wrong


def blocks(out):
    """What stands before the first call, and then of each call what it answers and leaves."""
    found = [[]]
    for line in out.decode(errors="replace").splitlines():
        if line == "call":
            found.append([])
        elif line != "made":
            found[-1].append(line)
    return found


def of_kind(block, word):
    return [line for line in block if line.startswith(word + " ")]


def is_refused_call(kind, whole, disturbed):
    """Whether the first call is refused, leaves what it has to, and answers as undisturbed when it is made again."""
    whole, found = blocks(whole), blocks(disturbed)
    if found[0] != whole[0] or len(found) < 3:
        return False
    first, rest = found[1], found[2:]
    refusals = ("Memory", "AllocError") if kind == "REFUSE_MEMORY" else ("error", "Io")
    told = any(word in line for line in of_kind(first, "answer")[:1] for word in refusals)
    left = not of_kind(first, "left") or of_kind(first, "left") == of_kind(found[0], "left")
    stays = zip(of_kind(first, "stays"), of_kind(whole[1], "stays"))
    fronts = all(kept == all_of_it or all_of_it.startswith(kept) for kept, all_of_it in stays)
    again = rest == whole[1 : 1 + len(rest)]
    # a call that changes nothing may be followed by another one
    again = again or (whole[1] == whole[2] and rest == whole[-len(rest) :])
    return told and left and fronts and again


# Calls that look for a syntax in a file's first line: of a first read that is short they see the front of it, as they say.
FRONTS = ["HighlightFile::new", "highlighted_html_for_file"]


def is_by_front(whole, disturbed):
    """Whether the first call finds no syntax, and the later ones answer as undisturbed."""
    whole, found = blocks(whole), blocks(disturbed)
    return len(found) == len(whole) and any("NoSyntax" in line for line in of_kind(found[1], "answer")) and found[2:] == whole[2:]


def call(runs, name, totals):
    """One call with its requests and reads."""
    words = ["call", name]
    outcome, _, (memory, read, memory_end, read_end) = runs.counted(words)
    numbers = {"REFUSE_MEMORY": (memory, memory_end), "REFUSE_READ": (read, read_end), "SHORT_READ": (read, read_end)}
    wrong = outcome[0] != 0 or len(blocks(outcome[1])) < 3
    figures = Counter()
    for kind, (before, last) in numbers.items():
        numbers_of_kind = range(before + 1, last + 1)
        for number, disturbed in zip(numbers_of_kind, runs.each(words, kind, numbers_of_kind)):
            if disturbed == outcome:
                verdict = "as undisturbed"
            elif kind != "SHORT_READ" and disturbed[0] == 0 and is_refused_call(kind, outcome[1], disturbed[1]):
                verdict = "refused"
            elif kind == "SHORT_READ" and name in FRONTS and number == before + 1 and is_by_front(outcome[1], disturbed[1]):
                verdict = "by the front that was read"
            else:
                verdict = "WRONG"
                wrong = True
                print(f"{name}, {kind} {number}: {disturbed[0]} {disturbed[1][:1000]} {disturbed[2][:200]}")
            figures[kind.lower().replace("_", " ") + " " + verdict] += 1
    told = ", ".join(f"{value} {verdict}" for verdict, value in sorted(figures.items()))
    print(f"{name}: {told or 'no request'}", flush=True)
    totals.update(figures)
    return wrong


def calls(runs, names):
    """Calls of these names, or all."""
    names = names or runs.run(["calls"])[1].decode().split()
    totals = Counter()
    wrong = [name for name in names if call(runs, name, totals)]
    told = ", ".join(f"{value} {verdict}" for verdict, value in sorted(totals.items()))
    print(f"{len(names)} calls: {told}; wrong: {wrong or 'none'}")
    return bool(wrong)


def main():
    words = sys.argv[1:]
    of_calls = words[:1] == ["--calls"]
    words = words[1:] if of_calls else words
    if not words:
        sys.exit(__doc__)
    path = os.path.abspath(words[0])
    with tempfile.TemporaryDirectory() as work:
        runs = Runs(work, path, os.getcwd())
        wrong = (calls if of_calls else program)(runs, words[1:])
    sys.exit(1 if wrong else 0)


main()

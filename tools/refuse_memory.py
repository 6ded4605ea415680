#!/usr/bin/env python3
"""Refuses each allocation of some runs in turn, and looks at what the program does then.

    tools/refuse_memory.py [JADE]

Each run below is begun anew for each allocation that it makes, with a `malloc`, `calloc` and `realloc` that
refuse that one: the program must end, and either with status 7 and nothing written, or with the right status
and text. It goes on until no allocation is left to refuse. The last lines say how many were refused and how
the runs ended; the script ends with 1 at the first run that does anything else.

The library that refuses is made by a C compiler: the kit's, or the machine's. Where neither makes it, the
script says so and ends with 0.
"""
import os
import pathlib
import shutil
import subprocess
import sys
import tempfile

from programs import built, run

LIBRARY = r"""
typedef unsigned long size;
void *__libc_malloc(size);
void *__libc_calloc(size, size);
void *__libc_realloc(void *, size);
char *getenv(const char *);
int *__errno_location(void);
long write(int, const void *, size);
static long left = -1;
static int ready;

/* Counts one allocation; whether it is the one to refuse, which is told on standard error and by ENOMEM. */
static int refused(void) {
    if (!__atomic_load_n(&ready, __ATOMIC_SEQ_CST)) return 0;
    if (__atomic_fetch_sub(&left, 1, __ATOMIC_SEQ_CST) != 1) return 0;
    write(2, "refused\n", 8);
    *__errno_location() = 12;
    return 1;
}

__attribute__((constructor)) static void begin(void) {
    const char *text = getenv("REFUSED_ALLOCATION");
    long number = 0;
    while (text && *text >= '0' && *text <= '9') number = 10 * number + (*text++ - '0');
    left = number;
    __atomic_store_n(&ready, 1, __ATOMIC_SEQ_CST);
}

void *malloc(size n) { return refused() ? 0 : __libc_malloc(n); }
void *calloc(size n, size m) { return refused() ? 0 : __libc_calloc(n, m); }
void *realloc(void *p, size n) { return refused() ? 0 : __libc_realloc(p, n); }
"""

COLUMN = """input n;
objects col[4] : 2;
main {
    for j in 0 .. 4 {
        withonly { wr(col[j]); } do (j) {
            col[j][0] = j * 10;
            col[j][1] = n;
        }
    }
    for j in 1 .. 4 {
        withonly { rd(col[j - 1]); rd_wr(col[j]); } do (j) {
            col[j][0] = col[j][0] + col[j - 1][0];
        }
    }
}
"""
SUMS = """objects part[2] : 1;
object sum : 1;
main {
    for j in 0 .. 4 {
        withonly { rd(part[j % 2]); cm(sum); } do (j) { sum[0] = sum[0] + part[j % 2][0] + j; }
    }
    withonly { rd_wr(sum); } do () { sum[0] = sum[0] * 2; }
}
"""
ONE_TASK = "object s : 1; main { withonly { wr(s); } do () { s[0] = 5; } s[0] = s[0] + 1; }\n"
PAIR = """object s : 1;
main {
    s[0] = 1;
    withonly { cm(s); } do () { s[0] = s[0] * 2; }
    withonly { cm(s); } do () { s[0] = s[0] + 3; }
}
"""
PROCEDURES = """object s : 2;
proc add(int n) { withonly { rd_wr(s); } do (n) { s[0] = s[0] + n; } }
proc twice(int n) { add(n); add(n); }
main { twice(3); s[1] = s[0]; }
"""


def recorded(turns, answer):
    """A recording of the run of PAIR with these turns on its object."""
    return f"jade record 1\nlimit 1000\nnumbers\nturns s {turns}\nanswer 1\n{answer}text\n{PAIR}"


RUNS = (
    (["run", "1", "1000"], ONE_TASK, "s = 6\n"),
    (["run", "4", "1000"], ONE_TASK, "s = 6\n"),
    (["serial", "1000", "7"], COLUMN, "col[0] = 0 7\ncol[1] = 10 7\ncol[2] = 30 7\ncol[3] = 60 7\n"),
    (["run", "4", "1000", "7"], COLUMN, "col[0] = 0 7\ncol[1] = 10 7\ncol[2] = 30 7\ncol[3] = 60 7\n"),
    (["serial", "1000"], SUMS, "part[0] = 0\npart[1] = 0\nsum = 12\n"),
    (["run", "1", "1000"], SUMS, "part[0] = 0\npart[1] = 0\nsum = 12\n"),
    (["run", "4", "1000"], SUMS, "part[0] = 0\npart[1] = 0\nsum = 12\n"),
    (["record", "1", "1000"], ONE_TASK, f"jade record 1\nlimit 1000\nnumbers\nanswer 1\ns = 6\ntext\n{ONE_TASK}"),
    (["record", "1", "1000"], PAIR, recorded("0.0 0.1", "s = 5\n")),
    (["replay"], recorded("0.0 0.1", "s = 5\n"), "same\n"),
    # a run by one worker does not take these turns, so the recording is followed turn by turn
    (["replay"], recorded("0.1 0.0", "s = 8\n"), "same\n"),
    (["run", "1", "1000"], PROCEDURES, "s = 6 6\n"),
    (["expand"], "proc f(int a) { int b = a; } main { f(1); }", "main { if true { int v0 = 1 ; int v1 = v0 ; } }\n"),
)


def compilers():
    """The compilers to try: the kit's, then the machine's."""
    rt = shutil.which("rt")
    if rt:
        yield str(pathlib.Path(rt).resolve().parent.parent / "toolchain/bin/clang")
    yield from ("cc", "gcc", "clang")


def library(folder):
    """The library that refuses, or none."""
    source, made = folder / "refuse.c", folder / "refuse.so"
    source.write_text(LIBRARY)
    for compiler in compilers():
        words = [compiler, "-O1", "-w", "-fno-builtin", "-shared", "-fPIC", "-nostdlib", "-o", made, source]
        try:
            if subprocess.run(words, capture_output=True).returncode == 0:
                return made
        except OSError:
            pass
    return None


def run_refused(jade, made, number, words, text):
    """Status, text and whether an allocation was refused."""
    told = dict(os.environ, LD_PRELOAD=str(made), REFUSED_ALLOCATION=str(number))
    done = run([jade, *words], text, seconds=60, told=told, is_quiet=True)
    return *done.answer, b"refused" in done.errors


def refuse_all(jade, made, words, text, wanted):
    """Refuses each allocation of a run; whether it always ended as it must."""
    ends = {0: 0, 7: 0}
    for number in range(1, 100_000):
        status, written, was_refused = run_refused(jade, made, number, words, text)
        if (status, written) not in ((0, wanted), (7, "")):
            print(f"{' '.join(words)}: with allocation {number} refused it ends with {status} and writes {written!r}")
            return False
        if not was_refused:
            break
        ends[status] += 1
    print(f"{' '.join(words)}: {ends[0] + ends[7]} allocations refused, {ends[7]} ended with 7, {ends[0]} with the answer")
    return True


def main():
    jade = sys.argv[1] if len(sys.argv) > 1 else built()
    with tempfile.TemporaryDirectory() as folder:
        made = library(pathlib.Path(folder))
        if made is None:
            print("refuse_memory: no C compiler makes the library that refuses; nothing was tried")
            return 0
        for words, text, wanted in RUNS:
            if not refuse_all(jade, made, words, text, wanted):
                return 1
    return 0


if __name__ == "__main__":
    sys.exit(main())

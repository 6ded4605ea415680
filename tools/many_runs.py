#!/usr/bin/env python3
"""Runs two programs again and again on many workers, and compares what is written with the serial run.

    tools/many_runs.py [RUNS [WORKERS [JADE]]]

Each program has 200 tasks on three objects. Those of the first read one object and change the next, so almost
every task waits for others; those of the second add to an object by `cm`, in any order. No task may be lost: each
run must end, with the text of `serial`. A line for each program says how many runs there were; the script ends
with 1 at the first run that differs.
"""
import sys

from programs import built, run

CHANGES = """objects few[3] : 2;
main {
    for i in 0 .. 200 {
        withonly { rd(few[i % 3]); rd_wr(few[(i + 1) % 3]); } do (i) {
            few[(i + 1) % 3][0] = (few[(i + 1) % 3][0] * 2 + few[i % 3][1]) % 1000;
            few[(i + 1) % 3][1] = (few[i % 3][0] + i) % 1000;
        }
    }
}
"""
SUMS = """objects few[3] : 2;
main {
    for i in 0 .. 200 {
        withonly { cm(few[i % 3]); } do (i) {
            few[i % 3][0] = few[i % 3][0] + i;
            few[i % 3][1] = few[i % 3][1] + 1;
        }
    }
}
"""
LIMIT = "100000"


def answer(jade, words, text):
    return run([jade, *words, LIMIT], text, seconds=60, is_quiet=True).answer


def all_agree(jade, runs, workers, tasks, text):
    """Whether each of so many runs writes what the serial run does; it says so."""
    wanted = answer(jade, ["serial"], text)
    for number in range(runs):
        got = answer(jade, ["run", workers], text)
        if got != wanted:
            print(f"serial: {wanted}\nrun {workers}: {got}\nmany_runs: run {number} of the {tasks} differs")
            return False
    print(f"many_runs: {runs} runs of 200 {tasks} by {workers} workers, all as the serial run")
    return True


def main():
    runs = int(sys.argv[1]) if len(sys.argv) > 1 else 1000
    workers = sys.argv[2] if len(sys.argv) > 2 else "64"
    jade = sys.argv[3] if len(sys.argv) > 3 else built()
    programs = (("tasks", CHANGES), ("commuting tasks", SUMS))
    return 0 if all(all_agree(jade, runs, workers, tasks, text) for tasks, text in programs) else 1


if __name__ == "__main__":
    sys.exit(main())

"""What bench/parallel measures: runs on many workers, beside processes and OpenMP."""
import os, resource, subprocess, sys, time

jade, in_c = sys.argv[1:]
LIMIT = "4294967295"
TURNS = 200000

DRILL = """objects block[16] : 64;
main {
    for i in 0 .. %d {
        withonly { rd(block[7 * i %% 16]); rd_wr(block[(5 * i + 3) %% 16]); } do (i) {
            for c in 0 .. 64 {
                block[(5 * i + 3) %% 16][c] = (block[(5 * i + 3) %% 16][c] + block[7 * i %% 16][c]) / 2 + i + c;
            }
        }
    }
}
"""

COARSE = """objects block[64] : 64;
main {
    for i in 0 .. %d {
        withonly { rd_wr(block[i]); } do (i) {
            for t in 0 .. %d {
                block[i][t %% 64] = (block[i][t %% 64] + t) / 2 + i;
            }
        }
    }
}
"""

LONG = """object s : 64;
main {
    withonly { rd_wr(s); } do () {
        for t in 0 .. %d {
            s[t %% 64] = (s[t %% 64] + t) / 2;
        }
    }
}
""" % (20 * TURNS)

# 64 coarse tasks that count, each on an object of its own, and behind each one that adds its counts to one object.
HISTOGRAM = """objects part[64] : 64;
object total : 64;
main {
    for i in 0 .. 64 {
        withonly { rd_wr(part[i]); } do (i) {
            for t in 0 .. %d {
                part[i][(7 * t + i) %% 64] = part[i][(7 * t + i) %% 64] + 1;
            }
        }
        withonly { %s(total); rd(part[i]); } do (i) {
            for c in 0 .. 64 {
                total[c] = total[c] + part[i][c];
            }
        }
    }
}
"""

TINY = """object total : 1;
main {
    for i in 0 .. 10000 {
        withonly { cm(total); } do (i) {
            total[0] = total[0] + i;
        }
    }
}
"""

# What can't gain: each task needs what the one before it wrote.
CHAIN = """object s : 1;
main {
    for i in 0 .. 20000 {
        withonly { rd_wr(s); } do (i) {
            s[0] = s[0] + i;
        }
    }
}
"""

WRITERS = """object s : 1;
main {
    for i in 0 .. 100000 {
        withonly { wr(s); } do (i) {
            s[0] = i;
        }
    }
}
"""

CREATOR = """object s : 1;
main {
    withonly { rd_wr(s); } do () {
        for t in 0 .. %d {
            s[0] = s[0] + t;
        }
    }
    for i in 0 .. 100000 {
        withonly { rd_wr(s); } do (i) {
            s[0] = s[0] + i;
        }
    }
}
""" % (50 * TURNS)

def timed(words, given="", threads=None):
    '''What a process wrote, the time that passed and the processor time that it took.'''
    env = dict(os.environ, OMP_NUM_THREADS=str(threads)) if threads else None
    before, begun = resource.getrusage(resource.RUSAGE_CHILDREN), time.monotonic()
    written = subprocess.run(words, input=given.encode(), stdout=subprocess.PIPE, check=True, env=env).stdout
    passed, after = time.monotonic() - begun, resource.getrusage(resource.RUSAGE_CHILDREN)
    return written, passed, after.ru_utime + after.ru_stime - before.ru_utime - before.ru_stime

def by_turns(calls, which, count):
    '''So many times of each call, by turns; what they wrote is the same.'''
    times, written = [[] for _ in calls], [None] * len(calls)
    for _ in range(count):
        for i, call in enumerate(calls):
            it = timed(*call)
            written[i] = it[0]
            times[i].append(it[which])
    assert len(set(written)) == 1, "what is written differs"
    return times

def best_of(calls, which):
    '''The best time of each call, of five by turns.'''
    return [min(it) for it in by_turns(calls, which, 5)]

def medians_of(calls):
    '''The median of the elapsed times of each call, of seven by turns, and the longest.'''
    return [(sorted(it)[3], max(it)) for it in by_turns(calls, ELAPSED, 7)]

def memory_of(words, given):
    '''The most memory that a process took, in MB, looked at every 2 ms.'''
    most = 0
    with subprocess.Popen(words, stdin=subprocess.PIPE, stdout=subprocess.DEVNULL) as process:
        process.stdin.write(given.encode())
        process.stdin.close()
        while process.poll() is None:
            with open("/proc/%d/status" % process.pid) as status:
                told = [it.split()[1] for it in status if it.startswith("VmHWM:")]
            most = max([most, *map(int, told)])
            time.sleep(0.002)
    assert process.returncode == 0
    return most / 1024

ELAPSED, PROCESSOR = 1, 2

def run(workers):
    return [jade, "run", str(workers), LIMIT]

def apart(count):
    '''The time of all coarse tasks, in so many processes at the same time.'''
    given, begun = (COARSE % (64 // count, TURNS)).encode(), time.monotonic()
    all_of = [subprocess.Popen(run(1), stdin=subprocess.PIPE, stdout=subprocess.DEVNULL) for _ in range(count)]
    for it in all_of:
        it.stdin.write(given)
        it.stdin.close()
    assert all(it.wait() == 0 for it in all_of)
    return time.monotonic() - begun

one, serial = best_of([(run(1), DRILL % 10000), ([jade, "serial", LIMIT], DRILL % 10000)], ELAPSED)
print("drill text: run 1 %.3f s, serial %.3f s, ratio %.2f" % (one, serial, one / serial))

for workers in (1, 2, 4, 8, 64):
    many, = best_of([([jade, "drill", "10000", str(workers)],)], ELAPSED)
    few, = best_of([([jade, "drill", "2500", str(workers)],)], ELAPSED)
    print("drill, %2d workers: 10,000 tasks %.3f s, 2,500 tasks %.3f s, ratio %.2f" % (workers, many, few, many / few))

for name, text, words in (
    ("64 tasks", COARSE % (64, TURNS), [in_c, "coarse", str(TURNS)]),
    ("10,000 tasks", DRILL % 10000, [in_c, "drill", "10000"]),
):
    counts = (1, 2, 4)
    times = best_of([(run(n), text) for n in counts] + [(words, "", n) for n in counts], ELAPSED)
    rows = [("jade", times[:3]), ("OpenMP", times[3:])]
    if name == "64 tasks":
        rows.insert(1, ("apart", [min(it) for it in zip(*[[apart(n) for n in counts] for _ in range(5)])]))
    for kind, row in rows:
        print("%s, %s: %s" % (name, kind, ", ".join("%d: %.3f s (%.2f)" % (n, t, row[0] / t) for n, t in zip(counts, row))))

alone, idle = best_of([(run(1), LONG), (run(4), LONG)], PROCESSOR)
print("one task: 1 worker %.3f s, 4 workers %.3f s of processor time, ratio %.2f" % (alone, idle, idle / alone))

for word in ("cm", "rd_wr"):
    times = best_of([(run(workers), HISTOGRAM % (TURNS, word)) for workers in (1, 2, 4)], ELAPSED)
    print("histogram with %s: run 1 %.3f s, run 2 %.3f s, run 4 %.3f s, %.2f times as fast" % (word, *times, times[0] / times[2]))

one, four = best_of([(run(1), TINY), (run(4), TINY)], ELAPSED)
print("10,000 tiny commuting tasks: run 1 %.3f s, run 4 %.3f s, ratio %.2f" % (one, four, four / one))

for name, text, words in (("chain", CHAIN, [in_c, "chain", "20000"]), ("tiny", WRITERS, None)):
    counts, threads = (1, 4, 8, 16), (1, 4) if words else ()
    found = medians_of([(run(n), text) for n in counts] + [(words, "", n) for n in threads])
    for kind, which, row in (("jade", counts, found[: len(counts)]), ("OpenMP", threads, found[len(counts) :])):
        if row:
            told = ["%d: %.4f s (%.2f), longest %.2f" % (n, it, it / row[0][0], most / it) for n, (it, most) in zip(which, row)]
            print("%s, %s: %s" % (name, kind, "; ".join(told)))

told = ["%d: %.1f MB" % (n, max(memory_of(run(n), CREATOR) for _ in range(10))) for n in (1, 2, 4, 8)]
print("creator of 100,000 tasks that wait: %s" % ", ".join(told))

"""What bench/replay measures: recording a run, and replaying it."""
import subprocess, sys, time

jade = sys.argv[1]
LIMIT = "4294967295"

DRILL = """objects block[16] : 64;
main {
    for i in 0 .. %d {
        withonly { rd(block[7 * i %% 16]); rd_wr(block[(5 * i + 3) %% 16]); } do (i) {
            for c in 0 .. 64 {
                block[(5 * i + 3) %% 16][c] = (block[(5 * i + 3) %% 16][c] + block[7 * i %% 16][c]) / 2 + i + c;
            }
        }
    }
}
"""

SUM = """object total : 1;
main {
    for i in 0 .. %d {
        withonly { cm(total); } do (i) {
            total[0] = total[0] + i;
        }
    }
}
"""

def timed(words, given):
    """What a process wrote, and the time that passed."""
    begun = time.monotonic()
    ran = subprocess.run([jade, *words], input=given, stdout=subprocess.PIPE)
    assert ran.returncode == 0, ran.stdout[:80]
    return ran.stdout, time.monotonic() - begun

def best(calls):
    """The best time of each call, of five by turns."""
    times = [[] for _ in calls]
    for _ in range(5):
        for found, (words, given) in zip(times, calls):
            found.append(timed(words, given)[1])
    return [min(found) for found in times]

def turned(recording):
    """A recording with the turns on each object the other way round."""
    head, text = recording.split(b"\nanswer ", 1)
    lines = [line.split() for line in head.split(b"\n")]
    return b"\n".join(b" ".join(it[:2] + it[:1:-1]) if it[0] == b"turns" else b" ".join(it) for it in lines) + b"\nanswer " + text

def measure(name, text, workers, counts, also_turned):
    """Times one program with each count of tasks, and tells the ratios."""
    replays = {}
    for count in counts:
        given = (text % count).encode()
        recording = timed(["record", workers, LIMIT], given)[0]
        calls = [(["run", "1", LIMIT], given), (["record", "1", LIMIT], given), (["replay"], recording)]
        calls += [(["replay"], turned(recording))] * also_turned
        found = best(calls)
        replays[count] = found[2:]
        print("%s, %d tasks: run 1 %.3f s, record 1 %.3f s, replay %s s, %s times run 1" % (
            name, count, *found[:2], " and turned ".join("%.3f" % it for it in found[2:]), " and ".join("%.2f" % (it / found[0]) for it in found[2:])))
    few, many = counts
    print("%s: replay of %d tasks %s times that of %d" % (
        name, many, " and ".join("%.2f" % (b / a) for a, b in zip(replays[few], replays[many])), few))

measure("drill", DRILL, "1", (2500, 10000), False)
measure("sum by cm", SUM, "4", (1000, 4000), True)

"""What bench/table measures: turns at the words of the object table."""
import subprocess, sys, time

jade, table = sys.argv[1:]
TASKS, READERS, EVENTS, CYCLES = 4, 5000, 6, 200000

READS = """objects s[4] : 1;
main {
    for i in 0 .. 4 {
        withonly { rd(s[%s]); } do (i) {
            for k in 0 .. %d {
                withonly { rd(s[%s]); } do () { }
            }
        }
    }
}
"""

def spent(words, text=""):
    '''The time that passed while a process ran.'''
    begun = time.monotonic()
    subprocess.run(words, input=text.encode(), stdout=subprocess.DEVNULL, check=True)
    return time.monotonic() - begun

def cycles(threads, live):
    '''The time of all cycles, with so many other tasks live.'''
    words = [table, str(threads), str(live)]
    return spent(words + [str(CYCLES)]) - spent(words + ["0"])

def apart(processes):
    '''The time of all cycles, in so many processes at the same time.'''
    def all_of(count):
        begun = time.monotonic()
        words = [table, "1", "1", str(count // processes)]
        for it in [subprocess.Popen(words, stdout=subprocess.DEVNULL) for _ in range(processes)]:
            assert it.wait() == 0
        return time.monotonic() - begun
    return all_of(CYCLES) - all_of(0)

def run(workers, readers, which):
    return spent([jade, "run", str(workers), "4294967295"], READS % (which, readers, which))

best, alone = {}, []
for _ in range(10):
    for load in ((1, 1), (1, 10000), (4, 4)):
        passed = cycles(*load)
        best[load] = min(best.get(load, passed), passed)
    alone.append(apart(4))
few, many, own = best.values()
print("one thread, 1 live: %.0f ns a cycle" % (few / CYCLES * 1e9))
print("one thread, 10,000 live: %.0f ns a cycle, ratio %.2f" % (many / CYCLES * 1e9, many / few))
print("own objects, 4 threads: %.0f ns a cycle, %.2f times as many cycles as one thread on one object"
      % (own / CYCLES * 1e9, few / own))
print("apart, 4 processes: %.0f ns a cycle, %.2f times as many cycles as one, of which 4 threads do %.2f"
      % (min(alone) / CYCLES * 1e9, few / min(alone), min(alone) / own))

for name, which in (("own objects", "i"), ("one object", "0")):
    best = {}
    for _ in range(10):
        for workers in (1, 2, 4):
            passed = run(workers, READERS, which) - run(workers, 0, which)
            best[workers] = min(best.get(workers, passed), passed)
    words = ["%d: %.0f ns (%.2f)" % (n, t / (TASKS * READERS * EVENTS) * 1e9, best[1] / t) for n, t in best.items()]
    print("%s, an event with workers %s" % (name, ", ".join(words)))

"""What bench/shelf measures: entries of one object."""
import resource, subprocess, sys

def timed(entries, rounds, kind):
    before = resource.getrusage(resource.RUSAGE_CHILDREN)
    subprocess.run([sys.argv[1], str(entries), str(rounds), str(kind)], check=True, stdout=subprocess.DEVNULL)
    after = resource.getrusage(resource.RUSAGE_CHILDREN)
    return (after.ru_utime - before.ru_utime + after.ru_stime - before.ru_stime) / (entries * rounds) * 1e9

for kind, words in enumerate(("writers one after another", "readers at once", "readers at once, asked for writing")):
    best = {}
    for _ in range(5):
        for entries in (100, 1000, 10000):
            spent = timed(entries, 1000000 // entries, kind)
            best[entries] = min(best.get(entries, spent), spent)
    print(words)
    for entries, spent in best.items():
        print(f"{entries} entries: {spent:.0f} ns an entry")
    print(f"ratio {best[10000] / best[100]:.2f}")

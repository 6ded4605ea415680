"""What bench/examples measures: three examples with 1, 2 and 4 workers."""
import pathlib, re, subprocess, sys, time
top = pathlib.Path(sys.argv[1])
program, tries, workers = top / "crates/jade/out/jade", 7, (1, 2, 4)
PARTS, CELLS = 4, 13000

def tally():
    """examples/tally.jade with a table of another size in place of its own."""
    text = (top / "examples/tally.jade").read_text()
    table = "".join("%d%s" % (k * k // 7 % 100, "\n" if k % 8 == 7 else ",") for k in range(PARTS * CELLS))
    filled = subprocess.run([top / "jade", "fill", "part[%d]" % PARTS, str(CELLS)], input=table.encode(),
        stdout=subprocess.PIPE, check=True).stdout.decode()
    lines = [line for line in text.splitlines() if not re.match(r"part\[\d+\]\[\d+\]=", line)]
    text = "\n".join(lines).replace("objects part[4] : 16;", "objects part[%d] : %d;" % (PARTS, CELLS))
    text = text.replace("for c in 0 .. 16 {", "for c in 0 .. %d {" % CELLS).replace("main {", "main {\n" + filled, 1)
    assert len(text) <= 1048576, len(text)
    return text

def timed(text, count, numbers):
    begun = time.monotonic()
    ran = subprocess.run([program, "run", str(count), "4294967295", *map(str, numbers)], input=text.encode(), stdout=subprocess.PIPE)
    passed = time.monotonic() - begun
    assert ran.returncode == 0, ran.stdout[:80]
    return passed, ran.stdout

def show(name, text, numbers):
    best, written = {count: 9e9 for count in workers}, set()
    for _ in range(tries):
        for count in workers:
            passed, said = timed(text, count, numbers)
            best[count] = min(best[count], passed)
            written.add(said)
    assert len(written) == 1, "what is written differs"
    print("%s: %s" % (name, ", ".join("%d: %.3f s (%.2f)" % (count, best[count], best[1] / best[count]) for count in workers)))

show("edit-distance", (top / "examples/edit-distance.jade").read_text(), (128, 3))
show("bodies", (top / "examples/bodies.jade").read_text(), (200,))
show("tally", tally(), (10,))

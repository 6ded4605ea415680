"""What bench/check measures: `check` on large texts."""
import subprocess, sys, time
DEEP = 60

def pieces(objects):
    """Blocks within each other without end, each piece whole."""
    i = 0
    while True:
        opened = []
        for depth in range(DEEP):
            a, b = 7 * i % objects, (11 * i + 3) % objects
            below = "v%d" % (depth - 1) if depth else "0"
            opened.append("if s%d[0] <= %d { int v%d = %s + s%d[0]; s%d[0] = v%d;\n" % (a, i, depth, below, b, b, depth))
            i += 1
        yield "".join(opened) + "}" * DEEP + "\n"

def text(size, objects):
    parts = ["object s%d : 1;\n" % i for i in range(objects)] + ["main {\n"]
    room = size - sum(map(len, parts)) - 1
    for piece in pieces(objects):
        if room < len(piece):
            break
        parts.append(piece); room -= len(piece)
    data = ("".join(parts) + " " * room + "}").encode()
    assert len(data) == size
    return data

def locals_in(count):
    """One block with so many locals."""
    return ("main {\n" + "".join("int v%d = 0;\n" % i for i in range(count)) + "}").encode()

runs = [(size, objects, text(size, objects), []) for size, objects in ((262144, 1000), (1048576, 4000))]
blocks = [(count, locals_in(count), []) for count in (12500, 50000)]
for _ in range(5):
    for data, times in [(it[2], it[3]) for it in runs] + [(it[1], it[2]) for it in blocks]:
        begun = time.monotonic()
        ran = subprocess.run([sys.argv[1], "check"], input=data, stdout=subprocess.PIPE)
        times.append(time.monotonic() - begun)
        assert (ran.returncode, ran.stdout) == (0, b"ok\n"), ran.stdout[:80]
for size, objects, _, times in runs:
    print("%d bytes, %d objects: %.3f s" % (size, objects, min(times)))
print("ratio: %.2f" % (min(runs[1][3]) / min(runs[0][3])))
for count, _, times in blocks:
    print("%d locals in one block: %.3f s" % (count, min(times)))
print("ratio: %.2f" % (min(blocks[1][2]) / min(blocks[0][2])))

"""What bench/text measures: `show` on generated texts, and `expand` on texts with procedures and without."""
import subprocess, sys, time
program = sys.argv[1]
PIECE = """for i in 0 .. %d {
withonly { rd(block[7 * i %% 16]); rd_wr(block[(5 * i + 3) %% 16]); } do (i) { // a task
for c in 0 .. 64 { if !(c == 3 || i < %d) && true {
block[(5 * i + 3) %% 16][c] = (block[(5 * i + 3) %% 16][c] + block[7 * i %% 16][c]) / 2 + i + - c;
} else { int a = %d; a = a - 1; } } with { no_rd(block[7 * i %% 16]); } cont; } }
"""
def text(size):
    parts, room, i = [], size - 30, 0
    while True:
        piece = PIECE % (i, i, i)
        if room < len(piece):
            break
        parts.append(piece); room -= len(piece); i += 1
    return ("objects block[16] : 64;main {" + "".join(parts) + " " * room + "}").encode()
CALLED = """proc p%d ( int i , int most ) { withonly { rd ( block [ 7 * i %% 16 ] ) ; rd_wr ( block [ i ] ) ; } do ( i , most ) {
for c in 0 .. most { if ! ( c == 3 || i < %d ) && true { block [ i ] [ c ] = ( block [ i ] [ c ] + block [ 7 * i %% 16 ] [ c ] ) / 2 + i + - c ; } } } }
"""
def with_procedures(size):
    """Procedures, each of which is called once, and what is left of the size in spaces."""
    parts, room, i = [], size - 40, 0
    while True:
        piece, call = CALLED % (i, i), "p%d ( %d , 64 ) ; " % (i, i % 16)
        if room < len(piece) + len(call):
            break
        parts.append((piece, call)); room -= len(piece) + len(call); i += 1
    pieces, calls = ("".join(it) for it in zip(*parts))
    return ("objects block[16] : 64;" + pieces + "main {" + calls + " " * (size - 30 - len(pieces) - len(calls)) + "}").encode()
def timed(word, data):
    """The best time of five of a command on a text, and how many bytes it writes."""
    spent = []
    for _ in range(5):
        begun = time.monotonic()
        ran = subprocess.run([program, word], input=data, stdout=subprocess.PIPE)
        spent.append(time.monotonic() - begun)
        assert ran.returncode == 0, ran.stdout[:80]
    return min(spent), len(ran.stdout)
def told(what, word, made, sizes):
    """Times a command on texts of these sizes, and prints the ratio of the last to the first."""
    times = []
    for size in sizes:
        data = made(size)
        assert len(data) == size
        seconds, written = timed(word, data)
        times.append(seconds)
        print("%s, %d bytes: %.3f s, written in %d bytes" % (what, size, seconds, written))
    print("ratio: %.2f" % (times[-1] / times[0]))
    return times[-1]
told("shown", "show", text, (262144, 1048576))
expanded = told("expanded", "expand", with_procedures, (225000, 900000))
as_it_is = told("as it is", "expand", text, (225000, 900000))
print("expanded takes %.2f times what a text without procedures takes, which is only cut into tokens" % (expanded / as_it_is))

"""What bench/serial measures: serial runs, beside Lua and CPython."""
import subprocess, sys, time

jade, python, lua = sys.argv[1:]

TEXT = """objects block[16] : 64;
main {
    for i in 0 .. 10000 {
        withonly { rd(block[7 * i % 16]); rd_wr(block[(5 * i + 3) % 16]); } do (i) {
            for c in 0 .. 64 {
                block[(5 * i + 3) % 16][c] = (block[(5 * i + 3) % 16][c] + block[7 * i % 16][c]) / 2 + i + c;
            }
        }
    }
}
"""

IN_PYTHON = """
def drill(block):
    for i in range(10000):
        read = block[7 * i % 16]
        write = block[(5 * i + 3) % 16]
        for c in range(64):
            write[c] = (write[c] + read[c]) // 2 + i + c

block = [[0] * 64 for _ in range(16)]
drill(block)
for i in range(16): print('block[%d] =' % i, *block[i])
"""

IN_LUA = """
local block = {}
for i = 0, 15 do
    block[i] = {}
    for c = 0, 63 do block[i][c] = 0 end
end
for i = 0, 9999 do
    local read, write = block[7 * i % 16], block[(5 * i + 3) % 16]
    for c = 0, 63 do write[c] = (write[c] + read[c]) // 2 + i + c end
end
for i = 0, 15 do
    print("block[" .. i .. "] = " .. table.concat(block[i], " ", 0, 63))
end
"""

def last_of(objects):
    '''A loop over the last of so many objects.'''
    return (
        "objects s[%d] : 16;\nmain { for i in 0 .. 1000000 { s[%d][i %% 16] = s[%d][i %% 16] + i; } }\n"
        % (objects, objects - 1, objects - 1)
    )

def timed(words, given=""):
    begun = time.monotonic()
    written = subprocess.run(words, input=given.encode(), stdout=subprocess.PIPE, check=True).stdout
    return written, time.monotonic() - begun

def best_of(*calls):
    '''The best time of each call, of twenty by turns, and what each wrote last.'''
    times, written = [[] for _ in calls], [None] * len(calls)
    for _ in range(20):
        for i, call in enumerate(calls):
            written[i], passed = timed(*call)
            times[i].append(passed)
    return [min(it) for it in times], written

serial = [jade, "serial", "4294967295"]
others = [("CPython", [python, "-c", IN_PYTHON], [python, "-c", "pass"])]
if lua:
    others.insert(0, ("Lua", [lua, "-e", IN_LUA], [lua, "-e", ""]))
times, written = best_of((serial, TEXT), *[(words,) for _, words, _ in others])
assert len(set(written)) == 1, "what is written differs"
for (name, _, _), passed in zip(others, times[1:]):
    print("drill: jade %.3f s, %s %.3f s, ratio %.2f" % (times[0], name, passed, times[0] / passed))

(many, one), (of_many, of_one) = best_of((serial, last_of(4096)), (serial, last_of(1)))
assert of_many.split(b"\n")[4095].split(b"=")[1] == of_one.split(b"\n")[0].split(b"=")[1], "what is written differs"
print("4,096 objects: the last %.3f s, one alone %.3f s, ratio %.2f" % (many, one, many / one))
starts, _ = best_of(*[(start,) for _, _, start in others])
for (name, _, _), passed in zip(others, starts):
    print("%s's start: %.3f s" % (name, passed))

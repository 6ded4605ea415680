"""What bench/growth measures: texts whose cost might grow faster than they do."""
import subprocess, sys, time
program = sys.argv[1]

def timed(words, data):
    """The best time of five of a command on a text."""
    spent = []
    for _ in range(5):
        begun = time.monotonic()
        ran = subprocess.run([program, *words], input=data.encode(), stdout=subprocess.PIPE)
        spent.append(time.monotonic() - begun)
        assert ran.returncode <= 1, ran.stdout[:80]
    return min(spent)

def serial(text):
    return timed(("serial", "4000000000"), text)

def falling(count, tasks):
    """Tasks that each declare so many objects of a family, the last first."""
    return ("objects o[4096] : 1; main { for i in 0 .. %d { withonly { for k in 0 .. %d { rd(o[4095 - k]); } } do () { } } }"
        % (tasks, count))

def sections(rights, times):
    """A task with so many rights, and so many sections in which nothing is said."""
    return ("objects o[4096] : 1; main { withonly { for k in 0 .. %d { rd(o[k]); } } do () { for i in 0 .. %d { with { } cont; } } }"
        % (rights, times))

def items(tasks):
    """Objects that are each declared alone, and empty tasks."""
    text = "".join("object o%d:1;" % i for i in range(4096)) + "main{" + "withonly{}do(){}" * tasks + "}"
    assert len(text) <= 1048576, len(text)
    return text

def locals_of(count, tasks):
    """Tasks whose body has so many locals in a block that none comes to."""
    inner = "".join("int v%d=0;" % i for i in range(count))
    return "main { for i in 0 .. %d { withonly { } do (i) { if i < 0 { %s } } } }" % (tasks, inner)

def names(form, count):
    """One block with so many locals, whose names have this form."""
    text = "main{" + "".join("int %s=0;" % (form % i) for i in range(count)) + "}"
    assert len(text) <= 1048576, len(text)
    return text

def indexes(count):
    """One loop with so many stores, each to a member of another index."""
    text = "objects o[16]:1;main{for i in 0..1{" + "".join("o[i+%d][0]=0;" % i for i in range(count)) + "}}"
    assert len(text) <= 1048576, len(text)
    return text

base = serial(falling(0, 0))
few, many = (serial(falling(count, 100)) - base for count in (1024, 4096))
print("falling: 1,024 objects %.4f s, 4,096 objects %.4f s, ratio %.2f" % (few, many, many / few))
few, many = (serial(sections(rights, 1000)) - serial(sections(rights, 0)) for rights in (4, 4096))
print("sections: 4 rights %.4f s, 4,096 rights %.4f s, ratio %.2f" % (few, many, many / few))
text = items(60000)
print("items: check %.3f s, serial 1 %.3f s, %d bytes" % (timed(("check",), text), timed(("serial", "1"), text), len(text)))
none, many = ((serial(locals_of(count, tasks)) - serial(locals_of(count, 0))) / tasks * 1e6
    for count, tasks in ((0, 100000), (60000, 1000)))
print("locals: a task with none %.2f us, with 60,000 %.1f us, %.2f ns a local" % (none, many, (many - none) / 60))
apart, alike = (timed(("check",), names(form, 50000)) for form in ("n%05daaaaaaa", "aaaaaaaa%05d"))
print("names: apart %.3f s, with 8 letters in common %.3f s, ratio %.2f" % (apart, alike, alike / apart))
few, many = (timed(("serial", "1"), indexes(count)) for count in (10000, 40000))
print("indexes: 10,000 in one loop %.3f s, 40,000 %.3f s, ratio %.2f" % (few, many, many / few))

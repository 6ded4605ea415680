"""Writes the text that bench/first-path measures: first_text.py BYTES runs|refused."""
import sys
size, refused = int(sys.argv[1]), sys.argv[2] == "refused"
head = "object s : 65536;\nmain {\n"
tail = "s[1] = ;\n}\n" if refused else "}\n"
body, i, room = [], 0, size - len(head) - len(tail)
while True:
    line = "    s[%d] = %d;\n" % (i % 65536, i)
    if room < len(line):
        break
    body.append(line); room -= len(line); i += 1
sys.stdout.write(head + "".join(body) + " " * room + tail)

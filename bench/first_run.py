"""Times one run of the program on a text, for bench/first-path."""
import subprocess, sys, time
with open(sys.argv[2]) as given:
    begun = time.monotonic()
    ran = subprocess.run([sys.argv[1], "run", "4", "4294967295"], stdin=given, stdout=subprocess.DEVNULL)
    passed = time.monotonic() - begun
assert ran.returncode in (0, 2), ran.returncode
print("%.3f" % passed)

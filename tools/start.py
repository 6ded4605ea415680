#!/usr/bin/env python3
"""Proves and builds programs of this repository, independent crates side by side.

    start.py PROGRAM..      the programs of these crates, each with all crates below it that need it

`./jade` calls this. It first says how many crates are to be proved and about how long that takes, then writes a line for
each as it begins, and at the end one; what the compiler prints goes to a file that the first line names. Where a crate
fails, the last lines of that are shown, and the status is 1.

It calls the kit's compiler itself, as `rt ci` does: of a library it keeps the statements, in out/start of its crate, and
not the proofs, so that a crate above reads what it can cite and no more. `rt check` keeps the proofs too, for what it
proves again after an edit, and lets no other work in the folders of crates below. A start that is broken off goes on with
the crates that it had not ended.
"""
import fcntl
import hashlib
import os
import pathlib
import shutil
import signal
import subprocess
import sys
import time

from programs import TOP, built

# About how long one processor takes, in seconds: for a crate, for each line of its source, for that line more with each
# crate that stands below, whose types it has, and to compile a program. How much of another processor each further one
# adds; and how much memory a crate may take, in bytes.
FOR_A_CRATE, FOR_A_LINE, FOR_ONE_BELOW, FOR_A_PROGRAM = 8, 0.06, 0.005, 50
FURTHER, MEMORY = 0.5, 3_000_000_000

# The most processes for one crate, and the least for one that the longest chain waits for; for how many seconds one more
# processor pays, since each first reads what stands below; and how many lines of one that failed are shown.
MOST_JOBS, LEAST_JOBS, SECONDS_FOR_ONE, SHOWN = 4, 2, 20, 20

PARTS = ("src", "specs", "proofs")


class Crate:
    """A crate of crates.txt, with those that it stands on."""

    def __init__(self, name, line, below):
        self.name, self.below, self.folder = name, below, TOP / "crates" / name
        self.is_program = (self.folder / "src/main.rt").exists()
        self.source = "src/main.rt" if self.is_program else "src/lib.rt"
        # What it names: crates of crates.txt and libraries of the kit.
        self.names = line.partition(":")[2].split()
        kept = self.folder / "out/start"
        self.object, self.said, self.stamp = kept / f"{name}.o", kept / "said", kept / "stamp"
        self.made = built(name) if self.is_program else kept / f"{name}.rlib"
        # The crates that it stands on, each once.
        self.all_below = list(dict.fromkeys(it for crate in below for it in [*crate.all_below, crate]))
        files = sorted(file for part in PARTS for file in (self.folder / part).rglob("*") if file.is_file())
        # A sum of all that it is made from.
        made_from = [(str(file.relative_to(self.folder)), file.read_bytes()) for file in files]
        self.sum = hashlib.sha256(repr((line, made_from, [crate.sum for crate in below])).encode()).hexdigest()
        # When the newest of what it is made from was written.
        own = max((file.stat().st_mtime for file in files), default=0)
        self.written = max([own] + [crate.written for crate in below])
        lines = sum(file.read_bytes().count(b"\n") for file in files if self.folder / "src" in file.parents)
        self.seconds = FOR_A_CRATE + lines * (FOR_A_LINE + FOR_ONE_BELOW * len(self.all_below)) + FOR_A_PROGRAM * self.is_program

    def is_built(self):
        """Whether it is built of what stands there now: a library by the sum, a program, which the gate builds too, by the times
        of the files."""
        if self.is_program:
            return self.made.exists() and self.made.stat().st_mtime >= self.written
        return self.made.exists() and self.stamp.exists() and self.stamp.read_text("utf-8") == self.sum


def crates_of(names):
    """The crates of these names and all below them, each after those that it stands on."""
    lines = [line.partition("#")[0] for line in (TOP / "crates.txt").read_text().splitlines()]
    line_of, crates = {line.split(":")[0].split()[0]: line for line in lines if ":" in line}, {}

    def add(name):
        if name in line_of and name not in crates:
            below = [add(other) for other in line_of[name].partition(":")[2].split()]
            crates[name] = Crate(name, line_of[name], [crate for crate in below if crate])
        return crates.get(name)

    for name in names:
        if not add(name):
            sys.exit(f"jade: crates.txt has no crate {name}")
    return list(crates.values())


def chains(crates):
    """For each crate the seconds of the longest chain that waits for it, its own included."""
    behind = {crate: crate.seconds for crate in crates}
    for crate in reversed(crates):
        for below in crate.below:
            if below in behind:
                behind[below] = max(behind[below], below.seconds + behind[crate])
    return behind


def next_of(left, running, free, behind):
    """Which crate is begun next, and by how many processors; none where none can be."""
    waits = {*left, *running}
    ready = sorted((crate for crate in left if not waits.intersection(crate.below)), key=lambda it: -behind[it])
    if not ready or free < 1:
        return None
    is_longest = behind[ready[0]] >= max(behind[crate] for crate in waits)
    most = min(MOST_JOBS, 1 + int(ready[0].seconds) // SECONDS_FOR_ONE)
    return ready[0], min(most, max(LEAST_JOBS if is_longest else 1, free // len(ready)))


def estimate(crates, count):
    """About how many seconds these crates take: the same choice of the next one, by what each takes."""
    behind, left, running, now = chains(crates), [*crates], {}, 0
    while left or running:
        found = next_of(left, running, count - sum(jobs for _, jobs in running.values()), behind)
        if found:
            crate, jobs = found
            left.remove(crate)
            running[crate] = now + crate.seconds / (1 + FURTHER * (jobs - 1)), jobs
        else:
            first = min(running, key=lambda it: running[it][0])
            now = running.pop(first)[0]
    return now


def count_here():
    """How many crates go side by side: one for each processor, where there is memory."""
    words = dict(line.split(":") for line in pathlib.Path("/proc/meminfo").read_text().splitlines())
    memory = 1024 * int(words["MemAvailable"].split()[0])
    return max(1, min(len(os.sched_getaffinity(0)), memory // MEMORY))


class Kit:
    """The compiler, and what it needs."""

    def __init__(self):
        if not shutil.which("rt"):
            sys.exit("jade: the Rattle kit is needed to prove and build the program, and there is no command rt")
        said = subprocess.run(["rt", "doc"], stdout=subprocess.PIPE, check=True, text=True).stdout
        self.folder = pathlib.Path(said.strip()).parent

    def words_for(self, crate, jobs):
        """The command that proves and builds a crate."""
        words = [self.folder / "bin/rattle", "build", "--crate-name", crate.name, crate.source, "--jobs", jobs]
        for name in ["std", *crate.names]:
            rlib = {below.name: below.made for below in crate.below}.get(name, self.folder / f"rlibs/{name}.rlib")
            words += ["--extern", f"{name}={rlib}"]
        for folder in [self.folder / "rlibs", *[below.made.parent for below in crate.all_below]]:
            words += ["-L", f"dependency={folder}"]
        words += ["--antt-project", self.folder / "rattle/logic/antt-project.json"]
        words += ["--logic-built", self.folder / "logic_built", "--links", f"{crate.name}="]
        if crate.is_program:
            return [*words, "--toolchain", self.folder / "toolchain", "--backend", "llvm", "-o", crate.object]
        return [*words, "--statements", "-o", crate.made]

    def link(self, crate, said):
        """Links a program; whether it could."""
        linked = crate.object.with_suffix(".linked")
        words = [self.folder / "bin/rattle-link", "--target", "x86_64-unknown-linux-gnu"]
        words += ["--toolchain", self.folder / "toolchain", "-o", linked, crate.object]
        words += [self.folder / f"c/lib{name}_c.a" for name in ("os", "libc")]
        if subprocess.run(words, stdout=said, stderr=said, check=False).returncode:
            return False
        os.replace(linked, crate.made)
        return True


class Builds:
    """The crates that are being proved, each by processes of its own."""

    def __init__(self, kit):
        # What is built is as old as this: a source that is changed later is newer.
        self.kit, self.begun, self.running = kit, time.time(), {}

    def jobs(self):
        """How many processors they have now."""
        return sum(jobs for jobs, _, _ in self.running.values())

    def begin(self, crate, jobs):
        """Begins to prove and build a crate."""
        crate.object.parent.mkdir(parents=True, exist_ok=True)
        crate.stamp.unlink(missing_ok=True)
        with open(crate.said, "w", encoding="utf-8") as said:
            how = {"stdin": subprocess.DEVNULL, "stdout": said, "stderr": said, "start_new_session": True}
            words = [str(word) for word in self.kit.words_for(crate, jobs)]
            self.running[crate] = jobs, subprocess.Popen(words, cwd=crate.folder, **how), time.monotonic()

    def ended(self):
        """Waits until one has ended: the crate, whether it is built, and what was printed."""
        process, status, used = os.wait4(-1, 0)
        crate = next(crate for crate, (_, begun, _) in self.running.items() if begun.pid == process)
        jobs, begun, since = self.running.pop(crate)
        begun.returncode = os.waitstatus_to_exitcode(status)
        with open(crate.said, "a", encoding="utf-8") as said:
            good = begun.returncode == 0 and (not crate.is_program or self.kit.link(crate, said))
            seconds, busy = time.monotonic() - since, used.ru_utime + used.ru_stime
            said.write(f"{crate.name}: {seconds:.0f} s with {jobs} at a time, {busy:.0f} processor seconds, {used.ru_maxrss} KB\n")
        if good:
            crate.stamp.write_text(crate.sum, "utf-8")
            os.utime(crate.made, (self.begun, self.begun))
        return crate, good, crate.said.read_text("utf-8", "replace")

    def stop(self):
        """Ends what still runs."""
        for _, process, _ in self.running.values():
            try:
                os.killpg(process.pid, signal.SIGTERM)
            except ProcessLookupError:
                pass
            process.wait()


def minutes(seconds):
    return f"{seconds / 60:.0f} min"


def say(line):
    print(f"jade: {line}", file=sys.stderr, flush=True)


def show_failure(crate, said, log):
    # What was read of the crates below is left out.
    lines = [line for line in said.splitlines() if not line.startswith("statements ")]
    print("\n".join(lines[-SHOWN:]), file=sys.stderr)
    say(f"the crate {crate.name} was not proved and built; these are its last lines, and all is in {log}")


def prove(left, builds, count, log):
    """Proves and builds crates, by so many processes at a time; whether all are."""
    behind, every, begun = chains(left), len(left), time.monotonic()
    while left or builds.running:
        found = next_of(left, builds.running, count - builds.jobs(), behind)
        if found:
            crate, jobs = found
            left.remove(crate)
            say(f"proving {every - len(left)} of {every}: {crate.name} ({minutes(time.monotonic() - begun)} so far)")
            builds.begin(crate, jobs)
            continue
        crate, good, said = builds.ended()
        with open(log, "a", encoding="utf-8") as it:
            it.write(f"== {crate.name}\n{said}\n")
        if not good:
            show_failure(crate, said, log)
            return False
    say(f"proved and built {every} crate{'s' if every > 1 else ''} in {minutes(time.monotonic() - begun)}")
    return True


def main():
    for number in (signal.SIGINT, signal.SIGTERM):
        signal.signal(number, lambda number, _: sys.exit(128 + number))
    with open(TOP / "crates.txt", encoding="utf-8") as held:
        # Another start in this checkout ends first.
        fcntl.flock(held, fcntl.LOCK_EX)
        wanted = [crate.name for crate in crates_of(sys.argv[1:]) if crate.name in sys.argv[1:] and not crate.is_built()]
        if not wanted:
            return 0
        crates = crates_of(wanted)
        left = [crate for crate in crates if not crate.is_built()]
        log = left[-1].folder / "out/start.log"
        log.parent.mkdir(exist_ok=True)
        log.write_text("")
        count = count_here()
        say(
            f"{len(left)} of {len(crates)} crates are to be proved and built first, {count} at a time; where nothing else runs "
            f"that takes about {minutes(max(60, estimate(left, count)))} (`./jade try` answers in one, with no proof); what the "
            f"compiler prints goes to {log}"
        )
        builds = Builds(Kit())
        try:
            return 0 if prove([*left], builds, count, log) else 1
        finally:
            builds.stop()


if __name__ == "__main__":
    sys.exit(main())

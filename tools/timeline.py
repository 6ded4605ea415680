#!/usr/bin/env python3
"""Draws what each task of a program did when, in one run.

    timeline.py svg|page PROGRAM TASK_GRAPH TIME_LINE WORKERS LIMIT NUMBER* < FILE > PICTURE

PROGRAM is the proved program; it runs the text first, and a fault or a refusal is told on standard error
as `explain` tells it, with its status, and no picture is written. TIME_LINE, the program of
crates/time_line, runs it again and prints, in the order of the notes:

    note PATH ASK TIME THREAD      a task is about to carry out its ask of this number, by a thread
    over TIME                      the run has ended
    LABEL = NUMBER*                an object and its cells

ASK counts from 0 for each task, and TIME is in nanoseconds. TASK_GRAPH, the program of crates/task_graph,
tells what these asks are. Up to 60 tasks have each a row of their own; of more, those of one `withonly` share one,
which shows how many of them ran at a time, and how many waited. `./jade timeline WORKERS LIMIT NUMBER*` and `./jade
page timeline ..` call this. docs/GUIDE.md says how to read the picture. It proves nothing.

What is drawn follows from the notes so: A task can't have an object that it asks for before the last of
those that keep it from the object comes to the ask by which it lets go; until then it waits. The worker
that notes the next ask of the task had it in hand then; it is drawn as running from the time at which it
could go on and this worker had come to the last ask of what it did before. In between it is ready. A task that
commutes waits, too, until the one that had the object last before it has let go of it.
"""
import bisect
import sys

from graph import COMMUTING, MOST_TASKS, groups_of, lines_of, refuse, without_procedures
from page import page
from picture import LINE, PLUM, Picture, most_at_once, shares, short, steps_of, width
from programs import run
from task_lines import Tasks, counted, told

# The width of the time and the most of the names to its left, the heights of a row, of the busy share and of
# the row of a line with how many of its tasks wait and run, and the room above.
WIDE, NAMES, ROW, SHARE, TOP = 860, 210, 18, 56, 62
GROUP, WAITING, RUNNING = 46, 14, 24

COLOURS = {"runs": "#8fbfc0", "waits": "#f5c26b", "ready": "#d9dce3"}

LEGEND = (
    ("runs", "a worker has the task, by its number; above, each worker with its tasks"),
    ("waits", "it can't have the object yet that is named"),
    ("ready", "it could go on, but the worker that will has another task first"),
)


class Bar:
    """What a task does from a time to another; a worker runs it, or it waits for an object."""

    def __init__(self, task, kind, begin, end, worker=None, number=None):
        self.task, self.kind, self.begin, self.end = task, kind, begin, end
        self.worker, self.number = worker, number


class Times:
    """What each task did when, in nanoseconds since the first note."""

    def __init__(self, tasks, lines, workers):
        self.tasks, self.workers = tasks, workers
        notes = [line.split(" ")[1:] for line in lines if line.startswith("note ")]
        first = min(int(time) for _, _, time, _ in notes)
        # By task and ask: when it was come to, and when the task had what it asked for at the soonest; by
        # path, when a task was created.
        self.came = {(tasks.by_path[path], int(ask)): int(time) - first for path, ask, time, _ in notes}
        self.had, self.created, self.let_go = {}, {"0": 0}, self.times_of_commuting()
        for task, ask in tasks.asks:
            self.had[task, ask] = self.had_at(task, ask)
            if task.asks[ask][0] == "create":
                self.created[task.asks[ask][1]] = self.came[task, ask]
        self.over = next(int(line.split(" ")[1]) for line in lines if line.startswith("over ")) - first
        self.bars, self.last, free, threads = [], {}, {}, {}
        for path, ask, _, thread in notes:
            worker = threads.setdefault(thread, len(threads) + 1)
            self.go_on(tasks.by_path[path], int(ask), worker, free.get(worker, 0))
            free[worker] = self.came[tasks.by_path[path], int(ask)]

    def times_of_commuting(self):
        """By object, when which task that updates it in any order let go of it, in the order of these times."""
        found = {}
        for number, group in self.tasks.commuting().items():
            asks = [(task, at) for task in group for at, ask in enumerate(task.asks) if ask[:2] == ("give", number)]
            found[number] = sorted(((self.came[it], it[0]) for it in asks if it in self.came), key=lambda it: it[0])
        return found

    def had_at(self, task, ask):
        """When a task had what it asked for: at once, but where others keep it from an object."""
        what = task.asks[ask]
        sources = what[3] if what[0] == "take" else []
        had = max([self.came[task, ask]] + [self.had[source.task, source.ask] for source in sources])
        if what[0] == "take" and what[2] == "commuting" and (task, ask + 1) in self.came:
            times = self.let_go.get(what[1], [])
            before = bisect.bisect_right(times, self.came[task, ask + 1], key=lambda it: it[0])
            # The last other one that let go before this one went on.
            last = next((time for time, other in reversed(times[max(0, before - 2) : before]) if other is not task), had)
            had = max(had, last)
        return had

    def go_on(self, task, ask, worker, free):
        """A worker comes with a task to an ask; what the task did since its last one."""
        now = self.came[task, ask]
        if ask:
            since, ready = self.came[task, ask - 1], self.had[task, ask - 1]
            if ready > now:
                sys.exit(f"jade: {told(task)} went on with its ask {ask - 1} sooner than the tasks tell")
            if ready > since:
                self.bars.append(Bar(task, "waits", since, ready, number=task.asks[ask - 1][1]))
        else:
            ready = self.created[task.path]
        begin = max(ready, min(free, now))
        if begin > ready:
            self.bars.append(Bar(task, "ready", ready, begin))
        self.add_run(Bar(task, "runs", begin, now, worker))

    def add_run(self, bar):
        """Adds a run, which may go on where the last one of its task ends."""
        last = self.last.get(bar.task)
        if last and (last.worker, last.end) == (bar.worker, bar.begin):
            last.end = bar.end
        elif bar.end > bar.begin:
            self.bars.append(bar)
            self.last[bar.task] = bar

    def of(self, kind):
        return [bar for bar in self.bars if bar.kind == kind]

    def verdict(self):
        """The numbers, as a line."""
        ran, waited = (sum(bar.end - bar.begin for bar in self.of(kind)) for kind in ("runs", "waits"))
        share = 100 * ran / max(1, self.over * self.workers)
        workers = counted(self.workers, "worker")
        return (
            f"{counted(len(self.tasks.tasks), 'task')} by {workers} in {spelled(self.over)}; the workers had tasks for {share:.0f} % "
            f"of the time; the waits of all tasks added up are {spelled(waited)}"
        )


def spelled(time):
    """A time with its unit."""
    for size, unit in ((1_000_000_000, "s"), (1_000_000, "ms"), (1000, "µs")):
        if time >= size:
            return f"{time / size:.3g} {unit}" if time < 1000 * size else f"{time / size:.0f} {unit}"
    return f"{time} ns"


def round_step(time):
    """A round part of a time, of which there are four to ten in it."""
    size = 1
    while size * 10 <= time:
        size *= 10
    parts = (size * part // 10 for part in (1, 2, 5, 10, 20))
    return next((part for part in parts if part and time // part <= 10), size)


class TimePicture:
    """The picture of the times: what all forms of it have, and a row for each task."""

    def __init__(self, times, words):
        self.times, self.picture = times, Picture()
        self.rows = self.names()
        self.left = 20 + min(NAMES, max(width(name) for name in [*self.rows.values(), *self.more_names()]) + 14)
        self.crew = TOP + SHARE + 30
        self.above = self.crew + times.workers * ROW + 12
        self.below = self.above + len(self.rows) * self.row()
        self.picture.text(20, 24, f"What each task did when: ./jade timeline {' '.join(words)}", size=14, bold=True)
        self.picture.text(20, 44, times.verdict())

    def row(self):
        """The height of a row."""
        return ROW

    def names(self):
        """By what has a row, how it is called."""
        return {task: self.name(task) for task in self.times.tasks.tasks}

    def name(self, task):
        updates = f" cm({self.times.tasks.names[task.commutes_on()]})" if task.commutes_on() is not None else ""
        return told(task) + (f" line {task.line}" if task.line else "") + updates

    def more_names(self):
        """What else stands at the left."""
        return ["worker 64"]

    def x(self, time):
        return self.left + WIDE * time / max(1, self.times.over)

    def draw(self):
        self.draw_share()
        self.draw_ticks()
        for worker in range(self.times.workers):
            self.picture.text(20, self.crew + worker * ROW + 13, f"worker {worker + 1}", "#555")
            self.draw_worker(worker + 1, self.crew + worker * ROW)
        self.draw_rows()
        for place, (kind, text) in enumerate(LEGEND):
            y = self.below + 16 + place * (LINE + 3)
            self.picture.box(20, y, 22, 11, COLOURS[kind])
            self.picture.text(50, y + 10, f"{kind}: {text}", "#555")
        if self.times.tasks.commuting():
            self.picture.text(20, self.picture.high + LINE + 6, f"{COMMUTING}: each waits for the one that had it before.", PLUM)
        return self.picture

    def draw_worker(self, worker, y):
        """The runs of a worker; those of less than a point that follow each other are drawn as one."""
        small = []
        for bar in sorted((bar for bar in self.times.of("runs") if bar.worker == worker), key=lambda bar: bar.begin):
            if small and self.x(bar.begin) - self.x(small[-1].end) > 0.5 or self.x(bar.end) - self.x(bar.begin) > 1:
                self.draw_small(small, y)
                small = []
            if self.x(bar.end) - self.x(bar.begin) > 1:
                self.draw_bar(bar, y, told(bar.task))
            else:
                small.append(bar)
        self.draw_small(small, y)

    def draw_small(self, bars, y):
        if bars:
            tip = f"{counted(len(bars), 'run')} by worker {bars[0].worker}, from {spelled(bars[0].begin)} on"
            x, end = self.x(bars[0].begin), self.x(bars[-1].end)
            self.picture.box(x, y + 2, end - x, ROW - 4, COLOURS["runs"], tip=tip, of=told(bars[0].task) if len(bars) == 1 else "")

    def draw_rows(self):
        places = {task: self.above + place * ROW for place, task in enumerate(self.rows)}
        for task, y in places.items():
            self.picture.text(20, y + 13, short(self.rows[task], self.left - 26))
        for bar in self.times.bars:
            label = self.times.tasks.names[bar.number] if bar.kind == "waits" else str(bar.worker or "")
            self.draw_bar(bar, places[bar.task], label)

    def draw_bar(self, bar, y, label):
        """A bar, and in it its label, where it has room for that."""
        x, wide = self.x(bar.begin), self.x(bar.end) - self.x(bar.begin)
        what = {"runs": f"runs by worker {bar.worker}", "waits": f"waits for {label}", "ready": "is ready"}[bar.kind]
        tip = f"{told(bar.task)} {what} for {spelled(bar.end - bar.begin)}, from {spelled(bar.begin)} on"
        self.picture.box(x, y + 2, wide, ROW - 4, COLOURS[bar.kind], "white" if wide > 3 else "none", 0.5, tip, told(bar.task))
        if label and width(label) + 8 < wide:
            self.picture.text(x + 4, y + 13, label)

    def draw_share(self):
        """How many workers have a task."""
        times, bottom = self.times, TOP + SHARE
        runs = [(WIDE * bar.begin / max(1, times.over), WIDE * bar.end / max(1, times.over)) for bar in times.of("runs")]
        self.picture.box(self.left, TOP, WIDE, SHARE, "#f3f4f7", "#ccd")
        self.draw_area(shares(runs, WIDE), bottom, SHARE / times.workers, COLOURS["runs"])
        self.picture.text(self.left - 8, TOP + 10, f"{times.workers} busy", "#555", anchor="end")
        self.picture.text(self.left - 8, bottom, "0 busy", "#555", anchor="end")

    def draw_area(self, found, bottom, unit, colour, tip=""):
        """How many there are, over the time: so many units upwards."""
        way = f"M{self.left:.1f} {bottom:.1f}"
        for band, share in steps_of(found):
            way += f" H{self.left + band:.1f} V{bottom - unit * share:.1f}"
        self.picture.path(f"{way} H{self.left + len(found):.1f} V{bottom:.1f} Z", "none", 0, tip=tip, fill=colour)

    def draw_ticks(self):
        """The times, with a line downwards for each."""
        step = round_step(self.times.over)
        for time in range(0, self.times.over + 1, step):
            self.picture.path(f"M{self.x(time):.1f} {TOP + SHARE} V{self.below}", "#e3e5ea")
            self.picture.text(self.x(time), TOP + SHARE + 16, spelled(time) if time else "0", "#555", "middle")
        self.picture.reach(self.left + WIDE + 30, self.below)


class TimeLines(TimePicture):
    """The picture of many tasks: a row for each line of a `withonly`."""

    def row(self):
        return GROUP

    def names(self):
        self.groups = dict(groups_of(self.times.tasks))
        return {name: f"{name}: {counted(len(group), 'task')}" for name, group in self.groups.items()}

    def more_names(self):
        return ["up to 100 wait or are ready"]

    def draw_rows(self):
        line_of = {task: name for name, group in self.groups.items() for task in group}
        spans = {}
        for bar in self.times.bars:
            span = (WIDE * bar.begin / max(1, self.times.over), WIDE * bar.end / max(1, self.times.over))
            spans.setdefault((line_of[bar.task], bar.kind), []).append(span)
        for place, (name, text) in enumerate(self.rows.items()):
            self.draw_line(name, text, self.above + place * GROUP, spans)

    def draw_line(self, name, text, y, spans):
        """How many of the tasks of a line wait or are ready at a time, and below how many run."""
        of = {kind: spans.get((name, kind), []) for kind in ("runs", "waits", "ready")}
        runs, waits, both = (shares(it, WIDE) for it in (of["runs"], of["waits"], of["waits"] + of["ready"]))
        most, idle = most_at_once(of["runs"]), most_at_once(of["waits"] + of["ready"])
        tip = f"{text}; at a time up to {most} run, up to {most_at_once(of['waits'])} wait, up to {idle} wait or are ready"
        self.picture.box(self.left, y + 2, WIDE, GROUP - 4, "#fbfbfc", "#eef", 1, tip, name)
        middle, bottom = y + 2 + WAITING, y + GROUP - 4
        if max(both) > 0:
            self.draw_area(both, middle, WAITING / max(both), COLOURS["ready"], tip)
            self.draw_area(waits, middle, WAITING / max(both), COLOURS["waits"], tip)
        self.draw_area(runs, bottom, RUNNING / self.times.workers, COLOURS["runs"], tip)
        self.picture.text(20, y + 13, short(text, self.left - 26), bold=True)
        self.picture.text(20, y + 13 + LINE, short(f"up to {idle} wait or are ready", self.left - 26), "#555")
        self.picture.text(20, y + 13 + 2 * LINE, short(f"up to {most} run", self.left - 26), "#555")


def drawn(times, words):
    """The picture of the times."""
    return (TimePicture if len(times.tasks.tasks) <= MOST_TASKS else TimeLines)(times, words).draw()


def main():
    form, program, task_graph, time_line, *words = sys.argv[1:]
    text = sys.stdin.buffer.read()
    status = refuse(program, ["run", *words], text)
    if status:
        return status
    ran = run([time_line, *words], without_procedures(text))
    if ran.status:
        sys.exit(f"jade: the times could not be told (status {ran.status})")
    tasks = Tasks(lines_of(task_graph, words[1:], text))
    picture = drawn(Times(tasks, ran.text.splitlines(), int(words[0])), words)
    sys.stdout.buffer.write((page(picture, tasks) if form == "page" else picture.svg()).encode())
    return 0


if __name__ == "__main__":
    sys.exit(main())

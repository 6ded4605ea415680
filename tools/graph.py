#!/usr/bin/env python3
"""Draws the tasks of a program, and which waits for which.

    graph.py svg|page PROGRAM TASK_GRAPH LIMIT NUMBER* < FILE > PICTURE

PROGRAM is the proved program; it runs the text serially first, and a fault or a refusal is told on
standard error as `explain` tells it, with its status, and no picture is written. TASK_GRAPH is the
program of crates/task_graph. Downwards stand the steps, to scale, as far as they can be where each task
runs as soon as it may: what stands side by side could run at the same time. Up to 60 tasks have each a
column of their own; of more, those of one `withonly` share one, which shows how many of them could run at a time.
`./jade graph LIMIT NUMBER*` and `./jade page graph ..` call this. docs/GUIDE.md says how to read the
picture. It proves nothing.
"""
import re
import sys

from expander import expand
from explain import explanation
from page import page
from picture import GREY, LINE, PLUM, RED, WIDEST, Picture, Room, most_at_once, shares, short, steps_of, width
from programs import run
from task_lines import Tasks, counted, told

# The most tasks that are drawn each by itself, and the most lines of `withonly` that have a column.
MOST_TASKS, MOST_LINES = 60, 40

# The least and the greatest height of the longest chain; that of many tasks; and how many of a hundred tasks are to
# have a box that is high enough for their words.
LOWEST, TALLEST, MANY, SHARE = 420, 1400, 700, 60

# The room above the first box, to its left and between columns, and the greatest width of a column.
TOP, LEFT, GUTTER, BROAD = 66, 20, 34, 210

LEGEND = [
    ("Downwards stand the steps, to scale; boxes that stand side by side could run at the same time.", "#555"),
    ("An arrow leads from the place where a task lets go of an object to the task that waits for it there;", "#555"),
    ("a dashed one from where it has its version to read, beside which a later one may write.", "#555"),
    ("Red is the longest chain. What a box has no room for is told where the pointer rests on it.", "#555"),
]
OF_MANY = [
    ("Downwards stand the steps, to scale. A column stands for all tasks of one withonly: the wider it is at a place,", "#555"),
    ("the more of them could run at the same time. Red, at the left of a column, is the longest chain.", "#555"),
]
COMMUTING = "Tasks with cm update an object one at a time, in any order"
IN_ANY_ORDER = (f"{COMMUTING}: a dotted line joins them, and the chain leaves their waits out.", PLUM)
MANY_IN_ANY_ORDER = (f"{COMMUTING}: the chain leaves their waits out.", PLUM)


def fill_of(task):
    """The colour of a box."""
    if task.path == "0":
        return "#eaf0f8"
    return "#f3e8f7" if task.commutes_on() is not None else "#f4f6ea"


def lines_of_box(tasks, task, box):
    """The words of a box, each with its colour."""
    first = task.boxes[0] is box
    head = told(task) if first or task.path != "0" else "main goes on"
    if task.line:
        head += f" line {task.line}" if first else " goes on"
    lines = [(head, "#222"), (counted(box.steps, "step"), "#222")]
    if first and task.commutes_on() is not None:
        lines.append((f"cm({tasks.names[task.commutes_on()]})", PLUM))
    return lines + [(label(tasks, arrow), RED if arrow.on_chain else "#446") for arrow in box.arrows]


def label(tasks, arrow):
    """The words of an arrow: its objects, and whose they were."""
    names = [tasks.names[number] for number in arrow.objects]
    more = f", {len(names) - 2} more" if len(names) > 2 else ""
    return ", ".join(names[:2]) + more + f" ({told(arrow.source.task)})"


class Graph:
    """The picture of tasks that have each a column."""

    def __init__(self, tasks):
        self.tasks, self.picture, self.room = tasks, Picture(), Room()
        self.boxes = [(task, box, lines_of_box(tasks, task, box)) for task in tasks.tasks for box in task.boxes]
        needs = sorted(filter(None, map(self.need, tasks.tasks)))
        wanted = needs[len(needs) * SHARE // 100] * tasks.chain() if needs else 0
        self.scale = min(TALLEST, max(LOWEST, wanted)) / max(1, tasks.chain())
        self.place_columns()

    def need(self, task):
        """The height of a step with which the highest box of a task has room for its words; none where it has no steps."""
        box = max(task.boxes, key=lambda box: box.steps)
        return (len(lines_of_box(self.tasks, task, box)) * LINE + 6) / box.steps if box.steps else None

    def y(self, moment):
        return TOP + self.scale * moment[0]

    def place_columns(self):
        """A column for each task, in which no other stands meanwhile, and none that it waits for right above."""
        ends, places = [], {}
        root = self.tasks.tasks[0]
        for task in sorted(self.tasks.tasks, key=lambda t: (t.boxes[0].begin, t is not root)):
            begin, end = task.boxes[0].begin[0], task.boxes[-1].end[0]
            above = {places[arrow.source.task] for arrow in task.boxes[0].arrows if arrow.source.task in places}
            free = [at for at, until in enumerate(ends) if until <= begin and at not in above]
            place = free[0] if free else len(ends)
            ends[place : place + 1] = [max(end, begin + 1e-6) if task is not root else float("inf")]
            places[task] = place
        most = max(width(text) for _, _, lines in self.boxes for text, _ in lines) + 16
        each = (WIDEST - 2 * LEFT) / len(ends)
        self.gutter = min(GUTTER, each / 3)
        self.wide = min(BROAD, most, each - self.gutter)
        self.column = {task: LEFT + place * (self.wide + self.gutter) for task, place in places.items()}

    def draw(self, words):
        self.picture.text(LEFT, 24, f"Tasks and what they wait for: ./jade graph {' '.join(words)}", size=14, bold=True)
        self.picture.text(LEFT, 44, self.tasks.verdict())
        for task in self.tasks.tasks:
            self.draw_waiting(task)
        self.draw_commuting()
        for task, box, _ in self.boxes:
            self.draw_arrows(task, box)
        for task, box, lines in self.boxes:
            self.draw_box(task, box, lines)
        for task, box, lines in self.boxes:
            self.draw_words(task, box, lines)
        draw_legend(self.picture, LEGEND + [IN_ANY_ORDER] * bool(self.tasks.commuting()))
        return self.picture

    def draw_waiting(self, task):
        """A thin line where a task has begun, and waits."""
        x = self.column[task] + 4
        begin, end = self.y(task.boxes[0].begin), self.y(task.boxes[-1].begin)
        if end > begin:
            self.picture.path(f"M{x:.1f} {begin:.1f} V{end:.1f}", "#aab", 1, "1 3")

    def draw_commuting(self):
        """A dotted line between tasks that update an object in any order."""
        for number, group in self.tasks.commuting().items():
            tip = f"these update {self.tasks.names[number]} one at a time, in any order"
            for one, other in zip(group, group[1:]):
                (x, y), (to_x, to_y) = (((self.column[it] + self.wide / 2), self.y(it.boxes[-1].end)) for it in (one, other))
                bend = max(y, to_y) + 16
                self.picture.path(f"M{x:.1f} {y:.1f} V{bend:.1f} H{to_x:.1f} V{to_y:.1f}", PLUM, 1.5, "2 3", tip=tip)

    def draw_box(self, task, box, lines):
        x, y, high = self.column[task], self.y(box.begin), self.scale * (box.end[0] - box.begin[0])
        tip = f"{told(task)}: from {box.begin[0]} to {box.end[0]} steps\n" + "\n".join(text for text, _ in lines)
        self.picture.box(x, y, self.wide, high, fill_of(task), "#889", 1, tip, told(task))
        self.room.take(x, y, self.wide, max(high, 1))
        if box.chain:
            self.picture.box(x, y, min(4, self.wide), max(self.y(box.chain) - y, 1), RED)

    def draw_words(self, task, box, lines):
        """The words that fit into a box, or the first of them below or beside it, where nothing stands there."""
        x, y, high = self.column[task], self.y(box.begin), self.scale * (box.end[0] - box.begin[0])
        fit = max(0, min(len(lines), int((high - 4) // LINE))) if self.wide > 40 else 0
        for place, (text, colour) in enumerate(lines[:fit]):
            self.picture.text(x + 9, y + 14 + place * LINE, short(text, self.wide - 12), colour, bold=not place)
        text, colour = lines[0]
        for left, top in () if fit else ((x + 9, y + high + 2), (x + self.wide + 4, y), (x - width(text) - 6, y)):
            if LEFT <= left and left + width(text) < WIDEST and self.room.is_free(left, top, width(text), LINE):
                self.room.take(left, top, width(text), LINE)
                self.picture.text(left, top + 11, text, colour, bold=True)
                return

    def draw_arrows(self, task, box):
        """The arrows come in at the left of a box."""
        x, y, high = self.column[task], self.y(box.begin), self.scale * (box.end[0] - box.begin[0])
        apart = min(6, high / (len(box.arrows) + 1))
        for place, arrow in enumerate(sorted(box.arrows, key=lambda a: (self.column[a.source.task], a.source.moment))):
            source, lane = arrow.source, x - min(9 + 3 * (place % 6), self.gutter * 0.8)
            from_x = self.column[source.task] + (self.wide if self.column[source.task] < x else 0)
            from_y, to_y = self.y(source.moment), y + (place + 1) * apart
            reads = source.task.asks[source.ask][0] == "take"
            colour, thick = (RED, 2) if arrow.on_chain else (GREY, 1.2)
            way = f"M{from_x:.1f} {from_y:.1f} H{lane:.1f} V{to_y:.1f} H{x:.1f}"
            tip = f"{told(task)} waits for {label(self.tasks, arrow)}"
            self.picture.path(way, colour, thick, "5 3" if reads else "", True, tip)
            if not source.is_end:
                self.picture.dot(from_x, from_y, colour)


def draw_legend(picture, lines):
    y = picture.high + 26
    for line, colour in lines:
        picture.text(LEFT, y, line, colour)
        y += LINE + 2


def groups_of(tasks):
    """The tasks of each line of a `withonly`, with how they are called; beyond the most lines those of the fewest steps share one."""
    by_line = tasks.by_line()
    steps = {line: sum(task.steps for task in group) for line, group in by_line.items()}
    few = set(sorted(by_line, key=lambda line: -steps[line])[MOST_LINES - 1 :]) if len(by_line) > MOST_LINES else set()
    groups = [(f"line {line}" if line else "main", group) for line, group in by_line.items() if line not in few]
    return groups + [(f"{len(few)} other lines", [task for line in few for task in by_line[line]])] * bool(few)


def waits_of(tasks, group):
    """How often tasks wait for what, in words: the object or family, and whose it was."""
    found = {}
    for arrow in (arrow for task in group for box in task.boxes for arrow in box.arrows):
        whose = f"line {arrow.source.task.line}" if arrow.source.task.line else "main"
        for number in arrow.objects:
            key = f"{tasks.names[number].partition('[')[0]} of {whose}"
            found[key] = found.get(key, 0) + 1
    most = sorted(found, key=lambda key: -found[key])
    told_of = [f"{found[key]} for {key}" for key in most[:3]] + [f"{sum(found[key] for key in most[3:])} others"] * (len(most) > 3)
    return ", ".join(told_of) or "none"


class Lines:
    """The picture of many tasks: a column for each line of a `withonly`."""

    def __init__(self, tasks):
        self.tasks, self.picture, self.groups = tasks, Picture(), groups_of(tasks)
        self.scale = MANY / max(1, tasks.chain())
        each = (WIDEST - 2 * LEFT) / len(self.groups)
        self.gutter = min(GUTTER, each / 4)
        self.wide = min(150, each - self.gutter)
        self.top = TOP + 3 * LINE + 8

    def draw(self, words):
        self.picture.text(LEFT, 24, f"Tasks and what they wait for: ./jade graph {' '.join(words)}", size=14, bold=True)
        self.picture.text(LEFT, 44, self.tasks.verdict())
        for place, (name, group) in enumerate(self.groups):
            self.draw_group(LEFT + place * (self.wide + self.gutter), name, group)
        y = self.picture.high + 24
        for name, group in self.groups:
            steps = sum(task.steps for task in group)
            words = f"{name}: {counted(len(group), 'task')}, {counted(steps, 'step')}; waits: {waits_of(self.tasks, group)}"
            self.picture.text(LEFT, y, short(words, WIDEST - 2 * LEFT))
            y += LINE
        draw_legend(self.picture, OF_MANY + [MANY_IN_ANY_ORDER] * bool(self.tasks.commuting()))
        return self.picture

    def draw_group(self, x, name, group):
        boxes = [box for task in group for box in task.boxes]
        spans = [(self.scale * box.begin[0], self.scale * box.end[0]) for box in boxes]
        found, most = shares(spans, MANY), most_at_once(spans)
        for place, text in enumerate((name, counted(len(group), "task"), f"up to {most} at a time")):
            if self.wide > 40:
                self.picture.text(x, TOP + place * LINE, short(text, self.wide + self.gutter - 6), bold=not place)
        tip = f"{name}: {counted(len(group), 'task')}, up to {most} at a time; waits: {waits_of(self.tasks, group)}"
        self.picture.box(x, self.top, self.wide, MANY, "#fbfbfc", "#dde", 1, tip, name)
        way = f"M{x + 5:.1f} {self.top:.1f}"
        for row, share in steps_of(found):
            way += f" V{self.top + row} H{x + 5 + (self.wide - 5) * share / (most or 1):.1f}"
        colour = "#8fa8d0" if name == "main" else "#c9a3d6" if group[0].commutes_on() is not None else "#b5c07a"
        self.picture.path(f"{way} V{self.top + MANY} H{x + 5:.1f} Z", colour, 0.5, tip=tip, fill=colour)
        for box in (box for box in boxes if box.chain):
            y, end = self.top + self.scale * box.begin[0], self.top + self.scale * box.chain[0]
            self.picture.box(x, y, 4, max(end - y, 0.5), RED)


def drawn(tasks, words):
    """The picture of the tasks."""
    return (Graph if len(tasks.tasks) <= MOST_TASKS else Lines)(tasks).draw(words)


def refuse(program, words, text):
    """Runs a text; where it has no answer, that is told as `explain` tells it. The status."""
    ran = run([program, *words], text)
    if ran.status:
        sys.stderr.buffer.write(ran.written)
        sys.stderr.write(explanation(text, words, ran.text))
    return ran.status


def without_procedures(text):
    """A text that is not refused, without procedures: each of its tokens has a line of its own."""
    expanded = expand(text)
    return text if expanded.is_source else expanded.text.replace(b" ", b"\n")


def lines_of(task_graph, words, text):
    """The lines that tell the tasks, with the lines of the text in which their `withonly` stand."""
    expanded = expand(text)
    ran = run([task_graph, *words], without_procedures(text))
    if ran.status:
        sys.exit(f"jade: the tasks could not be told (status {ran.status})")
    lines = ran.text.splitlines()
    if expanded.is_source:
        return lines
    at = re.compile("(create .* )([0-9]+)")
    return [at.sub(lambda found: f"{found[1]}{expanded.tokens[int(found[2]) - 1].line}", line) for line in lines]


def main():
    form, program, task_graph, *words = sys.argv[1:]
    text = sys.stdin.buffer.read()
    status = refuse(program, ["serial", *words], text)
    if status:
        return status
    tasks = Tasks(lines_of(task_graph, words, text))
    picture = drawn(tasks, words)
    sys.stdout.buffer.write((page(picture, tasks) if form == "page" else picture.svg()).encode())
    return 0


if __name__ == "__main__":
    sys.exit(main())

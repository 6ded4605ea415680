#!/usr/bin/env python3
"""Draws programs of few, of many and of very many tasks, and looks at what is drawn.

    tools/try_pictures.py

Each picture must be XML of at most 2,000 by 4,000 points with all tasks in it, each with the line of a `withonly`: where
each has a box, its height is to scale with its steps; where a row or column stands for all tasks of a `withonly`, their
numbers add up. A page must know each task. The script ends with 1 at the first that is otherwise.
"""
import json
import re
import sys
import xml.etree.ElementTree

import graph
import timeline
from page import page
from picture import HIGHEST, WIDEST
from programs import built, run
from task_lines import Tasks

DRILL = """objects block[16] : 64;
object sum : 1;
main {
    for i in 0 .. %d {
        withonly { rd(block[7 * i %% 16]); rd_wr(block[(5 * i + 3) %% 16]); } do (i) {
            for c in 0 .. %d { block[(5 * i + 3) %% 16][c] = block[7 * i %% 16][c] / 2 + i + c; }
        }
    }
    for j in 0 .. 5 {
        withonly { rd(block[j]); rd_wr(sum); } do (j) {
            for k in 0 .. %d { withonly { rd(block[j]); } do () { } }
            sum[0] = sum[0] + block[j][0];
        }
    }
}
"""
PROCEDURES = """object s : 1;
proc leaf(int a) {
    withonly { rd_wr(s); } do (a) { s[0] = s[0] + a; }
}
proc both(int a) {
    leaf(a);
    withonly { df_rd_wr(s); } do (a) {
        with { rd_wr(s); } cont;
        leaf(a + 1);
    }
}
main {
    for i in 0 .. 5 { both(i); leaf(i); }
}
"""
# How many tasks a text has, and the text.
PROGRAMS = (
    (16, DRILL % (5, 20, 1)),
    (276, DRILL % (250, 64, 4)),
    (5001, DRILL % (2975, 4, 404)),
    (21, PROCEDURES),
    (201, "object s : 1;\nmain {\n" + "withonly { rd(s); } do () { }\n" * 200 + "}\n"),
)


def shapes(svg):
    """The shapes of a picture that stand for something: its name, its size and what is told of it."""
    for rect in xml.etree.ElementTree.fromstring(svg).iter("{http://www.w3.org/2000/svg}rect"):
        if rect.get("data-of"):
            title = rect.find("{http://www.w3.org/2000/svg}title").text
            yield rect.get("data-of"), float(rect.get("width")), float(rect.get("height")), title


def is_in_bounds(picture):
    """Whether all of a picture is seen: what is drawn beyond the bounds is cut off."""
    return 100 < picture.wide <= WIDEST and 100 < picture.high <= HIGHEST


def is_to_scale(svg):
    """Whether the boxes of a graph are as high as their steps are many."""
    boxes = [(high, *map(int, re.search(r"from ([0-9]+) to ([0-9]+) steps", tip).groups())) for _, _, high, tip in shapes(svg)]
    scale = max(high / (end - begin) for high, begin, end in boxes if end > begin)
    return all(abs(high - scale * (end - begin)) < 0.2 for high, begin, end in boxes)


def tasks_in(svg):
    """How many tasks the rows or columns of a picture stand for."""
    told = {name: int(re.search(r": ([0-9]+) tasks?[,;]", tip)[1]) for name, _, _, tip in shapes(svg) if ": " in tip and ";" in tip}
    return sum(told.values())


def faults_of(count, text, tasks, pictures):
    """What is wrong with the pictures of a program, in words: of its tasks, and of their times."""
    lines = text.split("\n")
    if any(task.creator and "withonly" not in lines[task.line - 1] for task in tasks.tasks):
        yield "a task has the line of no `withonly`"
    if not all(map(is_in_bounds, pictures)):
        yield "a picture is too large, or empty"
    of_tasks, of_times = (picture.svg() for picture in pictures)
    if count <= graph.MOST_TASKS:
        if not is_to_scale(of_tasks):
            yield "the boxes of the graph are not to scale"
        names = {"main" if task.path == "0" else task.path for task in tasks.tasks}
        for svg in (of_tasks, of_times):
            if {name for name, _, _, _ in shapes(svg)} != names:
                yield "a picture lacks tasks"
    elif not tasks_in(of_tasks) == tasks_in(of_times) == count:
        yield f"the numbers of tasks come to {tasks_in(of_tasks)} and {tasks_in(of_times)}"


def main():
    for count, text in PROGRAMS:
        tasks = Tasks(graph.lines_of(built("task_graph"), ["100000000"], text.encode()))
        ran = run([built("time_line"), "4", "100000000"], graph.without_procedures(text.encode()))
        picture = graph.drawn(tasks, [])
        of_times = timeline.drawn(timeline.Times(tasks, ran.text.splitlines(), 4), [])
        faults = list(faults_of(count, text, tasks, (picture, of_times)))
        known = json.loads(re.search(r"const tasks = (.*), most = 200;", page(picture, tasks))[1])
        if len(tasks.tasks) != count or len(known) != count:
            faults.append(f"there are {len(tasks.tasks)} tasks, and {len(known)} in the page")
        if faults:
            print(f"try_pictures: of {count} tasks: {'; '.join(faults)}")
            return 1
    print(f"try_pictures: programs of {', '.join(str(count) for count, _ in PROGRAMS)} tasks are drawn")
    return 0


if __name__ == "__main__":
    sys.exit(main())

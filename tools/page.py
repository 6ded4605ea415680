"""A page with a picture, in which one finds a task by its path or its line, and sees what it declared."""
import json
import pathlib
import re

from task_lines import told

# How many waits of one task are told.
MOST_WAITS = 20

FORM = pathlib.Path(__file__).with_name("page.html")


def rows(tasks):
    """Of each task: its path, its line, its steps, who created it, what it declared, and for what it waits."""
    for task in tasks.tasks:
        declared = [f"{','.join(sorted(rights))}({tasks.names[number]})" for number, rights in task.declared.items()]
        waits = [
            f"{tasks.names[number]} of {told(arrow.source.task)}" for box in task.boxes for arrow in box.arrows for number in arrow.objects
        ]
        waits[MOST_WAITS:] = [f"{len(waits) - MOST_WAITS} more"] * (len(waits) > MOST_WAITS)
        yield [told(task), task.line, task.steps, told(task.creator) if task.creator else "", declared, waits]


def page(picture, tasks):
    """The page, as HTML."""
    data = json.dumps(list(rows(tasks)), separators=(",", ":")).replace("<", "\\u003c")
    before, between, after = re.split("PICTURE|TASKS", FORM.read_text("utf-8"))
    return before + picture.svg() + between + data + after

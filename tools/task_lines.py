"""Reads the lines of crates/task_graph, and tells which task waits for which.

The lines are those of a serial run, in which each task runs whole where it is created:

    object NUMBER NAME             the name of an object
    create PATH STEPS CHILD LINE   a task creates a child, whose withonly stands in this line
    declares CHILD OBJECT RIGHTS   what the child declares
    take PATH STEPS OBJECT MODE    it takes an object, for reading, writing or commuting
    give PATH STEPS OBJECT         it gives an object back
    change PATH STEPS              its rights change by a with
    shift PATH OBJECT RIGHTS       what they change to
    end PATH STEPS                 it ends

STEPS are those that the task has begun by then, and RIGHTS are words of declarations, or a dash. The
asks of a task are its lines create, take, give, change and end.

Where all runs as soon as it may, on any number of workers, what counts is not the time but the steps: a
moment is how many steps lie on the longest chain before it, and beside it how many waits lie there since
the last step. A line of the text comes after all that its task has to wait for, so that one reading gives
the moment of each.

Tasks that commute on an object wait for one another too, one at a time but in no order: that is no arrow,
and the chain leaves it out.
"""

MODES = ("writing", "reading", "commuting")


class Source:
    """A moment from which on a task's entry in an object's queue keeps no later one from taking it."""

    def __init__(self, task, moment, ask, is_end):
        self.task, self.moment, self.ask, self.is_end = task, moment, ask, is_end


class Box:
    """What a task does without waiting: from a moment to another, with so many steps."""

    def __init__(self, begin, cause):
        self.begin, self.end, self.steps = begin, begin, 0
        # The task and the moment that it comes directly after; the arrows that lead to it; and up to
        # which moment it lies on the longest chain, if it does.
        self.cause, self.arrows, self.chain, self.by_task = cause, [], None, {}


class Arrow:
    """From a source to a box of another task, for some objects."""

    def __init__(self, source, objects):
        self.source, self.objects, self.on_chain = source, objects, False


class Entry:
    """The entry of a task in an object's queue."""

    def __init__(self, rights, version):
        self.rights, self.version, self.waited = rights, version, []

    def changes(self):
        return bool(self.rights & {"wr", "df_wr"})

    def conflicts(self, mode):
        """Whether it keeps a later entry from being taken in this mode."""
        if "cm" in self.rights:
            return mode != "commuting"
        return self.changes() or (mode != "reading" and bool(self.rights) and not self.version)


class Task:
    """A task of the program."""

    def __init__(self, path, line, moment, creator):
        self.path, self.line, self.created, self.creator = path, line, moment, creator
        self.known = len(creator.waits) if creator else 0
        self.steps, self.moment, self.asks, self.entries, self.waits = 0, moment, [], {}, {}
        self.boxes, self.group, self.declared = [], None, {}

    def commutes_on(self):
        """The object that it updates in any order with others, if it does."""
        return next((number for number, rights in self.declared.items() if "cm" in rights), None)

    def has_waited(self, source):
        """Whether it is known to come after this: it or a creator of it has waited for that."""
        task, known = self, len(self.waits)
        while task:
            place = task.waits.get(source)
            if place is not None and place < known:
                return True
            task, known = task.creator, task.known
        return False


class Tasks:
    """The tasks of a program, from the lines that tell them."""

    def __init__(self, lines):
        self.names, self.tasks, self.by_path = {}, [], {}
        # All asks in the order of the lines: the task, and the number of its ask.
        self.asks = []
        # By object and mode: the sources that a take in this mode waits for, but those that another of
        # them has waited for.
        self.front = {}
        self.add("0", 0, (0, 0), None)
        for line in lines:
            word, *rest = line.split(" ")
            getattr(self, "read_" + word)(*rest)
        self.mark_chain()

    def add(self, path, line, moment, creator):
        task = Task(path, line, moment, creator)
        task.boxes.append(Box(moment, (creator, moment)))
        self.tasks.append(task)
        self.by_path[path] = task
        return task

    def go_on(self, path, steps, ask):
        """A task comes to an ask, with so many steps begun by then."""
        task = self.by_path[path]
        more = int(steps) - task.steps
        if more or ask[0] != "take":
            task.group = None
        if more:
            task.steps += more
            task.moment = (task.moment[0] + more, 0)
            task.boxes[-1].steps += more
        task.boxes[-1].end = max(task.moment, task.boxes[-1].end)
        self.asks.append((task, len(task.asks)))
        task.asks.append(ask)
        return task

    def entry(self, task, number):
        if task.path == "0" and number not in task.entries:
            task.entries[number] = Entry({"rd", "wr"}, False)
        return task.entries.setdefault(number, Entry(set(), False))

    def read_object(self, number, name):
        self.names[number] = name

    def read_create(self, path, steps, child, line):
        task = self.go_on(path, steps, ("create", child))
        self.add(child, int(line), task.moment, task)

    def read_declares(self, path, number, rights):
        task = self.by_path[path]
        above = self.entry(task.creator, number)
        version = above.version and not above.changes()
        # A commuting update is told by no word or by its own.
        task.declared[number] = set((rights or "cm").split(","))
        task.entries[number] = Entry(set(task.declared[number]), version)

    def read_take(self, path, steps, number, mode):
        task = self.go_on(path, steps, ("take", number, mode))
        entry = self.entry(task, number)
        sources = self.front.setdefault((number, mode), {})
        entry.waited += sources
        others = [s for s in sources if not self.is_above(s.task, task)]
        news = [s for s in others if not task.has_waited(s)]
        task.asks[-1] += (others,)
        self.arrive(task, number, others, news)
        if mode == "reading" and not entry.version:
            before = [entry.conflicts(mode) for mode in MODES]
            entry.version = True
            self.release(task, number, entry, before, False)

    def is_above(self, other, task):
        """Whether one is the other, or an ancestor of it."""
        return (task.path + ".").startswith(other.path + ".")

    def arrive(self, task, number, others, news):
        """A task has what it waits for: its moment, and a new box where there are arrows."""
        arrival = task.moment
        begin = max([arrival] + [(s.moment[0], s.moment[1] + 1) for s in others])
        for source in news:
            task.waits[source] = len(task.waits)
        if not news and begin == arrival:
            return
        if task.group is None and self.begin_box(task, arrival):
            begin = max(begin, (arrival[0], arrival[1] + 1))
        box = task.boxes[-1]
        if begin[0] > arrival[0]:
            latest = max(others, key=lambda s: s.moment)
            box.cause = (latest.task, latest.moment)
        task.moment = box.begin = box.end = begin
        for source in news:
            self.add_arrow(box, source, number)

    def begin_box(self, task, arrival):
        """What a task does after a wait goes to a box of its own; whether that is another than its first."""
        last = task.boxes[-1]
        is_first = len(task.boxes) == 1 and not last.steps and len(task.asks) == self.takes_first(task)
        if not is_first:
            task.boxes.append(Box(arrival, (task, arrival)))
        task.group = task.boxes[-1]
        return not is_first

    def takes_first(self, task):
        """How many takes a task begins with."""
        count = 0
        while count < len(task.asks) and task.asks[count][0] == "take":
            count += 1
        return count

    def add_arrow(self, box, source, number):
        """An arrow to a box; where one comes from the same task already, the later source counts."""
        arrow = box.by_task.get(source.task)
        if not arrow:
            box.by_task[source.task] = Arrow(source, [number])
            box.arrows.append(box.by_task[source.task])
        elif arrow.source.moment == source.moment:
            arrow.objects.append(number)
        elif arrow.source.moment < source.moment:
            arrow.source, arrow.objects = source, [number]

    def release(self, task, number, entry, conflicted, is_end):
        """An entry has changed: where it kept others from a take before and does no more, from here on."""
        source = Source(task, task.moment, len(task.asks) - 1, is_end)
        for mode, before in zip(MODES, conflicted):
            if before and not entry.conflicts(mode):
                front = self.front.setdefault((number, mode), {})
                for other in entry.waited:
                    front.pop(other, None)
                front[source] = None

    def shift(self, task, number, rights, is_end):
        entry = self.entry(task, number)
        before = [entry.conflicts(mode) for mode in MODES]
        entry.rights = rights
        self.release(task, number, entry, before, is_end)

    def read_give(self, path, steps, number):
        task = self.go_on(path, steps, ("give", number))
        entry = self.entry(task, number)
        entry.version = entry.version and not entry.changes()

    def read_change(self, path, steps):
        self.go_on(path, steps, ("change",))

    def read_shift(self, path, number, rights):
        self.shift(self.by_path[path], number, set(rights.split(",")) - {"-"}, False)

    def read_end(self, path, steps):
        task = self.go_on(path, steps, ("end",))
        for number in list(task.entries):
            self.shift(task, number, set(), True)

    def mark_chain(self):
        """Marks what lies on the longest chain: its boxes, each up to a moment, and its arrows."""
        task = max(self.tasks, key=lambda t: t.moment[0])
        moment = task.moment
        while task:
            box = [b for b in task.boxes if b.begin <= moment][-1]
            box.chain = max(box.chain or box.begin, min(moment, box.end))
            before, moment = box.cause
            for arrow in box.arrows:
                arrow.on_chain |= arrow.source.task is before and arrow.source.moment == moment
            task = before

    def sum(self):
        return sum(task.steps for task in self.tasks)

    def chain(self):
        return max(task.moment[0] for task in self.tasks)

    def commuting(self):
        """By object: the tasks that update it in any order, in the order of their creation."""
        found = {}
        for task in self.tasks:
            if task.commutes_on() is not None:
                found.setdefault(task.commutes_on(), []).append(task)
        return found

    def by_line(self):
        """By the line of their `withonly`, the tasks in the order of their creation; `main` has the line 0."""
        found = {}
        for task in self.tasks:
            found.setdefault(task.line, []).append(task)
        return found

    def verdict(self):
        """The numbers, as a line."""
        most = self.sum() / self.chain() if self.chain() else 1
        return (
            f"{counted(len(self.tasks), 'task')}; sum of steps {self.sum()}; longest chain {self.chain()}; quotient "
            f"{most:.2f}: no number of workers gains more than that"
        )


def counted(number, what):
    """A number with its noun."""
    return f"{number} {what}" + ("" if number == 1 else "s")


def told(task):
    """How a task is called."""
    return "main" if task.path == "0" else task.path

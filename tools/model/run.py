"""Runs a script: its jobs step by step as the order says, and the report of it."""
from . import attributes, requests
from .by_handle import check_root
from .host import Host
from .job import Act, Job, Stop, begun, ending, give_back
from .linux import PATH_ONLY
from .plan import BadConfig, Plan
from .read_only import guarded
from .script import BadScript, LENGTH_LIMIT, read_script
from .seat import Seat
from .session import Session
from .text import text_of

BODIES = {**requests.BODIES, **attributes.BODIES}
READ_ONLY_BODIES = guarded(BODIES)


class Task:
    """A job or an edit in the run: what it wants next, or its answer."""

    def __init__(self, place, job, steps):
        self.place, self.job, self.steps = place, job, steps
        self.answer = None
        self.has_begun = False
        self.wanted = None
        self.advance(None)

    def advance(self, reply):
        try:
            self.wanted = self.steps.send(reply)
        except StopIteration as stop:
            self.wanted, self.answer = None, stop.value

    def cut(self):
        """Drops what the task wants; what has begun gives back what it has."""
        self.answer = None
        self.steps = ending(self.job) if self.has_begun and self.job else iter_answer(("Cut",))
        self.advance(None)


def iter_answer(answer):
    return answer
    yield


def tried(job):
    """The steps of the check, with what it took given back."""
    try:
        works = yield from check_root(job)
    except Stop:
        yield from give_back(job, 0)
        raise
    yield from give_back(job, 0)
    return works


def edit_steps(change):
    reply = yield Act(True, ("Edit", change))
    return ("Edited",) if reply[0] == "Ok" else ("EditRefused", reply[1])


class Run:
    """One run of a script."""

    def __init__(self, script):
        self.plan = Plan(script.config)
        self.host = Host(script.start.tree, script.faults)
        self.lines = []
        self.lost = None
        reply = self.host.call(Seat(*script.config.seat), "OpenRoot", b"/", PATH_ONLY)
        if reply[0] != "Ok":
            raise BadConfig(reply[1])
        if self.plan.handles != "never":
            self.check_handles()
        self.session = Session(self.plan.limits)
        self.tasks = [self.task(place, job) for place, job in enumerate(script.jobs)]
        self.order = script.order

    def check_handles(self):
        """Tries handles out on what is shared, over tables that are given up behind it."""
        job = Job(self.plan, (0, 0), Seat(*self.plan.config.seat), None, ())
        self.session = Session(self.plan.limits)
        steps, reply = tried(job), None
        try:
            while True:
                reply = self.reply_to(steps.send(reply), job.seat)
        except StopIteration as stop:
            if not stop.value:
                self.plan.handles = "never"
        except Stop as stop:
            raise BadConfig(stop.errno) from None

    def task(self, place, job):
        if job[0] == "edit":
            return Task(place, None, edit_steps(job[1]))
        _, asker, name, fields = job
        made = Job(self.plan, asker, Seat(*self.plan.config.seat), name, fields)
        bodies = READ_ONLY_BODIES if self.plan.config.read_only else BODIES
        return Task(place, made, begun(made, bodies[name]))

    def reply_to(self, act, seat):
        """What the host or the session says to an act."""
        if act.is_call:
            return self.host.call(seat, *act.words)
        return self.session.event(*act.words)

    def step(self, task):
        """Takes the step that a task wants."""
        act = task.wanted
        reply = self.reply_to(act, task.job and task.job.seat)
        self.lines.append(f"step {task.place} {text_of(act.words)} = {text_of(reply)}")
        task.has_begun = True
        task.advance(reply)
        if act.restores and reply[0] != "Ok" and self.lost is None:
            self.lost = (task.place, reply[1])
            self.end_lost(task)

    def finish(self, task):
        while task.answer is None:
            self.step(task)

    def end_lost(self, lost):
        """A seat is lost: its job ends its scopes, then all that is unfinished gives back what it has."""
        unfinished = [task for task in self.tasks if task is lost or task.answer is None]
        for task in unfinished:
            task.cut()
        while lost.answer is None and lost.wanted.restores:
            self.step(lost)
        for task in unfinished:
            self.finish(task)

    def run(self):
        """The lines of the report."""
        for place in self.order:
            if place < len(self.tasks) and self.tasks[place].answer is None:
                self.step(self.tasks[place])
        for task in self.tasks:
            self.finish(task)
        answers = [f"answer {task.place} {text_of(task.answer)}" for task in self.tasks]
        return self.lines + answers + self.end_lines()

    def table_lines(self):
        """The lines of what is live and of the slots that are left."""
        session = self.session
        lines = [f"live {number} {session.numbers[number].count}" for number in sorted(session.numbers)]
        lines += [f"handle {handle} {session.handles[handle].of}" for handle in sorted(session.handles)]
        lines.append(f"slots {session.slots[0]}")
        lines += [f"class {place} {left}" for place, left in enumerate(session.slots) if place]
        return lines

    def end_lines(self):
        """The lines behind the answers."""
        lines = self.table_lines() + self.host.tree.listing()
        if self.lost:
            lines.append("lost %d %d" % self.lost)
        return lines + ["end"]


def run_script(data):
    """What the program writes for a script, its exit status, and its line on standard error."""
    if len(data) > LENGTH_LIMIT:
        return b"", 3, "script too long"
    try:
        script = read_script(data)
        run = Run(script)
    except BadScript as bad:
        return b"", 4, f"bad script at line {bad.line}"
    except BadConfig as bad:
        return b"", 5, f"bad configuration: os error {bad.errno}"
    report = "".join([line + "\n" for line in run.run()]).encode()
    return (report, 8, "credentials lost") if run.lost else (report, 0, None)

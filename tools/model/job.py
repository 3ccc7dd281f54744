"""A job: what it holds, what it owes, and the scopes that it has open; each `yield` is one step.

A request is a generator that yields acts and is sent replies. What it holds is told in lists, so that a job that is
cut can give everything back whatever its request was doing (in virtiofsd the drops of guards and references do so)."""
from .linux import EBADF, EIO, ENFILE, EOVERFLOW

ERRNOS = {"NotLive": EBADF, "Overtaken": EBADF, "NoSlot": ENFILE, "Last": EOVERFLOW, "Live": EIO}


class Stop(Exception):
    """A request that is refused with an errno."""

    def __init__(self, errno):
        super().__init__(errno)
        self.errno = errno


class Act:
    """A step that a job wants: a call of the host, or else an event of the session."""

    __slots__ = ("is_call", "words", "restores")

    def __init__(self, is_call, words, restores=False):
        self.is_call, self.words, self.restores = is_call, words, restores


class Hold:
    """A pin, a descriptor, a slot, a mount's holder or a count of a number."""

    __slots__ = ("kind", "fields")

    def __init__(self, kind, *fields):
        self.kind, self.fields = kind, fields


class Job:
    """The state of a request beside where it stands."""

    def __init__(self, plan, asker, seat, name, fields):
        self.plan, self.asker, self.seat = plan, asker, seat
        self.name, self.fields = name, fields
        self.era, self.options = 0, (False, False, False, False)
        self.holds = []
        self.restoring = []
        self.owed = 0
        self.closing = None
        self.slot_owed = None
        self.entry = None
        self.found_class = ()

    def hold(self, kind, *fields):
        hold = Hold(kind, *fields)
        self.holds.append(hold)
        return hold

    @property
    def has_writeback(self):
        return self.options[0]

    @property
    def has_submounts(self):
        return self.options[1]

    @property
    def has_acls(self):
        return self.options[2]

    @property
    def has_groups(self):
        return self.options[3]


# single steps


def reply_of(name, *fields):
    """The reply of a host call, whatever it is."""
    reply = yield Act(True, (name, *fields))
    return reply


def call(name, *fields):
    """The value of a host call; a refusal ends the request."""
    reply = yield Act(True, (name, *fields))
    if reply[0] != "Ok":
        raise Stop(reply[1])
    return reply[1]


def event(name, *fields):
    """The reply of an event; a refusal ends the request."""
    reply = yield Act(False, (name, *fields))
    if reply[0] == "Refused":
        raise Stop(ERRNOS[reply[1]])
    return reply


def open_call(job, name, *fields):
    """A host call that opens; the descriptor is held."""
    value = yield from call(name, *fields)
    return value[1], job.hold("fd", value[1])


# what is given back


def pay(job):
    """Closes what the last event put on the closing list."""
    while True:
        if job.closing is not None:
            fd, slot, *of_class = job.closing
            yield Act(True, ("Close", fd))
            job.closing, job.slot_owed = None, ("GiveFd", *of_class) if slot == 1 else None
        if job.slot_owed is not None:
            yield Act(False, job.slot_owed)
            job.slot_owed = None
        if job.owed == 0:
            return
        reply = yield Act(False, ("TakeClosing",))
        job.owed -= 1
        if reply[0] == "Closing":
            job.closing = reply[1:]


def owing(job, name, *fields):
    """An event after which descriptors may be left to close."""
    reply = yield from event(name, *fields)
    job.owed += reply[-1]
    yield from pay(job)
    return reply


def give(job, hold):
    """Gives one hold back; the replies are passed over."""
    place = job.holds.index(hold)
    if hold.kind in ("fd", "slotted fd"):
        yield Act(True, ("Close", hold.fields[0]))
        if hold.kind == "slotted fd":
            job.holds[place] = Hold("slot", *hold.fields[1:])
        else:
            del job.holds[place]
        return
    names = {"pin": "Unpin", "handle pin": "UnpinHandle", "slot": "GiveFd", "mount": "MountDrop", "count": "GiveBack"}
    reply = yield Act(False, (names[hold.kind], *hold.fields))
    del job.holds[place]
    if reply[0] == "Done":
        job.owed += reply[1]
    yield from pay(job)


def give_back(job, mark, keep=None):
    """Gives holds back down to a place, the last one first, but for one that is kept."""
    while True:
        waiting = [hold for hold in job.holds[mark:] if hold is not keep]
        if not waiting:
            return
        yield from give(job, waiting[-1])


def bracket(job, body):
    """A part that gives its holds back at its own end; the count of an entry passes to the request."""
    mark = len(job.holds)
    try:
        value = yield from body
    except Stop:
        yield from give_back(job, mark)
        raise
    yield from give_back(job, mark, job.entry)
    return value


# scopes


def restore(job):
    """Ends scopes: the last change of the seat is undone first, each once."""
    while job.restoring:
        yield Act(True, job.restoring[-1], True)
        job.restoring.pop()


def scoped(job, body):
    """A part whose scopes end right behind it, on every path."""
    try:
        value = yield from body
    except Stop:
        yield from restore(job)
        raise
    yield from restore(job)
    return value


def changed(job, words, undone_by):
    """A change of the seat that is undone at the end of its scope."""
    yield from call(*words)
    job.restoring.append(undone_by)


# whole jobs


def begun(job, body):
    """The steps of a request: it begins, does its part, and gives its holds back."""
    try:
        if job.name in ("init", "destroy"):
            reply = yield from event("Clear")
            job.era, job.owed = reply[1], reply[2]
            yield from pay(job)
        else:
            reply = yield from event("Begin")
            job.era, job.options = reply[1], reply[2]
        answer = yield from body(job, *job.fields)
    except Stop as stop:
        yield from give_back(job, 0)
        return ("Refused", stop.errno)
    yield from give_back(job, 0, job.entry)
    return answer


def ending(job):
    """What is left of a job that is cut: its open scopes, what it owes, and its holds."""
    yield from restore(job)
    yield from pay(job)
    yield from give_back(job, 0)
    return ("Cut",)

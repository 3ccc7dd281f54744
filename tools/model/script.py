"""The reader of scripts: settings, the tree, faults, jobs, orders, and the line that ends it."""
from .config import Config
from .messages import read_edit, read_request
from .start import LINES, StartTree
from .text import BadWord, Words

SETTINGS, TREE, FAULTS, JOBS, ORDERS, END = range(6)
PHASES = {b"set": SETTINGS, b"fault": FAULTS, b"job": JOBS, b"edit": JOBS, b"order": ORDERS, b"end": END}
PHASES.update({word.encode(): TREE for word in LINES})

LENGTH_LIMIT, JOB_LIMIT, PLACE_LIMIT = 16777216, 65536, 1048576


class BadScript(Exception):
    """The first line with which no script begins."""

    def __init__(self, line):
        super().__init__(line)
        self.line = line


class Script:
    """What a script says."""

    def __init__(self):
        self.config = Config()
        self.start = StartTree()
        self.faults = []
        self.jobs = []
        self.order = []
        self.phase = SETTINGS

    def take(self, line):
        """Takes a line."""
        words = Words(line.split(b" "))
        if self.phase == END or words.words[0] not in PHASES:
            raise BadWord
        phase = PHASES[words.words[0]]
        if phase < self.phase or phase > SETTINGS and words.words[0] != b"mount" and not self.start.begun():
            raise BadWord
        if phase == TREE:
            self.start.add(words)
        else:
            words.word()
            TAKES[words.words[0]](self, words)
        self.phase = phase

    def take_fault(self, words):
        call, errno = words.u64(), words.number(133)
        words.end()
        if errno == 0 or self.faults and call <= self.faults[-1][0]:
            raise BadWord
        self.faults.append((call, errno))

    def add_job(self, job):
        if len(self.jobs) == JOB_LIMIT:
            raise BadWord
        self.jobs.append(job)

    def take_order(self, words):
        places = [words.u32()]
        while words.place < len(words.words):
            places.append(words.u32())
        if len(self.order) + len(places) > PLACE_LIMIT:
            raise BadWord
        self.order += places


def take_job(script, words):
    uid, gid = words.u32(), words.u32()
    name, fields = read_request(words)
    script.add_job(("request", (uid, gid), name, fields))


TAKES = {
    b"set": lambda script, words: script.config.set(words),
    b"fault": Script.take_fault,
    b"job": take_job,
    b"edit": lambda script, words: script.add_job(("edit", read_edit(words))),
    b"order": Script.take_order,
    b"end": lambda script, words: words.end(),
}


def read_script(data, kind=Script):
    """The script of these bytes, or its first bad line."""
    script = kind()
    *lines, rest = data.split(b"\n")
    for number, line in enumerate(lines + [rest] if rest else lines, 1):
        try:
            script.take(line)
        except BadWord:
            raise BadScript(number) from None
    if rest or script.phase != END:
        raise BadScript(len(lines) + (2 if rest else 1))
    return script

"""What `plus NUMBER ROOM` prints: a directory's records with entries, after FUSE's READDIRPLUS (fuse_lowlevel.h)."""
from .linux import ENOENT
from .run import BadConfig, Run
from .script import BadScript, read_script
from .text import write_bytes

ITEM_SIZE = 168


class Refusal(Exception):
    """A listing that is refused with an errno."""

    def __init__(self, errno):
        super().__init__(errno)
        self.errno = errno


class Lister:
    """Calls requests of a run one after another, each whole."""

    def __init__(self, run):
        self.run = run

    def ask(self, name, *fields):
        task = self.run.task(len(self.run.tasks), ("request", (0, 0), name, list(fields)))
        self.run.finish(task)
        if task.answer[0] == "Refused":
            raise Refusal(task.answer[1])
        return task.answer

    def round(self, number, handle, room, offset):
        """Names with numbers, none where the name went, and the offset of the last record."""
        items, left = [], room
        for _, place, _, name in self.ask("readdir", number, handle, room, offset)[1]:
            size = (ITEM_SIZE + len(name) + 7) // 8 * 8
            if size > left:
                break
            found = None
            try:
                if name not in (b".", b".."):
                    found = self.ask("lookup", number, name)[1][0]
            except Refusal as refusal:
                if refusal.errno != ENOENT:
                    if not items:
                        raise
                    break
            items.append((name, found))
            left, offset = left - size, place
        return items, offset

    def whole(self, number, handle, room):
        """All items; where a round is refused their counts are given back."""
        items, offset = [], 0
        try:
            while True:
                more, offset = self.round(number, handle, room, offset)
                if not more:
                    return items
                items += more
        except Refusal:
            for _, found in items:
                if found is not None:
                    self.ask("forget", found, 1)
            raise


def plus_lines(run, number, room):
    lister = Lister(run)
    try:
        handle = lister.ask("opendir", number, 0)[1]
    except Refusal as refusal:
        return [f"refused {refusal.errno}"]
    try:
        items = lister.whole(number, handle, room)
        lines = [f"plus {write_bytes(name)} {'-' if found is None else found}" for name, found in items]
    except Refusal as refusal:
        lines = [f"refused {refusal.errno}"]
    lister.ask("releasedir", number, handle)
    return lines


def run_plus(data, number, room):
    """What the program writes, its exit status, and its line on standard error."""
    try:
        run = Run(read_script(data))
    except BadScript as bad:
        return b"", 4, f"bad script at line {bad.line}"
    except BadConfig as bad:
        return b"", 5, f"bad configuration: os error {bad.errno}"
    run.run()
    if run.lost:
        return ("lost %d %d\nend\n" % run.lost).encode(), 8, "credentials lost"
    lines = plus_lines(run, number, room) + run.table_lines() + ["end"]
    return "".join([line + "\n" for line in lines]).encode(), 0, None

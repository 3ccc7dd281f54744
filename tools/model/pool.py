"""What `pool 1` prints: the jobs as heads of a queue that one worker serves, in rounds (virtiofsd's vhost_user.rs).
With more workers the order between them is free, and only the end can be compared."""
from .run import BadConfig, Run
from .script import BadScript, Script, read_script
from .text import BadWord, text_of

HEADS_AT_MOST, HEADS_A_ROUND = 32768, 64
BARRED = (b"edit", b"fault", b"order")
NOT_LOGGED = ("TakeFd", "GiveFd")


def is_barred(words):
    """Whether a line is none for a pool: what is no request, and the one that no guest makes."""
    return words[0] in BARRED or words[0] == b"job" and words[3:4] == [b"root"]


def only_requests(script):
    """A script without the lines that a pool does not take."""
    return b"\n".join([line for line in script.split(b"\n") if not is_barred(line.split(b" "))])


class PoolScript(Script):
    """A script of requests alone."""

    def take(self, line):
        words = line.split(b" ")
        if is_barred(words):
            raise BadWord
        if words[0] == b"job" and len(self.jobs) == HEADS_AT_MOST:
            raise BadWord
        super().take(line)


class PoolRun(Run):
    """A run whose events are logged, with places from 0 in each round."""

    def __init__(self, script):
        super().__init__(script)
        self.log, self.place = [], 0

    def step(self, task):
        act = task.wanted
        if act.is_call or act.words[0] in NOT_LOGGED:
            super().step(task)
            return
        super().step(task)
        told = self.lines[-1].split(" ", 2)[2]
        self.log.append(f"log 0 {self.place} {told}")
        self.place += 1

    def run(self):
        for task in self.tasks:
            if task.place % HEADS_A_ROUND == 0:
                self.place = 0
            self.finish(task)
        return self.log + [f"answer {task.place} {text_of(task.answer)}" for task in self.tasks] + self.end_lines()


def run_pool(data):
    """What the program writes, its exit status, and its line on standard error."""
    try:
        lines = PoolRun(read_script(data, PoolScript)).run()
    except BadScript as bad:
        return b"", 4, f"bad script at line {bad.line}"
    except BadConfig as bad:
        return b"", 5, f"bad configuration: os error {bad.errno}"
    return "".join([line + "\n" for line in lines]).encode(), 0, None

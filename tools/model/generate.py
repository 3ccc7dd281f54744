"""Random scripts that reach much: the model runs along, so that numbers, handles and names are mostly ones that are
there (after csmith and syzkaller, which generate programs by what is live)."""
import random

from .generate_jobs import JobMaker
from .generate_races import Races
from .generate_sweep import Sweep
from .generate_tree import config_lines, tree_lines
from .messages import read_edit, read_request
from .run import BadConfig, Run
from .script import read_script
from .text import Words

JOBS_AT_MOST = 40


class Generator:
    """One script; the same seed gives the same."""

    def __init__(self, seed):
        self.rng = random.Random(seed)
        self.lines = []
        self.jobs = []
        self.run = None
        self.races = {}
        self.is_short = self.rng.random() < 0.25

    def script(self):
        """The bytes of a script."""
        self.lines = config_lines(self.rng) + tree_lines(self.rng) + self.fault_lines()
        try:
            self.run = Run(read_script(self.text(["end"])))
            self.add_jobs()
        except BadConfig:
            self.jobs = ["job 0 0 init 0", "job 0 0 lookup 1 a"]
        data = self.text(self.jobs + self.order_lines() + ["end"])
        return self.spoiled(data) if self.rng.random() < (0.5 if self.is_short else 0.02) else data

    def text(self, more):
        return "".join([line + "\n" for line in self.lines + more]).encode()

    def fault_lines(self):
        """Faults at some of the calls that the run is likely to make."""
        if self.rng.random() < 0.6:
            return []
        calls = self.rng.sample(range(1, 160), self.rng.choice([1, 1, 2, 5, 12]))
        if self.rng.random() < 0.97:
            calls = [call for call in calls if call > 1]
        return [f"fault {call} {self.rng.choice([1, 2, 5, 5, 13, 17, 22, 28, 61, 75, 95, 116, 133])}"
                for call in sorted(calls)]

    def add_jobs(self):
        maker = JobMaker(self.rng, self.run)
        first = f"job 0 0 {maker.init()}" if self.rng.random() < 0.95 else "job 0 0 root"
        self.add_job(first)
        for _ in range(self.rng.randrange(6) if not self.is_short else 1):
            self.add_job(f"job 0 0 {maker.lookup()}")
        for _ in range(self.rng.randrange(4, JOBS_AT_MOST) if not self.is_short else self.rng.randrange(4)):
            if self.rng.random() < 0.1:
                self.add_race(Races(maker).lines())
            else:
                self.add_job(maker.line())

    def add_race(self, lines):
        """Jobs whose steps are to be mixed."""
        self.races[len(self.jobs)] = len(lines)
        for line in lines:
            self.add_job(line)

    def add_job(self, line):
        """Appends a job's line, and runs the job behind those before it."""
        self.jobs.append(line)
        words = Words(line.encode().split(b" "))
        place = len(self.run.tasks)
        if words.word() == b"edit":
            job = ("edit", read_edit(words))
        else:
            asker = (words.u32(), words.u32())
            job = ("request", asker, *read_request(words))
        task = self.run.task(place, job)
        self.run.tasks.append(task)
        if self.run.lost is None:
            self.run.finish(task)

    def order_lines(self):
        """Jobs that stand near one another take their steps in turn."""
        if self.rng.random() < 0.3:
            return []
        counts = [0] * len(self.jobs)
        for line in self.run.lines if self.run else []:
            counts[int(line.split(" ", 2)[1])] += 1
        places, start = [], 0
        while start < len(counts):
            window = range(start, min(start + self.window_at(start), len(counts)))
            places += self.mixed(window, counts)
            start = window.stop
        if self.rng.random() < 0.1:
            places.append(self.rng.choice([len(counts), 4294967295]))
        lines = []
        while places:
            length = self.rng.randrange(1, 40)
            lines.append("order " + " ".join(str(place) for place in places[:length]))
            del places[:length]
        return lines

    def mixed(self, window, counts):
        """The steps of some jobs: of one with all others in between, or in any order."""
        if window.start in self.races and self.rng.random() < 0.5:
            one = window.start if self.rng.random() < 0.5 else self.rng.choice(window)
            others = [place for place in window if place != one for _ in range(counts[place] + 4)]
            first = self.rng.randrange(1, counts[one] + 2)
            return [one] * first + others + [one] * (counts[one] + 4)
        taken = []
        for place in window:
            is_whole = window.start == 0 or self.rng.random() < 0.92
            taken += [place] * (counts[place] + self.rng.randrange(4) if is_whole else 2)
        self.rng.shuffle(taken)
        return taken

    def window_at(self, start):
        """How many jobs from here on take their steps in turn."""
        if start == 0 and self.rng.random() < 0.95:
            return 1
        if start in self.races and self.rng.random() < 0.9:
            return self.races[start]
        return self.rng.choice([1, 1, 2, 2, 3, 4])

    # scripts that are none

    def spoiled(self, data):
        """A script with a mistake, mostly."""
        lines = data.split(b"\n")
        place = self.rng.randrange(len(lines))
        words = lines[place].split(b" ")
        kind = self.rng.randrange(9)
        if kind == 0:
            return data[:self.rng.randrange(len(data) + 1)]
        if kind == 1:
            lines.insert(self.rng.randrange(len(lines)), lines[place])
        elif kind == 2:
            del lines[place]
        elif kind == 3:
            words.insert(self.rng.randrange(len(words) + 1), self.rng.choice([b"", b"0", b"x", b"-", b"+", b"%-"]))
        elif kind == 4:
            del words[self.rng.randrange(len(words))]
        elif kind == 5:
            words[self.rng.randrange(len(words))] = self.rng.choice(SPOILED_WORDS)
        elif kind == 6:
            spoiled = bytearray(data)
            spoiled[self.rng.randrange(len(spoiled))] = self.rng.randrange(256)
            return bytes(spoiled)
        elif kind == 7:
            self.rng.shuffle(lines)
        else:
            return data + self.rng.choice([b"end\n", b"\n", b" ", b"order 0\n"])
        if kind in (3, 4, 5):
            lines[place] = b" ".join(words)
        return b"\n".join(lines)


SPOILED_WORDS = [
    b"", b"00", b"01", b"0o", b"0o8", b"0o07", b"-1", b"+1", b"%", b"%4", b"%41", b"%2F", b"%2f", b"%25",
    b"%-%-", b"%00",
    b"4294967295", b"4294967296", b"18446744073709551615", b"18446744073709551616", b"0o37777777777", b"0o40000000000",
    b"2", b"1", b"0", b"\xff", b"\t", b"end", b"a/b", b"/", b"//", b"/a/", b"/.", b"/a/..", b"0x1", b"1e3",
]


def generate(seed):
    """The script of a seed: a long one, or one about a single request."""
    rng = random.Random(f"{seed}:kind")
    return Sweep(rng).script() if rng.random() < 0.3 else Generator(seed).script()

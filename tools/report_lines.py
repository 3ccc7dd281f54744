"""Reads the report of a run: its steps, answers and what stands at its end, and follows the session's tables by it."""
from collections.abc import Iterable
from dataclasses import dataclass, field


@dataclass(frozen=True)
class Step:
    job: int
    act: tuple[str, ...]
    reply: tuple[str, ...]

    @property
    def text(self) -> str:
        return f"{' '.join(self.act)} = {' '.join(self.reply)}"

    @property
    def is_refused(self) -> bool:
        return self.reply[0] in ("Refused", "Fault", "NoMemory")


@dataclass
class Report:
    steps: list[Step] = field(default_factory=list)
    answers: dict[int, str] = field(default_factory=dict)
    live: list[str] = field(default_factory=list)
    handles: list[str] = field(default_factory=list)
    slots: int | None = None
    objects: list[str] = field(default_factory=list)
    lost: str | None = None

    @property
    def jobs(self) -> list[int]:
        return sorted({*self.answers, *(step.job for step in self.steps)})


def read(lines: Iterable[str]) -> Report:
    """The report that these lines are; what is no line of a report is passed over."""
    report = Report()
    for line in lines:
        words = line.rstrip("\n").split(" ")
        match words:
            case ["step", job, *rest] if "=" in rest:
                middle = rest.index("=")
                report.steps.append(Step(int(job), tuple(rest[:middle]), tuple(rest[middle + 1 :])))
            case ["answer", job, *answer]:
                report.answers[int(job)] = " ".join(answer)
            case ["live", number, count]:
                report.live.append(f"{number} {count}")
            case ["handle", handle, number]:
                report.handles.append(f"{handle} {number}")
            case ["slots", left]:
                report.slots = int(left)
            case ["obj" | "xattr", *_]:
                report.objects.append(" ".join(words))
            case ["lost", *rest]:
                report.lost = " ".join(rest)
    return report


# a key, the value before and the value after; None where there is none
Change = tuple[int, int | None, int | None]


@dataclass
class Tables:
    """What the guest holds: numbers with counts, handles with numbers, and slots taken since the run began."""

    live: dict[int, int] = field(default_factory=dict)
    handles: dict[int, int] = field(default_factory=dict)
    taken: int = 0

    def after(self, step: Step) -> tuple[list[Change], list[Change], int]:
        """Takes the step, and tells what it changed: numbers, handles and slots taken."""
        match (*step.act, "=", *step.reply):
            case ["InsertRoot", *_, "=", "Inserted", number]:
                return [self.give(int(number), 2)], [], 0
            case ["Claim" | "Insert", *_, "=", "Claimed" | "Inserted" | "Found", number]:
                return [self.give(int(number), 1)], [], 0
            case ["Forget", count, *pairs, "=", "Done", _]:
                given = [(int(pairs[2 * place]), int(pairs[2 * place + 1])) for place in range(int(count))]
                return [self.give(number, -amount) for number, amount in given], [], 0
            case ["GiveBack", _, number, "=", "Done", _]:
                return [self.give(int(number), -1)], [], 0
            case ["InsertHandle", _, handle, number, _, "=", "Inserted", _]:
                return [], [change(self.handles, int(handle), int(number))], 0
            case ["Release", handle, _, "=", "Done", _]:
                return [], [change(self.handles, int(handle), None)], 0
            case ["Clear", "=", "Cleared", *_]:
                return (
                    [change(self.live, key, None) for key in [*self.live]],
                    [change(self.handles, key, None) for key in [*self.handles]],
                    0,
                )
            case ["TakeFd", "=", "Taken"]:
                self.taken += 1
                return [], [], 1
            case ["GiveFd", "=", "Given"]:
                self.taken -= 1
                return [], [], -1
        return [], [], 0

    def give(self, number: int, count: int) -> Change:
        left = self.live.get(number, 0) + count
        return change(self.live, number, left if left > 0 else None)


def change(held: dict[int, int], key: int, value: int | None) -> Change:
    before = held.pop(key, None)
    if value is not None:
        held[key] = value
    return key, before, value


def limit_of(report: Report) -> int | None:
    """How many slots there were before the first step."""
    if report.slots is None:
        return None
    tables = Tables()
    for step in report.steps:
        tables.after(step)
    return report.slots + tables.taken

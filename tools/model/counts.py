"""What `gen N SEED` prints: the counts of a run of drawn jobs (the generator is Knuth's MMIX one)."""
from .run import Run
from .script import read_script

TREE = "mount 1 1 / 1\n" + "".join(f"file /f{place} 0o644 0 0 x\n" for place in range(16))


def draws(state):
    """Numbers below 2^31, for ever."""
    while True:
        state = (state * 6364136223846793005 + 1442695040888963407) % 2**64
        yield state // 2**33


def drawn_script(count, seed):
    """The jobs and their order, as a script."""
    drawn = draws(seed)
    jobs = ["init 0"]
    for _ in range(count - 1):
        one = next(drawn)
        place = one // 4 % 16
        number = place + 2
        jobs.append((f"lookup 1 f{place}", f"forget {number} 1", f"getattr {number}", f"open {number} 0 0")[one % 4])
    order = " ".join(str(next(drawn) % count) for _ in range(count))
    return (TREE + "".join(f"job 0 0 {job}\n" for job in jobs) + f"order {order}\nend\n").encode()


def run_counts(count, seed):
    """The eight lines."""
    run = Run(read_script(drawn_script(count, seed)))
    run.run()
    refused = sum(1 for task in run.tasks if task.answer[0] == "Refused")
    told = {"jobs": count, "steps": len(run.lines), "ok": count - refused, "refused": refused, "nomem": 0,
            "live": len(run.session.numbers), "handles": len(run.session.handles), "slots": run.session.slots[0]}
    return "".join(f"{name} {number}\n" for name, number in told.items()).encode()

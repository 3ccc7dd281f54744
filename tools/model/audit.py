"""What `audit` is to say of a report: yes of the model's own, and no of one with a line that is known to be wrong. It
is no auditor: each change is one whose line and cause are plain."""
import random

from .run import run_script

PLAIN = b"mount 1 1 / 1\njob 0 0 init 0\nend\n"


def one_more(word):
    return str(int(word) + 1)


def last_word(line):
    head, word = line.rsplit(" ", 1)
    return f"{head} {one_more(word)}"


def third_word(line):
    words = line.split(" ")
    words[2] = one_more(words[2])
    return " ".join(words)


def entry_number(line):
    words = line.split(" ")
    words[3] = one_more(words[3])
    return " ".join(words)


def stat_number(line):
    head, tail = line.split(" = Ok Stat ")
    number, rest = tail.split(" ", 1)
    return f"{head} = Ok Stat {one_more(number)} {rest}"


def began_era(line):
    head, tail = line.split(" = Began ")
    era, rest = tail.split(" ", 1)
    return f"{head} = Began {one_more(era)} {rest}"


def opens_again(line):
    """A descriptor that is open already: that of the root, which was there before all."""
    return line.rsplit(" ", 1)[0] + " 3"


def is_lookup(line):
    return " OpenAt " in line and " 2752512 0 = Ok Fd " in line


# which lines can be changed, how, and what then fails
CHANGES = [
    (lambda line: line.startswith("live "), last_word, "Count"),
    (lambda line: line.startswith("handle "), last_word, "Handles"),
    (lambda line: line.startswith("slots "), lambda line: "slots 7" if line != "slots 7" else "slots 8", "Slots"),
    (lambda line: line.startswith("obj "), third_word, "Tree"),
    (lambda line: line.startswith("answer ") and " Entry " in line, entry_number, "Entry"),
    (lambda line: line.startswith("answer ") and " Entry " in line,
     lambda line: " ".join(line.split(" ")[:2]) + " Done", "Count"),
    (lambda line: " = Drawn " in line, last_word, "Event"),
    (lambda line: " = Inserted " in line, last_word, "Event"),
    (lambda line: " = Began " in line, began_era, "Event"),
    (lambda line: line.endswith(" TakeFd = Taken"), lambda line: line.replace("= Taken", "= Refused NoSlot"), "Event"),
    (lambda line: " = Ok Stat " in line, stat_number, "Host"),
    (is_lookup, opens_again, "Host"),
    (is_lookup, lambda line: line.split(" = ")[0] + " = Refused 2", "Host"),
    (lambda line: line == "end", lambda line: "lost 0 5", "Lost"),
    (lambda line: line.startswith("step "), lambda line: line + " ", "Text"),
    (lambda line: line.startswith("answer "), lambda line: line.replace("answer", "answers"), "Text"),
]


def doubted(script, seed):
    """A script and a report behind it, and what is to be said of them."""
    report, status, _ = run_script(script)
    if status != 0:
        script, (report, _, _) = PLAIN, run_script(PLAIN)
    rng = random.Random(seed)
    lines = report.decode().splitlines()
    fits, change, cause = rng.choice(CHANGES)
    places = [place for place, line in enumerate(lines) if fits(line)]
    if not places or rng.random() < 0.2:
        return script + report, "yes\n"
    place = rng.choice(places)
    lines[place] = change(lines[place])
    return script + "".join([line + "\n" for line in lines]).encode(), f"no {place + 1} {cause}\n"

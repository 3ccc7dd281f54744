"""Short scripts about one request: with a fault at one of its calls, or with other jobs between two of its steps."""
from .config import LATER
from .run import Run
from .script import read_script

SETTINGS = [
    [], ["xattr 1", "posix_acl 1", "security_label 1", "killpriv_v2 1"],
    ["xattr 1", "xattrrule map security. virtiofs.", "killpriv_v2 1", "writeback 1"],
    ["xattr 1", "guest_fd_limit 8", "uidmap map 0 1000 5000", "gidmap map 0 2000 5000", "announce_submounts 1"],
    ["cache_policy always", "seat 0 0 495", "killpriv_v2 1"],
]
LATER_SETTINGS = ["inode_file_handles prefer", "inode_file_handles mandatory", "read_only 1", "class a 1", "class d 2"]
TREE = """
mount 1 1 / 1
dir /d 0o777 0 0
file /a 0o6777 1000 1000 hello
file /d/b 0o666 0 0 world
link /s 0 0 /a
spec /p 0o10666 0 0 0
hard /h /a
mount 5 6 /m 1
file /m/x 0o644 0 0 x
xattr /a user.k v
xattr /a virtiofs.capability c
xattr /d user.k v
""".strip().split("\n")
# number 2 is /a, 3 is /d, 4 is /s; handle 0 is open on /a and handle 1 on /d
SETUP = ["init 4095", "lookup 1 a", "lookup 1 d", "lookup 1 s", "open 2 0 2", "opendir 3 0"]
REQUESTS = """
init 4095
destroy
root
lookup 1 a
lookup 1 h
lookup 3 b
lookup 1 none
lookup 1 m
forget 2 1
forget 3 1
forget 1 2
batch_forget 2 2 1 3 1
open 2 0 0
open 2 1 0o1002
open 3 0 0o200000
open 4 0 0
opendir 3 0
opendir 1 0
release 2 0
releasedir 3 1
read 2 0 10 0
write 2 0 1 XY 0 1 0
write 2 0 0 Z 0 0 0o2002
create 1 n 0o666 1 0o102 0o22 - -
create 1 n 0o666 0 0o302 0o22 + security.selinux l + 7
create 1 a 0o666 1 0o1002 0 - -
create 3 b 0o600 0 2 0 + user.c v -
create 1 s 0o600 0 2 0 - -
mkdir 1 n 0o777 0o22 - -
mkdir 3 n 0o777 0o22 + security.selinux l + 7
mknod 1 n 0o644 0 0o22 + user.z v -
mknod 1 n 0o20644 5 0 - + 9
symlink t 1 n - -
symlink t 3 n + security.x v -
link 2 1 n
link 2 3 n
link 3 1 n
unlink 1 a
unlink 1 h
unlink 3 b
rmdir 1 d
rename 1 a 1 n 0
rename 1 a 3 b 0
rename 1 d 1 a 2
rename 1 h 1 a 0
rename 1 d 3 z 0
rename 3 b 1 a 1
readlink 4
readlink 2
statfs 2
getattr 2
getattr 4
setattr 2 - 1 0o644 0 0 0 0 0 0 0
setattr 2 - 2062 0 5 6 3 0 0 0 0
setattr 2 + 0 2063 0o4711 5 6 3 0 0 0 0
setattr 2 - 48 0 0 0 0 7 8 9 10
setattr 2 + 0 432 0 0 0 0 7 8 9 10
setattr 4 - 6 0 1 2 0 0 0 0 0
access 2 7
access 3 2
readdir 3 1 100 0
readdir 3 1 24 0
flush 2 0
fsync 2 0 1
fsyncdir 3 1 0
syncfs 2
syncfs 4
fallocate 2 0 0 0 9
lseek 2 0 2 1
lseek 2 0 1 3
copyfilerange 2 0 0 2 0 3 2 0
setxattr 2 user.n v 0 0
setxattr 2 system.posix_acl_access v 0 1
setxattr 4 user.n v 0 0
setxattr 3 security.capability v 0 0
getxattr 2 user.k 0
getxattr 2 user.k 9
getxattr 4 user.k 9
listxattr 2 100
listxattr 2 0
listxattr 4 100
removexattr 2 user.k
removexattr 3 user.k
other 1
""".strip().split("\n")
EDITS = ["unlink /a", "unlink /d/b", "rename /a /n", "rename /d/b /a", "rename /d /n", "file /n 0o644 0 0 z",
         "dir /n 0o755 0 0", "write /a Q", "rename /n /q", "file /d/n 0o644 0 0 z", "unlink /h", "unlink /n"]
USERS = ["0 0", "0 0", "1000 1000", "1234 77"]
ERRNOS = [1, 2, 5, 17, 22, 61, 71, 75, 95, 116]


class Sweep:
    """Makes one such script."""

    def __init__(self, rng):
        self.rng = rng
        self.settings = [f"set {line}" for line in rng.choice(SETTINGS) + self.later()]

    def later(self):
        """At times a key that the program may not read yet."""
        lines = [line for line in LATER_SETTINGS if line.split(" ")[0] not in LATER]
        return [self.rng.choice(lines)] if lines and self.rng.random() < 0.6 else []

    def script(self):
        setup = [f"job 0 0 {request}" for request in SETUP]
        asked = f"job {self.rng.choice(USERS)} {self.rng.choice(REQUESTS)}"
        make = self.with_fault if self.rng.random() < 0.45 else self.with_others
        return make(setup + [asked])

    def text(self, jobs, faults=(), order=()):
        orders = ["order " + " ".join(str(place) for place in order)] if order else []
        return ("\n".join([*self.settings, *TREE, *faults, *jobs, *orders, "end"]) + "\n").encode()

    def counted(self, jobs):
        """How many steps the last job takes, and the numbers of its calls."""
        run = Run(read_script(self.text(jobs)))
        for task in run.tasks[:-1]:
            run.finish(task)
        steps, calls = len(run.lines), run.host.calls
        run.finish(run.tasks[-1])
        return len(run.lines) - steps, list(range(calls + 1, run.host.calls + 1))

    def with_fault(self, jobs):
        """One or two of the last job's calls fail."""
        _, calls = self.counted(jobs)
        places = sorted(self.rng.sample(calls, min(len(calls), self.rng.choice([1, 1, 1, 2]))))
        faults = [f"fault {place} {self.rng.choice(ERRNOS)}" for place in places]
        return self.text([*jobs, "job 0 0 getattr 2"], faults)

    def with_others(self, jobs):
        """Other jobs run whole, or in turn with it, after some steps of the last job."""
        steps, _ = self.counted(jobs)
        asked = len(jobs) - 1
        others = [self.other() for _ in range(self.rng.choice([1, 1, 2, 3]))]
        order = [place for place in range(asked) for _ in range(20)] + [asked] * self.rng.randrange(1, steps + 1)
        places = range(asked + 1, asked + 1 + len(others))
        if self.rng.random() < 0.7:
            order += [place for place in places for _ in range(40)]
        else:
            mixed = [place for place in range(asked, places.stop) for _ in range(14)]
            self.rng.shuffle(mixed)
            order += mixed
        return self.text([*jobs, *others, "job 0 0 lookup 1 a", "job 0 0 lookup 1 n"], (), order)

    def other(self):
        if self.rng.random() < 0.4:
            return f"edit {self.rng.choice(EDITS)}"
        return f"job {self.rng.choice(USERS)} {self.rng.choice(REQUESTS)}"

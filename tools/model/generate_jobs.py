"""Random jobs over what a run of the model has live."""
from .generate_tree import CONTENTS, MODES, NAMES, VALUES, XATTRS
from .linux import DIRECTORY, KIND, LINK, O_DIRECTORY, REGULAR
from .text import write_bytes

USERS = ["0 0"] * 8 + ["1000 1000"] * 4 + ["1000 100", "2000 2000", "0 1000", "1000 0", "4294967295 4294967295", "3 3"]
ODD_NAMES = [".", "..", "%-", "a/b", "a%00", "%ff", "%20x", "n" * 255, "n" * 256, "/"]
FLAGS = [0, 0, 0, 1, 1, 2, 2, 2, 2, 0o2002, 3, 0o1000, 0o1001, 0o1002, 0o2001, 0o2002, 0o4000, 0o40002, 0o200000,
         0o400000, 0o1000000, 0o2000000, 0o10000000, 0o20200002, 0o100, 0o300, 0o102, 0o10200000,
         0o20000000, 2147483648]
CREATE_FLAGS = [0, 2, 2, 0o102, 0o102, 0o302, 0o102, 0o101, 0o100, 0o302, 0o202, 0o1102, 0o2102, 0o200102, 0o10000102,
                0o103, 3, 0o20200102, 0o4102, 0o40102]
NODE_MODES = ["0o100644", "0o10644", "0o20644", "0o60600", "0o140755", "0o644", "0o40755", "0o120777", "0o107777"]
SIZES = [0, 1, 2, 3, 5, 10, 100, 511, 512, 4096]
OFFSETS = [0, 0, 0, 0, 0, 1, 1, 2, 3, 4, 5, 100]
FAR_OFFSETS = [1048577, 2**63 - 1, 2**63, 2**64 - 1]
LIMIT_OFFSETS = [1048575, 1048576]
VALID_BITS = [1, 2, 4, 8, 16, 32, 128, 256, 2048]


class JobMaker:
    """Makes lines of jobs and edits."""

    def __init__(self, rng, run):
        self.rng, self.run = rng, run
        self.reaches_limit = rng.random() < 0.02
        self.makers = [(weight, getattr(self, name)) for name, weight in WEIGHTS.items()]
        self.weights = [weight for weight, _ in self.makers]

    def line(self):
        session = self.run.session
        maker = self.rng.choices(self.makers, self.weights)[0][1]
        if 1 not in session.numbers and self.chance(0.7):
            return f"job 0 0 {self.init()}"
        if len(session.numbers) < 3 and self.chance(0.4):
            maker = self.lookup
        elif not session.handles and maker.__name__ in ON_HANDLES and self.chance(0.8):
            maker = self.rng.choice([self.open, self.open, self.opendir, self.create])
        elif maker.__name__ in ON_WRITTEN and not self.has_written() and self.chance(0.8):
            return f"job 0 0 open {self.number(REGULAR)} {self.kill()} {self.pick(1, 2, 2, 0o2002, 0o40002)}"
        elif maker.__name__ in ON_XATTRS and not self.run.plan.config.xattr and self.chance(0.9):
            maker = self.lookup
        made = maker()
        return made if made.startswith("edit ") else f"job {self.rng.choice(USERS)} {made}"

    def pick(self, *choices):
        return self.rng.choice(choices)

    def chance(self, often):
        return self.rng.random() < often

    def has_written(self):
        """Whether a handle is open for writing."""
        fds = [row.fd for row in self.run.session.handles.values()]
        return any(fd in self.run.host.open and self.run.host.open[fd].writes for fd in fds)

    # what is there

    def rows(self, wanted=None):
        """Live numbers, or those of a kind."""
        return [number for number, row in self.run.session.numbers.items()
                if wanted is None or row.mode & KIND == wanted]

    def number(self, wanted=None):
        there = self.rows(wanted) if not self.chance(0.08) else self.rows()
        if not there or self.chance(0.04):
            return self.pick(0, 1, 2, 3, 4, 5, 99, 2**64 - 1)
        return self.rng.choice(there)

    def folder(self):
        return self.number(DIRECTORY)

    def file(self):
        files = self.rows(REGULAR) if self.chance(0.9) else self.rows(LINK)
        return self.rng.choice(files) if files and not self.chance(0.15) else self.number()

    def handle(self, of_folder=False, writes=False):
        """A number and a handle, mostly ones that go together and serve what is asked."""
        found = []
        for handle, row in self.run.session.handles.items():
            described = self.run.host.open.get(row.fd)
            if described is not None and described.node.is_directory == of_folder and described.writes >= writes:
                found.append((row.of, handle))
        if not found and not self.chance(0.2):
            found = [(row.of, handle) for handle, row in self.run.session.handles.items()]
        if not found or self.chance(0.05):
            return f"{self.number()} {self.pick(0, 1, 2, 3, 7, 2**64 - 1)}"
        return "%d %d" % self.rng.choice(found)

    def node(self, number):
        """The object of a live number, None where there is none."""
        row = self.run.session.numbers.get(number)
        if row is None:
            return None
        if row.form[0] == "Handle":
            return self.run.host.tree.living_nodes.get(int.from_bytes(row.form[1][2][8:], "little"))
        described = self.run.host.open.get(row.fd)
        return described.node if described else None

    def children(self, number):
        node = self.node(number)
        return sorted(node.children) if node else []

    def name_in(self, number, often=0.7):
        """A name, often one that is there."""
        there = self.children(number)
        if there and self.chance(often):
            return write_bytes(self.rng.choice(there))
        if self.chance(0.06):
            return self.rng.choice(ODD_NAMES)
        return self.rng.choice(NAMES)

    def place(self, often=0.7):
        number = self.folder()
        return f"{number} {self.name_in(number, often)}"

    def path(self):
        paths = [line.split(" ")[1] for line in self.run.host.tree.listing() if line.startswith("obj ")]
        if self.chance(0.6):
            return self.rng.choice(paths)
        if self.chance(0.1):
            return self.pick("/", "a", "%-", "/a/b/c", "//a", "/.", "/d/..", "/" + "n" * 256, "/a%00", "/a/")
        above = self.rng.choice(paths)
        return ("" if above == "/" else above) + "/" + self.rng.choice(NAMES)

    def offset(self):
        if self.reaches_limit and self.chance(0.3):
            return self.rng.choice(LIMIT_OFFSETS)
        return self.rng.choice(FAR_OFFSETS if self.chance(0.08) else OFFSETS)

    def mode(self):
        return self.rng.choice(MODES)

    def mask(self):
        return self.pick("0", "0o22", "0o77", "0o777", "4294967295")

    def extensions(self):
        label = "-"
        if self.chance(0.3):
            label = f"+ {self.rng.choice(XATTRS)} {self.rng.choice(VALUES)}"
        group = f"+ {self.pick(0, 7, 1000, 4294967295)}" if self.chance(0.25) else "-"
        return f"{label} {group}"

    def kill(self):
        return int(self.chance(0.3))

    # sessions and numbers

    def init(self):
        config = self.run.plan.config
        if self.chance(0.7):
            wanted = (112 if config.posix_acl else 0) | (128 if config.security_label else 0)
            return f"init {self.rng.randrange(2048) | wanted}"
        return f"init {self.pick(0, 0, 4, 112, 128, 240, 256, 512, 2047, 4294967295, self.rng.randrange(2048))}"

    def session(self):
        return self.pick(self.init(), "root", "destroy")

    def lookup(self):
        return f"lookup {self.place(0.9)}"

    def forgotten(self):
        """A number, seldom that of the root, without which little is left to do."""
        number = self.number()
        return self.number() if number == 1 and self.chance(0.9) else number

    def forget(self):
        return f"forget {self.forgotten()} {self.pick(0, 1, 1, 1, 2, 3, 2**64 - 1)}"

    def batch_forget(self):
        pairs = [f" {self.forgotten()} {self.pick(0, 1, 1, 2)}" for _ in range(self.rng.randrange(4))]
        return f"batch_forget {len(pairs)}" + "".join(pairs)

    # handles and contents

    def open(self):
        flags = self.rng.choice(FLAGS)
        if self.chance(0.2):
            flags |= self.rng.choice(FLAGS)
        return f"open {self.file()} {self.kill()} {flags}"

    def opendir(self):
        flags = self.pick(0, 0, 0, 0o40000, O_DIRECTORY, 2, 0o400000, 0o1000)
        return f"opendir {self.folder()} {flags}"

    def release(self):
        if self.chance(0.3):
            return f"releasedir {self.handle(True)}"
        return f"release {self.handle()}"

    def read(self):
        return f"read {self.handle()} {self.rng.choice(SIZES)} {self.offset()}"

    def write(self):
        data = self.rng.choice(CONTENTS + ["ab", "x"])
        flags = self.pick(0, 1, 2, 0o2001, 0o2002)
        delayed = int(self.chance(0.3))
        return f"write {self.handle(False, True)} {self.offset()} {data} {delayed} {self.kill()} {flags}"

    def readdir(self):
        size = self.pick(0, 10, 24, 31, 48, 100, 4096)
        return f"readdir {self.handle(True)} {size} {self.pick(0, 0, 0, 1, 2, 9, 2**63)}"

    def syncing(self):
        if self.chance(0.3):
            return f"syncfs {self.number()}"
        if self.chance(0.3):
            return f"fsyncdir {self.handle(True)} {self.kill()}"
        return self.pick(f"flush {self.handle()}", f"fsync {self.handle()} {self.kill()}")

    def fallocate(self):
        return (f"fallocate {self.handle(False, True)} {self.pick(0, 0, 1, 2, 3)} {self.offset()} "
                f"{self.offset()}")

    def lseek(self):
        offset = self.pick(0, 1, 5, 100, 2**64 - 1, 2**64 - 3, 2**63 - 1, 2**63)
        return f"lseek {self.handle(self.chance(0.1))} {offset} {self.pick(0, 1, 2, 3, 4, 5)}"

    def copyfilerange(self):
        if self.chance(0.2):
            handle = self.handle(False, True)
            target, length = self.pick(1, 2, 3, 9), self.pick(1, 2, 3)
            return f"copyfilerange {handle} {self.pick(0, 1, 2)} {handle} {target} {length} 0"
        return (f"copyfilerange {self.handle()} {self.offset()} {self.handle(False, True)} {self.offset()} "
                f"{self.pick(0, 1, 2, 10, 2**63 - 1, 2**63)} {int(self.chance(0.05))}")

    # names

    def create(self):
        flags = self.rng.choice(CREATE_FLAGS)
        return (f"create {self.place(0.35)} {self.mode()} {self.kill()} {flags} {self.mask()} {self.extensions()}")

    def mkdir(self):
        return f"mkdir {self.place(0.2)} {self.mode()} {self.mask()} {self.extensions()}"

    def mknod(self):
        mode = self.rng.choice(NODE_MODES)
        return f"mknod {self.place(0.2)} {mode} {self.pick(0, 5)} {self.mask()} {self.extensions()}"

    def symlink(self):
        target = self.pick("t", "t", "/a", "%-", "a%00", "y" * 4095, "y" * 4096)
        return f"symlink {target} {self.place(0.2)} {self.extensions()}"

    def link(self):
        return f"link {self.file()} {self.place(0.2)}"

    def unlink(self):
        return f"{self.pick('unlink', 'unlink', 'rmdir')} {self.place(0.9)}"

    def rename(self):
        flags = self.pick(0, 0, 0, 0, 1, 2, 2, 3, 4)
        return f"rename {self.place(0.9)} {self.place(0.5)} {flags}"

    # attributes

    def tell(self):
        return f"{self.pick('getattr', 'statfs')} {self.number()}"

    def readlink(self):
        return f"readlink {self.number(LINK)}"

    def setattr(self):
        valid = 0
        for _ in range(self.pick(1, 1, 2, 3, 5)):
            valid |= self.rng.choice(VALID_BITS)
        target = f"{self.file()} -"
        if self.chance(0.4):
            number, handle = self.handle(self.chance(0.1)).split(" ")
            target = f"{number} + {handle}"
        times = f"{self.pick(0, 5, 2**64 - 1)} {self.pick(0, 7, 999999999, 1000000000, 1073741823)}"
        size = self.offset()
        return (f"setattr {target} {valid} {self.mode()} {self.pick(0, 1000, 4294967295)} "
                f"{self.pick(0, 1000, 4294967295)} {size} {times} {self.pick(9, 2**63)} {self.pick(0, 3)}")

    def access(self):
        return f"access {self.number()} {self.pick(0, 1, 2, 4, 5, 6, 7, 8, 15)}"

    # extended attributes

    def xattr_name(self):
        """A name, often that of an attribute that is there."""
        if self.run.session.options[2] and self.chance(0.3):
            return "system.posix_acl_access"
        nodes = [self.node(number) for number in self.rows()]
        names = sorted({name for node in nodes if node for name in node.xattrs})
        if names and self.chance(0.5):
            return write_bytes(self.rng.choice(names))
        return self.rng.choice(XATTRS)

    def labelled(self):
        """A number, often of an object that has attributes."""
        there = [number for number in self.rows() if self.node(number) and self.node(number).xattrs]
        return self.rng.choice(there) if there and self.chance(0.6) else self.number()

    def setxattr(self):
        flags, extra = self.pick(0, 0, 0, 1, 2, 3), self.pick(0, 1, 1, 2)
        value = self.rng.choice(VALUES)
        if self.reaches_limit and self.chance(0.5):
            value = "v" * self.pick(65536, 65537)
        return f"setxattr {self.labelled()} {self.xattr_name()} {value} {flags} {extra}"

    def getxattr(self):
        return f"getxattr {self.labelled()} {self.xattr_name()} {self.pick(0, 1, 4, 100)}"

    def listxattr(self):
        return f"listxattr {self.labelled()} {self.pick(0, 5, 1000, 1000)}"

    def removexattr(self):
        return f"removexattr {self.labelled()} {self.xattr_name()}"

    def other(self):
        return f"other {self.pick(0, 77, 4294967295)}"

    # edits

    def edit(self):
        kind = self.rng.randrange(6)
        owner = f"{self.pick(0, 1000)} {self.pick(0, 1000)}"
        if kind == 0:
            return f"edit file {self.path()} {self.rng.choice(NODE_MODES + MODES)} {owner} {self.rng.choice(CONTENTS)}"
        if kind == 1:
            return f"edit dir {self.path()} {self.mode()} {owner}"
        if kind == 2:
            return f"edit write {self.path()} {self.rng.choice(CONTENTS)}"
        if kind == 3:
            return f"edit unlink {self.path()}"
        return f"edit rename {self.path()} {self.path()}"


ON_HANDLES = ("read", "write", "readdir", "fallocate", "lseek", "copyfilerange", "release")
ON_WRITTEN = ("write", "fallocate", "copyfilerange")
ON_XATTRS = ("setxattr", "getxattr", "listxattr", "removexattr")
WEIGHTS = {
    "session": 1, "lookup": 24, "forget": 6, "batch_forget": 2, "open": 9, "opendir": 4, "release": 4, "read": 5,
    "write": 7, "readdir": 4, "syncing": 3, "fallocate": 2, "lseek": 3, "copyfilerange": 4, "create": 9, "mkdir": 5,
    "mknod": 4, "symlink": 3, "link": 4, "unlink": 5, "rename": 6, "tell": 4, "readlink": 2, "setattr": 7,
    "access": 3, "setxattr": 5, "getxattr": 4, "listxattr": 3, "removexattr": 2, "other": 1, "edit": 6,
}

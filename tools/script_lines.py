"""The grammar of scripts: reads one line after another and says why a line is bad.

It restates docs/SCRIPT.md apart from the program. What the program prints decides; this only says why.
"""
import re
from collections.abc import Callable, Iterator
from dataclasses import dataclass, field

U32, U64 = 2**32 - 1, 2**64 - 1
MOST_BYTES, MOST_JOBS, MOST_PLACES = 16_777_216, 65_536, 1_048_576
FILE_MAX, TARGET_MAX, NAME_MAX, VALUE_MAX = 1_048_576, 4_095, 255, 65_536
KINDS = {0o10000, 0o20000, 0o60000, 0o140000}


class Bad(Exception):
    """Why a line is no line of a script."""


def number(word: str, most: int, what: str) -> int:
    if re.fullmatch(r"0|[1-9][0-9]*", word):
        value = int(word)
    elif re.fullmatch(r"0o(0|[1-7][0-7]*)", word):
        value = int(word[2:], 8)
    elif re.fullmatch(r"0[0-9]+", word) or re.fullmatch(r"0o0[0-7]+", word):
        raise Bad(f"{what} has a needless leading zero: {word!r} (octal numbers begin with 0o)")
    else:
        raise Bad(f"{what} is no number: {word!r}")
    if value > most:
        raise Bad(f"{what} is past {most}: {word}")
    return value


def switch(word: str, what: str) -> bool:
    if word not in ("0", "1"):
        raise Bad(f"{what} is a switch, 0 or 1, and not {word!r}")
    return word == "1"


def byte_word(word: str, what: str, most: int | None = None) -> bytes:
    if word == "":
        raise Bad(f"{what} is empty: no bytes are written %- (and words are parted by one space)")
    if word == "%-":
        return b""
    out, at = bytearray(), 0
    while at < len(word):
        char = word[at]
        if char == "%":
            digits = word[at + 1 : at + 3]
            if not re.fullmatch(r"[0-9a-f]{2}", digits):
                raise Bad(f"{what}: % wants two lower-case hexadecimal digits behind it, and not {digits!r}")
            byte = int(digits, 16)
            if 0x21 <= byte <= 0x7E and byte != 0x25:
                raise Bad(f"{what}: %{digits} has one spelling, {chr(byte)!r}")
            out.append(byte)
            at += 3
        elif "!" <= char <= "~":
            out.append(ord(char))
            at += 1
        else:
            raise Bad(f"{what}: the byte {char!r} is written as %xx")
    if most is not None and len(out) > most:
        raise Bad(f"{what} has {len(out)} bytes, and {most} are the most")
    return bytes(out)


def wants(words: list[str], count: int, form: str) -> None:
    if len(words) != count:
        raise Bad(f"it has {len(words)} words, and {count} are wanted: {form}")


def u32(what: str) -> Callable[[str], int]:
    return lambda word: number(word, U32, what)


def u64(what: str) -> Callable[[str], int]:
    return lambda word: number(word, U64, what)


def name(what: str) -> Callable[[str], bytes]:
    return lambda word: byte_word(word, what)


def switched(what: str) -> Callable[[str], bool]:
    return lambda word: switch(word, what)


def policy(word: str) -> None:
    if word.lower() not in ("never", "metadata", "auto", "always"):
        raise Bad(f"there is no policy {word!r}: never, metadata, auto, always")


def sign(wanted: str) -> Callable[[str], None]:
    def judge(word: str) -> None:
        if word != wanted:
            raise Bad(f"{wanted!r} is wanted here, and not {word!r}")

    return judge


# the fields of each request behind its word
REQUESTS: dict[str, list[Callable]] = {
    "root": [],
    "destroy": [],
    "init": [u32("CAPABLE")],
    "lookup": [u64("PARENT"), name("NAME")],
    "forget": [u64("INODE"), u64("COUNT")],
    "open": [u64("INODE"), switched("KILL"), u32("FLAGS")],
    "opendir": [u64("INODE"), u32("FLAGS")],
    "read": [u64("INODE"), u64("HANDLE"), u32("SIZE"), u64("OFFSET")],
    "readdir": [u64("INODE"), u64("HANDLE"), u32("SIZE"), u64("OFFSET")],
    "release": [u64("INODE"), u64("HANDLE")],
    "releasedir": [u64("INODE"), u64("HANDLE")],
    "write": [
        u64("INODE"),
        u64("HANDLE"),
        u64("OFFSET"),
        name("BYTES"),
        switched("DELAYED"),
        switched("KILL"),
        u32("FLAGS"),
    ],
    "fallocate": [u64("INODE"), u64("HANDLE"), u32("MODE"), u64("OFFSET"), u64("LENGTH")],
    "lseek": [u64("INODE"), u64("HANDLE"), u64("OFFSET"), u32("WHENCE")],
    "copyfilerange": [
        u64("INODE"),
        u64("HANDLE"),
        u64("OFFSET"),
        u64("INODE2"),
        u64("HANDLE2"),
        u64("OFFSET2"),
        u64("LENGTH"),
        u64("FLAGS"),
    ],
    "flush": [u64("INODE"), u64("HANDLE")],
    "fsync": [u64("INODE"), u64("HANDLE"), switched("DATASYNC")],
    "fsyncdir": [u64("INODE"), u64("HANDLE"), switched("DATASYNC")],
    "syncfs": [u64("INODE")],
    "link": [u64("INODE"), u64("NEWPARENT"), name("NEWNAME")],
    "unlink": [u64("PARENT"), name("NAME")],
    "rmdir": [u64("PARENT"), name("NAME")],
    "rename": [u64("OLDDIR"), name("OLDNAME"), u64("NEWDIR"), name("NEWNAME"), u32("FLAGS")],
    "readlink": [u64("INODE")],
    "statfs": [u64("INODE")],
    "getattr": [u64("INODE")],
    "access": [u64("INODE"), u32("MASK")],
    "setxattr": [u64("INODE"), name("NAME"), name("VALUE"), u32("FLAGS"), u32("EXTRA")],
    "getxattr": [u64("INODE"), name("NAME"), u32("SIZE")],
    "listxattr": [u64("INODE"), u32("SIZE")],
    "removexattr": [u64("INODE"), name("NAME")],
    "other": [u32("OPCODE")],
}

# those of the requests that make an object, before what they bring beside
MAKINGS: dict[str, list[Callable]] = {
    "create": [
        u64("PARENT"),
        name("NAME"),
        u32("MODE"),
        switched("KILL"),
        u32("FLAGS"),
        u32("UMASK"),
    ],
    "mkdir": [u64("PARENT"), name("NAME"), u32("MODE"), u32("UMASK")],
    "mknod": [u64("PARENT"), name("NAME"), u32("MODE"), u32("RDEV"), u32("UMASK")],
    "symlink": [name("TARGET"), u64("PARENT"), name("NAME")],
}

# those of `setattr` behind the handle
ATTRIBUTES: list[Callable] = [
    u32("VALID"),
    u32("MODE"),
    u32("UID"),
    u32("GID"),
    u64("SIZE"),
    u64("ATIME"),
    u32("ATIMENSEC"),
    u64("MTIME"),
    u32("MTIMENSEC"),
]

# the values of each key that is set once, behind it
SETTINGS: dict[str, list[Callable]] = {
    "guest_fd_limit": [u64("N")],
    "seat": [u32("UID"), u32("GID"), u32("CAPS")],
    "entry_timeout": [u64("SECONDS"), u32("NANOSECONDS")],
    "attr_timeout": [u64("SECONDS"), u32("NANOSECONDS")],
    "cache_policy": [policy],
    "root_dir": [name("PATH")],
    "writeback": [switched("ON")],
    "announce_submounts": [switched("ON")],
    "readdirplus": [switched("ON")],
    "allow_direct_io": [switched("ON")],
    "killpriv_v2": [switched("ON")],
    "clean_noatime": [switched("ON")],
    "allow_mmap": [switched("ON")],
    "posix_acl": [switched("ON")],
    "security_label": [switched("ON")],
    "xattr": [switched("ON")],
}

# the numbers of each rule of ids behind its word: where its range begins, what that becomes, how many ids it has
RULES = {kind: ("A", "B", "N") for kind in ("guest", "host", "squash-guest", "squash-host", "map")}
RULES["forbid-guest"] = ("A", "N")

# the words of a rule of names
NAME_KINDS = ("prefix", "ok", "bad", "unsupported")
NAME_SCOPES = ("client", "server", "all")

EDITS: dict[str, list[Callable]] = {
    "unlink": [name("PATH")],
    "rename": [name("OLD"), name("NEW")],
    "file": [name("PATH"), u32("MODE"), u32("UID"), u32("GID"), name("BYTES")],
    "dir": [name("PATH"), u32("MODE"), u32("UID"), u32("GID")],
    "write": [name("PATH"), name("BYTES")],
}


@dataclass
class Rule:
    """A rule of ids, and the line at which it stands."""

    line: int
    kind: str
    numbers: list[int]

    def sources(self) -> tuple[range, range]:
        """The guest's ids and the host's of which it says something."""
        first, count = self.numbers[0], self.numbers[-1]
        ids, none = range(first, first + count), range(0)
        if self.kind == "map":
            return ids, range(self.numbers[1], self.numbers[1] + count)
        return (none, ids) if self.kind in ("host", "squash-host") else (ids, none)

    def goes_past(self) -> bool:
        """A range of its ids, or what they become one by one, goes past the last id."""
        starts = self.numbers[:2] if self.kind in ("guest", "host", "map") else self.numbers[:1]
        return any(start + self.numbers[-1] > U32 + 1 for start in starts)

    def meets(self, other: "Rule") -> bool:
        return any(
            one and two and max(one.start, two.start) < min(one.stop, two.stop)
            for one, two in zip(self.sources(), other.sources())
        )


@dataclass
class Node:
    kind: str
    mount: int
    children: dict[bytes, "Node"] = field(default_factory=dict)


@dataclass
class Tree:
    """The tree of the lines so far."""

    root: Node | None = None
    ids: set[int] = field(default_factory=set)
    devices: set[int] = field(default_factory=set)

    def place(self, path: bytes) -> tuple[Node, bytes]:
        """The directory and the new name of a path."""
        if not path.startswith(b"/"):
            raise Bad("a path begins with a slash")
        parts = path[1:].split(b"/")
        for part in parts:
            if part in (b"", b".", b".."):
                raise Bad(f"a path has no part {part.decode()!r}")
            if b"\0" in part:
                raise Bad("a path has no NUL")
            if len(part) > NAME_MAX:
                raise Bad(f"a name has {len(part)} bytes, and {NAME_MAX} are the most")
        at = self.root
        for part in parts[:-1]:
            at = at.children.get(part)
            if at is None or at.kind != "dir":
                raise Bad("its parent is no directory that stands above it")
        if parts[-1] in at.children:
            raise Bad("its name is there already")
        return at, parts[-1]

    def find(self, path: bytes) -> Node:
        if path == b"/":
            return self.root
        at = self.root
        for part in path[1:].split(b"/") if path.startswith(b"/") else [b"\0"]:
            at = at.children.get(part) if at.kind == "dir" else None
            if at is None:
                raise Bad("there is no such object above it")
        return at

    def put(self, path: bytes, kind: str, mount: int | None = None) -> None:
        parent, last = self.place(path)
        parent.children[last] = Node(kind, parent.mount if mount is None else mount)


def permissions(word: str) -> int:
    mode = number(word, U32, "MODE")
    if mode > 0o7777:
        raise Bad(f"MODE has other bits than 0o7777: {word} is {mode:#o}")
    return mode


def ids_of(words: list[str]) -> None:
    number(words[0], U32, "UID")
    number(words[1], U32, "GID")


def mount_line(tree: Tree, words: list[str]) -> None:
    wants(words, 5, "mount ID DEV PATH HANDLES")
    mount, device = number(words[1], U64, "ID"), number(words[2], U64, "DEV")
    path = byte_word(words[3], "PATH")
    switch(words[4], "HANDLES")
    if mount == 0 or device == 0:
        raise Bad("ID and DEV are positive")
    if mount in tree.ids or device in tree.devices:
        raise Bad("ID and DEV stand once each")
    if any(not 0x21 <= byte <= 0x7E for byte in path):
        raise Bad("the path of a mount has bytes from 0x21 to 0x7e alone")
    if tree.root is None:
        if path != b"/":
            raise Bad("the first line of a tree is the mount of /")
        tree.root = Node("dir", mount)
    else:
        tree.put(path, "dir", mount)
    tree.ids.add(mount)
    tree.devices.add(device)


def object_line(tree: Tree, words: list[str]) -> None:
    match words[0]:
        case "dir":
            wants(words, 5, "dir PATH MODE UID GID")
            path = byte_word(words[1], "PATH")
            permissions(words[2])
            ids_of(words[3:])
            tree.put(path, "dir")
        case "file":
            wants(words, 6, "file PATH MODE UID GID BYTES (contents are one word)")
            path = byte_word(words[1], "PATH")
            permissions(words[2])
            ids_of(words[3:])
            byte_word(words[5], "BYTES", FILE_MAX)
            tree.put(path, "file")
        case "link":
            wants(words, 5, "link PATH UID GID TARGET")
            path = byte_word(words[1], "PATH")
            ids_of(words[2:])
            byte_word(words[4], "TARGET", TARGET_MAX)
            tree.put(path, "link")
        case "spec":
            wants(words, 6, "spec PATH MODE UID GID RDEV")
            path = byte_word(words[1], "PATH")
            mode = number(words[2], U32, "MODE")
            ids_of(words[3:])
            number(words[5], U32, "RDEV")
            if mode & ~0o7777 not in KINDS:
                kinds = ", ".join(f"{kind:#o}" for kind in sorted(KINDS))
                raise Bad(f"MODE wants the bits of one kind beside 0o7777: {kinds}")
            tree.put(path, "spec")
        case "hard":
            wants(words, 3, "hard PATH OLD")
            old = tree.find(byte_word(words[2], "OLD"))
            parent, last = tree.place(byte_word(words[1], "PATH"))
            if old.kind == "dir":
                raise Bad("OLD is a directory, which has one name")
            if old.mount != parent.mount:
                raise Bad("OLD lies on another mount")
            parent.children[last] = old
        case "xattr":
            wants(words, 4, "xattr PATH NAME VALUE")
            tree.find(byte_word(words[1], "PATH"))
            byte_word(words[2], "NAME", NAME_MAX)
            byte_word(words[3], "VALUE", VALUE_MAX)


def fields(form: str, words: list[str], kinds: list[Callable]) -> None:
    if len(words) != len(kinds):
        raise Bad(f"{form} has {len(kinds)} fields, and here are {len(words)}")
    for kind, word in zip(kinds, words):
        kind(word)


def option(word: str, *values: Callable) -> list[Callable]:
    """The kinds of an option that begins with this word."""
    return [sign("+"), *values] if word == "+" else [sign("-")]


def request(words: list[str]) -> None:
    wants(words[:3], 3, "job UID GID REQUEST FIELDS")
    number(words[0], U32, "UID")
    number(words[1], U32, "GID")
    if words[2] == "batch_forget":
        count = number(words[3] if len(words) > 3 else "", U64, "N")
        if len(words) - 4 != 2 * count:
            raise Bad(f"{count} pairs of INODE and COUNT are to follow, and here are {len(words) - 4} words")
        for word in words[4:]:
            number(word, U64, "a number")
    elif words[2] in MAKINGS:
        kinds = [*MAKINGS[words[2]]]
        for values in [[name("NAME"), name("VALUE")], [u32("GID")]]:
            first = words[3 + len(kinds) : 4 + len(kinds)]
            kinds += option("".join(first), *values)
        fields(words[2], words[3:], kinds)
    elif words[2] == "setattr":
        handle = option("".join(words[4:5]), u64("HANDLE"))
        fields("setattr", words[3:], [u64("INODE"), *handle, *ATTRIBUTES])
    elif words[2] in REQUESTS:
        fields(words[2], words[3:], REQUESTS[words[2]])
    else:
        raise Bad(f"there is no request {words[2]!r} (yet)")


class Reader:
    """Reads the lines in their order, each kind of them behind those that may stand before it."""

    ORDER = ["set", "tree", "fault", "job", "order", "end"]

    def __init__(self) -> None:
        self.tree, self.keys = Tree(), set()
        self.rules: dict[str, list[Rule]] = {"uidmap": [], "gidmap": []}
        # from whom names may come that no rule meets, and the line of the last rule of names, 0 for none
        self.unmet, self.last_name_rule = {"client", "server"}, 0
        self.lines = 0
        self.at = 0
        self.last_fault = -1
        self.jobs = self.places = 0

    def stand(self, kind: str) -> None:
        place = self.ORDER.index(kind)
        if self.at == len(self.ORDER) - 1:
            raise Bad("nothing follows end")
        if place < self.at:
            raise Bad(f"a {kind} line stands before the {self.ORDER[self.at]} lines")
        if place > 0 and self.tree.root is None and kind != "tree":
            raise Bad("a script has a tree, and its first line is the mount of /")
        self.at = place

    def line(self, text: str) -> None:
        words = text.split(" ")
        self.lines += 1
        match words[0]:
            case "set":
                self.stand("set")
                self.setting(words)
            case "mount" | "dir" | "file" | "link" | "spec" | "hard" | "xattr":
                if words[0] != "mount" and self.tree.root is None:
                    raise Bad("the first line of a tree is the mount of /")
                self.stand("tree")
                (mount_line if words[0] == "mount" else object_line)(self.tree, words)
            case "fault":
                self.stand("fault")
                self.fault(words)
            case "job" | "edit":
                self.stand("job")
                self.job(words)
            case "order":
                self.stand("order")
                self.order(words[1:])
            case "end":
                self.stand("end")
                wants(words, 1, "end")
            case "":
                raise Bad("there are no blank lines")
            case other:
                raise Bad(f"no line begins with {other!r}")

    def setting(self, words: list[str]) -> None:
        key = words[1] if len(words) > 1 else ""
        if key == "xattrrule":
            self.name_rule(words[2:])
            return
        if key in self.rules:
            self.rule(key, words[2:])
            return
        if key not in SETTINGS:
            raise Bad(f"there is no key {key!r} (yet)")
        fields(f"set {key}", words[2:], SETTINGS[key])
        if key in self.keys:
            raise Bad(f"{key} is set once already")
        self.keys.add(key)

    def rule(self, key: str, words: list[str]) -> None:
        kind = words[0] if words else ""
        if kind not in RULES:
            raise Bad(f"there is no rule {kind!r}: {', '.join(sorted(RULES))}")
        names = RULES[kind]
        if len(words) - 1 != len(names):
            raise Bad(f"{kind} has {len(names)} numbers, {' '.join(names)}, and here are {len(words) - 1}")
        numbers = [number(word, U32, what) for word, what in zip(words[1:], names)]
        self.rules[key].append(Rule(self.lines, kind, numbers))

    def name_rule(self, words: list[str]) -> None:
        kind = words[0] if words else ""
        scope = "all" if kind == "map" else words[1] if len(words) > 1 else ""
        if kind != "map" and kind not in NAME_KINDS:
            raise Bad(f"there is no rule {kind!r}: {', '.join(sorted(['map', *NAME_KINDS]))}")
        if scope not in NAME_SCOPES:
            raise Bad(f"there is no scope {scope!r}: {', '.join(NAME_SCOPES)}")
        rest = words[1:] if kind == "map" else words[2:]
        fields(f"a rule {kind}", rest, [name("KEY"), name("PREPEND")])
        fronts = {"client": rest[0], "server": rest[1]}
        met = {side for side, front in fronts.items() if scope in (side, "all") and front == "%-"}
        self.unmet -= set(fronts) if kind == "map" else met
        self.last_name_rule = self.lines

    def fault(self, words: list[str]) -> None:
        wants(words, 3, "fault CALL ERRNO")
        call = number(words[1], U64, "CALL")
        error = number(words[2], U32, "ERRNO")
        if not 1 <= error <= 133:
            raise Bad("ERRNO is from 1 to 133")
        if call <= self.last_fault:
            raise Bad("the calls of fault lines ascend")
        self.last_fault = call

    def job(self, words: list[str]) -> None:
        if words[0] == "job":
            request(words[1:])
        elif len(words) > 1 and words[1] in EDITS:
            fields(f"edit {words[1]}", words[2:], EDITS[words[1]])
        else:
            raise Bad(f"there is no edit {words[1] if len(words) > 1 else ''!r}")
        self.jobs += 1
        if self.jobs > MOST_JOBS:
            raise Bad(f"there are {MOST_JOBS} jobs and edits at the most")

    def order(self, places: list[str]) -> None:
        if not places:
            raise Bad("an order line has a place at least")
        for place in places:
            number(place, U32, "a place")
        self.places += len(places)
        if self.places > MOST_PLACES:
            raise Bad(f"there are {MOST_PLACES} places at the most")


def complaint(text: bytes) -> tuple[int, str] | None:
    """The number of the first bad line and why it is bad; None for a script."""
    reader = Reader()
    lines = text.split(b"\n")
    last = lines.pop()
    for place, line in enumerate(lines, 1):
        try:
            reader.line(line.decode("latin-1"))
        except Bad as why:
            return place, str(why)
    if last:
        try:
            reader.line(last.decode("latin-1"))
        except Bad as why:
            return len(lines) + 1, str(why)
        return len(lines) + 2, "the last line is not ended by a line feed"
    if reader.at != len(reader.ORDER) - 1:
        return len(lines) + 1, "the input ends before the line end"
    return None


def refused_rule(text: bytes) -> tuple[int, str] | None:
    """The line of a script's first rule that is refused beside the others, and why; None where there is none.

    Such a script is one, but no file system is made of it: the uids' rules are judged first, each key in its order,
    and last those of names, of which one has to meet each name.
    """
    reader = Reader()
    for line in text.split(b"\n")[:-1]:
        reader.line(line.decode("latin-1"))
    for key, rules in reader.rules.items():
        for place, rule in enumerate(rules):
            for earlier in rules[:place]:
                if rule.meets(earlier):
                    other = f"{key} at line {earlier.line}"
                    return rule.line, f"it says something of an id of which {other} says something"
            if rule.goes_past():
                return rule.line, f"its ids go past the last one, {U32}"
    if reader.last_name_rule and reader.unmet:
        return reader.last_name_rule, f"a name from the {min(reader.unmet)} may meet none of the rules up to here"
    return None


def jobs_of(text: bytes) -> Iterator[str]:
    """The jobs of a script as it writes them, without their first word."""
    for line in text.decode("latin-1").split("\n"):
        word, _, rest = line.partition(" ")
        if word == "job":
            yield " ".join(rest.split(" ")[2:])
        elif word == "edit":
            yield line

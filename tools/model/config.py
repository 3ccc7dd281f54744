"""The configuration of the file system and the lines that set it (virtiofsd's passthrough::Config)."""
from .text import BadWord, U32, U64, Words, read_bytes

SWITCHES = {
    "writeback": False, "xattr": False, "announce_submounts": False, "readdirplus": True, "allow_direct_io": False,
    "killpriv_v2": False, "posix_acl": False, "security_label": False, "clean_noatime": True, "allow_mmap": False,
}
POLICIES = ("never", "metadata", "auto", "always")
ID_RULES = {"guest": 3, "host": 3, "squash-guest": 3, "squash-host": 3, "forbid-guest": 2, "map": 3}
RULE_KINDS, RULE_SCOPES = ("prefix", "ok", "bad", "unsupported"), ("client", "server", "all")


# keys that the program does not read yet; a key goes from here with the stage that builds it
LATER = {"read_only", "inode_file_handles", "mountinfo_prefix", "class"}
FORMS = ("never", "prefer", "mandatory")
CLASSES_AT_MOST = 64


class Config:
    """Values by their keys; lists of rules grow by a line each."""

    def __init__(self):
        self.entry_timeout = self.attr_timeout = (5, 0)
        self.cache_policy = "auto"
        self.root_dir = b"/"
        self.guest_fd_limit = U64
        self.seat = (0, 0, 511)
        self.read_only = False
        self.inode_file_handles = "never"
        self.mountinfo_prefix = None
        self.classes = []
        self.uidmap, self.gidmap, self.xattrrule = [], [], []
        for key, value in SWITCHES.items():
            setattr(self, key, value)
        self.was_set = set()

    def set(self, words):
        """Takes the words behind `set`."""
        key = words.word().decode("latin-1")
        if key in LATER:
            raise BadWord
        if key == "class":
            self.classes.append(read_class(words, self.classes))
        elif key in ("uidmap", "gidmap"):
            getattr(self, key).append(read_id_rule(words))
        elif key == "xattrrule":
            self.xattrrule.append(read_xattr_rule(words))
        elif key in self.was_set:
            raise BadWord
        else:
            self.was_set.add(key)
            setattr(self, key, read_value(key, words))
        words.end()


def read_value(key, words):
    if key in ("entry_timeout", "attr_timeout"):
        return (words.number(U64), words.number(U32))
    if key == "cache_policy":
        word = words.word().decode("latin-1").lower()
        if word not in POLICIES:
            raise BadWord
        return word
    if key == "root_dir":
        return words.bytes()
    if key == "guest_fd_limit":
        return words.u64()
    if key == "seat":
        return (words.u32(), words.u32(), words.u32())
    if key == "inode_file_handles":
        word = words.word().decode("latin-1")
        if word not in FORMS:
            raise BadWord
        return word
    if key == "mountinfo_prefix":
        word = words.word()
        return None if word == b"-" else read_bytes(word)
    if key in SWITCHES or key == "read_only":
        return words.switch()
    raise BadWord


def read_class(words, classes):
    """A budget class: a name as names of requests are, which no other class has, and its limit."""
    name, limit = words.bytes(), words.u64()
    is_name = name not in (b"", b".", b"..") and b"/" not in name and b"\0" not in name
    if not is_name or len(classes) == CLASSES_AT_MOST or any(name == other for other, _ in classes):
        raise BadWord
    return name, limit


def read_id_rule(words):
    word = words.word().decode("latin-1")
    if word not in ID_RULES:
        raise BadWord
    return (word, *[words.u32() for _ in range(ID_RULES[word])])


def read_xattr_rule(words: Words):
    kind = words.word().decode("latin-1")
    if kind == "map":
        return (kind, words.bytes(), words.bytes())
    scope = words.word().decode("latin-1")
    if kind not in RULE_KINDS or scope not in RULE_SCOPES:
        raise BadWord
    return (kind, scope, words.bytes(), words.bytes())

"""The fields of each request's line (the messages of FUSE's fuse.h), and of each edit's."""
from .text import BadWord, Words

U32, U64, BYTES, SWITCH = Words.u32, Words.u64, Words.bytes, Words.switch


def option_u64(words):
    return words.option(words.u64)


def context(words):
    """A security context of a name and a value, and the group of who asks: two options."""
    label = words.option(lambda: (words.bytes(), words.bytes()))
    group = words.option(words.u32)
    return (label.value if label else None, group.value if group else None)


def pairs(words):
    return words.listed(lambda: (words.u64(), words.u64()))


def attributes(words):
    """mode, uid, gid, size, and two times with their nanoseconds."""
    return (words.u32(), words.u32(), words.u32(), words.u64(), words.u64(), words.u32(), words.u64(), words.u32())


REQUESTS = {
    "init": (U32,), "destroy": (), "root": (), "lookup": (U64, BYTES), "forget": (U64, U64), "batch_forget": (pairs,),
    "open": (U64, SWITCH, U32), "opendir": (U64, U32), "release": (U64, U64), "releasedir": (U64, U64),
    "read": (U64, U64, U32, U64), "write": (U64, U64, U64, BYTES, SWITCH, SWITCH, U32),
    "create": (U64, BYTES, U32, SWITCH, U32, U32, context), "mkdir": (U64, BYTES, U32, U32, context),
    "mknod": (U64, BYTES, U32, U32, U32, context), "symlink": (BYTES, U64, BYTES, context),
    "link": (U64, U64, BYTES), "unlink": (U64, BYTES), "rmdir": (U64, BYTES), "rename": (U64, BYTES, U64, BYTES, U32),
    "readlink": (U64,), "statfs": (U64,), "getattr": (U64,), "setattr": (U64, option_u64, U32, attributes),
    "access": (U64, U32), "readdir": (U64, U64, U32, U64), "flush": (U64, U64), "fsync": (U64, U64, SWITCH),
    "fsyncdir": (U64, U64, SWITCH), "syncfs": (U64,), "fallocate": (U64, U64, U32, U64, U64),
    "lseek": (U64, U64, U64, U32), "copyfilerange": (U64, U64, U64, U64, U64, U64, U64, U64),
    "setxattr": (U64, BYTES, BYTES, U32, U32), "getxattr": (U64, BYTES, U32), "listxattr": (U64, U32),
    "removexattr": (U64, BYTES), "other": (U32,),
}

EDITS = {
    "unlink": ("Unlink", (BYTES,)), "rename": ("Rename", (BYTES, BYTES)), "write": ("Write", (BYTES, BYTES)),
    "file": ("File", (BYTES, U32, U32, U32, BYTES)), "dir": ("Dir", (BYTES, U32, U32, U32)),
}


def read_request(words):
    """Name and fields of a request, to the end of its line."""
    name = words.word().decode("latin-1")
    if name not in REQUESTS:
        raise BadWord
    fields = [read(words) for read in REQUESTS[name]]
    words.end()
    return name, fields


def read_edit(words):
    """Variant and fields of an edit, to the end of its line."""
    name = words.word().decode("latin-1")
    if name not in EDITS:
        raise BadWord
    variant, forms = EDITS[name]
    fields = [read(words) for read in forms]
    words.end()
    return (variant, *fields)

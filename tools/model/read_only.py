"""The rules of a file system that forbids changes (virtiofsd's passthrough/read_only.rs)."""
from .job import Stop
from .linux import (ACCESS_MODE, EINVAL, ENOENT, EROFS, O_CREAT, O_DIRECTORY, O_EXCL, O_PATH, O_TMPFILE, O_TRUNC)
from .parts import check_name, look_up, open_number, open_options

FORBIDDEN = ("setattr", "symlink", "mknod", "mkdir", "unlink", "rmdir", "rename", "link", "write", "fallocate",
             "setxattr", "removexattr", "copyfilerange")
GREATEST_INT, WRITE_BIT = 2**31 - 1, 2


def refused(job, *fields):
    raise Stop(EROFS)
    yield


def judged(flags):
    """The flags of an opening that may change nothing."""
    if flags > GREATEST_INT:
        raise Stop(EINVAL)
    if flags & O_PATH:
        return flags
    if flags & ACCESS_MODE or flags & O_EXCL:
        raise Stop(EROFS)
    if flags & O_TMPFILE == O_TMPFILE or flags & O_TRUNC:
        raise Stop(EINVAL)
    return flags & ~O_CREAT


def told_read_only(body):
    """A part whose missing file could only be made."""
    try:
        return (yield from body)
    except Stop as stop:
        raise Stop(EROFS if stop.errno == ENOENT else stop.errno) from None


def opened(job, number, kill, flags, more):
    allowed = judged(flags)
    body = open_number(job, number, kill, allowed | more)
    return (yield from body if allowed == flags else told_read_only(body))


def open_file(job, number, kill, flags):
    handle = yield from opened(job, number, kill, flags, 0)
    return ("Opened", handle, open_options(job, bool(flags & O_DIRECTORY)))


def opendir(job, number, flags):
    handle = yield from opened(job, number, False, flags, O_DIRECTORY)
    return ("Opened", handle, open_options(job, True))


def create(job, parent, name, mode, kill, flags, mask, extensions):
    check_name(name)
    told, _ = yield from told_read_only(look_up(job, parent, name))
    handle = yield from opened(job, told[0], kill, flags, 0)
    return ("Created", told, handle, open_options(job, bool(flags & O_DIRECTORY)))


def guarded(bodies):
    """The requests of a read-only file system."""
    def access(job, number, mask):
        return refused(job) if mask & WRITE_BIT else bodies["access"](job, number, mask)
    return {**bodies, **{name: refused for name in FORBIDDEN}, "open": open_file, "opendir": opendir,
            "create": create, "access": access}

"""Requests of sessions, numbers, handles and contents, each a generator of its steps (virtiofsd's
passthrough/mod.rs)."""
from .job import Stop, call, owing
from .linux import (EIO, ENOSYS, EPROTO, O_APPEND, O_DIRECTORY, O_NOFOLLOW, as_signed)
from .parts import (check_name, check_places, clear_capability, look_up, open_inode, open_number, open_options,
                    open_root, pin_handle, without_fsetid)
from .text import Some

READDIRPLUS, WRITEBACK, KILLPRIV, ACLS, LABELS, SUBMOUNTS, GROUPS, MMAP = 3, 4, 8, 16 + 32 + 64, 128, 256, 512, 1024


# sessions


def init(job, capable):
    config = job.plan.config
    wants_acls = config.posix_acl
    lacks_acls = wants_acls and capable & ACLS != ACLS
    lacks_labels = config.security_label and not capable & LABELS
    is_refused = lacks_acls or lacks_labels
    writeback = bool(config.writeback and capable & WRITEBACK)
    job.options = (writeback, bool(config.announce_submounts and capable & SUBMOUNTS), wants_acls and not lacks_acls,
                   not is_refused and bool(capable & GROUPS))
    yield from open_root(job, Some(job.options))
    if is_refused:
        raise Stop(EPROTO)
    answer = READDIRPLUS if config.readdirplus else 0
    answer |= WRITEBACK if writeback else 0
    answer |= KILLPRIV if config.killpriv_v2 and capable & KILLPRIV else 0
    answer |= ACLS if wants_acls else 0
    answer |= LABELS if config.security_label else 0
    answer |= MMAP if config.allow_mmap else 0
    return ("Inited", answer)


def destroy(job):
    return ("NoReply",)
    yield


def root(job):
    yield from open_root(job, None)
    return ("Done",)


# numbers


def lookup(job, parent, name):
    check_name(name)
    told, _ = yield from look_up(job, parent, name)
    return ("Entry", told)


def forget(job, number, count):
    return (yield from batch_forget(job, [(number, count)]))


def batch_forget(job, pairs):
    yield from owing(job, "Forget", pairs)
    return ("NoReply",)


# handles


def open_file(job, number, kill, flags):
    handle = yield from open_number(job, number, kill, flags)
    return ("Opened", handle, open_options(job, bool(flags & O_DIRECTORY)))


def opendir(job, number, flags):
    return (yield from open_file(job, number, False, flags | O_DIRECTORY))


def release(job, number, handle):
    yield from owing(job, "Release", handle, number)
    return ("Done",)


def read(job, number, handle, size, offset):
    check_places(offset)
    fd = yield from pin_handle(job, handle, number)
    data = yield from call("ReadAt", fd, offset, size)
    return ("Read", data[1])


def write(job, number, handle, offset, data, delayed, kill, flags):
    check_places(offset)
    fd = yield from pin_handle(job, handle, number)
    append = not delayed and bool(flags & O_APPEND)

    def written():
        yield from clear_capability(job, fd, False)
        return (yield from call("WriteAt", fd, offset, data, append))
    count = yield from without_fsetid(job, kill, written())
    return ("Wrote", count[1])


def readdir(job, number, handle, size, offset):
    if size == 0:
        return ("Listing", [])
    check_places(offset)
    fd = yield from pin_handle(job, handle, number)
    data = yield from call("ListAt", fd, Some(offset), size)
    return ("Listing", records(data[1]))


def records(data):
    """The records of a listing (getdents64(2))."""
    listed, place = [], 0
    while place < len(data):
        length = int.from_bytes(data[place + 16:place + 18], "little")
        piece = data[place:place + length]
        if length < 24 or len(piece) < length or b"\0" not in piece[19:]:
            raise Stop(EIO)
        inode, offset = int.from_bytes(piece[:8], "little"), int.from_bytes(piece[8:16], "little")
        listed.append((inode, offset, piece[18], piece[19:].split(b"\0")[0]))
        place += length
    return listed


def on_handle(job, number, handle, name, *fields):
    """A host call on a handle's descriptor."""
    fd = yield from pin_handle(job, handle, number)
    return (yield from call(name, fd, *fields))


def flush(job, number, handle):
    yield from on_handle(job, number, handle, "Flush")
    return ("Done",)


def fsync(job, number, handle, datasync):
    yield from on_handle(job, number, handle, "Sync", datasync)
    return ("Done",)


def fallocate(job, number, handle, mode, offset, length):
    check_places(offset, length)
    yield from on_handle(job, number, handle, "Allocate", mode, offset, length)
    return ("Done",)


def lseek(job, number, handle, offset, whence):
    place = yield from on_handle(job, number, handle, "Seek", as_signed(offset), whence)
    return ("Offset", place[1])


def copyfilerange(job, number, handle, offset, new_number, new_handle, new_offset, length, flags):
    check_places(offset, new_offset, length)
    fd = yield from pin_handle(job, handle, number)
    new_fd = yield from pin_handle(job, new_handle, new_number)
    count = yield from call("CopyRange", fd, offset, new_fd, new_offset, length, flags)
    return ("Wrote", count[1])


def syncfs(job, number):
    _, fd, _ = yield from open_inode(job, number, O_NOFOLLOW)
    yield from call("SyncFs", fd)
    return ("Done",)


def other(job, opcode):
    raise Stop(ENOSYS)
    yield


BODIES = {
    "init": init, "destroy": destroy, "root": root, "lookup": lookup, "forget": forget, "batch_forget": batch_forget,
    "open": open_file, "opendir": opendir, "release": release, "releasedir": release, "read": read, "write": write,
    "readdir": readdir, "flush": flush, "fsync": fsync, "fsyncdir": fsync, "fallocate": fallocate, "lseek": lseek,
    "copyfilerange": copyfilerange, "syncfs": syncfs, "other": other,
}

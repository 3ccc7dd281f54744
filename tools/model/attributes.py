"""Requests of names, attributes and extended attributes, each a generator of its steps (virtiofsd's
passthrough/mod.rs)."""
from .job import Stop, call, reply_of, bracket, open_call
from .linux import (EACCES, EEXIST, ENODATA, EPERM, ESTALE, NO_ID, O_APPEND, O_CLOEXEC, O_CREAT, O_EXCL, O_NOFOLLOW,
                    O_NONBLOCK, O_RDWR, PATH_ONLY, PERMISSIONS, SET_GROUP_ID, as_signed, is_opened)
from .maps import Forbidden
from .parts import (as_asker, attributes, check_name, check_nul, check_places, check_xattr, clear_capability,
                    create_options, file_of, is_blocked, look_up, new_handle, open_inode, open_number, opened,
                    pin_handle, resolve, without_fsetid, xattr_name)

MODE, UID, GID, SIZE, ATIME, MTIME, ATIME_NOW, MTIME_NOW, KILL = 1, 2, 4, 8, 16, 32, 128, 256, 2048
ACL_KILL_SGID = 1
ACL_ACCESS = b"system.posix_acl_access"


def parent_file(job, number):
    """A resolved number and its descriptor."""
    row = yield from resolve(job, number)
    return (yield from file_of(job, row))


def two_files(job, first, second):
    """Two numbers, both resolved before the descriptor of either is had."""
    rows = []
    for number in (first, second):
        rows.append((yield from resolve(job, number)))
    file = yield from file_of(job, rows[0])
    return file, (yield from file_of(job, rows[1]))


# making


def made(reply):
    if reply[0] != "Ok":
        raise Stop(reply[1])


def labelled(job, label, context_call, directory, undo, name):
    """Gives a new object its security context; where that is refused the object goes again."""
    if label is None:
        return
    try:
        mapped = xattr_name(job, label[0])
        yield from context_call(mapped, label[1])
    except Stop:
        yield from reply_of(undo, directory, name)
        raise


def make_object(job, parent, name, act, undo, mask, extensions):
    """A making call as who asks, its context and its entry."""
    label, group = extensions
    directory = yield from parent_file(job, parent)
    made((yield from as_asker(job, group, mask, (act[0], directory, name, *act[1:]))))

    def at_name(mapped, value):
        fd, _ = yield from open_call(job, "OpenAt", directory, name, PATH_ONLY, 0)
        yield from call("SetXattr", fd, True, mapped, value, 0)
    yield from labelled(job, label, lambda mapped, value: bracket(job, at_name(mapped, value)), directory, undo, name)
    told, _ = yield from look_up(job, parent, name)
    return ("Entry", told)


def mkdir(job, parent, name, mode, mask, extensions):
    check_name(name)
    return (yield from make_object(job, parent, name, ("MakeDir", mode), "RemoveDir", mask, extensions))


def mknod(job, parent, name, mode, rdev, mask, extensions):
    check_name(name)
    return (yield from make_object(job, parent, name, ("MakeNode", mode, rdev), "Unlink", mask, extensions))


def symlink(job, target, parent, name, extensions):
    check_name(name)
    check_nul(target)
    return (yield from make_object(job, parent, name, ("SymLink", target), "Unlink", None, extensions))


def create(job, parent, name, mode, kill, flags, mask, extensions):
    check_name(name)
    label, group = extensions
    directory = yield from parent_file(job, parent)
    making = flags & ~O_APPEND | O_CREAT | O_EXCL | O_NOFOLLOW | O_CLOEXEC
    reply = yield from as_asker(job, group, mask, ("OpenAt", directory, name, making, mode))
    if reply[0] != "Ok" and reply[1] == EEXIST and not flags & O_EXCL:
        told, _ = yield from look_up(job, parent, name)
        handle = yield from open_number(job, told[0], kill, flags)
        return ("Created", told, handle, create_options(job))
    made(reply)
    fd, hold = reply[1][1], job.holds[-1]
    ids = (yield from call("Stat", fd))[1]

    def on_file(mapped, value):
        yield from call("SetXattr", fd, False, mapped, value, 0)
    yield from labelled(job, label, on_file, directory, "Unlink", name)
    told, found_ids = yield from look_up(job, parent, name)
    if found_ids != ids:
        raise Stop(ESTALE)
    handle = yield from new_handle(job, told[0], fd, hold, job.found_class)
    return ("Created", told, handle, create_options(job))


# names


def link(job, number, new_parent, new_name):
    check_name(new_name)
    file, directory = yield from two_files(job, number, new_parent)
    yield from call("MakeLink", file, directory, new_name)
    told, _ = yield from look_up(job, new_parent, new_name)
    return ("Entry", told)


def take_away(job, parent, name, act):
    check_name(name)
    directory = yield from parent_file(job, parent)
    yield from call(act, directory, name)
    return ("Done",)


def unlink(job, parent, name):
    return take_away(job, parent, name, "Unlink")


def rmdir(job, parent, name):
    return take_away(job, parent, name, "RemoveDir")


def rename(job, old, name, new, new_name, flags):
    check_name(name)
    check_name(new_name)
    old_directory, new_directory = yield from two_files(job, old, new)
    yield from call("Rename", old_directory, name, new_directory, new_name, flags)
    return ("Done",)


# what an object tells


def readlink(job, number):
    file = yield from parent_file(job, number)
    target = yield from call("ReadLink", file)
    return ("Link", target[1])


def statfs(job, number):
    file = yield from parent_file(job, number)
    return (yield from call("StatFs", file))


def getattr_(job, number):
    file = yield from parent_file(job, number)
    told = yield from call("Stat", file)
    return ("Attr", attributes(job, told), job.plan.config.attr_timeout)


def access(job, number, mask):
    file = yield from parent_file(job, number)
    told = yield from call("Stat", file)
    mode = told[2]
    owner, group = job.plan.uids.map_host(told[4]), job.plan.gids.map_host(told[5])
    uid, gid = job.asker
    granted = mode & 7
    if uid == 0:
        granted |= 6 | (1 if mode & 0o111 else 0)
    if uid == owner:
        granted |= mode >> 6 & 7
    if gid == group:
        granted |= mode >> 3 & 7
    if mask & 7 & ~granted:
        raise Stop(EACCES)
    return ("Done",)


# setattr


def setattr_(job, number, handle, valid, values):
    mode, uid, gid, size, atime, atime_nanos, mtime, mtime_nanos = values
    if valid & SIZE:
        check_places(size)
    row = yield from resolve(job, number)
    if handle is None and valid & SIZE:
        file, _ = yield from opened(job, row, O_NONBLOCK | O_RDWR)
    else:
        file = yield from file_of(job, row)
    target, through = file, True
    if handle is not None:
        target, through = (yield from pin_handle(job, handle.value, number)), False
    if valid & MODE:
        yield from call("ChMod", target, through, mode)
    if valid & (UID | GID):
        yield from change_owner(job, file, uid if valid & UID else None, gid if valid & GID else None)
    if valid & SIZE:
        yield from without_fsetid(job, bool(valid & KILL), cut_to(job, target, size))
    if valid & (ATIME | MTIME):
        accessed = time_set(valid & ATIME_NOW, valid & ATIME, atime, atime_nanos)
        modified = time_set(valid & MTIME_NOW, valid & MTIME, mtime, mtime_nanos)
        yield from call("SetTimes", target, through, accessed, modified)
    return (yield from getattr_(job, number))


def change_owner(job, file, uid, gid):
    try:
        uid = NO_ID if uid is None else job.plan.uids.map_guest(uid)
        gid = NO_ID if gid is None else job.plan.gids.map_guest(gid)
    except Forbidden as forbidden:
        raise Stop(forbidden.errno) from None
    yield from clear_capability(job, file, True)
    yield from call("ChOwn", file, uid, gid)


def cut_to(job, target, size):
    yield from clear_capability(job, target, False)
    yield from call("Truncate", target, size)


def time_set(is_now, is_set, seconds, nanos):
    if is_now:
        return ("Now",)
    return ("At", as_signed(seconds), nanos) if is_set else ("Omit",)


# extended attributes


def xattr_file(job, number, row):
    """The descriptor for calls on attributes, and whether they go through its link."""
    if is_opened(row.mode):
        _, fd, _ = yield from open_inode(job, number, O_NONBLOCK)
        return fd, False
    return (yield from file_of(job, row)), True


def setxattr(job, number, name, value, flags, extra):
    check_xattr(job)
    check_nul(name)
    row = yield from resolve(job, number)
    mapped = xattr_name(job, name)
    fd, through = yield from xattr_file(job, number, row)
    yield from clear_capability(job, fd, through)
    if job.has_acls and extra & ACL_KILL_SGID and mapped == ACL_ACCESS:
        told = yield from call("Stat", fd)
        yield from call("ChMod", fd, through, told[2] & PERMISSIONS & ~SET_GROUP_ID)
    yield from call("SetXattr", fd, through, mapped, value, flags)
    return ("Done",)


def getxattr(job, number, name, size):
    check_xattr(job)
    check_nul(name)
    try:
        mapped = xattr_name(job, name)
    except Stop as stop:
        raise Stop(ENODATA if stop.errno == EPERM else stop.errno) from None
    row = yield from resolve(job, number)
    fd, through = yield from xattr_file(job, number, row)
    kind, told = yield from call("GetXattr", fd, through, mapped, size)
    return ("Xattr", "Count" if kind == "Count" else "Value", told)


def listxattr(job, number, size):
    check_xattr(job)
    row = yield from resolve(job, number)
    fd, through = yield from xattr_file(job, number, row)
    kind, told = yield from call("ListXattr", fd, through, size)
    if kind == "Count":
        return ("Xattrs", "Count", told)
    return ("Xattrs", "Names", shown_names(job, told))


def shown_names(job, listed):
    """The names that the guest sees of those that the host lists."""
    shown = bytearray()
    for name in listed.split(b"\0"):
        if name and job.plan.xattrs is not None:
            name = job.plan.xattrs.map_server(name)
        if name and (job.has_acls or not is_blocked(name)):
            shown += name + b"\0"
    return bytes(shown)


def removexattr(job, number, name):
    check_xattr(job)
    check_nul(name)
    row = yield from resolve(job, number)
    mapped = xattr_name(job, name)
    fd, through = yield from xattr_file(job, number, row)
    yield from call("RemoveXattr", fd, through, mapped)
    return ("Done",)


BODIES = {
    "create": create, "mkdir": mkdir, "mknod": mknod, "symlink": symlink, "link": link, "unlink": unlink,
    "rmdir": rmdir, "rename": rename, "readlink": readlink, "statfs": statfs, "getattr": getattr_,
    "setattr": setattr_, "access": access, "setxattr": setxattr, "getxattr": getxattr, "listxattr": listxattr,
    "removexattr": removexattr,
}

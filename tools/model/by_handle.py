"""Objects that are kept by their file handles, and the mounts that are kept open for them (open_by_handle_at(2),
virtiofsd's passthrough/file_handle.rs and mount_fd.rs)."""
from .job import Stop, call, event, give, open_call, reply_of
from .linux import EINVAL, EIO, ENOTSUP, EOVERFLOW, O_CLOEXEC, O_PATH, PATH_ONLY, is_opened
from .text import Some


def open_by_handle(job, form, flags):
    """Opens the object of a row's handle on its mount."""
    _, (_, kind, data), mount_fd = form
    return (yield from open_call(job, "OpenByHandle", mount_fd, (kind, data), flags))


def handle_of(job, fd, ids):
    """The file handle of an object as an option; where it has none, by the mode none or a refusal."""
    if job.plan.handles == "never":
        return None
    reply = yield from reply_of("HandleOf", fd)
    if reply[0] == "Ok":
        return Some(reply[1][1:])
    if reply[1] not in (ENOTSUP, EOVERFLOW):
        raise Stop(reply[1])
    if ids[2] > 0:
        yield from event("FirstError", ids[2])
    if job.plan.handles == "mandatory":
        raise Stop(ENOTSUP)
    return None


def mount_of(job, number):
    """A mount's descriptor, with a holder."""
    reply = yield from event("MountGet", number)
    if reply[0] == "Absent":
        try:
            reply = yield from mount_opened(job, number)
        except Stop:
            yield from event("FirstError", number)
            raise
        return reply
    return reply[1], job.hold("mount", number)


def mount_opened(job, number):
    text = (yield from call("MountInfo"))[1]
    path = mount_root(text, number, job.plan.config.mountinfo_prefix)
    if path is None or b"\0" in path:
        raise Stop(EINVAL)
    point, point_hold = yield from open_call(job, "OpenRoot", path, O_PATH)
    told = yield from call("Stat", point)
    if told[1][2] != number or not is_opened(told[2]):
        raise Stop(EIO)
    fd, hold = yield from open_call(job, "Reopen", point, O_CLOEXEC)
    yield from give(job, point_hold)
    reply = yield from event("MountInsert", number, fd)
    holder = job.hold("mount", number)
    if reply[2] == 1:
        job.holds.remove(hold)
    else:
        yield from give(job, hold)
    return reply[1], holder


def mount_root(text, number, prefix):
    """The path of a mount in a list of mounts (proc_pid_mountinfo(5)), below a prefix where one is given."""
    for line in text.split(b"\n"):
        columns = line.split(b" ")
        if len(columns) > 4 and columns[0] == str(number).encode():
            path = columns[4]
            if prefix is None:
                return path
            rest = path[len(prefix):] if path.startswith(prefix) else b""
            return rest or b"/"
    return None


def check_root(job):
    """Whether handles can be opened on what is shared: the steps by which a new file system tries it out."""
    fd, _ = yield from open_call(job, "OpenRoot", job.plan.config.root_dir, PATH_ONLY)
    told = yield from call("Stat", fd)
    handle = yield from handle_of(job, fd, told[1])
    if handle is None:
        return False
    mount_fd, _ = yield from mount_of(job, handle.value[0])
    reply = yield from reply_of("OpenByHandle", mount_fd, handle.value[1:], O_PATH)
    if reply[0] == "Ok":
        job.hold("fd", reply[1][1])
        return True
    if job.plan.handles == "prefer":
        return False
    raise Stop(reply[1])

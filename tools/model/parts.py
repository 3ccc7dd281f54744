"""Parts that several requests have: openings, lookups, names of attributes, who asks (virtiofsd's passthrough/mod.rs,
credentials.rs)."""
from .job import Stop, bracket, call, changed, event, open_call, reply_of, scoped
from .linux import (ACCESS_MODE, DAC_OVERRIDE, DIRECTORY, EBADF, EINVAL, ENODATA, ENOSYS, ENOTSUP, FSETID,
                    GREATEST_SIGNED, KIND, O_APPEND, O_CLOEXEC, O_DIRECT, O_NOATIME, O_NOFOLLOW, O_PATH, O_RDWR,
                    O_TRUNC, O_WRONLY, PATH_ONLY, is_opened)
from .by_handle import handle_of, mount_of, open_by_handle
from .maps import Forbidden

ACL_NAMES = (b"system.posix_acl_access", b"system.posix_acl_default")
SUBMOUNT = 1
DIRECT_IO, KEEP_CACHE, CACHE_DIR = 1, 2, 8


class Resolved:
    """The row of a number: its serial, its form, its object's ids and mode."""

    def __init__(self, reply):
        _, self.serial, self.form, self.ids, self.mode, *self.of_class = reply


# checks


def check_name(name):
    if name in (b"", b".", b"..") or b"/" in name or b"\0" in name:
        raise Stop(EINVAL)


def check_nul(name):
    if b"\0" in name:
        raise Stop(EINVAL)


def check_places(*numbers):
    if any(number > GREATEST_SIGNED for number in numbers):
        raise Stop(EINVAL)


def check_xattr(job):
    if not job.plan.config.xattr:
        raise Stop(ENOSYS)


# rows and their files


def resolve(job, number):
    reply = yield from event("Resolve", number)
    job.hold("pin", reply[1])
    return Resolved(reply)


def file_of(job, row):
    """The descriptor of a row that is kept open; one that is kept by its handle is opened, path-only."""
    if row.form[0] == "File":
        return row.form[1]
    return (yield from open_by_handle(job, row.form, O_PATH))[0]


def pin_handle(job, handle, number):
    reply = yield from event("PinHandle", handle, number)
    job.hold("handle pin", reply[1])
    return reply[2]


def opened(job, row, flags):
    """The object of a row, opened anew."""
    if not is_opened(row.mode):
        raise Stop(EBADF)
    if row.form[0] == "Handle":
        return (yield from open_by_handle(job, row.form, flags))
    return (yield from open_call(job, "Reopen", row.form[1], flags & ~O_NOFOLLOW))


def open_inode(job, number, flags):
    """An opening for a guest, whose kernel may read what it caches; the row, the descriptor and its hold."""
    row = yield from resolve(job, number)
    if job.has_writeback:
        if flags & ACCESS_MODE == O_WRONLY:
            flags = flags & ~ACCESS_MODE | O_RDWR
        flags &= ~O_APPEND
    if not job.plan.config.allow_direct_io:
        flags &= ~O_DIRECT
    fd, hold = yield from opened(job, row, flags | O_CLOEXEC)
    return row, fd, hold


def take_slot(job, hold, of_class=()):
    """A slot for a descriptor that the guest is to keep."""
    yield from event("TakeFd", *of_class)
    hold.kind, hold.fields = "slotted fd", (hold.fields[0], *of_class)


def kept(job, hold):
    """What a table took is no hold any more."""
    job.holds.remove(hold)


# entries


def attributes(job, told, flags=0):
    """The attributes of a Stat, with the guest's ids."""
    _, ids, mode, links, uid, gid, rdev, size, block, blocks, accessed, modified, changed_at = told
    return (ids[0], size, blocks, accessed, modified, changed_at, mode, links, job.plan.uids.map_host(uid),
            job.plan.gids.map_host(gid), rdev, block, flags)


def entry(job, number, told, parent_ids):
    ids, mode = told[1], told[2]
    is_mount = job.has_submounts and mode & KIND == DIRECTORY and ids[1:] != parent_ids[1:]
    config = job.plan.config
    return (number, 0, attributes(job, told, SUBMOUNT if is_mount else 0), config.attr_timeout, config.entry_timeout)


def look_up(job, parent, name):
    """The entry of a name and the ids of its object."""
    return (yield from bracket(job, looked_up(job, parent, name)))


def looked_up(job, parent, name):
    row = yield from resolve(job, parent)
    directory = yield from file_of(job, row)
    fd, hold = yield from open_call(job, "OpenAt", directory, name, PATH_ONLY, 0)
    told = yield from call("Stat", fd)
    ids, mode = told[1], told[2]
    handle = yield from handle_of(job, fd, ids)
    reply = yield from event("Claim", job.era, handle, ids)
    job.found_class = reply[2:]
    if reply[0] == "Absent":
        of_class = class_of(job, parent, name, row)
        form, hold = yield from form_of(job, fd, hold, handle, of_class)
        number = (yield from event("DrawNode"))[1]
        reply = yield from event("Insert", job.era, number, form, ids, mode, *of_class)
        job.found_class = of_class if reply[0] == "Inserted" else reply[2:]
        if reply[0] == "Inserted":
            kept(job, hold)
    number = reply[1]
    job.entry = job.hold("count", job.era, number)
    return entry(job, number, told, row.ids), ids


def form_of(job, fd, hold, handle, of_class=()):
    """How an object's row is kept, and what it takes: a mount's holder, or a descriptor with a slot."""
    if handle is not None:
        mount_fd, hold = yield from mount_of(job, handle.value[0])
        return ("Handle", handle.value, mount_fd), hold
    yield from take_slot(job, hold, of_class)
    return ("File", fd), hold


def class_of(job, parent, name, row):
    """The class of a new number: that of a named child of the root, else its parent's."""
    if parent == 1:
        for place, (class_name, _) in enumerate(job.plan.config.classes, 1):
            if class_name == name:
                return (("class", place),)
    return tuple(row.of_class)


def open_root(job, options):
    """The root of what is shared, as number 1."""
    fd, hold = yield from open_call(job, "OpenRoot", job.plan.config.root_dir, PATH_ONLY)
    told = yield from call("Stat", fd)
    handle = yield from handle_of(job, fd, told[1])
    form, taken = yield from form_of(job, fd, hold, handle)
    yield from event("InsertRoot", job.era, form, told[1], told[2], options)
    kept(job, taken)


# openings that the guest keeps


def open_options(job, is_directory):
    """How the guest's kernel may cache (FOPEN_ flags of fuse.h)."""
    policy = job.plan.config.cache_policy
    if policy == "never":
        return 0 if is_directory else DIRECT_IO
    if policy == "metadata":
        return CACHE_DIR | KEEP_CACHE if is_directory else DIRECT_IO
    if policy == "always":
        return KEEP_CACHE | CACHE_DIR if is_directory else KEEP_CACHE
    return 0


def create_options(job):
    return {"never": DIRECT_IO, "metadata": DIRECT_IO, "always": KEEP_CACHE, "auto": 0}[job.plan.config.cache_policy]


def open_number(job, number, kill, flags):
    """The handle of an opening."""
    return (yield from bracket(job, number_opened(job, number, kill, flags)))


def number_opened(job, number, kill, flags):
    flags &= ~O_APPEND
    if job.plan.config.clean_noatime:
        flags &= ~O_NOATIME
    row, fd, hold = yield from without_fsetid(job, kill, open_inode(job, number, flags))
    if flags & O_TRUNC:
        yield from clear_capability(job, fd, False)
    return (yield from new_handle(job, number, fd, hold, row.of_class))


def new_handle(job, number, fd, hold, of_class):
    handle = (yield from event("DrawHandle"))[1]
    yield from take_slot(job, hold, of_class)
    yield from event("InsertHandle", job.era, handle, number, fd, *of_class)
    kept(job, hold)
    return handle


# scopes of the seat


def without_fsetid(job, kill, body):
    """A part without CAP_FSETID where set-id bits are to be cleared (fuse.h, FUSE_HANDLE_KILLPRIV_V2)."""
    def scope():
        if job.plan.config.killpriv_v2 and kill and job.seat.has(FSETID):
            yield from changed(job, ("DropCap", FSETID), ("RaiseCap", FSETID))
        return (yield from body)
    return scoped(job, scope())


def as_asker(job, group, mask, act):
    """A making call under the ids, the group and the mask of who asks; its reply."""
    plan, (uid, gid) = job.plan, job.asker
    try:
        uid, gid = plan.uids.map_guest(uid), plan.gids.map_guest(gid)
        if group is not None:
            group = plan.gids.map_guest(group)
    except Forbidden as forbidden:
        raise Stop(forbidden.errno) from None
    return (yield from scoped(job, asked(job, uid, gid, group, mask, act)))


def asked(job, uid, gid, group, mask, act):
    seat = job.seat
    if group is not None:
        yield from changed(job, ("SetGroups", [group]), ("SetGroups", list(seat.groups)))
    if gid not in (0, seat.gid):
        yield from changed(job, ("SetEgid", gid), ("SetEgid", seat.gid))
    if uid not in (0, seat.uid):
        yield from changed(job, ("SetEuid", uid), ("SetEuid", seat.uid))
        if not job.has_groups:
            yield from reply_of("RaiseCap", DAC_OVERRIDE)
    if mask is not None and job.has_acls:
        yield from changed_mask(job, mask)
    reply = yield from reply_of(*act)
    if reply[0] == "Ok" and act[0] == "OpenAt":
        job.hold("fd", reply[1][1])
    return reply


def changed_mask(job, mask):
    old = yield from call("SetUmask", mask)
    job.restoring.append(("SetUmask", old[1]))


# names of extended attributes


def xattr_name(job, name):
    """The host's name of an attribute."""
    if not job.has_acls and is_blocked(name):
        raise Stop(ENOTSUP)
    if job.plan.xattrs is None:
        return name
    try:
        return job.plan.xattrs.map_client(name)
    except Forbidden as forbidden:
        raise Stop(forbidden.errno) from None


def is_blocked(name):
    return any(whole.startswith(name) for whole in ACL_NAMES)


def clear_capability(job, fd, through):
    """What is written loses its capabilities where their attribute has another name on the host."""
    name = job.plan.capability_name
    if name is None:
        return
    reply = yield from reply_of("RemoveXattr", fd, through, name)
    if reply[0] != "Ok" and reply[1] not in (ENODATA, ENOTSUP):
        raise Stop(reply[1])

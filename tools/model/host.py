"""The host over the tree in memory: each call by its manual page, with planned faults and a clock of calls."""
from .linux import (ACCESS_MODE, BLOCK, CHARACTER, CHOWN, DAC_READ_SEARCH, DIRECTORY, E2BIG, EACCES, EBADF, EBUSY,
                    EEXIST, EFBIG, EINVAL, EISDIR, ELOOP, ENAMETOOLONG, ENODATA, ENOENT, ENOTDIR, ENOTEMPTY,
                    ENOTSUP, ENXIO, EOVERFLOW, EPERM, ERANGE, ESTALE, EXDEV, FIFO, FILE_LIMIT, FOWNER,
                    GREATEST_SIGNED, KIND, LINK, MKNOD, NAME_LIMIT, NO_ID, O_CREAT, O_DIRECTORY, O_EXCL, O_PATH,
                    O_RDWR, O_TMPFILE, O_TRUNC, O_WRONLY, PERMISSIONS, REGULAR, SOCKET, TARGET_LIMIT, VALUE_LIMIT)
from .seat import Refused
from .tree import EDITS, EXCHANGE, judge_move

READ, WRITE, SEARCH = 4, 2, 1


class Descriptor:
    """An open description of an object (open(2))."""

    def __init__(self, node, path_only, reads, writes):
        self.node, self.path_only, self.reads, self.writes = node, path_only, reads, writes
        self.position = 0


class Host:
    """Answers calls over a tree; descriptors are the least free numbers from 3 on."""

    def __init__(self, tree, faults):
        self.tree = tree
        self.faults = dict(faults)
        self.calls = 0
        self.open = {}

    def call(self, seat, name, *fields):
        """The reply of one call, Ok with a value, Refused or Fault with an errno."""
        self.tree.time = self.calls
        self.calls += 1
        fault = self.faults.get(self.calls)
        if fault is not None and name != "SetUmask":
            if name == "Close" and fields[0] in self.open:
                self.shut(fields[0])
            if name == "RemoveXattr" and fault in (ENODATA, ENOTSUP):
                fault = 5
            if name == "HandleOf" and fault in (EOVERFLOW, ENOTSUP):
                fault = 5
            return ("Fault", fault)
        try:
            value = CALLS[name](self, seat, *fields)
        except Refused as refused:
            return ("Refused", refused.errno)
        return ("Ok", "Unit" if value is None else value)

    # descriptors

    def at(self, fd):
        if fd not in self.open:
            raise Refused(EBADF)
        return self.open[fd]

    def acting(self, fd):
        """A descriptor that is not path-only."""
        described = self.at(fd)
        if described.path_only:
            raise Refused(EBADF)
        return described

    def reached(self, fd, through):
        """The object of a descriptor that is open, or that is reached through its link (proc_pid_fd(5))."""
        return self.at(fd).node if through else self.acting(fd).node

    def new_fd(self, node, path_only, reads=False, writes=False):
        fd = 3
        while fd in self.open:
            fd += 1
        self.open[fd] = Descriptor(node, path_only, reads, writes)
        node.opens += 1
        return ("Fd", fd)

    def shut(self, fd):
        node = self.open.pop(fd).node
        node.opens -= 1
        self.tree.reap(node)

    def opened(self, seat, node, flags):
        """open(2) of an object that is there."""
        kind, mode = node.kind, flags & ACCESS_MODE
        if flags & O_TMPFILE == O_TMPFILE and not flags & O_PATH:
            raise Refused(ENOTSUP)
        if flags & O_PATH:
            if flags & O_DIRECTORY and kind != DIRECTORY:
                raise Refused(ENOTDIR)
            return self.new_fd(node, True)
        if mode == ACCESS_MODE:
            raise Refused(EINVAL)
        if kind == LINK:
            raise Refused(ELOOP)
        if flags & O_DIRECTORY and kind != DIRECTORY:
            raise Refused(ENOTDIR)
        if kind == DIRECTORY and (mode != 0 or flags & O_TRUNC):
            raise Refused(EISDIR)
        if kind not in (REGULAR, DIRECTORY):
            raise Refused(ENXIO)
        reads, writes = mode != O_WRONLY, mode in (O_WRONLY, O_RDWR)
        if not seat.may(node, (READ if reads else 0) | (WRITE if writes else 0)):
            raise Refused(EACCES)
        if flags & O_TRUNC and kind == REGULAR:
            self.tree.truncate(node, 0, seat)
        return self.new_fd(node, False, reads, writes)

    # names

    def folder(self, seat, fd, name):
        """The directory of a call on a descriptor and a name."""
        return self.searched(seat, self.at(fd).node, name)

    def searched(self, seat, node, name):
        if not node.is_directory:
            raise Refused(ENOTDIR)
        if len(name) > NAME_LIMIT:
            raise Refused(ENAMETOOLONG)
        if not seat.may(node, SEARCH):
            raise Refused(EACCES)
        return node

    def make_room(self, seat, directory, name):
        """What each making call asks: a free name and permission to write."""
        if name in directory.children:
            raise Refused(EEXIST)
        if not seat.may(directory, WRITE):
            raise Refused(EACCES)

    def made(self, seat, directory, name, mode, data=b""):
        """A new object under a name, of the caller's ids and without the umask's bits."""
        kind = mode & KIND
        permissions = mode & PERMISSIONS
        if kind != LINK:
            permissions &= ~seat.umask
        node = self.tree.make(directory.mount, kind | permissions, seat.uid, seat.gid, data)
        self.tree.put(directory, name, node)
        return node

    def taken_from(self, seat, directory, name):
        if name not in directory.children:
            raise Refused(ENOENT)
        if not seat.may(directory, WRITE):
            raise Refused(EACCES)
        return directory.children[name]

    def read_at(self, node):
        node.accessed = (self.tree.time, 0)


# opening and closing: open(2), close(2)


def open_root(host, seat, path, flags):
    return host.opened(seat, host.tree.walk(path), flags)


def open_at(host, seat, fd, name, flags, mode):
    directory = host.folder(seat, fd, name)
    node = directory.children.get(name)
    if not flags & O_CREAT:
        if node is None:
            raise Refused(ENOENT)
        return host.opened(seat, node, flags)
    if flags & (O_PATH | O_DIRECTORY):
        raise Refused(EINVAL)
    if node is not None:
        if flags & O_EXCL:
            raise Refused(EEXIST)
        return host.opened(seat, node, flags)
    host.make_room(seat, directory, name)
    access = flags & ACCESS_MODE
    if access == ACCESS_MODE:
        raise Refused(EINVAL)
    node = host.made(seat, directory, name, REGULAR | mode & PERMISSIONS)
    return host.new_fd(node, False, access != O_WRONLY, access != 0)


def reopen(host, seat, fd, flags):
    node = host.at(fd).node
    if flags & O_CREAT and flags & O_EXCL:
        raise Refused(EEXIST)
    return host.opened(seat, node, flags)


def close(host, seat, fd):
    host.at(fd)
    host.shut(fd)


# what an object is: stat(2), statvfs(3), readlink(2)


def stat(host, seat, fd):
    return host.at(fd).node.stat()


def stat_fs(host, seat, fd):
    files = host.tree.living(host.at(fd).node.mount)
    return ("FsStat", 0, 0, 0, files, 0, 4096, 255, 4096)


def read_link(host, seat, fd):
    node = host.at(fd).node
    if node.kind != LINK:
        raise Refused(EINVAL)
    host.read_at(node)
    return ("Bytes", bytes(node.data))


# making and unmaking names: mkdir(2), mknod(2), link(2), symlink(2), unlink(2), rmdir(2), rename(2)


def make_dir(host, seat, fd, name, mode):
    directory = host.folder(seat, fd, name)
    host.make_room(seat, directory, name)
    host.made(seat, directory, name, DIRECTORY | mode & PERMISSIONS)


def make_node(host, seat, fd, name, mode, rdev):
    directory = host.folder(seat, fd, name)
    host.make_room(seat, directory, name)
    kind = mode & KIND or REGULAR
    if kind in (CHARACTER, BLOCK) and not seat.has(MKNOD):
        raise Refused(EPERM)
    if kind not in (CHARACTER, BLOCK, REGULAR, FIFO, SOCKET):
        raise Refused(EINVAL)
    host.made(seat, directory, name, kind | mode & PERMISSIONS).rdev = rdev


def make_link(host, seat, source, fd, name):
    node = host.at(source).node
    directory = host.folder(seat, fd, name)
    if node.is_directory:
        raise Refused(EPERM)
    if node.mount is not directory.mount:
        raise Refused(EXDEV)
    if node.links == 0:
        raise Refused(ENOENT)
    host.make_room(seat, directory, name)
    host.tree.put(directory, name, node)
    node.changed = (host.tree.time, 0)


def sym_link(host, seat, fd, name, target):
    directory = host.folder(seat, fd, name)
    if not target:
        raise Refused(ENOENT)
    if len(target) > TARGET_LIMIT:
        raise Refused(ENAMETOOLONG)
    host.make_room(seat, directory, name)
    host.made(seat, directory, name, LINK | 0o777, target)


def unlink(host, seat, fd, name):
    directory = host.folder(seat, fd, name)
    if host.taken_from(seat, directory, name).is_directory:
        raise Refused(EISDIR)
    host.tree.take(directory, name)


def remove_dir(host, seat, fd, name):
    directory = host.folder(seat, fd, name)
    node = host.taken_from(seat, directory, name)
    if not node.is_directory:
        raise Refused(ENOTDIR)
    if node.is_mount_root:
        raise Refused(EBUSY)
    if node.children:
        raise Refused(ENOTEMPTY)
    host.tree.take(directory, name)


def rename(host, seat, fd, name, new_fd, new_name, flags):
    node, new_node = host.at(fd).node, host.at(new_fd).node
    old = host.searched(seat, node, name)
    new = host.searched(seat, new_node, new_name)
    if flags > EXCHANGE:
        raise Refused(EINVAL)
    if name not in old.children:
        raise Refused(ENOENT)
    if not (seat.may(old, WRITE) and seat.may(new, WRITE)):
        raise Refused(EACCES)
    judge_move(old, name, new, new_name, flags)
    if flags == EXCHANGE:
        host.tree.exchange(old, name, new, new_name)
    else:
        host.tree.move(old, name, new, new_name)


# contents: pread(2), pwrite(2), ftruncate(2), fallocate(2), lseek(2), copy_file_range(2), fsync(2)


def reading(host, fd):
    described = host.acting(fd)
    if not described.reads:
        raise Refused(EBADF)
    return described.node


def writing(host, fd):
    described = host.acting(fd)
    if not described.writes:
        raise Refused(EBADF)
    return described.node


def fits(end):
    if end > FILE_LIMIT:
        raise Refused(EFBIG)


def read_at(host, seat, fd, offset, size):
    node = reading(host, fd)
    if node.is_directory:
        raise Refused(EISDIR)
    host.read_at(node)
    return ("Bytes", bytes(node.data[offset:offset + size]))


def write_at(host, seat, fd, offset, data, append):
    node = writing(host, fd)
    if append:
        offset = len(node.data)
    fits(offset + len(data))
    if data:
        host.tree.write(node, offset, data)
        host.tree.clear_set_ids(node, seat)
    return ("Count", len(data))


def truncate(host, seat, fd, size):
    described = host.acting(fd)
    if not described.writes:
        raise Refused(EINVAL)
    fits(size)
    host.tree.truncate(described.node, size, seat)


def allocate(host, seat, fd, mode, offset, length):
    node = writing(host, fd)
    fits(offset + length)
    if length == 0:
        raise Refused(EINVAL)
    if mode not in (0, 1):
        raise Refused(ENOTSUP)
    if mode == 0 and offset + length > len(node.data):
        host.tree.write(node, offset + length, b"")


def seek(host, seat, fd, offset, whence):
    described = host.acting(fd)
    if described.node.is_directory:
        raise Refused(EINVAL)
    size = len(described.node.data)
    if whence in (3, 4):
        if not 0 <= offset < size:
            raise Refused(ENXIO)
        described.position = offset if whence == 3 else size
        return ("Count", described.position)
    if whence not in (0, 1, 2):
        raise Refused(EINVAL)
    place = (0, described.position, size)[whence] + offset
    if place < 0:
        raise Refused(EINVAL)
    if place > GREATEST_SIGNED:
        raise Refused(EOVERFLOW)
    described.position = place
    return ("Count", place)


def copy_range(host, seat, fd, offset, new_fd, new_offset, length, flags):
    host.at(fd), host.at(new_fd)
    if flags:
        raise Refused(EINVAL)
    source, target = reading(host, fd), writing(host, new_fd)
    if source.is_directory:
        raise Refused(EISDIR)
    data = bytes(source.data[offset:offset + length])
    if source is target and offset < new_offset + len(data) and new_offset < offset + len(data):
        raise Refused(EINVAL)
    if data:
        fits(new_offset + len(data))
    host.read_at(source)
    if data:
        host.tree.write(target, new_offset, data)
        host.tree.clear_set_ids(target, seat)
    return ("Count", len(data))


def flush(host, seat, fd):
    host.at(fd)


def sync(host, seat, fd, datasync=False):
    host.acting(fd)


# listings: getdents64(2)


def record(node, place, name):
    """One record: inode number, offset, length, type, name and zeros to a multiple of 8."""
    length = (19 + len(name) + 1 + 7) // 8 * 8
    head = (node.inode.to_bytes(8, "little") + (place + 1).to_bytes(8, "little") + length.to_bytes(2, "little")
            + bytes([node.mode >> 12]))
    return (head + name).ljust(length, b"\0")


def list_at(host, seat, fd, offset, size):
    described = host.acting(fd)
    node = described.node
    if not node.is_directory:
        raise Refused(ENOTDIR)
    start = described.position if offset is None else offset.value
    listed = bytearray()
    place = start
    names = sorted(node.children)
    while place < len(names):
        one = record(node.children[names[place]], place, names[place])
        if len(listed) + len(one) > size:
            break
        listed += one
        place += 1
    if place < len(names) and place == start:
        raise Refused(EINVAL)
    described.position = place
    host.read_at(node)
    return ("Bytes", bytes(listed))


# attributes: chmod(2), chown(2), utimensat(2), setxattr(2), getxattr(2), listxattr(2), removexattr(2)


def owned(seat, node):
    if seat.uid != node.uid and not seat.has(FOWNER):
        raise Refused(EPERM)


def ch_mod(host, seat, fd, through, mode):
    node = host.reached(fd, through)
    if node.kind == LINK:
        raise Refused(ENOTSUP)
    owned(seat, node)
    node.mode = node.kind | mode & PERMISSIONS
    node.changed = (host.tree.time, 0)


def ch_own(host, seat, fd, uid, gid):
    node = host.at(fd).node
    if not seat.has(CHOWN):
        raise Refused(EPERM)
    node.uid = node.uid if uid == NO_ID else uid
    node.gid = node.gid if gid == NO_ID else gid
    node.changed = (host.tree.time, 0)


def set_times(host, seat, fd, through, accessed, modified):
    node = host.reached(fd, through)
    for time in (accessed, modified):
        if time[0] == "At" and time[2] > 999999999:
            raise Refused(EINVAL)
    owned(seat, node)
    now = (host.tree.time, 0)
    if accessed[0] != "Omit":
        node.accessed = now if accessed[0] == "Now" else accessed[1:]
    if modified[0] != "Omit":
        node.modified = now if modified[0] == "Now" else modified[1:]
    node.changed = now


def set_xattr(host, seat, fd, through, name, value, flags):
    node = host.reached(fd, through)
    if not 1 <= len(name) <= NAME_LIMIT:
        raise Refused(ERANGE)
    if len(value) > VALUE_LIMIT:
        raise Refused(E2BIG)
    if flags > 2:
        raise Refused(EINVAL)
    if flags == 1 and name in node.xattrs:
        raise Refused(EEXIST)
    if flags == 2 and name not in node.xattrs:
        raise Refused(ENODATA)
    node.xattrs[name] = value
    node.changed = (host.tree.time, 0)


def told(value, size):
    """What an xattr call tells: the length for size 0, else the bytes where they fit."""
    if size == 0:
        return ("Count", len(value))
    if len(value) > size:
        raise Refused(ERANGE)
    return ("Bytes", value)


def get_xattr(host, seat, fd, through, name, size):
    node = host.reached(fd, through)
    if name not in node.xattrs:
        raise Refused(ENODATA)
    return told(node.xattrs[name], size)


def list_xattr(host, seat, fd, through, size):
    node = host.reached(fd, through)
    return told(b"".join(name + b"\0" for name in sorted(node.xattrs)), size)


def remove_xattr(host, seat, fd, through, name):
    node = host.reached(fd, through)
    if name not in node.xattrs:
        raise Refused(ENODATA)
    del node.xattrs[name]
    node.changed = (host.tree.time, 0)


def edit(host, seat, change):
    EDITS[change[0]](host.tree, *change[1:])


# file handles and mounts: open_by_handle_at(2), proc_pid_mountinfo(5)


def handle_of(host, seat, fd):
    node = host.at(fd).node
    if not node.mount.has_handles:
        raise Refused(ENOTSUP)
    return ("Handle", node.mount.number, *node.handle())


def open_by_handle(host, seat, fd, handle, flags):
    mount = host.acting(fd).node.mount
    if not seat.has(DAC_READ_SEARCH):
        raise Refused(EPERM)
    node = host.tree.living_nodes.get(int.from_bytes(handle[1][8:], "little"))
    if node is None or node.mount is not mount or node.handle() != handle or not mount.has_handles:
        raise Refused(ESTALE)
    return host.opened(seat, node, flags)


def mount_info(host, seat):
    lines = []
    for mount in sorted(host.tree.mounts, key=lambda mount: mount.number):
        above = mount.above.number if mount.above else 0
        lines.append(b"%d %d 0:%d / %s rw\n" % (mount.number, above, mount.device, mount.path))
    return ("Bytes", b"".join(lines))


CALLS = {
    "HandleOf": handle_of, "OpenByHandle": open_by_handle, "MountInfo": mount_info,
    "OpenRoot": open_root, "OpenAt": open_at, "Reopen": reopen, "Close": close,
    "Stat": stat, "StatFs": stat_fs, "ReadLink": read_link, "MakeDir": make_dir, "MakeNode": make_node,
    "MakeLink": make_link, "SymLink": sym_link, "Unlink": unlink, "RemoveDir": remove_dir, "Rename": rename,
    "ReadAt": read_at, "WriteAt": write_at, "Truncate": truncate, "Allocate": allocate, "Seek": seek,
    "CopyRange": copy_range, "ListAt": list_at, "Flush": flush, "Sync": sync, "SyncFs": sync, "ChMod": ch_mod,
    "ChOwn": ch_own, "SetTimes": set_times, "SetXattr": set_xattr, "GetXattr": get_xattr, "ListXattr": list_xattr,
    "RemoveXattr": remove_xattr, "Edit": edit,
    "SetGroups": lambda host, seat, groups: seat.set_groups(groups),
    "SetEgid": lambda host, seat, gid: seat.set_gid(gid),
    "SetEuid": lambda host, seat, uid: seat.set_uid(uid),
    "RaiseCap": lambda host, seat, caps: seat.raise_caps(caps),
    "DropCap": lambda host, seat, caps: seat.drop_caps(caps),
    "SetUmask": lambda host, seat, mask: ("Count", seat.set_umask(mask)),
}

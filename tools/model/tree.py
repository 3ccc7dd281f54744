"""The tree in memory: objects, names, mounts, inode numbers, times (inode(7), mount_namespaces(7))."""
from .linux import (DIRECTORY, EBUSY, EEXIST, EFBIG, EINVAL, EISDIR, ELOOP, ENAMETOOLONG, ENOENT, ENOTDIR,
                    ENOTEMPTY, ENXIO, EXDEV, FILE_LIMIT, FSETID, GROUP_EXECUTE, KIND, LINK, NAME_LIMIT, PERMISSIONS,
                    REGULAR, SET_GROUP_ID, SET_USER_ID)
from .seat import Refused
from .text import write_bytes


class Mount:
    """A mount with the device of its own that it shows."""

    def __init__(self, number, device, path, has_handles):
        self.number = number
        self.device = device
        self.path = path
        self.has_handles = has_handles
        self.above = None
        self.taken = set()
        self.least_free = 1

    def take_number(self):
        """The least inode number that no living object of the device has."""
        number = self.least_free
        while number in self.taken:
            number += 1
        self.taken.add(number)
        self.least_free = number + 1
        return number

    def give_number(self, number):
        self.taken.discard(number)
        self.least_free = min(self.least_free, number)


class Node:
    """An object of the tree."""

    def __init__(self, serial, mount, mode, uid, gid, time):
        self.serial, self.mount = serial, mount
        self.inode = mount.take_number()
        self.mode, self.uid, self.gid, self.rdev = mode, uid, gid, 0
        self.data = bytearray()
        self.children = {}
        self.parent = None
        self.xattrs = {}
        self.links = 0
        self.opens = 0
        self.is_mount_root = False
        self.accessed = self.modified = self.changed = (time, 0)

    @property
    def kind(self):
        return self.mode & KIND

    @property
    def is_directory(self):
        return self.mode & KIND == DIRECTORY

    @property
    def ids(self):
        return (self.inode, self.mount.device, self.mount.number)

    def handle(self):
        """Type and bytes of the file handle: inode number and serial."""
        return (1, self.inode.to_bytes(8, "little") + self.serial.to_bytes(8, "little"))

    def link_count(self):
        if self.is_directory:
            return 2 + sum(1 for child in self.children.values() if child.is_directory)
        return self.links

    def stat(self):
        """stat(2), with the number of the mount (statx(2))."""
        size = len(self.data)
        return ("Stat", self.ids, self.mode, self.link_count(), self.uid, self.gid, self.rdev, size, 4096,
                (size + 511) // 512, self.accessed, self.modified, self.changed)

    def holds(self, other):
        """Whether a directory is another one or stands above it."""
        while other is not None:
            if other is self:
                return True
            other = other.parent
        return False


class Tree:
    """All objects; its clock is set by who answers the calls."""

    def __init__(self):
        self.root = None
        self.mounts = []
        self.living_nodes = {}
        self.next_serial = 1
        self.time = 0

    def make(self, mount, mode, uid, gid, data=b""):
        node = Node(self.next_serial, mount, mode, uid, gid, self.time)
        self.next_serial += 1
        node.data = bytearray(data)
        self.living_nodes[node.serial] = node
        return node

    def living(self, mount):
        return len(mount.taken)

    # names

    def put(self, directory, name, node):
        """A name for an object; the directory's times are set."""
        directory.children[name] = node
        node.links += 1
        if node.is_directory:
            node.parent = directory
        self.touch(directory)

    def take(self, directory, name):
        """Takes a name away, and the object where that was its last hold."""
        node = directory.children.pop(name)
        node.links -= 1
        if node.is_directory:
            node.parent = None
        self.touch(directory)
        node.changed = (self.time, 0)
        self.reap(node)

    def reap(self, node):
        if node.links == 0 and node.opens == 0 and node is not self.root:
            node.mount.give_number(node.inode)
            del self.living_nodes[node.serial]

    def touch(self, node):
        node.modified = node.changed = (self.time, 0)

    # contents

    def clear_set_ids(self, node, seat):
        """Who lacks CAP_FSETID loses the set-id bits of what he writes (chmod(2), capabilities(7))."""
        if seat.has(FSETID):
            return
        node.mode &= ~SET_USER_ID
        if node.mode & GROUP_EXECUTE:
            node.mode &= ~SET_GROUP_ID

    def truncate(self, node, size, seat):
        """truncate(2)."""
        del node.data[size:]
        node.data.extend(bytes(size - len(node.data)))
        self.touch(node)
        self.clear_set_ids(node, seat)

    def write(self, node, offset, data):
        """pwrite(2); what lies between the end and the offset is zeros."""
        node.data.extend(bytes(max(0, offset - len(node.data))))
        node.data[offset:offset + len(data)] = data
        self.touch(node)

    # moves

    def move(self, old, name, new, new_name):
        """rename(2): the new name is given to the object and the old one taken away."""
        node, there = old.children[name], new.children.get(new_name)
        if node is there:
            return
        if there is not None:
            self.take(new, new_name)
        del old.children[name]
        new.children[new_name] = node
        if node.is_directory:
            node.parent = new
        self.touch(old)
        self.touch(new)
        node.changed = (self.time, 0)

    def exchange(self, old, name, new, new_name):
        """renameat2(2) with RENAME_EXCHANGE."""
        node, there = old.children[name], new.children[new_name]
        if node is there:
            return
        old.children[name], new.children[new_name] = there, node
        for moved, directory in ((node, new), (there, old)):
            moved.changed = (self.time, 0)
            if moved.is_directory:
                moved.parent = directory
        self.touch(old)
        self.touch(new)

    # paths

    def walk(self, path):
        """The object of an absolute path; links are not followed."""
        if path[:1] != b"/":
            raise Refused(ENOENT)
        return self.walk_from(self.root, path)

    def walk_from(self, node, path):
        for name in path.split(b"/"):
            if not name:
                continue
            if not node.is_directory:
                raise Refused(ENOTDIR)
            if name not in node.children:
                raise Refused(ENOENT)
            node = node.children[name]
        return node

    def place_of(self, path):
        """The directory and the last name of a path, None and None for the root."""
        names = [name for name in path.split(b"/") if name]
        if path[:1] != b"/":
            raise Refused(ENOENT)
        if not names:
            return None, None
        directory = self.walk_from(self.root, b"/".join(names[:-1]))
        if not directory.is_directory:
            raise Refused(ENOTDIR)
        if len(names[-1]) > NAME_LIMIT:
            raise Refused(ENAMETOOLONG)
        if names[-1] in (b".", b"..") or b"\0" in names[-1]:
            raise Refused(EINVAL)
        return directory, names[-1]

    def listing(self):
        """The lines of all names from the root on, depth first in the order of their bytes."""
        lines, waiting = [], [(b"/", self.root)]
        while waiting:
            path, node = waiting.pop()
            shown = write_bytes(path)
            lines.append(f"obj {shown} {node.inode} {node.mount.device} {node.mount.number} {node.mode} "
                         f"{node.link_count()} {node.uid} {node.gid} {node.rdev} {write_bytes(node.data)}")
            for name in sorted(node.xattrs):
                lines.append(f"xattr {shown} {write_bytes(name)} {write_bytes(node.xattrs[name])}")
            above = b"" if path == b"/" else path
            for name in sorted(node.children, reverse=True):
                waiting.append((above + b"/" + name, node.children[name]))
        return lines


# edits: changes from outside, without permissions


def edit_unlink(tree, path):
    directory, name = tree.place_of(path)
    if name is None:
        raise Refused(EBUSY)
    if name not in directory.children:
        raise Refused(ENOENT)
    node = directory.children[name]
    if node.is_mount_root:
        raise Refused(EBUSY)
    if node.children:
        raise Refused(ENOTEMPTY)
    tree.take(directory, name)


def edit_rename(tree, old_path, new_path):
    old, name = tree.place_of(old_path)
    new, new_name = tree.place_of(new_path)
    if name is None or new_name is None:
        raise Refused(EBUSY)
    if name not in old.children:
        raise Refused(ENOENT)
    judge_move(old, name, new, new_name, 0)
    tree.move(old, name, new, new_name)


def edit_file(tree, path, mode, uid, gid, data):
    directory, name = tree.place_of(path)
    if name is None or name in directory.children:
        raise Refused(EEXIST)
    if len(data) > FILE_LIMIT:
        raise Refused(EFBIG)
    tree.put(directory, name, tree.make(directory.mount, REGULAR | mode & PERMISSIONS, uid, gid, data))


def edit_dir(tree, path, mode, uid, gid):
    directory, name = tree.place_of(path)
    if name is None or name in directory.children:
        raise Refused(EEXIST)
    tree.put(directory, name, tree.make(directory.mount, DIRECTORY | mode & PERMISSIONS, uid, gid))


def edit_write(tree, path, data):
    directory, name = tree.place_of(path)
    if name is None:
        raise Refused(EISDIR)
    if name not in directory.children:
        raise Refused(ENOENT)
    node = directory.children[name]
    if node.is_directory:
        raise Refused(EISDIR)
    if node.kind == LINK:
        raise Refused(ELOOP)
    if node.kind != REGULAR:
        raise Refused(ENXIO)
    if len(data) > FILE_LIMIT:
        raise Refused(EFBIG)
    node.data = bytearray(data)
    tree.touch(node)


EDITS = {"Unlink": edit_unlink, "Rename": edit_rename, "File": edit_file, "Dir": edit_dir, "Write": edit_write}

NO_REPLACE, EXCHANGE = 1, 2


def judge_move(old, name, new, new_name, flags):
    """The refusals of rename(2) and renameat2(2) from EXDEV on; the old name is there."""
    node, there = old.children[name], new.children.get(new_name)
    if old.mount is not new.mount:
        raise Refused(EXDEV)
    if flags == NO_REPLACE and there is not None:
        raise Refused(EEXIST)
    if flags == EXCHANGE and there is None:
        raise Refused(ENOENT)
    if node.is_mount_root or there is not None and there.is_mount_root:
        raise Refused(EBUSY)
    if node.is_directory and node.holds(new):
        raise Refused(EINVAL)
    if flags == EXCHANGE:
        if there.is_directory and there.holds(old):
            raise Refused(EINVAL)
        return
    if there is None or there is node:
        return
    if node.is_directory and not there.is_directory:
        raise Refused(ENOTDIR)
    if there.is_directory and not node.is_directory:
        raise Refused(EISDIR)
    if there.children:
        raise Refused(ENOTEMPTY)

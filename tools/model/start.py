"""The lines of the tree that a script starts with."""
from .linux import (BLOCK, CHARACTER, DIRECTORY, FIFO, FILE_LIMIT, LINK, NAME_LIMIT, PERMISSIONS, REGULAR, SOCKET,
                    TARGET_LIMIT, VALUE_LIMIT)
from .seat import Refused
from .text import BadWord
from .tree import Mount, Tree


class StartTree:
    """A tree that grows by lines; a line that breaks a rule is bad."""

    def __init__(self):
        self.tree = Tree()

    def add(self, words):
        """Takes the words of a line."""
        LINES[words.word().decode("latin-1")](self, words)

    def begun(self):
        return self.tree.root is not None

    def object_at(self, path):
        """The object of a path that is written as a name of the tree is."""
        if path != b"/":
            check_path(path)
        try:
            return self.tree.walk(path)
        except Refused:
            raise BadWord from None

    def new_place(self, path):
        check_path(path)
        above, name = path.rsplit(b"/", 1)
        directory = self.object_at(above or b"/")
        if not directory.is_directory or name in directory.children:
            raise BadWord
        return directory, name

    def put(self, path, mode, uid, gid, data=b""):
        directory, name = self.new_place(path)
        node = self.tree.make(directory.mount, mode, uid, gid, data)
        self.tree.put(directory, name, node)
        return node


def check_path(path):
    names = path.split(b"/")
    if names[0] != b"" or len(names) < 2:
        raise BadWord
    for name in names[1:]:
        if name in (b"", b".", b"..") or b"\0" in name or len(name) > NAME_LIMIT:
            raise BadWord


def add_mount(start, words):
    number, device, path, has_handles = words.u64(), words.u64(), words.bytes(), words.switch()
    words.end()
    mounts = start.tree.mounts
    if not number or not device or any(number == one.number or device == one.device for one in mounts):
        raise BadWord
    if any(not 0x21 <= byte <= 0x7E for byte in path) or (path == b"/") == start.begun():
        raise BadWord
    mount = Mount(number, device, path, has_handles)
    if path == b"/":
        start.tree.root = node = start.tree.make(mount, DIRECTORY | 0o755, 0, 0)
    else:
        directory, name = start.new_place(path)
        mount.above = directory.mount
        node = start.tree.make(mount, DIRECTORY | 0o755, 0, 0)
        start.tree.put(directory, name, node)
    node.is_mount_root = True
    mounts.append(mount)


def permissions(words):
    mode = words.u32()
    if mode & ~PERMISSIONS:
        raise BadWord
    return mode


def add_dir(start, words):
    path, mode, uid, gid = words.bytes(), permissions(words), words.u32(), words.u32()
    words.end()
    start.put(path, DIRECTORY | mode, uid, gid)


def at_most(data, limit):
    if len(data) > limit:
        raise BadWord
    return data


def add_file(start, words):
    path, mode, uid, gid = words.bytes(), permissions(words), words.u32(), words.u32()
    data = at_most(words.bytes(), FILE_LIMIT)
    words.end()
    start.put(path, REGULAR | mode, uid, gid, data)


def add_link(start, words):
    path, uid, gid, target = words.bytes(), words.u32(), words.u32(), at_most(words.bytes(), TARGET_LIMIT)
    words.end()
    start.put(path, LINK | 0o777, uid, gid, target)


def add_spec(start, words):
    path, mode, uid, gid, rdev = words.bytes(), words.u32(), words.u32(), words.u32(), words.u32()
    words.end()
    if mode & ~PERMISSIONS not in (FIFO, CHARACTER, BLOCK, SOCKET):
        raise BadWord
    start.put(path, mode, uid, gid).rdev = rdev


def add_hard(start, words):
    path, old = words.bytes(), words.bytes()
    words.end()
    directory, name = start.new_place(path)
    node = start.object_at(old)
    if node.is_directory or node.mount is not directory.mount:
        raise BadWord
    start.tree.put(directory, name, node)


def add_xattr(start, words):
    path, name, value = words.bytes(), at_most(words.bytes(), NAME_LIMIT), at_most(words.bytes(), VALUE_LIMIT)
    words.end()
    start.object_at(path).xattrs[name] = value


LINES = {"mount": add_mount, "dir": add_dir, "file": add_file, "link": add_link, "spec": add_spec, "hard": add_hard,
         "xattr": add_xattr}

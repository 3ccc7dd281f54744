"""Random groups of jobs whose steps are worth mixing: requests that meet at one name, number or handle."""
from .text import write_bytes


class Races:
    """Makes groups of lines over what a maker of jobs sees."""

    def __init__(self, maker):
        self.maker = maker
        self.rng = maker.rng

    def lines(self):
        """The lines of one group."""
        makers = [self.at_a_name, self.at_a_name, self.at_a_creation, self.at_a_creation, self.at_a_number,
                  self.at_a_number, self.at_a_handle, self.at_a_session, self.at_a_move, self.at_a_directory]
        lines = self.rng.choice(makers)()
        return [line if line.startswith("edit ") else f"job {self.maker.pick('0 0', '0 0', '1000 1000')} {line}"
                for line in lines]

    def path_of(self, number):
        """The path of a number's directory, as far as it has one."""
        root = self.maker.run.host.tree.root
        names, node = [], self.maker.node(number) or root
        while node is not root:
            above = node.parent
            if above is None:
                return ""
            names.append([name for name, child in above.children.items() if child is node][0])
            node = above
        return "".join("/" + write_bytes(name) for name in reversed(names))

    def place(self):
        """A directory's number, its path, a name that is there where there is one, and another name."""
        number = self.maker.folder()
        there = self.maker.children(number)
        if b"m" in there and self.maker.chance(0.4):
            there = [b"m"]
        name = write_bytes(self.rng.choice(there)) if there else self.rng.choice("abc")
        other = self.rng.choice("abcdefgh")
        return number, self.path_of(number), name, other

    def at_a_name(self):
        number, path, name, _ = self.place()
        lines = [f"lookup {number} {name}" for _ in range(self.rng.randrange(1, 4))]
        lines.append(self.maker.pick(f"unlink {number} {name}", f"edit unlink {path}/{name}",
                                     f"mknod {number} {name} 0o644 0 0 - -", f"rmdir {number} {name}"))
        return self.shuffled(lines)

    def at_a_creation(self):
        """A file that is made while its name goes to another object."""
        number, path, name, other = self.place()
        flags = self.maker.pick(0o2, 0o2, 0o102, 0o202, 0o1102)
        lines = [f"create {number} {other} {self.maker.mode()} 0 {flags} 0 {self.maker.extensions()}"]
        moved = [f"edit rename {path}/{other} {path}/{other}0", f"edit rename {path}/{name} {path}/{other}"]
        lines += self.maker.pick(
            moved, moved, moved, [f"edit unlink {path}/{other}"],
            [f"edit unlink {path}/{other}", f"edit file {path}/{other} 0o644 0 0 z"],
            [f"create {number} {other} 0o600 1 {self.maker.pick(2, 0o202, 0o1001)} 0o22 - -"],
            [f"rename {number} {name} {number} {other} {self.maker.pick(0, 1, 2)}"], [f"lookup {number} {other}"],
            [f"forget {self.maker.number()} 1", f"unlink {number} {other}"])
        return lines

    def at_a_number(self):
        number = self.maker.file()
        lines = [f"forget {number} {self.maker.pick(1, 1, 2, 18446744073709551615)}"]
        lines += self.rng.sample([
            f"open {number} 1 {self.maker.pick(0, 2, 0o1002)}", f"getattr {number}",
            f"setattr {number} - 2056 0 0 0 1 0 0 0 0", f"setattr {number} - 49 384 0 0 0 1 0 2 0",
            f"setxattr {number} user.a v 0 0", f"listxattr {number} 100", f"syncfs {number}", f"access {number} 4",
            f"batch_forget 2 {number} 1 {number} 1", f"readlink {number}",
            f"link {number} {self.maker.place(0.2)}"], self.maker.pick(1, 2, 3))
        return self.shuffled(lines)

    def at_a_handle(self):
        handle = self.maker.handle(False, self.maker.chance(0.5))
        number = handle.split(" ")[0]
        lines = [f"release {handle}"]
        lines += self.rng.sample([
            f"read {handle} 10 0", f"write {handle} 0 abc 0 1 0o2001", f"write {handle} 1 xy 1 0 0", f"flush {handle}",
            f"lseek {handle} 1 {self.maker.pick(0, 1, 2, 3)}", f"forget {number} 1", f"fsync {handle} 1",
            f"release {handle}", f"copyfilerange {handle} 0 {handle} 3 2 0",
            f"setattr {number} + {handle.split(' ')[1]} 8 0 0 0 2 0 0 0 0",
            f"fallocate {handle} 0 0 9"], self.maker.pick(1, 2, 3))
        return self.shuffled(lines)

    def at_a_session(self):
        """A session that begins or ends under other requests."""
        lines = [self.maker.pick(self.maker.init(), self.maker.init(), "destroy", "root")]
        wanted = ("lookup", "lookup", "open", "create", "mkdir", "read", "forget", "tell", "setattr", "setxattr",
                  "rename")
        for _ in range(self.maker.pick(1, 2, 3)):
            lines.append(getattr(self.maker, self.rng.choice(wanted))())
        return self.shuffled(lines)

    def at_a_move(self):
        number, path, name, other = self.place()
        lines = [f"rename {number} {name} {self.maker.place(0.3)} {self.maker.pick(0, 0, 2)}"]
        lines += self.maker.pick(
            [f"lookup {number} {name}", f"lookup {number} {other}"], [f"link {self.maker.file()} {number} {name}"],
            [f"edit rename {path}/{name} {path}/{other}"],
            [f"unlink {number} {name}", f"mkdir {number} {name} 0o755 0 - -"],
            [f"opendir {number} 0", f"rmdir {number} {name}"])
        return self.shuffled(lines)

    def at_a_directory(self):
        """Makings in a directory that is forgotten or goes."""
        number, path, _, other = self.place()
        lines = [f"mkdir {number} {other} 0o755 0o22 {self.maker.extensions()}",
                 f"symlink t {number} {other} {self.maker.extensions()}",
                 f"mknod {number} {other}1 0o10600 0 0 {self.maker.extensions()}"]
        lines = self.rng.sample(lines, self.maker.pick(1, 2, 3))
        lines.append(self.maker.pick(f"forget {number} 1", f"edit unlink {path}/{other}", f"rmdir {number} {other}",
                                     f"edit rename {path}/{other} {path}/{other}2"))
        return self.shuffled(lines)

    def shuffled(self, lines):
        self.rng.shuffle(lines)
        return lines

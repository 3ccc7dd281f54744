"""Maps of ids and of attribute names (virtiofsd's soft_idmap and passthrough/xattrmap.rs)."""
from .linux import ENOTSUP, EPERM

LAST = 2**32


class Forbidden(Exception):
    """An id or a name that the rules deny, with the errno."""

    def __init__(self, errno):
        super().__init__(errno)
        self.errno = errno


class BadMap(Exception):
    """Rules that contradict one another, pass the last id, or leave a name unmet."""


class IdMap:
    """Rules are tuples of their word and numbers; other ids pass unchanged."""

    def __init__(self, rules):
        self.to_host, self.to_guest = [], []
        for word, *numbers in rules:
            if word == "forbid-guest":
                start, length = numbers
                self.add(self.to_host, start, None, length, False)
                continue
            start, target, length = numbers
            if word in ("guest", "squash-guest", "map"):
                self.add(self.to_host, start, target, length, word == "squash-guest")
            if word in ("host", "squash-host"):
                self.add(self.to_guest, start, target, length, word == "squash-host")
            if word == "map":
                self.add(self.to_guest, target, start, length, False)

    def add(self, direction, start, target, length, is_squashed):
        if length:
            for other, _, other_length, _ in direction:
                if start < other + other_length and other < start + length:
                    raise BadMap
        if start + length > LAST or target is not None and not is_squashed and target + length > LAST:
            raise BadMap
        if length:
            direction.append((start, target, length, is_squashed))

    @staticmethod
    def mapped(direction, number):
        for start, target, length, is_squashed in direction:
            if start <= number < start + length:
                if target is None:
                    raise Forbidden(EPERM)
                return target if is_squashed else target + number - start
        return number

    def map_guest(self, number):
        return self.mapped(self.to_host, number)

    def map_host(self, number):
        return self.mapped(self.to_guest, number)


class XattrMap:
    """Rules are tuples of kind, scope, key and prepend, or of the word map, key and prepend."""

    def __init__(self, rules):
        self.client, self.server = [], []
        for rule in rules:
            for kind, scope, key, prepend in self.spelled_out(rule):
                if scope in ("client", "all"):
                    self.client.append((kind, key, prepend))
                if scope in ("server", "all"):
                    self.server.append((kind, key, prepend))

    @staticmethod
    def spelled_out(rule):
        if rule[0] != "map":
            return [rule]
        _, key, prepend = rule
        first = ("prefix", "all", key, prepend)
        if not key:
            return [first, ("bad", "all", b"", b"")]
        return [first, ("bad", "all", prepend, key), ("ok", "all", b"", b"")]

    def is_terminated(self):
        return any(not key for _, key, _ in self.client) and any(not prepend for _, _, prepend in self.server)

    def map_client(self, name):
        """The host's name for a guest's name."""
        for kind, key, prepend in self.client:
            if not name.startswith(key):
                continue
            if kind == "bad":
                raise Forbidden(EPERM)
            if kind == "unsupported":
                raise Forbidden(ENOTSUP)
            return prepend + name if kind == "prefix" else name
        raise BadMap

    def map_server(self, name):
        """The guest's name for a listed one, None where it is hidden."""
        for kind, _, prepend in self.server:
            if not name.startswith(prepend):
                continue
            if kind in ("bad", "unsupported"):
                return None
            return name[len(prepend):] if kind == "prefix" else name
        raise BadMap

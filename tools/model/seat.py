"""Who makes a host call: ids, groups, capabilities, umask (credentials(7), capabilities(7))."""
from .linux import (DAC_OVERRIDE, DAC_READ_SEARCH, DIRECTORY, EINVAL, EPERM, GROUP_LIMIT, KIND, NO_ID, SETGID,
                    SETUID)


class Refused(Exception):
    """A call that the host refuses with an errno."""

    def __init__(self, errno):
        super().__init__(errno)
        self.errno = errno


class Seat:
    """The credentials of one job; it begins with equal ids, no groups and umask zero."""

    def __init__(self, uid, gid, caps):
        self.real_uid = self.uid = self.saved_uid = uid
        self.real_gid = self.gid = self.saved_gid = gid
        self.groups = []
        self.caps = self.permitted = caps
        self.umask = 0

    def has(self, cap):
        return bool(self.caps & cap)

    def may(self, node, wanted):
        """Whether the bits 4, 2 and 1 that are wanted of an object are granted (path_resolution(7))."""
        if self.has(DAC_OVERRIDE):
            return True
        if self.has(DAC_READ_SEARCH):
            granted = 5 if node.mode & KIND == DIRECTORY else 4
            wanted &= ~granted
        if self.uid == node.uid:
            bits = node.mode >> 6
        elif self.gid == node.gid or node.gid in self.groups:
            bits = node.mode >> 3
        else:
            bits = node.mode
        return bits & wanted == wanted

    def set_uid(self, uid):
        """seteuid(2)."""
        if uid == NO_ID and uid != self.real_uid:
            return
        if not self.has(SETUID) and uid not in (self.real_uid, self.uid, self.saved_uid):
            raise Refused(EPERM)
        if self.uid == 0 and uid != 0:
            self.caps = 0
        elif self.uid != 0 and uid == 0:
            self.caps = self.permitted
        self.uid = uid

    def set_gid(self, gid):
        """setegid(2)."""
        if gid == NO_ID and gid != self.real_gid:
            return
        if not self.has(SETGID) and gid not in (self.real_gid, self.gid, self.saved_gid):
            raise Refused(EPERM)
        self.gid = gid

    def set_groups(self, groups):
        """setgroups(2)."""
        if not self.has(SETGID):
            raise Refused(EPERM)
        if len(groups) > GROUP_LIMIT:
            raise Refused(EINVAL)
        self.groups = list(groups)

    def raise_caps(self, caps):
        """Capabilities of the permitted set become effective (capset(2))."""
        if caps & ~self.permitted:
            raise Refused(EPERM)
        self.caps |= caps

    def drop_caps(self, caps):
        self.caps &= ~caps

    def set_umask(self, mask):
        """umask(2), but the whole mask is kept."""
        old, self.umask = self.umask, mask
        return old

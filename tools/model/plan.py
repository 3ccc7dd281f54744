"""The checked configuration: maps, rules and limits (virtiofsd's PassthroughFs::new)."""
from .linux import EINVAL
from .maps import BadMap, Forbidden, IdMap, XattrMap

CAPABILITY = b"security.capability"


class BadConfig(Exception):
    """A configuration that is refused with an errno."""

    def __init__(self, errno):
        super().__init__(errno)
        self.errno = errno


def limits_of(config):
    """The slots of the first class, which has what the others leave, and theirs."""
    limits = [limit for _, limit in config.classes]
    if sum(limits) > config.guest_fd_limit:
        raise BadMap
    return [config.guest_fd_limit - sum(limits)] + limits


class Plan:
    """The checked configuration and its maps."""

    def __init__(self, config):
        self.config = config
        self.handles = config.inode_file_handles
        self.xattrs = None
        self.capability_name = None
        try:
            self.uids, self.gids = IdMap(config.uidmap), IdMap(config.gidmap)
            if config.xattrrule:
                self.xattrs = XattrMap(config.xattrrule)
                if not self.xattrs.is_terminated():
                    raise BadMap
            self.limits = limits_of(config)
        except BadMap:
            raise BadConfig(EINVAL) from None
        self.capability_name = self.mapped_capability()

    def mapped_capability(self):
        """The host's name of the attribute of capabilities, where the rules change it."""
        if self.xattrs is None:
            return None
        try:
            name = self.xattrs.map_client(CAPABILITY)
        except Forbidden:
            return None
        return name if name != CAPABILITY else None

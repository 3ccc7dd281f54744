"""Random configurations and trees to start with."""
from .config import LATER

MODES = ["0o644", "0o755", "0o600", "0", "0o777", "0o4755", "0o2755", "0o6777", "0o1777", "0o400", "0o70", "0o7", "420"]
OWNERS = ["0 0", "0 0", "0 0", "1000 1000", "1000 100", "2000 2000", "0 1000"]
NAMES = ["a", "b", "c", "d", "e", "f"]
XATTRS = ["user.a", "user.b", "trusted.x", "security.capability", "security.selinux", "system.posix_acl_access",
          "system.posix_acl_default", "system", "user.", "u", "virtiofs.user.a", "virtiofs.security.capability",
          "virtiofs.", "%ff", "%-", "user.a%00b"]
VALUES = ["v", "%-", "%00%01%02", "hello", "%20%ff" * 40]
CONTENTS = ["hi", "%-", "hello", "%00%ff%0a", "x" * 600, "world%20"]


def config_lines(rng):
    """Lines that set something; half of the scripts have few."""
    lines = []
    often = rng.choice([0.05, 0.3, 0.5])
    if rng.random() < 0.12:
        lines += ["set xattr 1", "set posix_acl 1"]
    for key in ("writeback", "xattr", "announce_submounts", "readdirplus", "allow_direct_io", "killpriv_v2",
                "posix_acl", "security_label", "clean_noatime", "allow_mmap"):
        if f"set {key} 1" in lines:
            continue
        if rng.random() < often or key == "xattr" and rng.random() < 0.4:
            lines.append(f"set {key} {int(rng.random() < 0.8)}")
    if rng.random() < often:
        lines.append(f"set cache_policy {rng.choice(['never', 'metadata', 'auto', 'always', 'Always', 'NEVER'])}")
    if rng.random() < often:
        seconds = rng.choice([0, 1, 2**64 - 1])
        lines.append(f"set {rng.choice(['entry', 'attr'])}_timeout {seconds} {rng.choice([0, 7])}")
    if rng.random() < often:
        limit = rng.choice([1, 2, 3, 4, 5, 6, 6, 8, 10, 10, 20, 1000]) if rng.random() < 0.95 else 0
        lines.append(f"set guest_fd_limit {limit}")
    if rng.random() < often / 2:
        lines.append(f"set seat {seat(rng)}")
    if rng.random() < 0.03:
        lines.append(f"set root_dir {rng.choice(['/d', '/d', '/', '/a', 'd', '/d/', '/none', '//d', '%-', '/m'])}")
    rules = rule_lines(rng)
    if rules and "set xattr 1" not in lines and rng.random() < 0.8:
        lines = [line for line in lines if not line.startswith("set xattr ")] + ["set xattr 1"]
    lines += id_lines(rng) + rules + [line for line in later_lines(rng) if line.split(" ")[1] not in LATER]
    rng.shuffle(lines)
    return lines


def later_lines(rng):
    """Lines of keys that a program may not read yet."""
    lines = []
    if rng.random() < 0.1:
        lines.append(f"set read_only {rng.choice([1, 1, 0])}")
    if rng.random() < 0.5:
        lines.append(f"set inode_file_handles {rng.choice(['never', 'prefer', 'prefer', 'mandatory', 'mandatory'])}")
    if rng.random() < 0.05:
        lines.append(f"set mountinfo_prefix {rng.choice(['-', '/m', '/', '%-', '/none'])}")
    if rng.random() < 0.15:
        names = rng.sample(["a", "b", "d", "m", "e"], rng.choice([1, 1, 2]))
        lines += [f"set class {name} {rng.choice([0, 1, 2, 5])}" for name in names]
    return lines


def seat(rng):
    """uid, gid and capabilities of who serves."""
    caps = rng.choice([511, 511, 0, rng.randrange(512), 511 & ~16, 511 & ~2, 511 & ~4 & ~2, 4294967295])
    return f"{rng.choice([0, 0, 1000, 2000, 4294967295])} {rng.choice([0, 0, 1000, 4294967295])} {caps}"


def id_lines(rng):
    lines = []
    if rng.random() < 0.8:
        return lines
    for key in ("uidmap", "gidmap"):
        start = 0
        for _ in range(rng.randrange(4)):
            start += rng.choice([0, 0, 1, 1000])
            length = rng.choice([1, 1, 10, 1000, 0])
            target = rng.choice([0, 1000, 5000, 100000, 4294967295 if rng.random() < 0.1 else 7])
            kind = rng.choice(["guest", "host", "squash-guest", "squash-host", "map", "forbid-guest"])
            if kind == "forbid-guest":
                lines.append(f"set {key} forbid-guest {start} {length}")
            else:
                lines.append(f"set {key} {kind} {start} {target} {length}")
            start += length
    return lines


RULES = [
    ["map %- virtiofs."], ["map %- user.virtiofs."], ["map trusted. user.virtiofs."], ["map security. virtiofs."],
    ["ok all %- %-"], ["bad all %- %-"], ["unsupported all %- %-"], ["prefix all %- x."],
    ["prefix client security. virtiofs.", "ok all %- %-"],
    ["bad client user.b %-", "unsupported client trusted. %-", "bad server %- trusted.", "ok all %- %-"],
    ["prefix server %- user.", "ok client %- %-", "ok server %- %-"],
    ["unsupported all u system.", "ok all %- %-"],
    ["prefix all user. %-", "prefix all %- virtiofs.", "bad server %- %-"],
    ["prefix client trusted. user."], ["map system. a.", "map b. c."], ["ok client %- %-"],
]


def rule_lines(rng):
    if rng.random() < 0.75:
        return []
    rules = list(rng.choice(RULES))
    if rng.random() < 0.2:
        rules = list(rng.choice(RULES)) + rules
    return ["set xattrrule " + rule for rule in rules]


def tree_lines(rng):
    """The mount of the root, and some directories with objects of each kind."""
    lines, folders, files = [f"mount 1 1 / {int(rng.random() < 0.8)}"], [""], []
    if rng.random() < 0.4:
        lines.append(f"dir /d {rng.choice(MODES[:9])} {rng.choice(OWNERS)}")
        folders.append("/d")
        if rng.random() < 0.4:
            lines += ["dir /d/e 0o777 0 0", f"file /d/e/f {rng.choice(MODES)} 0 0 hi"]
            folders.append("/d/e")
    if rng.random() < 0.2:
        lines.append(f"mount 7 {rng.choice([2, 9])} {rng.choice(folders)}/m {rng.randrange(2)}")
        folders.append(lines[-1].split(" ")[3])
    taken = {*folders, "/d/e/f"}
    for _ in range(rng.randrange(1, 9)):
        path = f"{rng.choice(folders)}/{rng.choice(NAMES)}"
        if path not in taken:
            taken.add(path)
            lines.append(one_line(rng, path, folders, files))
    for path in folders + files:
        if rng.random() < 0.3:
            lines.append(f"xattr {path or '/'} {rng.choice(XATTRS)} {rng.choice(VALUES)}")
    return lines


def one_line(rng, path, folders, files):
    owner, mode = rng.choice(OWNERS), rng.choice(MODES)
    kind = rng.randrange(10)
    if kind == 0:
        folders.append(path)
        return f"dir {path} {mode} {owner}"
    if kind == 1:
        return f"link {path} {owner} {rng.choice(['t', '/a', '%-', 'x' * 300])}"
    if kind == 2:
        return f"spec {path} {rng.choice(['0o10644', '0o20600', '0o60660', '0o140755'])} {owner} {rng.choice([0, 5])}"
    if kind == 3 and files:
        old = rng.choice(files)
        if is_same_mount(old, path):
            return f"hard {path} {old}"
    files.append(path)
    return f"file {path} {mode} {owner} {rng.choice(CONTENTS)}"


def is_same_mount(old, path):
    return ("/m/" in old) == ("/m/" in path)

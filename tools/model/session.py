"""The session's tables and each change of them (virtiofsd's passthrough/inode_store.rs and mod.rs)."""
from .text import Some, U64

NOT_LIVE, OVERTAKEN, NO_SLOT, LAST, LIVE = "NotLive", "Overtaken", "NoSlot", "Last", "Live"
LOGGED_AT_MOST = 64
NO_OPTIONS = (False, False, False, False)


class NotDone(Exception):
    """An event that is refused by name."""


class Row:
    """A number or a handle that the guest holds; it stays while it is pinned."""

    def __init__(self, serial, number):
        self.serial, self.number = serial, number
        self.pins = 0
        self.is_live = True


class Session:
    """Tables that one event after another changes."""

    def __init__(self, limits):
        self.era, self.next_number, self.next_handle, self.next_row = 0, 2, 0, 0
        self.limits, self.slots = list(limits), list(limits)
        self.mounts, self.logged, self.is_clearing = {}, set(), False
        self.options = NO_OPTIONS
        self.numbers, self.handles, self.rows = {}, {}, {}
        self.closings = []

    def event(self, name, *fields):
        """The reply of an event."""
        try:
            reply = EVENTS[name](self, *fields)
        except NotDone as refused:
            return ("Refused", refused.args[0])
        return reply

    # rows

    def new_row(self, number):
        if self.next_row == U64:
            raise NotDone(LAST)
        row = Row(self.next_row, number)
        self.next_row += 1
        self.rows[row.serial] = row
        return row

    def matching(self, handle, ids):
        """The live row of an object: by its file handle, else by the ids of one that is kept open."""
        for row in self.numbers.values():
            if handle is not None and row.form[0] == "Handle" and row.form[1] == handle.value:
                return row
        for row in self.numbers.values():
            if row.form[0] == "File" and row.ids == ids:
                return row
        return None

    def pin(self, row):
        if row.pins == U64:
            raise NotDone(LAST)
        row.pins += 1

    def kill(self, table, key):
        """A row that stops being live; its descriptor is to be closed where no pin holds it."""
        row = table.pop(key)
        row.is_live = False
        return self.end(row) if row.pins == 0 else 0

    def end(self, row):
        """A row that ends has its descriptor closed, or gives up its holder of its mount."""
        del self.rows[row.serial]
        if row.form[0] == "Handle":
            return self.let_go(row.form[1][0])
        self.closings.append((row.fd, 1, *row.of_class))
        return 1

    def let_go(self, mount):
        """One holder of a mount less; a mount without holders is closed, at a clearing behind all else."""
        row = self.mounts.get(mount)
        if row is None:
            return 0
        row[1] -= 1
        if row[1] > 0 or self.is_clearing:
            return 0
        del self.mounts[mount]
        self.closings.append((row[0], 0))
        return 1

    def close_mounts(self):
        """Closes the mounts whose last holder went at a clearing."""
        closed = sorted(mount for mount, row in self.mounts.items() if row[1] == 0)
        for mount in closed:
            self.closings.append((self.mounts.pop(mount)[0], 0))
        return len(closed)

    def unpin(self, serial, is_handle):
        row = self.rows.get(serial)
        if row is None or row.pins == 0 or hasattr(row, "of") != is_handle:
            raise NotDone(NOT_LIVE)
        row.pins -= 1
        return self.end(row) if row.pins == 0 and not row.is_live else 0

    def add_count(self, row):
        if row.count == U64:
            raise NotDone(LAST)
        row.count += 1
        return row.number

    def in_era(self, era):
        if era != self.era:
            raise NotDone(OVERTAKEN)

    def forget_one(self, number, count):
        row = self.numbers.get(number)
        if row is None:
            return 0
        row.count -= min(count, row.count)
        return self.kill(self.numbers, number) if row.count == 0 else 0

    def insert(self, number, form, ids, mode, count, of_class=()):
        row = self.new_row(number)
        row.form, row.ids, row.mode, row.count, row.of_class = form, ids, mode, count, of_class
        row.fd = form[-1]
        self.numbers[number] = row
        return ("Inserted", number)


def begin(session):
    return ("Began", session.era, session.options)


def resolve(session, number):
    row = session.numbers.get(number)
    if row is None:
        raise NotDone(NOT_LIVE)
    session.pin(row)
    return ("Resolved", row.serial, row.form, row.ids, row.mode, *row.of_class)


def claim(session, era, handle, ids):
    session.in_era(era)
    row = session.matching(handle, ids)
    if row is None:
        return ("Absent",)
    return ("Claimed", session.add_count(row), *row.of_class)


def place_of(of_class):
    """The place of a class among the limits; the first class is told by no word."""
    return of_class[0][1] if of_class else 0


def take_fd(session, *of_class):
    place = place_of(of_class)
    if session.slots[place] == 0:
        raise NotDone(NO_SLOT)
    session.slots[place] -= 1
    return ("Taken",)


def give_fd(session, *of_class):
    place = place_of(of_class)
    if session.slots[place] == session.limits[place]:
        raise NotDone(NOT_LIVE)
    session.slots[place] += 1
    return ("Given",)


def draw_node(session):
    if session.next_number == U64:
        raise NotDone(LAST)
    session.next_number += 1
    return ("Drawn", session.next_number - 1)


def draw_handle(session):
    if session.next_handle == U64:
        raise NotDone(LAST)
    session.next_handle += 1
    return ("Drawn", session.next_handle - 1)


def insert(session, era, number, form, ids, mode, *of_class):
    session.in_era(era)
    row = session.matching(handle_in(form), ids)
    if row is not None:
        return ("Found", session.add_count(row), *row.of_class)
    if number in session.numbers:
        raise NotDone(LIVE)
    return session.insert(number, form, ids, mode, 1, of_class)


def handle_in(form):
    """The handle of a form that has one, as an option."""
    return Some(form[1]) if form[0] == "Handle" else None


def insert_root(session, era, form, ids, mode, options):
    session.in_era(era)
    if 1 in session.numbers or session.matching(handle_in(form), ids) is not None:
        raise NotDone(LIVE)
    reply = session.insert(1, form, ids, mode, 2)
    if options is not None:
        session.options = options.value
    return reply


def forget(session, pairs):
    return ("Done", sum([session.forget_one(number, count) for number, count in pairs]))


def give_back(session, era, number):
    session.in_era(era)
    if number not in session.numbers:
        raise NotDone(NOT_LIVE)
    return ("Done", session.forget_one(number, 1))


def insert_handle(session, era, handle, number, fd, *of_class):
    session.in_era(era)
    if handle in session.handles:
        raise NotDone(LIVE)
    row = session.new_row(handle)
    row.of, row.fd, row.form, row.of_class = number, fd, ("File", fd), of_class
    session.handles[handle] = row
    return ("Inserted", handle)


def live_handle(session, handle, number):
    row = session.handles.get(handle)
    if row is None or row.of != number:
        raise NotDone(NOT_LIVE)
    return row


def pin_handle(session, handle, number):
    row = live_handle(session, handle, number)
    session.pin(row)
    return ("Pinned", row.serial, row.fd)


def release(session, handle, number):
    live_handle(session, handle, number)
    return ("Done", session.kill(session.handles, handle))


def clear(session):
    if session.era == U64:
        raise NotDone(LAST)
    session.is_clearing = True
    closings = sum([session.kill(session.numbers, number) for number in sorted(session.numbers)])
    closings += sum([session.kill(session.handles, handle) for handle in sorted(session.handles)])
    session.is_clearing = False
    closings += session.close_mounts()
    session.options = NO_OPTIONS
    session.era += 1
    return ("Cleared", session.era, closings)


def take_closing(session):
    if not session.closings:
        raise NotDone(NOT_LIVE)
    return ("Closing", *session.closings.pop(0))


# mounts that are kept open (virtiofsd's passthrough/mount_fd.rs)


def hold_mount(session, mount):
    row = session.mounts[mount]
    if row[1] == U64:
        raise NotDone(LAST)
    row[1] += 1
    return ("Mount", row[0], 0)


def mount_get(session, mount):
    return hold_mount(session, mount) if mount in session.mounts else ("Absent",)


def mount_insert(session, mount, fd):
    if mount in session.mounts:
        return hold_mount(session, mount)
    session.mounts[mount] = [fd, 1]
    return ("Mount", fd, 1)


def mount_drop(session, mount):
    if mount not in session.mounts:
        raise NotDone(NOT_LIVE)
    return ("Done", session.let_go(mount))


def first_error(session, mount):
    is_first = mount not in session.logged and len(session.logged) < LOGGED_AT_MOST
    if is_first:
        session.logged.add(mount)
    return ("First", is_first)


EVENTS = {
    "MountGet": mount_get, "MountInsert": mount_insert, "MountDrop": mount_drop, "FirstError": first_error,
    "Begin": begin, "Resolve": resolve, "Claim": claim, "TakeFd": take_fd, "GiveFd": give_fd, "DrawNode": draw_node,
    "DrawHandle": draw_handle, "Insert": insert, "InsertRoot": insert_root, "Forget": forget, "GiveBack": give_back,
    "InsertHandle": insert_handle, "PinHandle": pin_handle, "Release": release, "Clear": clear,
    "TakeClosing": take_closing,
    "Unpin": lambda session, serial: ("Done", session.unpin(serial, False)),
    "UnpinHandle": lambda session, serial: ("Done", session.unpin(serial, True)),
}

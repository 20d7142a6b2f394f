"""The order in which a run on a root with a history writes to the disk, from the log of its system
calls.

- A file is on the disk before it takes its name: history.new above all.
- The directory of the history is on the disk before a file takes a name in it: whoever ran before
  may have been killed, and an earlier history may just have got its second name.
- The directory of the history is on the disk before anything in the root changes: the run is
  promised then.
- Each directory of the root is on the disk after its last change, before history.next becomes the
  history.
- In the end all is on the disk.
- A run that fails and takes back what it changed has an fsync of each directory after that.

That the log of a run would break these rules without any one of its syncs shows that each is looked
for.
"""
import collections
import os
import re

from root_checks import hold

Call = collections.namedtuple('Call', 'name answer here one two extra')
CHANGES_OF_NAMES = ('symlink', 'link', 'rename', 'unlink', 'mkdir', 'rmdir')
OF_TWO_NAMES = ('link', 'rename')
# The names under which a file of a root and a history are written.
UNNAMED = re.compile(r'\.unitroot-new\.\d+$|history\.new$')


def calls_of(lines):
    """The calls of a log."""
    calls = []
    for _, name, answer, here, one, two, extra in lines:
        if name == 'unlink' and int(extra):
            name = 'rmdir'
        calls.append(Call(name, int(answer), here, one, two, int(extra)))
    return calls


def full(call, name):
    return os.path.normpath(os.path.join(call.here, name))


def written_by(call):
    """The file that a call makes or writes. (A pipe has no path.)"""
    if (call.name == 'write' and call.one.startswith('/')
            or call.name == 'open' and call.extra & os.O_CREAT):
        return full(call, call.one)
    return None


def changed_by(call):
    """The name that a call makes, replaces or removes."""
    if call.name in CHANGES_OF_NAMES:
        return full(call, call.two if call.name in OF_TWO_NAMES else call.one)
    return None


def unsettled(calls):
    """The directories in which something changed, with no fsync after it. (One that failed counts:
    the status says that. What is made under a name for new things has no meaning before it gets
    its own one.)"""
    left = set()
    for call in calls:
        if call.name == 'fsync':
            left.discard(call.one)
        elif call.answer >= 0 and changed_by(call):
            path = changed_by(call)
            if not UNNAMED.match(os.path.basename(path)):
                left.add(os.path.dirname(path))
            if call.name == 'rmdir':
                left.discard(path)
    return sorted(left)


class Order:
    """What is not on the disk yet, call after call: the files that were written, and the
    directories in which something changed."""

    def __init__(self, home, unsynced):
        self.home, self.faults = home, []
        self.unwritten, self.unsynced = set(), set(unsynced)

    def moved(self, source, to):
        """A file takes a name."""
        if source in self.unwritten:
            self.faults.append('%s takes its name before fsync' % to)
        self.unwritten.discard(source)
        before = set()
        if os.path.dirname(to) == self.home:
            before = self.unsynced if to == self.home + '/history' else {self.home} & self.unsynced
        for directory in sorted(before):
            self.faults.append('%s takes its name before fsync of %s' % (to, directory))

    def changed(self, path):
        """A name in a directory has changed. (That of history.new means nothing.)"""
        directory = os.path.dirname(path)
        is_in_root = directory != self.home and path != self.home
        if is_in_root and self.home in self.unsynced:
            self.faults.append('%s changes before what is promised is on the disk' % path)
        if path != self.home + '/history.new':
            self.unsynced.add(directory)

    def after(self, call):
        if written_by(call):
            self.unwritten.add(written_by(call))
        elif call.name == 'fsync':
            self.unwritten.discard(call.one)
            self.unsynced.discard(call.one)
        elif changed_by(call):
            path = changed_by(call)
            if call.name in OF_TWO_NAMES:
                self.moved(full(call, call.one), path)
            # (another entry may be made under the same name)
            self.unwritten.discard(path)
            if call.name == 'rmdir':
                self.unsynced.discard(path)
            self.changed(path)


def out_of_order(calls, home, unsynced=()):
    """What a run wrote too late, or never."""
    order = Order(home, unsynced)
    for call in calls:
        if call.answer >= 0:
            order.after(call)
    return order.faults + ['%s: no fsync in the end' % it for it in sorted(order.unsynced)]


def syncs_of(calls, home):
    """The syncs of a path between which nothing changes there, each time. Of a directory of the
    root they are the last ones, and of one that is removed there are none."""
    groups, changes = {}, collections.Counter()
    for number, call in enumerate(calls):
        if call.name == 'fsync':
            groups.setdefault((call.one, changes[call.one]), []).append(number)
        changed = written_by(call) or changed_by(call)
        if changed and changed != home + '/history.new':
            changes[os.path.dirname(changed)] += 1
        if written_by(call):
            changes[changed] += 1
    gone = {changed_by(call) for call in calls if call.name == 'rmdir'}
    return [(path, numbers) for (path, count), numbers in groups.items()
            if path not in gone and (path.startswith(home) or count == changes[path])]


def in_order(name, home, calls, unsynced):
    """Holds if a run was in order, and would not be without any one of its syncs. `unsynced`:
    directories that may not be on the disk when it begins."""
    calls = [call for call in calls if call.answer >= 0]
    faults = out_of_order(calls, home, unsynced)
    hold(not faults, 'each file and directory is on the disk in time: %s' % name, faults)
    syncs = syncs_of(calls, home)
    idle = [path for path, numbers in syncs
            if not out_of_order([call for number, call in enumerate(calls)
                                 if number not in numbers], home, unsynced)]
    hold(syncs and not idle, 'each sync is needed: %s' % name, idle)

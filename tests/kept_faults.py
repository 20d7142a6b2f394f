"""Runs and other commands on a root with a history of which one system call after another fails,
or before which they are killed.

After a failure the root and its history must be as the status and the message say (docs/ROOTS.md,
"Statuses"): the old ones, the new ones, or promised; then `recover` must lead to the new ones. What
comes before the calls of a run (others changed something, a new history begins, a run that was cut
short is finished) may have been done, and the calls not.
"""
import collections
import concurrent.futures
import errno
import os
import subprocess

from root_checks import ETC, VENDOR, differences, hold, skipped
from kept_checks import (HISTORY, HOME, PROMISE, TUESDAY, as_unitadm, at, copied, left_by_us,
                         rid_of, small, whole, without_chance)
from kept_kills import CALLS, Runs, all_hold
from kept_order import calls_of, in_order, unsettled

PROMISED = 'promised: the next run finishes it'
DONE = 'all was done, and may not last'
REVERSED = 'all steps were reversed'
# What a run may end with that has changed nothing.
AS_IT_WAS = (1, 4)
# A directory next to a root, for its history.
BESIDE = '.kept'
MOST_OF_A_STATE = 600
THURSDAY = at(TUESDAY + 2 * 86400)
MASK = ('mask', 'ssh')
# How many runs were disturbed, and how.
ran = collections.Counter()


def of_paths(root, ended):
    """Paths in messages: a history in the root has that from the root on."""
    return ['a path of the host: %s' % line for line in ended[2].splitlines()
            if root + '/var' in line]


def is_as_it_was(ended):
    """Whether the status says that nothing was changed, or all was changed back."""
    return ended[0] in AS_IT_WAS or ended[0] == 5 and REVERSED in ended[2]


def of_syncs(ended, calls):
    """What a run that failed took back, and didn't write to the disk."""
    left = unsettled(calls_of(calls)) if is_as_it_was(ended) else []
    return ['no fsync of %s in the end' % path for path in left]


def errors_of(number):
    """Each call fails with EIO, a third also with ENOSPC or EACCES, and a third with EINTR."""
    more = {0: (errno.ENOSPC, errno.EACCES)[number % 2], 1: errno.EINTR}
    return [errno.EIO, *filter(None, [more.get(number % 3)])]


def all_of(pool, fail, numbers, title):
    cases = [(number, error) for number in numbers for error in errors_of(number)]
    ends = [*pool.map(lambda case: fail(*case), cases)]
    ran['failed'] += len(cases)
    all_hold(title, ['call %d, %s: %s' % (number, errno.errorcode[error], fault)
                     for (number, error), (faults, _) in zip(cases, ends) for fault in faults])
    return [ended for _, ended in ends]


class Faults(Runs):
    """The runs of tests/kept_kills.py, of which a call fails."""

    def failed(self, root, number, error):
        return self.unitroot.disturbed(self.tracer, root, number, error, 'run', given=CALLS,
                                       env=at(TUESDAY + 86400))

    def of_state(self, root, wanted):
        """How a root and its history differ from the old ones or the new ones."""
        name = 'new' if wanted is self.after else 'old'
        return (['%s is left' % path for path in left_by_us(root, wanted)]
                + ['not the %s root: %s' % (name, it) for it in differences(whole(root), wanted)])

    def of_promise(self, root):
        faults = self.mixed(root) + ['no promise'] * (not self.is_promised(root))
        ended, _ = self.recovered(root)
        return faults + ['recover: %s' % (ended,)] * (ended[0] != 0) + self.of_state(root,
                                                                                     self.after)

    def of_end(self, root, ended):
        """What is wrong after a run with this status and message."""
        if ended[0] in (0, 6) or ended[0] == 5 and DONE in ended[2]:
            return self.of_state(root, self.after)
        if is_as_it_was(ended):
            return self.of_state(root, self.before)
        if ended[0] == 5 and PROMISED in ended[2]:
            return self.of_promise(root)
        return ['no such end']

    def fail(self, number, error):
        root = copied(self.old, '%s/fail-%d-%d' % (self.room, number, error))
        ended, calls = self.failed(root, number, error)
        faults = self.of_end(root, ended) + of_syncs(ended, calls) + of_paths(root, ended)
        rid_of(root)
        return ['%s: %s' % (ended, it) for it in faults], ended

    def fail_recovery(self, number, error):
        """A recovery of a run that was killed in the middle."""
        root = copied(self.middle, '%s/again-%d-%d' % (self.room, number, error))
        ended, calls = self.unitroot.disturbed(self.tracer, root, number, error, 'recover',
                                               env=at(TUESDAY + 90000))
        if ended[0] == 0 or ended[0] == 5 and DONE in ended[2]:
            faults = self.of_state(root, self.after)
        elif ended[0] in AS_IT_WAS or ended[0] == 5 and PROMISED in ended[2]:
            faults = self.of_promise(root)
        else:
            faults = ['no such end']
        faults += of_syncs(ended, calls) + of_paths(root, ended)
        rid_of(root)
        return ['%s: %s' % (ended, it) for it in faults], ended

    def killed_in_the_middle(self):
        """A root whose run was killed after half of its changes, and the calls of its recovery."""
        self.middle = copied(self.old, '%s/middle' % self.room)
        changes = [int(call[0]) for call in self.calls
                   if call[1] in ('symlink', 'link', 'unlink', 'rename')]
        self.killed(self.middle, changes[len(changes) // 2])
        self.finished = copied(self.middle, '%s/finished' % self.room)
        return self.recovered(self.finished)[1]

    def unsynced(self, root):
        """The directories of a run that was killed: none of them is on the disk for certain."""
        return {root + HOME, *(os.path.dirname(root + path) for path in self.paths)}


class Command:
    """A command that is disturbed on copies of a root, and what it may leave: the root and its
    history as they were, as they are after each of its stages, and in the end."""

    def __init__(self, unitroot, room, name, root, words, status=0):
        self.unitroot, self.name = unitroot, name
        self.room, self.tracer = '%s/%s' % (room, name), '%s/fail_call' % room
        os.mkdir(self.room)
        self.words, self.old = words, root
        self.stages = [self.seen(root)]
        self.new = self.copy('new')
        ended, self.calls = self.disturbed(self.new, 0, 'kill')
        hold(ended[0] == status, '%s: nothing disturbs it: status %d' % (name, status), ended)
        self.after, self.recovery, self.last_sync = self.seen(self.new), 0, ()

    def copy(self, name):
        """A copy of the root, and of the directory beside it."""
        copy = copied(self.old, '%s/%s' % (self.room, name))
        if os.path.isdir(self.old + BESIDE):
            copied(self.old + BESIDE, copy + BESIDE)
        return copy

    def home_of(self, root):
        """The directory of its history."""
        is_beside = any(word.startswith('--history') for word in self.words)
        return root + (BESIDE if is_beside else HOME)

    def disturbed(self, root, number, how):
        words = [word.replace('ROOT', root) for word in self.words]
        return self.unitroot.disturbed(self.tracer, root, number, how, *words, env=THURSDAY)

    def seen(self, root):
        """What is in a root and in the directory of its history."""
        found = whole(root)
        if os.path.isdir(root + BESIDE):
            found[BESIDE] = oct(os.stat(root + BESIDE).st_mode),
            found.update({BESIDE + path: what for path, what in whole(root + BESIDE).items()})
        return {path: tuple(without_chance(it) if isinstance(it, bytes) else it for it in what)
                for path, what in found.items()}

    def numbers(self, every):
        """The calls that fail: each fifth of a recovery, whose calls have failed before."""
        return [number for number in range(1, len(self.calls) + 1, every)
                if number >= self.recovery or number % 5 == 0]

    def has_stage(self, *words, given=''):
        """The next stage, which is what these words leave."""
        root = self.copy('stage-%d' % len(self.stages))
        self.unitroot.on(root, *words, given=given, env=THURSDAY)
        self.stages.append(self.seen(root))
        return self

    def of_state(self, root, *wanted):
        now = self.seen(root)
        if now in wanted:
            return []
        return ['neither: %s' % str(differences(now, wanted[-1]))[:MOST_OF_A_STATE]]

    def of_promise(self, root):
        """After a promise a recovery leads to a later stage, or to the end."""
        faults = ['no promise'] * (not os.path.lexists(root + PROMISE))
        ended = self.unitroot.on(root, 'recover')
        return (faults + ['recover: %s' % (ended,)] * (ended[0] != 0)
                + self.of_state(root, *self.stages[1:], self.after))

    def after_call(self, number):
        """What is left if this call fails and all others are made."""
        return self.after

    def of_end(self, root, ended, number, error):
        """What is wrong after the command with this status and message."""
        if is_as_it_was(ended):
            return self.of_state(root, *self.stages)
        if ended[0] in (0, 6) and error != errno.EACCES:
            return self.of_state(root, self.after)
        if ended[0] in (0, 6) or ended[0] == 5 and DONE in ended[2]:
            return self.of_state(root, self.after_call(number))
        if ended[0] == 5 and PROMISED in ended[2]:
            return self.of_promise(root)
        return ['no such end']

    def fail(self, number, error):
        root = self.copy('fail-%d-%d' % (number, error))
        ended, calls = self.disturbed(root, number, error)
        now = self.seen(root)
        faults = self.of_end(root, ended, number, error) + of_paths(root, ended)
        # (if what comes before the calls can't be written to the disk, nothing is taken back)
        faults += of_syncs(ended, calls) if number not in self.last_sync else []
        rid_of(root, root + BESIDE)
        return ['%s: %s' % (ended, it) for it in faults], (ended, now)

    def kill(self, number):
        """The command is killed, and recovered."""
        root = self.copy('kill-%d' % number)
        self.disturbed(root, number, 'kill')
        ended = self.unitroot.on(root, 'recover')
        faults = ['recover: %s' % (ended,)] * (ended[0] != 0)
        faults += self.of_state(root, *self.stages, self.after)
        rid_of(root, root + BESIDE)
        return faults

    def all_fail(self, pool, every):
        title = '%s of which a call fails: root and history are as the status says' % self.name
        ends = all_of(pool, self.fail, self.numbers(every), title)
        if every == 1:
            states = [now for ended, now in ends if ended[0] in AS_IT_WAS]
            hold(all(stage in states for stage in self.stages),
                 '%s: after a failure each stage was left by some run' % self.name)

    def all_killed(self, pool, every):
        numbers = self.numbers(every)
        faults = [*pool.map(self.kill, numbers)]
        ran['killed'] += len(numbers)
        all_hold('%s that is killed: the next run removes what is left' % self.name,
                 ['call %d: %s' % (number, fault) for number, those in zip(numbers, faults)
                  for fault in those])

    def first_history(self):
        """The call by which what comes before the calls becomes the history."""
        return [int(call[0]) for call in self.calls if call[1] == 'rename'
                and call[5] == 'history'][0]

    def has_last_sync(self):
        """The calls that write to the disk what comes before the calls."""
        begins = self.first_history()
        ends = [int(call[0]) for call in self.calls if call[1] == 'fsync'
                and int(call[0]) > begins][0]
        self.last_sync = range(begins + 1, ends + 1)

    def last_sync_before(self):
        """The last sync of what comes before the calls fails: no call is made, and that is said."""
        root = self.copy('last-sync')
        ended, _ = self.disturbed(root, self.last_sync[-1], errno.EIO)
        hold(ended[0] == 1 and '%s: Input/output error (os error 5)\n' % HOME in ended[2]
             and self.seen(root) == self.stages[-1],
             'what comes before the calls may not last: none is made: %s' % self.name, ended)


class OfHistory(Command):
    """A command on a history alone, as `keep`."""

    def after_call(self, number):
        """A directory that can't be removed is left."""
        if self.name == 'forget' and calls_of(self.calls)[number - 1].name == 'rmdir':
            return {**self.after, HOME: self.stages[0][HOME]}
        return self.after

    def kill(self, number):
        """The command is killed, and run again, or a run that changes something comes next."""
        root = self.copy('kill-%d' % number)
        self.disturbed(root, number, 'kill')
        # (without a history a recovery only says so)
        there = [word.replace('ROOT', root) for word in self.words if word.startswith('--history')]
        recovered = self.unitroot.on(root, 'recover', *there)
        now, before = self.seen(root), self.stages[0]
        homes = (HOME, BESIDE)
        faults = ['%s is left' % path for path in now if path.startswith(homes)
                  and path not in before and path not in self.after and path not in homes]
        if recovered[0] == 0:
            faults += self.of_state(root, *self.stages, self.after)
        ended, _ = self.disturbed(root, 0, 'kill')
        history = BESIDE + '/history' if there else HISTORY
        is_other = (history in now) != (history in before)
        if ended[0] != int(is_other):
            faults.append('the second time: %s' % (ended,))
        rid_of(root, root + BESIDE)
        return faults

    def cannot_remove_its_directory(self):
        """`forget` leaves a directory that it may not remove, and says if the system failed."""
        number = [call.name for call in calls_of(self.calls)].index('rmdir') + 1
        failed = 'unitroot: %s: Input/output error (os error 5): %s\n' % (HOME, DONE)
        for error, status, said, title in (
                (errno.EACCES, 0, '', 'forget leaves a directory that the user may not remove'),
                (errno.EBUSY, 0, '', 'forget leaves a directory that is a mount point'),
                (errno.EIO, 5, failed, "forget says that its directory could not be removed")):
            root = self.copy('directory-%d' % error)
            ended, _ = self.disturbed(root, number, error)
            hold(ended == (status, '', said) and os.listdir(root + HOME) == [], title, ended)

    def may_leave_its_directory(self):
        """It is killed before a file has its name, or after the last one was removed."""
        last = [int(call[0]) for call in self.calls if 'history' in (call[4], call[5])
                and call[1] in ('rename', 'unlink')][-1]
        root = self.copy('empty')
        self.disturbed(root, last + (self.name == 'forget'), 'kill')
        ended = self.unitroot.on(root, 'recover')
        hold(ended == (1, '', 'unitroot: no history: unitroot --root=DIR keep begins one\n')
             and os.listdir(root + HOME) == [],
             '%s that is killed may leave an empty directory' % self.name, ended)
        hold(self.unitroot.on(root, 'keep')[0] == 0, 'a history begins in an empty directory')


def kept_twice(unitroot, room):
    """A root with a history of one run, and an earlier history."""
    root = small(room, 'kept-twice')
    for words in (('keep',), ('mask', 'cron'), ('keep', '--anew'), MASK):
        ended = unitroot.on(root, *words, env=at(TUESDAY))
        hold(ended[0] == 0, 'before the faults: %s' % ' '.join(words), ended)
    return root


def kept_once(unitroot, room, name, *link):
    """A root with a history, in which others made a link since."""
    root = small(room, name)
    for words in (('keep',), ('mask', 'cron')):
        ended = unitroot.on(root, *words, env=at(TUESDAY))
        hold(ended[0] == 0, 'before the faults: %s' % ' '.join(words), ended)
    os.symlink(link[1], '%s%s/%s' % (root, ETC, link[0]))
    return root


def of_histories(unitroot, room, every, pool):
    """Commands on a history alone."""
    kept, plain = kept_twice(unitroot, room), small(room, 'of-a-plain-root')
    with_directory = copied(plain, '%s/of-a-plain-root-too' % room)
    os.mkdir(with_directory + BESIDE, 0o700)
    beside = ('keep', '--history=ROOT' + BESIDE)
    for name, root, words in (('keep', plain, ('keep',)), ('anew', kept, ('keep', '--anew')),
                              ('forget', kept, ('forget',)), ('keep-beside', plain, beside),
                              ('keep-in-a-directory', with_directory, beside)):
        command = OfHistory(unitroot, room, name, root, words)
        if name == 'forget':
            without_earlier(command)
        command.all_fail(pool, every)
        command.all_killed(pool, every)
        if name in ('keep', 'forget'):
            command.may_leave_its_directory()
        if name == 'forget':
            command.cannot_remove_its_directory()
        yield command


def without_earlier(command):
    """`forget` removes earlier histories first, and so may have removed some if it fails."""
    before = command.stages[0]
    command.stages.append({path: what for path, what in before.items() if path != HISTORY + '.1'})


def of_stages(unitroot, room, runs):
    """Commands before which something else is done."""
    refused = {'given': 'anna enable none.service\n'}
    others = kept_once(unitroot, room, 'with-others', 'sshd.service', VENDOR + '/ssh.service')
    yield Command(unitroot, room, 'run-with-others', others, MASK).has_stage('run', **refused)
    spaced = kept_once(unitroot, room, 'with-a-space', 'x.service', '/opt/a b.service')
    yield Command(unitroot, room, 'run-anew', spaced, MASK).has_stage('run', **refused)
    for name, words in (('run-promised', MASK), ('anew-promised', ('keep', '--anew'))):
        command = Command(unitroot, room, name, runs.middle, words).has_stage('recover')
        command.recovery = command.first_history()
        yield command


def of_another_root(unitroot, room, kept, every, pool):
    """Commands on the history of another root, and `forget` on a promised run, are refused whatever
    fails."""
    root = small(room, 'of-another-root')
    ended = unitroot.on(root, 'keep', '--history=%s' % root + BESIDE)
    hold(ended[0] == 0, 'a history beside a root', ended)
    there = '--history=ROOT' + BESIDE
    for name, base, words in (('forget-promised', kept, ('forget',)),
                              ('forget-of-another', root, ('forget', there)),
                              ('anew-of-another', root, ('keep', '--anew', there))):
        command = Command(unitroot, room, name, base, words, status=1)
        command.all_fail(pool, every)
        yield command


def of_all_stages(unitroot, room, every, pool, runs):
    commands = [*of_stages(unitroot, room, runs)]
    for command in commands:
        command.has_last_sync()
        command.all_fail(pool, every)
        command.all_killed(pool, every)
        command.last_sync_before()
    return commands + [*of_another_root(unitroot, room, runs.middle, every, pool)]


def faults(unitroot, unitadm, room, every):
    runs = Faults(unitroot, room)
    with concurrent.futures.ThreadPoolExecutor(os.cpu_count()) as pool:
        ends = all_of(pool, runs.fail, range(1, len(runs.calls) + 1, every),
                      'a call of a run fails: root and history are as the status says')
        if every == 1:
            for status, text in ((1, ''), (5, PROMISED), (5, DONE), (5, '')):
                hold(any(ended[0] == status and text in ended[2] for ended in ends),
                     'some runs end with status %d: %s' % (status, text))
        recovery = runs.killed_in_the_middle()
        hold(os.path.lexists(runs.middle + PROMISE), 'a run is promised whose recovery fails')
        all_of(pool, runs.fail_recovery, range(1, len(recovery) + 1, every),
               'a call of a recovery fails: root and history are as the status says')
        commands = [*of_histories(unitroot, room, every, pool),
                    *of_all_stages(unitroot, room, every, pool, runs)]
    orders(runs, recovery, commands)
    for command in commands:
        if command.name.startswith('run-'):
            as_unitadm(unitroot, unitadm, command.new, 'unitadm has the rows: %s' % command.name)
    of_a_full_disk(unitroot, room)
    print('faults: %d runs with a fault, and %d kills: each %d. of %d calls of a run, of %d of a '
          'recovery, and of %s' % (
              ran['failed'], ran['killed'], every, len(runs.calls), len(recovery),
              ', '.join('%d of %s' % (len(it.numbers(1)), it.name) for it in commands)), flush=True)


def orders(runs, recovery, commands):
    """What is written to the disk before what."""
    in_order('a run', runs.new + HOME, calls_of(runs.calls), {runs.new + HOME})
    in_order('a recovery', runs.finished + HOME, calls_of(recovery), runs.unsynced(runs.finished))
    for command in commands:
        if command.after != command.stages[0]:
            home = command.home_of(command.new)
            unsynced = {home} if HISTORY in command.stages[0] else ()
            if command.recovery:
                unsynced = runs.unsynced(command.new)
            in_order(command.name, home, calls_of(command.calls), unsynced)


def of_a_full_disk(unitroot, room):
    """A root on a small file system, which is filled to its last byte."""
    title = 'a full disk: a run on a kept root changes nothing, and says why'
    base, place = small(room, 'for-a-full-disk'), '%s/full' % room
    os.mkdir(place)
    mount = ['mount', '-t', 'tmpfs', '-o', 'size=256k,mode=755', 'tmpfs', place]
    if os.geteuid() or subprocess.run(mount, capture_output=True).returncode:
        skipped(title, 'no mount')
        return
    try:
        root = copied(base, '%s/root' % place)
        hold(unitroot.on(root, 'keep')[0] == 0, 'a history on a small disk')
        os.mkdir('%s/empty' % place, 0o700)
        filled(place)
        before = whole(root)
        ended = unitroot.on(root, 'mask', 'ssh')
        hold(ended[0] == 1 and 'No space left on device' in ended[2] and whole(root) == before,
             title, ended)
        ended = unitroot.on(root, 'keep', '--anew')
        hold(ended[0] == 1 and 'No space left on device' in ended[2] and whole(root) == before,
             'a full disk: keep --anew changes nothing, and says why', ended)
        ended = unitroot.on(base, 'keep', '--history=%s/empty' % place)
        hold(ended[0] == 1 and 'No space left on device' in ended[2]
             and os.listdir('%s/empty' % place) == [],
             'keep that fails leaves a directory that was there before', ended)
        os.unlink('%s/filler' % place)
        ended = unitroot.on(root, 'mask', 'ssh')
        hold(ended[0] == 0, 'with room again the run is made', ended)
    finally:
        subprocess.run(['umount', place], check=True)


def filled(place):
    """Fills a disk."""
    with open('%s/filler' % place, 'wb', buffering=0) as it:
        try:
            while it.write(b'x' * 4096):
                pass
        except OSError as error:
            hold(error.errno == errno.ENOSPC, 'the disk is full', error)

"""Runs on a root with a history that are killed before one system call after another, and are run
again.

A run of eight calls makes, replaces and removes files and links, and makes and empties directories.
It is killed before its n-th system call; then `recover` is run. History and root must be the old
ones or the new ones, whole: the new ones if the run was promised. Nothing of ours may be left. The
recovery is killed as well, before its m-th call, and run again. And between kill and recovery some
of the changes are put back by hand, as a crash may lose what was not synced.
"""
import concurrent.futures
import os
import random

from root_checks import ETC, VENDOR, differences, hold, laid
from kept_checks import (HISTORY, HOME, PROMISE, TUESDAY, OURS, at, copied, left_by_us, put_back,
                         rid_of, rows_of, of_unitadm, tracer_in, units, whole)

# (a file is replaced by a remove and a place)
CALLS = """anna place %(e)s/new.service file [Unit]\\n
anna remove %(e)s/old.service
anna remove %(e)s/file.service
anna place %(e)s/file.service link %(v)s/ssh.service
bob enable two.service
bob disable cron.service
bob set-default rescue.target
eva unmask masked.service
""" % {'e': ETC, 'v': VENDOR}
MOST_SHOWN = 20


def entries():
    made = {'%s/%s.service' % (ETC, name): b'[Unit]\n' for name in ('file', 'old')}
    return {**units('cron', 'off', 'ssh'), **made,
            '%s/two.service' % VENDOR: b'[Install]\nWantedBy=alpha.target beta.target\n',
            '%s/rescue.target' % VENDOR: b'[Unit]\n',
            '%s/default.target' % ETC: '%s/multi-user.target' % VENDOR,
            '%s/masked.service' % ETC: '/dev/null',
            '%s/multi-user.target.wants/cron.service' % ETC: '%s/cron.service' % VENDOR}


class Runs:
    """Runs on copies of one root, whose history has one run."""

    def __init__(self, unitroot, room):
        self.unitroot, self.room, self.tracer = unitroot, room, tracer_in(room)
        self.old = laid(room, 'old', entries())
        os.chmod('%s%s/file.service' % (self.old, ETC), 0o640)
        for words in (('keep',), ('mask', 'first.service')):
            ended = unitroot.on(self.old, *words, env=at(TUESDAY))
            hold(ended[0] == 0, 'before the kills: %s' % words[0], ended)
        self.before = whole(self.old)
        self.new = copied(self.old, '%s/new' % room)
        ended, self.calls = self.killed(self.new, 0)
        hold(ended[0] == 0, 'a run that nothing disturbs ends with status 0', ended)
        self.after = whole(self.new)
        self.paths = [path for path in sorted({*self.before, *self.after})
                      if self.before.get(path) != self.after.get(path) and path.startswith(ETC)
                      and not os.path.isdir((self.old if path in self.before else self.new) + path)]
        self.rows = rows_of(ended[1])

    def killed(self, root, number):
        return self.unitroot.disturbed(self.tracer, root, number, 'kill', 'run', given=CALLS,
                                       env=at(TUESDAY + 86400))

    def recovered(self, root, number=0):
        return self.unitroot.disturbed(self.tracer, root, number, 'kill', 'recover',
                                       env=at(TUESDAY + 90000))

    def outcome(self, root, promised):
        """What is wrong after the last recovery."""
        now = whole(root)
        faults = ['%s is left' % path for path in left_by_us(root, self.before)]
        wanted = self.after if promised or now.get(HISTORY) == self.after[HISTORY] else self.before
        name = 'new' if wanted is self.after else 'old'
        return faults + ['not the %s root: %s' % (name, it) for it in differences(now, wanted)]

    def is_promised(self, root):
        return os.path.lexists(root + PROMISE)

    def mixed(self, root):
        """The paths that are neither as before nor as after."""
        return ['%s is neither the old nor the new' % path for path, what in whole(root).items()
                if not OURS.fullmatch(path) and what not in (self.before.get(path),
                                                             self.after.get(path))]

    def kill(self, number):
        """A killed run and a recovery: what is wrong, and whether the run was promised."""
        root = copied(self.old, '%s/kill-%d' % (self.room, number))
        self.killed(root, number)
        faults, promised = self.mixed(root), self.is_promised(root)
        ended, _ = self.recovered(root)
        faults += ['recover: %s' % (ended,)] * (ended[0] != 0)
        if promised and 'finished a run of 2026-12-02T08:30:05Z by anna: 8 rows' not in ended[2]:
            faults.append('recover says nothing of what it finished: %s' % (ended,))
        faults += self.outcome(root, promised)
        rid_of(root)
        return faults, promised

    def kill_again(self, number, again):
        """The same, but the recovery is killed too, before this call of its own."""
        root = copied(self.old, '%s/again-%d-%d' % (self.room, number, again))
        self.killed(root, number)
        promised = self.is_promised(root)
        self.recovered(root, again)
        faults = self.mixed(root)
        ended, _ = self.recovered(root)
        faults += ['recover: %s' % (ended,)] * (ended[0] != 0)
        faults += self.outcome(root, promised)
        rid_of(root)
        return faults

    def put_back(self, seed, numbers):
        """A run that is killed, some of whose changes are put back by hand, and a recovery."""
        chosen = random.Random(seed)
        root = copied(self.old, '%s/back-%d' % (self.room, seed))
        self.killed(root, chosen.choice(numbers))
        promised = self.is_promised(root)
        now = whole(root)
        made = [path for path in self.paths if now.get(path) == self.after.get(path)]
        back = [path for path in made if chosen.random() < 0.5] if promised else []
        for path in back:
            put_back(path, self.old, root)
        ended, _ = self.recovered(root)
        faults = ['recover: %s' % (ended,)] * (ended[0] != 0)
        faults += self.outcome(root, promised)
        rid_of(root)
        return ['%s put back: %s' % (back, it) for it in faults]


def all_hold(title, faults):
    """One check of many runs, of which the first faults are shown."""
    hold(not faults, title, '%d faults: %s' % (len(faults), faults[:MOST_SHOWN]))


def kills(unitroot, unitadm, room, every, again, times, seed):
    """Kills in runs and in recoveries, and `times` runs with changes put back."""
    runs = Runs(unitroot, room)
    of_unitadm(unitadm, runs.after[HISTORY][3],
               'unitadm has the rows of the run that nothing disturbs',
               '1 anna ok\n  + %s/first.service -> /dev/null\n' % ETC + runs.rows)
    numbers = [*range(1, len(runs.calls) + 1, every)]
    with concurrent.futures.ThreadPoolExecutor(os.cpu_count()) as pool:
        ends = [*pool.map(runs.kill, numbers)]
        all_hold('killed before its n-th call and recovered, a root is the old or the new, whole',
                 ['call %d: %s' % (number, fault) for number, (faults, _) in zip(numbers, ends)
                  for fault in faults])
        promised = [number for number, (_, is_promised) in zip(numbers, ends) if is_promised]
        hold(promised and len(promised) < len(numbers),
             'some runs were promised when they were killed, and some not')
        cases = [(number, m) for number, m in second_kills(runs, promised, again)]
        faults = [*pool.map(lambda case: runs.kill_again(*case), cases)]
        all_hold('the recovery is killed too, before its m-th call, and run again',
                 ['calls %s: %s' % (case, fault) for case, those in zip(cases, faults)
                  for fault in those])
        seeds = range(seed, seed + times)
        faults = [*pool.map(lambda it: runs.put_back(it, promised or numbers), seeds)]
        all_hold('changes that are put back between kill and recovery are made again',
                 ['seed %d: %s' % (it, fault) for it, those in zip(seeds, faults)
                  for fault in those])
    print('kills: %d of %d calls, %d of them after the promise; %d recoveries were '
          'killed; %d times changes were put back' % (
              len(numbers), len(runs.calls), len(promised), len(cases), times), flush=True)


def second_kills(runs, promised, again):
    """Which calls of which recoveries: each `again`-th, beginning with another."""
    if not promised:
        return []
    root = copied(runs.old, '%s/length' % runs.room)
    runs.killed(root, promised[0])
    length = len(runs.recovered(root)[1])
    rid_of(root)
    hold(os.path.isdir(runs.old + HOME), 'the history is in its directory')
    return [(number, m) for number in promised
            for m in range(1 + number % again, length + 1, again)]

"""The week of one root: three operators, what dpkg changed, a crash, and Friday's undo of Tuesday's
change.

All that is printed is compared, whole. docs/ROOTS.md shows the commands as they are typed, with
what a terminal shows of each, byte for byte. The history that the week leaves has, by unitadm, the
rows that unitroot reports.
"""
import os
import re

from root_checks import ETC, HERE, VENDOR, hold
from kept_checks import (HISTORY, HOME, PROMISE, TUESDAY, as_unitadm, at, copied, of_unitadm,
                         reported, rid_of, small, text_of, tracer_in, whole)

DAY = 86400
PAGE = '%s/../docs/ROOTS.md' % HERE
MOST_LINES = 40
WANTS = ETC + '/multi-user.target.wants'
LINK = '%s/%%s.service -> %s/%%s.service\n' % (WANTS, VENDOR)
MASK = '%s/nfs-server.service -> /dev/null\n' % ETC
CREATED = 'Created symlink web%s/%s.service → %s.\n'
PROMISED = 'unitroot: a run is promised: the next run that changes something finishes it\n'
SCRIPT = 'bob mask nfs-server.service\nbob enable cron.service\n'
# Days since Tuesday, a title, the words, the status, and what is printed.
BEFORE_DPKG = [
    (-1, 'Monday: the root is kept from now on', 'keep', 0, '',
     'unitroot: the history is in %s\n' % HOME),
    (-1, 'Monday: anna enables ssh', '--as=anna enable ssh', 0, '',
     CREATED % (WANTS, 'ssh', VENDOR + '/ssh.service')),
    (0, 'Tuesday: bob masks nfs-server and enables cron', 'run tuesday', 0,
     '2 bob ok\n  + %(m)s3 bob ok\n  + %(c)s== changes\n  + %(c)s  + %(m)s'
     % {'m': MASK, 'c': LINK % ('cron', 'cron')}, ''),
]
WEDNESDAY = [
    (1, 'Wednesday: eva masks ssh, after dpkg has made a link', '--as=eva mask ssh', 0, '',
     'unitroot: others changed the root since the last run: row 4 by outside\n'
     + CREATED % (ETC, 'ssh', '/dev/null')),
]
UNMASK = ('--as=anna', 'unmask', 'ssh')
AFTER_THE_CRASH = [
    (2, 'Thursday: a question says that a run is promised', 'is-enabled ssh', 1, 'masked\n',
     PROMISED),
    (2, 'Thursday: recover finishes the run', 'recover', 0, '',
     'unitroot: finished a run of 2026-12-03T08:30:05Z by anna: 1 row\n'),
    (3, "Friday: bob's undo of Tuesday's first change", '--as=bob undo 2', 0, '',
     'Removed "web%s/nfs-server.service".\n' % ETC),
    (3, 'Friday: the log of the week', 'log', 0, """\
ROW TIME                OPERATOR CALL                          CHANGES UNDONE BY
  1 2026-11-30 08:30:05 anna     enable ssh.service                  1
  2 2026-12-01 08:30:05 bob      mask nfs-server.service             1         7
  3 2026-12-01 08:30:05 bob      enable cron.service                 1
  4 2026-12-02 08:30:05 outside  place /etc/systemd/system/...       1
  5 2026-12-02 08:30:05 eva      mask ssh.service                    1
  6 2026-12-03 08:30:05 anna     unmask ssh.service                  1
  7 2026-12-04 08:30:05 bob      undo 2                              1
""", ''),
]
ROWS = ('1 anna ok\n  + ' + LINK % ('ssh', 'ssh') + '2 bob ok\n  + ' + MASK + '3 bob ok\n  + '
        + LINK % ('cron', 'cron')
        + '4 outside ok\n  + %s/sshd.service -> %s/ssh.service\n' % (ETC, VENDOR)
        + '5 eva ok\n  + %s/ssh.service -> /dev/null\n' % ETC
        + '6 anna ok\n  - %s/ssh.service -> /dev/null\n' % ETC + '7 bob undid 2\n  - ' + MASK)


class Week:
    """The root of the week, and what a terminal shows of it."""

    def __init__(self, unitroot, room):
        self.unitroot, self.room, self.root = unitroot, room, small(room, 'web')
        self.shown = []
        with open('%s/tuesday' % room, 'w') as it:
            it.write(SCRIPT)

    def shows(self, line, text):
        self.shown.append('$ %s\n%s' % (line, text))

    def runs(self, day, title, line, status, out, said):
        """Runs a command as it is typed, first on a copy, with one stream for what it prints."""
        env = {**at(TUESDAY + DAY * day), 'TZ': 'UTC', 'COLUMNS': '80'}
        words = ('--root=web', *line.split())
        folder = '%s/typed' % self.room
        os.mkdir(folder)
        os.symlink('../tuesday', folder + '/tuesday')
        copied(self.root, folder + '/web')
        self.shows('unitroot --root=web ' + line,
                   self.unitroot.on_a_terminal(folder, *words, env=env))
        rid_of(folder)
        ended = self.unitroot.run(*words, env=env, under=('env', '-C', self.room))
        hold(ended == (status, out, said), title, ended)

    def all(self, days):
        for day in days:
            self.runs(*day)

    def dpkg(self):
        """What dpkg made, as someone would make it by hand."""
        link, target = 'web%s/sshd.service' % ETC, VENDOR + '/ssh.service'
        os.symlink(target, '%s/%s' % (self.room, link))
        self.shows('ln -s %s %s' % (target, link), '')

    def is_on_the_page(self):
        """The page shows the week in one block."""
        text = ''.join(self.shown)
        with open(PAGE, encoding='utf-8') as it:
            blocks = re.findall(r'^```console\n(.*?)^```$', it.read(), re.M | re.S)
        hold(text in blocks, 'docs/ROOTS.md shows the week, byte for byte', text)
        hold(text.count('\n') < MOST_LINES, 'it has less than %d lines' % MOST_LINES)


def week(unitroot, unitadm, room):
    it = Week(unitroot, room)
    root, tracer = it.root, tracer_in(room)
    it.all(BEFORE_DPKG[:2])
    it.shows('cat tuesday', SCRIPT)
    it.all(BEFORE_DPKG[2:])
    it.dpkg()
    it.all(WEDNESDAY)
    killed_before(unitroot, root, tracer, room)
    it.shows('unitroot --root=web ' + ' '.join(UNMASK), 'Killed\n')
    it.all(AFTER_THE_CRASH)
    it.is_on_the_page()
    found = whole(root)
    hold(found.get(ETC + '/nfs-server.service') is None and ETC + '/sshd.service' in found
         and WANTS + '/cron.service' in found and ETC + '/ssh.service' not in found,
         "Friday: only Tuesday's first change is gone")
    of_text(unitroot, unitadm, root)
    numbers_and_rest(unitroot, unitadm, root)
    return root


def of_text(unitroot, unitadm, root):
    text = text_of(root + HOME)
    hold(re.findall(rb'^# run (\S+) login=(\S+)', text, re.M) == [
        (b'2026-%s-%sT08:30:05Z' % (month, day), b'anna') for month, day in
        ((b'11', b'30'), (b'12', b'01'), (b'12', b'02'), (b'12', b'02'), (b'12', b'03'), (b'12',
                                                                                          b'04'))],
        'the history has the time and the login of each run', text)
    hold(re.findall(rb'^\w+ (?:enable|mask|unmask|undo|place) .*', text, re.M) == [
        b'anna enable ssh.service', b'bob mask nfs-server.service', b'bob enable cron.service',
        b'outside place %s/sshd.service link %s/ssh.service' % (ETC.encode(), VENDOR.encode()),
        b'eva mask ssh.service', b'anna unmask ssh.service', b'bob undo 2'],
        'the history has a line for each call', text)
    of_unitadm(unitadm, text, 'unitadm has the rows of the week that unitroot reported', ROWS)
    rows = reported(unitroot, root)
    hold(rows == ROWS, 'show reports the rows that unitadm has', rows)


def killed_before(unitroot, root, tracer, room):
    """Thursday's run, which is killed in the middle: the first call that removes a unit's link."""
    copy = copied(root, '%s/thursday' % room)
    words, env = UNMASK, at(TUESDAY + 2 * DAY)
    calls = unitroot.disturbed(tracer, copy, 0, 'kill', *words, env=env)[1]
    number = [call[0] for call in calls if call[1] == 'unlink' and call[4] == 'ssh.service'][0]
    ended, _ = unitroot.disturbed(tracer, root, int(number), 'kill', *words, env=env)
    hold(ended[0] == 137 and os.path.exists(root + PROMISE)
         and os.path.lexists(root + ETC + '/ssh.service'),
         "Thursday: anna's run is killed in the middle", ended)
    before = whole(root)
    for question in (('mask', 'x.service', '--dry-run'), ('capture',), ('list-unit-files',),
                     ('status', 'cron')):
        ended = unitroot.on(root, *question, env=env)
        hold(ended[2].startswith(PROMISED) and whole(root) == before,
             'what only looks at a root says that a run is promised, and finishes none: %s'
             % question[0], ended)
    ended = unitroot.on(root, 'forget')
    hold(ended == (1, '', 'unitroot: a run is promised: recover finishes it\n')
         and whole(root) == before,
         'message: a run is promised: recover finishes it', ended)


def numbers_and_rest(unitroot, unitadm, root):
    """What else is said of reports, on the root of the week, whose history has seven rows."""
    before = whole(root)

    def same(title, status, out, said, *words, script='', env=None):
        ended = unitroot.on(root, *words, given=script, env={**at(TUESDAY + 4 * DAY), **(env
                                                                                         or {})})
        hold(ended[:2] == (status, out) and (ended[2] if said is None else said) == ended[2] != ''
             or (status, out, said) == ended, title, ended)
        hold(whole(root) == before, '%s: nothing is changed' % title)

    row = '  + %s/x.service -> /dev/null\n' % ETC
    same('a dry run has the numbers that the run would have, and writes nothing', 0,
         '8 a ok\n%s== changes (dry run)\n%s' % (row, row), '', 'run', '--dry-run',
         script='a mask x.service\n')
    same('a later row that depends on a row is named', 1, '',
         'Failed to undo row 5: it is blocked by row 6.\n', 'undo', '5')
    same('a row that was taken back is not taken back again', 1, '',
         'Failed to undo row 2: it was undone by row 7.\n', 'undo', '2')
    same('a dry run of redo', 0, '',
         'Would create symlink %s%s/nfs-server.service → /dev/null.\n' % (root, ETC),
         'redo', '2', '--dry-run')
    same('of two rows one is refused: all or none', 1, '', None, 'undo', '1', '99')
    same('undo in a script needs --rows', 2, '', None, 'run', script='a undo 1\n')
    for words, script in ((('run',), 'outside mask x.service\n'), (('--as=outside', 'mask',
                                                                    'x.service'), '')):
        same('the name outside is that of others alone: %s' % words[0], 2, '', None, *words,
             script=script)
    same('a run without an accepted command is not kept', 1, '', None, 'enable', 'none.service')
    of_rows(unitroot, copied(root, root + '-rows'))
    of_others(unitroot, copied(root, root + '-others'))
    for name in ('rows', 'others'):
        as_unitadm(unitroot, unitadm, '%s-%s' % (root, name), 'unitadm has the rows: %s' % name)


def of_others(unitroot, root):
    """What apply changes, and a row that others took back, on the root of the week."""
    inventory = unitroot.on(root, 'capture')[1]
    unitroot.on(root, 'run', given='a mask others.service\na mask y.service\n')
    text = text_of(root + HOME)
    ended = unitroot.on(root, 'apply', given=inventory)
    hold(ended[0] == 0 and text_of(root + HOME) == text, 'apply does not change a history', ended)
    ended = unitroot.on(root, 'run', '--rows=history', given='a undo 8\n')
    hold(ended[0] == 3 and 'rows 10 to 11 by outside' in ended[2],
         'what apply changes is of outside in the next run', ended)
    hold('row 8: it is blocked by row 10' in ended[2],
         'an undo of what others changed since is refused by the number of their row', ended)


def of_rows(unitroot, root):
    for name, script, rows in (
            ('run', 'a mask x.service\na undo 1\n', ('8 a ok', '9 a undid 8')),
            ('history', 'a mask x.service\na undo 10\n', ('10 a ok', '11 a undid 10'))):
        ended = unitroot.on(root, 'run', '--rows=%s' % name, given=script)
        hold(ended[0] == 0 and all(row in ended[1] for row in rows), '--rows=%s' % name, ended)
    for names, operator in (({'UNITROOT_OPERATOR': 'eva', 'SUDO_USER': 'bob'}, b'eva'),
                            ({'SUDO_USER': 'bob'}, b'bob'),
                            ({'LOGNAME': 'carl'}, b'carl'), ({'LOGNAME': 'no name'}, b'root')):
        unitroot.on(root, 'mask', '%s.service' % operator.decode(), env=names)
        hold(b'\n%s mask %s.service\n' % (operator, operator) in text_of(root + HOME),
             'the operator, if none is given: %s' % names, text_of(root + HOME)[-400:])
    hold(os.path.exists(root + HISTORY), 'the history is still there')

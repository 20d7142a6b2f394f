"""What `log` and `show` say of a small history, whole.

The history has rows of each kind: commands, one that is undone and made again, an undo, a redo, a
refused call, and what others did. The time, the login and the operators are fixed.
"""
import fcntl
import os
import shutil

from root_checks import ETC, VENDOR, hold
from kept_checks import HISTORY, HOME, PROMISE, TUESDAY, as_unitadm, at, small, whole

DAY = 86400
WANTS = ETC + '/multi-user.target.wants'
ZONE = 'EST5'
PROMISED = 'unitroot: a run is promised: the next run that changes something finishes it\n'
NO_HISTORY = 'unitroot: no history: unitroot --root=DIR keep begins one\n'
# Days since Tuesday, the words, and the script.
RUNS = [
    (0, ('enable', 'ssh', '--as=anna'), ''),
    (0, ('run', '--keep-going'),
     'bob mask nfs-server.service cron.service\nbob enable no.service\n'),
    (1, ('unmask', 'cron', '--as=eva'), ''),
    (1, ('mask', 'cron.service', '--as=eva'), ''),
    (2, ('undo', '1', '--as=anna'), ''),
    (2, ('redo', '1', '--as=anna'), ''),
    (3, ('undo', '1', '--as=bob'), ''),
]

# The rows: days since Tuesday, the operator, the call, how many changes, and the row that undid it.
ROWS = [
    (0, 'anna', 'enable ssh.service', 1, 10),
    (0, 'bob', 'mask nfs-server.service cron.service', 2, None),
    (0, 'bob', 'enable no.service', 0, None),
    (1, 'eva', 'unmask cron.service', 1, None),
    (1, 'outside', 'place %s/sshd.service link %s/ssh.service' % (ETC, VENDOR), 1, None),
    (1, 'eva', 'mask cron.service', 1, None),
    (2, 'anna', 'undo 1', 1, None),
    (2, 'anna', 'redo 1', 1, None),
    (3, 'outside', 'remove %s/sshd.service' % ETC, 1, None),
    (3, 'bob', 'undo 1', 1, None),
]
ALL = """\
ROW TIME                OPERATOR CALL                          CHANGES UNDONE BY
  1 2026-12-01 08:30:05 anna     enable ssh.service                  1        10
  2 2026-12-01 08:30:05 bob      mask nfs-server.service cr...       2
  3 2026-12-01 08:30:05 bob      enable no.service                   0
  4 2026-12-02 08:30:05 eva      unmask cron.service                 1
  5 2026-12-02 08:30:05 outside  place /etc/systemd/system/...       1
  6 2026-12-02 08:30:05 eva      mask cron.service                   1
  7 2026-12-03 08:30:05 anna     undo 1                              1
  8 2026-12-03 08:30:05 anna     redo 1                              1
  9 2026-12-04 08:30:05 outside  remove /etc/systemd/system...       1
 10 2026-12-04 08:30:05 bob      undo 1                              1
"""
EMPTY = 'ROW TIME OPERATOR CALL CHANGES UNDONE BY\n'

SSH = '%s/ssh.service -> %s/ssh.service\n' % (WANTS, VENDOR)
RUN = 'run: 2026-12-%02d 08:30:05 by anna, with unitroot-1%s\n'
CRON = '%s/cron.service' % ETC
# What `show` says of a row of each kind.
SHOWN = {
    1: 'row 1 of 10\n' + RUN % (1, '') + 'operator: anna\ncall: enable ssh.service\nreply: ok\n'
       '  + ' + SSH + 'looked at:\n' + ''.join('  %s/ssh.service\n' % it for it in (
           WANTS, ETC, '/run/systemd/system', VENDOR, '/usr/local/lib/systemd/system'))
       + 'undo: already undone by row 10\n',
    2: 'row 2 of 10\n' + RUN % (1, '') + 'operator: bob\n'
       'call: mask nfs-server.service cron.service\nreply: ok\n'
       + '  + %s -> /dev/null\n  + %s/nfs-server.service -> /dev/null\n' % (CRON, ETC)
       + 'looked at:\n  %s\n  %s/nfs-server.service\n' % (CRON, ETC)
       + 'undo: can be undone with the later rows that depend on it: undo 6 4 2\n',
    3: 'row 3 of 10\n' + RUN % (1, '') + 'operator: bob\ncall: enable no.service\n'
       'reply: refused: no.service not found\nlooked at:\n' + ''.join(
           '  %s/no.service\n' % it for it in (ETC, '/run/systemd/system', VENDOR,
                                               '/usr/local/lib/systemd/system'))
       + 'undo: not a command\n',
    6: 'row 6 of 10\n' + RUN % (2, '') + 'operator: eva\ncall: mask cron.service\nreply: ok\n'
       + '  + %s -> /dev/null\nlooked at:\n  %s\nundo: can be undone\n' % (CRON, CRON),
    7: 'row 7 of 10\n' + RUN % (3, '') + 'operator: anna\ncall: undo 1\nreply: undid 1\n  - ' + SSH
       + 'undo: not a command\n',
    8: 'row 8 of 10\n' + RUN % (3, '') + 'operator: anna\ncall: redo 1\nreply: redid 1\n  + ' + SSH
       + 'undo: not a command\n',
    9: 'row 9 of 10\n' + RUN % (4, ': what others had changed')
       + 'operator: outside\ncall: remove %s/sshd.service\nreply: ok\n' % ETC
       + '  - %s/sshd.service -> %s/ssh.service\n' % (ETC, VENDOR)
       + 'looked at:\n  %s/sshd.service\nundo: can be undone\n' % ETC,
    10: 'row 10 of 10\n' + RUN % (4, '') + 'operator: bob\ncall: undo 1\nreply: undid 1\n  - ' + SSH
        + 'undo: not a command\n',
}


def change(path, target, is_removed=False):
    """A change as JSON has it: a link that is made or removed."""
    sides = ('null', '{"link":"%s"}' % target)
    return '{"after":%s,"before":%s,"path":"%s"}' % (*(sides if is_removed else sides[::-1]), path)


# Rows as JSON, up to the members that only `show` has, and from there on.
AS_JSON = {
    2: ('{"call":["mask","nfs-server.service","cron.service"],"changes":['
        + change(CRON, '/dev/null') + ',' + change(ETC + '/nfs-server.service', '/dev/null')
        + '],"login":"anna",',
        '"looked_at":[{"kind":"path","path":"%s"},{"kind":"path","path":"%s/nfs-server.service"}],'
        % (CRON, ETC),
        '"made":true,"notices":[],"operator":"bob","program":"unitroot-1","reply":"ok","row":2,'
        '"time":"2026-12-01T08:30:05Z",', '"undo":[6,4,2],"undo_refusal":null,',
        '"undone_by":null}\n'),
    3: ('{"call":["enable","no.service"],"changes":[],"login":"anna",',
        '"looked_at":[%s],' % ','.join('{"kind":"path","path":"%s/no.service"}' % it for it in (
            ETC, '/run/systemd/system', VENDOR, '/usr/local/lib/systemd/system')),
        '"made":true,"operator":"bob","program":"unitroot-1",'
        '"refusal":{"kind":"not-found","unit":"no.service"},"reply":"refused","row":3,'
        '"time":"2026-12-01T08:30:05Z",',
        '"undo":[],"undo_refusal":{"kind":"not-a-command","row":3},', '"undone_by":null}\n'),
    10: ('{"call":["undo","1"],"changes":['
         + change(WANTS + '/ssh.service', VENDOR + '/ssh.service', True) + '],"login":"anna",',
         '"looked_at":[],',
         '"made":true,"of":1,"operator":"bob","program":"unitroot-1","reply":"undid","row":10,'
         '"time":"2026-12-04T08:30:05Z",',
         '"undo":[],"undo_refusal":{"kind":"not-a-command","row":10},', '"undone_by":null}\n'),
}


def made(unitroot, room):
    """A root with the history."""
    root = small(room, 'log')
    unitroot.on(root, 'keep', env=at(TUESDAY))
    for place, (day, words, script) in enumerate(RUNS):
        if place == 3:
            os.symlink(VENDOR + '/ssh.service', root + ETC + '/sshd.service')
        if place == 6:
            os.unlink(root + ETC + '/sshd.service')
        unitroot.on(root, *words, given=script, env=at(TUESDAY + DAY * day))
    return root


class Log:
    """Asks a root, which must not change, and compares all that is printed."""

    def __init__(self, unitroot, root):
        self.unitroot, self.root, self.before = unitroot, root, whole(root)

    def says(self, title, out, *words, status=0, said='', env=None):
        env = {'TZ': 'UTC', 'COLUMNS': '80', **(env or {})}
        ended = self.unitroot.on(self.root, *words, env=env)
        hold(ended == (status, out, said), 'log and show: %s' % title, ended)
        hold(whole(self.root) == self.before, 'log and show: %s: nothing is changed' % title)

    def refuses(self, title, said, *words):
        self.says(title, '', *words, status=2, said=said)


def table(*numbers, columns=80, hour=8, heads=True):
    """The table of these rows, in a terminal with so many columns, or any number of them."""
    calls = [ROWS[n - 1][2] for n in numbers]
    wide = max([4, *map(len, calls)])
    if columns:
        wide = min(wide, max(12, columns - 51))
    lines = ['ROW TIME                OPERATOR %s CHANGES UNDONE BY' % 'CALL'.ljust(wide)] * heads
    for n in numbers:
        day, operator, call, changes, undone_by = ROWS[n - 1]
        call = call if len(call) <= wide else call[:wide - 3] + '...'
        lines.append('%3d 2026-12-%02d %02d:30:05 %-8s %s %7d%s' % (
            n, day + 1, hour, operator, call.ljust(wide), changes,
            '' if undone_by is None else ' %9d' % undone_by))
    return ''.join(line + '\n' for line in lines)


def tables(log):
    all_rows, est = range(1, 11), {'TZ': ZONE}
    log.says('all rows', ALL, 'log')
    hold(table(*all_rows) == ALL, 'the tables of this check are laid out alike')
    log.says('no heads', table(*all_rows, heads=False), 'log', '--no-legend')
    log.says('the last rows', table(9, 10), 'log', '-n', '2')
    log.says('rows of a unit', table(2, 4, 6), 'log', '--unit=cron')
    log.says('an undo concerns the units of the row that it undoes', table(1, 5, 7, 8, 9, 10),
             'log', '--unit=ssh.service')
    log.says('rows of an operator', table(4, 6), 'log', '--operator=eva')
    log.says('rows of others', table(5, 9), 'log', '--operator=outside')
    log.says('the last of the rows of an operator', table(7, 8), 'log', '--operator=anna', '-n',
             '2')
    log.says('no row', EMPTY, 'log', '--operator=nobody')
    log.says('rows since a day', table(7, 8, 9, 10), 'log', '--since=2026-12-03')
    log.says('rows since a time', table(*all_rows[3:]), 'log', '--since=2026-12-02 08:30')
    log.says('rows since a second later', table(7, 8, 9, 10), 'log', '--since=2026-12-02 08:30:06')
    log.says('rows since a time in UTC', table(9, 10, hour=3), 'log',
             '--since=2026-12-04T08:30:05Z', env=est)
    log.says('the local time', table(10, hour=3), 'log', '-n', '1', env=est)
    log.says('a time in the local zone', table(9, 10, hour=3), 'log', '--since=2026-12-04 03:30:05',
             env=est)
    log.says('a second later in the local zone', EMPTY, 'log', '--since=2026-12-04 03:30:06',
             env=est)
    log.says('a zone by its name', table(10, hour=9), 'log', '-n', '1', env={'TZ': 'Europe/Berlin'})
    log.says('a narrow terminal leaves 12 columns for calls', table(2, columns=40), 'log',
             '--unit=nfs-server', env={'COLUMNS': '40'})
    log.says('no number of columns is 80', table(2), 'log', '--unit=nfs-server',
             env={'COLUMNS': 'wide'})
    log.says('a wide terminal', table(2, columns=200), 'log', '--unit=nfs-server',
             env={'COLUMNS': '200'})
    log.says('calls that are not cut', table(*all_rows, columns=0), 'log', '--full')


def refusals(log):
    bad = 'unitroot: bad time: no YYYY-MM-DD, YYYY-MM-DD HH:MM[:SS] or YYYY-MM-DDTHH:MM:SSZ: `%s`\n'
    for word in ('yesterday', '2026-02-30', '2026-12-01T08:30:05', '2026-12-01 8:30', '20261201'):
        log.refuses('no time: %s' % word, bad % word, 'log', '--since=%s' % word)
    long = 'x' * 300
    log.refuses('no unit', 'unitroot: bad name: `%s`\n' % long, 'log', '--unit=%s' % long)
    log.says('no such row', '', 'show', '11', status=1, said='unitroot: no such row: 11\n')
    log.says('no such row, as JSON', '', 'show', '11', '--json', status=1,
             said='{"error":"no such row: 11","status":1}\n')


def rows(log):
    for number, text in SHOWN.items():
        log.says('row %d' % number, text, 'show', str(number))
    for number, parts in AS_JSON.items():
        log.says('row %d as JSON' % number, ''.join(parts), 'show', str(number), '--json')
    log.says('rows as JSON', ''.join(''.join(parts[::2]) for parts in AS_JSON.values()), 'log',
             '--json', '--operator=bob')
    log.says('a row in the local time', SHOWN[10].replace('08:30:05', '03:30:05'), 'show', '10',
             env={'TZ': ZONE})


def beside(log):
    """Another question holds the root, as a run that changes it does not."""
    held = os.open(log.root, os.O_RDONLY)
    fcntl.flock(held, fcntl.LOCK_SH)
    log.says('they run beside another question', table(10), 'log', '-n', '1')
    log.says('they run beside another question: show', SHOWN[10], 'show', '10')
    os.close(held)


def promised(unitroot, room, root):
    """The history as it is, and a line that says that a run is promised."""
    copy = '%s/promised' % room
    shutil.copytree(root, copy, symlinks=True)
    shutil.copyfile(copy + HOME + '/history', copy + PROMISE)
    os.chmod(copy + PROMISE, 0o600)
    log = Log(unitroot, copy)
    log.says('a promised run', table(10), 'log', '-n', '1', said=PROMISED)
    log.says('a row and a promised run', SHOWN[10], 'show', '10', said=PROMISED)


def controls(unitroot, room):
    """Control bytes in a login, a call and a target are escaped."""
    root, env = small(room, 'controls'), {**at(TUESDAY), 'LOGNAME': 'a\x1bb', 'SUDO_USER': ''}
    unitroot.on(root, 'keep', env=env)
    unitroot.on(root, 'place', '/etc/systemd/system/x.service', 'link', '/a\x1bb', env=env)
    ended = unitroot.on(root, 'show', '1', env=env)
    hold(ended[0] == 0 and '\x1b' not in ended[1] and ' by a\\x1bb, with ' in ended[1]
         and ' link /a\\x1bb\n' in ended[1] and ' -> /a\\x1bb\n' in ended[1],
         'show escapes control bytes', ended)
    ended = unitroot.on(root, 'log', '--full', env=env)
    hold(ended[0] == 0 and '\x1b' not in ended[1] and ' link /a\\x1bb ' in ended[1],
         'log escapes control bytes', ended)


def begun_again(unitroot, room, root):
    """A new history: the old one is kept under a number, and what is lost to `undo` is said."""
    copy = '%s/begun-again' % room
    shutil.copytree(root, copy, symlinks=True)
    with open(copy + HISTORY, 'rb') as it:
        before = it.read()
    ended = unitroot.on(copy, 'keep', '--anew')
    hold(ended == (0, '', 'unitroot: 10 rows can no longer be undone: the history so far is history.1\n'
                          'unitroot: the history is in /var/lib/unitroot\n'),
         'keep --anew says how many rows can no longer be undone', ended)
    with open(copy + HISTORY + '.1', 'rb') as it:
        hold(it.read() == before, 'keep --anew keeps the text of the old history')
    Log(unitroot, copy).says('after keep --anew no row is left', '', 'log', '--no-legend')


def logs(unitroot, unitadm, room):
    root = made(unitroot, room)
    hold(os.path.exists(root + HISTORY), 'log and show: there is a history')
    log = Log(unitroot, root)
    tables(log)
    refusals(log)
    rows(log)
    beside(log)
    promised(unitroot, room, root)
    as_unitadm(unitroot, unitadm, root, 'unitadm has the rows that log and show report')
    begun_again(unitroot, room, root)
    controls(unitroot, room)
    plain = Log(unitroot, small(room, 'plain'))
    for words in (('log',), ('show', '1')):
        plain.says('no history: %s' % words[0], '', *words, status=1, said=NO_HISTORY)

"""Histories that releases wrote, each of which this version must read and go on with.

tests/histories has a folder for each version, with what that version left of a small root: its
`inventory` without the history, the text of the `history`, the `rows` that unitadm makes of it, and
the `log` as JSON. When a version is released, its folder is written by

    python3 tests/kept_releases.py UNITROOT UNITADM

It is never changed after that: the text of a history is a promise of docs/FORMATS.md. (Version 1
isn't released yet; if its format changes before that, remove its folder and write it again.)
"""
import json
import os
import shutil
import subprocess
import sys
import tempfile

from root_checks import ETC, HERE, VENDOR, Program, entries_of, hold, laid
from kept_checks import (HISTORY, HOME, TUESDAY, Kept, at, of_unitadm, rows_of, small, text_of,
                         whole)

DAY = 86400
FOLDERS = HERE + '/histories'
FILES = ('inventory', 'history', 'rows', 'log')
MASK = ETC + '/nfs-server.service'
# Days since Tuesday, and the script of a run. Before Thursday's, another program makes a link.
RUNS = [
    (0, 'anna enable ssh.service\n'),
    (1, 'bob mask nfs-server.service\nbob enable cron.service\n'),
    (2, 'eva mask ssh.service\n'),
    (3, 'anna undo 1\nanna undo 3\n'),
]
# What is run on such a root now, and which report it has; %d are the numbers of its rows.
UNDO = 'carl undo 2\n', '%d carl undid 2\n  - ' + MASK + ' -> /dev/null\n'
MORE = ('eva unmask ssh.service\ncarl enable cron.service\n',
        '%d eva ok\n  - ' + ETC + '/ssh.service -> /dev/null\n%d carl ok\n  + ' + ETC
        + '/multi-user.target.wants/cron.service -> ' + VENDOR + '/cron.service\n')


def said(ended):
    """What a run printed that must have ended with status 0."""
    if ended[0]:
        sys.exit('status %d: %s' % (ended[0], ended[2]))
    return ended[1]


def kept_root(unitroot, room):
    """A root with a history of some days, and the reports of its runs."""
    root, reports = small(room, 'root'), []
    said(unitroot.on(root, 'keep', env=at(TUESDAY)))
    for day, script in RUNS:
        if day == 2:
            os.symlink(VENDOR + '/ssh.service', root + ETC + '/sshd.service')
        ended = unitroot.on(root, 'run', '--rows=history', given=script,
                            env=at(TUESDAY + DAY * day))
        reports.append(rows_of(said(ended)))
    return root, reports


def record(unitroot, unitadm):
    """Writes the folder of this version."""
    version = said(unitroot.run('--version')).split()[1]
    folder = '%s/%s' % (FOLDERS, version)
    with tempfile.TemporaryDirectory(prefix='releases-') as room:
        root, reports = kept_root(unitroot, os.path.realpath(room))
        text = text_of(root + HOME)
        ran = subprocess.run([unitadm.path], input=text, capture_output=True, check=True)
        rows = rows_of(ran.stdout.decode())
        if not all(report in rows for report in reports):
            sys.exit('unitadm has other rows than unitroot: %s %s' % (rows, reports))
        found = (said(unitroot.on(root, 'capture')).encode(), text, rows.encode(),
                 said(unitroot.on(root, 'log', '--json')).encode())
    os.makedirs(folder)
    for name, it in zip(FILES, found):
        with open('%s/%s' % (folder, name), 'wb') as file:
            file.write(it)
    print(folder)


def file_of(version, name):
    with open('%s/%s/%s' % (FOLDERS, version, name), 'rb') as file:
        return file.read()


def objects(text):
    return [json.loads(line) for line in text.splitlines()]


def is_part(old, new):
    """Whether an object of JSON has all members of an older one, with the same values."""
    if isinstance(old, dict) and isinstance(new, dict):
        return all(name in new and is_part(it, new[name]) for name, it in old.items())
    if isinstance(old, list) and isinstance(new, list):
        return len(old) == len(new) and all(map(is_part, old, new))
    return old == new


def root_of(room, version):
    """The root as this version left it, with its history."""
    root = laid(room, version, entries_of(file_of(version, 'inventory')))
    os.makedirs(root + HOME)
    os.chmod(root + HOME, 0o700)
    shutil.copyfile('%s/%s/history' % (FOLDERS, version), root + HISTORY)
    os.chmod(root + HISTORY, 0o600)
    return root


def reads(unitroot, root, version):
    """The rows that the log has, which must be those of that version."""
    before, old = whole(root), objects(file_of(version, 'log'))
    ended = unitroot.on(root, 'log', '--json')
    now = objects(ended[1])
    hold(ended[0] == 0 and ended[2] == '' and is_part(old, now),
         'the log of version %s has the same rows' % version, ended)
    ended = unitroot.on(root, 'log', '--no-legend')
    hold(ended[0] == 0 and len(ended[1].splitlines()) == len(old),
         'the log of version %s has a line for each row' % version, ended)
    for row in old:
        ended = unitroot.on(root, 'show', str(row['row']))
        hold(ended[0] == 0 and ended[2] == '', 'show has row %d of version %s'
             % (row['row'], version), ended)
    hold(whole(root) == before, 'and nothing has changed')
    return len(old)


def goes_on(unitroot, unitadm, root, version, count):
    """Two runs on the root, whose rows follow those that it has."""
    old, rows = text_of(root + HOME), file_of(version, 'rows').decode()
    of_unitadm(unitadm, old, 'unitadm makes of the history of version %s the same rows' % version,
               rows)
    for day, (script, report) in enumerate((UNDO, MORE), len(RUNS)):
        ended = unitroot.on(root, 'run', '--rows=history', given=script,
                            env=at(TUESDAY + DAY * day))
        wanted = report % tuple(range(count + 1, count + 1 + report.count('%d')))
        count += report.count('%d')
        rows += wanted
        hold(ended[0] == 0 and rows_of(ended[1]) == wanted and ended[2] == '',
             'a run on a root of version %s: %s' % (version, script.split('\n')[0]),
             (ended, 'instead of', wanted))
    text = text_of(root + HOME)
    hold(text.startswith(old), 'the history of version %s is kept, and appended to' % version,
         text)
    of_unitadm(unitadm, text, 'unitadm has the rows of version %s, and those since' % version,
               rows)


def releases(unitroot, unitadm, room):
    versions = sorted(os.listdir(FOLDERS), key=int)
    hold('1' in versions, 'there are histories of releases')
    for version in versions:
        root = root_of(room, version)
        count = reads(unitroot, root, version)
        goes_on(unitroot, unitadm, root, version, count)


if __name__ == '__main__':
    if len(sys.argv) != 3:
        sys.exit(__doc__)
    record(Kept(sys.argv[1]), Program(sys.argv[2]))

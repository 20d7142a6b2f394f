"""Undoing a row with the later rows that depend on it, and what status says of rows.

All that is printed is compared, whole; ROOT is the root.
"""
import json
import os

from root_checks import ETC, VENDOR, hold, skipped
from kept_checks import HISTORY, HOME, TUESDAY, as_unitadm, at, small, text_of, whole

WANTS = ETC + '/multi-user.target.wants'
SSH = WANTS + '/ssh.service'
LOADED = '     Loaded: loaded (%s/ssh.service; %s; preset: enabled)\n'
BOTH = 'unitroot: rows 4, 2 %s undone before row 1\n'

# A title, the words, the script, the status, and what is printed.
ROWS = [
    ('a root is kept', ('keep',), '', 0, '', 'unitroot: the history is in %s\n' % HOME),
    ('anna enables ssh, bob disables it, eva masks cron, anna enables ssh again',
     ('run', '--json'),
     'anna enable ssh.service\nbob disable ssh.service\neva mask cron.service\n'
     'anna enable ssh.service\n', 0, None, ''),
]
REFUSED = [
    ('an undo that a later row blocks names it', ('undo', '1'), '', 1, '',
     'Failed to undo row 1: it is blocked by row 2.\n'),
    ('one row is undone with later ones', ('undo', '1', '2', '--with-later'), '', 2, '', None),
    ('no such row has later ones', ('undo', '9', '--with-later'), '', 1, '',
     'Failed to undo row 9: there is no such row.\n'),
    ('a dry run says which rows would be undone', ('undo', '1', '--with-later', '--dry-run'), '', 0,
     '', BOTH % 'would be' + 'Would remove "ROOT%s".\n' % SSH),
]
UNDONE = [
    ('a row is undone with later ones', ('undo', '1', '--with-later', '--as=bob'), '', 0, '',
     BOTH % 'are' + 'Removed "ROOT%s".\n' % SSH),
    ('it is undone once', ('undo', '1', '--with-later'), '', 1, '',
     'Failed to undo row 1: it was undone by row 7.\n'),
    ('a row on which none depends is undone alone', ('undo', '3', '--with-later'), '', 0, '',
     'Removed "ROOT%s/cron.service".\n' % ETC),
]
STATUSES = [
    ('status names the row that made a link', ('status', 'ssh'), '', 0,
     'ssh.service\n' + LOADED % (VENDOR, 'enabled') + '       Link: %s (row 4 by anna)\n' % SSH, ''),
    ('status names the row that masked a unit', ('status', 'cron'), '', 0,
     'cron.service\n     Loaded: masked (%s/cron.service; masked; preset: enabled)'
     ' (row 3 by eva)\n' % ETC, ''),
    ('status has an object for each row that it names', ('status', 'ssh', 'cron', '--json'), '', 0,
     None, ''),
]


def tell(unitroot, root, cases):
    for title, words, script, status, out, said in cases:
        ended = unitroot.on(root, *words, given=script, env=at(TUESDAY))
        told = ended[1].replace(root, 'ROOT'), ended[2].replace(root, 'ROOT')
        hold(ended[0] == status and out in (None, told[0]) and said in (None, told[1]), title,
             ((ended[0], *told), 'instead of', (status, out, said)))
        yield ended


def undo_with_later(unitroot, root):
    before = whole(root)
    for _ in tell(unitroot, root, REFUSED):
        hold(whole(root) == before, 'and nothing has changed')
    for _ in tell(unitroot, root, UNDONE):
        pass
    left = [line for line in text_of(root + HOME).decode().splitlines() if ' undo ' in line]
    hold(left == ['bob undo 4', 'bob undo 2', 'bob undo 1', 'anna undo 3'],
         'the history has an undo for each of the rows', left)


def status_rows(unitroot, root):
    *_, objects = tell(unitroot, root, STATUSES)
    made = [json.loads(line) for line in objects[1].splitlines()]
    made = [it for it in made if 'made_by' in it]
    hold(made == [{'made_by': 4, 'operator': 'anna', 'path': SSH, 'unit': 'ssh.service'},
                  {'made_by': 3, 'operator': 'eva', 'path': ETC + '/cron.service',
                   'unit': 'cron.service'}], 'the objects have row, operator and path', made)


def dangling_link(unitroot, root):
    """A link that leads nowhere is a unit's path, and one of its links: its row is named once."""
    path = ETC + '/lost.service'
    unitroot.on(root, 'place', path, 'link', '/nowhere/lost.service', env=at(TUESDAY))
    ended = unitroot.on(root, 'status', 'lost', '--json')
    made = [it for it in map(json.loads, ended[1].splitlines()) if 'made_by' in it]
    hold([it['path'] for it in made] == [path], 'a link that leads nowhere has one row', ended)


def status_without_rows(unitroot, root):
    """What others changed since has no row yet, and a history that can't be read names none."""
    os.unlink(root + SSH)
    os.symlink('../ssh.service', root + SSH)
    ended = unitroot.on(root, 'status', 'ssh')
    hold(ended[0] == 0 and ended[1].endswith('       Link: %s\n' % SSH),
         'a link of others has no row yet', ended)
    text = text_of(root + HOME)
    with open(root + HISTORY, 'wb') as history:
        history.write(text[:-10] + b'x' * 10)
    ended = unitroot.on(root, 'status', 'cron')
    hold(ended[0] == 0 and ended[1].endswith('; masked; preset: enabled)\n')
         and ended[2].startswith('unitroot: history: line ')
         and ended[2].endswith(': no rows are named\n'),
         'a history that was changed names no rows, and status says so', ended)
    outside = root + '.outside'
    os.rename(root + HOME, outside)
    ended = unitroot.on(root, 'status', 'cron', '--history=%s' % outside)
    hold(ended[0] == 1 and ended[1] == '' and 'history: line ' in ended[2],
         'but if --history names it, that is an error', ended)
    with open(outside + '/history', 'wb') as history:
        history.write(text)
    ended = unitroot.on(root, 'status', 'cron', '--history=%s' % outside, '--adopt')
    hold(ended[0] == 0 and ended[1].endswith(' (row 3 by eva)\n'),
         'a history outside of the root names rows', ended)


def other_user(unitroot, root):
    """A history that the user may not read names no rows, and that is said."""
    if os.getuid() != 0:
        skipped('a history that the user may not read', 'only root can run as another user')
        return
    ended = unitroot.on(root, 'status', 'cron', under=('setpriv', '--reuid=65534', '--clear-groups'))
    hold(ended[0] == 0 and ended[1].endswith('; masked; preset: enabled)\n')
         and ended[2].endswith(': no rows are named\n'),
         'a history that the user may not read names no rows, and status says so', ended)


def later(unitroot, unitadm, room):
    root = small(room, 'status')
    for _ in tell(unitroot, root, ROWS):
        pass
    status_rows(unitroot, root)
    other_user(unitroot, root)
    dangling_link(unitroot, root)
    status_without_rows(unitroot, root)
    root = small(room, 'later')
    for _ in tell(unitroot, root, ROWS):
        pass
    undo_with_later(unitroot, root)
    as_unitadm(unitroot, unitadm, root, 'unitadm has the rows of an undo with later ones')

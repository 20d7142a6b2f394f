"""Each message of a history in docs/ROOTS.md, word for word, with its status; after it nothing has
changed.

A case has the message as it is on the page, what makes the root odd, the words of a run, and the
path in what is printed.
"""
import concurrent.futures
import fcntl
import os
import re
import shutil

from root_checks import ETC, hold, skipped
from kept_checks import (HISTORY, HOME, PROMISE, TUESDAY, as_unitadm, at, copied, refused, rid_of,
                         small, summed, text_of, tracer_in, whole, write_text)

MASK = ('mask', 'new.service')
LARGEST = 1 << 26


def moved_behind_a_link(root):
    os.rename(root + HOME, root + '/var/lib/moved')
    os.symlink('moved', root + HOME)


def a_file(root):
    shutil.rmtree(root + HOME)
    with open(root + HOME, 'wb'):
        pass


def instead(path, make):
    def change(root):
        if os.path.lexists(root + path):
            os.unlink(root + path)
        make(root + path)
    return change


def lines(change, sums=True):
    """Changes the text of a history; with `sums` as its writer would have."""
    def made(root):
        text = change(text_of(root + HOME))
        write_text(root + HOME, summed(text) if sums else text)
    return made


def elsewhere(change):
    """The same for a history outside of the root, which may be longer."""
    def made(root):
        change(root)
        os.rename(root + HOME, root + '-kept')
    return made


def nothing(root):
    pass


def many(root):
    for number in range(1001):
        with open('%s%s/of-others-%d.service' % (root, ETC, number), 'wb'):
            pass


def cases(other):
    """Message, case, what makes the root so, words, what is printed, environment."""
    link = lambda path: os.symlink('x', path)
    longest = ['%s%d.service' % ('n' * 200, number) for number in range(400)]
    return [
        ('no history: unitroot --root=DIR keep begins one', 'in the root',
         lambda root: shutil.rmtree(root + HOME),
         ('undo', '1'), 'no history: unitroot --root=DIR keep begins one\n', {}),
        ('no history: unitroot --root=DIR keep begins one', 'in the directory of --history',
         nothing,
         (*MASK, '--history=%s/none' % other), 'no history: unitroot --root=DIR keep begins one\n',
         {}),
        ('there is a history already: keep --anew begins again', 'keep', nothing, ('keep',),
         'there is a history already: keep --anew begins again\n', {}),
        ('the root has a history of its own: forget removes it', 'keep --history', nothing,
         ('keep', '--history=%s/second' % other),
         'the root has a history of its own: forget removes it\n', {}),
        ('DIR: a link instead of the directory of a history', 'in the root', moved_behind_a_link,
         MASK,
         '%s: a link instead of the directory of a history\n' % HOME, {}),
        ('DIR: a link instead of the directory of a history', '--history', nothing,
         (*MASK, '--history=%s/link' % other),
         '%s/link: a link instead of the directory of a history\n' % other, {}),
        ('no directory, but a history belongs into it', 'a file', a_file, MASK,
         '%s: no directory, but a history belongs into it\n' % HOME, {}),
        ('DIR: its mode is not 700', 'mode 755', lambda root: os.chmod(root + HOME, 0o755), MASK,
         '%s: its mode is not 700\n' % HOME, {}),
        ('DIR: within the root, but given as a directory outside of it', '--history', nothing,
         (*MASK, '--history=ROOT' + HOME),
         'ROOT%s: within the root, but given as a directory outside of it\n' % HOME, {}),
        ('PATH: not a file, but the history belongs there', 'a directory', instead(HISTORY,
                                                                                   os.mkdir), MASK,
         HISTORY + ': not a file, but the history belongs there\n', {}),
        ('PATH: not a file, but the history belongs there', 'a link', instead(HISTORY, link), MASK,
         HISTORY + ': not a file, but the history belongs there\n', {}),
        ('PATH: not a file, but the history belongs there', 'a link at history.next',
         instead(PROMISE, link), MASK,
         PROMISE + ': not a file, but the history belongs there\n', {}),
        ('history: line N: ', 'a changed line', lines(lambda text: text.replace(b'mask cron',
                                                                                b'mask corn'),
                                                      False),
         MASK, 'its sum differs', {}),
        ('history: line N: ', 'a line outside of a run',
         lines(lambda text: text + b'anna mask x.service\n', False),
         MASK, 'a line outside of a run', {}),
        ('history: line N: ', 'a text that is cut', lines(lambda text: text[:-3], False), MASK,
         'cut short', {}),
        ('history: run N was made by rules R, and these are rules S', 'rules 2',
         lines(lambda text: text.replace(b' rules=1\n', b' rules=2\n')), MASK,
         'history: run 1 was made by rules 2, and these are rules 1', {}),
        ('history: row N has another result under these rules', 'the sum of another tree',
         lines(lambda text: re.sub(rb'tree=sha256:....', b'tree=sha256:0000', text)), MASK,
         'history: row 1 has another result under these rules', {}),
        ("line N of the run can't be kept: REASON", 'a call of many units', nothing, ('mask',
                                                                                      *longest),
         "line 1 of the run can't be kept: ", {}),
        ('the time of the run is none of the years 1970 to 9999', 'SOURCE_DATE_EPOCH', nothing,
         MASK,
         'the time of the run is none of the years 1970 to 9999', at(300000000000)),
    ]


def of_another_user(unitroot, room, base):
    """What only root can try: the history of root, and a run of another user."""
    title = "message: DIR: belongs to another user: one that can't be opened"
    root = copied(base, '%s/of-root' % room)
    if os.geteuid():
        skipped(title, 'not root')
        return
    ended = unitroot.on(root, *MASK, under=('setpriv', '--reuid=65534', '--clear-groups'))
    said = 'unitroot: %s: belongs to another user than the one who runs unitroot\n' % HOME
    hold(ended == (1, '', said), title, ended)


def of_an_unmapped_user(unitroot, room):
    """In a user namespace a file can't be given back to a user who has no number there."""
    title = 'a file of a user without a number here is replaced'
    root, unit = small(room, 'unmapped'), ETC + '/x.service'
    with open(root + unit, 'w') as it:
        it.write('[Unit]\n')
    if os.geteuid() or os.system('unshare --user --map-root-user true 2>/dev/null'):
        skipped(title, 'no user namespace')
        return
    inventory = unitroot.on(root, 'capture')[1].replace(unit + '\n[Unit]', unit + '\n[unit]')
    os.chown(root + unit, 12345, 12345)
    ended = unitroot.on(root, 'apply', given=inventory, under=('unshare', '--user',
                                                              '--map-root-user'))
    with open(root + unit) as it:
        hold(ended[0] == 0 and it.read() == '[unit]\n' and os.stat(root + unit).st_uid == 0,
             title, ended)


def of_a_finished_run(unitroot, room, base, tracer):
    """Modes are kept for the run that replaces a file, and not for the next one of the process."""
    unit = ETC + '/x.service'

    def readied(name):
        root = copied(base, '%s/%s' % (room, name))
        unitroot.on(root, 'place', unit, 'file', '[Unit]\\n', env=at(TUESDAY))
        os.chmod(root + unit, 0o600)
        return root

    root = readied('finished')
    calls = unitroot.disturbed(tracer, readied('finished-first'), 0, 'kill', 'remove', unit)[1]
    number = number_of(calls, 'unlink', 'x.service')
    unitroot.disturbed(tracer, root, number, 'kill', 'remove', unit)
    hold(os.path.lexists(root + PROMISE) and os.path.lexists(root + unit),
         'a run that removes a file is killed before it does')
    ended = unitroot.on(root, 'place', unit, 'file', '[Unit]\\n#')
    mode = oct(os.stat(root + unit).st_mode & 0o777)
    hold(ended[0] == 0 and mode == '0o644',
         'the mode of a file that a finished run removed is not that of a new one', (mode, ended))


def of_two_begins(unitroot, room):
    """Two runs that begin the history of two roots in one directory, side by side."""
    both, kept = [small(room, 'begin-%d' % number) for number in (1, 2)], '%s/begun' % room
    words = ('keep', '--history=%s' % kept)
    with concurrent.futures.ThreadPoolExecutor(2) as pool:
        for _ in range(20):
            ended = list(pool.map(lambda root: unitroot.on(root, *words), both))
            winner = [root for root, (status, *_) in zip(both, ended) if status == 0]
            if len(winner) != 1 or b'root=%s ' % winner[0].encode() not in text_of(kept):
                hold(False, 'of two runs that begin a history in one directory, one does', ended)
                return
            rid_of(kept)
    hold(True, 'of two runs that begin a history in one directory, one does')


def owners(other):
    return [('DIR: belongs to another user than the one who runs unitroot', 'the second user',
             lambda root: os.chown(root + HOME, 1, 1), MASK,
             '%s: belongs to another user than the one who runs unitroot\n' % HOME, {})]


def large():
    """What takes a slow program minutes."""
    def calls(count):
        def change(text):
            return text.replace(b'anna mask cron.service\n', b'anna mask cron.service\n' * count)
        return lines(change)

    return [
        ('others changed the root since the last run, by N rows', '1,001 files', many, MASK,
         'others changed the root since the last run, by 1001 rows', {}),
        ('PATH: larger than N bytes', 'over 64 MiB', lambda root: os.truncate(root + HISTORY,
                                                                              LARGEST + 1), MASK,
         '%s: larger than ' % HISTORY, {}),
        ('over 100,000 rows in the history', '100,001', calls(100001), MASK,
         'over 100,000 rows in the history', {}),
        ('more than 1,000,000 calls', '1,000,001', elsewhere(calls(1000001)),
         (*MASK, '--history=ROOT-kept', '--adopt'), 'more than 1,000,000 calls', {}),
        ('over 2,000,000 lines in the history', '2,000,001',
         lines(lambda text: text.replace(b'anna mask', b'\n' * 2000001 + b'anna mask')), MASK,
         'over 2,000,000 lines in the history', {}),
    ]


def messages(unitroot, unitadm, room, is_slow):
    base = small(room, 'messages')
    for words in (('keep',), ('mask', 'cron')):
        unitroot.on(base, *words, env=at(TUESDAY))
    os.symlink(room, '%s/link' % room)
    those = cases(room) + (owners(room) if not os.geteuid() else []) + ([] if is_slow else large())
    for number, (message, name, make, words, said, env) in enumerate(those):
        root = copied(base, '%s/message-%d' % (room, number))
        said = said.replace('ROOT', root)
        make(root)
        before = whole(root)
        ended = unitroot.on(root, *[word.replace('ROOT', root) for word in words], env=env)
        refused(ended, 1, said, root, before, 'message: %s: %s' % (message, name))
        begins = 'unitroot: ' + (said if said.endswith('\n') else '')
        hold(ended[2].startswith(begins),
             'message: %s: %s: it begins with unitroot' % (message, name), ended)
        rid_of(root)
    if os.geteuid():
        skipped('message: %s: %s' % owners(room)[0][:2], 'not root')
    if is_slow:
        for message, name, *_ in large():
            skipped('message: %s: %s' % (message, name), 'a slow program')
    of_promises(unitroot, room, base)
    of_paths(unitroot, room)
    of_a_bad_call(unitroot, room, base)
    of_times(unitroot, room)
    of_modes(unitroot, room)
    of_two_roots(unitroot, room)
    of_two_begins(unitroot, room)
    of_another_user(unitroot, room, base)
    of_an_unmapped_user(unitroot, room)
    of_a_finished_run(unitroot, room, base, tracer_in(room))
    of_a_disk(unitroot, room, base)
    of_a_reversed_run(unitroot, room, base, tracer_in(room))
    of_a_mounted_directory(unitroot, copied(base, '%s/mounted' % room))
    of_an_odd_entry(unitroot, copied(base, '%s/odd' % room))
    if not is_slow:
        of_lengths(unitroot, room, base)
    of_no_line(unitroot, room, base)
    for name in ('messages', 'promised', 'meanwhile', 'elsewhere'):
        as_unitadm(unitroot, unitadm, '%s/%s' % (room, name),
                   'unitadm has the rows after the messages: %s' % name)
    as_unitadm(unitroot, unitadm, '%s/two' % room, 'unitadm has the rows of a history outside',
               '--history=%s/outside' % room)


def number_of(calls, name, path, which=0):
    """The number of a system call among those of a run: of this name, on this path, the first or
    another."""
    return [int(call[0]) for call in calls if call[1] == name and call[4] == path][which]


def of_promises(unitroot, room, base):
    """What the system refuses in the middle of a run, after all its steps were made."""
    tracer, words = tracer_in(room), ('mask', 'ssh')
    calls = unitroot.disturbed(tracer, copied(base, '%s/promise' % room), 0, 'kill', *words)[1]
    last = number_of(calls, 'rename', 'history.next', -1)
    root = copied(base, '%s/promised' % room)
    ended, _ = unitroot.disturbed(tracer, root, last, 5, *words)
    hold(ended[0] == 5 and 'promised: the next run finishes it: ' in ended[2]
         and os.path.lexists(root + PROMISE),
         'message: promised: the next run finishes it: REASON: a rename', ended)
    last = [int(call[0]) for call in calls if call[1] == 'fsync'][-1]
    ended, _ = unitroot.disturbed(tracer, copied(base, '%s/unsynced' % room), last, 5, *words)
    said = 'unitroot: %s: Input/output error (os error 5): all was done, and may not last\n' % HOME
    hold(ended[0] == 5 and ended[2].endswith(said),
         'message: DIR: REASON: all was done, and may not last: the last fsync', ended)
    gone = copied(root, '%s/gone' % room)
    os.unlink(gone + HISTORY)
    before = whole(gone)
    refused(unitroot.on(gone, *MASK), 1, 'a run is promised, but its history is gone', gone, before,
            'message: a run is promised, but its history is gone: without history')
    of_a_lost_history(unitroot, copied(gone, '%s/lost' % room), tracer)
    of_a_damaged_promise(unitroot, copied(root, '%s/damaged' % room))
    of_another_promise(unitroot, base, tracer)
    of_an_unreadable_promise(unitroot, copied(root, '%s/unreadable' % room))
    applied = copied(root, '%s/applied' % room)
    ended = unitroot.on(applied, 'apply', given=unitroot.on(applied, 'capture')[1])
    hold(ended[0] == 0 and 'finished a run of ' in ended[2]
         and not os.path.lexists(applied + PROMISE),
         'apply finishes a run that was cut short', ended)
    ended = unitroot.on(root, *MASK)
    hold(ended[0] == 0 and 'finished a run of ' in ended[2] and not os.path.lexists(root + PROMISE),
         'the next run that changes something finishes it', ended)
    of_others_meanwhile(unitroot, room, base, tracer)
    of_others_after_their_rows(unitroot, room, base, tracer)


def of_a_lost_history(unitroot, root, tracer):
    """A run is promised, and its history is gone: keep --anew is the remedy, also if it is killed.
    """
    calls = unitroot.disturbed(tracer, copied(root, root + '-first'), 0, 'kill', 'keep',
                               '--anew')[1]
    numbers = [int(call[0]) for call in calls if call[1] in ('rename', 'unlink', 'fsync')]
    for number in numbers:
        killed = copied(root, '%s-%d' % (root, number))
        unitroot.disturbed(tracer, killed, number, 'kill', 'keep', '--anew')
        left = os.path.lexists(killed + HISTORY) or os.path.lexists(killed + PROMISE)
        ended = unitroot.on(killed, 'keep', '--anew')
        hold(left and ended[0] == 0,
             'keep --anew is killed before its call %d, and made again' % number, (left, ended))
        rid_of(killed)
    ended = unitroot.on(root, 'keep', '--anew')
    said = "unitroot: a run was promised that can't be finished: it was given up\n"
    hold(ended[0] == 0 and said in ended[2] and not os.path.lexists(root + PROMISE)
         and os.path.isfile(root + HISTORY) and not os.path.lexists(root + HISTORY + '.1'),
         'keep --anew begins a history if the one so far is gone', ended)
    ended = unitroot.on(root, *MASK)
    hold(ended[0] == 0, 'a run on a history that began when the one so far was gone', ended)


def of_a_damaged_promise(unitroot, root):
    """A promised run whose history others have cut: keep --anew doesn't finish it."""
    text = text_of(root + HOME)[:-3]
    write_text(root + HOME, text)
    ended = unitroot.on(root, 'keep', '--anew')
    said = "unitroot: a run was promised that can't be finished: it was given up\n"
    hold(ended[0] == 0 and said in ended[2] and not os.path.lexists(root + PROMISE)
         and text_of(root + HOME, 'history.1') == text,
         'keep --anew withdraws a promise whose history was damaged', ended)


def promised_after(unitroot, tracer, base, name, *masks):
    """A root on which these units were masked, and then a run was killed after it was promised."""
    roots = [copied(base, '%s-%s' % (base, it)) for it in (name, name + '-first')]
    for root in roots:
        for unit in masks:
            unitroot.on(root, 'mask', unit, env=at(TUESDAY))
    calls = unitroot.disturbed(tracer, roots[1], 0, 'kill', 'mask', 'ssh')[1]
    number = number_of(calls, 'symlink', 'ssh.service')
    unitroot.disturbed(tracer, roots[0], number, 'kill', 'mask', 'ssh')
    return roots[0]


def of_another_promise(unitroot, base, tracer):
    """A promised run next to a history that was brought back, with fewer runs, as many, or more."""
    said = ("unitroot: history.next doesn't go on where history ends: remove it, or rename it to "
            'history\n')
    for promised, brought in ((('y.service',), 'a'), ((), 'a'), ((), 'abc')):
        name = 'another-%d-%d' % (len(promised), len(brought))
        root = promised_after(unitroot, tracer, base, name, *promised)
        other = copied(base, '%s-%s-other' % (base, name))
        for unit in brought:
            unitroot.on(other, 'mask', '%s.service' % unit, env=at(TUESDAY))
        write_text(root + HOME, text_of(other + HOME))
        before, anew, next_one = whole(root), copied(root, root + '-anew'), copied(root,
                                                                                  root + '-next')
        for words in (MASK, ('recover',)):
            refused(unitroot.on(root, *words), 1, said, root, before,
                    "message: history.next doesn't go on where history ends: %s, %s"
                    % (name, words[0]))
        ended = unitroot.on(anew, 'keep', '--anew')
        hold(ended[0] == 0 and "that can't be finished: it was given up\n" in ended[2]
             and not os.path.lexists(anew + PROMISE)
             and text_of(anew + HOME, 'history.1') == text_of(root + HOME),
             'keep --anew withdraws a promise that does not go on where the history ends', ended)
        os.rename(next_one + PROMISE, next_one + HISTORY)
        os.unlink(root + PROMISE)
        for one in (root, next_one):
            ended = unitroot.on(one, *MASK)
            hold(ended[0] == 0, 'with one of the two histories a run goes on: %s' % name, ended)


def of_an_unreadable_promise(unitroot, root):
    """A promised run whose own text others have cut."""
    with open(root + PROMISE, 'rb+') as it:
        it.truncate(os.path.getsize(root + PROMISE) - 3)
    before = whole(root)
    said = ("unitroot: history.next, with the run that is promised, can't be read\n"
            'unitroot: history: line ')
    ended = unitroot.on(root, 'recover')
    refused(ended, 1, said, root, before, 'a damaged history.next is named')
    hold(ended[2].startswith(said), 'a damaged history.next is named first', ended)


def of_others_meanwhile(unitroot, room, base, tracer):
    root = copied(base, '%s/meanwhile' % room)
    calls = unitroot.disturbed(tracer, copied(base, '%s/meanwhile-first' % room), 0, 'kill',
                               'mask', 'ssh')[1]
    number = number_of(calls, 'symlink', 'ssh.service')
    unitroot.disturbed(tracer, root, number, 'kill', 'mask', 'ssh')
    with open('%s%s/ssh.service' % (root, ETC), 'w') as it:
        it.write('[Unit]\n')
    ended = unitroot.on(root, 'recover')
    hold(ended[0] == 0 and '%s/ssh.service: changed by others: left\n' % ETC in ended[2]
         and os.path.isfile('%s%s/ssh.service' % (root, ETC)),
         'what others changed meanwhile is left, and named', ended)
    ended = unitroot.on(root, *MASK)
    hold(ended[0] == 0 and 'others changed the root since the last run: ' in ended[2],
         'what was left is of others in the next run', ended)


def of_others_after_their_rows(unitroot, room, base, tracer):
    """A run is killed after it has promised the rows of others, who then change it all back."""
    first, root = copied(base, '%s/rows-first' % room), copied(base, '%s/rows' % room)
    link, unit = ['%s%s/%s.service' % (root, ETC, name) for name in ('cron', 'others')]
    for one in (first, root):
        os.unlink('%s%s/cron.service' % (one, ETC))
    calls = unitroot.disturbed(tracer, first, 0, 'kill', 'mask', 'ssh')[1]
    number = number_of(calls, 'rename', 'history.next')
    unitroot.disturbed(tracer, root, number, 'kill', 'mask', 'ssh')
    hold(os.path.lexists(root + PROMISE), 'a run is killed once it has promised the rows of others')
    os.symlink('/dev/null', link)
    with open(unit, 'w') as it:
        it.write('[Unit]\n')
    ended = unitroot.on(root, 'recover')
    hold(ended == (0, '', 'unitroot: finished writing the history: 1 row by outside\n')
         and os.path.lexists(link) and os.path.isfile(unit),
         'what others changed after a run had written what they did is left', ended)
    ended = unitroot.on(root, *MASK)
    hold(ended[0] == 0 and ': rows 3 to 4 by outside\n' in ended[2],
         'what others changed after that has rows of its own', ended)


def of_a_bad_call(unitroot, room, base):
    """A line that is none of a call is counted from the beginning of the file, as others are."""
    root = copied(base, '%s/bad-call' % room)
    lines(lambda text: text.replace(b'anna mask', b'anna corn'))(root)
    number = text_of(root + HOME).split(b'anna corn')[0].count(b'\n') + 1
    before = whole(root)
    refused(unitroot.on(root, *MASK), 1, 'unitroot: history: line %d: ' % number, root, before,
            'message: history: line N: a line that is no call')


def of_paths(unitroot, room):
    """Messages have the path of a directory outside of the root as it was given."""
    root, given = small(room, 'paths'), './paths-kept'
    there, kept = '--history=%s/' % given, '%s/paths-kept' % room
    under = ('env', '-C', room)
    ended = unitroot.on(root, 'keep', there, under=under)
    hold(ended[0] == 0, 'a history in a directory that is given by a relative path', ended)
    os.chmod(kept, 0o755)
    ended = unitroot.on(root, *MASK, there, under=under)
    hold(ended == (1, '', 'unitroot: %s: its mode is not 700\n' % given),
         'the directory of a history is named as it was given', ended)
    os.chmod(kept, 0o700)
    os.rename(kept + '/history', kept + '/x')
    os.symlink('x', kept + '/history')
    ended = unitroot.on(root, *MASK, there, under=under)
    hold(ended == (1, '', 'unitroot: %s/history: not a file, but the history belongs there\n'
                   % given),
         'a file of a history is named as its directory was given', ended)


def of_times(unitroot, room):
    """With SOURCE_DATE_EPOCH all that is made or changed has that time, but for links."""
    root, kept = small(room, 'times'), '%s/times-kept' % room

    def times(*places):
        return {place: os.lstat(place).st_mtime for place in places}

    def are(seconds, title, *places):
        found = times(*places)
        hold(set(found.values()) == {seconds}, title, found)

    home, above = root + HOME, root + os.path.dirname(HOME)
    unitroot.on(root, 'keep', env=at(TUESDAY))
    are(TUESDAY, 'with SOURCE_DATE_EPOCH a history has that time: keep', above, home,
        home + '/history')
    ended = unitroot.on(root, 'enable', 'ssh', env=at(TUESDAY + 1))
    hold(ended[0] == 0, 'a run with SOURCE_DATE_EPOCH', ended)
    are(TUESDAY + 1, 'with SOURCE_DATE_EPOCH a history has that time: a run', home,
        home + '/history', root + ETC, '%s%s/multi-user.target.wants' % (root, ETC))
    unitroot.on(root, 'disable', 'ssh', env=at(TUESDAY + 2))
    are(TUESDAY + 2, 'with SOURCE_DATE_EPOCH a history has that time: an emptied directory', home,
        home + '/history', root + ETC)
    unitroot.on(root, 'enable', 'none', env=at(TUESDAY + 3))
    are(TUESDAY + 3, 'with SOURCE_DATE_EPOCH a history has that time: a refused run', home)
    unitroot.on(root, 'keep', '--anew', env=at(TUESDAY + 4))
    are(TUESDAY + 4, 'with SOURCE_DATE_EPOCH a history has that time: keep --anew', home,
        home + '/history')
    unitroot.on(root, 'forget', env=at(TUESDAY + 5))
    are(TUESDAY + 5, 'with SOURCE_DATE_EPOCH a history has that time: forget', above)
    unitroot.on(root, 'keep', '--history=%s' % kept, env=at(TUESDAY))
    are(TUESDAY, 'with SOURCE_DATE_EPOCH a history has that time: outside of the root', kept,
        kept + '/history')


def of_modes(unitroot, room):
    """A history and its directory are only for their owner, whatever the umask is."""
    root = small(room, 'modes')
    for umask, words in (('777', ('keep',)), ('000', MASK), ('777', ('keep', '--anew'))):
        under = ('sh', '-c', 'umask %s; exec "$0" "$@"' % umask)
        ended = unitroot.on(root, *words, under=under)
        modes = [oct(os.stat(root + path).st_mode & 0o777) for path in (HOME, HISTORY)]
        hold(ended[0] == 0 and modes == ['0o700', '0o600'],
             'the modes of a history: umask %s, %s' % (umask, words[0]), (modes, ended))


def of_two_roots(unitroot, room):
    """Two roots and one directory of a history outside of them."""
    one, two, kept = small(room, 'one'), small(room, 'two'), '%s/outside' % room
    there = '--history=%s' % kept
    ended = unitroot.on(one, 'keep', there)
    hold(ended == (0, '', 'unitroot: the history is in %s\n' % kept)
         and not os.path.exists(one + HOME),
         'a history in a directory outside of the root', ended)
    hold(os.stat(kept).st_mode & 0o777 == 0o700, 'the directory of a history has mode 700')
    unitroot.on(one, 'mask', 'cron', there)
    before, text = whole(two), text_of(kept)
    refused(unitroot.on(two, 'mask', 'cron', there), 1,
            'the history is that of %s: --adopt takes it over' % one, two,
            before, 'message: the history is that of PATH: --adopt takes it over: another root')
    hold(text_of(kept) == text, 'the history of another root is not changed')
    held = os.open(kept, os.O_RDONLY)
    fcntl.flock(held, fcntl.LOCK_EX)
    before = whole(one)
    refused(unitroot.on(one, 'mask', 'ssh', there), 1, 'another run holds the history', one, before,
            'message: another run holds the history: --history')
    os.close(held)
    ended = unitroot.on(two, 'mask', 'ssh', there, '--adopt')
    hold(ended[0] == 0 and b'root=%s ' % two.encode() in text_of(kept),
         '--adopt takes a history over', ended)
    moved = copied(one, '%s/moved' % room)
    unitroot.on(moved, 'keep')
    of_two_histories(unitroot, moved, there, kept)
    again = copied(moved, '%s/again' % room)
    unitroot.on(moved, 'mask', 'ssh')
    ended = unitroot.on(again, 'mask', 'ssh')
    hold(ended[0] == 0, 'a root that is copied with its history goes on', ended)
    ended = unitroot.on(again, 'forget')
    hold(ended == (0, '', '') and not os.path.exists(again + HOME) and os.path.lexists(
        '%s%s/ssh.service' % (again, ETC)),
         'forget removes the history, and the root stays as it is', ended)
    unitroot.on(again, 'keep')
    with open(again + HOME + '/notes', 'w'):
        pass
    ended = unitroot.on(again, 'forget')
    hold(ended == (0, '', '') and os.listdir(again + HOME) == ['notes'],
         'forget leaves a directory in which others have a file', ended)


def of_two_histories(unitroot, root, there, kept):
    """A root with a history of its own, and one outside of it."""
    before, text = whole(root), text_of(kept)
    for words in (('keep', there), ('keep', '--anew', there)):
        refused(unitroot.on(root, *words), 1,
                'the root has a history of its own: forget removes it', root, before,
                'message: the root has a history of its own: %s' % ' '.join(words[:-1]))
    hold(text_of(kept) == text, 'keep --anew leaves the other history of a root with its own')
    ring = copied(root, root + '-ring')
    shutil.rmtree(ring + HOME)
    os.symlink('unitroot', ring + HOME)
    before = whole(ring)
    refused(unitroot.on(ring, 'keep', '--history=%s-ring' % kept), 1, 'too many links', ring,
            before, 'no history outside of a root is begun if the one in it may exist')
    hold(not os.path.lexists(kept + '-ring'), 'no directory is made for it')


def of_a_reversed_run(unitroot, room, base, tracer):
    """A step fails, the steps before it are reversed, and that can't be synced."""
    title = 'message: all steps were reversed since one failed, and that may not last'
    wants = ETC + '/multi-user.target.wants'
    script = 'anna mask a.service\nanna enable cron.service\n'

    def readied(name):
        root = copied(base, '%s/%s' % (room, name))
        os.makedirs(root + wants)
        os.unlink('%s%s/cron.service' % (root, ETC))
        place = root + wants
        mounts = '(mount --bind %s %s && mount -o remount,bind,ro %s) 2>/dev/null'
        return root, not os.system(mounts % (place, place, place))

    root, is_mounted = readied('reversed-first')
    try:
        if os.geteuid() or not is_mounted:
            skipped(title, 'no mount')
            return
        unitroot.on(root, *MASK, env=at(TUESDAY))
        ended, calls = unitroot.disturbed(tracer, root, 0, 'kill', 'run', given=script)
        hold(ended[0] == 1 and 'Read-only file system' in ended[2], 'a step that fails is named',
             ended)
    finally:
        os.system('umount %s 2>/dev/null' % (root + wants))
    last = [int(call[0]) for call in calls if call[1] == 'fsync'][-1]
    root, _ = readied('reversed')
    try:
        unitroot.on(root, *MASK, env=at(TUESDAY))
        ended, _ = unitroot.disturbed(tracer, root, last, 5, 'run', given=script)
        said = ('unitroot: %s: Input/output error (os error 5): all steps were reversed since one '
                'failed (%s/cron.service: Read-only file system (os error 30)), and that may not '
                'last\n' % (HOME, wants))
        hold(ended[0] == 5 and ended[2].endswith(said), title, ended)
    finally:
        os.system('umount %s 2>/dev/null' % (root + wants))


def of_a_disk(unitroot, room, base):
    title = 'a read-only root: a run on a kept root changes nothing'
    root = copied(base, '%s/read-only' % room)
    mounts = '(mount --bind %s %s && mount -o remount,bind,ro %s) 2>/dev/null'
    if os.geteuid() or os.system(mounts % (root, root, root)):
        os.system('umount %s 2>/dev/null' % root)
        skipped(title, 'no mount')
        return
    try:
        before = whole(root)
        ended = unitroot.on(root, *MASK)
        hold(ended[0] == 1 and 'Read-only file system' in ended[2] and whole(root) == before,
             title, ended)
        ended = unitroot.on(root, 'is-enabled', 'ssh')
        hold(ended[0] == 1 and ended[1:] == ('disabled\n', ''),
             'a question on a read-only kept root', ended)
    finally:
        os.system('umount %s' % root)


def of_a_mounted_directory(unitroot, root):
    """A directory that a run has emptied, and that can't be removed."""
    title = 'an emptied directory that is a mount point stays'
    wants = '%s%s/multi-user.target.wants' % (root, ETC)
    unitroot.on(root, 'enable', 'ssh')
    if os.geteuid() or os.system('mount --bind %s %s 2>/dev/null' % (wants, wants)):
        skipped(title, 'no mount')
        return
    try:
        ended = unitroot.on(root, 'disable', 'ssh')
        hold(ended[0] == 0 and not os.listdir(wants) and not os.path.lexists(root + PROMISE),
             title, ended)
    finally:
        os.system('umount %s' % wants)


def of_an_odd_entry(unitroot, root):
    """A directory at a slot that no call looks at."""
    os.makedirs('%s/run/systemd/system/odd.service' % root)
    before = whole(root)
    refused(unitroot.on(root, *MASK), 1, 'odd.service: a directory instead of a unit', root, before,
            'on a root with a history an odd entry anywhere stops a run')


def of_lengths(unitroot, room, base):
    """No history is written that a later run could not read."""
    root = copied(base, '%s/too-long' % room)
    script = 'anna mask cron.service\n' * 100000
    before = whole(root)
    refused(unitroot.on(root, 'run', given=script), 1, 'over 100,000 rows in the history', root,
            before, 'a run whose history would be too long is not made')
    ended = unitroot.on(root, 'run', given=script[len('anna mask cron.service\n'):])
    hold(ended[0] == 0, 'a run whose history has the most rows is made', ended[2])
    large = small(room, 'too-large')
    for number in range(65):
        with open('%s%s/large-%d.service' % (large, ETC, number), 'w') as it:
            it.write('#' * (1 << 20))
    before = whole(large)
    refused(unitroot.on(large, 'keep'), 1, 'over 67108864 bytes in the history: ', large, before,
            'a history that would be too large is not begun')
    rid_of(large)
    rid_of(root)


def of_no_line(unitroot, room, base):
    """What no line of a history can say."""
    root = copied(base, '%s/no-line' % room)
    before = whole(root)
    refused(unitroot.on(root, 'place', ETC + '/a b.service', 'link', '/x'), 2,
            '`%s/a b.service`' % ETC, root, before,
            'a word that no line can have is refused by name')
    presets = '/etc/systemd/system-preset'
    for number, (path, target) in enumerate(((ETC + '/x.service', '/opt/a b.service'),
                                             (presets + '/a b.preset', ''),
                                             (ETC + '/big.service', ''))):
        root = copied(base, '%s/no-line-%d' % (room, number))
        os.makedirs(root + presets)
        if target:
            os.symlink(target, root + path)
        else:
            with open(root + path, 'w') as it:
                it.write('#' * 70000)
        ended = unitroot.on(root, *MASK)
        begun = os.path.exists(root + HISTORY + '.1')
        hold(ended[0] == 0 and 'history.1' in ended[2] and begun,
             'what no line can say begins a new history, and is said: %s %s' % (path, target),
             ended)
        hold(begun and text_of(root + HOME, 'history.1') == text_of(base + HOME),
             'the old history is kept: %s' % path)
    of_files_elsewhere(unitroot, copied(base, '%s/elsewhere' % room))


def of_files_elsewhere(unitroot, root):
    """A file at no slot, from which a unit is linked."""
    os.mkdir(root + '/opt')
    unit = '[Service]\nExecStart=/x\n[Install]\nWantedBy=multi-user.target\n'

    def write(text):
        with open(root + '/opt/x.service', 'w') as it:
            it.write(text)

    write(unit)
    ended = unitroot.on(root, 'enable', '/opt/x.service')
    hold(ended[0] == 0, 'a unit is linked from elsewhere', ended)
    write(unit + '# more\n')
    ended = unitroot.on(root, *MASK)
    hold(ended[0] == 0 and not os.path.exists(root + HISTORY + '.1')
         and b'# more\n' in text_of(root + HOME),
         'a file elsewhere is in the history as it is today', ended)
    write(unit.replace('multi-user', 'graphical'))
    ended = unitroot.on(root, 'unmask', 'new.service')
    hold(ended[0] == 0 and 'history.1' in ended[2] and os.path.exists(root + HISTORY + '.1'),
         'a row that would be another begins a new history', ended)

"""The limits of docs/ROOTS.md: what others can do meanwhile, and what an ordinary user can't.

Most of these let a command run just before one system call of a run, by tools/fail_call.
"""
import ctypes
import errno
import os
import shutil
import struct
import subprocess
import time

from endless_files import EndlessFiles
from root_checks import ETC, VENDOR, few, hold, laid, shot, skipped
from root_promises import Traced, mode_of

NOBODY = 65534
AS_NOBODY = ['setpriv', '--reuid=%d' % NOBODY, '--regid=%d' % NOBODY, '--clear-groups']
PLACE = 'a place %s/new.service file [Unit]\\n\n' % ETC
CHANGES = ('mkdir', 'unlink', 'rename', 'link', 'symlink')
# The numbers of socket(2), connect(2), clone(2), fork(2), vfork(2) and clone3(2) on x86-64.
OF_OTHERS = (41, 42, 56, 57, 58, 435)


def with_etc(room, name, more=()):
    """A root that has /etc/systemd/system."""
    return laid(room, name, {**few(), ETC + '/x.service': b'[Unit]\n', **dict(more)})


def is_call(wanted, name_in_call):
    """Whether a call of a log has this name, and is on this entry."""
    return lambda name, here, one, two: name == wanted and name_in_call in (one, two)


def meanwhile(unitroot, root, traced, script, is_wanted, command):
    """A run, just before one call of which a shell runs a command in the root."""
    number = traced.number_of(unitroot, root, script, is_wanted)
    if not number:
        return (None, 'there is no such call'), []
    return traced.run(unitroot, root, number, 'do:cd %s && %s' % (root, command), script)


def text_of(path):
    with open(path) as it:
        return it.read()


def endless(unitroot, room):
    """A file that never ends."""
    title = 'a file that never ends is too large after 1 MiB and one byte'
    root = with_etc(room, 'endless')
    try:
        with EndlessFiles(root + ETC, {'none.service': 0, 'some.service': 7}) as files:
            for name in files.names:
                files.read[name] = 0
                ran = unitroot.on(root, 'is-enabled', name)
                said = 'unitroot: %s/%s: larger than 1,048,576 bytes\n' % (ETC, name)
                well = (ran[0], ran[2]) == (1, said) and 1 << 20 < files.read[name] <= (1 << 20) + 1
                hold(well, '%s: %s' % (title, name), (ran, files.read))
            ran = unitroot.on(root, 'capture')
            hold(ran[0] == 1 and 'larger than' in ran[2], title + ': capture ends too', ran)
    except OSError as e:
        skipped(title, 'FUSE can\'t be mounted here: %s' % e)


def opened_to_write(fifo):
    """Waits until somebody waits for a writer of a fifo, and ends that."""
    for _ in range(1000):
        try:
            return os.close(os.open(fifo, os.O_WRONLY | os.O_NONBLOCK))
        except OSError:
            time.sleep(0.01)


def fifo_meanwhile(unitroot, room, traced):
    """A file is replaced by a fifo between lstat(2) and open(2)."""
    script, opens = 'a is-enabled x.service\n', is_call('open', 'x.service')
    for name, how in (('another', 'mkfifo FILE.new && mv FILE.new FILE'),
                      ('perhaps-the-same', 'rm FILE && mkfifo FILE')):
        root = with_etc(room, 'fifo-of-%s-inode' % name)
        file = '%s%s/x.service' % (root, ETC)
        how = 'do:' + how.replace('FILE', file)
        number = traced.number_of(unitroot, root, script, opens)
        with traced.started(unitroot, root, number, how, script) as running:
            time.sleep(1)
            waits = running.poll() is None
            opened_to_write(file)
            said, status = running.communicate(timeout=300)[1].decode(), running.returncode
        changed = 4, 'unitroot: %s/x.service: changed meanwhile\n' % ETC
        hold(number and waits and (status, said) == changed,
             'a run waits for a fifo that replaces a file between lstat and open: %s inode' % name,
             (waits, status, said))
        read = [call for call in traced.calls()
                if call[1] == 'read' and call[4].endswith('x.service')]
        hold(not read, "and doesn't read it, whatever its inode number is: %s" % name, read)


def link_meanwhile(unitroot, room, traced):
    """A file is replaced by a link between lstat(2) and open(2)."""
    root, outside = with_etc(room, 'link-meanwhile'), '%s/secret' % room
    with open(outside, 'w') as it:
        it.write('[Install]\nAlias=secret.service\n')
    command = 'ln -sf %s .%s/x.service' % (outside, ETC)
    ran, calls = meanwhile(unitroot, root, traced, 'a is-enabled x.service\n',
                           is_call('open', 'x.service'), command)
    read = [call for call in calls if call[1] == 'read' and call[4] == outside]
    hold(ran[0] == 4 and 'x.service: changed meanwhile' in ran[1] and not read,
         'what is behind a link that replaces a file between lstat and open is not read',
         (ran, read))


def moved_between(unitroot, room, traced):
    root = with_etc(room, 'moved-between')
    ran, _ = meanwhile(unitroot, root, traced, 'a mask one.service\na mask two.service\n',
                       is_call('symlink', 'two.service'), 'mv .%s away && mkdir .%s' % (ETC, ETC))
    said = '%s: changed meanwhile: all 2 steps were made, and may not last' % ETC
    there = {'one.service', 'two.service'} <= {*os.listdir(root + '/away')}
    hold(ran[0] == 5 and said in ran[1] and there,
         'a directory that is moved away between two changes takes the second one with it', ran)


def seen_and_lost(unitroot, room, traced):
    """What a reader sees in the middle of a run, and what others change too late."""
    root = with_etc(room, 'seen')
    both = 'a mask one.service\na mask two.service\n'
    ran, _ = meanwhile(unitroot, root, traced, both, is_call('symlink', 'two.service'),
                       'ls .%s > seen' % ETC)
    seen = text_of(root + '/seen').split()
    hold(ran[0] == 0 and 'one.service' in seen and 'two.service' not in seen,
         'between two changes a reader sees the first alone', (ran, seen))

    def is_synced(name, here, one, two):
        return name == 'fsync' and one.endswith(ETC)

    root = with_etc(room, 'too-late')
    ran, _ = meanwhile(unitroot, root, traced, 'a mask one.service\n', is_synced,
                       'rm .%s/one.service && echo theirs > .%s/one.service' % (ETC, ETC))
    hold(ran == (0, '') and text_of(root + ETC + '/one.service') == 'theirs\n',
         'what others change after its turn is not noticed', ran)
    root = with_etc(room, 'overwritten')
    script = 'a remove %s/x.service\na place %s/x.service file ours\\n\n' % (ETC, ETC)
    ran, _ = meanwhile(unitroot, root, traced, script, is_call('rename', 'x.service'),
                       'echo theirs > .%s/x.service' % ETC)
    hold(ran == (0, '') and text_of(root + ETC + '/x.service') == 'ours\n',
         'nor what they change between the comparison and the step', ran)
    root = with_etc(room, 'empty-directory')
    script, wants = 'a add-wants multi-user.target off.service\n', ETC + '/multi-user.target.wants'
    shutil.rmtree(root + wants)
    ran, _ = meanwhile(unitroot, root, traced, script, is_call('rename', wants[len(ETC) + 1:]),
                       'mkdir -m 700 .%s' % wants)
    hold(ran == (0, '') and mode_of(root + wants) == 0o755,
         'a new directory replaces an empty one that has appeared', ran)


def made_under(unitroot, room, traced):
    """Files and directories are made under the reserved name, and get their mode there."""
    root = laid(room, 'made-under', {VENDOR + '/ssh.service': b'[Unit]\n'})
    ran, calls = meanwhile(unitroot, root, traced, PLACE, is_call('link', 'new.service'),
                           'cat /proc/$PPID/task/$PPID/children > processes')
    names = {call[4] for call in calls if call[1] in ('link', 'rename', 'mkdir')}
    names |= {call[4] for call in calls if call[1] == 'open' and int(call[6]) & os.O_CREAT}
    wanted = {'.unitroot-new.%s' % number for number in text_of(root + '/processes').split()}
    hold(ran[0] == 0 and len(names) == 1 and names <= wanted,
         'what is made has the reserved name of its process first', (ran, names, wanted))
    order = [call[1] for call in calls if call[1] in ('chmod', 'link', 'rename')]
    kinds = {call[1]: int(call[6]) for call in calls if call[1] == 'chmod'}
    hold(order[-2:] == ['chmod', 'link'] and order[:2] == ['chmod', 'rename'] and kinds,
         'what is made has its mode before it takes its name', order)


def without_calls(unitroot, room, traced):
    """File systems that have no links, or no second name for a file."""
    cases = (('symlink', 'a mask new.service\n', errno.EPERM), ('link', PLACE, errno.EPERM),
             ('link', PLACE, errno.EOPNOTSUPP), ('rename', 'a remove %s/x.service\n'
              'a place %s/x.service file y\n' % (ETC, ETC), errno.EPERM))
    for call, script, error in cases:
        root = with_etc(room, 'without-%s-%d' % (call, error))
        was = shot(root)
        number = traced.number_of(unitroot, root, script, lambda name, *_: name == call)
        ran, _ = traced.run(unitroot, root, number, str(error), script)
        text = '.service: %s (os error %d)\n' % (os.strerror(error), error)
        well = ran[0] == 1 and text in ran[1]
        hold(number and well and shot(root) == was, 'a file system without %s(2): %s' % (
            call, errno.errorcode[error]), ran)


def by_names(unitroot, room, traced):
    """Whatever is read or changed is named from the working directory."""
    root = with_etc(room, 'by-names')
    script = PLACE + 'a enable off.service\na remove %s/x.service\na mask zz.service\n' % ETC
    ran, calls = traced.run(unitroot, root, 0, '-', script)
    changes = [call for call in calls if call[1] in CHANGES]
    # (the text of a link is the first of its words)
    far = [call for call in changes
           if '/' in (call[4] if call[1] == 'symlink' else call[4] + call[5])]
    entered = [call for call in calls if call[1] == 'chdir' and '/' not in call[4]]
    hold(ran[0] == 0 and len(changes) >= 5 and entered and not far,
         'one directory after another is entered, and files are named from there', (ran, far[:3]))
    unsafe = [call for call in calls if call[1] == 'open' and call[4].endswith('.service')
              and int(call[6]) & (os.O_NOFOLLOW | os.O_NONBLOCK)]
    hold(not unsafe, 'files are opened without O_NOFOLLOW and O_NONBLOCK', unsafe[:3])


def brought_back(unitroot, room, traced):
    """What a run that is reversed had removed: by root as it was, by an ordinary user his own."""
    script = 'a remove %s/old.service\na remove %s/x.service\n' % (ETC, ETC)
    fails = is_call('unlink', 'x.service')
    for who, under in (('root', []), ('nobody', AS_NOBODY)):
        title = 'the owner of what %s removed and brings back' % who
        if os.geteuid() or not shutil.which('setpriv'):
            skipped(title, 'only root can run this')
            continue
        root = with_etc(room, 'brought-back-by-%s' % who, {ETC + '/old.service': b'[Unit]\n'})
        old = '%s%s/old.service' % (root, ETC)
        subprocess.run(['chown', '-R', '-h', '%d:%d' % (NOBODY, NOBODY), root], check=True)
        os.chown(old, 1, 2)
        os.chmod(old, 0o664)
        os.utime(old, (1, 1))
        has_label = labelled(old)
        number = traced.number_of(unitroot, root, script, fails)
        ran, _ = traced.run(unitroot, root, number, str(errno.EIO), script, under)
        found = os.stat(old)
        owner = (1, 2) if who == 'root' else (NOBODY, NOBODY)
        hold(number and ran[0] == 1 and (found.st_uid, found.st_gid) == owner
             and mode_of(old) == 0o664 and text_of(old) == '[Unit]\n', title, (ran, found))
        hold(found.st_mtime > 1 and not (has_label and os.listxattr(old)),
             'what %s brings back has a new time, and no attributes' % who, found)


def labelled(path):
    """Gives a file an attribute, if the file system has any."""
    try:
        os.setxattr(path, 'user.label', b'x')
    except OSError:
        return False
    return True


def kept_for_others(unitroot, room, traced):
    """Others put something into a directory that a run made, before the run is reversed."""
    root = laid(room, 'kept-for-others', {VENDOR + '/ssh.service': b'[Unit]\n'})
    ran, _ = meanwhile(unitroot, root, traced, 'a mask one.service\na mask two.service\n',
                       is_call('symlink', 'two.service'), 'echo theirs > .%s/two.service' % ETC)
    hold(ran == (4, 'unitroot: %s/two.service: changed meanwhile\n' % ETC)
         and os.listdir(root + ETC) == ['two.service'],
         'a directory in which others have put something stays', (ran, shot(root)))


def status_five(unitroot, room, traced):
    """The messages of status 5."""
    both, second = 'a mask one.service\na mask two.service\n', is_call('symlink', 'two.service')
    theirs = 'echo theirs > .%s/two.service' % ETC
    root = with_etc(room, 'half')
    ran, _ = meanwhile(unitroot, root, traced, both, second,
                       '%s && rm .%s/one.service && mkdir .%s/one.service' % (theirs, ETC, ETC))
    text = ('unitroot: %(e)s/two.service: failed after 1 of 2 steps, which could not be reversed; '
            '%(e)s/two.service: changed meanwhile\n' % {'e': ETC})
    hold(ran == (5, text), 'status 5: failed after N of M steps', ran)
    root = laid(room, 'emptied', few())
    script, wants = 'a disable cron.service\n', ETC + '/multi-user.target.wants'
    number = traced.number_of(unitroot, root, script, lambda name, *_: name in ('unlink', 'rmdir')
                              and _[1] == os.path.basename(wants))
    ran, _ = traced.run(unitroot, root, number, str(errno.EIO), script)
    text = ('unitroot: %s: Input/output error (os error 5): all 1 steps were made, and may not '
            'last\n' % wants)
    hold(number and ran == (5, text) and os.listdir(root + wants) == [],
         'status 5: an emptied directory is left', ran)
    title = 'status 5: a new directory is left'
    if os.geteuid() or not shutil.which('setpriv'):
        return skipped(title, 'only root can run this')
    root = laid(room, 'left', {VENDOR + '/ssh.service': b'[Unit]\n', '/etc/systemd/x': b''})
    subprocess.run(['chown', '-R', '-h', '%d:%d' % (NOBODY, NOBODY), root], check=True)
    number = traced.number_of(unitroot, root, both, second)
    how = 'do:cd %s && %s && chmod 555 etc/systemd' % (root, theirs)
    ran, _ = traced.run(unitroot, root, number, how, both, AS_NOBODY)
    text = ('unitroot: %s: Permission denied (os error 13): all steps were reversed, but a new '
            'directory is left, or that may not last\n' % ETC)
    hold(ran == (5, text) and os.listdir(root + ETC) == ['two.service'], title, (ran, shot(root)))


def replaced(unitroot, room):
    """What a file that replaces another has of it, and what an undo brings back."""
    root = with_etc(room, 'replaced', {ETC + '/gone.service': b'[Unit]\n'})
    old, gone = root + ETC + '/x.service', root + ETC + '/gone.service'
    has_label, was = labelled(old), os.stat(gone)
    ran = unitroot.on(root, 'run', given='a remove %s/x.service\na place %s/x.service file y\\n\n'
                      'a remove %s/gone.service\na undo 3\n' % (ETC, ETC, ETC))
    now = os.stat(gone)
    hold(ran[0] == 0 and (now.st_ino, now.st_ctime_ns) == (was.st_ino, was.st_ctime_ns),
         'what an undo brings back is not touched', (ran, was, now))
    hold(text_of(old) == 'y\n' and not (has_label and os.listxattr(old)),
         'what replaces a file has no attributes of it', ran)
    new = laid(room, 'of-nobody', few())
    if not os.geteuid() and shutil.which('setpriv'):
        subprocess.run(['chown', '-R', '%d:%d' % (NOBODY, NOBODY), new], check=True)
        words = [*AS_NOBODY, unitroot.path, '--root=%s' % new, 'run']
        ran = subprocess.run(words, input=PLACE.encode(), capture_output=True, timeout=300)
        made = os.stat(new + ETC + '/new.service')
        hold(ran.returncode == 0 and (made.st_uid, made.st_gid) == (NOBODY, NOBODY),
             'what is made belongs to the user who runs the program', (ran, made))


def forty_links(unitroot, room):
    """A link through 40 links is followed, and one through 41 leads nowhere."""
    for count, status, state in ((40, 1, b'linked\n'), (41, 4, b'not-found\n')):
        root = with_etc(room, 'links-%d' % count)
        os.makedirs(root + '/opt/0')
        os.rename(root + ETC + '/x.service', root + '/opt/0/x.service')
        for number in range(1, count + 1):
            os.symlink('/opt/%d' % (number - 1), '%s/opt/%d' % (root, number))
        os.symlink('/opt/%d/x.service' % count, root + ETC + '/x.service')
        ran = unitroot.on(root, 'is-enabled', 'x.service')
        hold(ran[:2] == (status, state), 'a link through %d links' % count, ran)


def closed_directories(unitroot, room):
    """One of the seven directories that can't be read, or not even be entered."""
    title = 'a directory of units that can\'t be %s: %s'
    if os.geteuid() or not shutil.which('setpriv'):
        return skipped(title % ('read', 'all'), 'only root can run this')
    runtime = '/run/systemd/system'
    calls = {'mask new.service': 0, 'list-unit-files': 1, 'capture': 1, 'disable off.service': 0,
             'disable --runtime off.service': 1}
    for mode, what in ((0o311, 'read'), (0, 'entered')):
        root = with_etc(room, 'closed-%o' % mode)
        os.makedirs(root + runtime)
        subprocess.run(['chown', '-R', '-h', '%d:%d' % (NOBODY, NOBODY), root], check=True)
        os.chmod(root + runtime, mode)
        for call, status in calls.items():
            words = [*AS_NOBODY, unitroot.path, '--root=%s' % root, *call.split()]
            ran = subprocess.run(words, capture_output=True, text=True, timeout=300)
            said = 'unitroot: %s: Permission denied (os error 13)\n' % runtime
            wanted = status if what == 'read' else 1
            hold(ran.returncode == wanted and (said == ran.stderr) == bool(wanted),
                 title % (what, call), ran)


def refuse_others():
    """Lets a call that makes a socket or a process kill this process: seccomp(2)."""
    code = [struct.pack('=HBBI', 0x20, 0, 0, 0)]
    for at, number in enumerate(OF_OTHERS):
        code.append(struct.pack('=HBBI', 0x15, len(OF_OTHERS) - at, 0, number))
    code += [struct.pack('=HBBI', 6, 0, 0, 0x7fff0000), struct.pack('=HBBI', 6, 0, 0, 0x80000000)]
    text = ctypes.create_string_buffer(b''.join(code))
    program = struct.pack('=H6xQ', len(code), ctypes.addressof(text))
    libc = ctypes.CDLL(None)
    libc.prctl(38, 1, 0, 0, 0)
    libc.prctl(22, 2, program, 0, 0)


def alone(unitroot, room):
    """No process is started and no socket made, so nobody is notified."""
    root = with_etc(room, 'alone')
    for words, given in ((['run'], PLACE + 'a enable off.service\n'), (['capture'], ''),
                         (['status', 'ssh.service'], '')):
        ran = subprocess.run([unitroot.path, '--root=%s' % root, *words], input=given.encode(),
                             capture_output=True, timeout=300, preexec_fn=refuse_others)
        hold(ran.returncode == 0, 'no process and no socket is made: %s' % words[0], ran)
    ran = subprocess.run(['sh', '-c', 'true & wait'], preexec_fn=refuse_others)
    hold(ran.returncode, 'a process that starts another would be killed', ran)


def finished(unitroot, room, traced):
    """A `remove` that was made before a kill is refused."""
    paths = ['%s/%s.service' % (ETC, name) for name in ('old', 'x')]
    script = 'a remove %s\na remove %s\n' % tuple(paths)
    for words in (['run'], ['run', '--keep-going']):
        root = with_etc(room, 'removed-%d' % len(words), {paths[0]: b'[Unit]\n'})
        number = traced.number_of(unitroot, root, script, is_call('unlink', 'x.service'))
        traced.run(unitroot, root, number, 'kill', script)
        cut_off = [os.path.lexists(root + path) for path in paths]
        ran = unitroot.on(root, *words, given=script)
        left = [os.path.lexists(root + path) for path in paths]
        well = cut_off == [False, True] and ran[0] == 3 and left == [False, len(words) == 1]
        hold(number and well,
             'a remove that was made before a kill is refused: %s' % ' '.join(words),
             (ran, cut_off, left))


def limits(unitroot, room):
    os.chmod(room, 0o755)
    endless(unitroot, room)
    replaced(unitroot, room)
    forty_links(unitroot, room)
    closed_directories(unitroot, room)
    alone(unitroot, room)
    if not shutil.which('cc'):
        return skipped('what others change just before a call', 'there is no cc')
    traced = Traced(room)
    for part in (fifo_meanwhile, link_meanwhile, moved_between, seen_and_lost, made_under,
                 without_calls, by_names, brought_back, kept_for_others, status_five, finished):
        part(unitroot, room, traced)

"""Promises of docs/ROOTS.md about modes, directories, locks, leftovers, layouts and interruptions.

tests/root-sentences says which check belongs to which sentence.
"""
import errno
import fcntl
import os
import shutil
import signal
import stat
import subprocess
import time

from root_checks import (ETC, HERE, VENDOR, differences, entries_of, few, hold, laid, sample, shot,
                         skipped)


def with_umask(unitroot, root, umask, *words, given=''):
    ran = subprocess.run([unitroot.path, '--root=%s' % root, *words], input=given.encode(),
                         capture_output=True, umask=umask, timeout=300)
    return ran.returncode, ran.stdout, ran.stderr.decode(errors='replace')


def mode_of(path):
    return stat.S_IMODE(os.lstat(path).st_mode)


def modes(unitroot, room):
    for umask in (0o022, 0o077, 0o777, 0):
        root = laid(room, 'umask-%o' % umask, {'%s/ssh.service' % VENDOR: b'[Unit]\n'})
        script = 'a place %s/new.service file [Unit]\\n\na add-wants ssh.service new.service\n' % ETC
        ran = with_umask(unitroot, root, umask, 'run', given=script)
        found = {path: mode_of(root + path) for path in (
            '/etc', '/etc/systemd', ETC, ETC + '/ssh.service.wants', ETC + '/new.service')
            if os.path.lexists(root + path)}
        wanted = dict.fromkeys(found, 0o755)
        wanted[ETC + '/new.service'] = 0o644
        hold(ran[0] == 0 and len(found) == 5 and found == wanted,
             'files get mode 644 and directories 755 under umask %03o' % umask, (ran, found))
    root = laid(room, 'kept-modes', few())
    old, gone = '%s%s/old.service' % (root, ETC), '%s%s/gone.service' % (root, ETC)
    for path, mode in ((old, 0o640), (gone, 0o600)):
        with open(path, 'w') as it:
            it.write('[Unit]\n')
        os.chmod(path, mode)
        if not os.geteuid():
            os.chown(path, 1, 2)
    script = ('a remove %(e)s/old.service\na place %(e)s/old.service file [Service]\\n\n'
              'a remove %(e)s/gone.service\na undo 3\n' % {'e': ETC})
    ran = unitroot.on(root, 'run', given=script)
    owners = {(os.stat(path).st_uid, os.stat(path).st_gid) for path in (old, gone)}
    with open(old) as it:
        text = it.read()
    well = (mode_of(old), mode_of(gone), text) == (0o640, 0o600, '[Service]\n')
    hold(ran[0] == 0 and well and (os.geteuid() or owners == {(1, 2)}),
         'a file that is replaced, or removed and brought back, keeps its mode',
         (ran, oct(mode_of(old)), oct(mode_of(gone)), owners))


def mounted(folder, *options):
    os.makedirs(folder)
    return not subprocess.run(['mount', '-t', 'tmpfs', *options, 'none', folder],
                              capture_output=True).returncode


def reversed_whole(unitroot, room):
    title = 'a run that is reversed removes the directories that it made'
    folder = '%s/reversed' % room
    if not mounted(folder, '-o', 'size=64k'):
        return skipped(title, 'nothing can be mounted here')
    try:
        root = folder + '/root'
        os.makedirs(root)
        lines = ''.join('a place %s/large-%02d.service file %s\n' % (ETC, number, 'x' * 9000)
                        for number in range(20))
        ran = unitroot.on(root, 'run', given=lines)
        hold(ran[0] == 1 and not os.listdir(root), title, (ran, list(shot(root))))
    finally:
        subprocess.run(['umount', folder])


class Traced:
    """Runs under tools/fail_call."""

    def __init__(self, room):
        self.tracer, self.log, self.script = ('%s/%s' % (room, name) for name in (
            'fail_call', 'calls', 'script'))
        subprocess.run(['cc', '-O1', '-o', self.tracer, '%s/../tools/fail_call.c' % HERE], check=True)

    def started(self, unitroot, root, number, how, given, under=(), more=()):
        """A run whose call of this number is disturbed, in its middle."""
        with open(self.log, 'w') as log:
            os.fchmod(log.fileno(), 0o666)
        env = {**os.environ, 'ASAN_OPTIONS': 'detect_leaks=0'}
        words = [*under, self.tracer, root, str(number), how, self.log, unitroot.path,
                 '--root=%s' % root, *more, 'run']
        # (a file: of a pipe each run reads as much at once as there is, so its calls have other numbers)
        with open(self.script, 'w') as it:
            it.write(given)
        with open(self.script) as it:
            return subprocess.Popen(words, stdin=it, stdout=subprocess.PIPE,
                                    stderr=subprocess.PIPE, env=env)

    def calls(self):
        """The calls of the last run."""
        with open(self.log, errors='surrogateescape') as lines:
            return [line.rstrip('\n').split('\t') for line in lines]

    def run(self, unitroot, root, number, how, given, under=(), more=()):
        with self.started(unitroot, root, number, how, given, under, more) as running:
            said = running.communicate(timeout=300)[1]
        return (running.returncode, said.decode(errors='replace')), self.calls()

    def number_of(self, unitroot, root, given, is_wanted, more=()):
        """The number of the first call that is wanted, in a run on a copy of the root."""
        copy = root + '-copy'
        shutil.copytree(root, copy, symlinks=True)
        _, calls = self.run(unitroot, copy, 0, '-', given, more=more)
        shutil.rmtree(copy)
        for number, name, _, here, one, two, _ in calls:
            if is_wanted(name, here[len(copy):], one, two):
                return int(number)
        return 0


def changed_by_others(unitroot, room, traced):
    """Others change something just before a call of the run."""
    def meanwhile(title, script, is_wanted, command, statuses, is_well):
        root = laid(room, 'others-%d' % len(os.listdir(room)), few())
        os.makedirs(root + ETC, exist_ok=True)
        number = traced.number_of(unitroot, root, script, is_wanted)
        if not number:
            return hold(False, title, 'there is no such call')
        ran, _ = traced.run(unitroot, root, number, 'do:cd %s && %s' % (root, command), script)
        hold(ran[0] in statuses and is_well(root), title, (ran, shot(root)))

    new = ETC + '/new.service'
    place = 'a place %s file [Unit]\\n\n' % new

    def takes_name(name, here, one, two):
        return name in ('link', 'rename') and two == 'new.service'

    def is_theirs(root):
        with open(root + new) as it:
            return it.read() == 'theirs\n'

    meanwhile('a new file replaces no file that has appeared', place, takes_name,
              'echo theirs > .%s' % new, {4}, is_theirs)
    meanwhile('nor a link that has appeared', place, takes_name, 'ln -s theirs .%s' % new, {4},
              lambda root: os.readlink(root + new) == 'theirs')
    mask = 'a mask new.service\n'

    def is_made(name, here, one, two):
        return name == 'symlink' and one == 'new.service'

    meanwhile('a new link replaces nothing that has appeared', mask, is_made,
              'echo theirs > .%s' % new, {4}, is_theirs)
    away = 'mv .%s away && mkdir .%s' % (ETC, ETC)
    looked, before = [], []

    def is_second_look(name, here, one, two):
        looked.append(name == 'stat' and one == 'new.service' and here == ETC)
        return sum(looked) == 2

    def is_after_the_change(*call):
        before.append(is_made(*call))
        return sum(before[:-1]) > 0

    meanwhile('a directory that was moved away before the first change in it keeps what it has',
              mask, is_second_look, away, {4},
              lambda root: not os.path.lexists(root + '/away/new.service'))
    meanwhile('one that was moved away after the changes is reported', mask, is_after_the_change,
              away, {5}, lambda root: os.path.islink(root + '/away/new.service'))


def read_bounded(unitroot, room, traced):
    for size in (0, 7):
        file = {ETC + '/large.service': b'[Unit]\n'[:size]}
        root = laid(room, 'growing-%d' % size, {**few(), **file})

        def opens(name, here, one, two):
            return name == 'open' and one == 'large.service'

        script = 'a is-enabled large.service\n'
        number = traced.number_of(unitroot, root, script, opens)
        grow = 'do:head -c 9000000 /dev/zero >> %s%s/large.service' % (root, ETC)
        ran, calls = traced.run(unitroot, root, number, grow, script)
        read = sum(int(answer) for _, name, answer, _, one, _, _ in calls
                   if name == 'read' and one.endswith('/large.service'))
        hold(number and 1 << 20 < read <= (1 << 20) + 1,
             'of a file of %d bytes that grows 1 MiB and one byte are read' % size, (ran, read))


def half_done(unitroot, room, traced):
    """Why a run is half done, or may not last, is reported: status 5."""
    script = 'a mask new.service\na mask other.service\n'

    def is_sync(name, here, one, two):
        return name == 'fsync' and one.endswith(ETC)

    root = laid(room, 'unsynced', {**few(), ETC + '/x.service': b'[Unit]\n'})
    number = traced.number_of(unitroot, root, script, is_sync)
    ran, _ = traced.run(unitroot, root, number, str(errno.EIO), script)
    said = '%s: Input/output error (os error 5): all 2 steps were made, and may not last' % ETC
    made = [os.path.islink('%s%s/%s.service' % (root, ETC, name)) for name in ('new', 'other')]
    hold(number and ran[0] == 5 and said in ran[1] and all(made),
         'that fsync failed is reported, with the path and the number of steps', (ran, made))


def finished_after_a_kill(unitroot, room, traced):
    """A script with a `place` that was killed in the middle is finished with --keep-going."""
    place = 'a place %s/new.service file [Unit]\\n\n' % ETC
    script = place + 'a mask other.service\n'

    def is_second(name, here, one, two):
        return name == 'symlink' and one == 'other.service'

    for words in ((), ('--keep-going',)):
        root = laid(room, 'killed-%d' % len(words), {**few(), ETC + '/x.service': b'[Unit]\n'})
        number = traced.number_of(unitroot, root, script, is_second)
        traced.run(unitroot, root, number, 'kill', script)
        cut_off = shot(root)
        ran = unitroot.on(root, 'run', *words, given=script)
        made = os.path.islink('%s%s/other.service' % (root, ETC))
        well = ran[0] == 3 and b'refused' in ran[1] and made == bool(words)
        hold(number and well and ETC + '/new.service' in cut_off,
             'a place that was made before a kill is refused; the rest is made with %s' % (words,),
             (ran, made, cut_off))


def leads_nowhere(unitroot, room):
    long = 'x' * 300
    cases = {
        'a-name-of-300-bytes-behind-a-link': ('/opt/%s/x.service' % long, lambda root: None),
        'a-file-name-of-300-bytes-behind-a-link': ('/opt/%s' % long, lambda root: None),
        'links-in-a-ring-behind-a-link': (
            '/ring/x.service', lambda root: os.symlink('ring', root + '/ring')),
    }
    for name, (target, make) in cases.items():
        root = laid(room, name, few())
        make(root)
        os.symlink(target, root + ETC + '/odd.service')
        ran = unitroot.on(root, 'run', given='a mask new.service\n')
        hold(ran[0] == 0 and os.path.islink(root + ETC + '/new.service'), name + ': leads nowhere',
             ran)


def leftovers(unitroot, room):
    root = laid(room, 'leftovers', few())
    wants = ETC + '/multi-user.target.wants'
    left = [directory + '/.unitroot-new' + end for directory in (ETC, wants) for end in ('', '.12345')]
    others = [ETC + '/.unitroot-newer', ETC + '/.unitroot-new.x', ETC + '/.unitroot-new.']
    for path in left + others:
        with open(root + path, 'w') as it:
            it.write('x')
    os.mkdir(root + ETC + '/.unitroot-new.77')
    ran = unitroot.on(root, 'capture', '--all')
    hold(ran[0] == 0 and not [path for path in entries_of(ran[1]) if path in left],
         'capture --all leaves out what interrupted runs left', ran)
    was = shot(root)
    ran = unitroot.on(root, '--dry-run', 'disable', 'cron.service')
    hold(ran[0] == 0 and shot(root) == was, 'a dry run leaves it', ran)
    ran = unitroot.on(root, 'run', given='a disable cron.service\na mask new.service\n')
    now = [path for path in shot(root) if '.unitroot' in path]
    hold(ran[0] == 0 and sorted(now) == sorted(others), 'the next run in a directory removes it',
         (ran, now))
    hold(ran[2].count('left by an interrupted run') == 5, 'and reports it', ran)
    hold(not os.path.lexists(root + wants), 'a directory that it emptied is removed', os.listdir(root + ETC))


def locks(unitroot, room):
    root = laid(room, 'locks', few())
    lock = os.open(root, os.O_RDONLY)
    fcntl.flock(lock, fcntl.LOCK_SH)
    for words in (('is-enabled', 'cron.service'), ('capture',), ('diff', root),
                  ('--dry-run', 'mask', 'new.service'), ('list-unit-files',), ('get-default',),
                  ('status', 'ssh.service'), ('list-dependencies', 'ssh.service')):
        ran = unitroot.on(root, *words)
        hold('another run holds' not in ran[2] and ran[0] != 4, 'beside others: %s' % words[0], ran)
    ran = unitroot.on(root, 'mask', 'new.service')
    hold(ran[0] == 1 and 'another run holds the root' in ran[2], 'a run is alone', ran)
    fcntl.flock(lock, fcntl.LOCK_EX)
    ran = unitroot.on(root, 'is-enabled', 'cron.service')
    hold(ran[0] == 1 and 'another run holds the root' in ran[2],
         'a question is not answered while a run is at work', ran)
    inner = laid(root, 'img', few())
    ran = unitroot.on(inner, 'mask', 'new.service')
    hold(ran[0] == 0, 'runs on overlapping roots do not see one another', ran)
    os.close(lock)


def waits(unitroot, room):
    """`--wait[=SECONDS]` waits for another run."""
    title = 'a run waits for another one'
    if b'--wait' not in unitroot.run('--help')[1]:
        return skipped(title, 'there is no --wait')
    root = laid(room, 'waits', few())
    lock = os.open(root, os.O_RDONLY)
    for words, is_let_go in ((['--wait'], True), (['--wait=60'], True), (['--wait=1'], False)):
        fcntl.flock(lock, fcntl.LOCK_EX)
        start = time.monotonic()
        running = subprocess.Popen([unitroot.path, '--root=%s' % root, *words, 'mask', 'new.service'],
                                   stderr=subprocess.PIPE)
        if is_let_go:
            time.sleep(0.5)
            fcntl.flock(lock, fcntl.LOCK_UN)
        said, status = running.stderr.read().decode(), running.wait()
        took = time.monotonic() - start
        well = status == 0 if is_let_go else status == 1 and 'another run holds the root' in said
        hold(well and took > (0.4 if is_let_go else 0.9), '%s: %s' % (title, words[0]),
             (status, said, took))
        fcntl.flock(lock, fcntl.LOCK_UN)
    os.close(lock)


def too_many_units(unitroot, room):
    """`preset-all` is one call, which takes at most 1,024 units."""
    text = b'[Install]\nWantedBy=multi-user.target\n'
    for count, status in ((1024, 0), (1025, 1)):
        units = {'%s/unit-%d.service' % (VENDOR, number): text for number in range(count)}
        root = laid(room, 'units-%d' % count, units)
        was = shot(root)
        ran = unitroot.on(root, '--dry-run', 'preset-all')
        well = ran[0] == status and ('over 1,024 units' in ran[2]) == bool(status)
        hold(well and shot(root) == was, 'preset-all of %d units' % count, (ran[0], ran[2][:200]))


def layouts(unitroot, room):
    mask = 'a mask new.service\n'

    def laid_so(name, make):
        root = laid(room, name, few(), merged=False)
        make(root)
        return root, shot(root)

    def is_refused(name, make, *texts):
        root, was = laid_so(name, make)
        ran = unitroot.on(root, 'run', given=mask)
        hold(ran[0] == 1 and all(text in ran[2] for text in texts) and shot(root) == was, name, ran)

    def works(name, make):
        root, _ = laid_so(name, make)
        ran = unitroot.on(root, 'run', given=mask)
        hold(ran[0] == 0 and os.path.islink(root + ETC + '/new.service'), name, ran)

    def moved(root):
        os.rename(root + '/etc', root + '/usr/etc')

    is_refused('ostree-without-etc', moved, '/usr/etc: ', 'rename')
    is_refused('ostree-with-an-empty-etc', lambda root: (moved(root), os.mkdir(root + '/etc')),
               '/usr/etc: ', 'rename')
    is_refused('usr-that-is-not-merged', lambda root: os.makedirs(root + '/lib/systemd/system'),
               '/lib/systemd/system: not the directory', 'merge /usr')
    is_refused('presets-in-usr-that-is-not-merged',
               lambda root: os.makedirs(root + '/lib/systemd/system-preset'),
               '/lib/systemd/system-preset: not the directory')

    def half(root):
        os.makedirs(root + '/lib/systemd')
        os.symlink('/usr/lib/systemd/system', root + '/lib/systemd/system')
        os.symlink('/lib/systemd/system/ssh.service', root + ETC + '/sshd.service')

    works('usr-that-is-half-merged', half)
    works('usr-etc-beside-etc', lambda root: os.makedirs(root + '/usr/etc/systemd'))


def masks(count):
    return ''.join('a mask many-%05d.service\n' % number for number in range(count))


def with_signals():
    """A shell has what it starts in the background ignore SIGINT, and so would the run."""
    for number in (signal.SIGINT, signal.SIGTERM, signal.SIGHUP):
        signal.signal(number, signal.SIG_DFL)


def ended_by(unitroot, root, number, lines):
    """The status of a run that gets a signal once it has made 51 links. It gives way to this program,
    so that the signal comes in time on a busy machine, too."""
    running = subprocess.Popen(['nice', '-n', '19', unitroot.path, '--root=%s' % root, 'run'],
                               stdin=subprocess.PIPE, stdout=subprocess.DEVNULL,
                               stderr=subprocess.DEVNULL, preexec_fn=with_signals)
    running.stdin.write(lines.encode())
    running.stdin.close()
    first = root + ETC + '/many-00050.service'
    while not os.path.lexists(first) and running.poll() is None:
        time.sleep(0.001)
    running.send_signal(number)
    return running.wait()


def ended_in_the_middle(unitroot, room, number):
    """Ends a run by a signal, on a new root, and returns the root as it was, and how many links the run
    was to make. On a busy machine a run may be over before the signal comes: then a longer one is ended.
    """
    for count in (20000, 40000, 60000):
        root = laid(room, 'interrupted-%d-%d' % (number, count), few())
        was = shot(root)
        status = ended_by(unitroot, root, number, masks(count))
        if status != 0:
            break
    return root, was, count, status


def interrupted(unitroot, room):
    for number in (signal.SIGINT, signal.SIGTERM, signal.SIGHUP, signal.SIGKILL):
        root, was, count, status = ended_in_the_middle(unitroot, room, number)
        now = shot(root)
        made = [path for path in now if path not in was]
        title = 'a run that is ended by %s' % signal.Signals(number).name
        hold(status == -number and 50 <= len(made) < count, title + ' is ended in the middle',
             (status, len(made)))
        well = all(now[path] == ('link', '/dev/null') for path in made if '.unitroot' not in path)
        hold(well and all(now.get(path) == was[path] for path in was),
             title + ' leaves each path as it was or as it is to be')
        ran = unitroot.on(root, 'run', given=masks(count))
        end = shot(root)
        wanted = {**was, **{'%s/many-%05d.service' % (ETC, n): ('link', '/dev/null')
                            for n in range(count)}}
        hold(ran[0] == 0 and end == wanted, title + ' is finished by the same script',
             (ran[0], ran[2], differences(end, wanted)))
        shutil.rmtree(root)


def promises(unitroot, room):
    modes(unitroot, room)
    reversed_whole(unitroot, room)
    if shutil.which('cc'):
        traced = Traced(room)
        changed_by_others(unitroot, room, traced)
        read_bounded(unitroot, room, traced)
        half_done(unitroot, room, traced)
        finished_after_a_kill(unitroot, room, traced)
    else:
        skipped('what others change just before a call', 'there is no cc')
    leads_nowhere(unitroot, room)
    leftovers(unitroot, room)
    locks(unitroot, room)
    waits(unitroot, room)
    too_many_units(unitroot, room)
    layouts(unitroot, room)
    interrupted(unitroot, room)

"""What tests/roots checks of SOURCE_DATE_EPOCH: the times of what a run makes, and two equal builds."""
import os
import stat
import subprocess
import time

from root_checks import ETC, few, hold, laid, shot

GIVEN, BEFORE = 1700000000, 1600000000
PRESETS = '/etc/systemd/system-preset'
# The first call makes links, the second empties a directory, which is removed, and the others make
# files and directories.
SCRIPT = ('a enable ssh.service off.service\na disable cron.service ssh.service off.service\n'
          'a add-requires ssh.service off.service\n'
          'a place %s/10-image.preset file disable\\s*\\n\na mask --runtime cron.service\n' % PRESETS)
MADE = {ETC + '/ssh.service.requires', PRESETS, PRESETS + '/10-image.preset', '/run',
        '/run/systemd', '/run/systemd/system'}
# Directories that were there, and in which something was made or removed.
CHANGED = {'', ETC, '/etc/systemd'}


def all_of(root):
    """The paths of a root, which is the empty one, and all that is beneath it."""
    return [''] + ['%s/%s' % (at[len(root):], name)
                   for at, folders, files in os.walk(root) for name in folders + files]


def built(unitroot, room, name, env):
    """A root whose entries have a time of before, after a run of the script."""
    root = laid(room, name, few())
    for path in all_of(root):
        os.utime(root + path, (BEFORE, BEFORE), follow_symlinks=False)
    status, _, said = unitroot.run('--root=%s' % root, 'run', given=SCRIPT, env=env)
    hold(status == 0, 'a run with %s' % env, said)
    return root


def times_of(root):
    """The times of files and directories: a link's can't be set."""
    found = {path: os.lstat(root + path) for path in all_of(root)}
    return {path: it.st_mtime_ns for path, it in found.items() if not stat.S_ISLNK(it.st_mode)}


def packed(root):
    words = ['tar', '--create', '--sort=name', '--owner=0', '--group=0', '--numeric-owner',
             '--clamp-mtime', '--mtime=@%d' % GIVEN, '--directory=%s' % root, '.']
    return subprocess.run(words, stdout=subprocess.PIPE, check=True).stdout


def equal_builds(unitroot, room):
    env = {'SOURCE_DATE_EPOCH': '%d' % GIVEN}
    one = built(unitroot, room, 'times-one', env)
    time.sleep(1.1)
    other = built(unitroot, room, 'times-other', env)
    for root in one, other:
        times = times_of(root)
        at = {path for path, it in times.items() if it == GIVEN * 10**9}
        hold(at == MADE | CHANGED, 'what was made or changed has the time', at ^ (MADE | CHANGED))
        left = {path for path, it in times.items() if it == BEFORE * 10**9}
        hold(left == set(times) - at, 'all else has the time of before', set(times) - at - left)
    hold(packed(one) == packed(other), 'two builds of one script are the same, packed by tar')


def bad_times(unitroot, room):
    root = laid(room, 'times-bad', few())
    before = shot(root)
    for text in ('x', '-1', '+1', '1.5', ' 1', '1 ', '9223372036854775808', '18446744073709551616'):
        env = {'SOURCE_DATE_EPOCH': text}
        status, _, said = unitroot.run('--root=%s' % root, 'mask', 'ssh', env=env)
        wanted = 'unitroot: SOURCE_DATE_EPOCH: no time: it must be a number of seconds since 1970\n'
        hold((status, said) == (1, wanted), 'SOURCE_DATE_EPOCH=%r' % text, (status, said))
    hold(shot(root) == before, 'a bad time changes nothing')


def times(unitroot, room):
    equal_builds(unitroot, room)
    bad_times(unitroot, room)
    start = int(time.time())
    root = built(unitroot, room, 'times-none', {'SOURCE_DATE_EPOCH': ''})
    found = times_of(root)
    now = {path for path, it in found.items() if it >= start * 10**9}
    hold(now == MADE | CHANGED, 'without a time the system gives its own', now ^ (MADE | CHANGED))

"""How much a run reads of a root, `--max`, and which memory it takes.

Files are sparse, so that a root of 300 MiB is made in no time.
"""
import errno
import os
import re
import shutil
import subprocess

from root_checks import ETC, VENDOR, few, hold, laid, shot, skipped
from root_promises import Traced

MIB = 1 << 20
# What a process may take in all.
MOST_MEMORY = 512 * MIB


def with_files(room, name, count, size=MIB):
    """A root that has so many unit files of this size."""
    root = laid(room, name, {**few(), ETC + '/x.service': b'[Unit]\n'})
    for number in range(count):
        with open('%s%s/big-%d.service' % (root, ETC, number), 'wb') as it:
            it.truncate(size)
    return root


def said(mib):
    """The pattern of the message."""
    return r'unitroot: (%s)?/[^:]*: over %d MiB are read: --max=MIB allows more\n' % (ETC, mib)


def is_refused(ran, mib):
    return ran[0] == 1 and not ran[1] and re.fullmatch(said(mib), ran[2])


def memory_of(*words):
    """The status of a program, what it says on standard error, and the most memory that it took."""
    with subprocess.Popen(words, stdout=subprocess.DEVNULL, stderr=subprocess.PIPE) as running:
        text = running.stderr.read().decode(errors='replace')
        _, status, used = os.wait4(running.pid, 0)
        running.returncode = os.waitstatus_to_exitcode(status)
    return running.returncode, text, used.ru_maxrss << 10


def is_sanitized(unitroot):
    """Whether a program is unproved: then it has a sanitizer."""
    with open(unitroot.path, 'rb') as it:
        return b'AddressSanitizer' in it.read()


def large_root(unitroot, room):
    """A root of 300 MiB."""
    title = 'of a root of 300 MiB no more than 256 MiB are read: capture'
    memory_title = 'a run that is refused takes at most 512 MiB of memory'
    whole = 'with --max=320 all of it is read'
    more_title = 'a run takes at most four times what it reads'
    if is_sanitized(unitroot):
        for each in (title, memory_title, whole, more_title):
            skipped(each, 'an unproved program takes minutes for that, and more memory')
        return
    root = with_files(room, 'large-root', 300)
    on_root = [unitroot.path, '--root=%s' % root]
    status, text, taken = memory_of(*on_root, 'capture')
    hold(status == 1 and re.fullmatch(said(256), text), title, (status, text))
    hold(taken <= MOST_MEMORY, memory_title, taken)
    status, text, taken = memory_of(*on_root, '--max=320', 'capture')
    hold((status, text) == (0, ''), whole, (status, text))
    hold(taken <= 4 * 300 * MIB, more_title, taken)
    ran = unitroot.on(root, 'mask', 'new.service')
    hold(ran[0] == 0, 'a call that looks at little is made on it', ran)
    shutil.rmtree(root)


def small_limits(unitroot, room):
    """What reads more than --max allows is refused, and nothing is changed."""
    root = with_files(room, 'three-files', 3)
    was = shot(root)
    calls = ('capture', 'list-unit-files', 'status x.service', 'preset-all', 'disable off.service',
             'is-enabled off.service', '--dry-run disable off.service', 'diff %s' % root)
    for call in calls:
        ran = unitroot.on(root, '--max=2', *call.split())
        hold(is_refused(ran, 2) and shot(root) == was, 'over --max=2: %s' % call, ran)
    script = ''.join('a remove %s/big-%d.service\n' % (ETC, number) for number in range(3))
    for words in (('run',), ('run', '--keep-going')):
        ran = unitroot.on(root, '--max=2', *words, given=script)
        hold(is_refused(ran, 2) and shot(root) == was, 'over --max=2: %s' % ' '.join(words), ran)
    for call in ('capture', 'list-unit-files', 'is-enabled cron.service'):
        ran = unitroot.on(root, '--max=4', *call.split())
        hold(ran[0] == 0, 'within --max=4: %s' % call, (ran[0], ran[2]))
    ran = unitroot.on(root, '--max=8', 'run', given=script)
    hold(ran[0] == 0 and not [it for it in os.listdir(root + ETC) if it.startswith('big')],
         'within --max=8: run', ran)
    odd = with_files(room, 'odd-and-large', 3, MIB // 2)
    os.makedirs(odd + '/opt')
    os.makedirs(odd + '/var/deep')
    os.symlink('/var/deep', odd + '/opt/way')
    for number in range(5):
        os.symlink('/var/odd-%d' % number, '%s%s/odd-%d.service' % (odd, ETC, number))
        os.symlink('/opt/way/../x', '%s/var/odd-%d' % (odd, number))
    ran = unitroot.on(odd, '--max=2', 'list-unit-files')
    hold(ran[0] == 0 and ran[2].count('passed over') == 5,
         'what is read for a message is not counted', ran)


def many_names(unitroot, room):
    """The paths in a directory are counted as well, whatever they are."""
    root = laid(room, 'many-names', few())
    for number in range(5000):
        with open('%s%s/%0200d' % (root, ETC, number), 'wb'):
            pass
    for call, limit, is_over in (('capture', 1, True), ('disable off.service', 1, True),
                                 ('capture', 4, False), ('mask new.service', 1, False)):
        ran = unitroot.on(root, '--max=%d' % limit, *call.split())
        hold(is_refused(ran, limit) if is_over else ran[0] == 0,
             'a directory with a MiB of names: --max=%d %s' % (limit, call), (ran[0], ran[2]))


def taken_back(unitroot, room):
    """A run whose last change fails is reversed, also if more is compared than --max says."""
    if not shutil.which('cc'):
        return skipped('a run is reversed, whatever was read', 'there is no cc')
    traced = Traced(room)
    script = ''.join('a place %s/new-%d.service file %s\n' % (ETC, number, 'x' * 60000)
                     for number in range(20))
    for kept in (False, True):
        title = 'a run is reversed, whatever was read: %s history' % ('with a' if kept else 'no')
        root = laid(room, 'taken-back-%d' % kept, {VENDOR + '/ssh.service': b'[Unit]\n',
                                                   ETC + '/x.service': b'[Unit]\n'})
        if kept:
            unitroot.on(root, 'keep')
        was, limit = shot(root), ['--max=1']
        number = traced.number_of(unitroot, root, script,
                                  lambda name, here, one, two: name == 'link'
                                  and two == 'new-19.service', limit)
        ran, _ = traced.run(unitroot, root, number, str(errno.EIO), script, more=limit)
        hold(number and ran[0] == 1 and 'Input/output error' in ran[1] and shot(root) == was, title,
             (ran, number))


def memory(unitroot, room):
    for part in (large_root, small_limits, many_names, taken_back):
        part(unitroot, room)

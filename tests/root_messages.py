"""Each message of docs/ROOTS.md's table of messages, word for word, with its status.

A case has the message as it is on the page, what makes the root odd, the words of a call, and what
is printed.
"""
import fcntl
import os
import re
import shutil
import subprocess

from root_checks import ETC, VENDOR, few, hold, laid, shot, skipped
from root_sentences import PAGE, chapters_of

RUN = '/run/systemd/system'
LOCAL = '/usr/local/lib/systemd/system'
HEADING = 'Messages of status 1'
NEW, MASK = ETC + '/new.service', ('mask', 'new.service')
WANTS, ADD = ETC + '/ssh.service.wants', ('add-wants', 'ssh.service', 'off.service')
REASONS = {
    'directory': 'PATH: a directory instead of a unit',
    'special': 'PATH: neither a file nor a link',
    'large': 'PATH: larger than 1,048,576 bytes',
    'target': 'PATH: its target is empty, too long, not UTF-8, or has a TAB or a LF',
    'wants': 'PATH: no directory, but units or links belong into it',
    'twice': 'PATH: a directory that is reached twice',
    'dots': 'PATH: `..` in its target leads elsewhere than its text says',
    'lib': 'PATH: its target is in /lib/systemd, which is another directory than /usr/lib/systemd',
    'ring': 'PATH: too many links',
    'none': 'PATH: no directory',
    'vendor': "PATH: the vendor's: it is changed only with --vendor",
    'system': 'PATH: ',
}


def said(message, path):
    """What is printed, by the page's message and a path."""
    return 'unitroot: %s\n' % message.replace('PATH', path, 1)


class Case:
    """A root, a call that is refused on it, and the message."""

    def __init__(self, message, name, make, words, text, given=''):
        self.message, self.name, self.make = message, name, make
        self.words, self.text, self.given = words, text, given


def write(path, size=0):
    os.makedirs(os.path.dirname(path), exist_ok=True)
    with open(path, 'wb') as it:
        it.write(b'x' * size)


def link(target, path):
    """Makes a link in a root, and the directory that contains it."""
    def make(root):
        os.makedirs(os.path.dirname(root + path), exist_ok=True)
        if os.path.isdir(root + path):
            shutil.rmtree(root + path)
        os.symlink(target, os.fsencode(root + path))
    return make


def at_new(make):
    return lambda root: make(root + NEW)


def of_slots():
    """What is odd at a slot, or instead of a directory for dependencies."""
    def case(key, name, make, words=MASK, path=NEW):
        return Case(REASONS[key], name, make, words, said(REASONS[key], path))

    def socket(path):
        os.mknod(path, 0o140644)

    def device(path):
        os.mknod(path, 0o20644, os.makedev(1, 3))

    cases = [
        case('directory', 'a directory', at_new(os.mkdir)),
        case('special', 'a fifo', at_new(os.mkfifo)), case('special', 'a socket', at_new(socket)),
        case('large', 'a file', at_new(lambda path: write(path, (1 << 20) + 1))),
        case('target', 'a TAB', link('a\tb', NEW)), case('target', 'a LF', link('a\nb', NEW)),
        case('target', 'no UTF-8', link(b'a\xe9', NEW)),
    ]
    if not os.geteuid():
        cases.append(case('special', 'a device', at_new(device)))
    for end in ('wants', 'requires', 'upholds'):
        there = '%s/ssh.service.%s' % (ETC, end)
        words = ('capture',) if end == 'upholds' else ('add-' + end, 'ssh.service', 'off.service')
        cases += [case('wants', 'a link at .' + end, link('x', there), words, there),
                  case('wants', 'a file at .' + end, lambda root, at=there: write(root + at), words,
                       there)]
    return cases


def of_ways():
    """What is odd on the way to a slot, or behind a link."""
    def case(key, name, make, words=MASK, path=NEW):
        return Case(REASONS[key], name, make, words, said(REASONS[key], path))

    def to_local(root):
        """The administrator's directory under its own name, and a link to a unit in it by that."""
        os.makedirs(root + '/var/units')
        write(root + '/var/units/new.service')
        link('/var/units', LOCAL)(root)
        link('/var/units/new.service', NEW)(root)

    def way(root):
        os.makedirs(root + '/var/deep')
        link('/var/deep', '/opt/way')(root)
        link('/opt/way/../x.service', NEW)(root)

    def half(root):
        os.unlink(root + '/lib')
        os.makedirs(root + '/lib/systemd')
        link(VENDOR, '/lib/systemd/system')(root)
        link('/lib/systemd/other/x.service', NEW)(root)

    def ring(path):
        return lambda root: (shutil.rmtree(root + path, ignore_errors=True),
                             link(os.path.basename(path), path)(root))

    presets = '/etc/systemd/system-preset'
    enabled = ('is-enabled', 'new')
    return [
        case('wants', 'a file instead of a directory of units', lambda root: (
            shutil.rmtree(root + ETC), write(root + ETC)), ('disable', 'ssh'), ETC),
        case('wants', 'a file instead of a directory of presets',
             lambda root: write(root + presets), ('preset', 'ssh'), presets),
        case('twice', 'by a link', link(ETC, RUN), path=RUN),
        case('twice', 'a link by another path', to_local, enabled,
             NEW + ' -> /var/units/new.service'),
        case('dots', 'behind a link', way), case('lib', 'half-merged /usr', half),
        case('ring', 'units', ring(ETC), path=ETC),
        case('ring', 'presets', ring(presets), path=presets),
        case('none', 'a file on the way', lambda root: (
            shutil.rmtree(root + '/etc/systemd'), write(root + '/etc/systemd'))),
        case('vendor', 'beneath /usr', lambda root: None, ('remove', VENDOR + '/ssh.service'),
             VENDOR + '/ssh.service'),
    ]


def of_roots():
    """What keeps a whole root from being used."""
    def split(name):
        def make(root):
            os.unlink(root + '/lib')
            os.makedirs(root + name)
        return make

    to_merge = ': merge /usr first, or make it a link\n'
    in_lib = 'PATH: not the directory in /usr/lib/systemd'
    cases = [Case(in_lib, name, split(name), MASK, said(in_lib, name).rstrip('\n') + to_merge)
             for name in ('/lib/systemd/system', '/lib/systemd/system-preset')]
    in_usr = '/usr/etc: the configuration is here, not in /etc'
    return cases + [
        Case(in_usr, 'ostree', lambda root: os.rename(root + '/etc', root + '/usr/etc'), MASK,
             'unitroot: %s: rename usr/etc to etc, and back afterwards\n' % in_usr)]


def of_words():
    """What is wrong with the script, an inventory, or the number of units."""
    def many_units(root):
        for number in range(1025):
            os.symlink('ssh.service', '%s%s/many-%d.service' % (root, VENDOR, number))
            os.unlink('%s%s/many-%d.service' % (root, VENDOR, number))
            shutil.copy('%s%s/ssh.service' % (root, VENDOR),
                        '%s%s/many-%d.service' % (root, VENDOR, number))

    def nothing(root):
        return None

    return [
        Case('line N: REASON: `WORD` in `LINE`', 'two lines', nothing, ('run',),
             'unitroot: line 2: unknown verb: `fly` in `a fly x.service`\n'
             'unitroot: line 3: bad path: `x` in `a remove x`\n',
             '# bad\na fly x.service\na remove x\n'),
        Case('preset-all: over 1,024 units', 'preset-all', many_units, ('preset-all',),
             'unitroot: preset-all: over 1,024 units\n'),
        Case('standard input: larger than 1,048,576 bytes', 'place', nothing,
             ('place', NEW, 'file', '-'), 'unitroot: standard input: larger than 1,048,576 bytes\n',
             'x' * 1048577),
        Case('FILE: inventory entry N: REASON', 'none', nothing, ('apply',),
             'unitroot: standard input: inventory entry 0: bad header\n', 'no inventory\n'),
        Case('FILE: inventory entry N: REASON', 'cut', nothing, ('apply',),
             'unitroot: standard input: inventory entry 1: truncated\n', 'unitadm-inventory 1\n'),
    ]


def tried(unitroot, room, case):
    name = 'message %s %s' % (case.message[:30].lower(), case.name.lower())
    root = laid(room, re.sub('[^a-z0-9]+', '-', name), few())
    case.make(root)
    was = shot(root)
    ran = unitroot.on(root, *case.words, given=case.given)
    hold((ran[0], ran[1], ran[2]) == (1, b'', case.text) and shot(root) == was,
         'message: %s: %s' % (case.message, case.name), (ran, case.text))
    shutil.rmtree(root)


def of_the_system(unitroot, room):
    """The system's own text."""
    title = 'message: PATH: %s' % 'the system\'s own text'
    nowhere = '%s/nowhere' % room
    ran = unitroot.on(nowhere, *MASK)
    text = 'unitroot: %s: No such file or directory (os error 2)\n' % nowhere
    hold((ran[0], ran[2]) == (1, text), title + ': a root that does not exist', ran)
    ran = unitroot.on(room, 'run', nowhere)
    hold((ran[0], ran[2].splitlines()[-1:]) == (1, [text.rstrip('\n')]),
         title + ': a script that does not exist', ran)
    file = '%s/file' % room
    write(file)
    ran = unitroot.on(file, *MASK)
    hold((ran[0], ran[2]) == (1, 'unitroot: %s: no directory\n' % file),
         'message: PATH: no directory: a root that is a file', ran)
    fifo = '%s/fifo' % room
    os.mkfifo(fifo)
    ran = unitroot.on(fifo, *MASK)
    hold((ran[0], ran[2]) == (1, 'unitroot: %s: no directory\n' % fifo),
         'message: PATH: no directory: a root that is a fifo, which is not opened', ran)


def of_mounts(unitroot, room):
    """Two directories that are one, by a link and by a mount."""
    message, by_link = said(REASONS['twice'], LOCAL), laid(room, 'by-link', few())
    link(ETC, LOCAL)(by_link)
    for words in (MASK, ('list-unit-files',), ('capture',)):
        ran = unitroot.on(by_link, *words)
        hold((ran[0], ran[2]) == (1, message), 'two directories that are one: %s' % words[0], ran)
    title, root = 'message: %s: by a mount' % REASONS['twice'], laid(room, 'by-mount', few())
    os.makedirs(root + LOCAL)
    mount = ['mount', '--bind', root + ETC, root + LOCAL]
    if subprocess.run(mount, capture_output=True).returncode:
        return skipped(title, 'nothing can be mounted here')
    try:
        ran = unitroot.on(root, *MASK)
        hold((ran[0], ran[2]) == (1, message), title, ran)
    finally:
        subprocess.run(['umount', root + LOCAL])


def of_several_links(unitroot, room):
    """Of several links that lead to what is odd, the first is named."""
    root = laid(room, 'several-links', few())
    write(root + '/var/units/new.service')
    link('/var/units', LOCAL)(root)
    for name in ('z.service', 'a.service', 'm.service'):
        link('/var/units/new.service', '%s/%s' % (ETC, name))(root)
    ran = unitroot.on(root, 'is-enabled', 'm')
    text = said(REASONS['twice'], '%s/a.service -> /var/units/new.service' % ETC)
    hold((ran[0], ran[2]) == (1, text), 'of several links the first is named', ran)


def of_limits(unitroot, room):
    """What is larger than the program, or its limits, allow."""
    root = laid(room, 'message-limits', few())
    title, text = 'message: more than 1,000,000 calls: run', 'unitroot: more than 1,000,000 calls\n'
    words = [unitroot.path, '--root=%s' % root, 'run']
    calls = b'a mask x.service\n' * 1000001
    try:
        ran = subprocess.run(words, input=calls, capture_output=True, timeout=120)
        hold((ran.returncode, ran.stderr.decode()) == (1, text), title, ran)
    except subprocess.TimeoutExpired:
        skipped(title, 'that takes over two minutes here')

    title = 'message: out of memory: run'
    with open(unitroot.path, 'rb') as it:
        is_sanitized = b'AddressSanitizer' in it.read()
    # (an unproved program may have a sanitizer, which needs a limit of its own)
    limit, size, env = ['prlimit', '--as=%d' % (128 << 20)], 150 << 20, {**os.environ}
    if is_sanitized:
        limit, size = [], 10 << 20
        env['ASAN_OPTIONS'] = 'allocator_may_return_null=1:max_allocation_size_mb=4:detect_leaks=0'
    elif not shutil.which('prlimit'):
        return skipped(title, 'there is no prlimit')
    ran = subprocess.run([*limit, *words], input=b'#' * size, capture_output=True, env=env)
    last = ran.stderr.splitlines()[-1:]
    hold((ran.returncode, last) == (1, [b'unitroot: out of memory']), title, ran)


def unread(unitroot, room):
    root = laid(room, 'message-unread', few())
    directory = os.open(root, os.O_RDONLY)
    ran = subprocess.run([unitroot.path, '--root=%s' % root, 'run'], stdin=directory,
                         capture_output=True)
    os.close(directory)
    hold((ran.returncode, ran.stderr) == (1, b'unitroot: standard input: read fault\n'),
         'message: standard input: read fault: a directory', ran)


def refused(unitroot, room):
    ran = unitroot.on(laid(room, 'message-refused', few()), 'add-wants', 'no.target', 'ssh')
    text = 'Failed to add a dependency on no.target: it does not exist.\n'
    hold((ran[0], ran[2]) == (1, text), 'a refused command begins with Failed to', ran)


def held(unitroot, room):
    root = laid(room, 'message-held', few())
    lock = os.open(root, os.O_RDONLY)
    fcntl.flock(lock, fcntl.LOCK_EX)
    ran = unitroot.on(root, *MASK)
    os.close(lock)
    hold(ran == (1, b'', 'unitroot: another run holds the root\n'),
         'message: another run holds the root: flock', ran)


def unwritten(unitroot, room):
    root = laid(room, 'message-unwritten', few())
    with open('/dev/full', 'wb') as full:
        ran = subprocess.run([unitroot.path, '--root=%s' % root, 'capture'], stdout=full,
                             stderr=subprocess.PIPE)
    hold((ran.returncode, ran.stderr) == (1, b'unitroot: standard output: write fault\n'),
         'message: standard output: write fault: capture', ran)


def messages_of_page():
    """The messages of the page's table."""
    with open(PAGE) as it:
        text = chapters_of(it.read())[HEADING]
    return {row.strip('` ') for row in re.findall(r'\| (``.*?``|`.*?`) ', text)}


def messages(unitroot, room):
    cases = of_slots() + of_ways() + of_roots() + of_words()
    for case in cases:
        tried(unitroot, room, case)
    missing = {case.message.strip('`') for case in cases} - messages_of_page()
    hold(not missing, 'the page has each message', missing)
    for part in (of_the_system, of_mounts, of_several_links, of_limits, held, unread, refused,
                 unwritten):
        part(unitroot, room)

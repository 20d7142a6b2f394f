"""What tests/roots and tests/root-words share: checks, programs, roots and what is in them."""
import os
import stat
import subprocess
import sys

HERE = os.path.dirname(os.path.abspath(__file__))
ETC = '/etc/systemd/system'
VENDOR = '/usr/lib/systemd/system'
DIRECTORIES = (ETC, '/run/systemd/system', '/usr/local/lib/systemd/system', VENDOR)
passed = failed = 0
# The titles of all checks so far, also of those that were skipped, and those alone.
titles = set()
not_run = []


def hold(well, title, more=''):
    global passed, failed
    titles.add(title)
    passed += bool(well)
    failed += not well
    if not well:
        print('FAILED: %s: %s' % (title, more), flush=True)


def skipped(title, why):
    titles.add(title)
    not_run.append(title)
    print('skipped: %s: %s' % (title, why))


class Program:
    def __init__(self, path):
        self.path = os.path.abspath(path)

    def run(self, *words, given='', env=None):
        given = given.encode() if isinstance(given, str) else given
        env = {**{key: value for key, value in os.environ.items() if key != 'UNITROOT_ROOT'},
               **(env or {})}
        ran = subprocess.run([self.path, *words], input=given, capture_output=True, timeout=300,
                             env=env)
        return ran.returncode, ran.stdout, ran.stderr.decode(errors='replace')

    def on(self, root, *words, given=''):
        return self.run('--root=%s' % root, *words, given=given)


def entries_of(inventory):
    """The entries of an inventory: bytes by paths, and texts where they are links."""
    entries, at = {}, inventory.index(b'\n') + 1
    while not inventory.startswith(b'end\n', at):
        end = inventory.index(b'\n', at)
        kind, one, two = inventory[at:end].split(b'\t')
        at = end + 1
        if kind == b'F':
            size = int(one)
            entries[two.decode()] = inventory[at:at + size]
            at += size + 1
        else:
            entries[one.decode()] = two.decode()
    return entries


def sample():
    with open('%s/sample' % HERE, 'rb') as it:
        return it.read().split(b'== calls\n')[0]


def few():
    """The entries of a small root."""
    entries = {'%s/%s.service' % (VENDOR, name): b'[Install]\nWantedBy=multi-user.target\n'
               for name in ('ssh', 'cron', 'off')}
    wants = {ETC + '/multi-user.target.wants/cron.service': VENDOR + '/cron.service'}
    return {**entries, **wants, VENDOR + '/multi-user.target': b'[Unit]\n',
            VENDOR + '/default.target': 'multi-user.target'}


def laid(room, name, entries, merged=True):
    """A root with these entries."""
    root = '%s/%s' % (room, name)
    for path, entry in entries.items():
        os.makedirs(os.path.dirname(root + path), exist_ok=True)
        if isinstance(entry, str):
            os.symlink(entry, root + path)
        else:
            with open(root + path, 'wb') as it:
                it.write(entry)
    if merged:
        os.symlink('usr/lib', root + '/lib')
    return root


def shot(root):
    """All entries beneath a folder: kinds, targets, bytes, modes."""
    seen = {}
    for at, folders, files in os.walk(root):
        for name in folders + files:
            path = '%s/%s' % (at, name)
            found = os.lstat(path)
            if stat.S_ISLNK(found.st_mode):
                what = ('link', os.readlink(path))
            elif stat.S_ISREG(found.st_mode):
                with open(path, 'rb') as it:
                    what = ('file', it.read(), stat.S_IMODE(found.st_mode))
            else:
                what = ('other', found.st_mode)
            seen[path[len(root):]] = what
    return seen


def differences(one, other):
    return [(path, one.get(path), other.get(path)) for path in sorted({*one, *other})
            if one.get(path) != other.get(path)][:4]


def outside(entries):
    """Options that capture the entries at no slot: else these are captured only if linked to."""
    return [word for path in entries if not path.startswith(DIRECTORIES)
            and not path.endswith('.preset') for word in ('--with', path)]


def controls(text):
    """The control characters of a text, but for the ends of its lines."""
    return [mark for mark in text if ord(mark) < 32 and mark != '\n' or ord(mark) == 127
            or mark == '\ufffd']


def end():
    """Ends a test with its last line and its status."""
    left = ', %d skipped: %s' % (len(not_run), '; '.join(not_run)) if not_run else ''
    print('%d passed, %d failed%s' % (passed, failed, left))
    sys.exit(1 if failed else 0)

"""What the files of tests/kept share: roots with histories, their whole state, and what `unitadm`
says of a history."""
import hashlib
import os
import re
import shutil
import stat
import subprocess

from root_checks import ETC, HERE, VENDOR, Program, hold, laid, skipped

HOME = '/var/lib/unitroot'
HISTORY = HOME + '/history'
PROMISE = HOME + '/history.next'
UNIT = b'[Service]\nExecStart=/x\n[Install]\nWantedBy=multi-user.target\n'
OURS = re.compile(r'(.*/)?(\.unitroot-new[^/]*(/.*)?|history\.(new|next))')
FOR_DEPENDENCIES = re.compile(r'.*\.(wants|requires|upholds)')
# Tuesday, 2026-12-01, 08:30:05 UTC.
TUESDAY = 1796113805
NAMES = ('UNITROOT_ROOT', 'UNITROOT_OPERATOR', 'SUDO_USER', 'LOGNAME', 'SOURCE_DATE_EPOCH')


class Kept(Program):
    """unitroot, as it is run on roots with a history: by anna, at a time that the check gives."""

    def run(self, *words, given='', env=None, under=()):
        given = given.encode() if isinstance(given, str) else given
        ran = subprocess.run([*under, self.path, *words], input=given, capture_output=True,
                             timeout=600, env=self.around(env))
        return ran.returncode, ran.stdout.decode(), ran.stderr.decode(errors='replace')

    def around(self, env):
        """The environment of a run."""
        around = {key: value for key, value in os.environ.items() if key not in NAMES}
        # (an unproved program may be built with a sanitizer, which reads files at its end)
        return {**around, 'LOGNAME': 'anna', 'ASAN_OPTIONS': 'detect_leaks=0', **(env or {})}

    def on_a_terminal(self, folder, *words, env=None):
        """All that a run in a folder prints, in the order in which it prints it."""
        ran = subprocess.run([self.path, *words], cwd=folder, stdin=subprocess.DEVNULL, timeout=600,
                             stdout=subprocess.PIPE, stderr=subprocess.STDOUT,
                             env=self.around(env))
        return ran.stdout.decode()

    def on(self, root, *words, given='', env=None, under=()):
        return self.run('--root=%s' % root, *words, given=given, env=env, under=under)

    def disturbed(self, tracer, root, number, how, *words, given='', env=None):
        """A run under fail_call, and the calls that it made."""
        log = '%s.calls' % root
        if os.path.exists(log):
            os.unlink(log)
        ended = self.on(root, *words, given=given, env=env,
                        under=(tracer, root, str(number), str(how), log))
        with open(log, errors='surrogateescape') as lines:
            calls = [line.rstrip('\n').split('\t') for line in lines]
        os.unlink(log)
        return ended, calls


def at(seconds):
    return {'SOURCE_DATE_EPOCH': str(seconds)}


def tracer_in(room):
    tracer = '%s/fail_call' % room
    subprocess.run(['cc', '-O1', '-o', tracer, '%s/../tools/fail_call.c' % HERE], check=True)
    return tracer


def units(*names):
    """The entries of a root with these services."""
    entries = {'%s/%s.service' % (VENDOR, name): UNIT for name in names}
    return {**entries, VENDOR + '/multi-user.target': b'[Unit]\n'}


def small(room, name):
    """A root with three services, and a directory of the administrator."""
    root = laid(room, name, units('cron', 'nfs-server', 'ssh'))
    os.makedirs(root + ETC)
    return root


def copied(root, copy):
    subprocess.run(['cp', '-a', root, copy], check=True)
    return copy


def whole(root):
    """All that is beneath a folder: kinds, modes, owners, targets and bytes."""
    seen = {}
    for here, folders, files in os.walk(root):
        for path in ['%s/%s' % (here, name) for name in folders + files]:
            found = os.lstat(path)
            what = b''
            if stat.S_ISLNK(found.st_mode):
                what = os.readlink(path)
            elif stat.S_ISREG(found.st_mode) and found.st_size < 1 << 24:
                with open(path, 'rb') as it:
                    what = it.read()
            seen[path[len(root):]] = (oct(found.st_mode), found.st_uid, found.st_gid, what)
    return seen


def is_emptied(root, path):
    """Whether this is a directory for dependencies that is empty."""
    return (FOR_DEPENDENCIES.fullmatch(path) and os.path.isdir(root + path)
            and not os.listdir(root + path))


def left_by_us(root, wanted):
    """What a run made for itself, and new empty directories for dependencies."""
    return [path for path in whole(root) if OURS.fullmatch(path)
            or is_emptied(root, path) and path not in wanted]


def put_back(path, old, root):
    """Puts one path of a root back by hand, as the old root has it."""
    place = root + path
    if os.path.lexists(place):
        os.unlink(place)
    if os.path.lexists(old + path):
        os.makedirs(os.path.dirname(place), exist_ok=True)
        subprocess.run(['cp', '-a', old + path, place], check=True)
    elif not os.path.isdir(old + os.path.dirname(path)) and not os.listdir(os.path.dirname(place)):
        os.rmdir(os.path.dirname(place))


def text_of(directory, name='history'):
    with open('%s/%s' % (directory, name), 'rb') as it:
        return it.read()


def write_text(directory, text):
    with open('%s/history' % directory, 'wb') as it:
        it.write(text)


def rows_of(report):
    """The rows of a report: what comes before its changes or the tree."""
    return re.split(r'^== .*\n', report, maxsplit=1, flags=re.M)[0]


def of_unitadm(unitadm, text, title, rows):
    """Compares the rows of a history, by `unitadm`, with those that `unitroot` reported."""
    if not unitadm:
        skipped(title, 'no unitadm is given')
        return
    ran = subprocess.run([unitadm.path], input=text, capture_output=True, timeout=300)
    found = rows_of(ran.stdout.decode())
    hold(found == rows, title, (found, rows, ran.stderr[:200]))


def reported(unitroot, root, *there):
    """All rows of a history in the form of a report, by what `show` says of each."""
    count = unitroot.on(root, 'log', '--no-legend', *there)[1].count('\n')
    rows = []
    for number in range(1, count + 1):
        said = unitroot.on(root, 'show', str(number), *there)[1]
        found = re.search(r'^operator: (\S+)\n.*?^reply: (.*?)^(?:looked at|undo):', said,
                          re.M | re.S)
        rows.append('%d %s %s' % (number, *found.groups()) if found else said)
    return ''.join(rows)


def as_unitadm(unitroot, unitadm, root, title, *there):
    """Compares all rows of the history of a root with those that `unitadm` has."""
    rows = reported(unitroot, root, *there)
    hold(rows, '%s: there are rows' % title)
    directory = there[0].partition('=')[2] if there else root + HOME
    of_unitadm(unitadm, text_of(directory), title, rows)


def without_chance(text):
    """The text of a history without what is another one in each: its number, the path of its root,
    and the sums of the text."""
    text = re.sub(rb'(?m)^(# unitroot-history 1) id=\w+ root=\S+', rb'\1 id=ID root=ROOT', text)
    return re.sub(rb' text=sha256:\w{64}', b' text=SUM', text)


def summed(text):
    """A text of a history whose sums are made again, as its writer would."""
    head, begun, rest = text.partition(b'# unitroot-history ')
    # (a list: to append a million lines to bytes one by one takes many minutes)
    out, part, sum_so_far = [], [head + begun], b''
    for line in rest.splitlines(keepends=True):
        first, mark, _ = line.partition(b' text=sha256:')
        if not mark:
            part.append(line)
            continue
        those = b''.join([*part, first])
        sum_so_far = hashlib.sha256(sum_so_far + those).digest()
        out += [those, mark, sum_so_far.hex().encode(), b'\n']
        part = []
    return b''.join(out + part)


def refused(ended, status, said, root, before, title):
    """A run that ended with this status and text, and changed nothing."""
    hold(ended[0] == status and said in ended[2], title, (ended, 'instead of', status, said))
    hold(whole(root) == before, '%s: nothing is changed' % title)


def rid_of(*folders):
    for folder in folders:
        shutil.rmtree(folder, ignore_errors=True)

"""Larger roots of tests/as-systemctl: Debian's packages, and images."""
import concurrent.futures
import itertools
import os
import re
import shutil
import stat
import subprocess
import sys
import tempfile

sys.dont_write_bytecode = True
from systemctl_calls import Outcome, beside, parsed, wrong_answer
from systemctl_random import MODES, is_known, rows_of

# Roots of Debian's packages

DEBIAN = {
    'systemd alone': 'systemd',
    'a server': 'systemd udev dbus cron openssh-server rsyslog chrony unattended-upgrades',
    'a web server': 'systemd udev dbus cron nginx-common apache2 mariadb-server php8.2-fpm certbot '
                    'fail2ban postgresql-common redis-server',
    'a desktop': 'systemd udev dbus network-manager bluez cups-daemon cups-browsed avahi-daemon '
                 'gdm3 modemmanager wpasupplicant pulseaudio power-profiles-daemon upower '
                 'systemd-timesyncd accountsservice packagekit switcheroo-control',
}
SECONDS = 1200
TYPES_OF_UNITS = r'service|socket|target|timer|path|mount|automount|swap|slice'


def packages_of(names, folder):
    """The files of Debian's packages with these names, which are downloaded if they aren't there;
    else why there are none."""
    given = os.environ.get('DEBIAN_PACKAGES')
    if not given and subprocess.run(['apt-get', 'download', *names], cwd=folder, timeout=SECONDS,
                                    capture_output=True).returncode:
        return None, 'apt-get download fails: no network, or no list of packages (apt-get update)'
    there, found = given or folder, []
    for name in names:
        files = sorted(file for file in os.listdir(there) if file.startswith(name + '_'))
        if not files:
            return None, 'no package %s in %s' % (name, there)
        found.append(os.path.join(there, files[-1]))
    return found, ''


def unpack(packages, root):
    """Makes a root of what packages have for systemd, with /lib a link to /usr/lib, as in Debian's
    images."""
    with tempfile.TemporaryDirectory(prefix='as-systemctl-') as whole:
        os.makedirs(whole + '/usr/lib')
        os.symlink('usr/lib', whole + '/lib')
        into = ['tar', '-x', '--keep-directory-symlink', '--no-same-owner', '-C', whole]
        for package in packages:
            packed = ['dpkg-deb', '--fsys-tarfile', package]
            with subprocess.Popen(packed, stdout=subprocess.PIPE) as files:
                subprocess.run(into, stdin=files.stdout, check=True, timeout=SECONDS)
        os.makedirs(root + '/usr/lib')
        os.symlink('usr/lib', root + '/lib')
        for folder in ('/etc/systemd', beside.USR, beside.USR + '-preset'):
            if os.path.isdir(whole + folder):
                shutil.copytree(whole + folder, root + folder, symlinks=True)


def shot(root):
    """All files, links and directories of a root: the links in one spelling."""
    seen = {}
    for at, folders, files in os.walk(root):
        for name in folders + files:
            path = os.path.join(at, name)
            mode = os.lstat(path).st_mode
            target = beside.plain('link', os.readlink(path)) if stat.S_ISLNK(mode) else None
            size = os.path.getsize(path) if stat.S_ISREG(mode) else None
            seen[path[len(root):]] = stat.S_IFMT(mode), target, size
    return seen


def copied(origin, root):
    """Makes a copy of a root, in which files are hard links. /tmp is left out."""
    os.makedirs(root)
    entries = [os.path.join(origin, name) for name in os.listdir(origin) if name != 'tmp']
    subprocess.run(['cp', '-al', *entries, root], check=True, timeout=SECONDS)


def done_on(words, call, origin, root, inside=''):
    """What a program does with a call on a copy of a root: status, standard output, the root.
    `inside` is the directory into which the program is put by chroot."""
    copied(origin, root)
    command = (['chroot', inside] if inside else []) + words
    ran = subprocess.run([*command, '--root=' + root[len(inside):], *call],
                         stdin=subprocess.DEVNULL, timeout=SECONDS, capture_output=True,
                         env={'PATH': os.environ['PATH'], 'LC_ALL': 'C'})
    left = shot(root)
    shutil.rmtree(root)
    return Outcome(ran.returncode, ran.stdout.decode('latin-1'), sorted(left.items()), [],
                   ran.stderr.decode(errors='replace'))


def units_of(root):
    """The unit files of a root that are no links."""
    folder = root + beside.USR
    names = sorted(name for name in os.listdir(folder) if not os.path.islink(folder + '/' + name))
    return [name for name in names if re.fullmatch(r'.+\.(%s)' % TYPES_OF_UNITS, name)]


def calls_on(root):
    """The calls that are compared on a root, with all of its units."""
    units = units_of(root)
    installed = [name for name in units if '@.' not in name]
    return ([['preset-all'] + mode for mode in [[]] + [['--preset-mode=' + mode] for mode in MODES]]
            + [['list-unit-files'] + more for more in
               [[], ['--no-legend'], ['--type=service'], ['--state=enabled,disabled'], ['*@*']]]
            + [['is-enabled'] + units, ['enable'] + installed, ['disable'] + units])


def calls_on_each(units, verbs):
    """Calls with a unit each."""
    return [[verb, unit] for unit in units for verb in verbs]


def is_half_done(one, other, origin):
    """Whether both refuse a call of which systemctl alone has done a part: docs/SYSTEMCTL.md."""
    return one.status and other.status and other.changes == sorted(shot(origin).items())


def entries_about(root, unit):
    """The entries of a root that have to do with a unit: by name, or by a link to or from it."""
    tree, names = beside.standing(root), {unit}
    ends = {path: {os.path.basename(path)} | ({os.path.basename(entry[1])} if entry[0] == 'link'
                                              else set()) for path, entry in tree.items()}
    for _ in range(3):
        names |= set(itertools.chain.from_iterable(end for end in ends.values() if end & names))
    return {path: entry for path, entry in tree.items()
            if ends[path] & names or path.endswith('.preset')}


def differ_as_told(program, one, other, origin):
    """Whether the rows of two lists differ only in the states of units for which `is-enabled` is
    known to differ."""
    theirs, ours = rows_of(one), rows_of(other)
    units = [unit for unit in {*theirs, *ours} if theirs.get(unit) != ours.get(unit)]
    return bool(units) and all(
        is_known(program, entries_about(origin, unit), ['is-enabled', unit]) for unit in units)


def debian_failures(program, title, call, origin, folder, inside=''):
    """What the two do differently with a call on a root of packages: a line each."""
    with tempfile.TemporaryDirectory(prefix='call-', dir=folder) as room:
        one = done_on(['systemctl'], call, origin, room + '/root', inside)
        other = done_on([program], call, origin, room + '/root')
    wrong = wrong_answer(parsed(call), one, other)
    if one.changes != other.changes and not is_half_done(one, other, origin):
        wrong.append('other files and links')
    is_list = parsed(call).verb == 'list-unit-files'
    if not wrong or is_list and differ_as_told(program, one, other, origin):
        return []
    theirs, ours = (set(outcome.out.splitlines()) for outcome in (one, other))
    differ = sorted({*one.changes} ^ {*other.changes})[:12]
    return (wrong + ['systemctl: status %d' % one.status, 'unitroot: status %d' % other.status]
            + ['systemctl says ' + line for line in one.said.splitlines()[:4]]
            + ['unitroot says ' + line for line in other.said.splitlines()[:4]]
            + ['systemctl alone prints ' + line for line in sorted(theirs - ours)[:12]]
            + ['unitroot alone prints ' + line for line in sorted(ours - theirs)[:12]]
            + ['%s %s' % ('systemctl' if entry in one.changes else 'unitroot', entry)
               for entry in differ])


def after_presets(program, title, origin, folder, inside=''):
    """Lists the units of a root after its presets, of which the first call makes a new root."""
    made = folder + '/preset'
    copied(origin, made)
    command = (['chroot', inside] if inside else []) + ['systemctl']
    subprocess.run([*command, '--root=' + made[len(inside):], 'preset-all'], capture_output=True,
                   check=True, timeout=SECONDS)
    calls = [['preset-all'], ['list-unit-files'], ['is-enabled'] + units_of(made)]
    return [('Debian, %s, after its presets: %s' % (title, ' '.join(call[:2])),
             debian_failures(program, title, call, made, folder, inside)) for call in calls]


def on_debian(program, title, names, folder):
    """The titles of what is compared on one root of packages, and what went wrong."""
    packages, why = packages_of(names, folder)
    if not packages:
        print('skipped, %s: a root of Debian\'s packages, %s' % (why, title), flush=True)
        return []
    origin = folder + '/origin'
    unpack(packages, origin)
    calls = calls_on(origin) + calls_on_each(units_of(origin)[::7], ('enable', 'preset', 'mask'))
    done = [('Debian, %s: %s' % (title, ' '.join(call[:2])),
             debian_failures(program, title, call, origin, folder)) for call in calls]
    return done + after_presets(program, title, origin, folder)


def debian(program):
    """What is compared on roots of Debian's packages."""
    missing = [tool for tool in ('apt-get', 'dpkg-deb', 'tar') if not shutil.which(tool)]
    if missing:
        print('skipped, no %s: the roots of Debian\'s packages' % missing[0])
        return []
    done = []
    for title, names in DEBIAN.items():
        with tempfile.TemporaryDirectory(prefix='as-systemctl-') as folder:
            done += on_debian(program, title, names.split(), folder)
    return done


# Images

SCRIPT = """a preset %(all)s
a mask %(first)s
a enable %(second)s
a undo 2
a disable %(third)s
a set-default rescue.target
"""


def parts_of(image, root):
    """Copies what an image has for systemd."""
    os.makedirs(root + '/usr/lib')
    os.symlink('usr/lib', root + '/lib')
    for folder in ('/etc/systemd', '/usr/local/lib/systemd', beside.USR, beside.USR + '-preset'):
        if os.path.isdir(image + folder):
            shutil.copytree(image + folder, root + folder, symlinks=True)


def each_unit(program, title, parts, folder, inside):
    """What the two do differently with each unit of an image by itself."""
    calls = calls_on_each(units_of(parts), ('enable', 'disable', 'is-enabled'))

    def compared(call):
        return '%s: %s' % (title, ' '.join(call)), debian_failures(program, title, call, parts,
                                                                   folder, inside)

    with concurrent.futures.ThreadPoolExecutor(os.cpu_count() or 1) as pool:
        yield from pool.map(compared, calls)


def ran_on(program, root, *words, given=b''):
    """The status, standard output and standard error of unitroot."""
    ran = subprocess.run([program, '--root=' + root, *words], input=given, capture_output=True,
                         timeout=SECONDS)
    return ran.returncode, ran.stdout, ran.stderr


def inodes(root):
    """The inodes of all paths: that of what is made anew is another one."""
    return {os.path.join(at, name): os.lstat(os.path.join(at, name)).st_ino
            for at, folders, files in os.walk(root) for name in folders + files}


def others(one, other):
    """A few of the entries in which two roots differ."""
    return sorted({*shot(one).items()} ^ {*shot(other).items()})[:6]


def wrong_apply(program, image, folder):
    """What is wrong with `apply` of what `preset-all` leaves: the second one makes nothing."""
    wanted, root = folder + '/wanted', folder + '/applied'
    for copy in wanted, root:
        copied(image, copy)
    made = ran_on(program, wanted, 'preset-all')
    inventory = ran_on(program, wanted, 'capture')[1]
    first = ran_on(program, root, 'apply', '-', given=inventory)
    left, wrong = inodes(root), []
    if made[0] or first[0] or others(root, wanted):
        wrong.append('apply: %s' % ((made, first, others(root, wanted)),))
    second = ran_on(program, root, 'apply', '-', given=inventory)
    if second != (0, b'', b'') or inodes(root) != left:
        wrong.append('the second apply: %s' % (second,))
    return wrong


def wrong_circle(program, unitadm, image, folder, script):
    """What is wrong with `capture`, unitadm with a script, and `apply`, beside `run` of the script;
    with no script nothing is made."""
    one, other = tempfile.mkdtemp(dir=folder) + '/root', tempfile.mkdtemp(dir=folder) + '/root'
    for copy in one, other:
        copied(image, copy)
    inventory = ran_on(program, one, 'capture')[1] + b'== calls\n' + script
    ran = subprocess.run([unitadm], input=inventory, capture_output=True, timeout=SECONDS)
    tree, wrong = ran.stdout.partition(b'== tree\n')[2], []
    put = ran_on(program, one, 'apply', '-', given=tree)
    made = ran_on(program, other, '--keep-going', 'run', '-', given=script)
    if put[0] or made[0] not in (0, 3) or others(one, other) or not script and others(one, image):
        wrong.append('another root: %s' % ((put, made, others(one, other)),))
    if ran_on(program, one, 'capture')[1] != tree:
        wrong.append('another inventory')
    return wrong


def circles(program, unitadm, title, image, folder):
    """What is wrong with circles from an image to an inventory, and back."""
    units = [name for name in units_of(image) if '@.' not in name]
    script = SCRIPT % {'all': ' '.join(units), 'first': units[0], 'second': units[1],
                       'third': units[2]}
    return [('%s: capture, unitadm with %s, apply' % (title, what),
             wrong_circle(program, unitadm, image, folder, given))
            for what, given in (('no call', b''), ('a script', script.encode()))]


def version_of(command):
    """The version of a systemctl."""
    ran = subprocess.run([*command, '--version'], capture_output=True, text=True, timeout=60)
    return ran.stdout.split()[1:2]


def on_image(program, unitadm, image):
    """The titles of what is compared on an image, and what went wrong."""
    title = os.path.basename(image)
    is_same = version_of(['chroot', image, 'systemctl']) == version_of(['systemctl'])
    inside = '' if is_same else image
    os.makedirs(image + '/tmp', exist_ok=True)
    with tempfile.TemporaryDirectory(prefix='as-systemctl-', dir=image + '/tmp') as folder:
        yield title + ': apply twice', wrong_apply(program, image, folder)
        yield title + ': preset-all', debian_failures(program, title, ['preset-all'], image, folder,
                                                      inside)
        parts = folder + '/parts'
        parts_of(image, parts)
        if unitadm:
            yield from circles(program, unitadm, title, parts, folder)
        for call in calls_on(parts):
            yield ('%s: %s' % (title, ' '.join(call[:2])),
                   debian_failures(program, title, call, parts, folder, inside))
        yield from after_presets(program, title, parts, folder, inside)
        yield from each_unit(program, title, parts, folder, inside)


def images_in(folder):
    """The images of a folder, and why there are none."""
    if os.geteuid():
        return [], 'chroot needs root'
    if not os.path.isdir(folder):
        return [], 'there is no folder %s' % folder
    # (systemctl takes no link for a root: it fails at each alias in /usr)
    images = [os.path.realpath(os.path.join(folder, name)) for name in sorted(os.listdir(folder))]
    images = [image for image in images if os.path.exists(image + '/usr/bin/systemctl')]
    return images, '' if images else 'no image in %s has a systemctl' % folder


def on_images(program, folder, unitadm=None):
    """What is compared on each image of a folder; a line says why nothing is."""
    images, why = images_in(folder)
    if why:
        print('skipped, %s: images' % why)
    for image in images:
        yield from on_image(program, unitadm, image)

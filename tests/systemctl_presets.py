"""Random roots of tests/as-systemctl whose units name each other in `Also=`, and `preset-all` on
them."""
import random
import sys

sys.dont_write_bytecode = True
from systemctl_calls import beside, by_systemctl, by_unitroot, wrong_with
from systemctl_random import MODES, known_name, met, shrunk

UNITS = ['a.service', 'b.service', 'c.socket', 'd.timer', 'e.service', 'f.path', 't@.service']
NAMED = UNITS + ['t@x.service', 't@y.service', 'none.service', 'm.target']
ALIASES = {'a.service': 'g.service', 'b.service': 'h.service', 'c.socket': 'g.socket',
           'd.timer': 'g.timer', 'e.service': 'i.service', 'f.path': 'g.path'}
RULES = ['enable', 'disable']
PATTERNS = UNITS + ['*', '*.service', '[a-c].*', 't@*', '*.socket', '[!a]*']


def random_section(chance, name):
    """A unit file that names others."""
    lines = ['[Install]']
    if chance.random() < 0.7:
        targets = ['n@.target'] if '@' in name else ['m.target', 'n.target', 'm.target n.target']
        lines.append('WantedBy=' + chance.choice(targets))
    if chance.random() < 0.15 and '@' not in name:
        lines.append('RequiredBy=n.target')
    if chance.random() < 0.15 and '@' not in name:
        lines.append('Alias=' + ALIASES[name])
    for _ in range(chance.choice([0, 0, 1, 1, 1, 2])):
        lines.append('Also=' + ' '.join(chance.sample(NAMED, chance.choice([1, 1, 2]))))
    return '\n'.join(lines[:1] + chance.sample(lines[1:], len(lines) - 1)) + '\n'


def random_link(chance, name, file):
    """A link that enables a unit, a mask, or an alias: its path, and the entry there."""
    folder = chance.choice(6 * [beside.ETC] + [beside.RUN])
    kind = beside.pick(chance, dependency=7, alias=1, mask=0.7)
    if kind == 'mask':
        return '%s/%s' % (folder, chance.choice(UNITS)), ('link', '/dev/null')
    if kind == 'alias' and '@' not in name:
        return '%s/%s' % (folder, ALIASES[name]), ('link', file)
    of = chance.choice(['m.target.wants', 'n.target.wants', 'n.target.requires', 'o.target.wants'])
    return '%s/%s/%s' % (folder, of, name.replace('@', '@' + chance.choice('xy'))), ('link', file)


def random_rules(chance):
    lines = ['%s %s\n' % (chance.choice(RULES), chance.choice(PATTERNS))
             for _ in range(chance.randrange(1, 5))]
    if chance.random() < 0.15:
        lines.insert(chance.randrange(len(lines) + 1), 'enable t@.service x y\n')
    return ''.join(lines)


def random_root(chance):
    """A root with four to seven units, what enables some of them, and preset files."""
    tree = {'%s/%s' % (beside.USR, target): ('file', '[Unit]\n')
            for target in ('m.target', 'n.target', 'n@.target')}
    where = {}
    for name in chance.sample(UNITS, chance.randrange(4, len(UNITS) + 1)):
        folder = chance.choice(10 * [beside.USR] + [beside.ETC, beside.LOCAL, beside.RUN])
        where[name] = '%s/%s' % (folder, name)
        tree[where[name]] = 'file', random_section(chance, name)
    for _ in range(chance.randrange(6)):
        name = chance.choice(sorted(where))
        path, entry = random_link(chance, name, where[name])
        tree.setdefault(path, entry)
    tree['/usr/lib/systemd/system-preset/1.preset'] = 'file', random_rules(chance)
    return tree


def random_preset_all(chance):
    mode = chance.choice(3 * [[]] + [['--preset-mode=' + mode] for mode in MODES])
    return ['preset-all'] + mode + ['--runtime'] * (chance.random() < 0.1)


def preset_failures(program, seed):
    """What went wrong with the random root of a number: a line each."""
    chance = random.Random(seed)
    tree, call = random_root(chance), random_preset_all(chance)
    one, other = by_systemctl(tree, call), by_unitroot(program, tree, call)
    if not wrong_with(tree, call, one, other):
        return []
    name = not one.status and not other.status and beside.also_difference(tree, one.changes,
                                                                          other.changes)
    if not name:
        tree, call = shrunk(program, tree, call)
        one, other = by_systemctl(tree, call), by_unitroot(program, tree, call)
        name = known_name(tree, call, one, other)
    met[name or 'new'] += 1
    if name:
        return []
    return (wrong_with(tree, call, one, other) + ['call %s' % call]
            + ['    ' + line for line in beside.lines_of(tree)]
            + one.lines('systemctl') + other.lines('unitroot'))

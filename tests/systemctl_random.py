"""Random calls of tests/as-systemctl on small random roots."""
import collections
import itertools
import random
import re
import sys

sys.dont_write_bytecode = True
from systemctl_calls import (beside, by_systemctl, by_unitroot, parsed, wrong_noise, wrong_with)

# How often each difference of docs/SYSTEMCTL.md was met.
met = collections.Counter()
VERBS = {'enable': 5, 'disable': 4, 'is-enabled': 4, 'reenable': 3, 'preset': 4, 'preset-all': 5,
         'list-unit-files': 4, 'add-wants': 2, 'add-requires': 1, 'mask': 2, 'unmask': 2, 'link': 1,
         'set-default': 1, 'get-default': 1}
ODD_NAMES = ['+', 'a b', 'a*', 'a.foo', '', '@', 'x@', '.', 'a.service.service', 'caf\u00e9',
             'a:b', 'a\\x20b', '-.mount', 'dev-sda.device', '@x.service', 'a\tb', 'A' * 260]
PATHS = ['/opt/', '/usr/lib/systemd/system/', '/lib/systemd/system/', '/etc/systemd/system/']
OTHER_PATHS = ['/home', '/', '/dev/sda', '/opt/none.service', '/opt/x', 'a/b', './a.service']
TAKES_RUNTIME = ('enable', 'disable', 'reenable', 'preset', 'preset-all', 'mask', 'unmask', 'link',
                 'add-wants', 'add-requires')
TAKES_PATHS = ('enable', 'mask', 'unmask', 'is-enabled')
MODES = ['full', 'enable-only', 'disable-only']
PATTERNS = ['a*', '*.service', 't@*', '[ab]*', '?.target', 'zz*', 'a.service', '*@*', 'a', '*']
TYPES = ['service', 'target', 'socket', 'service,target', 'timer', 'socket,timer']
STATES = ['enabled', 'disabled', 'static,alias', 'masked', 'indirect', 'enabled,disabled', 'linked']
HARMLESS = ['--no-reload', '--system', '--no-ask-password', '--no-pager', '--plain', '--no-legend']
MORE_RULES = ['disable *.socket', 'enable p.socket', 'disable *.timer', 'enable *.service']


def random_name(chance, verb):
    name = chance.choice(beside.NAMES)
    kind = beside.pick(chance, whole=78, short=14, odd=4, path=4)
    if kind == 'short':
        return name.removesuffix('.service')
    if kind == 'odd':
        return chance.choice(ODD_NAMES)
    if kind == 'path' and verb in TAKES_PATHS:
        return chance.choice(PATHS) + name if chance.random() < 0.7 else chance.choice(OTHER_PATHS)
    return name


def random_words(chance, verb):
    """What follows the verb."""
    count = beside.pick(chance, **{'1': 60, '2': 25, '3': 15})
    if verb in ('preset-all', 'get-default'):
        return []
    if verb == 'set-default':
        targets = ['m', 'n', 'm.target', 'n.target', 'o', 'default', 'a.service', 'default.target']
        return [chance.choice(targets)]
    if verb == 'list-unit-files':
        return [chance.choice(PATTERNS) for _ in range(chance.choice([0, 0, 0, 1, 1, 2]))]
    if verb == 'link':
        folders = 4 * ['/opt/'] + PATHS
        return [chance.choice(folders) + chance.choice(beside.NAMES) for _ in range(int(count))]
    names = [random_name(chance, verb) for _ in range(int(count))]
    if verb.startswith('add-'):
        names.insert(0, chance.choice(4 * ['m.target'] + ['m', 'n'] + beside.NAMES))
    return names


def random_options(chance, verb):
    """Options, each with its value if that is a word of its own."""
    options = []
    if verb in TAKES_RUNTIME and chance.random() < 0.15:
        options.append(['--runtime'])
    if chance.random() < 0.15:
        options.append([chance.choice(['-q', '--quiet'])])
    if verb.startswith('preset') and chance.random() < 0.4:
        mode = chance.choice(MODES)
        options.append(chance.choice([['--preset-mode=' + mode], ['--preset-mode', mode]]))
    if verb == 'list-unit-files':
        if chance.random() < 0.3:
            kind = chance.choice(TYPES)
            options.append(chance.choice([['--type=' + kind], ['-t', kind], ['--type', kind]]))
        if chance.random() < 0.3:
            options.append(['--state=' + chance.choice(STATES)])
        if chance.random() < 0.3:
            options.append(['--no-legend'])
    if chance.random() < 0.1:
        options.append([chance.choice(HARMLESS)])
    return options


def random_call(chance):
    """A call, with its options anywhere."""
    verb = beside.pick(chance, **VERBS)
    parts = [[word] for word in [verb] + random_words(chance, verb)]
    for option in random_options(chance, verb):
        parts.insert(chance.randrange(len(parts) + 1), option)
    return list(itertools.chain.from_iterable(parts))


def with_also(chance, text):
    """An [Install] section with one more word Also=."""
    return text + 'Also=%s\n' % chance.choice(beside.NAMES + ['p.socket'])


def random_tree(chance, verb):
    tree, usr = beside.random_tree(chance), beside.USR
    if chance.random() < 0.35:
        tree[usr + '/p.socket'] = 'file', '[Install]\nWantedBy=n.target\nAlso=a.service\n'
    if chance.random() < 0.25:
        tree[usr + '/q.timer'] = 'file', '[Timer]\n'
    if chance.random() < 0.15:
        tree[beside.ETC + '/default.target'] = 'link', usr + '/m.target'
    for path, (kind, text) in sorted(tree.items() if verb.startswith('preset') else []):
        if kind == 'file' and '[Install]' in text and chance.random() < 0.4:
            tree[path] = kind, with_also(chance, text)
    if chance.random() < 0.4:
        rules = [chance.choice(beside.RULES + MORE_RULES) + '\n' for _ in range(3)]
        tree['/etc/systemd/system-preset/0.preset'] = 'file', ''.join(rules)
    return tree


def smaller(tree, call):
    """What is one entry, one line of a file or one word smaller than a tree and a call."""
    for at in range(len(call)):
        less = call[:at] + call[at + 1:]
        if parsed(less).verb == parsed(call).verb:
            yield tree, less
    for less, _ in beside.smaller(tree, ['']):
        yield less, call


def is_wrong(program, tree, call):
    return wrong_with(tree, call, by_systemctl(tree, call), by_unitroot(program, tree, call))


def shrunk(program, tree, call):
    """The smallest tree and call, found by removing parts, on which the two still differ."""
    while True:
        for less in smaller(tree, call):
            if is_wrong(program, *less):
                tree, call = less
                break
        else:
            return tree, call


# The differences that `preset-all` may meet are those of `preset`, but it leaves masked units out.
NOT_OF_ALL = ('preset-masked', 'disable-masked')


def whole_name(name, verb):
    """The unit's name of a word: without its type it is a service, or a target."""
    if '/' in name and verb not in ('link', 'mask', 'unmask'):
        name = name.rpartition('/')[2]
    if re.search(r'\.(service|target|socket|timer|mount|device)\Z', name):
        return name
    return name + ('.target' if verb == 'set-default' else '.service')


def plainly(call):
    """The call as tests/beside-systemctl makes it: whole names, and --runtime alone."""
    verb, words, options = parsed(call)
    names = [whole_name(word, verb) for word in words] if verb != 'link' else words
    if verb.startswith('add-') and words and '.' not in words[0]:
        names[0] = words[0] + '.target'
    if verb == 'preset-all':
        verb, names = 'preset', ['*']
    return [verb] + ['--runtime'] * ('--runtime' in options) + names


def as_beside(outcome, is_ours):
    """An outcome as tests/beside-systemctl has it: an answer, and the changes."""
    words, refusal = outcome.out.split(), 'refuses: ' + outcome.said.strip()
    if words:
        return 'answers ' + ' '.join(words), outcome.changes
    return (refusal if is_ours else 'fails') if outcome.status else 'accepts', outcome.changes


def known_name(tree, call, one, other):
    """The difference of docs/SYSTEMCTL.md that a smallest example shows; None if it is new."""
    verb = parsed(call).verb
    if one.status and one.changes and not other.changes and other.status:
        return 'half-done'
    if 'severed' in one.said and verb == 'preset-all':
        return 'preset-all-dangling'
    if 'it is masked' in other.said and verb == 'link':
        return 'link-empty'
    done = as_beside(one, False), as_beside(other, True)
    name = beside.known_difference(tree, plainly(call), *done)
    return None if verb == 'preset-all' and name in NOT_OF_ALL else name


def rows_of(outcome):
    """The rows of a list of unit files, by units."""
    rows = (line.split() for line in outcome.out.splitlines())
    return {row[0]: row[1:] for row in rows if len(row) == 3 and '.' in row[0]}


def explained_rows(program, tree, one, other):
    """Whether rows of lists differ only in states for which `is-enabled` is known to differ."""
    theirs, ours = rows_of(one), rows_of(other)
    units = [unit for unit in {*theirs, *ours} if theirs.get(unit) != ours.get(unit)]
    return bool(units) and all(is_known(program, tree, ['is-enabled', unit]) for unit in units)


def is_known(program, tree, call):
    """Whether the two differ on a call as docs/SYSTEMCTL.md says."""
    if not is_wrong(program, tree, call):
        return False
    tree, call = shrunk(program, tree, call)
    one, other = by_systemctl(tree, call), by_unitroot(program, tree, call)
    return bool(known_name(tree, call, one, other))


def random_failures(program, seed):
    """What went wrong with the random call of a number: a line each."""
    chance = random.Random(seed)
    call = random_call(chance)
    tree = random_tree(chance, parsed(call).verb)
    one, other = by_systemctl(tree, call), by_unitroot(program, tree, call)
    noise = wrong_noise(tree, parsed(call), other)
    if not wrong_with(tree, call, one, other):
        return noise and noise + ['call %s' % call] + other.lines('unitroot')
    tree, call = shrunk(program, tree, call)
    one, other = by_systemctl(tree, call), by_unitroot(program, tree, call)
    if parsed(call).verb == 'list-unit-files':
        name = explained_rows(program, tree, one, other) and 'states in lists'
    else:
        name = known_name(tree, call, one, other)
    if not name and one[:4] != by_systemctl(tree, call, backwards=True)[:4]:
        name = "systemctl's own result varies"
    met[name or 'new'] += 1
    if name:
        return noise
    return (noise + wrong_with(tree, call, one, other) + ['call %s' % call]
            + ['    ' + line for line in beside.lines_of(tree)]
            + one.lines('systemctl') + other.lines('unitroot'))

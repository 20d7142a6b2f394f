"""What tests/as-systemctl knows of calls: it runs them with systemctl and with unitroot, and says
what the two do differently."""
import importlib.machinery
import importlib.util
import os
import re
import subprocess
import sys
import tempfile
from typing import NamedTuple

sys.dont_write_bytecode = True
HERE = os.path.dirname(os.path.abspath(__file__))


def beside_systemctl():
    """The module that tests/beside-systemctl is."""
    loader = importlib.machinery.SourceFileLoader('beside_systemctl', HERE + '/beside-systemctl')
    module = importlib.util.module_from_spec(importlib.util.spec_from_loader(loader.name, loader))
    loader.exec_module(module)
    return module


beside = beside_systemctl()
# The words of `is-enabled` for which its status is 0.
ENABLED = {'enabled', 'enabled-runtime', 'static', 'alias', 'indirect', 'generated'}
# The statuses of unitroot for a call that systemctl refuses: refused, or bad arguments.
REFUSED = (1, 2)
NONE_FOUND = 4
WITH_VALUE = ('-t', '--type', '--state', '--preset-mode')


# What a call does

class Outcome(NamedTuple):
    """What a call did: its status, what it printed, the entries that it changed, the directories
    that there are afterwards."""

    status: int
    out: str
    changes: list
    folders: list
    said: str

    def lines(self, name):
        """The outcome for people."""
        shown = ['%s: status %d' % (name, self.status)]
        shown += ['    prints ' + line for line in self.out.splitlines()]
        shown += ['    says ' + line for line in self.said.splitlines()[:6]]
        return shown + ['    ' + line for line in self.changes]


def folders_of(root):
    return sorted(at[len(root):] for at, _, _ in os.walk(root))


def encoded(call):
    """The words as bytes: a character of a case or of a random call is a byte of UTF-8."""
    return [word.encode() for word in call]


def outcome_of(words, tree, call, backwards=False, inside=''):
    """What a program does with a call on a tree."""
    within = inside + '/tmp' if inside else None
    with tempfile.TemporaryDirectory(prefix='as-systemctl-', dir=within) as folder:
        root = folder + '/root'
        beside.lay(tree, root, backwards)
        given = [*words, '--root=' + root, *encoded(call)]
        if inside:
            given[len(words)] = '--root=' + root[len(inside):]
            given[:0] = ['chroot', inside]
        ran = subprocess.run(given, env={'PATH': os.environ['PATH'], 'LC_ALL': 'C'}, cwd=folder,
                             stdin=subprocess.DEVNULL, capture_output=True, timeout=beside.SECONDS)
        said = ran.stderr.decode(errors='replace')
        return Outcome(ran.returncode, ran.stdout.decode('latin-1'),
                       beside.changes_between(tree, beside.standing(root)), folders_of(root), said)


def by_systemctl(tree, call, backwards=False, version=beside.VERSION):
    inside = beside.NEWER_ROOT if version == beside.NEWER else ''
    return outcome_of(['systemctl'], tree, call, backwards, inside)


def by_unitroot(program, tree, call):
    return outcome_of([program], tree, call)


class Parsed(NamedTuple):
    """A call: its verb, what follows it, and its options."""

    verb: str
    words: list
    options: list

    def is_quiet(self):
        return '-q' in self.options or '--quiet' in self.options


def parsed(call):
    """The call as getopt(3) reads it."""
    words, options, left = [], [], list(call)
    while left:
        word = left.pop(0)
        if word == '--':
            words += left
            break
        if word in WITH_VALUE and left:
            options.append('%s=%s' % (word, left.pop(0)))
        elif word.startswith('-') and len(word) > 1:
            options.append(word)
        else:
            words.append(word)
    return Parsed(words[0] if words else '', words[1:], options)


# Whether two outcomes are the same

def status_of_states(words):
    """The status of `is-enabled` that printed these words."""
    if ENABLED & set(words):
        return 0
    return NONE_FOUND if set(words) <= {'not-found'} else 1


def wrong_states(call, one, other):
    """What is wrong with the states that unitroot prints. systemctl 252 stops at a unit that isn't
    found; unitroot prints `not-found` and goes on."""
    theirs, ours, asked = one.out.split(), other.out.split(), len(call.words)
    if not ours and other.status == 2 and one.status:
        return []
    if call.is_quiet():
        # Without words it isn't known at which unit systemctl stopped, and so a later one may be
        # enabled.
        also = (0,) if asked > 1 else ()
        well = other.status in ((1, NONE_FOUND) + also if one.status else (0,))
        return [] if well and not ours else ['another status with -q']
    wrong = [] if len(ours) == asked else ['not a word for each unit']
    if len(theirs) == asked:
        return wrong + ([] if theirs == ours and one.status == other.status else ['other states'])
    if ours[:len(theirs)] != theirs or ours[len(theirs):][:1] != ['not-found']:
        wrong.append('other states')
    return wrong + ([] if other.status == status_of_states(ours) else ['a status of other states'])


def wrong_answer(call, one, other):
    """What is wrong with the status of unitroot, and with what it prints."""
    if call.verb == 'is-enabled':
        return wrong_states(call, one, other)
    wrong = [] if other.status in (REFUSED if one.status else (0,)) else ['another status']
    is_bad_call = other.status == 2 and not other.out
    if one.out != other.out and not is_bad_call:
        wrong.append('other standard output')
    return wrong


def has_units(tree):
    """Whether a root has a directory of systemd: of one that hasn't, unitroot says so."""
    return any(re.match(r'/(etc|usr/lib)/systemd/', path) for path in tree)


def wrong_noise(tree, call, other):
    """What unitroot says on standard error where it should be silent."""
    is_noise = call.is_quiet() and other.status == 0 and other.said and has_units(tree)
    return ['-q, and something on standard error'] if is_noise else []


def wrong_with(tree, words, one, other):
    """What unitroot does otherwise than systemctl: a line each."""
    call, wrong = parsed(words), []
    if one.changes != other.changes:
        wrong.append('other files and links')
    elif one.folders != other.folders:
        wrong.append('other directories: %s' % sorted({*one.folders} ^ {*other.folders}))
    return wrong + wrong_answer(call, one, other)

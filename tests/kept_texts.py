"""Texts of a history that others have changed or cut: refused by name, with the line; or rows of
outside.

A cut behind a whole run is a history that knows less: what the lost runs did shows as rows of
outside.
"""
import concurrent.futures
import os
import random
import re

from root_checks import ETC, hold
from kept_checks import (HOME, TUESDAY, as_unitadm, at, copied, rid_of, small, summed, text_of,
                         whole, write_text)
from kept_kills import all_hold

LINE = re.compile(r'unitroot: history: line (\d+): .+\n')
OTHERS = re.compile(r'unitroot: others changed the root since the last run: '
                    r'rows? \d+( to \d+)? by outside\n.*', re.S)


def made(unitroot, room):
    """A root with four runs, each of which leaves something that no other run changes."""
    root = small(room, 'texts')
    for words in (('keep',), ('mask', 'cron'), ('enable', 'ssh'), ('mask', 'a.service',
                                                                   'b.service'),
                  ('place', ETC + '/c.service', 'file', '[Unit]\\n')):
        ended = unitroot.on(root, *words, env=at(TUESDAY))
        hold(ended[0] == 0, 'before the damage: %s' % words[0], ended)
    return root


class Damage:
    def __init__(self, unitroot, room):
        self.unitroot, self.room, self.root = unitroot, room, made(unitroot, room)
        self.text, self.before = text_of(self.root + HOME), whole(self.root)

    def faults(self, name, text, changed):
        """What is wrong with a run on a root whose history has this text. `changed`: a byte was."""
        root = copied(self.root, '%s/damage-%s' % (self.room, name))
        write_text(root + HOME, text)
        before = whole(root)
        ended = self.unitroot.on(root, 'mask', 'new.service', env=at(TUESDAY))
        now = whole(root)
        rid_of(root)
        line = LINE.fullmatch(ended[2])
        if ended[0] == 1 and line:
            last = text.count(b'\n') + 1
            is_there = 1 <= int(line[1]) <= last
            return (['changed: %s' % ended[2]] * (now != before)
                    + ['no such line: %s' % ended[2]] * (not is_there))
        if changed or ended[0] or not OTHERS.fullmatch(ended[2]):
            return ['neither refused nor others: %s' % (ended,)]
        slots = [path for path in {*before, *now} if not path.startswith(HOME)
                 and now.get(path) != before.get(path)]
        return ['changed: %s' % slots] * (slots != [ETC + '/new.service'])

    def byte(self, seed):
        chosen = random.Random(seed)
        at_byte = chosen.randrange(len(self.text))
        other = (self.text[at_byte] + chosen.randrange(1, 256)) % 256
        text = self.text[:at_byte] + bytes([other]) + self.text[at_byte + 1:]
        return ['byte %d to %d: %s' % (at_byte, other, it) for it in self.faults('byte-%d' % seed,
                                                                                 text, True)]

    def cut(self, size):
        return ['cut to %d bytes: %s' % (size, it) for it in self.faults('cut-%d' % size,
                                                                         self.text[:size], False)]


def texts(unitroot, unitadm, room, times, seed):
    damage = Damage(unitroot, room)
    hold(summed(damage.text) == damage.text, 'the sums of a history are those that its format says')
    chosen = random.Random(seed)
    ends = [found.end() for found in re.finditer(rb'^# (?:end|unitroot-history) .*\n', damage.text,
                                                 re.M)][:-1]
    sizes = {*ends, 0, *(chosen.randrange(len(damage.text)) for _ in range(times))}
    with concurrent.futures.ThreadPoolExecutor(os.cpu_count()) as pool:
        faults = [*pool.map(damage.byte, range(seed, seed + times))]
        all_hold('a changed byte is refused with its line', [it for those in faults
                                                             for it in those])
        faults = [*pool.map(damage.cut, sorted(sizes))]
        all_hold('a cut is refused with its line, or what was lost is of others',
                 [it for those in faults for it in those])
    as_unitadm(unitroot, unitadm, damage.root, 'unitadm has the rows of the text that is damaged')
    print('texts: %d bytes changed, %d cuts' % (times, len(sizes)), flush=True)

"""A history from start to end: anna's run, what others removed, and bob's run, of which one call is
refused. All that is printed and written is compared, whole."""
import hashlib
import os

from root_checks import ETC, VENDOR, hold, laid
from kept_checks import HOME, TUESDAY, at, of_unitadm, reported, text_of, without_chance

# Friday, 2026-11-27, 10:02:11 UTC.
FRIDAY = 1795773731
SSH = b"""[Service]
ExecStart=/usr/sbin/sshd -D

[Install]
WantedBy=multi-user.target
Alias=sshd.service
"""
WORDS = {'e': ETC, 'v': VENDOR}
ANNA = 'anna enable ssh.service\nanna mask nfs-server.service\n'
OF_ANNA = """\
1 anna ok
  + %(e)s/multi-user.target.wants/ssh.service -> %(v)s/ssh.service
  + %(e)s/sshd.service -> %(v)s/ssh.service
2 anna ok
  + %(e)s/nfs-server.service -> /dev/null
""" % WORDS
CHANGED_BY_ANNA = """\
== changes
  + %(e)s/multi-user.target.wants/ssh.service -> %(v)s/ssh.service
  + %(e)s/nfs-server.service -> /dev/null
  + %(e)s/sshd.service -> %(v)s/ssh.service
""" % WORDS
OF_OTHERS = '3 outside ok\n  - %(e)s/nfs-server.service -> /dev/null\n' % WORDS
BOB = 'bob undo 2\nbob undo 1\n'
OF_BOB = """\
4 bob refused: row 2 is blocked by row 3
5 bob undid 1
  - %(e)s/multi-user.target.wants/ssh.service -> %(v)s/ssh.service
  - %(e)s/sshd.service -> %(v)s/ssh.service
""" % WORDS
CHANGED_BY_BOB = """\
== changes
  - %(e)s/multi-user.target.wants/ssh.service -> %(v)s/ssh.service
  - %(e)s/sshd.service -> %(v)s/ssh.service
""" % WORDS
SAID_TO_BOB = """\
unitroot: others changed the root since the last run: row 3 by outside
1 of 2 calls were refused:
line 1: Failed to undo row 2: it is blocked by row 3.
"""
HISTORY = """\
unitadm-inventory 1
F\t%d\t%s/ssh.service
%s
end
== calls
# unitroot-history 1 id=ID root=ROOT text=SUM
# run 2026-11-27T10:02:11Z login=anna program=unitroot-1 rules=1
%s# end tree=sha256:TREE text=SUM
# run 2026-12-01T08:30:05Z login=bob program=unitroot-1 rules=1 outside
outside remove %s/nfs-server.service
# end tree=sha256:TREE text=SUM
# run 2026-12-01T08:30:05Z login=bob program=unitroot-1 rules=1
%s# end tree=sha256:TREE text=SUM
""" % (len(SSH), VENDOR, SSH.decode(), ANNA, ETC, BOB)


class Example:
    def __init__(self, unitroot, room):
        self.unitroot, self.sums = unitroot, []
        self.root = laid(room, 'example', {VENDOR + '/ssh.service': SSH})
        os.makedirs(self.root + ETC)

    def runs(self, title, ended, *words, given='', env=None):
        found = self.unitroot.on(self.root, *words, given=given, env=env)
        hold(found == ended, 'a history from start to end: %s' % title, found)

    def sums_tree(self):
        """The sum of a run is that of what capture writes after it."""
        inventory = self.unitroot.on(self.root, 'capture')[1]
        self.sums.append(hashlib.sha256(inventory.encode()).hexdigest())


def example(unitroot, unitadm, room):
    it = Example(unitroot, room)
    it.runs('keep', (0, '', 'unitroot: the history is in %s\n' % HOME), 'keep', env=at(FRIDAY))
    it.runs("anna's run", (0, OF_ANNA + CHANGED_BY_ANNA, ''), 'run', given=ANNA, env=at(FRIDAY))
    it.sums_tree()
    os.unlink(it.root + ETC + '/nfs-server.service')
    it.sums_tree()
    it.runs("bob's run", (3, OF_BOB + CHANGED_BY_BOB, SAID_TO_BOB), 'run', '--rows=history',
            '--keep-going', given=BOB, env={**at(TUESDAY), 'LOGNAME': 'bob'})
    it.sums_tree()
    text, rows = text_of(it.root + HOME), OF_ANNA + OF_OTHERS + OF_BOB
    wanted = HISTORY
    for one in it.sums:
        wanted = wanted.replace('TREE', one, 1)
    hold(without_chance(text).decode() == wanted, 'a history from start to end: its text', text)
    of_unitadm(unitadm, text, 'a history from start to end: its rows, by unitadm', rows)
    found = reported(unitroot, it.root)
    hold(found == rows, 'a history from start to end: its rows, by show', found)

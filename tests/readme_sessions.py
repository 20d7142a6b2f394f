"""The commands that README.md shows, with what each prints."""
import os
import re

TOP = os.path.dirname(os.path.dirname(os.path.abspath(__file__)))
PAGE = '%s/README.md' % TOP
BLOCK = re.compile(r'^```console\n(.*?)^```$', re.MULTILINE | re.DOTALL)


def text():
    with open(PAGE, encoding='utf-8') as file:
        return file.read()


def commands_of(block):
    """The commands after '$ ', each with the lines up to the next one."""
    parts = re.split(r'^\$ ', block, flags=re.MULTILINE)
    if parts[0]:
        raise ValueError('a session begins with a command: %s' % parts[0])
    return [tuple(part.split('\n', 1)) for part in parts[1:]]


def sessions():
    """The sessions: each a list of commands with their outputs. All are run in one folder."""
    return [commands_of(block) for block in BLOCK.findall(text())]


def is_of_histories(session):
    """Whether a session needs a program that keeps histories."""
    return any(re.search(r'\bunitroot\b.* keep\b', command) for command, _ in session)

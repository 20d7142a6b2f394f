"""The table tests/root-sentences: which sentence of docs/ROOTS.md has which check.

A chapter of the table has the heading of a chapter of the page, and all its sentences in their
order, word for word; a row of a table of the page is one sentence, and blocks of code are none. A
chapter whose sentences another program tests is only named. After each sentence there are the
checks that fail if it is false:

    = TITLE             a check of tests/roots, by its title; `*` in it is any text
    = FILE: WORDS       a check of another program: these words are in that file
    - WHY               none, since the sentence promises nothing about the program, and why not
"""
import re

import root_checks
from root_checks import HERE, hold

PAGE = '%s/../docs/ROOTS.md' % HERE
TABLE = '%s/root-sentences' % HERE
FENCE = '```'


def in_one_line(text):
    return ' '.join(text.split())


def chapters_of(text):
    """The text of each chapter of the page, by its heading."""
    chapters, heading, is_code = {}, '', False
    for line in text.splitlines():
        if line.startswith(FENCE):
            is_code = not is_code
        elif is_code or re.fullmatch(r'\|[|-]+\|', line):
            continue
        elif line.startswith('## '):
            heading = line[3:]
            chapters[heading] = []
        elif heading and not line.startswith('#'):
            chapters[heading].append(line)
    return {heading: in_one_line('\n'.join(lines)) for heading, lines in chapters.items()}


class Sentence:
    def __init__(self, text):
        self.text, self.checks, self.why_not = text, [], ''


def table():
    """The sentences of each chapter of the table, by its heading. Some chapters have none."""
    chapters, sentences, is_open = {}, None, False
    with open(TABLE) as lines:
        for line in lines:
            line = line.rstrip('\n')
            if line.startswith('## '):
                sentences = chapters[line[3:]] = []
            elif line.startswith('    = '):
                sentences[-1].checks.append(line[6:])
            elif line.startswith('    - '):
                sentences[-1].why_not = line[6:]
            elif line.strip() and not line.startswith('#') and sentences is not None:
                if is_open:
                    sentences[-1].text += ' ' + line.strip()
                else:
                    sentences.append(Sentence(line.strip()))
                is_open = True
                continue
            is_open = False
    return chapters


def first_difference(page, sentences):
    """The first sentence that isn't at its place in a chapter's text, or what is there besides."""
    left = page
    for sentence in sentences:
        if not left.startswith(sentence.text):
            return 'the page has `%s`, the table `%s`' % (left[:100], sentence.text[:100])
        left = left[len(sentence.text):].lstrip()
    return left and 'not in the table: `%s`' % left[:100]


def has_run(check):
    """Whether a check has run, or was skipped with its reason."""
    pattern = re.compile('.*'.join(map(re.escape, check.split('*'))))
    return any(pattern.fullmatch(title) for title in root_checks.titles)


def is_in_file(check):
    """Whether a file has these words."""
    name, _, words = check.partition(': ')
    try:
        with open('%s/../%s' % (HERE, name)) as it:
            return words in in_one_line(it.read())
    except OSError:
        return False


def sentences():
    """Compares the table with the page, and with the checks that have run."""
    with open(PAGE) as it:
        page = chapters_of(it.read())
    chapters = table()
    hold([*page] == [*chapters], 'tests/root-sentences has the chapters of docs/ROOTS.md',
         ([*page], [*chapters]))
    count = 0
    for heading, those in chapters.items():
        count += len(those)
        differs = those and first_difference(page.get(heading, ''), those)
        hold(not differs, 'tests/root-sentences has each sentence of `%s`' % heading, differs)
        for sentence in those:
            missing = [check for check in sentence.checks
                       if not has_run(check) and not is_in_file(check)]
            well = not missing and (sentence.checks or sentence.why_not)
            hold(well, 'a check of `%s`' % sentence.text[:70], missing or 'none is named')
    print('%d sentences of docs/ROOTS.md have their checks' % count)

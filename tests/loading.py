"""The commands by which the documents load the lines of a dump, for tests that run or compare them."""

import pathlib
import re
import textwrap

TOP = pathlib.Path(__file__).resolve().parent.parent
FILTER = 'tools/extended-inserts <'


def recipe():
    """The commands that load t.sql into the database shop, as the one block of README.md or docs/ that has them."""
    pages = [TOP / 'README.md', *sorted((TOP / 'docs').glob('*.md'))]
    blocks = [block for page in pages for block in re.findall(r'(?:^ {4}.*\n)+', page.read_text(), re.MULTILINE)]
    found = [block for block in blocks if FILTER in block]
    if len(found) != 1:
        raise ValueError('%d blocks of the documents have %r' % (len(found), FILTER))
    return textwrap.dedent(found[0])

"""The programs that are run on the files of a backup: where they are, and what their ends say."""

import collections
import os
import shlex
import subprocess
import sys

from backup_answers import BROKEN, DIFFERS, FAILED, NO_TEXT, SOUND, UNREAD, UNSERVED, UNWRITTEN, Answer, why_of

TOP = os.path.dirname(os.path.dirname(os.path.realpath(__file__)))

CHECK, DUMP, CROSS, ROWS = 'check', 'dump', 'cross', 'rows'
# How often each command reads a used page, about.
READS = {CHECK: 3, DUMP: 4, CROSS: 4, ROWS: 1}
# The endings of what is written: the lines, and what was lost of them.
LINES, LOSSES = '.sql', '.losses'

# The exit statuses of `ibd` and of ibd-salvage, and those that are the latter's alone.
DONE, REFUSED, BROKEN_RULE, SOURCE, SINK, MISSING_ENTRY, EXTRA_ENTRY = 0, 2, 3, 5, 6, 11, 12
LOST, ROOT_LOST = 15, 16

# The words that each program begins with; nothing for one that isn't asked for.
Programs = collections.namedtuple('Programs', 'ibd salvage')


def programs_of(options):
    """The programs, each tried on an example, so that what has to be built is built once."""
    ibd = shlex.split(os.environ.get('IBD') or shlex.quote(os.path.join(TOP, 'ibd')))
    try_on_example(ibd, CHECK, 'stdout', b'pages=')
    salvage = None
    if options.salvage:
        salvage = [options.salvage_program or salvage_path()]
        try_on_example(salvage, ROWS, 'stderr', b'rows=3 ')
    return Programs(ibd, salvage)


def salvage_path():
    """The program ibd-salvage beside `ibd`; the one that was released if it is there."""
    places = [os.path.join(TOP, 'release', 'ibd-salvage'), os.path.join(TOP, 'ibd-salvage')]
    return next((place for place in places if os.path.exists(place)), places[-1])


def try_on_example(program, command, stream, front):
    example = [os.path.join(TOP, 'examples', name) for name in ('numbers.schema', 'numbers.ibd')]
    streams = {'stdout': subprocess.PIPE, 'stderr': subprocess.PIPE if stream == 'stderr' else None}
    try:
        tried = subprocess.run(program + [command] + example, **streams)
    except OSError as error:
        sys.exit('check-backup: %s: %s' % (program[0], why_of(error)))
    if tried.returncode or not getattr(tried, stream).startswith(front):
        sys.exit('check-backup: %s fails on the example' % ' '.join(program))


def answer_of(status, output, error, schema):
    """What the end of `check`, `dump` or `cross` says."""
    said = error.decode('utf-8', 'replace').strip()
    words = said.split()
    if status == DONE:
        if schema.fills is False:
            return Answer(NO_TEXT, 'the rows are longer or shorter than the columns of the text')
        numbers = dict(pair.split('=') for pair in output.decode().split())
        return Answer(SOUND, '', **{name: int(value) for name, value in numbers.items()})
    if status == REFUSED:
        return Answer(NO_TEXT if schema.fills is None else UNSERVED, said)
    if status == BROKEN_RULE and len(words) == 5:
        return Answer(BROKEN, 'rule %s %s, page %s' % (words[1], words[2], words[4]), rule=int(words[1]),
                      rule_name=words[2], page=int(words[4]))
    if status in (MISSING_ENTRY, EXTRA_ENTRY) and len(words) == 6:
        return difference(status, words, schema)
    return failure_of(status, said)


def difference(status, words, schema):
    """What `cross` says of an index and the rows."""
    index, number = int(words[2]), int(words[5])
    has = 'no entry for row %d' if status == MISSING_ENTRY else 'an entry of no row on page %d'
    return Answer(DIFFERS, 'index `%s` has %s' % (schema.index_name(index), has % number), index=index,
                  **{words[4]: number})


def failure_of(status, said):
    """What an end of either program says that is no answer on the file."""
    if status == SOURCE:
        return Answer(UNREAD, 'a read failed')
    if status == SINK:
        return Answer(UNWRITTEN, 'the disk took no more')
    return Answer(FAILED, said.split('\n')[-1] or 'the program ended with %d' % status)

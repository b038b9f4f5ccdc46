"""What tools/schema-from-create and tools/schema-from-frm have in common: the words of the command line, how the table
is answered, and how they end."""

import argparse
import os
import re
import sys

from index_roots import gives_rows, schema_of
from table_description import NotServed
from table_schema import ALL_UNSERVED, Choice, TableSchema
from tablespace_file import NotTold, TablespaceFile

REFUSED, USAGE, NO_ROOM = 1, 2, 6

# What can still be had of a table that isn't served.
ROWS_ALONE = ('its rows can be had: tools/%s --rows makes a schema text for them, and with that `ibd-salvage rows` '
              'reads them')
AS_BYTES = '; --bytes all-unserved makes one for `ibd`, in which columns that are not served are their bytes'
# What is to be known of a table before its lines are loaded.
MISREAD = ('the lines have the bytes of %s, which a server refuses or takes for other values: load them by '
           'tools/values-from-bytes%s')


def parser_of(program, description):
    """With the options that both have."""
    parser = argparse.ArgumentParser(prog=program, formatter_class=argparse.RawDescriptionHelpFormatter,
                                     description=description)
    parser.add_argument('--roots', metavar='N,N,..', type=roots_of)
    parser.add_argument('--format', choices=('dynamic', 'compact'), default='dynamic')
    parser.add_argument('--file', metavar='T.IBD')
    parser.add_argument('--bytes', metavar='COLUMN', action='append', default=[])
    parser.add_argument('--partition', action='store_true')
    parser.add_argument('--rows', action='store_true')
    parser.add_argument('--output', metavar='T.SCHEMA')
    return parser


def roots_of(word):
    if not re.fullmatch('[0-9]+(,[0-9]+)*', word):
        raise argparse.ArgumentTypeError('numbers with commas between them')
    roots = [int(number) for number in word.split(',')]
    if len(set(roots)) < len(roots) or not all(3 <= root <= 4194303 for root in roots):
        raise argparse.ArgumentTypeError('different numbers of 3 to 4194303')
    return roots


class Command:
    """A run of one of the programs: its name stands before what it says, `source` is what the table was read from."""

    def __init__(self, program, source):
        self.program, self.source, self.hint = program, source, None

    def say(self, words):
        line = ''.join(sign if sign.isprintable() or '\udc80' <= sign <= '\udcff' else '\\x%02x' % ord(sign)
                       for sign in words)
        sys.stderr.buffer.write(('%s: %s\n' % (self.program, line)).encode('utf-8', 'surrogateescape'))
        sys.stderr.flush()

    def answer_of(self, table, options):
        """The schema text of a table, with the roots of the file where one is named, and what is refused; one of the
        two is empty."""
        if options.file is None:
            return self.answer_by(table, options)
        with open(options.file, 'rb') as handle:
            return self.answer_by(table, options, TablespaceFile(handle, os.path.basename(options.file)))

    def answer_by(self, table, options, file=None):
        choice = Choice(options.roots, options.format, options.bytes, options.rows, options.partition)
        try:
            answer = schema_of(table, choice, file)
        except (NotServed, NotTold) as why:
            self.tell_rest(table, choice, file)
            return '', table.refused + [str(why)] + getattr(why, 'lines', [])
        for note in answer.notes:
            self.say(note)
        if not answer.fills:
            # The text is printed, since a broken page looks so too, and the program says which it is.
            self.say('the rows of the file are longer or shorter than these columns: the %s may be older or newer than '
                     'it' % self.source)
        if answer.refused:
            self.tell_rest(table, choice, file)
        else:
            self.tell_misread(table, choice)
        return answer.text, answer.refused

    def tell_rest(self, table, choice, file):
        """Keeps for the end what can still be had."""
        if not choice.rows and gives_rows(table, choice, file):
            self.hint = ROWS_ALONE % self.program + AS_BYTES * gives_bytes(table, choice)

    def tell_misread(self, table, choice):
        """Keeps for the end of which columns a plain load would make other values."""
        names = TableSchema(table, choice).misread_columns()
        if names:
            self.hint = MISREAD % (', '.join('`%s`' % name for name in names), ' --rows' * choice.rows)

    def check_output(self, options, *read):
        """Ends the process if the output is a file that is read."""
        for path in (options.file, *read):
            if options.output is not None and path is not None and is_same(options.output, path):
                self.say('--output is a file that is read')
                sys.exit(USAGE)

    def end(self, text, refused, output=None):
        """Prints the text, or what is refused, and ends the process. With an output it is written into that file,
        which stays what it is if something is refused."""
        for why in refused:
            self.say('not served: %s' % why)
        if self.hint is not None:
            self.say(self.hint)
        data = text.encode('utf-8', 'surrogateescape')
        try:
            if output is None:
                sys.stdout.buffer.write(data)
                sys.stdout.close()
            elif not refused:
                write_whole(output, data)
        except (OSError, AttributeError) as why:
            # The output is full, or was closed.
            self.say('the output takes no more' if output is None else '%s: %s' % (output, why.strerror))
            os._exit(NO_ROOM)
        sys.exit(REFUSED if refused else 0)


def gives_bytes(table, choice):
    """Whether it is only for the types of columns in no index that a table isn't served."""
    schema = TableSchema(table, choice._replace(bytes=[*choice.bytes, ALL_UNSERVED], roots=None))
    schema.text()
    return table.is_read and not schema.refused


def is_same(first, second):
    try:
        return os.path.samefile(first, second)
    except OSError:
        return False


def write_whole(path, data):
    """Writes a file that is there whole or not at all; into what is no file, as a pipe, as it is."""
    if os.path.exists(path) and not os.path.isfile(path):
        with open(path, 'wb') as output:
            output.write(data)
        return
    part = '%s.%d.part' % (path, os.getpid())
    try:
        with open(part, 'xb') as output:
            output.write(data)
        os.replace(part, path)
    finally:
        if os.path.lexists(part):
            os.unlink(part)

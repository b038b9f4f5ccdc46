"""Which schema text a table has, and why another has none. The tables are those of table_description.py."""

import collections
import re
import zlib

from table_description import (BLOBS, BOUNDED, GEOMETRIES, INTEGERS, PRIMARY, SPATIAL, TEXTS, UNBOUNDED, NotServed,
                               decimal_size)

# In place of the name of a column that is declared as its bytes.
ALL_UNSERVED = 'all-unserved'

# What the grammar allows (docs/FORMATS.md).
MOST_COLUMNS, MOST_INDEXES, LONGEST_NAME, LONGEST_KEY, LONGEST_COMPACT = 64, 15, 64, 3072, 767
LONGEST_FIXED = 255
# The root of the first index where the indexes were made with the table; those of the others follow.
FIRST_ROOT = 3
# Kinds of which a server takes bytes for what they are.
TAKEN_AS_BYTES = GEOMETRIES + ('bit', 'char')
# The integer of each number of bytes, and the bytes of each kind of the schema text that has only one length.
INTEGER_OF = dict(zip((1, 2, 3, 4, 8), INTEGERS))
SIZES = dict({word: size for size, word in INTEGER_OF.items()}, date=3, year=1)
# Character sets of several bytes a character whose collation `_bin` compares the bytes, and fills up with spaces.
# Those whose space has two bytes or more (ucs2, utf16, utf32) don't, and gb18030 wasn't tried.
ORDERED_BY_BYTES = ('big5', 'cp932', 'eucjpms', 'euckr', 'gb2312', 'gbk', 'sjis', 'ujis', 'utf8', 'utf8mb3', 'utf8mb4')

# How a table is to be served. `roots` are the numbers of the root pages in the order of the lines, `format` is that of
# a table that states none, `bytes` has the names of columns that are declared as their bytes. `rows` asks for a text by
# which the rows alone are read, in whichever order, and `partition` says that the file is that of a partition of it.
Choice = collections.namedtuple('Choice', 'roots format bytes rows partition', defaults=(None, 'dynamic', (), False,
                                                                                         False))

# A field of a record: its length where all values have one, the greatest one, whether it may be null, and whether it is
# filled with spaces where it is compared.
Field = collections.namedtuple('Field', 'fixed longest null is_text')


def field_of(words):
    """The field of a column line, from its type to its nullity."""
    kind, numbers, null = words[0], [int(word) for word in words[1:] if word.isdigit()], words[-1] == 'null'
    is_text = kind in ('char', 'varchar') or kind in TEXTS
    if kind in SIZES:
        fixed = SIZES[kind]
    elif kind in ('char', 'binary'):
        fixed = numbers[0]
    elif kind in ('datetime', 'timestamp'):
        fixed = (5 if kind == 'datetime' else 4) + (numbers[0] + 1) // 2
    elif kind == 'decimal':
        fixed = decimal_size(*numbers)
    else:
        longest = numbers[0] * (4 if 'utf8mb4' in words else 1) if numbers else 1 << 32
        return Field(None, longest, null, is_text)
    return Field(fixed, fixed, null, is_text)


# --- names -----------------------------------------------------------------------------------------------------------


def is_plain(name):
    return re.fullmatch('[A-Za-z0-9_$]{1,%d}' % LONGEST_NAME, name) is not None


def plain_name(name):
    """The name in the schema text: each other character than A-Z a-z 0-9 _ $ is `$` and its code in four hexadecimal
    digits or more; where that is too long, its front, `$`, and eight digits of the CRC-32 of the name in UTF-8."""
    if is_plain(name):
        return name
    plain = re.sub('[^A-Za-z0-9_$]', lambda found: '$%04x' % ord(found.group()), name)
    if len(plain) > LONGEST_NAME:
        plain = '%s$%08x' % (plain[:LONGEST_NAME - 9], zlib.crc32(name.encode('utf-8', 'surrogateescape')))
    return plain


def plain_names(names):
    """The name in the schema text of each name. One that would be another's, in capital or small letters, has `$2`,
    `$3` and so on at its end; what has no other characters keeps its name."""
    taken = {name.lower() for name in names if is_plain(name)}
    chosen = {}
    for name in names:
        chosen[name] = plain = plain_name(name)
        number = 1
        while plain != name and chosen[name].lower() in taken:
            number += 1
            chosen[name] = '%s$%d' % (plain[:LONGEST_NAME - 1 - len(str(number))], number)
        taken.add(chosen[name].lower())
    return chosen


# --- types -----------------------------------------------------------------------------------------------------------


def bytes_words(column):
    """The words of the schema text for a column's bytes alone, whatever value they spell."""
    kind, numbers = column.kind, column.numbers
    if kind == 'json' or kind in GEOMETRIES:
        return 'longblob'
    if kind in ('char', 'varchar') and column.width() > 0:
        # A `char` is filled with spaces up to as many bytes as it has characters, or up to its length where all
        # characters have as many.
        length = (numbers or [1])[0] * column.width()
        if kind == 'varchar' or column.width() > 1 and column.charset not in ('ucs2', 'utf32'):
            return 'varchar %d' % length
        if length > LONGEST_FIXED:
            raise NotServed('%s: char of %s with more than 255 bytes' % (column.what, column.charset))
        return 'binary %d' % length
    if kind in TEXTS + BLOBS:
        return kind
    if kind in ('binary', 'varbinary'):
        return '%s %d' % (kind, (numbers or [1])[0])
    length = column.length()
    if length is None:
        raise NotServed('%s: %s, which is not declared as its bytes' % (column.what, kind))
    return 'binary %d' % length


def value_words(column):
    """The words of the schema text for a column's type."""
    kind, numbers = column.kind, column.numbers
    if kind in INTEGERS:
        return kind + ' unsigned' * column.unsigned
    if kind in ('enum', 'set', 'bit'):
        # InnoDB keeps the number of the member, a bit for each member, or the bits, as an unsigned integer.
        if column.length() not in INTEGER_OF:
            raise NotServed('%s: %s of %d bytes, which no integer has' % (column.what, kind, column.length()))
        return '%s unsigned' % INTEGER_OF[column.length()]
    if kind == 'date' or kind in BLOBS or kind == 'year' and numbers in ([], [4]):
        return kind
    if kind in ('datetime', 'timestamp'):
        return '%s %d' % (kind, (numbers or [0])[0])
    if kind == 'decimal':
        digits, places = column.precision()
        if digits > 38:
            raise NotServed('%s: a decimal of more than 38 digits' % column.what)
        return 'decimal %d %d' % (digits, places)
    if kind in ('binary', 'varbinary'):
        return '%s %d' % (kind, (numbers or [1])[0])
    if kind in ('char', 'varchar'):
        return text_words(column, (numbers or [1])[0])
    if kind in TEXTS:
        return kind + ' utf8mb4' * (column.width() > 0 and column.charset == 'utf8mb4')
    raise NotServed('%s: %s' % (column.what, kind))


def text_words(column, length):
    if column.kind == 'char' and column.width() > 1:
        raise NotServed('%s: char of %s, which has more than one byte a character' % (column.what, column.charset))
    if column.width() > 0 and column.charset == 'utf8mb4':
        return 'varchar %d utf8mb4' % length
    return '%s %d' % (column.kind, length * column.width())


def is_empty(column):
    """Whether no value of it but the empty one fits, as of a `char(0)`."""
    return column.kind in BOUNDED and column.numbers == [0]


def type_words(column, as_bytes, rows=False):
    if column.refused is not None:
        raise NotServed(column.refused)
    if column.kind == 'timestamp' and not column.states_null and column.null:
        raise NotServed('%s: a timestamp that says neither NULL nor NOT NULL' % column.what)
    if is_empty(column):
        if not rows:
            raise NotServed('%s: %s(0)' % (column.what, column.kind))
        # A column without a fixed length has the length of each value in the record, also if that is always 0.
        return 'varbinary 1' if 'binary' in column.kind else 'varchar 1'
    return bytes_words(column) if as_bytes else value_words(column)


def is_served(column, rows=False):
    try:
        return bool(type_words(column, False, rows))
    except NotServed:
        return False


# --- a table ---------------------------------------------------------------------------------------------------------


class TableSchema:
    """The schema text of a table, or why it has none. `columns` are those that the file has, `indexes` those of the
    text, the clustered one first, and `names` has their names in it; `refused` says what isn't served."""

    def __init__(self, table, choice=Choice()):
        self.table, self.choice, self.format = table, choice, table.format or choice.format
        self.refused = list(table.refused)
        self.columns = table.stored_columns()
        self.indexes = table.ordered_indexes()
        if choice.rows:
            self.keep_rows_alone()
        self.places = {column.name.lower(): column for column in self.columns}
        self.names = plain_names([column.name for column in self.columns])
        self.index_names = plain_names([index.name for index in self.indexes[1:]])
        self.name = plain_name(table.name)
        self.as_bytes = self.bytes_columns()

    def keep_rows_alone(self):
        """Leaves out all indexes but that of the rows; which it is isn't known where a unique one wasn't understood."""
        if self.indexes[0].name != PRIMARY:
            self.refused += [index.refused for index in self.indexes if index.unique and index.refused is not None]
        del self.indexes[1:]

    def bytes_columns(self):
        """The names of the columns that are declared as their bytes, in small letters: those that are asked for, and
        where it is `all-unserved` each that stands in no index and isn't served otherwise. Where only the rows are
        asked for, that is so of each column, in the key or not."""
        chosen, places = set(), self.table.places()
        for name in self.choice.bytes:
            if name != ALL_UNSERVED and name.lower() not in places:
                self.refused.append('--bytes %s: no column of %s has this name' % (name, self.table.what))
        wanted, indexes = {name.lower() for name in self.choice.bytes}, self.indexes_of_columns()
        for column in self.columns:
            name = column.name.lower()
            inside = indexes.get(name)
            if name in wanted and inside and not self.choice.rows:
                self.refused.append('%s: it stands in %s, which is ordered by its values' % (column.what, inside.what))
            elif name in wanted or column.kind is not None and not is_served(column, self.choice.rows) and (
                    self.choice.rows or ALL_UNSERVED in self.choice.bytes and not inside):
                chosen.add(name)
        return chosen

    def indexes_of_columns(self):
        """The first index that has a column, by the column's name in small letters."""
        return {name.lower(): index for index in reversed(self.indexes) for name in index.columns}

    def index_with(self, column):
        """The first index that has a column; nothing where none has."""
        return self.indexes_of_columns().get(column.name.lower())

    def is_bytes(self, column):
        return column.name.lower() in self.as_bytes

    def words_of(self, column):
        """The words of the schema text for its type."""
        return type_words(column, self.is_bytes(column), self.choice.rows)

    def has_other_type(self, column):
        """Whether its lines have bytes in the place of values, so that the table for the lines has another type there;
        the bytes of a `varchar` or text are its value."""
        word = self.words_of(column).split()[0] if self.is_bytes(column) else column.kind
        return word != column.kind and word in ('binary', 'longblob')

    def misread_columns(self):
        """The names of the columns of which a server refuses the bytes in the lines, or takes them for other values."""
        return [column.name for column in self.columns if self.has_other_type(column)
                and column.kind not in TAKEN_AS_BYTES]

    def text(self, roots=None):
        """The lines; what isn't served is put on the list of what is refused."""
        lines = []

        def line(make, *parts):
            try:
                lines.append(make(*parts))
            except NotServed as why:
                if str(why) not in self.refused:
                    self.refused.append(str(why))

        if roots is None:
            roots = list(range(FIRST_ROOT, FIRST_ROOT + len(self.indexes)))
        if len(roots) != len(self.indexes):
            raise NotServed('%s: it has %d indexes, %s, and %d roots are given' % (
                self.table.what, len(self.indexes), ', '.join(index.what for index in self.indexes), len(roots)))
        line(self.table_line)
        for column in self.columns:
            if column.kind is not None:
                line(self.column_line, column)
        for index, root in zip(self.indexes, roots):
            line(self.index_line, index, root)
        return ''.join(text + '\n' for text in lines)

    def table_line(self):
        what = self.table.what
        if self.table.has_partitions != self.choice.partition:
            raise NotServed('%s: %s' % (what, 'it has no partitions' if self.choice.partition else
                                        'partitions; the file of one of them is served by --partition'))
        if not self.columns:
            raise NotServed('%s: no column is kept in its rows' % what)
        if '' in (self.name, *self.names.values()):
            raise NotServed('%s: a name is empty' % what)
        if len(self.columns) > MOST_COLUMNS:
            raise NotServed('%s: more than %d columns' % (what, MOST_COLUMNS))
        if len(self.indexes) > MOST_INDEXES + 1:
            raise NotServed('%s: more than %d indexes besides the clustered one' % (what, MOST_INDEXES))
        return 'table %s %s' % (self.name, self.format)

    def column_line(self, column):
        return 'column %s %s %s' % (self.names[column.name], self.words_of(column),
                                    'null' if column.null else 'notnull')

    def index_line(self, index, root):
        self.check_index(index)
        names = ''.join(' ' + self.names[self.places[name.lower()].name] for name in index.columns)
        if index is self.indexes[0]:
            return 'clustered root %d%s' % (root, names)
        return 'index %s root %d%s' % (self.index_names[index.name], root, names)

    def check_index(self, index):
        if index.refused is not None:
            raise NotServed(index.refused)
        if index.kind == SPATIAL:
            raise NotServed(index.what)
        for part in index.parts:
            column = self.places.get(part.column.lower())
            if column is None:
                raise self.unlike_columns(index, part)
            if part.prefix is not None:
                raise NotServed('%s: only the front of column `%s`' % (index.what, part.column))
            if not self.choice.rows:
                self.check_order(index, part, column)
        self.check_length(index)

    def unlike_columns(self, index, part):
        """Why an index with a column that the rows haven't isn't served."""
        if part.column.lower() in self.table.places():
            return NotServed('%s: column `%s` is virtual, and kept in no row' % (index.what, part.column))
        return NotServed('%s: column `%s` is none of the table' % (index.what, part.column))

    def check_order(self, index, part, column):
        """Texts are ordered by their bytes, the shorter one filled with spaces."""
        if part.is_descending:
            raise NotServed('%s: column `%s` DESC' % (index.what, part.column))
        if column.kind in TEXTS + BLOBS:
            raise NotServed('%s: %s is %s' % (index.what, column.what, column.kind))
        if column.kind in ('char', 'varchar'):
            if column.width() > 1 and column.charset not in ORDERED_BY_BYTES:
                raise NotServed('%s: %s is of %s' % (index.what, column.what, column.charset))
            if not column.collation or not column.collation.endswith('_bin') or 'nopad' in column.collation:
                raise NotServed("%s: %s has the collation %s, which doesn't order by bytes" % (
                    index.what, column.what, column.collation or 'that %s has by default' % column.charset))

    def check_length(self, index):
        columns = [self.places[name.lower()] for name in index.columns]
        for column in columns:
            if column.kind in UNBOUNDED:
                raise NotServed('%s: %s is %s' % (index.what, column.what, column.kind))
        lengths = [field_of(self.words_of(column).split() + ['null']).longest for column in columns]
        if sum(lengths) > LONGEST_KEY or self.format == 'compact' and max(lengths, default=0) > LONGEST_COMPACT:
            raise NotServed('%s: its columns have up to %s bytes, and %s' % (
                index.what, ' and '.join(map(str, lengths)), 'together %d are the most' % LONGEST_KEY
                if sum(lengths) > LONGEST_KEY else 'each has %d at the most in COMPACT' % LONGEST_COMPACT))

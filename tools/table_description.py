"""What a table is: its columns and its indexes, whatever told of them. create_table.py makes a Table of the text of a
CREATE TABLE; table_schema.py says how one is served, and why not.

What a reader of tables couldn't make out stands in words: on `refused` of the column or the index that it belongs to,
where it matters only as far as this one is asked for, else on that of the table.
"""

import collections

INTEGERS = ('tinyint', 'smallint', 'mediumint', 'int', 'bigint')
TEXTS = ('tinytext', 'text', 'mediumtext', 'longtext')
BLOBS = ('tinyblob', 'blob', 'mediumblob', 'longblob')
GEOMETRIES = ('geometry', 'point', 'linestring', 'polygon', 'multipoint', 'multilinestring', 'multipolygon',
              'geometrycollection', 'geomcollection')
BOUNDED = ('char', 'varchar', 'binary', 'varbinary')
# Kinds of which an index has no more than the front.
UNBOUNDED = TEXTS + BLOBS + GEOMETRIES + ('json',)

# The bytes of a value, without those of a fraction of a second; and the bytes of one to nine digits.
LENGTHS = {'float': 4, 'double': 8, 'date': 3, 'year': 1, 'time': 3, 'datetime': 5, 'timestamp': 4}
DIGITS = (0, 1, 1, 2, 2, 3, 3, 4, 4, 4)

# The bits of the largest integer.
MOST_OF_A_SET = 64

# The most bytes that a character takes.
WIDTHS = {name: 1 for name in (
    'armscii8 ascii cp1250 cp1251 cp1256 cp1257 cp850 cp852 cp866 dec8 geostd8 greek hebrew hp8 keybcs2 koi8r koi8u '
    'latin1 latin2 latin5 latin7 macce macroman swe7 tis620').split()}
WIDTHS.update(big5=2, cp932=2, euckr=2, gb2312=2, gbk=2, sjis=2, ucs2=2, eucjpms=3, ujis=3, utf8=3, utf8mb3=3,
              gb18030=4, utf16=4, utf16le=4, utf32=4, utf8mb4=4)

PRIMARY = 'PRIMARY'
VIRTUAL, STORED = 'virtual', 'stored'
ORDINARY, FULL_TEXT, SPATIAL = 'ordinary', 'fulltext', 'spatial'

# The number of a row for a full-text index, the index of these numbers, and the group of this one where it is hidden.
DOCUMENT_ID, DOCUMENT_INDEX = 'FTS_DOC_ID', 'FTS_DOC_ID_INDEX'
HIDDEN_GROUP = False, False, -1


class NotServed(Exception):
    pass


def decimal_size(digits, places):
    """The bytes of a decimal: groups of nine digits, counted from the point."""
    return sum(count // 9 * 4 + DIGITS[count % 9] for count in (digits - places, places))


class Column:
    """`kind` is the word of its type as SHOW CREATE TABLE writes it, nothing where there is none, and `numbers` are
    those in the brackets after it; `members` are how many an `enum` or `set` has."""

    def __init__(self, name, kind=None):
        self.name, self.what, self.kind = name, 'column `%s`' % name, kind
        self.numbers, self.members = [], 0
        self.charset = self.collation = None
        self.unsigned, self.null, self.states_null = False, True, False
        self.generated = self.refused = None

    def width(self):
        """The most bytes that a character takes."""
        if self.charset is None:
            raise NotServed('%s: neither the column nor the table states its character set' % self.what)
        if self.charset not in WIDTHS:
            raise NotServed('%s: character set %s' % (self.what, self.charset))
        return WIDTHS[self.charset]

    def precision(self):
        """The digits of a decimal, and how many of them stand after the point."""
        return (self.numbers + [10, 0][len(self.numbers):])[:2]

    def length(self):
        """The number of bytes that every value of its type has; nothing where they differ, or for an integer."""
        kind, numbers = self.kind, self.numbers
        if kind == 'enum':
            return 1 if self.members < 256 else 2
        if kind == 'set':
            if self.members > MOST_OF_A_SET:
                raise NotServed('%s: a set of more than %d members' % (self.what, MOST_OF_A_SET))
            return min(length for length in (1, 2, 3, 4, 8) if length * 8 >= self.members)
        if kind == 'bit':
            return ((numbers or [1])[0] + 7) // 8
        if kind == 'decimal':
            return decimal_size(*self.precision())
        if kind in ('time', 'datetime', 'timestamp'):
            return LENGTHS[kind] + ((numbers or [0])[0] + 1) // 2
        return LENGTHS.get(kind)


# A column of an index: its name, how many characters or bytes of its front the index has where that isn't all, and
# whether it goes down.
Part = collections.namedtuple('Part', 'column prefix is_descending', defaults=(None, False))


class Index:
    """An index of the table, `PRIMARY` or of another name, or without a name that of the hidden row id."""

    def __init__(self, name, parts=(), unique=False, kind=ORDINARY):
        self.name, self.parts, self.unique, self.kind = name, list(parts), unique, kind
        self.refused = None

    @property
    def what(self):
        if self.name is None:
            return 'the row id'
        if self.name == PRIMARY:
            return 'primary key'
        return '%sindex `%s`' % ('' if self.kind == ORDINARY else self.kind + ' ', self.name)

    @property
    def columns(self):
        return [part.column for part in self.parts]


def settled_part(column, part, index):
    """A part of an index, of this column or of none."""
    if column is None:
        return part
    if index.name == PRIMARY:
        column.null = False
    is_whole = column.kind in BOUNDED and column.numbers == [part.prefix]
    return part._replace(prefix=None) if is_whole else part


class Table:
    """`format` is `dynamic` or `compact` where it is stated. `is_read` says that all of the table was seen; else, or
    where something is on `refused`, it isn't served."""

    def __init__(self, name=''):
        self.name, self.database, self.format = name, None, None
        self.charset = self.collation = None
        self.columns, self.indexes, self.refused = [], [], []
        self.has_partitions = self.is_read = False
        # The name of each partition, with that of its part where it is divided once more.
        self.partitions = []
        # Whether it is one of InnoDB, and in no tablespace of several tables.
        self.has_own_file = True

    @property
    def what(self):
        return 'table `%s`' % self.name

    def whole_name(self):
        return self.name if self.database is None else '%s.%s' % (self.database, self.name)

    def settle(self):
        """Takes the character set of the table where a column has none, and NOT NULL from the primary key; a prefix as
        long as its column is all of it."""
        for column in self.columns:
            if column.charset is None and column.collation:
                column.charset = column.collation.split('_')[0]
            elif column.charset is None:
                column.charset, column.collation = self.charset, self.collation
                if column.charset is None and self.collation:
                    column.charset = self.collation.split('_')[0]
        places = self.places()
        for index in self.indexes:
            index.parts = [settled_part(places.get(part.column.lower()), part, index) for part in index.parts]
        self.is_read = True

    def places(self):
        """The columns by their names in small letters; the server takes capital and small ones for the same."""
        return {column.name.lower(): column for column in self.columns}

    def stored_columns(self):
        """The columns that InnoDB keeps, in its order: without the virtual ones that were understood, and with the
        hidden one that a full-text index makes where the table has none of its name."""
        columns = [column for column in self.columns if column.generated != VIRTUAL or column.refused is not None]
        if self.has_full_text() and not any(column.name == DOCUMENT_ID for column in columns):
            hidden = Column(DOCUMENT_ID, 'bigint')
            hidden.unsigned, hidden.null = True, False
            columns.append(hidden)
        return columns

    def has_full_text(self):
        return any(index.kind == FULL_TEXT for index in self.indexes)

    def hidden_index(self):
        """The index that a full-text index makes; nothing where there is none."""
        if self.has_full_text() and not any(index.name == DOCUMENT_INDEX for index in self.indexes):
            return Index(DOCUMENT_INDEX, [Part(DOCUMENT_ID)], True)
        return None

    def ordered_indexes(self):
        """All indexes that have a root, the clustered one first, in the order in which the server makes them, which is
        that of SHOW CREATE TABLE but for the hidden one."""
        indexes = sorted((index for index in self.indexes if index.kind != FULL_TEXT), key=self.order_of)
        if not indexes or not self.is_cluster(indexes[0]):
            indexes.insert(0, Index(None, unique=True))
        hidden = self.hidden_index()
        return indexes[:1] + [hidden] * (hidden is not None) + indexes[1:]

    def order_of(self, index):
        """What SHOW CREATE TABLE sorts by. The indexes of a group come in the order in which they were made; so do all
        of a table that was made in one piece."""
        return (*self.group_of(index), index.name != PRIMARY)

    def group_of(self, index):
        """The group of an index that has a root. The hidden one may have been made at any time, whatever it is."""
        if index.name == DOCUMENT_INDEX and index not in self.indexes:
            return HIDDEN_GROUP
        places = self.places()
        has_null = any(name.lower() not in places or places[name.lower()].null for name in index.columns)
        return not index.unique, index.unique and has_null, self.is_partial(index) and index.unique

    def is_partial(self, index):
        """Whether it has the front of a column alone, or a column that InnoDB doesn't keep: no key for rows then."""
        if index.name == PRIMARY:
            return False
        places = self.places()
        columns = [places.get(name.lower()) for name in index.columns]
        return index.refused is not None or any(part.prefix is not None for part in index.parts) or any(
            column is None or column.generated == VIRTUAL or column.kind in UNBOUNDED for column in columns)

    def is_cluster(self, index):
        """Whether the rows stand in the order of this index, where it is the first of all."""
        return index.kind == ORDINARY and not any(self.group_of(index))

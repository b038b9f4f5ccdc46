"""Reads the definition of a table out of a `.frm` file of MySQL 5.0 to 5.7 or of MariaDB, as a Definition.

Numbers are little-endian. The layout is that of open_binary_frm and pack_fields, pack_keys, create_frm of MySQL 5.7
(sql/table.cc, sql/unireg.cc), and of init_from_binary_frm_image and build_frm_image of MariaDB (the same files,
sql/unireg.h); docs/FORMATS.md has it in tables. What isn't needed for the columns and keys is passed over: defaults,
numbers of rows, places of fields in the server's own record.
"""

import collections
import os
import stat
import struct

HEAD_SIZE, FORM_SIZE, FIELD_SIZE = 64, 288, 17
MAGIC, VIEW = b'\xfe\x01', b'TYPE=VIEW'
# The second one is MariaDB's with expressions in a section of their own.
VERSIONS, WITH_EXPRESSIONS = (9, 10, 11), 11
# Of the server that wrote the file.
FIRST_WITH_GENERATED, FIRST_MARIADB, FIRST_WITH_PARTITION_MARK = 50700, 100000, 50110
# No part of a file has more bytes than this.
MOST = 1 << 24

# Places in the head, and in the form.
VERSION, ENGINE, EXTRA2_SIZE, KEYS_PLACE, SHORT_KEYS_SIZE, RECORD_SIZE, KEYS_SIZE = 2, 3, 4, 6, 14, 16, 28
CHARSET, CHOICES, ROW_TYPE, CHARSET_HIGH, LONG_KEYS_SIZE, SERVER, EXTRA_SIZE = 38, 39, 40, 41, 47, 51, 55
PARTITION_ENGINE, BLOCK_SIZE = 61, 62
COMMENT, FIELDS, SCREENS_SIZE, NAMES_SIZE, INTERVALS, MEMBERS_SIZE, COMMENTS_SIZE, EXPRESSIONS_SIZE = (
    46, 258, 260, 268, 270, 274, 284, 286)
LONG_COMMENT, LONG_KEYS = 255, 0xFFFF
# What CHOICES has two bits for: the checksums of pages, and from its fifth bit on whether the table is a sequence.
NO_OR_YES = {1: 0, 2: 1}

# MariaDB's sections after the head; another section that begins here has this byte.
NO_EXTRA2 = ord('/')
PARTITIONED_ENGINE, APPLICATION_PERIOD, SYSTEM_PERIOD, INDEX_FLAGS, OPTIONS, FIELD_FLAGS, TYPE_NAMES, OVERLAPS = (
    1, 3, 4, 5, 128, 129, 130, 131)
# Others up to here change nothing that is read; of those above nobody knows what they change.
LAST_KNOWN = OVERLAPS

# Bits of a key, of its parts and of a field's flags.
NOT_UNIQUE, FULL_TEXT, SPATIAL, HAS_PARSER = 1, 128, 1024, 16384
FIELD_NUMBER, DESCENDING = 16383, 128
SIGNED, ZEROFILL, IS_BLOB, NULLABLE, NUMBER = 1, 4, 1024, 32768, 2
GENERATED = 128
# In MySQL's byte for the storage and the format of a field; the compressed one is Percona's.
FORMAT_SHIFT, COMPRESSED_FORMAT = 3, 3
# MySQL's type for json has the number of MariaDB's for a generated column of the old form.
JSON, OLD_GENERATED = 245, 245
GEOMETRY = 255
VIRTUAL_EXPRESSION, STORED_EXPRESSION, EXPRESSION_BASE = 0, 1, 16


class FrmError(Exception):
    """Why a file tells no table, in words for one line."""


Field = collections.namedtuple('Field', 'name length flags check kind collation geometry members comment expression '
                               'is_stored is_compressed visibility is_unversioned type_name')
KeyPart = collections.namedtuple('KeyPart', 'field length is_descending')
Key = collections.namedtuple('Key', 'name flags algorithm parts is_ignored has_period')


class Definition:
    """What the file says of the table, with the numbers that it has for types, collations and row formats."""

    def __init__(self):
        self.server = self.engine_number = self.collation = self.row_type = self.block_size = 0
        self.is_sequence = False
        # Zero or one where it was stated.
        self.page_checksum = None
        self.engine = self.comment = self.partitions = self.tablespace = self.compression = self.encryption = ''
        self.options, self.fields, self.keys = [], [], []
        # The fields of the beginning and the end of the time for which a row holds; and a period of its own, with its
        # name before them.
        self.system_period = self.period = None


class Bytes:
    """Some bytes of the file, read one part after another."""

    def __init__(self, what, data):
        self.what, self.data, self.at = what, data, 0

    def take(self, count):
        if self.at + count > len(self.data):
            raise FrmError('%s end too early' % self.what)
        self.at += count
        return self.data[self.at - count:self.at]

    def number(self, size):
        return int.from_bytes(self.take(size), 'little')

    def left(self):
        return len(self.data) - self.at

    def text(self, size):
        return self.take(size).decode('utf-8', 'surrogateescape')

    def section(self):
        """So many bytes as the first says, or the two after it where that is zero."""
        return self.take(self.number(1) or self.number(2))

    def ended_text(self):
        """A text that ends with a zero."""
        end = self.data.find(b'\0', self.at)
        if end < 0:
            raise FrmError('%s end within a name' % self.what)
        return self.take(end + 1 - self.at)[:-1].decode('utf-8', 'surrogateescape')

    def list(self):
        """Some texts, each with the same byte before and after it, and a zero at the end; a zero alone is none."""
        sign = self.take(1)
        if sign == b'\0':
            return []
        end = self.data.find(b'\0', self.at)
        if end < 0:
            raise FrmError('%s end within a list' % self.what)
        words = self.take(end + 1 - self.at)[:-1].split(sign)
        if words.pop():
            raise FrmError('%s have a list without an end' % self.what)
        return words


class FrmFile:
    """An open file: its head, and parts of it by their places."""

    def __init__(self, handle):
        self.handle = handle
        self.size = os.fstat(handle).st_size
        self.head = os.pread(handle, HEAD_SIZE, 0)
        if self.head.startswith(VIEW):
            raise FrmError('a view, which has no rows')
        if not self.head.startswith(MAGIC):
            raise FrmError('no .frm file: it does not begin with the bytes fe 01')
        if len(self.head) < HEAD_SIZE:
            raise FrmError('it ends within its head')
        if self.head[VERSION] not in VERSIONS:
            raise FrmError('form %d of .frm files, and only %s are read' % (
                self.head[VERSION], ', '.join(map(str, VERSIONS))))

    def number(self, place, size):
        return int.from_bytes(self.head[place:place + size], 'little')

    def part(self, what, place, size):
        if size > MOST:
            raise FrmError('%s have %d bytes, and no more than %d are read' % (what, size, MOST))
        if place + size > self.size:
            raise FrmError('it ends within %s: %d bytes from %d on, and it has %d' % (what, size, place, self.size))
        data = os.pread(self.handle, size, place)
        if len(data) < size:
            raise FrmError('it became shorter while it was read')
        return Bytes(what, data)

    def record_place(self):
        """Where the row of defaults begins, after the keys."""
        size = self.number(SHORT_KEYS_SIZE, 2)
        return self.number(KEYS_PLACE, 2) + (self.number(LONG_KEYS_SIZE, 4) if size == LONG_KEYS else size)


def open_frm(path):
    """The number of an open file that is a regular one; it isn't waited for where it is a pipe."""
    handle = os.open(path, os.O_RDONLY | os.O_NONBLOCK | os.O_CLOEXEC)
    if not stat.S_ISREG(os.fstat(handle).st_mode):
        os.close(handle)
        raise FrmError('no regular file')
    return handle


def definition_of(path):
    """Raises FrmError where the file tells no table, and OSError where it can't be read."""
    handle = open_frm(path)
    try:
        return Reader(FrmFile(handle)).read()
    finally:
        os.close(handle)


class Reader:
    def __init__(self, file):
        self.file, self.definition = file, Definition()
        # MariaDB's sections by their kinds, and MySQL's byte for the format of each field.
        self.extra2, self.formats = {}, b''

    def read(self):
        self.read_head()
        self.read_extra2()
        form = self.form()
        keys = self.keys()
        self.read_extra(form, keys)
        fields = self.fields(form)
        self.definition.fields, self.definition.keys = fields, keys
        self.check_numbers()
        return self.definition

    def check_numbers(self):
        """Raises where a key or a period has a field that isn't there."""
        definition = self.definition
        numbers = [('key `%s`' % key.name, part.field) for key in definition.keys for part in key.parts]
        numbers += [('the period', number) for number in (definition.system_period or ())
                    + (definition.period or ())[1:]]
        for what, number in numbers:
            if not 0 <= number < len(definition.fields):
                raise FrmError('%s has field %d, and the table has %d' % (what, number + 1, len(definition.fields)))

    def read_head(self):
        definition, number = self.definition, self.file.number
        definition.server = number(SERVER, 4)
        definition.engine_number = number(PARTITION_ENGINE, 1) or number(ENGINE, 1)
        definition.collation = number(CHARSET_HIGH, 1) << 8 | number(CHARSET, 1)
        definition.row_type, definition.block_size = number(ROW_TYPE, 1), number(BLOCK_SIZE, 2)
        if self.is_mariadb():
            choices = number(CHOICES, 1)
            definition.page_checksum = NO_OR_YES.get(choices >> 2 & 3)
            definition.is_sequence = NO_OR_YES.get(choices >> 4, 0) == 1

    def is_mariadb(self):
        return self.definition.server >= FIRST_MARIADB

    def read_extra2(self):
        """MariaDB's sections, each with its kind before it."""
        data = self.file.part('the sections after the head', HEAD_SIZE, self.file.number(EXTRA2_SIZE, 2))
        if not data.left() or data.data[0] == NO_EXTRA2:
            return
        while data.left() >= 3:
            kind = data.number(1)
            if kind > LAST_KNOWN:
                raise FrmError('a section with the number %d, which is not known' % kind)
            self.extra2[kind] = data.section()
        self.definition.options = self.table_options()
        if SYSTEM_PERIOD in self.extra2:
            period = Bytes('the fields of the period', self.extra2[SYSTEM_PERIOD])
            self.definition.system_period = period.number(2), period.number(2)
        if APPLICATION_PERIOD in self.extra2:
            period = Bytes('the fields of the period', self.extra2[APPLICATION_PERIOD])
            name, _ = period.section().decode('utf-8', 'surrogateescape'), period.section()
            self.definition.period = name, period.number(2), period.number(2)

    def table_options(self):
        """The options that an engine has defined, as pairs; a zero ends those of the table, and of each field and
        key."""
        data, options = Bytes('the options of the engine', self.extra2.get(OPTIONS, b'\0')), []
        while True:
            size = data.number(1)
            if size == 0:
                return options
            name = data.text(size)
            # The highest bit says that the value was quoted.
            options.append((name, data.text(data.number(2) & 0x7FFF)))

    def form(self):
        """The block of sizes, as its place and bytes."""
        places = self.file.part('the place of the form', HEAD_SIZE + self.file.number(EXTRA2_SIZE, 2), 4)
        place = places.number(4)
        return place, self.file.part('the form', place, FORM_SIZE).data

    def keys(self):
        data = self.file.part('the keys', self.file.number(KEYS_PLACE, 2), self.file.number(KEYS_SIZE, 2))
        if not data.left():
            return []
        count, parts = data.number(1), data.number(1)
        if count & 128:
            count = count & 127 | parts << 7
        data.at = 6
        found = [self.key(data) for _ in range(count)]
        names = [name.decode('utf-8', 'surrogateescape') for name in data.list()]
        if len(names) != count:
            raise FrmError('it has %d keys, and names for %d' % (count, len(names)))
        marks, with_period = self.extra2.get(INDEX_FLAGS, b'').ljust(count, b'\0'), self.keys_with_period()
        return [key._replace(name=name, is_ignored=marks[number] & 1 == 1, has_period=number in with_period)
                for number, (key, name) in enumerate(zip(found, names))]

    def keys_with_period(self):
        """The numbers of the keys whose last two parts are the end and the beginning of the period."""
        data = Bytes('the keys with a period', self.extra2.get(OVERLAPS, b'\0\0'))
        return [data.number(2) for _ in range(data.number(2))]

    def key(self, data):
        flags, _, count, algorithm, _ = struct.unpack('<HHBBH', data.take(8))
        parts = []
        for _ in range(count):
            field, _, order, _, length = struct.unpack('<HHBHH', data.take(9))
            parts.append(KeyPart((field & FIELD_NUMBER) - 1, length, order & DESCENDING != 0))
        return Key('', flags, algorithm, parts, False, False)

    def read_extra(self, form, keys):
        """The segment after the row of defaults."""
        definition, size = self.definition, self.file.number(EXTRA_SIZE, 4)
        definition.comment = form[1][COMMENT + 1:COMMENT + 1 + form[1][COMMENT]].decode('utf-8', 'surrogateescape')
        data = self.file.part('the engine, partitions and options',
                              self.file.record_place() + self.file.number(RECORD_SIZE, 2), size)
        if size == 0:
            return
        data.take(data.number(2))
        if data.left() > 2:
            definition.engine = data.text(data.number(2))
        if data.left() > 5:
            definition.partitions = data.text(data.number(4))
            data.take(1)
        if definition.server >= FIRST_WITH_PARTITION_MARK and data.left():
            data.take(1)
        for key in keys:
            if key.flags & HAS_PARSER:
                data.ended_text()
        if form[1][COMMENT] == LONG_COMMENT:
            definition.comment = data.text(data.number(2))
        if not self.is_mariadb():
            self.read_formats(data)
        if PARTITIONED_ENGINE in self.extra2:
            definition.engine = self.extra2[PARTITIONED_ENGINE].decode('utf-8', 'surrogateescape')

    def read_formats(self, data):
        """What MySQL 5.5 and later have of storage: the name of a tablespace, and from 5.7 on compression and
        encryption."""
        if data.left() > 8:
            start, size = data.at, data.number(2)
            data.take(6)
            self.definition.tablespace = data.ended_text()
            self.formats = data.data[data.at:start + size]
            data.at = start
            data.take(size)
        if data.left() >= 2:
            self.definition.compression = data.text(data.number(2))
        if data.left() >= 2:
            self.definition.encryption = data.text(data.number(2))

    # --- fields ------------------------------------------------------------------------------------------------------

    def fields(self, form):
        place, sizes = form

        def size(where):
            return int.from_bytes(sizes[where:where + 2], 'little')

        place += FORM_SIZE + size(SCREENS_SIZE)
        count = size(FIELDS)
        fixed = self.file.part('the fields', place, count * FIELD_SIZE)
        place += count * FIELD_SIZE
        names = self.file.part('the names of fields and members', place, size(NAMES_SIZE) + size(MEMBERS_SIZE))
        place += size(NAMES_SIZE) + size(MEMBERS_SIZE)
        comments = self.file.part('the comments of fields', place, size(COMMENTS_SIZE))
        expressions = self.file.part('the expressions', place + size(COMMENTS_SIZE), size(EXPRESSIONS_SIZE))
        found = [name.decode('utf-8', 'surrogateescape') for name in names.list()]
        if len(found) != count or count == 0:
            raise FrmError('it has %d fields, and names for %d' % (count, len(found)))
        members = [names.list() for _ in range(size(INTERVALS))]
        fields = [self.field(name, fixed, members, comments, expressions) for name in found]
        if self.file.head[VERSION] >= WITH_EXPRESSIONS and expressions.left():
            fields = with_expressions(fields, expressions)
        formats = self.formats.ljust(count, b'\0')
        fields = [field._replace(is_compressed=mark >> FORMAT_SHIFT & 7 == COMPRESSED_FORMAT)
                  for field, mark in zip(fields, formats)]
        return self.with_extra2(fields)

    def field(self, name, fixed, members, comments, expressions):
        (length, flags, check, collation_high, interval, kind, collation_low,
         comment) = struct.unpack('<3xH3xHBBBBBH', fixed.take(FIELD_SIZE))
        expression, is_stored = None, True
        if self.file.head[VERSION] < WITH_EXPRESSIONS:
            if self.definition.server >= FIRST_WITH_GENERATED and not self.is_mariadb():
                if check & GENERATED:
                    expression, is_stored = mysql_expression(expressions)
            elif kind == OLD_GENERATED:
                kind, interval, expression, is_stored = old_expression(expressions, interval)
        if interval > len(members):
            raise FrmError('field `%s` has list %d of members, and there are %d' % (name, interval, len(members)))
        # The byte of a collation is that of the kind of a geometry.
        geometry = collation_low if kind == GEOMETRY else None
        collation = collation_high << 8 | collation_low if geometry is None else 0
        return Field(name, length, flags, check & ~GENERATED, kind, collation, geometry,
                     members[interval - 1] if interval else [], comments.text(comment), expression, is_stored,
                     False, 0, False, None)

    def with_extra2(self, fields):
        """The fields with what MariaDB's sections say of them: who sees them, and the names of types of plugins."""
        marks = self.extra2.get(FIELD_FLAGS, b'').ljust(len(fields), b'\0')
        fields = [field._replace(visibility=mark & 7, is_unversioned=mark & 8 != 0)
                  for field, mark in zip(fields, marks)]
        data = Bytes('the names of types', self.extra2.get(TYPE_NAMES, b''))
        while data.left():
            number = packed_number(data)
            if number >= len(fields):
                raise FrmError('a type is named for field %d, and the table has %d' % (number + 1, len(fields)))
            fields[number] = fields[number]._replace(type_name=data.text(packed_number(data)))
        return fields


def packed_number(data):
    """A number of one byte below 251, or of two, three or eight after a byte that says so (net_store_length)."""
    first = data.number(1)
    sizes = {252: 2, 253: 3, 254: 8}
    if first not in sizes and first > 250:
        raise FrmError('%s have a number that begins with %d' % (data.what, first))
    return data.number(sizes[first]) if first in sizes else first


def mysql_expression(data):
    """The next expression as MySQL 5.7 keeps it, and whether its values are stored."""
    mark, size, is_stored = data.number(1), data.number(2), data.number(1)
    if mark != 1:
        raise FrmError('%s have one of form %d, and only 1 is known' % (data.what, mark))
    return data.text(size), is_stored != 0


def old_expression(data, size):
    """The type, the list of members, the expression and whether it is stored, as MariaDB before 10.2 has them in so
    many bytes."""
    item = Bytes(data.what, data.take(size))
    form, kind, is_stored = item.number(1), item.number(1), item.number(1) & 1
    if form not in (1, 2):
        raise FrmError('%s have one of form %d, and only 1 and 2 are known' % (data.what, form))
    interval = item.number(1) if form == 2 else 0
    return kind, interval, item.text(item.left()), is_stored == 1


def with_expressions(fields, data):
    """The fields with the expressions of those that are generated, as MariaDB from 10.2 on keeps them among others."""
    fields = list(fields)
    data.take(EXPRESSION_BASE)
    while data.left():
        kind, number, size, name_size = struct.unpack('<BHHB', data.take(6))
        data.take(name_size)
        expression = data.text(size)
        if kind in (VIRTUAL_EXPRESSION, STORED_EXPRESSION):
            if number >= len(fields):
                raise FrmError('an expression is that of field %d, and the table has %d' % (number + 1, len(fields)))
            fields[number] = fields[number]._replace(expression=expression, is_stored=kind == STORED_EXPRESSION)
    return fields

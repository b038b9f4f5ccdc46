"""The table of a `.frm` file, as create_table.py makes it of a CREATE TABLE:

    frm_file.read(path) -> table_description.Table; its name and database are those of the file and of its folder
    frm_file.create_text(path) -> its CREATE TABLE, without defaults, checks, comments of keys and foreign keys

Both raise FrmError, whose words are the reason on one line, where the file tells no table, and OSError where it can't
be read. What isn't served is on the table's list of what is refused, as ever.

The text has the words of SHOW CREATE TABLE, and the table is read out of it: so the rules of what is served stand once.
"""

import re

import frm_layout as layout
from collations import collation_of
from create_table import Tokens, tables_of
from file_names import names_of
from frm_layout import FrmError, definition_of
from table_description import GEOMETRIES, PRIMARY, WIDTHS, NotServed

KINDS = {1: 'tinyint', 2: 'smallint', 3: 'int', 4: 'float', 5: 'double', 7: 'timestamp', 8: 'bigint', 9: 'mediumint',
         11: 'time', 12: 'datetime', 13: 'year', 14: 'date', 15: 'varchar', 16: 'bit', 17: 'timestamp', 18: 'datetime',
         19: 'time', layout.JSON: 'json', 246: 'decimal', 247: 'enum', 248: 'set', 249: 'blob', 250: 'blob',
         251: 'blob', 252: 'blob', 254: 'char', layout.GEOMETRY: 'geometry', 0: 'decimal', 10: 'date', 253: 'varchar'}
# Those of an older form of the values: decimals, dates and texts before 5.0, times before 5.6.
OLD_KINDS = (0, 7, 10, 11, 12, 253)
OLD_FORM = ' /* 5.5 binary format */'
# The bytes of a blob's length, as the number of an integer type of so many bytes.
BLOB_SIZES = {1: 'tiny', 2: '', 9: 'medium', 3: 'long'}
# How long a moment is in characters without a fraction; and the number of digits that says that none are fixed.
MOMENT_LENGTHS = {'time': 10, 'datetime': 19, 'timestamp': 19}
NOT_FIXED, FIRST_WITH_MORE_DIGITS = 31, 100200
MOST_FRACTION, MOST_BITS, MOST_PRECISION = 6, 64, 65

AUTO_INCREMENT, COMPRESSED = 15, 24
BINARY = 'binary'
ENGINES, PARTITIONED, PARTITION_BY = {9: 'MyISAM', 12: 'InnoDB'}, 'partition', 'PARTITION BY'
ROW_FORMATS = {1: 'FIXED', 2: 'DYNAMIC', 3: 'COMPRESSED', 4: 'REDUNDANT', 5: 'COMPACT', 6: 'PAGE'}
NO_ROW_FORMAT = (0, 255)
LONG_HASH = 5
# What is hidden from SHOW CREATE TABLE; one that is INVISIBLE by its declaration isn't.
INVISIBLE, HIDDEN = 1, 2


def read(path):
    table = tables_of(create_text(path))[0]
    table.database, table.name = names_of(path)
    return table


def create_text(path):
    return Writer(definition_of(path), names_of(path)[1]).text()


def quoted_name(name):
    return '`%s`' % name.replace('`', '``')


def quoted(text):
    return "'%s'" % text.replace('\\', '\\\\').replace("'", "''").replace('\n', '\\n').replace('\0', '\\0')


class Writer:
    def __init__(self, definition, name):
        self.definition, self.name = definition, name

    def text(self):
        definition = self.definition
        items = [self.column(number, field) for number, field in enumerate(definition.fields)
                 if field.visibility < HIDDEN]
        items += [self.key(key) for key in definition.keys] + self.periods()
        return 'CREATE TABLE %s (\n%s\n) %s\n' % (
            quoted_name(self.name), ',\n'.join('  ' + item for item in items), ' '.join(self.options()))

    # --- columns -----------------------------------------------------------------------------------------------------

    def column(self, number, field):
        what = 'column `%s`' % field.name
        words = [quoted_name(field.name), self.type_words(what, field)]
        words += ['/*M!100301 COMPRESSED*/'] * (field.check == COMPRESSED)
        words += ['/*!50633 COLUMN_FORMAT COMPRESSED */'] * field.is_compressed
        words += self.generation(what, number, field)
        words += ['INVISIBLE'] * (field.visibility == INVISIBLE)
        words += self.nullity(number, field)
        words += ['AUTO_INCREMENT'] * (field.check == AUTO_INCREMENT)
        words += ['WITHOUT SYSTEM VERSIONING'] * field.is_unversioned
        if field.comment:
            words.append('COMMENT %s' % quoted(field.comment))
        return ' '.join(words)

    def generation(self, what, number, field):
        if field.expression is not None:
            return ['GENERATED ALWAYS AS (%s)' % checked_expression(what, field.expression),
                    'STORED' if field.is_stored else 'VIRTUAL']
        period = self.definition.system_period or ()
        return ['GENERATED ALWAYS AS ROW', ('START', 'END')[period.index(number)]] if number in period else []

    def nullity(self, number, field):
        """MariaDB takes none of these words for a generated column."""
        is_generated = field.expression is not None or number in (self.definition.system_period or ())
        if is_generated and self.definition.server >= layout.FIRST_MARIADB:
            return []
        return ['NULL' if field.flags & layout.NULLABLE else 'NOT NULL']

    def type_words(self, what, field):
        if field.type_name is not None:
            return quoted_type(what, field.type_name)
        if field.kind not in KINDS:
            raise FrmError('%s: a type with the number %d, which is not known' % (what, field.kind))
        kind = KINDS[field.kind]
        if kind in ('char', 'varchar', 'blob'):
            words = self.text_words(what, field, kind)
        elif kind in ('enum', 'set'):
            words = '%s(%s)%s' % (kind, ','.join(self.members(what, field)), self.charset_words(what, field))
        elif kind == 'geometry':
            if field.geometry >= len(GEOMETRIES):
                raise FrmError('%s: a geometry with the number %d' % (what, field.geometry))
            words = GEOMETRIES[field.geometry]
        elif kind in MOMENT_LENGTHS:
            digits = max(field.length - 1 - MOMENT_LENGTHS[kind], 0)
            check_length(what, field, kind, digits <= MOST_FRACTION)
            words = '%s(%d)' % (kind, digits) if digits else kind
        elif kind in ('bit', 'year'):
            check_length(what, field, kind, 1 <= field.length <= MOST_BITS)
            words = '%s(%d)' % (kind, field.length)
        elif kind in ('date', 'json'):
            words = kind
        else:
            words = self.number_words(what, field, kind)
        return words + OLD_FORM * (field.kind in OLD_KINDS)

    def number_words(self, what, field, kind):
        is_signed, digits = field.flags & layout.SIGNED != 0, field.flags >> 8 & self.most_digits()
        if kind == 'decimal':
            precision = field.length - is_signed - (digits > 0)
            check_length(what, field, kind, max(digits, 1) <= precision <= MOST_PRECISION)
            kind = 'decimal(%d,%d)' % (precision, digits)
        elif kind in ('float', 'double'):
            if digits != NOT_FIXED:
                kind = '%s(%d,%d)' % (kind, field.length, digits)
        else:
            kind = '%s(%d)' % (kind, field.length)
        return kind + ' unsigned' * (not is_signed) + ' zerofill' * (field.flags & layout.ZEROFILL != 0)

    def most_digits(self):
        return 63 if self.definition.server >= FIRST_WITH_MORE_DIGITS else 31

    def text_words(self, what, field, kind):
        charset = self.collation(what, field.collation)[0]
        if kind == 'blob':
            size = field.flags >> 3 & 15
            if not field.flags & layout.IS_BLOB or size not in BLOB_SIZES:
                raise FrmError('%s: flags %d, which are none of a blob or text' % (what, field.flags))
            return BLOB_SIZES[size] + ('blob' if charset == BINARY else 'text' + self.charset_words(what, field))
        # A value that is compressed has a byte more.
        length = field.length - (field.check == COMPRESSED)
        if charset == BINARY:
            return '%s(%d)' % (kind.replace('char', 'binary'), length)
        return '%s(%d)%s' % (kind, length // WIDTHS[charset], self.charset_words(what, field))

    def charset_words(self, what, field):
        return ' CHARACTER SET %s COLLATE %s' % self.collation(what, field.collation)

    def collation(self, what, number):
        """The names of a character set and of its collation; a number of zero is that of bytes."""
        if number == 0:
            return BINARY, BINARY
        names = collation_of(number, self.definition.server)
        if names is None:
            raise FrmError('%s: a collation with the number %d, which is not known' % (what, number))
        return names

    def members(self, what, field):
        """The members of an `enum` or `set`, in UTF-8, or as their bytes where they have others than those of ASCII;
        those of a character set of wide characters stand in hexadecimal digits."""
        if not field.members:
            raise FrmError('%s: no members' % what)
        charset = self.collation(what, field.collation)[0]
        if charset in ('ucs2', 'utf16', 'utf16le', 'utf32'):
            if not all(re.fullmatch(b'(?:[0-9A-Fa-f]{2})*', member) for member in field.members):
                raise FrmError('%s: a member in other than hexadecimal digits' % what)
            return ["x'%s'" % member.decode() for member in field.members]
        is_text = charset in ('utf8', 'utf8mb3', 'utf8mb4')
        return [quoted(member.decode('utf-8', 'surrogateescape')) if is_text or member.isascii()
                else "x'%s'" % member.hex() for member in field.members]

    # --- keys --------------------------------------------------------------------------------------------------------

    def key(self, key):
        if key.flags & layout.FULL_TEXT:
            front = 'FULLTEXT KEY'
        elif key.flags & layout.SPATIAL:
            front = 'SPATIAL KEY'
        elif key.flags & layout.NOT_UNIQUE:
            front = 'KEY'
        else:
            front = 'PRIMARY KEY' if key.name == PRIMARY else 'UNIQUE KEY'
        words = [front] + [quoted_name(key.name)] * (front != 'PRIMARY KEY')
        fields = [(part, self.definition.fields[part.field]) for part in key.parts]
        parts = [self.key_part(key, part, field) for part, field in fields if field.visibility < HIDDEN]
        if key.has_period and self.definition.period:
            parts[-2:] = ['%s WITHOUT OVERLAPS' % quoted_name(self.definition.period[0])]
        words.append('(%s)' % ','.join(parts))
        words += ['USING HASH'] * (key.algorithm == LONG_HASH) + ['IGNORED'] * key.is_ignored
        return ' '.join(words)

    def key_part(self, key, part, field):
        words = quoted_name(field.name)
        if not key.flags & (layout.FULL_TEXT | layout.SPATIAL) and part.length != self.key_length(field, part):
            width = WIDTHS.get(self.collation('column `%s`' % field.name, field.collation)[0], 1)
            words += '(%d)' % (part.length // width)
        return words + ' DESC' * part.is_descending

    def key_length(self, field, part):
        """How long a part of a key is that has all of the field: blobs have no such length, and of what isn't text
        there is no front."""
        if KINDS.get(field.kind) in ('char', 'varchar') and field.type_name is None:
            return field.length
        return 0 if field.flags & (layout.IS_BLOB | layout.NUMBER) == layout.IS_BLOB else part.length

    def periods(self):
        definition, periods = self.definition, []
        if definition.system_period and all(definition.fields[number].visibility < HIDDEN
                                            for number in definition.system_period):
            periods.append(('SYSTEM_TIME', *definition.system_period))
        if definition.period:
            periods.append((quoted_name(definition.period[0]), *definition.period[1:]))
        return ['PERIOD FOR %s (%s)' % (name, ', '.join(quoted_name(definition.fields[number].name)
                                                       for number in numbers)) for name, *numbers in periods]

    # --- options -----------------------------------------------------------------------------------------------------

    def options(self):
        definition = self.definition
        words = ['TABLESPACE %s' % quoted_name(definition.tablespace)] * (definition.tablespace != '')
        engine = definition.engine
        if engine in ('', PARTITIONED):
            engine = ENGINES.get(definition.engine_number, engine or 'number %d' % definition.engine_number)
        words.append('ENGINE=%s' % (engine if re.fullmatch('[A-Za-z]+', engine) else quoted_name(engine)))
        if definition.is_sequence:
            return words + ['SEQUENCE=1']
        if definition.collation:
            words.append('DEFAULT CHARSET=%s COLLATE=%s' % self.collation('the table', definition.collation))
        if definition.page_checksum is not None:
            words.append('PAGE_CHECKSUM=%d' % definition.page_checksum)
        if definition.row_type not in NO_ROW_FORMAT:
            if definition.row_type not in ROW_FORMATS:
                raise FrmError('a row format with the number %d' % definition.row_type)
            words.append('ROW_FORMAT=%s' % ROW_FORMATS[definition.row_type])
        if definition.block_size:
            words.append('KEY_BLOCK_SIZE=%d' % definition.block_size)
        words += ['%s=%s' % (name, quoted(value)) for name, value in (
            ('COMPRESSION', definition.compression), ('ENCRYPTION', definition.encryption),
            ('COMMENT', definition.comment)) if value]
        words += ['WITH SYSTEM VERSIONING'] * (definition.system_period is not None)
        words += ['%s=%s' % (quoted_name(name), value if re.fullmatch('[0-9A-Za-z]+', value) else quoted(value))
                  for name, value in definition.options]
        if definition.partitions:
            if not definition.partitions.lstrip().upper().startswith(PARTITION_BY):
                raise FrmError('partitions, with a text that does not begin with %s' % PARTITION_BY)
            words.append('\n' + definition.partitions.strip())
        return words


def check_length(what, field, kind, is_good):
    if not is_good:
        raise FrmError('%s: %s with a length of %d and flags %d' % (what, kind, field.length, field.flags))


def checked_expression(what, expression):
    """An expression, which brackets go around."""
    tokens = Tokens('(%s)' % expression, 0)
    try:
        tokens.group()
    except NotServed:
        tokens.kind = 'open'
    if tokens.kind is not None:
        raise FrmError('%s: an expression whose brackets and quotes do not fit' % what)
    return expression


def quoted_type(what, name):
    if not re.fullmatch('[A-Za-z_][A-Za-z0-9_]*', name):
        raise FrmError('%s: a type without a good name' % what)
    return name

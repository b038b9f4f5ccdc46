"""Reads the text of a CREATE TABLE: the tables that it describes, as table_description.py has them."""

import re

from table_description import (FULL_TEXT, ORDINARY, PRIMARY, SPATIAL, STORED, VIRTUAL, Column, Index, NotServed, Part,
                               Table)

# Table options that change nothing of the file's format; each has one value.
IDLE_OPTIONS = (
    'auto_increment', 'avg_row_length', 'checksum', 'comment', 'connection', 'delay_key_write', 'insert_method',
    'max_rows', 'min_rows', 'pack_keys', 'password', 'stats_auto_recalc', 'stats_persistent', 'stats_sample_pages',
    'table_checksum', 'transactional')
# Options that change something with another value than these.
USUAL_VALUES = (
    ('engine', 'innodb'), ('row_format', 'default'), ('key_block_size', '0'), ('compression', 'none'),
    ('compression', ''), ('encryption', 'n'), ('page_compressed', '0'), ('encrypted', 'no'),
    ('tablespace', 'innodb_file_per_table'))

# What may stand before the list of partitions, besides brackets and what they hold.
PARTITION_WORDS = ('linear hash key range list columns algorithm = 1 2 partitions subpartition by subpartitions '
                   'system_time (').split()

TOKEN = re.compile(r'''
    (?P<skip>(?:\s|\\n|\\t|--\s[^\n]*|\#[^\n]*|/\*M?!\d*|\*/)+)
  | (?P<remark>/\*.*?\*/)
  | `(?P<name>(?:[^`]|``)*)` | "(?P<ansi>(?:[^"]|"")*)"
  | '(?P<string>(?:[^'\\]|''|\\.)*)'
  | (?P<word>\d+\.\d+|[\w$\udc80-\udcff]+)
  | (?P<sign>.)''', re.VERBOSE | re.DOTALL)
# The same after the last end of a remark, where no other is looked for.
REMARK_END, TOKEN_AFTER_REMARKS = '*/', re.compile(TOKEN.pattern.replace('/\\*.*?\\*/', '(?!)'), TOKEN.flags)


class Tokens:
    """The words of a text from a place on; each is a pair of its kind and its text."""

    def __init__(self, text, at, last_remark=None):
        """The last remark ends at that place, if it was looked for."""
        self.text, self.at = text, at
        self.last_remark = text.rfind(REMARK_END) if last_remark is None else last_remark
        self.kind = self.word = None
        self.step()

    def step(self):
        """Goes to the next word, and answers the one before; the kind is None at the end of the text."""
        before = self.kind, self.word
        self.kind, self.word, self.start = None, '', self.at
        while self.at < len(self.text):
            found = (TOKEN if self.at < self.last_remark else TOKEN_AFTER_REMARKS).match(self.text, self.at)
            self.at = found.end()
            kind = found.lastgroup
            # What the server remarks on a date, decimal or text of an old form.
            if kind == 'remark' and re.search(r'binary format|mariadb-5\.3|/\*old\*/', found[kind]):
                self.kind, self.word = 'word', 'the form before 5.6'
                break
            if kind not in ('skip', 'remark'):
                self.kind, self.word = kind, found[kind]
                if kind in ('name', 'ansi'):
                    quote = '`' if kind == 'name' else '"'
                    self.kind, self.word = 'name', self.word.replace(quote * 2, quote)
                break
        return before

    def is_sign(self, sign):
        return self.kind == 'sign' and self.word == sign

    def ends_item(self):
        return self.kind is None or self.is_sign(',') or self.is_sign(')')

    def takes(self, *words):
        """Whether the next words are these ones, which it goes past then."""
        kept = self.at, self.kind, self.word
        for word in words:
            if self.kind not in ('word', 'sign') or self.word.lower() != word:
                self.at, self.kind, self.word = kept
                return False
            self.step()
        return True

    def name(self, what):
        if self.kind not in ('name', 'word'):
            raise NotServed('%s: no name stands where it should' % what)
        return self.step()[1]

    def group(self):
        """The words between the brackets that begin here, as pairs; those of brackets inside among them."""
        words, depth = [], 0
        while self.kind is not None:
            depth += self.is_sign('(') - self.is_sign(')')
            words.append(self.step())
            if depth == 0:
                return words[1:-1]
        raise NotServed('the text ends within brackets')


class Reader:
    """Reads one statement from the table's name on; what it makes out is in `table`, also where it raises."""

    def __init__(self, tokens):
        self.tokens, self.table = tokens, Table()

    def read(self):
        table, tokens = self.table, self.tokens
        table.name = tokens.name('the table')
        while tokens.takes('.'):
            table.database, table.name = table.name, tokens.name('the table')
        if not tokens.is_sign('('):
            raise NotServed('%s: no list of columns follows the name' % table.what)
        tokens.step()
        self.read_items()
        self.read_options()
        table.settle()

    def read_items(self):
        table, tokens = self.table, self.tokens
        while True:
            try:
                self.read_item()
            except NotServed as why:
                table.refused.append(str(why))
            # To the end of the item, also where it wasn't understood.
            while not tokens.ends_item():
                tokens.group() if tokens.is_sign('(') else tokens.step()
            if tokens.kind is None:
                raise NotServed('%s: the text ends within the list of columns' % table.what)
            # A comma before the bracket ends the list too, as where the last items were struck out by hand.
            if tokens.step()[1] == ')' or tokens.takes(')'):
                return

    def read_item(self):
        tokens = self.tokens
        if tokens.kind == 'word':
            if tokens.takes('constraint'):
                if tokens.kind == 'name' or tokens.word.lower() not in ('foreign', 'check', 'primary', 'unique'):
                    tokens.step()
            if tokens.kind == 'word' and tokens.word.lower() in ('foreign', 'check'):
                # The index of a foreign key has an item of its own.
                return
            if tokens.takes('primary', 'key'):
                self.read_index(PRIMARY, True)
                return
            if tokens.takes('period'):
                tokens.takes('key')
                raise NotServed('period `%s`' % tokens.word)
            kind = next((kind for kind in (FULL_TEXT, SPATIAL) if tokens.takes(kind)), ORDINARY)
            unique = kind == ORDINARY and tokens.takes('unique')
            if tokens.takes('key') or tokens.takes('index') or unique or kind != ORDINARY:
                self.read_index(tokens.step()[1] if tokens.kind in ('name', 'word') else '', unique, kind)
                return
        self.read_column()

    def read_column(self):
        tokens = self.tokens
        column = Column(tokens.name('a column'))
        self.table.columns.append(column)
        if tokens.kind != 'word':
            raise NotServed('%s: no type' % column.what)
        column.kind = tokens.step()[1].lower()
        words = tokens.group() if tokens.is_sign('(') else []
        column.numbers = [int(word) for kind, word in words if kind == 'word' and re.fullmatch('[0-9]+', word)]
        column.members = sum(kind == 'string' for kind, _ in words)
        while not tokens.ends_item():
            if not self.read_type_word(column) and not self.read_attribute(column):
                column.refused = '%s: %s' % (column.what, tokens.word)
                return

    def read_type_word(self, column):
        """Whether the next words are some of those that change what is kept of a value."""
        tokens = self.tokens
        if tokens.takes('unsigned') or tokens.takes('zerofill'):
            # The server writes `unsigned` before `zerofill`; a width and zeros in front are no part of the value.
            column.unsigned = True
        elif tokens.takes('character', 'set') or tokens.takes('charset'):
            column.charset = tokens.step()[1].lower()
        elif tokens.takes('collate'):
            column.collation = tokens.step()[1].lower()
        elif tokens.takes('not', 'null'):
            column.null = False
        elif tokens.takes('null'):
            column.states_null = True
        elif tokens.takes('generated', 'always', 'as') or tokens.takes('as'):
            if tokens.is_sign('('):
                tokens.group()
            column.generated = VIRTUAL
        elif column.generated and (tokens.takes('stored') or tokens.takes('persistent')):
            column.generated = STORED
        elif not (column.generated and tokens.takes('virtual')):
            return False
        return True

    def read_attribute(self, column):
        """Whether the next words are some of those that change nothing of it."""
        tokens = self.tokens
        if tokens.takes('default') or tokens.takes('on', 'update'):
            self.pass_value()
        elif tokens.takes('column_format', 'compressed'):
            # Percona's server compresses the values.
            column.refused = '%s: COLUMN_FORMAT COMPRESSED' % column.what
        elif tokens.takes('comment') or tokens.takes('column_format') or tokens.takes('storage'):
            tokens.step()
        elif tokens.takes('check'):
            tokens.group()
        elif not (tokens.takes('auto_increment') or tokens.takes('without', 'system', 'versioning')):
            return False
        return True

    def pass_value(self):
        """A string, a number, NULL, a call, or an expression in brackets."""
        tokens = self.tokens
        while tokens.takes('-') or tokens.takes('+'):
            pass
        if not tokens.is_sign('('):
            kind, _ = tokens.step()
            while tokens.takes('.'):
                tokens.step()
            if kind == 'word' and tokens.kind == 'string':
                tokens.step()
        if tokens.is_sign('('):
            tokens.group()

    def read_index(self, name, unique, kind=ORDINARY):
        tokens, index = self.tokens, Index(name, (), unique, kind)
        # It counts among the others, so that these have the right roots, also where it is refused.
        self.table.indexes.append(index)
        if tokens.takes('using'):
            tokens.step()
        if not tokens.is_sign('('):
            raise NotServed('%s: no list of columns' % index.what)
        try:
            self.read_parts(index, tokens.group())
            self.read_index_options(index)
            if not name:
                raise NotServed('an index: no name stands where it should')
        except NotServed as why:
            index.refused = str(why)

    def read_parts(self, index, words):
        while words:
            kind, column = words.pop(0)
            if kind not in ('name', 'word'):
                raise NotServed('%s: an expression' % index.what)
            prefix, is_descending = None, False
            while words and words[0][1] != ',':
                word = words.pop(0)[1].lower()
                if word == '(' and len(words) > 1 and re.fullmatch('[0-9]+', words[0][1]) and words[1][1] == ')':
                    prefix, words = int(words[0][1]), words[2:]
                elif word == 'desc':
                    is_descending = True
                elif word != 'asc':
                    raise NotServed('%s: column `%s` %s' % (index.what, column, word.upper()))
            index.parts.append(Part(column, prefix, is_descending))
            words = words[1:]

    def read_index_options(self, index):
        tokens = self.tokens
        while not tokens.ends_item():
            if tokens.takes('using') or tokens.takes('comment') or tokens.takes('with', 'parser'):
                tokens.step()
            elif tokens.takes('key_block_size'):
                tokens.takes('=')
                tokens.step()
            else:
                raise NotServed('%s: %s' % (index.what, tokens.word))

    def read_options(self):
        """What follows the list, up to the end of the statement or of what `mysql` printed of it."""
        table, tokens = self.table, self.tokens
        while tokens.kind in ('name', 'word') and not tokens.word.isdigit() or tokens.is_sign(','):
            if tokens.takes(',') or tokens.takes('default'):
                continue
            if tokens.takes('table', 'create', 'table'):
                # What `mysql` writes above the next one.
                return
            if tokens.takes('partition', 'by'):
                self.read_partitions()
                return
            self.read_option()
        if tokens.kind == 'string' or tokens.kind == 'sign' and tokens.word not in ';|*+':
            table.refused.append('%s: %s behind the options' % (table.what, tokens.word))

    def read_option(self):
        table, tokens = self.table, self.tokens
        if tokens.takes('character', 'set'):
            option = 'charset'
        elif tokens.takes('data', 'directory') or tokens.takes('index', 'directory'):
            option = 'comment'
        else:
            option = tokens.step()[1].lower()
        tokens.takes('=')
        value = tokens.step()[1]
        low = value.lower()
        if option == 'charset':
            table.charset = low
        elif option == 'collate':
            table.collation = low
        elif option == 'row_format' and low in ('dynamic', 'compact'):
            table.format = low
        elif option not in IDLE_OPTIONS and (option, low) not in USUAL_VALUES:
            table.refused.append('%s: %s %s' % (table.what, option.upper(), value))
            table.has_own_file = table.has_own_file and option not in ('engine', 'tablespace')


    def read_partitions(self):
        """The names of the partitions: those of the list, or else p0, p1 and so on."""
        table, tokens, counts, listed = self.table, self.tokens, {}, []
        table.has_partitions = True
        while tokens.kind in ('word', 'sign') and tokens.word.lower() in PARTITION_WORDS:
            if tokens.is_sign('('):
                words = tokens.group()
                if words and words[0][1].lower() == 'partition':
                    listed = listed_partitions(words)
                    break
                continue
            word = tokens.step()[1].lower()
            if word in ('partitions', 'subpartitions') and re.fullmatch('[0-9]{1,4}', tokens.word):
                counts[word] = int(tokens.step()[1])
        listed = listed or [('p%d' % number, []) for number in range(counts.get('partitions', 1))]
        for name, parts in listed:
            parts = parts or ['%ssp%d' % (name, number) for number in range(counts.get('subpartitions', 0))]
            table.partitions += [(name, part) for part in parts] or [(name,)]


def listed_partitions(words):
    """The name of each partition in the words of a list, and those of the parts that it is divided into."""
    found = []
    for (kind, word), (_, name) in zip(words, words[1:]):
        if kind == 'word' and word.lower() == 'partition':
            found.append((name, []))
        elif kind == 'word' and word.lower() == 'subpartition':
            found[-1][1].append(name)
    return found


# `Create Table` is what `mysql` writes above the statement, and the line of the database is that of `mysqldump`.
# A statement that asks for the text of a table, as a client's log has it, is none that describes one.
START = re.compile(r'''
    \b(?P<asked>(?i:SHOW)\s+)?(?:CREATE\s+TABLE|create\s+table)\s+(?:(?:IF\s+NOT\s+EXISTS|if\s+not\s+exists)\s+)?
  | ^(?:(?:USE|use)\s+|--\ Current\ Database:\ )(?:`(?P<quoted>(?:[^`]|``)*)`|(?P<plain>[\w$]+))\s*(?:;|$)''',
                   re.MULTILINE | re.VERBOSE)


def tables_of(text, wanted=None):
    """The tables whose statements the text has; where one is wanted, by its name or as DATABASE.NAME, those alone."""
    tables, at, database, last_remark = [], 0, None, text.rfind(REMARK_END)
    while True:
        found = START.search(text, at)
        if not found:
            return tables
        at = found.end()
        if found['asked']:
            continue
        if found.lastgroup:
            database = found['plain'] or found['quoted'].replace('``', '`')
            continue
        reader = Reader(Tokens(text, at, last_remark))
        reader.table.database = database
        try:
            reader.read()
            at = reader.tokens.start
        except NotServed as why:
            reader.table.refused.append(str(why))
        if wanted in (None, reader.table.name, reader.table.whole_name()):
            tables.append(reader.table)

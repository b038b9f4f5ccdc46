"""The schema text of each file of a backup: one that stands beside it, or made of a CREATE TABLE or of the .frm."""

import copy
import os
import re

import frm_file
import frm_layout
from backup_answers import NO_TEXT, UNSERVED, Answer, Reasons, why_of
from create_table import tables_of
from index_roots import RootsOpen, schema_of
from innodb_layout import PAGE_SIZE
from table_description import NotServed
from table_schema import ALL_UNSERVED, Choice, TableSchema
from tablespace_file import LeftOut, NotTold, TablespaceFile

# Where the schema text comes from, as --json says it.
FROM_SCHEMA, FROM_CREATE, FROM_FRM = 'schema', 'create', 'frm'
# More than the program reads of a schema text, so that it is the one that refuses it.
SCHEMA_ROOM = 1 << 17


class Texts:
    """The tables of a text, by database and name."""

    def __init__(self, path):
        self.by_name = {}
        if path is not None:
            with open(path, 'rb') as handle:
                text = handle.read().decode('utf-8', 'surrogateescape')
            for table in tables_of(text):
                self.by_name.setdefault((table.database, table.name), []).append(table)

    def all(self):
        return [tables[0] for tables in self.by_name.values()]

    def table(self, file):
        """The table of a file, or nothing; raises Answer if there are several."""
        for name in ((file.database, file.table), (None, file.table)):
            if name in self.by_name:
                if len(self.by_name[name]) > 1:
                    raise Answer(NO_TEXT, 'several CREATE TABLE of this name')
                return copy.deepcopy(self.by_name[name][0])
        return None


class Schema:
    """A schema text; whether the rows of the file are as long as its columns, nothing if it stood beside the file; the
    names of the columns that are declared as their bytes, and of those whose bytes a server doesn't take for what they
    are."""

    def __init__(self, text, fills=None, as_bytes=(), misread=()):
        self.text, self.fills, self.as_bytes, self.misread = text, fills, sorted(as_bytes), list(misread)

    def described(self, file):
        """What whoever loads the lines has to know: another name of the table in them, columns that have their bytes
        there, and which of these a server refuses or takes for other values."""
        found = re.match('table ([^ \n]+) ', self.lines()[0])
        told = {'table_in_lines': found[1] if found and found[1] != file.table else None, 'as_bytes': self.as_bytes,
                'misread': self.misread}
        return {name: value for name, value in told.items() if value}

    def has_other_indexes(self):
        return b'\nindex ' in self.text

    def root(self):
        """The root of the index of the rows."""
        return next(int(line.split()[2]) for line in self.lines() if line.startswith('clustered root '))

    def lines(self):
        return self.text.decode('utf-8', 'replace').split('\n')

    def index_name(self, number):
        """The name in the index line of this number, from 1 on."""
        names = [line.split()[1] for line in self.lines() if line.startswith('index ')]
        return names[number - 1] if 0 < number <= len(names) else '?'


class Source:
    """What tells of the table of a file: a schema text, or a table of a CREATE TABLE or of a .frm. Raises Answer if
    there is none of them."""

    def __init__(self, file, texts, columns):
        self.file, self.columns, self.text, self.table = file, columns, None, None
        try:
            with open(file.path[:-len('ibd')] + 'schema', 'rb') as text:
                self.kind, self.text = FROM_SCHEMA, text.read(SCHEMA_ROOM)
                return
        except FileNotFoundError:
            pass
        self.kind, self.table = FROM_CREATE, texts.table(file)
        if self.table is None:
            self.kind, self.table = FROM_FRM, table_of_frm(file)

    def schema(self, tablespace):
        """The schema text for `check`, `dump` and `cross`; raises Answer if there is none."""
        try:
            if self.text is None:
                return self.made_schema(self.choice(), tablespace)
            if tablespace is not None:
                tablespace.row_format(self.file.partition is not None)
            return Schema(self.text)
        except RootsOpen as why:
            raise Answer(NO_TEXT, str(why).split(';')[0], roots=why.lines)
        except (NotServed, NotTold) as why:
            raise Answer(UNSERVED, str(why))

    def rows_schema(self, tablespace):
        """The schema text by which the rows alone are read; raises Answer if there is none."""
        if self.text is not None:
            return Schema(self.text)
        try:
            return self.made_schema(self.choice()._replace(rows=True), tablespace)
        except (NotServed, NotTold) as why:
            raise Answer(UNSERVED, str(why))

    def choice(self):
        columns = [name for name in self.columns if name == ALL_UNSERVED or name.lower() in self.table.places()]
        return Choice(bytes=columns, partition=self.file.partition is not None)

    def made_schema(self, choice, tablespace):
        made = schema_of(self.table, choice, tablespace)
        if made.refused:
            raise Reasons(UNSERVED, made.refused)
        schema = TableSchema(self.table, choice)
        return Schema(made.text.encode('utf-8', 'surrogateescape'), made.fills, schema.as_bytes,
                      schema.misread_columns())


def table_of_frm(file):
    """The table of the .frm beside a file."""
    why = 'no CREATE TABLE of `%s`.`%s`' % (file.database, file.table)
    path = file.beside('.frm')
    try:
        return frm_file.read(path)
    except FileNotFoundError:
        raise Answer(NO_TEXT, why)
    except (OSError, frm_layout.FrmError) as error:
        raise Answer(NO_TEXT, '%s, and %s: %s' % (why, os.path.basename(path), why_of(error)))


def tablespace_of(file, handle, is_for_rows):
    """The file, or nothing if it doesn't tell what it is: the program then says which rule it breaks. Raises Answer if
    it is of a form that isn't served. If the rows alone will do and this is said, more forms are served, and a file
    whose pages can't be read is one that doesn't tell what it is."""
    file.used = file.bytes // PAGE_SIZE
    try:
        tablespace = TablespaceFile(handle, os.path.basename(file.path))
        file.used = tablespace.used_count()
        tablespace.row_format(file.partition is not None, is_for_rows)
    except LeftOut as why:
        raise Answer(UNSERVED, str(why))
    except NotTold:
        return None
    except OSError:
        if is_for_rows:
            return None
        raise
    return tablespace

"""What the tests of tools/check-backup share: folders, programs in the place of the real ones, and counts."""

import os
import shlex
import subprocess

from scripts import TOP
from tally import Tally

import innodb_layout

TOOL = TOP / 'tools/check-backup'
EXAMPLE = (TOP / 'examples/numbers.ibd').read_bytes()
LINES = ('INSERT INTO `%s` VALUES (-1);\nINSERT INTO `%s` VALUES (0);\n'
         'INSERT INTO `%s` VALUES (2147483647);\n')
CREATE = 'CREATE TABLE `%s` (\n  `id` int(11) NOT NULL,\n  PRIMARY KEY (`id`)\n) ENGINE=InnoDB;\n'
# In the place of a checksum, it says that the page has none.
NO_CHECKSUM = innodb_layout.NO_CHECKSUM.to_bytes(4, 'big')
# How many rows the file with an index has.
ROWS = 4000
TRIES = 'case "$2" in *numbers.schema) echo pages=1; exit;; esac\n'


def ibd():
    """The words of the program."""
    return shlex.split(os.environ.get('IBD') or shlex.quote(str(TOP / 'ibd')))


def with_index(tries):
    """A schema text, a file of ROWS rows with an index, each of two levels, and its CREATE TABLE."""
    schema, rows, file = (tries.place / ('made' + ending) for ending in ('.schema', '.rows', '.ibd'))
    schema.write_text('table made dynamic\ncolumn id int notnull\ncolumn v int notnull\ncolumn s varchar 200 notnull\n'
                      'clustered root 3 id\nindex v root 4 v\n')
    rows.write_text(''.join("INSERT INTO `made` VALUES (%d,%d,'%s');\n" % (number, number * 10, 'x' * 200)
                            for number in range(ROWS)))
    subprocess.run(ibd() + ['build', schema, rows, file], stdout=subprocess.DEVNULL, check=True)
    create = ('CREATE TABLE `made` (`id` int NOT NULL, `v` int NOT NULL, `s` varchar(200) CHARACTER SET ascii NOT '
              'NULL, PRIMARY KEY (`id`), KEY `v` (`v`)) ENGINE=InnoDB;\n')
    return schema, file, create


def rows_of(table):
    return LINES % (table, table, table)


class Tries(Tally):
    def __init__(self, place):
        super().__init__()
        self.place, self.number = place, 0

    def folder(self, files):
        """A new folder of these files."""
        self.number += 1
        folder = self.place / str(self.number)
        for name, data in files.items():
            path = os.path.join(bytes(folder), os.fsencode(name))
            os.makedirs(os.path.dirname(path), exist_ok=True)
            with open(path, 'wb') as handle:
                handle.write(data if isinstance(data, bytes) else data.encode())
        return folder

    def program(self, script, is_ibd=True):
        """A program that is run in the place of ibd, for which the example is sound, or of another."""
        self.number += 1
        path = self.place / ('program%d' % self.number)
        path.write_text('#!/bin/sh\n' + TRIES * is_ibd + script)
        path.chmod(0o755)
        return str(path)

    def run(self, *words, program=None, start=()):
        environment = dict(os.environ, **({'IBD': program} if program else {}))
        done = subprocess.run([*start, str(TOOL), *map(str, words)], stdout=subprocess.PIPE, stderr=subprocess.PIPE,
                              env=environment)
        decode = lambda data: data.decode('utf-8', 'surrogateescape')
        return done.returncode, decode(done.stdout), decode(done.stderr)

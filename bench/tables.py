"""Times `check`, `cross` and `dump` of large tables against reading the same file with `dd`, and prints the peak of
memory. Of several programs, as an older release and the new one, each is timed in turn over the same files.

The tables are made here, one after the other in the folder for temporary files, which needs 700 MB: by
tests/tablespace.py, and those with an index on texts or on two numbers by the first program's `build`. What `dump`
writes is compared with the rows. The commands and `dd bs=16384` are run in turn, N times each; printed are the medians
of processor time, in the kernel and outside of it, and of the time by the clock, and the ratios of the processor times.
The memory is read from /proc.

With --builds the tables that have no more pages than a build are also built from the lines of their rows, with their
index and without it; what comes out is dumped and compared with them.

With --salvage the rows are also saved by SALVAGE, which is `ibd-salvage`.

With --server the same rows are loaded into a server (MariaDB, started as by tests/server), and `mariadb-dump
--skip-extended-insert` and `CHECK TABLE .. EXTENDED` are timed too: client and server together.
"""

import collections
import contextlib
import functools
import itertools
import os
import pathlib
import random
import statistics
import struct
import subprocess
import sys
import tempfile
import time

import mariadb
from tablespace import PAGE_SIZE, Tablespace

TICKS = os.sysconf('SC_CLK_TCK')
KEYED = 'table t dynamic\ncolumn id int notnull\n%sclustered root 3 id\n%s'
VALUE_SIZE = 60_000
# A build has at most 256 extents of 64 pages.
MOST_BUILT = 256 * 64 * PAGE_SIZE

# What one run took: seconds of processor time and by the clock.
Took = collections.namedtuple('Took', 'processor clock')
# A table without records is made of its lines, by `build`.
Table = collections.namedtuple('Table', 'rows columns create record line index', defaults=[None])
# Another index of a table, whose entries are as long as their keys.
Index = collections.namedtuple('Index', 'line create entry key_size', defaults=[None, None])


def stored_int(number):
    return struct.pack('>I', number ^ 0x80000000)


def stored_key(number):
    """The key, and the row's last transaction and its undo record, which are none."""
    return stored_int(number) + bytes(13)


def scattered(number):
    return number * 7919 % 1000003


def short_record(_, number):
    text = b'row %d' % number
    return bytes([len(text)]), stored_key(number) + stored_int(scattered(number)) + text


def short_line(number):
    return b"INSERT INTO `t` VALUES (%d,%d,'row %d');\n" % (number, scattered(number), number)


def scattered_entry(number):
    return stored_int(scattered(number)) + stored_int(number)


def hashed(number):
    return number * 0x9E3779B97F4A7C15 % 2**64


def text_table(text_of):
    """A table with an index on a text."""

    def line(number):
        return b"INSERT INTO `t` VALUES (%d,'%s');\n" % (number, text_of(number))

    create = 'b varchar(20) CHARACTER SET latin1 COLLATE latin1_bin NOT NULL'
    index = Index('index i root 4 b\n', ', KEY i (b)')
    return Table(1_000_000, 'column b varchar 20 notnull\n', create, None, line, index)


def digits_text(number):
    return b'%016x' % hashed(number)


@functools.lru_cache(maxsize=None)
def first_name(seed):
    chosen = random.Random(seed)
    return bytes(chosen.choices(b'abcdefghijklmnopqrstuvwxyz', k=chosen.randint(3, 8)))


def name_text(number):
    """One of 400 names of three to eight letters, and six digits."""
    return b'%s%06d' % (first_name(hashed(number) % 400), (hashed(number) >> 40) % 1_000_000)


def tag_text(number):
    """One of 10,007 texts."""
    return b'tag%d' % (hashed(number) % 10_007)


def pair_line(number):
    """One of 100 numbers, and then one of its own."""
    return b'INSERT INTO `t` VALUES (%d,%d,%d);\n' % (number, hashed(number) % 100, scattered(number))


def long_table(rows, kind, create, value_of, text_of):
    """A table of values of 60,000 bytes off the page."""

    def record(space, number):
        return bytes([20, 0xC0]), stored_key(number) + space.put_value(value_of(number))

    def line(number):
        return b'INSERT INTO `t` VALUES (%d,%s);\n' % (number, text_of(value_of(number)))

    return Table(rows, 'column b %s notnull\n' % kind, 'b %s NOT NULL' % create, record, line)


def plain_value(_):
    return b'x' * VALUE_SIZE


@functools.lru_cache
def random_value(seed):
    return random.Random(seed).randbytes(VALUE_SIZE)


def binary_value(number):
    return random_value(number % 2)


def escaped_value(_):
    return (b"it's a value " * (VALUE_SIZE // 13 + 1))[:VALUE_SIZE]


def quoted(value):
    return b"'" + value.replace(b"'", b"\\'") + b"'"


def hexadecimal(value):
    return b'0x' + value.hex().encode()


SHORT = Table(
    1_000_000,
    'column a int notnull\ncolumn b varchar 40 notnull\n',
    'a int NOT NULL, b varchar(40) CHARACTER SET latin1 COLLATE latin1_bin NOT NULL',
    short_record,
    short_line,
)
TABLES = {
    '1,000,000 short rows': SHORT,
    '1,000,000 short rows with an index': SHORT._replace(
        index=Index('index i root 4 a\n', ', KEY i (a)', scattered_entry, 8)
    ),
    '1,000,000 rows with an index on digits': text_table(digits_text),
    '1,000,000 rows with an index on names': text_table(name_text),
    '1,000,000 rows with an index on 10,007 tags': text_table(tag_text),
    '1,000,000 rows with an index on two numbers': Table(
        1_000_000,
        'column a int notnull\ncolumn b int notnull\n',
        'a int NOT NULL, b int NOT NULL',
        None,
        pair_line,
        Index('index i root 4 a b\n', ', KEY i (a, b)'),
    ),
    '5,000 long texts': long_table(5_000, 'longtext', 'longtext CHARACTER SET latin1', plain_value, quoted),
    '2,500 long binary values': long_table(2_500, 'longblob', 'longblob', binary_value, hexadecimal),
    '2,500 long texts with an escape in 13 bytes': long_table(
        2_500, 'longtext', 'longtext CHARACTER SET latin1', escaped_value, quoted
    ),
}


def write_rows(path, table):
    with open(path, 'wb') as out:
        out.writelines(map(table.line, range(table.rows)))


def make(path, table):
    with open(path, 'wb') as file:
        space = Tablespace(file, (4, table.index.key_size) if table.index else (4,))
        space.put_tree([table.record(space, number) for number in range(table.rows)])
        if table.index:
            entries = sorted(table.index.entry(number) for number in range(table.rows))
            space.put_tree([(b'', entry) for entry in entries], space.trees[1])
        space.put_space()


def compare(words, table):
    """Ends where the command writes anything but the rows."""
    with subprocess.Popen(words, stdout=subprocess.PIPE) as child:
        expected = (table.line(number) for number in range(table.rows))
        if any(given != row for given, row in itertools.zip_longest(child.stdout, expected)):
            sys.exit('%s writes other rows' % words)


def run(words):
    """One run of a command, its output thrown away."""
    start = time.monotonic()
    child = subprocess.Popen(words, stdout=subprocess.DEVNULL, stderr=subprocess.DEVNULL)
    _, status, used = os.wait4(child.pid, 0)
    child.returncode = os.waitstatus_to_exitcode(status)
    if child.returncode:
        sys.exit('%s ends with %d' % (words, child.returncode))
    return Took(used.ru_utime + used.ru_stime, time.monotonic() - start)


def in_turn(commands, runs):
    """The medians of each command, all of them run one after another, over and over."""
    took = {name: [] for name in commands}
    for _ in range(runs):
        for name, call in commands.items():
            took[name].append(call())
    return {name: Took(*map(statistics.median, zip(*each))) for name, each in took.items()}


def peak(words):
    """The most KiB that a command held, as read every millisecond while it ran."""
    most = 0
    with subprocess.Popen(words, stdout=subprocess.DEVNULL) as child:
        while child.poll() is None:
            with open('/proc/%d/status' % child.pid) as status:
                most = max([most, *(int(line.split()[1]) for line in status if line.startswith('VmHWM:'))])
            time.sleep(0.001)
    return most


@contextlib.contextmanager
def server_of(wanted, folder):
    """A server of tests/server's, or none."""
    if not wanted:
        yield None
        return
    mariadb.install()
    server = mariadb.Server(folder)
    try:
        server.run('CREATE DATABASE bench')
        yield server
    finally:
        server.stop()


def processor_of(server):
    """The processor time of the server so far."""
    fields = pathlib.Path('/proc/%d/stat' % server.process.pid).read_text().rsplit(')', 1)[1].split()
    return (int(fields[11]) + int(fields[12])) / TICKS


def with_server(server, words):
    before = processor_of(server)
    took = run(words)
    return Took(took.processor + processor_of(server) - before, took.clock)


def load(server, table):
    """Makes the table in the server, with the same rows."""
    index = table.index.create if table.index else ''
    create = 'CREATE TABLE t (id int NOT NULL, %s, PRIMARY KEY (id)%s)' % (table.create, index)
    server.run('DROP TABLE IF EXISTS t; %s' % create, 'bench')
    with subprocess.Popen(server.client('--default-character-set=binary', 'bench'), stdin=subprocess.PIPE) as child:
        child.stdin.write(b'SET autocommit = 0;\n')
        for number in range(table.rows):
            child.stdin.write(table.line(number))
        child.stdin.write(b'COMMIT;\n')
        child.stdin.close()
    if child.returncode:
        sys.exit('the server refuses the rows')


def server_commands(server, table):
    load(server, table)
    socket = '--socket=%s' % (server.folder / 'socket')
    dump = ['mariadb-dump', '--no-defaults', '-uroot', socket, '--max-allowed-packet=64M', '--hex-blob']
    return {
        'mariadb-dump': lambda: with_server(server, [*dump, '--skip-extended-insert', 'bench', 't']),
        'CHECK TABLE EXTENDED': lambda: with_server(
            server, server.client('-e', 'CHECK TABLE t EXTENDED', 'bench')
        ),
    }


def words_of(given, table, folder):
    """The words of each command of each program, by what is printed of it."""
    schema, plain, file, rows, built = (
        os.path.join(folder, word) for word in ('schema', 'plain', 'file', 'rows', 'built'))
    builds = given.builds and os.path.getsize(file) <= MOST_BUILT
    if builds and not os.path.exists(rows):
        write_rows(rows, table)
    words = {}
    for program in given.programs:
        of = ' of %s' % program if len(given.programs) > 1 else ''
        compare([program, 'dump', schema, file], table)
        words |= {command + of: [program, command, schema, file] for command in ('check', 'cross', 'dump')}
        schemas = {'build': schema, 'build without the index': plain if table.index else None}
        for command, text in schemas.items():
            if builds and text:
                words[command + of] = build = [program, 'build', text, rows, built]
                subprocess.run(build, check=True, stdout=subprocess.DEVNULL)
                compare([program, 'dump', text, built], table)
    return words


def measure(given, name, table, folder, server):
    schema, plain, file, rows = (os.path.join(folder, word) for word in ('schema', 'plain', 'file', 'rows'))
    for path, index in ((schema, table.index), (plain, None)):
        with open(path, 'w') as out:
            out.write(KEYED % (table.columns, index.line if index else ''))
    if table.record:
        make(file, table)
    else:
        write_rows(rows, table)
        subprocess.run([given.programs[0], 'build', schema, rows, file], check=True, stdout=subprocess.DEVNULL)
    words = words_of(given, table, folder)
    if given.salvage:
        words['salvage'] = [given.salvage, 'rows', schema, file]
    commands = {'dd': lambda: run(['dd', 'bs=%d' % PAGE_SIZE, 'if=%s' % file, 'of=/dev/null'])}
    commands |= {command: lambda each=each: run(each) for command, each in words.items()}
    if server:
        commands |= server_commands(server, table)
    took = in_turn(commands, given.runs)
    size = os.path.getsize(file)
    print('%s: %d pages, %.0f MB' % (name, size // PAGE_SIZE, size / 1e6))
    for command, each in took.items():
        ratio = each.processor / took['dd'].processor
        memory = ', %d KiB at most' % peak(words[command]) if command in words else ''
        print('  %s: %.3f s of a processor, %.1f x dd; %.3f s%s' % (
            command, each.processor, ratio, each.clock, memory), flush=True)


def add_words(parser):
    parser.add_argument('--server', action='store_true', help="compare with a server's tools")
    parser.add_argument('--salvage', metavar='SALVAGE', help='the program that saves the rows too')
    parser.add_argument('--runs', type=int, default=5, metavar='N', help='runs of each command (5)')
    parser.add_argument('--builds', action='store_true', help='build the tables too')
    parser.add_argument('programs', metavar='PROGRAM', nargs='+', help='the programs that are measured')


def measure_all(given):
    with tempfile.TemporaryDirectory() as home, server_of(given.server, home) as server:
        for name, table in TABLES.items():
            with tempfile.TemporaryDirectory() as folder:
                measure(given, name, table, folder, server)

"""A server of its own for the tests that take one (MariaDB), what it is asked, and how its tables are made."""

import os
import pathlib
import re
import shlex
import shutil
import subprocess
import sys
import time

import loading
from scripts import TOP

from file_names import decoded

BYTES_SAID = 'schema-from-create: the lines have the bytes of .*\n'
SQL_MODE = 'STRICT_ALL_TABLES,ALLOW_INVALID_DATES,NO_AUTO_VALUE_ON_ZERO'

def install():
    # Where servers are, and where a user's path may not lead.
    os.environ['PATH'] += ':/usr/sbin'
    if all(map(shutil.which, ('mariadbd', 'mariadb', 'mariadb-install-db'))):
        return
    if os.geteuid() != 0 or not shutil.which('apt-get'):
        sys.exit('there is no mariadbd, and only root on Debian can install it here')
    environment = dict(os.environ, DEBIAN_FRONTEND='noninteractive')
    for line in ('apt-get update', 'apt-get install -y --no-install-recommends mariadb-server'):
        subprocess.run(line.split(), env=environment, stdout=subprocess.DEVNULL, check=True)


class Server:
    def __init__(self, folder):
        self.folder = pathlib.Path(folder)
        self.data = self.folder / 'data'
        self.data.mkdir()
        user = []
        if os.geteuid() == 0:
            user = ['--user=mysql']
            shutil.chown(self.folder, 'mysql')
            shutil.chown(self.data, 'mysql')
        # A server that starts removes the temporary tables of its folder, also those of another server.
        temporary = self.folder / 'temporary'
        temporary.mkdir()
        if os.geteuid() == 0:
            shutil.chown(temporary, 'mysql')
        common = ['--no-defaults', '--datadir=%s' % self.data, '--tmpdir=%s' % temporary] + user
        self.log = open(self.folder / 'log', 'w')
        subprocess.run(['mariadb-install-db', '--auth-root-authentication-method=normal', '--skip-test-db'] + common,
                       stdout=self.log, stderr=self.log, check=True)
        # `loose` is for options that another server may not know.
        self.process = subprocess.Popen(
            ['mariadbd'] + common
            + ['--socket=%s' % (self.folder / 'socket'), '--pid-file=%s' % (self.folder / 'pid'), '--skip-networking',
               '--innodb-file-per-table=1', '--loose-innodb-checksum-algorithm=crc32', '--innodb-page-size=16384',
               '--innodb-default-row-format=dynamic', '--innodb-flush-log-at-trx-commit=0', '--innodb-strict-mode=0',
               '--character-set-server=utf8mb4', '--max-allowed-packet=64M', '--sql-mode='],
            stdout=self.log, stderr=self.log)
        for _ in range(600):
            if subprocess.run(self.client('-e', 'SELECT 1'), stdout=subprocess.DEVNULL,
                              stderr=subprocess.DEVNULL).returncode == 0:
                return
            if self.process.poll() is not None:
                break
            time.sleep(0.1)
        self.stop()
        sys.exit('the server does not start:\n' + (self.folder / 'log').read_text()[-2000:])

    def client(self, *words):
        return ['mariadb', '--no-defaults', '-uroot', '--socket=%s' % (self.folder / 'socket'),
                '--max-allowed-packet=64M', *words]

    def run(self, sql, *words):
        """What the client prints of these statements."""
        if not isinstance(sql, bytes):
            sql = sql.encode()
        done = subprocess.run(self.client('--default-character-set=utf8mb4', '-N', '-B', '-r', *words), input=sql,
                              stdout=subprocess.PIPE, stderr=subprocess.PIPE)
        if done.returncode:
            raise RuntimeError(done.stderr.decode('utf-8', 'replace').strip())
        return done.stdout.decode('utf-8', 'surrogateescape')

    def load(self, dump, database):
        """Loads a dump by the commands of README.md, and returns how they ended."""
        place = self.folder / 'loading'
        place.mkdir(exist_ok=True)
        client = place / 'mysql'
        client.write_text('#!/bin/sh\nexec %s "$@"\n' % ' '.join(map(shlex.quote, self.client())))
        client.chmod(0o755)
        commands = loading.recipe().replace('t.sql', shlex.quote(str(dump))).replace(' shop ', " '%s' " % database)
        return subprocess.run(['sh', '-c', commands], cwd=str(TOP), stdout=subprocess.PIPE, stderr=subprocess.PIPE,
                              env=dict(os.environ, PATH='%s:%s' % (place, os.environ['PATH'])))

    def stop(self):
        self.process.terminate()
        try:
            self.process.wait(60)
        except subprocess.TimeoutExpired:
            self.process.kill()


def unlike_loaded(done):
    """How the commands of a load ended, if they didn't load all lines."""
    if (done.returncode, done.stdout, done.stderr) == (0, b'loaded\n', b''):
        return []
    return ['load: status %d, %s%s' % (done.returncode, done.stdout.decode(),
                                       done.stderr.decode('utf-8', 'replace')[-500:].strip())]


# --- its tables ------------------------------------------------------------------------------------------------------


def by_query(server, name, partition=None):
    # With the client's character set of its own, as an administrator would call it.
    which = "--init-command=SET @schema_name = 'made-here', @table_name = '%s', @partition_name = %s" % (
        name, 'NULL' if partition is None else "'%s'" % partition)
    words = [] if name.isascii() else ['--default-character-set=utf8mb4']
    with open(TOP / 'examples/schema.sql') as query:
        done = subprocess.run(server.client(*words, '-N', '-B', '-r', which), stdin=query, stdout=subprocess.PIPE,
                              check=True)
    return done.stdout.decode()


def by_create(create, *words):
    """The schema text, what is said besides which columns have their bytes in the lines, and the exit status."""
    done = subprocess.run([TOP / 'tools/schema-from-create', *words], input=create.encode(), stdout=subprocess.PIPE,
                          stderr=subprocess.PIPE)
    return done.stdout.decode(), re.sub(BYTES_SAID, '', done.stderr.decode()), done.returncode


def show_create(server, name):
    # The form of a terminal, of \G or of a batch; each is one that an administrator may have.
    words = [('-t',), ('-E',), ()][len(name) % 3]
    sql = 'SHOW CREATE TABLE `made-here`.`%s`' % name
    done = subprocess.run(server.client('--default-character-set=utf8mb4', *words, '-e', sql), stdout=subprocess.PIPE,
                          check=True)
    return done.stdout.decode()


def make(server, name, create, rows, then, folder, database='made-here', columns=None):
    lines = ['CREATE TABLE `%s` %s%s;' % (name, create, " DATA DIRECTORY='%s'" % folder if folder else '')]
    batch, size, target = [], 0, '`%s`%s' % (name, ' (%s)' % columns if columns else '')
    for row in rows:
        batch.append('(%s)' % ','.join(map(str, row)))
        size += len(batch[-1])
        if size > 500000:
            lines.append('INSERT INTO %s VALUES %s;' % (target, ','.join(batch)))
            batch, size = [], 0
    if batch:
        lines.append('INSERT INTO %s VALUES %s;' % (target, ','.join(batch)))
    mode = "SET sql_mode = '%s', time_zone = '+00:00';" % SQL_MODE
    server.run('\n'.join([mode] + lines + [line + ';' for line in then]), database)


def exported(server, folder, name):
    """Copies of the files of a table, by the name of the partition of each, none where there are no partitions."""
    paths = {path.name: path for path in (server.data / 'made@002dhere').iterdir()
             if path.suffix == '.ibd' and decoded(path.stem.split('#P#')[0]) == name}
    # The client takes `#` for the begin of a remark.
    server.run('FLUSH TABLES `made-here`.`%s` FOR EXPORT;\n%sUNLOCK TABLES;' % (name, ''.join(
        'system cp %s %s/\n' % (str(path).replace('#', '?'), folder) for path in paths.values())))
    return {decoded(path.partition('#P#')[2][:-len('.ibd')]) or None: folder / path for path in sorted(paths)}

"""The files of a backup: which there are, which table each belongs to, which shard has it, and which tables have none.
"""

import hashlib
import os
import re
import stat

import frm_file
import frm_layout
from backup_answers import HIDDEN, MISSING, UNREAD, Answer, why_of
from file_names import decoded, encoded
from table_description import Table

# What a server makes for a full-text index (fts0priv.ic): the ids of the table and of the index in 16 digits.
FULL_TEXT = re.compile('FTS_[0-9a-f]{16,20}_(?:[0-9a-f]{16,20}_INDEX_[1-6]'
                       '|ADDED|CONFIG|STOPWORDS|(?:BEING_)?DELETED(?:_CACHE)?)')
# What stands between the names of a table and of its partition.
PARTITION = re.compile('#p#', re.IGNORECASE)
# Engines, as a .frm has them.
INNODB, PARTITIONED = 12, 20
# What tells of a missing file.
BY_FRM, BY_TEXT = 'of the .frm beside it', 'of this table of the text'
# What the name of a table begins with that a statement left unfinished.
UNFINISHED = '#sql'


class File:
    """A file of the backup, or the one that a table should have."""

    def __init__(self, path, folder):
        self.path = path
        self.name = os.path.relpath(path, folder)
        self.folder, self.stem = os.path.dirname(path), os.path.basename(path)[:-len('.ibd')]
        table, *partition = PARTITION.split(self.stem, maxsplit=1)
        self.database, self.table = decoded(os.path.basename(os.path.abspath(self.folder))), decoded(table)
        self.table_stem, self.partition = table, decoded(partition[0]) if partition else None
        # The bytes of the file, and how many pages are used, as far as that was told.
        self.bytes = self.used = 0
        self.answer = Answer(HIDDEN, 'of a full-text index') if FULL_TEXT.fullmatch(self.stem) else None

    def table_and_partition(self):
        return decoded(self.stem)

    def whole_name(self):
        return '%s.%s' % (self.database, self.table_and_partition())

    def beside(self, ending):
        """The path of another file of its table."""
        return os.path.join(self.folder, self.table_stem + ending)

    def end(self, answer):
        self.answer = answer
        return self


class Listing:
    """What lies under a folder, through links too: the files that can be looked at, the largest first; those that have
    an answer already, as they or their folders can't be read or are hidden; and the paths of the .frm files."""

    def __init__(self, folder):
        self.folder, self.files, self.answered, self.frm_paths = folder, [], [], []
        seen = set()
        for place, folders, names in os.walk(folder, onerror=self.refuse, followlinks=True):
            try:
                status = os.stat(place)
            except OSError as error:
                self.refuse(error)
                continue
            if (status.st_dev, status.st_ino) in seen:
                folders[:] = []
                continue
            seen.add((status.st_dev, status.st_ino))
            self.frm_paths += [os.path.join(place, name) for name in names if name.endswith('.frm')]
            for name in names:
                if name.endswith('.ibd'):
                    self.add(File(os.path.join(place, name), folder))
        self.files.sort(key=lambda file: (-file.bytes, file.name))

    def refuse(self, error):
        """A folder that can't be read."""
        place = error.filename or self.folder
        file = File(os.path.join(place, '.ibd'), self.folder).end(Answer(UNREAD, why_of(error)))
        file.name = os.path.relpath(place, self.folder)
        self.answered.append(file)

    def add(self, file):
        try:
            status = os.stat(file.path)
            file.bytes = status.st_size
            if not stat.S_ISREG(status.st_mode):
                file.end(Answer(UNREAD, 'no regular file'))
        except OSError as error:
            file.end(Answer(UNREAD, why_of(error)))
        (self.answered if file.answer else self.files).append(file)


# --- tables without a file -------------------------------------------------------------------------------------------


class Missing:
    """The files that are missing, in `files`: those of the tables of .frm files, beside these, and those of the tables
    of a text. A partitioned table that has a file misses those of its other partitions."""

    def __init__(self, listing, tables):
        self.listing, self.files, self.names = listing, [], set()
        # The partitions that there are of each table, by its place and by its name.
        self.by_place, self.by_name = {}, {}
        for file in listing.files + listing.answered:
            partition = (file.partition or '').lower()
            self.by_place.setdefault((file.folder, file.table_stem), set()).add(partition)
            for database in (file.database, None):
                self.by_name.setdefault((database, file.table), set()).add(partition)
        for path in listing.frm_paths:
            file = File(path[:-len('frm')] + 'ibd', listing.folder)
            if not file.stem.startswith(UNFINISHED):
                self.look_for(file, table_of_frm(path), self.by_place.get((file.folder, file.table_stem)), BY_FRM)
        own = own_database(listing, tables)
        for table in tables:
            if own is None or table.database in (None, own):
                self.look_for(self.file_of(table, own), table, self.by_name.get((table.database, table.name)), BY_TEXT)

    def file_of(self, table, own):
        """The file that a table of the text should have."""
        database = table.database or own or ''
        folder = self.listing.folder if own else os.path.join(self.listing.folder, encoded(database))
        file = File(os.path.join(folder, encoded(table.name) + '.ibd'), self.listing.folder)
        file.database, file.table = database, table.name
        return file

    def look_for(self, file, table, there, told_by):
        """Adds the file of a table of which no file is there, or those of the partitions that aren't."""
        if table is None or not table.has_own_file:
            return
        if not there:
            self.add(file, told_by)
        for names in table.partitions if there else ():
            if '#sp#'.join(names).lower() not in there:
                end = '#P#%s.ibd' % '#SP#'.join(map(encoded, names))
                partition = File(file.beside(end), self.listing.folder)
                partition.database, partition.table = file.database, file.table
                self.add(partition, told_by)

    def add(self, file, told_by):
        name = file.database, file.table, file.partition
        if name not in self.names:
            self.names.add(name)
            self.files.append(file.end(Answer(MISSING, why_missing(file, told_by))))


def table_of_frm(path):
    """The table of a .frm, or nothing; if all but its head is broken one that has nothing but its engine."""
    try:
        return frm_file.read(path)
    except OSError:
        return None
    except frm_layout.FrmError:
        with open(path, 'rb') as handle:
            head = handle.read(frm_layout.HEAD_SIZE)
    if len(head) < frm_layout.HEAD_SIZE or not head.startswith(frm_layout.MAGIC):
        return None
    engine = head[frm_layout.ENGINE]
    table = Table()
    table.has_own_file = (head[frm_layout.PARTITION_ENGINE] if engine == PARTITIONED else engine) == INNODB
    return table


def why_missing(file, told_by):
    """With what a .isl beside it says, which names the file of a table with a DATA DIRECTORY."""
    try:
        with open(file.path[:-len('ibd')] + 'isl', 'rb') as handle:
            return 'no file here; %s says %s' % (os.path.basename(handle.name), os.fsdecode(handle.read(4096)).strip())
    except OSError:
        return 'no file %s' % told_by


def own_database(listing, tables):
    """The database of the folder's name, if all files lie in the folder itself and the text has tables of it: then the
    tables of other databases aren't missed. Else nothing."""
    own = decoded(os.path.basename(os.path.abspath(listing.folder)))
    paths = [file.path for file in listing.files + listing.answered] + listing.frm_paths
    is_own = all(os.path.dirname(path) == listing.folder.rstrip('/') for path in paths)
    return own if is_own and any(table.database == own for table in tables) else None


# --- shards ----------------------------------------------------------------------------------------------------------


def shard_of(name, count):
    """Which of so many shards, from 1 on, a file of this name is in."""
    digest = hashlib.sha256(name.encode('utf-8', 'surrogateescape')).digest()
    return int.from_bytes(digest[:8], 'big') % count + 1

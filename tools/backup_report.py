"""What check-backup shows: how far it is, a table at the end, and the same for machines, of one run or of several
shards."""

import collections
import json
import re
import shutil
import sys
import time

from backup_answers import (
    ANSWERS, GOOD, HIDDEN, KEPT, LEFT, MISSING, NOT_ALL_GOOD, SOUND, pattern_of, status_of, why_of)
from backup_files import shard_of
from index_roots import counted

# How many reasons that several files share are shown, and of how many files at least each.
MOST_REASONS, LEAST_SHARED = 12, 3
# From this size on it is shown how far the work on a file is.
LARGE = 16 << 20


def say(text):
    """A line on the standard error."""
    try:
        sys.stderr.buffer.write(text.encode('utf-8', 'surrogateescape'))
        sys.stderr.flush()
    except (OSError, AttributeError):
        # Nobody listens; the table at the end is what counts.
        pass


def printed(text):
    """On one line; a name's bytes that are no UTF-8 stay what they are."""
    return ''.join(sign if sign.isprintable() or '\udc80' <= sign <= '\udcff' else '\\x%02x' % ord(sign)
                   for sign in text)


def size_text(count):
    for unit in ('bytes', 'KiB', 'MiB', 'GiB'):
        if count < 10240:
            return '%d %s' % (count, unit)
        count //= 1024
    return '%d TiB' % count


class Progress:
    """How far the work is: on a terminal one line that changes, elsewhere a line for each file that is done, and if
    asked for one every so many seconds."""

    def __init__(self, count, total, seconds):
        self.count, self.total, self.files, self.bytes = count, total, 0, 0
        self.is_terminal = sys.stderr.isatty()
        self.seconds = 0.1 if self.is_terminal else seconds
        self.shown = 0 if self.is_terminal else time.monotonic()

    def add(self, file):
        self.files, self.bytes = self.files + 1, self.bytes + file.bytes
        if not self.is_terminal:
            say('%d of %d: %s: %s%s\n' % (self.files, self.count, printed(file.name), file.answer.answer,
                                         printed(', %s' % file.answer.why if file.answer.why else '')))

    def show(self, jobs):
        """`jobs` are the files that are at work, and what is done with each."""
        if self.seconds is None or time.monotonic() - self.shown < self.seconds:
            return
        self.shown = time.monotonic()
        names, read = [], self.bytes
        for file, job in jobs:
            part = job and file.bytes >= LARGE and job.part_read()
            read += int(file.bytes * (part or 0))
            names.append(printed(file.whole_name()) + (' %s %d %%' % (job.command, part * 100) if part else ''))
        line = '%d of %d files, %s of %s; now %s' % (self.files, self.count, size_text(read), size_text(self.total),
                                                    ', '.join(names))
        say('\r\x1b[K' + line[:shutil.get_terminal_size().columns - 1] if self.is_terminal else line + '\n')

    def end(self):
        if self.is_terminal:
            say('\r\x1b[K')


# --- one result ------------------------------------------------------------------------------------------------------


def entry_of(file):
    """What --json says of a file."""
    answer = file.answer
    entry = {'file': file.name, 'database': file.database, 'table': file.table, 'bytes': file.bytes}
    if file.partition is not None:
        entry['partition'] = file.partition
    return dict(entry, answer=answer.answer, why=answer.why, **answer.more)


class Result:
    """What was found of a backup: an entry for each file, as entry_of makes them; which shard of how many it is; the
    names of the files of the other shards; what was asked for; and whether it is whole."""

    def __init__(self, entries, shard=(1, 1), others=(), asked=None, is_whole=True):
        self.entries = sorted(entries, key=lambda entry: entry['file'])
        self.shard, self.others, self.asked, self.is_whole = shard, sorted(others), asked or {}, is_whole

    def counts(self):
        counts = collections.Counter(entry['answer'] for entry in self.entries)
        return {answer: counts[answer] for answer in ANSWERS}

    def status(self):
        """The exit status."""
        return status_of([entry['answer'] for entry in self.entries]) if self.is_whole else NOT_ALL_GOOD

    def json_text(self):
        described = {'shard': '%d/%d' % self.shard, 'asked': self.asked, 'whole': self.is_whole,
                     'files': self.entries, 'counts': self.counts()}
        if self.others:
            described['others'] = self.others
        return json.dumps(described, indent=1) + '\n'

    def table_text(self):
        """A line for each file that isn't sound, reasons that many of them share, and how many there are of each
        answer."""
        rest = [entry for entry in self.entries if entry['answer'] not in (SOUND, HIDDEN)]
        width = max([len(printed(entry['file'])) for entry in rest] or [0])
        lines = ['%-15s %-*s %s' % (entry['answer'], width, printed(entry['file']), printed(entry['why']))
                 for answer in ANSWERS for entry in rest if entry['answer'] == answer]
        return ''.join(line.rstrip() + '\n' for line in lines + self.misread_lines() + self.hidden_lines()
                       + self.shared_lines(rest) + [self.last_line()])

    def misread_lines(self):
        """A line for each file whose lines were asked for, and of which a plain load would make other values."""
        if not self.asked.get('dump'):
            return []
        return ['%-15s %s: load %s by tools/values-from-bytes' % ('bytes', printed(entry['file']),
                                                                  printed(', '.join(entry['misread'])))
                for entry in self.entries if entry.get('misread') and entry['answer'] in KEPT]

    def hidden_lines(self):
        count = self.counts()[HIDDEN]
        return ['%-15s %s FTS_*.ibd of full-text indexes, which a server makes anew' % (
            HIDDEN, counted(count, 'file'))] if count else []

    def shared_lines(self, rest):
        """The reasons that several files have, but for the names in them."""
        shared = collections.Counter()
        for entry in rest:
            if entry['answer'] not in GOOD + (MISSING, LEFT):
                shared.update({(entry['answer'], pattern_of(reason)) for reason in entry.get('reasons', [entry['why']])
                               if reason})
        most = sorted(shared.items(), key=lambda pair: (-pair[1], pair[0]))[:MOST_REASONS]
        return ['%d files %s: %s' % (count, answer, printed(reason)) for (answer, reason), count in most
                if count >= LEAST_SHARED]

    def last_line(self):
        counts = self.counts()
        missing = counts.pop(MISSING)
        found = ', '.join('%d %s' % (count, answer) for answer, count in counts.items() if count)
        return '%s: %s%s' % (counted(sum(counts.values()), 'file'), found or 'none',
                             '; %s missing' % counted(missing, 'table is', 'tables are') if missing else '')


# --- several shards --------------------------------------------------------------------------------------------------


class Unreadable(Exception):
    """Why a result can't be taken from a file."""


def result_of(path):
    """The result that --json wrote into a file."""
    try:
        with open(path, 'rb') as handle:
            told = json.loads(handle.read())
        shard = tuple(map(int, re.fullmatch('([0-9]+)/([0-9]+)', told['shard']).groups()))
        for entry in told['files']:
            if entry['answer'] not in ANSWERS or not isinstance(entry['file'] + entry['why'], str):
                raise ValueError
        return Result(told['files'], shard, told.get('others', []), told['asked'], told['whole'] is True)
    except OSError as error:
        raise Unreadable(why_of(error))
    except (ValueError, KeyError, TypeError, AttributeError, UnicodeDecodeError):
        raise Unreadable('it is no whole result of check-backup --json')


def merged(paths):
    """The result of the shards in these files. What one of them knows of and none has is left; of a file that stands
    in several the last one that isn't `left` counts. A file without a result counts for nothing, so that the shard may
    have been run again into another one."""
    results, wrong = [], []
    for path in paths:
        try:
            results.append(result_of(path))
        except Unreadable as why:
            say('check-backup: %s: %s\n' % (path, why))
    count = results[0].shard[1] if results else 0
    if any(result.shard[1] != count for result in results):
        wrong.append('the results are not of one number of shards: %s' % ' '.join(
            sorted({'%d/%d' % result.shard for result in results})))
    if any(result.asked != results[0].asked for result in results):
        wrong.append('the shards were asked for different things')
    shards = {result.shard[0] for result in results}
    wrong += ['shard %d of %d has no result' % (shard, count) for shard in range(1, count + 1) if shard not in shards]
    for why in wrong:
        say('check-backup: %s\n' % why)
    return Result(joined(results, shards, count), asked=results[0].asked if results else None,
                  is_whole=bool(results) and not wrong)


def joined(results, shards, count):
    """The entries of several results, and one for each file that none has, though one knows of it."""
    entries, names = {}, set()
    for result in results:
        names.update(result.others)
        for entry in result.entries:
            if entry['file'] not in entries or entry['answer'] != LEFT:
                entries[entry['file']] = entry
    for name in sorted(names - set(entries)):
        shard = shard_of(name, count)
        entries[name] = {'file': name, 'answer': LEFT, 'why': 'shard %d of %d %s' % (
            shard, count, "doesn't have it" if shard in shards else 'has no result')}
    return entries.values()

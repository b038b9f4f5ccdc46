"""Runs the programs on the files of a backup, some at once, and keeps what they write."""

import os
import queue
import re
import signal
import subprocess
import tempfile
import threading

from backup_answers import FAILED, KEPT, LEFT, SOUND, UNREAD, UNWRITTEN, Answer, why_of
from backup_programs import CHECK, CROSS, DUMP, LINES, READS, answer_of
from backup_salvage import SALVAGEABLE, Salvage
from backup_texts import Source, tablespace_of
from innodb_layout import PAGE_SIZE


# --- what is written -------------------------------------------------------------------------------------------------


class Target:
    """Where lines are written: under another name until they are whole."""

    def __init__(self, path):
        self.path = path
        try:
            os.makedirs(os.path.dirname(path), exist_ok=True)
            if os.path.lexists(path):
                raise Answer(UNWRITTEN, '%s is there already' % path)
            handle, self.part = tempfile.mkstemp('.part', '.', os.path.dirname(path))
        except OSError as error:
            raise Answer(UNWRITTEN, '%s: %s' % (path, why_of(error)))
        self.output = os.fdopen(handle, 'wb')

    def empty(self):
        """For another try."""
        self.output.seek(0)
        self.output.truncate()

    def keep(self):
        try:
            self.output.flush()
            os.fsync(self.output.fileno())
            os.fchmod(self.output.fileno(), 0o666 & ~MASK)
            os.rename(self.part, self.path)
        except OSError as error:
            raise Answer(UNWRITTEN, '%s: %s' % (self.path, why_of(error)))

    def close(self):
        try:
            self.output.close()
        except OSError:
            # What couldn't be written was said.
            pass
        try:
            os.unlink(self.part)
        except FileNotFoundError:
            pass


def mask():
    """The bits that new files don't get; only before there are threads."""
    old = os.umask(0o22)
    os.umask(old)
    return old


MASK = mask()


def component(name, raw):
    """A name as a part of a path; as it is in the backup where it can't be one."""
    return raw if name in ('', '.', '..') or '/' in name or len(os.fsencode(name)) > 200 else name


def target_path(folder, file, ending=LINES):
    database = os.path.basename(os.path.abspath(file.folder))
    return os.path.join(folder, component(file.database, database) or 'root',
                        component(file.table_and_partition(), file.stem) + ending)


class Targets:
    """What is written of one file; nothing if no folder is given. `is_twin` says that another file has its name."""

    def __init__(self, folder, file):
        self.folder, self.file, self.all = folder, file, []

    def __enter__(self):
        return self

    def __exit__(self, *_):
        for target in self.all:
            target.close()

    def open(self, ending):
        """The target of this ending, emptied if there is one already; nothing without a folder."""
        if self.folder is None:
            return None
        path = target_path(self.folder, self.file, ending)
        for target in self.all:
            if target.path == path:
                target.empty()
                return target
        self.all.append(Target(path))
        return self.all[-1]

    def drop(self, ending):
        """Doesn't keep the target of this ending."""
        for target in [target for target in self.all if target.path.endswith(ending)]:
            self.all.remove(target)
            target.close()

    def keep(self):
        """All of them, the lines last."""
        for target in sorted(self.all, key=lambda target: target.path.endswith(LINES)):
            target.keep()


# --- the work --------------------------------------------------------------------------------------------------------


class Job:
    """What is done with a file now: the command, its process, and how many bytes it will read, about."""

    def __init__(self, command, child, bytes_to_read):
        self.command, self.child, self.bytes_to_read = command, child, bytes_to_read

    def part_read(self):
        """How much of that was read, from 0 to below 1; nothing where the system doesn't tell."""
        try:
            with open('/proc/%d/io' % self.child.pid) as handle:
                read = int(re.search('^rchar: ([0-9]+)', handle.read()).group(1))
        except (OSError, AttributeError):
            return None
        return min(read / max(self.bytes_to_read, 1), 0.99)


class Run:
    """All files, taken one after another by some threads. `others` are files of other shards, whose dumps may have
    the same names."""

    def __init__(self, programs, options, texts, files, others=()):
        self.programs, self.options, self.texts = programs, options, texts
        self.todo, self.done, self.lock = list(reversed(files)), queue.Queue(), threading.Lock()
        self.running, self.is_stopped = {}, False
        self.taken = {}
        if options.dump is not None:
            for file in [*files, *others]:
                self.taken.setdefault(target_path(options.dump, file), []).append(file)

    def work(self):
        while True:
            with self.lock:
                if self.is_stopped or not self.todo:
                    return
                file = self.todo.pop()
                self.running[file] = None
            try:
                answer = self.answer(file)
            except Answer as why:
                answer = why
            except OSError as error:
                answer = Answer(UNREAD, why_of(error))
            except Exception as error:
                answer = Answer(FAILED, '%s: %s' % (type(error).__name__, error))
            with self.lock:
                del self.running[file]
            self.done.put(file.end(answer))

    def answer(self, file):
        with open(file.path, 'rb') as handle, Targets(self.options.dump, file) as targets:
            before = os.fstat(handle.fileno())
            answer = unchanged(before, handle, self.answer_by_program(file, handle, targets))
            if answer.answer in KEPT:
                targets.keep()
            return answer

    def answer_by_program(self, file, handle, targets):
        tablespace = tablespace_of(file, handle, self.options.salvage)
        source = Source(file, self.texts, self.options.bytes)
        self.check_name(file)
        try:
            schema = source.schema(tablespace)
            answer = self.served(file, handle, schema, targets).with_more(**schema.described(file))
        except Answer as why:
            answer = why
        if self.options.salvage and answer.answer in SALVAGEABLE:
            answer = Salvage(self, file, handle, targets).answer(source, answer)
        return answer.with_more(schema_from=source.kind)

    def check_name(self, file):
        twins = self.taken.get(target_path(self.options.dump, file), []) if self.options.dump is not None else []
        if len(twins) > 1:
            raise Answer(UNWRITTEN, 'several files of this name: %s' % ' '.join(other.name for other in twins))

    def served(self, file, handle, schema, targets):
        """What `check`, `cross` and `dump` say, as far as they are asked for. `cross` makes the checks of `check`."""
        crosses = self.options.cross and schema.has_other_indexes()
        crossed = None
        if crosses:
            crossed = self.call(file, CROSS, handle, schema)
            if self.options.dump is None or crossed.answer not in KEPT:
                return crossed
        elif self.options.dump is None:
            return self.call(file, CHECK, handle, schema)
        dumped = self.call(file, DUMP, handle, schema, targets.open(LINES).output)
        return crossed if crossed and dumped.answer == SOUND else dumped

    def call(self, file, command, handle, schema, output=subprocess.PIPE):
        child = self.start(file, self.programs.ibd, command, [], handle, output)
        said, error = child.communicate(schema.text)
        self.check_stopped(child)
        return answer_of(child.returncode, said or b'', error, schema)

    def start(self, file, program, command, words, handle, output):
        """Starts a program on the open file, whatever its name is, with the schema text in a pipe. It is in a session
        of its own: what interrupts this program doesn't reach it."""
        number = handle.fileno()
        with self.lock:
            if self.is_stopped:
                raise Answer(LEFT)
            child = subprocess.Popen(program + [command, '/dev/stdin', '/proc/self/fd/%d' % number, *words],
                                     stdin=subprocess.PIPE, stdout=output, stderr=subprocess.PIPE, pass_fds=[number],
                                     start_new_session=True)
            self.running[file] = Job(command, child, READS[command] * file.used * PAGE_SIZE)
        return child

    def check_stopped(self, child):
        if self.is_stopped and child.returncode < 0:
            raise Answer(LEFT)

    def jobs(self):
        """The files that are at work now, and what is done with each."""
        with self.lock:
            return sorted(self.running.items(), key=lambda pair: pair[0].whole_name())

    def stop(self):
        with self.lock:
            self.is_stopped = True
            for job in self.running.values():
                if job is not None and job.child.poll() is None:
                    try:
                        os.killpg(job.child.pid, signal.SIGKILL)
                    except ProcessLookupError:
                        # It has ended meanwhile.
                        pass


def unchanged(before, handle, answer):
    """The answer, unless the file changed."""
    after = os.fstat(handle.fileno())
    if (before.st_size, before.st_mtime_ns) != (after.st_size, after.st_mtime_ns):
        return Answer(UNREAD, 'it changed while it was read')
    return answer

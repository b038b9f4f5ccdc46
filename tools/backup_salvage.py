"""Takes the rows out of a file that isn't sound or isn't served, by the program ibd-salvage, and says how many of them
came out whole."""

import os
import re
import subprocess

from backup_answers import (BROKEN, FAILED, NO_TEXT, NOTHING, SAVED, UNREAD, UNSERVED, UNWRITTEN, WHOLE, Answer,
                            why_of)
from backup_programs import BROKEN_RULE, DONE, LINES, LOSSES, LOST, REFUSED, ROOT_LOST, ROWS, failure_of
from index_roots import Page, counted, shapes_of
from leaf_pages import DamagedFile, PathLost

# What `check` and `dump` have to say for a file to be tried.
SALVAGEABLE = (BROKEN, UNSERVED, NO_TEXT, UNREAD)
# What ibd-salvage says last if rows came out, and what it says of a page.
NUMBERS = re.compile('rows=([0-9]+) partial=([0-9]+) leaves=([0-9]+) lost=([0-9]+)')
LOST_PAGE = re.compile('page ([0-9]+) (?:unread|broken .*)')
# The rules of `check` that are those of the pages of a tree and of their order.
TREE_RULES = range(29, 46)
# What is read of a line at once, which is more than the program writes; and how many numbers of lost pages are kept.
LONGEST_LINE, MOST_LOST = 4096, 100000


class Losses:
    """The lines of ibd-salvage on what it couldn't give: counted, and written to a file if one is given."""

    def __init__(self, output):
        self.output, self.failed = output, None
        self.pages, self.values, self.first, self.last = set(), 0, '', ''

    def take(self, line):
        self.write(line)
        self.last = line.decode('utf-8', 'replace').strip()
        found = LOST_PAGE.fullmatch(self.last)
        if found and len(self.pages) < MOST_LOST:
            self.pages.add(int(found[1]))
        if not NUMBERS.fullmatch(self.last):
            self.values += not found
            self.first = self.first or self.last

    def write(self, line):
        try:
            if self.output is not None and self.failed is None:
                self.output.write(line)
        except OSError as error:
            self.failed = error

    def numbers(self):
        """What the last line says, and how many values were lost; nothing if it is another line."""
        found = NUMBERS.fullmatch(self.last)
        return found and dict(zip(('rows', 'partial', 'leaves', 'lost', 'values'),
                                  [*map(int, found.groups()), self.values]))


class Salvage:
    """One file. `run` starts the program, and `targets` take the lines and the losses."""

    def __init__(self, run, file, handle, targets):
        self.run, self.file, self.handle, self.targets = run, file, handle, targets
        self.damaged = DamagedFile(handle, os.path.basename(file.path))
        self.schema = self.index_id = None

    def answer(self, source, first):
        """What came out, of a file for which `check` or `dump` said another answer first."""
        try:
            self.schema = source.rows_schema(self.damaged)
            if source.text is None and not self.has_root():
                self.find_rows()
            status, losses = self.take_rows()
            if status == ROOT_LOST:
                self.index_id = self.damaged.index_of_rows(self.shape())
                if self.index_id is None:
                    raise Answer(NOTHING, 'the root is lost, and the file leaves open which index has the rows')
                status, losses = self.take_rows()
            return self.said(status, losses, first)
        except Answer as why:
            if why.answer not in (NOTHING, UNSERVED):
                raise
            return Answer(NOTHING, '%s; %s: %s' % (why.why, first.answer, first.why), first=first.answer, **first.more)

    def shape(self):
        """The fields of the rows; the program has taken the schema text, or it was made here."""
        return shapes_of(self.schema.text.decode('utf-8', 'surrogateescape'))[0]

    def has_root(self):
        """Whether the first leaf below the root has the fields of the rows. If it hasn't that page may be broken, the
        root lost, so that another index has the first root, or the text of another time."""
        root, shape = self.schema.root(), self.shape()
        try:
            leaf = next(self.damaged.named_leaves(root, shape))
        except PathLost:
            return False
        is_leaf = self.damaged.beside_leaf(leaf, self.damaged.index_id(root)) is not None
        return is_leaf and Page(self.damaged.page(leaf)).fits(shape)

    def find_rows(self):
        """Takes the index id from the leaves."""
        found = self.damaged.index_of_rows(self.shape())
        if found is None:
            raise Answer(NOTHING, 'no leaf has rows as long as the columns of the text')
        if found != self.damaged.index_id(self.schema.root()):
            self.index_id = found

    def take_rows(self):
        """Runs the program; the exit status, and what it said."""
        lines, losses = self.targets.open(LINES), self.targets.open(LOSSES)
        losses = Losses(losses and losses.output)
        words = [] if self.index_id is None else [str(self.index_id)]
        child = self.run.start(self.file, self.run.programs.salvage, ROWS, words, self.handle,
                               lines.output if lines else subprocess.DEVNULL)
        with child:
            try:
                child.stdin.write(self.schema.text)
                child.stdin.close()
            except BrokenPipeError:
                # It has refused the text before its end.
                pass
            for line in iter(lambda: child.stderr.readline(LONGEST_LINE), b''):
                losses.take(line)
        self.run.check_stopped(child)
        return child.returncode, losses

    def said(self, status, losses, first):
        """What the program's end says."""
        numbers = losses.numbers()
        if losses.failed:
            return Answer(UNWRITTEN, why_of(losses.failed))
        if status in (DONE, LOST) and numbers:
            return self.rows_answer(status, losses, numbers, first)
        if status == REFUSED:
            raise Answer(NOTHING, losses.last)
        if status == ROOT_LOST:
            raise Answer(NOTHING, 'no page tells the index id')
        if status == BROKEN_RULE:
            # Of a part of a value that was whole before.
            return Answer(UNREAD, 'it changed while it was read')
        if status in (DONE, LOST):
            return Answer(FAILED, 'ibd-salvage said %r last' % losses.last)
        return failure_of(status, losses.last)

    def rows_answer(self, status, losses, numbers, first):
        lost, because = lost_text(losses, numbers), '%s: %s' % (first.answer, first.why)
        if status == LOST and not numbers['rows'] + numbers['partial']:
            raise Answer(NOTHING, lost or 'no leaf is left')
        doubt = self.doubt(losses, numbers, first)
        if doubt:
            losses.write(('# %s\n' % doubt).encode())
        elif status == DONE:
            self.targets.drop(LOSSES)
        is_whole = not doubt and not numbers['partial']
        if lost and is_whole:
            lost += ' without rows'
        why = [counted(numbers['rows'] + numbers['partial'], 'row'), lost, doubt,
               'other indexes not looked at' if is_whole else '', because]
        more = {**first.more, **self.schema.described(self.file)}
        return Answer(WHOLE if is_whole else SAVED, '; '.join(filter(None, why)), **dict(
            more, first=first.answer, doubt=doubt, salvage=dict(numbers, status=status, index_id=self.index_id)))

    def doubt(self, losses, numbers, first):
        """Why rows may be missing or wrong though the program says nothing of them, as those of a page of zeros, which
        it takes for one that was never used, or of a page that was divided while it was copied: the leaves that it
        gave have to be those that the tree names, each with its neighbours, and no page of the tree may be one that
        `check` names, as for keys that don't rise. Nothing if that is so."""
        if self.index_id is not None:
            return 'the root is lost, so leaves may be missing'
        try:
            named, missing, unlinked = self.damaged.check_leaves(self.schema.root(), self.shape(), losses.pages)
        except PathLost:
            return 'a page above the leaves is lost, so leaves may be missing'
        if numbers['lost'] > MOST_LOST:
            return 'so many pages are lost that leaves may be among them'
        if missing:
            return '%d of %s missing' % (missing, counted(named, 'leaf', 'leaves'))
        if named != numbers['leaves']:
            return 'the tree names %d of %s' % (named, counted(numbers['leaves'], 'leaf', 'leaves'))
        if unlinked:
            return '%s between leaves not those of the tree' % counted(unlinked, 'link')
        page = first.more.get('page') if first.more.get('rule') in TREE_RULES else None
        is_of_rows = page is not None and self.damaged.index_id(page) == self.damaged.index_id(self.schema.root())
        return 'page %d is one of the rows' % page if is_of_rows else ''


def lost_text(losses, numbers):
    """What was lost, and the first line that says so; nothing if nothing was."""
    what = [counted(count, word) for count, word in ((numbers['lost'], 'page'), (numbers['values'], 'value')) if count]
    return '%s lost (%s)' % (' and '.join(what), losses.first) if what else ''

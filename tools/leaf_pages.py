"""What the pages of a damaged tablespace file tell of its rows: which leaves the tree names, and which index id the
rows have. Nothing is checked here, as in tablespace_file.py.
"""

import os
import struct

from index_roots import Page
from innodb_layout import (
    DESCRIBED_PAGES, FIL_NULL, INDEX, LEAF_SEGMENT, PAGE_SIZE, RECORDS, is_used_in, level_and_id, siblings_of, type_of)
from tablespace_file import TablespaceFile

# So much of a page tells its index and its level.
HEAD = LEAF_SEGMENT
# How many leaves of an index are held against the fields of the rows.
SAMPLE = 16


class PathLost(Exception):
    """A page above the leaves isn't one of the tree."""


class DamagedFile(TablespaceFile):
    """A file whose pages are zeros if they can't be read."""

    def __init__(self, handle, name):
        self.descriptors = None, b''
        super().__init__(handle, name)

    def page(self, number):
        try:
            return super().page(number)
        except OSError:
            return bytes(PAGE_SIZE)

    def head_of(self, number):
        """The front of a page; zeros too if it can't be read."""
        try:
            return os.pread(self.handle.fileno(), HEAD, number * PAGE_SIZE).ljust(HEAD, b'\0')
        except OSError:
            return bytes(HEAD)

    def is_used(self, number):
        """As in all files; the descriptors that were asked last are kept."""
        first = number // DESCRIBED_PAGES * DESCRIBED_PAGES
        if self.descriptors[0] != first:
            self.descriptors = first, self.page(first)
        return is_used_in(self.descriptors[1], number)

    def index_id(self, number):
        """The index id that a page has; nothing if it is no page of an index."""
        head = self.head_of(number)
        return level_and_id(head)[1] if type_of(head) == INDEX else None

    def named_leaves(self, root, shape):
        """The numbers of the leaves that the tree below a root names, from the first one on. Raises PathLost."""
        index_id = self.index_id(root)
        if index_id is None:
            raise PathLost
        level = level_and_id(self.head_of(root))[0]
        number = root
        for below in range(level, 1, -1):
            number = next(self.children(number, below, index_id, shape), FIL_NULL)
        seen = 0
        while level and number != FIL_NULL:
            seen += 1
            if seen > self.bytes // PAGE_SIZE:
                raise PathLost
            yield from self.children(number, 1, index_id, shape)
            number = siblings_of(self.head_of(number))[1]
        if not level:
            yield root

    def children(self, number, level, index_id, shape):
        """The pages that a page of this level above the leaves leads to. Raises PathLost."""
        data = self.page(number)
        if not is_page_of(data, level, index_id):
            raise PathLost
        page = Page(data)
        origins = page.origins()
        if not origins or len(origins) != page.number(RECORDS):
            raise PathLost
        for origin in origins:
            values = page.values(origin, shape)
            if not values:
                raise PathLost
            yield struct.unpack('>I', values[-1])[0]

    def beside_leaf(self, number, index_id):
        """The pages before and after a page, if it is a used leaf of this index; else nothing."""
        head = self.head_of(number)
        is_leaf = number < self.bytes // PAGE_SIZE and is_page_of(head, 0, index_id) and self.is_used(number)
        return siblings_of(head) if is_leaf else None

    def check_leaves(self, root, shape, lost):
        """How many leaves the tree below a root names; how many of them are lost pages, or no leaves; and how many of
        the others have another page before or after them than the tree. Raises PathLost."""
        index_id, named, missing, unlinked = self.index_id(root), 0, 0, 0
        before, next_of_before = FIL_NULL, None
        for number in self.named_leaves(root, shape):
            named += 1
            beside = None if number in lost else self.beside_leaf(number, index_id)
            missing += beside is None
            unlinked += beside is not None and beside[0] != before or next_of_before not in (None, number)
            before, next_of_before = number, beside and beside[1]
        return named, missing, unlinked + (next_of_before not in (None, FIL_NULL))

    def index_of_rows(self, shape):
        """The index id of the rows: the lowest one in the file, as the index of the rows is made first, if of some of
        its leaves most have exactly the fields of the rows; else nothing."""
        leaves = {}
        for number in self.used_pages():
            head = self.head_of(number)
            if type_of(head) == INDEX:
                level, index_id = level_and_id(head)
                sample = leaves.setdefault(index_id, [])
                if level == 0 and len(sample) < SAMPLE:
                    sample.append(number)
        if not leaves:
            return None
        lowest = min(leaves)
        fitting = sum(Page(self.page(number)).fits(shape) for number in leaves[lowest])
        return lowest if fitting * 2 > len(leaves[lowest]) else None


def is_page_of(page, level, index_id):
    return type_of(page) == INDEX and level_and_id(page) == (level, index_id)

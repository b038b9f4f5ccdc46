"""What a tablespace file tells of itself: the format of its rows, what it is where it isn't served, its root pages.

Nothing is checked here but what is needed to find these, and nothing of it is proved: `ibd check` says whether the file
is sound.
"""

import collections
import os
import re
import struct

from innodb_layout import (
    ADDRESS_SIZE, DATA_DIRECTORY, DESCRIBED_PAGES, ENCRYPTED, EXTENT_PAGES, FIL_NULL, FLAGS, FORMATS, FSP_HDR,
    FULL_CRC32, HAS_DICTIONARY, HEAP_COUNT, INDEX, INODE, INODES_FREE, INODES_FULL, INODE_LIST_NODE, KEY_VERSION,
    LEAF_SEGMENT, LEAST_PAGES, NEW_FORMAT, OTHER_PAGES, PAGE_COMPRESSION, PAGE_SIZE, PAGE_SIZE_MASK, PAGE_SIZE_SHIFT,
    RECORDS, SHARED, SIZE, SPACE_ID, SPATIAL, TEMPORARY, TOP_SEGMENT, ZIP_SIZE, is_used_in, level_and_id, number_at,
    siblings_of, type_of, used_count_in, used_inodes)

Root = collections.namedtuple('Root', 'page index_id level records')


class NotTold(Exception):
    """Why a file doesn't tell what it is asked for."""


class LeftOut(NotTold):
    """It is of a form that isn't served."""


class TablespaceFile:
    def __init__(self, handle, name):
        """Of a file that is open for reading; the name is that in its folder."""
        self.handle, self.name = handle, name
        self.bytes = os.fstat(handle.fileno()).st_size
        self.head = self.page(0)

    def page(self, number):
        """The bytes of a page; zeros where the file has no more."""
        return os.pread(self.handle.fileno(), PAGE_SIZE, number * PAGE_SIZE).ljust(PAGE_SIZE, b'\0')

    def number(self, place):
        return number_at(self.head, place, 4)

    def row_format(self, is_partition=False, is_for_rows=False):
        """`dynamic` or `compact`. Raises LeftOut where the file is of a form that isn't served, and NotTold where it is
        no tablespace of a table. It may be that of a partition, and have spatial indexes where the rows alone are
        wanted, where this is said."""
        if partitioned_table(self.name) is not None and not is_partition:
            raise LeftOut('a partition of a table')
        if self.bytes == 0:
            raise NotTold('it has no byte')
        flags = self.number(FLAGS)
        why = self.other_form(flags)
        if why:
            raise LeftOut(why)
        if self.bytes < LEAST_PAGES * PAGE_SIZE:
            raise NotTold('it has %d bytes, and a tablespace has four pages of %d bytes or more' % (self.bytes,
                                                                                             PAGE_SIZE))
        if type_of(self.head) != FSP_HDR:
            raise NotTold('page 0 has the type %d, and the head of a tablespace has %d' % (type_of(self.head),
                                                                                         FSP_HDR))
        if flags & ~DATA_DIRECTORY not in FORMATS:
            raise NotTold('flags %d, which no served format has' % flags)
        row_format = FORMATS[flags & ~DATA_DIRECTORY]
        why = self.other_pages(row_format, is_for_rows)
        if why:
            raise LeftOut(why)
        return row_format

    def other_form(self, flags):
        """What isn't served by the flags of page 0, or nothing."""
        if type_of(self.head) != FSP_HDR:
            return None
        if flags & FULL_CRC32:
            return "a file of MariaDB's innodb_checksum_algorithm=full_crc32"
        if flags & ZIP_SIZE:
            return 'ROW_FORMAT=COMPRESSED, with pages of %d bytes' % (512 << ((flags & ZIP_SIZE) >> 1))
        if flags >> PAGE_SIZE_SHIFT & PAGE_SIZE_MASK:
            return 'pages of %d bytes (innodb_page_size)' % (512 << (flags >> PAGE_SIZE_SHIFT & PAGE_SIZE_MASK))
        for bit, why in ((ENCRYPTED, 'encrypted'), (HAS_DICTIONARY, 'a file of MySQL 8.0'),
                         (SHARED, 'a general tablespace'), (TEMPORARY, 'a temporary table'),
                         (PAGE_COMPRESSION, "MariaDB's page compression")):
            if flags & bit:
                return why
        return None

    def other_pages(self, row_format, is_for_rows=False):
        """What isn't served by the used ones of the first pages, or nothing."""
        pages = {number: self.page(number) for number in range(1, min(self.size(), EXTENT_PAGES))
                 if self.is_used(number)}
        for number, page in pages.items():
            if type_of(page) in OTHER_PAGES and not (is_for_rows and type_of(page) == SPATIAL):
                return '%s (page %d)' % (OTHER_PAGES[type_of(page)], number)
        indexes = [page for page in pages.values() if type_of(page) == INDEX]
        if indexes and all(page[KEY_VERSION:KEY_VERSION + 4] != bytes(4) for page in indexes):
            return 'encrypted'
        if row_format == 'compact' and indexes and all(number_at(page, HEAP_COUNT, 2) < NEW_FORMAT for page in indexes):
            return 'ROW_FORMAT=REDUNDANT'
        return None

    def size(self):
        """The stated size, or how many pages the file has where these are fewer."""
        return min(self.number(SIZE), self.bytes // PAGE_SIZE)

    def is_used(self, number):
        """Whether the bitmap of its extent says so."""
        descriptors = number // DESCRIBED_PAGES * DESCRIBED_PAGES
        page = self.page(descriptors) if descriptors else self.head
        return is_used_in(page, number)

    def descriptor_pages(self):
        """The number of each page of descriptors, and the page."""
        for number in range(0, self.bytes // PAGE_SIZE, DESCRIBED_PAGES):
            yield number, self.page(number)

    def used_count(self):
        """How many pages of the file the bitmaps of their extents call used."""
        count = self.bytes // PAGE_SIZE
        return sum(used_count_in(page, min(count - first, DESCRIBED_PAGES)) for first, page in self.descriptor_pages())

    def used_pages(self):
        """The numbers of all pages of the file that the bitmaps of their extents call used."""
        count = self.bytes // PAGE_SIZE
        for first, page in self.descriptor_pages():
            for number in range(first, min(first + DESCRIBED_PAGES, count)):
                if is_used_in(page, number):
                    yield number

    def inodes(self):
        """The slots of each used inode, by its page and place."""
        found = {}
        for base in (INODES_FULL, INODES_FREE):
            number, seen = self.number(base + 4), set()
            while number < self.size() and number not in seen:
                seen.add(number)
                page = self.page(number)
                if type_of(page) != INODE:
                    break
                found.update(((number, place), slots) for place, _, slots in used_inodes(page))
                number = number_at(page, INODE_LIST_NODE + ADDRESS_SIZE, 4)
        return found

    def roots(self):
        """The roots of indexes, by rising index id, which is the order in which the indexes were made. A root is a used
        index page of the stated size without a page beside it, which names two segments, one of them its own."""
        space, size, inodes, found = self.number(SPACE_ID), self.size(), self.inodes(), []
        named = {number for slots in inodes.values() for number in slots if number < size}
        for number in sorted(named):
            page = self.page(number)
            if type_of(page) != INDEX or siblings_of(page) != (FIL_NULL, FIL_NULL) or not self.is_used(number):
                continue
            leaf, top = (struct.unpack_from('>IIH', page, place) for place in (LEAF_SEGMENT, TOP_SEGMENT))
            if leaf[0] == top[0] == space and leaf[1:] in inodes and leaf != top and number in inodes.get(top[1:], ()):
                level, index_id = level_and_id(page)
                found.append(Root(number, index_id, level, number_at(page, RECORDS, 2)))
        return sorted(found, key=lambda root: root.index_id)


def partitioned_table(name):
    """The table of a partition by the name of its file, as `t` of `t#P#p0.ibd`; nothing if it is no partition."""
    found = re.match('(.+?)#p#', name, re.IGNORECASE | re.DOTALL)
    return found and found[1]

"""What each page of a tablespace file is, in one pass over the file: its owner, how full it is, and whether its frame
is whole. Nothing of it is proved: `ibd check` says whether the file is sound.
"""

import collections
import os

from innodb_layout import (
    ALLOCATED, BLOB, BODY_END, DESCRIBED_PAGES, EXTENT_PAGES, EXTENT_SEGMENT, EXTENT_STATE, FLAGS, FREE_LIMIT, FSEG,
    FSP_HDR, GARBAGE, HEAP_COUNT, HEAP_START, HEAP_TOP, IBUF_BITMAP, INDEX, INODE, LSN_END, NEW_FORMAT, OTHER_PAGES,
    PAGE_LSN, PAGE_NUMBER, PAGE_SIZE, PAGE_SPACE, PART_LENGTH, PART_ROOM, RECORDS, SIZE, SLOT_COUNT, SLOT_SIZE, SPATIAL,
    TOP_SEGMENT, XDES, checksum_kinds, descriptor_place, is_used_in, level_and_id, number_at, type_of, used_inodes)

# How many pages are read at once, and how many broken ones are remembered one by one.
PIECE, MOST_FAULTS = EXTENT_PAGES, 1000
ZEROS = bytes(PAGE_SIZE)
# Of the pages of a page of descriptors those that are used in any case: that one, and the bitmap.
SYSTEM_PAGES = 0, 1

# Kinds of owners; that of a page of an index has its index id too.
FREE, SPACE, VALUES, RESERVED = 'free', 'space', 'values', 'reserved'
OTHER, BROKEN, OF_INDEX = 'other', 'broken', 'index'

# A page: its owner, as a kind and an index id, and its fill from 0 to 1.
Seen = collections.namedtuple('Seen', 'number kind index_id fill')
Fault = collections.namedtuple('Fault', 'number why segment')


class Level:
    """The pages of one level of an index: how many, the part of their room that is used, and their records."""

    def __init__(self):
        self.pages = self.records = 0
        self.fill = 0.0


class Survey:
    """The facts of a file; complete once all pages of `pages` were taken."""

    def __init__(self, handle):
        self.handle = handle
        self.bytes = os.fstat(handle.fileno()).st_size
        self.count = self.bytes // PAGE_SIZE
        self.head_fault = self.space = self.flags = self.size = self.limit = None
        # The first page that was never given out, and the page of descriptors of where it has come to.
        self.end = self.descriptors = None
        self.kinds, self.checksums, self.others = collections.Counter(), collections.Counter(), collections.Counter()
        self.fills = collections.Counter()
        self.indexes, self.roots, self.old_format = {}, {}, 0
        self.newest = self.oldest = None
        self.faults, self.fault_count, self.unread_descriptors = [], 0, []
        self.slots, self.segments = {}, {}

    def pages(self):
        """Each page of the file as it is seen, in order."""
        for first in range(0, self.count, PIECE):
            pages = read_pages(self.handle, first, min(PIECE, self.count - first))
            if first % DESCRIBED_PAGES == 0:
                self.take_descriptors(first, pages[0])
            used = [page for number, page in enumerate(pages, first) if self.is_used(number, page)]
            sums = iter(checksum_kinds([page or ZEROS for page in used]))
            for number, page in enumerate(pages, first):
                if self.is_used(number, page):
                    yield self.seen(number, page, next(sums))
                else:
                    self.kinds[FREE] += 1
                    yield Seen(number, FREE, None, 0)

    def take_descriptors(self, number, page):
        """The page that says which pages are used from here on; if it is broken each counts that isn't all zeros."""
        self.descriptors = None
        if self.end is not None and number >= self.end:
            return
        sums = checksum_kinds([page or ZEROS])[0]
        if number == 0 and sums:
            self.space = number_at(page, PAGE_SPACE, 4)
        why = self.fault(number, page, sums) or (
            None if type_of(page) == (XDES if number else FSP_HDR) else 'of the type %d' % type_of(page))
        self.descriptors = None if why else page
        if why:
            self.unread_descriptors.append(number)
        if number == 0:
            self.head_fault = why
            if not why:
                self.flags, self.size, self.limit = (number_at(page, place, 4) for place in (FLAGS, SIZE, FREE_LIMIT))
                self.end = min(self.size, max(self.limit, EXTENT_PAGES))

    def is_used(self, number, page):
        if self.end is not None and number >= self.end:
            return False
        if number in SYSTEM_PAGES or self.end is not None and number % DESCRIBED_PAGES in SYSTEM_PAGES:
            return True
        if self.descriptors is None:
            return page is None or page != ZEROS
        # Descriptors that no extent was given yet are zeros.
        state = number_at(self.descriptors, self.descriptor_of(number) + EXTENT_STATE, 4)
        return (state != 0 or self.end is not None) and is_used_in(self.descriptors, number)

    @staticmethod
    def descriptor_of(number):
        return descriptor_place(number % DESCRIBED_PAGES // EXTENT_PAGES)

    def fault(self, number, page, sums):
        """What is wrong with the frame of a page, or nothing."""
        if page is None:
            return "can't be read"
        if page == ZEROS:
            return 'all zeros'
        if sums is None:
            return 'wrong checksums'
        if number_at(page, PAGE_NUMBER, 4) != number:
            return 'it is page %d by its number' % number_at(page, PAGE_NUMBER, 4)
        if number_at(page, PAGE_SPACE, 4) != self.space:
            return 'of the space %d' % number_at(page, PAGE_SPACE, 4)
        if number_at(page, LSN_END, 4) != number_at(page, PAGE_LSN + 4, 4):
            return 'the LSN at its end is another one'
        return None

    def segment_of(self, number):
        """The segment that has a page, as far as the descriptors and the inodes that were seen tell it."""
        if self.descriptors is not None:
            place = self.descriptor_of(number)
            if number_at(self.descriptors, place + EXTENT_STATE, 4) == FSEG:
                return number_at(self.descriptors, place + EXTENT_SEGMENT, 8)
        return self.slots.get(number)

    def seen(self, number, page, sums):
        """A used page."""
        if self.space is None and sums:
            self.space = number_at(page, PAGE_SPACE, 4)
        why = self.fault(number, page, sums)
        if why:
            self.fault_count += 1
            self.kinds[BROKEN] += 1
            if len(self.faults) < MOST_FAULTS:
                self.faults.append(Fault(number, why, self.segment_of(number)))
            return Seen(number, BROKEN, None, 1)
        self.checksums[sums] += 1
        lsn = number_at(page, PAGE_LSN, 8), number
        self.newest, self.oldest = max(self.newest or lsn, lsn), min(self.oldest or lsn, lsn)
        kind, index_id, fill = self.owner(number, page)
        self.kinds[kind] += 1
        self.fills[kind] += fill
        return Seen(number, kind, index_id, fill)

    def owner(self, number, page):
        """The kind, the index id and the fill of a page whose frame is whole."""
        kind = type_of(page)
        if kind in (INDEX, SPATIAL):
            return (OF_INDEX, *self.take_index_page(number, page))
        if kind == BLOB:
            return VALUES, None, min(1.0, number_at(page, PART_LENGTH, 4) / PART_ROOM)
        if kind == INODE:
            self.take_inodes(page)
        if kind in (FSP_HDR, XDES, INODE, IBUF_BITMAP):
            return SPACE, None, 1.0
        if kind == ALLOCATED:
            return RESERVED, None, 0.0
        self.others[OTHER_PAGES.get(kind, 'type %d' % kind)] += 1
        return OTHER, None, 1.0

    def take_index_page(self, number, page):
        level, index_id = level_and_id(page)
        fill = fill_of(page)
        of_level = self.indexes.setdefault(index_id, {}).setdefault(level, Level())
        of_level.pages += 1
        of_level.records += number_at(page, RECORDS, 2)
        of_level.fill += fill
        self.old_format += number_at(page, HEAP_COUNT, 2) < NEW_FORMAT
        # The root alone names segments.
        if number_at(page, TOP_SEGMENT + 4, 4) and number_at(page, TOP_SEGMENT, 4) == self.space:
            self.roots[index_id] = number
        segment = self.segment_of(number)
        if segment:
            self.segments.setdefault(segment, index_id)
        return index_id, fill

    def take_inodes(self, page):
        for _, segment, slots in used_inodes(page):
            self.slots.update(dict.fromkeys(slots, segment))

    def index_of(self, fault):
        """The index that a broken page belongs to, by the other pages of its segment; nothing if they don't tell."""
        return self.segments.get(fault.segment)

    def clustered(self):
        """The index that was made first; its root may be lost."""
        return min(self.indexes, default=None)


def fill_of(page):
    """Of a page of an index, the part of its room that records and directory take."""
    slots, top, garbage = (number_at(page, place, 2) for place in (SLOT_COUNT, HEAP_TOP, GARBAGE))
    return min(1.0, max(0.0, (top - HEAP_START - garbage + SLOT_SIZE * slots) / (BODY_END - HEAP_START)))


def read_pages(handle, first, count):
    """So many pages from the first on, zeros behind the end of the file; none for a page that can't be read."""
    try:
        data = os.pread(handle.fileno(), count * PAGE_SIZE, first * PAGE_SIZE)
    except OSError:
        if count == 1:
            return [None]
        return [read_pages(handle, number, 1)[0] for number in range(first, first + count)]
    data = data.ljust(count * PAGE_SIZE, b'\0')
    return [data[place:place + PAGE_SIZE] for place in range(0, len(data), PAGE_SIZE)]

"""The layouts of the pages of a tablespace file of MySQL 5.7 and the rules of their checksums: docs/FORMATS.md as
numbers.

A place is an offset in bytes from the start of a page, or from the start of what its name says. Numbers on pages are
big-endian and unsigned (fil0fil.h, fsp0fsp.h, fsp0types.h, page0page.h, rem0rec.h, buf0checksum.cc).
"""

import functools
import struct

PAGE_SIZE = 16384
EXTENT_PAGES = 64
DESCRIBED_EXTENTS = 256
DESCRIBED_PAGES = DESCRIBED_EXTENTS * EXTENT_PAGES
LEAST_PAGES, MOST_PAGES = 4, 1 << 22
FIL_NULL = 0xFFFFFFFF

# The frame of a page: places in front of its body, and behind it.
CHECKSUM, PAGE_NUMBER, PAGE_BEFORE, PAGE_AFTER, PAGE_LSN, PAGE_TYPE = 0, 4, 8, 12, 16, 24
FLUSH_LSN = KEY_VERSION = 26
PAGE_SPACE, BODY = 34, 38
BODY_END = LAST_CHECKSUM = 16376
LSN_END = 16380

# Types of pages.
ALLOCATED, INODE, IBUF_BITMAP, FSP_HDR, XDES, BLOB, SPATIAL, INDEX = 0, 3, 5, 8, 9, 10, 17854, 17855
OTHER_PAGES = {14: 'page compression of MySQL', 34354: 'page compression of MariaDB', 15: 'encrypted', 16: 'encrypted',
               17: 'encrypted', 37401: 'encrypted', 17853: 'a file of MySQL 8.0', SPATIAL: 'a spatial index',
               18: 'a column that was added or dropped instantly'}

# The space header, on page 0.
SPACE_ID, SIZE, FREE_LIMIT, FLAGS, FRAGMENTS_USED = 38, 46, 50, 54, 58
LIST_FREE, LIST_FREE_FRAG, LIST_FULL_FRAG, NEXT_SEGMENT, INODES_FULL, INODES_FREE = 62, 78, 94, 110, 118, 134

# Bits of its flags.
ZIP_SIZE, FULL_CRC32 = 0b11110, 0b10000
PAGE_SIZE_SHIFT, PAGE_SIZE_MASK = 6, 15
DATA_DIRECTORY, SHARED, TEMPORARY, ENCRYPTED, HAS_DICTIONARY = 1 << 10, 1 << 11, 1 << 12, 1 << 13, 1 << 14
PAGE_COMPRESSION = 1 << 16
FORMATS = {0: 'compact', 33: 'dynamic'}
COMPACT, DYNAMIC = FORMATS

# The base of a list: its length, and the first and the last address; a node: the address before it and the one after
# it. An address is the number of a page and a place there.
LIST_BASE, LIST_NODE, ADDRESS_SIZE = '>IIHIH', '>IHIH', 6

# The descriptors of extents, on page 0 and on each page of descriptors. A page has two bits in the bitmap, the lowest
# first; the first of them is 1 where the page is free.
FIRST_DESCRIPTOR, DESCRIPTOR_SIZE = 150, 40
EXTENT_SEGMENT, EXTENT_NODE, EXTENT_STATE, EXTENT_BITMAP, BITMAP_SIZE = 0, 8, 20, 24, 16
FREE, FREE_FRAG, FULL_FRAG, FSEG = 1, 2, 3, 4
# In the bitmaps of a page of descriptors, one after the other, the bits of the pages that are free.
FREE_BITS = int.from_bytes(b'\x55' * (BITMAP_SIZE * DESCRIBED_EXTENTS), 'little')

# A page of inodes, and an inode.
INODE_LIST_NODE, FIRST_INODE, INODE_SIZE, INODE_COUNT = 38, 50, 192, 85
SEGMENT_ID, NOT_FULL_USED, SEGMENT_FREE, SEGMENT_NOT_FULL, SEGMENT_FULL = 0, 8, 12, 28, 44
SEGMENT_MAGIC, SLOTS_PLACE, SLOTS = 60, 64, 32
INODE_MAGIC = 97937874

# A page of an index.
SLOT_COUNT, HEAP_TOP, HEAP_COUNT, FREE_RECORD, GARBAGE, DIRECTION, RECORDS = 38, 40, 42, 44, 46, 50, 54
MAX_TRANSACTION, LEVEL, INDEX_ID, LEAF_SEGMENT, TOP_SEGMENT, PAGE_ENDS = 56, 64, 66, 74, 84, 94
NEW_FORMAT = 0x8000             # of the number at HEAP_COUNT
INFIMUM, SUPREMUM, HEAP_START, LAST_SLOT, SLOT_SIZE = 99, 112, 120, 16374, 2

# A record: places before its origin, and bits of the byte and numbers of the status there.
RECORD_HEADER, NEXT_RECORD, HEAP_STATUS, MARKS = 5, 2, 4, 5
DELETED, MINIMUM_MARK = 0x20, 0x10
ORDINARY, NODE_POINTER = 0, 1

# A page of a long value, and the reference to the first one, with the place of its number.
PART_LENGTH, NEXT_PART, PART, PART_ROOM = 38, 42, 46, 16330
REFERENCE_SIZE, REFERENCED_PAGE = 20, 4

# Checksums: what both numbers are where there are none, and of which parts of a page the first one is.
NO_CHECKSUM = 0xDEADBEEF
SUMMED_HEAD, SUMMED_BODY = slice(PAGE_NUMBER, FLUSH_LSN), slice(BODY, BODY_END)
FOLD_MASKS = 1653893711, 1463735687


def number_at(data, place, width):
    return int.from_bytes(data[place:place + width], 'big')


def type_of(page):
    return struct.unpack_from('>H', page, PAGE_TYPE)[0]


def descriptor_place(extent):
    """Where the descriptor of an extent stands on its page."""
    return FIRST_DESCRIPTOR + DESCRIPTOR_SIZE * (extent % DESCRIBED_EXTENTS)


def inode_place(number):
    """Where an inode stands on its page."""
    return FIRST_INODE + INODE_SIZE * number


def used_inodes(page):
    """Of each used inode of a page of inodes: where it stands, its segment, and the pages in its slots."""
    for place in map(inode_place, range(INODE_COUNT)):
        segment = number_at(page, place, 8)
        if segment and number_at(page, place + SEGMENT_MAGIC, 4) == INODE_MAGIC:
            yield place, segment, struct.unpack_from('>%dI' % SLOTS, page, place + SLOTS_PLACE)


def is_used_in(descriptors, number):
    """Whether the page of descriptors that it has says that a page is used."""
    extent, place = divmod(number % DESCRIBED_PAGES, EXTENT_PAGES)
    return descriptors[descriptor_place(extent) + EXTENT_BITMAP + place // 4] >> place % 4 * 2 & 1 == 0


def used_count_in(descriptors, count):
    """Of the first so many pages that a page of descriptors has, how many it says are used."""
    starts = [descriptor_place(extent) + EXTENT_BITMAP for extent in range(DESCRIBED_EXTENTS)]
    bits = int.from_bytes(b''.join(descriptors[start:start + BITMAP_SIZE] for start in starts), 'little')
    return count - bin(bits & (1 << 2 * count) - 1 & FREE_BITS).count('1')


def siblings_of(page):
    """The pages before and after it in its level."""
    return struct.unpack_from('>II', page, PAGE_BEFORE)


def level_and_id(page):
    """Of a page of an index: its level, and the index id."""
    return struct.unpack_from('>HQ', page, LEVEL)


# --- CRC-32C ---------------------------------------------------------------------------------------------------------

def crc_table():
    def entry(state):
        for _ in range(8):
            state = state >> 1 ^ (0x82F63B78 if state & 1 else 0)
        return state

    return [entry(byte) for byte in range(256)]


TABLE = crc_table()
CRC_START = 0xFFFFFFFF


def carry(state, data):
    """The state of a CRC-32C after these bytes more."""
    for byte in data:
        state = state >> 8 ^ TABLE[(state ^ byte) & 0xFF]
    return state


@functools.lru_cache(maxsize=8)
def halvings(size):
    """How a text of so many bytes is made half as long, and again, with the state after it unchanged: how many bits
    leave the front, those bits, and by which shifts of them what stays is changed. The text is a polynomial, the first
    bit the highest power, and its remainder is the state: the powers of the front have remainders of 32 bits."""
    steps = []
    while size > 64:
        front = (8 * size - 31) // 16
        stays = size - front
        power = carry(1 << 31, bytes(stays))
        low = 8 * (stays - front) - 31
        steps.append((8 * front, (1 << 8 * front) - 1, [low + bit for bit in range(32) if power >> bit & 1]))
        size = stays
    return steps, size


def crc_state(data):
    """The state of a CRC-32C after these bytes, from the start: `carry`, some twenty times as fast over a page."""
    steps, size = halvings(len(data))
    if not steps:
        return carry(CRC_START, data)
    text = int.from_bytes(data, 'little') ^ CRC_START
    for front, mask, shifts in steps:
        moved = text & mask
        text >>= front
        for shift in shifts:
            text ^= moved << shift
    return carry(0, text.to_bytes(size, 'little'))


def crc_of_page(page):
    """Its checksum of the kind crc32. It is of two states that are inverted, so that the inversions cancel out."""
    return crc_state(page[SUMMED_HEAD]) ^ crc_state(page[SUMMED_BODY])


# --- the fold of the kind innodb -------------------------------------------------------------------------------------

def folds(texts):
    """The folds of texts of one length, all at once (ut0rnd): a number here has a lane of 64 bits for each of them."""
    count, size, joined = len(texts), len(texts[0]), b''.join(texts)
    lanes = bytearray(8 * count)
    lanes[::8] = b'\1' * count
    ones = int.from_bytes(lanes, 'little')
    first, second, low, state = FOLD_MASKS[0] * ones, FOLD_MASKS[1] * ones, 0xFFFFFFFF * ones, 0
    for place in range(size):
        lanes[::8] = joined[place::size]
        byte = int.from_bytes(lanes, 'little')
        state = ((((state ^ byte ^ first) << 8) + state & low ^ second) + byte) & low
    return struct.unpack('<%dQ' % count, state.to_bytes(8 * count, 'little'))


def are_folded(pages):
    """Whether the checksums of each page are of the kind innodb. It takes some milliseconds for a page, and not much
    more for a hundred at once."""
    last = folds([page[:FLUSH_LSN] for page in pages])
    heads = folds([page[SUMMED_HEAD] for page in pages])
    bodies = folds([page[SUMMED_BODY] for page in pages])
    return [stated_sums(page) == ((head + body) & 0xFFFFFFFF, end)
            for page, end, head, body in zip(pages, last, heads, bodies)]


# --- whole frames ----------------------------------------------------------------------------------------------------

def stated_sums(page):
    return number_at(page, CHECKSUM, 4), number_at(page, LAST_CHECKSUM, 4)


def checksum_kinds(pages):
    """The kind of the checksums of each page: crc32, innodb, none, or nothing where they are wrong by all three."""
    kinds = []
    for page in pages:
        sums = stated_sums(page)
        if sums == (NO_CHECKSUM, NO_CHECKSUM):
            kinds.append('none')
        else:
            kinds.append('crc32' if sums[0] == sums[1] == crc_of_page(page) else None)
    others = [place for place, kind in enumerate(kinds) if kind is None and any(pages[place])]
    if others:
        for place, is_folded in zip(others, are_folded([pages[place] for place in others])):
            kinds[place] = 'innodb' if is_folded else None
    return kinds

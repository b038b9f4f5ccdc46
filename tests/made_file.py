"""Makes tablespace files for the tests of the tools: heads, descriptors, inodes and pages of indexes, as far as these
read them. They have no checksums, so they aren't sound."""

import collections
import struct

from page_writer import INODE_PAGE, NOWHERE, address, base, put_inode, put_records, put_segment

from innodb_layout import (
    EXTENT_BITMAP, EXTENT_PAGES, FIL_NULL, FSP_HDR, INDEX, INODE, INODES_FREE, INODE_LIST_NODE, LEAF_SEGMENT, LEVEL,
    NEW_FORMAT, PAGE_NUMBER, PAGE_SIZE, PAGE_TYPE, RECORDS, SLOT_COUNT, SPACE_ID, TOP_SEGMENT, descriptor_place)

SPACE = 7

# A page of an index, of records that are pairs of what stands in front of their header and behind it.
IndexPage = collections.namedtuple('IndexPage', 'number index_id records level changes')


def index_page(number, index_id, records=(), level=0, **changes):
    return IndexPage(number, index_id, list(records), level, changes)


def index_bytes(made, segments):
    page, count = bytearray(PAGE_SIZE), len(made.records)
    _, end = put_records(page, made.records)
    struct.pack_into('>III', page, PAGE_NUMBER, made.number, made.changes.get('before', FIL_NULL),
                     made.changes.get('after', FIL_NULL))
    struct.pack_into('>HI', page, PAGE_TYPE, made.changes.get('kind', INDEX), made.changes.get('key_version', 0))
    struct.pack_into('>HHHHH', page, SLOT_COUNT, 2, end, made.changes.get('new_format', NEW_FORMAT) + count + 2, 0, 0)
    struct.pack_into('>H', page, RECORDS, count)
    struct.pack_into('>HQ', page, LEVEL, made.level, made.index_id)
    for place, segment in zip((LEAF_SEGMENT, TOP_SEGMENT), segments):
        put_segment(page, place, made.changes.get('space', SPACE), segment)
    return page


def tablespace(roots, others=(), flags=33, size=64, kind=FSP_HDR, free=()):
    """The bytes of a file: page 0, the inodes on page 2, the roots, each with two segments, and other pages."""
    pages = collections.defaultdict(lambda: bytearray(PAGE_SIZE))
    head, inodes = pages[0], pages[INODE_PAGE]
    struct.pack_into('>H', head, PAGE_TYPE, kind)
    struct.pack_into('>IIIII', head, SPACE_ID, SPACE, 0, size, EXTENT_PAGES, flags)
    struct.pack_into('>16s', head, INODES_FREE, base([address(INODE_PAGE, INODE_LIST_NODE)]))
    struct.pack_into('>H', inodes, PAGE_TYPE, INODE)
    struct.pack_into('>6s6s', inodes, INODE_LIST_NODE, NOWHERE, NOWHERE)
    used = {0, 1, 2}
    for number, root in enumerate(roots):
        segments = 2 * number, 2 * number + 1
        for segment, slots in zip(segments, ([], [root.number])):
            put_inode(inodes, segment, segment + 1, slots)
        pages[root.number] = index_bytes(root, root.changes.get('segments', segments))
        used.add(root.number)
    for other in others:
        pages[other.number] = index_bytes(other, (0, 1))
        used.add(other.number)
    for number in range(256):
        extent, place = divmod(number, EXTENT_PAGES)
        if number not in used or number in free:
            head[descriptor_place(extent) + EXTENT_BITMAP + place // 4] |= 1 << place % 4 * 2
    return b''.join(bytes(pages[number]) for number in range(max(size, max(pages) + 1)))

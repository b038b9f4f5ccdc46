"""Writes the parts of pages that all made tablespaces have: frames with checksums, chained records, inodes, lists."""

import struct

import scripts  # It has the modules of tools/ found.  # noqa: F401

from innodb_layout import (
    CHECKSUM, FIL_NULL, HEAP_START, INFIMUM, INODE_MAGIC, LAST_CHECKSUM, NEXT_RECORD, PAGE_LSN, PAGE_NUMBER, PAGE_SPACE,
    RECORD_HEADER, SLOTS, SLOTS_PLACE, SUMMED_BODY, SUMMED_HEAD, SUPREMUM, crc_state, inode_place, number_at)

INODE_PAGE = 2


def address(page, place):
    return struct.pack('>IH', page, place)


NOWHERE = address(FIL_NULL, 0)


def base(members):
    """The base of a list of these addresses."""
    ends = (members[0], members[-1]) if members else (NOWHERE, NOWHERE)
    return struct.pack('>I6s6s', len(members), *ends)


def put_frame(page, number, kind, space, lsn):
    """What stands in front of a body, without the siblings and the checksum."""
    struct.pack_into('>I', page, PAGE_NUMBER, number)
    struct.pack_into('>QH', page, PAGE_LSN, lsn, kind)
    struct.pack_into('>I', page, PAGE_SPACE, space)


def put_sums(page, first, last):
    """Gives a page its two checksums, and at its end the LSN that it has in front."""
    struct.pack_into('>I', page, CHECKSUM, first)
    struct.pack_into('>II', page, LAST_CHECKSUM, last, number_at(page, PAGE_LSN + 4, 4))


def seal(page, state_of_body=None):
    """Gives a page checksums of the kind crc32. The state of a CRC-32C after its body may be known."""
    if state_of_body is None:
        state_of_body = crc_state(page[SUMMED_BODY])
    # The two sums are the inverted states, so that the inversions cancel out.
    total = crc_state(page[SUMMED_HEAD]) ^ state_of_body
    put_sums(page, total, total)


def put_records(page, records):
    """Puts the records of a page of an index one after the other, and chains them. A record is the pair of its bytes in
    front of the header and behind it. Answers their origins, and where the last one ends."""
    origins, at = [], HEAP_START
    for front, body in records:
        page[at:at + len(front)] = front
        origins.append(at + len(front) + RECORD_HEADER)
        at = origins[-1] + len(body)
        page[origins[-1]:at] = body
    for here, there in zip([INFIMUM, *origins], [*origins, SUPREMUM]):
        struct.pack_into('>H', page, here - NEXT_RECORD, (there - here) % 65536)
    return origins, at


def put_segment(page, at, space, inode):
    """Puts the header of a segment, which names its inode."""
    struct.pack_into('>IIH', page, at, space, INODE_PAGE, inode_place(inode))


def put_inode(page, inode, segment, slots, full=(), not_full=(), not_full_used=0):
    """Puts the inode of a segment, with the pages of its slots and the addresses of its extents."""
    struct.pack_into('>QI16s16s16sI', page, inode_place(inode), segment, not_full_used, base([]), base(not_full),
                     base(full), INODE_MAGIC)
    slots = [*slots] + [FIL_NULL] * (SLOTS - len(slots))
    struct.pack_into('>%dI' % SLOTS, page, inode_place(inode) + SLOTS_PLACE, *slots)

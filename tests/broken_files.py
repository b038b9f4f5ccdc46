"""Tablespaces, and changes of them at random: of a field of a page by its structure, which gets a number that stands
elsewhere, an end of its range or a neighbour; of bytes anywhere; or of the length of the file."""

import collections
import functools
import itertools
import os
import struct

import page_writer
import tablespace
from scripts import TOP

from innodb_layout import (
    BITMAP_SIZE, BLOB, BODY_END, CHECKSUM, CRC_START, DESCRIBED_EXTENTS, EXTENT_BITMAP, EXTENT_NODE, EXTENT_SEGMENT,
    EXTENT_STATE, FIL_NULL, FLAGS, FLUSH_LSN, FRAGMENTS_USED, FREE_LIMIT, FSP_HDR, HEAP_START, HEAP_STATUS, HEAP_TOP,
    INDEX, INDEX_ID, INFIMUM, INODE, INODES_FREE, INODES_FULL, INODE_COUNT, INODE_LIST_NODE, LAST_CHECKSUM, LAST_SLOT,
    LEAF_SEGMENT, LEVEL, LIST_FREE, LIST_FREE_FRAG, LIST_FULL_FRAG, LSN_END, MARKS, MAX_TRANSACTION, NEXT_PART,
    NEXT_RECORD, NEXT_SEGMENT, NOT_FULL_USED, PAGE_AFTER, PAGE_BEFORE, PAGE_LSN, PAGE_NUMBER, PAGE_SPACE,
    PAGE_TYPE, PART, PART_LENGTH, PART_ROOM, RECORD_HEADER, REFERENCE_SIZE, SEGMENT_FREE, SEGMENT_FULL, SEGMENT_ID,
    SEGMENT_MAGIC, SEGMENT_NOT_FULL, SIZE, SLOTS, SLOTS_PLACE, SLOT_COUNT, SLOT_SIZE, SPACE_ID, SUMMED_BODY, SUPREMUM,
    TOP_SEGMENT, XDES, carry, descriptor_place, inode_place, number_at)
from innodb_layout import PAGE_SIZE as PAGE

Base = collections.namedtuple('Base', 'name schema data key')


# --- the tablespaces -------------------------------------------------------------------------------------------------

def made_table(folder, rows, length):
    """A table of an id and a value, which goes off the page where it is long."""
    path = os.path.join(folder, 'made-%d-%d.ibd' % (rows, length))
    with open(path, 'w+b') as file:
        made = tablespace.Tablespace(file)
        records = []
        for number in range(1, rows + 1):
            value = bytes(97 + (number + at) % 26 for at in range(length))
            if length > 40:
                front, stored = b'\x14\xc0', made.put_value(value)
            else:
                front, stored = bytes([length]), value
            records.append((front, struct.pack('>I', number + 0x80000000) + bytes(13) + stored))
        made.put_tree(records)
        made.put_space()
    with open(path, 'rb') as file:
        schema = b'table t dynamic\ncolumn id int notnull\ncolumn v longtext notnull\nclustered root 3 id\n'
        return Base(os.path.basename(path), schema, file.read(), str(rows // 2).encode())


def read_pair(schema, file, key=b'1'):
    with open(schema, 'rb') as text, open(file, 'rb') as data:
        return Base(os.path.basename(file), text.read(), data.read(), key)


def all_bases(folder, pairs):
    examples = [(os.path.join(TOP, 'examples', name), key) for name, key in (('numbers', b'0'), ('types', b"'ann',1"))]
    made = (3, 8), (900, 30), (2500, 24), (12, 40000)
    return ([made_table(folder, rows, length) for rows, length in made]
            + [read_pair(path + '.schema', path + '.ibd', key) for path, key in examples]
            + [read_pair(*pair) for pair in pairs])


# --- what is changed -------------------------------------------------------------------------------------------------

def list_base(at):
    return [(at, 4), (at + 4, 4), (at + 8, 2), (at + 10, 4), (at + 14, 2)]


def node(at):
    return [(at, 4), (at + 4, 2), (at + 6, 4), (at + 10, 2)]


FRAME = [(CHECKSUM, 4), (PAGE_NUMBER, 4), (PAGE_BEFORE, 4), (PAGE_AFTER, 4), (PAGE_LSN, 8), (PAGE_TYPE, 2),
         (FLUSH_LSN, 8), (PAGE_SPACE, 4), (LAST_CHECKSUM, 4), (LSN_END, 4)]


def header_fields(_page, _rng):
    fields = [(SPACE_ID, 4), (SIZE, 4), (FREE_LIMIT, 4), (FLAGS, 4), (FRAGMENTS_USED, 4), (NEXT_SEGMENT, 8)]
    lists = LIST_FREE, LIST_FREE_FRAG, LIST_FULL_FRAG, INODES_FULL, INODES_FREE, INODES_FREE
    return fields + [field for at in lists for field in list_base(at)]


def descriptor_fields(_page, rng):
    at = descriptor_place(rng.choice([0, 1, 2, 3, rng.randrange(DESCRIBED_EXTENTS)]))
    return [(at + EXTENT_SEGMENT, 8), (at + EXTENT_STATE, 4),
            (at + EXTENT_BITMAP + rng.randrange(BITMAP_SIZE), 1)] + node(at + EXTENT_NODE)


def inode_fields(_page, rng):
    at = inode_place(rng.choice([0, 1, 2, 3, rng.randrange(INODE_COUNT)]))
    fields = [(at + SEGMENT_ID, 8), (at + NOT_FULL_USED, 4), (at + SEGMENT_MAGIC, 4),
              (at + SLOTS_PLACE + 4 * rng.randrange(SLOTS), 4)] + node(INODE_LIST_NODE)
    lists = SEGMENT_FREE, SEGMENT_NOT_FULL, SEGMENT_FULL
    return fields + [field for base in lists for field in list_base(at + base)]


def records_of(page):
    """The origins along the chain of a page of an index, as far as it goes."""
    origins, at = [], INFIMUM
    while len(origins) < 1000:
        at = (at + number_at(page, at - NEXT_RECORD, 2)) % 65536
        if not 100 < at < BODY_END or at == SUPREMUM:
            break
        origins.append(at)
    return origins


def index_fields(page, rng):
    fields = [(SLOT_COUNT + 2 * place, 2) for place in range(9)] + [(MAX_TRANSACTION, 8), (LEVEL, 2), (INDEX_ID, 8)]
    fields += [(at + more, width) for at in (LEAF_SEGMENT, TOP_SEGMENT) for more, width in ((0, 4), (4, 4), (8, 2))]
    fields += [(at - more, width) for at in (INFIMUM, SUPREMUM) for more, width in ((MARKS, 1), (NEXT_RECORD, 2))]
    fields += [(LAST_SLOT - SLOT_SIZE * rng.randrange(max(1, number_at(page, SLOT_COUNT, 2) % 400)), 2)]
    origins = records_of(page)
    for at in rng.sample(origins, min(3, len(origins))):
        fields += [(at - MARKS, 1), (at - HEAP_STATUS, 2), (at - NEXT_RECORD, 2), (at - NEXT_RECORD, 2),
                   (at - RECORD_HEADER - 1, 1), (at - RECORD_HEADER - 2, 1), (at, 4)]
        fields += [(at + rng.randrange(40), 1), (at + 17, 4), (at + 21, 4), (at + 25, 4), (at + 29, 8), (at + 4, 4)]
    return fields


def value_fields(_page, _rng):
    return [(PART_LENGTH, 4), (NEXT_PART, 4), (PART, 1)]


FIELDS = {FSP_HDR: (header_fields, descriptor_fields), XDES: (descriptor_fields,), INODE: (inode_fields,),
          INDEX: (index_fields,), BLOB: (value_fields,)}


def some_field(page, rng):
    """The place and the width of a field of a page."""
    kinds = FIELDS.get(number_at(page, PAGE_TYPE, 2))
    if kinds is None or rng.random() < .1:
        return rng.choice(FRAME)
    fields = [field for field in rng.choice(kinds)(page, rng) if 0 <= field[0] <= PAGE - field[1]]
    return rng.choice(fields)


def some_number(page, pages, old, width, rng):
    """What a field may get: a page's number or a place, an end, a neighbour, a flipped bit, what stands elsewhere."""
    bits, at = 8 * width, rng.randrange(PAGE - 8)
    ends = [0, 1, 2, 3, FIL_NULL, (1 << bits) - 1, 1 << bits - 1]
    near = [old + 1, old - 1, old ^ 1 << rng.randrange(bits), rng.getrandbits(bits)]
    numbers = [rng.randrange(pages + 2), 0x80000000 | rng.randrange(pages + 2), pages, pages - 1, pages * PAGE]
    places = [INFIMUM, SUPREMUM, HEAP_START, inode_place(rng.randrange(4)),
              descriptor_place(rng.randrange(4)) + EXTENT_NODE, REFERENCE_SIZE, PART_ROOM, PART_ROOM + 1, 40000]
    stand = [number_at(page, PAGE_NUMBER, 4), number_at(page, HEAP_TOP, 2), number_at(page, at, width)]
    return rng.choice(ends + near + numbers + places + stand) % (1 << bits)


def after_zeros():
    """Tables that carry a state over 1, 2, 4 .. bytes that are 0, by the four bytes of the state."""
    tables = [[carry(byte << 8 * place, b'\0') for byte in range(256)] for place in range(4)]
    while True:
        yield tables
        tables = [[over(tables, state) for state in table] for table in tables]


def over(tables, state):
    low = tables[0][state & 255] ^ tables[1][state >> 8 & 255]
    return low ^ tables[2][state >> 16 & 255] ^ tables[3][state >> 24]


ZEROS = list(itertools.islice(after_zeros(), 14))

@functools.lru_cache(maxsize=4096)
def state_of_body(body):
    return carry(CRC_START, body)


def state_behind(old, new):
    """The state after a body, by that of the body that it was: the checksum is linear, so what changed tells."""
    change = int.from_bytes(old, 'big') ^ int.from_bytes(new, 'big')
    behind = ((change & -change).bit_length() - 1) // 8 if change else 0
    change >>= 8 * behind
    state = carry(0, change.to_bytes((change.bit_length() + 7) // 8, 'big'))
    for place, tables in enumerate(ZEROS):
        if behind >> place & 1:
            state = over(tables, state)
    return state_of_body(old) ^ state


def seal(page, old):
    """Gives a page its CRC-32C again, by the page that it was."""
    page_writer.seal(page, state_behind(bytes(old[SUMMED_BODY]), page[SUMMED_BODY]))


def used_pages(data):
    return [n for n in range(len(data) // PAGE) if number_at(data, n * PAGE + PAGE_TYPE, 2)]


def change_field(data, used, rng):
    """Changes a field of a page; answers the page."""
    number = rng.choice(used if rng.random() < .9 else range(len(data) // PAGE))
    page = data[number * PAGE:(number + 1) * PAGE]
    at, width = some_field(page, rng)
    old = number_at(page, at, width)
    data[number * PAGE + at:number * PAGE + at + width] = some_number(
        page, len(data) // PAGE, old, width, rng).to_bytes(width, 'big')
    return number


def change_bytes(data, used, rng):
    """Changes bytes anywhere on a page, or puts another page in its place; answers the page."""
    number = rng.choice(used)
    if rng.random() < .2:
        other = rng.choice(used)
        data[number * PAGE:(number + 1) * PAGE] = data[other * PAGE:(other + 1) * PAGE]
    else:
        at = number * PAGE + rng.randrange(PAGE)
        for place in range(at, min(at + rng.choice([1, 1, 2, 8, 100]), len(data))):
            data[place] = rng.choice([0, 255, rng.randrange(256)])
    return number


def broken(base, rng):
    """The bytes of a tablespace with some changes."""
    data, used = bytearray(base.data), used_pages(base.data)
    changed = {rng.choice((change_field,) * 4 + (change_bytes,))(data, used, rng)
               for _ in range(rng.choice([1, 1, 1, 2, 3, 6]))}
    if rng.random() < .9:
        for number in changed:
            page = data[number * PAGE:(number + 1) * PAGE]
            seal(page, base.data[number * PAGE:(number + 1) * PAGE])
            data[number * PAGE:(number + 1) * PAGE] = page
    if rng.random() < .03:
        del data[rng.randrange(len(data) + 1):]
    elif rng.random() < .03:
        data += bytes(rng.randrange(3 * PAGE))
    return data

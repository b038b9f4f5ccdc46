"""Makes the tablespace of a table that has an `id int notnull` as its clustered key, of as many pages as it takes.

The extents whose first page is one of descriptors hold the pages of the space itself, and the first of them the pages
of the trees above their leaves, too. The leaves and the pages of long values fill whole extents of the leaf segments.
"""

import functools
import itertools
import struct

from page_writer import INODE_PAGE, NOWHERE, address, base, put_frame, put_inode, put_records, put_segment, seal

from innodb_layout import (
    ADDRESS_SIZE, BITMAP_SIZE, BLOB, BODY, BODY_END, CRC_START, DESCRIBED_EXTENTS, DYNAMIC, EXTENT_NODE, EXTENT_PAGES,
    FIL_NULL, FREE_FRAG, FSEG, FSP_HDR, HEAP_START, IBUF_BITMAP, INDEX, INFIMUM, INODE, INODE_LIST_NODE, LAST_SLOT,
    LEAF_SEGMENT, LIST_FREE, MARKS, MINIMUM_MARK, NEW_FORMAT, NODE_POINTER, ORDINARY, PAGE_BEFORE, PAGE_ENDS, PAGE_SIZE,
    PART, PART_LENGTH, PART_ROOM, RECORD_HEADER, SLOT_COUNT, SLOT_SIZE, SPACE_ID, SUPREMUM, TOP_SEGMENT, XDES, carry,
    descriptor_place)

THIS_SPACE = LSN = 1
ROOT = 3


@functools.lru_cache(maxsize=8)
def end_of_value(data):
    """How the bytes behind a part's length and following page carry a state on. That is linear, so 33 states tell."""
    nothing = carry(0, data)
    return nothing, [carry(1 << bit, data) ^ nothing for bit in range(32)]


def carry_over_end(state, data):
    sum_of_bits, bits = end_of_value(data)
    for bit in range(32):
        if state >> bit & 1:
            sum_of_bits ^= bits[bit]
    return sum_of_bits


def extent_address(extent):
    first = extent // DESCRIBED_EXTENTS * DESCRIBED_EXTENTS
    return address(first * EXTENT_PAGES, descriptor_place(extent) + EXTENT_NODE)


def slots_of(count):
    """The slots of the directory of a page with so many records."""
    return 1 + max(1, (count + 1) // 4)


class Tree:
    """The pages of a tree so far: its root and what stands above the leaves, and the extents of its leaves."""

    def __init__(self, number, root, key_size):
        self.number, self.key_size = number, key_size
        self.top_pages, self.extents, self.leaf_pages = [root], [], 0

    @property
    def root(self):
        return self.top_pages[0]

    @property
    def top_segment(self):
        return 2 * self.number - 1

    @property
    def leaf_segment(self):
        return 2 * self.number

    @property
    def last_used(self):
        """How many pages of the last extent are used, none where it is full."""
        return self.leaf_pages % EXTENT_PAGES


def pages_of(records):
    """The records of a level, cut into pages."""
    page, room = [], 0
    for record in records:
        size = sum(map(len, record)) + RECORD_HEADER
        if HEAP_START + room + size > BODY_END - SLOT_SIZE * slots_of(len(page) + 1):
            yield page
            page, room = [], 0
        page.append(record)
        room += size
    yield page


class Tablespace:
    """A record is the pair of its bytes in front of the header and behind it; the key is the first bytes behind it:
    four in the tree of the rows, as many as its `key_size` in the tree of an index."""

    def __init__(self, file, key_sizes=(4,)):
        self.file = file
        self.trees = [Tree(number, ROOT + number - 1, size) for number, size in enumerate(key_sizes, 1)]
        self.extents = 0

    @property
    def top_pages(self):
        return sum(len(tree.top_pages) for tree in self.trees)

    def new_top_page(self, tree):
        tree.top_pages.append(ROOT + self.top_pages)
        return tree.top_pages[-1]

    def new_leaf_page(self, tree):
        extent, place = divmod(tree.leaf_pages, EXTENT_PAGES)
        if place == 0:
            tree.extents.append(self.leaf_extent(self.extents))
            self.extents += 1
        tree.leaf_pages += 1
        return tree.extents[extent] * EXTENT_PAGES + place

    @staticmethod
    def leaf_extent(number):
        """The extents of the leaf segments in their order: all but those with a page of descriptors."""
        return number + 1 + number // (DESCRIBED_EXTENTS - 1)

    def write(self, number, kind, page, state_of_body=None):
        put_frame(page, number, kind, THIS_SPACE, LSN)
        seal(page, state_of_body)
        self.file.seek(number * PAGE_SIZE)
        self.file.write(page)

    def put_value(self, value):
        """Writes the pages of a long value; gives the reference to it."""
        parts = [value[at:at + PART_ROOM] for at in range(0, len(value), PART_ROOM)]
        numbers = [self.new_leaf_page(self.trees[0]) for _ in parts]
        for number, following, part in zip(numbers, [*numbers[1:], FIL_NULL], parts):
            page = bytearray(PAGE_SIZE)
            struct.pack_into('>II', page, PART_LENGTH, len(part), following)
            page[PART:PART + len(part)] = part
            front = carry(CRC_START, page[BODY:PART])
            self.write(number, BLOB, page, carry_over_end(front, bytes(page[PART:BODY_END])))
        return struct.pack('>IIIQ', THIS_SPACE, numbers[0], BODY, len(value))

    def put_tree(self, records, tree=None):
        """Writes the levels of a tree, that of the rows where none is named, from its leaves up to the root."""
        tree = tree or self.trees[0]
        for level in itertools.count():
            pages = list(pages_of(records))
            new_page = self.new_leaf_page if level == 0 else self.new_top_page
            numbers = [tree.root] if level > 0 and len(pages) == 1 else [new_page(tree) for _ in pages]
            siblings = zip([FIL_NULL, *numbers], [*numbers[1:], FIL_NULL])
            for number, page, beside in zip(numbers, pages, siblings):
                self.put_index_page(tree, number, level, page, beside)
            if numbers == [tree.root]:
                return
            keys = [page[0][1][:tree.key_size] for page in pages]
            records = [(b'', key + struct.pack('>I', number)) for key, number in zip(keys, numbers)]

    def put_index_page(self, tree, number, level, records, siblings):
        page = bytearray(PAGE_SIZE)
        count, slots = len(records), slots_of(len(records))
        page[PAGE_ENDS:HEAP_START] = b'\1\0\2\0\0infimum\0' + b'\0\0\x0b\0\0supremum'
        origins, end = put_records(page, records)
        directory = [INFIMUM]
        for place, origin in enumerate(origins, 1):
            owned = 4 if place % 4 == 0 and place // 4 <= slots - 2 else 0
            minimum = MINIMUM_MARK if level > 0 and place == 1 and siblings[0] == FIL_NULL else 0
            struct.pack_into('>BH', page, origin - MARKS, minimum + owned,
                             (place + 1) * 8 + (ORDINARY if level == 0 else NODE_POINTER))
            if owned:
                directory.append(origin)
        page[SUPREMUM - MARKS] = count - 4 * (slots - 2) + 1
        for place, origin in enumerate([*directory, SUPREMUM]):
            struct.pack_into('>H', page, LAST_SLOT - SLOT_SIZE * place, origin)
        struct.pack_into('>II', page, PAGE_BEFORE, *siblings)
        struct.pack_into('>HHHIHHHHQHQ', page, SLOT_COUNT, slots, end, NEW_FORMAT + count + 2, 0, 0, 5, 0, count, 0,
                         level, tree.number)
        if number == tree.root:
            for at, segment in ((LEAF_SEGMENT, tree.leaf_segment), (TOP_SEGMENT, tree.top_segment)):
                put_segment(page, at, THIS_SPACE, segment - 1)
        self.write(number, INDEX, page)

    def put_space(self):
        """Writes the pages that tell what each page of the file is for; the pages of the trees stand."""
        extents = self.leaf_extent(self.extents - 1) + 1
        fragments = [extent for extent in range(extents) if extent % DESCRIBED_EXTENTS == 0]
        used = {extent: 2 for extent in fragments} | {0: 3 + self.top_pages}
        owners = {}
        for tree in self.trees:
            used |= {extent: EXTENT_PAGES for extent in tree.extents}
            used |= {tree.extents[-1]: tree.last_used or EXTENT_PAGES}
            owners |= {extent: tree.leaf_segment for extent in tree.extents}
        lists = [fragments, *(members for tree in self.trees for members in self.leaf_lists(tree))]
        self.put_descriptors(extents, used, owners, [list(map(extent_address, members)) for members in lists])
        for extent in fragments:
            self.write(extent * EXTENT_PAGES + 1, IBUF_BITMAP, bytearray(PAGE_SIZE))
        self.put_inodes()
        self.file.truncate(extents * EXTENT_PAGES * PAGE_SIZE)

    @staticmethod
    def leaf_lists(tree):
        """The full extents of the leaves, and the one that isn't."""
        return (tree.extents[:-1], tree.extents[-1:]) if tree.last_used else (tree.extents, [])

    def put_descriptors(self, extents, used, owners, lists):
        around = {}
        for members in lists:
            around.update(zip(members, zip([NOWHERE, *members], [*members[1:], NOWHERE])))
        for first in range(0, extents, DESCRIBED_EXTENTS):
            page = bytearray(PAGE_SIZE)
            for extent in range(first, min(first + DESCRIBED_EXTENTS, extents)):
                bits = sum((2 if place < used[extent] else 3) << 2 * place for place in range(EXTENT_PAGES))
                owner, state = (owners[extent], FSEG) if extent in owners else (0, FREE_FRAG)
                struct.pack_into('>Q6s6sI16s', page, descriptor_place(extent), owner, *around[extent_address(extent)],
                                 state, bits.to_bytes(BITMAP_SIZE, 'little'))
            if first == 0:
                fragment_used = sum(used[extent] for extent in range(0, extents, DESCRIBED_EXTENTS))
                pages = extents * EXTENT_PAGES
                struct.pack_into('>IIIIII', page, SPACE_ID, THIS_SPACE, 0, pages, pages, DYNAMIC, fragment_used)
                inodes = base([address(INODE_PAGE, INODE_LIST_NODE)])
                struct.pack_into('>16s16s16sQ16s16s', page, LIST_FREE, base([]), base(lists[0]), base([]),
                                 self.trees[-1].leaf_segment + 1, base([]), inodes)
            self.write(first * EXTENT_PAGES, XDES if first > 0 else FSP_HDR, page)

    def put_inodes(self):
        page = bytearray(PAGE_SIZE)
        page[INODE_LIST_NODE:INODE_LIST_NODE + 2 * ADDRESS_SIZE] = NOWHERE + NOWHERE
        for tree in self.trees:
            put_inode(page, tree.top_segment - 1, tree.top_segment, tree.top_pages)
            full, not_full = (list(map(extent_address, members)) for members in self.leaf_lists(tree))
            put_inode(page, tree.leaf_segment - 1, tree.leaf_segment, [], full, not_full, tree.last_used)
        self.write(INODE_PAGE, INODE, page)

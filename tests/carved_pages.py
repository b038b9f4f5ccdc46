"""What stands in the image of a disk, read slowly: each place is looked at by itself, with the checksums of tools/."""

import scripts  # It has the modules of tools/ found.  # noqa: F401

from innodb_layout import (
    BLOB, FSP_HDR, IBUF_BITMAP, INDEX, INODE, LSN_END, MOST_PAGES, PAGE_LSN, PAGE_NUMBER, PAGE_SIZE, PAGE_SPACE, XDES,
    checksum_kinds, level_and_id, number_at, type_of)

SECTOR = 512
TYPES = INODE, IBUF_BITMAP, FSP_HDR, XDES, BLOB, INDEX


def lsn_of(page):
    return number_at(page, PAGE_LSN, 8)


def found(image):
    """Space, number and bytes of each page that is found, in the order of the places."""
    for place in range(0, len(image) - PAGE_SIZE + 1, SECTOR):
        page = image[place:place + PAGE_SIZE]
        space, number = number_at(page, PAGE_SPACE, 4), number_at(page, PAGE_NUMBER, 4)
        is_one = type_of(page) in TYPES and space != 0 and number < MOST_PAGES
        if is_one and page[LSN_END:] == page[PAGE_LSN + 4:PAGE_LSN + 8] and checksum_kinds([page])[0]:
            yield space, number, page


def newest(image):
    """By space, and in it by number, the page with the greatest LSN, of equal ones the first."""
    spaces = {}
    for space, number, page in found(image):
        pages = spaces.setdefault(space, {})
        if number not in pages or lsn_of(pages[number]) < lsn_of(page):
            pages[number] = page
    return spaces


def summed(pages):
    return 'pages %d newest %d\n' % (len(pages), max(map(lsn_of, pages)))


def listing(spaces):
    """The lines of `list`."""
    lines = []
    for space, pages in sorted(spaces.items()):
        lines.append('space %d %s' % (space, summed(pages.values())))
        indexes = {}
        for page in pages.values():
            if type_of(page) == INDEX:
                indexes.setdefault(level_and_id(page)[1], []).append(page)
        for index, members in sorted(indexes.items()):
            leaves = sum(level_and_id(page)[0] == 0 for page in members)
            lines.append('space %d index %d leaves %d %s' % (space, index, leaves, summed(members)))
    return ''.join(lines).encode()


def line_of(pages):
    """The line of `take`."""
    return b'pages=%d of=%d newest=%d\n' % (len(pages), max(pages) + 1, max(map(lsn_of, pages.values())))

"""Times `ibd-carve list` and `take` over made images against reading the same image with `dd bs=1M`.

The images are made here, one after the other, in the folder for temporary files, which needs room for twice as much as
an image; each of them is removed before the next one is made. `dd`, `list` and `take` are run in turn, N times each,
over an image that is in the system's cache; printed are the least times by the clock, of a processor, and the ratios of
those by the clock. What `list` and `take` say is compared with what was put into the image.
"""

import os
import random
import struct
import subprocess
import sys
import tempfile
import time

from page_writer import put_frame, put_sums

from innodb_layout import (
    CHECKSUM, CRC_START, FLUSH_LSN, INDEX, LEVEL, PAGE_SIZE, SUMMED_BODY, SUMMED_HEAD, carry, crc_state, folds)

SPACE, INDEX_ID, LSN = 58, 131, 0x100000000
BLOCK = 1 << 20
# One of so many pages' room has a page, where there are few.
FEW = 1024


def one_page():
    """A page without number, LSN and checksums, with a body of any bytes."""
    page = bytearray(random.Random(1).randbytes(PAGE_SIZE))
    page[:SUMMED_BODY.start] = bytes(SUMMED_BODY.start)
    struct.pack_into('>HQ', page, LEVEL, 0, INDEX_ID)
    return page


class Pages:
    """Pages of one body with other numbers and LSNs, whose checksums need the sum of that body once."""

    def __init__(self, kind):
        self.kind, self.page = kind, one_page()
        body = bytes(self.page[SUMMED_BODY])
        self.body_sum = crc_state(body) if kind == 'crc32' else folds([body])[0]

    def made(self, numbers):
        heads = []
        for number in numbers:
            put_frame(self.page, number, INDEX, SPACE, LSN + number)
            heads.append(bytes(self.page[:SUMMED_BODY.start]))
        for head, sums in zip(heads, self.sums(heads)):
            page = bytearray(self.page)
            page[:len(head)] = head
            put_sums(page, *sums)
            yield bytes(page)

    def sums(self, heads):
        if self.kind == 'crc32':
            # Two states that are inverted, so that the inversions cancel out.
            sums = [carry(CRC_START, head[SUMMED_HEAD]) ^ self.body_sum for head in heads]
            return [(each, each) for each in sums]
        first = [(each + self.body_sum) & 0xFFFFFFFF for each in folds([head[SUMMED_HEAD] for head in heads])]
        fronts = [struct.pack('>I', each) + head[CHECKSUM + 4:FLUSH_LSN] for each, head in zip(first, heads)]
        return list(zip(first, folds(fronts)))


def filled(blocks, size):
    """Bytes of no page: these blocks, over and over."""
    return [blocks[number % len(blocks)] for number in range(size // BLOCK)]


def sparse_image(file, size):
    """Random bytes, text and zeros, and a page here and there, not always at a multiple of its length."""
    random_block = random.Random(2).randbytes(BLOCK)
    text_block = (b'a page of a text that somebody wrote into a file, ' * (BLOCK // 50 + 1))[:BLOCK]
    for block in filled([random_block, text_block, bytes(BLOCK), random_block], size):
        file.write(block)
    count = size // PAGE_SIZE // FEW
    for number, page in enumerate(Pages('crc32').made(range(count))):
        file.seek(number * FEW * PAGE_SIZE + number % 8 * 512)
        file.write(page)
    return count


def zero_image(file, size):
    for block in filled([bytes(BLOCK)], size - BLOCK):
        file.write(block)
    for page in Pages('crc32').made([0]):
        file.write(page)
    return 1


def full_image(kind):
    def put(file, size):
        count, pages = size // PAGE_SIZE, Pages(kind)
        for first in range(0, count, 1024):
            for page in pages.made(range(first, min(first + 1024, count))):
                file.write(page)
        return count

    return put


IMAGES = {
    'few pages': sparse_image,
    'zeros': zero_image,
    'all pages, crc32': full_image('crc32'),
    'all pages, innodb': full_image('innodb'),
}


def run(words):
    """The time by the clock and of a processor, and what the command writes."""
    start = time.monotonic()
    child = subprocess.Popen(words, stdout=subprocess.PIPE, stderr=subprocess.DEVNULL)
    out = child.stdout.read()
    _, status, used = os.wait4(child.pid, 0)
    child.returncode = os.waitstatus_to_exitcode(status)
    if child.returncode:
        sys.exit('%s ends with %d' % (words, child.returncode))
    return time.monotonic() - start, used.ru_utime + used.ru_stime, out.decode()


def measure(name, put, program, size, runs, folder):
    image, made = (os.path.join(folder, word) for word in ('image', 'made'))
    with open(image, 'wb') as file:
        count = put(file, size)
    newest = LSN + count - 1
    said = {
        'dd': '',
        'list': 'space %d pages %d newest %d\n' % (SPACE, count, newest)
                + 'space %d index %d leaves %d pages %d newest %d\n' % (SPACE, INDEX_ID, count, count, newest),
        'take': 'pages=%d of=%d newest=%d\n' % (count, count, newest),
    }
    words = {
        'dd': ['dd', 'bs=1M', 'if=%s' % image, 'of=/dev/null'],
        'list': [program, 'list', image],
        'take': [program, 'take', str(SPACE), image, made],
    }
    took = {command: [] for command in words}
    run(words['dd'])
    for _ in range(runs):
        for command, each in words.items():
            *times, out = run(each)
            if out != said[command]:
                sys.exit('%s writes %r, and not %r' % (each, out, said[command]))
            took[command].append(times)
        os.remove(made)
    print('%s: %.0f MB, %d pages' % (name, os.path.getsize(image) / 1e6, count))
    base = min(clock for clock, _ in took['dd'])
    for command, times in took.items():
        clock, processor = (min(each) for each in zip(*times))
        print('  %s: %.3f s, %.1f x dd; %.3f s of a processor' % (command, clock, clock / base, processor), flush=True)
    os.remove(image)


def add_words(parser):
    parser.add_argument('--runs', type=int, default=5, metavar='N', help='runs of each command (5)')
    parser.add_argument('--megabytes', type=int, default=1000, metavar='N', help='the size of an image (1,000)')
    parser.add_argument('program', metavar='PROGRAM', help='the program that is measured')


def measure_all(given):
    size = given.megabytes * 10**6 // BLOCK * BLOCK
    for name, put in IMAGES.items():
        with tempfile.TemporaryDirectory() as folder:
            measure(name, put, given.program, size, given.runs, folder)

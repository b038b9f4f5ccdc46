"""Reads lines of crates/cases/stdin: texts, bytes, and the files and schemas that lines name, as crates/cases/README.md
says. The pages of a file are made of the named files of a reference."""

import io
import re
import struct

from case_texts import decoded, rows_of
from page_writer import NOWHERE, address, put_frame
from scripts import TOP

from innodb_layout import BITMAP_SIZE, EXTENT_NODE, FREE, PAGE_SIZE as PAGE, descriptor_place

CASES = TOP / 'crates/cases/stdin'
RULES = TOP / 'docs/RULES.md'
ZEROS = bytes(PAGE)


def bytes_of(word):
    """The bytes of an edit: digits or a text in quotes, each with how often it stands."""
    out = bytearray()
    for text, digits, times in re.findall(r"(?:'([^']*)'|([0-9A-Fa-f]+))(?:\*(\d+))?", word):
        part = bytes.fromhex(digits) if digits else decoded(text)
        out += part * int(times or 1)
    return bytes(out)


def divided(line):
    """What is done and the answer of a line; None in the place of the answer where there is none."""
    case = line.split(' # ')[0].rstrip() if ' # ' in line else line
    left, arrow, answer = case.partition(' -> ')
    return left, answer if arrow else None


class File:
    """The pages of a file that are not zeros, its number of bytes, and its schema text. It reads like a tablespace."""

    stage = 'full'

    def __init__(self, held, size, schema):
        self.held, self.size, self.schema = held, size, schema

    @property
    def pages(self):
        return self.size // PAGE

    def page(self, n):
        return self.held.get(n, ZEROS)


class Shelf:
    """The files and schemas that lines name, over the modules `files` and `ibd` of a reference."""

    def __init__(self, files, ibd):
        self.files, self.ibd = files, ibd
        self.schemas = {name: text for name, (_, text) in files.FILES.items() if name != 'S'}
        self.named = {}
        for name in self.schemas:
            made = files.make_pages(name)
            held = {n: bytes(page) for n, page in made.held.items()}
            self.named[name] = File(held, made.count * PAGE, self.schemas[name])

    def take(self, line):
        """Takes the name that a line gives, if it gives one."""
        left, _ = divided(line)
        found = re.match(r'(schema|file) (\S+) =(?: (.*))?$', left)
        if not found:
            return
        kind, name, text = found.group(1), found.group(2), found.group(3) or ''
        if kind == 'schema':
            self.schemas[name] = decoded(text)
        elif text.startswith('build '):
            self.named[name] = self.built(*text[6:].partition(' = ')[::2])
        else:
            self.named[name] = self.file(text.split(' '))

    def built(self, words, rows):
        """What a build leaves; None where a call of it fails."""
        schema, *items = words.split(' ')
        if items:
            return None
        table = self.ibd.read_schema(self.schemas[schema], 'full')
        layout = self.ibd.build(table, io.BytesIO(rows_of(rows)))
        return File(dict(layout.held), layout.pages * PAGE, self.schemas[schema])

    def file(self, words):
        """The file of `BASE ITEM ..`."""
        base, words = self.named[words[0]], list(words[1:])
        made, is_open = File(dict(base.held), base.size, base.schema), set()
        while words:
            word = words.pop(0)
            if word == 'schema':
                made.schema = self.schemas[words.pop(0)]
            elif word in ('pages', 'cut', 'more'):
                number = int(words.pop(0))
                made.size = {'pages': number * PAGE, 'cut': min(made.size, number), 'more': made.size + number}[word]
            elif word == 'seal':
                kind = words.pop(0) if words and words[0] in ('innodb', 'none') else 'crc32'
                self.seal(made, is_open, kind)
            elif word == 'raw':
                is_open.clear()
            else:
                number, _, edit = word.partition(':')
                made.held[int(number)] = self.edited(made.page(int(number)), int(number), edit)
                is_open.add(int(number))
        self.seal(made, is_open, 'crc32')
        return made

    def seal(self, made, is_open, kind):
        for n in is_open:
            made.held[n] = self.files.seal(made.held[n], kind)
        is_open.clear()

    def edited(self, page, n, edit):
        page = bytearray(page)
        if edit.startswith('page='):
            page[:] = ZEROS
            put_frame(page, n, int(edit[5:]), self.files.SPACE, self.files.LSN)
        elif edit.startswith('free='):
            put_free_extents(page, n, *map(int, edit[5:].split('-')))
        elif edit:
            at, how, data = re.fullmatch(r'(\d+)([=^])(.*)', edit).groups()
            at, data = int(at), bytes_of(data)
            old = page[at:at + len(data)]
            page[at:at + len(data)] = data if how == '=' else bytes(a ^ b for a, b in zip(old, data))
        assert len(page) == PAGE
        return bytes(page)


def put_free_extents(page, n, first, last):
    """Makes these extents free, and links them in their order."""
    def node(extent):
        return address(n, descriptor_place(extent) + EXTENT_NODE) if first <= extent <= last else NOWHERE
    for extent in range(first, last + 1):
        struct.pack_into('>Q6s6sI16s', page, descriptor_place(extent), 0, node(extent - 1), node(extent + 1), FREE,
                         b'\xff' * BITMAP_SIZE)

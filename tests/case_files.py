"""Lines that name a file of a reference, by the items that make it of another one, and what the reference answers."""

import sys

from case_texts import bytes_of, text_of
from page_writer import put_frame

from innodb_layout import BODY_END, CHECKSUM, PAGE_NUMBER, PAGE_SIZE as PAGE, type_of

LONGEST = 5000              # letters of the lines of a file and its schema


def changed_runs(old, new, start, end):
    """From where to where the pages differ; short stretches between two such places count as changed."""
    found = []
    for block in range(start, end, 64):
        if old[block:block + 64] == new[block:block + 64]:
            continue
        for at in range(block, min(block + 64, end)):
            if old[at] == new[at]:
                continue
            if found and at - found[-1][1] <= 3:
                found[-1][1] = at + 1
            else:
                found.append([at, at + 1])
    return found


class Pages:
    """The items that make one page of another, by how the page is sealed."""

    def __init__(self, files):
        self.files = files
        self.sealed = {'crc32': [], 'innodb': [], 'none': [], 'raw': []}

    def put(self, n, old, new):
        if old == new:
            return
        items = []
        if not any(old) and new[CHECKSUM:PAGE_NUMBER] != old[CHECKSUM:PAGE_NUMBER]:
            kind = type_of(new)
            items.append('%d:page=%d' % (n, kind))
            old = bytearray(PAGE)
            put_frame(old, n, kind, self.files.SPACE, self.files.LSN)
        for kind in ('crc32', 'innodb', 'none'):
            if self.files.seal(new, kind) == new:
                items += edits(n, old, new, PAGE_NUMBER, BODY_END)
                self.sealed[kind] += items or ['%d:' % n]
                return
        best = items + edits(n, old, new, 0, PAGE)
        self.sealed['raw'] += best

    def items(self):
        """Those that are sealed as usual last, since they need no word."""
        out = []
        for kind, word in (('raw', 'raw'), ('innodb', 'seal innodb'), ('none', 'seal none'), ('crc32', '')):
            if self.sealed[kind]:
                out += self.sealed[kind] + ([word] if word else [])
        return out


def edits(n, old, new, start, end):
    return ['%d:%d=%s' % (n, a, bytes_of(new[a:b])) for a, b in changed_runs(old, new, start, end)]


def items_of(files, old, new):
    """The items that make one file of another; both are lists of pages."""
    pages = Pages(files)
    for n, page in enumerate(new):
        pages.put(n, bytes(old[n]) if n < len(old) else bytes(PAGE), bytes(page))
    return (['pages %d' % len(new)] if len(old) != len(new) else []) + pages.items()


class Reference:
    def __init__(self, folder):
        sys.path.insert(0, folder)
        import files
        import fuzz
        import ibd
        import staged_fuzz
        self.files, self.fuzz, self.ibd, self.staged = files, fuzz, ibd, staged_fuzz

    def answers(self, schema_text, data):
        """What `check` and `dump` answer."""
        try:
            schema = self.ibd.read_schema(schema_text, 'full')
            checked, text = self.ibd.dump(self.ibd.Tablespace(data, 'full'), schema)
        except self.ibd.Stop as stop:
            return stop.line, stop.line
        if len(text) > 60:
            return checked.line().decode(), 'bytes=%d sum=%08x' % (len(text), self.ibd.crc32c(text))
        return checked.line().decode(), text_of(text) or 'nothing'


def words_of(notes):
    """The notes of the reference on what was done, without the edits themselves."""
    words = []
    for note in notes:
        if note[:1].isdigit():
            continue
        for front in ('edit_', 'story_', 'reshape_'):
            note = note[len(front):] if note.startswith(front) else note
        words.append(note.replace('_', ' '))
    return ', '.join(words) or 'as it is'


def file_lines(reference, image):
    """The lines that name a good file and its schema, None where they are long."""
    name = image.name if image.name in reference.files.FILES else 'A'
    data = reference.files.make(name)
    old = [data[at:at + PAGE] for at in range(0, len(data), PAGE)]
    schema = 'schema random = ' + text_of(image.schema_text)
    line = ' '.join(['file RANDOM =', name] + items_of(reference.files, old, image.pages) + ['schema random'])
    return [schema, line] if len(schema) + len(line) <= LONGEST else None

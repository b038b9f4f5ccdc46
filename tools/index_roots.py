"""Which root of a tablespace file is that of which index of a table.

Index ids rise in the order in which the indexes were made, and SHOW CREATE TABLE lists the indexes of one group (unique
ones without a column that may be null, other unique ones, the rest) in that order too. So it is open only how the
groups go together; then the records of the roots are read with the fields of each index, and where that leaves it open
entries are looked up in the rows.
"""

import collections
import functools
import struct

from innodb_layout import (
    BODY_END, DELETED, GARBAGE, HEAP_START, HEAP_TOP, INDEX, INFIMUM, LEVEL, MARKS, NEXT_RECORD, PAGE_SIZE, RECORDS,
    RECORD_HEADER, number_at, type_of)
from table_description import HIDDEN_GROUP, SPATIAL
from table_schema import FIRST_ROOT, Field, TableSchema, field_of
from tablespace_file import LeftOut, NotTold, Root, partitioned_table

# How many entries are looked up at most, about.
ENTRIES = 20

SYSTEM = {length: Field(length, length, False, False) for length in (4, 6, 7)}


class Shape:
    """The fields of an index: those of its leaf records, how many of them are its key, and those of a node pointer."""

    def __init__(self, name, fields, key_count, columns):
        self.name, self.leaf, self.key_count, self.columns = name, fields, key_count, columns
        self.node = fields[:key_count] + [SYSTEM[4]]
        self.null_count = sum(field.null for field in fields)


def shapes_of(schema):
    """The shapes of the indexes of a schema text, in its order."""
    columns, shapes, clustered = {}, [], []
    for words in map(str.split, schema.splitlines()):
        if words[0] == 'column':
            columns[words[1]] = field_of(words[2:])
        elif words[0] == 'clustered':
            clustered = words[3:]
            key = [columns[name] for name in clustered] or [SYSTEM[6]]
            rest = [field for name, field in columns.items() if name not in clustered]
            names = clustered + [None] * (2 + (not clustered)) + [name for name in columns if name not in clustered]
            shapes.append(Shape('the clustered index', key + [SYSTEM[6], SYSTEM[7]] + rest, len(key), names))
        elif words[0] == 'index':
            names = words[4:] + [name for name in clustered if name not in words[4:]]
            fields = [columns[name] for name in names] + [SYSTEM[6]] * (not clustered)
            shapes.append(Shape('index `%s`' % words[1], fields, len(fields), names + [None] * (not clustered)))
    return shapes


class Page:
    def __init__(self, data):
        self.data = data
        self.level = number_at(data, LEVEL, 2)

    def number(self, place):
        return number_at(self.data, place, 2)

    def origins(self):
        """The records of the chain; fewer where it isn't one."""
        origin, found = INFIMUM, []
        for _ in range(self.number(RECORDS)):
            origin = (origin + self.number(origin - NEXT_RECORD)) % PAGE_SIZE
            if not HEAP_START <= origin < BODY_END:
                break
            found.append(origin)
        return found

    def fields(self, origin, shape):
        """Where the record begins, and the places of its fields, none for a null; nothing where they don't fit."""
        nulls = origin - RECORD_HEADER - 1
        fields, lengths, at, places = shape.node if self.level else shape.leaf, nulls, origin, []
        lengths -= (shape.null_count + 7) // 8
        bit = 0
        for field in fields:
            if field.null:
                is_null = self.data[nulls - bit // 8] >> bit % 8 & 1
                bit += 1
                if is_null:
                    places.append(None)
                    continue
            length = field.fixed
            if length is None:
                length, lengths = self.data[lengths], lengths - 1
                if field.longest > 255 and length >= 128:
                    # The bit in the middle says that the value goes on elsewhere.
                    length, lengths = (length & 63) << 8 | self.data[lengths], lengths - 1
            if length > field.longest or at + length > PAGE_SIZE or lengths < HEAP_START - 1:
                return None
            places.append((at, at + length))
            at += length
        return lengths + 1, at, places

    def fits(self, shape):
        """Whether the records fill, with what was freed, exactly what is used of the page."""
        found = [self.fields(origin, shape) for origin in self.origins()]
        if len(found) < self.number(RECORDS) or None in found:
            return False
        used = sum(end - start for start, end, _ in found)
        return used == self.number(HEAP_TOP) - HEAP_START - self.number(GARBAGE)

    def fits_first(self, shape):
        origins = self.origins()
        return bool(origins) and self.fields(origins[0], shape) is not None

    def values(self, origin, shape):
        """The bytes of each field, nothing for a null."""
        found = self.fields(origin, shape)
        return found and [place and self.data[place[0]:place[1]] for place in found[2]]


def order_of(value, field):
    return value.ljust(field.longest, b' ') if field.is_text else value


class Trees:
    """The trees of a file, as far as they are read to tell one index from another."""

    def __init__(self, file, shapes, roots):
        self.file, self.shapes, self.roots = file, shapes, roots
        self.pages = [Page(file.page(root.page)) for root in roots]

    def child(self, page, values):
        number = struct.unpack('>I', values[-1])[0]
        data = self.file.page(number)
        if number >= self.file.size() or type_of(data) != INDEX or Page(data).level != page.level - 1:
            return None
        return Page(data)

    def first_leaf(self, page, shape):
        """The first leaf below a page; nothing where none is found."""
        while page and page.level:
            values = [page.values(origin, shape) for origin in page.origins()[:1]]
            page = self.child(page, values[0]) if values and values[0] else None
        return page

    def entries(self, page, shape):
        """The values of some entries of the first leaf that aren't deleted."""
        page = self.first_leaf(page, shape)
        origins = [origin for origin in page.origins() if not page.data[origin - MARKS] & DELETED] if page else []
        step = max(1, len(origins) // ENTRIES)
        return [values for values in (page.values(origin, shape) for origin in origins[::step]) if values]

    def row(self, key):
        """The values of the row with this key, by the name of its column; nothing where there is none."""
        page, shape = self.pages[0], self.shapes[0]
        fields = shape.leaf[:shape.key_count]
        wanted = [order_of(value, field) for value, field in zip(key, fields)]
        while page:
            last = None
            for place, origin in enumerate(page.origins()):
                values = page.values(origin, shape)
                if values is None:
                    return None
                found = [order_of(value, field) for value, field in zip(values, fields)]
                if found > wanted and not (place == 0 and page.level):
                    break
                last = values, found
            if last is None:
                return None
            if page.level == 0:
                return dict(zip(shape.columns, last[0])) if last[1] == wanted else None
            page = self.child(page, last[0])
        return None

    def agree(self, which, root):
        """Whether most of some entries of a tree are those of the rows, as an index's; true where it has none."""
        shape, clustered = self.shapes[which], self.shapes[0]
        names = clustered.columns[:clustered.key_count]
        good = total = 0
        for values in self.entries(self.pages[root], shape):
            entry = dict(zip(shape.columns, values))
            row = self.row([entry[name] for name in names])
            total += 1
            good += row is not None and all(row.get(name) == value for name, value in entry.items() if name)
        return total == 0 or good * 2 > total


def orders(groups, count, may_be):
    """Up to two ways to give the roots, by rising index id, to the indexes, so that those of each group rise. A group
    is a list of indexes; a way has the index of each root."""
    @functools.lru_cache(maxsize=None)
    def ways(taken):
        root = sum(taken)
        if root == count:
            return [[]]
        found = []
        for number, group in enumerate(groups):
            if taken[number] < len(group) and may_be(group[taken[number]], root):
                more = taken[:number] + (taken[number] + 1,) + taken[number + 1:]
                found += [[group[taken[number]]] + way for way in ways(more)]
        return found[:2]
    return ways((0,) * len(groups))


def order_of_roots(trees, groups):
    """The index of each root by rising index id; nothing where that is open. `groups` has the group of each index."""
    count, indexes = len(groups), range(len(groups))
    # The clustered index is made first, and is a group of its own.
    members = [[0]] + [[index for index in indexes if index and groups[index] == group]
                       for group in sorted(set(groups[1:]))]

    @functools.lru_cache(maxsize=None)
    def fits(index, root):
        return (index == 0) == (root == 0) and (index == 0 or trees.pages[root].fits(trees.shapes[index]))

    @functools.lru_cache(maxsize=None)
    def agrees(index, root):
        return fits(index, root) and (index == 0 or trees.agree(index, root))

    if len(members) <= 2:
        return list(indexes)
    found = orders(members, count, fits)
    if len(found) > 1:
        found = orders(members, count, agrees)
    if len(found) > 1:
        order = order_of_ids([root.index_id for root in trees.roots], groups)
        found = [order] if order and all(agrees(index, root) for root, index in enumerate(order)) else []
    return found[0] if found else None


def order_of_ids(ids, groups):
    """The index of each root where the ids alone tell it: where they follow each other, they were given out in one
    piece, in the order of the indexes. The hidden index of a full-text one comes after those of its other tables, or
    last, after the full-text ones, where a table that was there got its first."""
    def in_one_piece(ids):
        return all(after == before + 1 for before, after in zip(ids, ids[1:]))

    indexes = list(range(len(ids)))
    if HIDDEN_GROUP not in groups[1:]:
        return indexes if in_one_piece(ids) else None
    if in_one_piece(ids[1:]):
        return indexes
    return indexes[:1] + indexes[2:] + indexes[1:2] if in_one_piece(ids[:-1]) else None


def counted(count, what, many=None):
    return '%d %s' % (count, what if count == 1 else many or what + 's')


def candidates(trees):
    """A line for each root: what is known of it, and the indexes whose fields its first record has."""
    lines = []
    for root, page in zip(trees.roots, trees.pages):
        fitting = ['%s (%s)' % (shape.name, counted(len(shape.node if page.level else shape.leaf), 'field'))
                   for shape in trees.shapes if page.fits_first(shape)]
        lines.append('page %d: index id %d, level %d, %s; its first record fits %s' % (
            root.page, root.index_id, root.level, counted(root.records, 'record'), ', '.join(fitting) or 'no index'))
    return lines


class RootsOpen(NotTold):
    """Why it is open which root is that of which index, and a line for each root."""

    def __init__(self, why, trees):
        super().__init__(why)
        self.lines = candidates(trees)


def pages_of(schema, text, file):
    """The root page of each index of the text, in its order, as the file has them; raises RootsOpen."""
    indexes = schema.indexes
    trees = Trees(file, shapes_of(text), file.roots())
    names = ', '.join(index.what for index in indexes)
    if len(trees.roots) != len(indexes):
        raise RootsOpen('the file has %s, and the table %s (%s)' % (
            counted(len(trees.roots), 'root'), counted(len(indexes), 'index', 'indexes'), names), trees)
    order = order_of_roots(trees, [schema.table.group_of(index) for index in indexes])
    if order is None:
        raise RootsOpen('the file leaves open which root is that of which index (%s); choose by --roots' % names, trees)
    return [trees.roots[order.index(index)].page for index in range(len(indexes))]


def rows_root(schema, file):
    """The root of the rows: the one with the lowest index id, as the rows' index is made first; nothing where the file
    has fewer roots than there are indexes, since that of the rows may be lost then, unless it is the usual one."""
    count = sum(index.kind != SPATIAL for index in schema.table.ordered_indexes())
    roots = file.roots()
    return roots[0].page if roots and (len(roots) >= count or roots[0].page == FIRST_ROOT) else None


def rows_of(table, choice, file):
    """The answer where the rows alone are asked for: also of a file that is broken in any place."""
    notes = []
    try:
        table.format = file.row_format(choice.partition, True)
    except LeftOut:
        raise
    except NotTold as why:
        notes.append("the file doesn't tell its row format: %s" % why)
    schema, roots = TableSchema(table, choice), choice.roots
    if roots is None:
        root = rows_root(schema, file)
        roots = [root or FIRST_ROOT]
        if root is None:
            notes.append("the file doesn't tell the root of the rows; it is taken for page %d, as it mostly is"
                         % FIRST_ROOT)
    text = schema.text(roots) if table.is_read else ''
    if schema.refused or not table.is_read:
        return Answer('', schema.refused, True, [])
    return Answer(text, [], bool(notes) or fills(text, roots[0], file), notes)


# The schema text, what isn't served, whether the rows of the file are as long as the columns of the table, and what
# the file doesn't tell.
Answer = collections.namedtuple('Answer', 'text refused fills notes')


def gives_rows(table, choice, file=None):
    """Whether a table has a schema text for its rows alone, by which `ibd-salvage` reads them."""
    try:
        if file is not None:
            file.row_format(choice.partition, True)
    except NotTold:
        return False
    schema = TableSchema(table, choice._replace(rows=True, roots=None))
    schema.text()
    return table.is_read and not schema.refused


def schema_of(table, choice, file=None):
    """The answer for a table of table_description.py and a Choice of table_schema.py, with the roots and the row format
    of a file where one is given. Raises NotTold where the file doesn't tell them, and NotServed where there is another
    number of roots; where something is refused the text is none."""
    if file is not None and partitioned_table(file.name) is not None and not choice.partition:
        raise LeftOut('a partition of a table, which is served by --partition')
    if file is not None and choice.rows:
        return rows_of(table, choice, file)
    if file is not None:
        table.format = file.row_format(choice.partition)
    schema = TableSchema(table, choice)
    text = schema.text(choice.roots) if table.is_read else ''
    if schema.refused or not table.is_read:
        return Answer('', schema.refused, True, [])
    if file is None:
        return Answer(text, [], True, [])
    roots = choice.roots or pages_of(schema, text, file)
    text = schema.text(roots)
    return Answer(text, [], fills(text, roots[0], file), [])


def fills(schema, root, file):
    """Whether the rows of the first leaf, with what was freed, are as long as what is used of the page: where they
    aren't, the file has other columns, as after an ADD COLUMN. True where there is no such leaf."""
    shapes = shapes_of(schema)
    trees = Trees(file, shapes, [Root(root, 0, 0, 0)])
    leaf = trees.first_leaf(trees.pages[0], shapes[0])
    return leaf is None or leaf.fits(shapes[0])

"""Makes .frm files for the tests of the tools, as far as these read them: of MySQL 5.7, or of MariaDB with its sections
after the head."""

import collections
import struct

MYSQL, MARIADB = 50744, 101119
SIGNED, NUMBER, BLOB, NULLABLE = 1, 2, 1024, 32768
# The flags of a blob or text by the bytes of its length.
BLOBS = {size: BLOB | kind << 3 for size, kind in {1: 1, 2: 2, 3: 9, 4: 3}.items()}
LATIN, ASCII_BIN, LATIN_BIN, UTF8MB4_BIN, UTF8_BIN, BINARY = 8, 65, 47, 46, 83, 63

Field = collections.namedtuple('Field', 'name kind length flags collation check members comment expression stored')
Key = collections.namedtuple('Key', 'name parts flags algorithm')


def field(name, kind, length, flags=0, collation=BINARY, check=0, members=None, comment='', expression=None,
          stored=False):
    return Field(name, kind, length, flags, collation, check, members, comment, expression, stored)


def number(name, kind, length, flags=SIGNED | NULLABLE, **more):
    return field(name, kind, length, flags | NUMBER, **more)


def key(name, *parts, flags=0, algorithm=0):
    """A unique key, or with flags of 1 another one; a part is the number of a field, from 1 on, and the bytes that the
    key has of it."""
    return Key(name, parts, flags, algorithm)


def listed(texts):
    """Some texts, with a byte that none of them has around each."""
    return b''.join(b'\xff' + text for text in texts) + b'\xff\0' if texts is not None else b'\0'


def key_bytes(keys):
    parts = b''
    for made in keys:
        parts += struct.pack('<HHBBH', made.flags, 0, len(made.parts), made.algorithm, 0)
        for place, length, *order in made.parts:
            parts += struct.pack('<HHBHH', place | 32768, 2, order[0] if order else 0, 0, length)
    names = listed([made.name.encode() for made in keys])
    count = sum(len(made.parts) for made in keys)
    head = struct.pack('<BB', len(keys) & 127 | 128, len(keys) >> 7) if len(keys) > 127 else bytes([len(keys), count])
    return head + struct.pack('<HH', count if len(keys) > 127 else 0, len(names)) + parts + names


def field_bytes(fields, is_mysql, old_generated):
    """The fields, their names with the lists of members, comments, expressions, and the number of lists."""
    fixed, lists, comments, expressions = b'', b'', b'', b''
    count = 0
    for made in fields:
        kind, check, interval = made.kind, made.check, 0
        if made.members is not None:
            count += 1
            interval = count
            lists += listed(made.members)
        if made.expression is not None and is_mysql:
            check |= 128
            expressions += struct.pack('<BHB', 1, len(made.expression), made.stored) + made.expression.encode()
        elif made.expression is not None and old_generated:
            item = struct.pack('<BBB', 1, kind, made.stored) + made.expression.encode()
            kind, interval, expressions = 245, len(item), expressions + item
        comments += made.comment.encode()
        fixed += struct.pack('<3xH3sHBBBBBH', made.length, bytes(3), made.flags, check, made.collation >> 8, interval,
                             kind, made.collation & 255, len(made.comment.encode()))
    if not is_mysql and not old_generated and any(made.expression is not None for made in fields):
        expressions = bytes(16) + b''.join(
            struct.pack('<BHHB', made.stored, place, len(made.expression), 0) + made.expression.encode()
            for place, made in enumerate(fields) if made.expression is not None)
    names = listed([made.name.encode() for made in fields])
    return fixed, names, lists, comments, expressions, count


def extra_bytes(engine, partitions, comment, formats, is_mysql, tablespace, compression, encryption):
    extra = struct.pack('<H', 0) + struct.pack('<H', len(engine)) + engine.encode()
    extra += struct.pack('<I', len(partitions)) + partitions.encode() + b'\0' + b'\0'
    if len(comment) > 180:
        extra += struct.pack('<H', len(comment)) + comment.encode()
    if is_mysql:
        formats = tablespace.encode() + b'\0' + formats
        extra += struct.pack('<HIH', 8 + len(formats), 0, 0) + formats
        for text in (compression, encryption):
            extra += struct.pack('<H', len(text)) + text.encode()
    return extra


def section(kind, data):
    return bytes([kind]) + (bytes([len(data)]) if 0 < len(data) < 256 else struct.pack('<BH', 0, len(data))) + data


def frm(fields, keys=(), server=MYSQL, form=None, sections=b'', engine='InnoDB', partitions='', comment='',
        collation=LATIN, row_type=0, block_size=0, tablespace='', compression='', encryption='', choices=0,
        old_generated=False, engine_number=12, partition_engine=0, formats=None):
    """The bytes of a file."""
    is_mysql = server < 100000
    if form is None:
        form = 10 if is_mysql or old_generated or all(made.expression is None for made in fields) else 11
    fixed, names, lists, comments, expressions, count = field_bytes(fields, is_mysql, old_generated)
    extra = extra_bytes(engine, partitions, comment, formats or bytes(len(fields)), is_mysql, tablespace, compression,
                        encryption)
    packed, record = key_bytes(keys), bytes(5)
    front = b'//\0' if is_mysql else section(0, bytes(16)) + sections
    keys_place = 4096 if is_mysql else 64 + len(front) + 4
    extra_place = keys_place + len(packed) + len(record)
    form_place = extra_place + len(extra)
    if is_mysql:
        form_place += -form_place % 4096
    screens = b'\x05\0\x01\x02\x03' if is_mysql else b''
    head = bytearray(64)
    struct.pack_into('<2sBBHHH', head, 0, b'\xfe\x01', form, engine_number, len(front), keys_place, 1)
    struct.pack_into('<HH', head, 14, min(len(packed), 0xFFFF), len(record))
    struct.pack_into('<HH', head, 28, len(packed), 0)
    struct.pack_into('<BBBBB', head, 38, collation & 255, choices, row_type, collation >> 8, 0)
    struct.pack_into('<III', head, 47, len(packed), server, len(extra))
    struct.pack_into('<BH', head, 61, partition_engine, block_size)
    head[33] = 5
    sizes = bytearray(288)
    is_long = len(comment) > 180
    sizes[46] = 255 if is_long else len(comment)
    sizes[47:47 + len(comment) * (not is_long)] = b'' if is_long else comment.encode()
    struct.pack_into('<HH', sizes, 258, len(fields), len(screens))
    struct.pack_into('<HHHH', sizes, 268, len(names), count, 0, len(lists))
    struct.pack_into('<HH', sizes, 284, len(comments), len(expressions))
    data = bytes(head) + front + struct.pack('<I', form_place)
    data = data.ljust(keys_place, b'\0') + packed + record + extra
    return data.ljust(form_place, b'\0') + bytes(sizes) + screens + fixed + names + lists + comments + expressions

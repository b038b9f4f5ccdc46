"""Tables for the tests that take a server: statements that make and fill them."""

import random

DRAW = random.Random(21)

# --- the tables ------------------------------------------------------------------------------------------------------

TABLES = []


def table(create, rows=(), then=(), directory=False):
    """A table: the part of CREATE TABLE behind its name, rows as lists of SQL values, and statements behind them."""
    name = create.split(' ', 1)[0]
    TABLES.append((name, create.split(' ', 1)[1], rows, then, directory))


def text(value):
    return "'%s'" % value.replace('\\', '\\\\').replace("'", "''").replace('\0', '\\0')


def hexes(data):
    return "x'%s'" % data.hex()


def ends(bits):
    return [-2 ** (bits - 1), -1, 0, 1, 2 ** (bits - 1) - 1]


def words(low, high, letters='abcdefghij KLMNOP'):
    return ''.join(DRAW.choice(letters) for _ in range(DRAW.randint(low, high)))


INTEGERS = [('tinyint', 8), ('smallint', 16), ('mediumint', 24), ('int', 32), ('bigint', 64)]
ASCII = 'CHARACTER SET ascii COLLATE ascii_bin'
LATIN = 'CHARACTER SET latin1 COLLATE latin1_bin'
UTF8 = 'CHARACTER SET utf8mb4 COLLATE utf8mb4_bin'

for number, (kind, bits) in enumerate(INTEGERS):
    table('%s_key (id %s NOT NULL, u %s unsigned NOT NULL, n %s, z %s(5) zerofill, PRIMARY KEY (id), UNIQUE KEY u (u), '
          'KEY n (n)) ROW_FORMAT=%s' % (kind, kind, kind, kind, kind, ('DYNAMIC', 'COMPACT')[number % 2]),
          [[value, unsigned, 'NULL' if value == 0 else value, abs(value) % 100000]
           for value, unsigned in zip(ends(bits), [0, 1, 2 ** (bits - 1), 2 ** bits - 2, 2 ** bits - 1])])
table('unsigned_key (id bigint unsigned NOT NULL AUTO_INCREMENT, v int DEFAULT 5, PRIMARY KEY (id)) '
      "COMMENT='it''s, (a) `t`'",
      [[0, 1], [1, 'NULL'], [2 ** 63, -5], [2 ** 64 - 1, 7]])

MOMENTS = ['datetime', 'datetime(1)', 'datetime(3)', 'datetime(6)']
table('moments (id int NOT NULL, d date NOT NULL, %s, y year, PRIMARY KEY (id), KEY d (d, m3))'
      % ', '.join('m%d %s' % pair for pair in enumerate(MOMENTS)),
      [[1, "'0000-00-00'"] + ["'0000-00-00 00:00:00'"] * 4 + ["'0000'"],
       [2, "'9999-12-31'", "'9999-12-31 23:59:59'", "'9999-12-31 23:59:59.9'", "'9999-12-31 23:59:59.999'",
        "'9999-12-31 23:59:59.999999'", 2155],
       [3, "'2012-02-31'"] + ["'2012-00-00 00:00:00'"] * 4 + [1901],
       [4, "'1000-01-01'"] + ['NULL'] * 4 + ['NULL'],
       [5, "'2024-02-29'"] + ["'2024-02-29 12:34:56.5'"] * 4 + [2024]])
table('stamps (id int NOT NULL, %s, PRIMARY KEY (id), KEY k (s6))'
      % ', '.join('s%d timestamp(%d) NULL DEFAULT NULL' % (f, f) for f in range(7)),
      [[1] + ["'0000-00-00 00:00:00'"] * 7, [2] + ["'1970-01-01 00:00:01'"] * 7,
       [3] + ["'2038-01-19 03:14:07'"] * 7, [4] + ['NULL'] * 7, [5] + ["'2024-02-29 12:34:56.123456'"] * 7])
table('now_stamps (id int NOT NULL, '
      's timestamp(3) NOT NULL DEFAULT CURRENT_TIMESTAMP(3) ON UPDATE CURRENT_TIMESTAMP(3), '
      "d datetime DEFAULT CURRENT_TIMESTAMP COMMENT 'made, at', PRIMARY KEY (s, id))",
      [[number, "'2024-02-29 12:34:56.%03d'" % number, 'NULL'] for number in range(500)])

DECIMALS = [(1, 0), (9, 0), (10, 2), (5, 5), (18, 9), (20, 10), (38, 0), (38, 30), (30, 30), (12, 11)]


def decimals(sign, digit):
    return ['%s%s.%s' % (sign, digit * (p - s) or '0', digit * s) for p, s in DECIMALS]


table('decimals (id decimal(10,2) NOT NULL, %s, u decimal(6,3) unsigned, PRIMARY KEY (id), KEY k (d2, d7)) '
      'ROW_FORMAT=COMPACT' % ', '.join('d%d decimal(%d,%d)' % (n, p, s) for n, (p, s) in enumerate(DECIMALS)),
      [['-99999999.99'] + decimals('-', '9') + [0], ['99999999.99'] + decimals('', '9') + ['999.999'],
       ['0'] + decimals('', '0') + ['0.001'], ['-0.01'] + ['NULL'] * len(DECIMALS) + ['NULL'],
       ['0.01'] + decimals('-', '1') + ['1.1'], ['1'] + decimals('', '5') + [2]])

SIGNS = ['', 'a', 'A', 'it\'s "quoted"', 'back\\slash', 'line\nfeed\rreturn\ttab', 'nul\0and\x1a', 'NULL', ' ', 'a b',
         "''", '\\n']
table('latin (c varchar(40) NOT NULL, f char(30) NOT NULL, n varchar(255), w varchar(1000), t text, PRIMARY KEY (c), '
      'KEY f (f, n), UNIQUE KEY n (n)) DEFAULT CHARSET=latin1 COLLATE=latin1_bin',
      [[text(sign.rstrip(' ') or 'blank%d' % number), text(sign), text(sign + str(number)), text(sign * 20),
        text(sign * 2)] for number, sign in enumerate(SIGNS)]
      + [["x'e4f6fc'", "x'ff80'", "x'a4'", "x'00'", "x'fe'"], ["'null'", "'null'", 'NULL', 'NULL', 'NULL']])
table('bytes (b binary(4) NOT NULL, v varbinary(255) NOT NULL, w varbinary(2000), t tinyblob, o blob, '
      'PRIMARY KEY (v, b), KEY w (b))',
      [[hexes(data[:4]), hexes(data), hexes(data * 5), hexes(data), hexes(data * 3)]
       for data in [b'', b'\0', b'\0\0', b' ', b'\xff' * 255, bytes(range(128, 256)), bytes(range(128)), b"'\\"]]
      + [["'z'", "'z'", 'NULL', 'NULL', 'NULL']])
LETTERS = 'aAbzäöß€漢字😀𝄞 \u0301\ufffd'
table('wide_text (k varchar(63) NOT NULL, n varchar(64), l varchar(700), t text, PRIMARY KEY (k), KEY n (n)) '
      'DEFAULT CHARSET=utf8mb4 COLLATE=utf8mb4_bin',
      [[text(words(1, 50, LETTERS) + str(number)), text(words(0, 64, LETTERS)), text(words(0, 700, LETTERS)),
        text(words(0, 900, LETTERS))] for number in range(300)] + [["'a'", "'%s'" % ('😀' * 64), 'NULL', 'NULL']])
table('other_sets (id int NOT NULL, a varchar(30) CHARACTER SET utf8 DEFAULT NULL, b text CHARACTER SET utf8, '
      'c varchar(20) CHARACTER SET ucs2, d varchar(20) CHARACTER SET sjis, e text CHARACTER SET latin1, '
      'f char(5) CHARACTER SET cp1251, g varchar(9) CHARACTER SET latin1, h longtext CHARACTER SET ascii, '
      'PRIMARY KEY (id)) DEFAULT CHARSET=utf8mb4',
      [[1, "'zoë €'", "'漢字'", "'漢a'", "'ソ表'", "'é'", "'Ж'", "'Zoë'", "'x'"], [2] + ["''"] * 8, [3] + ['NULL'] * 8])
table('composite (a smallint NOT NULL, b varchar(20) %s NOT NULL, c date NOT NULL, i int, '
      'v varchar(50) CHARACTER SET latin1, PRIMARY KEY (c, b, a), KEY k (a, i), KEY m (i, b), UNIQUE KEY u (a, b, c))'
      % ASCII,
      [[a, text(b), "'2020-01-%02d'" % day, DRAW.choice(['NULL', 5, -5]), text(words(0, 50))]
       for a in range(-5, 5) for b in ('', 'x', 'xx', 'y y') for day in (1, 2, 31)])
SEVEN = ['int', 'varchar(20) ' + ASCII, 'varchar(300) ' + LATIN, 'char(3) ' + ASCII, 'text', 'decimal(5,1)',
         'varbinary(9)']
table('nulls (id int NOT NULL AUTO_INCREMENT, %s, PRIMARY KEY (id), KEY k (c1, c2, c17, c3), KEY m (c34, c35))'
      % ', '.join('c%d %s' % (n, SEVEN[n % 7]) for n in range(40)),
      [[number + 1] + ['NULL' if DRAW.random() < share else
                       [number, "'s%d'" % number, "'long%d'" % number, "'f%d'" % (number % 9), "'text%d'" % number,
                        '%d.5' % number, "'b%d'" % number][n % 7] for n in range(40)]
       for number, share in enumerate([0, 1] + [0.5] * 200)])
table('unique_key (a int, b int NOT NULL, c varchar(10) %s NOT NULL, d int NOT NULL, KEY plain (a), '
      'UNIQUE KEY with_null (a, b), UNIQUE KEY first_whole (c, b), UNIQUE KEY second_whole (d))' % LATIN,
      [['NULL' if number % 3 else number, number, text('k%d' % (number * 7919 % 1000)), 1000 - number]
       for number in range(400)])
table('no_key (a int, b varchar(40) CHARACTER SET latin1)',
      [[number % 5, text(words(0, 40))] for number in range(700)])
table('no_primary (a int, b varchar(40) %s, UNIQUE KEY b (b), KEY a (a)) ROW_FORMAT=COMPACT' % ASCII,
      [[number % 5, 'NULL' if number % 4 == 0 else text('b%d' % number)] for number in range(700)],
      ['DELETE FROM no_primary WHERE a = 3', 'UPDATE no_primary SET b = NULL WHERE a = 2'])
SIZES = [0, 1, 127, 128, 700, 767, 768, 769, 8000, 8100, 16329, 16330, 16331, 40000, 300000]
for row_format in 'dynamic', 'compact':
    table('long_%s (id int NOT NULL, t longtext CHARACTER SET utf8mb4, b longblob, m mediumtext CHARACTER SET latin1, '
          'v varchar(9000) CHARACTER SET latin1, w varchar(5000) %s, PRIMARY KEY (id)) ROW_FORMAT=%s'
          % (row_format, UTF8, row_format),
          [[number, "REPEAT('aß€😀', %d)" % (size // 10), "REPEAT(x'00ff5c27', %d)" % (size // 4),
            'NULL' if number % 3 == 0 else "REPEAT('it''s', %d)" % (size // 4), text(words(0, min(size, 9000))),
            "REPEAT('é', %d)" % min(size // 2, 5000)] for number, size in enumerate(SIZES)],
          ["UPDATE long_%s SET t = CONCAT(t, 'more'), b = LEFT(b, 10000) WHERE id > 9" % row_format,
           'DELETE FROM long_%s WHERE id = 12' % row_format])
table('changed (id int NOT NULL, k varchar(60) %s NOT NULL, n int, t text CHARACTER SET latin1, PRIMARY KEY (id), '
      'KEY k (k), KEY n (n, k))' % LATIN,
      [[number, text(words(1, 60)), number % 77, text(words(0, 200))] for number in range(6000)],
      ['DELETE FROM changed WHERE id % 3 = 0',
       'UPDATE changed SET k = CONCAT(LEFT(k, 30), id), n = NULL WHERE id % 7 = 1',
       'UPDATE changed SET id = id + 100000 WHERE id % 11 = 5',
       "UPDATE changed SET t = REPEAT('long ', 300) WHERE id % 13 = 2",
       'DELETE FROM changed WHERE id BETWEEN 2000 AND 3000'])
table('deep (k varchar(760) %s NOT NULL, n int NOT NULL, PRIMARY KEY (k), KEY n (n)) ROW_FORMAT=COMPACT' % LATIN,
      lambda rows: ([text('%06d' % (number * 7919 % 10007) + 'k' * 740), number % 100] for number in range(rows // 50)))
# The roots of these indexes come behind the pages of the rows.
table('added (id int NOT NULL, a int, b varchar(30) %s, PRIMARY KEY (id))' % ASCII,
      [[number, number * 31 % 1000, text(words(0, 30))] for number in range(5000)],
      ['CREATE INDEX a ON added (a)', 'CREATE INDEX b_a ON added (b, a)'])
# The server frees a dropped index after the statement, and a file with it is broken for its schema; so it waits.
table('rebuilt (id int NOT NULL, a int, b varchar(300) %s, c text, PRIMARY KEY (id), KEY a (a), KEY b (b), '
      'KEY ab (a, b))' % LATIN,
      [[number, number * 31 % 1000, text(words(0, 300)), text(words(0, 500))] for number in range(5000)],
      ['DELETE FROM rebuilt WHERE id % 3 = 0', 'DROP INDEX a ON rebuilt', 'ALTER TABLE rebuilt FORCE',
       'DROP INDEX b ON rebuilt', 'CREATE INDEX i ON rebuilt (id, a)', 'CREATE UNIQUE INDEX c ON rebuilt (b, id)',
       'SET GLOBAL innodb_max_purge_lag_wait = 0', 'DELETE FROM rebuilt WHERE id > 4000'])
# The index ids don't come in the order of the indexes here, and the entries of several look alike.
WAIT = 'SET GLOBAL innodb_max_purge_lag_wait = 0'
table('late_unique (id int NOT NULL, a int NOT NULL, b int NOT NULL, PRIMARY KEY (id), KEY b (b))',
      [[number, 3000 - number, number // 2] for number in range(3000)], ['CREATE UNIQUE INDEX a ON late_unique (a)'])
table('late_null (k varchar(40) %s NOT NULL, a int, b int, c int, PRIMARY KEY (k), KEY b (b), KEY c (c)) '
      'ROW_FORMAT=COMPACT' % LATIN,
      [[text('%05d' % (number * 7919 % 10007)), number or 'NULL', number % 9, 'NULL' if number % 3 else number]
       for number in range(5000)], ['CREATE UNIQUE INDEX a ON late_null (a)', 'DELETE FROM late_null WHERE a % 7 = 1'])
table('late_row_id (a int, b int, KEY b (b))', [[number, 5000 - number] for number in range(5000)],
      ['CREATE UNIQUE INDEX a ON late_row_id (a)'])
table('made_again (id int NOT NULL, a bigint NOT NULL, b bigint NOT NULL, c bigint, d bigint, PRIMARY KEY (id), '
      'UNIQUE KEY a (a), UNIQUE KEY b (b), KEY c (c), KEY d (d), KEY cd (c, d))',
      [[number, number, -number, number % 99, 'NULL' if number % 5 else number] for number in range(8000)],
      ['DROP INDEX a ON made_again', 'DROP INDEX c ON made_again', WAIT, 'CREATE INDEX c ON made_again (c)',
       'CREATE UNIQUE INDEX a ON made_again (a)', 'DROP INDEX b ON made_again', WAIT,
       'CREATE UNIQUE INDEX b ON made_again (b)', 'UPDATE made_again SET d = id WHERE id % 11 = 3'])
THREE = ['int unsigned', 'varchar(20) ' + LATIN, 'bigint']
table('broad (%s, PRIMARY KEY (c0, c1), %s)' % (
    ', '.join('c%d %s NOT NULL' % (n, THREE[n % 3]) for n in range(64)),
    ', '.join('KEY k%d (c%d, c%d)' % (n, n + 2, 60 - n) for n in range(15))),
      [[[number, "'w%d'" % number, -number][n % 3] for n in range(64)] for number in range(300)])
table('nothing (id int NOT NULL, t text, PRIMARY KEY (id))')
# Members and bits, which are numbers in the lines, and load as these.
MEMBERS = ["'m%d'" % number for number in range(300)]
table("members (e enum('a','it''s','c,d') NOT NULL, w enum(%s), s set('x','y','z') NOT NULL, %s, PRIMARY KEY (s, e), "
      'KEY w (w), UNIQUE KEY s64 (s64, e)) ROW_FORMAT=COMPACT' % (','.join(MEMBERS), ', '.join(
          's%d set(%s)' % (count, ','.join(MEMBERS[:count])) for count in (9, 17, 25, 64))),
      [[1, 1, "'x'", 1, 1, 1, 1], [2, 300, "'x,y,z'", 511, 131071, 33554431, 18446744073709551615],
       [3, 257, "''", 0, 0, 0, 0], [3, 'NULL', 2] + ['NULL'] * 4, [1, 255, 5, 256, 65536, 16777216, 1 << 63]])
table('bits (%s, PRIMARY KEY (b9, b1), KEY b17 (b17, b64))' % ', '.join(
    'b%d bit(%d)' % (count, count) for count in (1, 7, 8, 9, 17, 32, 64)),
      [[1] + [0] * 6, [1, 127, 255, 511, (1 << 17) - 1, (1 << 32) - 1, (1 << 64) - 1], [0, 'NULL', 'NULL', 3] +
       ['NULL'] * 3, [1, 64, 128, 256, 1 << 16, 1 << 31, 1 << 63]])
# Collations that order by bytes, of several bytes a character: in keys of one and of two length bytes.
UTF8_3 = 'CHARACTER SET utf8 COLLATE utf8_bin'
table('wide_keys (k varchar(85) %s NOT NULL, n varchar(86) %s, l varchar(255) %s NOT NULL, PRIMARY KEY (k, n), '
      'KEY n (n, k), UNIQUE KEY l (l), KEY nl (n, l))' % (UTF8_3, UTF8_3, UTF8_3),
      [[text(words(0, 80, LETTERS[:-8]) + str(number)), text(words(0, 84, 'aäб漢€ \\t')),
        text(words(0, 250, '漢字 €a') + str(number))] for number in range(900)]
      + [["'a'", "'a'", "'a'"], ["'a\t'", "'b'", "'a\t'"], [text('漢' * 85), text('漢' * 86), text('漢' * 255)]],
      ['DELETE FROM wide_keys WHERE l LIKE \'%7\''])
table('wide_compact (k varchar(255) %s NOT NULL, n int, PRIMARY KEY (k), KEY n (n)) ROW_FORMAT=COMPACT' % UTF8_3,
      [[text(words(0, 250, 'aäб漢€ ') + str(number)), number % 7] for number in range(400)])
SETS = ('big5', 'cp932', 'eucjpms', 'euckr', 'gb2312', 'gbk', 'sjis', 'ujis', 'utf8mb3')
table('ordered_sets (id int NOT NULL AUTO_INCREMENT, %s, PRIMARY KEY (id), %s)' % (
    ', '.join('c%d varchar(150) CHARACTER SET %s COLLATE %s_bin' % (n, name, name) for n, name in enumerate(SETS)),
    ', '.join('KEY c%d (c%d, id)' % (n, n) for n in range(len(SETS)))),
      [['NULL'] + [text(words(0, 9, '中一大人上 aZ~') if number % 4 else '中大' * number) for _ in SETS]
       for number in range(300) for _ in [0] if number < 75 or number % 4])
table('elsewhere (id int NOT NULL, PRIMARY KEY (id))', [[1], [2]], directory=True)
table('large (id int unsigned NOT NULL AUTO_INCREMENT, name varchar(40) %s NOT NULL, day date DEFAULT NULL, '
      'price decimal(10,2) NOT NULL DEFAULT 0.00, note varchar(200) CHARACTER SET utf8mb4, PRIMARY KEY (id), '
      'KEY name (name), KEY day (day, price))' % LATIN,
      lambda rows: ([number + 1, text('customer %d' % (number * 7919 % 100003)),
                     "'2020-%02d-%02d'" % (number % 12 + 1, number % 28 + 1),
                     '%d.%02d' % (number % 1000, number % 100), text('note € %d' % number)] for number in range(rows)),
      ['DELETE FROM large WHERE id % 100 = 7', "UPDATE large SET note = REPEAT('x', 150) WHERE id % 50 = 3"])

# What isn't served: CREATE TABLE behind the name, and a word that each refusal has.
REFUSED = [('(a int, b %s)' % kind, '`b`') for kind in (
    'bit(40)', 'float', 'double', 'time', 'point', 'decimal(39,1)',
    'char(3) CHARACTER SET utf8mb4', 'char(3) CHARACTER SET utf8', 'varchar(0) CHARACTER SET latin1')] + [
    ('(a int, b int AS (a + 1) VIRTUAL, KEY k (a, b))', '`k`'),
    ('(a int, b varchar(9) CHARACTER SET latin1, KEY k (b))', '`k`'),
    ('(a int, b varchar(9) CHARACTER SET utf8mb4, KEY k (b))', '`k`'),
    ('(a int, b varchar(9) CHARACTER SET utf8, KEY k (a, b))', '`k`'),
    ('(a int, b varchar(9) CHARACTER SET ucs2 COLLATE ucs2_bin, KEY k (b))', '`k`'),
    ('(a int, b float, KEY k (b))', '`b`'),
    ('(a int, b varchar(9) %s, KEY k (b(3)))' % LATIN, '`k`'), ('(a int, b blob, KEY k (b(9)))', '`k`'),
    ('(a int, b point NOT NULL, SPATIAL KEY k (b))', '`k`'),
    ('(%s)' % ', '.join('a%d int' % number for number in range(65)), 'columns'),
    ('(a int) ROW_FORMAT=REDUNDANT', 'redundant'), ('(a int) ROW_FORMAT=COMPRESSED', 'compressed'),
    ('(a int) PARTITION BY HASH (a) PARTITIONS 2', 'partitions')]

# Tables with columns that are dumped as their bytes, whose names come first.
BYTES = []


def bytes_table(columns, create, rows):
    BYTES.append((columns, create, rows))


FLOATS = [0, 1, -1, '1.5', '-0.1', '3.4028234e38', '-3.4028234e38', '1.17549435e-38', '1e-45', '1e-40', 16777217,
          'NULL']
DOUBLES = [0, 1, -1, '0.1', '-1e-5', '1.7976931348623157e308', '-1.7976931348623157e308', '2.2250738585072014e-308',
           '5e-324', '1e-310', 9007199254740993, 'NULL']
bytes_table(['all-unserved'], '(id int NOT NULL, f float, d double, g float(7,3) NOT NULL, PRIMARY KEY (id))',
            [[number, *pair, '%d.125' % number] for number, pair in enumerate(zip(FLOATS, DOUBLES))])
TIMES = ['00:00:00', '838:59:59', '-838:59:59', '00:00:01', '-00:00:01', '12:34:56', '-100:00:59', '-00:59:00']
bytes_table(['all-unserved'], '(%s, id int NOT NULL, PRIMARY KEY (id))'
            % ', '.join('t%d time%s' % (f, '(%d)' % f if f else '') for f in range(7)),
            [["'%s.%s'" % (time, fraction) for _ in range(7)] + [number * 10 + place]
             for number, time in enumerate(TIMES) for place, fraction in enumerate(('0', '123456', '000001', '99'))
             if '838:59:59' not in time or fraction == '0'] + [['NULL'] * 7 + [100]])
bytes_table(['e', 'w', 's', 's9', 's17', 's25', 's64'],
            "(id int NOT NULL, e enum('a','it''s','c,d') NOT NULL, w enum(%s), s set('x','y','z'), "
            '%s, PRIMARY KEY (id)) ROW_FORMAT=COMPACT' % (','.join(MEMBERS), ', '.join(
                's%d set(%s)' % (count, ','.join(MEMBERS[:count])) for count in (9, 17, 25, 64))),
            [[1, 1, 1, "'x'", 1, 1, 1, 1], [2, 2, 300, "'x,y,z'", 511, 131071, 33554431, 18446744073709551615],
             [3, 3, 257, "''", 0, 0, 0, 0], [4, 3] + ['NULL'] * 6, [5, 1, 255, 5, 256, 65536, 16777216, 1 << 63]])
bytes_table(['all-unserved', 'b1', 'b7', 'b8', 'b9', 'b64'], '(id int NOT NULL, %s, PRIMARY KEY (id))' % ', '.join(
    'b%d bit(%d)' % (count, count) for count in (1, 7, 8, 9, 33, 64)),
            [[1] + [0] * 6, [2, 1, 127, 255, 511, (1 << 33) - 1, (1 << 64) - 1], [3] + ['NULL'] * 6,
             [4, 1, 64, 128, 256, 1 << 32, 1 << 63]])
bytes_table(['all-unserved'], '(id int NOT NULL, p point, g geometry, l linestring NOT NULL, PRIMARY KEY (id))',
            [[1, 'POINT(1.5, -2)', "ST_GeomFromText('POLYGON((0 0, 0 9, 9 9, 0 0))')",
              'LINESTRING(POINT(0, 0), POINT(1, 1))'],
             [2, 'NULL', "ST_GeomFromText('POINT(3 4)', 4326)", 'LINESTRING(POINT(5, 0), POINT(1, 1))']])
CHARS = [(4, 'utf8'), (4, 'utf8mb4'), (255, 'utf8mb4'), (9, 'ucs2'), (9, 'utf32'), (9, 'utf16'), (9, 'gbk')]
bytes_table(['all-unserved'], '(id int NOT NULL, %s, PRIMARY KEY (id)) DEFAULT CHARSET=latin1' % ', '.join(
    'c%d char(%d) CHARACTER SET %s' % (place, *pair) for place, pair in enumerate(CHARS)),
            [[1] + ["''"] * 7, [2] + ["'ab'"] * 7, [3] + ["'é€漢ß'", "'😀é漢a'", "REPEAT('😀', 255)"] + ["'漢字'"] * 4,
             [4] + ['NULL'] * 7, [5] + ["'abcd'"] * 7])
bytes_table(['d', 'm', 'n', 's', 'z', 'y', 'o', 'b', 'v', 't', 'c'],
            '(id int NOT NULL, d date, m datetime, n datetime(5), s timestamp NULL, z timestamp(6) NULL, y year, '
            'o decimal(20,3), b binary(3), v varchar(9) %s, t text CHARACTER SET utf8mb4, c char(5) %s, '
            'PRIMARY KEY (id))' % (UTF8, LATIN),
            [[1, "'2012-02-31'", "'9999-12-31 23:59:59'", "'1000-01-01 00:00:00.12345'", "'2038-01-19 03:14:07'",
              "'2001-02-03 04:05:06.789012'", 2155, '-12345678901234567.891', "'abc'", "'é€'", "'😀'", "'x'"],
             [2, "'0000-00-00'", "'0000-00-00'", "'2012-00-00'", "'0000-00-00'", "'0000-00-00'", 0, 0, "''", "''", "''",
              "''"],
             [3] + ['NULL'] * 11,
             [4, "'1000-12-31'"] + ['NULL'] * 4 + [1901, '99999999999999999.999'] + ['NULL'] * 4])
bytes_table(['all-unserved'], '(id int NOT NULL, a decimal(65,30), b decimal(39,0), c decimal(65,0) NOT NULL, '
            'PRIMARY KEY (id))',
            [[1, '-0.%s1' % ('0' * 29), '9' * 39, '-' + '9' * 65], [2, '9' * 35 + '.' + '9' * 30, '-1', 0],
             [3, 'NULL', 'NULL', 1], [4, '-' + '9' * 35 + '.' + '9' * 30, '-' + '9' * 39, '1' + '0' * 64]])

# Tables whose lines don't fit them as they are, or whose names aren't those of the lines: generated columns, full-text
# indexes, other names, partitions. A table has its name, the rest of CREATE TABLE, the columns that rows are given for,
# the rows, and statements after them.
CHANGED = [
    ('generated', '(id int NOT NULL, a int, v int AS (a + 1) VIRTUAL, '
     "s varchar(30) %s AS (CONCAT(id, 0x3a, a)) STORED, e enum('x','y') AS (IF(a > 5, 'y', 'x')) STORED, "
     "w text AS (CONCAT(s, 'w')) VIRTUAL, d decimal(9,2) AS (v / 3) STORED, "
     't text %s AS (REPEAT(s, 400)) STORED, PRIMARY KEY (id), KEY s (s, a), KEY e (e), UNIQUE KEY d (d, id))'
     % (LATIN, LATIN), 'id, a', [[number, 'NULL' if number % 9 == 0 else number % 11] for number in range(700)],
     ['DELETE FROM `generated` WHERE id % 5 = 0']),
    ('full_text', '(id int NOT NULL, t text, u varchar(40) %s NOT NULL, n int, PRIMARY KEY (id), UNIQUE KEY u (u), '
     'KEY n (n), FULLTEXT KEY ft (t), FULLTEXT KEY again (t))' % LATIN, 'id, t, u, n',
     [[number, text(words(0, 90)), text('u%d' % (number * 7919 % 10007)), number % 9] for number in range(2000)],
     ['DELETE FROM full_text WHERE id % 4 = 1', 'UPDATE full_text SET t = CONCAT(t, u) WHERE id % 6 = 2']),
    ('full_text_added', '(t text, u int NOT NULL, n int, UNIQUE KEY u (u), KEY n (n))', 't, u, n',
     [[text(words(0, 90)), number * 7919 % 10007, number % 9] for number in range(2000)],
     ['ALTER TABLE full_text_added ADD FULLTEXT KEY ft (t)', 'ALTER TABLE full_text_added ADD KEY un (u, n)',
      'DELETE FROM full_text_added WHERE n = 3']),
    ('full_text_empty', '(id int NOT NULL, t text, n int, PRIMARY KEY (id), KEY n (n), FULLTEXT KEY ft (t))', 'id',
     [], []),
    ('full_text_no_key', '(t text, v int AS (1) VIRTUAL, FULLTEXT KEY ft (t))', 't', [["'a b'"], ['NULL'], ["''"]],
     ['ALTER TABLE full_text_no_key DROP KEY ft, ADD FULLTEXT KEY ft (t)']),
    ('full_text_own', '(FTS_DOC_ID bigint unsigned NOT NULL AUTO_INCREMENT PRIMARY KEY, t text, FULLTEXT KEY ft (t))',
     'FTS_DOC_ID, t', [[number + 1, text(words(0, 90))] for number in range(500)], []),
    ('audit-log é$漢', '(`max-access` int NOT NULL, `größe` int, `a.b` varchar(9) %s, `%s` int, '
     'PRIMARY KEY (`max-access`), KEY `k l` (`größe`, `max-access`), UNIQUE KEY `a.b` (`a.b`))'
     % (UTF8_3, 'long-' * 12), '`max-access`, `größe`',
     [[number, number % 7] for number in range(300)], []),
    ('aux', '(id int NOT NULL, PRIMARY KEY (id))', 'id', [[1], [2]], []),
    ('parts', '(id int NOT NULL, n int, u varchar(20) %s, PRIMARY KEY (id, n), KEY u (u)) PARTITION BY RANGE (n) '
     'SUBPARTITION BY HASH (id) SUBPARTITIONS 2 (PARTITION `low-1` VALUES LESS THAN (3), PARTITION p2 VALUES LESS THAN '
     'MAXVALUE)' % UTF8_3, 'id, n, u', [[number, number % 9, text('u%d' % number)] for number in range(1000)],
     ['DELETE FROM parts WHERE id % 4 = 1']),
]

# Tables that aren't served, whose rows alone are read: the rest of CREATE TABLE, the columns that rows are given for,
# the rows, and statements after them.
MIXED = 'aAbBäÄzZéE ßsS'
ROWS_ALONE = [
    ('(k varchar(40) NOT NULL, n varchar(20), t text, c char(5), PRIMARY KEY (k), KEY n (n), KEY t (t(9)), '
     'UNIQUE KEY kn (k(3), n(4), c)) DEFAULT CHARSET=utf8mb4 COLLATE=utf8mb4_general_ci', 'k, n, t, c',
     [[text('%s%d' % (words(0, 30, MIXED).strip(), number)), text(words(0, 20, MIXED)), text(words(0, 300, MIXED)),
       text(words(0, 5, MIXED))] for number in range(900)],
     ["DELETE FROM %s WHERE k LIKE '%%3'", "UPDATE %s SET n = NULL WHERE k LIKE '%%5'"]),
    ('(a varchar(20) NOT NULL, b char(9) NOT NULL, n int, PRIMARY KEY (b, a)) CHARSET=utf8mb4 '
     'COLLATE=utf8mb4_unicode_ci', 'a, b, n',
     [[text(words(0, 20, MIXED)), text('%s%d' % (words(0, 4, MIXED), number)), 'NULL' if number % 3 else number]
      for number in range(700)], []),
    ('(a varchar(20) NOT NULL, b varchar(9) NOT NULL, n int NOT NULL, UNIQUE KEY a (a(5), n), UNIQUE KEY bn (b, n)) '
     'DEFAULT CHARSET=latin1 ROW_FORMAT=COMPACT', 'a, b, n',
     [[text(words(0, 20)), text(words(0, 9)), number] for number in range(700)], []),
    ('(f float NOT NULL, d double NOT NULL, t time(3) NOT NULL, n decimal(45,5) NOT NULL, b bit(40) NOT NULL, v int, '
     'PRIMARY KEY (t, f, d, n, b), KEY f (f))', 'f, d, t, n, b, v',
     [[number / 4, -number / 8, "'%d:00:01.125'" % (number - 300), '-%d.5' % number, number * 7919 << 8, number]
      for number in range(600)], []),
    ('(c char(7) NOT NULL, u char(9) CHARACTER SET ucs2 NOT NULL, v varchar(9) CHARACTER SET utf16, n int, '
     'PRIMARY KEY (u, c), KEY v (v)) DEFAULT CHARSET=utf8mb4', 'c, u, v, n',
     [[text(words(0, 7, MIXED)), text('%s%d' % (words(0, 4, MIXED), number)), text(words(0, 9, MIXED)), number]
      for number in range(400)], []),
    ('(id int NOT NULL, g point NOT NULL, v int AS (id + 1) VIRTUAL, w varchar(9) AS (id) STORED, PRIMARY KEY (id), '
     'SPATIAL KEY g (g), KEY v (v, id), KEY w (w))', 'id, g',
     [[number, 'POINT(%d, %d)' % (number % 30, number // 30)] for number in range(600)], []),
    ('(id int NOT NULL, t varchar(90), n int, PRIMARY KEY (id), FULLTEXT KEY ft (t), KEY t (t), KEY n (n DESC), %s)'
     % ', '.join('KEY k%d (n, id)' % number for number in range(20)), 'id, t, n',
     [[number, text(words(0, 90, MIXED)), number % 7] for number in range(500)], ['DELETE FROM %s WHERE n = 3']),
    ('(t varchar(90) COLLATE utf8mb4_nopad_bin, n int, KEY t (t), FULLTEXT KEY ft (t))', 't, n',
     [[text(words(0, 90, MIXED)), number] for number in range(500)],
     ['UPDATE %s SET t = CONCAT(LEFT(t, 70), n) WHERE n > 400']),
]

# --- what can't be loaded --------------------------------------------------------------------------------------------

ONCE = 'CREATE TABLE once (id int NOT NULL, b varchar(9), PRIMARY KEY (id), UNIQUE KEY b (b))'


def once(number, value, name='once'):
    return "INSERT INTO `%s` VALUES (%d,'%s');\n" % (name, number, value)


THREE_ROWS = once(1, 'a') + once(2, 'b') + once(3, 'c')
MANY_ROWS = ''.join(once(number, number) for number in range(10, 60000))
# Texts of lines for this table, with words of why each is refused.
REFUSED_LOADS = [
    ('a duplicate key', once(1, 'a') + once(1, 'b') + once(3, 'c'), 'Duplicate entry'),
    ('a duplicate key of another index', once(1, 'a') + once(2, 'a') + once(3, 'c'), 'Duplicate entry'),
    ('a duplicate key after a statement', once(1, 'a') + '-- \n' + once(1, 'b') + '-- \n' + once(3, 'c'),
     'Duplicate entry'),
    ('a duplicate key after many rows', MANY_ROWS + once(1, 'a') + once(1, 'b'), 'Duplicate entry'),
    ('a missing table', once(1, 'a') + once(2, 'b', 'missing') + once(3, 'c'), "doesn't exist"),
    ('a table that is missing for all lines', THREE_ROWS.replace('once', 'missing'), "doesn't exist"),
    ('a value that is too long', once(1, 'a') + once(2, 'ten letters') + once(3, 'c'), 'Data too long'),
    ('a value too many', once(1, 'a') + once(2, "b','b") + once(3, 'c'), 'Column count'),
    ('a line that is too long', once(1, 'a') + once(2, 'b' * (1 << 21)) + once(3, 'c'), 'gone away'),
    ('a connection that is lost', once(1, 'a') + 'KILL CONNECTION_ID();\n' + once(3, 'c'), 'KILL'),
    ('a text that ends within a value', THREE_ROWS[:-5], 'within a line'),
    ('a text that ends before a line feed', THREE_ROWS[:-1], 'within a line'),
    ('a text that ends within a comment', once(1, 'a') + '-- b', 'within a line'),
    ('no text', None, 'SIGNAL')]

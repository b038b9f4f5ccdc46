"""The names of the collations by their numbers, as MySQL 5.7 and MariaDB give them out (SHOW COLLATION; ctype-uca.c and
the other ctype-*.c of both; my_uca1400_collation_definition_init of MariaDB)."""

# Those of one number each; the numbers that are missing here are those of the families below, or nobody's.
SINGLE = dict(enumerate('''
    big5_chinese_ci latin2_czech_cs dec8_swedish_ci cp850_general_ci latin1_german1_ci hp8_english_ci koi8r_general_ci
    latin1_swedish_ci latin2_general_ci swe7_swedish_ci ascii_general_ci ujis_japanese_ci sjis_japanese_ci
    cp1251_bulgarian_ci latin1_danish_ci hebrew_general_ci - tis620_thai_ci euckr_korean_ci latin7_estonian_cs
    latin2_hungarian_ci koi8u_general_ci cp1251_ukrainian_ci gb2312_chinese_ci greek_general_ci cp1250_general_ci
    latin2_croatian_ci gbk_chinese_ci cp1257_lithuanian_ci latin5_turkish_ci latin1_german2_ci armscii8_general_ci
    utf8_general_ci cp1250_czech_cs ucs2_general_ci cp866_general_ci keybcs2_general_ci macce_general_ci
    macroman_general_ci cp852_general_ci latin7_general_ci latin7_general_cs macce_bin cp1250_croatian_ci
    utf8mb4_general_ci utf8mb4_bin latin1_bin latin1_general_ci latin1_general_cs cp1251_bin cp1251_general_ci
    cp1251_general_cs macroman_bin utf16_general_ci utf16_bin utf16le_general_ci cp1256_general_ci cp1257_bin
    cp1257_general_ci utf32_general_ci utf32_bin utf16le_bin binary armscii8_bin ascii_bin cp1250_bin cp1256_bin
    cp866_bin dec8_bin greek_bin hebrew_bin hp8_bin keybcs2_bin koi8r_bin koi8u_bin - latin2_bin latin5_bin latin7_bin
    cp850_bin cp852_bin swe7_bin utf8_bin big5_bin euckr_bin gb2312_bin gbk_bin sjis_bin tis620_bin ucs2_bin ujis_bin
    geostd8_general_ci geostd8_bin latin1_spanish_ci cp932_japanese_ci cp932_bin eucjpms_japanese_ci eucjpms_bin
    cp1250_polish_ci'''.split(), 1))
SINGLE.update({159: 'ucs2_general_mysql500_ci', 223: 'utf8_general_mysql500_ci', 248: 'gb18030_chinese_ci',
               249: 'gb18030_bin', 250: 'gb18030_unicode_520_ci'})

# The collations of Unicode of each of these character sets, from this number on.
UNICODE = {'utf16': 101, 'ucs2': 128, 'utf32': 160, 'utf8': 192, 'utf8mb4': 224}
LANGUAGES = '''unicode icelandic latvian romanian slovenian polish estonian spanish swedish turkish czech danish
    lithuanian slovak spanish2 roman persian esperanto hungarian sinhala german2 croatian unicode_520
    vietnamese'''.split()

# MariaDB's own ones; from 10.10 on also those of a newer Unicode, whose numbers are sums.
MARIADB = {'utf8': 576, 'utf8mb4': 608, 'ucs2': 640, 'utf16': 672, 'utf32': 736}
MARIADB_LANGUAGES = ('croatian_ci', 'myanmar_ci', 'thai_520_w2')
# The croatian one of UNICODE is that of MySQL 5.6 and 5.7.
CROATIAN, CROATIAN_IN_MARIADB = '_croatian_ci', '_croatian_mysql561_ci'
# Those that don't fill texts up with spaces have this much more; not each of these numbers is given out.
NO_PAD = 1024
NEWEST, NEWEST_SETS = 2048, ('utf8', 'utf8mb4', 'ucs2', 'utf16', 'utf32')
NEWEST_LANGUAGES = ('', *LANGUAGES[1:21], None, None, 'vietnamese', 'croatian')

# The first version that says utf8mb3 for utf8, and the first of MariaDB above those of MySQL.
FIRST_MARIADB, FIRST_UTF8MB3 = 100000, 100600


def collation_of(number, version):
    """The names of a character set and of its collation in this version of a server; nothing for a number of none."""
    name = name_of(number, version >= FIRST_MARIADB)
    if name is None:
        return None
    if version >= FIRST_UTF8MB3 and name.startswith('utf8_'):
        name = name.replace('utf8_', 'utf8mb3_', 1)
    return name.split('_')[0], name


def name_of(number, is_mariadb):
    if number >= NEWEST:
        return newest_name(number - NEWEST)
    if number > NO_PAD:
        name = name_of(number - NO_PAD, is_mariadb)
        front, _, end = (name or '').rpartition('_')
        return front and '%s_nopad_%s' % (front, end) or None
    if number in SINGLE:
        return SINGLE[number] if SINGLE[number] != '-' else None
    for charset, first in UNICODE.items():
        if first <= number < first + len(LANGUAGES):
            name = '%s_%s_ci' % (charset, LANGUAGES[number - first])
            return name.replace(CROATIAN, CROATIAN_IN_MARIADB) if is_mariadb else name
    for charset, first in MARIADB.items():
        if first <= number < first + len(MARIADB_LANGUAGES):
            return '%s_%s' % (charset, MARIADB_LANGUAGES[number - first])
    return None


def newest_name(number):
    """The name of the sum of a character set's number, a language's, and a bit each for `nopad`, for accents and for
    capital letters."""
    charset, language = number >> 8, number >> 3 & 31
    if charset >= len(NEWEST_SETS) or language >= len(NEWEST_LANGUAGES) or NEWEST_LANGUAGES[language] is None:
        return None
    words = [NEWEST_SETS[charset], 'uca1400', NEWEST_LANGUAGES[language], 'nopad' * (number >> 2 & 1),
             'as' if number & 2 else 'ai', 'cs' if number & 1 else 'ci']
    return '_'.join(word for word in words if word)

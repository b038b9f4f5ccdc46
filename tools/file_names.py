"""Names of tables and of databases, as the server has them in the names of files."""

import os
import re

from file_name_letters import LETTER_OF, SIGNS

# What the server puts after a name that would be that of a device in Windows, as `aux`.
DEVICE_END = '@@@'


def decoded(name):
    """A name with its `@` and two signs or four digits turned back, where these are those of characters."""
    def character(found):
        if found[1] in LETTER_OF:
            return LETTER_OF[found[1]] + found[2]
        code = int(found.group()[1:], 16) if re.fullmatch('@[0-9a-fA-F]{4}', found.group()) else 0
        return found.group() if 0xD800 <= code < 0xE000 or code == 0 else chr(code)
    if name.endswith(DEVICE_END):
        name = name[:-len(DEVICE_END)]
    return re.sub('@([0-9A-Za-z@]{2})((?:[0-9a-fA-F]{2})?)', character, name)


def encoded(name):
    """The name of a file for a table or a database; that of a device has no `@@@` after it."""
    return re.sub('[^A-Za-z0-9_\udc80-\udcff]',
                  lambda found: '@' + SIGNS.get(found.group(), '%04x' % ord(found.group())), name)


def names_of(path):
    """The names of a database and of a table by the path of one of its files."""
    folder, name = os.path.split(os.path.abspath(path))
    return decoded(os.path.basename(folder)), decoded(os.path.splitext(name)[0])

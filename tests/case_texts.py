"""How the lines of crates/cases/stdin spell texts, bytes and rows, as crates/cases/README.md says."""

import re


def spelled(byte):
    """A byte of a text."""
    if byte == 10:
        return '\\n'
    return '\\\\' if byte == 92 else chr(byte) if 32 <= byte < 127 else '\\x%02x' % byte


def equal_runs(data):
    """Each byte with how often it stands there."""
    at = 0
    while at < len(data):
        end = at + 1
        while end < len(data) and data[end] == data[at]:
            end += 1
        yield data[at], end - at
        at = end


def text_of(data):
    """A text, as a schema's."""
    words = []
    for byte, times in equal_runs(data):
        letter, many = spelled(byte), '\\{%d}' % times
        words.append(letter * times if times < 7 or len(letter) * times <= len(letter + many) else letter + many)
    text = ''.join(words).replace(' -> ', ' -\\x3e ').replace(' # ', ' \\x23 ')
    return text[:-1] + '\\x20' if text.endswith(' ') else text


def bytes_of(data):
    """The bytes of an edit."""
    parts = ['']
    for byte, times in equal_runs(data):
        if times < 6:
            parts[-1] += '%02x' % byte * times
        else:
            parts += ['%02x*%d' % (byte, times), '']
    return '+'.join(part for part in parts if part)


def decoded(text):
    """The bytes that a text spells."""
    out, at = bytearray(), 0
    while at < len(text):
        found = re.compile(r'\\(?:n|\\|x[0-9A-Fa-f]{2}|\{[0-9]+\})').match(text, at)
        word = found.group() if found else text[at]
        at += len(word)
        if word == '\\n':
            out += b'\n'
        elif word[:2] == '\\x':
            out.append(int(word[2:], 16))
        elif word[:2] == '\\{':
            out += out[-1:] * (int(word[2:-1]) - 1)
        else:
            out += word[-1].encode()
    return bytes(out)


def rows_of(text):
    """The text of rows, of which many may be made of one."""
    front, *parts = text.split('\\[')
    out = [decoded(front)]
    for part in parts:
        first, last, every = re.fullmatch(r'(\d+)-(\d+)(?:/(\d+))?', part.split(']', 1)[0]).groups()
        lines = part.split(']', 1)[1].split('\\n', 2 if every else 1)
        made = [[decoded(text) for text in line.split('\\i')] for line in lines[:-1]]
        for number in range(int(first), int(last) + 1):
            line = made[1 if every and number % int(every) == 0 else 0]
            out.append((b'%d' % number).join(line) + b'\n')
        out.append(decoded(lines[-1]))
    return b''.join(out)

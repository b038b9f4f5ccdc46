"""Draws a tablespace file as SVG: a square a page, 64 a row, which is an extent; coloured by owner, the darker the
fuller; with a legend."""

import colorsys
import html

from innodb_layout import EXTENT_PAGES
from space_survey import BROKEN, FREE, OF_INDEX, OTHER, RESERVED, SPACE, VALUES

# How many pages are drawn, those of one page of descriptors.
MOST_PAGES = 16384

SQUARE, GAP, LEFT, TOP, LEGEND_LINE = 10, 1, 56, 34, 16
LABELLED_ROWS = 8
COLOURS = {FREE: '#f1f1ee', SPACE: '#5b5b5b', VALUES: '#8c5a2b', RESERVED: '#d8d4b8', OTHER: '#000000',
           BROKEN: '#e00000'}
TEXTS = {FREE: 'free', SPACE: "the space's own: header, bitmaps, inodes", VALUES: 'long values',
         RESERVED: 'reserved, not written', OTHER: 'of another type', BROKEN: 'broken frame'}
# Hues of the indexes in degrees, in the order of their ids; red is that of broken pages.
HUES = 215, 135, 280, 45, 180, 320, 90, 250, 160, 60
OTHER_INDEX = '#777799'


def colour(kind, rank, fill):
    """That of a square, of an index by its rank among them: pale where the page is empty."""
    if kind == VALUES:
        return mixed(COLOURS[VALUES], fill)
    if kind != OF_INDEX:
        return COLOURS[kind]
    if rank >= len(HUES):
        return mixed(OTHER_INDEX, fill)
    red, green, blue = colorsys.hls_to_rgb(HUES[rank] / 360, 0.33, 0.7)
    return mixed('#%02x%02x%02x' % tuple(round(255 * part) for part in (red, green, blue)), fill)


def mixed(full, fill):
    """The colour with white, a quarter of it for what is empty. Sixteen steps keep the picture small."""
    part = 0.25 + 0.75 * round(16 * fill) / 16
    return '#' + ''.join('%02x' % round(255 - part * (255 - int(full[at:at + 2], 16))) for at in (1, 3, 5))


class Picture:
    def __init__(self):
        self.squares, self.left_out = [], 0

    def add(self, seen):
        if len(self.squares) < MOST_PAGES:
            self.squares.append((seen.kind, seen.index_id, seen.fill))
        else:
            self.left_out += 1

    def text(self, title, survey):
        """The picture, once all pages were seen."""
        ranks = {index_id: rank for rank, index_id in enumerate(sorted(survey.indexes))}
        rows = -(-len(self.squares) // EXTENT_PAGES)
        legend = list(self.legend(survey, ranks))
        width = LEFT + EXTENT_PAGES * SQUARE + 10
        below = TOP + rows * SQUARE + 14
        height = below + LEGEND_LINE * len(legend) + 6
        lines = ['<svg xmlns="http://www.w3.org/2000/svg" width="%d" height="%d" viewBox="0 0 %d %d" '
                 'font-family="sans-serif" font-size="11">' % (width, height, width, height),
                 '<rect width="%d" height="%d" fill="#ffffff"/>' % (width, height),
                 '<text x="%d" y="20" font-size="13">%s</text>' % (LEFT, html.escape(title + self.cut()))]
        lines += ['<text x="%d" y="%d" font-size="9" text-anchor="end">%d</text>' % (
            LEFT - 6, TOP + row * SQUARE + 8, row * EXTENT_PAGES) for row in range(0, rows, LABELLED_ROWS)]
        lines += list(self.drawn(ranks))
        for line, (full, text) in enumerate(legend):
            top = below + LEGEND_LINE * line
            lines += ['<rect x="%d" y="%d" width="11" height="11" fill="%s" stroke="#888888"/>' % (LEFT, top, full),
                      '<text x="%d" y="%d">%s</text>' % (LEFT + 17, top + 10, html.escape(text))]
        return '\n'.join(lines + ['</svg>', ''])

    def cut(self):
        shown = len(self.squares)
        return ': the first %s of %s pages' % (counted(shown), counted(shown + self.left_out)) if self.left_out else ''

    def drawn(self, ranks):
        """The squares; the name of each is `p` and the number of its page."""
        side = SQUARE - GAP
        for number, (kind, index_id, fill) in enumerate(self.squares):
            row, column = divmod(number, EXTENT_PAGES)
            yield '<rect id="p%d" x="%d" y="%d" width="%d" height="%d" fill="%s"/>' % (
                number, LEFT + column * SQUARE, TOP + row * SQUARE, side, side, colour(kind, ranks.get(index_id), fill))

    @staticmethod
    def legend(survey, ranks):
        """The colours with what they stand for, of the kinds that are there."""
        for index_id, rank in list(ranks.items())[:len(HUES)]:
            pages = sum(level.pages for level in survey.indexes[index_id].values())
            what = ', the rows' if index_id == survey.clustered() else ''
            yield colour(OF_INDEX, rank, 1), 'index %d%s: %s (pale: empty, dark: full)' % (
                index_id, what, counted(pages, 'page'))
        if len(ranks) > len(HUES):
            yield OTHER_INDEX, '%d indexes more' % (len(ranks) - len(HUES))
        for kind in (VALUES, SPACE, RESERVED, OTHER, FREE, BROKEN):
            if survey.kinds[kind]:
                yield COLOURS[kind], '%s: %s' % (TEXTS[kind], counted(survey.kinds[kind], 'page'))


def counted(number, what=''):
    """A number, with a word in its plural if there is one and more of it."""
    return '{:,}'.format(number) + (' ' + what if what else '') + ('s' if what and number != 1 else '')

"""How it went with each file of a backup: the answers, what they make of the whole, and how reasons are put on a line.
"""

import re

SOUND, WHOLE, SAVED, DIFFERS = 'sound', 'rows whole', 'rows saved', 'indexes differ'
BROKEN, UNSERVED, NO_TEXT, MISSING, NOTHING = 'broken', 'not served', 'no schema text', 'missing', 'nothing saved'
UNREAD, UNWRITTEN, FAILED, LEFT, HIDDEN = 'not read', 'not written', 'failed', 'left', 'hidden'
# In the order in which they are shown.
ANSWERS = (SOUND, WHOLE, SAVED, DIFFERS, BROKEN, UNSERVED, NO_TEXT, NOTHING, MISSING, UNREAD, UNWRITTEN, FAILED, LEFT,
           HIDDEN)
GOOD = (SOUND, WHOLE, HIDDEN)
# Those of files of which lines are kept, if that is asked for.
KEPT = (SOUND, DIFFERS, WHOLE, SAVED)

# The exit statuses, besides 2 for wrong words.
ALL_GOOD, NOT_ALL_GOOD, ROWS_LOST, OUTPUT_FULL, INTERRUPTED = 0, 1, 3, 6, 130


class Answer(Exception):
    """How it went with a file: one of the answers, why, and what else --json says."""

    def __init__(self, answer, why='', **more):
        super().__init__(answer)
        self.answer, self.why, self.more = answer, why, more

    def with_more(self, **more):
        return Answer(self.answer, self.why, **{**self.more, **more})


class Reasons(Answer):
    """An answer that has several reasons; those that differ in names alone are put together."""

    def __init__(self, answer, reasons):
        more = {'reasons': reasons} if len(reasons) > 1 else {}
        super().__init__(answer, grouped(reasons), **more)


def pattern_of(reason):
    """The reason without the names in it."""
    return re.sub('`(?:[^`]|``)*`', '`..`', reason)


def grouped(reasons):
    """One text of several reasons: of those that are alike the first one, and how many more there are."""
    groups = {}
    for reason in reasons:
        groups.setdefault(pattern_of(reason), []).append(reason)
    return '; '.join(group[0] + (' (and %d more alike)' % (len(group) - 1) if len(group) > 1 else '')
                     for group in groups.values())


def status_of(answers):
    """The exit status of these answers, of which there have to be some besides those of hidden files."""
    answers = [answer for answer in answers if answer != HIDDEN]
    if not answers or any(answer not in GOOD + (SAVED,) for answer in answers):
        return NOT_ALL_GOOD
    return ROWS_LOST if SAVED in answers else ALL_GOOD


def why_of(error):
    """What an error says; that of the system without the name of the file."""
    return getattr(error, 'strerror', None) or str(error)

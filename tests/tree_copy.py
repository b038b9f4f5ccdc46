"""A copy of the tree in which nothing is built and which has no release: the programs there, how they are started, and
how many of the tries end as they should."""

import os
import pathlib
import shutil
import subprocess

from scripts import TOP
from tally import Tally


class Program:
    """A program of programs.txt: its words, and what it answers them."""

    def __init__(self, name, crate, words):
        self.name, self.crate, self.words = name, crate, words
        self.built = pathlib.Path('crates', crate, 'out', crate)
        self.output = self.error = ''

    def words_below(self, top):
        """The words, with each path, which is as seen from the crate's folder, as one below a folder."""
        front = 'crates/%s/' % self.crate
        for word in self.words:
            if word.startswith('../../'):
                word = top + word[len('../../'):]
            elif '/' in word:
                word = top + front + word
            yield word


class TreeCopy(Tally):
    def __init__(self, place, is_whole):
        """In a folder, where there is more room. The kit builds the programs in a whole one; else they are those that
        the gate has built."""
        super().__init__()
        # A name with blanks, as a folder of a user may have.
        self.place, self.top = place, place / 'with blanks'
        shutil.copytree(str(TOP), str(self.top), symlinks=True, ignore=left_out)
        self.environment = {name: value for name, value in os.environ.items() if name != 'IBD_EXPLAIN'}
        if not is_whole:
            self.put_stand_in()
        self.programs = list(self.read_programs())
        self.ibd = next(program for program in self.programs if program.name == 'ibd')

    def put_stand_in(self):
        """Puts a stand-in for the kit in front of it."""
        (self.place / 'kit').mkdir()
        (self.place / 'kit/rt').symlink_to(TOP / 'tests/kit_stand_in')
        digest = subprocess.run([str(TOP / 'tools/sources-digest')], stdout=subprocess.PIPE).stdout.decode().strip()
        self.environment.update(GATED_TREE=str(TOP), GATED_DIGEST=digest, GATED_KIT=shutil.which('rt') or 'rt',
                                PATH='%s:%s' % (self.place / 'kit', os.environ['PATH']))

    def read_programs(self):
        """The programs whose crate is there, with what they answer: ibd rows of the example, the others what the
        program says that the gate has built, or that of the release."""
        for line in self.read('programs.txt').splitlines():
            name, crate, _, *words = line.split()
            if not (self.top / 'crates' / crate / 'src').is_dir():
                continue
            program = Program(name, crate, words)
            if name == 'ibd':
                program.output = ROWS
            else:
                known = TOP / program.built
                if not os.access(str(known), os.X_OK):
                    known = TOP / 'release' / name
                _, program.output, program.error = self.run(known, *words, folder=self.top / 'crates' / crate)
            yield program

    def read(self, path):
        """The text of a file, without the line feeds at its end."""
        return (self.top / path).read_text().rstrip('\n')

    def run(self, *words, folder=None, **more):
        """How a command ends, and what it writes to the two streams, without the line feeds at their ends."""
        try:
            done = subprocess.run(list(map(str, words)), cwd=str(folder or self.top), env=self.environment,
                                  stdout=subprocess.PIPE, stderr=subprocess.PIPE, **more)
        except OSError as why:
            return 127, '', str(why)
        texts = (text.decode('utf-8', 'surrogateescape').rstrip('\n') for text in (done.stdout, done.stderr))
        return (done.returncode, *texts)

    def case(self, name, status, output, error, *words, **more):
        """The words end so, and write this to the two streams."""
        found = self.run(*words, **more)
        self.put(name, [] if found == (status, output, error) else [SAID % found])

    def not_built(self, name, program, *words):
        """The words end with 70, and the last line says that the program can't be built."""
        found = self.run(*words)
        last = '%s: the program can\'t be built' % program.name
        is_so = found[:2] == (70, '') and found[2].rpartition('\n')[2] == last
        self.put(name, [] if is_so else [SAID % found])

    def start_of(self, name, program, error, script, top='', **more):
        """The script answers the program's words, whose files stand below the top, as the program does, and writes this
        to the standard error before what the program writes there."""
        errors = '\n'.join(filter(None, (error, program.error)))
        self.case('%s: %s' % (program.name, name), 0, program.output, errors, script, *program.words_below(top), **more)


ROWS = 'INSERT INTO `t` VALUES (-1);\nINSERT INTO `t` VALUES (0);\nINSERT INTO `t` VALUES (2147483647);'
SAID = 'status %s, output %r, error %r'


def left_out(folder, names):
    """What of a folder isn't copied: what is built, the release, and the repository."""
    folder = pathlib.Path(folder)
    if folder == TOP:
        return {'.git', 'release', 'out'} & set(names)
    return {'out'} & set(names) if folder.parent == TOP / 'crates' else set()

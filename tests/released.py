"""What .ci/start tries of the releases of the programs, in a copy of the tree. Where a release answers nothing else
could: the program is away, and the kit isn't in the path."""

import hashlib
import os
import shutil
import subprocess

from scripts import TOP

NO_KIT = 'env', 'PATH=/usr/bin:/bin'
STALE = "it isn't that of these sources, or its program was changed; .ci/release makes it anew"
SOURCE = 'crates/page_source/src/page.rt'


def made_by(path):
    """What the text of a release says that made it: the kit, the C library, the gcc and the linker."""
    lines = path.read_text().splitlines()[2:]
    return [line for line in lines if not line.startswith('date ')]


def may_be_made(tree):
    """Whether all that makes a release is there; says what isn't."""
    try:
        archive = subprocess.run(['gcc', '-print-file-name=libc.a'], stdout=subprocess.PIPE, stderr=subprocess.DEVNULL)
    except OSError:
        archive = None
    if archive is None or not os.path.isfile(archive.stdout.decode().strip()):
        print("release/ isn't made here, and not compared: there is no gcc or no libc.a")
        return False
    for program in tree.programs:
        if not (tree.top / program.built).with_suffix('.o').is_file():
            print("release/ isn't made here, and not compared: the gate kept the program %s of an earlier run, without "
                  'its object file' % program.name)
            return False
    return True


def digests(folder):
    return {path.name: hashlib.sha256(path.read_bytes()).hexdigest() for path in folder.iterdir()}


def try_made(tree):
    """Whether a release can be made here; that it is, and comes out as that of this tree does."""
    tree.case('no release', 1, '', 'release/ibd: there is none; .ci/release makes it', '.ci/release', 'check')
    release, is_made = tree.top / 'release', may_be_made(tree)
    if is_made:
        tree.case('a release is made', 0, '', '', '.ci/release')
        before = digests(release)
        tree.case('and made again', 0, '', '', '.ci/release')
        tree.add('it is the same', digests(release) == before, digests(release))
        for program in tree.programs:
            compare(tree, program)
    else:
        shutil.copytree(str(TOP / 'release'), str(release), copy_function=shutil.copy)
    shutil.copytree(str(release), str(tree.place / 'released'))
    _, kind, _ = tree.run('file', '-b', 'release/ibd')
    if shutil.which('file'):
        tree.add('release/ibd', 'statically linked' in kind, kind)
    else:
        print("the kind of release/ibd isn't looked at: there is no `file`")
    return is_made


def compare(tree, program):
    """The release of this tree is the one that was made to the byte, if the same kit, C library, gcc and linker made
    it."""
    name, text = program.name, 'release/%s.txt' % program.name
    here, there = made_by(tree.top / text), made_by(TOP / text)
    if here == there:
        tree.case(name + ': the release of this tree', 0, '', '', 'cmp', 'release/' + name, TOP / 'release' / name)
        tree.case(name + ': its text', 0, '', '', 'diff', '-I', '^date ', text, TOP / text)
    else:
        print('release/%s is of\n%s\nand not compared with what is built by\n%s' % (
            name, *('\n'.join('    ' + line for line in lines) for lines in (there, here))))
        heads = [(top / text).read_text().splitlines()[0] for top in (tree.top, TOP)]
        tree.add(name + ': the sources of the release of this tree', heads[0] == heads[1], heads)
    tree.case(name + ': it is that of these sources', 0, 'release/%s: the program that was built' % name, '',
              '.ci/release', 'check', name)


def version_of(program, text):
    """What --version says of a release."""
    lines = text.splitlines()
    dates = ['%s, released %s' % (program.name, line[len('date '):]) for line in lines if line.startswith('date ')]
    return '\n'.join(dates + [line for line in lines if line.startswith(('sources ', 'program ', 'kit '))])


def try_started(tree, program, is_made):
    """What the script of a program does with a release, where nothing is built and there is no kit."""
    name = program.name
    script = tree.place / ('start ' + name)
    script.write_text('#!/bin/sh\nPATH=/usr/bin:/bin exec "%s" "$@"\n' % (tree.top / name))
    script.chmod(0o755)
    (tree.top / program.built).unlink()
    tree.start_of('a release', program, '', script)
    tree.case(name + ': the end of its program', 1, '', 'usage', *NO_KIT, './' + name, 'show',
              'examples/numbers.schema')
    tree.case(name + ': its version', 0, version_of(program, tree.read('release/%s.txt' % name)), '', './' + name,
              '--version')
    source = tree.top / SOURCE
    source.touch()
    tree.start_of('a touched source beside a release', program, '', script)
    kept = tree.place / 'page.rt'
    shutil.copy2(str(source), str(kept))
    source.write_text(source.read_text() + '\n')
    tree.not_built(name + ': a changed source beside a release', program, script, 'check', 'none', 'none')
    tree.case(name + ': a stale release', 1, '', 'release/%s: %s' % (name, STALE), '.ci/release', 'check', name)
    shutil.copy2(str(kept), str(source))
    try_changed(tree, program, script)
    if is_made:
        try_others(tree, program)


def try_changed(tree, program, script):
    """What is built is current now, and runs where the release doesn't."""
    name = program.name
    release = tree.top / 'release' / name
    shutil.copy(str(tree.place / ('built ' + name)), str(tree.top / program.built))
    changed = "%s: release/%s isn't the program that was released, and isn't run" % (name, name)
    with open(str(release), 'r+b') as file:
        # A byte that nothing reads, so that the program would run.
        file.seek(9)
        file.write(b'X')
    tree.start_of('a changed byte of the release', program, changed, script)
    tree.case(name + ': a check of it', 1, '', 'release/%s: %s' % (name, STALE), '.ci/release', 'check', name)
    release.unlink()
    tree.start_of('half a release', program, changed, script)
    shutil.copy(str(tree.place / 'released' / name), str(release))
    tree.start_of('a release that is whole again', program, '', script)


def try_others(tree, program):
    """A release beside another program of the same kit, and beside another C library."""
    name = program.name
    subprocess.run(['objcopy', '--add-section', '.another=programs.txt', '%s.o' % program.built], cwd=str(tree.top))
    tree.case(name + ': another program of the same kit', 1, '',
              'release/%s: another program was built than this one' % name, '.ci/release', 'check', name)
    text = tree.top / 'release' / (name + '.txt')
    libc = next(line for line in text.read_text().splitlines() if line.startswith('libc '))
    text.write_text(text.read_text().replace(libc, 'libc another'))
    tree.case(name + ': another libc', 0, '\n'.join((
        'release/%s: not compared with what is built here, by other tools:' % name,
        'release/%s: it was made by libc another' % name,
        'release/%s: here there is %s' % (name, libc))), '', '.ci/release', 'check', name)

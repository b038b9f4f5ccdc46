"""Times a call of the crates against a plain way, by a program in Rattle in a copy of the crates that it stands on: the
checksum of a page against one bit by bit, the reading of a line of 16 MiB and the packing of a page of 722 records
against a copy of them. What earlier checks kept in out/ is used.

The programs have another ending than source files, which the gate refuses outside crates/.
"""

import pathlib
import shutil
import subprocess
import tempfile

from scripts import TOP

# Each program and the crates that it uses.
PROGRAMS = {'sums': ('page_sums', 'fil_frame page_source'),
            'lines': ('line_speed', 'row_text schema_text column_values page_source'),
            'packing': ('packing', 'page_packer compact_record column_values page_source')}


def add_words(_):
    """There are none."""


def lines_below(names):
    """The lines of crates.txt of these crates and those that they stand on, by name."""
    lines = [line for line in (TOP / 'crates.txt').read_text().splitlines() if ': ' in line and line[0] != '#']
    uses = {line.split(':')[0]: line.split(': ')[1].split() for line in lines}
    below = {*names}.union(*(uses[name] for name in names))
    return {line.split(':')[0]: line for line in lines if line.split(':')[0] in below}


def measure_all(given):
    name, uses = PROGRAMS[given.name]
    with tempfile.TemporaryDirectory() as place:
        work = pathlib.Path(place)
        (work / 'crates' / name / 'src').mkdir(parents=True)
        lines = lines_below(uses.split())
        for crate in lines:
            shutil.copytree(str(TOP / 'crates' / crate), str(work / 'crates' / crate))
        (work / 'crates.txt').write_text(''.join(line + '\n' for line in [*lines.values(), '%s: %s' % (name, uses)]))
        (work / 'crates' / name / 'src/main.rt').write_bytes((TOP / 'bench' / (name + '.rattle')).read_bytes())
        return subprocess.run(['rt', 'run'], cwd=str(work / 'crates' / name)).returncode

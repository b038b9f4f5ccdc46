"""Sums what the gate takes from nothing, crate by crate: `rt ci --anew` in a clone of each commit. These gates run at
once, since a machine may change its speed by half within an hour, and share the processors (RT_JOBS). That takes hours;
nothing else may run beside it, and nothing that earlier runs kept is used.

Printed are minutes of a processor: of a crate's proof and the proof of its tests, and of its must-fail edits; and under
`rt` what is of no crate, as the linking and the runs of the programs. The time of each process is read twice a second,
so what a process takes after the last reading is missing: some 1 of 100. The last line is what the system counted, with
nothing missing. A gate that hasn't ended when the script is interrupted (Ctrl-C) is printed as far as it came.

What a gate prints goes to COMMIT.log in the folder that --logs names.
"""

import collections
import os
import pathlib
import signal
import subprocess
import tempfile
import time

from scripts import TOP

TICKS = os.sysconf('SC_CLK_TCK')
BETWEEN = 0.5
KINDS = 'proofs', 'edits'

# One clone of a commit and the run of its gate; minutes by the system's count and the exit status once it has ended.
Gate = collections.namedtuple('Gate', 'commit process ended')
# What /proc/PID/stat says: the parent, when the process began, and its minutes so far.
Stat = collections.namedtuple('Stat', 'parent begun minutes')


def add_words(parser):
    parser.add_argument('commits', nargs='*', default=['HEAD'], metavar='COMMIT', help='HEAD if none is named')
    parser.add_argument('--logs', type=pathlib.Path, default=pathlib.Path('.'), metavar='FOLDER',
                        help='the current one if none is named')


def stat_of(process):
    try:
        words = pathlib.Path('/proc', process, 'stat').read_text(errors='replace').rpartition(')')[2].split()
        return Stat(words[1], words[19], (int(words[11]) + int(words[12])) / TICKS / 60)
    except (OSError, IndexError):
        return None


def running():
    """What /proc says of each process, by its number."""
    found = {name: stat_of(name) for name in os.listdir('/proc') if name.isdigit()}
    return {name: stat for name, stat in found.items() if stat}


def gate_of(process, stats, gates):
    """The commit whose gate began the process or one above it."""
    while process in stats:
        if process in gates:
            return gates[process]
        process = stats[process].parent
    return None


def work_of(process):
    """The crate that the prover was begun for and whether for an edit, which is tried in a copy of that name."""
    try:
        words = pathlib.Path('/proc', process, 'cmdline').read_bytes().decode(errors='replace').split('\0')
        folder = os.readlink('/proc/%s/cwd' % process)
    except OSError:
        return None
    if '--crate-name' not in words:
        return None
    return words[words.index('--crate-name') + 1], KINDS['/rt-edit-' in folder]


class Sums:
    """The minutes of each process that was seen, and what it worked on."""

    def __init__(self):
        self.minutes, self.gates, self.works = {}, {}, {}

    def look(self, gates):
        stats = running()
        for process, stat in stats.items():
            key = process, stat.begun
            if key not in self.gates:
                self.gates[key] = gate_of(process, stats, gates)
            if self.gates[key]:
                self.minutes[key] = stat.minutes
                # A process has the words of its parent until it has begun its program.
                self.works[key] = self.works.get(key) or work_of(process)

    def by_crate(self):
        """The minutes by crate, commit and kind."""
        sums = collections.defaultdict(collections.Counter)
        for key, minutes in self.minutes.items():
            crate, kind = self.works[key] or ('rt', KINDS[0])
            sums[crate][self.gates[key], kind] += minutes
        return sums


def begin(commit, folder, jobs, log):
    subprocess.run(['git', 'clone', '-q', str(TOP), str(folder)], check=True)
    subprocess.run(['git', 'checkout', '-q', commit], cwd=str(folder), check=True)
    with log.open('wb') as out:
        return subprocess.Popen(['rt', 'ci', '--anew'], cwd=str(folder), env={**os.environ, 'RT_JOBS': str(jobs)},
                                stdin=subprocess.DEVNULL, stdout=out, stderr=out, start_new_session=True)


def collect(gates, sums):
    """Looks until each gate has ended, or the script is interrupted."""
    left = {str(gate.process.pid): gate for gate in gates}
    try:
        while left:
            sums.look({process: gate.commit for process, gate in left.items()})
            for process, gate in list(left.items()):
                ended, status, used = os.wait4(gate.process.pid, os.WNOHANG)
                if ended:
                    gate.ended[:] = [(used.ru_utime + used.ru_stime) / 60, os.waitstatus_to_exitcode(status)]
                    del left[process]
            time.sleep(BETWEEN)
    except KeyboardInterrupt:
        for gate in left.values():
            os.killpg(gate.process.pid, signal.SIGKILL)


def line(name, cells):
    print('%-18s' % name + ''.join('%10s' % cell for cell in cells))


def show(gates, sums):
    columns = [(gate.commit, kind) for gate in gates for kind in KINDS]
    line('', [cell for gate in gates for cell in (gate.commit[:8], '')])
    line('crate', [kind for _, kind in columns])
    by_crate = sums.by_crate()
    for crate, minutes in sorted(by_crate.items(), key=lambda found: -sum(found[1].values())):
        line(crate, ['%.1f' % minutes[column] for column in columns])
    line('sum', ['%.1f' % sum(minutes[column] for minutes in by_crate.values()) for column in columns])
    for gate in gates:
        print('%s %s' % (gate.commit, 'has used %.1f minutes and ended with %d' % tuple(gate.ended) if gate.ended
                         else 'was interrupted'))


def measure_all(given):
    commits = [subprocess.run(['git', 'rev-parse', '--short=8', commit], cwd=str(TOP), check=True, text=True,
                              stdout=subprocess.PIPE).stdout.strip() for commit in given.commits]
    jobs = max(1, len(os.sched_getaffinity(0)) // len(commits))
    with tempfile.TemporaryDirectory() as place:
        gates = [Gate(commit, begin(commit, pathlib.Path(place, commit), jobs, given.logs / (commit + '.log')), [])
                 for commit in commits]
        sums = Sums()
        collect(gates, sums)
        show(gates, sums)
    return any(not gate.ended or gate.ended[1] for gate in gates)

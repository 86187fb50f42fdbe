"""Instructions, times and memory of a program."""
import pathlib
import re
import shutil
import subprocess
import sys
import time

import logs


def instructions(program, arguments, log, folder):
    """x86 instructions of one run, start-up and end included: exact, but by perf, which may count a few of the system's."""
    if shutil.which('valgrind'):
        return by_valgrind(program, arguments, log)
    if shutil.which('perf'):
        return by_perf(program, arguments, log, folder)
    sys.exit('bench: nothing to count instructions with: install the Debian package valgrind, or linux-perf')


def by_valgrind(program, arguments, log):
    with log.open('rb') as bytes_in:
        done = subprocess.run(['valgrind', '--tool=callgrind', '--callgrind-out-file=/dev/null', *program.command(*arguments)],
                              stdin=bytes_in, stdout=subprocess.DEVNULL, stderr=subprocess.PIPE, text=True, check=True)
    return int(re.search(r'Collected : (\d+)', done.stderr).group(1))


def by_perf(program, arguments, log, folder):
    said = folder / 'perf'
    with log.open('rb') as bytes_in:
        subprocess.run(['perf', 'stat', '-x', ',', '-e', 'instructions:u', '-o', str(said), *program.command(*arguments)],
                       stdin=bytes_in, stdout=subprocess.DEVNULL, check=True)
    count = re.search(r'^(\d+),', said.read_text(), re.MULTILINE)
    if count is None:
        sys.exit('bench: perf cannot count instructions on this machine: install the Debian package valgrind')
    return int(count.group(1))


def per_record(program, setup, kind, records, folder):
    """Instructions a record of the whole program, less those of an empty log."""
    log, empty = folder / 'counted.log', folder / 'empty.log'
    log.write_bytes(logs.log_of(kind, records))
    empty.write_bytes(b'')
    return (instructions(program, setup, log, folder) - instructions(program, setup, empty, folder)) / records


def per_round(program, mode, kind, records, folder):
    """Instructions a record of `rounds`: of three rounds less those of one, so that the start falls out."""
    log = folder / 'counted.log'
    log.write_bytes(logs.log_of(kind, records))
    return (instructions(program, (mode, 3), log, folder) - instructions(program, (mode, 1), log, folder)) / (2 * records)


def seconds(program, arguments, log, out):
    """One run by the clock, from a file and to a file."""
    with log.open('rb') as bytes_in, out.open('wb') as bytes_out:
        start = time.perf_counter()
        subprocess.run(program.command(*arguments), stdin=bytes_in, stdout=bytes_out, check=True)
        return time.perf_counter() - start


def best_times(runs, log, out, times):
    """The best of several runs each, in turn, so that what slows the machine for a while slows all: {name: seconds}."""
    best = {}
    for _ in range(times):
        for name, (program, arguments) in runs.items():
            taken = seconds(program, arguments, log, out)
            best[name] = min(taken, best.get(name, taken))
    return best


def largest_memory(pid):
    """The most memory that a running program has held, in KiB. The system's account at its end would count its parent's too."""
    status = pathlib.Path('/proc/%d/status' % pid).read_text()
    return int(re.search(r'VmHWM:\s+(\d+)', status).group(1))


def growth(program, records):
    """Seconds and KiB for a day's log of that many records through a pipe, since a long one would fill the RAM disk."""
    pieces = list(logs.pieces('day', records))
    start = time.perf_counter()
    run = subprocess.Popen(program.command(), stdin=subprocess.PIPE, stdout=subprocess.DEVNULL)
    for piece in pieces:
        run.stdin.write(piece)
    run.stdin.flush()
    memory = largest_memory(run.pid)
    run.stdin.close()
    if run.wait() != 0:
        sys.exit('bench: %s failed on %d records' % (program.path, records))
    return time.perf_counter() - start, memory

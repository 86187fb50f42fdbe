"""Whether the program in C and ours print the same bytes: on random logs, good and bad, under random setups, some refused."""
import random
import shutil
import subprocess
import sys

import logs
from programs import say

KINDS = ('random', 'random', 'damaged', 'bytes')


def some_wake(r, safe_ma, safe_mv):
    """A wake pair, half of the time switched off, or now and then one with a number that is out of its range."""
    most = min(100, safe_ma)
    wake = [r.choice((0, 0, most, r.randint(1, most))), r.choice((safe_mv, r.randint(1, safe_mv)))]
    if r.randrange(8) == 0:
        wake[0] = r.choice((most + 1, most + 1, 65536, 4294967299))
    if r.randrange(8) == 0:
        wake[1] = r.choice((0, safe_mv + 1))
    return wake


def some_setup(r):
    """Nine numbers: a good setup, or now and then one with a number that may be out of its range."""
    largest_ma, largest_mv = r.choice((1, 60, 3000, 65534)), r.choice((1, 18000, 65534))
    safe_ma, safe_mv = r.randint(1, largest_ma), r.randint(1, largest_mv)
    low, restart = r.choice(((1, 2), (8000, 9000), (9000, 10500), (65534, 65535)))
    setup = [r.choice((1, 3, 7, 15)), largest_ma, safe_ma, largest_mv, safe_mv, low, restart, *some_wake(r, safe_ma, safe_mv)]
    if r.randrange(5) == 0:
        setup[r.randrange(9)] = r.choice((0, 2, 8000, 65535, 65536, 4294967299))
    return setup


def listing(program, setup, log):
    """What a program prints of a log."""
    with log.open('rb') as bytes_in:
        return subprocess.run(program.command(*setup), stdin=bytes_in, stdout=subprocess.PIPE, check=True).stdout


def compare_one(ours, c, setup, log):
    """The same bytes from each, or the end of the bench, with the log kept."""
    wanted = listing(ours['replay_with' if setup else 'replay'], setup, log)
    for program in c['replay'].values():
        if listing(program, setup, log) != wanted:
            shutil.copy(log, 'differs.log')
            sys.exit('bench: C (%s) and ours differ under the setup [%s]: the log is kept as differs.log'
                     % (program.name, ' '.join(map(str, setup))))
    return wanted


def count_waking(setup, text):
    """How many lines of a listing show the wake pair of its setup."""
    return sum(text.count(b' %d %d %d\n' % (*setup[7:], notice)) for notice in (0, 1)) if setup and setup[7] else 0


def compare(ours, c, folder, count):
    """So many random logs, and one of each kind that is measured: a sentence about what was compared."""
    r = random.Random(1)
    log, lines, waking, refused = folder / 'compared.log', 0, 0, 0
    for i in range(count):
        setup = some_setup(r) if 'replay_with' in ours and r.randrange(4) else []
        log.write_bytes(logs.log_of(r.choice(KINDS), r.randint(0, 1000), r.randrange(1 << 30)))
        text = compare_one(ours, c, setup, log)
        lines += text.count(b'\n')
        waking += count_waking(setup, text)
        refused += text == b'refused 1\n'
        if i % 100 == 99:
            say('compared %d of %d logs' % (i + 1, count))
    for kind in logs.KINDS:
        log.write_bytes(logs.log_of(kind, 7000))
        lines += compare_one(ours, c, [], log).count(b'\n')
    log.unlink()
    return ('%d random logs (good, damaged, cut off, random bytes; %d of them under a setup that is refused) and one of each kind: the same '
            '%d lines from ours and from C (%s), %d of them with the figures of the wake pair.'
            % (count, refused, lines, ', '.join(c['replay']), waking))


def compare_rounds(ours, c, folder):
    """The end line of `rounds` in both modes, for each kind; without the closing, so that the machine has something to show."""
    log = folder / 'compared.log'
    for kind in logs.KINDS:
        log.write_bytes(b''.join(logs.block(kind, 7000, 1)[:-len(logs.CLOSING)]))
        for mode in ('read', 'step'):
            wanted = listing(ours['rounds'], [mode, 3], log)
            for program in c['rounds'].values():
                if listing(program, [mode, 3], log) != wanted:
                    sys.exit('bench: rounds %s 3 differs in C (%s) on the log %s' % (mode, program.name, kind))
    log.unlink()

"""Compares the programs with the second reading on random logs: python3 second/compare.py [COUNT [SEED]]

Half of the logs are good, the others damaged or cut off; half run under random setups, some of which are refused. Many let a connected
pack be silent for a while, so that the wake pair flows. Half of the readings are at an edge of a range, on either side, or anywhere, with
requests and without.
"""
import pathlib
import random
import subprocess
import sys
import tempfile

from listing import listing, steps
from log import record_of
from machine import PROGRAM_SETUP, UR, Refused, charger_status, power_on, requested, waking

ROOT = pathlib.Path(__file__).resolve().parent.parent


def some_setup(r):
    """A good one, or one with a number that is out of its range."""
    largest_ma, largest_mv = r.choice((1, 3000, 3000, 65534)), r.choice((1, 18000, 18000, 65534))
    safe_ma, safe_mv = r.randint(1, largest_ma), r.randint(1, largest_mv)
    low_mv, restart_mv = r.choice(((1, 8000), (8000, 9000), (8000, 65535), (65534, 65535)))
    most = min(100, safe_ma)
    wake_ma, wake_mv = r.choice((0, most, r.randint(1, most), r.randint(1, most))), r.choice((1, safe_mv, *[r.randint(1, safe_mv)] * 4))
    setup = [r.choice((1, 3, 7, 15, 15)), largest_ma, safe_ma, largest_mv, safe_mv, low_mv, restart_mv, wake_ma, wake_mv]
    if r.random() < 0.25:
        field, wrong = r.choice((
            (0, 2), (1, 65535), (5, restart_mv), (6, low_mv - 1), (7, most + 1), (7, 65535), (8, 0), (8, safe_mv + 1)))
        setup[field] = wrong
    return tuple(setup)


def some_ohms(r):
    notable = 0, 1, 300, 499, 500, 2999, 3000, 30000, 30001, 100000, 100001, 4294967295
    return r.choice((10000, r.choice((*notable, r.randint(0, 120000)))))


def connected(r):
    """A pack at bay A is connected, read or new."""
    read, new = [('i', [0]), ('o', [0, some_ohms(r)])], [('p', [0]), ('i', [0])]
    return [('a', [1]), *r.choice((read, read, read, new)), ('w', [0x14, 0x01, 0xFF1F])]


def start(r):
    """The same, and it asks."""
    return connected(r) + [('b', [0, 0x15, 16800]), ('b', [0, 0x14, 1500])]


def some_event(r):
    bay = r.choice((0, 0, 0, 1, 1, 2, 3, 4, 255))
    word = r.choice((0, 1, 500, 1500, 2999, 3001, 16800, 18001, 65534, 65535))
    nibble = lambda: r.choice((15, 15, 15, 0, 1, 2, 4, 8, 3))
    return r.choice((
        lambda: ('t', []), lambda: ('t', []), lambda: ('t', []),
        lambda: ('b', [bay, r.choice((0x14, 0x15, 0x14, 0x15, 0x16, 0x12)), word]),
        lambda: ('w', [0x12, r.choice((0x14, 0x15)), word]),
        lambda: ('w', [0x12, 0x16, r.choice((0, 0x1000, 0x4000, 0x0FFF))]),
        lambda: ('w', [0x12, 0x12, r.choice((0, 0, 1, 4, 5, 8, 9))]),
        lambda: ('w', [0x14, 0x01, nibble() << 12 | nibble() << 8 | nibble() << 4 | r.randint(0, 15)]),
        lambda: ('w', [0x14, 0x02, r.choice((0, 1, 2, 4, 8, 3)) << 4 | r.choice((15, 15, 3, 1, 0))]),
        lambda: ('r', [r.choice((0x12, 0x14)), r.choice((0x11, 0x13, 0x01, 0x02, 0x04, 0x05))]),
        lambda: ('i', [bay]), lambda: ('i', [bay]), lambda: ('p', [bay]),
        lambda: ('o', [bay, some_ohms(r)]),
        lambda: ('v', [bay, r.choice((0, 8999, 9000, 10499, 10500, 65535))]),
        lambda: ('a', [r.choice((1, 1, 0))]),
    ))()


def silent_event(r):
    """What lets a pack at bay A be woken, stops that or starts it again, the pack itself being silent."""
    return r.choice((
        lambda: ('a', [r.choice((0, 1, 1))]),
        lambda: ('p', [0]),
        lambda: ('i', [r.choice((0, 0, 1))]),
        lambda: ('o', [0, some_ohms(r)]),
        lambda: ('w', [0x12, 0x16, r.choice((0, 0, 0x4000))]),
        lambda: ('w', [0x12, 0x12, r.choice((0, 0, 1, 4, 4, 5, 8, 12))]),
        lambda: ('w', [0x14, 0x01, r.choice((0xFF1F, 0xFF1F, 0xFF2F, 0xFF0F))]),
        lambda: ('w', [0x14, 0x02, r.choice((3, 3, 2))]),
        lambda: ('r', [0x14, 0x01]),
        lambda: ('b', [1, 0x14, 1500]),
    ))()


def silence(r):
    """A pack at bay A is connected and does not speak."""
    events = connected(r)
    for _ in range(r.randint(1, 5)):
        events += [('t', [])] * r.choice((0, 0, 3, 3, 60, 174, 175)) + [silent_event(r) for _ in range(r.randint(0, 2))]
        events += r.choice(([], [('a', [1]), ('i', [0]), ('o', [0, some_ohms(r)])]))
    return events


def some_log(r):
    events = []
    for _ in range(r.randint(0, 12)):
        events += r.choice((lambda: [], lambda: start(r), lambda: start(r), lambda: silence(r), lambda: silence(r)))()
        events += [some_event(r) for _ in range(r.randint(0, 25))] + [('t', [])] * r.choice((0, 0, 3, 174, 175))
    log = bytearray(b''.join(record_of(*event) for event in events))
    harm = r.choice(('none', 'none', 'byte', 'cut'))
    if harm == 'byte' and log:
        log[r.randrange(len(log))] = r.randint(0, 255)
    return bytes(log[:r.randint(0, len(log))] if harm == 'cut' else log)


def flows(setup, log):
    """How many lines have the wake pair, and how many the requested pair under range, which the listing alone does not tell."""
    woken = under = 0
    answer, machine = power_on(setup)
    try:
        for _, machine in steps(machine, log if answer == 'ok' else b''):
            woken += waking(machine)
            under += requested(machine) and charger_status(machine) & UR != 0
    except Refused:
        pass
    return woken, under


def main():
    count, seed = (int(n) for n in (sys.argv[1:] + ['200', '1'][len(sys.argv) - 1:]))
    r = random.Random(seed)
    lines = charging = woken = under = 0
    with tempfile.NamedTemporaryFile(suffix='.log') as file:
        for i in range(count):
            setup, log = r.choice((PROGRAM_SETUP, some_setup(r))), some_log(r)
            file.seek(0)
            file.truncate()
            file.write(log)
            file.flush()
            arguments = [] if setup == PROGRAM_SETUP else [str(n) for n in setup]
            ours = subprocess.run([str(ROOT / 'run'), file.name] + arguments, capture_output=True, text=True, check=True).stdout
            if ours != listing(setup, log):
                pathlib.Path('differs.log').write_bytes(log)
                sys.exit('log %d of seed %d differs under %s: it is kept as differs.log' % (i, seed, ' '.join(map(str, setup))))
            lines += ours.count('\n')
            charging += sum(line.split()[-3:-1] != ['0', '0'] for line in ours.splitlines() if line[0].isdigit())
            wakes, fixed = flows(setup, log)
            woken += wakes
            under += fixed
    print('%d logs, %d lines, %d of them with the output on, %d of these with the wake pair, %d under range: no difference'
          % (count, lines, charging, woken, under))


if __name__ == '__main__':
    main()

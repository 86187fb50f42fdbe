#!/usr/bin/env python3
"""Makes event logs for measuring and comparing: logs.py KIND RECORDS [SEED] > LOG

A log is one block of records, made from the seed, and repeated. A block ends with the machine as at power-on (under the program's
setup), so that each repetition gets the answers of the first.

  ticks     a pack that charges: ticks, and its two words once a minute
  words     bus words that are accepted: requests, alarms, modes, selector words, reads
  refusals  events that are refused, with 2 to 9 in equal parts, and some ticks
  day       a shelf of two bays at work: a tick each second, a pack's words, polls, readings, now and then an incident
  random    any events for one to four bays
  damaged   the same, with a byte changed or the end cut off
  bytes     random bytes, that many records' worth
"""
import random
import struct
import sys

BLOCK = 20000               # the most records of a block
CURRENT, VOLTAGE, ALARM, MODE, STATUS, INFO = 0x14, 0x15, 0x16, 0x12, 0x13, 0x11
CHARGER, SELECTOR = 0x12, 0x14
STATE, PRESETS, SELECTOR_INFO = 0x01, 0x02, 0x04
READS = ((CHARGER, INFO), (CHARGER, STATUS), (SELECTOR, STATE), (SELECTOR, PRESETS), (SELECTOR, SELECTOR_INFO))


def host_write(address, code, word):
    return struct.pack('<HHBBH', 6, 1, address, code, word)


def host_read(address, code):
    return struct.pack('<HHBB', 4, 2, address, code)


def bay_word(bay, code, word):
    return struct.pack('<HHBBH', 6, 3, bay, code, word)


def insertion(bay):
    return struct.pack('<HHB', 3, 4, bay)


def removal(bay):
    return struct.pack('<HHB', 3, 5, bay)


def ohms(bay, value):
    return struct.pack('<HHBI', 7, 6, bay, value)


def terminal(bay, millivolts):
    return struct.pack('<HHBH', 5, 7, bay, millivolts)


def ac(present):
    return struct.pack('<HHB', 3, 8, present)


def tick():
    return struct.pack('<HH', 2, 9)


def connect(bay):
    """CHARGE names the bay; SMB and POWER_BY are left."""
    return host_write(SELECTOR, STATE, 0xFF0F | 1 << bay + 4)


def pair(bay, milliamps, millivolts):
    """The two words by which a pack asks to be charged."""
    return [bay_word(bay, VOLTAGE, millivolts), bay_word(bay, CURRENT, milliamps)]


def put_in(bay):
    return [insertion(bay), ohms(bay, 10000), terminal(bay, 12000)]


# From any machine to that of power-on, with every bay emptied; the last read clears the notice.
CLOSING = [host_write(CHARGER, MODE, 4), ac(1), host_write(SELECTOR, STATE, 0xF00F), host_write(SELECTOR, PRESETS, 0x0000),
           ac(0), removal(0), removal(1), removal(2), removal(3), host_read(SELECTOR, STATE)]
TWO_PACKS = [ac(1), *put_in(0), *put_in(1), connect(0), *pair(0, 1500, 16800)]


def ticks(r):
    """A pack that charges, and asks again once a minute."""
    yield from TWO_PACKS
    while True:
        yield from [tick()] * 60
        yield from pair(0, r.randint(200, 3000), 16800)


def words(r):
    """Words that are accepted; the bays for POWER_BY and CHARGE are kept apart."""
    yield from TWO_PACKS
    charge, power = 0, None
    while True:
        bay = r.randrange(2)
        kind = r.randrange(20)
        if kind < 7:
            yield bay_word(charge, r.choice((CURRENT, VOLTAGE)), r.choice((1500, 2999, 3001, 16800, 65535, r.randint(1, 20000))))
        elif kind < 10:
            yield host_write(CHARGER, r.choice((CURRENT, VOLTAGE)), r.randint(100, 18000))
        elif kind < 16:
            yield host_read(*r.choice(READS))
        elif kind == 16:
            yield r.choice((bay_word(charge, ALARM, 0x4000), host_write(CHARGER, ALARM, 0x8000)))
            yield host_write(CHARGER, ALARM, 0)
        elif kind == 17:
            yield host_write(CHARGER, MODE, r.choice((0, 0, 0, 1, 4, 8)))
        elif kind == 18:
            yield host_write(SELECTOR, PRESETS, r.choice((0, 1, 2)) << 4 | 0xF)
        elif r.randrange(2):
            power = r.choice((None, 1 - charge))
            yield host_write(SELECTOR, STATE, 0xF0FF if power is None else 0x00FF | 0x1100 << power)
        elif bay != power:
            charge = bay
            yield connect(bay)


def refused_event(r, number):
    """An event that is refused with the number, while bay 0 charges and bay 1 is empty."""
    code, word, bay = r.choice((CURRENT, VOLTAGE, ALARM)), r.randrange(65536), r.choice((2, 3, 4, 255))
    return r.choice({
        2: (bay_word(bay, code, word), insertion(bay), removal(bay), ohms(bay, word), terminal(bay, word)),
        3: (host_write(0x10, code, word), host_write(CHARGER, STATUS, word), host_read(CHARGER, code), bay_word(0, MODE, word)),
        4: (bay_word(1, code, word),),
        5: (host_write(SELECTOR, STATE, 0x3FFF), host_write(SELECTOR, STATE, 0xFF4F), host_write(SELECTOR, PRESETS, 0x0083)),
        6: (host_write(SELECTOR, STATE, 0xF1FF), host_write(SELECTOR, STATE, 0x021F)),
        7: (host_write(SELECTOR, STATE, 0x2FFF), host_write(SELECTOR, STATE, 0xFF2F), host_write(SELECTOR, STATE, 0x22FF)),
        8: (host_write(SELECTOR, STATE, 0x11FF), host_write(SELECTOR, STATE, 0x111F)),
        9: (insertion(0), removal(1), ohms(1, word), terminal(1, word)),
    }[number])


def refusals(r):
    yield from [ac(1), *put_in(0), connect(0), *pair(0, 1500, 16800)]
    while True:
        yield tick()
        for number in r.sample(range(2, 10), 8):
            yield refused_event(r, number)
        if r.randrange(10) == 0:
            yield from pair(0, 1500, 16800)


def incident(r, charge):
    """Something that happens to the shelf, and what the host does about it: the records, and the bay that charges then."""
    other = 1 - charge
    kind = r.choice(('ac', 'swap', 'alarm', 'turn', 'turn'))
    if kind == 'ac':
        gone = [ac(0), host_read(SELECTOR, STATE), *[tick()] * 20, ac(1), host_read(SELECTOR, STATE)]
        return gone + [host_write(SELECTOR, STATE, 0xF0FF)] + pair(charge, 1500, 16800), charge
    if kind == 'swap':
        out = [removal(charge), host_read(SELECTOR, STATE), *[tick()] * 30]
        return out + put_in(charge) + [host_read(SELECTOR, STATE), connect(other), *pair(other, 2000, 16800)], other
    if kind == 'alarm':
        stop = [bay_word(charge, ALARM, 0x4000), host_read(CHARGER, STATUS), *[tick()] * 10]
        return stop + [bay_word(charge, ALARM, 0)] + pair(charge, 500, 16800), charge
    return [connect(other), *pair(other, 2000, 16800)], other


def day(r):
    """A tick each second and the traffic of a shelf around it; an incident every ten minutes or so."""
    yield from TWO_PACKS
    charge, second = 0, 0
    while True:
        yield tick()
        second += 1
        if second % 5 == 0:
            yield from pair(charge, max(200, 3200 - second % 3000), 16800)
        if second % 3 == 0:
            yield host_read(CHARGER, STATUS)
        if second % 4 == 0:
            yield host_read(SELECTOR, STATE)
        if second % 15 == 0:
            yield from (terminal(0, r.randint(11500, 12500)), terminal(1, r.randint(11500, 12500)))
        if second % 30 == 0:
            yield from (ohms(0, r.randint(9000, 11000)), ohms(1, r.randint(9000, 11000)), host_read(SELECTOR, PRESETS))
        if r.randrange(600) == 0:
            records, charge = incident(r, charge)
            yield from records


# Readings on both sides of each edge of the safety ranges, those of a fixed resistor under 500.
EDGES = (0, 1, 499, 500, 2999, 3000, 30000, 30001, 100000, 100001)
# All of them in turn, a plain one last, each with the status and the state that it gives.
SWEEP = [record for value in (*EDGES, 10000) for record in (ohms(0, value), host_read(CHARGER, STATUS), host_read(SELECTOR, STATE))]


def some_ohms(r):
    """A reading, half of the time a plain one."""
    return r.choice((10000, r.choice(EDGES)))


def some_event(r):
    """Any event, with values from both sides of the edges."""
    bay = r.choice((0, 0, 0, 1, 1, 2, 3, 4, 255))
    word = r.choice((0, 1, 500, 1500, 2999, 3001, 16800, 18001, 65534, 65535))
    nibble = lambda: r.choice((15, 15, 15, 0, 1, 2, 4, 8, 3))
    return r.choice((
        tick, tick, tick,
        lambda: bay_word(bay, r.choice((CURRENT, VOLTAGE, CURRENT, VOLTAGE, ALARM, MODE)), word),
        lambda: host_write(CHARGER, r.choice((CURRENT, VOLTAGE)), word),
        lambda: host_write(CHARGER, ALARM, r.choice((0, 0x1000, 0x4000, 0x0FFF))),
        lambda: host_write(CHARGER, MODE, r.choice((0, 0, 1, 4, 5, 8, 9))),
        lambda: host_write(SELECTOR, STATE, nibble() << 12 | nibble() << 8 | nibble() << 4 | r.randrange(16)),
        lambda: host_write(SELECTOR, PRESETS, r.choice((0, 1, 2, 4, 8, 3)) << 4 | r.choice((15, 15, 3, 1, 0))),
        lambda: host_read(r.choice((CHARGER, SELECTOR)), r.choice((0x11, 0x13, 0x01, 0x02, 0x04, 0x05))),
        lambda: insertion(bay), lambda: insertion(bay), lambda: removal(bay),
        lambda: ohms(bay, some_ohms(r)),
        lambda: terminal(bay, r.choice((0, 8999, 9000, 10499, 10500, 65535))),
        lambda: ac(r.choice((1, 1, 0))),
    ))()


# What ends wake-up, stops it for a while, begins it anew or lets it go on.
AROUND_WAKING = (SWEEP, [connect(0)], [ac(1)], [ac(0), *[tick()] * 60, ac(1)], [ac(0), host_write(CHARGER, VOLTAGE, 500), ac(1)],
                 [bay_word(0, CURRENT, 0)], [bay_word(0, VOLTAGE, 0)], [host_write(CHARGER, ALARM, 0x4000), host_write(CHARGER, ALARM, 0)],
                 [host_write(CHARGER, MODE, 1), host_write(CHARGER, MODE, 0)], *([host_write(CHARGER, MODE, word)] for word in (4, 8, 12)))


def some_silence(r):
    """A pack that is put in and connected, and is too flat to ask."""
    yield from [host_write(CHARGER, MODE, 4), ac(1), removal(0), insertion(0), ohms(0, some_ohms(r)), connect(0)]
    for _ in range(r.randint(1, 6)):
        yield from [tick()] * r.choice((1, 1, 1, 115, 174, 175))
        yield host_read(SELECTOR, STATE)
        yield from r.choice(AROUND_WAKING)


def some_events(r):
    """Any events; now and then a start of charging, a pack that is silent, or the ticks up to the end of a request."""
    while True:
        start = r.randrange(4)
        if start == 0:
            yield from [ac(1), insertion(0), ohms(0, some_ohms(r)), connect(0), *pair(0, 1500, 16800), *r.choice(([], SWEEP))]
        elif start == 1:
            yield from some_silence(r)
        for _ in range(r.randint(0, 25)):
            yield some_event(r)
        yield from [tick()] * r.choice((0, 0, 3, 174, 175))


KINDS = {'ticks': ticks, 'words': words, 'refusals': refusals, 'day': day, 'random': some_events}


def block(kind, records, seed):
    """That many records of a kind, each as its bytes; the last ones bring the machine back to power-on."""
    events = KINDS[kind](random.Random(seed))
    body = [next(events) for _ in range(max(0, records - len(CLOSING)))]
    return body + CLOSING[:records - len(body)]


def damaged(log, r):
    """The log with a byte changed, or cut off."""
    if not log:
        return log
    at = r.randrange(len(log))
    if r.randrange(2):
        return log[:at]
    return log[:at] + bytes([r.randrange(256)]) + log[at + 1:]


def some_bytes(size, r):
    """Random bytes, half of them small, as most bytes of a good log are."""
    return bytes(r.choice((r.randrange(10), r.randrange(256))) for _ in range(size))


def pieces(kind, records, seed=1):
    """A log of that many records, a piece at a time, so that a long one takes no memory."""
    r = random.Random(seed)
    if kind == 'bytes':
        yield some_bytes(min(records, BLOCK) * 6, r)
        return
    if kind == 'damaged':
        yield damaged(log_of('random', records, seed), r)
        return
    whole = block(kind, min(records, BLOCK), seed)
    times, rest = divmod(records, max(1, len(whole)))
    text = b''.join(whole)
    for _ in range(times):
        yield text
    yield b''.join(whole[:rest])


def log_of(kind, records, seed=1):
    """A log of that many records."""
    return b''.join(pieces(kind, records, seed))


def main():
    if len(sys.argv) not in (3, 4) or sys.argv[1] not in (*KINDS, 'damaged', 'bytes'):
        sys.exit(__doc__)
    for piece in pieces(sys.argv[1], *(int(word) for word in sys.argv[2:])):
        sys.stdout.buffer.write(piece)


if __name__ == '__main__':
    main()

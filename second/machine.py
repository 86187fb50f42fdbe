"""A second reading of document 01 and of requests (i) and (ii) of document 02: the machine, and what can be seen of it.

Written from the paper and our readings of it, by somebody who had not seen the code.
"""
from dataclasses import dataclass, field
from typing import Optional

PROGRAM_SETUP = (3, 3000, 2000, 18000, 16800, 9000, 10500, 0, 16800)


@dataclass
class Setup:
    supported: int
    largest_ma: int
    safe_ma: int
    largest_mv: int
    safe_mv: int
    low_mv: int
    restart_mv: int
    wake_ma: int                        # 0: no wake-up charge
    wake_mv: int

    def good(self):
        return (self.supported in (1, 3, 7, 15)
                and 1 <= self.safe_ma <= self.largest_ma <= 65534
                and 1 <= self.safe_mv <= self.largest_mv <= 65534
                and 0 < self.low_mv < self.restart_mv <= 65535
                and self.wake_ma <= min(100, self.safe_ma)
                and 1 <= self.wake_mv <= self.safe_mv)


@dataclass
class Bay:
    present: bool = False
    ok: bool = False
    low: bool = False
    ohms: Optional[int] = None          # None: unread since insertion


@dataclass
class Request:
    word: int = 0
    age: int = 0
    mark: bool = False                  # rewrite mark


@dataclass
class Machine:
    setup: Setup
    bays: list = field(default_factory=lambda: [Bay() for _ in range(4)])
    ac: bool = False
    notice: bool = False
    smb: int = 0
    power_by: int = 0
    charge: int = 0
    use_next: int = 0
    current: Request = field(default_factory=Request)
    voltage: Request = field(default_factory=Request)
    hold: bool = False
    inhibit: bool = False
    wake_age: int = 0                   # ticks since the later of fresh start and AC arrival, up to 175
    spent: bool = False                 # a request word or a zeroing since the fresh start


class Refused(Exception):
    def __init__(self, number):
        super().__init__(number)
        self.number = number


def power_on(numbers):
    """(answer, machine)"""
    setup = Setup(*numbers)
    if not setup.good():
        return 'refused 1', Machine(Setup(*PROGRAM_SETUP))
    return 'ok', Machine(setup)


def one_supported_bay(setup, nibble):
    return nibble in (1, 2, 4, 8) and (nibble & setup.supported) == nibble


def bad_machine(m):
    """Refusal 15."""
    if not m.setup.good():
        return True
    for nibble in (m.smb, m.power_by, m.charge, m.use_next):
        if nibble != 0 and not one_supported_bay(m.setup, nibble):
            return True
    if m.current.age > 175 or m.voltage.age > 175 or m.wake_age > 175:
        return True
    for b, bay in enumerate(m.bays):
        if bay.present and not (m.setup.supported >> b) & 1:
            return True
        if not bay.present and (bay.ok or bay.low or bay.ohms is not None):
            return True
    return False


# ------------------------------------------------------------- looking at it

def bay_of(m, nibble):
    """The bay that a nibble of the machine names, or None."""
    return {1: m.bays[0], 2: m.bays[1], 4: m.bays[2], 8: m.bays[3]}.get(nibble)


def present_at(m, nibble):
    bay = bay_of(m, nibble)
    return bay is not None and bay.present


def candidate(m, nibble):
    bay = bay_of(m, nibble)
    return bay is not None and bay.present and bay.ok and not bay.low


def choose(m, but=0):
    """The wanted bay if a candidate, else the first by letter, else 0; never `but`."""
    for nibble in (m.use_next, 1, 2, 4, 8):
        if nibble != but and candidate(m, nibble):
            return nibble
    return 0


# signal classes, as status bits
OR, COLD, HOT, UR = 1 << 8, 1 << 9, 1 << 10, 1 << 11
WAKES = (0, COLD)
CHARGES = (0, COLD, HOT | UR)           # a pack with a fixed resistor reads under range, and charges once it asks


def signal(ohms):
    if ohms is None or ohms > 100000:
        return OR | COLD
    if ohms < 500:
        return HOT | UR
    if ohms < 3000:
        return HOT
    if ohms <= 30000:
        return 0
    return COLD


def limited(word, largest, safe):
    return safe if word == 65535 else min(word, largest)


def may_flow(m, signals):
    """Facts (a) to (d) and (h), which both pairs need; each has its own signals for (c)."""
    return (m.ac and present_at(m, m.charge)
            and signal(bay_of(m, m.charge).ohms) in signals
            and not m.inhibit and not m.hold)


def requested(m):
    return may_flow(m, CHARGES) and m.current.word != 0 and m.voltage.word != 0


def waking(m):
    return may_flow(m, WAKES) and not m.spent and m.wake_age < 175 and m.setup.wake_ma != 0


def output(m):
    """(mA, mV): the requested pair, the wake pair or zero."""
    if requested(m):
        return (limited(m.current.word, m.setup.largest_ma, m.setup.safe_ma),
                limited(m.voltage.word, m.setup.largest_mv, m.setup.safe_mv))
    if waking(m):
        return (m.setup.wake_ma, m.setup.wake_mv)
    return (0, 0)


def charger_status(m):
    word = 1 << 4
    if m.inhibit:
        word |= 1 << 0
    if m.current.word > m.setup.largest_ma:
        word |= 1 << 6
    if m.voltage.word > m.setup.largest_mv:
        word |= 1 << 7
    if present_at(m, m.charge):
        word |= signal(bay_of(m, m.charge).ohms) | 1 << 14
    else:
        word |= OR | COLD
    if m.hold:
        word |= 1 << 12
    if m.ac:
        word |= 1 << 15
    return word


def selector_state(m):
    power_by = m.power_by
    if output(m) != (0, 0):
        power_by ^= 0xF
    present = sum(1 << b for b in range(4) if m.bays[b].present)
    return m.smb << 12 | power_by << 8 | m.charge << 4 | present


def selector_presets(m):
    ok = sum(1 << b for b in range(4) if m.bays[b].ok)
    return choose(m, but=m.power_by) << 4 | ok

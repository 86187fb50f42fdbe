"""A second reading of document 01 and of request (i) of document 02: the events and the step.

Each event works on a copy, which is thrown away when it raises Refused; a read gives its word back, all others None.
"""
import copy

from machine import (Refused, Request, bad_machine, bay_of, candidate, charger_status, choose, one_supported_bay, present_at,
                     selector_presets, selector_state)

CHARGER, SELECTOR = 0x12, 0x14


def fresh_start(m):
    m.current = Request()
    m.voltage = Request()
    m.hold = False
    m.wake_age = 0
    m.spent = False


def set_charge(m, nibble):
    if nibble != m.charge:
        m.charge = nibble
        fresh_start(m)


def request_word(m, request, word):
    request.word = word
    request.age = 0
    request.mark = True
    m.spent = True
    if m.current.mark and m.voltage.mark:
        m.hold = False


def alarm_word(m, word):
    if word & 0xF000:
        m.hold = True
        m.current.mark = False
        m.voltage.mark = False
    else:
        m.hold = False


def mode_word(m, word):
    if word & 1 << 2:
        fresh_start(m)
        m.inhibit = False
    else:
        m.inhibit = bool(word & 1)
        if word & 1 << 3:
            m.current.word = 0
            m.voltage.word = 0
            m.spent = True


def state_word(m, word):
    smb, power_by, charge = word >> 12 & 0xF, word >> 8 & 0xF, word >> 4 & 0xF
    same = 0xF
    for nibble in (smb, power_by, charge):
        if nibble not in (same, 0) and not one_supported_bay(m.setup, nibble):
            raise Refused(5)
    if power_by not in (same, 0) and smb != power_by:
        raise Refused(6)
    if smb not in (same, 0) and not present_at(m, smb):
        raise Refused(7)
    if power_by not in (same, 0) and not candidate(m, power_by):
        raise Refused(7)
    if charge not in (same, 0) and not (present_at(m, charge) and bay_of(m, charge).ok):
        raise Refused(7)
    if power_by == 0 and not m.ac:
        raise Refused(7)
    next_power_by = m.power_by if power_by == same else power_by
    next_charge = m.charge if charge == same else charge
    written = power_by != same or charge != same
    if written and next_power_by != 0 and next_power_by == next_charge:
        raise Refused(8)
    if smb != same:
        m.smb = smb
    m.power_by = next_power_by
    set_charge(m, next_charge)


def presets_word(m, word):
    use_next, ok = word >> 4 & 0xF, word & 0xF
    if use_next != 0 and not one_supported_bay(m.setup, use_next):
        raise Refused(5)
    m.use_next = use_next
    for b, bay in enumerate(m.bays):
        if bay.present:
            bay.ok = bool(ok >> b & 1)
    if present_at(m, m.charge) and not ok & m.charge:
        set_charge(m, 0)


def charger_word(m, code, word):
    """The three charger words that host and bays share."""
    if code == 0x14:
        request_word(m, m.current, word)
    elif code == 0x15:
        request_word(m, m.voltage, word)
    elif code == 0x16:
        alarm_word(m, word)
    else:
        raise Refused(3)


def host_write(m, address, code, word):
    if (address, code) == (CHARGER, 0x12):
        mode_word(m, word)
    elif address == CHARGER:
        charger_word(m, code, word)
    elif (address, code) == (SELECTOR, 0x01):
        state_word(m, word)
    elif (address, code) == (SELECTOR, 0x02):
        presets_word(m, word)
    else:
        raise Refused(3)


def host_read(m, address, code):
    if (address, code) == (CHARGER, 0x11):
        return 0x0002
    if (address, code) == (CHARGER, 0x13):
        return charger_status(m)
    if (address, code) == (SELECTOR, 0x01):
        word = selector_state(m)
        m.notice = False
        return word
    if (address, code) == (SELECTOR, 0x02):
        return selector_presets(m)
    if (address, code) == (SELECTOR, 0x04):
        return 0x0110 + m.setup.supported
    raise Refused(3)


def supported_bay(m, b):
    if b > 3 or not m.setup.supported >> b & 1:
        raise Refused(2)
    return m.bays[b]


def bay_word(m, b, code, word):
    bay = supported_bay(m, b)
    if code not in (0x14, 0x15, 0x16):
        raise Refused(3)
    if not bay.present or m.charge != 1 << b:
        raise Refused(4)
    charger_word(m, code, word)


def insertion(m, b):
    bay = supported_bay(m, b)
    if bay.present:
        raise Refused(9)
    bay.present = True
    bay.ok = True
    if m.charge == 1 << b:
        fresh_start(m)
    m.notice = True


def removal(m, b):
    bay = supported_bay(m, b)
    if not bay.present:
        raise Refused(9)
    bay.present = False
    bay.ok = False
    bay.low = False
    bay.ohms = None
    if m.charge == 1 << b:
        fresh_start(m)
    m.notice = True


def safety_signal(m, b, ohms):
    bay = supported_bay(m, b)
    if not bay.present:
        raise Refused(9)
    bay.ohms = ohms


def terminal_voltage(m, b, mv):
    bay = supported_bay(m, b)
    if not bay.present:
        raise Refused(9)
    if mv < m.setup.low_mv:
        bay.low = True
    elif mv >= m.setup.restart_mv:
        bay.low = False


def ac_event(m, present):
    present = bool(present)
    if present == m.ac:
        return
    m.ac = present
    m.notice = True
    if present:
        m.power_by = 0
        m.wake_age = 0
    else:
        fresh_start(m)


def tick(m):
    for request in (m.current, m.voltage):
        if request.age < 175:
            request.age += 1
        if request.age == 175:
            request.word = 0
    if m.wake_age < 175:
        m.wake_age += 1


def settle(m):
    """The three steps after each accepted event."""
    before = m.power_by
    if m.smb != 0 and not present_at(m, m.smb):
        m.smb = 0
    if m.power_by != 0 and not candidate(m, m.power_by):
        m.power_by = 0
    if m.power_by == 0 and not m.ac:
        taken = choose(m)
        if taken != 0:
            m.power_by = taken
            m.smb = taken
    if m.power_by != before:
        m.notice = True


# letter: (what happens, count of its numbers)
EVENTS = {
    'w': (host_write, 3), 'r': (host_read, 2), 'b': (bay_word, 3),
    'i': (insertion, 1), 'p': (removal, 1), 'o': (safety_signal, 2),
    'v': (terminal_voltage, 2), 'a': (ac_event, 1), 't': (tick, 0),
}


def step(machine, letter, numbers):
    """(answer, machine after it)"""
    if bad_machine(machine):
        return 'refused 15', machine
    m = copy.deepcopy(machine)
    happens, count = EVENTS[letter]
    assert len(numbers) == count, (letter, numbers)
    try:
        word = happens(m, *numbers)
    except Refused as refusal:
        return 'refused %d' % refusal.number, machine
    settle(m)
    return ('ok' if word is None else '0x%04X' % word), m

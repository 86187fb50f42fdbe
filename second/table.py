"""Reads a table of cases on standard input and writes each row back with its outcome.

The rows are those of crates/vectors/stdin, which explains them.
"""
import copy
import re
import sys

from events import step
from log import read_record, write_record
from machine import PROGRAM_SETUP, Refused, bad_machine, output, power_on

NUMBER = re.compile(r'(?:0[xX][0-9A-Fa-f]+|[0-9]+)\Z')


def number(token):
    return int(token, 16) if token[:2] in ('0x', '0X') else int(token, 10)


def kept(a, b):
    return ' kept' if a == b else ' moved'


def outputs(m):
    if bad_machine(m):
        return ' refused 15'
    ma, mv = output(m)
    return ' %d %d %d' % (ma, mv, m.notice)


def hexes(data):
    return ''.join(' %02X' % byte for byte in data)


def event_row(before, letter, numbers):
    """(text, machine after)"""
    times = 1
    if letter == 't' and numbers:
        times, numbers = numbers[0], []
    m, answer = before, None
    for _ in range(times):
        answer, m = step(m, letter, numbers)
    return ' ' + answer + ' |' + outputs(m) + ' |' + kept(before, m), m


def with_register(machine, numbers):
    m = copy.deepcopy(machine)
    register, value = numbers[0], numbers[-1]
    if 21 <= register <= 24:
        _, b, value = numbers
        bay = m.bays[b]
        if register == 21:
            bay.present = bool(value)
        elif register == 22:
            bay.ok = bool(value)
        elif register == 23:
            bay.low = bool(value)
        else:
            bay.ohms = value
        return m
    assert len(numbers) == 2, numbers
    where, name, flag = {
        0: (m.setup, 'supported', False), 1: (m.setup, 'largest_ma', False),
        2: (m.setup, 'safe_ma', False), 3: (m.setup, 'largest_mv', False),
        4: (m.setup, 'safe_mv', False), 5: (m.setup, 'low_mv', False),
        6: (m.setup, 'restart_mv', False), 7: (m, 'smb', False),
        8: (m, 'power_by', False), 9: (m, 'charge', False), 10: (m, 'use_next', False),
        11: (m.current, 'word', False), 12: (m.current, 'age', False),
        13: (m.current, 'mark', True), 14: (m.voltage, 'word', False),
        15: (m.voltage, 'age', False), 16: (m.voltage, 'mark', True),
        17: (m, 'hold', True), 18: (m, 'inhibit', True), 19: (m, 'ac', True),
        20: (m, 'notice', True), 25: (m.setup, 'wake_ma', False),
        26: (m.setup, 'wake_mv', False), 27: (m, 'wake_age', False), 28: (m, 'spent', True),
    }[register]
    setattr(where, name, bool(value) if flag else value)
    return m


def handed_row(machine, letter, numbers):
    count = 3 if 21 <= numbers[0] <= 24 else 2
    handed = with_register(machine, numbers[:count])
    text, _ = event_row(handed, letter, numbers[count:])
    return kept(machine, handed) + ' |' + text


def log_row(numbers):
    log = bytes(numbers)
    try:
        letter, values, taken, body = read_record(log)
    except Refused as refusal:
        return ' refused %d | body | run%s' % (refusal.number, run_end(log))
    values = (values + [0, 0, 0])[:3]
    return ' %s %d %d %d | taken %d | body%s | run%s' % (letter, *values, taken, hexes(body), run_end(log))


def run_end(log):
    """How many records a log has up to its end or its first bad one, and 0 or that one's refusal."""
    records = 0
    while log:
        try:
            log = log[read_record(log)[2]:]
        except Refused as refusal:
            return ' %d %d' % (records, refusal.number)
        records += 1
    return ' %d 0' % records


def free_row(letter, numbers):
    length, place, *event = numbers
    whole = bytearray([0xEE] * 12)
    try:
        text = ' %d' % write_record(whole, length, place, letter, event)
    except Refused as refusal:
        text = ' refused %d' % refusal.number
    return text + ' |' + hexes(whole)


def main():
    _, machine = power_on(PROGRAM_SETUP)
    for line in sys.stdin:
        row = line.rstrip('\n')
        if row == '' or row.startswith('#'):
            print(row)
            continue
        tokens = row.split()
        numbers = [number(t) for t in tokens if NUMBER.match(t)]
        words = [t for t in tokens if not NUMBER.match(t)]
        letter = row[0]
        if letter == 's':
            answer, machine = power_on(numbers)
            _, program = power_on(PROGRAM_SETUP)
            text = ' ' + answer + ' |' + kept(machine, program)
        elif letter == 'h':
            text = handed_row(machine, words[-1][0], numbers)
        elif letter == 'l':
            text = log_row(numbers)
        elif letter == 'f':
            text = free_row(words[-1][0], numbers)
        else:
            text, machine = event_row(machine, letter, numbers)
        print(row + ' |' + text)


if __name__ == '__main__':
    main()

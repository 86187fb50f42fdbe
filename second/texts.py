"""Compares log_to_text and log_from_text with the second reading: python3 second/texts.py [COUNT [SEED]]

A round has a log, which goes to a text and back, and a text in spellings that no program writes. About half of the logs and of
the texts are good, the others damaged in one place. Many are longer than a buffer of 65,536 bytes, with the damage at its edge.
"""
import collections
import pathlib
import random
import re
import subprocess
import sys

from log import record_of
from text import LARGEST, log_of, text_of

ROOT = pathlib.Path(__file__).resolve().parent.parent
EDGE = 65536
FIELDS = ['length', 'event', *LARGEST, 'end']
# letter: (the words that open its line, the largest number of each field)
EVENTS = {
    'a': ([b'ac'], [1]), 'i': ([b'insertion'], [255]), 'p': ([b'removal'], [255]), 'o': ([b'ohms'], [255, 2**32 - 1]),
    'v': ([b'terminal'], [255, 65535]), 'w': ([b'host', b'write'], [255, 255, 65535]), 'r': ([b'host', b'read'], [255, 255]),
    'b': ([b'bay', b'word'], [255, 255, 65535]), 't': ([b'tick'], []),
}
# largest: numbers of that range that mean something, or lie at an edge
USUAL = {
    1: (0, 1),
    255: (0, 0, 1, 1, 2, 3, 4, 9, 10, 15, 0x11, 0x12, 0x12, 0x12, 0x13, 0x14, 0x14, 0x14, 0x15, 0x15, 0x16, 99, 100, 254, 255),
    65535: (0, 1, 9, 10, 255, 256, 1500, 4095, 4096, 8999, 9999, 10000, 16800, 32767, 32768, 0xFF1F, 65534, 65535),
    2**32 - 1: (0, 1, 499, 10000, 100001, 65535, 65536, 2**24, 2**31 - 1, 2**31, 10**9, 2**32 - 2, 2**32 - 1),
}
# records by their refusal, 10 to 13; those for 10 get it at the end of a log
BAD_RECORDS = (
    ('00', '02', '0700', '020009', '07000600010403', '0700FFFF010403FF'),
    ('0000', 'FFFF', '0100', '0800', '0201', '0300090000', '02000800', '040008000200'),
    ('02000000', '02000A00', '02000901', '0300080100', '0700FFFF01040302FF'),
    ('0300080002', '03000800FF'),
)
ODD_WORDS = (
    b'0x', b'0X1F', b'1F', b'1f', b'0x1G', b'1Fh', b'$1F', b'00x1', b'0x0x1', b'+1', b'-1', b'-0', b'+0x1', b'0x-1', b'1_0',
    b'0x1_0', b'1.0', b'1e3', b'0b1', b'0o7', b'1,000', b'x', b'-', b'"1"', b'\xd9\xa3', b'\xef\xbb\xbfac', b'1\x00', b'\x00',
    b'\x0b', b'\x0c1', b'~', b'\x7f', b'AC', b'Ac', b'insert', b'inserted', b'remove', b'ohm', b'volts', b'host', b'bay',
    b'write', b'read', b'word', b'words', b'host_write', b'hostwrite', b'Tick', b'ticks', b'tick', b'ac', b'end', b'0', b'1',
    b'0x14', b'16800', b'18446744073709551616', b'18446744073709551617', b'0x10000000000000001')
COMMENTS = (b'', b'#', b' connect bay A', b' 12', b'ac 1', b' \xc3\xa4\xe2\x82\xac', b'\x00\x0b\x7f\xff \r')
ODD_BYTES = b'\x00\x0b\x0c\x1b\x1f!/:~\x7f\x80\x85\xa0\xff'


# ------------------------------------------------------------- logs

def some_number(r, largest):
    return r.choice(USUAL[largest]) if r.random() < 0.8 else r.randint(0, largest)


def some_event(r):
    letter = r.choice('aipovwrbt')
    return letter, [some_number(r, largest) for largest in EVENTS[letter][1]]


def good_log(r, size):
    """A log of exactly so many bytes, which are 0 or at least 15."""
    log = bytearray()
    while size - len(log) > 24:
        letter, numbers = some_event(r)
        times = min(r.choice((1, 1, 2, 60, 300)), (size - len(log) - 15) // 4) if letter == 't' else 1
        log += record_of(letter, numbers) * times
    rest = size - len(log)
    return bytes(log + record_of('i', [0]) * (rest % 4) + record_of('t', []) * (rest // 4 - rest % 4))


def begin_of_record(log, place):
    """Where the first record at or behind a place of a good log begins."""
    at = 0
    while at < place:
        at += 2 + log[at]
    return at


def damaged_log(r, log):
    place = min(len(log), r.choice((r.randint(0, len(log)), EDGE + r.randint(-9, 2))))
    begin = begin_of_record(log, place)
    bad, some = bytes.fromhex(r.choice(r.choice(BAD_RECORDS))), r.randbytes(r.choice((1, 2, 9, 100)))
    return r.choice((
        lambda: log[:place],
        lambda: log[:place] + some[:1] + log[place + 1:],
        lambda: log[:begin] + bad + log[begin:],
        lambda: log[:begin] + bad,
        lambda: log[:begin] + some + log[begin:],
        lambda: r.randbytes(r.choice((1, 9, 100, EDGE + 9))),
    ))()


def log_across_the_edge(r):
    """A log with its longest record at the edge."""
    return good_log(r, EDGE - r.randint(0, 9)) + record_of('o', [0, 10000]) + good_log(r, r.choice((0, 15, 9000, EDGE)))


def some_log(r):
    log = r.choice((
        lambda: r.choice((b'', record_of(*some_event(r)))),
        lambda: good_log(r, r.choice((15, 500, 9000, 25000))),
        lambda: good_log(r, r.choice((EDGE - 1, EDGE, EDGE + 1, 72000, 2 * EDGE, 140000))),
        lambda: log_across_the_edge(r),
    ))()
    return r.choice((log, damaged_log(r, log)))


# ------------------------------------------------------------- texts

def spelt(r, n):
    zeros = b'0' * r.choice((0, 0, 0, 0, 0, 0, 0, 0, 1, 2, 9, r.choice((28, 29, 30, 31, 32, 200))))
    mixed = ''.join(r.choice((digit, digit.lower())) for digit in '%X' % n).encode()
    return r.choice((b'%s%d' % (zeros, n), b'0x%s%x' % (zeros, n), b'0x%s%X' % (zeros, n), b'0x%s%s' % (zeros, mixed)))


def some_words(r):
    """(the words of an event, its records)"""
    letter, numbers = some_event(r)
    words, record = EVENTS[letter][0] + [spelt(r, n) for n in numbers], record_of(letter, numbers)
    if letter == 't' and r.random() < 0.7:
        ticks = r.choice((0, 1, 2, 3, 4, 59, 60, 174, 175, r.randint(0, 3000)))
        return words + [spelt(r, ticks)], record * ticks
    return words, record


def blanks(r, least):
    return bytes(r.choices(b' \t\r', k=r.choice((least, least, least, 1, 1, 4))))


def comment(r):
    return b'#' + r.choice((*COMMENTS, r.randbytes(60).replace(b'\n', b'')))


def line_of(r, words):
    """A line of these words, as yet without its line feed."""
    line = blanks(r, 0) + b''.join(word + blanks(r, 1) for word in words)
    if r.random() < 0.3:
        line = r.choice((line, line.rstrip(b' \t\r'))) + comment(r)
    elif r.random() < 0.5:
        line = line.rstrip(b' \t\r')
    return line + r.choice((b'', b'', b'\r'))


def padded(r, line, size):
    fill = size - len(line)
    return r.choice((line + b'#' * fill, line + b'\t' * fill, line + b'\r' * fill, b' ' * fill + line))


def good_line(r):
    """(line with its line feed, its records)"""
    words, records = some_words(r) if r.random() < 0.9 else ([], b'')
    line = line_of(r, words)
    return (padded(r, line, r.choice((1023, 1024))) if r.random() < 0.01 else line) + b'\n', records


def line_at_an_edge(r):
    """A good line that fills a buffer up to an edge: a line of the largest length, or a log of 65,536 bytes."""
    words, records = some_words(r)
    if r.random() < 0.25:
        ticks = EDGE // 4 + r.randint(-1, 1)
        words, records = [b'tick', spelt(r, ticks)], record_of('t', []) * ticks
    return padded(r, line_of(r, words), r.choice((1023, 1024, 1024))) + b'\n', records


def wrong_word(r, word):
    at = r.randint(0, len(word))
    return r.choice((
        lambda: r.choice(ODD_WORDS),
        lambda: spelt(r, r.choice(list(USUAL)) + 1),
        lambda: b'%d' % (r.choice(list(USUAL)) + 1 + r.choice((0, 0, 1, 255, 2**32, 2**64))),
        lambda: r.choice((b'-', b'+', b'0X', b'0x')) + word,
        lambda: r.choice((word.upper(), word.capitalize(), word + b's', word[:-1], word[1:], word[::-1])),
        lambda: word[:at] + bytes(r.choices(ODD_BYTES, k=r.choice((1, 1, 8, 33)))) + word[at:],
        lambda: word[:at] + r.choice((b'x', b'9', b'\xff')) * (r.choice((31, 32, 33, 34, 900)) - len(word)) + word[at:],
    ))()


def wrong_words(r, words):
    i = r.randrange(len(words))
    return r.choice((
        words[:i] + words[i + 1:],
        words[:i],
        words[:i] + [wrong_word(r, words[i])] + words[i:],
        words + [wrong_word(r, words[i])],
        *[words[:i] + [wrong_word(r, words[i])] + words[i + 1:]] * 4,
    ))


def damaged_line(r):
    words, _ = some_words(r)
    line = line_of(r, words)
    at = r.randint(0, len(line))
    some = r.randbytes(r.choice((1, 2, 3, 40)))
    return r.choice((
        *[lambda: line_of(r, wrong_words(r, words)) + b'\n'] * 7,
        lambda: padded(r, line, r.choice((1025, 1026, 5000, EDGE + 1, 140000))) + b'\n',
        lambda: padded(r, line, r.choice((1023, 1024, 1024))) + b'\r\n',
        lambda: line[:at] + some + line[at:] + b'\n',
        lambda: line[:at] + r.choice((b'', b'\n')),
    ))()


def too_many_ticks(line):
    """Whether a line may make a log of gigabytes, as a digit more can do."""
    numbers = re.findall(rb'tick[ \t\r]+(0x[0-9A-Fa-f]+|[0-9]+)', line)
    return any(10**5 < int(n, 16 if n.startswith(b'0x') else 10) < 2**32 for n in numbers)


def wrong_line(r):
    """A damaged line, as a rule one that is wrong in a field drawn before."""
    field = r.choice(FIELDS + ['length', '', ''])
    while True:
        line = damaged_line(r)
        if not too_many_ticks(line) and log_of(line)[1].startswith('line 1: %s:' % field if field else ''):
            return line


def good_lines(r, size):
    """(lines of exactly so many bytes, their records)"""
    text, log = bytearray(), bytearray()
    while True:
        line, records = good_line(r)
        if len(text) + len(line) > size:
            break
        text += line
        log += records
    while len(text) < size:
        text += r.choice((b'#', b' ', b'\r')) * min(size - len(text) - 1, 1000) + b'\n'
    return bytes(text), bytes(log)


def some_text(r):
    """(text, its log, or None if the text was damaged)"""
    good = r.random() < 0.5
    line, records = r.choice((good_line, line_at_an_edge))(r) if good else (wrong_line(r), b'')
    edge = r.choice((EDGE, EDGE, 2 * EDGE)) - r.choice((0, 1, len(line) - 1, len(line), r.randint(0, len(line))))
    front, log = good_lines(r, max(0, r.choice((0, r.randint(0, 5000), r.randint(0, 140000), edge, edge))))
    back, more = good_lines(r, r.choice((0, 0, 200, 5000, 72000)))
    last, at_last = r.choice(((b'', b''), good_line(r)))
    text = front + line + back + last
    return text[:-1] if r.random() < 0.4 and text.endswith(b'\n') else text, log + records + more + at_last if good else None


# ------------------------------------------------------------- the programs

def command(program):
    """The words of the command that runs a program of the project."""
    run = subprocess.run(['./program', '--words', program], cwd=ROOT, stdout=subprocess.PIPE, text=True, check=True)
    return run.stdout.splitlines()


def answer(words, data):
    """(standard output, standard error) of a command"""
    try:
        run = subprocess.run(words, cwd=ROOT, input=data, capture_output=True, timeout=600)
    except subprocess.TimeoutExpired:
        return b'', b'no end after 600 seconds\n'
    return run.stdout, run.stderr + (b'ended by signal %d\n' % -run.returncode if run.returncode < 0 else b'')


def hold(where, file, data, ours, second):
    """Ends with the first difference, if there is one."""
    for name, i in (('standard error', 1), ('standard output', 0)):
        a, b = ours[i], second[i]
        if a != b:
            pathlib.Path(file).write_bytes(data)
            at = next((n for n, (x, y) in enumerate(zip(a, b)) if x != y), min(len(a), len(b)))
            sys.exit('%s: %s differs at byte %d, %r and not %r: the input is kept as %s'
                     % (where, name, at, a[max(0, at - 30):at + 30], b[max(0, at - 30):at + 30], file))


def log_round(where, log, to_text, from_text):
    """What is said of the log, and its text."""
    text, said = text_of(log)
    hold(where + 'log_to_text', 'differs.log', log, answer(to_text, log), (text, said.encode()))
    good = log[:int(re.search(r'byte (\d+)', said)[1])] if said else log
    hold(where + 'the second reading', 'differs.txt', text, log_of(text), (good, ''))
    hold(where + 'log_from_text of a log', 'differs.txt', text, answer(from_text, text), (good, b''))
    return said, text


def text_round(where, text, log, from_text):
    """What is said of the text."""
    made, said = log_of(text)
    if log is not None:
        hold(where + 'the second reading', 'differs.txt', text, (made, said), (log, ''))
    hold(where + 'log_from_text', 'differs.txt', text, answer(from_text, text), (made, said.encode()))
    return said


def counts(counter):
    return ', '.join('%s %d' % pair for pair in counter.items())


def main():
    count, seed = (int(n) for n in (sys.argv[1:] + ['200', '1'][len(sys.argv) - 1:]))
    to_text, from_text = command('log_to_text'), command('log_from_text')
    r = random.Random(seed)
    lines = large = 0
    fields = collections.Counter(dict.fromkeys(FIELDS, 0))
    refusals = collections.Counter(dict.fromkeys(('10', '11', '12', '13'), 0))
    for i in range(count):
        where, log, (text, its_log) = 'round %d of seed %d, ' % (i, seed), some_log(r), some_text(r)
        said, made = log_round(where, log, to_text, from_text)
        refusals.update(re.findall(r'refused (\d+)', said))
        fields.update(re.findall(r'^line \d+: (\w+)', text_round(where, text, its_log, from_text)))
        large += (len(log) > EDGE) + (len(text) > EDGE)
        lines += made.count(b'\n') + text.count(b'\n')
    print('%d logs, %d texts, %d of them over %d bytes, %d lines; wrong lines: %s; bad records: %s: no difference'
          % (count, count, large, EDGE, lines, counts(fields), counts(refusals)))


if __name__ == '__main__':
    main()

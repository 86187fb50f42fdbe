"""A log as the programs tell it. Nothing is decided here.

The events are log_to_text's lines; answers, output and notice are replay's listing. What a listing does not show is read: host reads
of SelectorState and ChargerStatus are put behind each record of the text, and the log of that text is listed too. Such a read clears the
notice and changes nothing else. Where an answer or an output of the log's own records is another with the reads, there is no picture.
"""
import pathlib
import subprocess
from typing import NamedTuple

ROOT = pathlib.Path(__file__).resolve().parent.parent
# What is read at power-on alone, SelectorInfo for the bays that there are; and what is read there and behind each record.
READ_FIRST = 'host read 0x14 0x04\n'
READ = 'host read 0x14 0x01\nhost read 0x12 0x13\n'
# Of a longer log, a month's and more, there is no picture: it would take gigabytes of memory to draw.
MOST_BYTES = 10_000_000


class Failure(Exception):
    """Why there is no picture, if that has not been said already; and the status to end with."""

    def __init__(self, why, status=1):
        super().__init__(why)
        self.status = status


class Line(NamedTuple):
    """What the listing says of a record."""
    answer: str
    milliamps: int
    millivolts: int
    notice: int


class Moment(NamedTuple):
    """What stands at power-on or behind a record: the listing's figures, SelectorState and ChargerStatus."""
    milliamps: int
    millivolts: int
    notice: int
    state: int
    status: int


class Story(NamedTuple):
    """`events` and `lines` have an element for each record, `moments` one more in front, of power-on. `ending` is what is said of a bad
    record, '' if there is none."""
    name: str
    setup: list
    bays: int
    events: list
    lines: list
    moments: list
    ending: str


def program(name):
    """The words that run a program of the project."""
    found = subprocess.run([str(ROOT / 'program'), '--words', name], stdout=subprocess.PIPE, text=True)
    if found.returncode != 0:
        raise Failure('', found.returncode)
    return found.stdout.splitlines()


def lines_of(words, data):
    """(lines of standard output, standard error)"""
    done = subprocess.run(words, input=data, capture_output=True)
    return done.stdout.decode('ascii').splitlines() or [''], done.stderr.decode('ascii', 'replace').strip()


def bytes_of(log):
    """The log in bytes. Of a file or a text that is wrong, ./run says what is."""
    with subprocess.Popen([str(ROOT / 'run'), '--bytes', log], stdout=subprocess.PIPE) as run:
        data = run.stdout.read(MOST_BYTES + 1)
        if len(data) > MOST_BYTES:
            run.terminate()
            raise Failure('the log has more than %d bytes' % MOST_BYTES)
    if run.returncode != 0:
        raise Failure('', run.returncode)
    return data


def events_of(log):
    """(the words of each event, how the log ends)"""
    (*lines, last), said = lines_of(program('log_to_text'), log)
    if not last.startswith('# end: '):
        raise Failure(said or 'the text of the log has no end')
    return [line.split(' #')[0] for line in lines], last[len('# end: '):]


def listing_of(replay, log):
    """(a Line for each record, the refusal that the log ends with, 0 for none)"""
    (*lines, last), said = lines_of(replay, log)
    if last == 'refused 1':
        raise Failure('the setup is refused')
    if said or not last.startswith('end '):
        raise Failure(said or 'the listing of the log has no end')
    known = {}
    listed = []
    for line in lines:
        told = line.split(' ', 1)[1]
        if told not in known:
            answer, *figures = told.rsplit(' ', 3)
            known[told] = Line(answer, *map(int, figures))
        listed.append(known[told])
    return listed, int(last.split(' ')[2])


def listing_with_reads(replay, events):
    """(three Lines of power-on, three of each record: its own, and those of the two reads)"""
    text = READ_FIRST + READ + ''.join(event + '\n' + READ for event in events)
    made = subprocess.run(program('log_from_text'), input=text.encode('ascii'), capture_output=True)
    if made.stderr:
        raise Failure(made.stderr.decode('ascii', 'replace').strip())
    lines, _ = listing_of(replay, made.stdout)
    if len(lines) != 3 + 3 * len(events):
        raise Failure('with reads put in, the log is listed with %d records' % len(lines))
    return list(zip(lines[::3], lines[1::3], lines[2::3]))


def moments_of(lines, with_reads):
    """What stands at power-on and behind each record."""
    moments = []
    known = {}
    for number, (own, (first, state, status)) in enumerate(zip([with_reads[0][0]] + lines, with_reads)):
        if own[:3] != first[:3] or own[1:3] != state[1:3] or own[1:3] != status[1:3]:
            raise Failure('record %d is listed otherwise where reads are put in' % number)
        moment = Moment(*own[1:], int(state.answer, 16), int(status.answer, 16))
        moments.append(known.setdefault(moment, moment))
    return moments


def story_of(log, setup):
    data = bytes_of(log)
    replay = program('replay_with') + setup if setup else program('replay')
    lines, refusal = listing_of(replay, data)
    events, ending = events_of(data)
    if len(lines) != len(events):
        raise Failure('the listing has %d records, and the text of the log %d' % (len(lines), len(events)))
    with_reads = listing_with_reads(replay, events)
    return Story(
        name='standard input' if log == '-' else pathlib.Path(log).name, setup=setup,
        bays=int(with_reads[0][0].answer, 16) & 0xF, events=events, lines=lines,
        moments=moments_of(lines, with_reads), ending=ending if refusal else '')

"""Compares the pictures of random logs with the second reading: python3 second/pictures.py [COUNT [SEED]]

What ./plot finds to stand behind each record is held against the machine of the second reading; and where the picture is lettered, what
the lanes of the SVG show before and behind each event. Logs and setups are those of compare.py, half of the logs cut short, since a long
one is not lettered.
"""
import functools
import pathlib
import random
import re
import sys
import tempfile
import xml.etree.ElementTree as ElementTree

ROOT = pathlib.Path(__file__).resolve().parent.parent
sys.path.insert(0, str(ROOT / 'picture'))

import drawing  # noqa: E402
import story  # noqa: E402
from compare import some_log, some_setup  # noqa: E402
from events import step  # noqa: E402
from layout import Scale  # noqa: E402
from log import read_record  # noqa: E402
from machine import PROGRAM_SETUP, Refused, output, power_on  # noqa: E402

BAND = re.compile(r'M(\d+) (\d+)h(\d+)v14h-\d+z')


def machines(setup, log):
    """The machine at power-on and behind each record."""
    answer, machine = power_on(setup)
    yield machine
    try:
        while log:
            letter, numbers, taken, _ = read_record(log)
            log = log[taken:]
            machine = step(machine, letter, numbers)[1]
            yield machine
    except Refused:
        pass


def lanes_of_machine(machine):
    """{lane: what it should show}"""
    names = {0: '', 1: 'A', 2: 'B', 4: 'C', 8: 'D'}
    lanes = {'pack in ' + letter: letter * bay.present for letter, bay in zip('ABCD', machine.bays)}
    return {**lanes, 'AC': 'on' * machine.ac, 'CHARGE': names[machine.charge], 'POWER_BY': names[machine.power_by],
            'alarm hold': 'on' * machine.hold, 'inhibit': 'on' * machine.inhibit, 'notice': 'on' * machine.notice,
            'output': output(machine)}


def lanes_of_picture(bays, svg):
    """{lane: [(from, to, what is shown)]}, in pixels from the left edge of the drawing"""
    colours = {ground: letter for letter, (ground, _) in drawing.BAYS.items()}
    height, shown = {}, {}
    root = ElementTree.fromstring(svg)
    labels = {label for label, _, _ in drawing.lanes_of(bays)}
    for element in root:
        if element.text in labels:
            height[int(element.get('y')) - drawing.BAND + 3] = element.text
            shown[element.text] = []
        for x, y, width in BAND.findall(element.get('d', '')):
            start = int(x) - drawing.LEFT
            shown[height[int(y)]].append((start, start + int(width), colours.get(element.get('fill'), 'on')))
    return shown


def hold(where, log, ours, second):
    """Ends with the first difference, if there is one."""
    for lane, value in ours.items():
        if value != second[lane]:
            pathlib.Path('differs.log').write_bytes(log)
            sys.exit('%s: %s is %r and not %r: the log is kept as differs.log' % (where, lane, value, second[lane]))


def compare_moments(where, log, told, second):
    for number, (moment, machine) in enumerate(zip(told.moments, second, strict=True)):
        ours = {label: at(moment) for label, _, at in drawing.lanes_of(told.bays)}
        hold('%s, record %d' % (where, number), log, {**ours, 'output': (moment.milliamps, moment.millivolts)}, lanes_of_machine(machine))


def compare_picture(where, log, told, second):
    """How many places were looked at, before and behind each event, if the picture is lettered."""
    shown, scale = lanes_of_picture(told.bays, drawing.picture_of(told)), Scale(told.events, not told.ending)
    if not scale.is_lettered:
        return 0
    for number, (place, is_tick) in enumerate(zip(scale.places[1:], scale.is_tick), 1):
        for column, machine in [] if is_tick else ((place - 2, second[number - 1]), (place + 2, second[number])):
            ours = {lane: ''.join(value for start, end, value in bands if start <= column < end) for lane, bands in shown.items()}
            hold('%s, the picture at record %d' % (where, number), log, ours, lanes_of_machine(machine))
    return 2 * scale.events


def told_of(file, setup):
    """The story of the log in a file, None if the setup is refused."""
    try:
        return story.story_of(str(file), [] if setup == PROGRAM_SETUP else [str(n) for n in setup])
    except story.Failure as failure:
        if str(failure) != 'the setup is refused' or power_on(setup)[0] == 'ok':
            raise
        return None


def main():
    count, seed = (int(n) for n in (sys.argv[1:] + ['200', '1'][len(sys.argv) - 1:]))
    r = random.Random(seed)
    story.program = functools.lru_cache(None)(story.program)
    pictures = records = places = 0
    with tempfile.NamedTemporaryFile(suffix='.log') as file:
        for i in range(count):
            setup, log = r.choice((PROGRAM_SETUP, some_setup(r))), some_log(r)[:r.choice((None, r.randint(0, 700)))]
            file.seek(0)
            file.truncate()
            file.write(log)
            file.flush()
            told = told_of(file.name, setup)
            if told:
                where, second = 'log %d of seed %d' % (i, seed), list(machines(setup, log))
                compare_moments(where, log, told, second)
                pictures += 1
                records += len(told.events)
                places += compare_picture(where, log, told, second)
    print('%d logs, %d of them drawn, %d records, %d places of pictures: no difference' % (count, pictures, records, places))


if __name__ == '__main__':
    main()

"""The picture of a log, as SVG. Each function that draws takes the y to begin at and gives back the y behind what it has drawn."""
import math
from itertools import accumulate
from xml.sax.saxutils import escape

from layout import NARROWEST_EVENT, Scale, round_step, steps

# In pixels; LETTER is the width of a letter, by and large.
EDGE, LEFT, PANEL, PANEL_GAP, LANE, BAND, LETTER = 8, 100, 84, 24, 20, 14, 6.6
# The slope at which the events are lettered.
DEGREES = 60
DOWN, ASIDE = math.sin(math.radians(DEGREES)), math.cos(math.radians(DEGREES))

INK, FAINT, GRID, GUIDE, SHADE, FILL, WRONG = '#222222', '#555555', '#d3d8df', '#b9c1cd', '#eef1f6', '#cfe3f1', '#b03a00'
# The bays' colours, and those of their letters on them.
BAYS = {'A': ('#0072b2', '#ffffff'), 'B': ('#e69f00', INK), 'C': ('#009e73', INK), 'D': ('#cc79a7', INK)}
NOTE = 'On shaded ground no time passes: events of one tick stand side by side. Their numbers are those of the listing.'
DENSE_NOTE = 'Every record, tick or event, has the same width. Numbered are records that change something, where there is room.'


class Picture:
    """Elements in the order in which they are painted, and how far they reach to the right."""

    def __init__(self):
        self.elements, self.right = [], 0

    def path(self, d, **style):
        if d:
            self.elements.append('<path d="%s"%s/>' % (d, attributes(style)))

    def text(self, x, y, words, **style):
        self.elements.append('<text x="%s" y="%s"%s>%s</text>' % (figure(x), figure(y), attributes(style), escape(words)))
        if not style.keys() & {'text_anchor', 'transform'}:
            self.reaches(x + len(words) * LETTER * style.get('font_size', 12) / 12)

    def reaches(self, x):
        self.right = max(self.right, x)


def attributes(style):
    return ''.join(' %s="%s"' % (name.replace('_', '-'), value) for name, value in style.items())


def figure(number):
    """A number with at most one decimal."""
    return ('%.1f' % number).removesuffix('.0')


# ------------------------------------------------------------- output

def draw_output(picture, y, label, values, scale):
    """The output as steps, with an axis, and its value where there is room."""
    step = round_step(max(values), 4)
    largest = max(step, math.ceil(max(values) / step) * step)

    def level(value):
        return y + PANEL - PANEL * value / largest

    for value in range(0, largest + 1, step) if any(values) else [0]:
        picture.path('M%d %sh%d' % (LEFT, figure(level(value)), scale.width), stroke=GRID)
        picture.text(LEFT - 6, level(value) + 4, str(value), text_anchor='end', fill=FAINT, font_size=11)
    drawn = steps(scale, values)
    line = ''.join('V%sH%d' % (figure(level(value)), LEFT + end) for _, end, value in drawn)
    picture.path('M%d %d%sV%dz' % (LEFT, y + PANEL, line, y + PANEL), fill=FILL)
    picture.path('M%d %s%s' % (LEFT, figure(level(values[0])), line), fill='none', stroke=INK, stroke_width=1.5)
    for start, end, value in drawn:
        if value and end - start > LETTER * len(str(value)) + 8:
            picture.text(LEFT + start + 4, level(value) - 4, str(value))
    picture.text(EDGE, y + PANEL / 2 - 4, 'output')
    picture.text(EDGE, y + PANEL / 2 + 12, label, font_weight='bold')
    return y + PANEL + PANEL_GAP


# ------------------------------------------------------------- lanes

def letters(nibble):
    """The bays that a nibble names."""
    return ''.join(letter for bay, letter in enumerate(BAYS) if nibble >> bay & 1)


def power_by(moment):
    """SelectorState shows POWER_BY inverted while there is an output."""
    shown = moment.state >> 8 & 0xF
    return shown ^ 0xF if moment.milliamps or moment.millivolts else shown


def lanes_of(bays):
    """(label, colour, what a moment has in the lane: '' for nothing); a lane without a colour has the bays' ones."""
    yield 'AC', '#56b4e9', lambda moment: 'on' * (moment.status >> 15 & 1)
    for letter in letters(bays):
        yield 'pack in ' + letter, None, lambda moment, letter=letter: letter * (letter in letters(moment.state))
    yield 'CHARGE', None, lambda moment: letters(moment.state >> 4)
    yield 'POWER_BY', None, lambda moment: letters(power_by(moment))
    yield 'alarm hold', '#d55e00', lambda moment: 'on' * (moment.status >> 12 & 1)
    yield 'inhibit', '#7f4f9f', lambda moment: 'on' * (moment.status & 1)
    yield 'notice', '#8a8f98', lambda moment: 'on' * moment.notice


def draw_lane_ground(picture, y, label, scale, **style):
    picture.path('M%d %dh%d' % (LEFT, y + BAND, scale.width), stroke=GRID)
    picture.text(EDGE, y + BAND - 3, label, **style)


def draw_lane(picture, y, label, colour, values, scale):
    """A band wherever there is something, with the bay's letter if there is room."""
    draw_lane_ground(picture, y, label, scale)
    bands, names = {}, []
    for start, end, value in steps(scale, values):
        if value:
            ground, ink = (colour, INK) if colour else BAYS[value[0]]
            bands.setdefault(ground, []).append('M%d %dh%dv%dh-%dz' % (LEFT + start, y, end - start, BAND, end - start))
            if not colour and end - start > LETTER * len(value) + 4:
                names.append((start, value, ink))
    for ground, parts in bands.items():
        picture.path(''.join(parts), fill=ground)
    for start, value, ink in names:
        picture.text(LEFT + start + 4, y + BAND - 3, value, fill=ink, font_size=11, font_weight='bold')
    return y + LANE


def draw_marks(picture, y, label, places, scale, colour):
    """A lane with a mark at each place: a cross, or a stroke where there may be many."""
    draw_lane_ground(picture, y, label, scale, fill=colour)
    columns = sorted({int(place) for place in places})
    if scale.is_lettered:
        crosses = ''.join('M%d %dl8 8m0-8l-8 8' % (LEFT + column - 4, y + 3) for column in columns)
        picture.path(crosses, fill='none', stroke=colour, stroke_width=2)
    else:
        picture.path(''.join('M%s %dv10' % (LEFT + column + 0.5, y + 2) for column in columns), stroke=colour)
    return y + LANE


def draw_refusals(picture, y, story, scale):
    """A lane for each number of a refusal that was given."""
    places = {}
    for place, line in zip(scale.places[1:], story.lines):
        if line.answer.startswith('refused '):
            places.setdefault(int(line.answer.split(' ')[1]), []).append(place)
    for number in sorted(places):
        y = draw_marks(picture, y, 'refused %d' % number, places[number], scale, WRONG)
    return y


# ------------------------------------------------------------- axes and letters

def changes_of(story):
    """Of each record, whether something else stands behind it than before it."""
    return [before != after for before, after in zip(story.moments, story.moments[1:])]


def draw_axis(picture, y, label, wanted):
    """Those of the wanted numbers, {number: place}, that find room, the first ones first."""
    taken = []
    for number, place in wanted.items():
        half = LETTER * len(str(number)) / 2 + 4
        if all(place + half <= left or right <= place - half for left, right in taken):
            taken.append((place - half, place + half))
            picture.path('M%s %dv5' % (figure(LEFT + place), y), stroke=INK)
            picture.text(LEFT + place, y + 17, str(number), text_anchor='middle', font_size=11)
    picture.text(EDGE, y + 17, label, font_weight='bold')
    return y + 24


def draw_ticks(picture, y, story, scale):
    """How many ticks have passed: if events are lettered, at each group of them and at each tick that changes something; in the end, and at
    round numbers. The line is thick where time passes."""
    places = scale.places_of_ticks()
    groups, changing = [], []
    if scale.is_lettered:
        records = zip(accumulate(scale.is_tick), scale.is_tick, changes_of(story))
        groups, changing = scale.groups, [passed for passed, is_tick, changes in records if is_tick and changes]
    picture.path('M%d %dh%d' % (LEFT, y, scale.width), stroke=GUIDE)
    edges = [places[0]] + [edge for left, right, _ in groups for edge in (left, right)] + [scale.end]
    picture.path(''.join('M%s %dH%s' % (figure(LEFT + start), y, figure(LEFT + end))
                         for start, end in zip(edges[::2], edges[1::2]) if start < end), stroke=INK, stroke_width=3)
    wanted = {passed: (left + right) / 2 for left, right, passed in groups}
    for passed in [*changing, scale.ticks, *range(0, scale.ticks, round_step(scale.ticks, 8))]:
        wanted.setdefault(passed, places[passed])
    return draw_axis(picture, y, 'ticks', wanted)


def draw_records(picture, y, story, scale):
    """The numbers of records, where no event is lettered: first of those behind which something else stands, then round ones."""
    wanted = {number: scale.places[number] for number, changes in enumerate(changes_of(story), 1) if changes}
    step = round_step(len(story.lines), 8)
    for number in range(step, len(story.moments), step):
        wanted.setdefault(number, scale.places[number])
    return draw_axis(picture, y, 'records', wanted)


def lettered(story, scale):
    """[(place, words, answer)] of each event, of ticks that change something, if they find room, and of the bad record in the end."""
    records = list(zip(scale.places[1:], story.events, story.lines, scale.is_tick, changes_of(story)))
    rows = [(place, '%d %s' % (number, event), line.answer)
            for number, (place, event, line, is_tick, _) in enumerate(records, 1) if not is_tick]
    if story.ending:
        rows.append((scale.width, str(len(story.events) + 1), story.ending.split(': ')[1]))
    for number, (place, event, line, is_tick, changes) in enumerate(records, 1):
        if is_tick and changes and all(abs(place - other) >= NARROWEST_EVENT for other, _, _ in rows):
            rows.append((place, '%d %s' % (number, event), line.answer))
    return rows


def draw_letters(picture, y, rows):
    """Each of the lettered records with its number, its words and its answer, but for `ok`."""
    deepest = 0
    for place, words, answer in rows:
        words += '' if answer == 'ok' else ' \u2192 ' + answer
        colour = {'fill': WRONG} if answer.startswith('refused') else {}
        x, length = LEFT + place - 3, len(words) * LETTER
        picture.text(x, y + 10, words, transform='rotate(%d %s %d)' % (DEGREES, figure(x), y + 10), **colour)
        picture.reaches(x + length * ASIDE)
        deepest = max(deepest, length * DOWN)
    return y + deepest + 20


# ------------------------------------------------------------- the whole

def draw_head(picture, story, scale):
    name = ''.join(letter if letter.isprintable() else '?' for letter in story.name)
    setup = ', setup ' + ' '.join(story.setup) if story.setup else ''
    picture.text(EDGE, 26, name, font_size=18, font_weight='bold')
    picture.text(EDGE, 46, '%d events and %d ticks%s' % (scale.events, scale.ticks, setup), fill=FAINT)
    if not story.ending:
        return 62
    picture.text(EDGE, 64, 'The log ends at a bad record: ' + story.ending, fill=WRONG, font_weight='bold')
    return 80


def draw_ground(picture, top, bottom, story, scale, rows):
    """The shaded ground, a line for each lettered record, and one where a bad record ends the log."""
    if scale.is_lettered:
        picture.path(''.join('M%s %dh%sV%dh%sz' % (figure(LEFT + left), top, figure(right - left), bottom, figure(left - right))
                             for left, right, _ in scale.groups), fill=SHADE)
    picture.path(''.join('M%s %dV%d' % (figure(LEFT + place), top, bottom + 6) for place, _, _ in rows),
                 stroke=GUIDE, stroke_dasharray='2 3')
    if story.ending:
        picture.path('M%s %dV%d' % (figure(LEFT + scale.width), top, bottom + 6), stroke=WRONG, stroke_width=2)


def draw_lanes(picture, y, story, scale):
    for label, colour, at in lanes_of(story.bays):
        y = draw_lane(picture, y, label, colour, [at(moment) for moment in story.moments], scale)
    y = draw_refusals(picture, y, story, scale)
    if not scale.is_lettered:
        y = draw_marks(picture, y, 'events', scale.places_of_events(), scale, FAINT)
    return y


def picture_of(story):
    """The SVG, as text."""
    scale, ground, picture = Scale(story.events, is_whole=not story.ending), Picture(), Picture()
    top = draw_head(picture, story, scale)
    y = draw_output(picture, top + 24, 'mA', [moment.milliamps for moment in story.moments], scale)
    y = draw_output(picture, y, 'mV', [moment.millivolts for moment in story.moments], scale)
    y = draw_lanes(picture, y, story, scale)
    rows = lettered(story, scale) if scale.is_lettered else []
    draw_ground(ground, top, y, story, scale, rows)
    y = draw_ticks(picture, y, story, scale)
    y = draw_letters(picture, y, rows) if scale.is_lettered else draw_records(picture, y, story, scale)
    picture.text(EDGE, y + 14, NOTE if scale.is_lettered else DENSE_NOTE, fill=FAINT, font_size=11)
    width, height = math.ceil(max(picture.right, LEFT + scale.width)) + 12, math.ceil(y) + 24
    return '\n'.join([
        '<svg xmlns="http://www.w3.org/2000/svg" width="%d" height="%d" viewBox="0 0 %d %d" role="img"' % (width, height, width, height),
        '  font-family="DejaVu Sans, Verdana, Arial, sans-serif" font-size="12" fill="%s">' % INK,
        '<rect width="%d" height="%d" fill="#ffffff"/>' % (width, height), *ground.elements, *picture.elements, '</svg>\n'])

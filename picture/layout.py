"""Where things stand in the picture of a log, in pixels from the left edge of the drawing.

A tick's doing shows where the tick ends, an event's in the middle of its column: so it can be told which of the two did it, also where
an event follows a tick. What stands for less than a pixel is drawn one pixel wide.
"""
import math

# The lead shows what stands at power-on, the tail what stands in the end; a log that ends at a bad record has no more than its tail.
LEAD, TAIL, LEAST_WIDTH = 18, 18, 320
# What the events and the ticks of a lettered picture take together, if they are not too few or too many; what the records of another take.
EVENTS_WIDTH, TICKS_WIDTH, RECORDS_WIDTH = 480, 400, 960
WIDEST_EVENT, NARROWEST_EVENT, MOST_LETTERED = 40, 16, 100


class Scale:
    """The places of power-on and of each record; and `groups`, the events between two ticks: [from, to, ticks passed]."""

    def __init__(self, events, is_whole):
        self.is_tick = [event == 'tick' for event in events]
        self.ticks = sum(self.is_tick)
        self.events = len(events) - self.ticks
        self.is_lettered = self.events <= MOST_LETTERED
        self.event_width, self.tick_width = self.widths()
        self.places, self.groups = [0], []
        self.end = self.place_all()
        self.width = max(math.ceil(self.end) + TAIL, LEAST_WIDTH if is_whole else 0)

    def widths(self):
        """(of an event, of a tick)"""
        if not self.is_lettered:
            return (RECORDS_WIDTH / len(self.is_tick),) * 2
        room = EVENTS_WIDTH if self.ticks else EVENTS_WIDTH + TICKS_WIDTH
        event = max(NARROWEST_EVENT, min(WIDEST_EVENT, room // max(self.events, 1)))
        return event, min(event, TICKS_WIDTH / max(self.ticks, 1))

    def place_all(self):
        """Places the records one behind the other; where the last one ends."""
        x, passed, was_tick = LEAD, 0, True
        for is_tick in self.is_tick:
            if is_tick:
                x += self.tick_width
                passed += 1
                self.places.append(x)
            else:
                if was_tick:
                    self.groups.append([x, x, passed])
                self.places.append(x + self.event_width / 2)
                x += self.event_width
                self.groups[-1][1] = x
            was_tick = is_tick
        return x

    def places_of_ticks(self):
        """Where each tick ends; in front of them where the first one begins."""
        return [LEAD] + [place for place, is_tick in zip(self.places[1:], self.is_tick) if is_tick]

    def places_of_events(self):
        return [place for place, is_tick in zip(self.places[1:], self.is_tick) if not is_tick]


def steps(scale, values):
    """[(from, to, value)], from the value at power-on and behind each record. Where several values stand in one column of pixels, it shows
    another one than the column before it, so that each change is seen."""
    seen = {}
    for place, before, value in zip(scale.places[1:], values, values[1:]):
        if value != before:
            seen.setdefault(int(place), [before]).append(value)
    for column, there in list(seen.items()):
        seen.setdefault(column + 1, there[-1:])
    shown = [(0, values[0])]
    for column in sorted(seen):
        others = [value for value in seen[column] if value != shown[-1][1]]
        if others:
            shown.append((column, others[-1]))
    ends = [column for column, _ in shown[1:]] + [scale.width]
    return [(column, end, value) for (column, value), end in zip(shown, ends)]


def round_step(largest, most):
    """The smallest of 1, 2, 5, 10, 20, .. that goes into a number at most so many times."""
    size = 1
    while True:
        for step in (size, 2 * size, 5 * size):
            if step * most >= largest:
                return step
        size *= 10

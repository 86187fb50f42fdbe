#!/usr/bin/env python3
"""Draws a log as one SVG picture: ./plot LOG [BAYS LARGEST_MA SAFE_MA LARGEST_MV SAFE_MV LOW_MV RESTART_MV WAKE_MA WAKE_MV] >picture.svg

LOG and the setup behind it are those of ./run: a text, a log in bytes, or - for standard input. Without a LOG it is the first example.

What is drawn is what the programs say (picture/story.py); how, is in picture/layout.py and picture/drawing.py. In short: time goes to the
right. Events between two ticks happen at one time; they stand side by side on shaded ground, each with its number and its words. A log
with more than a hundred events is not lettered, and then every record has the same width.

Where there is no picture to draw, a message says why. The status is then 1, or 2 for a file that cannot be read.
"""
import pathlib
import sys

ROOT = pathlib.Path(__file__).resolve().parent
sys.path.insert(0, str(ROOT / 'picture'))

from drawing import picture_of  # noqa: E402
from story import Failure, story_of  # noqa: E402


def main():
    arguments = sys.argv[1:] or [str(ROOT / 'examples/paper.txt')]
    try:
        story = story_of(arguments[0], arguments[1:])
    except Failure as failure:
        if str(failure):
            print('plot: %s' % failure, file=sys.stderr)
        sys.exit(failure.status)
    sys.stdout.buffer.write(picture_of(story).encode('utf-8'))


if __name__ == '__main__':
    main()

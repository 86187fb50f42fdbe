"""Prints what the program recite has to print, by the second reading of the text form: python3 second/recite.py DATA

DATA is the folder with its texts and logs.
"""
import pathlib
import sys

from text import log_of, text_of

FIELDS = 'event second_word bay address code word ohms millivolts ac ticks end length'.split()
TEXTS = ['paper.txt', 'spellings.txt', 'empty.txt'] + ['wrong_%s.txt' % field for field in FIELDS]
LOGS = ['%s.log' % log for log in 'paper empty cut_off bad_length unknown_kind bad_ac_byte'.split()]
FOLDER = '.'


def shown(name, log):
    text, said = text_of(log)
    return b'== %s\n' % name.encode() + text + said.encode()


def recited(name, text):
    log, said = log_of(text)
    return b'== %s\n' % name.encode() + said.encode() + shown('made.log', log)


def main():
    data = pathlib.Path(sys.argv[1])
    parts = [recited(name, (data / name).read_bytes()) for name in TEXTS]
    parts.append(recited(FOLDER, b''))
    parts += [shown(name, (data / name).read_bytes()) for name in LOGS]
    sys.stdout.buffer.write(b''.join(parts) + b'== %s\n' % FOLDER.encode())


main()

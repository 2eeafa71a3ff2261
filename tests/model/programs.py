#!/usr/bin/env python3
"""Whole programs by the models of the language and of a page, with images and files.

    programs.py [--size WxH] [--res N] PROGRAM

does what the renderer does with these words: pages go to standard output, an error to standard error.
"""
import sys

import flow_operators
import language
from geometry import Refusal
from image_operators import OPERATORS
from language import Ended, Failure, Machine
from objects import Array, Boolean, Real, String, string_of
from operators import ARRAY, NUMBER, STRING, kind, operator, refuse_if
from page import Page
from text import File, Text

NUMBERS = {'setlinewidth': 1, 'setgray': 1, 'setrgbcolor': 3, 'setcmykcolor': 4, 'translate': 2,
           'scale': 2, 'rotate': 1, 'transform': 2, 'itransform': 2, 'moveto': 2, 'lineto': 2,
           'rmoveto': 2, 'rlineto': 2, 'curveto': 6, 'rcurveto': 6, 'arc': 5, 'arcn': 5,
           'rectfill': 4, 'rectstroke': 4, 'rectclip': 4}
PLAIN = ('gsave', 'grestore', 'grestoreall', 'initgraphics', 'initmatrix', 'newpath', 'closepath',
         'fill', 'eofill', 'stroke', 'clip', 'eoclip', 'initclip', 'erasepage', 'showpage',
         'currentpoint', 'currentgray', 'currentlinewidth')


class PageMachine(Machine):
    """A program that paints a page; its text is read as data too."""

    def __init__(self, text, width, height, resolution):
        super().__init__('', OPERATORS)
        self.tokens = Text(text)
        self.page = Page(width, height, resolution)

    def object_of(self, token):
        if token[0] == '<' and token != '<<':
            digits = ''.join(token[1:-1].split('\0')).split()
            digits = ''.join(digits)
            return string_of(bytes.fromhex(digits + '0' * (len(digits) % 2)))
        if token[0] == '(':
            return string_of(token[1:-1].encode('latin1'))
        return super().object_of(token)


def add_page_operators():
    for name in PLAIN:
        operator((), name=name)(lambda machine, f=name: reals(getattr(machine.page, f)()))
    for name, count in NUMBERS.items():
        operator((NUMBER,) * count, name=name)(
            lambda machine, *values, f=name: reals(
                getattr(machine.page, f)(*(value.raw for value in values))))
    for name in ('concat', 'setmatrix'):
        operator((ARRAY,), name=name)(lambda machine, value, f=name: to_matrix(machine, value, f))


def reals(raws):
    return [Real(raw) for raw in raws or ()]


def to_matrix(machine, value, name):
    elements = value.values()
    refuse_if(not all(map(NUMBER, elements)), 'typecheck')
    refuse_if(len(elements) != 6, 'rangecheck')
    getattr(machine.page, name)([element.raw for element in elements])


@operator(())
def currentfile(_):
    return [File()]


@operator((kind(File), STRING))
def readstring(machine, _file, buffer):
    refuse_if(buffer.length == 0, 'rangecheck')
    return filled(buffer, machine.tokens.take(buffer.length))


@operator((kind(File), STRING))
def readhexstring(machine, _file, buffer):
    refuse_if(buffer.length == 0, 'rangecheck')
    return filled(buffer, machine.tokens.take_hexadecimal(buffer.length))


def filled(buffer, data):
    buffer.put(0, data)
    return [buffer.part(0, len(data)), Boolean(len(data) == buffer.length)]


add_page_operators()


def pixmap(rows):
    head = f'P6\n{len(rows[0])} {len(rows)}\n255\n'.encode()
    return head + bytes(value for row in rows for dot in row for value in dot)


def main(words):
    width, height, resolution = 612, 792, 72
    while words[0].startswith('--'):
        option, value, *words = words
        if option == '--size':
            width, height = map(int, value.split('x'))
        else:
            resolution = int(value)
    with open(words[0], 'rb') as file:
        machine = PageMachine(file.read(), width, height, resolution)
    language.MAX_COUNT = 10 ** 9
    end = 'ends'
    try:
        machine.run()
    except Ended as ended:
        end = str(ended)
    for page in machine.page.shown:
        sys.stdout.buffer.write(pixmap(page))
    if end != 'ends':
        print(f'render: {end}', file=sys.stderr)
    return end != 'ends'


if __name__ == '__main__':
    sys.exit(main(sys.argv[1:]))

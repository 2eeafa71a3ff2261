#!/usr/bin/env python3
"""Compares the renderer with the model of a page on random programs.

    random_pages.py RENDER [COUNT [SEED]]

It prints the programs on which they differ, and last 'N passed, M failed'. README.md says more.
"""
import random
from typing import NamedTuple

from compare import Case, run
from geometry import ONE, Refusal
from page import Page

COLOURS = (('setgray', 1), ('setgray', 1), ('setrgbcolor', 3), ('setcmykcolor', 4))
LINES = ('setlinewidth', 'setlinewidth', 'setlinecap', 'setlinejoin', 'setmiterlimit', 'setdash',
         'setdash')
FIRST = ('setlinecap', 'setlinejoin', 'setmiterlimit', 'setlinewidth', 'setdash', 'moveto')
MATRICES = ('translate', 'scale', 'rotate', 'concat', 'setmatrix', 'initmatrix')
PATHS = ('moveto', 'lineto', 'lineto', 'lineto', 'lineto', 'rmoveto', 'rlineto', 'rlineto',
         'curveto', 'curveto', 'rcurveto', 'arc', 'arcn', 'closepath', 'closepath', 'newpath')
CLIPS = ('clip', 'eoclip', 'rectclip', 'initclip', 'initclip')
PAINTS = ('fill', 'fill', 'eofill', 'stroke', 'stroke', 'stroke', 'stroke', 'rectfill',
          'rectstroke')
NEED_POINT = ('lineto', 'rmoveto', 'rlineto', 'curveto', 'rcurveto', 'currentpoint', 'closepath',
              'fill', 'eofill', 'stroke', 'clip', 'eoclip')
QUERIES = ('currentmatrix', 'transform', 'itransform', 'currentpoint', 'currentlinewidth',
           'currentgray')
STATES = ('gsave', 'gsave', 'grestore', 'grestore', 'grestoreall', 'grestoreall', 'initgraphics',
          'erasepage', 'showpage')
KINDS = ((PATHS, 55), (PAINTS, 16), (LINES, 12), (MATRICES, 7), (CLIPS, 5), (QUERIES, 5),
         (STATES, 7))
# Differences in half points that have a whole length.
WHOLE_LENGTHS = ((3, 4), (4, 3), (6, 8), (8, 6), (0, 2), (2, 0), (0, 5), (5, 0), (10, 0), (0, 10))
NUMBERS = {'translate': 2, 'scale': 2, 'rotate': 1, 'moveto': 2, 'lineto': 2, 'rmoveto': 2,
           'rlineto': 2, 'curveto': 6, 'rcurveto': 6, 'arc': 5, 'arcn': 5, 'rectclip': 4,
           'rectfill': 4, 'rectstroke': 4, 'transform': 2, 'itransform': 2, 'setlinewidth': 1}


class Step(NamedTuple):
    """An operator with its operands by raw values, inside `stopped` or not."""
    operator: str
    operands: list
    guarded: bool


def number_text(raw):
    """A raw value in decimal, exactly."""
    whole, part = divmod(abs(raw), ONE)
    decimals = f'.{part * 10 ** 16 // ONE:016d}'.rstrip('0') if part else ''
    return f'{"-" if raw < 0 else ""}{whole}{decimals}'


def operand_text(operand):
    if isinstance(operand, list):
        return f'[{" ".join(map(number_text, operand))}]'
    return number_text(operand)


def step_text(step, results, refused):
    """A step as PostScript; it executes `wrong` where the model's results or refusal differ."""
    words = [*map(operand_text, step.operands), step.operator]
    if step.operator == 'currentmatrix':
        words.insert(0, 'matrix')
        words.append('aload pop')
    words += [f'{number_text(result)} ne {{wrong}} if' for result in reversed(results or ())]
    if not step.guarded:
        return ' '.join(words)
    return f'{{{" ".join(words)}}} stopped {str(refused).lower()} ne {{wrong}} if clear'


class Maker:
    """Draws the steps of a program for a page of so many points."""

    def __init__(self, seed):
        self.random = random.Random(seed)
        self.width, self.height = self.random.randint(1, 12), self.random.randint(1, 12)
        self.resolution = self.random.choice((72, 72, 72, 72, 100, 144, 31))
        self.mood, = self.random.choices(('any', 'wild', 'neat'), (60, 15, 25))
        if self.mood == 'neat':
            self.resolution = 72

    def between(self, low, high):
        """A number between two: whole, half or any.

        A wild program has some of all reals; a neat one has no others than halves, so that much
        comes to lie right on a boundary.
        """
        if self.mood == 'wild' and self.random.random() < 0.1:
            return self.random.choice((self.random.randint(-2 ** 36, 2 ** 36),
                                       self.random.randint(-2 ** 47, 2 ** 47 - 1)))
        unit = self.random.choice((1, ONE // 2, ONE) if self.mood != 'neat' else (ONE // 2, ONE))
        return unit * self.random.randint(low * ONE // unit, high * ONE // unit)

    def numbers(self, operator):
        """The operands of an operator that takes numbers alone."""
        if operator in ('arc', 'arcn'):
            turns = [self.random.choice((90, 400)) for _ in 'se']
            return [self.between(-2, self.width), self.between(-2, self.height),
                    self.between(-3, 6),
                    *(self.random.randint(-t * ONE, t * ONE) // 8192 * 8192 for t in turns)]
        if operator == 'rotate':
            return [self.between(-400, 400)]
        if operator == 'setlinewidth':
            return [self.between(-1, 4)]
        if operator == 'scale':
            return [self.random.choice((-1, 1, 1)) * self.between(0, 2) for _ in 'xy']
        if operator == 'rlineto' and self.mood == 'neat':
            return [side * self.random.choice((-1, 1)) * ONE // 2
                    for side in self.random.choice(WHOLE_LENGTHS)]
        return [self.between(-4, max(self.width, self.height)) for _ in range(NUMBERS[operator])]

    def dash(self):
        """Dashes of at least half a point; wild programs, whose lines are long, have long ones."""
        unit = ONE * 4096 if self.mood == 'wild' else ONE
        parts = 2 if self.mood == 'neat' else unit
        dashes = [self.random.choice((0, self.random.randint(parts // 2, 4 * parts) * unit // parts,
                                      self.random.randint(1, 3) * unit))
                  for _ in range(self.random.randint(0, 5))]
        if not any(dashes) and self.random.random() < 0.9:
            dashes.append(unit)
        return [dashes, self.between(-6, 6)]

    def matrix(self):
        turning = [self.between(-2, 2) for _ in 'abcd']
        return [*turning, self.between(-4, self.width), self.between(-4, self.height)]

    def operands(self, operator):
        if operator in NUMBERS:
            return self.numbers(operator)
        if operator == 'setdash':
            return self.dash()
        if operator in ('concat', 'setmatrix'):
            return [self.matrix()]
        if operator == 'setlinecap':
            return [self.random.choice((0, 1, 1, 2, 2) * 4 + (3,)) * ONE]
        if operator == 'setlinejoin':
            return [self.random.choice((0, 0, 0, 1, 2) * 4 + (3,)) * ONE]
        if operator == 'setmiterlimit':
            return [self.random.randint(ONE * 7 // 8, 8 * ONE)]
        levels = dict(COLOURS).get(operator, 0)
        return [self.random.randint(-ONE // 4, ONE) for _ in range(levels)]

    def step(self, operator):
        return Step(operator, self.operands(operator), self.random.random() < 0.3)

    def steps(self, page):
        """Some line parameters, steps of all kinds, each mark in a colour, and a stroke at the end.

        What the page is by then says where a path has to begin; now and then it does not.
        """
        yield from (self.step(operator) for operator in FIRST if self.random.random() < 0.6)
        lists, weights = zip(*KINDS)
        for _ in range(self.random.randint(6, 30)):
            operators, = self.random.choices(lists, weights)
            if operators is MATRICES and self.mood == 'neat':
                continue
            operator = self.random.choice(operators)
            if operators is PAINTS:
                yield self.step(self.random.choice(COLOURS)[0])
                if self.random.random() < 0.1:
                    yield self.step('moveto')
            if operator in NEED_POINT and not page.state.path and self.random.random() < 0.98:
                yield self.step('moveto')
                operator = self.random.choice(('lineto', 'lineto', 'curveto', 'arc'))
            yield self.step(operator)
        yield from (Step(operator, [], False) for operator in ('stroke', 'showpage'))


def case(seed):
    """A random program, and what the model makes of it."""
    maker = Maker(seed)
    page, text, end = Page(maker.width, maker.height, maker.resolution), [], 'ends'
    for step in maker.steps(page):
        results, error = None, None
        try:
            results = getattr(page, step.operator)(*step.operands)
        except Refusal as refusal:
            error = str(refusal)
        text.append(step_text(step, results, error is not None))
        if error and not step.guarded:
            end = f'{error} in {step.operator}'
            break
    words = ['--size', f'{maker.width}x{maker.height}', '--res', str(maker.resolution)]
    return Case(' '.join(text), words, page.shown, end)


if __name__ == '__main__':
    run(case, 500)

#!/usr/bin/env python3
"""Compares the renderer with the model of whole programs on random programs with images.

    random_images.py RENDER [COUNT [SEED]]

It prints the programs on which they differ, and last 'N passed, M failed'. README.md says more.
"""
import random

import language
from compare import Case, run
from language import Ended
from programs import PageMachine

MATRICES = ('[1 0 0 1 0 0]', '[1 0 0 -1 0 {h}]', '[{w} 0 0 {h} 0 0]', '[{w} 0 0 -{h} 0 {h}]', '[-1 0 0 1 {w} 0]',
            '[0 1 1 0 0 0]', '[.5 .25 -.25 .5 1 1]', '[0 0 0 0 .5 .5]', '[1.5 0 0 .75 -.5 .25]', '[1 1 1 1 0 0]')
CHANGES = ('{x} {y} translate', '{x} {y} scale', '90 rotate', '30 rotate', '-1 1 scale', '2 2 scale', '.5 .5 scale',
           'initmatrix', 'gsave', 'grestore', 'grestoreall', '[1 .5 -.5 1 1 1] concat')
COLOURS = ('{u} setgray', '{u} {u} {u} setrgbcolor', '{u} {u} {u} {u} setcmykcolor')
CLIPS = ('{x} {y} 4 3 rectclip', 'initclip', 'newpath 1 1 moveto 5 1 lineto 3 6 lineto clip newpath')
BREAKS = ('stop', 'zz', 'exit', '() pop pop pop', '5', '')


class Maker:
    """Draws programs."""

    def __init__(self, seed):
        self.random = random.Random(seed)
        self.pick = self.random.choice
        self.depth = 0
        self.definitions = []

    def chance(self, part):
        return self.random.random() < part

    def filled(self, text, width=1, height=1):
        for mark, value in (('{w}', width), ('{h}', height)):
            text = text.replace(mark, str(value))
        while '{x}' in text or '{y}' in text:
            text = text.replace('{x}', self.number(), 1).replace('{y}', self.number(), 1)
        while '{u}' in text:
            text = text.replace('{u}', self.pick(('0', '1', '.5', '.25', '.7')), 1)
        return text

    def number(self):
        return self.pick(('1', '2', '3', '.5', '1.5', '-1', '.75', '4'))

    def hexadecimal(self, size):
        data = bytes(self.pick((0, 255, self.random.randrange(256))) for _ in range(size))
        return f'<{data.hex()}>'

    def image(self):
        """An image or a mask, in any form and from any source; now and then one that is refused."""
        width, height = (self.random.randint(0 if self.chance(.05) else 1, 7) for _ in 'wh')
        operator = self.pick(('image', 'image', 'imagemask', 'imagemask', 'colorimage'))
        bits = 1 if operator == 'imagemask' else self.pick((1, 2, 4, 8, 8, 8))
        components = self.pick((1, 3, 4)) if operator == 'colorimage' else 1
        by_dictionary = operator != 'colorimage' and self.chance(.4)
        channels = self.pick((1, 3, 4)) if by_dictionary and operator == 'image' else components
        size = -(-width * channels * bits // 8) * height
        matrix = self.filled(self.pick(MATRICES), width, height)
        source, after = self.source(size)
        words = (self.dictionary(operator, width, height, bits, channels, matrix, source) if by_dictionary
                 else self.operands(operator, width, height, bits, components, matrix, source))
        if self.chance(.04):
            words = words.replace('1', self.pick(('-1', 'null', '3', '9')), 1)
        space = {1: '.5 setgray', 3: '.2 .4 .6 setrgbcolor', 4: '.1 .2 .3 .4 setcmykcolor'}[channels]
        before = f'{space} ' if by_dictionary and operator == 'image' else ''
        return f'{before}{words} {operator}{after}'

    def operands(self, operator, width, height, bits, components, matrix, source):
        third = self.pick(('true', 'false')) if operator == 'imagemask' else str(bits)
        tail = f' false {components}' if operator == 'colorimage' else ''
        return f'{width} {height} {third} {matrix} {source}{tail}'

    def dictionary(self, operator, width, height, bits, channels, matrix, source):
        entries = [f'/ImageType 1 /Width {width} /Height {height}', f'/ImageMatrix {matrix}',
                   f'/DataSource {source}']
        if operator == 'image' or self.chance(.5):
            entries.append(f'/BitsPerComponent {bits}')
        if self.chance(.5):
            pairs = ' '.join(self.pick(('0 1', '1 0', '.25 .75', '-1 2')) for _ in range(channels))
            entries.append(f'/Decode [{pairs}]')
        self.random.shuffle(entries)
        return f'<< {" ".join(entries)} >>'

    def source(self, size):
        """A source of about so many bytes, and the data that stand behind the operator."""
        if self.depth == 0 and self.chance(.25):
            data = ''.join(self.pick('ABab01 zU~') for _ in range(size))
            return 'currentfile', f' {data}'
        if self.chance(.45):
            return self.hexadecimal(self.pick((size, size, size + 1, max(size - 1, 0), 1, 3, 0))), ''
        return f'{{{self.procedure(size)}}}', ''

    def procedure(self, size):
        """What a procedure does, and the string that it leaves; in turn two strings, or always one."""
        self.depth += 1
        parts = [self.pick((self.statement, self.change))() for _ in range(self.random.randint(0, 2))]
        self.depth -= 1
        if self.chance(.12):
            return ' '.join([*parts, self.pick(BREAKS)])
        if self.chance(.4):
            name = f'd{len(self.definitions)}'
            self.definitions.append(f'/{name} {self.hexadecimal(max(size // 2, 1))} def')
            rest = self.pick(('()', self.hexadecimal(size), self.hexadecimal(1)))
            return ' '.join([*parts, f'{name} /{name} {rest} def'])
        return ' '.join([*parts, self.hexadecimal(self.pick((size, max(size // 2, 1), 1, size + 2)))])

    def change(self):
        return self.filled(self.pick((self.pick(CHANGES), self.pick(COLOURS), self.pick(CLIPS))))

    def statement(self):
        if self.depth > 2 or self.chance(.35):
            return self.change()
        if self.chance(.1):
            return self.pick(('erasepage', '0 0 3 3 rectfill', '1 0 0 setrgbcolor 1 1 4 4 rectfill'))
        image = self.image()
        if 'currentfile' not in image and self.chance(.3):
            return f'{{{image}}} stopped {{clear}} if'
        return image

    def program(self):
        body = ' '.join(self.statement() for _ in range(self.random.randint(2, 7)))
        count = 'count 0 eq not {wrong} if ' if self.chance(.3) else ''
        return f'{" ".join(self.definitions)} {body} {count}showpage'


def case(seed):
    """A random program with images, and what the model makes of it."""
    maker = Maker(seed)
    width, height = (maker.random.randint(1, 12) for _ in 'wh')
    text = maker.program()
    machine, end = PageMachine(text.encode('latin1'), width, height, 72), 'ends'
    language.MAX_COUNT = 10 ** 6
    try:
        machine.run()
    except Ended as ended:
        end = str(ended)
    return Case(text, ['--size', f'{width}x{height}'], machine.page.shown, end)


if __name__ == '__main__':
    run(case, 300)

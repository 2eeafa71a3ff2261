"""The words of the command line, and the text of a sample page: a model that is written from the rules alone.

`read(words)` is what the words ask for, or None where they aren't in the grammar. `sample_text(number)` is a program.
Run as a program it prints the name of each option.
"""
import re

NUMBER = re.compile(r'[0-9]{1,10}')
NAME = re.compile(r'[A-Za-z0-9_-]{1,64}')
MOST_PROFILES = 16
MOST_DOTS = 16384, 67108864
DEFAULTS = {'size': (612, 792), 'res': 72, 'band': 64, 'workers': 4, 'cache': 8, 'intent': 0, 'output': None, 'gray': None,
            'rgb': None, 'cmyk': None, 'report': False, 'sample': None, 'rehearse': None, 'depth': 8}
BOUNDS = {'res': range(1, 2401), 'band': range(1, 16385), 'workers': range(17), 'cache': range(1, 65), 'intent': range(3),
          'sample': range(2 ** 32), 'rehearse': range(2 ** 32), 'depth': (8, 16)}


class Usage(Exception):
    """The words aren't in the grammar."""


def number(text, bounds):
    """A number in decimal that is within bounds."""
    if not NUMBER.fullmatch(text) or int(text) not in bounds:
        raise Usage
    return int(text)


def value(option, text):
    """What a text is as the value of an option."""
    if option in BOUNDS:
        return number(text, BOUNDS[option])
    if option == 'size':
        sides = text.split('x')
        if len(sides) != 2:
            raise Usage
        return tuple(number(side, range(1, 14401)) for side in sides)
    if option == 'report' or not text:
        raise Usage
    return text


def cut(words):
    """The words before the first `--`, and those behind it."""
    if '--' not in words:
        return words, []
    at = words.index('--')
    return words[:at], words[at + 1:]


def options(words):
    """The options among words in which there is no `--`, by their names, and the other words."""
    found, others, words = {}, [], list(words)
    while words:
        word = words.pop(0)
        if word == '-' or not word.startswith('-'):
            others.append(word)
            continue
        form = re.fullmatch(r'--([a-z]+)(=(.*))?', word, re.S)
        if not form or form[1] not in DEFAULTS or form[1] in found:
            raise Usage
        option, text = form[1], form[3]
        if option == 'report' and text is None:
            found[option] = True
            continue
        if text is None:
            if not words or (words[0].startswith('-') and words[0] != '-'):
                raise Usage
            text = words.pop(0)
        found[option] = value(option, text)
    return found, others


def profiles(words):
    """The named profiles that words tell, by their names."""
    found = {}
    for word in words:
        name, equals, file = word.partition('=')
        if not (equals and file and NAME.fullmatch(name)) or name in found:
            raise Usage
        found[name] = file
    if len(found) > MOST_PROFILES:
        raise Usage
    return found


def dots(points, res):
    """A side of a page in dots."""
    whole, rest = divmod(points * res, 72)
    return max(1, whole + (rest >= 36))


def accepted(words):
    """What the words ask for."""
    before, behind = cut(words)
    found, others = options(before)
    asked, others = DEFAULTS | found, others + behind
    asked['program'] = None
    if asked['sample'] is None:
        if not others or not others[0]:
            raise Usage
        asked['program'], *others = others
    asked['named'] = profiles(others)
    asked['page'] = tuple(dots(side, asked['res']) for side in asked['size'])
    if max(asked['page']) > MOST_DOTS[0] or asked['page'][0] * asked['page'][1] > MOST_DOTS[1]:
        raise Usage
    return asked


def read(words):
    """What the words ask for, or None where they aren't in the grammar."""
    try:
        return accepted(words)
    except Usage:
        return None


def drawn(state, stream):
    """The words of PCG XSH RR 64/32."""
    mask = 2 ** 64 - 1
    increment = 2 * stream + 1 & mask
    state = (state + increment) * 6364136223846793005 + increment & mask
    while True:
        mixed = (state >> 18 ^ state) >> 27 & 0xffffffff
        turn = state >> 59
        yield (mixed >> turn | mixed << (32 - turn)) & 0xffffffff
        state = state * 6364136223846793005 + increment & mask


def sample_text(number):
    """The program of the sample page of a number."""
    words, lines = drawn(number, 1), []

    def draw(most):
        return next(words) % most

    for i in range(2000):
        if i % 10 == 9:
            corners = [f'{draw(612)} {draw(792)}' for _ in range(3)]
            lines.append('{} moveto {} lineto {} lineto fill'.format(*corners))
        else:
            colour = [f'{draw(256)} 255 div' for _ in range(3)]
            corner = f'{draw(612)} {draw(792)}'
            lines.append(f'{" ".join(colour)} setrgbcolor {corner} {1 + draw(200)} {1 + draw(200)} rectfill')
    return ''.join(f'{line}\n' for line in [*lines, 'showpage'])


if __name__ == '__main__':
    print(*DEFAULTS, sep='\n')

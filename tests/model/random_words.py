#!/usr/bin/env python3
"""Compares what the program `read_words` makes of command lines with the model.

    random_words.py READ_WORDS [COUNT [SEED]]

It prints the words on which they differ, and last 'N passed, M failed'. README.md says more.
"""
import random
import subprocess
import sys

from command_line import BOUNDS, DEFAULTS, read

FILES = ('a.icc', 'a.icc', 'b', 'c=d', '-', '-x', '--', 'page.ps', '--size', 'é')
EDGES = {'res': (1, 2400), 'band': (1, 16384), 'workers': (0, 16), 'cache': (1, 64), 'intent': (0, 2),
         'sample': (0, 2 ** 32 - 1), 'rehearse': (0, 2 ** 32 - 1), 'depth': (8, 16)}
STRAYS = ('--', '-', '', '-r', '---', '--=4', '--Size=4x2', '--siz', '--size', '--res=', '--report=1', '--report=', '--help',
          '--version', '--reports', '--size=4x2x1', '-', 'x', '=', '=f', 'n=', '-n=f', 'n.=f', 'é=f', 'n=f=g', '--output')


class Maker:
    """Draws command lines."""

    def __init__(self, seed):
        self.random = random.Random(seed)
        self.pick = self.random.choice

    def words(self):
        """The words of a command line; of two about one is in the grammar."""
        words = [word for option in self.options() for word in self.option(option)]
        is_sample = any(word.startswith('--sample') for word in words)
        is_program = self.random.random() < (0.1 if is_sample else 0.95)
        positionals = [self.pick(('p.ps', 'p.ps', '-', 'a=b'))] if is_program else []
        positionals += [self.profile(k) for k in range(self.pick((0, 0, 0, 1, 2, 3, 16, 17)))]
        words = self.mixed(words, positionals)
        for _ in range(self.pick((0, 0, 0, 0, 1, 2))):
            words = self.changed(words)
        return words

    def options(self):
        """Some options, seldom one twice."""
        names = self.random.sample(list(DEFAULTS), self.pick((0, 1, 2, 3, 5, 9)))
        return names + [self.pick(names)] if names and self.random.random() < 0.05 else names

    def option(self, name):
        """The word or the words of an option."""
        if name == 'report':
            return [f'--{name}']
        value = self.value(name)
        if value in ('', '-') or not value.startswith('-'):
            return [f'--{name}', value] if self.random.random() < 0.5 else [f'--{name}={value}']
        return [f'--{name}={value}']

    def value(self, name):
        """A value of an option, seldom one that is none of its."""
        if name == 'size':
            return 'x'.join(self.number(1, self.pick((10, 800, 14400))) for _ in range(2))
        if name in BOUNDS:
            return self.number(*EDGES[name])
        return self.pick(FILES)

    def number(self, least, most):
        """A number of any size, mostly within its bounds or beside them, often with zeros before it."""
        edge = self.pick((least, most))
        n = self.pick((edge, edge, self.random.randint(least, most), self.random.randint(least, most),
                       edge + self.pick((-1, 1)) if self.random.random() < 0.1 else edge))
        text = str(n)
        zeros = self.pick((0, 0, 0, 1, 10 - len(text), 11 - len(text) if self.random.random() < 0.05 else 0))
        return self.pick((f'+{text}', f'{text} ', f'{text}.', f'0x{text}')) if self.random.random() < 0.01 else (
            '0' * max(0, zeros) + text)

    def profile(self, k):
        """A word that names a profile, mostly with a name of its own."""
        name = self.pick((f'n{k}', f'n{k}', f'n{k}', f'N_{k}-x', f'{k}', 'n' * 64 if k == 0 else f'm{k}'))
        if self.random.random() < 0.02:
            name = self.pick(('', 'n' * 65, 'n1', 'a b', 'a.b', 'é'))
        return f'{name}={self.pick(FILES)}' if self.random.random() < 0.98 else name

    def mixed(self, words, positionals):
        """Options and the other words, in one of the orders in which they may stand."""
        order = self.random.random()
        if order < 0.4:
            return words + positionals
        if order < 0.6:
            return positionals + words
        if order < 0.8:
            return words + ['--'] + positionals
        at = self.random.randint(0, len(positionals))
        return positionals[:at] + words + positionals[at:]

    def changed(self, words):
        """Words with one change: one more, one fewer, one elsewhere, or one with a letter more or fewer."""
        words, at = list(words), self.random.randint(0, len(words))
        change = self.pick(('stray', 'stray', 'drop', 'move', 'cut', 'grow'))
        if change == 'stray' or at == len(words):
            return words[:at] + [self.pick(STRAYS)] + words[at:]
        word = words.pop(at)
        if change == 'move':
            words.insert(self.random.randint(0, len(words)), word)
        if change == 'cut':
            words.insert(at, word[:-1])
        if change == 'grow':
            words.insert(at, word + self.pick('x=-0a'))
        return words


def said(asked):
    """What the program owes for what the words ask for."""
    if asked is None:
        return 'usage\n'
    lines = [f'size {asked["size"][0]} {asked["size"][1]}', f'page {asked["page"][0]} {asked["page"][1]}']
    for name in ('res', 'band', 'workers', 'cache', 'intent', 'depth'):
        lines.append(f'{name} {asked[name]}')
    lines.append(f'report {"true" if asked["report"] else "false"}')
    for name in ('sample', 'rehearse', 'output', 'gray', 'rgb', 'cmyk', 'program'):
        if asked[name] is not None:
            lines.append(f'{name} {asked[name]}')
    lines += [f'named {name} {file}' for name, file in asked['named'].items()]
    return ''.join(f'{line}\n' for line in lines)


def main(program, count=2000, seed=43):
    maker, passed, failed, accepted = Maker(int(seed)), 0, 0, 0
    for _ in range(int(count)):
        words = maker.words()
        asked = read(words)
        accepted += asked is not None
        done = subprocess.run([program, *words], stdin=subprocess.DEVNULL, capture_output=True, timeout=60)
        if done.returncode == 0 and done.stdout.decode() == said(asked):
            passed += 1
        else:
            failed += 1
            print(f'{words}: status {done.returncode}, said {done.stdout.decode()!r}, not {said(asked)!r}')
    if not int(count) // 4 <= accepted <= 3 * int(count) // 4:
        failed += 1
        print(f'of {count} command lines {accepted} are in the grammar')
    print(f'{passed} passed, {failed} failed')
    return 1 if failed else 0


if __name__ == '__main__':
    sys.exit(main(*sys.argv[1:]))

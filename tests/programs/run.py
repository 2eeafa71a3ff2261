#!/usr/bin/env python3
"""Runs each line of the tables beside it by the program that the first word names.

It prints the lines that fail, and last 'N passed, M failed'. README.md has the form of a line.
"""
import pathlib, re, subprocess, sys, tempfile

# Paints the dot of a page of one dot black or white, whatever graphics state the program leaves.
ANSWER = ' {0} {1} ifelse initgraphics setgray 0 0 1 1 rectfill showpage'
ANSWERS = {b'P6\n1 1\n255\n\0\0\0': 'true', b'P6\n1 1\n255\n\xff\xff\xff': 'false'}
LETTERS = {b'\xff\xff\xff': 'W', b'\0\0\0': 'B', b'\xff\0\0': 'R', b'\x80\x80\x80': 'G'}
ERROR = re.compile(r'[a-z]+ in \S+')
LEFT = re.compile(r'leaves((?: (?:\([^()]*\)|[^\s()]+))*)')
DOTS = re.compile(r'(?P<size>\d+x\d+)(?: at (?P<res>\d+))?(?: > (?P<page>\d+x\d+))?'
                  r': (?P<rows>[WBRG]+(?: [WBRG]+)*)')


def is_operand(value):
    """Asks whether the top operand is one of this type and value, and puts the answer in its place."""
    if value in ('true', 'false', 'null', 'mark'):
        return f'{value} eq'
    if value in ('array', 'procedure'):
        return f'dup xcheck {"" if value == "procedure" else "not "}exch type /arraytype eq and'
    if value.startswith('--'):
        return f'dup type /operatortype eq exch /{value.strip("-")} load eq and'
    if re.fullmatch(r'-?\d+', value):
        kind = 'integertype'
    elif re.fullmatch(r'-?\d+\.\d+', value):
        kind = 'realtype'
    elif value.startswith('('):
        kind = 'stringtype'
    else:
        mark = 'not ' if value.startswith('/') else ''
        name = '/' + value.removeprefix('/')
        return f'dup xcheck {mark}exch dup type /nametype eq exch {name} eq and and'
    return f'dup type /{kind} eq exch {value} eq and'


def are_operands(values):
    """Asks whether these are all operands, the last one on top."""
    asked = ' exch '.join(is_operand(value) + (' and' if at else '') for at, value in enumerate(reversed(values)))
    return f' count {len(values)} eq {{{asked or "true"}}} {{false}} ifelse'


class Malformed(Exception):
    """A line that is not of the form."""


def run(program, words):
    """The bytes that a program writes, or what it says instead of ending well."""
    with tempfile.NamedTemporaryFile(suffix='.ps') as file:
        file.write(program.encode())
        file.flush()
        try:
            done = subprocess.run([sys.argv[1], *words, file.name], stdin=subprocess.DEVNULL,
                                  capture_output=True, timeout=120)
        except subprocess.TimeoutExpired:
            return 'no end in 120 seconds'
    said = done.stderr.decode(errors='replace')
    if done.returncode == 0 and not said:
        return done.stdout
    refusal = re.fullmatch(r'render: (.*)\n', said)
    if done.returncode == 1 and not done.stdout and refusal:
        return refusal[1]
    return f'status {done.returncode}, {len(done.stdout)} bytes, said {said!r}'


def dots(page):
    """The size of a page and its rows, 'WxH: ROW ROW ..'; ? is any other colour."""
    found = re.match(rb'P6\n([1-9]\d*) ([1-9]\d*)\n255\n', page)
    if not found:
        return f'no page in {len(page)} bytes'
    width, height = int(found[1]), int(found[2])
    body = page[found.end():]
    if len(body) != 3 * width * height:
        return f'{len(body)} bytes for {width}x{height} dots'
    if len(body) > 3 * 1024:
        return f'a page of {width}x{height} dots'
    letters = ''.join(LETTERS.get(body[at:at + 3], '?') for at in range(0, len(body), 3))
    rows = [letters[at:at + width] for at in range(0, len(letters), width)]
    return f'{width}x{height}: ' + ' '.join(rows)


def shown(seen, pages):
    """The name of a page where one of these came out, else its dots, or what was said."""
    if isinstance(seen, bytes):
        return pages.get(seen) or dots(seen)
    return seen


def picture(program, outcome):
    """The page that a program paints, and the one that it has to paint."""
    rows = outcome['rows'].split()
    wanted = f'{len(rows[0])}x{len(rows)}'
    if len(set(map(len, rows))) != 1 or wanted != (outcome['page'] or wanted):
        raise Malformed('the rows are not those of the page')
    if not outcome['page'] and not outcome['res'] and wanted != outcome['size']:
        raise Malformed('the rows are not those of the size')
    words = ['--size', outcome['size']] + (['--res', outcome['res']] if outcome['res'] else [])
    return shown(run(program + ' showpage', words), {}), f'{wanted}: ' + ' '.join(rows)


def seen_and_wanted(program, outcome):
    """What running a program shows, and what it has to show, in the same words."""
    dotted = DOTS.fullmatch(outcome)
    if dotted:
        return picture(program, dotted)
    left = LEFT.fullmatch(outcome)
    if left:
        values = re.findall(r'\([^()]*\)|[^\s()]+', left[1])
        return shown(run(program + are_operands(values) + ANSWER, ['--size', '1x1']), ANSWERS), 'true'
    if outcome == 'ends':
        return shown(run(program, ['--size', '1x1']), {b'': 'ends'}), outcome
    if outcome in ANSWERS.values() or ERROR.fullmatch(outcome):
        return shown(run(program + ANSWER, ['--size', '1x1']), ANSWERS), outcome
    raise Malformed('no such outcome')


def fault(line, names):
    """Why a line fails, or nothing."""
    parts = [part.strip() for part in line.split(' | ')]
    if len(parts) != 3 or not all(parts):
        return 'not a name, a program and an outcome'
    name, program, outcome = parts
    if name in names:
        return 'the name stands twice'
    names.add(name)
    try:
        seen, wanted = seen_and_wanted(program, outcome)
    except Malformed as why:
        return str(why)
    return None if seen == wanted else f'saw {seen}'


def table(path):
    """The faults of a table, one for each of its lines; nothing where a line holds."""
    lines = path.read_text().splitlines()
    lines = [line for line in lines if line.strip() and not line.startswith('#')]
    names = set()
    faults = [(line, fault(line, names)) for line in lines] or [('', 'the table has no line')]
    for line, why in faults:
        if why:
            print(f'failed: {path.stem}: {line}: {why}')
    return [why for _, why in faults]


def main():
    paths = sorted(pathlib.Path(__file__).parent.glob('*.txt'))
    found = [why for path in paths for why in table(path)]
    if not found:
        print('failed: there are no tables')
        found = ['no tables']
    failed = sum(why is not None for why in found)
    print(f'{len(found) - failed} passed, {failed} failed')
    return failed != 0


sys.exit(main())

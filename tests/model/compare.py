"""Runs random programs by the renderer under test, and compares what is seen with a model."""
import re
import subprocess
import sys
import tempfile
from typing import NamedTuple


class Case(NamedTuple):
    """A program, the words before it, and the pages and the end that the model says.

    A page is a list of rows of colours; an end is 'ends' or an error, 'NAME in COMMAND'.
    """
    text: str
    words: list
    pages: list
    end: str


def seen(render, case):
    """The pages that the renderer shows, and how it ends."""
    with tempfile.NamedTemporaryFile(suffix='.ps') as file:
        file.write(case.text.encode())
        file.flush()
        done = subprocess.run([render, *case.words, file.name], stdin=subprocess.DEVNULL,
                              capture_output=True, timeout=120)
    said = done.stderr.decode(errors='replace')
    refusal = re.fullmatch(r'render: (.*)\n', said)
    if done.returncode == 0 and not said:
        end = 'ends'
    elif done.returncode == 1 and refusal:
        end = refusal[1]
    else:
        end = f'status {done.returncode}, said {said!r}'
    return pages(done.stdout), end


def pages(text):
    """The pages of a text of pixmaps; what is no pixmap is said in place of its page."""
    found = []
    while text:
        header = re.match(rb'P6\n([1-9]\d*) ([1-9]\d*)\n255\n', text)
        if not header:
            return [*found, f'no pixmap in {len(text)} bytes']
        width, height = int(header[1]), int(header[2])
        end = header.end() + 3 * width * height
        body, text = text[header.end():end], text[end:]
        if len(body) != 3 * width * height:
            return [*found, f'{len(body)} bytes for {width}x{height} dots']
        dots = [tuple(body[at:at + 3]) for at in range(0, len(body), 3)]
        found.append([dots[at:at + width] for at in range(0, len(dots), width)])
    return found


def dot_difference(page, modelled):
    """Where a page first differs from the modelled one, or nothing."""
    if isinstance(page, str):
        return page
    if [len(row) for row in page] != [len(row) for row in modelled]:
        return f'{len(page[0])}x{len(page)}, the model has {len(modelled[0])}x{len(modelled)}'
    for i, (row, modelled_row) in enumerate(zip(page, modelled)):
        for j, (dot, modelled_dot) in enumerate(zip(row, modelled_row)):
            if dot != modelled_dot:
                return f'row {i}, column {j}: {dot}, the model has {modelled_dot}'
    return None


def difference(render, case):
    """In words how the renderer and the model differ, or nothing."""
    seen_pages, seen_end = seen(render, case)
    if seen_end != case.end:
        return f'end {seen_end!r}, the model has {case.end!r}'
    if len(seen_pages) != len(case.pages):
        return f'{len(seen_pages)} pages, the model has {len(case.pages)}'
    for number, (page, modelled) in enumerate(zip(seen_pages, case.pages)):
        why = dot_difference(page, modelled)
        if why:
            return f'page {number}: {why}'
    return None


def main(make, render, count, seed):
    """Compares so many cases, prints those that differ, and then 'N passed, M failed'.

    `make` draws the case of a seed, or nothing where the model does not say; the next one stands
    in for it. Too few cases are a failure.
    """
    passed = failed = 0
    for number in range(3 * count):
        case = make(f'{seed} {number}') if passed + failed < count else None
        why = case and difference(render, case)
        if why:
            print(f'failed: program {number} of seed {seed}: {why}: {" ".join(case.words)}: '
                  f'{case.text}')
        passed += case is not None and not why
        failed += bool(why)
    if count < 1 or passed + failed < count:
        print(f'failed: {passed + failed} programs were compared')
        failed += 1
    print(f'{passed} passed, {failed} failed')
    return failed != 0


def run(make, count):
    """Runs `main` on the words RENDER [COUNT [SEED]]."""
    words = dict(zip(('render', 'count', 'seed'), sys.argv[1:]))
    sys.exit(main(make, words['render'], int(words.get('count', count)), words.get('seed', '1')))

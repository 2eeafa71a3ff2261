#!/usr/bin/env python3
"""Makes each allocation of a run fail in turn. The run has to end by `out of memory` with whole pages, or as if none had failed.

Prints a line for each run that doesn't, and last the numbers of those that did and didn't.
"""
import os, subprocess, sys, tempfile

here = os.path.dirname(os.path.abspath(__file__))


def run(words, **settings):
    return subprocess.run(words, stdout=subprocess.PIPE, stderr=subprocess.PIPE, timeout=120, env={**os.environ, **settings})


def fronts(text):
    """The fronts of a text of pixmaps that end with a whole page."""
    ends, at = {0}, 0
    while at < len(text):
        width, height = map(int, text[at:].split(maxsplit=3)[1:3])
        at += len(b'P6\n%d %d\n255\n' % (width, height)) + 3 * width * height
        ends.add(at)
    return {text[:end] for end in ends}


def main(program, words):
    with tempfile.TemporaryDirectory() as work:
        shim, count = work + '/failing_malloc.so', work + '/count'
        subprocess.run(['cc', '-O1', '-shared', '-fPIC', '-o', shim, here + '/failing_malloc.c'], check=True)
        whole = run([program, *words], LD_PRELOAD=shim, COUNT_TO=count)
        assert (whole.returncode, whole.stderr) == (0, b''), 'the run fails of itself: %r' % whole.stderr
        pages, calls, good, bad = fronts(whole.stdout), int(open(count).read()), 0, 0
        for at in range(calls):
            seen = run([program, *words], LD_PRELOAD=shim, FAIL_AT=str(at))
            is_refused = (seen.returncode, seen.stderr) == (6, b'render: out of memory\n') and seen.stdout in pages
            is_same = (seen.returncode, seen.stdout, seen.stderr) == (0, whole.stdout, b'')
            if is_refused or is_same:
                good += 1
            else:
                bad += 1
                print('allocation %d: status %d, %d bytes, said %r' % (at, seen.returncode, len(seen.stdout), seen.stderr))
        print('%d %d' % (good, bad))


main(sys.argv[1], sys.argv[2:])

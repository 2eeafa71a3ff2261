"""The operators of the language model that run procedures, and leave them.

They are those of the PostScript Language Reference, third edition, 8.2.
"""
from itertools import repeat as repeated

from data_operators import contents
from language import MAX_OPERANDS, Ended, Failure, Level, is_procedure
from objects import Boolean, Dictionary, Integer, Name, Operator, Real, String
from operators import ANY, ARRAY, BOOLEAN, DICTIONARY, INTEGER, NUMBER, STRING, operator, refuse_if


def start(machine, value):
    """Runs a procedure; anything else is executed as if it stood here."""
    if is_procedure(value):
        machine.open(Level('procedure', value))
    else:
        machine.pending = value


@operator((ANY,), name='exec')
def exec_(machine, value):
    start(machine, value)


@operator((BOOLEAN, is_procedure), name='if')
def if_(machine, holds, body):
    if holds.value:
        machine.open(Level('procedure', body))


@operator((BOOLEAN, is_procedure, is_procedure))
def ifelse(machine, holds, body, other):
    machine.open(Level('procedure', body if holds.value else other))


def controls(first, step, limit):
    """What the turns of `for` push: up to the limit, or down to it where the step is negative."""
    whole = isinstance(first, Integer) and isinstance(step, Integer)
    value = first.raw
    while -2 ** 47 <= value < 2 ** 47:
        if value < limit.raw if step.raw < 0 else value > limit.raw:
            return
        yield [Integer(value >> 16) if whole else Real(value)]
        value += step.raw


@operator((NUMBER, NUMBER, NUMBER, is_procedure), name='for')
def for_(machine, first, step, limit, body):
    machine.open(Level('for', body, controls(first, step, limit)))


@operator((INTEGER, is_procedure))
def repeat(machine, times, body):
    refuse_if(times.value < 0, 'rangecheck')
    machine.open(Level('repeat', body, repeated([], times.value)))


@operator((is_procedure,))
def loop(machine, body):
    machine.open(Level('loop', body, repeated([])))


@operator((ARRAY, is_procedure), (STRING, is_procedure), (DICTIONARY, is_procedure))
def forall(machine, whole, body):
    """It works on the contents at its start."""
    if isinstance(whole, Dictionary):
        turns = [list(entry) for entry in contents(whole)]
    elif isinstance(whole, String):
        turns = [[Integer(byte)] for byte in whole.text]
    else:
        turns = [[value] for value in whole.values()]
    machine.open(Level('forall', body, iter(turns)))


@operator((), name='exit')
def exit_(machine):
    """Leaves the innermost loop; no `stopped` and no image's procedure may stand between."""
    places = [at for at, level in enumerate(machine.levels) if level.kind != 'procedure']
    refuse_if(not places or machine.levels[places[-1]].kind in ('stopped', 'image'), 'invalidexit')
    del machine.levels[places[-1]:]


@operator(())
def stop(machine):
    refuse_if(all(level.kind != 'stopped' for level in machine.levels), 'invalidexit')
    machine.cut_to_stopped()
    if len(machine.operands) >= MAX_OPERANDS:
        raise Failure('stackoverflow', 'stopped')
    return [Boolean(True)]


@operator((ANY,))
def stopped(machine, value):
    machine.open(Level('stopped', value if is_procedure(value) else None))
    if not is_procedure(value):
        machine.pending = value


@operator(())
def quit_(_):
    raise Ended('ends')


@operator((is_procedure,))
def bind(machine, body):
    """Names that mean operators become these, in each procedure that is reached, once."""
    seen, waiting = [], [body]
    while waiting:
        part = waiting.pop()
        if any(part.is_same(other) for other in seen):
            continue
        seen.append(part)
        for place, value in enumerate(part.values()):
            found = machine.look_up(value) if isinstance(value, Name) and value.executable else None
            if isinstance(found, Operator):
                part.put(place, [found])
            elif is_procedure(value):
                waiting.append(value)
    return [body]

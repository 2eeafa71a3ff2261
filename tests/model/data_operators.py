"""The operators of the language model on arrays, strings, dictionaries and kinds of objects.

They are those of the PostScript Language Reference, third edition, 8.2; limits are own rules.
"""
from language import MAX_DICTIONARIES, Unmodelled
from objects import (Array, Boolean, Dictionary, Integer, Mark, Name, Null, Operator, Real, String,
                     array_of, string_of, value_of_key)
from operators import (ANY, ARRAY, DICTIONARY, INTEGER, KEY, STRING, above_mark, cleartomark, kind,
                       operator, refuse_if, top)

TYPES = {Integer: 'integer', Real: 'real', Boolean: 'boolean', Name: 'name', String: 'string',
         Array: 'array', Dictionary: 'dict', Operator: 'operator', Mark: 'mark', Null: 'null'}
LIMIT = 65535
MAX_KEY = 127


def contents(dictionary):
    """The entries of a dictionary; the model does not know all of `systemdict`."""
    if not dictionary.writable:
        raise Unmodelled('systemdict')
    return list(dictionary.entries.values())


def define(dictionary, key, value):
    refuse_if(not dictionary.writable, 'invalidaccess')
    refuse_if(isinstance(key, String) and key.length > MAX_KEY, 'limitcheck')
    dictionary.define(key, value)


def sized(size):
    refuse_if(size.value < 0, 'rangecheck')
    refuse_if(size.value > LIMIT, 'limitcheck')
    return size.value


@operator((INTEGER,), (ARRAY, ARRAY), (STRING, STRING), (DICTIONARY, DICTIONARY))
def copy(machine, first, second=None):
    """Operands, or the contents of a composite: of the second, the part that was written."""
    if second is None:
        return top(machine, first.value)
    if isinstance(first, Dictionary):
        refuse_if(not second.writable, 'invalidaccess')
        for key, value in contents(first):
            second.define(key, value)
        return [second]
    refuse_if(second.length < first.length, 'rangecheck')
    second.put(0, first.values())
    return [second.part(0, first.length)]


@operator((), name=']')
def end_array(machine):
    values = above_mark(machine)
    cleartomark(machine)
    return [array_of(values)]


@operator((), name='>>')
def end_dictionary(machine):
    values = above_mark(machine)
    refuse_if(not all(map(KEY, values[::2])), 'typecheck')
    refuse_if(len(values) % 2, 'rangecheck')
    cleartomark(machine)
    made = Dictionary()
    for key, value in zip(values[::2], values[1::2]):
        define(made, key, value)
    return [made]


@operator((INTEGER,))
def array(_, size):
    return [array_of([Null()] * sized(size))]


@operator((INTEGER,))
def string(_, size):
    return [string_of(bytes(sized(size)))]


@operator((INTEGER,), name='dict')
def dict_(_, size):
    """It is empty, and grows as it has to; only the sign of the size is asked."""
    refuse_if(size.value < 0, 'rangecheck')
    return [Dictionary()]


@operator((ARRAY,), (STRING,), (DICTIONARY,), (kind(Name),))
def length(_, value):
    if isinstance(value, Dictionary):
        return [Integer(len(contents(value)))]
    return [Integer(len(value.text) if isinstance(value, Name) else value.length)]


@operator((ARRAY, INTEGER), (STRING, INTEGER), (DICTIONARY, KEY))
def get(_, whole, place):
    if isinstance(whole, Dictionary):
        value = whole.look_up(place)
        refuse_if(value is None, 'undefined')
        return [value]
    refuse_if(not 0 <= place.value < whole.length, 'rangecheck')
    value = whole.get(place.value)
    return [Integer(value) if isinstance(whole, String) else value]


@operator((ARRAY, INTEGER, ANY), (STRING, INTEGER, INTEGER), (DICTIONARY, KEY, ANY))
def put(_, whole, place, value):
    if isinstance(whole, Dictionary):
        define(whole, place, value)
        return
    refuse_if(not 0 <= place.value < whole.length, 'rangecheck')
    if isinstance(whole, String):
        refuse_if(not 0 <= value.value <= 255, 'rangecheck')
        value = value.value
    whole.put(place.value, [value])


@operator((ARRAY, INTEGER, INTEGER), (STRING, INTEGER, INTEGER))
def getinterval(_, whole, start, size):
    start, size = start.value, size.value
    refuse_if(start < 0 or size < 0 or start + size > whole.length, 'rangecheck')
    return [whole.part(start, size)]


@operator((ARRAY, INTEGER, ARRAY), (STRING, INTEGER, STRING))
def putinterval(_, whole, start, source):
    refuse_if(start.value < 0 or start.value + source.length > whole.length, 'rangecheck')
    whole.put(start.value, source.values())


@operator((ARRAY,))
def aload(_, whole):
    return [*whole.values(), whole]


@operator((ARRAY,))
def astore(machine, whole):
    values = top(machine, whole.length)
    del machine.operands[len(machine.operands) - whole.length:]
    whole.put(0, values)
    return [whole]


@operator((DICTIONARY,))
def begin(machine, dictionary):
    refuse_if(len(machine.dictionaries) >= MAX_DICTIONARIES, 'dictstackoverflow')
    machine.dictionaries.append(dictionary)


@operator(())
def end(machine):
    refuse_if(len(machine.dictionaries) <= 2, 'dictstackunderflow')
    machine.dictionaries.pop()


@operator((KEY, ANY), name='def')
def def_(machine, key, value):
    define(machine.dictionaries[-1], key, value)


@operator((KEY,))
def load(machine, key):
    value = machine.look_up(key)
    refuse_if(value is None, 'undefined')
    return [value]


@operator((DICTIONARY, KEY))
def known(_, dictionary, key):
    return [Boolean(dictionary.look_up(key) is not None)]


@operator((KEY,))
def where(machine, key):
    for dictionary in reversed(machine.dictionaries):
        if value_of_key(key) in dictionary.entries:
            return [dictionary, Boolean(True)]
    return [Boolean(False)]


@operator(())
def currentdict(machine):
    return [machine.dictionaries[-1]]


@operator(())
def systemdict(machine):
    return [machine.system]


@operator(())
def userdict(machine):
    return [machine.user]


@operator((STRING,))
def cvn(_, text):
    refuse_if(text.length > MAX_KEY, 'limitcheck')
    return [Name(text.text)]


def marked(value, executable):
    """Only names and arrays carry the mark (own rule)."""
    if isinstance(value, Name):
        return Name(value.text, executable)
    if isinstance(value, Array):
        return Array(value.store, value.start, value.length, executable)
    return value


@operator((ANY,))
def cvx(_, value):
    return [marked(value, True)]


@operator((ANY,))
def cvlit(_, value):
    return [marked(value, False)]


@operator((ANY,))
def xcheck(_, value):
    return [Boolean(isinstance(value, Operator) or getattr(value, 'executable', False))]


@operator((ANY,), name='type')
def type_(_, value):
    return [Name(f'{TYPES[type(value)]}type'.encode(), True)]

"""The operators of the language model that paint images (PostScript Language Reference, third edition, 8.2).

Own rules: the order of refusals; what is refused once rows have come leaves what was done until then.
"""
from images import MAX_MARKS, MAX_SAMPLES, Format, Picture, is_small, matrix_of
from language import Failure, Level, is_procedure
from objects import ONE, Array, Boolean, Dictionary, Integer, Name, Real, String
from operators import OPERATORS, refuse_if
from text import File

KEYS = ('ImageType', 'Width', 'Height', 'BitsPerComponent', 'ImageMatrix', 'DataSource')


def is_integer(value):
    return isinstance(value, Integer)


def is_boolean(value):
    return isinstance(value, Boolean)


def is_numbers(value):
    return isinstance(value, Array) and all(
        isinstance(element, (Integer, Real)) for element in value.values())


def is_source(value):
    return isinstance(value, (String, File)) or is_procedure(value)


def raws(value):
    return [element.raw for element in value.values()]


def operands_of(machine, tests):
    """The operands of a form without a dictionary, by a test of each."""
    refuse_if(len(machine.operands) < len(tests), 'stackunderflow')
    taken = machine.operands[-len(tests):]
    refuse_if(not all(test(value) for test, value in zip(tests, taken)), 'typecheck')
    return taken


def has_dictionary(machine):
    refuse_if(not machine.operands, 'stackunderflow')
    return isinstance(machine.operands[-1], Dictionary)


class Image:
    """What an operator is told of an image; its rows, once they have come, are painted as a mask or not."""

    def __init__(self, command, taken, sizes, bits, channels, matrix, source, decode, ones=None):
        self.command, self.taken, self.sizes, self.bits = command, taken, sizes, bits
        self.channels, self.matrix, self.source = channels, matrix, source
        self.decode, self.ones = decode, ones
        self.data = bytearray()

    def is_mask(self):
        return self.command == 'imagemask'

    def begin(self, machine):
        """Refusals of what is told, then the data, and the mark where they don't come by a procedure."""
        page = machine.page
        width, height = self.sizes
        refuse_if(width < 0 or height < 0, 'rangecheck')
        refuse_if(self.bits not in ((1,) if self.is_mask() else (1, 2, 4, 8)), 'rangecheck')
        refuse_if(len(self.matrix) != 6, 'rangecheck')
        refuse_if(len(self.decode) != 2 * self.channels, 'rangecheck')
        self.current = page.state.matrix
        refuse_if(self.current.determinant() == 0, 'undefinedresult')
        self.matrix = matrix_of(self.matrix)
        refuse_if(not (is_small(self.current) and is_small(self.matrix)), 'limitcheck')
        samples = width * height * self.channels
        refuse_if(page.samples + samples > MAX_SAMPLES, 'limitcheck')
        self.format = Format(width, height, self.bits, self.decode)
        before = list(machine.operands)
        if self.size() == 0:
            del machine.operands[-self.taken:]
        elif is_procedure(self.source):
            del machine.operands[-self.taken:]
            self.call(machine)
        else:
            self.data += self.plain_data(machine)
            del machine.operands[-self.taken:]
            if not self.paint(page):
                machine.operands = before
                raise Failure('limitcheck', self.command)

    def size(self):
        return self.format.size()

    def plain_data(self, machine):
        if isinstance(self.source, File):
            return machine.tokens.take(self.size())
        text = self.source.text
        return (text * -(-self.size() // len(text)))[:self.size()] if text else b''

    def call(self, machine):
        machine.open(Level('image', self.source, returned=self.returned))
        machine.count += 1

    def returned(self, machine):
        """The string on top gives its bytes; an empty one, or the last that is asked for, ends the image."""
        if not machine.operands or not isinstance(machine.operands[-1], String):
            raise Failure('typecheck', self.command)
        text = machine.operands[-1].text
        self.data += text[:self.size() - len(self.data)]
        if text and len(self.data) < self.size():
            machine.operands.pop()
            self.call(machine)
            return
        if not self.paint(machine.page):
            raise Failure('limitcheck', self.command)
        machine.operands.pop()

    def paint(self, page):
        """Adds the rows that came whole; false where the page has no room for them."""
        rows = self.format.rows(self.data)
        if not rows:
            return True
        samples = sum(map(len, rows))
        if len(page.marks) >= MAX_MARKS or page.samples + samples > MAX_SAMPLES:
            return False
        page.place(Picture(self.current, self.matrix, self.format, rows, page.state.clip,
                           self.colours(page)), samples)
        return True

    def colours(self, page):
        """The colour of a sample; of a mask the current colour where it paints, else none."""
        if not self.is_mask():
            return page.rgb_of
        ink = page.state.colour.rgb()
        return lambda sample: ink if sample == (255,) else None


def described(command, machine, channels):
    """An image by a dictionary: all keys that have to be there, then all types."""
    entries = machine.operands[-1].look_up
    mask = command == 'imagemask'
    kind, width, height, bits, matrix, source = (entries(Name(key.encode())) for key in KEYS)
    bits = bits or (Integer(1) if mask else None)
    decode = entries(Name(b'Decode'))
    values = (kind, width, height, bits, matrix, source)
    refuse_if(any(value is None for value in values), 'undefined')
    tests = (is_integer,) * 4 + (is_numbers, is_source)
    refuse_if(not all(test(value) for test, value in zip(tests, values)), 'typecheck')
    refuse_if(decode is not None and not is_numbers(decode), 'typecheck')
    refuse_if(kind.value != 1, 'rangecheck')
    numbers = [0, ONE] * channels if decode is None else raws(decode)
    if mask and len(numbers) == 2:
        ones = decode is not None and numbers == [ONE, 0]
        numbers = mask_decode(ones)
    return Image(command, 1, (width.value, height.value), bits.value, channels, raws(matrix), source,
                 numbers)


def mask_decode(ones):
    """Of a mask the code 255 is where it paints."""
    return [0, ONE] if ones else [ONE, 0]


def image(machine):
    if has_dictionary(machine):
        described('image', machine, len(machine.page.state.colour.codes)).begin(machine)
        return
    width, height, bits, matrix, source = operands_of(
        machine, (is_integer, is_integer, is_integer, is_numbers, is_source))
    Image('image', 5, (width.value, height.value), bits.value, 1, raws(matrix), source,
          [0, ONE]).begin(machine)


def imagemask(machine):
    if has_dictionary(machine):
        described('imagemask', machine, 1).begin(machine)
        return
    width, height, ones, matrix, source = operands_of(
        machine, (is_integer, is_integer, is_boolean, is_numbers, is_source))
    Image('imagemask', 5, (width.value, height.value), 1, 1, raws(matrix), source,
          mask_decode(ones.value)).begin(machine)


def colorimage(machine):
    width, height, bits, matrix, source, apart, components = operands_of(
        machine, (is_integer, is_integer, is_integer, is_numbers, is_source, is_boolean, is_integer))
    refuse_if(apart.value or components.value not in (1, 3, 4), 'rangecheck')
    Image('colorimage', 7, (width.value, height.value), bits.value, components.value, raws(matrix),
          source, [0, ONE] * components.value).begin(machine)


for function in (image, imagemask, colorimage):
    OPERATORS[function.__name__] = function

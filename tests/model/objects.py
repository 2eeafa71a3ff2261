"""The objects of the language model (PostScript Language Reference, third edition, 3.3).

Names and strings are bytes. A real has a raw value, its count of 1/65536.
"""
from dataclasses import dataclass, replace

ONE = 65536


@dataclass(frozen=True)
class Integer:
    value: int

    @property
    def raw(self):
        return self.value * ONE


@dataclass(frozen=True)
class Real:
    raw: int


@dataclass(frozen=True)
class Boolean:
    value: bool


@dataclass(frozen=True)
class Name:
    text: bytes
    executable: bool = False


@dataclass(frozen=True)
class Operator:
    name: str


@dataclass(frozen=True)
class Mark:
    pass


@dataclass(frozen=True)
class Null:
    pass


@dataclass(frozen=True)
class Part:
    """So many places of a composite from one on; parts share their composite (3.3.5)."""
    store: object
    start: int
    length: int

    def values(self):
        return self.store[self.start:self.start + self.length]

    def part(self, start, length):
        return replace(self, start=self.start + start, length=length)

    def get(self, place):
        return self.store[self.start + place]

    def put(self, place, values):
        """Writes from a place on; the values were read whole before."""
        at = self.start + place
        self.store[at:at + len(values)] = values

    def is_same(self, other):
        return self.store is other.store and (
            self.start, self.length) == (other.start, other.length)


@dataclass(frozen=True)
class String(Part):
    """Bytes in a bytearray."""

    @property
    def text(self):
        return bytes(self.values())


@dataclass(frozen=True)
class Array(Part):
    """Objects in a list."""
    executable: bool = False


class Dictionary:
    """Entries in the order in which their keys were first defined (3.3.9; the order is own)."""

    def __init__(self, entries=None, writable=True):
        self.entries = entries or {}
        self.writable = writable

    def define(self, key, value):
        """A key that is there keeps its place and its first form."""
        number = value_of_key(key)
        first_key = self.entries[number][0] if number in self.entries else plain_key(key)
        self.entries[number] = (first_key, value)

    def look_up(self, key):
        """The value of a key, if there is one."""
        return self.entries.get(value_of_key(key), (None, None))[1]


def value_of_key(key):
    """Numbers as keys are equal by value, a string is the name of its bytes (3.3.9)."""
    if isinstance(key, (Name, String)):
        return 'name', key.text
    if isinstance(key, Boolean):
        return 'boolean', key.value
    return 'number', key.raw


def plain_key(key):
    """A key as forall gives it: names and strings as literal names."""
    return Name(key.text) if isinstance(key, (Name, String)) else key


def string_of(text):
    return String(bytearray(text), 0, len(text))


def array_of(items, executable=False):
    return Array(list(items), 0, len(items), executable)


def are_equal(one, other):
    """Numbers by value, names and strings by bytes, others by kind and identity (8.2 eq)."""
    if isinstance(one, (Integer, Real)) and isinstance(other, (Integer, Real)):
        return one.raw == other.raw
    if isinstance(one, (Name, String)) and isinstance(other, (Name, String)):
        return one.text == other.text
    if type(one) is not type(other):
        return False
    if isinstance(one, Array):
        return one.is_same(other)
    return one is other if isinstance(one, Dictionary) else one == other

"""An independent reading of band lists: what `list_readings` has to print.

A command is a byte that tells which it is, and its parts. A number has seven bits a byte, the lowest first, with 128
added to each byte but the last, which isn't 0 unless it stands alone; it is below 2^63. A whole number v is the number
2v, or -2v - 1 where it is negative. Each point of a ring is told by its distance from the one before it.
"""
PLANE = 2**44


class NoCommand(Exception):
    pass


class Bytes:
    def __init__(self, items):
        self.items = items
        self.place = 0

    def byte(self):
        if self.place == len(self.items):
            raise NoCommand
        self.place += 1
        return self.items[self.place - 1]

    def number(self, bound=2**63):
        groups = [self.byte()]
        while groups[-1] >= 128:
            groups.append(self.byte())
        if len(groups) > 1 and groups[-1] == 0:
            raise NoCommand
        value = sum((group & 127) << 7 * place for place, group in enumerate(groups))
        if value >= bound:
            raise NoCommand
        return value

    def signed(self):
        value = self.number()
        return -(value + 1) // 2 if value & 1 else value // 2

    def choice(self, count):
        byte = self.byte()
        if byte >= count:
            raise NoCommand
        return byte

    def ring(self):
        x = y = 0
        points = []
        for _ in range(self.number()):
            x, y = x + self.signed(), y + self.signed()
            if max(abs(x), abs(y)) >= PLANE:
                raise NoCommand
            points += [x, y]
        return [len(points) // 2] + points

    def many(self, item):
        count = self.number()
        said = [count]
        for _ in range(count):
            said += item()
        return said

    def region(self):
        return [self.choice(2)] + self.many(self.ring)

    def shape(self):
        if self.choice(2) == 0:
            return [0] + self.many(self.ring)
        x, y, radius = self.signed(), self.signed(), self.number(PLANE)
        if max(abs(x), abs(y)) >= PLANE:
            raise NoCommand
        return [1, x, y, radius]

    def ink(self):
        channels = self.byte()
        if channels not in (1, 3, 4):
            raise NoCommand
        source = self.number(2**32 + 1)
        return [source, channels] + [self.byte() for _ in range(channels)] + [0] * (4 - channels)

    def command(self):
        """What a command says, as numbers in order."""
        tag = self.byte()
        if tag == 1:
            return [1] + self.ink()
        if tag == 2:
            return [2] + self.many(self.region)
        if tag == 3:
            return [3, self.choice(2)] + self.many(self.shape)
        if tag in (4, 5):
            return [tag, self.number(2**32)]
        raise NoCommand


def tally(lists):
    """How many lists begin with a command, and the sum of what these say."""
    read = total = 0
    for items in lists:
        front = Bytes(items)
        try:
            said = front.command()
        except NoCommand:
            continue
        read += 1
        for n in [front.place] + said:
            total = (total ^ n % 2**64) * 1099511628211 % 2**64
    return f'{read} commands, sum {total}'


GOOD = {
    'flat': '01 03 80 01 FF 00 10',
    'clip': '02 02 01 01 03 00 80 08 80 08 00 00 FF 03 00 02 01 04 06 00',
    'block': '03 00 01 00 01 04 00 80 08 80 08 00 00 FF 03 FF 07 00',
    'shapes': '03 01 03 01 01 80 01 AC 02 00 02 01 06 07 02 01 02 03 04 01 FE FF FF FF FF FF 07 00 FF FF FF FF FF FF 03',
    'image': '04 FF FF FF FF 0F',
    'mask': '05 AC 02',
}

for first in range(256):
    lists = ((first, second, third) for second in range(256) for third in range(256))
    print(f'three bytes from {first}: {tally(lists)}')
for name, text in GOOD.items():
    good = list(bytes.fromhex(text))
    for place in range(len(good)):
        lists = (good[:place] + [byte] + good[place + 1:] + [0] * 9 for byte in range(256))
        print(f'{name}, byte {place}: {tally(lists)}')

"""What a power loss leaves on a disk: images made of recorded writes and flushes, for ./dev
power."""

import hashlib
import os

from power_nbd import SECTOR, Flush, Message, Write

BLOCK = 4096
# The ways in which a device may keep what it was not asked to flush.
VARIANTS = ("none", "all", "some", "blocks", "torn", "last", "all but one")


class Base:
    """A file with an empty file system, and the numbers of the blocks that are never torn: those of
    superblocks."""

    def __init__(self, path, whole=()):
        self.whole = whole
        self.file = open(path, "rb")
        self.size = os.path.getsize(path)

    def read(self, offset, length):
        return os.pread(self.file.fileno(), length, offset)


class Image:
    """The bytes of a disk: blocks over an empty file system."""

    def __init__(self, base, blocks=None):
        self.base, self.blocks = base, blocks if blocks is not None else {}

    def copy(self):
        return Image(self.base, dict(self.blocks))

    def read(self, offset, length):
        found = bytearray(self.base.read(offset, length))
        for number in range(offset // BLOCK, -(-(offset + length) // BLOCK)):
            block = self.blocks.get(number)
            if block is not None:
                at = number * BLOCK
                first, end = max(at, offset), min(at + BLOCK, offset + length)
                found[first - offset : end - offset] = block[first - at : end - at]
        return bytes(found)

    def write(self, offset, data):
        for number, at, piece in pieces(offset, data, BLOCK):
            if len(piece) < BLOCK:
                block = bytearray(self.read(number * BLOCK, BLOCK))
                start = at - number * BLOCK
                block[start : start + len(piece)] = piece
                piece = bytes(block)
            self.blocks[number] = piece

    def digest(self):
        """The same for images of the same bytes, as a rule: each block that was written counts."""
        found = hashlib.blake2b(digest_size=16)
        for number, block in sorted(self.blocks.items()):
            found.update(number.to_bytes(8, "big") + block)
        return found.digest()

    def save(self, path):
        """Writes it as a file, with holes where the file system has zeros."""
        with open(path, "wb") as file:
            file.truncate(self.base.size)
            for at in range(0, self.base.size, 1 << 20):
                data = self.read(at, min(1 << 20, self.base.size - at))
                for number, place, piece in pieces(at, data, BLOCK) if any(data) else ():
                    if any(piece):
                        file.seek(place)
                        file.write(piece)


def pieces(offset, data, size):
    """Yields the parts of a write in blocks of a size: the block's number, and place and bytes of
    the part."""
    at, end = offset, offset + len(data)
    while at < end:
        stop = min(end, (at // size + 1) * size)
        yield at // size, at, data[at - offset : stop - offset]
        at = stop


class Recording:
    """What the guest did to a disk, from an image on."""

    def __init__(self, start, events):
        self.start, self.events = start, events

    def requests(self):
        return sum(not isinstance(event, Message) for event in self.events)

    def choose(self, chance, groups):
        """Chooses an event in front of which the power is cut: one in two times any, else one that
        follows a message of one of the groups of events, at once or nearly."""
        requests = [
            index for index, event in enumerate(self.events, 1) if not isinstance(event, Message)
        ]
        group = chance.choice([group for group in (*groups, *[requests] * len(groups)) if group])
        return min(len(self.events), chance.choice(group) + chance.choice((0, 0, 0, 1, 2)))

    def durable(self, cut):
        """The number of events whose writes the last flush before the cut covers."""
        return max(
            (event.covers for event in self.events[:cut] if isinstance(event, Flush)), default=0
        )

    def image(self, cut, variant, chance):
        """The disk after a power loss in front of an event."""
        image, durable = self.start.copy(), self.durable(cut)
        for event in self.events[:durable]:
            if isinstance(event, Write):
                image.write(event.offset, event.data)
        pending = [event for event in self.events[durable:cut] if isinstance(event, Write)]
        for offset, data in kept(pending, variant, chance, image.base.whole):
            image.write(offset, data)
        return image


def parts(event, variant, whole):
    """Yields place and bytes of the parts of a write that a device keeps or drops apart from each
    other."""
    for number, at, block in pieces(event.offset, event.data, BLOCK):
        if variant == "blocks" or number in whole:
            yield at, block
        else:
            yield from ((place, sector) for _, place, sector in pieces(at, block, SECTOR))


def kept(pending, variant, chance, whole):
    """Yields what a device keeps of writes that no flush covers, in one of the ways of VARIANTS.

    A device that reorders them leaves the older one of two writes of a block, or the newer: so does
    one that drops some.
    """
    dropped = chance.randrange(len(pending)) if pending else 0
    share = chance.choice((0.2, 0.5, 0.8))
    for index, event in enumerate(pending):
        if variant in ("blocks", "torn"):
            yield from (part for part in parts(event, variant, whole) if chance.random() < share)
        elif {
            "none": False, "all": True, "some": chance.random() < share,
            "last": index == len(pending) - 1, "all but one": index != dropped,
        }[variant]:  # fmt: skip
            yield event.offset, event.data

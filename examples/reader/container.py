"""The outer layers of an RNTuple file: bytes, the TFile around the data, and envelopes.

RNTuple's own data has the lowest byte of a number first ("little"). ROOT's records have the highest byte first ("big"), and so has
the anchor, since it is a ROOT object.
"""
import struct
from dataclasses import dataclass

from xxh3 import xxh3

HEADER, FOOTER, PAGE_LIST = 1, 2, 3  # kinds of envelopes


class Fault(Exception):
    """What is wrong with a file."""


def require(holds, what):
    if not holds:
        raise Fault(what)


class Cursor:
    """Takes numbers, strings and frames, one behind the other, from a part of a file."""

    def __init__(self, data, at, end, order="little"):
        self.data, self.at, self.end, self.order = data, at, end, order

    def take(self, size):
        require(0 <= size <= min(self.end, len(self.data)) - self.at, f"what stands at {self.at} is cut short")
        self.at += size
        return self.data[self.at - size:self.at]

    def number(self, size, signed=False):
        return int.from_bytes(self.take(size), self.order, signed=signed)

    def string(self):
        """A string of RNTuple: its length in 32 bits, and its bytes."""
        return self.take(self.number(4))

    def frame(self):
        """A frame begins with its size, which counts itself. What stands in it behind the contents that are known is skipped."""
        begin, size = self.at, self.number(8, signed=True)
        require(8 <= abs(size) <= self.end - begin, f"the frame at {begin} doesn't lie in what holds it")
        inside, self.at = Cursor(self.data, self.at, begin + abs(size)), begin + abs(size)
        return size, inside

    def record(self):
        """A record frame has a size above zero."""
        size, inside = self.frame()
        require(size > 0, f"the frame before {self.at} is no record frame")
        return inside

    def items(self):
        """A list frame has a size below zero. The number of its items stands before them."""
        size, inside = self.frame()
        require(size < 0, f"the frame before {self.at} is no list frame")
        return inside.number(4), inside

    def locator(self):
        """The size of a block, and its place in the file. The top bit of the size says another kind of locator."""
        size, place = self.number(4), self.number(8)
        require(size < 1 << 31, f"the locator before {self.at} is of another kind")
        return size, place


# The TFile. A key stands before each object. The directory leads to a list of keys, and one of these is that of the anchor.


@dataclass
class Key:
    size: int  # of the key and the object behind it
    object_size: int  # without compression
    key_size: int
    place: int
    class_name: bytes


def read_key(cursor):
    size, version, object_size = cursor.number(4), cursor.number(2), cursor.number(4)
    pointer = 8 if version > 1000 else 4
    cursor.take(4)  # fDatime
    key_size = cursor.number(2)
    cursor.take(2)  # fCycle
    place = cursor.number(pointer)
    cursor.take(pointer)  # fSeekPdir
    texts = []
    for _ in ("class", "name", "title"):
        length = cursor.number(1)
        texts.append(cursor.take(cursor.number(4) if length == 255 else length))
    return Key(size, object_size, key_size, place, texts[0])


def find_keys(data):
    """The place and the size of the list of keys."""
    header = Cursor(data, 0, len(data), "big")
    require(header.take(4) == b"root", "this is no finished TFile")
    pointer = 8 if header.number(4) >= 1000000 else 4
    begin, end = header.number(4), header.number(pointer)  # fBEGIN, fEND
    require(end <= len(data), "the file is cut short")
    header.take(pointer + 4 + 4)  # fSeekFree, fNbytesFree, nfree
    directory = Cursor(data, begin + header.number(4), len(data), "big")  # behind fNbytesName
    pointer = 8 if directory.number(2) > 1000 else 4
    directory.take(4 + 4)  # the times at which it was created and modified
    size = directory.number(4)  # fNbytesKeys
    directory.take(4 + pointer + pointer)  # fNbytesName, fSeekDir, fSeekParent
    return directory.number(pointer), size  # fSeekKeys


def find_anchor(data):
    """The object of the first key of the anchor's class."""
    at, size = find_keys(data)
    keys = Cursor(data, at, at + size, "big")
    keys.at = at + read_key(keys).key_size
    for _ in range(keys.number(4)):
        key = read_key(keys)
        if key.class_name == b"ROOT::RNTuple":
            require(key.size - key.key_size == key.object_size == 78, "the anchor has another size, or is compressed")
            return Cursor(data, key.place + key.key_size, key.place + key.size, "big")
    raise Fault("there is no RNTuple in the file")


def read_anchor(data):
    """The links to header and footer: the place, the stored size and the size without compression of each."""
    anchor = find_anchor(data)
    anchor.take(4 + 2)  # the byte count and the class version of ROOT's streamer
    members = Cursor(data, anchor.at, anchor.at + 64, "big")
    require(xxh3(anchor.take(64)) == anchor.number(8), "the anchor has another checksum")
    require(members.number(2) == 1, "the format has another epoch")
    members.take(2 + 2 + 2)  # major, minor and patch
    numbers = [members.number(8) for _ in range(6)]
    return numbers[:3], numbers[3:]  # fMaxKeySize follows


def open_envelope(data, kind, place, size, length):
    """The contents of an envelope, and its checksum. Its kind and its size stand before them in one word."""
    require(size == length, f"the envelope at {place} is compressed")
    envelope = Cursor(data, place, place + size).take(size)
    require(size >= 16 and struct.unpack_from("<Q", envelope)[0] == size << 16 | kind, f"no envelope of kind {kind} stands at {place}")
    checksum, = struct.unpack_from("<Q", envelope, size - 8)
    require(xxh3(envelope[:-8]) == checksum, f"the envelope at {place} has another checksum")
    return Cursor(data, place + 8, place + size - 8), checksum

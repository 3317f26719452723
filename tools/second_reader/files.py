"""Entries, bodies, directories, and the walk over them."""
import collections
import struct

from descriptors import Address, escaped, long_address, tag_of, time_of, units_of
from inputs import BLOCK, Refused, number
from volume import NodeFault

TAG, STRATEGY, DESCRIPTORS, LENGTHS, REFERENCE, RANGE, SHORT, CHAIN, ODD, IDENTIFIER_TAG, NAME, CUT, DEPTH = range(1, 14)


# A stretch of a body: its length, its bytes (None: zeros, or missing), the logical block that holds it, the block that is missing
Stretch = collections.namedtuple("Stretch", "length data logical missing")


class Entry:
    """A file entry or extended file entry (4/14.9, 4/14.17) at a logical block. Making one may raise NodeFault."""

    def __init__(self, volume, reference, block, data):
        self.volume, self.reference, self.block = volume, reference, block
        identifier = tag_of(data, block)
        if identifier not in (261, 266):
            raise NodeFault(TAG)
        if number(data, 20, 2) != 4:
            raise NodeFault(STRATEGY)
        self.form = data[34] & 7
        if self.form not in (0, 1, 3):
            raise NodeFault(DESCRIPTORS)
        fixed, time = (176, 84) if identifier == 261 else (216, 92)
        attributes, descriptors = struct.unpack_from("<II", data, fixed - 8)
        if fixed + attributes + descriptors > BLOCK or self.form != 3 and descriptors % self.width():
            raise NodeFault(LENGTHS)
        self.area = data[fixed + attributes : fixed + attributes + descriptors]
        self.size, self.time, self.type = number(data, 56, 8), time_of(data[time : time + 12]), data[27]
        self.cut = False  # whether its list of descriptors goes on in a block that is not known

    def width(self):
        return 8 if self.form == 0 else 16

    def kind(self):
        if self.type in self.volume.rules["files"]:
            return "file"
        return {4: "directory", 12: "link"}.get(self.type, "other-%d" % self.type)

    def body(self):
        """The body's stretches, and whether they are read by the tail of the last extent. By the wide rules the tail is taken, unless the body has a fault with it;
        it tells where the body has a fault without it."""
        if not self.volume.rules["tail"]:
            return self.stretches(False), False
        try:
            body = self.stretches(True)
        except NodeFault:
            return self.stretches(False), False
        try:
            self.stretches(False)
        except NodeFault:
            return body, True
        return body, False

    def stretches(self, tail):
        if self.form == 3:
            if len(self.area) < self.size:
                raise NodeFault(SHORT)
            return [Stretch(self.size, self.area[: self.size], self.block, None)] if self.size else []
        body, covered, area, at, continued = [], 0, self.area, 0, 0
        while covered < self.size:
            descriptor = self.descriptor(area, at, tail)
            at += self.width()
            if descriptor is None:
                raise NodeFault(SHORT)
            if descriptor.kind == 3:
                continued += 1
                area, at = self.continuation(descriptor, continued), 0
                if isinstance(area, int):
                    self.cut = True
                    return body + [Stretch(self.size - covered, None, None, area)]
                continue
            used = min(descriptor.length, self.size - covered)
            body += self.recorded(descriptor, used) if descriptor.kind == 0 else [Stretch(used, None, None, None)]
            if covered + descriptor.length < self.size and descriptor.length % BLOCK:
                raise NodeFault(ODD)
            covered += used
        return body

    def descriptor(self, area, at, tail):
        """The allocation descriptor there (4/14.14), or None where the list ends."""
        def take(at):
            if at >= len(area):
                return None
            length, block = struct.unpack_from("<II", area, at)
            reference = number(area, at + 8, 2) if self.form == 1 else self.reference
            return Address(length >> 30, length & 0x3FFFFFFF, block, reference) if length & 0x3FFFFFFF else None
        found = take(at)
        if tail and found and found.kind < 3 and take(at + self.width()) is None:
            return found._replace(length=-(-found.length // BLOCK) * BLOCK)
        return found

    def recorded(self, extent, used):
        """The stretches of a recorded extent of which `used` bytes are the body's."""
        volume, count = self.volume, -(-used // BLOCK)
        if extent.reference >= len(volume.maps):
            raise NodeFault(REFERENCE)
        if extent.block + count > volume.maps[extent.reference]["length"]:
            raise NodeFault(RANGE)
        for i in range(count):
            place, part = volume.place(extent.reference, extent.block + i), min(BLOCK, used - i * BLOCK)
            block = volume.known(place)
            yield Stretch(part, block[:part], extent.block + i, None) if block else Stretch(part, None, None, place)

    def continuation(self, extent, continued):
        """The area of descriptors in an allocation extent (4/14.5), or the number of its block if it is not known."""
        volume = self.volume
        place = volume.place_of(extent._replace(kind=0))
        if extent.length > BLOCK or continued > 256:
            raise NodeFault(CHAIN)
        block = volume.known(place)
        if not block:
            return place
        length = number(block, 20, 4)
        if tag_of(block, extent.block) != 258 or 24 + length > BLOCK or length % self.width():
            raise NodeFault(CHAIN)
        return block[24 : 24 + length]


Identifier = collections.namedtuple("Identifier", "units address hidden")


def look(body, at, size):
    """`size` bytes of a body from a place on, and the logical block of the first; or the first block that is missing in them."""
    data, first, begin = b"", None, 0
    for stretch in body:
        end = begin + stretch.length
        if begin < at + size and end > at:
            if stretch.missing is not None:
                return None, stretch.missing
            low, high = max(at - begin, 0), min(at + size - begin, stretch.length)
            first = stretch.logical if not data else first
            data += stretch.data[low:high] if stretch.data is not None else bytes(high - low)
        begin = end
    return data, first


def names_of(body, size, anywhere):
    """What a directory lists (4/14.4), the fault that ends it, if one does, and whether the tag of an identifier is of another place.
    `anywhere`: the location of the tags is not compared."""
    listed, at, moved = [], 0, False
    while at < size:
        if size - at < 38:
            return listed, CUT, moved
        head, where = look(body, at, 38)
        if head is None:
            return listed, None, moved
        name, use = head[19], number(head, 36, 2)
        length = (name + use + 41) // 4 * 4
        if length > BLOCK or at + length > size:
            return listed, CUT, moved
        data, where = look(body, at, length)
        if data is None:
            return listed, None, moved
        if tag_of(data, where, anywhere) != 257:
            return listed, IDENTIFIER_TAG, moved
        if not data[18] & 12:
            units = units_of(data[38 + use : 38 + use + name])
            if units is None:
                return listed, NAME, moved
            listed.append(Identifier(units, long_address(data, 20), bool(data[18] & 1)))
        moved = moved or tag_of(data, where) != 257
        at += length
    return listed, None, moved


class Found:
    """What is at an ICB: kind, size and time ('unread', None, None where it is not read), standing, missing blocks, holes, names."""

    def __init__(self, volume, reference, block):
        self.kind, self.size, self.time, self.standing = "unread", None, None, "whole"
        self.missing, self.holes, self.body, self.names, self.moved, self.tail, self.cut = [], [], [], [], False, False, False
        place = volume.place(reference, block)
        if not volume.known(place):
            self.standing, self.missing = "torn", [place]
            return
        try:
            entry = Entry(volume, reference, block, volume.known(place))
            self.kind, self.size, self.time = entry.kind(), entry.size, entry.time
            self.body, self.tail = entry.body()
            self.cut = entry.cut
            if self.kind == "directory":
                self.names, fault, self.moved = names_of(self.body, self.size, volume.rules["anywhere"])
                if fault:
                    raise NodeFault(fault)
        except NodeFault as fault:
            self.standing = "fault-%s" % fault
            return
        self.missing = sorted({stretch.missing for stretch in self.body if stretch.missing is not None})
        self.standing, begin = "torn" if self.missing else "whole", 0
        for stretch in self.body:
            if stretch.missing is not None and self.holes and sum(self.holes[-1]) == begin:
                self.holes[-1][1] += stretch.length
            elif stretch.missing is not None:
                self.holes.append([begin, stretch.length])
            begin += stretch.length


Node = collections.namedtuple("Node", "names hidden kind size time standing missing holes body icb tail")


class Walk:
    """All nodes of a volume, and the entries that no name leads to."""

    def __init__(self, volume):
        self.volume, self.seen, self.nodes = volume, {}, []
        self.visit([], False, volume.root, [])
        named = {node.icb for node in self.nodes}
        self.unnamed = []
        for reference, partition in enumerate(volume.maps):
            for block in range(partition["length"]):
                data = volume.known(volume.place(reference, block))
                if data and data[0] in (5, 10) and data[1] == 1 and (reference, block) not in named:
                    found = self.find(reference, block)
                    if found.kind != "unread":
                        self.unnamed.append(((reference, block), found))

    def find(self, reference, block):
        if (reference, block) not in self.seen:
            self.seen[reference, block] = Found(self.volume, reference, block)
        return self.seen[reference, block]

    def add(self, names, hidden, found, standing, missing=(), holes=(), icb=None):
        if len(self.nodes) == 65536:
            raise Refused("fault 3 TooManyPaths")
        kind, size, time = (found.kind, found.size, found.time) if found else ("unread", None, None)
        body, tail = (found.body, found.tail) if found else ([], False)
        self.nodes.append(Node(names, hidden, kind, size, time, standing, list(missing), list(holes), body, icb, tail))

    def visit(self, names, hidden, address, above):
        try:
            self.volume.place_of(address)
        except NodeFault as fault:
            return self.add(names, hidden, None, "fault-%s" % fault)
        icb = (address.reference, address.block)
        found = self.find(*icb)
        if icb in above:
            return self.add(names, hidden, found, "loop", icb=icb)
        deep = found.kind == "directory" and len(names) == 64
        if deep and found.names and not found.standing.startswith("fault"):
            return self.add(names, hidden, found, "fault-%d" % DEPTH, icb=icb)
        self.add(names, hidden, found, found.standing, found.missing, found.holes, icb)
        if found.kind == "directory" and not deep:
            for listed in found.names:
                self.visit(names + [escaped(listed.units)], listed.hidden, listed.address, above + [icb])

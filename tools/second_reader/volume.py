"""The volume: its anchor, its sequence, its layout, its sparing table, and where logical blocks are."""
import struct

from descriptors import label_of, long_address, tag_of
from inputs import BLOCK, number

# The two sets of rules: which revisions of UDF and packet lengths are taken, how many blocks each extent of the descriptor sequence
# has at least and whether both have one length, whether a partition may pass the last block, which file types (4/14.6.6, UDF 2.01
# 2.3.5.2) are files, whether the last extent of a file goes on to the end of its block where the file does, whether the tag of a
# file identifier may have any location, whether of the sparing tables the newest one counts, and whether the reserve sequence is tried
# where the main one gives no layout.
STRICT = {"revisions": (0x150, 0x201), "packets": (16, 32), "least": 16, "apart": False, "passes": False, "files": (5,), "tail": False,
          "anywhere": False, "newest": False, "exchange": False}
WIDE = {"revisions": (0x100, 0x101, 0x102, 0x150, 0x200, 0x201), "packets": (1, 2, 4, 8, 16, 32, 64, 128), "least": 1, "apart": True, "passes": True,
        "files": (0, 5, 249), "tail": True, "anywhere": True, "newest": True, "exchange": True}
VOLUME_FAULTS = """NoAnchor Extents Pointer NoLogicalVolume Domain BlockSize MapCount MapKind NoPartition Contents PartitionRange
    SparingTag SparingShape SparingOrder MappedRange FileSet""".split()


class Holes(Exception):
    """The volume does not open before some of these blocks are read."""


class VolumeFault(Exception):
    """The volume is faulty: the fault's number."""


class NodeFault(Exception):
    """An address, an entry, a body or a directory is faulty: the fault's number."""


class Volume:
    """What the table tells of the volume's structures. `maps` has the partitions, once it is open."""

    def __init__(self, table, last, rules):
        self.table, self.last, self.rules = table, last, rules
        self.anchors = (256, last - 256, last)

    def open(self):
        """Reads what comes before the files. This may raise Holes or VolumeFault."""
        self.read_layout(*self.anchor())
        for partition in self.maps:
            if partition["packet"]:
                self.read_sparing(partition)
        self.find_root()

    def known(self, place):
        return self.table.get(place)

    def anchor(self):
        for place in self.anchors:
            block = self.known(place)
            if block and tag_of(block, place) == 2:
                size, main, reserve_size, reserve = struct.unpack_from("<4I", block, 16)
                for length, first in ((size, main), (reserve_size, reserve)):
                    if length % BLOCK or not self.rules["least"] <= length // BLOCK <= 256 or first + length // BLOCK - 1 > self.last:
                        raise VolumeFault(2)
                if size != reserve_size and not self.rules["apart"]:
                    raise VolumeFault(2)
                return main, reserve, min(size, reserve_size) // BLOCK
        raise_holes(place for place in self.anchors if not self.known(place))
        raise VolumeFault(1)

    def read_layout(self, main, reserve, count):
        """The layout, that of the main sequence or, where this has a fault and the rules are wide, the one of the reserve sequence."""
        try:
            self.layout(self.sequence(main, reserve, count))
        except VolumeFault as fault:
            if not self.rules["exchange"]:
                raise
            try:
                self.layout(self.sequence(reserve, main, count))
            except (VolumeFault, Holes):
                raise fault

    def sequence(self, main, reserve, count):
        """The descriptors of the sequence (3/8.4), each with its identifier."""
        described = []
        for i in range(count):
            place = main + i if self.known(main + i) else reserve + i
            block = self.known(place)
            if not block:
                raise_holes((main + i, reserve + i))
            identifier = tag_of(block, place)
            if identifier in (None, 8):
                break
            if identifier == 3:
                raise VolumeFault(3)
            described.append((identifier, block))
        return described

    def layout(self, described):
        volume = prevailing(block for identifier, block in described if identifier == 6)
        if volume is None:
            raise VolumeFault(4)
        self.revision = number(volume, 240, 2)
        if volume[217:240] != padded(b"*OSTA UDF Compliant") or self.revision not in self.rules["revisions"]:
            raise VolumeFault(5)
        if number(volume, 212, 4) != BLOCK:
            raise VolumeFault(6)
        if number(volume, 268, 4) not in (1, 2):
            raise VolumeFault(7)
        self.label, self.file_set = label_of(volume[84:212]), long_address(volume, 248)
        self.maps, at, end = [], 440, 440 + number(volume, 264, 4)
        for _ in range(number(volume, 268, 4)):
            self.maps.append(self.read_map(volume[at:]))
            at += volume[at + 1]
        if at > end or len(self.maps) == 2 and bool(self.maps[0]["packet"]) == bool(self.maps[1]["packet"]):
            raise VolumeFault(8)
        partitions = [block for identifier, block in described if identifier == 5]
        found = [prevailing(block for block in partitions if number(block, 22, 2) == map["number"]) for map in self.maps]
        if None in found:
            raise VolumeFault(9)
        if any(block[25:48] not in (padded(b"+NSR02"), padded(b"+NSR03")) for block in found):
            raise VolumeFault(10)
        for map, block in zip(self.maps, found):
            map["start"], map["length"] = struct.unpack_from("<II", block, 188)
        for map in self.maps:
            end = min(map["start"] + 1, map["start"] + map["length"]) if self.rules["passes"] else map["start"] + map["length"]
            if map["length"] == 0 or end > self.last + 1:
                raise VolumeFault(11)
        for map in self.maps:
            map["length"] = min(map["length"], self.last + 1 - map["start"])

    def read_map(self, data):
        """A partition map (3/10.7, UDF 2.2.9)."""
        if data[:2] == b"\1\6":
            return {"number": number(data, 4, 2), "packet": 0, "spared": {}}
        size, tables = number(data, 44, 4), [number(data, 48 + 4 * i, 4) for i in range(data[42])]
        packet = number(data, 40, 2)
        sparable = data[:2] == b"\2\x40" and data[5:28] == padded(b"*UDF Sparable Partition")
        if not sparable or not 1 <= len(tables) <= 4 or packet not in self.rules["packets"] or not 56 <= size <= 65536:
            raise VolumeFault(8)
        if any(place + -(-size // BLOCK) - 1 > self.last for place in tables):
            raise VolumeFault(8)
        return {"number": number(data, 38, 2), "packet": packet, "size": size, "tables": tables, "spared": {}}

    def newest_table(self, partition):
        """The place and the bytes of the sparing table with the greatest sequence number (UDF 2.2.11), of those that are known whole and
        have a valid tag; the first of these where several have it, or None."""
        count, found = -(-partition["size"] // BLOCK), []
        for place in partition["tables"]:
            blocks = [self.known(place + k) for k in range(count)]
            data = None if None in blocks else b"".join(blocks)[: partition["size"]]
            if data and tag_of(data, place) == 0:
                found.append((place, data))
        return max(found, key=lambda table: number(table[1], 52, 4), default=None)

    def joined_table(self, partition):
        """The place of the first block and the bytes of the sparing table that is put together from its copies."""
        taken = [[place + k for place in partition["tables"] if self.known(place + k)][:1] for k in range(-(-partition["size"] // BLOCK))]
        raise_holes(place + k for k, places in enumerate(taken) if not places for place in partition["tables"])
        return taken[0][0], b"".join(self.known(places[0]) for places in taken)[: partition["size"]]

    def read_sparing(self, partition):
        """The sparing table (UDF 2.2.11), from its newest copy or from all."""
        size, packet = partition["size"], partition["packet"]
        place, data = self.rules["newest"] and self.newest_table(partition) or self.joined_table(partition)
        if tag_of(data, place) != 0 or data[17:40] != padded(b"*UDF Sparing Table"):
            raise VolumeFault(12)
        if 56 + 8 * number(data, 48, 2) > size:
            raise VolumeFault(13)
        entries = [struct.unpack_from("<II", data, 56 + 8 * i) for i in range(number(data, 48, 2))]
        if any(original < 0xFFFFFFF0 and original % packet or 0xFFFFFFF0 < original < 0xFFFFFFFF for original, _ in entries):
            raise VolumeFault(13)
        used = {original: mapped for original, mapped in entries if original < 0xFFFFFFF0}
        if entries != sorted(entries, key=lambda entry: entry[0]) or len(used) < sum(original < 0xFFFFFFF0 for original, _ in entries):
            raise VolumeFault(14)
        if any(mapped + packet > self.last + 1 for mapped in used.values()):
            raise VolumeFault(15)
        partition["spared"] = used

    def place(self, reference, block):
        """The physical block of a logical one, or None where it has no place."""
        if block >= self.maps[reference]["length"]:
            return None
        partition = self.maps[reference]
        offset = block % partition["packet"] if partition["packet"] else 0
        return partition["spared"].get(block - offset, partition["start"] + block - offset) + offset

    def find_root(self):
        try:
            place = self.place_of(self.file_set)
        except NodeFault:
            raise VolumeFault(16)
        raise_holes([] if self.known(place) else [place])
        if tag_of(self.known(place), self.file_set.block) != 256:
            raise VolumeFault(16)
        self.root = long_address(self.known(place), 400)

    def place_of(self, address):
        """The physical block of an address of which one block is read."""
        if address.kind != 0 or address.length == 0 or address.reference >= len(self.maps):
            raise NodeFault(5)
        place = self.place(address.reference, address.block)
        if place is None:
            raise NodeFault(6)
        return place


def raise_holes(blocks):
    holes = sorted(set(blocks))
    if holes:
        raise Holes(holes)


def padded(name):
    return name.ljust(23, b"\0")


def prevailing(blocks):
    """The first of those with the greatest sequence number (3/8.4.3)."""
    return max(blocks, key=lambda block: number(block, 16, 4), default=None)

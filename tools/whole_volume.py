"""A small volume of UDF as a careful writer leaves it, which other readers of UDF read too.

It has the recognition sequence, all descriptors that the standards ask for, each with its CRC, three anchors, and a few files: embedded,
in one extent and in two, with names of both forms. Sections are those of ECMA-167, third edition, and of UDF 2.01. The same arguments
make the same bytes.
"""
import binascii
import struct

BLOCK = 2048
MAIN, RESERVE, INTEGRITY, TABLES, SPARE, START, LENGTH, LAST = 32, 96, 160, (164, 168), 192, 288, 480, 1056
ANCHORS = (256, LAST - 256, LAST)
STAMP = bytes.fromhex("0010d10707040a1e00000000")
UNICODE = b"\0OSTA Compressed Unicode".ljust(64, b"\0")


def tagged(identifier, place, revision, *parts, length=BLOCK):
    """A descriptor of these parts, each with its place, under a tag with the CRC of all that it has (3/7.2)."""
    data = bytearray(length)
    for at, content in parts:
        data[at : at + len(content)] = content
    crc = binascii.crc_hqx(bytes(data[16:length]), 0)
    data[:16] = struct.pack("<HHBBHHHI", identifier, 2 if revision < 0x200 else 3, 0, 0, 1, crc, length - 16, place)
    data[4] = sum(data[:16]) % 256
    return bytes(data)


def moved(data, place):
    """The same descriptor at another place."""
    data = data[:4] + b"\0" + data[5:12] + struct.pack("<I", place) + data[16:]
    return data[:4] + bytes([sum(data[:16]) % 256]) + data[5:]


def words(*values):
    return struct.pack("<%dI" % len(values), *values)


def halves(*values):
    return struct.pack("<%dH" % len(values), *values)


def compressed(text):
    """A name in the form of UDF 2.1.1."""
    return b"\x08" + text.encode("latin-1") if max(map(ord, text)) < 256 else b"\x10" + text.encode("utf-16-be")


def dstring(text, size):
    made = compressed(text)
    return made.ljust(size - 1, b"\0") + bytes([len(made)])


class Volume:
    """The volume in the making. What is set before `blocks` is called decides how it departs from a good one.

    `files` has the bytes of each file by its path; `kinds` the file type of some; `location` the location of a file identifier's tag,
    of the logical block, that of the ICB and the block on the disc; `short` the files of which the last extent ends where another
    length is told."""

    def __init__(self, revision=0x201, packet=0):
        self.revision, self.packet = revision, packet
        self.counts, self.start, self.length, self.main, self.reserve = (16, 16), START, LENGTH, MAIN, RESERVE
        self.kinds, self.short, self.location = {}, {}, lambda logical, icb, physical: logical
        self.spared, self.ages, self.spared_in = {}, (1, 1), ({}, {})
        self.disc = {}
        lines = b"".join(b"%d\n" % n for n in range(3000))
        self.files = {"hello.txt": b"hello, whoever reads this\n", "numbers": lines, "Preis in €": b"ein Name mit sechzehn Bits\n"}
        self.files.update({"folder/bytes.bin": bytes(n * n % 251 for n in range(20000)), "folder/empty": b"", "folder/inner/deep": lines[:4000]})

    # -- The partition

    def tagged(self, identifier, place, *parts, length=BLOCK):
        return tagged(identifier, place, self.revision, *parts, length=length)

    def regid(self, name, suffix=b""):
        return b"\0" + name.ljust(23, b"\0") + suffix.ljust(8, b"\0")

    def domain(self):
        return self.regid(b"*OSTA UDF Compliant", halves(self.revision))

    def physical(self, logical):
        """The block of a logical one, in a packet that was moved where the map says (UDF 2.2.11)."""
        offset = logical % self.packet if self.packet else 0
        return self.spared.get(logical - offset, self.start + logical - offset) + offset

    def put(self, logical, data):
        for i in range(0, len(data), BLOCK):
            self.disc[self.physical(logical + i // BLOCK)] = data[i : i + BLOCK].ljust(BLOCK, b"\0")

    def take(self, count):
        self.next += count
        return self.next - count

    def address(self, logical):
        return words(BLOCK, logical) + halves(0) + bytes(6)

    def entry(self, icb, kind, size, flags, area, links=1):
        """A file entry (4/14.9)."""
        tag = words(0) + halves(4, 0, 1) + bytes([0, kind]) + bytes(6) + halves(flags)
        parts = [(16, tag), (36, words(0xFFFFFFFF, 0xFFFFFFFF, 0x14A5) + halves(links)), (56, struct.pack("<QQ", size, -(-size // BLOCK)))]
        parts += [(72, 3 * STAMP + words(1)), (128, self.regid(b"*a careful writer"))]
        parts += [(160, struct.pack("<QII", 16 + icb, 0, len(area))), (176, area)]
        self.put(icb, self.tagged(261, icb, *parts))

    def file(self, path):
        """Puts a file there, and returns the block of its entry: a small one embedded, another one in two extents, with a gap."""
        data, icb, kind = self.files[path], self.take(1), self.kinds.get(path, 5)
        if len(data) < 100:
            self.entry(icb, kind, len(data), 0x23, data)
            return icb
        cut = -(-len(data) // BLOCK) // 2 * BLOCK
        first, _, second = self.take(cut // BLOCK), self.take(1), self.take(-(-(len(data) - cut) // BLOCK))
        self.put(first, data[:cut])
        self.put(second, data[cut:])
        rest = self.short.get(path, len(data)) - cut
        self.entry(icb, kind, len(data), 0x20, words(cut, first, rest, second))
        return icb

    def folder(self, path, icb, parent):
        """Puts a folder there with all that is in it (4/14.4)."""
        begin, names = len(path) + 1 if path else 0, {}
        for one in sorted(self.files):
            if one.startswith(path):
                names.setdefault(one[begin:].split("/")[0], one)
        listed = [(b"", 10, parent)]
        for name, one in names.items():
            if one[begin:] == name:
                listed.append((compressed(name), 0, self.file(one)))
            else:
                below = self.take(1)
                self.folder(one[: begin + len(name)], below, icb)
                listed.append((compressed(name), 2, below))
        sizes = [(38 + len(name) + 3) // 4 * 4 for name, _, _ in listed]
        block, data = self.take(-(-sum(sizes) // BLOCK)), b""
        for (name, marks, child), size in zip(listed, sizes):
            logical = block + len(data) // BLOCK
            location = self.location(logical, icb, self.physical(logical))
            unique = b"\0\0" + words(16 + child if child != 1 else 0)
            parts = (16, halves(1) + bytes([marks, len(name)])), (20, words(BLOCK, child) + halves(0) + unique), (38, name)
            data += self.tagged(257, location, *parts, length=size)
        self.put(block, data)
        self.entry(icb, 4, len(data), 0x20, words(len(data), block), 1 + sum(marks == 2 for _, marks, _ in listed))

    def file_set(self):
        """The file set descriptor (4/14.1)."""
        parts = (16, STAMP + halves(3, 3) + words(1, 1, 0, 0)), (48, UNICODE), (112, dstring("VOLUME", 128)), (240, UNICODE)
        return self.tagged(256, 0, *parts, (304, dstring("FILES", 32)), (400, self.address(1)), (416, self.domain()))

    # -- What is before and behind it

    def map(self):
        """The partition map (3/10.7.2, UDF 2.2.9)."""
        if not self.packet:
            return bytes([1, 6]) + halves(1, 0)
        numbers = halves(1, 0, self.packet) + bytes([len(TABLES), 0]) + words(BLOCK, *TABLES)
        return (bytes([2, 64, 0, 0]) + self.regid(b"*UDF Sparable Partition", halves(self.revision)) + numbers).ljust(64, b"\0")

    def described(self, reserve):
        """The descriptors of the sequence (3/8.4.2), at places that are not theirs yet; those of the reserve may differ."""
        contents = self.regid(b"+NSR02" if self.revision < 0x200 else b"+NSR03")
        writer, name, maps = self.regid(b"*a careful writer"), dstring("VOLUME", 128), self.map()
        primary = (16, words(1, 0) + dstring("VOLUME", 32) + halves(1, 1, 2, 2) + words(1, 1))
        volume_set = (72, dstring("%016X set" % self.set_number(reserve), 128))
        yield self.tagged(1, 0, primary, volume_set, (200, 2 * UNICODE), (344, self.regid(b"")), (376, STAMP), (388, writer))
        information = (20, self.regid(b"*UDF LV Info", halves(self.revision))), (52, UNICODE + name), (352, writer)
        yield self.tagged(4, 0, (16, words(2)), *information)
        yield self.tagged(5, 0, (16, words(3) + halves(1, 0) + contents), (184, words(4, self.start, self.length)), (196, writer))
        volume = (16, words(4) + UNICODE + name + words(BLOCK) + self.domain() + self.address(0) + words(len(maps), 1) + writer)
        yield self.tagged(6, 0, volume, (432, words(2 * BLOCK, INTEGRITY)), (440, maps))
        yield self.tagged(7, 0, (16, words(5, 0)))
        yield self.tagged(8, 0)

    def set_number(self, reserve):
        return 0x2001070409300000

    def integrity(self):
        """The logical volume integrity descriptor (3/10.10)."""
        counts = words(len(self.files), 3) + halves(self.revision, self.revision, self.revision)
        parts = (16, STAMP + words(1)), (40, struct.pack("<Q", 1000)), (72, words(1, 46, LENGTH - self.next, LENGTH))
        return self.tagged(9, INTEGRITY, *parts, (88, self.regid(b"*a careful writer") + counts))

    def table(self, i):
        """A copy of the sparing table (UDF 2.2.11): its entries in order, then free packets."""
        entries = sorted(self.spared_in[i].items())
        entries += [(0xFFFFFFFF, SPARE + n) for n in (0, 32) if SPARE + n not in self.spared_in[i].values()]
        parts = (16, self.regid(b"*UDF Sparing Table", halves(self.revision))), (48, halves(len(entries), 0) + words(self.ages[i]))
        return self.tagged(0, TABLES[i], *parts, (56, b"".join(words(*entry) for entry in entries)))

    def anchor(self, place):
        extents = words(self.counts[0] * BLOCK, self.main, self.counts[1] * BLOCK, self.reserve)
        return self.tagged(2, place, (16, extents), length=512).ljust(BLOCK, b"\0")

    def blocks(self):
        """All blocks of the volume that are not zero."""
        self.next = 2
        self.put(0, self.file_set())
        self.folder("", 1, 1)
        standard = b"NSR02" if self.revision < 0x200 else b"NSR03"
        for i, name in enumerate((b"BEA01", standard, b"TEA01")):
            self.disc[16 + i] = (b"\0" + name + b"\1").ljust(BLOCK, b"\0")
        for begin in self.main, self.reserve:
            for i, data in enumerate(self.described(begin == self.reserve)):
                self.disc[begin + i] = moved(data, begin + i)
        self.disc.update({INTEGRITY: self.integrity(), INTEGRITY + 1: self.tagged(8, INTEGRITY + 1)})
        self.disc.update({place: self.anchor(place) for place in ANCHORS})
        if self.packet:
            self.disc.update({place: self.table(i) for i, place in enumerate(TABLES)})
        return self.disc


def write_image(path, blocks, last=LAST):
    with open(path, "wb") as out:
        out.truncate((last + 1) * BLOCK)
        for place, content in blocks.items():
            out.seek(place * BLOCK)
            out.write(content)

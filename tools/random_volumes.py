"""Random UDF volumes of many forms, for `tools/try-second-reader`; `tools/broken_volumes.py` changes a field of them.

A volume is made with every byte of it, by a generator of random numbers, so the same numbers give the same volume. Sections are
those of ECMA-167, third edition, and of UDF 2.01.
"""
import binascii
import struct

BLOCK = 2048


def random_bytes(rng, count):
    return bytes(rng.getrandbits(8) for _ in range(count))


def put(data, at, content):
    return data[:at] + content + data[at + len(content) :]


def seal(data, version, serial, covered):
    """A descriptor with a sound tag (3/7.2): identifier and location are in it, the CRC is of this many bytes after the tag."""
    crc = binascii.crc_hqx(data[16 : 16 + covered], 0)
    tag = data[:2] + struct.pack("<HB", version, 0) + data[5:6] + struct.pack("<HHH", serial, crc, covered) + data[12:16]
    return tag[:4] + bytes([sum(tag) % 256]) + tag[5:] + data[16:]


class Disc:
    """A volume in the making. `blocks` are those that are not zero; `descriptors` says where they are, so that one can be changed.
    Where it is not `plain` a few extents end too early, a few identifiers are too long, and the sequence may have no end."""

    def __init__(self, rng, revision, kinds, packet, last, plain):
        self.rng, self.revision, self.packet, self.last, self.plain = rng, revision, packet, last, plain
        self.anchors = {256, last - 256, last}
        self.blocks, self.descriptors, self.taken = {}, [], {0} | self.anchors
        self.crc = rng.choice(("none", "whole", "mixed"))
        self.icbs, self.directories = [], []
        self.lay_out(kinds)

    # -- Where things are

    def run_of(self, count, low, high):
        """The first of `count` free blocks, which are then taken; None where there are none."""
        for _ in range(100):
            start = self.rng.randint(low, max(low, high - count))
            if start + count <= high + 1 and not any(start + i in self.taken for i in range(count)):
                self.taken.update(range(start, start + count))
                return start
        return None

    def lay_out(self, kinds):
        rng, last = self.rng, self.last
        self.count = rng.choice((16, 16, 17, 32))
        self.main, self.reserve = self.run_of(self.count, 1, 255), self.run_of(self.count, 1, 255)
        self.maps, first = [], 257 + rng.randint(0, 20)
        self.tables, self.entries = [], []
        for i, kind in enumerate(kinds):
            end = last - rng.randint(0, 60) if i + 1 == len(kinds) else (first + last) // 2 + rng.randint(-20, 20)
            packet = self.packet if kind == "sparable" else 0
            self.maps.append({"kind": kind, "start": first, "length": end - first, "spared": {}, "number": rng.choice((0, 0, i, i + 7))})
            if packet:
                self.spare(self.maps[-1], packet)
            first = end
        if len({map["number"] for map in self.maps}) < len(self.maps):
            for i, map in enumerate(self.maps):
                map["number"] = i
        for map in self.maps:
            map["free"] = [b for b in range(map["length"]) if self.place((self.maps.index(map), b)) not in self.anchors]

    def spare(self, map, packet):
        rng = self.rng
        originals = rng.sample(range(0, map["length"], packet), min(rng.randint(0, 4), -(-map["length"] // packet)))
        for original in sorted(originals):
            mapped = self.run_of(packet, 1, 255)
            if mapped is not None:
                map["spared"][original] = mapped
        self.entries = sorted(map["spared"].items())
        for unused, most in ((0xFFFFFFF0, 2), (0xFFFFFFFF, 3)):
            self.entries += [(unused, rng.randrange(400))] * rng.randint(0, most)
        size_of_entries = 56 + 8 * len(self.entries)
        self.table_size = max(size_of_entries, rng.choice((size_of_entries, 56, 2048, 2049, 4096, 5000)))
        for _ in range(rng.choice((1, 2, 2, 2, 3, 4))):
            place = self.run_of(-(-self.table_size // BLOCK), 1, 255)
            if place is not None:
                self.tables.append(place)
        if not self.tables:
            raise ValueError("no room for a sparing table")

    def place(self, address):
        """The physical block of a logical one: the packet may be spared (UDF 2.2.11)."""
        map = self.maps[address[0]]
        offset = address[1] % self.packet if map["kind"] == "sparable" else 0
        return map["spared"].get(address[1] - offset, map["start"] + address[1] - offset) + offset

    def free(self, count=1, reference=None):
        """A free logical block, the first of `count` side by side ones."""
        for _ in range(200):
            r = self.rng.randrange(len(self.maps)) if reference is None else reference
            blocks = self.maps[r]["free"]
            if len(blocks) < count:
                continue
            start = self.rng.randrange(len(blocks) - count + 1)
            if blocks[start + count - 1] - blocks[start] == count - 1:
                first = blocks[start]
                del blocks[start : start + count]
                return r, first
        raise ValueError("no room")

    # -- Descriptors

    def covered(self, length):
        return {"none": 0, "whole": length - 16, "mixed": self.rng.choice((0, length - 16, (length - 16) // 2))}[self.crc]

    def descriptor(self, kind, identifier, location, content, length=BLOCK):
        """The bytes of a descriptor with a sound tag; `content` are the bytes from 16 on."""
        data = struct.pack("<H3xB6xI", identifier, self.rng.choice((0, 0, 0, 5)), location) + content
        data = data.ljust(length, b"\0")
        used = len(content) + 16 if self.rng.random() < 0.5 else length
        return seal(data, self.rng.choice((2, 3)), self.rng.choice((0, 1, 77)), self.covered(max(16, used)))

    def write(self, kind, places, identifier, location, content):
        """A descriptor of a block, at one place or at several (copies). `location` None: each copy's own place."""
        for place in places:
            self.blocks[place] = self.descriptor(kind, identifier, place if location is None else location, content)
        self.descriptors.append((kind, [[(place, 0, BLOCK)] for place in places]))

    def write_volume(self, root):
        rng = self.rng
        extents = struct.pack("<4I", self.count * BLOCK, self.main, self.count * BLOCK, self.reserve)
        places = rng.choice(([256, self.last - 256, self.last], [256, self.last], [256, self.last - 256], [self.last], [self.last - 256, self.last]))
        self.write("anchor", places, 2, None, extents)
        file_set = self.free()
        self.write("file set", [self.place(file_set)], 256, file_set[1], bytes(384) + self.address(root))
        described = [("logical volume", 6, self.logical_volume(rng.randint(1, 9), file_set))]
        described += [("partition", 5, self.partition(map, rng.randint(1, 9))) for map in self.maps]
        described += [("other", rng.choice((1, 4, 7, 9, 4)), random_bytes(rng, 40)) for _ in range(rng.randint(0, 4))]
        if rng.random() < 0.3:  # an older one, which does not prevail
            described.append(("logical volume", 6, put(self.logical_volume(0, file_set), 196 - 16, random_bytes(rng, 8))))
        if rng.random() < 0.3:
            described.append(("partition", 5, self.partition(dict(rng.choice(self.maps), start=1, length=5), 0)))
        rng.shuffle(described)
        if self.plain or rng.random() < 0.8:
            described.append(("other", 8, b""))
        for i, (kind, identifier, content) in enumerate(described[: self.count]):
            self.write(kind, [self.main + i, self.reserve + i], identifier, None, content)
        if self.tables:
            self.write_tables()

    def write_tables(self):
        content = b"\0" + b"*UDF Sparing Table".ljust(23, b"\0") + bytes(8) + struct.pack("<HHI", len(self.entries), 0, self.rng.randrange(9))
        content += b"".join(struct.pack("<II", *entry) for entry in self.entries)
        copies = []
        for table in self.tables:
            data = self.descriptor("sparing table", 0, table, content, self.table_size)
            data = data.ljust(-(-len(data) // BLOCK) * BLOCK, b"\0")
            copies.append([])
            for k in range(len(data) // BLOCK):
                self.blocks[table + k] = data[k * BLOCK : (k + 1) * BLOCK]
                copies[-1].append((table + k, 0, min(BLOCK, self.table_size - k * BLOCK)))
        self.descriptors.append(("sparing table", copies))

    def address(self, address, length=BLOCK):
        return struct.pack("<IIH6x", length, address[1], address[0])

    def logical_volume(self, number, file_set):
        rng = self.rng
        maps = b""
        for map in self.maps:
            if map["kind"] == "type1":
                maps += struct.pack("<BBHH", 1, 6, rng.choice((0, 1)), map["number"])
            else:
                tables = b"".join(struct.pack("<I", place) for place in self.tables)
                numbers = 1, map["number"], self.packet, len(self.tables), 0, self.table_size
                sparable = struct.pack("<BBHB23s8xHHHBBI", 2, 64, 0, 0, b"*UDF Sparable Partition", *numbers)
                maps += (sparable + tables).ljust(64, b"\0")
        label = rng.choice((b"", b"\x08TEST", b"\x08" + random_bytes(rng, 6), b"\x10" + random_bytes(rng, 8), b"\x10abc", b"\x09x", b"\x08/.\\"))
        content = struct.pack("<I64x", number) + label.ljust(127, b"\0") + bytes([len(label)]) + struct.pack("<I", BLOCK)
        content += b"\0" + b"*OSTA UDF Compliant".ljust(23, b"\0") + struct.pack("<H6x", self.revision) + self.address(file_set)
        content += struct.pack("<II", len(maps) + rng.choice((0, 0, 5)), len(self.maps)) + bytes(168) + maps
        return content

    def partition(self, map, number):
        contents = b"\0" + self.rng.choice((b"+NSR02", b"+NSR03")).ljust(23, b"\0") + bytes(8)
        return struct.pack("<IHH", number, 1, map["number"]) + contents + bytes(188 - 56) + struct.pack("<II", map["start"], map["length"])

    # -- Files and directories

    def entry(self, kind, body, icb):
        """A file entry or extended entry (4/14.9, 4/14.17). `body` is form, size and the bytes of the descriptors."""
        rng = self.rng
        form, size, area, extended, attributes = body
        head = struct.pack("<IHHHBBIHH", 0, 4, 0, 1, 0, kind, 0, 0, form | rng.choice((0, 0, 0x20, 0x200, 8)))
        times = self.time()
        if extended:
            content = head + bytes(20) + struct.pack("<QQQ", size, size, 0) + self.time() + times
            content = content[: 208 - 16].ljust(208 - 16, b"\0") + struct.pack("<II", attributes, len(area)) + random_bytes(rng, attributes) + area
            self.write("extended entry", [self.place(icb)], 266, icb[1], content)
        else:
            content = head + bytes(20) + struct.pack("<QQ", size, 0) + self.time() + times
            content = content[: 168 - 16].ljust(168 - 16, b"\0") + struct.pack("<II", attributes, len(area)) + random_bytes(rng, attributes) + area
            self.write("file entry", [self.place(icb)], 261, icb[1], content)

    def time(self):
        rng = self.rng
        if rng.random() < 0.6:
            date = 0x1000 | rng.choice((0, 60, 0xED4, 0x801)), rng.randint(1, 9998), rng.randint(1, 12), rng.randint(1, 28)
            return struct.pack("<Hh8B", *date, *(rng.randrange(n) for n in (24, 60, 60, 100, 100, 100)))
        offset = rng.choice((0, 60, -300, 1440, -1440, -2047, rng.randint(-2048, 2047)))
        kind = rng.choice((1, 1, 1, 1, 0, 2)) << 12 | offset & 0xFFF
        year = rng.choice((2001, 1999, 1, 9998, 0, 9999, 5000, 4999, -1, rng.randint(1, 9998)))
        date = rng.choice(((7, 4), (2, 29), (12, 31), (1, 1), (13, 1), (rng.randint(1, 12), rng.randint(1, 31))))
        some = rng.randint(0, 23), rng.randint(0, 59), rng.randint(0, 60)
        clock = rng.choice(((10, 30, 0), (23, 59, 59), (0, 0, 0), (24, 0, 0), (12, 60, 1), some))
        parts = rng.choice(((0, 0, 0), (99, 99, 99), (100, 0, 0), (rng.randint(0, 100), rng.randint(0, 99), rng.randint(0, 99))))
        return struct.pack("<Hh8B", kind, year, *date, *clock, *parts)

    def extents(self, size, form, reference, zeros, tail):
        """The extents of a body of so many bytes, each as its type, its length, its address and the bytes that it has of the body."""
        rng, left, made = self.rng, size, []
        while left:
            blocks = -(-left // BLOCK)
            some = rng.choice((1, 1, 2, 3, blocks, blocks)) if len(made) < 60 else blocks
            used = min(left, some * BLOCK)
            length = used if used < left else rng.choice((used, used, -(-used // BLOCK) * BLOCK, -(-used // BLOCK) * BLOCK + BLOCK))
            if used == left and tail and used % BLOCK > 1:
                length = used // BLOCK * BLOCK + rng.randint(1, used % BLOCK - 1)
            kind = rng.choice((0, 0, 1, 2)) if zeros else 0
            where = self.free(-(-used // BLOCK), reference if form == 0 else None) if kind == 0 else (rng.choice((0, 1, 9)), rng.randrange(9000))
            made.append((kind, length, where, used))
            left -= used
        return made

    def body(self, size, icb, zeros):
        """Room for a body of an entry at this address: form, size, descriptors, whether the entry is extended, the bytes of
        attributes, and where the bytes go: a list of logical blocks (None: zeros) with how many bytes each."""
        rng = self.rng
        form, extended, attributes = rng.choice((0, 0, 1, 1, 3)), rng.random() < 0.4, rng.choice((0, 0, 0, 4, 100))
        room = BLOCK - (216 if extended else 176) - attributes
        if form == 3 and size <= room:
            return form, size, None, extended, attributes, [(icb, size)]
        form = form if form < 3 else 0
        extents = self.extents(size, form, icb[0], zeros, not self.plain and rng.random() < 0.05)
        parts = [(where if kind == 0 else None, min(BLOCK, used - i)) for kind, _, where, used in extents for i in range(0, used, BLOCK)]
        steps = [i for _, _, _, used in extents for i in range(-(-used // BLOCK))]
        parts = [((where[0], where[1] + step), used) if where else (None, used) for (where, used), step in zip(parts, steps)]
        codes = [self.code(form, kind, length, where) for kind, length, where, _ in extents]
        behind = rng.choice((0, 0, 0, 1, 2, 3))
        codes += [self.code(form, rng.randrange(4), 0, (rng.randrange(3), rng.randrange(99)))] * (behind == 1)
        codes += [self.code(form, rng.randrange(3), rng.randrange(1 << 30), (7, rng.getrandbits(32)))] * (behind == 2)
        codes += [self.code(form, 3, BLOCK, (0, 0xFFFFFF))] * (behind == 3)
        return form, size, self.chained(codes, form, icb, room), extended, attributes, parts

    def code(self, form, kind, length, where):
        head = struct.pack("<II", kind << 30 | length, where[1])
        return head if form == 0 else head + struct.pack("<H6x", where[0])

    def chained(self, codes, form, icb, room):
        """The descriptors of the entry, with as many continuations (4/14.5) as the others fill."""
        rng, width = self.rng, 8 if form == 0 else 16
        most = room // width if rng.random() < 0.6 else rng.randint(1, 4)
        if len(codes) <= min(most, room // width):
            return b"".join(codes) + (rng.choice((0, 0, 3)) * bytes(width) if len(codes) + 3 <= room // width else b"")
        areas = [codes[: most - 1]]
        codes = codes[most - 1 :]
        while codes:
            count = rng.choice((0, 1, 2, 5, 100)) if len(areas) < 20 else 100
            areas.append(codes[:count])
            codes = codes[count:]
        following = b""
        for area in reversed(areas):
            data = b"".join(area) + following
            if area is areas[0]:
                return data
            where = self.free(1, icb[0] if form == 0 else None)
            self.write("continuation", [self.place(where)], 258, where[1], struct.pack("<II", 0, len(data)) + data)
            following = self.code(form, 3, rng.choice((BLOCK, 24 + len(data))), where)

    def file(self, icb, kind=None):
        rng = self.rng
        kind = kind or rng.choice((5, 5, 5, 5, 5, 5, 0, 249, 12, 7, 1))
        size = rng.choice((0, 1, rng.randint(2, 300), 2047, 2048, 2049, 4096, rng.randint(3000, 20000)))
        *body, parts = self.body(size, icb, rng.random() < 0.3)
        if body[2] is None:
            body[2] = random_bytes(rng, size) + rng.choice((b"", b"", bytes(8)))
        else:
            for where, used in parts:
                if where:
                    self.blocks[self.place(where)] = random_bytes(rng, 16) * 128
        self.entry(kind, body, icb)
        self.icbs.append(icb)

    def name(self):
        rng = self.rng
        form = rng.randrange(12)
        if form < 6:
            return b"\x08" + bytes(rng.choice(b"ABCdef01. _-~") for _ in range(rng.randint(1, 12)))
        if form == 6:
            return b"\x08" + bytes(rng.randrange(256) for _ in range(rng.randint(1, 20)))
        if form < 9:
            units = [rng.choice((0x41, 0x20AC, 0x3042, 0xFFFF, 0xFB01, rng.randrange(65536))) for _ in range(rng.randint(1, 12))]
            return b"\x10" + b"".join(struct.pack(">H", unit) for unit in units)
        if form == 9:
            return b"\x10" + b"".join(struct.pack(">H", rng.randint(0xD7F0, 0xE010)) for _ in range(rng.randint(1, 6)))
        long = b"\x08" + b"n" * rng.choice((126, 253, 254))
        return rng.choice((b"\x08.", b"\x08..", b"\x10\0.\0.", b"\x08...", b"\x08/", b"\x08\\u0041", long, b"\x10" + b"\x30\x42" * 126))

    def directory(self, icb, parent, listed):
        """A directory of these entries, each a name, characteristics and the address of its ICB, with the parent and deleted ones."""
        rng = self.rng
        identifiers = [] if rng.random() < 0.05 else [(b"", 8 | 2, parent, rng.choice((0, 0, 4)))]
        for name, marks, where in listed:
            use = rng.choice((0, 0, 4, 32, 33, rng.randint(0, 700)))
            if not self.plain and rng.random() < 0.01:  # as long as an identifier may be, or longer
                use = rng.choice((2010, 2011)) - len(name)
            identifiers.append((name, marks, where, use))
            if rng.random() < 0.15:
                identifiers.append((self.name(), 4 | rng.choice((0, 1, 2, 16, 32)), rng.choice(self.icbs + [icb]), rng.choice((0, 40))))
        sizes = [(38 + len(name) + use + 3) // 4 * 4 for name, _, _, use in identifiers]
        *body, parts = self.body(sum(sizes), icb, False)
        self.parts = parts
        data, pieces, at = b"", [], 0
        for (name, marks, where, use), size in zip(identifiers, sizes):
            first, _ = self.find(parts, at)
            content = struct.pack("<HBB", 1, marks, len(name)) + self.address(where) + struct.pack("<H", use) + random_bytes(rng, use) + name
            data += self.descriptor("identifier", 257, first[1], content, size)
            pieces.append((at, size))
            at += size
        if body[2] is None:
            body[2] = data
            self.entry(4, body, icb)
            fixed = (216 if body[3] else 176) + body[4]
            self.descriptors += [("identifier", [[(self.place(icb), fixed + at, size)]]) for at, size in pieces]
            return
        begin = 0
        for where, used in parts:
            self.blocks[self.place(where)] = data[begin : begin + used].ljust(BLOCK, b"\0")
            begin += used
        for at, size in pieces:
            where, offset = self.find(parts, at)
            spans, place = [], self.place(where)
            spans.append((place, offset, min(size, BLOCK - offset)))
            if spans[0][2] < size:
                spans.append((self.place(self.find(parts, at + spans[0][2])[0]), 0, size - spans[0][2]))
            self.descriptors.append(("identifier", [spans]))
        self.entry(4, body, icb)

    def find(self, parts, at):
        """The logical block that holds this byte of a body, and the byte's place in it."""
        for where, used in parts:
            if at < used:
                return where, at
            at -= used

    def tree(self, icb, parent, depth, room):
        """A directory at this address with files and directories below it."""
        rng, listed, names = self.rng, [], set()
        self.directories.append(icb)
        for _ in range(rng.choice((0, 1, 2, 3, 5, 8)) if depth else rng.randint(1, 8)):
            name = self.name()
            if name in names and rng.random() < 0.9:
                continue
            names.add(name)
            marks = rng.choice((0, 0, 0, 1, 16, 224))
            if self.icbs and rng.random() < 0.08:
                where = rng.choice(self.icbs)
            elif rng.random() < 0.01:
                where = rng.choice(self.directories)  # maybe one that it is in
            else:
                where = self.free()
                if rng.random() < 0.3 and depth < 4:
                    self.tree(where, icb, depth + 1, room)
                else:
                    self.file(where)
            listed.append((name, marks | 2 * rng.randrange(2), where))
        self.directory(icb, parent, listed)

    def chain(self, root, length, names):
        """So many directories in one another below the root, the last one with so many names of one file."""
        icbs = [root] + [self.free() for _ in range(length)]
        last = self.free()
        self.file(last, 5)
        for i, icb in enumerate(icbs):
            listed = [(b"\x08d", 2, icbs[i + 1])] if i < length else [(b"\x08name %d" % n, 0, last) for n in range(names)]
            self.directory(icb, icbs[max(0, i - 1)], listed)

    def continued(self, icb, count):
        """A file of one block, whose only extent comes after so many continuations."""
        blocks = [self.free(1, icb[0]) for _ in range(count)]
        content = self.free(1, icb[0])
        self.blocks[self.place(content)] = random_bytes(self.rng, BLOCK)
        following = self.code(0, 0, BLOCK, content)
        for where in reversed(blocks):
            self.write("continuation", [self.place(where)], 258, where[1], struct.pack("<II", 0, len(following)) + following)
            following = self.code(0, 3, BLOCK, where)
        self.entry(5, (0, BLOCK, following, False, 0), icb)


def make(rng, wide, kinds=None):
    """A random volume, sound but for the names and addresses that are chosen anyhow; with these kinds of maps, if they are given."""
    while True:
        try:
            return make_once(rng, wide, kinds)
        except ValueError:
            continue


def bounds(rng):
    """Volumes at the bounds of paths and of continuations, each with what it has, and the blocks of its last directory."""
    for length in (63, 64, 65):
        for names in (0, 1, 60):
            disc = Disc(rng, 0x150, ["type1"], 32, 900, True)
            root = disc.free()
            disc.chain(root, length, names)
            disc.write_volume(root)
            yield "%d directories in one another, %d names in the last" % (length, names), disc, [disc.place(where) for where, _ in disc.parts]
    for count in (255, 256, 257):
        disc = Disc(rng, 0x150, ["type1"], 32, 1200, True)
        root, file = disc.free(), disc.free()
        disc.continued(file, count)
        disc.directory(root, root, [(b"\x08name", 0, file)])
        disc.write_volume(root)
        yield "a file of %d continuations" % count, disc, []
    for rest in (37, 38, 39, 40):
        disc = Disc(rng, 0x150, ["type1"], 32, 900, True)
        root, first = disc.free(), disc.free(2)
        name = struct.pack("<HBB", 1, 0, 2) + disc.address(root) + struct.pack("<H", 2008) + bytes(2008) + b"\x08a"
        disc.blocks[disc.place(first)] = disc.descriptor("identifier", 257, first[1], name)
        disc.entry(4, (0, BLOCK + rest, disc.code(0, 0, 2 * BLOCK, first), False, 0), root)
        disc.write_volume(root)
        yield "a directory of one block and %d unknown bytes" % rest, disc, []
    for places in ((256, 500), (500, 756), (756, 500), (500, 256)):  # of two anchors that differ one is taken
        disc = Disc(rng, 0x150, ["type1"], 32, 756, True)
        root = disc.free()
        disc.directory(root, root, [])
        disc.write_volume(root)
        for place, size in zip(places, (disc.count * BLOCK, BLOCK)):
            extents = struct.pack("<4I", size, disc.main, size, disc.reserve)
            disc.blocks[place] = disc.descriptor("anchor", 2, place, extents)
        disc.blocks = {n: content for n, content in disc.blocks.items() if n not in disc.anchors or n in places}
        yield "an anchor of %d and another one of %d" % places, disc, []
    for more in (1, 2):  # 65,535 paths and so many more
        disc = Disc(rng, 0x150, ["type1"], 32, 900, True)
        icbs = [disc.free() for _ in range(17)]
        disc.file(icbs[16], 5)
        for i, icb in enumerate(icbs[:16]):
            listed = [(name, 2, icbs[i + 1]) for name in (b"\x08a", b"\x08b") if i < 15]
            disc.directory(icb, icbs[max(0, i - 1)], listed + [(b"\x08%d" % n, 0, icbs[16]) for n in range(more) if i == 0])
        disc.write_volume(icbs[0])
        yield "%d paths" % (65535 + more), disc, []


def make_once(rng, wide, kinds):
    revision = rng.choice((0x150, 0x150, 0x201, 0x201) + ((0x102, 0x200) if wide else ()) + ((0x102, 0x250) if rng.random() < 0.05 else ()))
    packet = rng.choice((1, 2, 4, 8, 16, 32, 64) if wide else (16, 32, 32, 32))
    plain = kinds is not None or rng.random() < 0.2
    kinds = kinds or rng.choice((["type1"], ["type1"], ["sparable"], ["sparable"], ["type1", "sparable"], ["sparable", "type1"]))
    disc = Disc(rng, revision, kinds, packet, rng.randint(640, 900), plain)
    root = disc.free()
    if rng.random() < 0.05:
        disc.plain = True
        disc.chain(root, rng.randint(62, 65), rng.choice((0, 1, 1, 60)))
    else:
        disc.tree(root, root, 0, 60)
    for _ in range(rng.choice((0, 0, 0, 1, 2))):
        disc.file(disc.free())
    disc.write_volume(root)
    for map in disc.maps:  # what was in a spared packet before it was
        for original in map["spared"]:
            for block in range(original, min(original + packet, map["length"])):
                if map["start"] + block not in disc.anchors:
                    disc.blocks[map["start"] + block] = rng.choice((b"\xff" * BLOCK, rng.choice(sorted(disc.blocks.items()))[1]))
    return disc

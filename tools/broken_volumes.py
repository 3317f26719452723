"""Volumes of `tools/random_volumes.py` of which a field is changed: to a bound of what is taken, or to anything; or more, in one way.

Each descriptor of a volume is known by its kind and by where its copies are, each in one piece or in two. A change goes to all
copies or to one, and mostly its tag is made sound again. Sections are those of ECMA-167, third edition, and of UDF 2.01.
"""
import binascii
import struct

from random_volumes import BLOCK, put, seal

# Fields of descriptors, their places and sizes, which are changed to anything. Those of the tag are in all of them.
TAG_FIELDS = [(0, 2), (2, 2), (4, 1), (6, 2), (8, 2), (10, 2), (12, 4)]
FIELDS = {
    "anchor": [(16, 4), (20, 4), (24, 4), (28, 4)],
    "partition": [(16, 4), (22, 2), (24, 1), (25, 1), (30, 1), (31, 1), (188, 4), (192, 4)],
    "logical volume": [(16, 4), (84, 1), (86, 1), (211, 1), (212, 4), (217, 1), (239, 1), (240, 2), (248, 4), (252, 4), (256, 2), (264, 4), (268, 4)]
    + [(at, 1) for at in range(440, 510)],
    "other": TAG_FIELDS,
    "sparing table": [(17, 1), (35, 1), (48, 2), (52, 4)] + [(at, 4) for at in range(56, 84, 4)],
    "file set": [(400, 4), (404, 4), (408, 2)],
    "file entry": [(20, 2), (27, 1), (34, 2), (56, 4), (60, 4), (168, 4), (172, 4)]
    + [(at, 1) for at in range(84, 96)]
    + 3 * [(at, 4) for at in range(176, 224, 4)],
    "extended entry": [(20, 2), (27, 1), (34, 2), (56, 4), (60, 4), (208, 4), (212, 4)]
    + [(at, 1) for at in range(92, 104)]
    + 3 * [(at, 4) for at in range(216, 264, 4)],
    "continuation": [(16, 4), (20, 4)] + [(at, 4) for at in range(24, 64, 4)],
    "identifier": 3 * [(18, 1), (19, 1), (20, 4), (24, 4), (28, 2), (36, 2)] + [(at, 1) for at in range(38, 46)],
}


def change(disc):
    """Changes one field of one descriptor."""
    rng = disc.rng
    kinds = sorted({kind for kind, _ in disc.descriptors})
    kind = rng.choice(kinds + 2 * [kind for kind in kinds if kind in ("identifier", "file entry", "extended entry", "continuation")])
    copies = rng.choice([copies for what, copies in disc.descriptors if what == kind])
    old = gather(disc, copies[0])
    bounds = bounds_of(disc, kind, old)
    if bounds and rng.random() < 0.7:
        at, new, exact = rng.choice(bounds) + (True,)
    else:
        at, size = rng.choice(FIELDS[kind] if rng.random() < 0.85 else TAG_FIELDS)
        new, exact = anything(rng, int.from_bytes(old[at : at + size], "little"), size), False
    sound, chosen = exact or rng.random() < 0.85, copies if exact or rng.random() < 0.7 else [rng.choice(copies)]
    for copy in chosen:
        before = gather(disc, copy)
        scatter(disc, copy, mended(put(before, at, new)[: len(before)], at) if sound else put(before, at, new)[: len(before)])


def each_bound(disc):
    """Changes fields of a volume one after the other, each to all its bounds, and says which; all copies are changed, and all is as it
    was when the next one comes. Of entries, continuations and identifiers two are taken, of other descriptors all."""
    sound = dict(disc.blocks)
    for kind in FIELDS:
        found = [copies for what, copies in disc.descriptors if what == kind]
        few = kind in ("identifier", "file entry", "extended entry", "continuation")
        if few:
            found = sorted(found, key=lambda copies: len(bounds_of(disc, kind, gather(disc, copies[0]))))
            found = found[len(found) // 2 :: max(1, len(found) // 2)][:2]
        for copies in found:
            for at, new in bounds_of(disc, kind, gather(disc, copies[0])):
                write_into(disc, copies, at, new)
                yield "%s of block %d, %s at %d" % (kind, copies[0][0][0], new[:8].hex(), at)
                disc.blocks = dict(sound)


def depart(disc):
    """Changes a volume as its writer, a drive or a crash may have left it."""
    disc.rng.choice(DEPARTURES)(disc)


def tell_elsewhere(disc):
    """The tags of all file identifiers have location 0, that of the identifier's own ICB, or the number of the block on the disc."""
    way = disc.rng.randrange(3)
    for kind, copies in disc.descriptors:
        if kind == "identifier":
            write_into(disc, copies, 12, (bytes(4), gather(disc, copies[0])[24:28], struct.pack("<I", copies[0][0][0]))[way])


def give_age(disc):
    """A copy of the sparing table has another sequence number than the others (UDF 2.2.11), and an entry that is not used."""
    for kind, copies in disc.descriptors:
        if kind == "sparing table":
            copy, rng = disc.rng.choice(copies), disc.rng
            before = gather(disc, copy)
            data = put(before, 52, struct.pack("<I", rng.choice((0, 1, 9, number_of(before, 52, 4) + 1, 0xFFFFFFFF))))
            if number_of(data, 48, 2) and rng.random() < 0.8:
                data = put(data, 48, struct.pack("<H", number_of(data, 48, 2) - 1))
            scatter(disc, copy, mended(data, 52))


def blank_sequence(disc):
    """Some blocks of the main or of the reserve sequence, or all, are blank."""
    begin, rng = disc.rng.choice((disc.main, disc.main, disc.reserve)), disc.rng
    first = rng.choice((0, 0, 1, 2, rng.randrange(disc.count)))
    for i in range(first, rng.choice((disc.count, first + 1))):
        disc.blocks[begin + i] = bytes(BLOCK)


def exchange_extents(disc):
    """One of the anchors names the two extents of the sequence in the other order (3/10.2)."""
    anchor = disc.rng.choice(next(copies for kind, copies in disc.descriptors if kind == "anchor"))
    data = gather(disc, anchor)
    scatter(disc, anchor, mended(put(data, 16, data[24:32] + data[16:24]), 16))


DEPARTURES = [tell_elsewhere, give_age, blank_sequence, exchange_extents]


def write_into(disc, copies, at, new):
    """Changes all copies of a descriptor, and makes their tags sound."""
    for copy in copies:
        before = gather(disc, copy)
        scatter(disc, copy, mended(put(before, at, new)[: len(before)], at))


def anything(rng, old, size):
    near = old + 1, old - 1, old + BLOCK, old * 2, old ^ 1 << rng.randrange(8 * size), 1 << 30 | old
    new = rng.choice((0, 1, 2, 3, 4, -1, BLOCK, rng.getrandbits(8 * size), rng.randrange(700)) + near)
    return (new % (1 << 8 * size)).to_bytes(size, "little")


def mended(data, at):
    """The descriptor with the checksum and the CRC of its bytes, but that what was changed stays."""
    if at == 4:
        return data
    if at in (8, 10):
        return data[:4] + bytes([(sum(data[:4]) + sum(data[5:16])) % 256]) + data[5:]
    version, serial, covered = (struct.unpack_from("<H", data, place)[0] for place in (2, 6, 10))
    return seal(data, version, serial, min(covered, max(0, len(data) - 16)))


def gather(disc, copy):
    return b"".join(disc.blocks[place][at : at + size] for place, at, size in copy)


def scatter(disc, copy, data):
    for place, at, size in copy:
        disc.blocks[place] = put(disc.blocks[place], at, data[:size])
        data = data[size:]


# ---- Bounds: what is just taken and what is just not, each as a place and the bytes that come there

def words(at, *values):
    return [(at, struct.pack("<I", value % (1 << 32))) for value in values]


def halves(at, *values):
    return [(at, struct.pack("<H", value % (1 << 16))) for value in values]


def octets(at, *values):
    return [(at, bytes([value % 256])) for value in values]


def number_of(data, at, size):
    return int.from_bytes(data[at : at + size], "little")


def bounds_of(disc, kind, data):
    bounds = {
        "anchor": of_anchor,
        "partition": of_partition,
        "logical volume": of_logical_volume,
        "sparing table": of_sparing_table,
        "file set": lambda disc, data: of_address(disc, data, 400) + halves(0, 257, 0),
        "file entry": lambda disc, data: of_entry(disc, data, 176, 84),
        "extended entry": lambda disc, data: of_entry(disc, data, 216, 92),
        "continuation": of_continuation,
        "identifier": of_identifier,
        "other": lambda disc, data: halves(0, 3, 3, 8, 2, 256),
    }
    return bounds[kind](disc, data)


def of_anchor(disc, data):
    size, main, _, reserve = struct.unpack_from("<4I", data, 16)
    sizes = [(n, main, n, reserve) for n in (0, BLOCK, 15 * BLOCK, 16 * BLOCK, 256 * BLOCK, 257 * BLOCK, size + 1)]
    sizes += [each for n in (BLOCK, 3 * BLOCK, 0) for each in ((n, main, size, reserve), (size, main, n, reserve))]
    ends = [disc.last + 1 - size // BLOCK + i for i in (0, 1)]
    extents = sizes + [(size, main, size, end) for end in ends] + [(size, end, size, reserve) for end in ends] + [(size, main, size + BLOCK, reserve)]
    return [(16, struct.pack("<4I", *each)) for each in extents]


def of_partition(disc, data):
    start, length = struct.unpack_from("<II", data, 188)
    ranges = words(192, disc.last + 1 - start, disc.last + 2 - start, 0, 1, -1)
    ranges += words(188, disc.last + 1 - length, disc.last + 2 - length, disc.last, disc.last + 1)
    return ranges + [(25, b"+NSR04"), (25, b"+NSR02\1"), (25, b"+NSR03")]


def of_logical_volume(disc, data):
    kinds = [map["kind"] for map in disc.maps]
    used = sum(6 if kind == "type1" else 64 for kind in kinds)
    bounds = words(268, 0, 1, 2, 3) + words(264, used, used - 1, 0) + words(212, 512, 4096) + octets(211, 1, 2, 126, 127, 128)
    bounds += halves(240, 0xff, 0x100, 0x101, 0x102, 0x150, 0x200, 0x201, 0x250, 0x260) + of_address(disc, data, 248)
    bounds.append((264, struct.pack("<II", 12, 2) + bytes(168) + struct.pack("<BBHH", 1, 6, 1, 0) + struct.pack("<BBHH", 1, 6, 1, 0)))
    if "sparable" in kinds:
        at = 440 + (6 if kinds[0] == "type1" else 0)
        blocks = -(-disc.table_size // BLOCK)
        bounds += halves(at + 40, 0, 1, 2, 3, 8, 16, 24, 32, 64, 128, 256) + octets(at + 42, 0, 1, 3, 4, 5) + words(at + 44, 55, 56, 57, 65536, 65537)
        bounds += [bound for i in range(len(disc.tables)) for bound in words(at + 48 + 4 * i, disc.last + 1 - blocks, disc.last + 2 - blocks)]
        bounds.append((264, struct.pack("<II", 128, 2) + bytes(168) + 2 * data[at : at + 64]))
        bounds += octets(at, 1, 3) + octets(at + 1, 6, 63) + [(at + 5, b"*UDF Virtual Partition")]
    return bounds


def of_sparing_table(disc, data):
    count, most, packet = len(disc.entries), (disc.table_size - 56) // 8, disc.packet
    bounds = halves(48, most, most + 1, max(0, count - 1)) + halves(0, 1, 266) + [(17, b"*UDF Sparing Tables")]
    for i in range(count):
        original, mapped = struct.unpack_from("<II", data, 56 + 8 * i)
        bounds += words(56 + 8 * i, 0xFFFFFFF0, 0xFFFFFFF1, 0xFFFFFFFE, 0xFFFFFFFF, original + 1, original - packet, 0, original + packet)
        bounds += words(60 + 8 * i, disc.last + 1 - packet, disc.last + 2 - packet)
    return bounds


def of_address(disc, data, at):
    """An address of a single block (4/14.14.2): its type, its length, its reference and its block."""
    reference = struct.unpack_from("<H", data, at + 8)[0]
    length = disc.maps[reference]["length"] if reference < len(disc.maps) else 1
    bounds = words(at, 0, 1, 1 << 30 | BLOCK, 3 << 30 | BLOCK, 1 << 30) + words(at + 4, length, length - 1, length + 1)
    return bounds + halves(at + 8, len(disc.maps), len(disc.maps) - 1, 0)


def of_entry(disc, data, fixed, time):
    attributes, descriptors = struct.unpack_from("<II", data, fixed - 8)
    size = int.from_bytes(data[56:64], "little")
    bounds = halves(20, 3, 4096) + octets(34, *range(8)) + octets(27, 0, 4, 5, 6, 12, 249, 250)
    bounds += words(56, size + 1, size - 1, size + 37, size + 38, size + 40, size + BLOCK)
    room = BLOCK - fixed
    bounds += words(fixed - 8, room - descriptors, room - descriptors + 1)
    bounds += words(fixed - 4, room - attributes, room - attributes + 1, descriptors + 4, descriptors - 8, 0)
    bounds += [(fixed - 8, struct.pack("<II", room % 16, room - room % 16)), (fixed - 8, struct.pack("<II", room % 16 + 1, room - room % 16))]
    bounds += halves(time, 0x1000, 0x15A0, 0x15A1, 0x1A60, 0x1A5F, 0x1801, 0x1800) + halves(time + 2, 0, 1, 9998, 9999)
    bounds += octets(time + 8, 59, 60) + octets(time + 11, 99, 100)
    return bounds + of_descriptors(disc, data, fixed + attributes, descriptors, data[34] & 7)


def of_continuation(disc, data):
    length = struct.unpack_from("<I", data, 20)[0]
    bounds = words(20, 2016, 2024, 2025, 2032, length + 4, length + 16, length - 8, 0) + halves(0, 261, 257)
    return bounds + of_descriptors(disc, data, 24, length, 0) + of_descriptors(disc, data, 24, length, 1)


def of_descriptors(disc, data, begin, length, form):
    """Allocation descriptors (4/14.14): of each its type, its length, its block and its reference."""
    width, bounds = (8 if form == 0 else 16), []
    places = list(range(begin, min(begin + length, BLOCK - 15), width)) if form in (0, 1) else []
    for at in sorted(set(places[:1] + places[-3:])):
        code, block = struct.unpack_from("<II", data, at)
        kind, size = code >> 30, code & 0x3FFFFFFF
        reference = struct.unpack_from("<H", data, at + 8)[0] if form == 1 else 0
        room = disc.maps[reference if reference < len(disc.maps) else 0]["length"]
        bounds += words(at, *(other << 30 | size for other in range(4))) + words(at, kind << 30, kind << 30 | size + 1, kind << 30 | size - 1)
        bounds += words(at, kind << 30 | 2048, kind << 30 | 2049) + words(at + 4, *(room - -(-size // BLOCK) + i for i in (0, 1)))
        bounds += halves(at + 8, len(disc.maps), len(disc.maps) - 1) if form == 1 else []
    return bounds


def of_tag(data):
    """What a sound tag has beside its location (3/7.2): checksum, version, CRC, and the bytes that it is of."""
    room = len(data) - 16
    crcs = [(8, struct.pack("<HH", binascii.crc_hqx(data[16 : 16 + size], 0), size)) for size in (0, 1, room, room + 1)]
    return octets(4, data[4] ^ 1) + halves(2, 1, 2, 3, 4) + halves(8, number_of(data, 8, 2) ^ 1) + crcs


def of_identifier(disc, data):
    name, use, icb = data[19], struct.unpack_from("<H", data, 36)[0], data[24:28]
    bounds = [(12, icb)] + words(12, 0, -1, *(number_of(data, 12, 4) + near for near in (1, disc.maps[0]["start"]))) + of_tag(data)
    bounds += octets(18, 0, 1, 4, 8, 12, 2) + octets(19, 0, 1, name + 1, name - 1, name + 4, 255)
    bounds += halves(36, use + 1, use + 4, use - 4, 2010 - name, 2011 - name)
    return bounds + of_address(disc, data, 20) + octets(38 + use, 8, 16, 9, 0) + halves(0, 256, 258)

"""Volumes that depart from the rules in one way each, as writers, drives and crashes leave them: for `tools/try-departures`.

Each is the volume of `tools/whole_volume.py` with one change. Sections are those of ECMA-167, third edition, and of UDF 2.01.
"""
import collections
import hashlib

from whole_volume import ANCHORS, BLOCK, LAST, LENGTH, MAIN, SPARE, START, TABLES, Volume, tagged

# `strict` begins a line of the report by the strict rules; `files` are those that the wide rules have to find whole, with their bytes, and
# `kept` those that the strict rules write where the volume is whole by them (None: it is not). `said` are the lines on copies that differ
# which the summary by the wide rules has, if the program has such lines.
Departure = collections.namedtuple("Departure", "name strict blocks files kept said")
DESCRIPTORS = "copies of the volume's descriptors differ"


def digests(files):
    """The SHA-256 of each file by its path, and None by that of each folder."""
    folders = {path[:at]: None for path in files for at in range(len(path)) if path[at] == "/"}
    return {**folders, **{path: hashlib.sha256(data).hexdigest() for path, data in files.items()}}


def departure(name, volume, strict, kept=None, changed=(), said=()):
    """A volume by its name; what the strict rules say of it, and what they write if that is not nothing; blocks that are changed; and what
    is said of copies that differ."""
    blocks = {**volume.blocks(), **dict(changed)}
    return Departure(name, strict, blocks, digests(volume.files), None if kept is None else digests(kept), list(said))


def sound():
    """Volumes that do not depart from the rules."""
    for revision in 0x150, 0x201:
        for packet, words in (0, "type1"), (16, "sparable 16"), (32, "sparable 32"):
            volume = Volume(revision, packet)
            spoken = "%x.%02x" % (revision >> 8, revision & 255)
            yield departure("plain %s %s" % (spoken, words), volume, "volume ok revision %s map %s" % (spoken, words), volume.files)


def revisions():
    """Revisions that the strict rules do not take."""
    for revision in 0x100, 0x101, 0x102, 0x200:
        yield departure("revision %x.%02x" % (revision >> 8, revision & 255), Volume(revision), "volume fault 5 Domain")


def packets():
    """Packet lengths that the strict rules do not take (UDF 2.2.9)."""
    for packet in 1, 8, 64:
        yield departure("packets of %d" % packet, Volume(0x201, packet), "volume fault 8 MapKind")


def extents():
    """Descriptor sequences of other lengths than the standard asks for (3/8.4.2.2)."""
    for counts in (16, 8), (8, 16), (32, 16), (6, 6):
        volume = Volume()
        volume.counts = counts
        yield departure("extents of %d and %d blocks" % counts, volume, "volume fault 2 Extents")


def ranges():
    """A partition that passes the last block (3/10.5.12)."""
    volume = Volume()
    volume.length = 5000
    yield departure("a partition that passes the last block", volume, "volume fault 11 PartitionRange")


def types():
    """File types of movies, and of old writers (4/14.6.6, UDF 2.3.5.2)."""
    for kind in 249, 0:
        volume = Volume()
        volume.kinds = {"numbers": kind}
        kept = {path: data for path, data in volume.files.items() if path != "numbers"}
        yield departure("a file of type %d" % kind, volume, "node 8 whole other-%d" % kind, kept)


def tails():
    """A last extent that ends before its file does, inside the block (4/14.14.1.1)."""
    volume = Volume()
    volume.short = {"numbers": len(volume.files["numbers"]) - 500}
    yield departure("a short last extent", volume, "node 8 fault-9 file")


def primaries():
    """The reserve primary volume descriptor has another volume set identifier (3/10.1.11), as genisoimage writes it."""
    volume = Volume()
    volume.set_number = lambda reserve: 0x2001070409300000 + reserve
    yield departure("primary volume descriptors that differ", volume, "volume ok revision 2.01 map type1", volume.files)


def places():
    """Tags of file identifiers (4/14.4.1) with the location 0, that of the directory's ICB, or the block's number on the disc."""
    ways = ("0", lambda logical, icb, physical: 0), ("the ICB's block", lambda logical, icb, physical: icb)
    for name, location in ways + (("the block on the disc", lambda logical, icb, physical: physical),):
        volume = Volume()
        volume.location = location
        yield departure("identifiers' tags of %s" % name, volume, "node 0 fault-10 directory")


def ages():
    """A drive has moved a packet and has written one sparing table (UDF 2.2.11), or has spoilt the first one. In the packet's old place is
    what was there before: another file of the same size."""
    old = Volume(packet=32)
    old.files["folder/bytes.bin"] = b"old " * 5000
    before = [(block, data) for block, data in old.blocks().items() if START <= block < START + 32]
    for newer, name in enumerate(("first", "second")):
        volume = Volume(packet=32)
        volume.spared, volume.spared_in[newer][0], volume.ages = {0: SPARE}, SPARE, (2 - newer, 1 + newer)
        yield departure("a newer %s sparing table" % name, volume, "volume ok revision 2.01 map sparable 32", (volume, old)[newer].files, before)
    yield departure("a blank first sparing table", Volume(packet=32), "volume fault 12 SparingTag", None, [(TABLES[0], bytes(BLOCK))])


def sequences():
    """The main sequence (3/8.4.2) is blank, or one of its descriptors is, as a format or a writing that was broken off leaves it."""
    for name, positions in ("sequence", range(6)), ("partition descriptor", [2]), ("logical volume descriptor", [3]):
        blank = [(MAIN + i, bytes(BLOCK)) for i in positions]
        yield departure("a blank main %s" % name, Volume(), "volume fault 4 NoLogicalVolume", None, blank, [DESCRIPTORS])


def states():
    """The last anchor opens another state of the disc (3/10.2), with another partition; and a label was changed in one sequence alone."""
    volume, other = Volume(), Volume()
    other.main, other.reserve, other.start, other.length = 176, 208, START + 200, LENGTH - 200
    other.files = {"other": b"another state of the disc\n"}
    second = {block: data for block, data in other.blocks().items() if block not in ANCHORS[:2]}
    said = "anchors differ: block %d opens another state of the disc than block %d" % (ANCHORS[0], LAST)
    begin = "volume ok revision 2.01 map type1"
    yield departure("anchors that differ", volume, begin, volume.files, second.items(), [said])
    volume = Volume()
    reserve = volume.blocks()[volume.reserve + 3]
    changed = [(volume.reserve + 3, tagged(6, volume.reserve + 3, 0x201, (16, reserve[16:84] + b"\x08OTHER" + reserve[90:])))]
    yield departure("a label that was changed in one sequence", volume, begin, volume.files, changed, [DESCRIPTORS])


KINDS = [sound, revisions, packets, extents, ranges, types, tails, primaries, places, ages, sequences, states]


def departures():
    for kind in KINDS:
        yield from kind()

"""Volumes of which the copies of something differ, for `tools/try-second-reader`: what of them is known, and with which words for it.

Each begins with a sound volume of `tools/random_volumes.py`, all of whose copies say the same, and leaves it so. Sections are those
of ECMA-167, third edition, and of UDF 2.01.
"""
import itertools
import struct

from broken_volumes import gather, mended, number_of, octets, of_sparing_table, of_tag, scatter, words
from random_volumes import BLOCK, put


def copies_of(disc, kind):
    """The copies of each descriptor of this kind."""
    return [copies for what, copies in disc.descriptors if what == kind]


def without(disc, lost):
    return {n: content for n, content in disc.blocks.items() if n not in lost}


def give_ages(disc, copies, ages):
    """Gives the copies of a sparing table these sequence numbers (UDF 2.2.11). The first copy keeps all its entries, and each other one
    lacks another entry: so what is found tells which copy counted."""
    for i, (copy, age) in enumerate(zip(copies, ages)):
        data = gather(disc, copy)
        count = number_of(data, 48, 2)
        entries = data[56 : 56 + 8 * count]
        if 0 < i <= count:
            entries = entries[: 8 * i - 8] + entries[8 * i :] + bytes(8)
            count -= 1
        scatter(disc, copy, mended(put(data, 48, struct.pack("<HHI", count, 0, age) + entries), 48))


def tables_apart(disc):
    """Sparing tables of different ages, of which each block, and some two, are unknown; ones of which the newest has a field that is just
    taken or just not, alone and with a block of another copy unknown; and ones of which only the first has a sound tag."""
    copies, sound = copies_of(disc, "sparing table")[0], dict(disc.blocks)
    columns = list(zip(*([place for place, _, _ in copy] for copy in copies)))
    losses = [()] + [(place,) for column in columns for place in column] + columns
    losses += [(column[0], other[1]) for column in columns for other in columns]
    for ages in ((1, 1, 1), (1, 2, 1), (2, 1, 1), (0, 0, 1), (1, 2, 2), (2, 1, 2), (0xFFFFFFFF, 0, 1)):
        give_ages(disc, copies, ages)
        for lost in losses:
            yield "tables of ages %d, %d, %d, unknown: %s" % (ages + (lost,)), without(disc, lost)
    for newest in (0, 1):
        give_ages(disc, copies, (3, 1, 2) if newest == 0 else (1, 3, 2))
        place, data, before = copies[newest][0][0], gather(disc, copies[newest]), dict(disc.blocks)
        for at, new in of_tag(data) + words(12, place + 1, 0) + octets(0, 1) + of_sparing_table(disc, data):
            scatter(disc, copies[newest], mended(put(data, at, new)[: len(data)], at))
            for lost in ((), (copies[2][0][0],)):
                yield "of tables the newest in block %d, %s at %d, unknown: %s" % (place, new[:8].hex(), at, lost), without(disc, lost)
            disc.blocks = dict(before)
    for copy in copies[1:]:
        scatter(disc, copy, put(gather(disc, copy), 4, bytes([gather(disc, copy)[4] ^ 1])))
    for lost in ((), columns[0][:1], columns[1][:1], columns[1]):
        yield "only the first table is sound, unknown: %s" % (lost,), without(disc, lost)
    disc.blocks = sound


def blank(disc, copies, i):
    """One copy of a descriptor has nothing but zeros."""
    scatter(disc, copies[i], bytes(len(gather(disc, copies[i]))))


def write_one(disc, copies, i, at, new):
    """Changes one copy of a descriptor, and makes its tag sound."""
    before = gather(disc, copies[i])
    scatter(disc, copies[i], mended(put(before, at, new)[: len(before)], at))


def faults_of_sequences(disc):
    """What a sequence gives no layout with: each as words for it, the copies of a descriptor, and a function that does it to one of them."""
    volume, partition = copies_of(disc, "logical volume")[0], copies_of(disc, "partition")[0]
    first = next(copies for _, copies in disc.descriptors if copies[0][0][0] == disc.main)
    for copies in volume, partition, first:
        yield "a blank block %d" % copies[0][0][0], copies, blank
    changes = [(volume, at, new) for at, new in [(236, b"!"), (440, b"\3")] + words(212, 512) + words(268, 0)]
    changes += [(partition, at, new) for at, new in [(22, b"\x63\x63"), (25, b"+NSR04")] + words(192, 0)]
    changes += [(first, 0, b"\3\0"), (first, 0, b"\x08\0"), (volume, 4, b"\0"), (volume, 12, bytes(4)), (volume, 212, bytes(3))]
    for copies, at, new in changes:
        words_for = "%s at %d of block %d" % (new.hex(), at, copies[0][0][0])
        yield words_for, copies, lambda disc, copies, i, at=at, new=new: write_one(disc, copies, i, at, new)


def sequences_apart(disc):
    """Sequences (3/8.4) of which the main one, the reserve one or both have a fault, the same or another one, with blocks unknown: those of
    the fault, the whole reserve sequence, and the block after the fault, in both or in the reserve."""
    sound = dict(disc.blocks)
    reserve = tuple(disc.reserve + i for i in range(disc.count))
    faults = list(faults_of_sequences(disc))
    for what, copies, spoil in faults:
        places = [copy[0][0] for copy in copies]
        after = tuple(place + 1 for place in places)
        main_alone = (), places[:1], places[1:], reserve, after, after[1:]
        for sides, losses in (((0,), main_alone), ((1,), ((), places[:1], after)), ((0, 1), ((), places[1:]))):
            for i in sides:
                spoil(disc, copies, i)
            for lost in losses:
                yield "%s, in the copies %s, unknown: %s" % (what, sides, tuple(lost)[:2]), without(disc, lost)
            disc.blocks = dict(sound)
        for other, others, spoil_other in (faults[0], faults[2], faults[5], faults[9]):
            spoil(disc, copies, 0)
            spoil_other(disc, others, 1)
            yield "%s, and in the reserve sequence %s" % (what, other), dict(disc.blocks)
            disc.blocks = dict(sound)
    for i, begin in enumerate((disc.main, disc.reserve)):
        blocks = {n: content for n, content in disc.blocks.items() if not begin <= n < begin + disc.count}
        blank_one = {begin + n: bytes(BLOCK) for n in range(disc.count)}
        for lost in ((), (disc.main,), (disc.reserve,), reserve):
            yield "sequence %d is blank, unknown: %s" % (i, lost[:1]), {n: each for n, each in {**blocks, **blank_one}.items() if n not in lost}


def anchors_apart(disc):
    """Anchors (3/10.2) that open one state of the disc or two, of which some are not valid or not known, or differ where nothing is read."""
    sound, places, size = dict(disc.blocks), (256, disc.last - 256, disc.last), disc.count * BLOCK
    for states in itertools.product(("one", "other", "behind", "faulty", "unknown"), repeat=3):
        for place, state in zip(places, states):
            main, reserve = (disc.reserve, disc.main) if state == "other" else (disc.main, disc.reserve)
            block = disc.descriptor("anchor", 2, place, struct.pack("<4I", size, main, size, reserve) + bytes([state == "behind"]))
            disc.blocks[place] = put(block, 4, bytes([block[4] ^ (state == "faulty")]))
        yield "anchors: %s, %s, %s" % states, without(disc, [place for place, state in zip(places, states) if state == "unknown"])
    disc.blocks = sound

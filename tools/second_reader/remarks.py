"""What a person is told of copies that differ and of tags that name another place, which a report says nothing of."""
from descriptors import tag_of
from volume import Holes, VolumeFault

ANCHORS = "anchors differ: block %d opens another state of the disc than block %d"
DESCRIPTORS = "copies of the volume's descriptors differ"
FOLDERS = "{:,} folder{} tags that name another place"


def of_folders(count):
    """The line on so many folders in which the tag of a file identifier is of another place (4/14.4.1)."""
    return [FOLDERS.format(count, " has" if count == 1 else "s have")] if count else []


def remarks(volume):
    """Lines on the anchors (3/10.2) and on the copies of the descriptor sequence (3/8.4)."""
    apart = anchors_apart(volume)
    return ([ANCHORS % apart] if apart else []) + ([DESCRIPTORS] if copies_differ(volume) else [])


def anchors_apart(volume):
    """The first place of a known, valid anchor, and the first whose extents differ from its own; or None."""
    found = [(place, volume.known(place)) for place in volume.anchors]
    valid = [(place, block[16:32]) for place, block in found if block and tag_of(block, place) == 2]
    others = [place for place, extents in valid if extents != valid[0][1]]
    return (valid[0][0], others[0]) if others else None


def copies_differ(volume):
    """Whether the sequence is known to reach a position of which both copies are known and one is a descriptor and the other is not, or both
    are different ones: by their identifiers, or in a partition or logical volume descriptor (3/10.5, 3/10.6) by any other byte."""
    try:
        main, reserve, count = volume.anchor()
    except (Holes, VolumeFault):
        return False
    for i in range(count):
        known = [(tag_of(block, begin + i), block[16:]) for begin in (main, reserve) for block in [volume.known(begin + i)] if block]
        identifiers = {identifier for identifier, _ in known}
        if len(identifiers) == 2 or identifiers & {5, 6} and known[0] != known[-1]:
            return True
        if not known or known[0][0] in (None, 3, 8):
            return False
    return False

"""Whether a volume is lawful (docs/THEOREM.md), by what is known of it.

Unlike the other files here it was written by somebody who knew the specs of the program. Only the answer and the number of blocks are
compared, and not which of several reasons is told.
"""
from descriptors import tag_of
from inputs import BLOCK
from remarks import anchors_apart, copies_differ
from volume import Holes, VolumeFault


def guarantee(volume, state, holes, nodes, found):
    """`holds`, `fails` or `open`, and how many blocks that are not known decide it.

    `state` says whether the volume opens (`ok`), is faulty (`fault`), or not before some of `holes` are read (`holes`); `nodes` are those of its report,
    and `found` has what is at an ICB."""
    if state == "fault" or anchors_apart(volume) or copies_differ(volume) or tables_differ(volume) or are_unlawful(nodes):
        return "fails", 0
    asked = {place for place in of_structures(volume) if not volume.known(place)} | set(holes if state == "holes" else ())
    for node in nodes:
        # of a file the bytes decide nothing, but its descriptors do
        if node.standing == "torn" and (node.kind in ("directory", "unread") or found(*node.icb).cut):
            asked.update(node.missing)
    return ("open" if asked else "holds"), len(asked)


def are_unlawful(nodes):
    """Whether one has a fault or is in itself, or two have one path."""
    paths = {tuple(node.names) for node in nodes}
    return len(paths) < len(nodes) or any(node.standing not in ("whole", "torn") for node in nodes)


def of_structures(volume):
    """The places of an anchor, both copies of the descriptor sequence through the position that ends it (ECMA-167 3/8.4.2), and all copies of
    the sparing tables (UDF 2.2.11)."""
    yield from volume.anchors
    try:
        main, reserve, count = volume.anchor()
    except (Holes, VolumeFault):
        return
    for i in range(count):
        yield main + i
        yield reserve + i
        known = [(place + i, volume.known(place + i)) for place in (main, reserve) if volume.known(place + i)]
        if not known or tag_of(known[0][1], known[0][0]) in (None, 3, 8):
            break
    for partition in sparable_maps(volume):
        for place in partition["tables"]:
            yield from range(place, place + -(-partition["size"] // BLOCK))


def sparable_maps(volume):
    """Those of the layout, if it is known."""
    try:
        volume.read_layout(*volume.anchor())
    except (Holes, VolumeFault):
        return []
    return [partition for partition in volume.maps if partition["packet"]]


def tables_differ(volume):
    """Whether a block that is known in two copies of a sparing table does not say the same in both, but for the tag; or a copy that is known whole has no
    valid tag."""
    for partition in sparable_maps(volume):
        size, copies = partition["size"], []
        for place in partition["tables"]:
            blocks = [volume.known(place + k) for k in range(-(-size // BLOCK))]
            copies.append([block and block[: max(0, size - k * BLOCK)][0 if k else 16 :] for k, block in enumerate(blocks)])
            if all(blocks) and tag_of(b"".join(blocks)[:size], place) != 0:
                return True
        if any(len({block for block in blocks if block is not None}) > 1 for blocks in zip(*copies)):
            return True
    return False

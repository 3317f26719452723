"""Blocks of small UDF 1.50 volumes with one partition of type 1, for the scripts that write samples."""
import binascii
import struct

STAMP = bytes.fromhex("3c10d10707040a1e00000000")


def tag(identifier, location):
    """A descriptor tag (ECMA-167 3/7.2) of version 2, with the checksum that it has to have and no CRC."""
    bare = struct.pack("<HHBBHHHI", identifier, 2, 0, 0, 0, 0, 0, location)
    return bare[:4] + bytes([sum(bare) % 256]) + bare[5:]


def with_crc(descriptor, length):
    """A descriptor whose tag has the CRC of the `length` bytes after the tag."""
    crc = binascii.crc_hqx(descriptor[16 : 16 + length], 0)
    bare = descriptor[:4] + b"\0" + descriptor[5:8] + struct.pack("<HH", crc, length) + descriptor[12:16]
    return bare[:4] + bytes([sum(bare) % 256]) + bare[5:] + descriptor[16:]


def block(*parts):
    """A block of zeros with bytes at some byte positions."""
    made = bytearray(2048)
    for at, content in parts:
        made[at : at + len(content)] = content
    return bytes(made)


def extent(length, place):
    return struct.pack("<II", length, place)


def anchor(place):
    return block((0, tag(2, place)), (16, extent(32768, 32) + extent(32768, 48)))


def logical_volume(place):
    return block(
        (0, tag(6, place)),
        (16, b"\1"),
        (84, b"\x08TEST"),
        (211, b"\5"),
        (212, struct.pack("<I", 2048)),
        (217, b"*OSTA UDF Compliant"),
        (240, b"\x50\1"),
        (248, extent(2048, 0)),
        (264, struct.pack("<II", 6, 1)),
        (440, bytes([1, 6, 1, 0, 0, 0])),
    )


def partition(place, length):
    """The partition of `length` blocks that begins at block 272."""
    return block((0, tag(5, place)), (16, b"\2"), (25, b"+NSR02"), (188, struct.pack("<II", 272, length)))


def file_set(root):
    """The file set of logical block 0, whose root is at this logical block."""
    return block((0, tag(256, 0)), (400, extent(2048, root)))


def entry(place, kind, flags, size, descriptors):
    """A file entry (4/14.9) at a logical block."""
    return block(
        (0, tag(261, place)),
        (20, b"\4"),
        (27, bytes([kind])),
        (34, bytes([flags])),
        (56, struct.pack("<Q", size)),
        (84, STAMP),
        (172, struct.pack("<I", len(descriptors))),
        (176, descriptors),
    )


def identifier(place, marks, icb, name):
    """A file identifier descriptor (4/14.4) whose first byte is in this logical block."""
    made = bytearray((38 + len(name) + 3) // 4 * 4)
    made[0:16] = tag(257, place)
    made[16] = 1
    made[18:20] = bytes([marks, len(name)])
    made[20:28] = extent(2048, icb)
    made[38 : 38 + len(name)] = name
    return bytes(made)


def volume(last, length):
    """The blocks outside the partition of a volume with this last block, by their numbers."""
    return {
        256: anchor(256),
        last: anchor(last),
        32: logical_volume(32),
        48: logical_volume(48),
        33: partition(33, length),
        49: partition(49, length),
        34: block((0, tag(8, 34))),
        50: block((0, tag(8, 50))),
    }


def write_reading(path, blocks):
    """A reading file with these blocks, in their order."""
    with open(path, "wb", buffering=1 << 20) as out:
        out.write(b"UDFREAD1" + struct.pack("<II", 2048, len(blocks)))
        for place, content in blocks.items():
            out.write(struct.pack("<I", place) + content)

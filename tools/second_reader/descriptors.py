"""Tags, names, labels, times and addresses, as the standards have them."""
import binascii
import collections
import datetime
import struct


def tag_of(data, place, anywhere=False):
    """The identifier of the descriptor that begins these bytes, if its tag is sound at this place (3/7.2), or anywhere."""
    identifier, version, checksum, _, _, crc, length, location = struct.unpack_from("<HHBBHHHI", data)
    if (sum(data[:4]) + sum(data[5:16])) % 256 != checksum or version not in (2, 3) or 16 + length > len(data):
        return None
    return identifier if binascii.crc_hqx(data[16 : 16 + length], 0) == crc and (anywhere or location == place) else None


def units_of(data):
    """The units of a name (UDF 2.1.1), or None where it has no good form."""
    if len(data) < 2 or data[0] not in (8, 16) or data[0] == 16 and len(data) % 2 == 0:
        return None
    return list(data[1:]) if data[0] == 8 else [data[i] * 256 + data[i + 1] for i in range(1, len(data), 2)]


def escaped(units):
    """A name as it is printed."""
    if units in ([0x2E], [0x2E, 0x2E]):
        return "\\u002E" * len(units)
    text, i = "", 0
    while i < len(units):
        unit, after = units[i], units[i + 1 : i + 2]
        i += 1
        if 0xD800 <= unit < 0xDC00 and after and 0xDC00 <= after[0] < 0xE000:
            text += chr(0x10000 + (unit - 0xD800) * 1024 + after[0] - 0xDC00)
            i += 1
        elif unit < 0x20 or unit in (0x7F, 0x2F, 0x5C) or 0xD800 <= unit < 0xE000:
            text += "\\u%04X" % unit
        else:
            text += chr(unit)
    return text


def label_of(field):
    """The label in a field of 128 bytes (1/7.2.12)."""
    if field[127] == 0:
        return {"state": "empty"}
    units = units_of(field[: field[127]]) if field[127] < 128 else None
    return {"state": "invalid"} if units is None else {"state": "name", "text": escaped(units)}


def time_of(field):
    """A timestamp (1/7.3) as it is printed."""
    kind, year, month, day, hour, minute, second, *fractions = struct.unpack("<Hh8B", field)
    offset = (kind & 0xFFF) - (0x1000 if kind & 0x800 else 0)
    shift = 400 if year < 5000 else 0  # the calendar repeats itself after 400 years, and Python has no year 0
    if kind >> 12 != 1 or not 1 <= year <= 9998 or max(fractions) > 99 or not (offset == -2047 or abs(offset) <= 1440):
        return "invalid"
    try:
        moment = datetime.datetime(year + shift, month, day, hour, minute, second)
    except ValueError:
        return "invalid"
    if offset != -2047:
        moment -= datetime.timedelta(minutes=offset)
    micros = fractions[0] * 10000 + fractions[1] * 100 + fractions[2]
    return "%04d-%s.%06d" % (moment.year - shift, moment.strftime("%m-%dT%H:%M:%S"), micros) + ("" if offset == -2047 else "Z")


Address = collections.namedtuple("Address", "kind length block reference")


def long_address(data, at):
    length, block, reference = struct.unpack_from("<IIH", data, at)
    return Address(length >> 30, length & 0x3FFFFFFF, block, reference)

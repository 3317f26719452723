"""Reading files, table files of both versions, and images with their mapfiles (docs/FORMATS.md)."""
import re
import struct

BLOCK = 2048
LAST_NUMBER = 4194303
INPUT_FAULTS = "Magic BlockSize BlockNumber Truncated Trailing Order State Io".split()
WANTED = b"# Blocks to read again, for ddrescue -m: not the mapfile of a pass"


class Refused(Exception):
    """Nothing is reported: the text is the line on standard error, and the status is 2."""


class InputFault(Exception):
    """A reading or table file is faulty: the fault's name."""


def number(data, at, size):
    return int.from_bytes(data[at : at + size], "little")


class Fields:
    """The fields of a file, from its front on, with the number of the record that they are of."""

    def __init__(self, data):
        self.data, self.at, self.record = data, 0, 0

    def take(self, size):
        if len(self.data) - self.at < size:
            raise InputFault("Truncated")
        self.at += size
        return self.data[self.at - size : self.at]

    def number(self):
        return number(self.take(4), 0, 4)


def take_records(fields):
    """The blocks that a file tells, each with its bytes, or with None where it is in conflict."""
    kind = fields.take(8)
    if kind not in (b"UDFREAD1", b"UDFTABL1", b"UDFTABL2"):
        raise InputFault("Magic")
    if fields.number() != BLOCK:
        raise InputFault("BlockSize")
    told, before = [], -1
    for fields.record in range(1, fields.number() + 1):
        place = fields.number()
        if place > (131071 if kind == b"UDFTABL2" else LAST_NUMBER):
            raise InputFault("BlockNumber")
        if kind != b"UDFREAD1" and place <= before:
            raise InputFault("Order")
        before = place
        if kind == b"UDFREAD1":
            told.append((place, fields.take(BLOCK)))
        elif kind == b"UDFTABL1":
            state = fields.take(1)[0]
            if state not in (1, 2):
                raise InputFault("State")
            told.append((place, fields.take(BLOCK) if state == 1 else None))
        else:
            known, disputed = struct.unpack("<II", fields.take(8))
            if known & disputed or not known | disputed:
                raise InputFault("State")
            told += [(32 * place + i, fields.take(BLOCK)) for i in range(32) if known >> i & 1]
            told += [(32 * place + i, None) for i in range(32) if disputed >> i & 1]
    if fields.at < len(fields.data):
        raise InputFault("Trailing")
    return told


def whole_number(word):
    """A number of a mapfile: 0x and hexadecimal digits, 0 and octal digits, or decimal digits."""
    for form, base in ((rb"0[xX][0-9a-fA-F]+", 16), (rb"0[0-7]*", 8), (rb"[1-9][0-9]*", 10)):
        if re.fullmatch(form, word):
            return int(word, base)
    return None


def rescued_runs(data):
    """The runs of status + of a mapfile, each with its first byte and the one after its last, side by side ones joined."""
    status, end, runs = False, None, []
    for count, line in enumerate(data.split(b"\n"), 1):
        def refuse(reason):
            raise InputFault("mapfile line %d: %s" % (count, reason))
        if line in (WANTED, WANTED + b"\r"):
            refuse("blocks to read again, not a pass")
        text = re.sub(rb"(^|(?<=[ \t\r]))#.*", b"", line, flags=re.S).lstrip(b" \t\r")
        words = [word for word in re.split(rb"[ \t\r]+", text) if word]
        if not words:
            continue
        first = whole_number(words[0])
        if not status:
            status = True
            good = len(text) <= 127 and first is not None and words[1:2] and words[1] in (b"?", b"*", b"/", b"-", b"F", b"G", b"+")
            if not good or words[2:] and (len(words) > 3 or not re.fullmatch(rb"[0-9]*[1-9][0-9]*", words[2])):
                refuse("not a status line")
            if first >= 1 << 63:
                refuse("number too large")
            continue
        size = whole_number(words[1]) if len(words) == 3 else None
        if len(text) > 127 or first is None or size is None or words[2] not in (b"?", b"*", b"/", b"-", b"+"):
            refuse("not a run")
        if first + size >= 1 << 63:
            refuse("number too large")
        if end is not None and first != end:
            refuse("runs are not contiguous")
        if size == 0 and first != 0:
            refuse("run of size 0")
        end = first + size
        if words[2] == b"+" and runs and runs[-1][1] == first:
            runs[-1][1] = end
        elif words[2] == b"+":
            runs.append([first, end])
    if end is None:
        refuse("no runs")
    return runs


def join_inputs(inputs, pairs):
    """The table of all inputs: a dictionary of block numbers, with their bytes or, in conflict, None."""
    table = {}
    for count, what in enumerate(inputs + pairs, 1):
        if isinstance(what, tuple):
            image, mapfile = (open(path, "rb").read() for path in what)
            try:
                blocks = [n for first, end in rescued_runs(mapfile) for n in range(-(-first // BLOCK), end // BLOCK)]
            except InputFault as fault:
                raise Refused("input %d: %s" % (count, fault))
            short = [n for n in blocks if (n + 1) * BLOCK > len(image)]
            if short:
                raise Refused("input %d: image ends before block %d" % (count, short[0]))
            told = [(n, image[n * BLOCK : (n + 1) * BLOCK]) for n in blocks]
        else:
            fields = Fields(open(what, "rb").read())
            try:
                told = take_records(fields)
            except InputFault as fault:
                raise Refused("input %d: fault %d %s at record %d" % (count, INPUT_FAULTS.index(str(fault)) + 1, fault, fields.record))
        for place, content in told:
            if table.setdefault(place, content) != content:
                table[place] = None
    return table


def table_file(table, old):
    """The table file, in version 1 or 2."""
    if old:
        parts = [struct.pack("<I", n) + (b"\2" if table[n] is None else b"\1" + table[n]) for n in sorted(table)]
        return b"UDFTABL1" + struct.pack("<II", BLOCK, len(parts)) + b"".join(parts)
    parts = []
    for packet in sorted({n // 32 for n in table}):
        here = [n for n in range(32 * packet, 32 * packet + 32) if n in table]
        known = sum(1 << n % 32 for n in here if table[n] is not None)
        disputed = sum(1 << n % 32 for n in here if table[n] is None)
        parts.append(struct.pack("<III", packet, known, disputed) + b"".join(table[n] for n in here if table[n] is not None))
    return b"UDFTABL2" + struct.pack("<II", BLOCK, len(parts)) + b"".join(parts)

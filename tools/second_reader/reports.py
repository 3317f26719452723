"""What is printed and written."""
import json
import os
import re

from files import Walk
from inputs import LAST_NUMBER, Refused
from lawful import guarantee
from remarks import of_folders, remarks
from volume import Holes, VOLUME_FAULTS, Volume, VolumeFault, WIDE

# Characters that end a line or turn the direction of text.
FORGING = "[\x7f-\x9f\u061c\u200e\u200f\u2028-\u202e\u2066-\u2069]"


class Report:
    def __init__(self, table, last, rules):
        if not 513 <= last <= LAST_NUMBER:
            raise Refused("fault 1 LastRange")
        past = [place for place in table if place > last]
        if past:
            raise Refused("fault 2 PastEnd %d" % min(past))
        self.table, self.last, self.rules = table, last, rules
        self.nodes, self.unnamed, self.reread, self.label, self.maps, self.found = [], [], [], None, [], None
        volume = Volume(table, last, rules)
        self.remarks = remarks(volume)
        try:
            volume.open()
        except Holes as holes:
            self.reread = holes.args[0]
            self.volume = {"state": "holes", "blocks": self.reread}
            return
        except VolumeFault as fault:
            self.volume = {"state": "fault", "fault": fault.args[0], "name": VOLUME_FAULTS[fault.args[0] - 1]}
            return
        walk = Walk(volume)
        self.found = walk.find
        folders = [node for node in walk.nodes if node.kind == "directory" and node.standing != "loop"]
        self.remarks += of_folders(sum(walk.find(*node.icb).moved for node in folders))
        self.nodes, self.unnamed, self.label, self.maps = walk.nodes, walk.unnamed, volume.label, volume.maps
        self.reread = sorted({block for node in self.nodes if node.standing == "torn" for block in node.missing})
        kinds = ["sparable" if map["packet"] else "type1" for map in self.maps]
        self.volume = {"state": "ok", "revision": "%x.%02x" % (volume.revision >> 8, volume.revision & 255)}
        self.volume.update({"map": kinds[0]} if len(kinds) == 1 else {"maps": kinds})
        if "sparable" in kinds:
            self.volume["packet"] = max(map["packet"] for map in self.maps)

    def good(self):
        return bool(self.nodes) and all(node.standing == "whole" for node in self.nodes)

    def guarantee(self):
        volume = Volume(self.table, self.last, self.rules)
        return guarantee(volume, self.volume["state"], self.reread, self.nodes, self.found)

    def volume_line(self):
        if self.volume["state"] == "holes":
            return "volume holes " + " ".join(map(str, self.volume["blocks"]))
        if self.volume["state"] == "fault":
            return "volume fault %(fault)d %(name)s" % self.volume
        maps = ["sparable %d" % map["packet"] if map["packet"] else "type1" for map in self.maps]
        return "volume ok revision %s map %s" % (self.volume["revision"], " ".join(maps))

    def text(self):
        lines = ["UDFREPORT%d last %d" % (2 if len(self.maps) == 2 else 1, self.last)]
        lines += ["profile wide"] if self.rules is WIDE else []
        disputed = sum(content is None for content in self.table.values())
        lines += ["known %d conflict %d" % (len(self.table) - disputed, disputed), self.volume_line()]
        if self.label:
            lines.append("label " + " ".join(self.label[key] for key in sorted(self.label)))
        for i, node in enumerate(self.nodes):
            lines.append("node %d %s %s" % (i, described(node), path_of(node)))
            lines += lacking(node)
        for icb, found in self.unnamed:
            lines.append("unnamed %s %s" % ("%d:%d" % icb if len(self.maps) == 2 else icb[1], described(found)))
            lines += lacking(found)
        lines += ["reread %d %s" % (block, self.state(block)) for block in self.reread]
        return "\n".join(lines + ["end", ""])

    def state(self, block):
        return "conflict" if block in self.table else "unknown"

    def json(self):
        nodes = [dict(as_json(node), hidden=node.hidden, path=path_of(node), **({"tail": True} if node.tail else {})) for node in self.nodes]
        unnamed = [dict(as_json(found), block=icb[1], **({"reference": icb[0]} if len(self.maps) == 2 else {})) for icb, found in self.unnamed]
        disputed = sum(content is None for content in self.table.values())
        top = {"conflict": disputed, "known": len(self.table) - disputed, "label": self.label, "last": self.last, "nodes": nodes}
        top.update(unnamed=unnamed, volume=self.volume, reread=[{"block": block, "state": self.state(block)} for block in self.reread])
        if self.rules is WIDE:
            top["profile"] = "wide"
        return json.dumps(top, sort_keys=True, ensure_ascii=False, separators=(",", ":")) + "\n"

    def list(self, torn, paths, end):
        """A line for each node after the root. A word behind the path tells that a body is read by the tail of its last extent."""
        lines = []
        for node in self.nodes[1:]:
            if not torn or node.standing != "whole":
                path = re.sub(FORGING, lambda found: "\\u%04X" % ord(found[0]), path_of(node))
                lines.append(path if paths else "\t".join(columns(node) + [path] + ["tail"] * node.tail))
        return "".join(line + end for line in lines)

    def extract(self, folder, fill):
        """Makes the folder and the files, and returns what is printed, and whether nothing failed."""
        if self.volume["state"] != "ok":
            return self.volume_line() + "\n", False
        try:
            os.mkdir(folder)
        except OSError:
            raise Refused("cannot make the folder")
        lines = []
        for node in self.nodes[1:]:
            word = self.put(node, folder + path_of(node), fill)
            lines += [word + " " + path_of(node) + "\n"] if word else []
        return "".join(lines), not any(line.startswith("failed") for line in lines)

    def put(self, node, path, fill):
        try:
            if node.kind == "directory" and node.standing != "loop":
                os.mkdir(path.encode())
                return None
            if node.kind != "file" or node.standing != "whole" and not (fill and node.standing == "torn"):
                return "skipped"
            with open(path.encode(), "xb") as out:
                for stretch in node.body:
                    if stretch.data is None:
                        out.seek(stretch.length, os.SEEK_CUR)
                    else:
                        out.write(stretch.data)
                out.truncate(node.size)
        except OSError:
            return "failed"
        return "written"


def columns(node):
    lost = {"whole": 0, "torn": sum(length for _, length in node.holes)}.get(node.standing) if node.kind != "unread" else None
    kind = "unknown" if node.kind == "unread" else node.kind
    time = (node.time or "-").replace(".000000", "")
    return [node.standing.replace("-", " "), kind] + ["-" if number is None else str(number) for number in (lost, node.size)] + [time]


def path_of(node):
    return "/" + "/".join(node.names)


def described(what):
    return "%s %s %s %s" % (what.standing, what.kind, "-" if what.size is None else what.size, what.time or "-")


def lacking(what):
    if what.standing != "torn":
        return []
    return ["missing %d" % block for block in what.missing] + ["hole %d %d" % tuple(hole) for hole in what.holes]


def as_json(what):
    return dict({key: getattr(what, key) for key in ("holes", "kind", "missing", "size", "standing")}, modified=what.time)

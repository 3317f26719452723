"""The commands: what they print, and their statuses."""
import argparse

from inputs import Refused, join_inputs, table_file
from reports import Report
from volume import STRICT, WIDE


def run(words):
    """What a command with these words prints, what it prints on standard error, and its status."""
    parser = argparse.ArgumentParser()
    parser.add_argument("command", choices=("report", "json", "reread", "list", "remarks", "guarantee", "extract", "merge"))
    parser.add_argument("--last", type=int, default=0)
    parser.add_argument("--profile", choices=("strict", "wide"), default="strict")
    parser.add_argument("--ddrescue", nargs=2, action="append", default=[])
    for option in ("--to", "--out"):
        parser.add_argument(option)
    for option in ("--fill", "--v1", "--torn", "--paths", "--null"):
        parser.add_argument(option, action="store_true")
    parser.add_argument("inputs", nargs="*")
    asked = parser.parse_intermixed_args(words)
    try:
        table = join_inputs(asked.inputs, [tuple(pair) for pair in asked.ddrescue])
        if asked.command == "merge":
            with open(asked.out, "wb") as out:
                out.write(table_file(table, asked.v1))
            return "", "", 0
        report = Report(table, asked.last, WIDE if asked.profile == "wide" else STRICT)
        good = report.good()
        if asked.command == "extract":
            text, kept = report.extract(asked.to, asked.fill)
            good = good and kept
        elif asked.command == "list":
            text = report.list(asked.torn, asked.paths, "\0" if asked.null else "\n")
        elif asked.command in ("reread", "remarks"):
            text = "".join("%s\n" % line for line in (report.reread if asked.command == "reread" else report.remarks))
        elif asked.command == "guarantee":
            text = "%s %d\n" % report.guarantee()
        else:
            text = report.json() if asked.command == "json" else report.text()
        return text, "", 0 if good else 1
    except Refused as refusal:
        return "", "udfsalvage: %s\n" % refusal, 2

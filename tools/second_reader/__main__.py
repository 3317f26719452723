#!/usr/bin/env python3
"""A second reader of the same files: what `udfsalvage` has to print, found by another program.

    second_reader report | json | reread | remarks | guarantee  --last N [--profile wide] [--ddrescue IMAGE MAPFILE].. [IN]..
    second_reader list [--torn] [--paths] [--null] --last N [--profile wide] [--ddrescue IMAGE MAPFILE].. [IN]..
    second_reader extract --to DIR [--fill] --last N [--profile wide] [--ddrescue IMAGE MAPFILE].. [IN]..
    second_reader merge --out FILE [--v1] [--ddrescue IMAGE MAPFILE].. [IN]..

It was written from the documents and the two standards, without a look at the code, the specs or the proofs, and shares nothing
with them; whoever changes it goes by docs/FORMATS.md, and still does not look. (Of lawful.py this is not so: its author knew the specs.) It is plain and slow, and holds all that it reads.
Sections in comments are those of ECMA-167, third edition, and of UDF 2.01. `tools/try-second-reader` compares it with the program.
"""
import sys

sys.dont_write_bytecode = True
from commands import run

printed, complaint, status = run(sys.argv[1:])
sys.stdout.buffer.write(printed.encode())
sys.stderr.write(complaint)
sys.exit(status)

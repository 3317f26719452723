#!/usr/bin/env python3
"""What other readers of UDF find in an image: 7-Zip, libudfread and the Linux driver, where they are here.

    other_readers.py IMAGE FOLDER       compares what each finds with the files of a folder, says how, and ends with status 1 if a file differs
"""
import ctypes
import hashlib
import json
import os
import shutil
import subprocess
import sys
import tempfile

SECONDS = 60


def tree_of(folder):
    """The SHA-256 of each file below a folder that can be read, by its path, and None by that of each folder."""
    found = {}
    for at, folders, files in os.walk(folder):
        for name in folders:
            found[os.path.relpath(os.path.join(at, name), folder)] = None
        for name in files:
            try:
                with open(os.path.join(at, name), "rb") as file:
                    found[os.path.relpath(os.path.join(at, name), folder)] = hashlib.sha256(file.read()).hexdigest()
            except OSError:
                continue
    return found


def seven_zip(image, folder):
    """What 7-Zip extracts, or None where it says that something is wrong."""
    tool = shutil.which("7zz") or shutil.which("7z")
    done = subprocess.run([tool, "x", "-tudf", "-y", "-o" + folder, image], stdin=subprocess.DEVNULL, stdout=subprocess.DEVNULL,
                          stderr=subprocess.DEVNULL, timeout=SECONDS)
    return tree_of(folder) if done.returncode == 0 else None


def linux(image, folder):
    """What the Linux driver shows, or None where it does not mount the image."""
    os.mkdir(folder)
    if subprocess.run(["mount", "-t", "udf", "-o", "loop,ro", image, folder], stderr=subprocess.DEVNULL).returncode != 0:
        return None
    try:
        return tree_of(folder)
    finally:
        subprocess.run(["umount", folder])


def libudfread(image, _folder):
    """What libudfread reads, in a process of its own, or None where it does not open the image or the root."""
    done = subprocess.run([sys.executable, __file__, "--libudfread", image], stdin=subprocess.DEVNULL, stdout=subprocess.PIPE,
                          stderr=subprocess.DEVNULL, timeout=SECONDS)
    return json.loads(done.stdout) if done.returncode == 0 else None


class Listed(ctypes.Structure):
    _fields_ = [("kind", ctypes.c_uint), ("name", ctypes.c_char_p)]


def load():
    """The library, or None."""
    try:
        library = ctypes.CDLL("libudfread.so.0")
    except OSError:
        return None
    for name in ("init", "opendir", "readdir", "file_open"):
        getattr(library, "udfread_" + name).restype = ctypes.c_void_p
    library.udfread_file_read.restype = ctypes.c_ssize_t
    return library


def walk(library, volume, path, found):
    """Adds what is in a folder of a volume to what was found."""
    folder = library.udfread_opendir(volume, (path or "/").encode())
    if not folder:
        return False
    listed, below = Listed(), []
    while library.udfread_readdir(ctypes.c_void_p(folder), ctypes.byref(listed)):
        if listed.name not in (b".", b".."):
            below.append((listed.kind, listed.name.decode()))
    library.udfread_closedir(ctypes.c_void_p(folder))
    for kind, name in below:
        if kind == 1:
            found[(path + "/" + name)[1:]] = None
            walk(library, volume, path + "/" + name, found)
            continue
        file, digest, room = library.udfread_file_open(volume, (path + "/" + name).encode()), hashlib.sha256(), ctypes.create_string_buffer(1 << 16)
        count = library.udfread_file_read(ctypes.c_void_p(file), room, len(room)) if file else -1
        while count > 0:
            digest.update(room.raw[:count])
            count = library.udfread_file_read(ctypes.c_void_p(file), room, len(room))
        if count == 0:
            found[(path + "/" + name)[1:]] = digest.hexdigest()
    return True


def print_found(image):
    library, found = load(), {}
    volume = ctypes.c_void_p(library.udfread_init())
    if library.udfread_open(volume, image.encode()) < 0 or not walk(library, volume, "", found):
        sys.exit(1)
    print(json.dumps(found))


def readers():
    """The readers that may be here, by their names."""
    here = {"7-Zip": seven_zip} if shutil.which("7zz") or shutil.which("7z") else {}
    here.update({"libudfread": libudfread} if load() else {})
    return {**here, "the Linux driver": linux} if os.geteuid() == 0 and shutil.which("mount") else here


def read(reader, image):
    """What a reader finds, or None where it refuses the image or does not end."""
    with tempfile.TemporaryDirectory() as scratch:
        try:
            return reader(image, os.path.join(scratch, "files"))
        except subprocess.TimeoutExpired:
            return None


def compare(ours, theirs):
    """How what another reader found differs from what is ours, in a word, and the paths whose bytes differ."""
    if theirs is None:
        return "refuses it", []
    apart = sorted(path for path in ours.keys() & theirs.keys() if ours[path] != theirs[path])
    if apart:
        return "reads other bytes", apart
    lacking, more = ours.keys() - theirs.keys(), theirs.keys() - ours.keys()
    return ("reads more" if more else "reads less" if lacking else "reads the same"), []


def main():
    if sys.argv[1] == "--libudfread":
        return print_found(sys.argv[2])
    ours, bad = tree_of(sys.argv[2]), 0
    for name, reader in readers().items():
        word, apart = compare(ours, read(reader, sys.argv[1]))
        if word != "refuses it" or name != "the Linux driver":
            print("%s %s" % (name, word), *apart)
        bad |= bool(apart)
    return sys.exit(bad)


if __name__ == "__main__":
    main()

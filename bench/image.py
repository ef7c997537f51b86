"""The one writer of images for bench/, straight from docs/FORMAT.md and not by the program.

As a program it reads the test vector out of docs/FORMAT.md: `bench/image.py OUT` writes that whole image.
"""
import os
import struct
import sys

BLOCK = 4096
VOLUME = 260 * BLOCK
FORMAT = os.path.join(os.path.dirname(os.path.abspath(__file__)), "..", "docs", "FORMAT.md")


class Image:
    """An image whose rows are put in one by one. Nothing is checked: who writes it says what stands there."""

    def __init__(self, blocks, inodes):
        self.blocks, self.inodes = blocks, inodes
        self.slots = 263 + inodes // 16
        self.first_data = 263 + 3 * inodes // 32
        self.bytes = bytearray(blocks * BLOCK)
        fields = (1, blocks, inodes, 260, 263, self.slots, self.first_data)
        self.put(0, b"CCFSOWN1" + struct.pack("<7I", *fields))
        self.used = 0
        self.row(0, True)
        self.row(1, True)

    def put(self, at, new):
        self.bytes[at : at + len(new)] = new

    def row(self, inode, is_dir, parent=None, name=b"", changes=0):
        """An inode that is in use, and its slot where it has a parent."""
        self.put(263 * BLOCK + 256 * inode, struct.pack("<B7xQQ", 1 if is_dir else 2, 0, changes))
        if parent is not None:
            self.put(self.slots * BLOCK + 128 * inode, struct.pack("<IB", parent, len(name)) + name)
        at = 262 * BLOCK + inode // 8
        self.used += not self.bytes[at] >> inode % 8 & 1
        self.bytes[at] |= 1 << inode % 8

    def changes(self, inode, count):
        self.put(263 * BLOCK + 256 * inode + 16, struct.pack("<Q", count))

    def write(self, path, number=0):
        """Writes the image, with a batch number and the counts of what is free."""
        free = (number, self.blocks - self.first_data, self.inodes - self.used, 1)
        self.put(VOLUME, struct.pack("<QQQI", *free))
        with open(path, "wb") as it:
            it.write(self.bytes)


def data_of(word):
    """The bytes of a data word of the scripts, as `0a0B+07*3`."""
    found = bytearray()
    for piece in word.split("+"):
        digits, _, count = piece.partition("*")
        found += bytes.fromhex(digits) * (int(count) if count else 1)
    return bytes(found)


def vector(path=FORMAT):
    """The whole image that docs/FORMAT.md shows: its table's rows over zeros."""
    with open(path, encoding="utf-8") as it:
        part = it.read().partition("\n## A whole image\n")[2].partition("\n## ")[0]
    rows = [[cell.strip(" `") for cell in line.strip("|").split("|")] for line in part.split("\n") if line.startswith("| ")][1:]
    image = bytearray(int(part.partition(" bytes long")[0].split()[-1].replace(",", "")))
    for row in rows:
        at, new = int(row[0].replace(",", "")), data_of(row[1])
        image[at : at + len(new)] = new
    return bytes(image)


if __name__ == "__main__":
    with open(sys.argv[1], "wb") as out:
        out.write(vector())

#!/usr/bin/env python3
"""Writes what crates/listing is run on and what it must write: a worked kernel of one record, and its two lines, written out."""
import os
import struct

HERE = os.path.dirname(os.path.abspath(__file__))
LISTING = """segments 1
0 399 3 1 2 0000000000000000 4024000000000000 385 393 yes
"""


def kernel():
    """4,096 bytes: file record, summary record, names, and from address 385 on one record of RSIZE 5 with its trailer."""
    out = bytearray(4096)
    out[0:8] = b"DAF/SPK "
    out[8:16] = struct.pack("<2I", 2, 6)
    out[76:88] = struct.pack("<3I", 2, 2, 394)  # FWARD, BWARD, FREE
    out[88:96] = b"LTL-IEEE"
    out[1024:1048] = struct.pack("<3d", 0.0, 0.0, 1.0)  # NEXT, PREV, NSUM
    out[1048:1088] = struct.pack("<2d6i", 0.0, 10.0, 399, 3, 1, 2, 385, 393)
    out[2048:3072] = b"EARTH".ljust(1024)
    out[3072:3144] = struct.pack("<9d", 5.0, 5.0, 1.0, 2.0, 3.0, 0.0, 10.0, 5.0, 1.0)  # MID, RADIUS, series; INIT, INTLEN, RSIZE, N
    return bytes(out)


def main():
    into = os.path.join(HERE, "..", "..", "crates", "listing")
    with open(os.path.join(into, "stdin"), "wb") as f:
        f.write(kernel())
    with open(os.path.join(into, "stdout"), "w") as f:
        f.write(LISTING)


if __name__ == "__main__":
    main()

"""What the pages' pictures show: the colours of a PNG, and whether docs/picture.py makes one like the one that is kept."""

import os
import struct
import subprocess
import sys
import zlib
from collections import Counter
from pathlib import Path
from typing import Iterator, Optional, Sequence, Tuple

from ends import TOP

BROWSERS = ("chromium", "chromium-browser", "google-chrome")
MOST_BYTES = 150_000


def pixels(path: Path) -> Counter:
    """The colours of a PNG of 8 bits without interlace, by how many pixels have them."""
    data, at, packed, width, depth = path.read_bytes(), 8, b"", 0, 0
    while at < len(data):
        (length,), kind = struct.unpack(">I", data[at : at + 4]), data[at + 4 : at + 8]
        body = data[at + 8 : at + 8 + length]
        if kind == b"IHDR":
            width, _, _, colour = struct.unpack(">IIBB", body[:10])
            depth = {2: 3, 6: 4}[colour]
        packed += body if kind == b"IDAT" else b""
        at += length + 12
    return unfiltered(zlib.decompress(packed), width, depth)


def unfiltered(data: bytes, width: int, depth: int) -> Counter:
    """Undoes a PNG's filters, row by row."""
    stride, before, found = width * depth, bytearray(width * depth), Counter()
    for start in range(0, len(data), stride + 1):
        kind, row = data[start], bytearray(data[start + 1 : start + 1 + stride])
        for at in range(stride):
            left = row[at - depth] if at >= depth else 0
            corner = before[at - depth] if at >= depth else 0
            row[at] = (row[at] + predicted(kind, left, before[at], corner)) & 255
        found.update(bytes(row[at : at + 3]) for at in range(0, stride, depth))
        before = row
    return found


def predicted(kind: int, left: int, above: int, corner: int) -> int:
    """What a PNG's filter of this kind adds."""
    if kind == 4:
        estimate = left + above - corner
        return min((abs(estimate - it), at, it) for at, it in enumerate((left, above, corner)))[2]
    return (0, left, above, (left + above) // 2)[kind]


def pictured(name: str, colours: Sequence[str], least: int, most: float, folder: Path, **variables: str) -> Iterator[Tuple[str, Optional[str]]]:
    """Whether a picture is made with so many pixels of each colour, and whether the one that is kept has at most so many times as many, or
    as few."""
    picture, kept = folder / f"{name}.png", TOP / f"docs/{name}.png"
    words = [sys.executable, TOP / "docs/picture.py", name, picture]
    ran = subprocess.run(words, env={**os.environ, **variables}, capture_output=True, text=True, timeout=300, check=False)
    found, stored = pixels(picture) if ran.returncode == 0 else Counter(), pixels(kept)
    lacking = [it for it in colours if found[bytes.fromhex(it)] < least]
    yield f"a picture for docs/{name}.png", f"it has hardly a pixel of {lacking}; {ran.stderr}" if lacking else None
    apart = [it for it in colours if not 1 / most < stored[bytes.fromhex(it)] / max(1, found[bytes.fromhex(it)]) < most]
    is_large = kept.stat().st_size > MOST_BYTES or sum(stored.values()) != sum(found.values())
    yield f"docs/{name}.png", f"it has {kept.stat().st_size} bytes, and others of {apart}" if apart or is_large else None

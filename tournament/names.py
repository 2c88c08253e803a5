"""Names of domains, problems and planners, as they are shown, sorted, and used for files."""
from __future__ import annotations

import functools
import hashlib
import re
from typing import List, Optional, Tuple, Union

Order = Tuple[List[Union[int, str]], str]

NUMBER = re.compile(r"([0-9]+)")
UNSAFE = re.compile(rb"[^A-Za-z0-9._-]|^[.-]")
LONGEST = 150  # of a name of a file; the systems at hand take 255 bytes


@functools.lru_cache(65536)
def shown(name: str) -> str:
    """The name as text: control characters and bytes that are no UTF-8 become \\xNN, and a backslash is doubled."""
    text = name.replace("\\", "\\\\").encode("utf-8", "surrogateescape").decode("utf-8", "backslashreplace")
    return "".join(it if it.isprintable() else it.encode("unicode_escape").decode() for it in text)


@functools.lru_cache(65536)
def file_name(name: str) -> str:
    """A name for files and links, of letters, digits and . _ - ~ alone. Different names have different ones."""
    data = name.encode("utf-8", "surrogateescape")
    safe = UNSAFE.sub(lambda it: b"~%02X" % it.group()[0], data).decode()
    if len(safe) > LONGEST:
        safe = safe[:LONGEST] + "~~" + hashlib.sha256(data).hexdigest()[:16]
    return safe


def numeric_order(name: str) -> Order:
    """A key that sorts plan_2 before plan_10."""
    pieces = NUMBER.split(name)
    return [int(it) if at % 2 else it for at, it in enumerate(pieces)], name


def last_number(name: str) -> Optional[int]:
    """The number at the end of a name, or None."""
    found = re.search(r"[0-9]+$", name)
    return int(found.group()) if found else None

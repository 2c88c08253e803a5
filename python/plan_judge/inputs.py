"""Makes the files for a call from the paths and texts that a caller gives."""
from __future__ import annotations

import contextlib
import dataclasses
import itertools
import os
import re
import tempfile
from collections.abc import Iterable, Iterator, Mapping
from types import TracebackType
from typing import List, NamedTuple, Optional, Protocol, Set, Tuple, Type, Union

from .errors import Refused
from .verdicts import Unreadable, Verdict


@dataclasses.dataclass(frozen=True)
class Named:
    """A text with a name for its file, by which explanations call it. Other letters than A-Z, a-z, 0-9 and . _ - ~ become a dash."""

    name: str
    text: Union[str, bytes]


Path = Union["os.PathLike[str]", "os.PathLike[bytes]"]
Text = Union[str, bytes, Path, Named]
Source = Union[bytes, Path]
Labelled = Tuple[str, Source]
Plans = Union[Text, Iterable[Text], Mapping[str, Union[Text, Iterable[Text]]]]

MOST_FILES = 64  # of planners, in one call of the program
LARGEST_FILE = 16_777_216
LONGEST_NAME = 200  # of a file of a text
UNSAFE = re.compile(r"[^A-Za-z0-9._~-]|^[.-]")  # in a name of a file
SEPARATOR = re.compile(rb"^---[ \t\r]*$\n?", re.MULTILINE)


class Piece(NamedTuple):
    """A path or text with plans of a planner."""

    planner: int  # the index of the planner
    label: str  # a name for the file of a text
    source: Source


def labelled(given: Text, otherwise: str = "") -> Labelled:
    """A path, or the bytes of a text, with a name for its file."""
    if isinstance(given, Named):
        return given.name, labelled(given.text)[1]
    if isinstance(given, str):
        return otherwise, given.encode("utf-8", "surrogateescape")
    if isinstance(given, (bytes, os.PathLike)):
        return otherwise, given
    raise TypeError("a text is str, bytes or Named and a path is os.PathLike, not %s" % type(given).__name__)


def _all_labelled(given: Union[Text, Iterable[Text]]) -> List[Labelled]:
    """One path or text, or several, as a list. A text without a name gets an empty one."""
    if isinstance(given, Iterable) and not isinstance(given, (str, bytes, os.PathLike)):
        return [labelled(it) for it in given]
    return [labelled(given)]


def _name(given: Labelled, otherwise: str) -> str:
    """The name of a planner that the caller does not name."""
    label, source = given
    return os.fsdecode(source) if isinstance(source, os.PathLike) else label or otherwise


def named(plans: Plans) -> List[Tuple[str, List[Labelled]]]:
    """The planners' names, each with its paths and texts."""
    if isinstance(plans, (str, bytes, os.PathLike, Named)):
        only = labelled(plans)
        return [(_name(only, "plan"), [only])]
    if isinstance(plans, Mapping):
        return [(name, _all_labelled(given)) for name, given in plans.items()]
    return [(_name(it, "plan-%d" % number), [it]) for number, it in enumerate(_all_labelled(plans), 1)]


def pieces(planners: List[Tuple[str, List[Labelled]]]) -> List[Piece]:
    """All paths and texts in their order."""
    return [
        Piece(index, label or (name if len(given) == 1 else "%s.%d" % (name, number)), source)
        for index, (name, given) in enumerate(planners)
        for number, (label, source) in enumerate(given, 1)
    ]


class Words(Protocol):
    """Where the files of a call are kept."""

    def word(self, given: Source, label: str) -> bytes:
        """The name of a path or a text."""

    def file(self, content: bytes, label: str) -> bytes:
        """The name of a text."""


class Room:
    """The files of one call of the program. A temporary folder holds the texts; it is made for the first text, and removed at the end."""

    def __init__(self) -> None:
        self.stack = contextlib.ExitStack()
        self.folder = b""
        self.taken: Set[str] = set()

    def __enter__(self) -> Room:
        return self

    def __exit__(self, kind: Optional[Type[BaseException]], error: Optional[BaseException], trace: Optional[TracebackType]) -> None:
        self.stack.close()

    def _path(self, label: str) -> bytes:
        """The path of a new file, whose name is like the label."""
        if not self.folder:
            folder = os.fsencode(self.stack.enter_context(tempfile.TemporaryDirectory(prefix="plan_judge-")))
            if not is_utf8(folder):
                raise ValueError("the folder of temporary files, %r, has a name that is not UTF-8" % folder)
            self.folder = folder + b"/"
        return self.folder + safe_name(label, self.taken)

    def word(self, given: Source, label: str) -> bytes:
        """The word of the command line for a path or a text."""
        if isinstance(given, bytes):
            return self.file(given, label)
        path = os.fsencode(given)
        if path == b"-":  # which is standard input for the program
            return b"./-"
        if is_utf8(path):
            return path
        # The program takes only words that are UTF-8.
        link = self._path(label)
        os.symlink(os.path.join(os.getcwdb(), path), link)
        return link

    def file(self, content: bytes, label: str) -> bytes:
        """The path of a new file with this content."""
        path = self._path(label)
        with open(path, "wb") as file:
            file.write(content)
        return path

    def outside(self, text: str) -> str:
        """A text of the program, in which files of this folder have only their names."""
        return text.replace(self.folder.decode(), "") if self.folder else text


def safe_name(label: str, taken: Set[str]) -> bytes:
    """A name of a file that is like the label and not yet taken."""
    safe = UNSAFE.sub("-", label)[:LONGEST_NAME]
    name, number = safe, 1
    while name in taken:
        number += 1
        name = "%s-%d" % (safe, number)
    taken.add(name)
    return name.encode()


def is_utf8(path: bytes) -> bool:
    """Whether a path can be a word of the program, and a name of a file."""
    try:
        path.decode("utf-8")
    except UnicodeDecodeError:
        return False
    return True


def _content(given: Source) -> bytes:
    """The bytes of a path or a text."""
    if isinstance(given, bytes):
        return given
    try:
        with open(given, "rb") as file:
            content = file.read(LARGEST_FILE + 1)
    except OSError:
        raise Refused("cannot read %s" % os.fsdecode(given), "plan", "cannot read") from None
    if len(content) > LARGEST_FILE:
        raise Refused("%s is too large" % os.fsdecode(given), "plan", "too large")
    return content


class Share:
    """The plans of one piece in a file that may have the plans of others too."""

    def __init__(self, piece: Piece) -> None:
        self.planner = piece.planner
        self.plans = 0  # not counted if the share is the whole file
        self.last_line = 0  # of the end of the last plan

    def count(self, content: bytes) -> None:
        """Sets how many plans of the file are those of this content."""
        plans = SEPARATOR.split(content) if b"---" in content else [content]
        self.plans, self.last_line = len(plans), plans[-1].count(b"\n") + 1

    def verdicts(self, rest: Iterator[Verdict]) -> List[Verdict]:
        """The verdicts of this share, which are the next of the file."""
        found = list(itertools.islice(rest, self.plans))
        # A newline at the end, added for the separator, moves the line of a text that ends too early.
        if isinstance(found[-1], Unreadable) and found[-1].line > self.last_line:
            found[-1] = Unreadable(self.last_line)
        return found


def _groups(given: Iterable[Piece]) -> Optional[List[List[Piece]]]:
    """The pieces for each file: a path, or texts that follow each other. None if more files are needed than the program takes."""
    groups: List[List[Piece]] = []
    left = 0
    for it in given:
        size = len(it.source) + len(b"\n---\n") if isinstance(it.source, bytes) else LARGEST_FILE
        if size > left:
            if len(groups) == MOST_FILES:
                return None
            groups.append([])
            left = LARGEST_FILE
        groups[-1].append(it)
        left -= size
    return groups


def _joined(group: List[Piece]) -> Tuple[bytes, List[Share]]:
    """The texts of a group with separators between them, and their shares."""
    contents, shares = [], []
    for it in group:
        content = _content(it.source)
        shares.append(Share(it))
        shares[-1].count(content)
        contents.append(content if content.endswith(b"\n") else content + b"\n")
    return b"---\n".join(contents), shares


def files(room: Words, given: List[Piece]) -> Tuple[List[bytes], List[List[Share]]]:
    """The words for the planners' files, and the shares in each. If there are too many paths, their files are read and joined too."""
    groups = _groups(given) or _groups(it._replace(source=_content(it.source)) for it in given)
    if groups is None:
        raise ValueError("the plans are too many for one call: they fill more than %d files of %d bytes" % (MOST_FILES, LARGEST_FILE))
    words: List[bytes] = []
    shares: List[List[Share]] = []
    for group in groups:
        if len(group) == 1:
            words.append(room.word(group[0].source, group[0].label))
            shares.append([Share(group[0])])
        else:
            content, parts = _joined(group)
            words.append(room.file(content, "plans"))
            shares.append(parts)
    return words, shares

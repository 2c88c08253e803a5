"""Calls the library libplan_judge.so, which judges in this process. While a call runs, other threads of Python go on."""
from __future__ import annotations

import ctypes
import functools
import os
import secrets
import threading
import weakref
from pathlib import Path
from typing import Any, Callable, List, Optional, Sequence, Set, Tuple

from .errors import CallFailed, ProgramMissing
from .inputs import LARGEST_FILE, Source, is_utf8, safe_name

NAME = "libplan_judge.so.0"  # as programs ask for it; the number changes if the calls do
HERE = Path(__file__).resolve().parent
# Of a wheel, of a clone, and of a prefix whose folder share/plan_judge/python has this package.
PLACES = (HERE / NAME, HERE.parents[1] / "release" / "libplan_judge.so", HERE.parents[3] / "lib" / NAME if len(HERE.parents) > 3 else HERE / NAME)
DIALECTS = ("strips", "ipc", "adl")
LINES, JSON, TRACE = 0, 2, 1
MADE, REFUSED, OUT_OF_MEMORY = 0, 1, 3
SPARE, LARGEST_FIRST = 4096, LARGEST_FILE  # bytes of the first buffer: besides those of the plans, and at most
SEED = secrets.randbits(64)  # no answer depends on it, but only who knows it can write texts that take long


class _File(ctypes.Structure):
    _fields_ = [("name", ctypes.c_char_p), ("name_length", ctypes.c_size_t), ("bytes", ctypes.c_char_p), ("length", ctypes.c_size_t)]


class _Texts(ctypes.Structure):
    _fields_ = [("domain", _File), ("problem", _File), ("plans", ctypes.POINTER(_File)), ("plan_count", ctypes.c_size_t),
                ("seed", ctypes.c_uint64), ("dialect", ctypes.c_uint32)]


class _Answer(ctypes.Structure):
    _fields_ = [("status", ctypes.c_uint32), ("length", ctypes.c_size_t)]


class _Task(ctypes.Structure):
    _fields_ = [("kept", ctypes.c_void_p)]


class Library:
    """The library at a path. OSError if it cannot be loaded, AttributeError if it is another library."""

    def __init__(self, path: str) -> None:
        library = ctypes.CDLL(path)
        self._judge, self._explain = library.plan_judge_judge, library.plan_judge_explain
        self._keep, self._judge_kept, self._give_back = library.plan_judge_keep, library.plan_judge_judge_kept, library.plan_judge_give_back
        self._judge.restype = self._explain.restype = self._keep.restype = self._judge_kept.restype = _Answer
        self._give_back.restype = None
        self._judge.argtypes = [ctypes.POINTER(_Texts), ctypes.c_uint32, ctypes.c_void_p, ctypes.c_size_t]
        self._explain.argtypes = [ctypes.POINTER(_Texts), ctypes.c_uint32, ctypes.c_uint32, ctypes.c_void_p, ctypes.c_size_t]
        self._keep.argtypes = [ctypes.POINTER(_Texts), ctypes.POINTER(_Task), ctypes.c_void_p, ctypes.c_size_t]
        self._judge_kept.argtypes = [ctypes.POINTER(_Task), ctypes.POINTER(_File), ctypes.c_size_t, ctypes.c_uint32, ctypes.c_void_p, ctypes.c_size_t]
        self._give_back.argtypes = [ctypes.POINTER(_Task)]

    def judge(self, files: Sequence[_File], dialect: str) -> Tuple[int, bytes]:
        """The status, and the report in JSON or the line that says why the texts are refused. The files are a domain, a problem and those of plans."""
        return _text(functools.partial(self._judge, ctypes.byref(_texts(files, dialect)), JSON), files[2:])

    def explain(self, files: Sequence[_File], dialect: str, trace: bool) -> Tuple[int, bytes]:
        """The status, and the explanation in lines."""
        texts = ctypes.byref(_texts(files, dialect))
        return _text(functools.partial(self._explain, texts, LINES, TRACE if trace else 0), files[2:])

    def keep(self, files: Sequence[_File], dialect: str) -> Tuple[Optional[KeptTask], bytes]:
        """The task of a domain and a problem, or None and the line that says why they are refused."""
        task = _Task()
        status, line = _text(functools.partial(self._keep, ctypes.byref(_texts(files, dialect)), ctypes.byref(task)), ())
        return (KeptTask(task, self._judge_kept, self._give_back) if status == MADE else None), line


class KeptTask:
    """A task that the library keeps until `close` is called, or until nothing refers to this object. Threads that call at the same time wait for each other."""

    def __init__(self, task: _Task, judge: Callable[..., Any], give_back: Callable[..., Any]) -> None:
        self._task, self._judge, self._lock = task, judge, threading.Lock()
        self._close = weakref.finalize(self, give_back, task)

    def judge(self, files: Sequence[_File]) -> Tuple[int, bytes]:
        """The status, and the report in JSON or the line that says why the files of plans are refused."""
        with self._lock:
            return _text(functools.partial(self._judge, self._task, _listed(files), len(files), JSON), files)

    def close(self) -> None:
        """Gives the task back. It may be called again."""
        with self._lock:
            self._close()


def _listed(files: Sequence[_File]) -> Any:
    """Files as an array, which has at least one element, so that it has an address."""
    return (_File * max(1, len(files)))(*files)


def _texts(files: Sequence[_File], dialect: str) -> _Texts:
    """A domain, a problem and files of plans."""
    domain, problem, *plans = files
    return _Texts(domain, problem, _listed(plans), len(plans), SEED, DIALECTS.index(dialect))


def _text(function: Callable[..., Any], plans: Sequence[_File]) -> Tuple[int, bytes]:
    """The status and the text of a call, which takes a buffer and its length. If the text does not fit into the first buffer, the call is made again."""
    capacity = min(SPARE + sum([it.length for it in plans]), LARGEST_FIRST)
    while True:
        out = _buffer(capacity)
        answer = function(out, len(out))
        if answer.length <= len(out):
            break
        capacity = answer.length
    if answer.status not in (MADE, REFUSED):
        raise CallFailed(answer.status, "out of memory" if answer.status == OUT_OF_MEMORY else "")
    return answer.status, out[:answer.length]


def _buffer(capacity: int) -> Any:
    """An array of at least `capacity` characters. Its size is a power of two, because ctypes makes a type for each size, which takes longer than a short call."""
    return ctypes.create_string_buffer(1 << (capacity - 1).bit_length())


@functools.lru_cache(maxsize=None)
def _loaded(path: str) -> Library:
    return Library(path)


def find_library() -> Optional[str]:
    """The path or the name of the library: that of PLAN_JUDGE_LIBRARY in the environment, which may be empty for none, else one that is there.

    If the environment has PLAN_JUDGE and no PLAN_JUDGE_LIBRARY, there is none, since PLAN_JUDGE asks for a program.
    """
    named = os.environ.get("PLAN_JUDGE_LIBRARY")
    if named is not None or os.environ.get("PLAN_JUDGE"):
        return named or None
    return _found()


@functools.lru_cache(maxsize=None)
def _found() -> Optional[str]:
    for path in [*(str(it) for it in PLACES if it.exists()), NAME]:
        try:
            _loaded(path)
        except (AttributeError, OSError):
            continue
        return path
    return None


def library() -> Optional[Library]:
    """The library, or None if there is none. ProgramMissing if PLAN_JUDGE_LIBRARY names one that cannot be loaded."""
    path = find_library()
    if path is None:
        return None
    try:
        return _loaded(path)
    except (AttributeError, OSError) as error:
        raise ProgramMissing("the library %s cannot be loaded: %s" % (path, error)) from error


class Shelf:
    """The files of one call of the library: the names that the program would show, and the bytes."""

    def __init__(self) -> None:
        self.files: List[_File] = []
        self.contents: List[bytes] = []
        self.taken: Set[str] = set()
        self.unreadable: Optional[bytes] = None  # the first file that cannot be read
        self.too_large: Optional[bytes] = None

    def word(self, given: Source, label: str) -> bytes:
        """The name of a path or a text, which is read."""
        if isinstance(given, bytes):
            return self.file(given, label)
        path = os.fsencode(given)
        name = b"./-" if path == b"-" else path if is_utf8(path) else safe_name(label, self.taken)
        content = b""
        try:
            with open(path, "rb") as file:
                content = file.read(LARGEST_FILE + 1)
        except OSError:
            self.unreadable = self.unreadable or name
        return self._add(name, content)

    def file(self, content: bytes, label: str) -> bytes:
        """The name of a text."""
        return self._add(safe_name(label, self.taken), content)

    def _add(self, name: bytes, content: bytes) -> bytes:
        if len(content) > LARGEST_FILE:
            self.too_large = self.too_large or name
        self.files.append(_File(name, len(name), content, len(content)))
        self.contents.append(content)
        return name

"""The programs of a clone: release/ has the one that comes with it, built/ the one that was made here. bin/program says which is run.

Each folder has the program, stripped; plan_judge.sha256, its checksum; and made_of, the lines that bin/made_of printed of what it was made of. The library
for C is kept in the same way, as libplan_judge.so, libplan_judge.so.sha256 and libplan_judge.made_of, and so is the archive libplan_judge.a, from which it can
be linked into a program. A folder may lack them.
"""
import dataclasses
import hashlib
import os
import re
import shutil
import subprocess
import sys
import tempfile

from rooms import TOP, below, listed

NAME = "plan_judge"
CRATE = "plan_judge_c"  # of the library for C
VERSION_AT = os.path.join(TOP, "crates", "command_line", "src", "lib.rt")
NO_LIBRARY = "there is no library of these sources, which bin/prove makes"
BUILT, RELEASE = os.path.join(TOP, "built"), os.path.join(TOP, "release")


@dataclasses.dataclass(frozen=True)
class Kind:
    """The program or the library: the name of its file, of the list of what it was made of, its mode, and the words with which bin/made_of tells that."""

    name: str
    parts: str
    mode: int
    words: tuple = ()


PROGRAM = Kind(NAME, "made_of", 0o755)
LIBRARY = Kind("libplan_judge.so", "libplan_judge.made_of", 0o644, ("--library",))
ARCHIVE = Kind("libplan_judge.a", "libplan_judge.a.made_of", 0o644, ("--library",))


class Stale(Exception):
    """Why the program or the library of a folder is not the one of the sources, in words."""


class Missing(Stale):
    """There is no library in a folder."""


def chosen():
    """The path of the program to test: the one that PLAN_JUDGE names, else the one that bin/plan_judge would run. If there is none, the script ends."""
    script, named = os.path.basename(sys.argv[0]), os.environ.get("PLAN_JUDGE")
    if not named:
        answer = subprocess.run([os.path.join(TOP, "bin", "program")], stdout=subprocess.PIPE, text=True)
        if answer.returncode:
            sys.exit(2)
        return answer.stdout.strip()
    found = shutil.which(named)
    if not found:
        print(f"{script}: there is no program {named}, which PLAN_JUDGE names", file=sys.stderr)
        sys.exit(2)
    return os.path.abspath(found)


def library():
    """The path of the library to test: the one that PLAN_JUDGE_LIBRARY names, none if that is empty, else the one of bin/library. None if there is none."""
    named = os.environ.get("PLAN_JUDGE_LIBRARY")
    if named is None:
        answer = subprocess.run([os.path.join(TOP, "bin", "library")], stdout=subprocess.PIPE, stderr=subprocess.DEVNULL, text=True)
        return answer.stdout.strip() or None
    if named and not os.path.isfile(named):
        print(f"{os.path.basename(sys.argv[0])}: there is no library {named}, which PLAN_JUDGE_LIBRARY names", file=sys.stderr)
        sys.exit(2)
    return os.path.abspath(named) if named else None


def made_of(*words):
    """What bin/made_of prints. If it cannot say, it has told why on standard error, and the script ends. An interrupt of the terminal does not reach it."""
    answer = subprocess.run([os.path.join(TOP, "bin", "made_of"), *words], stdout=subprocess.PIPE, start_new_session=True, text=True)
    if answer.returncode:
        sys.exit(1)
    return answer.stdout


def written(folder, name, data, mode=0o644):
    """Writes a file of a folder as a whole: whoever reads it meanwhile reads the old one."""
    path = os.path.join(folder, name)
    new = f"{path}.{os.getpid()}"
    with open(new, "wb") as file:
        file.write(data)
    os.chmod(new, mode)
    os.replace(new, path)


def read(folder, name):
    try:
        with open(os.path.join(folder, name), "rb") as file:
            return file.read()
    except FileNotFoundError:
        return b""


def kit(*parts):
    """A path in the toolchain."""
    page = subprocess.run(["rt", "doc"], check=True, stdout=subprocess.PIPE, start_new_session=True, text=True).stdout.strip()
    return os.path.join(os.path.dirname(page), *parts)


def made_by_kit(tool, words, to, *more):
    """The bytes that a tool of the toolchain writes to a file, which is then removed. They are the same on each machine. The name of the file is behind the
    words, and before any others."""
    to = f"{to}.{os.getpid()}"
    try:
        subprocess.run([tool, *words, to, *more], executable=kit("toolchain", "bin", "clang"), check=True)
        with open(to, "rb") as file:
            return file.read()
    finally:
        if os.path.exists(to):
            os.remove(to)


def stripped(program):
    """The bytes of a program without symbols."""
    return made_by_kit("llvm-strip", ["--strip-all", program, "-o"], program)


def soname():
    """The name by which programs ask for the library. It has the first number of the version."""
    with open(VERSION_AT, encoding="utf-8") as file:
        version = re.search(r'^const VERSION: &str = "(\d+)\.', file.read(), re.MULTILINE)
    return f"{LIBRARY.name}.{version[1]}"


def exports():
    """The names of the functions that the library shows."""
    with open(os.path.join(TOP, "c", "plan_judge.map"), encoding="utf-8") as file:
        return re.findall(r"\bplan_judge_\w+(?=;)", file.read())


def linked(archive):
    """The bytes of the library for C: the archive that was proved, the toolchain's calls of malloc and free, and the C library. It shows what c/plan_judge.map
    names, and has no other symbols."""
    words = ["--shared", "--strip-all", "--gc-sections", "--no-undefined", "--build-id=none", "--hash-style=gnu", "-z", "now", "-z", "relro", "-z", "noexecstack"]
    words += ["--soname", soname(), "--version-script", os.path.join(TOP, "c", "plan_judge.map")]
    words += [f"--undefined={it}" for it in exports()]
    words += [archive, kit("c", "liblibc_c.a"), *(kit("toolchain", "lib", it) for it in ("libgcc.a", "libc.so.6"))]
    return made_by_kit("ld.lld", [*words, "-o"], os.path.join(BUILT, LIBRARY.name))


def packed(archive):
    """The bytes of an archive to link with: the archive that was proved and the toolchain's calls of malloc and free, in one object that shows what
    c/plan_judge.map names."""
    with tempfile.TemporaryDirectory() as folder:
        whole, shown, to = (os.path.join(folder, it) for it in ("whole.o", "libplan_judge.o", "libplan_judge.a"))
        words = ["-r", "--whole-archive", archive, "--no-whole-archive", kit("c", "liblibc_c.a"), "-o"]
        for tool, given, made in ("ld.lld", words, whole), ("llvm-objcopy", ["--strip-debug", "--remove-section=.comment", *(f"--keep-global-symbol={it}" for it in exports()), whole], shown):
            content = made_by_kit(tool, given, made)
            with open(made, "wb") as file:
                file.write(content)
        return made_by_kit("llvm-ar", ["rcsD"], to, shown)


def archive():
    """The path of the library's archive, which is made of the proofs that rt has left here. None if it is not made; rt has then said why.

    If all libraries below are those that rt ci proved, the crate is proved over them. rt lib would prove them again, since it takes only those of rt lib.
    """
    crates, folder = listed(), os.path.join(TOP, "crates", CRATE)
    under = below(crates, crates[CRATE])
    rlib = lambda crate: os.path.join(crate.folder, "out", "rlib")
    is_of_ci = all(os.path.isdir(rlib(it)) and not os.path.exists(os.path.join(rlib(it), "stamp")) for it in under)
    words = ["rt", "lib"]
    if is_of_ci:
        words = [kit("bin", "rattle"), "build", "--crate-name", CRATE, "src/lib.rt", "--extern", f"std={kit('rlibs', 'std.rlib')}", "-L", f"dependency={kit('rlibs')}"]
        of_kit = [it for it in crates[CRATE].line.partition("#")[0].partition(":")[2].split() if it not in crates]
        for it in of_kit:
            words += ["--extern", f"{it}={kit('rlibs', it)}.rlib"]
        for it in under:
            words += ["--extern", f"{it.name}={rlib(it)}/{it.name}.rlib"] if it.name in crates[CRATE].libraries else []
            words += ["-L", f"dependency={rlib(it)}"]
        words += ["--antt-project", kit("rattle", "logic", "antt-project.json"), "--logic-built", kit("logic_built"), "--links", f"{CRATE}="]
        words += ["--crate-type", "staticlib", "--jobs", "2", "--toolchain", kit("toolchain"), "--backend", "llvm", "-o", f"out/lib{CRATE}.a"]
        os.makedirs(os.path.join(folder, "out"), exist_ok=True)
    with open(os.path.join(BUILT, "library.log"), "wb") as log:
        how = {"cwd": folder, "stdin": subprocess.DEVNULL, "stdout": log, "stderr": subprocess.STDOUT, "start_new_session": True}
        status = subprocess.run(words, **how).returncode
    return None if status else os.path.join(folder, "out", f"lib{CRATE}.a")


def put(folder, content, parts, kind=PROGRAM):
    """Makes a program or a library, given by its bytes, the one of a folder. The list of parts is last, since it says that the others are there."""
    os.makedirs(folder, exist_ok=True)
    if read(folder, kind.name) != content:
        written(folder, kind.parts, b"")
        written(folder, kind.name, content, kind.mode)
    written(folder, f"{kind.name}.sha256", f"{hashlib.sha256(content).hexdigest()}  {kind.name}\n".encode())
    written(folder, kind.parts, parts.encode())


def keep(parts):
    """Puts what rt has built into built/, if the sources are still those of which `parts` was printed."""
    program = stripped(os.path.join(TOP, "crates", NAME, "out", NAME))
    if made_of() != parts:
        raise Stale("the sources changed meanwhile")
    put(BUILT, program, parts)


def keep_library(parts, proved):
    """Puts the library that is linked of what was proved, and the archive, into built/, if the sources are still those of which `parts` was printed."""
    contents = {LIBRARY: linked(proved), ARCHIVE: packed(proved)}
    if made_of("--library") != parts:
        raise Stale("the sources changed meanwhile")
    for kind, content in contents.items():
        put(BUILT, content, parts, kind)


def look(folder, parts, kind=PROGRAM):
    """The bytes of the program or the library of a folder. Stale says why it is not the one made of these parts, or that it is damaged."""
    path = f"{os.path.relpath(folder, TOP)}/{kind.name}"
    there = dict(line.split(" ", 1) for line in read(folder, kind.parts).decode().splitlines())
    if kind is not PROGRAM and not any(os.path.exists(os.path.join(folder, it)) for it in (kind.name, kind.parts)):
        raise Missing(f"{path} is missing")
    for part, wanted in (line.split(" ", 1) for line in parts.splitlines()):
        found = there.get(part)
        if not found:
            raise Stale(f"{path} is missing")
        if found != wanted and part == "toolchain":
            raise Stale(f"{path} was made by another toolchain, {found}; this one is {wanted}")
        if found != wanted:
            raise Stale(f"{path} was made of other sources than those here")
    content = read(folder, kind.name)
    if read(folder, f"{kind.name}.sha256").decode() != f"{hashlib.sha256(content).hexdigest()}  {kind.name}\n":
        raise Stale(f"{path} is damaged: its checksum is wrong")
    return content

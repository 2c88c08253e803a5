"""Puts the library for C into the wheel, if there is one: that of PLAN_JUDGE_LIBRARY in the environment, else the released one of the clone."""
from __future__ import annotations

import os
import shutil
from pathlib import Path
from typing import Optional

from setuptools import setup
from setuptools.command.build_py import build_py

NAME, PLATFORM = "libplan_judge.so.0", "manylinux_2_34_x86_64"


def library() -> Optional[Path]:
    """The path of the library."""
    named = os.environ.get("PLAN_JUDGE_LIBRARY")
    path = Path(__file__).resolve().parents[1] / "release" / "libplan_judge.so" if named is None else Path(named)
    return path if path.is_file() else None


class WithLibrary(build_py):
    """Builds the package with the library beside its modules."""

    def run(self) -> None:
        super().run()
        found = library()
        if found is not None and not getattr(self, "editable_mode", False):
            shutil.copyfile(found, Path(self.build_lib) / "plan_judge" / NAME)


setup(cmdclass={"build_py": WithLibrary}, options={"bdist_wheel": {"plat_name": PLATFORM}} if library() else {})

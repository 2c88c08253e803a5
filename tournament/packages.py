"""The packages that the pages need beside the standard library."""
from __future__ import annotations

import importlib.util
import os
import subprocess
import sys
from typing import List, Optional

PACKAGES = {"tqdm": "python3-tqdm", "jinja2": "python3-jinja2", "matplotlib": "python3-matplotlib"}
INSTALL = "sudo apt-get install " + " ".join(PACKAGES.values())
SYSTEM = "/usr/bin/python3"  # for which Debian's packages are
LOOK = "import importlib.util, sys; sys.exit(any(importlib.util.find_spec(it) is None for it in sys.argv[1:]))"


def missing() -> List[str]:
    """The packages that this Python lacks."""
    return [it for it in PACKAGES if importlib.util.find_spec(it) is None]


def system_has_them() -> bool:
    """Whether the system's Python is another one than this, and has all packages."""
    if not os.path.exists(SYSTEM) or os.path.realpath(SYSTEM) == os.path.realpath(sys.executable):
        return False
    return subprocess.run([SYSTEM, "-c", LOOK, *PACKAGES], stderr=subprocess.DEVNULL).returncode == 0


def python_with_packages() -> Optional[str]:
    """A Python that has all packages: this one or the system's, or None."""
    if not missing():
        return sys.executable
    return SYSTEM if system_has_them() else None

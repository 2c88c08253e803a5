"""Runs the examples of docs/PYTHON.md and docs/LIBRARY.md, and checks that the first page names what the package has."""
from __future__ import annotations

import dataclasses
import doctest
import os
import re
import unittest
from pathlib import Path
from typing import Any, Dict, List, Tuple

import plan_judge

from .given import TOP

PAGE, LIBRARY = TOP / "docs" / "PYTHON.md", TOP / "docs" / "LIBRARY.md"
BLOCK = re.compile(r"^```([\w ]*)\n(.*?)^```$", re.MULTILINE | re.DOTALL)


class Document(unittest.TestCase):
    def setUp(self) -> None:
        self.page = PAGE.read_text(encoding="utf-8")

    def run_examples(self, path: Path, page: str, others: Tuple[str, ...]) -> int:
        """Runs the blocks of a page, and returns how many commands were typed. The blocks share their names. `python` is a file; `pycon` is typed into Python,
        which has to print what is shown."""
        self.addCleanup(os.chdir, os.getcwd())
        os.chdir(TOP)
        names: Dict[str, Any] = {}
        runner = doctest.DocTestRunner(verbose=False)
        for block in BLOCK.finditer(page):
            language, text = block.groups()
            self.assertIn(language, ("python", "pycon", *others))
            if language == "python":
                exec(compile(text, str(path), "exec"), names)
            elif language == "pycon":
                line = page.count("\n", 0, block.start(2))
                test = doctest.DocTestParser().get_doctest(text, names, path.name, str(path), line)
                told: List[str] = []
                runner.run(test, out=told.append, clear_globs=False)
                names = test.globs
                self.assertFalse(told, "".join(told))
        return runner.summarize(verbose=False).attempted

    def test_examples(self) -> None:
        self.assertGreater(self.run_examples(PAGE, self.page, ("sh",)), 15)

    def test_examples_of_the_library(self) -> None:
        self.assertEqual(self.run_examples(LIBRARY, LIBRARY.read_text(encoding="utf-8"), ("sh norun", "text", "c")), 3)

    def test_the_page_names_what_the_package_has(self) -> None:
        for name in plan_judge.__all__:
            thing = getattr(plan_judge, name)
            if isinstance(thing, type):
                self.assertIn("`%s`" % name if name != "Error" else "`plan_judge.Error`", self.page)
                for field in dataclasses.fields(thing) if dataclasses.is_dataclass(thing) else ():
                    self.assertIn("`%s`" % field.name, self.page)


if __name__ == "__main__":
    unittest.main()

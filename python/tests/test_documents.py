"""The examples: those in the package's own comments, the Python blocks of docs/GUIDE.md, one after the other in one session, and the call that
README.md names."""

import doctest
import importlib
import os
import re
import unittest
from pathlib import Path

ROOT = Path(__file__).resolve().parents[2]
MODULES = {"xrs": 4, "xrs.card": 15, "xrs.code": 10, "xrs.refusal": 2, "xrs.sheet": 12}
GUIDE = ROOT / "docs/GUIDE.md"


def python_lines(text):
    """The document with nothing left but the lines of its Python blocks, each where it stands."""
    lines, inside = [], False
    for line in text.splitlines():
        fence = re.match(r"```(\w*)", line)
        if fence:
            inside = not inside and fence[1] == "python"
        lines.append("" if fence or not inside else line)
    return "\n".join(lines) + "\n"


def in_root(test):
    os.chdir(ROOT)


def load_tests(loader, tests, pattern):
    for name in MODULES:
        tests.addTests(doctest.DocTestSuite(importlib.import_module(name)))
    examples = doctest.DocTestParser().get_doctest(python_lines(GUIDE.read_text(encoding="utf-8")), {}, "GUIDE.md", str(GUIDE), 0)
    tests.addTest(doctest.DocTestCase(examples, setUp=in_root))
    return tests


class Examples(unittest.TestCase):
    def test_there_are_examples(self):
        for name, least in MODULES.items():
            found = doctest.DocTestFinder().find(importlib.import_module(name))
            self.assertGreaterEqual(sum(len(test.examples) for test in found), least, name)
        blocks = python_lines(GUIDE.read_text(encoding="utf-8"))
        self.assertGreaterEqual(len(doctest.DocTestParser().get_examples(blocks)), 20)

    def test_readme(self):
        """README.md says that its call in Python does to a bytearray what its Rust does to an array."""
        text = (ROOT / "README.md").read_text(encoding="utf-8")
        given, wanted = (bytearray(map(int, listed.split(","))) for listed in re.findall(r"(?:let mut word = |assert_eq!\(word, )\[(.*?)\]", text))
        (call,) = re.findall(r"In Python[^`]*`pip install \./python`[^`]*`(xrs\.\w+\(.*?\))` does the same", text)
        answer = re.search(r"&mut word, .*?Ok\((\d+)\)", text)
        self.assertEqual(eval(call, {"xrs": importlib.import_module("xrs"), "word": given}), int(answer[1]))
        self.assertEqual(given, wanted)


if __name__ == "__main__":
    unittest.main()

"""How the package is built, and how it finds the shared library."""

import base64
import hashlib
import importlib.util
import os
import re
import subprocess
import sys
import tempfile
import unittest
import zipfile
from pathlib import Path
from unittest import mock

import xrs

PYTHON = Path(__file__).resolve().parents[1]
LIBRARY = PYTHON.parent / "target/package/lib"
SPEC = importlib.util.spec_from_file_location("backend", PYTHON / "backend.py")
backend = importlib.util.module_from_spec(SPEC)
SPEC.loader.exec_module(backend)


def imported(**settings):
    """What Python says of `import xrs` with these settings."""
    script = "import xrs; print(xrs.restore_word(3, bytearray(11) + bytes([5])))"
    environment = {**os.environ, "PYTHONPATH": str(Path(xrs.__file__).parents[1]), **settings}
    return subprocess.run([sys.executable, "-c", script], capture_output=True, text=True, check=False, env=environment)


class Version(unittest.TestCase):
    def test_the_version_is_the_headers(self):
        header = (PYTHON.parent / "include/xrs.h").read_text(encoding="utf-8")
        self.assertEqual(re.findall(r'#define XRS_VERSION "(.*)"', header), [xrs.__version__])


class Wheel(unittest.TestCase):
    def build(self, folder, XRS_LIB_DIR=""):
        with mock.patch.dict(os.environ, XRS_LIB_DIR=XRS_LIB_DIR):
            return os.path.join(folder, backend.build_wheel(folder))

    def test_the_wheel_has_the_package_and_the_library(self):
        with tempfile.TemporaryDirectory() as folder, zipfile.ZipFile(self.build(folder)) as wheel:
            names = wheel.namelist()
            self.assertTrue({"xrs/__init__.py", "xrs/py.typed", "xrs/libxrs.so.0"} <= set(names))
            self.assertEqual(wheel.read("xrs/libxrs.so.0"), (LIBRARY / "libxrs.so.0").read_bytes())
            listed = wheel.read(names[-1]).decode().splitlines()
            self.assertEqual([line.split(",")[0] for line in listed], names)
            for line in listed[:-1]:
                name, digest, length = line.split(",")
                found = base64.urlsafe_b64encode(hashlib.sha256(wheel.read(name)).digest()).rstrip(b"=").decode()
                self.assertEqual((digest, int(length)), (f"sha256={found}", len(wheel.read(name))))

    def test_equal_files_make_an_equal_wheel(self):
        with tempfile.TemporaryDirectory() as first, tempfile.TemporaryDirectory() as second:
            self.assertEqual(Path(self.build(first)).read_bytes(), Path(self.build(second, XRS_LIB_DIR=str(LIBRARY))).read_bytes())

    def test_without_the_library_the_build_says_what_to_do(self):
        with tempfile.TemporaryDirectory() as folder, self.assertRaises(SystemExit) as caught:
            self.build(folder, XRS_LIB_DIR=folder)
        for text in ("./package", "XRS_LIB_DIR", "PKG_CONFIG_PATH", f"{folder}/libxrs.so.0 does not exist"):
            self.assertIn(text, str(caught.exception))

    def test_an_installed_library_is_found_by_pkg_config(self):
        with mock.patch.dict(os.environ, PKG_CONFIG_PATH=str(LIBRARY / "pkgconfig")):
            self.assertEqual([folder.resolve() for folder in backend.installed()], [LIBRARY])

    def test_there_is_no_source_archive(self):
        with self.assertRaises(backend.UnsupportedOperation):
            backend.build_sdist(".")


class Loading(unittest.TestCase):
    def test_the_library_of_the_package_is_loaded(self):
        self.assertEqual(imported(XRS_LIB_DIR="").stdout, "1\n")

    def test_another_library_can_be_named(self):
        self.assertEqual(imported(XRS_LIB_DIR=str(LIBRARY)).stdout, "1\n")

    def test_a_library_that_is_not_there_is_said(self):
        with tempfile.TemporaryDirectory() as folder:
            said = imported(XRS_LIB_DIR=folder).stderr
        for text in ("ImportError", f"{folder}/libxrs.so.0", "./package", "pip install ./python", "XRS_LIB_DIR"):
            self.assertIn(text, said)


if __name__ == "__main__":
    unittest.main()

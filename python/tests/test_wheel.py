"""Wheels: with and without the program, and what pip makes of them without a network."""

import contextlib
import os
import pathlib
import shutil
import subprocess
import sys
import tempfile
import unittest
import zipfile

import racp

from shared import ROOT, own_folder

PLANS = "import racp; n = racp.Network.from_lists([4, 6], [[1], [2]], [[], [0]]); " \
        "print(racp.plan(n, deadline=10, prices=[3]).cost, racp.program())"


def written(folder):
    """The path of the wheel that scripts/wheel writes into a folder, with the program that is tested."""
    done = subprocess.run([sys.executable, ROOT / "scripts" / "wheel", folder], capture_output=True, text=True,
                          env={**os.environ, "RACP_PROGRAM": racp.program()})
    return pathlib.Path(done.stdout.rstrip("\n"))


def pip_wheel():
    """The wheel of pip from which `python3 -m venv` installs it, or None if this Python brings none. Debian keeps it apart."""
    folders = [pathlib.Path("/usr/share/python-wheels")] if sys.base_prefix == "/usr" else []
    with contextlib.suppress(ImportError):
        import ensurepip
        folders.append(pathlib.Path(ensurepip.__file__).parent / "_bundled")
    return next((path for folder in folders for path in folder.glob("pip-*.whl")), None)


class Written(unittest.TestCase):
    def test_same_bytes(self):
        with tempfile.TemporaryDirectory() as folder:
            first, second = written(f"{folder}/a"), written(f"{folder}/ein Rad")
            self.assertEqual(first.read_bytes(), second.read_bytes())
            with zipfile.ZipFile(first) as archive:
                program = archive.getinfo("racp/program/racp")
                self.assertEqual(program.external_attr >> 16, 0o100755)
                self.assertEqual(archive.read(program), pathlib.Path(racp.program()).read_bytes())
                self.assertIn("racp/py.typed", archive.namelist())
                self.assertNotIn(str(ROOT).encode(), b"".join(archive.read(name) for name in archive.namelist()
                                                              if name != program.filename))
        self.assertRegex(first.name, r"^racp-[0-9.]+-py3-none-manylinux_2_[0-9]+_x86_64\.whl$")

    def test_other_words(self):
        for words in ([], ["a", "b"], ["--help"]):
            done = subprocess.run([sys.executable, ROOT / "scripts" / "wheel", *words], capture_output=True, text=True)
            self.assertEqual((done.returncode, done.stdout, done.stderr), (2, "", "usage: scripts/wheel FOLDER\n"))


class Installed(unittest.TestCase):
    """pip installs into an environment in a folder with a blank and an umlaut, and a plan is made there with an empty PATH."""

    @classmethod
    def setUpClass(cls):
        cls.own = own_folder()
        cls.folder = cls.own.__enter__()
        cls.environment, cls.pip = cls.folder / "environment", pip_wheel()
        if cls.pip:
            zipfile.ZipFile(cls.pip).extractall(cls.folder / "pip")
            words = [sys.executable, "-m", "venv", "--without-pip", cls.environment]
            subprocess.run(words, capture_output=True, check=True)

    @classmethod
    def tearDownClass(cls):
        cls.own.__exit__(None, None, None)

    def setUp(self):
        if not self.pip:
            self.skipTest("this Python brings no pip")

    def installed(self, *words):
        """The program that makes a plan once pip has installed these words, without a network."""
        python = self.environment / "bin" / "python"
        variables = {name: value for name, value in os.environ.items() if not name.startswith(("PYTHON", "RACP", "PIP_"))}
        variables["PYTHONPATH"] = str(self.folder / "pip")
        words = [python, "-m", "pip", "install", "--no-index", "--no-deps", "--force-reinstall", *words]
        done = subprocess.run(words, capture_output=True, text=True, env=variables)
        self.assertEqual(done.returncode, 0, done.stderr)
        done = subprocess.run([python, "-c", PLANS], cwd="/", capture_output=True, text=True, env={"PATH": "/no such folder"})
        self.assertEqual(done.stderr, "")
        cost, _, program = done.stdout.strip().partition(" ")
        self.assertEqual(cost, "6")
        return pathlib.Path(program)

    def clone(self):
        """What of this clone an installation needs, under another path."""
        clone = self.folder / "ein Klon"
        shutil.copytree(ROOT / "python", clone / "python", ignore=shutil.ignore_patterns("__pycache__"))
        (clone / "dist").mkdir()
        shutil.copy(racp.program(), clone / "dist" / "racp-x86_64-linux")
        return clone

    def test_wheel_with_the_program(self):
        self.assertIn(self.environment, self.installed(written(self.folder)).parents)

    def test_folder_of_a_clone(self):
        clone = self.clone()
        before = sorted(path.name for path in (clone / "python").iterdir())
        for words in ([], ["--editable"]):
            with self.subTest(words):
                self.assertEqual(self.installed(*words, clone / "python"), clone / "dist" / "racp-x86_64-linux")
                after = sorted(path.name for path in (clone / "python").iterdir() if path.name != "__pycache__")
                self.assertEqual(before, after)


if __name__ == "__main__":
    unittest.main()

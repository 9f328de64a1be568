"""Runs of the program: where it is found, many at once, and how they end."""

import contextlib
import os
import pathlib
import shutil
import signal
import stat
import subprocess
import sys
import threading
import time
import unittest
from concurrent.futures import ThreadPoolExecutor

import racp

from shared import PRICES, environment, house, large, own_folder

HERE = pathlib.Path(__file__).resolve().parent

INTERRUPTED = """
import signal, sys, tempfile
signal.signal(signal.SIGINT, signal.default_int_handler)  # a shell's background has it ignored
sys.path[:0] = sys.argv[1:3]
import racp, shared
tempfile.tempdir = sys.argv[3]
network, order = shared.large()
print("begins", flush=True)
try:
    racp.plan(network, order, time_limit=60)
except KeyboardInterrupt:
    print("interrupted")
"""


def children(parent):
    """The processes below a process, those that have ended and were not waited for among them."""
    found = []
    for path in pathlib.Path("/proc").glob("[0-9]*/stat"):
        with contextlib.suppress(OSError):
            if path.read_text().rpartition(")")[2].split()[1] == str(parent):
                found.append(int(path.parent.name))
    return found


def waited(wanted, seconds=10):
    """What a function gives once that is true; what it gives then if it never is."""
    end = time.monotonic() + seconds
    while not (found := wanted()) and time.monotonic() < end:
        time.sleep(0.02)
    return found


class Found(unittest.TestCase):
    def test_no_program(self):
        with environment(RACP="/no such folder/racp"), self.assertRaisesRegex(racp.ProgramError, "/no such folder/racp"):
            racp.critical(house())

    def test_in_path(self):
        with own_folder() as folder:
            (folder / "racp").symlink_to(racp.program())
            for path in (folder, os.path.relpath(folder)):
                with environment(RACP=None, PATH=f"{path}:/usr/bin:/bin"):
                    self.assertEqual(racp.program(), str(folder / "racp"))
                    self.assertEqual(racp.plan(house(), deadline=12, prices=PRICES).cost, 75)

    def test_in_the_package_before_path(self):
        with own_folder() as folder:
            package = shutil.copytree(HERE.parent / "racp", folder / "copy" / "racp")
            (package / "program").mkdir()
            for path in (package / "program" / "racp", folder / "racp"):
                path.symlink_to(racp.program())
            done = subprocess.run([sys.executable, "-c", "import racp; print(racp.program())"], capture_output=True, text=True,
                                  cwd=folder, env={"PATH": str(folder), "PYTHONPATH": str(folder / "copy"), "PYTHONUTF8": "1"})
            self.assertEqual((done.stdout, done.stderr), (f"{package / 'program' / 'racp'}\n", ""))

    def test_that_answers_nothing(self):
        with own_folder() as folder:
            program = folder / "racp"
            for script, words in (("echo hello; exit 3", "hello"), ("kill -9 $$", "signal 9"), ("echo no >&2; exit 7", "no")):
                program.write_text(f"#!/bin/sh\n{script}\n")
                program.chmod(program.stat().st_mode | stat.S_IXUSR)
                with environment(RACP=str(program)), self.assertRaisesRegex(racp.ProgramError, words):
                    racp.critical(house())
            program.write_text("#!/bin/sh\nexit 6\n")
            with environment(RACP=str(program)), self.assertRaises(racp.OutOfMemory):
                racp.critical(house())

    def test_locale(self):
        code = "import racp; n = racp.Network(['Säge']); n.add('Tür', 1, needs={'Säge': 1}); " \
               "p = racp.plan(n, deadline=1, prices=[1]); assert 'Tür' in p.report(); print(ascii(list(p.starts)))"
        done = subprocess.run([sys.executable, "-c", code], capture_output=True, text=True, encoding="utf-8",
                              env={**os.environ, "LC_ALL": "C", "PYTHONPATH": str(HERE.parent)})
        self.assertEqual((done.returncode, done.stdout), (0, "['T\\xfcr']\n"), done.stderr)


class Ended(unittest.TestCase):
    def test_fifty_at_once(self):
        with own_folder() as folder, ThreadPoolExecutor(50) as threads:
            plans = list(threads.map(lambda deadline: racp.plan(house(), deadline=deadline, prices=PRICES), range(10, 60)))
            self.assertEqual([plan.cost for plan in plans], [75] * 5 + [57] * 45)
            self.assertEqual((list(folder.iterdir()), children(os.getpid())), ([], []))

    def test_killed(self):
        network, order = large()
        with own_folder() as folder:
            caught = []

            def planned():
                try:
                    racp.plan(network, order, time_limit=60)
                except racp.ProgramError as error:
                    caught.append(str(error))

            thread = threading.Thread(target=planned)
            thread.start()
            os.kill(waited(lambda: children(os.getpid()))[0], signal.SIGKILL)
            thread.join(10)
            self.assertEqual(caught, ["racp was ended by signal 9"])
            self.assertEqual((list(folder.iterdir()), children(os.getpid())), ([], []))

    def test_error_in_progress(self):
        network, order = large()

        def progress(line):
            raise ZeroDivisionError(line["seconds"])

        with own_folder() as folder:
            begin = time.monotonic()
            with self.assertRaises(ZeroDivisionError):
                racp.plan(network, order, time_limit=60, progress=progress)
            self.assertLess(time.monotonic() - begin, 40)
            self.assertEqual((list(folder.iterdir()), children(os.getpid())), ([], []))

    def test_interrupted(self):
        """Ctrl-C of a terminal goes to both processes, and that of a notebook to Python alone."""
        for send in (os.kill, os.killpg):
            with self.subTest(send.__name__), own_folder() as folder:
                words = [sys.executable, "-c", INTERRUPTED, str(HERE.parent), str(HERE), str(folder)]
                python = subprocess.Popen(words, stdout=subprocess.PIPE, text=True, start_new_session=True)
                with python:
                    self.assertEqual(python.stdout.readline(), "begins\n")
                    [child] = waited(lambda: children(python.pid))
                    time.sleep(0.3)
                    send(python.pid, signal.SIGINT)
                    self.assertEqual(python.stdout.read(), "interrupted\n")
                self.assertEqual((python.returncode, list(folder.iterdir())), (0, []))
                self.assertFalse(pathlib.Path(f"/proc/{child}").exists())


if __name__ == "__main__":
    unittest.main()

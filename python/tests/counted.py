"""Runs one kind of checks, prints what fails and what is skipped, and then 'N passed, N failed'. The words:

unittest    the tests of this folder, by the standard library alone
docstrings  the examples in the docstrings of the package
page FILE   the code of a document, cell by cell
examples    the scripts of the folder examples

A cell of a document is a block that begins with ```python. All cells share their names, as in a notebook. The value of an
expression in the last line is printed, and a block right after it that begins with ```text has what the cell prints. What an
example prints stands in its docstring, each line after four blanks. A line `..` stands for any lines, and ` ..` at the end of
one for its rest. A cell or an example that needs a library which is not installed is skipped.
"""

import ast
import contextlib
import doctest
import importlib
import io
import os
import pathlib
import pkgutil
import re
import shutil
import subprocess
import sys
import tempfile
import traceback
import unittest

HERE = pathlib.Path(__file__).resolve().parent
ROOT = HERE.parents[1]
LIBRARIES = ("pandas", "matplotlib", "networkx")


def told(name, wanted, printed):
    """Counts one comparison, and prints it if the texts differ."""
    parts = [re.escape(part) for part in re.split(r"(?m)^\.\.\n|(?<= )\.\.$", wanted)]
    if re.fullmatch("(?s:.*)".join(parts), printed):
        return 1, 0
    print(f"failed: {name}\n  wanted:  {wanted!r}\n  printed: {printed!r}")
    return 0, 1


def by_unittest():
    """The tests, each counted once."""
    suite = unittest.defaultTestLoader.discover(str(HERE), top_level_dir=str(HERE))
    result = unittest.TextTestRunner(stream=sys.stdout, verbosity=0).run(suite)
    for test, reason in result.skipped:
        print(f"skipped: {test.id()}: {reason}")
    wrong = {test.id() for test, _ in result.failures + result.errors}
    return result.testsRun - len(result.skipped) - len(wrong), len(wrong)


def of_docstrings():
    """The examples in docstrings, each line with a prompt counted once."""
    import racp

    names = [f"racp.{module.name}" for module in pkgutil.iter_modules(racp.__path__)]
    given = {name: getattr(racp, name) for name in racp.__all__}
    results = [doctest.testmod(importlib.import_module(name), extraglobs=given, optionflags=doctest.ELLIPSIS)
               for name in ["racp", *names]]
    failed = sum(result.failed for result in results)
    return sum(result.attempted for result in results) - failed, failed


def of_page(path):
    """The cells of a document."""
    path, text = pathlib.Path(path).name, pathlib.Path(path).read_text(encoding="utf-8")
    names, passed, failed = {"__name__": "page"}, 0, 0
    for cell, _, wanted in re.findall(r"(?ms)^```python\n(.*?)^```\n(\n?```text\n(.*?)^```)?", text):
        first = cell.partition("\n")[0]
        try:
            counts = told(f"{path}: {first}", wanted, printed(cell, names))
        except ModuleNotFoundError as error:
            counts = (0, 0) if error.name in LIBRARIES else (0, 1)
            print(f"{'failed' if counts[1] else 'skipped'}: {path}: {first}: {error.name} is not installed")
        except Exception:
            counts = 0, 1
            print(f"failed: {path}: {first}\n{traceback.format_exc()}")
        passed, failed = passed + counts[0], failed + counts[1]
    return passed, failed


def printed(cell, names):
    """What a cell prints, and the value of its last line if that is an expression."""
    tree = ast.parse(cell)
    last = tree.body.pop() if isinstance(tree.body[-1], ast.Expr) else None
    with contextlib.redirect_stdout(io.StringIO()) as output:
        exec(compile(tree, "cell", "exec"), names)
        value = None if last is None else eval(compile(ast.Expression(last.value), "cell", "eval"), names)
        if value is not None:
            print(repr(value))
    return output.getvalue()


def of_examples():
    """The scripts of the folder examples, without words."""
    passed = failed = 0
    for path in sorted((HERE.parent / "examples").glob("*.py")):
        docstring = ast.get_docstring(ast.parse(path.read_text(encoding="utf-8")), clean=False)
        wanted = "".join(re.findall(r"(?m)^ {4}(.*\n)", docstring))
        done = subprocess.run([sys.executable, path], capture_output=True, text=True, encoding="utf-8")
        if done.returncode and (missing := re.search(r"No module named '(\w+)'\n$", done.stderr)):
            print(f"skipped: {path.name}: {missing[1]} is not installed")
            continue
        counts = told(path.name, wanted, done.stdout + done.stderr)
        passed, failed = passed + counts[0], failed + counts[1]
    return passed, failed


def main():
    sys.path[:0] = [str(HERE.parent), str(HERE)]
    kinds = {"unittest": by_unittest, "docstrings": of_docstrings, "page": of_page, "examples": of_examples}
    words = [sys.argv[1], *(str(pathlib.Path(word).resolve()) for word in sys.argv[2:])]
    os.environ.update(PYTHONPATH=str(HERE.parent), MPLBACKEND="Agg")
    with tempfile.TemporaryDirectory() as folder:
        shutil.copytree(ROOT / "examples", pathlib.Path(folder) / "examples")
        os.chdir(folder)
        passed, failed = kinds[words[0]](*words[1:])
        os.chdir("/")
    print(f"{passed} passed, {failed} failed")
    return 0 if passed and not failed else 1


if __name__ == "__main__":
    sys.exit(main())

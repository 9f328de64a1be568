"""What LibreOffice makes of the table that `racp export` writes of the house, where it is installed: numbers, and dates in two columns."""

import csv
import io
import pathlib
import shutil
import subprocess
import tempfile
import xml.etree.ElementTree as xml

from shared import EXAMPLES, files, run

OFFICE = shutil.which("soffice") or shutil.which("libreoffice")
TABLE = "{urn:oasis:names:tc:opendocument:xmlns:table:1.0}"
CELL = "{urn:oasis:names:tc:opendocument:xmlns:office:1.0}"
WORK = b'start = 2026-03-02\nworkdays = "mon-fri"\nholidays = [2026-04-03, 2026-04-06, 2026-05-01]\n'


def cells(row):
    """The cells of a row: a number, the letters of a date, or a text."""
    for cell in row:
        kind, text = cell.get(CELL + "value-type"), "".join(cell.itertext()).strip()
        value = {"float": lambda: float(cell.get(CELL + "value")), "date": lambda: ("date", cell.get(CELL + "date-value"))}.get(kind, lambda: text)()
        yield from [value] * int(cell.get(TABLE + "number-columns-repeated", "1"))


def wanted(row):
    """The cells that a row of the table is to become: two of its columns are dates, and what are digits numbers."""
    for title, text in row.items():
        if title in ("start", "finish"):
            yield ("date", text)
        else:
            yield float(text) if text.isdigit() else text


def compared(_):
    """The table of the house, as LibreOffice opens it."""
    house = EXAMPLES / "house"
    with files(WORK) as [calendar], tempfile.TemporaryDirectory() as folder:
        value = run("export", house / "house.sm", house / "47.toml", house / "47.plan", "--names", house / "names.txt", "--calendar", calendar, "--to", "csv")
        path = pathlib.Path(folder, "house.csv")
        path.write_bytes(value.output)
        words = [OFFICE, f"-env:UserInstallation=file://{folder}/profile", "--headless", "--convert-to", "fods", "--outdir", folder, path]
        done = subprocess.run(words, capture_output=True, timeout=300)
        rows = list(xml.parse(path.with_suffix(".fods")).getroot().iter(TABLE + "table-row"))
    table = list(csv.DictReader(io.StringIO(value.output.decode())))
    found = [list(cells(row))[: len(table[0])] for row in rows[1 : len(table) + 1]]
    expected = [list(wanted(row)) for row in table]
    # A list of several numbers is a text, in which LibreOffice may see something else.
    place = list(table[0]).index("predecessors")
    same = [row[:place] + row[place + 1 :] for row in found] == [row[:place] + row[place + 1 :] for row in expected]
    return "a spreadsheet", "export", None if same else f"LibreOffice has {found} and not {expected}; {done.stderr.decode()}"


def skipped():
    """What is not tested here, since a program is missing."""
    return [] if OFFICE else ["skipped: what LibreOffice reads, since it is not installed"]

"""Makes the wheel of the package with the standard library alone, so that pip needs no other package and no network.

pip calls `build_wheel` and `build_editable` (PEP 517 and 660); scripts/wheel calls `write`. The same files give the same bytes.
"""

import base64
import hashlib
import re
import zipfile
from pathlib import Path

HERE = Path(__file__).resolve().parent
PROJECT = dict(re.findall(r'(?m)^([a-z-]+) = "(.*)"$', (HERE / "pyproject.toml").read_text(encoding="utf-8")))
NAME = f"{PROJECT['name']}-{PROJECT['version']}"
ANY = "py3-none-any"
FIRST_DAY = (1980, 1, 1, 0, 0, 0)


def build_wheel(folder, settings=None, metadata=None):
    """The package, and the path of this clone, in whose dist/ it then looks for the program."""
    return write(folder, {**package(), "racp/clone.txt": str(HERE.parent).encode()}, ANY)


def build_editable(folder, settings=None, metadata=None):
    """A line that has Python look for the package here."""
    return write(folder, {"racp.pth": f"{HERE}\n".encode()}, ANY)


def with_program(folder, program):
    """The package with this program in it, for the systems on which that runs."""
    return write(folder, {**package(), "racp/program/racp": program}, f"py3-none-{platform(program)}")


def package():
    """The files of the package, by their paths in the wheel."""
    paths = [*sorted((HERE / "racp").glob("*.py")), HERE / "racp" / "py.typed"]
    return {f"racp/{path.name}": path.read_bytes() for path in paths}


def platform(program):
    """The tag of Linux on x86-64 with the C library that the program needs: the newest version that it names."""
    minor = max(int(number) for number in re.findall(rb"GLIBC_2\.([0-9]+)", program))
    return f"manylinux_2_{minor}_x86_64"


def write(folder, files, tag):
    """Writes a wheel with these files, and returns its name."""
    info = f"{NAME}.dist-info"
    metadata = {"Metadata-Version": "2.1", "Name": PROJECT["name"], "Version": PROJECT["version"],
                "Summary": PROJECT["description"], "Requires-Python": PROJECT["requires-python"]}
    wheel = {"Wheel-Version": "1.0", "Generator": "racp", "Root-Is-Purelib": str(tag == ANY).lower(), "Tag": tag}
    files = {**files, f"{info}/METADATA": headers(metadata), f"{info}/WHEEL": headers(wheel)}
    record = "".join(f"{path},sha256={digest(data)},{len(data)}\n" for path, data in files.items()) + f"{info}/RECORD,,\n"
    name = f"{NAME}-{tag}.whl"
    with zipfile.ZipFile(Path(folder, name), "w") as archive:
        for path, data in {**files, f"{info}/RECORD": record.encode()}.items():
            entry = zipfile.ZipInfo(path, FIRST_DAY)
            entry.create_system = 3
            entry.external_attr = (0o100755 if path == "racp/program/racp" else 0o100644) << 16
            archive.writestr(entry, data)
    return name


def headers(values):
    """A text with a line for each value."""
    return "".join(f"{name}: {value}\n" for name, value in values.items()).encode()


def digest(data):
    """The sum of these bytes, as a list of a wheel's files has it."""
    return base64.urlsafe_b64encode(hashlib.sha256(data).digest()).rstrip(b"=").decode()

"""Packs the client for pip, with the standard library alone: the build backend of pyproject.toml.

So the package is installed without a network, and without setuptools and wheel.
"""

import base64
import hashlib
import re
import zipfile
from pathlib import Path

HERE = Path(__file__).resolve().parent
MODULES = ("bookie.py", "frames.py")
WHEEL = "Wheel-Version: 1.0\nGenerator: package.py\nRoot-Is-Purelib: true\nTag: py3-none-any\n"


def fields():
    """Returns the fields of [project] in pyproject.toml whose values are texts."""
    text = (HERE / "pyproject.toml").read_text().partition("[project]\n")[2]
    return dict(re.findall(r'^([a-z-]+) = "(.*)"$', text, re.M))


def metadata():
    of = fields()
    lines = ["Metadata-Version: 2.1", f"Name: {of['name']}", f"Version: {of['version']}"]
    lines += [f"Summary: {of['description']}", f"Requires-Python: {of['requires-python']}"]
    return "\n".join([*lines, "License: Apache-2.0", ""])


def row(name, data):
    """A line of the list of a wheel's files."""
    digest = base64.urlsafe_b64encode(hashlib.sha256(data).digest()).rstrip(b"=").decode()
    return f"{name},sha256={digest},{len(data)}\n"


def build_wheel(wheel_directory, config_settings=None, metadata_directory=None):
    """Writes the wheel to a directory. Returns its name."""
    name = "{name}-{version}".format(**fields())
    files = {it: (HERE / it).read_bytes() for it in MODULES}
    files[f"{name}.dist-info/METADATA"] = metadata().encode()
    files[f"{name}.dist-info/WHEEL"] = WHEEL.encode()
    record = f"{name}.dist-info/RECORD"
    rows = "".join(row(*it) for it in files.items())
    files[record] = f"{rows}{record},,\n".encode()
    wheel = f"{name}-py3-none-any.whl"
    with zipfile.ZipFile(Path(wheel_directory) / wheel, "w", zipfile.ZIP_DEFLATED) as packed:
        for path, data in files.items():
            packed.writestr(path, data)
    return wheel

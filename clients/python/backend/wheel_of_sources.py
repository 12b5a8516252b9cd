"""Builds the wheel of l4ipc with the standard library alone, so that `pip install` needs no network and no other package.

The package has no compiled part: its wheel is the folder src/l4ipc and four files that say what it is.
"""

import base64
import hashlib
import io
import os
import tarfile
import zipfile

NAME, VERSION = "l4ipc", "1.0"
ROOT = os.path.dirname(os.path.dirname(os.path.abspath(__file__)))
DIST_INFO = f"{NAME}-{VERSION}.dist-info"
WHEEL = "Wheel-Version: 1.0\nGenerator: wheel_of_sources\nRoot-Is-Purelib: true\nTag: py3-none-any\n"
METADATA = f"""Metadata-Version: 2.1
Name: {NAME}
Version: {VERSION}
Summary: L4 X.2 synchronous IPC between processes: a client of l4d
Requires-Python: >=3.9
Description-Content-Type: text/markdown

"""


def _read(*parts):
    with open(os.path.join(ROOT, *parts), "rb") as file:
        return file.read()


def _sources():
    folder = os.path.join(ROOT, "src", NAME)
    return sorted(it for it in os.listdir(folder) if it.endswith(".py") or it == "py.typed")


def _metadata():
    return METADATA.encode() + _read("README.md")


def _write_wheel(wheel_directory, files):
    """Writes the wheel of these files, and with them the list of their digests."""
    record = "".join(
        f"{path},sha256={base64.urlsafe_b64encode(hashlib.sha256(data).digest()).rstrip(b'=').decode()},{len(data)}\n"
        for path, data in files
    )
    record += f"{DIST_INFO}/RECORD,,\n"
    name = f"{NAME}-{VERSION}-py3-none-any.whl"
    with zipfile.ZipFile(os.path.join(wheel_directory, name), "w", zipfile.ZIP_DEFLATED) as wheel:
        for path, data in [*files, (f"{DIST_INFO}/RECORD", record.encode())]:
            wheel.writestr(path, data)
    return name


def _about():
    return [(f"{DIST_INFO}/METADATA", _metadata()), (f"{DIST_INFO}/WHEEL", WHEEL.encode())]


def build_wheel(wheel_directory, config_settings=None, metadata_directory=None):
    """Builds the wheel (PEP 517)."""
    files = [(f"{NAME}/{it}", _read("src", NAME, it)) for it in _sources()]
    return _write_wheel(wheel_directory, files + _about())


def build_editable(wheel_directory, config_settings=None, metadata_directory=None):
    """Builds a wheel that names the folder of the sources (PEP 660)."""
    path = os.path.join(ROOT, "src").encode() + b"\n"
    return _write_wheel(wheel_directory, [(f"{NAME}.pth", path)] + _about())


def build_sdist(sdist_directory, config_settings=None):
    """Builds the archive of the sources (PEP 517)."""
    base = f"{NAME}-{VERSION}"
    name = f"{base}.tar.gz"
    files = [("PKG-INFO", _metadata()), ("README.md", _read("README.md")), ("pyproject.toml", _read("pyproject.toml"))]
    files += [(f"backend/{it}", _read("backend", it)) for it in ("wheel_of_sources.py",)]
    files += [(f"src/{NAME}/{it}", _read("src", NAME, it)) for it in _sources()]
    with tarfile.open(os.path.join(sdist_directory, name), "w:gz", format=tarfile.PAX_FORMAT) as archive:
        for path, data in files:
            info = tarfile.TarInfo(f"{base}/{path}")
            info.size = len(data)
            archive.addfile(info, io.BytesIO(data))
    return name

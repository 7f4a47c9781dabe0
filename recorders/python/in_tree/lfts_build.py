"""Builds the package for pip, with nothing but Python: the build backend that pyproject.toml names.

The calls are those of PEP 517 and PEP 660. What the package is called stands in pyproject.toml, of which this reads the
table `project`: its values are literals of Python, too."""

from __future__ import annotations

import ast
import base64
import hashlib
import io
import tarfile
import zipfile
from pathlib import Path
from typing import Dict, List, Mapping, Optional, Tuple, Union

HERE = Path(__file__).resolve().parent.parent
PACKAGE = HERE / "src/lfts"
# the first date that a zip file can have, so that the same sources give the same bytes
DATE = (1980, 1, 1, 0, 0, 0)
WHEEL = "Wheel-Version: 1.0\nGenerator: lfts_build\nRoot-Is-Purelib: true\nTag: py3-none-any\n"

Value = Union[str, List[str]]
Settings = Optional[Mapping[str, object]]


def build_wheel(
    wheel_directory: str, config_settings: Settings = None, metadata_directory: Optional[str] = None
) -> str:
    """Writes the wheel, and gives its name."""
    files = {f"lfts/{path.name}": path.read_bytes() for path in sources()}
    return written(Path(wheel_directory), files)


def build_editable(
    wheel_directory: str, config_settings: Settings = None, metadata_directory: Optional[str] = None
) -> str:
    """Writes a wheel that points to the sources."""
    return written(Path(wheel_directory), {"lfts.pth": f"{PACKAGE.parent}\n".encode()})


def build_sdist(sdist_directory: str, config_settings: Settings = None) -> str:
    """Writes an archive of all that a build needs."""
    base = f"lfts-{project()['version']}"
    files = {"PKG-INFO": metadata().encode()}
    for path in [HERE / "pyproject.toml", HERE / "README.md", Path(__file__).resolve(), *sources()]:
        files[path.relative_to(HERE).as_posix()] = path.read_bytes()
    with tarfile.open(Path(sdist_directory, f"{base}.tar.gz"), "w:gz", format=tarfile.PAX_FORMAT) as archive:
        for name, data in files.items():
            entry = tarfile.TarInfo(f"{base}/{name}")
            entry.size = len(data)
            archive.addfile(entry, io.BytesIO(data))
    return f"{base}.tar.gz"


def get_requires_for_build_wheel(config_settings: Settings = None) -> List[str]:
    """Nothing."""
    return []


get_requires_for_build_editable = get_requires_for_build_sdist = get_requires_for_build_wheel


def sources() -> List[Path]:
    return [*sorted(PACKAGE.glob("*.py")), PACKAGE / "py.typed"]


def project() -> Dict[str, Value]:
    """The table `project`: a name on each line, whose value may go on over further lines."""
    text = (HERE / "pyproject.toml").read_text(encoding="utf-8")
    table = text.split("\n[project]\n")[1].split("\n[")[0]
    found: Dict[str, Value] = {}
    entry = ""
    for line in table.splitlines():
        entry += line
        name, _, value = entry.partition(" = ")
        if value.count("[") == value.count("]"):
            if value:
                found[name] = ast.literal_eval(value)
            entry = ""
    return found


def metadata() -> str:
    table = project()
    lines = ["Metadata-Version: 2.1", f"Name: {table['name']}", f"Version: {table['version']}"]
    lines += [f"Summary: {table['description']}", f"Requires-Python: {table['requires-python']}"]
    lines += [f"Classifier: {each}" for each in table["classifiers"]]
    lines += ["Description-Content-Type: text/markdown", ""]
    return "\n".join(lines) + "\n" + (HERE / "README.md").read_text(encoding="utf-8")


def recorded(name: str, data: bytes) -> str:
    """The line of a file in RECORD."""
    digest = base64.urlsafe_b64encode(hashlib.sha256(data).digest()).rstrip(b"=").decode()
    return f"{name},sha256={digest},{len(data)}\n"


def written(folder: Path, files: Dict[str, bytes]) -> str:
    base = f"lfts-{project()['version']}"
    info = f"{base}.dist-info"
    whole = {**files, f"{info}/METADATA": metadata().encode(), f"{info}/WHEEL": WHEEL.encode()}
    record = "".join(recorded(name, data) for name, data in whole.items()) + f"{info}/RECORD,,\n"
    entries: List[Tuple[str, bytes]] = [*whole.items(), (f"{info}/RECORD", record.encode())]
    name = f"{base}-py3-none-any.whl"
    with zipfile.ZipFile(folder / name, "w", zipfile.ZIP_DEFLATED) as wheel:
        for path, data in entries:
            entry = zipfile.ZipInfo(path, DATE)
            entry.external_attr = 0o644 << 16
            wheel.writestr(entry, data, zipfile.ZIP_DEFLATED)
    return name

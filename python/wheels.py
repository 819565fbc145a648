"""Builds the wheel of this package for pip, with the standard library alone.

A backend of its own, since one from elsewhere would first have to be fetched: so `pip install ./python` works without any
network, in a fresh environment. What is said of the package stands in pyproject.toml.
"""

import ast
import base64
import hashlib
import re
import zipfile
from pathlib import Path
from typing import Any, Dict, List, Optional, Tuple

HERE = Path(__file__).resolve().parent
SOURCES = HERE / "src"
PACKAGE = "product_mix"
TAG = "py3-none-any"

# The files of a wheel: the name and the bytes of each.
Files = List[Tuple[str, bytes]]


def build_wheel(wheel_directory: str, config_settings: Any = None, metadata_directory: Optional[str] = None) -> str:
    """Writes the wheel, and gives its name: the hook that `pip install` calls."""
    paths = sorted(path for path in (SOURCES / PACKAGE).rglob("*") if path.is_file() and path.suffix != ".pyc")
    return _write(wheel_directory, [(path.relative_to(SOURCES).as_posix(), path.read_bytes()) for path in paths])


def build_editable(wheel_directory: str, config_settings: Any = None, metadata_directory: Optional[str] = None) -> str:
    """Writes a wheel that leads to the sources where they stand: the hook that `pip install -e` calls."""
    return _write(wheel_directory, [("%s.pth" % PACKAGE, str(SOURCES).encode())])


def _write(folder: str, files: Files) -> str:
    version = _version()
    info = "%s-%s.dist-info" % (PACKAGE, version)
    files = [
        *files,
        ("%s/METADATA" % info, _metadata(version).encode()),
        ("%s/WHEEL" % info, ("Wheel-Version: 1.0\nGenerator: wheels.py\nRoot-Is-Purelib: true\nTag: %s\n" % TAG).encode()),
    ]
    record = "".join(["%s,sha256=%s,%d\n" % (name, _digest(data), len(data)) for name, data in files])
    record += "%s/RECORD,,\n" % info
    wheel = "%s-%s-%s.whl" % (PACKAGE, version, TAG)
    with zipfile.ZipFile(Path(folder, wheel), "w", zipfile.ZIP_DEFLATED) as archive:
        for name, data in [*files, ("%s/RECORD" % info, record.encode())]:
            archive.writestr(name, data)
    return wheel


def _digest(data: bytes) -> str:
    return base64.urlsafe_b64encode(hashlib.sha256(data).digest()).decode().rstrip("=")


def _version() -> str:
    found = re.search(r'^__version__ = "(.+)"$', (SOURCES / PACKAGE / "__init__.py").read_text(), re.MULTILINE)
    assert found is not None
    return found[1]


def _metadata(version: str) -> str:
    project, extras = _table("project"), _table("project.optional-dependencies")
    lines = [
        "Metadata-Version: 2.1",
        "Name: %s" % project["name"],
        "Version: %s" % version,
        "Summary: %s" % project["description"],
        "Requires-Python: %s" % project["requires-python"],
        *["Classifier: %s" % classifier for classifier in project["classifiers"]],
        *["Provides-Extra: %s" % extra for extra in extras],
        *['Requires-Dist: %s; extra == "%s"' % (wanted, extra) for extra, names in extras.items() for wanted in names],
        "Description-Content-Type: text/markdown",
    ]
    readme = HERE / str(project["readme"])
    return "\n".join(lines) + "\n\n" + readme.read_text(encoding="utf-8")


def _table(name: str) -> Dict[str, Any]:
    """A table of pyproject.toml, whose values are texts and lists of texts, each in one line.

    Python has a reader of such files from 3.11 on.
    """
    text = (HERE / "pyproject.toml").read_text(encoding="utf-8")
    body = text.split("[%s]\n" % name)[1].split("\n[")[0]
    pairs = [line.split(" = ", 1) for line in body.splitlines() if " = " in line and not line.startswith("#")]
    return {key: ast.literal_eval(value) for key, value in pairs}

"""The wheel that pip is given."""

import base64
import csv
import hashlib
import io
import os
import subprocess
import sys
import zipfile
from pathlib import Path

import product_mix
from conftest import TOP

PACKAGE = TOP / "python" / "src" / "product_mix"


def built(folder: Path, hook: str) -> zipfile.ZipFile:
    """The wheel that a hook of the backend writes, which pip calls in a process of its own."""
    call = "import sys, wheels; print(wheels.%s(sys.argv[1]))" % hook
    done = subprocess.run([sys.executable, "-c", call, str(folder)], cwd=str(TOP / "python"), check=True,
                          stdout=subprocess.PIPE, text=True)
    return zipfile.ZipFile(folder / done.stdout.strip())


def test_a_wheel(tmp_path: Path) -> None:
    with built(tmp_path, "build_wheel") as wheel:
        names = set(wheel.namelist())
        for path in PACKAGE.rglob("*"):
            if path.is_file() and path.suffix != ".pyc":
                assert path.relative_to(PACKAGE.parent).as_posix() in names
        info = "product_mix-%s.dist-info/" % product_mix.__version__
        said = wheel.read(info + "METADATA").decode().split("\n\n")[0].splitlines()
        assert "Name: product-mix" in said and "Requires-Python: >=3.9" in said
        assert 'Requires-Dist: pandas; extra == "tables"' in said
        # Nothing is wanted but by an extra.
        assert all("extra ==" in line for line in said if line.startswith("Requires-Dist"))
        for name, digest, size in csv.reader(io.StringIO(wheel.read(info + "RECORD").decode())):
            names.remove(name)
            if digest:
                data = wheel.read(name)
                wanted = base64.urlsafe_b64encode(hashlib.sha256(data).digest()).decode().rstrip("=")
                assert (digest, int(size)) == ("sha256=" + wanted, len(data))
        assert not names


def test_the_package_runs_out_of_its_wheel(tmp_path: Path) -> None:
    with built(tmp_path, "build_wheel") as wheel:
        wheel.extractall(tmp_path / "site")
    call = "import product_mix as p; print(p.__file__); print(p.prices(p.Auction(['A'], [1], [3])))"
    done = subprocess.run([sys.executable, "-c", call], cwd=str(tmp_path), check=True, stdout=subprocess.PIPE, text=True,
                          env={**os.environ, "PYTHONPATH": str(tmp_path / "site")})
    assert done.stdout.splitlines() == [str(tmp_path / "site" / "product_mix" / "__init__.py"), "{'A': 3}"]


def test_a_wheel_that_leads_to_the_sources(tmp_path: Path) -> None:
    with built(tmp_path, "build_editable") as wheel:
        assert wheel.read("product_mix.pth").decode() == str(PACKAGE.parent)

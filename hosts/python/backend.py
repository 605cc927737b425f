"""Makes the wheel and the source archive of saltighedda.py, so that `pip install .` wants no other package and no network.

It is the build backend that pyproject.toml names (PEP 517). The module goes in with the table of names that it reads, which a clone has in
include/.
"""

import base64
import hashlib
import io
import re
import tarfile
import zipfile
from pathlib import Path

HERE = Path(__file__).resolve().parent
PROJECT = (HERE / "pyproject.toml").read_text("utf-8")


def _named(key):
    return re.search(rf'^{key} = "([^"]*)"$', PROJECT, re.M).group(1)


NAME, VERSION = _named("name"), _named("version")
METADATA = f"Metadata-Version: 2.1\nName: {NAME}\nVersion: {VERSION}\nSummary: {_named('description')}\nRequires-Python: {_named('requires-python')}\n"


def _files():
    table = "saltighedda_fields.h"
    beside = HERE / table
    return {"saltighedda.py": (HERE / "saltighedda.py").read_bytes(),
            table: (beside if beside.exists() else HERE.parent.parent / "include" / table).read_bytes()}


def build_wheel(wheel_directory, config_settings=None, metadata_directory=None):
    info = f"{NAME}-{VERSION}.dist-info"
    files = dict(_files())
    files[f"{info}/METADATA"] = METADATA.encode()
    files[f"{info}/WHEEL"] = b"Wheel-Version: 1.0\nGenerator: backend\nRoot-Is-Purelib: true\nTag: py3-none-any\n"
    record = ""
    for path, data in files.items():
        digest = base64.urlsafe_b64encode(hashlib.sha256(data).digest()).rstrip(b"=").decode()
        record += f"{path},sha256={digest},{len(data)}\n"
    files[f"{info}/RECORD"] = f"{record}{info}/RECORD,,\n".encode()
    name = f"{NAME}-{VERSION}-py3-none-any.whl"
    with zipfile.ZipFile(Path(wheel_directory) / name, "w", zipfile.ZIP_DEFLATED) as wheel:
        for path, data in files.items():
            wheel.writestr(path, data)
    return name


def build_sdist(sdist_directory, config_settings=None):
    base = f"{NAME}-{VERSION}"
    files = dict(_files())
    files["PKG-INFO"] = METADATA.encode()
    for own in ("backend.py", "pyproject.toml"):
        files[own] = (HERE / own).read_bytes()
    with tarfile.open(Path(sdist_directory) / f"{base}.tar.gz", "w:gz", format=tarfile.PAX_FORMAT) as archive:
        for path, data in files.items():
            entry = tarfile.TarInfo(f"{base}/{path}")
            entry.size = len(data)
            archive.addfile(entry, io.BytesIO(data))
    return f"{base}.tar.gz"

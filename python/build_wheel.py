"""Makes the wheel of gelvonds for pip, from Python's own library alone. Its version is that of the file VERSION."""

from __future__ import annotations

import base64
import hashlib
import zipfile
from pathlib import Path
from typing import Dict, Optional

HERE = Path(__file__).resolve().parent
METADATA = """\
Metadata-Version: 2.1
Name: gelvonds
Version: {version}
Summary: Mach 3 port IPC in a Python session, over the C library of Gelvonds
License: MIT
Requires-Python: >=3.8
"""
WHEEL = """\
Wheel-Version: 1.0
Generator: gelvonds
Root-Is-Purelib: true
Tag: py3-none-any
"""


def build_wheel(
    wheel_directory: str, config_settings: Optional[dict] = None, metadata_directory: Optional[str] = None
) -> str:
    """Writes the wheel into the folder, and returns its name."""
    version = (HERE.parent / "VERSION").read_text(encoding="ascii").strip()
    info = f"gelvonds-{version}.dist-info"
    files: Dict[str, bytes] = {f"gelvonds/{name}": (HERE / "gelvonds" / name).read_bytes() for name in ("__init__.py", "py.typed")}
    files["gelvonds/VERSION"] = f"{version}\n".encode()
    files[f"{info}/LICENSE"] = (HERE.parent / "LICENSE").read_bytes()
    files[f"{info}/METADATA"] = METADATA.format(version=version).encode()
    files[f"{info}/WHEEL"] = WHEEL.encode()
    rows = [f"{name},sha256={_sum(contents)},{len(contents)}" for name, contents in files.items()]
    files[f"{info}/RECORD"] = "\n".join([*rows, f"{info}/RECORD,,", ""]).encode()
    wheel = f"gelvonds-{version}-py3-none-any.whl"
    with zipfile.ZipFile(Path(wheel_directory) / wheel, "w", zipfile.ZIP_DEFLATED) as to:
        for name, contents in files.items():
            # (a fixed date: the same sources make the same wheel)
            to.writestr(zipfile.ZipInfo(name, (1980, 1, 1, 0, 0, 0)), contents, zipfile.ZIP_DEFLATED)
    return wheel


def build_sdist(sdist_directory: str, config_settings: Optional[dict] = None) -> str:
    """There is none: a package of sources would lack the file VERSION, which stands above this folder."""
    raise NotImplementedError("gelvonds has no package of sources: run pip install ./python in a clone")


def _sum(contents: bytes) -> str:
    return base64.urlsafe_b64encode(hashlib.sha256(contents).digest()).rstrip(b"=").decode()

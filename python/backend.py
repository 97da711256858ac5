"""Makes the wheel of desk.py, with the shared library where DESK_LIBRARY names one or one lies
beside it (PEP 517). It asks for no other package, so `pip` needs no network.

    DESK_LIBRARY=PREFIX/lib/libdesk.so pip install ./python     (with a whole path)
"""
import base64
import hashlib
import os
import re
import sys
import sysconfig
import zipfile
from pathlib import Path

HERE = Path(__file__).resolve().parent


def sum_of(text):
    """The sum as RECORD has it."""
    return base64.urlsafe_b64encode(hashlib.sha256(text).digest()).rstrip(b"=").decode()


def build_wheel(folder, config_settings=None, metadata_directory=None):
    said = (HERE / "pyproject.toml").read_text(encoding="utf-8")
    keys = ("version", "requires-python")
    version, needs = (re.search(rf'^{key} = "(.*)"', said, re.M)[1] for key in keys)
    named = os.environ.get("DESK_LIBRARY")
    library = Path(named or HERE / "libdesk.so")
    if named and not library.is_absolute():
        sys.exit(f"DESK_LIBRARY has to be a whole path: {named}")
    if named and not library.is_file():
        made = "./install makes it, ./install --unproved doesn't"
        sys.exit(f"DESK_LIBRARY: there is no file {named}; {made}")
    files = {"desk.py": (HERE / "desk.py").read_bytes()}
    tag = "py3-none-any"
    if library.is_file():
        files["libdesk.so"] = library.read_bytes()
        tag = "py3-none-" + sysconfig.get_platform().replace("-", "_").replace(".", "_")
    info = f"desk-{version}.dist-info"
    head = f"Metadata-Version: 2.1\nName: desk\nVersion: {version}\nRequires-Python: {needs}\n"
    files[f"{info}/METADATA"] = head.encode()
    is_pure = str("any" in tag).lower()
    wheel = f"Wheel-Version: 1.0\nGenerator: desk\nRoot-Is-Purelib: {is_pure}\nTag: {tag}\n"
    files[f"{info}/WHEEL"] = wheel.encode()
    rows = [f"{name},sha256={sum_of(it)},{len(it)}" for name, it in files.items()]
    rows.append(f"{info}/RECORD,,")
    files[f"{info}/RECORD"] = ("\n".join(rows) + "\n").encode()
    wheel = f"desk-{version}-{tag}.whl"
    with zipfile.ZipFile(Path(folder) / wheel, "w", zipfile.ZIP_DEFLATED) as file:
        for name, it in files.items():
            # (a date of its own would make two wheels differ)
            file.writestr(zipfile.ZipInfo(name), it, zipfile.ZIP_DEFLATED)
    return wheel

"""Packs mapf_desk as a wheel for Linux on x86-64, for pip, with nothing but Python itself: with the library that tools/library made, or else the released one."""
import base64
import hashlib
import zipfile
from pathlib import Path

HERE = Path(__file__).resolve().parent
NAME, VERSION, TAG = "mapf_desk", "1.0", "py3-none-linux_x86_64"
INFO = f"{NAME}-{VERSION}.dist-info"
FILES = ("__init__.py", "checks.py", "desks.py", "exports.py", "reports.py", "py.typed")
LIBRARY = "libmapf_desk.so"


def build_wheel(wheel_directory, config_settings=None, metadata_directory=None):
    """Makes the wheel in a folder, and gives its name."""
    name = f"{NAME}-{VERSION}-{TAG}.whl"
    parts = {f"{NAME}/{it}": (HERE / NAME / it).read_bytes() for it in FILES}
    places = (HERE / NAME / LIBRARY, HERE.parent / "release" / LIBRARY)
    parts[f"{NAME}/{LIBRARY}"] = next(filter(Path.exists, places), places[0]).read_bytes()
    parts[f"{INFO}/METADATA"] = f"Metadata-Version: 2.1\nName: {NAME}\nVersion: {VERSION}\nRequires-Python: >=3.9\n".encode()
    parts[f"{INFO}/WHEEL"] = f"Wheel-Version: 1.0\nGenerator: {NAME}\nRoot-Is-Purelib: false\nTag: {TAG}\n".encode()
    rows = [f"{it},sha256={digest(text)},{len(text)}" for it, text in parts.items()]
    parts[f"{INFO}/RECORD"] = "\n".join([*rows, f"{INFO}/RECORD,,", ""]).encode()
    with zipfile.ZipFile(Path(wheel_directory) / name, "w", zipfile.ZIP_DEFLATED) as wheel:
        for it, text in parts.items():
            wheel.writestr(it, text)
    return name


def digest(text):
    return base64.urlsafe_b64encode(hashlib.sha256(text).digest()).rstrip(b"=").decode()

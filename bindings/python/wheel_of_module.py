"""Makes the wheel of the module, with nothing but the standard library: `pip install bindings/python` fetches nothing.

The wheel has the shared library in it, which NAMBROIT_LIBRARY names, or which bindings/check has left in bindings/out.
"""
import base64
import hashlib
import os
import zipfile
from pathlib import Path

HERE = Path(__file__).resolve().parent
NAME = "nambroit-1.0.0"
TAG = "py3-none-linux_x86_64"
METADATA = "Metadata-Version: 2.1\nName: nambroit\nVersion: 1.0.0\nRequires-Python: >=3.10\n"


def build_wheel(wheel_directory, config_settings=None, metadata_directory=None):
    """Called by pip. Writes the wheel and tells its name."""
    library = Path(os.environ.get("NAMBROIT_LIBRARY") or HERE.parent / "out" / "libcsn.so")
    info = f"{NAME}.dist-info"
    files = {
        "nambroit/__init__.py": (HERE / "nambroit" / "__init__.py").read_bytes(),
        "nambroit/libcsn.so": library.read_bytes(),
        f"{info}/METADATA": METADATA.encode(),
        f"{info}/WHEEL": f"Wheel-Version: 1.0\nGenerator: nambroit\nRoot-Is-Purelib: false\nTag: {TAG}\n".encode(),
    }
    record = "".join(f"{name},sha256={digest(data)},{len(data)}\n" for name, data in files.items())
    files[f"{info}/RECORD"] = f"{record}{info}/RECORD,,\n".encode()
    wheel = f"{NAME}-{TAG}.whl"
    with zipfile.ZipFile(Path(wheel_directory) / wheel, "w", zipfile.ZIP_DEFLATED) as out:
        for name, data in files.items():
            out.writestr(name, data)
    return wheel


def digest(data):
    return base64.urlsafe_b64encode(hashlib.sha256(data).digest()).rstrip(b"=").decode()

"""Packs the module and the shared object that ../c/build makes into a wheel, for `pip install ./bindings/python`."""
import base64
import hashlib
import pathlib
import sysconfig
import zipfile
from typing import Any

HERE = pathlib.Path(__file__).resolve().parent
LIBRARY = HERE.parent / "c" / "out" / "libmezgoular.so.1"
VERSION = "1.0"
METADATA = f"""Metadata-Version: 2.1
Name: mezgoular
Version: {VERSION}
Summary: Quantile sketches whose code is proved: KLL and REQ
License: Apache-2.0
Requires-Python: >=3.9
"""


def build_wheel(wheel_directory: str, config_settings: Any = None, metadata_directory: Any = None) -> str:
    """The name of the wheel, which is in the folder then."""
    if not LIBRARY.exists():
        raise FileNotFoundError(f"{LIBRARY} isn't there: bindings/c/build makes it")
    tag = "py3-none-" + sysconfig.get_platform().replace("-", "_").replace(".", "_")
    info = f"mezgoular-{VERSION}.dist-info"
    sources = (HERE / "mezgoular" / "__init__.py", HERE / "mezgoular" / "py.typed", LIBRARY)
    files = {f"mezgoular/{path.name}": path.read_bytes() for path in sources}
    files[f"{info}/METADATA"] = METADATA.encode()
    files[f"{info}/WHEEL"] = f"Wheel-Version: 1.0\nGenerator: mezgoular\nRoot-Is-Purelib: false\nTag: {tag}\n".encode()
    record = f"{info}/RECORD,,\n"
    for name, text in files.items():
        digest = base64.urlsafe_b64encode(hashlib.sha256(text).digest()).rstrip(b"=").decode()
        record += f"{name},sha256={digest},{len(text)}\n"
    files[f"{info}/RECORD"] = record.encode()
    wheel = f"mezgoular-{VERSION}-{tag}.whl"
    with zipfile.ZipFile(pathlib.Path(wheel_directory) / wheel, "w", zipfile.ZIP_DEFLATED) as packed:
        for name, text in files.items():
            packed.writestr(name, text)
    return wheel

"""Builds the wheel of the package: its files, the shared library, and what is said of them.

pip calls build_wheel (PEP 517). The library is the one that the package itself would load, so
c/build comes first. A wheel of an unproved library has +unproved in its version.
"""

import base64
import ctypes
import hashlib
import runpy
import sysconfig
import zipfile
from pathlib import Path

NAME, VERSION = "bale_conveyors", "0.1.0"
TOP = Path(__file__).resolve().parent.parent
PACKAGE = TOP / "bale"


def build_wheel(wheel_directory, config_settings=None, metadata_directory=None):
    """Writes the wheel into the folder, and returns its name."""
    library = runpy.run_path(str(PACKAGE / "_find.py"))["library"]()
    version = VERSION + ("+unproved" if is_unproved(library) else "")
    platform = sysconfig.get_platform().replace("-", "_").replace(".", "_")
    info, tag = f"{NAME}-{version}.dist-info", f"py3-none-{platform}"
    sources = sorted(path for path in PACKAGE.iterdir() if path.suffix in (".py", ".typed"))
    files = {f"bale/{path.name}": path.read_bytes() for path in sources}
    files["bale/libbale_c.so"] = library.read_bytes()
    files[f"{info}/METADATA"] = metadata(version).encode()
    files[f"{info}/WHEEL"] = wheel_file(tag).encode()
    lines = [f"{name},{checksum(data)},{len(data)}\n" for name, data in files.items()]
    files[f"{info}/RECORD"] = "".join([*lines, f"{info}/RECORD,,\n"]).encode()
    wheel = f"{NAME}-{version}-{tag}.whl"
    with zipfile.ZipFile(Path(wheel_directory) / wheel, "w", zipfile.ZIP_DEFLATED) as archive:
        for name, data in files.items():
            # No time of now and no mode of this machine, so the same files give the same wheel.
            entry = zipfile.ZipInfo(name)
            entry.external_attr = 0o100644 << 16
            archive.writestr(entry, data, zipfile.ZIP_DEFLATED)
    return wheel


def build_sdist(sdist_directory, config_settings=None):
    """There is none: the library comes from the repository."""
    raise NotImplementedError("there is no source distribution: pip wheel ./python makes a wheel")


def is_unproved(library):
    version = ctypes.CDLL(str(library)).bale_version
    version.restype = ctypes.c_char_p
    return b"unproved" in version()


def checksum(data):
    return "sha256=" + base64.urlsafe_b64encode(hashlib.sha256(data).digest()).rstrip(b"=").decode()


def wheel_file(tag):
    lines = ["Wheel-Version: 1.0", "Generator: bale_wheel", "Root-Is-Purelib: false", f"Tag: {tag}"]
    return "\n".join(lines) + "\n"


def metadata(version):
    lines = [
        "Metadata-Version: 2.1",
        "Name: bale-conveyors",
        f"Version: {version}",
        "Summary: Conveyors: many ranks exchange small items, over a proved library",
        "Requires-Python: >=3.8",
        "Provides-Extra: arrays",
        "Requires-Dist: numpy; extra == 'arrays'",
        "Classifier: Operating System :: POSIX :: Linux",
        "Classifier: Typing :: Typed",
        "Description-Content-Type: text/markdown",
    ]
    return "\n".join(lines) + "\n\n" + (TOP / "README.md").read_text(encoding="utf-8")

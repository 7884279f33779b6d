#!/usr/bin/env -S python3 -B
"""Makes the wheel of the Python module, which has the library for C beside it. pip calls it, as pyproject.toml says.

python/make_wheel.py [--unproved] [FOLDER]     into the folder, or the one of now, and prints the wheel's name

The library is the proved one of ./build, else the one without proofs, or that alone with --unproved. Then the version ends with
`+unproved`, and the module warns where it is imported. Files have the time that SOURCE_DATE_EPOCH tells, else that of 1980, so
that the same library makes the same wheel.
"""
import argparse
import ast
import base64
import hashlib
import os
import sys
import sysconfig
import time
import zipfile
from pathlib import Path
from typing import Any, Dict, Iterator, List, Optional, Tuple

TOP = Path(__file__).resolve().parent.parent
MODULE = TOP / "python" / "textmodel.py"
PROVED = TOP / "bin" / "libtextmodel.so"
UNPROVED = TOP / "bin" / "unproved_library" / "libtextmodel.so"
NAME = "textmodel"
TAG = "py3-none-" + sysconfig.get_platform().replace("-", "_").replace(".", "_")
FIRST_TIME = 315_532_800  # 1980-01-01, before which no file of an archive can be

METADATA = """\
Metadata-Version: 2.1
Name: {name}
Version: {version}
Summary: A proved text model: documents with undo, decorations, brackets, search, snapshots and mirrors
License: MIT
Classifier: License :: OSI Approved :: MIT License
Classifier: Operating System :: POSIX :: Linux
Classifier: Programming Language :: Python :: 3
Classifier: Topic :: Text Editors
Classifier: Typing :: Typed
Requires-Python: >=3.8
Description-Content-Type: text/plain

{text}"""

WHEEL = """\
Wheel-Version: 1.0
Generator: make_wheel
Root-Is-Purelib: false
Tag: {tag}
"""


def library(is_unproved: bool) -> Path:
    """The library that is to go along."""
    for path in [UNPROVED] if is_unproved else [PROVED, UNPROVED]:
        if path.exists():
            return path
    raise SystemExit("make_wheel: there is no library: ./build makes the proved one, and ./build --unproved one to try")


def version(library: Path) -> str:
    return (TOP / "VERSION").read_text().strip() + ("+unproved" if library == UNPROVED else "")


def info(library: Path) -> str:
    """The folder of what pip reads."""
    return f"{NAME}-{version(library)}.dist-info"


def texts(library: Path) -> Dict[str, bytes]:
    """What pip reads of a wheel, by its places, save the list of files."""
    docs = ast.get_docstring(ast.parse(MODULE.read_text("utf-8")))
    metadata = METADATA.format(name=NAME, version=version(library), text=docs)
    return {
        f"{info(library)}/LICENSE": (TOP / "LICENSE").read_bytes(),
        f"{info(library)}/METADATA": metadata.encode(),
        f"{info(library)}/WHEEL": WHEEL.format(tag=TAG).encode(),
    }


def files(library: Path) -> Dict[str, bytes]:
    """The files of the wheel by their places, save the list of them."""
    folder = f"{NAME}/unproved_library" if library == UNPROVED else NAME
    return {
        f"{NAME}/__init__.py": MODULE.read_bytes(),
        f"{NAME}/py.typed": MODULE.with_name("py.typed").read_bytes(),
        f"{folder}/libtextmodel.so.1": library.read_bytes(),
        **texts(library),
    }


def listed(files: Dict[str, bytes], place: str) -> bytes:
    """The list of files, with their checksums."""
    def lines() -> Iterator[str]:
        for name, data in sorted(files.items()):
            sum_ = base64.urlsafe_b64encode(hashlib.sha256(data).digest()).rstrip(b"=").decode()
            yield f"{name},sha256={sum_},{len(data)}\n"
        yield f"{place},,\n"

    return "".join(lines()).encode()


def date() -> Tuple[int, int, int, int, int, int]:
    told = time.gmtime(max(int(os.environ.get("SOURCE_DATE_EPOCH", 0)), FIRST_TIME))
    return told[0], told[1], told[2], told[3], told[4], told[5]


def make(folder: Path, library: Path) -> str:
    """Puts the wheel into the folder; its name."""
    record = f"{info(library)}/RECORD"
    put = files(library)
    put[record] = listed(put, record)
    name = f"{NAME}-{version(library)}-{TAG}.whl"
    with zipfile.ZipFile(folder / name, "w", zipfile.ZIP_DEFLATED) as wheel:
        for place in [*sorted(put.keys() - {record}), record]:
            entry = zipfile.ZipInfo(place, date())
            entry.external_attr = (0o100755 if ".so" in place else 0o100644) << 16
            entry.compress_type = zipfile.ZIP_DEFLATED
            wheel.writestr(entry, put[place])
    return name


# ---- What pip calls


def get_requires_for_build_wheel(config_settings: Any = None) -> List[str]:
    return []


def prepare_metadata_for_build_wheel(metadata_directory: str, config_settings: Any = None) -> str:
    found = library(False)
    for place, data in texts(found).items():
        path = Path(metadata_directory, place)
        path.parent.mkdir(parents=True, exist_ok=True)
        path.write_bytes(data)
    return info(found)


def build_wheel(wheel_directory: str, config_settings: Any = None, metadata_directory: Optional[str] = None) -> str:
    return make(Path(wheel_directory), library(False))


def build_sdist(sdist_directory: str, config_settings: Any = None) -> str:
    raise SystemExit("make_wheel: sources alone make no library, which the Rattle kit does; build a wheel")


def main() -> int:
    words = argparse.ArgumentParser(description="Makes the wheel of the Python module and the library for C.")
    words.add_argument("folder", nargs="?", default=".", type=Path, help="where the wheel goes")
    words.add_argument("--unproved", action="store_true", help="with the library that ./build --unproved made")
    told = words.parse_args()
    print(make(told.folder, library(told.unproved)))
    return 0


if __name__ == "__main__":
    sys.exit(main())

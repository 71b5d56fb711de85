"""Writes the wheel of itree, for `pip install .` in bindings/python and for bindings/package. It needs no network.

The wheel has the package itree with the shared object that bindings/build made. Two of one commit are the same bytes.
"""

import base64
import hashlib
import os
import pathlib
import re
import subprocess
import sys
import time
import zipfile

HERE = pathlib.Path(__file__).resolve().parent.parent
TOP = HERE.parent.parent
SHARED = TOP / "bindings" / "built" / "libitree.so"

METADATA = """\
Metadata-Version: 2.1
Name: itree
Version: {version}
Summary: Union, intersection, difference and xor of polygons, and edges that meet, by a proved library
License: MIT
Keywords: geometry,polygon,overlay,clipping,intersection,sweep line,point location
Classifier: License :: OSI Approved :: MIT License
Classifier: Operating System :: POSIX :: Linux
Classifier: Programming Language :: Python :: 3
Classifier: Topic :: Scientific/Engineering
Classifier: Typing :: Typed
Requires-Python: >=3.8
Description-Content-Type: text/markdown

{readme}"""

WHEEL = """\
Wheel-Version: 1.0
Generator: itree_wheel
Root-Is-Purelib: false
{tags}"""

# The command that pip installs.
ENTRY_POINTS = """\
[console_scripts]
itree = itree.__main__:main
"""

FIRST_OF_ZIP = 315532800  # 1980, before which the format knows no time.
OLDER_NAMES = {5: "manylinux1", 12: "manylinux2010", 17: "manylinux2014"}


def build_wheel(wheel_directory, config_settings=None, metadata_directory=None):
    """Writes the wheel into a folder, and gives its name, as pip asks."""
    if not SHARED.exists():
        sys.exit(f"{SHARED} isn't there: bindings/build makes it")
    platforms = platforms_of(SHARED)
    files = contents(version(), "".join(f"Tag: py3-none-{it}\n" for it in platforms))
    name = f"itree-{version()}-py3-none-{'.'.join(platforms)}.whl"
    with zipfile.ZipFile(pathlib.Path(wheel_directory) / name, "w", zipfile.ZIP_DEFLATED) as wheel:
        for path, data in files.items():
            wheel.writestr(entry(path), data, compresslevel=9)
    return name


def build_sdist(sdist_directory, config_settings=None):
    sys.exit("itree has no source distribution: the library takes Rattle's toolchain, and a checkout")


def contents(version, tags):
    """The files of the wheel by their paths, the list of them last, as the format asks."""
    package = sorted((HERE / "itree").glob("*.py")) + [HERE / "itree" / "py.typed"]
    files = {f"itree/{path.name}": path.read_bytes() for path in package}
    files["itree/VERSION"] = (TOP / "VERSION").read_bytes()
    files["itree/libitree.so"] = SHARED.read_bytes()
    about = f"itree-{version}.dist-info"
    readme = (HERE / "README.md").read_text(encoding="utf-8")
    files[f"{about}/LICENSE"] = (TOP / "LICENSE").read_bytes()
    files[f"{about}/METADATA"] = METADATA.format(version=version, readme=readme).encode()
    files[f"{about}/WHEEL"] = WHEEL.format(tags=tags).encode()
    files[f"{about}/entry_points.txt"] = ENTRY_POINTS.encode()
    record = f"{about}/RECORD"
    rows = [f"{path},sha256={checksum(data)},{len(data)}\n" for path, data in files.items()]
    files[record] = "".join([*rows, f"{record},,\n"]).encode()
    return files


def checksum(data):
    return base64.urlsafe_b64encode(hashlib.sha256(data).digest()).rstrip(b"=").decode()


def entry(path):
    """What stands before a file's bytes: its path, the commit's date, and that all may read it."""
    info = zipfile.ZipInfo(path, time.gmtime(max(moment(), FIRST_OF_ZIP))[:6])
    info.create_system, info.compress_type = 3, zipfile.ZIP_DEFLATED
    info.external_attr = (0o100755 if path.endswith(".so") else 0o100644) << 16
    return info


def version():
    return (TOP / "VERSION").read_text(encoding="ascii").strip()


def moment():
    """The date of the commit, in seconds, or the one that SOURCE_DATE_EPOCH gives."""
    given = os.environ.get("SOURCE_DATE_EPOCH")
    if given:
        return int(given)
    words = ["git", "log", "-1", "--format=%ct"]
    told = subprocess.run(words, cwd=TOP, stdout=subprocess.PIPE, stderr=subprocess.DEVNULL, text=True)
    return int(told.stdout) if told.returncode == 0 else FIRST_OF_ZIP


def platforms_of(shared):
    """The tags of the oldest systems on which the shared object can be loaded, by the versions of the symbols that it
    asks of the C library. There is none before 2.5, and some have an older name, too, by which old pips know them."""
    told = subprocess.run(["objdump", "-T", shared], stdout=subprocess.PIPE, text=True, check=True).stdout
    asked = re.findall(r"\*UND\*.*\(GLIBC_2\.(\d+)[\d.]*\)", told)
    minor = max([5, *map(int, asked)])
    names = [f"manylinux_2_{minor}", *(OLDER_NAMES[it] for it in [minor] if it in OLDER_NAMES)]
    return [f"{name}_{os.uname().machine}" for name in names]

"""Builds the wheel by Python alone, so that `pip install` of this folder needs no network: the package, and the library that c/build made."""
import base64
import hashlib
import os
import re
import zipfile

HERE = os.path.dirname(os.path.abspath(__file__))
TOP = os.path.join(HERE, "..")
SUMMARY = "Merkle search trees: replicated stores learn by one root hash whether they agree, and which ranges of keys to fetch"
TAG = "py3-none-linux_x86_64"


def read(*path):
    with open(os.path.join(*path), "rb") as file:
        return file.read()


def version():
    return read(TOP, "VERSION").decode().strip()


def library():
    """The library's file: that of the variable MST_LIBRARY, else the one of the folder c."""
    path = os.environ.get("MST_LIBRARY") or os.path.join(TOP, "c", "libmst.so")
    if not os.path.isfile(path):
        raise SystemExit(f"{path} isn't there: run c/build in a checkout, or set MST_LIBRARY to the file; the wheel of a release has it")
    return path


def readme():
    """The page of the package, in which links to what the wheel hasn't are plain text."""
    return re.sub(r"\[([^][]*)\]\((?![a-z]+:)[^()]*\)", r"\1", read(HERE, "README.md").decode()).encode()


def metadata():
    head = (f"Metadata-Version: 2.1\nName: mst\nVersion: {version()}\nSummary: {SUMMARY}\nLicense: Apache-2.0\nRequires-Python: >=3.8\n"
            "Description-Content-Type: text/markdown\n\n")
    return head.encode() + readme()


def contents(info):
    """The files of the wheel, by name."""
    for name in sorted(os.listdir(os.path.join(HERE, "mst"))):
        if name.endswith(".py") or name == "py.typed":
            yield f"mst/{name}", read(HERE, "mst", name)
    yield "mst/libmst.so", read(library())
    yield f"{info}/METADATA", metadata()
    yield f"{info}/LICENSE", read(TOP, "LICENSE")
    yield f"{info}/WHEEL", f"Wheel-Version: 1.0\nGenerator: mst\nRoot-Is-Purelib: false\nTag: {TAG}\n".encode()


def build_wheel(wheel_directory, config_settings=None, metadata_directory=None):
    """Writes the wheel, the same bytes for the same files, and answers its name."""
    info, wheel = f"mst-{version()}.dist-info", f"mst-{version()}-{TAG}.whl"
    record = []
    with zipfile.ZipFile(os.path.join(wheel_directory, wheel), "w") as out:
        def add(name, content):
            entry = zipfile.ZipInfo(name)
            entry.external_attr, entry.compress_type = 0o644 << 16, zipfile.ZIP_DEFLATED
            out.writestr(entry, content)
        for name, content in contents(info):
            digest = base64.urlsafe_b64encode(hashlib.sha256(content).digest()).rstrip(b"=").decode()
            record.append(f"{name},sha256={digest},{len(content)}\n")
            add(name, content)
        add(f"{info}/RECORD", "".join(record) + f"{info}/RECORD,,\n")
    return wheel


def build_sdist(sdist_directory, config_settings=None):
    raise SystemExit("there is no source distribution: the library is built in a checkout, and the wheel of it")

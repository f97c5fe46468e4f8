"""What tools/make_deb and tools/make_release share: what they pack, and files that are the same bytes each time."""

import gzip
import io
import os
import subprocess
import sys

TOP = os.path.dirname(os.path.dirname(os.path.realpath(__file__)))
PROGRAM = os.environ.get("XLS") or f"{TOP}/crates/xls/out/xls"


def read(path):
    with open(path, "rb") as file:
        return file.read()


def write(path, data, mode=0o644):
    with open(path, "wb") as file:
        file.write(data)
    os.chmod(path, mode)


def epoch():
    """The time that all files bear: SOURCE_DATE_EPOCH where it is set, else that of the last commit."""
    said = os.environ.get("SOURCE_DATE_EPOCH")
    if not said:
        words = ["git", "-C", TOP, "log", "-1", "--format=%ct"]
        said = subprocess.run(words, stdout=subprocess.PIPE, text=True, check=False).stdout.strip()
    if not said.isdigit():
        sys.exit("no time: there is no commit here, and SOURCE_DATE_EPOCH isn't set")
    return int(said)


def gzipped(data):
    """As `gzip -9n`: without a name and a time."""
    out = io.BytesIO()
    with gzip.GzipFile(filename="", mode="wb", compresslevel=9, fileobj=out, mtime=0) as file:
        file.write(data)
    return out.getvalue()


def build(path, crate):
    """Builds a crate, where the file that it makes isn't there."""
    if not os.path.exists(path) and subprocess.run([f"{TOP}/tools/build", crate, *["--version"] * (crate == "xls")], check=False).returncode:
        sys.exit(f"{crate} isn't built")


def version():
    """The version, which the program has to tell too."""
    said = read(f"{TOP}/VERSION").decode().strip()
    told = subprocess.run([PROGRAM, "--version"], stdout=subprocess.PIPE, text=True, check=False).stdout
    if told != f"xls {said}\n":
        sys.exit(f"{PROGRAM} is of another version than {said}")
    return said

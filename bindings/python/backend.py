"""Makes the wheel of `gaflwened` (PEP 517) with nothing but Python and a C compiler.

The shared object is linked from two archives: `libxls_c.a`, which `tools/build xls_c` makes in crates/xls_c/out, and `liblibc_c.a` of the Rattle
kit, through which it asks for memory. They are looked for in the folder GAFLWENED_LIB, where it is set, then in this repository and in the
kit (the folder RATTLE_KIT, or that of `rt`, or /opt/rattle). CC is the compiler, `cc` where it isn't set.
"""

import base64
import hashlib
import os
import shlex
import subprocess
import sysconfig
import tempfile
import zipfile

HERE = os.path.dirname(os.path.realpath(__file__))
TOP = os.path.dirname(os.path.dirname(HERE))
ARCHIVES = ["libxls_c.a", "liblibc_c.a"]
# What C calls; nothing else of the archives can be seen from outside.
EXPORTS = "{ global: gaflwened_*; local: *; };\n"
SUMMARY = "A proved reader of old Excel workbooks (.xls, Excel 5 to 2003)"


def kit():
    """The folder of the Rattle kit: that of the page that `rt doc` names, where there is an `rt`."""
    if os.environ.get("RATTLE_KIT"):
        return os.environ["RATTLE_KIT"]
    try:
        page = subprocess.run(["rt", "doc"], stdout=subprocess.PIPE, stderr=subprocess.DEVNULL, text=True, check=True).stdout
        return os.path.dirname(page.strip())
    except (OSError, subprocess.CalledProcessError):
        return "/opt/rattle"


def archives():
    """The paths of the two archives."""
    folders = [f"{TOP}/crates/xls_c/out", f"{kit()}/c"]
    if os.environ.get("GAFLWENED_LIB"):
        folders.insert(0, os.environ["GAFLWENED_LIB"])
    found = []
    for name in ARCHIVES:
        paths = [f"{folder}/{name}" for folder in folders if os.path.exists(f"{folder}/{name}")]
        if not paths:
            where = ", ".join(folders)
            raise SystemExit(f"gaflwened: {name} isn't in {where}: make it by `tools/build xls_c`, or set GAFLWENED_LIB to its folder")
        found.append(paths[0])
    return found


def link(output):
    """Writes the shared object."""
    library, *others = archives()
    with tempfile.TemporaryDirectory() as room:
        exports = f"{room}/exports"
        with open(exports, "w", encoding="ascii") as file:
            file.write(EXPORTS)
        compiler = shlex.split(os.environ.get("CC") or "cc")
        whole = ["-Wl,--whole-archive", library, "-Wl,--no-whole-archive", *others]
        subprocess.run([*compiler, "-shared", "-o", output, f"-Wl,--version-script={exports}", "-s", *whole], check=True)


def read(path):
    with open(path, "rb") as file:
        return file.read()


def version():
    return read(f"{TOP}/VERSION").decode("ascii").strip()


def metadata():
    lines = ["Metadata-Version: 2.1", "Name: gaflwened", f"Version: {version()}", f"Summary: {SUMMARY}", "License: MIT"]
    lines += ["Requires-Python: >=3.9", "Classifier: License :: OSI Approved :: MIT License", "Classifier: Typing :: Typed"]
    lines += ["Provides-Extra: pandas"]
    lines += [f'Requires-Dist: {name}; extra == "pandas"' for name in ("numpy", "pandas")]
    lines += ["Description-Content-Type: text/markdown", "", read(f"{HERE}/README.md").decode("utf-8")]
    return "\n".join(lines).encode("utf-8")


def tag():
    return f"py3-none-{sysconfig.get_platform().replace('-', '_').replace('.', '_')}"


def digest(data):
    return base64.urlsafe_b64encode(hashlib.sha256(data).digest()).rstrip(b"=").decode("ascii")


def dist_info():
    """The name of the wheel's folder of metadata, and its files."""
    wheel = f"Wheel-Version: 1.0\nGenerator: gaflwened\nRoot-Is-Purelib: false\nTag: {tag()}\n"
    return f"gaflwened-{version()}.dist-info", {"METADATA": metadata(), "WHEEL": wheel.encode("ascii"), "LICENSE": read(f"{TOP}/LICENSE")}


def prepare_metadata_for_build_wheel(metadata_directory, config_settings=None):
    """Writes the metadata, and answers the name of its folder."""
    folder, files = dist_info()
    os.makedirs(f"{metadata_directory}/{folder}")
    for name, data in files.items():
        with open(f"{metadata_directory}/{folder}/{name}", "wb") as file:
            file.write(data)
    return folder


def build_wheel(wheel_directory, config_settings=None, metadata_directory=None):
    """Writes the wheel, and answers its name."""
    folder, files = dist_info()
    contents = {f"gaflwened/{name}": read(f"{HERE}/gaflwened/{name}") for name in sorted(os.listdir(f"{HERE}/gaflwened"))
                if name.endswith(".py") or name == "py.typed"}
    contents["gaflwened/_version.py"] = f'"""The version."""\n\n__version__ = "{version()}"\n'.encode("ascii")
    with tempfile.TemporaryDirectory() as room:
        link(f"{room}/libgaflwened.so")
        contents["gaflwened/libgaflwened.so"] = read(f"{room}/libgaflwened.so")
    contents.update({f"{folder}/{name}": data for name, data in files.items()})
    record = "".join(f"{name},sha256={digest(data)},{len(data)}\n" for name, data in contents.items())
    contents[f"{folder}/RECORD"] = f"{record}{folder}/RECORD,,\n".encode("utf-8")
    wheel = f"gaflwened-{version()}-{tag()}.whl"
    with zipfile.ZipFile(os.path.join(wheel_directory, wheel), "w", zipfile.ZIP_DEFLATED) as file:
        for name, data in contents.items():
            file.writestr(name, data)
    return wheel


def build_sdist(sdist_directory, config_settings=None):
    raise SystemExit("gaflwened: there is no source archive, since the proved library is made by `tools/build xls_c`; build a wheel instead")

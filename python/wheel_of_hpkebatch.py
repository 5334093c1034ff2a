"""Makes wheels (PEP 427) with Python's own library alone.

`pip install ./python` calls `build_wheel` (PEP 517): that wheel has the modules, and the shared library where there is one.
`write_wheel` also packs other files beside the modules, such as the program: tools/make_package calls it.
"""

import base64
import glob
import hashlib
import os
import platform
import re
import subprocess
import sys
import zipfile

HERE = os.path.dirname(os.path.abspath(__file__))
PURE, NATIVE = "py3-none-any", "py3-none-linux_x86_64"
SHARED = "libhpkebatch.so.0"
COMMANDS = "[console_scripts]\nhpkebatch = hpkebatch.__main__:main\n"


def read(path):
    with open(os.path.join(HERE, path), "rb") as file:
        return file.read()


def project(name):
    """A text of pyproject.toml."""
    return re.search(rf'^{name} = "(.*)"$', read("pyproject.toml").decode(), re.M)[1]


def modules():
    """Names, bytes and modes."""
    paths = [*sorted(glob.glob(os.path.join(HERE, "hpkebatch/*.py"))), os.path.join(HERE, "hpkebatch/py.typed")]
    return [(f"hpkebatch/{os.path.basename(path)}", read(path), 0o644) for path in paths]


def notes(tag):
    """What a wheel says of itself."""
    texts = {"Metadata-Version": "2.1", "Name": "hpkebatch", "Version": project("version")}
    texts.update({"Summary": project("description"), "Requires-Python": project("requires-python")})
    kind = "true" if tag == PURE else "false"
    wheel = f"Wheel-Version: 1.0\nGenerator: hpkebatch\nRoot-Is-Purelib: {kind}\nTag: {tag}\n"
    metadata = "".join(f"{name}: {text}\n" for name, text in texts.items())
    found = {"METADATA": metadata, "WHEEL": wheel, "entry_points.txt": COMMANDS}
    return [(f"{folder()}/{name}", text.encode(), 0o644) for name, text in found.items()]


def folder():
    return f"hpkebatch-{project('version')}.dist-info"


def write_wheel(directory, tag, more=()):
    """Writes the wheel of this tag, with `more` files beside the modules, and gives its name."""
    name, record = f"hpkebatch-{project('version')}-{tag}.whl", []
    with zipfile.ZipFile(os.path.join(directory, name), "w", zipfile.ZIP_DEFLATED) as wheel:

        def put(path, data, mode):
            entry = zipfile.ZipInfo(path)
            entry.external_attr = (0o100000 | mode) << 16
            entry.compress_type = zipfile.ZIP_DEFLATED
            wheel.writestr(entry, data)

        for path, data, mode in [*modules(), *more, *notes(tag)]:
            digest = base64.urlsafe_b64encode(hashlib.sha256(data).digest()).rstrip(b"=").decode()
            record.append(f"{path},sha256={digest},{len(data)}\n")
            put(path, data, mode)
        put(f"{folder()}/RECORD", "".join([*record, f"{folder()}/RECORD,,\n"]).encode(), 0o644)
    return name


def library():
    """The shared library to pack: that of the archive which this folder is of, or the clone's. None where there is none, or
    where it doesn't run here."""
    if platform.machine() != "x86_64" or platform.system() != "Linux":
        return None
    path, script = os.path.join(HERE, "../lib", SHARED), os.path.join(HERE, "provide_library")
    if os.path.isfile(script):
        done = subprocess.run(["sh", script], stdin=subprocess.DEVNULL, capture_output=True, check=False)
        path = os.fsdecode(done.stdout.rstrip(b"\n"))
        sys.stderr.write(done.stderr.decode("utf-8", "replace"))
    return read(path) if os.path.isfile(path) else None


def build_wheel(wheel_directory, config_settings=None, metadata_directory=None):
    shared = library()
    if shared is None:
        return write_wheel(wheel_directory, PURE)
    return write_wheel(wheel_directory, NATIVE, [(f"hpkebatch/library/{SHARED}", shared, 0o644)])


def build_sdist(sdist_directory, config_settings=None):
    raise NotImplementedError("the source stands in the repository")

"""Makes the wheel of gazhdor, as pip asks for it (PEP 517), with nothing but Python's own library.

The wheel has what the folder gazhdor/ has, and beside it the version and the library of the tree above this folder.
Where this is Linux on x86-64 or aarch64 with glibc, that is the released library, and the tag names the oldest C
library that will do; the same files make the same bytes. Elsewhere, and where the variable GAZHDOR_COMPILE is set,
`compiled.py` makes it by the C compiler that is here. Settings: `processor` names another processor whose released
library is taken; `library` names a library that is there, and `platform` its tag."""
import base64
import hashlib
import os
import platform
import re
import sys
import zipfile

from compiled import compiled, tag_of_this

HERE = os.path.dirname(os.path.abspath(__file__))
TREE = os.path.dirname(HERE)
METADATA = """Metadata-Version: 2.1
Name: gazhdor
Version: {version}
Summary: Checks and converts FIT files, by a proved library
License: MIT
Requires-Python: >=3.9
Classifier: License :: OSI Approved :: MIT License
Classifier: Operating System :: MacOS
Classifier: Operating System :: Microsoft :: Windows
Classifier: Operating System :: POSIX :: Linux
Classifier: Programming Language :: Python :: 3
Classifier: Typing :: Typed
"""
ENTRY_POINTS = """[console_scripts]
gazhdor = gazhdor.__main__:main
"""
WHEEL = """Wheel-Version: 1.0
Generator: gazhdor
Root-Is-Purelib: false
Tag: {tag}
"""


def _read(*parts):
    path = os.path.join(*parts)
    try:
        with open(path, "rb") as file:
            return file.read()
    except FileNotFoundError:
        what = "the wheel is made where the whole tree is, by pip 21.3 or later"
        raise FileNotFoundError(f"{path} isn't there: {what}") from None


def _released_here():
    """Whether this is a machine for which a library is released."""
    system, machine = platform.system(), platform.machine()
    glibc = (system, platform.libc_ver()[0]) == ("Linux", "glibc")
    return glibc and machine in ("x86_64", "aarch64") and sys.maxsize > 2**32


def _made(settings):
    """The library's name in the wheel, its bytes, and the wheel's tag."""
    if settings.get("library"):
        path = settings["library"]
        return os.path.basename(path), _read(path), settings["platform"]
    if not settings.get("processor") and (os.environ.get("GAZHDOR_COMPILE") or not _released_here()):
        return (*compiled(TREE), tag_of_this())
    processor = settings.get("processor") or platform.machine()
    if processor not in ("x86_64", "aarch64"):
        what = f"there are libraries for x86_64 Linux and for aarch64 Linux, and none for {processor} Linux"
        raise RuntimeError(f"gazhdor: {what}")
    library = _library(processor)
    return "libgazhdor.so", library, _tag(library, processor)


def _library(processor):
    """The released library, where it is what release/SHA256SUMS says."""
    place = f"release/{processor}-linux/libgazhdor.so"
    library = _read(TREE, *place.split("/"))
    if f"{hashlib.sha256(library).hexdigest()}  {place}\n".encode() not in _read(TREE, "release", "SHA256SUMS"):
        raise RuntimeError(f"{os.path.join(TREE, place)} is damaged: it is not what release/SHA256SUMS says")
    return library


def _tag(library, processor):
    """The library names each version of the C library that it needs; none is older than 2.17 where pip runs today."""
    minor = max([17] + [int(number) for number in re.findall(rb"\0GLIBC_2\.(\d+)", library)])
    return f"manylinux_2_{minor}_{processor}"


def _modules():
    """Each file of the folder gazhdor/ and of those in it, by its name there."""
    top = os.path.join(HERE, "gazhdor")
    for folder, folders, names in os.walk(top):
        folders[:] = [name for name in folders if name != "__pycache__"]
        for name in names:
            path = os.path.join(folder, name)
            yield os.path.relpath(path, top).replace(os.sep, "/"), _read(path)


def _record(files):
    lines = []
    for name, data in files:
        digest = base64.urlsafe_b64encode(hashlib.sha256(data).digest()).rstrip(b"=").decode()
        lines.append(f"{name},sha256={digest},{len(data)}\n")
    return "".join(lines)


def build_wheel(wheel_directory, config_settings=None, metadata_directory=None):
    module = dict(_modules())
    module["VERSION"] = _read(TREE, "VERSION")
    version = module["VERSION"].decode().strip()
    library, data, system = _made(config_settings or {})
    module[library] = data
    tag = f"py3-none-{system}"
    about = f"gazhdor-{version}.dist-info"
    files = [(f"gazhdor/{name}", module[name]) for name in sorted(module)]
    files += [
        (f"{about}/LICENSE", _read(TREE, "LICENSE")),
        (f"{about}/METADATA", METADATA.format(version=version).encode()),
        (f"{about}/WHEEL", WHEEL.format(tag=tag).encode()),
        (f"{about}/entry_points.txt", ENTRY_POINTS.encode()),
    ]
    record = f"{about}/RECORD"
    files.append((record, (_record(files) + f"{record},,\n").encode()))
    wheel = f"gazhdor-{version}-{tag}.whl"
    with zipfile.ZipFile(os.path.join(wheel_directory, wheel), "w", zipfile.ZIP_STORED) as into:
        for name, data in files:
            entry = zipfile.ZipInfo(name)  # which was changed at the start of 1980
            entry.create_system, entry.external_attr = 3, 0o100644 << 16
            into.writestr(entry, data)
    return wheel

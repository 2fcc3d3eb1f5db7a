"""Makes the library of gazhdor by the C compiler that is here, for machines that have no released one: of C that is
written of js/gazhdor.wasm (release/any), or with musl, where the released code runs too, by linking that anew."""
import hashlib
import os
import platform
import shlex
import subprocess
import sys
import sysconfig
import tempfile

NAMES = {"Windows": "gazhdor.dll", "Darwin": "libgazhdor.dylib"}
ADVICE = {
    "Linux": "gcc (Debian, Ubuntu: apt install gcc; Fedora: dnf install gcc; Alpine: apk add gcc musl-dev)",
    "Darwin": "Apple's clang (xcode-select --install)",
    "Windows": "gcc of MinGW-w64 or clang of LLVM, and have it in PATH",
}


def tag_of_this():
    """The platform of this Python, as wheels name it. Of a Mac it is that of the processor, also where Python has the
    code of two."""
    system, machine = platform.system(), platform.machine()
    if system == "Darwin":
        return f"macosx_{_oldest_mac().replace('.', '_')}_{machine}"
    if system == "Linux" and sys.maxsize < 2**32:
        # A 32-bit Python may run on a 64-bit system, whose name the machine then has.
        machine = {"x86_64": "i686", "aarch64": "armv7l"}.get(machine, machine)
        return f"linux_{machine}"
    return sysconfig.get_platform().replace("-", "_").replace(".", "_")


def _oldest_mac():
    return "11.0" if platform.machine() == "arm64" else "10.9"


def _has_musl():
    """Whether the released code runs here, but not with the released library's C library."""
    musl = platform.system() == "Linux" and platform.libc_ver()[0] != "glibc"
    return musl and sys.maxsize > 2**32 and platform.machine() in ("x86_64", "aarch64")


def _whole(tree, place):
    """The path of a released file, where it is what release/SHA256SUMS says."""
    path = os.path.join(tree, *place.split("/"))
    with open(path, "rb") as file, open(os.path.join(tree, "release", "SHA256SUMS"), "rb") as sums:
        if f"{hashlib.sha256(file.read()).hexdigest()}  {place}\n".encode() not in sums.read():
            raise RuntimeError(f"{path} is damaged: it is not what release/SHA256SUMS says")
    return path


def _words(tree, folder):
    """What a compiler is told, after its name and before where the library goes."""
    system = platform.system()
    if _has_musl():
        archive = _whole(tree, f"release/{platform.machine()}-linux/libgazhdor.a")
        return ["-shared", "-nostartfiles", "-Wl,--whole-archive", archive, "-Wl,--no-whole-archive"]
    sources = os.path.join(tree, "release", "any")
    writer, source = os.path.join(sources, "module_c.py"), os.path.join(sources, "everywhere.c")
    with open(os.path.join(folder, "gazhdor_module.c"), "wb") as file:
        subprocess.run([sys.executable, "-B", writer, _whole(tree, "js/gazhdor.wasm")], stdout=file, check=True)
    flags = shlex.split(os.environ.get("CFLAGS", "-O2"))
    words = [*flags, "-w", "-shared", f"-I{os.path.join(tree, 'c')}", f"-I{folder}", source]
    if system == "Darwin":
        return [*words, "-arch", platform.machine(), f"-mmacosx-version-min={_oldest_mac()}"]
    return words if system == "Windows" else [*words, "-fPIC"]


def compiled(tree):
    """The name and the bytes of the library. The compiler is what CC names, else that of this Python, else cc, gcc or
    clang."""
    system = platform.system()
    name, tried = NAMES.get(system, "libgazhdor.so"), []
    with tempfile.TemporaryDirectory() as folder:
        made, words = os.path.join(folder, name), _words(tree, folder)
        for compiler in filter(None, (os.environ.get("CC"), sysconfig.get_config_var("CC"), "cc", "gcc", "clang")):
            try:
                command = [*shlex.split(compiler), *words, "-o", made]
                done = subprocess.run(command, stdout=subprocess.PIPE, stderr=subprocess.STDOUT)
            except OSError as error:
                tried.append(f"{compiler}: {error}")
                continue
            if done.returncode == 0:
                with open(made, "rb") as file:
                    return name, file.read()
            tried.append(f"{compiler}: {done.stdout.decode(errors='replace')[:500]}")
    need = ADVICE.get(system, "a C compiler")
    what = f"there is no library for {platform.machine()} {system}, and no C compiler made one"
    raise RuntimeError(f"gazhdor: {what}: install {need}, or name one by CC. Tried: {'; '.join(tried)}")

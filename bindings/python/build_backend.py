"""Builds the package for pip, by the hooks of PEP 517 and PEP 660.

A wheel has the shared library of its platform, which the C compiler makes of the compiled code in this folder. So it
needs CC, or cc, and no other package.
"""
import base64
import hashlib
import io
import os
import re
import shlex
import subprocess
import sysconfig
import tarfile
import zipfile

FOLDER = os.path.dirname(os.path.abspath(__file__))
CODE = {"linux-x86_64": "confscript_linux_amd64.s", "linux-aarch64": "confscript_linux_arm64.s"}
LIBRARY = "confscript/libconfscript.so"


def _read(path):
    with open(os.path.join(FOLDER, path), "rb") as file:
        return file.read()


def _project():
    """Returns the keys of pyproject.toml that have a text as their value; tomllib is younger than some Python."""
    return dict(re.findall(r'(?m)^([a-z-]+) = "(.*)"$', _read("pyproject.toml").decode()))


def _metadata():
    project = _project()
    return (
        f"Metadata-Version: 2.1\nName: {project['name']}\nVersion: {project['version']}\n"
        f"Summary: {project['description']}\nRequires-Python: {project['requires-python']}\n"
    ).encode()


def _sources():
    return sorted(f"confscript/{name}" for name in os.listdir(os.path.join(FOLDER, "confscript")) if name.endswith((".py", ".typed")))


def _build_library(path):
    """Makes the shared library of the platform that the wheel is for."""
    platform = sysconfig.get_platform()
    if platform not in CODE:
        raise SystemExit(f"confscript: there is no compiled code for {platform}, but for {' and '.join(CODE)}")
    compiler = shlex.split(os.environ.get("CC") or "cc")
    command = [*compiler, "-shared", "-s", "-Wl,-z,now", "-Wl,-z,noexecstack", os.path.join(FOLDER, CODE[platform]), "-o", path]
    try:
        subprocess.run(command, check=True)
    except (OSError, subprocess.CalledProcessError) as why:
        raise SystemExit(f"confscript: the C compiler failed: {why}") from None


def _write_wheel(folder, files):
    """Writes a wheel of these files, each a path and its content, and returns its name."""
    project = _project()
    name = f"{project['name']}-{project['version']}"
    tag = "py3-none-" + re.sub("[-.]", "_", sysconfig.get_platform())
    files = {
        **files,
        f"{name}.dist-info/METADATA": _metadata(),
        f"{name}.dist-info/WHEEL": f"Wheel-Version: 1.0\nGenerator: confscript\nRoot-Is-Purelib: false\nTag: {tag}\n".encode(),
    }
    record = f"{name}.dist-info/RECORD"
    lines = [f"{record},,\n"]
    for path, content in files.items():
        digest = base64.urlsafe_b64encode(hashlib.sha256(content).digest()).decode().rstrip("=")
        lines.append(f"{path},sha256={digest},{len(content)}\n")
    files[record] = "".join(lines).encode()
    with zipfile.ZipFile(os.path.join(folder, f"{name}-{tag}.whl"), "w", zipfile.ZIP_DEFLATED) as wheel:
        for path, content in files.items():
            # The time is fixed, so that the same sources make the same wheel.
            entry = zipfile.ZipInfo(path, (1980, 1, 1, 0, 0, 0))
            entry.external_attr = (0o755 if path == LIBRARY else 0o644) << 16
            entry.compress_type = zipfile.ZIP_DEFLATED
            wheel.writestr(entry, content)
    return f"{name}-{tag}.whl"


def build_wheel(wheel_directory, config_settings=None, metadata_directory=None):
    library = os.path.join(wheel_directory, "libconfscript.so")
    _build_library(library)
    with open(library, "rb") as file:
        content = file.read()
    os.remove(library)
    return _write_wheel(wheel_directory, {**{path: _read(path) for path in _sources()}, LIBRARY: content})


def build_editable(wheel_directory, config_settings=None, metadata_directory=None):
    _build_library(os.path.join(FOLDER, LIBRARY))
    return _write_wheel(wheel_directory, {"confscript.pth": f"{FOLDER}\n".encode()})


def build_sdist(sdist_directory, config_settings=None):
    project = _project()
    name = f"{project['name']}-{project['version']}"
    with tarfile.open(os.path.join(sdist_directory, f"{name}.tar.gz"), "w:gz", dereference=True, format=tarfile.PAX_FORMAT) as archive:
        metadata = tarfile.TarInfo(f"{name}/PKG-INFO")
        metadata.size = len(_metadata())
        archive.addfile(metadata, io.BytesIO(_metadata()))
        for path in ["pyproject.toml", "build_backend.py", *CODE.values(), *_sources()]:
            archive.add(os.path.join(FOLDER, path), f"{name}/{path}")
    return f"{name}.tar.gz"

"""Builds the package's wheel for pip, with the standard library alone, so that no network and no other package is needed.

    pip install --no-index ./python

The shared library goes into the wheel. It is looked for where the package itself looks for it.
"""
import base64
import hashlib
import os
import sys
import sysconfig
import zipfile

ROOT = os.path.dirname(os.path.dirname(os.path.abspath(__file__)))
PACKAGE = "rachdoum"
SUMMARY = "A planner of designed experiments: the skeleton analysis-of-variance table of a trial, by a proved library"
ENTRY_POINTS = f"[console_scripts]\n{PACKAGE} = {PACKAGE}.command:main\n"


def _shared_library():
    sys.path.insert(0, ROOT)
    from rachdoum.library import library_paths

    for path in library_paths():
        if os.path.isfile(path):
            return path
    raise SystemExit("rachdoum: there is no librachdoum.so to install: run ./plan in the repository first")


def _version():
    with open(os.path.join(ROOT, PACKAGE, "__init__.py"), encoding="utf-8") as file:
        line = next(line for line in file if line.startswith("__version__"))
    return line.split('"')[1]


def _contents(version):
    """The files of the wheel: their names in it, and their bytes."""
    folder = os.path.join(ROOT, PACKAGE)
    sources = sorted(name for name in os.listdir(folder) if name.endswith((".py", ".typed")))
    paths = {f"{PACKAGE}/{name}": os.path.join(folder, name) for name in sources}
    paths[f"{PACKAGE}/librachdoum.so"] = _shared_library()
    for name, path in paths.items():
        with open(path, "rb") as file:
            yield name, file.read()
    about = f"{PACKAGE}-{version}.dist-info"
    metadata = f"Metadata-Version: 2.1\nName: {PACKAGE}\nVersion: {version}\nSummary: {SUMMARY}\nRequires-Python: >=3.9\n"
    wheel = f"Wheel-Version: 1.0\nGenerator: {PACKAGE}\nRoot-Is-Purelib: false\nTag: {_tag()}\n"
    yield f"{about}/METADATA", metadata.encode()
    yield f"{about}/WHEEL", wheel.encode()
    yield f"{about}/entry_points.txt", ENTRY_POINTS.encode()


def _tag():
    platform = sysconfig.get_platform().replace("-", "_").replace(".", "_")
    return f"py3-none-{platform}"


def _digest(data):
    return base64.urlsafe_b64encode(hashlib.sha256(data).digest()).rstrip(b"=").decode()


def build_wheel(wheel_directory, config_settings=None, metadata_directory=None):
    """The hook that pip calls. Answers the file name of the wheel."""
    version = _version()
    file_name = f"{PACKAGE}-{version}-{_tag()}.whl"
    record = []
    with zipfile.ZipFile(os.path.join(wheel_directory, file_name), "w", zipfile.ZIP_DEFLATED) as wheel:
        for name, data in _contents(version):
            wheel.writestr(name, data)
            record.append(f"{name},sha256={_digest(data)},{len(data)}\n")
        name = f"{PACKAGE}-{version}.dist-info/RECORD"
        wheel.writestr(name, "".join(record) + f"{name},,\n")
    return file_name

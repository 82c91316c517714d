"""Packs rx for pip, by the standard library alone, so that it installs where there is no network."""
import base64
import hashlib
import io
import os
import tarfile
import tomllib
import zipfile

TOP = os.path.dirname(os.path.dirname(os.path.abspath(__file__)))


def build_wheel(wheel_directory, config_settings=None, metadata_directory=None):
    """The package and what installers ask about it, as a zip. Its last file has the sums of the others."""
    name, metadata = described()
    info = f"{name}.dist-info"
    tag = "Wheel-Version: 1.0\nGenerator: rx\nRoot-Is-Purelib: true\nTag: py3-none-any\n"
    files = {**package(), f"{info}/METADATA": metadata.encode(), f"{info}/WHEEL": tag.encode()}
    sums = [f"{path},sha256={sum_of(content)},{len(content)}" for path, content in files.items()]
    files[f"{info}/RECORD"] = "\n".join([*sums, f"{info}/RECORD,,", ""]).encode()
    wheel = f"{name}-py3-none-any.whl"
    with zipfile.ZipFile(os.path.join(wheel_directory, wheel), "w", zipfile.ZIP_DEFLATED) as out:
        for path, content in files.items():
            out.writestr(path, content)
    return wheel


def build_sdist(sdist_directory, config_settings=None):
    """What a wheel can be built from."""
    name, metadata = described()
    files = {**package(), "PKG-INFO": metadata.encode()}
    for path in ("pyproject.toml", "packing/pack.py"):
        files[path] = read(os.path.join(TOP, path))
    with tarfile.open(os.path.join(sdist_directory, f"{name}.tar.gz"), "w:gz") as out:
        for path, content in files.items():
            entry = tarfile.TarInfo(f"{name}/{path}")
            entry.size = len(content)
            out.addfile(entry, io.BytesIO(content))
    return f"{name}.tar.gz"


def described():
    """The name that the files have, and the metadata."""
    project = tomllib.loads(read(os.path.join(TOP, "pyproject.toml")).decode())["project"]
    lines = {
        "Metadata-Version": "2.1",
        "Name": project["name"],
        "Version": project["version"],
        "Summary": project["description"],
        "Requires-Python": project["requires-python"],
    }
    name = project["name"].replace("-", "_")
    return f"{name}-{project['version']}", "".join(f"{key}: {it}\n" for key, it in lines.items())


def package():
    """The files of the package by their paths."""
    paths = [os.path.join(at, it) for at, _, names in os.walk(os.path.join(TOP, "rx")) for it in names]
    kept = sorted(it for it in paths if it.endswith((".py", "py.typed")))
    return {os.path.relpath(it, TOP).replace(os.sep, "/"): read(it) for it in kept}


def read(path):
    with open(path, "rb") as file:
        return file.read()


def sum_of(content):
    return base64.urlsafe_b64encode(hashlib.sha256(content).digest()).rstrip(b"=").decode()

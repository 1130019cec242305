"""Packs the module for pip: there is nothing to build, and nothing that it needs. The library goes along where it stands beside it."""

import base64
import hashlib
import io
import os
import pathlib
import re
import sysconfig
import tarfile
import zipfile

HERE = pathlib.Path(__file__).resolve().parent
MODULE = HERE / "fstch"
LIBRARY = "libfstch.so"
README, LICENSE = "README.md", "LICENSE"
PACKED = {".py", ".so", ".typed"}


def said(name):
    """What pyproject.toml says."""
    return re.search(rf'^{name} = "(.*)"$', (HERE / "pyproject.toml").read_text(encoding="utf-8"), re.M)[1]


def files():
    return sorted(it for it in MODULE.iterdir() if it.suffix in PACKED)


def tag():
    """With the library it is for such machines alone."""
    system = re.sub(r"[-.]", "_", sysconfig.get_platform()) if (MODULE / LIBRARY).exists() else "any"
    return f"py3-none-{system}"


def metadata():
    """METADATA of a wheel, and PKG-INFO of what is packed as source."""
    return (
        f"Metadata-Version: 2.1\nName: {said('name')}\nVersion: {said('version')}\nSummary: {said('description')}\n"
        f"License: MIT\nLicense-File: LICENSE\nRequires-Python: {said('requires-python')}\n"
        f"Description-Content-Type: text/markdown\n\n{(HERE / README).read_text(encoding='utf-8')}"
    )


def license_text():
    """The license, which stands beside this file where it was packed, and above it in the repository."""
    return next(it for it in (HERE / LICENSE, HERE.parent / LICENSE) if it.exists()).read_bytes()


def wheel_file():
    return f"Wheel-Version: 1.0\nGenerator: packing\nRoot-Is-Purelib: false\nTag: {tag()}\n"


def row(name, content):
    """A row of RECORD."""
    digest = base64.urlsafe_b64encode(hashlib.sha256(content).digest()).rstrip(b"=").decode()
    return f"{name},sha256={digest},{len(content)}\n"


def build_wheel(wheel_directory, config_settings=None, metadata_directory=None):
    return write_wheel(wheel_directory, {f"fstch/{it.name}": it.read_bytes() for it in files()})


def build_editable(wheel_directory, config_settings=None, metadata_directory=None):
    return write_wheel(wheel_directory, {"fstch.pth": f"{HERE}\n".encode()})


def write_wheel(folder, contents):
    title = f"{said('name')}-{said('version')}"
    about = f"{title}.dist-info"
    contents = {**contents, f"{about}/METADATA": metadata().encode(), f"{about}/WHEEL": wheel_file().encode(), f"{about}/LICENSE": license_text()}
    record = "".join(row(name, content) for name, content in contents.items()) + f"{about}/RECORD,,\n"
    name = f"{title}-{tag()}.whl"
    with zipfile.ZipFile(os.path.join(folder, name), "w", zipfile.ZIP_DEFLATED) as wheel:
        for path, content in {**contents, f"{about}/RECORD": record.encode()}.items():
            wheel.writestr(path, content)
    return name


def build_sdist(sdist_directory, config_settings=None):
    title = f"{said('name')}-{said('version')}"
    with tarfile.open(os.path.join(sdist_directory, f"{title}.tar.gz"), "w:gz") as packed:
        for file in [HERE / "pyproject.toml", HERE / "packing.py", HERE / README, *files()]:
            packed.add(file, f"{title}/{file.relative_to(HERE)}")
        for name, content in (("PKG-INFO", metadata().encode()), (LICENSE, license_text())):
            about = tarfile.TarInfo(f"{title}/{name}")
            about.size = len(content)
            packed.addfile(about, io.BytesIO(content))
    return f"{title}.tar.gz"

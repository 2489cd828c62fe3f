"""Packs the package zuldegei as a wheel, for pip (PEP 517 and 660), by the standard library alone, so that `pip install` of this folder asks
for nothing from a network. pyproject.toml names it. The shared library goes with the package where it stands, in the repository as
interfaces/build leaves it. The same files give the same bytes.
"""

import base64
import hashlib
import re
import tarfile
import zipfile
from pathlib import Path
from typing import Dict, Iterable, Optional

HERE = Path(__file__).resolve().parent
LIBRARY = HERE.parent / "out/libzuldegei.so"
PACKED = ("*.py", "*.html", "*.js", "*.sv", "maps/*.map")  # of the package
BEGAN = (1980, 1, 1, 0, 0, 0)  # the time of each file in a wheel


def _section(name: str) -> Dict[str, str]:
    """The texts of a section of pyproject.toml, by their names."""
    text = (HERE / "pyproject.toml").read_text()
    found = re.search(rf"(?ms)^\[{re.escape(name)}\]\n(.*?)(?=^\[|\Z)", text)
    return dict(re.findall(r'(?m)^([\w-]+) = "(.*)"$', found[1] if found else ""))


def _about() -> Dict[str, str]:
    """The files of a wheel that say what it is, but for the list of all."""
    project = _section("project")
    head = f"Metadata-Version: 2.1\nName: {project['name']}\nVersion: {project['version']}\n"
    about = f"Summary: {project['description']}\nRequires-Python: {project['requires-python']}\n"
    scripts = "".join(f"{name} = {at}\n" for name, at in _section("project.scripts").items())
    wheel = f"Wheel-Version: 1.0\nGenerator: wheel_of_package\nRoot-Is-Purelib: {str(not LIBRARY.exists()).lower()}\nTag: {_tag()}\n"
    return {"METADATA": head + about, "WHEEL": wheel, "entry_points.txt": f"[console_scripts]\n{scripts}"}


def _tag() -> str:
    """What the wheel is for: with the library for its kind of machine alone."""
    return "py3-none-linux_x86_64" if LIBRARY.exists() else "py3-none-any"


def _package() -> Dict[str, bytes]:
    """The files of the package, by their names in the wheel."""
    files = sorted(it for pattern in PACKED for it in (HERE / "zuldegei").glob(pattern))
    found = {str(it.relative_to(HERE)): it.read_bytes() for it in files}
    return {**found, "zuldegei/libzuldegei.so": LIBRARY.read_bytes()} if LIBRARY.exists() else found


def _record(files: Dict[str, bytes], name: str) -> bytes:
    """The list of all files, with their sums."""
    sums = {it: base64.urlsafe_b64encode(hashlib.sha256(data).digest()).rstrip(b"=").decode() for it, data in files.items()}
    return ("".join(f"{it},sha256={sums[it]},{len(data)}\n" for it, data in files.items()) + f"{name},,\n").encode()


def _wheel(folder: str, files: Dict[str, bytes]) -> str:
    """Writes a wheel of these files, and gives its name."""
    project = _section("project")
    named = f"{project['name']}-{project['version']}"
    whole = {**files, **{f"{named}.dist-info/{name}": text.encode() for name, text in _about().items()}}
    record = f"{named}.dist-info/RECORD"
    whole[record] = _record(whole, record)
    name = f"{named}-{_tag()}.whl"
    with zipfile.ZipFile(Path(folder, name), "w", zipfile.ZIP_DEFLATED) as wheel:
        for file, data in whole.items():
            entry = zipfile.ZipInfo(file, BEGAN)
            entry.external_attr, entry.compress_type = 0o644 << 16, zipfile.ZIP_DEFLATED
            wheel.writestr(entry, data)
    return name


def build_wheel(wheel_directory: str, config_settings: object = None, metadata_directory: Optional[str] = None) -> str:
    """A wheel of the package."""
    return _wheel(wheel_directory, _package())


def build_editable(wheel_directory: str, config_settings: object = None, metadata_directory: Optional[str] = None) -> str:
    """A wheel that leads to the package in this folder."""
    return _wheel(wheel_directory, {"zuldegei.pth": f"{HERE}\n".encode()})


def build_sdist(sdist_directory: str, config_settings: object = None) -> str:
    """An archive of this folder, without the library."""
    project = _section("project")
    named = f"{project['name']}-{project['version']}"
    files: Iterable[Path] = [HERE / "pyproject.toml", Path(__file__).resolve(), *(HERE / it for it in _package() if not it.endswith(".so"))]
    with tarfile.open(Path(sdist_directory, f"{named}.tar.gz"), "w:gz") as archive:
        for file in files:
            archive.add(file, f"{named}/{file.relative_to(HERE)}")
    return f"{named}.tar.gz"

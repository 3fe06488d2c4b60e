"""Makes the package's wheel by Python alone: pip takes it from here (PEP 517), so that nothing has to be fetched or installed first."""

import base64
import csv
import hashlib
import io
import os
import pathlib
import runpy
import subprocess
import time
import tomllib
import zipfile

HERE = pathlib.Path(__file__).resolve().parent
WHEEL = "Wheel-Version: 1.0\nGenerator: mosaic-store\nRoot-Is-Purelib: true\nTag: py3-none-any\n"


def build_wheel(wheel_directory, config_settings=None, metadata_directory=None):
    """Writes the wheel to a folder; its name. The same sources give the same bytes, dated by SOURCE_DATE_EPOCH where that is set."""
    project = tomllib.loads((HERE / "pyproject.toml").read_text())["project"]
    version = runpy.run_path(str(HERE / "mosaic_store" / "version.py"))["VERSION"]
    stem = f"{project['name'].replace('-', '_')}-{version}"
    sources = (path for path in (HERE / "mosaic_store").rglob("*") if path.is_file() and "__pycache__" not in path.parts)
    files = {path.relative_to(HERE).as_posix(): content(path) for path in sources}
    scripts = "".join(f"{name} = {target}\n" for name, target in project["scripts"].items())
    about = {"METADATA": metadata(project, version), "WHEEL": WHEEL, "entry_points.txt": f"[console_scripts]\n{scripts}"}
    files |= {f"{stem}.dist-info/{name}": text.encode() for name, text in about.items()}
    files |= {f"{stem}.dist-info/RECORD": record(files, f"{stem}.dist-info/RECORD")}
    name = f"{stem}-py3-none-any.whl"
    with zipfile.ZipFile(pathlib.Path(wheel_directory, name), "w", zipfile.ZIP_DEFLATED) as wheel:
        for path in sorted(files):
            wheel.writestr(entry(path), files[path])
    return name


def metadata(project, version):
    """What the package is and needs, as the wheel's METADATA has it."""
    extras = project["optional-dependencies"]
    needs = [f'Requires-Dist: {need}; extra == "{extra}"' for extra in extras for need in extras[extra]]
    lines = [
        "Metadata-Version: 2.1",
        f"Name: {project['name']}",
        f"Version: {version}",
        f"Summary: {project['description']}",
        f"License: {project['license']['text']}",
        f"Keywords: {','.join(project['keywords'])}",
        *(f"Classifier: {classifier}" for classifier in project["classifiers"]),
        f"Requires-Python: {project['requires-python']}",
        "Description-Content-Type: text/markdown",
        *(f"Provides-Extra: {extra}" for extra in extras),
        *needs,
    ]
    return "\n".join(lines) + "\n\n" + (HERE / project["readme"]).read_text(encoding="utf-8")


def record(files, own):
    """The list of a wheel's files with their digests and sizes."""
    text = io.StringIO()
    rows = csv.writer(text, lineterminator="\n")
    for path in sorted(files):
        digest = base64.urlsafe_b64encode(hashlib.sha256(files[path]).digest()).rstrip(b"=").decode()
        rows.writerow([path, f"sha256={digest}", len(files[path])])
    rows.writerow([own, "", ""])
    return text.getvalue().encode()


def content(path):
    """A file's bytes as they are installed: version.py names the newest commit, where the sources are git's."""
    told = path.read_bytes()
    if path.name != "version.py":
        return told
    newest = subprocess.run("git log -1 --format=%h --abbrev=12", shell=True, cwd=HERE, stdout=subprocess.PIPE, stderr=subprocess.DEVNULL, text=True)
    return told.replace(b'COMMIT = ""', f'COMMIT = "{newest.stdout.strip()}"'.encode())


def entry(path):
    date = time.gmtime(max(int(os.environ.get("SOURCE_DATE_EPOCH", "0")), 315532800))[:6]  # a zip's dates begin in 1980
    made = zipfile.ZipInfo(path, date)
    made.external_attr = 0o644 << 16
    made.compress_type = zipfile.ZIP_DEFLATED
    return made

"""What goes to the workers of a cluster: this package and the programs, as one file whose name follows from its content.

A worker needs Dask and Python alone. As each content has a name of its own, no worker does a task by another version."""

from __future__ import annotations

import hashlib
import pkgutil
import tempfile
import threading
import zipfile
from pathlib import Path
from typing import Any

from ..problem import Trouble
from .pool import Job, work

HERE = Path(__file__).resolve().parents[1]
"""The folder of this package."""
LEFT_OUT = {"web"}
"""Parts of the package that no task needs."""
PROGRAMS = "programs"
"""The folder of the programs in a parcel."""
_LOCK = threading.Lock()
_FOUND: dict[str, str] = {}


def contents(programs: dict[str, str]) -> dict[str, bytes]:
    """The files of a parcel: the modules of this package, and the programs."""
    modules = (path for path in sorted(HERE.rglob("*.py")) if path.relative_to(HERE).parts[0] not in LEFT_OUT)
    files = {path.relative_to(HERE).as_posix(): path.read_bytes() for path in modules}
    for name, path in sorted(programs.items()):
        try:
            files[f"{PROGRAMS}/{name}"] = Path(path).read_bytes()
        except OSError as fault:
            raise Trouble(f"{path} can't be read: {fault.strerror}") from None
    return files


def packed(programs: dict[str, str], folder: Path) -> tuple[Path, dict[str, str]]:
    """Writes the parcel into a folder. Gives its path, and the checksums of its programs."""
    files = contents(programs)
    total = hashlib.sha256()
    for name, data in files.items():
        total.update(f"{name} {len(data)}\n".encode() + data)
    package = f"sefwllon_{total.hexdigest()[:16]}"
    path = folder / f"{package}.zip"
    with zipfile.ZipFile(path, "w", zipfile.ZIP_DEFLATED) as zipped:
        for name, data in files.items():
            zipped.writestr(zipfile.ZipInfo(f"{package}/{name}"), data, zipfile.ZIP_DEFLATED)
    return path, {name: hashlib.sha256(files[f"{PROGRAMS}/{name}"]).hexdigest() for name in programs}


def do(kind: str, job: Job, sums: dict[str, str]) -> dict[str, Any]:
    """Does a task on a worker: its result, or `fault`, why there is none; and where it was done."""
    from distributed import get_worker

    where = str(get_worker().address)
    try:
        return {"result": work(kind, job, unpacked(sums)), "where": where}
    except Trouble as trouble:
        return {"fault": str(trouble), "where": where}


def unpacked(sums: dict[str, str]) -> dict[str, str]:
    """The programs of the parcel as files of this worker, each tested by its checksum. All are written before one is run, as a file
    that is open for writing can't be."""
    with _LOCK:
        if not _FOUND:
            folder = Path(tempfile.mkdtemp(prefix="sefwllon-", dir=worker_folder()))
            found = {name: written(folder / name, name, wanted) for name, wanted in sums.items()}
            _FOUND.update(found)
        return dict(_FOUND)


def worker_folder() -> str | None:
    """The folder of this worker, which Dask takes away when it is gone."""
    from distributed import get_worker

    return getattr(get_worker(), "local_directory", None)


def written(path: Path, name: str, wanted: str) -> str:
    """Writes a program of the parcel, and tests what stands there then."""
    path.write_bytes(pkgutil.get_data(__name__.partition(".")[0], f"{PROGRAMS}/{name}") or b"")
    if hashlib.sha256(path.read_bytes()).hexdigest() != wanted:
        raise Trouble(f"{name} arrived damaged: its content is not what was sent")
    path.chmod(0o700)
    return str(path)

"""The files of an artefact by their paths, and how they are written: the same bytes each time, with one time for all of them."""
import contextlib
import gzip
import io
import os
import subprocess
import tarfile
import time
import zipfile
from collections import namedtuple

# Zip has no time before 1980.
FIRST = 315532800


def moment():
    """When all files of an artefact were changed, as they say: SOURCE_DATE_EPOCH, as is the custom, or the time of the commit."""
    given = os.environ.get("SOURCE_DATE_EPOCH")
    if given is None:
        words = ["git", "log", "-1", "--format=%ct"]
        here = os.path.dirname(os.path.abspath(__file__))
        with contextlib.suppress(OSError, subprocess.CalledProcessError):
            given = subprocess.run(words, cwd=here, stdout=subprocess.PIPE, stderr=subprocess.DEVNULL, text=True, check=True).stdout.strip()
    return max(int(given or 0), FIRST)


MOMENT = moment()

# target: what a link leads to, and None of a file.
File = namedtuple("File", "content mode target", defaults=(b"", 0o644, None))


def of(path, mode=0o644):
    """The file that stands at a path."""
    with open(path, "rb") as file:
        return File(file.read(), mode)


def text(it):
    return File(it.encode())


def link(target):
    return File(target=target)


def under(folder, endings, at=""):
    """The files of a folder and those below it that have one of these endings, by their paths in it."""
    found = {}
    for where, folders, names in os.walk(folder):
        folders[:] = sorted(it for it in folders if it not in ("__pycache__", "target", "out"))
        for it in sorted(names):
            if it.endswith(endings):
                found[os.path.join(at, os.path.relpath(os.path.join(where, it), folder))] = of(os.path.join(where, it))
    return found


def tar(files, top, to):
    """Writes files as a tar under gzip, all below one folder."""
    packed = io.BytesIO()
    with tarfile.open(fileobj=packed, mode="w", format=tarfile.PAX_FORMAT) as archive:
        for path, it in sorted(files.items()):
            entry = tarfile.TarInfo(f"{top}/{path}")
            entry.mtime, entry.mode, entry.size = MOMENT, it.mode, len(it.content)
            if it.target:
                entry.type, entry.linkname, entry.mode = tarfile.SYMTYPE, it.target, 0o777
            archive.addfile(entry, io.BytesIO(it.content))
    with open(to, "wb") as file, gzip.GzipFile("", "wb", 9, file, MOMENT) as squeezed:
        squeezed.write(packed.getvalue())


def packed(files, to):
    """Writes files as a zip, in the order in which they are given."""
    with zipfile.ZipFile(to, "w", zipfile.ZIP_DEFLATED) as archive:
        for path, it in files.items():
            entry = zipfile.ZipInfo(path, time.gmtime(MOMENT)[:6])
            entry.external_attr, entry.compress_type = (0o100000 | it.mode) << 16, zipfile.ZIP_DEFLATED
            archive.writestr(entry, it.content)


def lay(files, folder):
    """Writes files into a folder."""
    for path, it in files.items():
        place = os.path.join(folder, path)
        os.makedirs(os.path.dirname(place), exist_ok=True)
        if it.target:
            os.symlink(it.target, place)
            continue
        with open(place, "wb") as file:
            file.write(it.content)
        os.chmod(place, it.mode)

"""Makes the files of a release of the proved and built program and libraries:

- for each processor an archive, packages for Debian and a wheel;
- a wheel for serving, a crate and a package for npm;
- an archive of references;
- an SBOM, a list of the sources and tools (MADE-OF), and the sums of the files.

Nothing is proved here. The libraries are taken as they are; the program, and all for another processor, is built of generated/. The header is made of the
exports, and the shared object has to show its calls and no other name. Files that this machine has no tools for are left out, with a line that says so. The
same input gives the same bytes on one machine.
"""
import argparse
import contextlib
import hashlib
import os
import subprocess
import sys
import tempfile
import time

import debian
import files
import notices
from given import LIBRARY, NAME, ROOT, VERSION, assemble
from languages import crate, npm, serving, wheel
from machines import HERE, MACHINES, gather
from prefix import archive
from references import references

FOR_EACH = {"the archive": archive, "the packages for Debian": debian.packages, "the wheel": wheel}
ONCE = {"the wheel of serving": serving, "the crate": crate, "the package for npm": npm, "the references": references}
SUMS, MADE_OF, SBOM = "SHA256SUMS", "MADE-OF", f"{NAME}.spdx.json"


def sums(folder, algorithm="sha256"):
    """The sums of all that was made, by name."""
    found = {}
    for name in sorted(os.listdir(folder)):
        with open(os.path.join(folder, name), "rb") as file:
            found[name] = hashlib.new(algorithm, file.read()).hexdigest()
    return found


def write(folder, name, text):
    with open(os.path.join(folder, name), "w", encoding="utf-8") as file:
        file.write(text)


def text_in(path):
    with open(path, encoding="utf-8") as file:
        return file.read()


def said_by(*words):
    """Returns the output of a command; nothing if it is not here or fails."""
    try:
        return subprocess.run(words, cwd=ROOT, stdout=subprocess.PIPE, stderr=subprocess.DEVNULL, text=True, check=True).stdout.strip()
    except (OSError, subprocess.CalledProcessError):
        return ""


def kit():
    """Returns the version of the kit that made the proofs, from generated/, or of the kit that is here."""
    try:
        noted = [it for it in assemble.text_of(assemble.SUMS).splitlines() if it.startswith("# kit: ")]
    except OSError:
        noted = []
    return noted[0].removeprefix("# kit: ") if noted else said_by("rt", "version") or "unknown"


def made_of(said=""):
    """Returns the text of MADE-OF: the version, commit and kit, the compiler that assembled the proved code, the sums that the proofs were noted under, and
    the kit's verdicts on the proofs.
    """
    commit = said_by("git", "rev-parse", "HEAD") or "unknown"
    changed = " with changes that are not committed" if said_by("git", "status", "--porcelain") else ""
    text = f"version: {VERSION}\ncommit: {commit}{changed}\nkit: {kit()}\nprocessor that made it: {HERE}\n"
    text += f"compiler: {(said_by('cc', '--version') or 'unknown').splitlines()[0]}\n"
    with contextlib.suppress(OSError):
        text += f"\ngenerated/SUMS, which names the proved code and its sources:\n{assemble.text_of(assemble.SUMS)}"
    return f"{text}\nWhat the kit said of the proofs (rt ci):\n{said}" if said else text


def close(folder, key, said):
    """Writes the files of a release as a whole: MADE-OF, its SBOM, its sums, and the signature of these."""
    write(folder, MADE_OF, made_of(said))
    moment = time.strftime("%Y-%m-%dT%H:%M:%SZ", time.gmtime(files.MOMENT))
    # (SPDX asks for SHA1 beside any other sum)
    by_algorithm = {it: sums(folder, it) for it in ("sha1", "sha256")}
    by_name = {name: {it: its[name] for it, its in by_algorithm.items()} for name in sorted(os.listdir(folder))}
    write(folder, SBOM, notices.sbom(NAME, VERSION, moment, kit(), by_name))
    write(folder, SUMS, "".join(f"{total}  {name}\n" for name, total in sums(folder).items()))
    if key:
        sign(folder, key)


def sign(folder, key):
    """Signs the sums by a key of gpg, beside them."""
    subprocess.run(["gpg", "--batch", "--yes", "--local-user", key, "--armor", "--detach-sign", os.path.join(folder, SUMS)], check=True)


def release(library, to, key=None, said="", without=()):
    """Makes all files of a release, but for those in `without`, in an empty folder; returns the files that were left out, each with the reason."""
    left = {}
    for machine in MACHINES.values():
        with tempfile.TemporaryDirectory() as work:
            why = gather(library, work, machine)
            makers = {} if why else {f"{what} for {machine.name}": (maker, (work, to, machine)) for what, maker in FOR_EACH.items()}
            if machine.name == HERE:
                makers |= {what: (maker, (work, to)) for what, maker in ONCE.items()}
            left |= {f"all for {machine.name}": why} if why else {}
            left |= {what: why for what, (maker, given) in makers.items() if what not in without and (why := maker(*given))}
    close(to, key, said)
    return left


def main():
    parser = argparse.ArgumentParser(description=__doc__, formatter_class=argparse.RawDescriptionHelpFormatter)
    parser.add_argument("folder", metavar="FOLDER", help="where the files go; it is made, or is empty")
    words = "where the libraries are, and the program if it is there too (bindings/c/out, and the program of crates/domserve/out)"
    parser.add_argument("--library", metavar="FOLDER", default=LIBRARY, help=words)
    parser.add_argument("--key", metavar="KEY", help="signs SHA256SUMS by this key of gpg")
    parser.add_argument("--said", metavar="FILE", help="what `rt ci` said, with a verdict for each crate; it goes into MADE-OF")
    given = parser.parse_args()
    os.makedirs(given.folder, exist_ok=True)
    if os.listdir(given.folder):
        sys.exit(f"{given.folder} is not empty")
    for what, why in release(given.library, given.folder, given.key, text_in(given.said) if given.said else "").items():
        print(f"left out: {what}, since {why}")
    for name in sorted(os.listdir(given.folder)):
        print(os.path.join(given.folder, name))

#!/usr/bin/env python3
"""Makes a release, and installs and uses each of its files where nothing knows of the repository.

- the archive: by pkg-config, as it was unpacked and after it was moved; its program; by cmake; its man pages;
- the packages for Debian: by lintian, unpacked, their fields, the program, by pkg-config; and installed by apt, if a copy of the system's folders can be had;
- the wheel, its tag and fields, by pip in an empty environment, and the wheel of serving beside it;
- the crate, in a project of cargo: as it is, by pkg-config, and by HUCKLEPORT_LIB_DIR; and the examples of its page and comments;
- the package for npm, in an empty project;
- the terms in each file, the SBOM, the sums and their signature, and that two makings give the same bytes;
- the library's interface beside that of the last release, by abidiff;
- the files for aarch64, under qemu.

Nothing is fetched. Tests that this machine has no tool for are left out, with a line that says so. The libraries are those of bindings/c/out, and the
program that of crates/domserve/out, unless --library names another folder. It runs some minutes; the gate runs the interface and NOTICE alone.
"""
import argparse
import glob
import hashlib
import json
import os
import re
import shutil
import subprocess
import sys
import tarfile
import tempfile
import time
import unittest
import unittest.mock
import xml.etree.ElementTree
import zipfile

sys.dont_write_bytecode = True
FOLDER = os.path.dirname(os.path.abspath(__file__))
sys.path.insert(0, FOLDER)
import abi
import debian
import declarations
import elsewhere
import files
import making
import notices
import other
from given import BINDINGS, LIBRARY, LICENSE, LICENSES, PROGRAM, ROOT, SHARED, VERSION, is_generated, make
from header import header
from machines import HERE, MACHINES
from making import MADE_OF, SBOM, SUMS, release

PROGRAMS = os.path.join(FOLDER, "programs")
EDITOR = os.path.join(BINDINGS, "c/examples/editor.c")
# What a program of each language prints: the text of a range that was put around a text, to which a word was added.
PRINTED = "some more text\n"
LINES, REPLIES = '["createElement",0,"p"]\n["appendChild",0,1]\n["tree",0]\n', '{"ok":1}\n{"ok":1}\n{"ok":[[0,0,9,"#document"],[1,1,1,"p",[]]]}\n'
# What the tests may tell a program of their own surroundings.
KNOWN = ("PATH", "HOME", "LANG", "CARGO_HOME", "RUSTUP_HOME", "TMPDIR")
MACHINE = MACHINES[HERE]
MULTIARCH = f"usr/lib/{MACHINE.multiarch}"
OTHER = next(it for it in MACHINES.values() if it.name != HERE)
ARCHIVES = f"*-{HERE}-linux.tar.gz"
# What the proved code is built of.
COPIED = ("crates", "generated", "tools", "bindings/c", "bindings/VERSION", "crates.txt", "HANDLES")
# The files that tell of the release as a whole.
WHOLE = {SUMS, f"{SUMS}.asc"}
# Debian's Python, for which Debian has psycopg; and its cargo, for which Debian has the standard library for another processor.
SYSTEM, CARGO = "/usr/bin/python3", "/usr/bin/cargo"
# Whether a folder can be mounted as a copy of another one.
OVERLAY = "mount -t tmpfs none /mnt && mkdir /mnt/a /mnt/b && mount -t overlay overlay -o lowerdir=/usr,upperdir=/mnt/a,workdir=/mnt/b /usr"


def needs(*tools):
    missing = [it for it in tools if not shutil.which(it)]
    return unittest.skipIf(missing, f"left out, since there is no {' and no '.join(missing)}")


class Release(unittest.TestCase):
    """What each test has: the files of the release, and an empty folder outside of the repository, in which commands run."""

    made = given = library = None

    def setUp(self):
        self.folder = tempfile.mkdtemp()
        self.addCleanup(shutil.rmtree, self.folder)

    def file(self, pattern):
        found = glob.glob(os.path.join(self.made, pattern))
        if not found:
            self.skipTest(f"left out, since there is no {pattern}")
        return found[0]

    def at(self, *steps):
        return os.path.join(self.folder, *steps)

    def run_in(self, *words, given=None, **variables):
        """What a command writes, which has to succeed; it knows of no variable but a few and these."""
        environment = {**{name: os.environ[name] for name in KNOWN if name in os.environ}, **variables}
        ran = subprocess.run(words, input=given, cwd=self.folder, env=environment, stdout=subprocess.PIPE, stderr=subprocess.PIPE, universal_newlines=True)
        self.assertEqual(ran.returncode, 0, f"{' '.join(words)}\n{ran.stdout}{ran.stderr}")
        return ran.stdout

    def unpacked(self, file):
        """Unpacks a tar, and returns its one folder."""
        with tarfile.open(file) as archive:
            tops = {it.split("/")[0] for it in archive.getnames()}
            archive.extractall(self.folder)
        self.assertEqual(len(tops), 1)
        return self.at(tops.pop())

    def copied(self, *names):
        for it in names:
            shutil.copy(os.path.join(PROGRAMS, it), self.folder)

    def tries_editor(self, *program, **variables):
        with open(EDITOR[:-2] + ".out", encoding="utf-8") as file:
            self.assertEqual(self.run_in(*program, **variables), file.read())

    def tries_c(self, libraries, **places):
        """Compiles by what pkg-config says, against the shared object and against the archive."""
        flags = self.run_in("pkg-config", "--cflags", "--libs", "huckleport", **places).split()
        self.assertEqual(self.run_in("pkg-config", "--modversion", "huckleport", **places).strip(), VERSION)
        self.run_in("gcc", EDITOR, *flags, "-o", "by_shared")
        self.tries_editor(self.at("by_shared"), LD_LIBRARY_PATH=libraries)
        includes = [it for it in flags if it.startswith("-I")]
        self.run_in("gcc", EDITOR, *includes, os.path.join(libraries, "libhuckleport.a"), "-o", "by_static")
        self.tries_editor(self.at("by_static"))
        self.run_in("gcc", os.path.join(PROGRAMS, "version.c"), *includes, "-o", "version")
        self.assertEqual(self.run_in(self.at("version")).strip(), VERSION)

    def tries_domserve(self, program):
        self.assertEqual(self.run_in(program, given=LINES), REPLIES)


class Sums(Release):
    def test_each_file_has_its_sum(self):
        with open(os.path.join(self.made, SUMS), encoding="utf-8") as file:
            said = dict(reversed(line.split()) for line in file)
        self.assertEqual(set(said), set(os.listdir(self.made)) - WHOLE)
        for name, due in said.items():
            with open(os.path.join(self.made, name), "rb") as file:
                self.assertEqual(hashlib.sha256(file.read()).hexdigest(), due)


    def test_sbom_and_what_it_was_made_of(self):
        with open(os.path.join(self.made, SBOM), encoding="utf-8") as file:
            found = json.load(file)
        self.assertEqual((found["spdxVersion"], found["dataLicense"]), ("SPDX-2.3", "CC0-1.0"))
        packages = {it["name"]: it["versionInfo"] for it in found["packages"]}
        self.assertEqual(packages["huckleport"], VERSION)
        self.assertLessEqual({it["name"] for it in notices.components()}, set(packages))
        named = {it["fileName"].removeprefix("./"): {its["algorithm"]: its["checksumValue"] for its in it["checksums"]} for it in found["files"]}
        self.assertEqual(set(named), set(os.listdir(self.made)) - WHOLE - {SBOM})
        for name, its in named.items():
            content = files.of(os.path.join(self.made, name)).content
            self.assertEqual(its, {"SHA1": hashlib.sha1(content).hexdigest(), "SHA256": hashlib.sha256(content).hexdigest()})
        ids = {it["SPDXID"] for it in [*found["packages"], *found["files"], found]}
        self.assertEqual({it[end] for it in found["relationships"] for end in ("spdxElementId", "relatedSpdxElement")} - ids, set())
        # (a package whose files are not listed may contain none)
        contained = {it["relatedSpdxElement"] for it in found["relationships"] if it["relationshipType"] == "CONTAINS"}
        self.assertEqual(contained & {it["SPDXID"] for it in found["files"]}, set())
        with open(os.path.join(self.made, MADE_OF), encoding="utf-8") as file:
            text = file.read()
        self.assertEqual([it.partition(":")[0] for it in text.splitlines()[:5]], ["version", "commit", "kit", "processor that made it", "compiler"])
        self.assertIn(files.of(making.assemble.SUMS).content.decode(), text)
        self.assertTrue(making.made_of("dom_model: accepted\n").endswith("\nWhat the kit said of the proofs (rt ci):\ndom_model: accepted\n"))

    def test_terms(self):
        """Each archive and package has the terms whole."""
        due = {it: files.of(os.path.join(ROOT, it)).content for it in LICENSES}
        for file in sorted(os.listdir(self.made)):
            if file.endswith((".tar.gz", ".crate", ".tgz")) and "-references" not in file:
                with tarfile.open(os.path.join(self.made, file)) as archive:
                    found = {os.path.basename(it.name): archive.extractfile(it).read() for it in archive if it.isfile()}
            elif file.endswith(".whl"):
                with zipfile.ZipFile(os.path.join(self.made, file)) as archive:
                    found = {os.path.basename(it): archive.read(it) for it in archive.namelist()}
            else:
                continue
            with self.subTest(file):
                self.assertEqual({it: found.get(it) for it in due}, due)

    @needs("dpkg-deb")
    def test_terms_of_packages(self):
        """Debian's packages have the MIT License whole, NOTICE, and the place at which Debian has the Apache License."""
        mit = files.of(os.path.join(ROOT, "LICENSE-MIT")).content.decode().partition("Permission is hereby granted")[2].split()
        named = {it["name"] for it in notices.components()}
        for file in sorted(glob.glob(os.path.join(self.made, "*.deb"))):
            self.run_in("dpkg-deb", "--extract", file, os.path.basename(file))
            with open(self.at(os.path.basename(file), f"usr/share/doc/{os.path.basename(file).partition('_')[0]}/copyright"), encoding="utf-8") as text:
                words = text.read().split()
            with self.subTest(file):
                self.assertIn(" ".join(mit), " ".join(it for it in words if it != "."))
                self.assertIn("/usr/share/common-licenses/Apache-2.0.", words)
                self.assertEqual({it for it in named if it not in " ".join(words)}, set())

    @needs("gpg")
    def test_signature(self):
        """The sums are signed by a key that is given, and another text than theirs is refused."""
        home = self.at("home")
        os.mkdir(home, 0o700)
        self.run_in("gpg", "--batch", "--quiet", "--passphrase", "", "--quick-generate-key", "Release", "ed25519", "sign", "never", GNUPGHOME=home)
        os.mkdir(self.at("signed"))
        shutil.copy(os.path.join(self.made, SUMS), self.at("signed"))
        with unittest.mock.patch.dict(os.environ, GNUPGHOME=home):
            making.sign(self.at("signed"), "Release")
        self.run_in("gpg", "--batch", "--quiet", "--verify", f"signed/{SUMS}.asc", f"signed/{SUMS}", GNUPGHOME=home)
        with open(self.at("signed", SUMS), "a", encoding="utf-8") as file:
            file.write("0  another\n")
        words = ["gpg", "--batch", "--verify", f"signed/{SUMS}.asc", f"signed/{SUMS}"]
        self.assertNotEqual(subprocess.run(words, cwd=self.folder, env={**os.environ, "GNUPGHOME": home}, stderr=subprocess.DEVNULL, check=False).returncode, 0)
        self.run_in("gpgconf", "--kill", "all", GNUPGHOME=home)


class Again(Release):
    def test_same_bytes(self):
        """A second making gives the same bytes. (The references are their tools' own.)"""
        if Release.given:
            self.skipTest("left out, since the release was not made now")
        release(Release.library, self.folder, without=("the references",))
        sums = [{name: total for name, total in making.sums(it).items() if name not in (*WHOLE, SBOM) and "-references" not in name} for it in (self.made, self.folder)]
        self.assertEqual(*sums)


    @needs("gcc")
    def test_program_and_libraries_in_two_folders(self):
        """Copies of the repository in two places give the same bytes, and the release has them."""
        if not is_generated():
            self.skipTest("left out, since generated/ is of other sources")
        made = []
        for copy in ("one", "another/place"):
            for it in COPIED:
                path, to = os.path.join(ROOT, it), self.at(copy, it)
                shutil.copytree(path, to, ignore=shutil.ignore_patterns("out", "__pycache__")) if os.path.isdir(path) else shutil.copy(path, to)
            self.run_in(sys.executable, self.at(copy, "tools/assemble.py"), "--to", self.at(f"{len(made)}.domserve"))
            self.run_in(sys.executable, self.at(copy, "bindings/c/make.py"))
            paths = self.at(f"{len(made)}.domserve"), *(self.at(copy, "bindings/c/out", it) for it in ("libhuckleport.a", SHARED))
            made.append([files.of(it).content for it in paths])
        self.assertEqual(*made)
        top = self.unpacked(self.file(ARCHIVES))
        self.assertEqual([files.of(os.path.join(top, it)).content for it in ("bin/domserve", "lib/libhuckleport.a", f"lib/{SHARED}")], made[0])


class Notice(unittest.TestCase):
    def test_has_each_crate_with_its_version(self):
        self.assertEqual(notices.faults(), [])
        with open(notices.NOTICE, encoding="utf-8") as file:
            self.assertEqual(file.read(), notices.notice())


class Interface(unittest.TestCase):
    """The library's interface beside that of the last release of its series."""

    CALL = "uint8_t hp_close(hp_session *session);"

    def setUp(self):
        if abi.missing():
            self.skipTest(f"left out, since there is no {' and no '.join(abi.missing())}")
        if not os.path.exists(abi.kept()):
            self.skipTest("left out, since no release of this series has an interface yet")
        self.text = header(abi.modules(abi.SOURCES))

    def test_is_that_of_the_last_release(self):
        self.assertIsNone(abi.changes(self.text))

    def test_what_it_refuses(self):
        self.assertIsNone(abi.changes(self.text.replace(self.CALL, self.CALL + "\nuint8_t hp_more(hp_session *session);")))
        self.assertIn("hp_close", abi.changes(self.text.replace(self.CALL, "")))
        self.assertIn("hp_close", abi.changes(self.text.replace(self.CALL, "uint8_t hp_close(hp_session *session, size_t more);")))
        struct = re.search(r"typedef struct \w+ \{\n(.*?)\n\}", self.text, re.S)[1]
        self.assertIsNotNone(abi.changes(self.text.replace(struct, struct + "\n    uint64_t more;", 1)))

    def test_names(self):
        """The shared object has the series in its name, and each call its version."""
        said = make.call("objdump", "-T", os.path.join(Release.library, SHARED))
        self.assertIn(f"HUCKLEPORT_{make.SERIES} hp_open", " ".join(said.split()).replace(f"({make.SYMBOLS})", make.SYMBOLS))
        self.assertIn(f"libhuckleport.so.{make.SERIES}", make.call("objdump", "-p", os.path.join(Release.library, SHARED)))


class Archive(Release):
    def test_program(self):
        top = self.unpacked(self.file(ARCHIVES))
        self.tries_domserve(os.path.join(top, "bin/domserve"))
        pages = ("commands.md", "rules.md", "c-library.md", "release.md", "CHANGELOG.md", "SECURITY.md")
        for it in ("man/man1/domserve.1", "bash-completion/completions/domserve", "zsh/site-functions/_domserve", *(f"doc/huckleport/{it}" for it in pages)):
            self.assertTrue(os.path.isfile(os.path.join(top, "share", it)), it)

    def test_explain(self):
        """Replies stay byte for byte; what a refused line had to have goes to standard error; a reader that ends early ends it silently."""
        top = self.unpacked(self.file(ARCHIVES))
        explain, program = (os.path.join(top, "bin", it) for it in ("domserve-explain", "domserve"))
        lines = '["remove"]\n["tree",0]\n\nhelp\n["nosuch"]\n["notify",1]'
        ran = subprocess.run([explain], input=lines, stdout=subprocess.PIPE, stderr=subprocess.PIPE, text=True, timeout=60, check=True)
        self.assertEqual(ran.stdout, self.run_in(program, given=lines))
        told = [it.split(": ") for it in ran.stderr.splitlines()]
        self.assertEqual([it[:2] for it in told], [["line 1", "bad-arguments"], ["line 3", "bad-json"], ["line 4", "bad-json"], ["line 5", "bad-command"], ["line 6", "bad-arguments"]])
        self.assertEqual(told[0][2:], ['["remove", "NODE"]', "NODE is a number from 0 on"])
        self.assertIn('["setStart", "RANGE", "NODE", "OFFSET"]', self.run_in(explain, "--commands"))
        self.assertEqual(subprocess.run([explain, "--line", "0"], stdin=subprocess.DEVNULL, stderr=subprocess.DEVNULL, check=False).returncode, 2)
        words = f"while true; do echo '[\"tree\",0]'; done | {explain} 2>err | head -n 1; echo ${{PIPESTATUS[1]}}"
        self.assertEqual(self.run_in("bash", "-c", words), '{"ok":[[0,0,9,"#document"]]}\n141\n')
        self.assertEqual(files.of(self.at("err")).content, b"")

    @needs("bash")
    def test_completion(self):
        words = "source share/bash-completion/completions/domserve; COMP_WORDS=(domserve --l); COMP_CWORD=1; _domserve; echo ${COMPREPLY[@]}"
        self.folder = self.unpacked(self.file(ARCHIVES))
        self.assertEqual(self.run_in("bash", "-c", words), "--line\n")

    @needs("man")
    def test_man_page(self):
        top = self.unpacked(self.file(ARCHIVES))
        due = {"domserve.1": ("ENVIRONMENT", "FILES", "EXIT STATUS", "EXAMPLES"), "huckleport.3": ("RETURN VALUES", "FILES", "EXAMPLES"), "domserve-explain.1": ("EXIT STATUS", "EXAMPLES")}
        pages = {it: self.run_in("man", "--pager=cat", os.path.join(top, f"share/man/man{it[-1]}", it), MANWIDTH="100") for it in due}
        self.assertIn("How many bytes a line may have, from 1 to 1073741824.", pages["domserve.1"])
        for name, parts in due.items():
            self.assertLessEqual(set(parts), set(pages[name].splitlines()))
        dates = {re.search(r"\w+ \d+, \d{4}", it.splitlines()[-1])[0] for it in pages.values()}
        self.assertEqual(dates, {time.strftime("%B %d, %Y", time.gmtime(files.MOMENT)).replace(" 0", " ")})

    @needs("gcc")
    def test_example_of_the_man_page(self):
        top = self.unpacked(self.file(ARCHIVES))
        with open(os.path.join(top, "share/man/man3/huckleport.3"), encoding="utf-8") as file:
            code = re.search(r"#include.*?(?=^\.Ed)", file.read(), re.DOTALL | re.MULTILINE)[0]
        with open(self.at("page.c"), "w", encoding="utf-8") as file:
            file.write(code)
        self.run_in("gcc", "-Wall", "-Werror", "page.c", "-I", f"{top}/include", f"{top}/lib/libhuckleport.a", "-o", "page")
        self.run_in(self.at("page"))

    @needs("gcc", "pkg-config")
    def test_by_pkg_config_here_and_moved(self):
        first = self.unpacked(self.file(ARCHIVES))
        self.tries_c(f"{first}/lib", PKG_CONFIG_PATH=f"{first}/lib/pkgconfig")
        os.makedirs(self.at("another"))
        os.rename(first, self.at("another/place"))
        moved = self.at("another/place/lib")
        self.tries_c(moved, PKG_CONFIG_PATH=f"{moved}/pkgconfig")

    @needs("gcc", "cmake", "make")
    def test_by_cmake(self):
        top = self.unpacked(self.file(ARCHIVES))
        self.copied("CMakeLists.txt")
        shutil.copy(EDITOR, self.folder)
        self.run_in("cmake", "-S", ".", "-B", "built", f"-DCMAKE_PREFIX_PATH={top}")
        self.run_in("cmake", "--build", "built")
        self.tries_editor(self.at("built/by_shared"))
        self.tries_editor(self.at("built/by_static"))


class Program(Release):
    """The program's manners, and the referee, by the files of the archive."""

    def tries(self, script, *words):
        self.assertRegex(self.run_in(sys.executable, os.path.join(ROOT, script), *words), r"(?m)^[1-9]\d* passed, 0 failed\n\Z")

    def test_manners(self):
        """Reasons of failed reads and writes, a closed pipe, streams that are not ready, a terminal, limits, --help, --version and the commands."""
        self.tries("tools/manners.py", "--program", os.path.join(self.unpacked(self.file(ARCHIVES)), "bin/domserve"))

    def test_referee(self):
        """The referee's words, what it keeps of a run and its page, and the texts for maintainers."""
        program = os.path.join(self.unpacked(self.file(ARCHIVES)), "bin/domserve")
        self.tries("referee/test.py", "--program", program, "Words", "Table", "Lines", "Kept", "Reports.test_issues", "Reports.test_in_node")


@needs("dpkg-deb")
class Debian(Release):
    def package(self, name, machine=MACHINE):
        return self.file(f"{name}_*_{machine.debian}.deb")

    def extracted(self, machine=MACHINE):
        for it in debian.PACKAGES:
            self.run_in("dpkg-deb", "--extract", self.package(it, machine), "root")
        return self.at("root")

    def test_fields_and_program(self):
        for name in debian.PACKAGES:
            said = self.run_in("dpkg-deb", "--field", self.package(name), "Package", "Version", "Architecture")
            self.assertEqual(said, f"Package: {name}\nVersion: {VERSION}\nArchitecture: {MACHINE.debian}\n")
            self.run_in("dpkg-deb", "--control", self.package(name), name)
            self.assertTrue(os.path.isfile(self.at(name, "md5sums")))
        said = self.run_in("dpkg-deb", "--field", self.package("libhuckleport-dev"), "Depends")
        self.assertIn(f"{debian.LIBRARY} (= {VERSION})", said)
        with open(self.at(debian.LIBRARY, "shlibs"), encoding="utf-8") as file:
            self.assertEqual(file.read(), f"libhuckleport {make.SERIES} {debian.LIBRARY} (>= {VERSION})\n")
        with open(self.at(debian.LIBRARY, "symbols"), encoding="utf-8") as file:
            self.assertIn(f" hp_open@HUCKLEPORT_{make.SERIES} {VERSION}\n", file.read())
        top = self.extracted()
        for it in debian.PACKAGES:
            self.run_in("sh", "-c", f"cd root && md5sum --quiet --check ../{it}/md5sums")
        self.tries_domserve(os.path.join(top, "usr/bin/domserve"))
        documents = [f"usr/share/doc/{it}/{name}" for it in debian.PACKAGES for name in ("changelog.gz", "copyright")]
        documents += [f"usr/share/doc/{it}/rules.md" for it in ("huckleport", "libhuckleport-dev")]
        for it in ("usr/share/man/man1/domserve.1.gz", "usr/share/man/man3/huckleport.3.gz", f"{MULTIARCH}/{SHARED}", *documents):
            self.assertTrue(os.path.isfile(os.path.join(top, it)), it)

    @needs("readelf")
    def test_stripped(self):
        """Neither the program nor the shared objects have what only debuggers and linkers ask for."""
        top = self.extracted()
        for it in ("usr/bin/domserve", f"{MULTIARCH}/{SHARED}", f"{debian.PYTHON}/huckleport/_core.abi3.so"):
            with self.subTest(it):
                self.assertEqual(re.findall(r" (\.(?:symtab|debug\w*|comment))\s", self.run_in("readelf", "-SW", os.path.join(top, it))), [])

    @needs("lintian")
    def test_lintian(self):
        """No error and no warning."""
        packages = [self.package(it) for it in debian.PACKAGES]
        ran = subprocess.run(["lintian", "--allow-root", *packages], stdout=subprocess.PIPE, stderr=subprocess.STDOUT, text=True, check=False)
        self.assertEqual((ran.returncode, ran.stdout), (0, ""))

    def test_python(self):
        """The package for Python, by the system's own Python."""
        top = self.extracted()
        self.copied("program.py")
        self.assertEqual(self.run_in(SYSTEM, "program.py", PYTHONPATH=os.path.join(top, debian.PYTHON)), PRINTED)

    @needs("gcc", "pkg-config")
    def test_by_pkg_config(self):
        self.extracted()
        libraries = self.at("root", MULTIARCH)
        self.tries_c(libraries, PKG_CONFIG_LIBDIR=f"{libraries}/pkgconfig", PKG_CONFIG_SYSROOT_DIR=self.at("root"))

    @needs("gcc", "pkg-config", "apt-get", "unshare")
    def test_by_apt(self):
        if os.geteuid() != 0 or subprocess.run(["unshare", "--mount", "sh", "-c", OVERLAY], stderr=subprocess.DEVNULL).returncode:
            self.skipTest("left out, since there is no root who may mount a copy of the system's folders")
        self.copied("installed.sh")
        packages = [os.path.abspath(self.package(it)) for it in debian.PACKAGES]
        self.tries_editor("unshare", "--mount", "sh", "installed.sh", EDITOR, *packages)
        self.assertFalse(os.path.exists("/usr/bin/domserve"))


class Wheel(Release):
    def test_tag_and_fields(self):
        """The tag is one that PyPI takes, and the module asks for no newer C library than it names."""
        path = self.file(f"huckleport-*_{HERE}.whl")
        self.assertTrue(path.endswith(f"-cp38-abi3-manylinux_2_17_{HERE}.whl"), path)
        with zipfile.ZipFile(path) as wheel:
            module = next(it for it in wheel.namelist() if it.endswith(".so"))
            asked = {tuple(map(int, it.split(b"."))) for it in re.findall(rb"GLIBC_(\d+\.\d+)", wheel.read(module))}
            about = wheel.read(next(it for it in wheel.namelist() if it.endswith("/METADATA"))).decode()
            wheel.extract(module, self.folder)
        self.assertLessEqual(max(asked), (2, 17))
        needed = set(re.findall(r"NEEDED\s+(\S+)", make.call("objdump", "-p", self.at(module))))
        self.assertLessEqual(needed, {"libc.so.6"})
        for field in ("Classifier: Programming Language :: Python :: 3.8\n", "Project-URL: Homepage", f"License-Expression: {LICENSE}", "License-File: NOTICE"):
            self.assertIn(field, about)

    def installed(self, wheel):
        """The Python of an empty environment in which the wheel is installed."""
        if subprocess.run([sys.executable, "-m", "pip", "--version"], stdout=subprocess.DEVNULL, stderr=subprocess.DEVNULL).returncode:
            self.skipTest("left out, since there is no pip")
        self.run_in(sys.executable, "-m", "venv", "--without-pip", "environment")
        python = self.at("environment/bin/python")
        self.run_in(sys.executable, "-m", "pip", "--python", python, "install", "--quiet", "--no-index", wheel)
        return python

    def test_in_an_empty_environment(self):
        python = self.installed(self.file("huckleport-*.whl"))
        self.copied("program.py")
        self.assertEqual(self.run_in(python, "program.py"), PRINTED)
        self.assertEqual(self.run_in(python, "-m", "huckleport", "--version"), f"huckleport {VERSION}\n")
        words = "import importlib.metadata as it; print(it.version('huckleport'), it.metadata('huckleport')['License-Expression'])"
        self.assertEqual(self.run_in(python, "-c", words), f"{VERSION} {LICENSE}\n")
        place = self.run_in(python, "-c", "import huckleport._core; print(huckleport._core.__file__)")
        self.assertTrue(place.startswith(self.at("environment")), place)

    def test_serving(self):
        """Its command tells its version. (What it needs beside, psycopg, is no package's of ours, and so looked for where the system has it.)"""
        if subprocess.run([SYSTEM, "-c", "import psycopg"], stderr=subprocess.DEVNULL).returncode:
            self.skipTest(f"left out, since {SYSTEM} has no psycopg")
        self.run_in(SYSTEM, "-m", "venv", "--without-pip", "--system-site-packages", "environment")
        python = self.at("environment/bin/python")
        both = self.file("huckleport-*.whl"), self.file("huckleport_serving-*.whl")
        self.run_in(sys.executable, "-m", "pip", "--python", python, "install", "--quiet", "--no-index", *both)
        self.assertEqual(self.run_in(self.at("environment/bin/huckleport-serving"), "--version"), f"huckleport-serving {VERSION}\n")
        schema = "from importlib import resources as it; print(it.files('huckleport_serving').joinpath('schema.sql').is_file())"
        self.assertEqual(self.run_in(python, "-c", schema), "True\n")


@needs("cargo")
class Crate(Release):
    def project(self):
        """A project of cargo beside the unpacked crate."""
        top = self.unpacked(self.file("*.crate"))
        os.rename(top, self.at("huckleport"))
        self.copied("Cargo.toml", "main.rs")

    def tries(self, **variables):
        self.assertEqual(self.run_in("cargo", "run", "--quiet", "--offline", **variables), PRINTED)

    def test_what_it_carries(self):
        """The proved code as text, which cc compiles, and no archive, if generated/ is of these sources."""
        top = self.unpacked(self.file("*.crate"))
        names = {it for _, _, its in os.walk(top) for it in its}
        machines = {it for it in MACHINES if f"huckleport.{it}.s" in names}
        if not machines:
            self.skipTest("left out, since generated/ is of other sources")
        self.assertEqual((machines, {it for it in names if it.endswith((".a", ".so", ".o"))}), (set(MACHINES), set()))

    def test_alone_then_by_a_folder_then_by_pkg_config(self):
        self.project()
        # (a pkg-config that finds nothing, whatever is installed on this machine)
        self.tries(PKG_CONFIG_LIBDIR=self.at("nowhere"))
        for it in ("lib", "assembly"):
            shutil.rmtree(self.at("huckleport", it), ignore_errors=True)
        self.tries(HUCKLEPORT_LIB_DIR=os.path.abspath(Release.library))
        # (cargo asks the build script anew, whatever it built before)
        shutil.rmtree(self.at("target"))
        if not shutil.which("pkg-config"):
            self.skipTest("left out, the last way, since there is no pkg-config")
        top = self.unpacked(self.file(ARCHIVES))
        self.tries(PKG_CONFIG_LIBDIR=f"{top}/lib/pkgconfig")

    def test_what_its_page_shows(self):
        # (cargo's settings are read from where it runs)
        self.folder = self.unpacked(self.file("*.crate"))
        self.assertIn("test result: ok", self.run_in("cargo", "test", "--quiet", "--offline", "--doc", PKG_CONFIG_LIBDIR=self.at("nowhere")))


# Packages that the one for npm needs, with those that these need, as Debian has them.
NEEDED_BY_NPM = "boolbase css-select css-what dom-serializer domelementtype domhandler domutils entities nth-check".split()


@needs("node")
class Npm(Release):
    def needed(self):
        """The files of the needed packages, as npm takes them; None if one is missing."""
        folders = [f"/usr/share/nodejs/{it}" for it in NEEDED_BY_NPM]
        if not all(map(os.path.isdir, folders)):
            return None
        for it in folders:
            with tarfile.open(self.at(f"{os.path.basename(it)}.tgz"), "w:gz", dereference=True) as file:
                file.add(it, "package")
        return [self.at(f"{it}.tgz") for it in NEEDED_BY_NPM]

    def test_in_an_empty_project(self):
        package = self.file("*.tgz")
        with open(self.at("package.json"), "w", encoding="utf-8") as file:
            file.write('{"private": true}\n')
        needed = self.needed() if shutil.which("npm") else None
        if needed:
            self.run_in("npm", "install", "--offline", "--no-audit", "--no-fund", *needed, package)
        else:
            os.makedirs(self.at("node_modules"))
            os.rename(self.unpacked(package), self.at("node_modules/huckleport"))
        self.copied("program.mjs")
        self.assertEqual(self.run_in("node", "program.mjs"), PRINTED)
        for it in ("LICENSE", "README.md", "docs/javascript.md", "out/bytes.js", "lib/dom.d.ts"):
            self.assertTrue(os.path.isfile(self.at(f"node_modules/huckleport/{it}")), it)


class References(Release):
    def test_each_language(self):
        top = self.unpacked(self.file("*-references.tar.gz"))
        for tool, page, words in (("doxygen", "c/index.html", "Huckleport"), ("cargo", "rust/huckleport/index.html", "huckleport")):
            if shutil.which(tool):
                with open(os.path.join(top, page), encoding="utf-8") as file:
                    self.assertIn(words, file.read())
        if subprocess.run([SYSTEM, "-c", "import sphinx"], stderr=subprocess.DEVNULL, check=False).returncode == 0:
            self.assertTrue(os.path.isfile(os.path.join(top, "python/index.html")))

    def test_typescript(self):
        """The pages have each name and each comment of the declarations, and each of their links leads to a place on them."""
        top = os.path.join(self.unpacked(self.file("*-references.tar.gz")), "typescript")
        pages = {it: xml.etree.ElementTree.parse(os.path.join(top, it)) for it in os.listdir(top) if it.endswith(".html")}
        places = {f"{page}#{it.get('id')}" for page, tree in pages.items() for it in tree.iter() if it.get("id")} | set(pages)
        links = {it.get("href") if it.get("href")[0] != "#" else page + it.get("href") for page, tree in pages.items() for it in tree.iter("a")}
        self.assertEqual(links - places, set())
        words = {page: " ".join("".join(tree.getroot().itertext()).split()) for page, tree in pages.items()}
        for module in declarations.modules(os.path.join(BINDINGS, "javascript")):
            with open(module.place, encoding="utf-8") as file:
                text = file.read()
            names = re.findall(r"^(?:export )?(?:default )?(?:declare )?(?:interface|class|const|function|type) (\w+)", text, re.M)
            self.assertGreater(len(names), 0)
            self.assertEqual([it for it in names if f"{module.page}#{it}" not in places], [])
            comments = [" ".join(re.sub(r"^ *\* ", "", it, flags=re.M).replace("`", "").split()) for it in re.findall(r"/\*\*(.*?)\*/", text, re.S)]
            self.assertEqual([it for it in comments if it not in words[module.page].replace("`", "")], [])


class Elsewhere(Release):
    """The other processor's files, under qemu: by the C library that Debian's compiler for it brings, and installed beside Debian's packages for it."""

    def setUp(self):
        super().setUp()
        self.root = f"/usr/{OTHER.multiarch}"
        if not shutil.which(OTHER.qemu) or not os.path.isdir(self.root):
            self.skipTest(f"left out, since there is no {OTHER.qemu}, or no {self.root}")
        self.emulated = [OTHER.qemu, "-L", self.root]

    def whole(self):
        """Returns the folder with Debian's packages for the other processor."""
        if OTHER.name != other.MACHINE or elsewhere.lacking():
            self.skipTest(f"left out, since {elsewhere.lacking() or 'this is aarch64'}")
        return elsewhere.FOLDER

    def packages(self):
        return [os.path.abspath(self.file(f"{it}_*_{OTHER.debian}.deb")) for it in debian.PACKAGES]

    def test_archive(self):
        top = self.unpacked(self.file(f"*-{OTHER.name}-linux.tar.gz"))
        self.assertEqual(self.run_in(*self.emulated, os.path.join(top, "bin/domserve"), given=LINES), REPLIES)
        for library in ("libhuckleport.a", SHARED):
            self.run_in(f"{OTHER.cross}gcc", EDITOR, f"-I{top}/include", f"{top}/lib/{library}", "-o", library + ".user")
            self.tries_editor(*self.emulated, "-E", f"LD_LIBRARY_PATH={top}/lib", self.at(library + ".user"))

    @needs("dpkg-deb")
    def test_packages(self):
        for package in self.packages():
            self.assertEqual(self.run_in("dpkg-deb", "--field", package, "Architecture"), f"{OTHER.debian}\n")
            self.run_in("dpkg-deb", "--extract", package, "root")
        self.assertEqual(self.run_in(*self.emulated, self.at("root/usr/bin/domserve"), given=LINES), REPLIES)

    @needs("dpkg")
    @unittest.skipIf(os.geteuid(), "left out, since only root installs packages")
    def test_packages_installed(self):
        """dpkg installs them beside Debian's for that processor, whose fields it checks; each is then used from where it stands."""
        root = self.at("root")
        shutil.copytree(self.whole(), root, symlinks=True, ignore=shutil.ignore_patterns("rustlib"))
        self.run_in("dpkg", f"--root={root}", "--add-architecture", OTHER.debian)
        self.run_in("dpkg", f"--root={root}", "--install", *self.packages())
        self.assertEqual(self.run_in("dpkg", f"--root={root}", "--verify", *(f"{it}:{OTHER.debian}" for it in debian.PACKAGES)), "")
        emulated = elsewhere.emulated(root)
        self.assertEqual(self.run_in(*emulated, f"{root}/usr/bin/domserve", given=LINES), REPLIES)
        self.copied("program.py")
        self.assertEqual(self.run_in(*emulated, f"{root}/usr/bin/python3.11", "program.py"), PRINTED)
        libraries = f"{root}/usr/lib/{OTHER.multiarch}"
        self.run_in(f"{OTHER.cross}gcc", EDITOR, f"-I{root}/usr/include", f"-L{libraries}", "-lhuckleport", "-o", "editor")
        self.tries_editor(*emulated, self.at("editor"))

    @needs("lintian")
    def test_lintian(self):
        ran = subprocess.run(["lintian", "--allow-root", *self.packages()], stdout=subprocess.PIPE, stderr=subprocess.STDOUT, text=True, check=False)
        self.assertEqual((ran.returncode, ran.stdout), (0, ""))

    def test_wheel(self):
        """pip installs it for that processor, and a Python of it imports it."""
        wheel = self.file(f"huckleport-*_{OTHER.name}.whl")
        if subprocess.run([sys.executable, "-m", "pip", "--version"], stdout=subprocess.DEVNULL, stderr=subprocess.DEVNULL, check=False).returncode:
            self.skipTest("left out, since there is no pip")
        platform = ["--platform", OTHER.wheel, "--python-version", "3.11", "--implementation", "cp", "--abi", "abi3", "--only-binary=:all:"]
        self.run_in(sys.executable, "-m", "pip", "install", "--quiet", "--no-index", "--no-deps", *platform, "--target", "site", wheel)
        # (the processor in the head of an ELF file)
        self.assertEqual(files.of(self.at("site/huckleport/_core.abi3.so")).content[18], {"aarch64": 183, "x86_64": 62}[OTHER.name])
        whole = self.whole()
        self.copied("program.py")
        self.assertEqual(self.run_in(*elsewhere.emulated(), f"{whole}/usr/bin/python3.11", "program.py", PYTHONPATH=self.at("site")), PRINTED)

    def test_crate(self):
        """Debian's cargo builds it for that processor, with Debian's standard library for it, and qemu runs the program."""
        whole = self.whole()
        if not os.access(CARGO, os.X_OK):
            self.skipTest(f"left out, since there is no {CARGO}")
        os.rename(self.unpacked(self.file("*.crate")), self.at("huckleport"))
        self.copied("Cargo.toml", "main.rs")
        name = f"CARGO_TARGET_{elsewhere.TARGET.upper().replace('-', '_')}"
        settings = {f"{name}_LINKER": f"{OTHER.cross}gcc", f"{name}_RUNNER": " ".join(self.emulated), f"{name}_RUSTFLAGS": f"--sysroot={whole}/usr"}
        self.assertEqual(self.run_in(CARGO, "run", "--quiet", "--offline", "--target", elsewhere.TARGET, **settings, RUSTC="/usr/bin/rustc"), PRINTED)


# The tests that need no release, which the gate runs.
WITHOUT = {"Notice", "Interface"}


def missing(given):
    """What no release can be made without, where it is not there."""
    found = [os.path.join(given.library, it) for it in ("libhuckleport.a", SHARED)]
    program = os.path.join(given.library, "domserve")
    if not os.path.isfile(program) and not is_generated():
        found.append(PROGRAM)
    return [it for it in found if not os.path.isfile(it)]


def main():
    parser = argparse.ArgumentParser(description=__doc__, formatter_class=argparse.RawDescriptionHelpFormatter)
    parser.add_argument("--library", metavar="FOLDER", default=LIBRARY, help="where the libraries are, and the program if it is there too (bindings/c/out)")
    parser.add_argument("--release", metavar="FOLDER", help="a release that is there, in place of one that is made now")
    parser.add_argument("only", nargs="*", metavar="TEST", help="only these tests, as Wheel or Archive.test_by_cmake")
    given = parser.parse_args()
    only = {it.partition(".")[0] for it in given.only}
    is_made = not given.release and (not only or bool(only - WITHOUT))
    lacking = missing(given) if is_made else []
    if lacking:
        print(f"left out: the release, since there is no {lacking[0]}")
        return 0
    with tempfile.TemporaryDirectory() as folder:
        for what, why in release(given.library, folder).items() if is_made else ():
            print(f"left out: {what}, since {why}")
        Release.made, Release.given, Release.library = os.path.abspath(given.release or folder), given.release, given.library
        ran = unittest.main(argv=[__file__, *given.only], exit=False, verbosity=2)
    return 0 if ran.result.wasSuccessful() else 1


if __name__ == "__main__":
    sys.exit(main())

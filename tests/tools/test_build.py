"""Tests of tools/prove, tools/library, tools/need and tools/install, in a small repository with a command `rt` that proves nothing."""

import os
import shutil
import subprocess
import tempfile
import unittest
from pathlib import Path

TOP = Path(__file__).resolve().parents[2]
TOOLS = ("need", "need-packages", "prove", "library", "install")

# What rt prints and leaves, for crates whose files hold no `bad`: by stamps, as rt does. `rt ci` leaves no stamps.
RT = r"""#!/bin/bash
echo "rt $* in ${PWD##*/}" >>"$CALLS"
name=${PWD##*/}
build() {
    stamp=$(cat src/* | sha256sum)
    [ "$(cat "out/$1/stamp" 2>/dev/null)" != "$stamp" ] || return 0
    if grep -q bad src/*; then
        echo "src/lib.rt:1:1: error: bad is not proved"
        echo "logic=not-proved functions=1"
        exit 1
    fi
    mkdir -p "out/$1"
    echo "$stamp" >"out/$1/stamp"
    echo "logic=proved functions=1"
}
case $1 in
version) cat "$KIT" ;;
doc) echo "${KIT%/*}/kit-folder/START-HERE.md" ;;
lib)
    build rlib
    touch "out/rlib/$name.rlib"
    [[ $name != ffi_* ]] || {
        cat src/lib.rt ../ground/src/lib.rt >"$name.o"
        ar rcD "out/lib$name.a" "$name.o"
        rm "$name.o"
    }
    [[ $name != ffi_* ]] || [ -z "$SLOW" ] || eval "$SLOW"
    ;;
run)
    build made
    cat src/main.rt >"out/$name"
    echo "rt: running out/$name; to give it other input, run that file yourself"
    echo "no files"
    exit 3
    ;;
ci)
    for folder in crates/*/; do
        name=$(basename "$folder")
        rm -rf "$folder/out"
        mkdir -p "$folder/out"
        case $name in
        ffi_*) ;;
        program) cat "$folder/src/main.rt" >"$folder/out/program" ;;
        *) mkdir "$folder/out/rlib" && touch "$folder/out/rlib/$name.rlib" ;;
        esac
    done
    ;;
esac
"""

# The compiler of the kit, that proves and compiles one crate.
RATTLE = r"""#!/bin/bash
echo "rattle $*" >>"$CALLS"
name=${PWD##*/}
! grep -q bad src/* || { echo "logic=not-proved functions=1"; exit 1; }
cat src/lib.rt ../ground/src/lib.rt >"$name.o"
ar rcD "out/lib$name.a" "$name.o"
rm "$name.o"
echo "logic=proved functions=1"
"""


class Repository(unittest.TestCase):
    def setUp(self):
        # A folder with a space in its name.
        self.work = Path(tempfile.mkdtemp())
        self.top = self.work / "a clone"
        (self.top / "tools").mkdir(parents=True)
        for name in TOOLS:
            shutil.copy(TOP / "tools" / name, self.top / "tools" / name)
        for name, text in {
            "crates.txt": "# layers\nground:\nupper: ground # on it\nffi_one staticlib: ground upper\nffi_two staticlib: ground\nprogram: upper\n",
            "crates/ground/src/lib.rt": "ground\n",
            "crates/upper/src/lib.rt": "upper\n",
            "crates/ffi_one/src/lib.rt": "one\n",
            "crates/ffi_two/src/lib.rt": "two\n",
            "crates/program/src/main.rt": "program\n",
        }.items():
            self.write(name, text)
        self.write("VERSION", "1.2.3\n")
        (self.top / "runtime" / "c").mkdir(parents=True)
        shutil.copy(TOP / "runtime" / "c" / "version.c", self.top / "runtime" / "c")
        for name, text in {"../bin/rt": RT, "../kit-folder/bin/rattle": RATTLE}.items():
            self.write(name, text)
            (self.top / name).chmod(0o755)
        self.write("../kit", "kit 1\n")
        self.calls = self.work / "calls"
        self.archive = self.top / "target" / "staticlib" / "libkullneyra.a"

    def tearDown(self):
        shutil.rmtree(self.work)

    def write(self, name, text):
        path = self.top / name
        path.parent.mkdir(parents=True, exist_ok=True)
        path.write_text(text)

    def run_tool(self, *words, **more):
        """Its status, what it printed, and what it said."""
        env = {**os.environ, "PATH": f"{self.work / 'bin'}{os.pathsep}{os.environ['PATH']}", "CALLS": str(self.calls), "KIT": str(self.work / "kit"), "SLOW": ""}
        done = subprocess.run([self.top / "tools" / words[0], *words[1:]], capture_output=True, text=True, env={**env, **more})
        return done.returncode, done.stdout, done.stderr

    def checked(self):
        """How often rt proved something since the last question."""
        calls = self.calls.read_text().splitlines() if self.calls.exists() else []
        self.calls.unlink(missing_ok=True)
        return sum(not line.startswith(("rt version", "rt doc")) for line in calls)


class Prove(Repository):
    def test_a_line_for_each_crate(self):
        status, out, said = self.run_tool("prove", "--as", "run", "program")
        self.assertEqual((status, out), (0, ""), said)
        lines = said.splitlines()
        for line, told in zip(lines, ("proved 1 of 3: ground", "proved 2 of 3: upper", "proved 3 of 3: program")):
            self.assertRegex(line, rf"^run: {told}, \d+ s$")
        self.assertRegex(lines[3], r"^run: 3 crates are proved, \d+ s$")
        self.assertEqual((self.top / "target" / "bin" / "program").read_text(), "program\n")

    def test_only_what_has_changed(self):
        self.run_tool("prove", "upper")
        self.assertEqual(self.run_tool("prove", "upper"), (0, "", ""))
        self.write("crates/upper/src/lib.rt", "upper, changed\n")
        lines = self.run_tool("prove", "upper")[2].splitlines()
        self.assertRegex(lines[0], r"^prove: proved 2 of 2: upper, \d+ s$")
        self.assertRegex(lines[1], r"^prove: 2 crates are proved, 1 of them before, \d+ s$")

    def test_a_program_that_is_made(self):
        self.run_tool("prove", "program")
        self.checked()
        self.assertEqual((self.run_tool("prove", "program"), self.checked()), ((0, "", ""), 0))
        self.write("crates/upper/src/lib.rt", "upper, changed\n")
        self.assertEqual(self.run_tool("prove", "program")[0], 0)
        self.assertGreater(self.checked(), 0)
        self.write("crates/program/src/main.rt", "program, changed\n")
        self.assertEqual(self.run_tool("prove", "program")[0], 0)
        self.assertEqual((self.top / "target" / "bin" / "program").read_text(), "program, changed\n")

    def test_not_proved(self):
        self.write("crates/upper/src/lib.rt", "bad\n")
        for name in ("upper", "program"):
            status, out, said = self.run_tool("prove", "--log", self.top / "target" / "x.log", name)
            self.assertEqual((status, out), (1, ""))
            self.assertIn("src/lib.rt:1:1: error: bad is not proved\n", said)
            self.assertEqual(said.splitlines()[-1], "prove: not proved: upper; what rt said is above, and in target/x.log")
            self.assertIn("bad is not proved", (self.top / "target" / "x.log").read_text())
        self.assertFalse((self.top / "target" / "bin" / "program").exists())

    def test_a_program_that_is_not_proved(self):
        self.run_tool("prove", "program")
        self.write("crates/program/src/main.rt", "bad\n")
        status, _, said = self.run_tool("prove", "program")
        self.assertEqual((status, said.splitlines()[-1]), (1, "prove: not proved: program; what rt said is above, and in target/prove.log"))
        self.assertEqual((self.top / "target" / "bin" / "program").read_text(), "program\n")

    def test_what_was_made_is_gone(self):
        made = self.top / "target" / "bin" / "program"
        self.run_tool("prove", "program")
        for change in (made.unlink, lambda: made.write_text("another"), (made.parent / "program.stamp").unlink):
            change()
            self.assertEqual(self.run_tool("prove", "program")[0], 0)
            self.assertEqual(made.read_text(), "program\n")

    def test_no_such_crate(self):
        self.assertEqual(self.run_tool("prove", "uper"), (2, "", "prove: crates.txt has no crate uper\n"))

    def test_plan(self):
        self.assertEqual(self.run_tool("prove", "--plan", "ffi_one")[1].split(), ["ground", "upper", "ffi_one"])

    def test_usage(self):
        for words in ([], ["--more", "upper"], ["--other", "upper"], ["--digest", "upper"]):
            self.assertEqual(self.run_tool("prove", *words)[0], 2)


class FromCi(Repository):
    """After rt ci nothing is proved a second time that it has proved and left."""

    def setUp(self):
        super().setUp()
        env = {**os.environ, "CALLS": str(self.calls)}
        subprocess.run([self.work / "bin" / "rt", "ci"], cwd=self.top, check=True, env=env)
        self.calls.unlink()

    def called(self):
        calls = self.calls.read_text().splitlines()
        return sorted(line.split()[0] for line in calls if not line.startswith(("rt version", "rt doc")))

    def test_program(self):
        self.assertEqual(self.run_tool("prove", "--from-ci", "program"), (0, "", ""))
        self.assertEqual((self.called(), (self.top / "target" / "bin" / "program").read_text()), ([], "program\n"))
        self.assertEqual(self.run_tool("prove", "program"), (0, "", ""))

    def test_a_program_that_it_did_not_leave(self):
        (self.top / "crates/program/out/program").unlink()
        self.assertEqual(self.run_tool("prove", "--from-ci", "program")[0], 0)
        self.assertEqual((self.top / "target" / "bin" / "program").read_text(), "program\n")

    def test_library(self):
        status, _, said = self.run_tool("library", "--from-ci")
        self.assertEqual((status, self.called()), (0, ["rattle", "rattle"]), said)
        first = self.archive.read_bytes()
        self.assertEqual(self.run_tool("library")[2], "")
        # The usual way makes the same.
        shutil.rmtree(self.top / "target")
        self.assertEqual(self.run_tool("library")[0], 0)
        self.assertEqual(self.archive.read_bytes(), first)

    def test_a_library_that_another_command_made(self):
        (self.top / "crates/ground/out/rlib/stamp").write_text("of yesterday")
        self.calls.touch()
        self.assertEqual(self.run_tool("library", "--from-ci")[0], 0)
        self.assertNotIn("rattle", self.called())
        self.assertTrue(self.archive.exists())

    def test_where_the_compiler_fails(self):
        self.write("../kit-folder/bin/rattle", "#!/bin/sh\nexit 2\n")
        self.assertEqual(self.run_tool("library", "--from-ci")[0], 0)
        self.assertTrue(self.archive.exists())


class Library(Repository):
    def make(self, **more):
        status, out, said = self.run_tool("library", **more)
        self.assertEqual(out, "")
        return status, said

    def test_made_once(self):
        status, said = self.make()
        self.assertEqual(status, 0, said)
        self.assertEqual(sorted(line.split(":")[2].split(",")[0].strip() for line in said.splitlines() if ": proved " in line), ["ffi_one", "ffi_two", "ground", "upper"])
        for number in range(1, 5):
            self.assertIn(f"library: proved {number} of 4: ", said)
        self.assertGreater(self.checked(), 0)
        before = self.archive.stat()
        self.assertEqual(self.make(), (0, ""))
        after = self.archive.stat()
        self.assertEqual((self.checked(), after.st_ino, after.st_mtime_ns), (0, before.st_ino, before.st_mtime_ns))

    def test_times_say_nothing(self):
        self.make()
        self.checked()
        for path in self.top.rglob("*.rt"):
            os.utime(path)
        os.utime(self.archive, (1, 1))
        self.assertEqual((self.make(), self.checked()), ((0, ""), 0))

    def test_changed_and_changed_back(self):
        self.make()
        first = self.archive.read_bytes()
        for name in ("ground", "upper", "ffi_two"):
            path = self.top / "crates" / name / "src" / "lib.rt"
            old, times = path.read_text(), path.stat()
            path.write_text(old.upper())
            os.utime(path, ns=(times.st_atime_ns, times.st_mtime_ns))
            self.checked()
            self.assertEqual(self.make()[0], 0)
            self.assertGreater(self.checked(), 0, name)
            path.write_text(old)
            self.assertEqual(self.make()[0], 0)
            self.assertGreater(self.checked(), 0, name)
            self.assertEqual(self.archive.read_bytes(), first)

    def test_all_that_matters(self):
        changes = {
            "a new file": lambda: self.write("crates/ground/specs/Lib.antt", "law\n"),
            "a file that goes": lambda: (self.top / "crates/ground/specs/Lib.antt").unlink(),
            "another name": lambda: (self.top / "crates/ground/src/lib.rt").rename(self.top / "crates/ground/src/lip.rt") and self.write("crates/ground/src/lib.rt", "ground\n"),
            "an arrow": lambda: self.write("crates.txt", (self.top / "crates.txt").read_text().replace("ffi_two staticlib: ground", "ffi_two staticlib: ground upper")),
            "the kit": lambda: self.write("../kit", "kit 2\n"),
            "the version": lambda: self.write("VERSION", "1.2.4\n"),
            "the tool": lambda: self.write("tools/library", (self.top / "tools/library").read_text() + "\n"),
            "the archive": lambda: self.archive.write_bytes(b"another"),
            "no archive": self.archive.unlink,
            "no stamp": lambda: (self.archive.parent / "libkullneyra.a.stamp").unlink(),
        }
        self.make()
        for name, change in changes.items():
            change()
            self.checked()
            with self.subTest(name):
                self.assertEqual(self.make()[0], 0)
                self.assertGreater(self.checked(), 0)
        for name, text in {"crates/program/src/main.rt": "another\n", "crates/ground/must-fail/one.edit": "x\n", "README.md": "x\n"}.items():
            self.write(name, text)
            with self.subTest(name):
                self.assertEqual((self.make(), self.checked()), ((0, ""), 0))

    def test_not_proved_leaves_the_old_one(self):
        self.make()
        before = self.archive.read_bytes()
        self.write("crates/ground/src/lib.rt", "bad\n")
        status, said = self.make()
        self.assertEqual(status, 1)
        self.assertIn("library: not proved: ground", said)
        self.assertEqual(self.archive.read_bytes(), before)
        self.assertEqual(self.make()[0], 1)

    def test_changed_while_it_is_proved(self):
        status, said = self.make(SLOW=f"echo more >>'{self.top}/crates/upper/src/lib.rt'")
        self.assertEqual(status, 1)
        self.assertIn("changed while they were proved", said)
        self.assertFalse(self.archive.exists())


class Help(unittest.TestCase):
    def test_bare_make(self):
        done = subprocess.run(["make", "--no-print-directory"], cwd=TOP, capture_output=True, text=True, check=True)
        asked = subprocess.run(["make", "--no-print-directory", "help"], cwd=TOP, capture_output=True, text=True, check=True)
        self.assertEqual((done.stdout, done.stderr), (asked.stdout, ""))
        lines = [line.split() for line in done.stdout.splitlines() if line.startswith("make ")]
        told = {line[1] for line in lines}
        self.assertTrue(all(len(line) > 3 for line in lines))
        makefile = (TOP / "Makefile").read_text()
        rules = {line.partition(":")[0] for line in makefile.splitlines() if line[:1].isalpha() and ":" in line and ":=" not in line}
        # The parts that others are made of are not told.
        self.assertEqual(rules - told, {"help", "programs", "from-ci", "packaged", "steps", "FORCE", "target/sample/store.cat", "target/staticlib/libkullneyra.a", "target/course/%"})
        self.assertEqual(told - rules, set())


class Need(Repository):
    def bare(self, *words, links=("bash", "env", "dirname")):
        """With a PATH that has only these."""
        place = self.work / "few"
        place.mkdir(exist_ok=True)
        for name in links:
            if not (place / name).exists():
                (place / name).symlink_to(shutil.which(name))
        return self.run_tool("need", *words, PATH=str(place))

    def test_nothing_missing(self):
        self.assertEqual(self.bare("x", "bash", "dirname"), (0, "", ""))

    def test_everything_is_named_at_once(self):
        status, out, said = self.bare("oci", "rt", "ar", "bash", "go")
        self.assertEqual((status, out), (1, ""))
        lines = said.splitlines()
        self.assertEqual(lines[0], "oci: missing: rt ar go")
        self.assertIn("rt is the command of the Rattle kit", said)
        self.assertEqual(lines[-1], "oci: on Debian, type: sudo apt-get install binutils golang-go")

    def test_library_without_rt(self):
        for name in ("env", "bash", "dirname", "gcc", "ar", "python3", "sed"):
            self.bare("x", links=(name,))
        status, out, said = self.run_tool("library", PATH=str(self.work / "few"))
        self.assertEqual((status, out), (1, ""))
        self.assertTrue(said.startswith("library: missing: rt\nlibrary: rt is the command of the Rattle kit"), said)


class Install(Repository):
    def setUp(self):
        super().setUp()
        for name in ("bin/collect", "bin/deck", "bin/pause", "staticlib/libkullneyra.a", "sharedlib/libkullneyra.so.1.2.3"):
            self.write(f"target/{name}", name)
        for name in ("kullneyra.pc.in", "include/kullneyra.h"):
            self.write(f"runtime/{name}", (TOP / "runtime" / name).read_text())
        for name in ("cmake", "man"):
            shutil.copytree(TOP / "runtime" / name, self.top / "runtime" / name)
        self.stage = self.work / "a stage"

    def install(self, *words, prefix="/opt/a prefix"):
        return self.run_tool("install", *words, PREFIX=prefix, DESTDIR=str(self.stage))

    def files(self):
        return sorted(str(path.relative_to(self.stage)) for path in self.stage.rglob("*")) if self.stage.exists() else []

    def test_put_and_taken(self):
        self.assertEqual(self.install("put", "pause")[0], 0)
        self.assertIn("opt/a prefix/bin/collect", self.files())
        self.assertIn("opt/a prefix/bin/pause", self.files())
        described = (self.stage / "opt/a prefix/lib/pkgconfig/kullneyra.pc").read_text()
        self.assertIn("prefix=/opt/a prefix\n", described)
        self.assertIn('Libs: -L"${libdir}" -Wl,-rpath,"${libdir}" -lkullneyra\n', described)
        for path in self.stage.rglob("*"):
            self.assertFalse(path.is_file() and "@" in path.read_text(), path)
        self.assertEqual(os.readlink(self.stage / "opt/a prefix/lib/libkullneyra.so.1"), "libkullneyra.so.1.2.3")
        # A second time, without what the first had: both are taken away.
        self.assertEqual(self.install("put")[0], 0)
        self.assertEqual(self.install("take")[0], 0)
        self.assertEqual(self.files(), [])

    def test_nothing_else_is_taken(self):
        mine = self.stage / "opt/a prefix/bin/mine"
        mine.parent.mkdir(parents=True)
        mine.touch()
        self.install("put")
        (self.stage / "opt/a prefix/lib/other").touch()
        self.assertEqual(self.install("take")[0], 0)
        self.assertEqual(self.files(), ["opt", "opt/a prefix", "opt/a prefix/bin", "opt/a prefix/bin/mine", "opt/a prefix/lib", "opt/a prefix/lib/other"])

    def test_what_cannot_be_taken(self):
        self.stage.mkdir()
        status, _, said = self.install("take")
        self.assertEqual(status, 1)
        self.assertIn("nothing was installed", said)
        self.install("put")
        other = self.stage / "opt/other"
        other.touch()
        with open(self.stage / "opt/a prefix/share/kullneyra/installed", "a", encoding="utf-8") as listed:
            listed.write("/opt/other\n")
        status, _, said = self.install("take")
        self.assertEqual(status, 1)
        self.assertIn("names /opt/other, which is not below /opt/a prefix", said)
        self.assertTrue(other.exists() and (self.stage / "opt/a prefix/bin/collect").exists())

    def test_where_libraries_go(self):
        self.assertEqual(self.run_tool("install", "put", PREFIX="/usr", LIBDIR="/usr/lib/a triplet", DESTDIR=str(self.stage))[0], 0)
        place = self.stage / "usr/lib/a triplet"
        described = (place / "pkgconfig/kullneyra.pc").read_text()
        self.assertIn("libdir=${prefix}/lib/a triplet\n", described)
        self.assertIn('Libs: -L"${libdir}" -lkullneyra\n', described)
        self.assertIn('"${_kullneyra_here}/../../../../include"', (place / "cmake/kullneyra/kullneyraConfig.cmake").read_text())
        for wrong in ("/lib", "lib", "/usr/", "/usr/lib/../../etc"):
            self.assertEqual(self.run_tool("install", "put", PREFIX="/usr", LIBDIR=wrong, DESTDIR=str(self.stage))[0], 1)

    def test_prefixes(self):
        for prefix in ("opt", "/opt/../etc", "~/x"):
            self.assertEqual(self.install("put", prefix=prefix)[0], 1)
        self.assertEqual(self.files(), [])


if __name__ == "__main__":
    unittest.main()

"""Tests of the script `mailbox`, of ci/sources.sh and ci/prebuilt.sh, with stand-ins for the program and for the kit's `rt`."""
import hashlib
import os
import shutil
import subprocess

from rooms import Room

TOP = os.path.dirname(os.path.dirname(os.path.abspath(__file__)))
PROGRAM = '#!/bin/sh\n[ "$1" = --version ] || { echo "SHIPPED $*"; cat; }\n'
# It says what it was asked, and `rt run` leaves a program that says what it is asked.
RT = """#!/bin/sh
[ "$1" != version ] || exec echo the kit
[ "$1" != lib ] || { shift && mkdir -p out && echo ARCHIVE "$@" >"out/lib${PWD##*/}.a"; exit; }
[ "$1" = run ] || { echo "rt $*"; cat; exit 2; }
echo 'so far: 2 of 9 functions checked; the verdict comes last'
[ -z "${BROKEN-}" ] || exit 1
[ -z "${EDITED-}" ] || echo // >>"$EDITED"
mkdir -p out
printf '#!/bin/sh\\necho "own $*"\\ncat\\n' >out/mailbox_main
chmod +x out/mailbox_main
"""
TARGETS = ("x86_64-unknown-linux-gnu", "aarch64-unknown-linux-gnu")
CRATES = ("hazbultra", "hazbultra_channel")
ARCHIVES = {f"bindings/rust/prebuilt/{it}/lib{crate}.a": (crate, it) for crate in CRATES for it in TARGETS}
FILES = {
    "crates.txt": "# Each crate.\nlow:\nmailbox_main: low clap\nhazbultra staticlib: low\nhazbultra_channel staticlib: low\n",
    "crates/mailbox_main/src/main.rt": "",
    "crates/low/src/lib.rt": "",
    "crates/hazbultra/src/lib.rt": "",
    "crates/hazbultra_channel/src/lib.rt": "",
    **{archive: f"ARCHIVE --target {target}\n" for archive, (_, target) in ARCHIVES.items()},
    "prebuilt/mailbox": PROGRAM,
    "bin/rt": RT,
}
SOURCE = "crates/low/src/lib.rt"


class Place(Room):
    """A repository with the program, a library below it, and one that is not."""

    def setUp(self):
        super().setUp()
        for path, text in FILES.items():
            self.write(path, text)
        os.mkdir(f"{self.top}/ci")
        for path in ("mailbox", "ci/sources.sh", "ci/prebuilt.sh"):
            shutil.copy(f"{TOP}/{path}", f"{self.top}/{path}")
        self.record()
        for archive, (crate, target) in ARCHIVES.items():
            self.record(archive, crate, **({"needs": "aarch64 Linux"} if target.startswith("aarch64") else {}))

    def sources(self, crate="mailbox_main"):
        return subprocess.check_output(["sh", f"{self.top}/ci/sources.sh", crate], text=True).strip()

    def record(self, path="prebuilt/mailbox", crate="mailbox_main", **more):
        with open(f"{self.top}/{path}", "rb") as file:
            lines = {"sha256": hashlib.sha256(file.read()).hexdigest(), "sources": self.sources(crate)}
        lines = {**lines, "commit": "0" * 40, "kit": "kit", "needs": "x86_64 Linux, x86-64-v2", **more}
        self.write(f"{path.removesuffix('.a')}.txt", "".join(f"{name}: {value}\n" for name, value in lines.items()))

    def run_it(self, *words, kit=True, **more):
        env = {"PATH": f"{f'{self.top}/bin:' * kit}/usr/bin:/bin", **more}
        ran = subprocess.run([f"{self.top}/mailbox", *words], input="x\n", capture_output=True, text=True, env=env, check=False)
        return ran.returncode, ran.stdout, ran.stderr

    def expect_unproved(self, why):
        """The program is run without a proof if there is a kit, and one line says why; without a kit it is not run."""
        status, said, errors = self.run_it("replay")
        self.assertEqual((status, said, errors.count("\n")), (2, "rt try -- replay\nx\n", 1))
        self.assertIn(f"{why}. So this run is unproved", errors)
        status, said, errors = self.run_it("replay", kit=False)
        self.assertEqual((status, said, errors.count("\n")), (1, "", 1))
        self.assertIn(f"{why}. Without a proved program this needs the command rt", errors)


class Mailbox(Place):
    def test_the_prebuilt_program_runs_without_a_kit(self):
        self.assertEqual(self.run_it("replay", "now", kit=False), (0, "SHIPPED replay now\nx\n", ""))
        self.assertEqual(self.run_it("--which", kit=False), (0, f"{self.top}/prebuilt/mailbox\n", ""))

    def test_only_the_content_of_its_own_sources_counts(self):
        before = self.sources()
        for path in ("crates/hazbultra/src/lib.rt", "crates/low/specs/A.antt"):
            self.write(path, "changed")
        os.utime(f"{self.top}/{SOURCE}", (1, 1))
        self.assertEqual(self.sources(), before)
        for path, text in ((SOURCE, "//"), ("crates/low/src/new.rt", ""), ("crates.txt", "low:\nmailbox_main: low\n")):
            self.write(path, text)
            self.assertNotEqual(self.sources(), before)
            before = self.sources()

    def test_stale_or_with_another_byte_it_is_not_run(self):
        self.write(SOURCE, "//")
        self.expect_unproved("there is no build of your own; the program prebuilt/mailbox is stale: sources were changed")
        self.assertEqual(self.run_it("--which")[:2], (1, ""))
        self.write("prebuilt/mailbox", PROGRAM.replace("SHIPPED", "shipped"))
        self.write(SOURCE, "")
        self.expect_unproved("program prebuilt/mailbox is not the one that its text tells of: it has another SHA-256")

    def test_on_another_machine_one_line_says_what_it_needs(self):
        self.write("bin/uname", "#!/bin/sh\necho Linux wrong\n")
        for text in ("#!/no/loader\n", "#!/bin/sh\necho no GLIBC_9 >&2; exit 1\n", "\0no program\n"):
            self.write("prebuilt/mailbox", text)
            self.record()
            status, said, errors = self.run_it("replay")
            self.assertEqual((status, said, errors.count("\n")), (1, "", 1), errors)
            self.assertIn("needs x86_64 Linux, x86-64-v2, and does not run here (Linux wrong): ", errors)

    def test_an_own_build_goes_first_until_it_is_stale(self):
        status, said, errors = self.run_it("--build")
        self.assertEqual((status, said), (0, ""))
        self.assertIn("mailbox: so far: 2 of 9 functions", errors)
        self.assertEqual(self.run_it("replay", kit=False), (0, "own replay\nx\n", ""))
        self.write(SOURCE, "//")
        self.record()
        self.assertEqual(self.run_it("replay"), (0, "SHIPPED replay\nx\n", ""))
        self.record(sources="other")
        self.assertIn("the build of your own is stale", self.run_it("replay")[2])

    def test_a_build_that_fails_or_is_of_two_texts_is_not_kept(self):
        self.assertIn("could not be built", self.run_it("--build", BROKEN="yes")[2])
        self.assertIn("changed during the build", self.run_it("--build", EDITED=f"{self.top}/{SOURCE}")[2])
        self.record()
        self.assertEqual(self.run_it("replay")[1], "SHIPPED replay\nx\n")
        self.assertIn("Rattle kit", self.run_it("--build", kit=False)[2])
        self.assertEqual(self.run_it("--build", "now")[0], 1)


class Prebuilt(Place):
    def told(self, *words):
        """All lines but the last, which counts faults. The status says whether there is one."""
        env = {**os.environ, "PATH": f"{self.top}/bin:{os.environ['PATH']}"}
        how = {"stdout": subprocess.PIPE, "stderr": subprocess.STDOUT, "text": True, "env": env}
        ran = subprocess.run(["sh", f"{self.top}/ci/prebuilt.sh", *words], check=False, **how)
        self.assertEqual((ran.returncode == 0), ran.stdout.endswith("5 files, 0 faults\n"))
        return ran.stdout

    def test_what_a_text_says_has_to_hold(self):
        self.assertEqual(self.told(), "5 files, 0 faults\n")
        for name in ("commit", "kit", "sha256", "sources", "needs"):
            self.record(**{name: ""})
            self.assertIn("5 files, 1 faults", self.told(), name)
        self.write("prebuilt/mailbox", "GLIBC_2.4 GLIBC_2.34 GLIBC_2.14")
        self.record(needs="x86_64 Linux, glibc 2.34, x86-64-v2")
        self.assertEqual(self.told(), "5 files, 0 faults\n")
        os.remove(f"{self.top}/prebuilt/mailbox.txt")
        self.assertIn("there is no prebuilt/mailbox or no prebuilt/mailbox.txt", self.told())

    def test_what_is_built_is_compared_and_put_in_place(self):
        self.assertIn("is not what the sources build. It was built by kit, and now by the kit", self.told("--compare"))
        for words in ("init -q", "add crates crates.txt", "-c user.name=a -c user.email=a commit -qm a"):
            subprocess.run(["git", *words.split()], cwd=self.top, check=True)
        self.write(".gitignore", "out/\n")
        self.assertIn("5 files, 0 faults", self.told("--place"))
        self.assertIn("5 files, 0 faults", self.told("--compare"))
        self.assertEqual(self.run_it("replay", kit=False), (0, "own replay\nx\n", ""))
        for archive in ARCHIVES:
            self.write(archive, "ARchive\n")
        self.assertIn("5 files, 8 faults", self.told("--compare"))
        os.utime(f"{self.top}/crates/mailbox_main/out/mailbox_main", (1, 1))
        self.assertIn("run rt ci first", self.told("--place", "--proved"))
        self.write(SOURCE, "//")
        self.assertIn("commit the crates first", self.told("--place"))

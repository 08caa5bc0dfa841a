"""Whether what is built is fresh: built files that are stale, cut short, without a stamp, or named."""
from __future__ import annotations

import ctypes
import os
import shutil
import subprocess
import time
import unittest
from unittest import mock

from frontend import build, stamp
from frontend.tests.building import CRATES, HERE, Case

ARCHIVE = os.path.join(HERE, build.ARCHIVE.file)


class Stale(Case):
    """Whether what is built is what the sources are."""

    def test_built_once(self) -> None:
        said = self.run_it()
        self.assertIn("cardgrade: the program is not built: first its 4 crates are proved, in some minutes\n", said)
        self.assertEqual(self.run_it(), "")
        self.assertEqual(self.count("calls"), 1)

    def rebuilt(self, why: str) -> None:
        before = self.count("calls")
        said = self.run_it()
        self.assertIn(f"cardgrade: the program {why}: it is built again", said)
        self.assertEqual(self.count("calls"), before + 1)
        self.assertEqual(self.run_it(), "")

    def test_sources(self) -> None:
        self.run_it()
        self.put("crates/cardgrade/src/lib.rt", "# another\n")
        self.rebuilt("is older than its sources")
        self.assertIn("# another\n", self.read("crates/cardgrade/out/cardgrade"))
        self.put("crates/word32/specs/Lib.antt", "another\n")
        self.rebuilt("is older than its sources")
        self.put("crates/lists/src/more/new.rt", "new\n")
        self.rebuilt("is older than its sources")
        os.remove(self.path("crates/lists/src/more/new.rt"))
        self.rebuilt("is older than its sources")
        self.put("crates.txt", CRATES.replace("report: word32 lists", "report: lists word32"))
        self.rebuilt("is older than its sources")

    def test_not_of_it(self) -> None:
        """What the program is not built of."""
        self.run_it()
        self.put("crates/lists/proofs/Lib.antt", "another\n")
        self.put("crates/other/src/lib.rt", "another\n")
        self.put("crates/lists/src/lib.rt~", "another\n")
        os.symlink("nowhere", self.path("crates/lists/src/.#lib.rt"))
        os.utime(self.path("crates/lists/src/lib.rt"))
        self.put("crates.txt", CRATES + "new: lists\n")
        self.assertEqual(self.run_it(), "")

    def test_old_date(self) -> None:
        """A source that keeps its date and its length is another."""
        self.run_it()
        before = os.stat(self.path("crates/lists/src/lib.rt"))
        self.put("crates/lists/src/lib.rt", "# LISTS\n")
        os.utime(self.path("crates/lists/src/lib.rt"), ns=(before.st_atime_ns, before.st_mtime_ns))
        self.rebuilt("is older than its sources")

    def test_toolchain(self) -> None:
        self.run_it()
        self.variables["VERSION"] = "rattle 2"
        self.rebuilt("was built with another toolchain")

    def test_kit(self) -> None:
        """The kit's own file tells the same as rt."""
        with open(os.path.join(self.room, "KIT-ID"), "w", encoding="utf-8") as file:
            file.write("rattle 1\n")
        self.run_it(VERSION="")
        self.assertIn("toolchain rattle 1\n", self.read("target/cardgrade.stamp"))

    def test_changed_back(self) -> None:
        """The toolchain alone has built it of other sources, which are gone again."""
        self.run_it()
        self.put("crates/cardgrade/out/cardgrade", "# of other sources\n")
        os.utime(self.path("crates/lists/src/lib.rt"))
        self.rebuilt("does not tell what it was built of")

    def test_cut_short(self) -> None:
        self.run_it()
        self.put("crates/cardgrade/out/cardgrade", "#")
        self.rebuilt("does not tell what it was built of")
        self.assertIn("# cardgrade\n", self.read("crates/cardgrade/out/cardgrade"))

    def test_removed(self) -> None:
        """The toolchain knows its sources as unchanged."""
        self.run_it()
        os.remove(self.path("crates/cardgrade/out/cardgrade"))
        self.assertIn("the program is not built", self.run_it())
        self.assertIn("# cardgrade\n", self.read("crates/cardgrade/out/cardgrade"))

    def test_not_to_be_run(self) -> None:
        """The toolchain would say that it is unchanged."""
        self.run_it()
        os.chmod(self.path("crates/cardgrade/out/cardgrade"), 0o644)
        self.assertIn("the program cannot be run: it is built again", self.run_it())

    def test_changed_meanwhile(self) -> None:
        plan = '[ -e "$ROOM/once" ] || { echo "# while" >crates/lists/src/lib.rt; echo 1 >"$ROOM/once"; }'
        said = self.run_it(PLAN=plan)
        self.assertIn("the program is older than its sources: it is built again", said)
        self.assertEqual(self.run_it(), "")
        said = self.run_it(PLAN='echo x >>crates/lists/src/lib.rt', VERSION="rattle 3", status=2)
        self.assertIn("cardgrade: the sources of the program change while it is built\n", said)

    def test_no_toolchain(self) -> None:
        os.rename(os.path.join(self.tools, "rt"), os.path.join(self.room, "rt"))
        tail = "and the Rattle toolchain (rt), which proves and builds it, is not on the PATH\n"
        self.assertEqual(self.run_it(status=2), f"cardgrade: the program is not built, {tail}")
        self.assertFalse(os.path.exists(self.path("target")))
        os.rename(os.path.join(self.room, "rt"), os.path.join(self.tools, "rt"))
        self.run_it()
        os.remove(os.path.join(self.tools, "rt"))
        self.assertEqual(self.run_it(), "")
        self.put("crates/lists/src/lib.rt", "another\n")
        self.assertEqual(self.run_it(status=2), f"cardgrade: the program is older than its sources, {tail}")

    def test_no_crates(self) -> None:
        os.remove(self.path("crates.txt"))
        self.assertIn("crates.txt: it cannot be read (No such file or directory)", self.run_it(status=2))


class TakenOver(Case):
    """What the toolchain has built by itself has no stamp."""

    def by_itself(self, command: str, folder: str = "") -> None:
        environment = {"PATH": self.tools, "ROOM": self.room, **self.variables}
        time.sleep(0.02)
        subprocess.run([os.path.join(self.tools, "rt"), command], cwd=self.path(folder), env=environment, check=True,
                       stdin=subprocess.DEVNULL, stdout=subprocess.DEVNULL, stderr=subprocess.DEVNULL)

    def test_program(self) -> None:
        self.by_itself("run", "crates/cardgrade")
        self.assertEqual(self.run_it(), "")
        self.assertEqual(self.count("calls"), 1)
        self.put("crates/lists/src/lib.rt", "another\n")
        self.assertIn("is older than its sources", self.run_it())

    def test_gate(self) -> None:
        """After `rt ci`, which leaves the program, and of libraries what those above need; a change is built over that."""
        self.by_itself("ci")
        self.assertEqual(self.run_it(), "")
        self.assertEqual(self.count("calls"), 1)
        self.by_itself("ci")
        self.assertEqual(self.run_it(), "")
        self.assertEqual(self.count("calls"), 2)
        self.put("crates/lists/src/lib.rt", "another\n")
        self.assertIn("is older than its sources", self.run_it())

    def test_gate_again(self) -> None:
        """`rt ci` takes the archive away, and the library that is made of it stays."""
        self.run_it("shared_library")
        self.by_itself("ci")
        self.assertEqual(self.run_it("shared_library"), "")
        self.assertFalse(os.path.exists(self.path("crates/cardhost/out")))
        self.assertEqual((self.count("calls"), self.count("links")), (2, 1))

    def test_gate_unfinished(self) -> None:
        """Without what the program wrote, as where the gate was cut short before it ran; or it wrote something else, or another has run."""
        self.by_itself("ci")
        wrote = self.path("crates/cardgrade/out/stdout")
        for spoil in (lambda: os.remove(wrote), lambda: self.put("crates/cardgrade/out/stdout", "its"), lambda: os.utime(wrote, (0, 0))):
            shutil.rmtree(self.path("target"), ignore_errors=True)
            self.by_itself("ci")
            spoil()
            self.assertIn("the program does not tell what it was built of", self.run_it())

    def test_without_toolchain(self) -> None:
        self.by_itself("run", "crates/cardgrade")
        os.remove(os.path.join(self.tools, "rt"))
        self.assertEqual(self.run_it(), "")

    def test_younger_source(self) -> None:
        """Also one with an old date, as an archive's unpacking leaves it."""
        self.by_itself("run", "crates/cardgrade")
        self.put("crates/lists/src/lib.rt", "another\n")
        os.utime(self.path("crates/lists/src/lib.rt"), (0, 0))
        self.assertIn("the program does not tell what it was built of: it is built again", self.run_it())

    def test_unfinished(self) -> None:
        """Without the toolchain's stamp, as where it was cut short, or with that of another."""
        self.by_itself("run", "crates/cardgrade")
        os.remove(self.path("crates/cardgrade/out/cardgrade.stamp"))
        self.assertIn("the program does not tell what it was built of", self.run_it())
        shutil.rmtree(self.path("target"))
        self.put("crates/cardgrade/out/cardgrade", "#")
        self.assertIn("the program does not tell what it was built of", self.run_it())

    def test_archive(self) -> None:
        self.by_itself("lib", "crates/cardhost")
        self.assertEqual(self.run_it("shared_library"), "")
        self.assertEqual((self.count("calls"), self.count("links")), (1, 1))

    def test_archive_cut_short(self) -> None:
        self.by_itself("lib", "crates/cardhost")
        with open(self.path("crates/cardhost/out/libcardhost.a"), "r+b") as file:
            file.truncate(70)
        self.assertIn("the archive does not tell what it was built of", self.run_it("shared_library"))
        self.assertEqual(self.count("calls"), 2)


class Library(Case):
    """The shared library over the archive."""

    def test_built_once(self) -> None:
        said = self.run_it("shared_library")
        self.assertIn("cardgrade: the archive is not built: first its 3 crates are proved", said)
        self.assertEqual(self.run_it("shared_library"), "")
        self.assertEqual((self.count("calls"), self.count("links")), (1, 1))
        self.assertEqual(os.listdir(self.path("crates/cardhost/out")), ["libcardhost.a"])
        self.assertEqual(sorted(os.listdir(self.path("target"))),
                         ["build.lock", "build.log", "libcardhost.a.stamp", "libcardhost.so", "libcardhost.so.stamp"])

    def test_archive_is_there(self) -> None:
        """It is linked anew, and not built."""
        self.run_it("shared_library")
        os.remove(self.path("target/libcardhost.so"))
        self.assertEqual(self.run_it("shared_library"), "")
        self.assertEqual(self.run_it("shared_library", LINKER="gcc 2"), "")
        self.assertEqual((self.count("calls"), self.count("links")), (1, 3))

    def test_stale(self) -> None:
        self.run_it("shared_library")
        self.put("crates/word32/src/lib.rt", "another\n")
        self.assertIn("the archive is older than its sources: it is built again", self.run_it("shared_library"))
        self.assertEqual((self.count("calls"), self.count("links")), (2, 2))

    def test_no_linker(self) -> None:
        os.remove(os.path.join(self.tools, "gcc"))
        said = self.run_it("shared_library", status=2)
        self.assertEqual(said, "cardgrade: the library is not built, and gcc, which links it, is not on the PATH\n")

    def test_failed(self) -> None:
        said = self.run_it("shared_library", status=2, PLAN_OF_LINK="echo a.o: undefined reference to x >&2; exit 1")
        self.assertRegex(said, "cardgrade: a.o: undefined reference to x\ncardgrade: the build failed; .*/target/build.log has all that was said\n")
        self.assertNotIn("libcardhost.so.new", os.listdir(self.path("target")))

    def test_named(self) -> None:
        self.run_it("shared_library")
        archive = self.path("crates/cardhost/out/libcardhost.a")
        run = self.start("shared_library", CARDHOST_LIB=archive, PLAN_OF_LINK="cd \"$ROOM\"; mkdir -p target/linking")
        os.makedirs(os.path.join(self.room, "target"))
        self.assertRegex(run.communicate()[0], "^/proc/self/fd/[0-9]+\n$")
        with open(os.path.join(self.room, "ready"), "wb") as file:
            file.write(b"\x7fELF")
        run = self.start("shared_library", CARDHOST_LIB="ready")
        self.assertEqual(run.communicate(), ("./ready\n", ""))
        self.assertEqual(self.run_it("shared_library", status=2, CARDHOST_LIB="none"), "cardgrade: none: no archive that can be read\n")
        said = self.run_it("shared_library", status=2, CARDHOST_LIB=self.path("crates.txt"))
        self.assertTrue(said.endswith("crates.txt: neither an archive nor a shared library\n"))

    def test_named_program(self) -> None:
        for name in ("none", "tools", "tools/none"):
            self.assertEqual(self.run_it(status=2, CARDGRADE=name), f"cardgrade: {name}: no program that can be run\n")
        self.assertEqual(self.start(CARDGRADE="tools/rt").communicate(), ("./tools/rt\n", ""))
        self.assertEqual(self.start(CARDGRADE=self.tools + "/rt").communicate(), (self.tools + "/rt\n", ""))

    @unittest.skipUnless(shutil.which("gcc") and os.path.isfile(ARCHIVE), "neither gcc nor an archive")
    def test_archive_itself(self) -> None:
        """The engine's own archive, by the linker itself."""
        with mock.patch.dict(os.environ, {"CARDHOST_LIB": ARCHIVE}):
            self.assertTrue(hasattr(ctypes.CDLL(build.shared_library(self.root)), "card_grade"))

    def test_members(self) -> None:
        member = b"%-48s%-10d`\n" % (b"a.o/", 3) + b"abc"
        for data, whole in ((b"!<arch>\n" + member + b"\n" + member, True), (b"!<arch>\n" + member[:-1], False),
                            (b"!<arch>\n" + member + b"\n" + member[:50], False), (b"!<arch>\n", False), (b"", False), (b"text", False)):
            self.assertEqual(stamp.is_whole_archive(data), whole, data)

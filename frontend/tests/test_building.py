"""A build and its troubles: several at once, signals, failures, folders that cannot be written, signs of life."""
from __future__ import annotations

import os
import shutil
import signal
from unittest import mock

from frontend import build, errors, lock, stamp
from frontend.tests.building import Case


class AtOnce(Case):
    """Several runs in a checkout that is half built."""

    def test_two_and_three(self) -> None:
        """The others wait, and find it built."""
        for count in (2, 3):
            first = self.start(PLAN="wait_to_go")
            self.wait_for("group")
            others = [self.start() for _ in range(count - 1)]
            for other in others:
                self.assertRegex(self.line(other), r"^cardgrade: another build runs \(process \d+\); waiting\n$")
            self.go()
            self.end(first)
            self.assertEqual([self.end(other) for other in others], [""] * (count - 1))
            self.assertEqual(self.count("calls"), 1)
            self.remove_built()
            for name in ("go", "group", "calls"):
                os.remove(os.path.join(self.room, name))

    def test_links(self) -> None:
        """All that link at once."""
        for _ in range(4):
            self.remove_built()
            for run in [self.start("shared_library", PLAN_OF_LINK="sleep 0.1") for _ in range(3)]:
                self.end(run)
        self.assertEqual((self.count("calls"), self.count("links")), (4, 4))

    def test_both(self) -> None:
        for run in [self.start(what, PLAN="sleep 0.2") for what in ("program", "shared_library", "program", "shared_library")]:
            self.end(run)
        self.assertEqual((self.count("calls"), self.count("links")), (2, 1))

    def test_signs_of_waiting(self) -> None:
        first = self.start(PLAN="wait_to_go")
        self.wait_for("group")
        second = self.start(sign=0.2)
        self.line(second)
        self.assertRegex(self.line(second), r"^cardgrade: another build runs \(process \d+\); waiting, \d s\n$")
        self.go()
        self.end(second)
        self.end(first)

    def test_killed(self) -> None:
        """A toolchain whose front end was killed may go on for a time: nobody else builds before it has ended."""
        first = self.start(PLAN='wait_to_go; rmdir busy; exit')
        self.wait_for("group")
        first.kill()
        first.communicate()
        second = self.start()
        self.assertIn("another build runs", self.line(second))
        self.assertEqual(self.count("calls"), 1)
        self.go()
        self.end(second)
        self.assertEqual(self.count("calls"), 2)

    def test_folder_gone(self) -> None:
        """Somebody removes target/, with the lock: who waits does not wait for a lock that is no longer there."""
        first = self.start(PLAN="wait_to_go")
        self.wait_for("group")
        second = self.start()
        self.line(second)
        os.rmdir(self.path("busy"))
        shutil.rmtree(self.path("target"))
        self.end(second)
        self.go()
        first.communicate()


class Ended(Case):
    """A signal ends the build with all that it started."""

    # Provers in the background of a shell, which ignore the terminal's signal, and one that ignores more.
    PLAN = """(trap '' INT; sleep 60) & sh -c 'trap "" TERM INT HUP; sleep 60' & echo 1 >"$ROOM/ready"; wait"""

    def ended(self, number: signal.Signals) -> None:
        run = self.start(PLAN=self.PLAN)
        self.wait_for("ready")
        self.assertGreaterEqual(len(self.members()), 3)
        run.send_signal(number)
        said = self.end(run, 2)
        self.assertIn("cardgrade: the build was ended by a signal; what is proved so far stays proved\n", said)
        self.assertEqual(self.members(), [])
        os.rmdir(self.path("busy"))
        self.run_it()

    def test_interrupt(self) -> None:
        self.ended(signal.SIGINT)

    def test_terminate(self) -> None:
        self.ended(signal.SIGTERM)

    def test_hang_up(self) -> None:
        self.ended(signal.SIGHUP)

    def test_while_waiting(self) -> None:
        first = self.start(PLAN="wait_to_go")
        self.wait_for("group")
        second = self.start()
        self.line(second)
        second.send_signal(signal.SIGTERM)
        self.assertIn("cardgrade: the build was ended by a signal", self.end(second, 2))
        self.go()
        self.end(first)

    def test_link(self) -> None:
        run = self.start("shared_library", PLAN_OF_LINK='echo $$ >"$ROOM/group"; echo 1 >"$ROOM/ready"; echo x >"$3"; sleep 60')
        self.wait_for("ready")
        run.send_signal(signal.SIGINT)
        self.end(run, 2)
        self.assertEqual(self.members(), [])
        self.assertNotIn("libcardhost.so.new", os.listdir(self.path("target")))


class Failure(Case):
    """What a failed build says."""

    def failed(self, plan: str, first: str) -> None:
        said = self.run_it(status=2, PLAN=plan)
        log = self.path("target/build.log")
        self.assertTrue(said.endswith(f"cardgrade: {first}\ncardgrade: the build failed; {log} has all that was said\n"), said)

    def test_not_proved(self) -> None:
        plan = """echo 'rt: chose --jobs 2 for lists'; echo 'fn lists::error::f: proved'; echo 'logic=proved functions=1'
            echo 'rt: chose --jobs 2 for word32'; echo './proofs/Lib.antt:3:4: error: no'; echo 'x.antt:5:6: error: nor this'
            echo 'fn word32::bit: not proved'; echo 'logic=not-proved'; echo 'z.antt: error: other'; echo 'only=0 proved=0'
            echo 'rt: the library word32 did not build, so nothing above it was checked' >&2; exit 1"""
        self.failed(plan, "word32 is not proved: ./proofs/Lib.antt:3:4: error: no")
        log = self.read("target/build.log")
        self.assertTrue(log.startswith(f"$ cd crates/cardgrade && {self.tools}/rt run <stdin\nrt: chose --jobs 2 for lists\n"))
        self.assertTrue(log.endswith("rt: the library word32 did not build, so nothing above it was checked\n"))

    def test_not_read(self) -> None:
        """A crate that is not even read has no verdict."""
        plan = """proved lists; rmdir busy; echo "rt: chose --jobs 2 for $CRATE"; echo 'rattle build: nothing was built'
            echo 'src/lib.rt:12:5: error[unknown-name]: no value `y`'; echo '/crates/src/lib.rt:12:5: error[unknown-name]: no value `y`'
            [ $CRATE = cardgrade ] || echo "rt: the library $CRATE did not build, so nothing above it was checked"; exit 1"""
        for crate in ("word32", "cardgrade"):
            self.variables["CRATE"] = crate
            self.failed("proved() { echo \"rt: chose --jobs 2 for $1\"; echo logic=proved; }; " + plan,
                        f"{crate} is not proved: src/lib.rt:12:5: error[unknown-name]: no value `y`")

    def test_without_verdict(self) -> None:
        self.failed("echo 'rt: chose --jobs 2 for lists'; echo 'logic=proved functions=1'; echo 'cannot go on'; exit 2",
                    "word32 is not proved: cannot go on")

    def test_its_run(self) -> None:
        """It fails, or prints something else; the program is not taken for one that is built."""
        plan = "for each in lists word32 report cardgrade; do echo \"rt: chose --jobs 2 for $each\"; echo logic=proved; done; " \
            "echo 'rt: running out/cardgrade; to give it other input, run that file yourself'; rmdir busy; "
        self.failed(plan + "echo 'cardgrade: no'; exit 2", "cardgrade is proved, and its run failed: cardgrade: no")
        for printed in ("", "its grading\n", "its grading\nin two lines", "its grading\nin two lines\n\n"):
            self.failed(f"{plan} mkdir -p crates/cardgrade/out; echo >crates/cardgrade/out/cardgrade; printf '{printed}'; exit",
                        "cardgrade is proved, and its run failed: it does not print what crates/cardgrade/stdout has")
            self.assertFalse(os.path.exists(self.path("crates/cardgrade/out/cardgrade")))
        self.assertIn("the program is not built", self.run_it())

    def test_nothing_built(self) -> None:
        self.failed("rmdir busy; exit 0", "rt has left no crates/cardgrade/out/cardgrade")
        self.failed("exit 1", "lists is not proved: nothing was said")

    def test_stale_is_not_used(self) -> None:
        self.run_it()
        self.put("crates/lists/src/lib.rt", "another\n")
        self.failed("echo 'rt: chose --jobs 2 for lists'; echo logic=not-proved; rmdir busy; exit 1",
                    "lists is not proved: logic=not-proved")
        self.assertIn("the program is older than its sources", self.run_it())

    def test_toolchain_cannot_be_run(self) -> None:
        self.put_tool("rt", "#!/none\n")
        self.assertIn("rt: it cannot be run (No such file or directory)", self.run_it(status=2))


class Place(Case):
    """A folder that cannot be written, or is full."""

    def test_no_folder(self) -> None:
        self.put("target", "")
        self.assertEqual(self.run_it(status=2), f"cardgrade: {self.path('target')} cannot be written (it is no folder); "
                         "the program is built there, and CARDGRADE=program names a finished one\n")
        self.assertEqual(self.count("calls"), 0)

    def test_no_rights(self) -> None:
        user = "" if os.getuid() else "65534"
        for path, where in (("", "target"), ("target", "target"), ("crates/lists", "crates/lists"),
                            ("crates/lists/out", "crates/lists/out"), ("crates/lists/out/rlib", "crates/lists/out/rlib")):
            os.makedirs(self.path(path), exist_ok=True)
            os.chmod(self.path(path), 0o555)
            said = self.run_it(status=2, user=user)
            os.chmod(self.path(path), 0o777)
            self.assertRegex(said, f"^cardgrade: {self.path(where)} cannot be written( \\(Permission denied\\))?; the program is built there, ")
            self.assertEqual(self.count("calls"), 0)

    def test_built_and_no_rights(self) -> None:
        """What is fresh is used, also where its stamp cannot be written."""
        self.run_it()
        os.remove(self.path("target/cardgrade.stamp"))
        os.chmod(self.path("target"), 0o555)
        self.assertEqual(self.run_it(user="" if os.getuid() else "65534"), "")
        os.chmod(self.path("target"), 0o755)

    def test_no_room(self) -> None:
        with mock.patch.dict(os.environ, {"PATH": self.tools, "CARDGRADE": ""}), mock.patch.object(lock, "ROOM", 10**18):
            with self.assertRaisesRegex(errors.Failed, "/check out has room for [0-9]+ MB, and building takes up to [0-9]+ MB$"):
                build.program(self.root)
        self.assertEqual(self.count("calls"), 0)


class Signs(Case):
    """How a build goes on."""

    def test_count(self) -> None:
        """To none left, also where the toolchain does not say that the last crate is proved. It says nothing of what is unchanged."""
        self.assertEqual(self.run_it("shared_library").splitlines()[1:4], [
            "cardgrade: lists is proved, 2 of 3 crates left",
            "cardgrade: word32 is proved, 1 of 3 crates left",
            "cardgrade: cardhost is proved, 0 of 3 crates left"])
        self.assertEqual(self.run_it().splitlines()[1:3], [
            "cardgrade: report is proved, 1 of 4 crates left",
            "cardgrade: cardgrade is proved, 0 of 4 crates left"])

    def test_signs_of_life(self) -> None:
        said = self.run_it(sign=0.3, PLAN="sleep 0.8; echo 'rt: chose --jobs 2 for lists'; echo logic=proved; sleep 0.8")
        self.assertRegex(said, "(cardgrade: proving lists, 4 of 4 crates left, [0-9] s\n){2}")
        self.assertRegex(said, "cardgrade: lists is proved, 3 of 4 crates left\n(cardgrade: proving word32, 3 of 4 crates left, [0-9] s\n){2}")
        self.assertRegex(said, "\ncardgrade: the program is built, in [0-9] s\n$")

    def test_order(self) -> None:
        """Each after those that it names, in their order, as the toolchain goes."""
        self.put("crates.txt", "c: b\nb: a  # and\na:\nd: a anyhow\ne staticlib: d c a\n")
        self.assertEqual([name for name, _ in stamp.crates_of(self.root, "e")], ["a", "d", "b", "c", "e"])
        self.put("crates.txt", "a: b\nb: a\n")
        self.assertEqual(len(stamp.crates_of(self.root, "a")), 2)

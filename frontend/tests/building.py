"""For the tests of building: a folder with sources, and a toolchain and a linker that only imitate rt and gcc."""
from __future__ import annotations

import os
import shutil
import subprocess
import sys
import tempfile
import time
import unittest

HERE = os.path.dirname(os.path.dirname(os.path.dirname(os.path.abspath(__file__))))

# One run of the front end, as far as it builds: the path on standard output, or an error and status 2.
RUN = """
import os, sys
here, root, what, sign, user = sys.argv[1:]
sys.path.insert(0, here)
from frontend import build, errors, lock, watch
watch.SIGN = float(sign)
if user:
    os.setuid(int(user))
try:
    print(getattr(build, what)(root))
except errors.Failed as error:
    sys.stderr.write(f"cardgrade: {error}\\n")
    sys.exit(2)
"""

# It proves nothing, but knows what it has built, and does it where rt does. Two of it at once are in each other's way; rt itself waits.
RT = r"""#!/bin/sh
if [ "$1" = version ]; then echo "$VERSION"; exit; fi
crate=${PWD##*/}
echo "$1 $crate" >>"$ROOM/calls"
echo $$ >"$ROOM/group"
[ "$1" = ci ] || cd ../..
mkdir busy 2>/dev/null || { echo "rt: another is at it"; exit 1; }
wait_to_go() { while [ ! -e "$ROOM/go" ]; do sleep 0.05; done; }
eval "$PLAN"
sum="$(cat crates.txt crates/*/src/*.rt crates/*/specs/*.antt | cksum) $VERSION"
proved() {
    echo "rt: chose --jobs 2 for $1"
    echo "fn $1::f: proved"
    echo "logic=proved functions=1 sum=dac8208d650f15bf logic-built=trusted"
}
program() {
    mkdir -p crates/cardgrade/out
    cat crates/*/src/*.rt >crates/cardgrade/out/cardgrade
    chmod +x crates/cardgrade/out/cardgrade
}
sum_of_program() { sha256sum crates/cardgrade/out/cardgrade 2>/dev/null | { read -r it _; printf %s "$it"; }; }
for each in lists word32 $([ "$1" = lib ] || echo report); do
    out=crates/$each/out
    # what rt ci leaves has no stamp, so that rt makes its own
    if [ "$1" = ci ] || ! [ -e $out/rlib/stamp ] || [ "$(cat $out/rlib/stamp)" != "$sum" ]; then
        rm -rf $out/rlib
        mkdir -p $out/rlib/$each.rlib
        proved $each
        [ "$1" = ci ] || { mkdir -p $out/incremental; printf %s "$sum" >$out/rlib/stamp; }
    fi
done
case $1 in
ci)
    rm -rf crates/cardhost/out crates/cardgrade/out
    program
    cat crates/cardgrade/stdout >crates/cardgrade/out/stdout
    echo "rt: cardgrade ran, and wrote what its file stdout has"
    echo "rt: ok; handles allowed: none; every proof and must-fail edit was done in this run"
    echo "6 passed, 0 failed" ;;
run)
    stamp=crates/cardgrade/out/cardgrade.stamp
    if [ -e $stamp ] && [ "$(cat $stamp)" = "$sum$(sum_of_program)" ]; then
        echo "rt: nothing has changed since the last proved build, by out/cardgrade.stamp, so nothing is checked now" >&2
    else
        rm -f $stamp
        program
        proved cardgrade >&2
        printf %s "$sum$(sum_of_program)" >$stamp
    fi
    echo "rt: running out/cardgrade; to give it other input, run that file yourself" >&2
    [ -x crates/cardgrade/out/cardgrade ] || exit 1
    [ "$(cat)" != "a card" ] || cat crates/cardgrade/stdout ;;
lib)
    mkdir -p crates/cardhost/out
    proved cardhost
    { printf '!<arch>\n%-16s%-32s%-10s`\n' a.o/ 0 4; echo abc; } >crates/cardhost/out/libcardhost.a ;;
esac
rmdir busy
"""

GCC = r"""#!/bin/sh
if [ "$1" = --version ]; then printf '%s\nmore\n' "$LINKER"; exit; fi
echo "$*" >>"$ROOM/links"
mkdir target/linking || exit 1
eval "$PLAN_OF_LINK"
cat "$5" >"$3"
rmdir target/linking
"""

CRATES = "# a comment\nlists:\nword32: lists\nreport: word32 lists\ncardgrade: report anyhow\ncardhost staticlib: word32\nother: lists\n"


class Case(unittest.TestCase):
    """A folder with sources and tools; `run` runs the front end there."""

    def setUp(self) -> None:
        self.room = tempfile.mkdtemp()
        self.addCleanup(shutil.rmtree, self.room)
        self.root = os.path.join(self.room, "check out")
        os.chmod(self.room, 0o755)
        self.put("crates.txt", CRATES)
        for name in ("lists", "word32", "report", "cardgrade", "cardhost", "other"):
            self.put(f"crates/{name}/src/lib.rt", f"# {name}\n")
            self.put(f"crates/{name}/specs/Lib.antt", "spec\n")
            self.put(f"crates/{name}/proofs/Lib.antt", "proof\n")
        self.put("crates/cardgrade/stdin", "a card\n")
        self.put("crates/cardgrade/stdout", "its grading\nin two lines\n")
        self.tools = os.path.join(self.room, "tools")
        os.mkdir(self.tools)
        for tool in ("sh", "cat", "chmod", "cksum", "mkdir", "rm", "rmdir", "sha256sum", "sleep"):
            os.symlink(str(shutil.which(tool)), os.path.join(self.tools, tool))
        self.put_tool("rt", RT)
        self.put_tool("gcc", GCC)
        self.variables = {"VERSION": "rattle 1", "LINKER": "gcc 1", "PLAN": "", "PLAN_OF_LINK": ""}

    def put(self, name: str, text: str) -> None:
        path = os.path.join(self.root, name)
        os.makedirs(os.path.dirname(path), exist_ok=True)
        with open(path, "w", encoding="utf-8") as file:
            file.write(text)

    def put_tool(self, name: str, text: str) -> None:
        path = os.path.join(self.tools, name)
        with open(path, "w", encoding="utf-8") as file:
            file.write(text)
        os.chmod(path, 0o755)

    def remove_built(self) -> None:
        """As in a fresh checkout."""
        shutil.rmtree(self.path("target"), ignore_errors=True)
        for name in os.listdir(self.path("crates")):
            shutil.rmtree(self.path(f"crates/{name}/out"), ignore_errors=True)

    def path(self, name: str) -> str:
        return os.path.join(self.root, name)

    def read(self, path: str) -> str:
        with open(os.path.join(self.root, path), encoding="utf-8") as file:
            return file.read()

    def count(self, name: str) -> int:
        """How often a tool was run for its work."""
        path = os.path.join(self.room, name)
        return len(self.read(path).splitlines()) if os.path.exists(path) else 0

    def start(self, what: str = "program", *, sign: float = 10, user: str = "", **variables: str) -> subprocess.Popen[str]:
        environment = {"PATH": self.tools, "ROOM": self.room, "LC_ALL": "C.UTF-8", **self.variables, **variables}
        words = [sys.executable, "-I", "-S", "-c", RUN, HERE, self.root, what, str(sign), user]
        return subprocess.Popen(words, env=environment, text=True, cwd=self.room, stdin=subprocess.DEVNULL,
                                stdout=subprocess.PIPE, stderr=subprocess.PIPE)

    def end(self, run: subprocess.Popen[str], status: int = 0) -> str:
        """What a run said on standard error."""
        out, said = run.communicate(timeout=30)
        self.assertEqual((run.returncode, bool(out)), (status, status == 0), said)
        self.assertNotIn("Traceback", said)
        return said

    def run_it(self, what: str = "program", *, status: int = 0, sign: float = 10, user: str = "", **variables: str) -> str:
        """A whole run: what it said."""
        return self.end(self.start(what, sign=sign, user=user, **variables), status)

    def line(self, run: subprocess.Popen[str]) -> str:
        """The next line that a run says."""
        assert run.stderr
        return run.stderr.readline()

    def go(self) -> None:
        """Lets a plan `wait_to_go` go on."""
        with open(os.path.join(self.room, "go"), "w", encoding="utf-8"):
            pass

    def wait_for(self, name: str) -> None:
        """Until a file of the room is there."""
        for _ in range(500):
            if os.path.exists(os.path.join(self.room, name)):
                return
            time.sleep(0.02)
        self.fail(f"no {name}")

    def members(self) -> list[str]:
        """The processes of the toolchain's group that are not dead."""
        group = self.read(os.path.join(self.room, "group")).strip()
        found = []
        for number in filter(str.isdigit, os.listdir("/proc")):
            try:
                words = self.read(f"/proc/{number}/stat").rpartition(")")[2].split()
            except (FileNotFoundError, ProcessLookupError):
                continue
            if words[2] == group and words[0] != "Z":
                found.append(number)
        return found

"""Tests of ./gmr: what it says before it proves, what it knows of a build, and how it builds one, with stand-ins for
the toolchain."""
import os
import re
import shutil
import signal
import subprocess
import time
from pathlib import Path

from standins import ROOT, SYSTEM, Checkout, checkout, put_program

UNPROVED = "what comes is UNPROVED: it is from a build without proofs"


def test_help_is_at_once() -> None:
    """Help comes with status 0 on standard output, where nothing is built, and so does the version, which says that."""
    with checkout() as made:
        for word in ("--help", "-h", "help"):
            status, said, errors = made.run(word)
            assert status == 0 and "gmr run MAP BOOK SCRIPT OUT" in said and not errors, (word, status, errors)
        assert "nothing is built" in made.version() and not made.counted()


def test_wrong_words() -> None:
    """Wrong words begin no proof; where the program is there, it answers them, and the usage stands beside that."""
    with checkout() as made:
        for words in ((), ("foo",), ("show",), ("grid", "0"), ("grid", "101"), ("run", "a", "b", "c")):
            status, said, errors = made.run(*words)
            assert status == 2 and not said and errors.startswith("usage: gmr"), (words, status, said, errors)
        assert not made.counted()
        made.run("show", "a")
        for words in ((), ("foo",), ("cell", "a")):
            status, said, errors = made.run(*words)
            assert (status, said) == (2, "refused usage\n") and errors.startswith("usage: gmr"), (words, status, said)
        assert made.run("show", "a b") == (3, "ran show a b\n", "")


def test_the_toolchain_is_missing() -> None:
    """One line says which toolchain is missing and where it comes from."""
    with checkout(has_toolchain=False) as made:
        for words in (("show", "a.gmap"), ("--unproved", "show", "a.gmap")):
            status, said, errors = made.run(*words)
            assert status == 9 and not said and errors.count("\n") == 1, (status, said, errors)
            assert "dac8208d650f15bf" in errors and "isn't on the path" in errors, errors


def test_readme_names_the_logic() -> None:
    """README and --version name the logic that must agree, as ./gmr compares it."""
    text = (ROOT / "gmr").read_text(encoding="utf-8")
    logic = re.search(r"^logic=(\w+)$", text, re.M)
    assert logic and f"logic `{logic[1]}`" in (ROOT / "README.md").read_text(encoding="utf-8")
    with checkout() as made:
        assert f"the logic of a toolchain must be {logic[1]}" in made.version()


def test_first_call_without_a_terminal() -> None:
    """The proof begins at once, tells how long it takes and how far it is, and the program answers."""
    with checkout() as made:
        status, said, errors = made.run("show", "a.gmap")
        assert (status, said) == (3, "ran show a.gmap\n"), (status, said, errors)
        assert "15 minutes" in errors and "proved 3 of 3: gmr" in errors, errors
        assert made.run("show", "a.gmap") == (3, "ran show a.gmap\n", "") and made.counted() == 1


def test_first_call_at_a_terminal() -> None:
    """The terminal is told how long the proof takes and what answers sooner, and the proof waits for a yes."""
    with checkout() as made:
        status, said, shown = made.run_at_terminal("n\n", "show", "a b")
        assert status == 9 and not said and not made.counted(), (status, said, shown)
        assert "a quarter of an hour" in shown and "gmr --unproved show a\\ b" in shown and "a minute" in shown, shown
        status, said, shown = made.run_at_terminal("y\n", "show", "a b")
        assert (status, said) == (3, "ran show a b\n") and made.counted() == 1, (status, said, shown)
    with checkout() as made:
        status, said, shown = made.run_at_terminal("", "--prove", "show", "a b")
        assert (status, said) == (3, "ran show a b\n") and "begin the proof?" not in shown, (status, shown)
        assert made.run("--prove") == (0, "", "") and made.counted() == 1


def change(path: Path, text: str) -> None:
    """Writes a file anew, and sets its time back to what it was."""
    before = path.stat()
    path.write_text(text, encoding="utf-8")
    os.utime(path, ns=(before.st_atime_ns, before.st_mtime_ns))


def test_the_record() -> None:
    """The record names the toolchain, the commit, and digests of the program and of each file of its crates alone."""
    with checkout() as made:
        made.run("show", "a")
        text = (made.folder / "crates/gmr/out/gmr.record").read_text(encoding="utf-8")
        for line in ("built proved", "by rt ci: handles allowed: none; 3 of 3 proofs",
                     "toolchain rattle-kit-13f logic dac8208d650f15bf", "commit unknown"):
            assert line in text.splitlines(), (line, text)
        named = re.findall(r"^[0-9a-f]{64}  (.*)$", text, re.M)
        crates = ("gm_high", "gm_low", "gmr")
        wanted = [f"crates/{crate}/{file}" for crate in crates for file in ("proofs/main/Answers.antt", "src/main.rt")]
        assert named == ["crates/gmr/out/gmr", "crates.txt", *wanted], named
        assert "proved and built, from commit unknown, with rattle-kit-13f" in made.version()


def refused_by(made: Checkout, said: str) -> None:
    """--version says that, and not that the program is proved; and a call proves anew."""
    told, runs = made.version(), made.counted()
    assert said in told and "proved and built" not in told, told
    status, answer, errors = made.run("show", "a")
    assert (status, answer, made.counted()) == (3, "ran show a\n", runs + 1), (status, answer, errors)
    assert "proved and built" in made.version()


def test_each_change_is_told() -> None:
    """A removed source, one changed with its old time, a new one, another program, and none at all are each told."""
    with checkout() as made:
        made.run("show", "a")
        crates = made.folder / "crates"
        (crates / "gm_low/proofs/main/Answers.antt").unlink()
        refused_by(made, "crates/gm_low/proofs/main/Answers.antt is gone")
        change(crates / "gm_high/src/main.rt", "fn gm_high() { }\n")
        refused_by(made, "crates/gm_high/src/main.rt has changed")
        (crates / "gm_low/specs").mkdir()
        (crates / "gm_low/specs/New.antt").write_text("-\n", encoding="utf-8")
        refused_by(made, "crates/gm_low/specs/New.antt is new")
        (crates / "gmr/out/gmr").unlink()
        (crates / "gmr/out/gmr").symlink_to("/bin/true")
        refused_by(made, "crates/gmr/out/gmr has changed")
        (crates / "gmr/out/gmr.record").unlink()
        refused_by(made, "nothing says what crates/gmr/out/gmr was built from")
        (crates / "gmr/out/gmr").unlink()
        refused_by(made, "nothing is built")


def test_what_doesnt_count() -> None:
    """A change of the crate of tests, one that is taken back, a touched file and a moved folder prove nothing anew."""
    with checkout() as made:
        made.run("show", "a")
        (made.folder / "crates/gm_tests/src/main.rt").write_text("fn other() {}\n", encoding="utf-8")
        (made.folder / "crates.txt").write_text(CRATES_WITH_OTHER_TESTS, encoding="utf-8")
        source = made.folder / "crates/gm_low/src/main.rt"
        before = source.read_text(encoding="utf-8")
        source.write_text("fn other() {}\n", encoding="utf-8")
        assert "has changed" in made.version()
        source.write_text(before, encoding="utf-8")
        (made.folder / "crates/gm_high/src/main.rt").touch()
        moved = Checkout(made.folder.rename(made.folder.with_name("moved")), made.kit)
        assert moved.run("show", "a") == (3, "ran show a\n", "") and made.counted() == 1
        assert "proved and built" in moved.version()


CRATES_WITH_OTHER_TESTS = "gm_low:\ngm_high: gm_low\ngmr: gm_high\ngm_tests: gm_high gm_low\n"


def test_a_look_reads_no_file() -> None:
    """Where nothing was touched, a call looks at times alone."""
    with checkout() as made:
        made.run("show", "a")
        for name in ("sha256sum", "awk", "git", "sort", "mktemp", "cat"):
            put_program(made.kit / name, f"echo {name} >>'{made.kit}/called'")
        assert made.run("show", "a") == (3, "ran show a\n", "")
        assert not (made.kit / "called").exists(), (made.kit / "called").read_text()


def test_a_look_takes_less_than_ten_milliseconds() -> None:
    """With all files of the program's crates, the least of many calls is less than 10 ms above the program alone. Where
    the machine has more to do than it has processors, and the calls took longer, that says nothing."""
    with checkout() as made:
        for name in ("crates", "crates.txt"):
            (shutil.rmtree if name == "crates" else os.unlink)(made.folder / name)
        shutil.copytree(ROOT / "crates", made.folder / "crates", ignore=shutil.ignore_patterns("out", "must-fail"))
        shutil.copy(ROOT / "crates.txt", made.folder / "crates.txt")
        program, log = made.folder / "crates/gmr/out/gmr", made.folder / "log"
        program.parent.mkdir()
        put_program(program, "exit 3")
        log.write_text("rt: ok\n", encoding="utf-8")
        assert made.run("--record", made.run("--sources")[1].strip(), str(log)) == (0, "", "")
        assert made.run("show", "a") == (3, "", "")
        look, until = 1.0, time.monotonic() + 30
        while look >= 0.01 and time.monotonic() < until:
            alone = least_of(program, 5)
            look = min(look, least_of(made.folder / "gmr", 5) - alone)
        is_busy = os.getloadavg()[0] > len(os.sched_getaffinity(0))
        assert look < 0.01 or is_busy, f"a look takes {look * 1000:.1f} ms"
        assert made.counted() == 0


def least_of(program: Path, times: int) -> float:
    """The least time, in seconds by the clock, of a number of calls."""
    found = []
    for _ in range(times):
        began = time.monotonic()
        subprocess.run([program, "show", "a"], check=False, stdin=subprocess.DEVNULL)
        found.append(time.monotonic() - began)
    return min(found)


def test_a_folder_that_cant_be_written() -> None:
    """Whoever can read and not write the checkout runs the program; the look is taken by digests then."""
    with checkout() as made:
        made.run("show", "a")
        (made.folder / "crates/gm_low/src/main.rt").touch()
        os.chmod(made.folder.parent, 0o755)
        words = ["setpriv", "--reuid", "65534", "--clear-groups"] if os.geteuid() == 0 else ["env"]
        (made.folder / "crates/gmr/out").chmod(0o555)
        put_program(made.kit / "as_other", f"exec {' '.join(words)} '{made.folder}/gmr' \"$@\"")
        status, said, errors = made.run("show", "a", program=str(made.kit / "as_other"))
        (made.folder / "crates/gmr/out").chmod(0o755)
        assert (status, said, errors) == (3, "ran show a\n", "") and made.counted() == 1, (status, said, errors)


def test_the_toolchain_is_compared() -> None:
    """Another letter of the kit is said once, another logic is a warning before the build, the known one is no word."""
    with checkout() as made:
        assert "logic" not in made.run("show", "a")[2]
    for line, wanted in (("rattle-kit-14z logic dac8208d650f15bf", "has the same logic, which is what counts"),
                         ("rattle-kit-14z logic 0123456789abcdef", "warning: the toolchain is 'rattle-kit-14z logic")):
        with checkout() as made:
            (made.kit / "version").write_text(line + "\n", encoding="utf-8")
            errors = made.run("show", "a")[2].splitlines()
            assert wanted in errors[0] and "15 minutes" in errors[1], errors
            assert made.run("show", "a") == (3, "ran show a\n", "")
            assert f"on the path is {line}" in made.version() and f"with {line}, by rt ci" in made.version()


def test_unproved_is_kept() -> None:
    """It is built once for its sources; each call says UNPROVED; words, folder and status are the caller's."""
    with checkout() as made:
        status, said, errors = made.run("--unproved", "run", "a.gmap", "/b.gbook", "../c d", "out.gmap")
        assert (status, said) == (3, "ran run a.gmap /b.gbook ../c d out.gmap\n") and UNPROVED in errors, (said, errors)
        assert made.run("--unproved", "grid", "7") == (3, "ran grid 7\n", f"gmr: {UNPROVED}\n")
        status, said, errors = made.run("--unproved", "foo")
        assert (status, said) == (2, "refused usage\n") and UNPROVED in errors and "usage: gmr" in errors
        assert made.run("--unproved") == (0, "", "")
        assert "UNPROVED and built" in made.version() and "proved and built" not in made.version()
        assert len((made.folder / "bench/builds").read_text().split()) == 1 and not made.counted()
        (made.folder / "crates/gm_low/src/main.rt").write_text("fn other() {}\n", encoding="utf-8")
        made.run("--unproved", "grid", "7")
        assert len((made.folder / "bench/builds").read_text().split()) == 2
        (made.folder / "crates/gmr/src/main.rt").write_text("broken\n", encoding="utf-8")
        status, said, errors = made.run("--unproved", "grid", "7")
        assert status == 9 and not said and "error: it is broken" in errors, (status, said, errors)


def test_a_proof_that_fails() -> None:
    """The crate and the end of what was said of it come to standard error, the status is 9, and nothing is kept."""
    with checkout() as made:
        (made.folder / "crates/gm_high/src/main.rt").write_text("wrong\n", encoding="utf-8")
        status, said, errors = made.run("show", "a")
        assert status == 9 and not said and "failed at gm_high" in errors and "it is wrong here" in errors, errors
        assert "nothing is built" in made.version()


def test_two_first_calls() -> None:
    """One builds, the other waits, says so, and takes what was built."""
    with checkout() as made:
        (made.kit / "meanwhile").write_text("sleep 0.5\n", encoding="utf-8")
        calls = [made.start("show", str(number)) for number in range(2)]
        ended = [call.communicate(timeout=60) for call in calls]
        assert [said for said, _ in ended] == ["ran show 0\n", "ran show 1\n"], ended
        assert sum("another call is building it; waiting" in errors for _, errors in ended) == 1, ended
        assert made.counted() == 1


def test_a_killed_build() -> None:
    """A build that is killed leaves no lock behind, and the next one takes what the toolchain has kept of it."""
    with checkout() as made:
        (made.kit / "meanwhile").write_text("[ $crate = gm_low ] || sleep 60\n", encoding="utf-8")
        killed = made.start("show", "a")
        until = time.monotonic() + 40
        while not (made.kit / "kept-gm_high").exists() and time.monotonic() < until:
            time.sleep(0.02)
        os.kill(killed.pid, signal.SIGKILL)
        (made.kit / "meanwhile").unlink()
        began = time.monotonic()
        status, said, errors = made.run("show", "a")
        took = time.monotonic() - began
        os.killpg(killed.pid, signal.SIGKILL)
        killed.communicate(timeout=20)
        assert (status, said) == (3, "ran show a\n") and took < 40, (status, said, errors, took)
        assert "proved earlier, 1 of 3: gm_low" in errors and "waiting" not in errors, errors


def test_a_source_that_changes_meanwhile() -> None:
    """What was proved is what lay there when it began: a change under way is told, and the next call proves anew."""
    with checkout() as made:
        source = made.folder / "crates/gm_low/src/main.rt"
        (made.kit / "meanwhile").write_text(f"echo 'fn other() {{}}' >'{source}'\n", encoding="utf-8")
        status, said, errors = made.run("show", "a")
        assert status == 3 and "a source changed meanwhile" in errors, (status, said, errors)
        assert "crates/gm_low/src/main.rt has changed" in made.version()


def test_what_the_gate_left() -> None:
    """The gate's program counts where its sources are those from before the gate, and not where they changed."""
    with checkout() as made:
        program, log = made.folder / "crates/gmr/out/gmr", made.folder / "log"
        program.parent.mkdir()
        put_program(program, "echo of the gate; exit 3")
        log.write_text("rt: ok; every proof was done in this run\n", encoding="utf-8")
        before = made.run("--sources")[1].strip()
        assert made.run("--record", "0" * 64, str(log))[0] == 9
        assert made.run("--record", before, str(log)) == (0, "", "")
        assert made.run("show", "a") == (3, "of the gate\n", "") and not made.counted()
        assert "by rt ci: every proof was done in this run" in made.version()
        assert made.run("--differences") == (0, "", "")
        (made.folder / "crates/gm_low/src/main.rt").write_text("fn other() {}\n", encoding="utf-8")
        assert made.run("--differences") == (1, "crates/gm_low/src/main.rt has changed\n", "")


# The kit's own comparison, as `rt run` makes it: a stamp is what it was built from and what was built.
KIT_OF_RUN = """
import pathlib, types
def text_of(path): return pathlib.Path(path).read_text()
class Crate:
    def __init__(self, folder, root, known): self.folder = folder
    def stamp(self): return text_of(self.folder + "/src/main.rt")
rtlib = types.SimpleNamespace(Crate=Crate, text_of=text_of, sum_of=text_of)
def read_files(crate): pass
if __name__ == "__main__": print("rattle-kit-13f logic dac8208d650f15bf")
"""


def test_what_rt_run_left() -> None:
    """A program that `rt run` left with a stamp that fits counts as proved over kept work; one with another doesn't."""
    with checkout() as made:
        program = made.folder / "crates/gmr/out/gmr"
        program.parent.mkdir()
        put_program(program, "echo of rt run; exit 3")
        (made.kit / "rt").write_text(f"#!/usr/bin/python3\n{KIT_OF_RUN}", encoding="utf-8")
        stamp = program.with_name("gmr.stamp")
        stamp.write_text("other", encoding="utf-8")
        assert made.run("--differences")[0] == 1
        stamp.write_text((made.folder / "crates/gmr/src/main.rt").read_text() + program.read_text(), encoding="utf-8")
        assert made.run("show", "a") == (3, "of rt run\n", "")
        assert "by rt run, over what earlier checks on this machine kept" in made.version()


def test_tools_say_unproved() -> None:
    """A tool takes the unproved program with --unproved, or by $GMR, and says so each time."""
    with checkout() as made:
        for name in ("python", "tools"):
            shutil.copytree(ROOT / name, made.folder / name, symlinks=True, dirs_exist_ok=True)
        environment = {key: value for key, value in os.environ.items() if key != "GMR"}
        environment["PATH"] = f"{made.kit}:{SYSTEM}"
        for word, named in (("--unproved", {}), ("--quiet", {"GMR": str(made.folder / "out/unproved/gmr")})):
            words = [made.folder / "tools/book", word, "join", "none.gbook", "none.gbook", "--out", "out.gbook"]
            done = subprocess.run(words, env={**environment, **named}, cwd=made.folder, capture_output=True, text=True,
                                  check=False)
            assert "book: what comes is UNPROVED" in done.stderr, done
        assert len((made.folder / "bench/builds").read_text().split()) == 1


def test_through_a_link() -> None:
    """A link on the path finds the program that stands beside what it leads to, and hands the words on."""
    with checkout() as made:
        made.run("show", "a")
        (made.folder / "elsewhere").mkdir()
        (made.folder / "elsewhere" / "link").symlink_to("../gmr")
        assert made.run("show", "a  b", program="elsewhere/link") == (3, "ran show a  b\n", "")

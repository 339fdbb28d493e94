#!/usr/bin/env python3
"""Tests of the project's scripts: ./rowfind, ./ask, those of second/, bench/ and bindings/, and the gate's own counting. A stand-in
for rt, which "proves" in a moment, shows what ./rowfind does while it builds; the gate itself builds with the real one."""
import functools
import importlib.machinery
import importlib.util
import operator
import os
import random
import re
import shutil
import signal
import subprocess
import sys
import tempfile
import time
import unittest
import xml.etree.ElementTree

sys.dont_write_bytecode = True
ROOT = os.path.dirname(os.path.dirname(os.path.realpath(__file__)))
sys.path[:0] = [os.path.join(ROOT, "second"), os.path.join(ROOT, "bench")]

import measure
import plot
import reference
import rowtext
import samples

for name in ("ROWFIND", "CALLS"):
    os.environ.pop(name, None)  # what is tested is what is here

COMMANDS = "bash cat chmod cp dirname env find flock grep head mkdir mktemp mv readlink rm sed sleep".split()

# Makes the one source there is the program. Where the file `slow` is there, it waits for a process, whose number it leaves and
# which only a signal ends; where `held` is there, until it is gone; where `broken` is there, it fails.
STAND_IN = """#!/usr/bin/env bash
cd ../..
echo once >>builds
echo "crate field: modules loaded=0 checked=51"
echo "logic=proved functions=17"
echo working >"$TMPDIR/work"
[ ! -e slow ] || { sleep 1000 & echo $! >sleeper; wait; }
while [ -e held ]; do sleep 0.02; done
[ ! -e broken ] || { echo "fn rowfind::main: not proved"; echo "logic=not-proved"; exit 1; }
echo "crate rowfind: modules loaded=2 checked=9"
echo "logic=proved functions=2"
mkdir -p crates/rowfind/out
{ echo '#!/usr/bin/env bash'; cat crates/rowfind/src/main.rt; } >crates/rowfind/out/rowfind
chmod +x crates/rowfind/out/rowfind
"""


def load(path):
    """A script without the ending .py, as a module."""
    loader = importlib.machinery.SourceFileLoader(os.path.basename(path), os.path.join(ROOT, path))
    module = importlib.util.module_from_spec(importlib.util.spec_from_loader(loader.name, loader))
    loader.exec_module(module)
    return module


def run(words, **settings):
    """(exit status, standard output, standard error)"""
    settings = {"stdin": subprocess.DEVNULL, "stdout": subprocess.PIPE, "stderr": subprocess.PIPE, "timeout": 60, **settings}
    done = subprocess.run(words, check=False, text=True, **settings)
    return done.returncode, done.stdout, done.stderr


def heed_signals():
    """For a process that a test interrupts: in the background, or behind nohup, what starts it may ignore the signal, and it too."""
    for number in (signal.SIGINT, signal.SIGHUP):
        signal.signal(number, signal.SIG_DFL)


def write(path, text):
    os.makedirs(os.path.dirname(path), exist_ok=True)
    with open(path, "w", encoding="utf8") as f:
        f.write(text)
    os.chmod(path, 0o755)


def read(path):
    with open(path, encoding="utf8") as f:
        return f.read()


def wait_for(path, words="", times=1):
    """What a file has, once it has these words so many times."""
    for _ in range(1500):
        if os.path.exists(path) and read(path) and read(path).count(words) >= times:
            return read(path)
        time.sleep(0.02)
    raise AssertionError(f"{path} does not have {words!r} {times} times")


def has_ended(process):
    """Whether a process is gone, or goes within a few seconds."""
    for _ in range(250):
        try:
            if read(f"/proc/{process}/stat").rsplit(")", 1)[1].split()[0] == "Z":
                return True
        except (FileNotFoundError, ProcessLookupError):
            return True
        time.sleep(0.02)
    return False


class Place(unittest.TestCase):
    """A test with a folder of its own, and a path on which stand few commands."""

    def setUp(self):
        self.place = os.path.realpath(tempfile.mkdtemp())
        self.addCleanup(shutil.rmtree, self.place)
        self.bin = os.path.join(self.place, "bin")
        os.mkdir(self.bin)
        for command in COMMANDS:
            os.symlink(shutil.which(command), os.path.join(self.bin, command))
        os.symlink(sys.executable, os.path.join(self.bin, "python3"))
        self.scratch = os.path.join(self.place, "scratch")
        os.mkdir(self.scratch)
        self.environment = {"PATH": self.bin, "TMPDIR": self.scratch}


class Rowfind(Place):
    """The script ./rowfind in a project of one source, with the stand-in for rt."""

    def setUp(self):
        super().setUp()
        self.project = os.path.join(self.place, "project")
        self.source("echo one")
        write(self.path("crates.txt"), "rowfind:\n")
        shutil.copy(os.path.join(ROOT, "rowfind"), self.path("rowfind"))
        write(os.path.join(self.bin, "rt"), STAND_IN)

    def path(self, *names):
        return os.path.join(self.project, *names)

    def source(self, text):
        write(self.path("crates", "rowfind", "src", "main.rt"), text + "\n")

    def asked(self, **settings):
        return run([self.path("rowfind")], env=self.environment, **settings)

    def begun(self, **settings):
        """A use that goes on in the background."""
        settings = {"stdin": subprocess.DEVNULL, "stdout": subprocess.PIPE, "stderr": subprocess.PIPE, **settings}
        return subprocess.Popen([self.path("rowfind")], env=self.environment, preexec_fn=heed_signals, **settings)

    def at_work(self):
        """A use that is building, or whose program is running, and the process that only a signal ends."""
        use = self.begun()
        return use, int(wait_for(self.path("sleeper"), "\n"))

    def builds(self):
        return read(self.path("builds")).count("once")

    def left_behind(self):
        return sorted(name for name in os.listdir(self.path("target")) if name.startswith("rowfind")) + os.listdir(self.scratch)

    def test_the_first_use_builds_and_says_so(self):
        status, answer, said = self.asked()
        self.assertEqual((status, answer), (0, "one\n"))
        lines = said.splitlines()
        self.assertIn("first use", lines[0])
        proved = [re.sub(r"[0-9]+ s", "N s", line) for line in lines[1:]]
        self.assertEqual(proved, ["rowfind: field proved (N s)", "rowfind: rowfind proved (N s)"])
        self.assertEqual(self.left_behind(), ["rowfind-built"])
        self.assertEqual(self.asked(), (0, "one\n", ""))
        self.assertEqual(self.builds(), 1)

    def test_of_several_first_uses_one_builds(self):
        write(self.path("held"), "")
        said = os.path.join(self.place, "said")
        with open(said, "a", encoding="utf8") as errors:
            uses = [self.begun(stderr=errors) for _ in range(3)]
            wait_for(said, "waiting for it", 2)
            os.remove(self.path("held"))
            self.assertEqual([use.communicate(timeout=60)[0] for use in uses], [b"one\n"] * 3)
        self.assertEqual(self.builds(), 1)

    def test_a_changed_source_is_built_again(self):
        self.asked()
        self.source("echo two")
        status, answer, said = self.asked()
        self.assertEqual((status, answer), (0, "two\n"))
        self.assertIn("newer than the program", said)

    def test_an_old_file_in_the_place_of_a_new_one_counts(self):
        self.source("echo two")
        self.asked()
        self.source("echo one")
        os.utime(self.path("crates", "rowfind", "src", "main.rt"), (0, 0))
        self.assertEqual(self.asked()[1], "one\n")

    def test_whatever_else_changes_is_built_again(self):
        extra = self.path("crates", "rowfind", "specs", "Lib.antt")
        changes = [
            lambda: write(self.path("crates.txt"), "rowfind: \n"),
            lambda: write(extra, "new"),
            lambda: os.remove(extra),
            lambda: write(os.path.join(self.bin, "rt"), STAND_IN),
            lambda: write(os.path.join(self.place, "KIT-ID"), "another kit"),
            lambda: os.remove(self.path("target", "bin", "rowfind")),
            lambda: self.environment.update(RATTLE_HOME=self.place),
        ]
        self.asked()
        for k, change in enumerate(changes):
            change()
            self.assertEqual(self.asked()[:2], (0, "one\n"), k)
            self.assertEqual(self.builds(), k + 2, k)

    def test_a_change_during_the_build_is_built_again(self):
        write(self.path("slow"), "")
        use, sleeper = self.at_work()
        os.remove(self.path("slow"))
        self.source("echo two")
        os.kill(sleeper, signal.SIGKILL)
        use.communicate(timeout=60)
        self.asked()
        self.assertEqual(self.builds(), 2)

    def test_what_cannot_be_built_does_not_answer(self):
        self.asked()
        write(self.path("broken"), "")
        self.source("echo two")
        status, answer, said = self.asked()
        self.assertEqual((status, answer), (3, ""))
        self.assertIn("not proved", said)
        self.assertIn("target/rowfind-build.log says why", said.splitlines()[-1])
        os.remove(self.path("broken"))
        self.assertEqual(self.asked()[:2], (0, "two\n"))

    def test_an_interrupt_ends_what_was_started(self):
        write(self.path("slow"), "")
        for number in (signal.SIGINT, signal.SIGTERM, signal.SIGHUP):
            use, sleeper = self.at_work()
            use.send_signal(number)
            answer, said = use.communicate(timeout=60)
            self.assertEqual((use.returncode, answer), (128 + number, b""))
            self.assertEqual(said.splitlines()[-1], b"rowfind: stopped by a signal")
            self.assertTrue(has_ended(sleeper))
            self.assertEqual(self.left_behind(), [])
            os.remove(self.path("sleeper"))

    def test_who_waits_can_be_interrupted_and_leaves_the_build_alone(self):
        write(self.path("slow"), "")
        builder, _ = self.at_work()
        waiter = self.begun()
        self.assertIn(b"waiting", waiter.stderr.readline())
        waiter.send_signal(signal.SIGTERM)
        waiter.communicate(timeout=60)
        self.assertEqual(waiter.returncode, 143)
        self.assertEqual(self.left_behind()[:2], ["rowfind-begun", "rowfind-build.log"])
        builder.terminate()
        builder.communicate(timeout=60)

    def test_an_interrupt_ends_the_program_too(self):
        self.source("echo $$ >sleeper; exec sleep 1000")
        use, sleeper = self.at_work()
        use.terminate()
        use.communicate(timeout=60)
        self.assertEqual(use.returncode, 143)
        self.assertTrue(has_ended(sleeper))

    def test_a_link_to_it_works(self):
        link = os.path.join(self.place, "link to rowfind")
        os.symlink("project/rowfind", link)
        status, answer, _ = run([link], env=self.environment, cwd="/")
        self.assertEqual((status, answer), (0, "one\n"))
        status, answer, _ = run(["bash", "rowfind"], env=self.environment, cwd=self.project)
        self.assertEqual((status, answer), (0, "one\n"))

    def test_without_rt_one_line_says_what_is_missing(self):
        os.remove(os.path.join(self.bin, "rt"))
        status, answer, said = self.asked()
        self.assertEqual((status, answer, len(said.splitlines())), (3, "", 1))
        self.assertIn("the command rt", said)

    def test_without_rt_a_program_that_is_there_answers(self):
        self.asked()
        os.remove(os.path.join(self.bin, "rt"))
        self.assertEqual(self.asked(), (0, "one\n", ""))

    def test_a_lost_answer_has_a_status_of_its_own(self):
        self.asked()
        with open("/dev/full", "w", encoding="utf8") as full:
            status, _, said = self.asked(stdout=full)
        self.assertEqual((status, len(said.splitlines())), (4, 1))
        status, _, said = run(["bash", "-c", "./rowfind >&-"], env=self.environment, cwd=self.project)
        self.assertEqual((status, len(said.splitlines())), (4, 1))

    def test_a_program_that_fails_has_a_status_of_its_own(self):
        for source, words in (("echo one; exit 5", "status 5"), ("kill -9 $$", "status 137"), (":", "no answer")):
            self.source(source)
            status, answer, said = self.asked()
            self.assertEqual((status, answer), (3, ""))
            self.assertIn(words, said.splitlines()[-1])

    def test_closed_streams(self):
        self.source("cat; echo one")
        self.asked()
        for closed in ("<&-", "<&- 2>&-", "</", "2>&-"):
            status, answer, _ = run(["bash", "-c", f"./rowfind {closed}"], env=self.environment, cwd=self.project)
            self.assertEqual((status, answer), (0, "one\n"), closed)

    def test_words_are_refused_and_help_is_given(self):
        status, _, said = run([self.path("rowfind"), "search"], env=self.environment)
        self.assertEqual((status, len(said.splitlines())), (2, 1))
        status, shown, said = run([self.path("rowfind"), "--help"], env=self.environment)
        self.assertEqual((status, said), (0, ""))
        self.assertIn("Exit status", shown)


class Ask(Place):
    """./ask, with programs that stand in for ./rowfind."""

    BRIEF = ["search", "19", "4", "1", "4", "9", "13"]

    def asked(self, words, rowfind=None, **settings):
        environment = dict(os.environ, **({"ROWFIND": rowfind} if rowfind else {}))
        return run([os.path.join(ROOT, "ask"), *words], env=environment, **settings)

    def program(self, text):
        write(os.path.join(self.place, "program"), "#!/usr/bin/env bash\n" + text + "\n")
        return os.path.join(self.place, "program")

    def refused(self, status, words, rowfind=None, **settings):
        """One line, and the status."""
        told, _, said = self.asked(words, rowfind, **settings)
        self.assertEqual((told, said.count("\n"), said[:5]), (status, 1, "ask: "), said)
        return said

    def test_an_answer_in_words(self):
        answer = self.program(f"cat >/dev/null; printf '{reference.WORKED_ANSWER.decode()}'")
        status, shown, said = self.asked(self.BRIEF, answer)
        self.assertEqual((status, said), (0, ""))
        self.assertIn("the lightest row: 1 4 9 13", shown)
        self.assertIn("least count, of equal counts the least depth", shown)
        self.assertEqual(self.asked(self.BRIEF, self.program("printf '     9\\n'"))[0], 1)

    def test_wrong_use(self):
        for words in ("", "find", "search", "search 19", "survey", "survey 4 4", "survey -1", "survey 1e3"):
            self.refused(2, words.split())
        for words in ("gates", "gates 7", "gates --verilog", "gates --verilog 7", "gates --verilog --verilog 7 1 3"):
            self.refused(2, words.split())
        for words in ("gates 7 --verilog 1 3", "gates --vhdl 7 1 3", "check --verilog 7 1 3", "--verilog 7 1 3"):
            self.refused(2, words.split())
        for words in ("circulant", "circulant 7", "circulant 7 x 1", "circulant --verilog 7 2 2 3", "circulants 7 2 2 3"):
            self.refused(2, words.split())
        for words in ("walk", "walk 19", "walk x 4 1", "walk --budget", "walk --budget 1", "walk --budget 1 19", "walk --budget x 19 4 1"):
            self.refused(2, words.split())
        for words in ("walk --budget 1000000 19 4 1", "walk --budget -1 19 4 1", "walk 19 --budget 1 4 1", "search --budget 1 19 4 1"):
            self.refused(2, words.split())
        for word in ("1000000", "9" * 5000, "0x" + "f" * 5000, "x" * 5000, "1\n2", "\udcff"):
            self.assertLess(len(self.refused(2, ["survey", word])), 120)
        self.refused(2, ["search", "19", "4"] + ["1"] * 672)
        self.refused(2, ["walk", "19", "4"] + ["1"] * 671)

    def test_help_wherever_it_is_asked_for(self):
        for words in (["--help"], ["-h"], ["search", "--help"], ["survey", "4", "-h"]):
            status, shown, said = self.asked(words)
            self.assertEqual((status, said), (0, ""))
            self.assertIn("./ask search POLYNOMIAL", shown)
            self.assertIn("./ask circulant POLYNOMIAL", shown)
            self.assertIn("./ask walk POLYNOMIAL", shown)
            self.assertIn("./ask walk --budget ROWS POLYNOMIAL", shown)

    def test_what_is_no_program(self):
        write(os.path.join(self.place, "text"), "no program")
        for path in ("/", self.place, os.path.join(self.place, "nothing"), os.path.join(self.place, "text"), "/dev/null"):
            self.refused(3, self.BRIEF, path)

    def test_a_program_that_fails(self):
        for text, words in (("exit 5", "status 5"), ("kill -9 $$", "signal 9"), ("printf '     9\\n'; exit 1", "status 1")):
            self.assertIn(words, self.refused(3, self.BRIEF, self.program(text)))

    def test_what_is_no_answer_text(self):
        worked = reference.WORKED_ANSWER.decode()
        texts = ["", "hello", "     9", "     0\n", "    10\n", "     9\n     9\n", "     0     5     1     1    72\n"]
        texts += [worked[:-1], worked + worked, worked.replace("    18", "   018"), worked.replace("    13", "")]
        for text in texts:
            said = self.refused(3, self.BRIEF, self.program(f"cat >/dev/null; printf '{text}'"))
            self.assertIn("something else than an answer text", said)
        self.refused(3, self.BRIEF, self.program("exec cat"))
        self.refused(3, self.BRIEF, self.program("while :; do echo yes; done"))
        self.refused(3, ["survey", "4"], self.program("printf '     0     2\\n    19    68   416\\n'"))
        for lines in ("    13    15    47\\n    11    15    47", "    11    15    47\\n    11    15    47"):
            self.refused(3, ["survey", "3"], self.program(f"printf '     0     2\\n{lines}\\n'"))

    def test_a_lost_answer(self):
        answer = self.program("printf '     9\\n'")
        with open("/dev/full", "w", encoding="utf8") as full:
            self.refused(4, self.BRIEF, answer, stdout=full)
        reader, writer = os.pipe()
        os.close(reader)
        self.refused(4, self.BRIEF, answer, stdout=writer)
        os.close(writer)
        words = " ".join([os.path.join(ROOT, "ask"), *self.BRIEF, ">&-"])
        status, _, said = run(["bash", "-c", words], env=dict(os.environ, ROWFIND=answer))
        self.assertEqual((status, said.count("\n")), (4, 1))

    def test_an_interrupt(self):
        sleeper = os.path.join(self.place, "sleeper")
        program = self.program(f"echo $$ >{sleeper}; exec sleep 1000")
        for number in (signal.SIGINT, signal.SIGTERM):
            settings = {"env": dict(os.environ, ROWFIND=program), "stdout": subprocess.DEVNULL, "stderr": subprocess.PIPE}
            asking = subprocess.Popen([os.path.join(ROOT, "ask"), *self.BRIEF], preexec_fn=heed_signals, **settings)
            process = int(wait_for(sleeper, "\n"))
            asking.send_signal(number)
            _, said = asking.communicate(timeout=60)
            self.assertEqual((asking.returncode, said), (128 + number, b"ask: interrupted\n"))
            self.assertTrue(has_ended(process))
            os.remove(sleeper)


class Circulant(Place):
    """./ask circulant, by the second program, whose rows are those of ./rowfind, as second/compare shows."""

    BRIEF = "283 4 1 2 3".split()

    def asked(self, words, rowfind=rowtext.SECOND):
        return run([os.path.join(ROOT, "ask"), "circulant", *words], env=dict(os.environ, ROWFIND=rowfind))

    def test_a_row_in_words(self):
        status, shown, said = self.asked(self.BRIEF)
        self.assertEqual((status, said), (0, ""))
        asked, answer = shown.split("answer\n")
        self.assertEqual(asked, "request\n" + reference.CIRCULANT_REQUEST.decode())
        lines = [line.split("  | ") for line in answer.splitlines()]
        self.assertEqual([raw for raw, _ in lines[:2]], reference.CIRCULANT_ANSWER.decode().splitlines())
        words = [word for _, word in lines]
        self.assertEqual(words[:2], ["the lightest row: 1 1 2 3", "in hexadecimal: 0x1 0x1 0x2 0x3"])
        self.assertEqual(words[-1], "at line i, column j of the matrix stands the row's element at (j - i) modulo 4")
        self.assertIn("XOR count of the whole matrix: 152", words)

    def test_every_order(self):
        for n in range(2, 8):
            row = self.asked(["283", str(n), "1", "0x2", "3", "4", "6"])[1].split("the lightest row: ")[1].split("\n")[0].split()
            self.assertEqual(len(row), n)

    def test_a_refusal(self):
        briefs = ("3 2 1", "21 2 1", "19 1 1", "19 9 1", "19 2", "19 8 1 2 3 4 5 6 7 8 9", "19 2 16", "19 2 1 0", "19 2 1 1", "19 2 1")
        for words, number in zip(briefs, (3, 4, 5, 5, 6, 6, 7, 8, 8, 9)):
            status, shown, said = self.asked(words.split())
            self.assertEqual((status, said), (1, ""))
            self.assertIn(f"refused with {number}: {rowtext.MEANINGS[number]}", shown)

    def test_what_is_no_answer_text(self):
        program, answer = os.path.join(self.place, "program"), reference.CIRCULANT_ANSWER.decode()
        texts = [answer[:25], answer[25:], answer[:-7] + "\n", answer[:-1] + "     4\n", answer + answer[25:], "     0\n", "    10\n"]
        for text in texts:
            write(program, f"#!/usr/bin/env bash\ncat >/dev/null\nprintf '{text}'\n")
            status, _, said = self.asked(self.BRIEF, program)
            self.assertEqual((status, said.count("\n")), (3, 1), text)
            self.assertIn("something else than an answer text", said)

    def test_the_example(self):
        example = read(os.path.join(ROOT, "examples", "circulant.txt"))
        self.assertEqual(example, reference.CIRCULANT_REQUEST.decode())
        self.assertTrue("./ask circulant " + " ".join(self.BRIEF) + "\n" in read(os.path.join(ROOT, "README.md")))

    def test_the_proved_program_gives_the_same_row(self):
        for words in (self.BRIEF, "7 2 3 2".split(), "19 4 1".split(), "283 8 1 2 3 4 5 6 7 8".split()):
            self.assertEqual(run([os.path.join(ROOT, "ask"), "circulant", *words], timeout=600), self.asked(words))


class Walk(Place):
    """./ask walk, by the second program, whose walks are those of ./rowfind, as second/compare shows."""

    BRIEF = "--budget 1 19 4 1 4 9 13".split()
    EXAMPLE = ["--budget", "300", "19", "4", *map(str, range(1, 16))]

    def asked(self, words, rowfind=rowtext.SECOND):
        return run([os.path.join(ROOT, "ask"), "walk", *words], env=dict(os.environ, ROWFIND=rowfind))

    def words(self, words):
        """The words beside the answer of a walk that is accepted."""
        status, shown, said = self.asked(words.split())
        self.assertEqual((status, said), (0, ""))
        return [line.split("  | ")[1] for line in shown.split("answer\n")[1].splitlines()]

    def test_the_best_row_yet_in_words(self):
        status, shown, said = self.asked(self.EXAMPLE)
        self.assertEqual((status, said), (0, ""))
        asked, answer = shown.split("answer\n")
        self.assertEqual(asked, "request\n" + reference.EXAMPLE_WALK.decode())
        lines = [line.split("  | ") for line in answer.splitlines()]
        self.assertEqual([raw.rstrip() for raw, _ in lines[:2]], reference.EXAMPLE_WALK_ANSWER.decode().splitlines())
        words = [word for _, word in lines]
        self.assertEqual(words[:3], ["rows tried: 300 of 32760", "the best row yet: 1 2 4 6", "in hexadecimal: 0x1 0x2 0x4 0x6"])
        self.assertIn("of the rows tried it has the least count, of equal counts the least depth", words[3])
        self.assertEqual(words[4:6], ["XOR count of the row, with the sums: 20", "bound: no row of different candidates counts less than 16"])
        self.assertIn("not finished: a larger budget", words[6])
        self.assertEqual(words[7:], ["next: --budget 32760 tries them all"])

    def test_the_bound_that_is_reached(self):
        words = self.words(" ".join(self.BRIEF))
        self.assertIn("the bound is reached", words[-3])
        self.assertEqual([words[0], words[-1]], ["rows tried: 1 of 24", "next: --budget 24 tries them all"])

    def test_a_finished_walk(self):
        for budget in ("--budget 24", "--budget 25", "--budget 0xffff", ""):
            words = self.words(f"{budget} 19 4 0xd 9 4 1")
            self.assertEqual(words[:2], ["rows tried: 24 of 24", "the lightest row: 1 4 9 13"])
            self.assertTrue(words[3].startswith("it has the least count"))
            self.assertTrue(words[-1].startswith("finished: every row has been tried"))
            self.assertFalse(any("next" in word or "is reached" in word for word in words))

    def test_no_row_yet(self):
        words = self.words("--budget 0 19 4 1 2 4 8")
        self.assertEqual(words[:2], ["rows tried: 0 of 24", "no row yet: none of those tried is MDS and an involution"])
        self.assertEqual(words[2], "bound: no row of different candidates counts less than 18")
        self.assertEqual(words[-1], "next: --budget 24 tries them all")

    def test_more_rows_than_the_largest_budget(self):
        sixteen = " ".join(map(str, range(1, 17)))
        words = self.words(f"283 8 {sixteen}")
        self.assertEqual([words[0], words[1]], ["rows tried: 999999 of 518918400", "the best row yet: 1 2 3 9 4 10 8 14"])
        self.assertEqual(words[-1], "next: no budget is larger; ./ask search finds the lightest of all rows")
        words = self.words(f"--budget 10 283 8 {sixteen}")
        self.assertEqual(words[-1], "next: the largest budget is 999999; ./ask search finds the lightest of all rows")

    def test_a_refusal(self):
        briefs = ("3 4 1", "21 4 1", "19 5 1", "19 4", "283 8 " + "1 " * 17, "19 4 16", "19 4 1 0", "19 4 1 1", "19 4 1 2 4 8", "19 4 1 4 9")
        for words, number in zip(briefs, (3, 4, 5, 6, 6, 7, 8, 8, 9, 9)):
            for budget in ("", "--budget 24 "):
                status, shown, said = self.asked((budget + words).split())
                self.assertEqual((status, said), (1, ""))
                self.assertIn(f"refused with {number}: {rowtext.MEANINGS[number]}", shown)
        self.assertIn("refused with 9", self.asked("--budget 0 19 4 1 4 9".split())[1])

    def test_what_is_no_answer_text(self):
        program, answer = os.path.join(self.place, "program"), reference.WALK_ANSWER.decode()
        head, row = answer[:31], answer[31:]
        texts = [head, row, answer[:-7] + "\n", answer[:-1] + "     4\n", answer + row, "     0\n", "    10\n", reference.WORKED_ANSWER.decode()]
        texts += [text + row for text in ("     0     1     1    18    18\n", "     0     0     2    18    18\n", "     0     0     0    18    18\n")]
        texts += [text + row for text in ("     0     0     1    17    18\n", "     0     0     1999999    18\n", "     0     2     1    18    18\n")]
        texts += [head + "     0     0     0     0\n"]
        for text in texts:
            write(program, f"#!/usr/bin/env bash\ncat >/dev/null\nprintf '{text}'\n")
            status, _, said = self.asked(self.BRIEF, program)
            self.assertEqual((status, said.count("\n")), (3, 1), text)
            self.assertIn("something else than an answer text", said)
        write(program, f"#!/usr/bin/env bash\ncat >/dev/null\nprintf '{answer}'\n")
        self.assertEqual(self.asked(self.BRIEF, program)[0], 0)
        # The same answer to another budget, or a finished walk without a row.
        self.assertEqual(self.asked("--budget 2 19 4 1 4 9 13".split(), program)[0], 3)
        write(program, "#!/usr/bin/env bash\nprintf '     0     1    24999999    18\\n     0     0     0     0\\n'\n")
        self.assertEqual(self.asked("19 4 1 4 9 13".split(), program)[0], 3)

    def test_the_example(self):
        self.assertEqual(read(os.path.join(ROOT, "examples", "walk.txt")), reference.EXAMPLE_WALK.decode())

    def test_the_readme_shows_the_example(self):
        page = read(os.path.join(ROOT, "README.md"))
        self.assertTrue("./ask walk " + " ".join(self.EXAMPLE) + "\n" in page)
        self.assertTrue(self.asked(self.EXAMPLE)[1] in page)

    def test_the_proved_program_gives_the_same_walk(self):
        for words in (self.BRIEF, self.EXAMPLE, "--budget 23 19 4 1 2 4 8".split(), "19 4 1 2 4 8".split(), "415 8 22 23 52 53 74 75 104 105 146".split()):
            self.assertEqual(run([os.path.join(ROOT, "ask"), "walk", *words], timeout=600), self.asked(words))


class Verilog:
    """A module of the few forms that ./ask writes, read strictly: ValueError at anything else. Each wire is declared once, each
    wire and each output bit is assigned once, and only what is an input bit or assigned already is read."""

    TEXT = re.compile(r"((?:// .*\n)+)module mixing_layer \(\n((?:.*\n)*?)\);\n((?:.*\n)*)endmodule\n")
    PORT = re.compile(r"    (input|output) \[([0-9]+):0\] ([xy])([0-9]+)(,?)")
    WIRES = re.compile(r"    wire (g[0-9]+(?:, g[0-9]+)*);")
    BIT = r"x[0-9]+\[[0-9]+\]|g[0-9]+"
    GATE = re.compile(rf"    assign (g[0-9]+) = ({BIT}) \^ ({BIT});")
    OUTPUT = re.compile(rf"    assign (y[0-9]+\[[0-9]+\]) = ({BIT}|1'b0);")

    def __init__(self, text):
        parts = self.matched(self.TEXT, text)
        self.head, ports, body = parts[0], parts[1].splitlines(), parts[2].splitlines()
        self.read_ports([self.matched(self.PORT, port) for port in ports])
        self.wires, self.gates, self.carriers, self.known = [], {}, {}, set(self.bits("x"))
        for line in body:
            self.read_line(line)
        if list(self.gates) != self.wires or sorted(self.carriers) != sorted(self.bits("y")):
            raise ValueError("the wires that are declared, or the output bits, are not those that are assigned")

    @staticmethod
    def matched(pattern, text):
        found = pattern.fullmatch(text)
        if not found:
            raise ValueError(f"not of the subset: {text[:80]!r}")
        return found.groups()

    def read_ports(self, ports):
        n = len(ports) // 2
        expected = [("input", "x", k) for k in range(n)] + [("output", "y", k) for k in range(n)]
        if [(way, letter, int(k)) for way, _, letter, k, _ in ports] != expected or len({port[1] for port in ports}) != 1:
            raise ValueError("other ports than x0, x1, .. and y0, y1, .. of one width")
        if [port[4] for port in ports] != [","] * (len(ports) - 1) + [""]:
            raise ValueError("commas between the ports")
        self.order, self.degree = n, int(ports[0][1]) + 1

    def bits(self, letter):
        return [f"{letter}{i}[{j}]" for i in range(self.order) for j in range(self.degree)]

    def read_line(self, line):
        if self.WIRES.fullmatch(line):
            self.wires += self.matched(self.WIRES, line)[0].split(", ")
        elif self.GATE.fullmatch(line):
            name, *joined = self.matched(self.GATE, line)
            self.assign(self.gates, name, joined, self.known)
            self.known.add(name)
        else:
            name, carrier = self.matched(self.OUTPUT, line)
            self.assign(self.carriers, name, [carrier], self.known | {"1'b0"})

    def assign(self, place, name, sources, known):
        if name in place or not known.issuperset(sources):
            raise ValueError(f"{name} is assigned twice, or reads what is not there")
        place[name] = sources

    def output(self, words):
        """The output words for an input."""
        value = {name: words[k // self.degree] >> k % self.degree & 1 for k, name in enumerate(self.bits("x"))}
        value["1'b0"] = 0
        for name, (one, other) in self.gates.items():
            value[name] = value[one] ^ value[other]
        bits = [value[self.carriers[name][0]] for name in self.bits("y")]
        return [sum(bit << j for j, bit in enumerate(bits[k : k + self.degree])) for k in range(0, len(bits), self.degree)]


def rows_of(count, n):
    """How many rows of n different candidates there are, of so many."""
    return functools.reduce(operator.mul, range(count - n + 1, count + 1), 1) if count >= n else 0


def product(p, n, entries, words):
    """The matrix product, by definition."""
    terms = lambda i: [rowtext.field_product(p, a, x) for a, x in zip(entries[n * i : n * i + n], words)]
    return [functools.reduce(operator.xor, terms(i)) for i in range(n)]


class Gates(Place):
    """./ask gates, by the second program, whose lists are those of ./rowfind, as second/compare shows."""

    FIPS = (283, 4, rowtext.circulant([2, 3, 1, 1]))
    HEAVIEST = (395, 8, [251] * 64)
    FEW = [(7, 2, [2, 3, 0, 1]), (7, 1, [3]), (7, 1, [0]), (19, 4, rowtext.hadamard([1, 4, 9, 13])), FIPS]

    def asked(self, words, rowfind=rowtext.SECOND, **settings):
        return run([os.path.join(ROOT, "ask"), "gates", *words], env=dict(os.environ, ROWFIND=rowfind), **settings)

    def module(self, p, n, entries):
        """The text of a module."""
        status, shown, said = self.asked(["--verilog", *map(str, [p, n, *entries])])
        self.assertEqual((status, said), (0, ""))
        return shown

    def matrices(self):
        """Matrices of every degree and order, sparse and dense."""
        dice = random.Random(1)
        yield from self.FEW
        for k, percent in enumerate(range(0, 101, 5)):
            p, n = dice.choice(samples.OF_DEGREE[2 + k % 7]), 1 + k % 8
            yield p, n, samples.of_density(dice, p, n, percent)
        yield self.HEAVIEST

    def inputs(self, p, n):
        dice = random.Random(2)
        return [[dice.randrange(1 << rowtext.degree(p)) for _ in range(n)] for _ in range(20)]

    def test_a_list_in_words(self):
        status, shown, said = self.asked("7 2 2 3 0 1".split())
        self.assertEqual((status, said), (0, ""))
        answer = shown.split("answer\n")[1].splitlines()
        words = [line.split("| ")[1] for line in answer]
        self.assertEqual([line.split("  |")[0].rstrip() for line in answer], reference.TWO_LINES_GATES.decode().splitlines())
        self.assertEqual(words[0], "two-input XOR gates: 4")
        self.assertEqual(words[1:3], ["g4 joins x0[1] and x1[0]", "g5 joins g4 and x1[1]"])
        carriers = {"y0[0]": "g5", "y0[1]": "g7", "y1[0]": "x1[0]", "y1[1]": "x1[1]"}
        self.assertEqual(words[5:], [f"{output} is carried by {by}" for output, by in carriers.items()])
        self.assertIn("y0[1] is always 0", self.asked("7 1 0".split())[1])

    def test_verilog_gives_the_product(self):
        for p, n, entries in self.matrices():
            module = Verilog(self.module(p, n, entries))
            self.assertEqual((module.order, module.degree), (n, rowtext.degree(p)))
            for words in self.inputs(p, n):
                self.assertEqual(module.output(words), product(p, n, entries, words), (p, n, entries, words))

    def test_the_head_names_the_matrix(self):
        head = Verilog(self.module(7, 2, [2, 3, 0, 1])).head
        self.assertIn("over the polynomial 7, M of order 2: 2 3 / 0 1\n", head)
        self.assertIn("XOR gates: 4\n", head)
        self.assertEqual(len(Verilog(self.module(*self.FIPS)).gates), 152)

    def test_the_reader_of_verilog_is_strict(self):
        text = self.module(7, 2, [2, 3, 0, 1])
        changes = (
            ("g4 =", "g3 ="), ("^", "&"), ("x1[1]", "x1[2]"), ("x0[1] ^", "x2[0] ^"), ("= g5", "= g8"), ("g4 ^", "g5 ^"),
            ("y0[0]", "y0[1]"), ("    assign y1[1] = x1[1];\n", ""), ("    wire", "    reg"), ("endmodule", "endmodule;"),
            ("g4, g5", "g4, g4, g5"), ("g4, g5", "g4, g5, g9"), ("input [1:0] x1", "input [2:0] x1"), ("    assign g4", "assign g4"),
        )
        for old, new in changes:
            self.assertIn(old, text)
            with self.assertRaises(ValueError, msg=(old, new)):
                Verilog(text.replace(old, new, 1))

    @unittest.skipUnless(shutil.which("iverilog") and shutil.which("vvp"), "iverilog is not installed")
    def test_a_simulator_gives_the_product(self):
        for p, n, entries in [*self.FEW, self.HEAVIEST]:
            inputs, m = self.inputs(p, n), rowtext.degree(p)
            write(os.path.join(self.place, "layer.v"), self.module(p, n, entries))
            write(os.path.join(self.place, "bench.v"), self.bench(n, m, inputs))
            built = run(["iverilog", "-Wall", "-g2001", "-o", "bench", "layer.v", "bench.v"], cwd=self.place)
            self.assertEqual(built, (0, "", ""))
            shown = run(["vvp", "-n", "bench"], cwd=self.place)[1]
            told = [[int(word) for word in line.split()] for line in shown.splitlines()]
            self.assertEqual(told, [product(p, n, entries, words) for words in inputs])

    @unittest.skipUnless(all(map(shutil.which, ("iverilog", "vvp", "yosys"))), "iverilog or yosys is not installed")
    def test_what_the_readme_tells_a_layout_team(self):
        page = read(os.path.join(ROOT, "README.md"))
        commands = re.search(r"```\n(\./ask gates --verilog 283 .*?)```", page, re.DOTALL).group(1)
        environment = dict(os.environ, ROWFIND=rowtext.SECOND)
        self.assertEqual(run(["bash", "-ec", commands], env=environment, cwd=ROOT), (0, "0 differences\n", ""))

    def bench(self, n, m, inputs):
        """A test bench that prints the output words for each input."""
        ports = ", ".join(f".{word}({word})" for k in range(n) for word in (f"x{k}", f"y{k}"))
        shown = f'#1 $display("{" ".join(["%0d"] * n)}", {", ".join(f"y{k}" for k in range(n))});'
        steps = [" ".join(f"x{k} = {word};" for k, word in enumerate(words)) + " " + shown for words in inputs]
        declared = [f"reg [{m - 1}:0] x{k}; wire [{m - 1}:0] y{k};" for k in range(n)]
        head = ["module bench;", *declared, f"mixing_layer layer ({ports});", "initial begin"]
        return "\n".join([*head, *steps, "end", "endmodule", ""])

    def test_a_refusal(self):
        for words, number in (("3 1 1", 3), ("21 1 1", 4), ("7 9 1", 5), ("7 2 1", 6), ("7 1 4", 7)):
            status, shown, said = self.asked(words.split())
            self.assertEqual((status, said), (1, ""))
            self.assertIn(f"refused with {number}: {rowtext.MEANINGS[number]}", shown)
            refused = f"ask: refused with {number}: {rowtext.MEANINGS[number]}\n"
            self.assertEqual(self.asked(["--verilog", *words.split()]), (1, "", refused))

    def test_what_is_no_gate_list(self):
        text = reference.TWO_LINES_GATES.decode()
        changes = (
            ("     0     4", "     0     3"), ("     0     4", "     0     5"), ("     0     4\n", "     0     4     0\n"),
            ("     1     2", "     2     2"), ("     1     2", "     1     2     3"), ("     4     3", "     5     3"),
            ("     4     3", "     4     8"), ("     4     3\n", ""), ("     7\n", "     8\n"), ("     7\n", "999998\n"),
            ("     7\n", ""), ("     7\n", "     7     2\n"), ("     7\n", "    07\n"), (text, text + "     1\n"),
            (text, text[:-1]), (text, ""), (text, "     0     0\n"), (text, "     2     4\n"), (text, "    10\n"),
        )
        program = os.path.join(self.place, "program")
        for old, new in changes:
            self.assertIn(old, text)
            write(program, f"#!/usr/bin/env bash\ncat >/dev/null\nprintf '{text.replace(old, new, 1)}'\n")
            for words in ("7 2 2 3 0 1", "--verilog 7 2 2 3 0 1"):
                status, shown, said = self.asked(words.split(), program)
                self.assertEqual((status, said.count("\n"), shown[:7] in ("", "request")), (3, 1, True), (old, new))
                self.assertIn("something else than an answer text", said)
                self.assertTrue(shown == "" or "--verilog" not in words)

    def test_a_list_of_another_matrix_is_none(self):
        program = os.path.join(self.place, "program")
        write(program, f"#!/usr/bin/env bash\nprintf '{reference.TWO_LINES_GATES.decode()}'\n")
        for words in ("7 1 1", "11 2 2 3 0 1", "7 4 " + "1 " * 16, "0 2 2 3 0 1", "1 2 1 1 1 1", "7 0"):
            self.assertEqual(self.asked(words.split(), program)[0], 3, words)

    def test_a_lost_module(self):
        with open("/dev/full", "w", encoding="utf8") as full:
            status, _, said = self.asked("--verilog 7 1 3".split(), stdout=full)
        self.assertEqual((status, said.count("\n")), (4, 1))

    def test_the_proved_program_gives_the_same_module(self):
        words = [os.path.join(ROOT, "ask"), "gates", "--verilog", *map(str, [self.FIPS[0], self.FIPS[1], *self.FIPS[2]])]
        self.assertEqual(run(words, timeout=600)[:2], (0, self.module(*self.FIPS)))


class Comparison(Place):
    """The scripts that compare."""

    def told(self, words, status=2, **environment):
        """The one line of a script that gives up."""
        told, _, said = run([os.path.join(ROOT, words[0]), *words[1:]], env=dict(os.environ, **environment))
        self.assertEqual((told, said.count("\n")), (status, 1), said)
        return said

    def test_the_second_program_is_not_compared_with_itself(self):
        copy = shutil.copy(rowtext.SECOND, self.place)
        for program in (rowtext.SECOND, copy):
            for script in ("second/cases", "second/compare", "second/sources", "bench/run", "bench/walks"):
                self.assertIn("compared with itself", self.told([script], ROWFIND=program))

    def test_no_program_to_compare(self):
        for script in ("second/cases", "second/compare"):
            self.told([script], ROWFIND=self.place)
            self.assertIn("status 1", self.told([script], ROWFIND=shutil.which("false")))

    def test_no_part_of_that_name(self):
        for script in ("second/compare", "second/calls"):
            self.assertIn("no part 'nothing'", self.told([script, "nothing"]))

    def test_a_missing_command_is_named(self):
        for script, command in (("second/compare", "cargo"), ("second/calls", "cargo"), ("bench/run", "cargo"), ("bench/walks", "cargo")):
            self.assertIn(f"the command {command}", self.told([script], PATH=self.bin))

    def test_without_rt_one_line_says_what_is_missing(self):
        project = os.path.join(self.place, "project")
        for name in ("second", "bindings"):
            shutil.copytree(os.path.join(ROOT, name), os.path.join(project, name))
        shutil.copy(os.path.join(ROOT, "rowfind"), project)
        status, shown, said = run([os.path.join(project, "second", "cases")], env=self.environment)
        self.assertEqual((status, shown, said.count("\n")), (2, "", 1), said)
        self.assertIn("the command rt", said)

    def test_a_status_of_the_program_counts(self):
        program = os.path.join(self.place, "program")
        for ending in ("exit 1", "exit 255", "kill -9 $$"):
            write(program, f"#!/usr/bin/env bash\nprintf '{reference.WORKED_ANSWER.decode()}'\n{ending}\n")
            self.assertNotEqual(rowtext.run(program, reference.WORKED_REQUEST), reference.WORKED_ANSWER)

    def test_reads_that_are_to_fail_do_fail(self):
        for opened in (rowtext.directory(), rowtext.closed(), rowtext.failing_behind(b""), rowtext.failing_behind(b"text")):
            with opened as source:
                done = subprocess.run(["cat"], stdout=subprocess.PIPE, stderr=subprocess.PIPE, check=False, **source)
            self.assertEqual(done.returncode, 1, done.stderr)

    def test_a_wrong_gate_list_is_seen(self):
        compare, right = load("second/compare"), reference.TWO_LINES_GATES
        inputs = compare.inputs_of(random.Random(1), 7, 2)
        outputs = [product(7, 2, [2, 3, 0, 1], words) for words in inputs]
        self.assertEqual(compare.list_fault(7, 2, right, inputs, outputs), "")
        changes = (
            (b"     1     2", b"     0     2"), (b"     4     3", b"     4     4"), (b"     5\n", b"     4\n"), (b"     7\n", b"999999\n"),
            (b"     0     4", b"     0     5"), (right, b"     9\n"), (right, b"ended by signal 9"),
        )
        for old, new in changes:
            self.assertIn(old, right)
            self.assertTrue(compare.list_fault(7, 2, right.replace(old, new, 1), inputs, outputs), (old, new))

    def test_products_are_those_of_the_definition(self):
        compare, dice = load("second/compare"), random.Random(3)
        for p, n in ((7, 1), (19, 3), (67, 5), (283, 8)):
            entries, inputs = samples.dense(dice, p, n), compare.inputs_of(dice, p, n)
            told = compare.second_products([compare.product_record(p, n, entries, words) for words in inputs])
            self.assertEqual([list(words[:n]) for words in told], [product(p, n, entries, words) for words in inputs])

    def test_gates_and_check_of_a_matrix_are_held_together(self):
        compare, entries = load("second/compare"), [2, 3, 0, 1]
        check, gates = (rowtext.request(kind, 7, 2, entries) for kind in (rowtext.CHECK, rowtext.GATES))
        counted = rowtext.line([0, 2, 0, 0, 4])
        for of_check, of_gates, differ in (
            (counted, reference.TWO_LINES_GATES, 0), (rowtext.line([7]), rowtext.line([7]), 0),
            (rowtext.line([0, 2, 0, 0, 5]), reference.TWO_LINES_GATES, 1), (rowtext.line([7]), rowtext.line([6]), 1),
            (counted, rowtext.line([7]), 1), (rowtext.line([7]), reference.TWO_LINES_GATES, 1), (counted, counted, 1),
        ):
            self.assertEqual(len(list(compare.differing_kinds({check: of_check, gates: of_gates}))), differ, (of_check, of_gates))

    def test_where_depth_decides_is_seen(self):
        compare = load("second/compare")
        texts = [rowtext.request(rowtext.SEARCH, p, 4, list(range(1, 16))) for p in (19, 31)]
        self.assertEqual([compare.is_decided(text) for text in texts], [False, True])
        parts, expected = ["ties_of_order_four", "ties_of_order_four", "sizes"], [rowtext.line([0])] * 3
        decided = compare.decided_by_depth(parts, [*texts, texts[1]], expected)
        self.assertEqual(decided, dict.fromkeys(compare.LEAST_DECIDED, 0) | {"ties_of_order_four": 1})
        self.assertEqual(len(list(compare.too_few(decided))), 4)
        self.assertEqual(len(list(compare.too_few(dict(decided, ties_of_order_four=1000)))), 3)
        self.assertEqual(list(compare.too_few(compare.LEAST_DECIDED)), [])

    def test_sets_with_ties_have_them(self):
        compare, dice = load("second/compare"), random.Random(5)
        for m, n in ((4, 4), (6, 4), (8, 4), (8, 8)):
            drawn = [samples.tied(dice, m, n) for _ in range(8)]
            decided = [compare.is_decided(rowtext.request(rowtext.SEARCH, p, n, candidates)) for p, candidates in drawn]
            self.assertGreater(sum(decided), 2, (m, n))

    def test_circulant_sets_with_ties_have_them(self):
        compare, dice = load("second/compare"), random.Random(5)
        texts = [rowtext.request(rowtext.CIRCULANT, 19, 2, candidates) for candidates in ([2, 3], [2, 3, 6])]
        self.assertEqual([compare.is_decided(text) for text in texts], [False, True])
        for m, n in ((4, 3), (6, 2), (7, 3), (8, 4)):
            drawn = [samples.tied_circulant(dice, m, n) for _ in range(8)]
            texts = [rowtext.request(rowtext.CIRCULANT, p, n, candidates) for p, candidates in drawn]
            accepted = [text for text in texts if rowtext.run(rowtext.SECOND, text).startswith(compare.ACCEPTED)]
            self.assertGreater(sum(map(compare.is_decided, accepted)), 2, (m, n))

    def test_a_wrong_circulant_row_is_seen(self):
        compare, server, right = load("second/compare"), rowtext.Server(), reference.CIRCULANT_ANSWER
        self.addCleanup(server.close)
        self.assertEqual(compare.circulant_fault(server, 283, 4, right), "")
        # An involution of order 2 is none of the faults.
        self.assertEqual(compare.circulant_fault(server, 7, 2, rowtext.line([0, 2, 4, 8]) + rowtext.line([2, 3])), "")
        changes = (
            (b"   152", b"   153"), (b"     2     3", b"     2     2"), (b"     3\n", b"\n"), (b"     3\n", b"     3     1\n"),
            (b"\n     1", b"     1"), (b"     3\n", b"   256\n"), (right, right + right), (right, b"ended by signal 9"), (right, b"     0\n"),
        )
        for old, new in changes:
            self.assertIn(old, right)
            self.assertTrue(compare.circulant_fault(server, 283, 4, right.replace(old, new, 1)), (old, new))

    def test_where_depth_decides_a_walk_is_seen(self):
        compare, dice = load("second/compare"), random.Random(5)
        texts = [compare.walk(31, 4, list(range(1, 16)), budget) for budget in (0, 131, 132, 32760)]
        self.assertEqual([compare.is_decided(text) for text in texts], [False, False, True, True])
        for m in (4, 6, 8):
            drawn = [samples.tied(dice, m, 4) for _ in range(8)]
            texts = [compare.walk(p, 4, candidates, 360) for p, candidates in drawn]
            accepted = [text for text in texts if rowtext.run(rowtext.SECOND, text).startswith(compare.ACCEPTED)]
            self.assertGreater(sum(map(compare.is_decided, accepted)), 2, m)

    def test_every_search_comes_as_a_walk(self):
        compare, worked = load("second/compare"), reference.WORKED_REQUEST
        asked = compare.as_walk(worked)
        self.assertEqual((asked[:24], asked[30:]), (b"     6" + worked[6:24], worked[24:]))
        self.assertEqual(compare.without_budget(asked), worked)
        for damaged in (worked[:-1], worked[:24], worked[:7], b"     1", b"     1    19     x     4\n", b"     1    19     4     y\n"):
            self.assertEqual(compare.as_walk(damaged), compare.as_walk(damaged))
            self.assertTrue(compare.as_walk(damaged).startswith(b"     6"))
        self.assertEqual([kind[:6] for _, kind in compare.both_kinds("part", worked)], [b"     1", b"     6"])

    def test_budgets_are_about_the_number_of_rows_and_never_long(self):
        compare, dice = load("second/compare"), random.Random(1)
        for n, count in ((4, 4), (4, 3), (4, 15), (8, 8), (8, 7)):
            rows = rows_of(count, n)
            drawn = {compare.some_budget(dice, n, count) for _ in range(400)}
            self.assertTrue({0, 1, max(rows - 1, 0), rows, rows + 1, 999999} <= drawn, (n, count))
        for n, count in ((4, 255), (8, 16), (8, 9)):
            drawn = {compare.some_budget(dice, n, count) for _ in range(400)}
            self.assertTrue({0, 1} <= drawn and 10000 < max(drawn) <= compare.FEW_ROWS)
        self.assertEqual(sum(text[24:30] == b"999999" for text in compare.long_walks()), len(list(compare.long_walks())))
        self.assertLess(len(list(compare.long_walks())), 40)

    def test_a_wrong_walk_is_seen(self):
        compare, right = load("second/compare"), reference.WALK_ANSWER
        asked, search = reference.WALK_REQUEST, reference.WORKED_ANSWER
        finished = asked.replace(b"     1\n", b"    24\n", 1), right.replace(b"     0     0     1", b"     0     1    24", 1)
        for text, answer in ((asked, right), finished):
            self.assertEqual([compare.walk_fault(text, answer, beside) for beside in (None, search)], ["", ""])
        changes = (
            (b"     0     0     1", b"     0     1     1"), (b"     0     0     1", b"     0     0     2"), (b"     1    18", b"     0    18"),
            (b"    18    18", b"    17    18"), (b"    18    18", b"999999    18"), (b"    13\n", b"    14\n"), (b"     4     9", b"     9     9"),
            (b"    13\n", b"\n"), (b"    13\n", b"    13     1\n"), (right, right + right), (right, b"     0\n"), (right, b"     0     6    18    72\n"),
        )
        for old, new in changes:
            self.assertIn(old, right)
            self.assertTrue(compare.walk_fault(asked, right.replace(old, new, 1), None), (old, new))
        # Beside the search: refused otherwise, finished with another row, and lighter than the lightest.
        text, answer = finished
        for beside in (rowtext.line([9]), search.replace(b"    18", b"    20"), search.replace(b"     1     4", b"     4     1")):
            self.assertTrue(compare.walk_fault(text, answer, beside), beside)
        self.assertTrue(compare.walk_fault(asked, right, search.replace(b"    18", b"    20")))
        self.assertTrue(compare.walk_fault(asked, rowtext.line([9]), search))
        self.assertEqual(compare.walk_fault(asked, rowtext.line([9]), rowtext.line([9])), "")
        none_yet = rowtext.line([0, 0, 1, 999999, 18]) + rowtext.line([0, 0, 0, 0])
        self.assertEqual(compare.walk_fault(asked, none_yet, rowtext.line([9])), "")
        self.assertTrue(compare.walk_fault(text, none_yet.replace(b"     0     0     1", b"     0     1    24"), rowtext.line([9])))

    def test_a_walk_that_gets_worse_is_seen(self):
        compare = load("second/compare")
        told = {}
        for budget, count in ((1, 18), (2, 18), (3, 20)):
            text = reference.WALK_REQUEST.replace(b"     1\n", b"%6d\n" % budget, 1)
            told[text] = rowtext.line([0, 0, budget, count, 18]) + rowtext.line([1, 4, 9, 13])
        self.assertEqual(len(list(compare.differing_walks(told))), 1)
        del told[text]
        self.assertEqual(list(compare.differing_walks(told)), [])
        told[reference.WORKED_REQUEST] = rowtext.line([9])
        self.assertEqual(len(list(compare.differing_walks(told))), 2)

    def test_too_few_walks_are_seen(self):
        compare = load("second/compare")
        texts, answers = zip(*((text, answer) for _, text, answer in reference.walk_lines()))
        met = compare.walks_met([*texts, reference.WORKED_REQUEST], [*answers, reference.WORKED_ANSWER])
        self.assertEqual(sum(met.values()), len(texts))
        self.assertTrue(all(met.values()))
        self.assertEqual(len(list(compare.too_few_walks(met))), 4)
        self.assertEqual(list(compare.too_few_walks(compare.LEAST_WALKS)), [])

    def test_the_depth_of_a_printed_row(self):
        sources = load("second/sources")
        check, search = rowtext.request(rowtext.CHECK, 31, 4, rowtext.hadamard([1, 2, 4, 6])), reference.ALL_OVER_31
        self.assertEqual((sources.depth_of(check), sources.depth_of(search)), (4, 3))
        refused = run([rowtext.SECOND, "depth"], input=reference.TWO_LINES.decode(), stdin=None)
        self.assertEqual(refused, (0, "refused 2\n", ""))

    def test_a_stale_page_of_sources_is_seen(self):
        sources = load("second/sources")
        page = read(os.path.join(ROOT, "docs", "SOURCES.md"))
        self.assertFalse(sources.is_stale(page))
        self.assertTrue(sources.is_stale(page.replace("97 printed", "96 printed")))


class Gate(Place):
    """The gate's counting."""

    def counted(self, *words):
        return run([os.path.join(ROOT, ".ci", "counted"), *words])[0]

    def test_less_than_the_least_number_fails(self):
        pattern = "[0-9]+ matrices"
        lines = read(os.path.join(ROOT, ".ci", "least")).splitlines()
        least = next(int(line.split()[1]) for line in lines if line.startswith("matrices "))
        self.assertEqual(self.counted("matrices", pattern, "echo", f"{least} matrices"), 0)
        self.assertEqual(self.counted("matrices", pattern, "echo", f"{least - 1} matrices"), 1)
        self.assertEqual(self.counted("matrices", pattern, "echo", "no matrix"), 1)

    def test_a_step_that_fails_fails(self):
        self.assertEqual(self.counted("matrices", "[0-9]+ matrices", "bash", "-c", "echo 1000 matrices; exit 3"), 3)

    def test_a_number_that_is_not_held_fails(self):
        self.assertEqual(self.counted("nothing", "[0-9]+", "echo", "1000"), 2)

    def test_the_gate_looks_at_no_other_program(self):
        self.assertIn("unset ROWFIND CALLS", read(os.path.join(ROOT, ".ci", "run")))


class Bench(Place):
    """The benchmarks' figures and their drawing."""

    def test_a_quick_run_leaves_the_committed_figures(self):
        kept = [os.path.join(ROOT, "bench", name) for name in ("RESULTS.md", "search-times.svg")]
        before = [(read(path), os.stat(path).st_mtime_ns) for path in kept]
        status, _, said = run([os.path.join(ROOT, "bench", "run"), "--quick"])
        self.assertEqual((status, said), (0, ""))
        self.assertEqual([(read(path), os.stat(path).st_mtime_ns) for path in kept], before)
        self.assertIn("--quick", read(os.path.join(ROOT, "target", "bench", "RESULTS.md")))

    def test_walks_are_timed_and_differences_seen(self):
        words = [os.path.join(ROOT, "bench", "walks"), "--quick"]
        for name, mode in (("rowfind", ""), ("calls", "calls")):
            write(os.path.join(self.place, name), f"#!/usr/bin/env bash\nexec {rowtext.SECOND} {mode}\n")
        environment = dict(os.environ, ROWFIND=os.path.join(self.place, "rowfind"), CALLS=os.path.join(self.place, "calls"))
        status, shown, said = run(words, env=environment)
        self.assertEqual((status, said), (0, ""))
        self.assertIn("| nine candidates, all rows, over 19, order 8 | 0 1 362880 64 64 / 2 3 4 12 5 10 8 15 |", shown)
        self.assertIn("million rows a second", shown)
        write(os.path.join(self.place, "rowfind"), f"#!/usr/bin/env bash\ncat >/dev/null\nprintf '{reference.WALK_ANSWER.decode()}'\n")
        for more in ([], ["--drawn", "2"]):
            status, shown, _ = run([*words, *more], env=environment)
            self.assertEqual((status, "the answers differ" in shown), (1, True))

    def test_the_c_program_finds_the_same_rows(self):
        measure.build_tuned()
        dice, texts = random.Random(6), [text for _, text, _ in reference.depth_lines()]
        for m, n in 12 * ((4, 4), (6, 4), (7, 4), (8, 4), (8, 8)):
            p, candidates = samples.tied(dice, m, n)
            texts.append(rowtext.request(rowtext.SEARCH, p, n, candidates))
        for text in texts:
            self.assertEqual(rowtext.run(measure.TUNED, text), rowtext.run(rowtext.SECOND, text), text)

    def test_the_drawing_names_its_axes(self):
        curves = [plot.Curve("rowfind", family, [(8, 0.001), (16, 0.08)]) for family in ("random", "hard")]
        for drawing in (plot.panels("times", [("order 8", curves)]), read(os.path.join(ROOT, "bench", "search-times.svg"))):
            root = xml.etree.ElementTree.fromstring(drawing)
            words = [element.text for element in root.iter("{http://www.w3.org/2000/svg}text")]
            self.assertTrue(root.get("viewBox"))
            self.assertIn("number of candidates", words)
            self.assertIn("CPU time, logarithmic scale", words)
            self.assertTrue(any("stroke-dasharray" in element.attrib for element in root.iter()))


class Bindings(Place):
    """What the bindings say where something is missing."""

    def setUp(self):
        super().setUp()
        self.project = os.path.join(self.place, "project")
        os.makedirs(os.path.join(self.project, "crates"))
        write(os.path.join(self.project, "crates.txt"), "answer:\n")
        shutil.copytree(os.path.join(ROOT, "bindings"), os.path.join(self.project, "bindings"))

    def test_the_missing_library_is_named(self):
        for script in ("bindings/python/link", "bindings/c/test"):
            status, _, said = run([os.path.join(self.project, script)], env=self.environment)
            self.assertEqual((status, said.count("\n")), (1, 1), said)
            self.assertIn("the command rt", said)
            self.assertIn("run 'tools/build archive' first", said)

    def test_the_longest_answer_is_one_figure(self):
        places = {
            "include/rowfind.h": r"#define ROWFIND_LONGEST_ANSWER ([0-9]+)\n",
            "bindings/rust/src/lib.rs": r"LONGEST_ANSWER: usize = ([0-9_]+);",
            "bindings/python/rowfind.py": r"\nLONGEST_ANSWER = ([0-9]+) ",
        }
        found = [re.findall(pattern, read(os.path.join(ROOT, path))) for path, pattern in places.items()]
        self.assertEqual([len(figures) for figures in found], [1] * len(places))
        self.assertEqual(len({figures[0].replace("_", "") for figures in found}), 1, found)

    def test_cargo_names_the_missing_library(self):
        manifest = os.path.join(self.project, "bindings", "rust", "Cargo.toml")
        status, _, said = run(["cargo", "check", "--quiet", "--offline", "--manifest-path", manifest])
        self.assertNotEqual(status, 0)
        self.assertIn("libanswer.a is missing: run 'tools/build archive' first", said)

    def test_an_old_library_is_not_linked(self):
        write(os.path.join(self.project, "target", "staticlib", "libanswer.a"), "")
        write(os.path.join(self.bin, "rt"), STAND_IN)
        asked = [os.path.join(self.project, "bindings", "archive")]
        self.assertIn("the command cc", run(asked, env=self.environment)[2])
        write(os.path.join(self.bin, "cc"), "")
        self.assertEqual(run(asked, env=self.environment)[0], 0)
        time.sleep(0.02)
        write(os.path.join(self.project, "crates", "answer", "src", "lib.rt"), "new")
        status, _, said = run(asked, env=self.environment)
        self.assertEqual((status, said.count("\n")), (1, 1))
        self.assertIn("older than the sources: run 'tools/build archive' first", said)


if __name__ == "__main__":
    unittest.main()

"""Tests of tools/recordings.py: its command line, what make and check do with a folder, and the corpus itself."""
import contextlib
import io
import os
import pathlib
import subprocess
import sys
import tempfile
import unittest
from unittest import mock

ROOT = pathlib.Path(__file__).resolve().parent.parent
sys.path.insert(0, str(ROOT / "tools"))
import recordings  # noqa: E402
from sessions import corpus, form, papers  # noqa: E402


def run(*arguments, given=b""):
    """Exit status, standard output as bytes, standard error."""
    out, err = io.TextIOWrapper(io.BytesIO()), io.StringIO()
    with contextlib.redirect_stdout(out), contextlib.redirect_stderr(err), \
            mock.patch("sys.stdin", io.TextIOWrapper(io.BytesIO(given))):
        try:
            code = recordings.main([str(argument) for argument in arguments])
        except SystemExit as end:
            code = end.code
    out.flush()
    return code, out.buffer.getvalue(), err.getvalue()


class Folder(unittest.TestCase):
    def setUp(self):
        folder = tempfile.TemporaryDirectory()
        self.addCleanup(folder.cleanup)
        self.home = pathlib.Path(folder.name)

    def program(self, body):
        """A program with the right replies to the folder's texts by heart; body may spoil `reply`."""
        path = self.home / "program"
        table = {session.recording: session.reply for session in corpus.load(self.home)}
        path.write_text(f"#!{sys.executable}\nimport os, sys\ntable = {table!r}\n"
                        f"data = sys.stdin.buffer.read()\nreply = table.get(data, b'')\n{body}\n"
                        "sys.stdout.buffer.write(reply)\n")
        path.chmod(0o755)
        return path


class CommandLine(Folder):
    TEXT = "# a guest\nread status -> 50\nwrite command EC\nword -> 0040\n"
    RECORDING = bytes.fromhex("01" "00020107" "00030207EC" "000103")
    REPLY = bytes.fromhex("01" "0003000050" "0003000000" "0003000040")

    def setUp(self):
        super().setUp()
        self.text, self.recording, self.reply = (self.home / f"guest{end}" for end in (".txt", ".rec", ".reply"))
        self.text.write_text(self.TEXT)
        self.recording.write_bytes(self.RECORDING)
        self.reply.write_bytes(self.REPLY)

    def test_write_to_a_file_and_to_standard_output(self):
        self.recording.unlink()
        self.assertEqual(run("write", self.text, self.recording), (0, b"", ""))
        self.assertEqual(self.recording.read_bytes(), self.RECORDING)
        self.assertEqual(run("write", self.text), (0, self.RECORDING, ""))
        self.assertEqual(run("write", self.text, "-"), (0, self.RECORDING, ""))
        self.assertEqual(run("write", "-", given=b"\xef\xbb\xbfread status\nwrite command EC\nword # \xc3\xa4\n"), (0, self.RECORDING, ""))

    def test_read_alone_with_a_reply_and_with_a_program(self):
        code, out, _ = run("read", self.recording)
        self.assertEqual((code, out.decode().splitlines()[1::2]), (0, ["read status", "word"]))
        with_reply = run("read", self.recording, self.reply)
        self.assertEqual(with_reply[1].decode().splitlines()[1::2], ["read status -> 50", "word -> 0040"])
        self.assertEqual(run("read", self.recording, self.program("")), with_reply)
        self.addCleanup(os.chdir, os.getcwd())
        os.chdir(self.home)
        self.assertEqual(run("read", "guest.rec", "program"), with_reply)
        self.assertEqual(run("read", "-", self.reply, given=self.RECORDING), with_reply)

    def test_what_read_gives_is_good_for_make_and_check(self):
        for path in (self.text, self.recording, self.reply):
            path.rename(self.home / f"kept{path.suffix}")
        self.text.write_bytes(run("read", self.home / "kept.rec", self.home / "kept.reply")[1])
        self.assertEqual(run("--home", self.home, "make")[:2], (0, b"2 recordings made\n"))
        self.assertEqual((self.recording.read_bytes(), self.reply.read_bytes()), (self.RECORDING, self.REPLY))
        self.assertEqual(run("--home", self.home, "check")[0], 0)

    def test_explain_texts_and_recordings(self):
        with_reply = run("explain", self.recording, self.reply)
        self.assertEqual((with_reply[0], with_reply[2]), (0, ""))
        self.assertRegex(with_reply[1].decode(), r"^ +1  read Status +-> 50h DRDY DSC\n +2  .*IDENTIFY +-> done\n +3  .*not removable\n$")
        self.assertEqual(run("explain", self.text, self.program("")), with_reply)
        self.assertEqual(run("explain", "-", self.reply, given=self.RECORDING), with_reply)
        self.assertNotIn(b"->", run("explain", self.recording)[1])

    def test_the_example_of_the_readme(self):
        prose = (recordings.HOME / "README.md").read_text().partition("### An example\n")[2]
        text, explained = prose.split("```\n")[1:4:2]
        self.text.write_text(text)
        self.assertEqual(run("explain", self.text, self.program("")), (0, explained.encode(), ""))

    def test_explain_counts_what_a_text_did_not_expect(self):
        self.text.write_text(self.TEXT.replace("50", "51"))
        code, out, err = run("explain", self.text, self.reply)
        self.assertEqual((code, err), (1, "answers that are not as the text expects: 1\n"))
        self.assertIn(b"(the text expects: 51h DRDY DSC ERR)", out)

    def test_bad_text_writes_nothing(self):
        self.recording.unlink()
        self.text.write_text("read status\nread speed\n\nput 12\n")
        wanted = f"{self.text}:2: no register 'speed' that way\n{self.text}:4: '12' is not a number of 4 hex digits\n"
        self.assertEqual(run("write", self.text, self.recording), (1, b"", wanted))
        self.assertEqual(run("explain", self.text), (1, b"", wanted))
        self.assertFalse(self.recording.exists())
        self.assertEqual(run("write", "-", given=b"\njump"), (1, b"", "standard input:2: can't read 'jump'\n"))

    def test_what_is_no_text(self):
        self.text.write_bytes(b"read status\n# \xff\n")
        self.assertEqual(run("write", self.text), (1, b"", f"{self.text}:2: the text is not UTF-8\n"))

    def test_files_that_can_not_be_had(self):
        absent = self.home / "absent.txt"
        for arguments in (["write", absent], ["read", absent], ["explain", absent], ["read", self.recording, absent]):
            self.assertEqual(run(*arguments), (1, b"", f"{absent}: No such file or directory\n"))
        for arguments in (["write", self.home], ["read", self.home], ["write", self.text, self.home], ["explain", self.recording, self.home]):
            self.assertEqual(run(*arguments), (1, b"", f"{self.home}: Is a directory\n"))
        with mock.patch.object(form, "LONGEST", 10):
            self.assertEqual(run("read", self.recording), (1, b"", f"{self.recording}: longer than 10 bytes\n"))

    def test_output_that_can_not_be_had(self):
        self.assertEqual(run("write", self.text, "/dev/full"), (1, b"", "/dev/full: No space left on device\n"))
        reader, torn = os.pipe()
        os.close(reader)
        with open("/dev/full", "wb") as full, open(torn, "wb") as torn:
            for out, said in ((full, b"standard output: No space left on device\n"), (torn, b"")):
                for job in (["explain", self.recording], ["read", self.recording], ["write", self.text], ["check"]):
                    with self.subTest(said=said, job=job):
                        done = subprocess.run([sys.executable, recordings.__file__, *job], stdout=out, stderr=subprocess.PIPE,
                                              env={**os.environ, "PYTHONUNBUFFERED": ""})
                        self.assertEqual((done.returncode, done.stderr), (1, said))

    def test_replies_that_can_not_be_had(self):
        for body, reason in [("reply = b''", "the reply starts with nothing, not with version 01"),
                             ("os.kill(os.getpid(), 9)", "ended by signal 9")]:
            program = self.program(body)
            for job in ("read", "explain"):
                self.assertEqual(run(job, self.recording, program), (1, b"", f"{program}: {reason}\n"))
        self.reply.write_bytes(self.REPLY[:-5])
        self.assertRegex(run("read", self.recording, self.reply)[2], rf"^{self.reply}: .*the reply 2 records\n$")
        program.write_text("no program")
        self.assertEqual(run("read", self.recording, program), (1, b"", f"{program}: Exec format error\n"))

    def test_bad_command_lines(self):
        for arguments in ([], ["jump"], ["write"], ["read"], ["explain"], ["write", "a", "b", "c"], ["make", "a"], ["read", "--fast", "a"]):
            with self.subTest(arguments=arguments):
                code, out, err = run(*arguments)
                self.assertEqual((code, out), (2, b""))
                self.assertTrue(err.startswith("usage: "))


class Checking(Folder):
    def setUp(self):
        super().setUp()
        (self.home / "good.txt").write_text("# one\nread status -> 50\n\n2 line -> 0\n")
        (self.home / "torn.txt").write_text("# two\nline -> 0\nraw 00\n-> fault\n")
        (self.home / "README.md").write_text("prose\n\n")
        self.assertEqual(run("--home", self.home, "make")[0], 0)

    def check(self, *programs):
        code, out, err = run("--home", self.home, "check", *programs)
        return code, out.decode(), err

    def test_all_well(self):
        self.assertEqual(self.check(self.program("")), (0, "2 recordings, 1 programs, 0 differences\n", ""))
        self.addCleanup(os.chdir, os.getcwd())
        os.chdir(self.home)
        self.assertEqual(self.check("program"), (0, "2 recordings, 1 programs, 0 differences\n", ""))

    def test_files_against_texts(self):
        for name, data in [("good.rec", b"\x01"), ("torn.reply", b""), ("README.md", b"prose\n\n## The recordings\n")]:
            with self.subTest(name=name):
                kept = (self.home / name).read_bytes()
                (self.home / name).write_bytes(data)
                code, out, _ = self.check()
                self.assertEqual(code, 1)
                self.assertIn(f"{name}: is not what the texts give", out)
                (self.home / name).write_bytes(kept)
        (self.home / "good.reply").unlink()
        (self.home / "stray.rec").write_bytes(b"\x01")
        code, out, _ = self.check()
        self.assertIn("good.reply: missing", out)
        self.assertIn("stray.rec: no text", out)
        self.assertTrue(out.endswith("2 recordings, 0 programs, 2 differences\n"))

    def test_texts_that_are_not_strict(self):
        (self.home / "bare.txt").write_text("line -> 0\n")
        (self.home / "open.txt").write_text("# three\nline -> 0\nread status\n")
        (self.home / "accent.txt").write_bytes(b"# four\n# \xc3\xa4\n")
        for job in ("check", "make"):
            code, _, err = run("--home", self.home, job)
            self.assertEqual((code, [line[:line.index(" ")] for line in err.splitlines()]),
                             (1, ["accent.txt:2:", "bare.txt:1:", "open.txt:3:"]))

    def test_difference_names_line_expected_and_given(self):
        code, out, _ = self.check(self.program("if len(reply) > 15: reply = reply[:15] + b'\\x01'"))
        self.assertEqual(code, 1)
        self.assertIn("good.txt:4: record 3: expected answer 0 value 0000, given answer 0 value 0001", out)

    def test_replies_too_short_too_long_or_none(self):
        for body, text in [("reply = reply[:-3]", "expected fault, given nothing"),
                           ("reply += b'\\x00'", "expected the end after record 3, given 00"),
                           ("reply = b''", "expected version 01, given nothing"),
                           ("os.kill(os.getpid(), 9)", "signal 9")]:
            with self.subTest(body=body):
                code, out, _ = self.check(self.program(body))
                self.assertEqual(code, 1)
                self.assertIn(text, out)

    def test_small_pieces_catch_one_read_for_all(self):
        path = self.program("")
        path.write_text(path.read_text().replace("sys.stdin.buffer.read()", "os.read(0, 1)"))
        code, out, _ = self.check(path)
        self.assertEqual(code, 1)
        self.assertIn("in 1-byte pieces", out)

    def test_program_that_is_not_there(self):
        code, out, _ = self.check(self.home / "absent")
        self.assertEqual(code, 1)
        self.assertIn("absent", out)

    def test_make_keeps_prose_and_drops_strays(self):
        (self.home / "torn.txt").unlink()
        run("--home", self.home, "make")
        self.assertFalse((self.home / "torn.rec").exists())
        readme = (self.home / "README.md").read_text()
        self.assertTrue(readme.startswith("prose\n\n## The recordings\n"))
        self.assertIn("| `good` | one |", readme)
        self.assertNotIn("torn", readme)


class Corpus(unittest.TestCase):
    def test_files_are_what_the_texts_give(self):
        code, out, _ = run("check")
        self.assertEqual(code, 0, out)

    def test_every_command_of_document_01_and_every_fault_stands_in_it(self):
        codes, faults = set(), set()
        for made in corpus.load(recordings.HOME):
            good, fault = form.records(made.recording)
            codes |= {payload[2] for payload in good if payload[:2] == b"\x02\x07"}
            faults.add(fault)
        self.assertEqual(set(papers.COMMANDS) - codes, set())
        self.assertIn(0x00, codes)
        for fault in ("empty input", "a record cut short", "a payload too short: it has no kind", "unknown kind 08h",
                      "another version (02h)", *[f"a payload too long for kind {kind:02X}h" for kind in range(1, 8)],
                      *[f"a payload too short for kind {kind:02X}h" for kind in (1, 2, 4)]):
            self.assertIn(fault, faults)


if __name__ == "__main__":
    unittest.main()

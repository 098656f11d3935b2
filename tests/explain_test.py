"""Tests of the explanation: records, registers, bits and answers by name, and the words of IDENTIFY by their meaning."""
import pathlib
import sys
import unittest

ROOT = pathlib.Path(__file__).resolve().parent.parent
sys.path.insert(0, str(ROOT / "tools"))
from sessions import form, papers  # noqa: E402
from sessions.explain import explain  # noqa: E402
from sessions.follow import Follower  # noqa: E402
from sessions.form import BadInput  # noqa: E402
from sessions.text import parse  # noqa: E402

# A guest sets a password, the host switches off and on, the next guest looks at the lock; the answers are document 01's.
SESSION = """# a small session
read status -> 50
write command F1
put-password user maximum "payment"
read status -> 50
power-on
write 2-6 01 0A 00 00 E0
run 20 -> 51 04
word -> answer 4
write command EC
line -> 1
read status -> 58
get-block -> identify 128=0107
read status -> 50
write device-control 06
read alternate-status -> 80
write command EC
write device-control 00
read error -> 01
read 9 -> answer 1
3 line -> 0
raw 00 01 08
-> fault
line
"""

EXPLAINED = """\
          1  read Status                                    -> 50h DRDY DSC
          2  write Command F1h SET PASSWORD                 -> done
      3-258  write 256 words: 0100h "payment" 0000h x 251   -> done
        259  read Status                                    -> 50h DRDY DSC
        260  power-on                                       -> done
        261  write Sector-Count 01h                         -> done
        262  write Sector-Number 0Ah                        -> done
        263  write Cylinder-Low 00h                         -> done
        264  write Cylinder-High 00h                        -> done
        265  write Device-Head E0h LBA head nibble 0        -> done
        266  write Command 20h READ SECTORS                 -> done
        267  read Status                                    -> 51h DRDY DSC ERR
        268  read Error                                     -> 04h ABRT
        269  read word                                      -> answer 4: no transfer that way
        270  write Command ECh IDENTIFY                     -> done
        271  ask the interrupt line                         -> 1 raised
        272  read Status                                    -> 58h DRDY DSC DRQ
    273-528  read words 0-255 of IDENTIFY                   -> as follows
               word 0         0040h  configuration: not removable
               word 1         0004h  cylinders: 4
               word 3         0002h  heads: 2
               word 6         0008h  sectors per track: 8
               words 10-19    serial number: 20 spaces
               words 23-26    firmware revision: 8 spaces
               words 27-46    model number: 40 spaces
               word 49        0200h  capabilities: LBA
               word 53        0001h  valid words: 54-58
               word 54        0004h  current cylinders: 4
               word 55        0002h  current heads: 2
               word 56        0008h  current sectors per track: 8
               words 57-58    0040h 0000h  current capacity in sectors: 64
               words 60-61    0040h 0000h  capacity in sectors: 64
               word 80        000Eh  versions: ATA-1, ATA-2, ATA-3
               word 82        0002h  command sets: security
               word 83        4000h  command sets, second word: bit 14, always set
               word 128       0107h  lock state: supported, enabled, locked, level Maximum
               all others     0000h
        529  read Status                                    -> 50h DRDY DSC
        530  write Device-Control 06h SRST nIEN             -> done
        531  read Alternate-Status                          -> 80h BSY
        532  write Command ECh IDENTIFY                     -> done, ignored: reset is held
        533  write Device-Control 00h                       -> done
        534  read Error                                     -> 01h start value
        535  read register 9                                -> answer 1: no such register
    536-538  ask the interrupt line x 3                     -> 0
        539  fault: unknown kind 08h                        -> fault, answer 5: recording malformed
               not run: 00 01 08 00 01 07
"""


def lines_of(*lines):
    """What is told of a text and the reply that it expects."""
    made = parse("\n".join(["# what it shows", *lines]) + "\n", "NAME.txt")
    return explain(made.recording, made.reply)[0]


def told(*lines):
    return "\n".join(lines_of(*lines))


class Explaining(unittest.TestCase):
    def test_a_small_session_line_by_line(self):
        made = parse(SESSION, "NAME.txt")
        self.assertEqual(explain(made.recording, made.reply), (EXPLAINED.splitlines(), 0))

    def test_registers_and_bits_by_name(self):
        lines = lines_of("write features 05", "write device-control 06", "read device-head -> F3", "read error -> FF", "read error -> 14",
                         "read status -> FF", "write command 77", "write command 00", "write 200 01 -> answer 1")
        for line, text in zip(lines, [
                "write Features 05h", "write Device-Control 06h SRST nIEN", "-> F3h LBA DEV head nibble 3",
                "-> FFh BBK UNC MC IDNF MCR ABRT TK0NF AMNF", "-> 14h IDNF ABRT", "-> FFh BSY DRDY DF DSC DRQ CORR IDX ERR",
                "write Command 77h SEEK", "write Command 00h unknown command", "write register 200 01h"]):
            self.assertIn(text, line)

    def test_answers_by_their_meaning(self):
        for answer, meaning in papers.ANSWERS.items():
            with self.subTest(answer=answer):
                line = explain(bytes.fromhex("01 0001 05"), form.VERSION + form.step(answer))[0][0]
                self.assertRegex(line, rf"-> answer {answer}: {meaning}$")
        self.assertIn("-> answer 9: unknown, value 0001h", explain(bytes.fromhex("01 0001 05"), form.VERSION + form.step(9, 1))[0][0])

    def test_words_fold(self):
        lines = lines_of("write command 30", "3 put 0000", "put 0001", "put 0002 -> answer 4", "2 word -> answer 4", "write command E4",
                         '4 word -> "letters"', "2 word -> 0005")
        self.assertEqual([" ".join(line.split()) for line in lines[1:4] + lines[5:]],
                         ["2-5 write 4 words: 0000h x 3 0001h -> done", "6 write word 0002h -> answer 4: no transfer that way",
                          "7-8 read word x 2 -> answer 4: no transfer that way", '10-15 read 6 words -> "letters" 0005h x 2'])

    def test_blocks_stand_apart(self):
        for lines in (["write command 20", "512 word -> 1111"], ["line -> 0", "512 word -> 1111"]):
            self.assertEqual([" ".join(line.split()) for line in lines_of(*lines)[1:]],
                             ["2-257 read 256 words -> 1111h x 256", "258-513 read 256 words -> 1111h x 256"])

    def test_long_blocks_by_places(self):
        lines = lines_of("write command 20", f'get-block -> 4="{"x y" * 20}" 100=0001 101=8002 255=FFFF')
        self.assertEqual([" ".join(line.split()) for line in lines[1:]],
                         ["2-257 read 256 words -> as follows", f'words 4-33 "{"x y" * 20}"', "words 100-101 0001h 8002h",
                          "word 255 FFFFh", "all others 0000h"])

    def test_faults_by_kind(self):
        for data, text in [("", "empty input"), ("02", "another version (02h)"), ("01 00", "a record cut short"),
                           ("01 00 02", "a record cut short"), ("01 00 02 01", "a record cut short"),
                           ("01 00 00", "too short"), ("01 00 01 08", "unknown kind 08h"),
                           ("01 00 03 01 07 00", "too long for kind 01h"), ("01 00 02 02 07", "too short for kind 02h")]:
            with self.subTest(data=data):
                lines, _ = explain(bytes.fromhex(data), bytes.fromhex("01 00 01 05"))
                self.assertIn("fault: ", lines[0])
                self.assertIn(text, lines[0])
                self.assertIn("-> fault, answer 5: recording malformed", lines[0])
                unrun = data.upper().removeprefix("01").strip()
                self.assertEqual([line.strip() for line in lines[1:]], [f"not run: {unrun}"] if unrun else [])

    def test_reply_that_does_not_fit(self):
        recording = bytes.fromhex("01 00 01 07")
        self.assertIn("-> no reply", explain(recording, b"\x01")[0][0])
        self.assertIn("not a reply record: 00 02 00 00", explain(recording, bytes.fromhex("01 00 02 00 00"))[0][0])
        self.assertIn("past the end: 00 01 05", explain(recording, bytes.fromhex("01 00 03 00 00 00 00 01 05"))[0][1])
        with self.assertRaisesRegex(BadInput, "starts with nothing"):
            explain(recording, b"")

    def test_without_a_reply(self):
        self.assertEqual(explain(b"\x01"), (["no records"], 0))
        text = "write device-head 10\nwrite command EC\nget-block\nput 0001 0002\n"
        recording = parse(text, "NAME.txt", strict=False).recording
        self.assertEqual([" ".join(line.split()) for line in explain(recording)[0]],
                         ["1 write Device-Head 10h DEV head nibble 0", "2 write Command ECh IDENTIFY", "3-258 read 256 words",
                          "259-260 write 2 words: 0001h 0002h"])


class Expecting(unittest.TestCase):
    TEXT = "read status -> 51\nread status\nwrite command EC\n2 word -> 0040 0004\nline -> 0\n"

    def setUp(self):
        self.made = parse(self.TEXT, "NAME.txt", strict=False)

    def test_what_a_text_expects_stands_in_for_a_reply(self):
        lines, clashes = explain(self.made.recording, None, self.made.steps)
        self.assertEqual(clashes, 0)
        self.assertEqual([" ".join(line.split()) for line in lines],
                         ["1 read Status -> 51h DRDY DSC ERR", "2 read Status", "3 write Command ECh IDENTIFY",
                          "4-5 read words 0-1 of IDENTIFY -> as follows", "word 0 0040h configuration: not removable",
                          "word 1 0004h cylinders: 4", "6 ask the interrupt line -> 0"])

    def test_a_reply_that_is_another(self):
        reply = form.VERSION + b"".join(form.step(0, value) for value in (0x50, 0x50, 0, 0x40, 5, 0))
        lines, clashes = explain(self.made.recording, reply, self.made.steps)
        self.assertEqual(clashes, 2)
        self.assertIn("-> 50h DRDY DSC  (the text expects: 51h DRDY DSC ERR)", lines[0])
        self.assertTrue(lines[1].endswith("-> 50h DRDY DSC"))
        self.assertIn("read word 0 of IDENTIFY", lines[3])
        self.assertIn("-> 0005h  (the text expects: 0004h)", lines[4])

    def test_a_fault_that_is_none(self):
        made = parse("raw 00 01 08\n-> fault\n", "NAME.txt", strict=False)
        lines, clashes = explain(made.recording, form.VERSION + form.DONE, made.steps)
        self.assertEqual(clashes, 1)
        self.assertIn("(the text expects: fault, answer 5", lines[0])


class Identify(unittest.TestCase):
    """Words are named only where they are IDENTIFY's by document 01."""

    def test_lock_states_of_document_01(self):
        for word, text in [("0001", "supported, level High"), ("0007", "supported, enabled, locked, level High"),
                           ("0117", "supported, enabled, locked, no attempts left, level Maximum"),
                           ("000B", "supported, enabled, frozen, level High"), ("0000", "level High"),
                           ("8001", "supported, 8000h without a name, level High")]:
            with self.subTest(word=word):
                self.assertTrue(told("write command EC", "128 word -> 0000", "read status -> 58", f"word -> {word}").endswith(
                    f"read word 128 of IDENTIFY                      -> {word}h  lock state: {text}"))

    def test_places_are_counted_from_the_command_on(self):
        text = told("write command EC", "60 word -> 0000", "line -> 0", "put 0001 -> answer 4", "word -> 0040", "read status -> 58",
                    "2 word -> 0000 1234")
        self.assertIn("read words 0-59 of IDENTIFY", text)
        self.assertIn("word 60 of IDENTIFY                       -> 0040h  part of capacity in sectors", text)
        self.assertRegex(text, r"word 61 +0000h  part of capacity in sectors\n +word 62 +1234h$")

    def test_texts_have_their_first_character_in_the_high_byte(self):
        self.assertIn('words 23-26    firmware revision: "1.0a/b  "',
                      told("write command EC", "get-block -> identify 23=312E 24=3061 25=2F62"))
        self.assertIn("words 23-26    firmware revision: 0000h 2020h 2020h 2020h",
                      told("write command EC", "get-block -> identify 23=0000"))

    def test_numbers_have_their_low_word_first(self):
        self.assertIn("words 60-61    0040h 0001h  capacity in sectors: 65600", told("write command EC", "get-block -> identify 61=0001"))

    def test_a_later_block_is_told_by_what_differs(self):
        again = ["write command EC", "get-block -> identify 54=0008 128=0009 200=0001"]
        lines = lines_of("write command EC", "get-block -> identify", *again)
        self.assertEqual([" ".join(line.split()) for line in lines[-5:]],
                         ["259-514 read words 0-255 of IDENTIFY -> as follows", "word 54 0008h current cylinders: 8",
                          "word 128 0009h lock state: supported, frozen, level High", "word 200 0001h", "all others as in record 2"])
        lines = lines_of("write command EC", "get-block -> identify", "write command EC", "get-block -> identify")
        self.assertEqual([" ".join(line.split()) for line in lines[-2:]],
                         ["word 128 0001h lock state: supported, level High", "all others as in record 2"])

    def test_a_block_without_answers_is_not_told_before(self):
        text = "write command EC\nget-block\nwrite command EC\nget-block -> identify\n"
        made = parse(text, "NAME.txt", strict=False)
        self.assertRegex(explain(made.recording, None, made.steps)[0][-1], r"all others +0000h$")

    def named(self, *lines):
        """Whether the next word is named; the line between keeps it apart from those before it."""
        return "of IDENTIFY" in lines_of("write command EC", *lines, "line -> 0", "word -> 0000")[-1]

    def test_named_while_the_transfer_lasts(self):
        for lines in [[], ["255 word -> 0000"], ["read status -> 58"], ["write device-head 10"], ["write 0 00 -> answer 1"],
                      ["write device-control 02"], ["put 0000 -> answer 4"], ["write command 20", "write command EC"],
                      ["write device-control 04", "write device-control 00", "write command EC"],
                      ["write command F1", "write device-head 10", "write command EC"]]:
            with self.subTest(lines=lines):
                self.assertTrue(self.named(*lines))

    def test_not_named_behind_its_end(self):
        for lines in [["256 word -> 0000"], ["write command 20"], ["write command 00"], ["write command 90"], ["write device-control 04"],
                      ["write device-control 04", "write command EC"], ["write device-control 04", "write command EC", "write device-control 00"],
                      ["hardware-reset"], ["power-on"], ["read status -> 50"], ["word -> answer 4"], ["put 0001"]]:
            with self.subTest(lines=lines):
                self.assertFalse(self.named(*lines))

    def test_not_named_where_the_command_was_ignored(self):
        for lines in [["write device-head 10"], ["write command F1", "read status -> 51", "write device-head 10"],
                      ["write command F1", "write device-head 10", "read device-head -> 10"],
                      ["write command F1", "write device-head 10", "read alternate-status -> 00"]]:
            with self.subTest(lines=lines):
                lines = lines_of(*lines, "write command EC", "word -> 0040")
                self.assertIn("ignored: DEV is set", lines[-2])
                self.assertNotIn("of IDENTIFY", lines[-1])

    def test_what_is_named_in_the_corpus_is_identify(self):
        changing = {54, 55, 56, 57, 58, papers.LOCK_WORD}
        named = 0
        for path in sorted((ROOT / "recordings").glob("*.rec")):
            follower = Follower()
            steps = form.replies(path.with_suffix(".reply").read_bytes())
            for payload, step in zip(form.records(path.read_bytes())[0], steps):
                answer, value = form.answer_of(step)
                if payload[0] == form.READ_WORD and answer == 0 and follower.identifies:
                    named += 1
                    if follower.place not in changing:
                        self.assertEqual(value, papers.FRESH_IDENTIFY.get(follower.place, 0), path.name)
                follower.step(payload, (answer, value))
        self.assertGreater(named, 10_000)


class Ignored(unittest.TestCase):
    def test_said_where_it_is_sure(self):
        for lines, reason in [(["write device-control 04", "write sector-count 05"], "reset is held"),
                              (["write device-control 04", "write command 90"], "reset is held"),
                              (["write device-head 10", "write command 20"], "DEV is set"),
                              (["write command E4", "write sector-count 05"], "a transfer is open"),
                              (["write command 20", "read status -> 58", "write device-head 10"], "a transfer is open"),
                              (["write command 30", "put 0001", "write features 01"], "a transfer is open")]:
            with self.subTest(lines=lines):
                self.assertTrue(lines_of(*lines)[-1].endswith(f"-> done, ignored: {reason}"))

    def test_not_said_where_it_is_not(self):
        for lines in [["write device-control 04", "write device-control 00", "write sector-count 05"],
                      ["write device-control 04", "hardware-reset", "write command 20"], ["write device-head 10", "write command 90"],
                      ["write device-head 10", "write command 90", "write command 20"], ["write device-head 10", "power-on", "write command 20"],
                      ["write device-head 10", "write sector-count 05"], ["write command 20", "write sector-count 05"],
                      ["write command E4", "256 word -> 0000", "write sector-count 05"], ["write command F2", "write device-head 10", "write command 20"],
                      ["write command E4", "write device-head 10", "write command 20"], ["write command E4", "write device-control 02"]]:
            with self.subTest(lines=lines):
                self.assertTrue(lines_of(*lines)[-1].endswith("-> done"))


if __name__ == "__main__":
    unittest.main()

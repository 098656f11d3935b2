"""Tests of the text form: a text into a recording and the reply it expects, and back again for any bytes."""
import pathlib
import random
import sys
import tracemalloc
import unittest

ROOT = pathlib.Path(__file__).resolve().parent.parent
sys.path.insert(0, str(ROOT / "tools"))
from sessions import form  # noqa: E402
from sessions.form import BadInput  # noqa: E402
from sessions.retell import retell  # noqa: E402
from sessions.text import parse  # noqa: E402


def strict(*lines):
    return parse("\n".join(["# what it shows", *lines]) + "\n", "NAME.txt")


def loose(*lines):
    return parse("\n".join(lines) + "\n", "NAME.txt", strict=False)


class TextForm(unittest.TestCase):
    def bytes_of(self, *lines):
        made = strict(*lines)
        return made.recording.hex(" "), made.reply.hex(" ")

    def test_whole_case_of_document_01(self):
        self.assertEqual(self.bytes_of("read status -> 50"), ("01 00 02 01 07", "01 00 03 00 00 50"))

    def test_every_kind(self):
        made = strict("write command 20", "word -> 1234", "put 5678", "hardware-reset", "power-on", "line -> 1")
        self.assertEqual(made.recording.hex(),
                         "01" "0003020720" "000103" "0003045678" "000105" "000106" "000107")
        self.assertEqual(made.reply.hex(), "01" "0003000000" "0003001234" + "0003000000" * 3 + "0003000001")

    def test_names_differ_by_direction(self):
        self.assertEqual(self.bytes_of("write features 05")[0], "01 00 03 02 01 05")
        self.assertEqual(self.bytes_of("read error -> 05")[0], "01 00 02 01 01")
        for line in ("write status 00", "read command -> 00", "read device-control -> 00"):
            with self.assertRaises(BadInput):
                strict(line)

    def test_other_answers(self):
        self.assertEqual(self.bytes_of("write 9 00 -> answer 1")[1], "01 00 03 01 00 00")
        self.assertEqual(self.bytes_of("2 word -> answer 4")[1], "01" + " 00 03 04 00 00" * 2)

    def test_ranges(self):
        self.assertEqual(strict("write 2-4 01 02 03").recording,
                         strict("write 2 01", "write 3 02", "write 4 03").recording)
        self.assertEqual(strict("read 1-2 -> AA BB").reply, strict("read 1 -> AA", "read 2 -> BB").reply)
        self.assertEqual(len(strict("read 9-255 -> answer 1").lines), 247)

    def test_run_is_command_status_error(self):
        spelled = strict("write command 20", "read status -> 51", "read error -> 04")
        self.assertEqual(strict("run 20 -> 51 04").recording, spelled.recording)
        self.assertEqual(strict("run 20 -> 51 04").reply, spelled.reply)

    def test_words_in_a_row(self):
        spelled = strict("put 0001", "put 6261", "put 0063", "put FFFF")
        self.assertEqual(strict('put 0001 "abc" FFFF').recording, spelled.recording)
        self.assertEqual(strict('2 put 0001 0002').recording, strict("put 0001", "put 0002", "put 0001", "put 0002").recording)
        spelled = strict("word -> 0001", "word -> 6261", "word -> 0063")
        self.assertEqual(strict('3 word -> 0001 "abc"').recording, spelled.recording)
        self.assertEqual(strict('3 word -> 0001 "abc"').reply, spelled.reply)
        self.assertEqual(strict("3 word -> 0007").reply, strict(*["word -> 0007"] * 3).reply)

    def test_blocks(self):
        made = strict('put-block 0=0001 2-3=ABCD 5="abc"')
        words = [made.recording[i + 3:i + 5].hex() for i in range(1, len(made.recording), 5)]
        self.assertEqual(words[:8], ["0001", "0000", "abcd", "abcd", "0000", "6261", "0063", "0000"])
        self.assertEqual((len(words), set(words[8:])), (256, {"0000"}))

    def test_password_block(self):
        self.assertEqual(strict('put-password master maximum "pay" rest FFFF').recording,
                         strict('put-block 0=0101 1="pay" 17-255=FFFF').recording)
        self.assertEqual(strict('put-password user high "pay" words 0-1').recording,
                         strict("put 0000", "put 6170").recording)

    def test_identify_words(self):
        reply = strict("get-block -> identify 128=0007").reply
        word = {place: reply[1 + 5 * place + 3:1 + 5 * place + 5].hex() for place in range(256)}
        self.assertEqual([word[place] for place in (0, 1, 3, 6, 10, 46, 47, 57, 83, 128, 255)],
                         ["0040", "0004", "0002", "0008", "2020", "2020", "0000", "0040", "4000", "0007", "0000"])

    def test_fault_ends_the_reply_and_not_the_recording(self):
        self.assertEqual(self.bytes_of("read status -> 50", "raw 00 01 08", "-> fault", "line"),
                         ("01 00 02 01 07 00 01 08 00 01 07", "01 00 03 00 00 50 00 01 05"))
        self.assertEqual(self.bytes_of("version none", "-> fault"), ("", "01 00 01 05"))
        self.assertEqual(self.bytes_of("version 02", "-> fault", "line"), ("02 00 01 07", "01 00 01 05"))
        self.assertEqual(self.bytes_of(), ("01", "01"))

    def test_first_line_is_the_one_line(self):
        self.assertEqual(strict().about, "what it shows")
        for text in ("", "line -> 0\n", "#\nline -> 0\n"):
            with self.assertRaisesRegex(BadInput, r"^NAME\.txt:1: the first line has to be a comment"):
                parse(text, "NAME.txt")

    def test_line_ends_of_other_systems(self):
        self.assertEqual(parse("# x\r\nline -> 0\rpower-on\n", "NAME.txt").lines, [2, 3])


class WithoutAnswers(unittest.TestCase):
    """A text that is not strict says what a guest does, and no more than it likes of the answers."""

    def test_no_arrow_is_needed(self):
        lines = ["read status", "run 20", "3 word", "get-block words 0-1", "line", "write command EC", "put 0001"]
        answers = ["read status -> 50", "run 20 -> 51 04", "3 word -> 0000", "get-block words 0-1 -> 1=0001", "line -> 0"]
        self.assertEqual(loose(*lines).recording, strict(*answers, *lines[5:]).recording)
        self.assertEqual(set(loose(*lines).steps), {None})

    def test_an_arrow_is_kept(self):
        self.assertEqual(loose("line", "read status -> 50", "put 0001 -> answer 4").steps,
                         [None, form.step(0, 0x50), form.step(4)])

    def test_bytes_that_no_line_stands_for(self):
        self.assertEqual(loose("raw 00 01 08", "line", "raw 00").recording.hex(), "01" "000108" "000107" "00")
        self.assertEqual(loose("version none", "raw 00 01").recording.hex(), "0001")
        self.assertEqual(loose("raw 00 01 08", "-> fault", "line").recording.hex(), "01" "000108" "000107")


class BadText(unittest.TestCase):
    LINES = [
        ("read status", "needs '->'"), ("read status -> 5", "2 hex digits"), ("word -> 12", "4 hex digits"),
        ("jump 20", "can't read 'jump 20'"), ("write command", "one value"), ("write speed 00", "no register 'speed'"),
        ("read", "needs a register"), ("read 1 2 -> 00", "one register or range"), ("read 300 -> 00", "above 255"),
        ("read 6-2 -> 00", "upside down"), ("put-block x=0000", "neither a number nor a range"),
        ("write 2-6 01 02", "one value"), ("read 1-2 -> 00", "2 values"), ("put 1234 -> 0000", "no such value"),
        ("2 word -> 0001 0002 0003", "2 values"), ("put", "no word"), ('put "\x7f"', "printable ASCII"),
        ("word -> answer 2", "1 and 4"), ("read status ->", "nothing stands right"), ('put-password user "x"', "put-password takes"),
        ('put-password user low "x"', "user|master"), (f'put-password user high "{"x" * 33}"', "at most 32"),
        ("put-block 256=0000", "above 255"), ("put-block 0", "not PLACES=WORD"), ('put-block 255="abc"', "past word 255"),
        ('put-block 3-5="abc"', "one place"), ("get-block 0=0001", "right of the arrow"), ("get-block 0=0001 -> 0=0001", "right of the arrow"),
        ('put-block 1="x', "quote is not closed"), ("0 line -> 0", "no action"), ("99999999 line -> 0", "a count is at most"),
        ("90000 put-block 0=0001", "grows past"), ("raw", "raw needs bytes"), ("raw 0", "2 hex digits"),
        ("raw 00 -> fault", "line of its own"), ("version 2", "2 hex digits")]
    TEXTS = [
        ("line -> 0\nversion 02", 3, "before every record"), ("version none\nversion 02\n-> fault", 3, "stands once"),
        ("version none\nraw 01\nversion 02", 4, "before every record"), ("raw 00", 2, "cut short"),
        ("raw 00\nline -> 0", 3, "raw bytes have to end"), ("-> fault", 2, "no fault"),
        ("raw 00 02 01 07\n-> fault", 2, "no fault"), ("raw 00\n-> fault\nline -> 0", 4, "after a fault"),
        ("raw 00\n-> fault\n-> fault", 4, "first fault")]

    def complaint(self, text):
        with self.assertRaises(BadInput) as caught:
            strict(text)
        return str(caught.exception)

    def test_each_line_by_file_line_and_reason(self):
        for line, reason in self.LINES:
            with self.subTest(line=line):
                self.assertRegex(self.complaint("power-on\n" + line), r"^NAME\.txt:3: [^\n]*$")
                self.assertIn(reason, self.complaint(line))

    def test_each_text_by_file_line_and_reason(self):
        for text, line, reason in self.TEXTS:
            with self.subTest(text=text):
                self.assertRegex(self.complaint(text), rf"^NAME\.txt:{line}: [^\n]*$")
                self.assertIn(reason, self.complaint(text))

    def test_all_of_them_at_once(self):
        complaint = self.complaint("\n".join(["power-on", *(line for line, _ in self.LINES), "power-on"]))
        self.assertEqual([line.split(":")[1] for line in complaint.splitlines()],
                         [str(number) for number in range(3, 3 + len(self.LINES))])

    def test_what_stands_behind_raw_bytes_is_said_once(self):
        self.assertEqual(len(self.complaint("raw 00\nline -> 0\nline -> 0\nline -> 0").splitlines()), 1)

    def test_a_loose_text_is_held_to_what_it_says(self):
        for lines, reason in [(["raw 00 01 07", "-> fault"], "no fault"), (["raw 00 01 08", "line -> 0"], "raw bytes have to end"),
                              (["line -> 12"], "1 hex digits"), (["raw 00", "-> fault", "line -> 0"], "after a fault"),
                              (["version 02", "line -> 0"], "version is not 01"), (["version none", "line", "line -> 0"], "version is not 01")]:
            with self.subTest(lines=lines):
                with self.assertRaisesRegex(BadInput, rf"^NAME\.txt:\d: .*{reason}"):
                    loose(*lines)


class LongCounts(unittest.TestCase):
    def test_a_repeated_line_takes_little_memory(self):
        times, most_bytes_a_record = 100_000, 64
        tracemalloc.start()
        self.addCleanup(tracemalloc.stop)
        for line in ("word", "word -> 0001", "word -> answer 4", "line -> 0"):
            with self.subTest(line=line):
                tracemalloc.clear_traces()
                self.assertEqual(len(loose(f"{times} {line}").steps), times)
                self.assertLess(tracemalloc.get_traced_memory()[1], most_bytes_a_record * times)


class Generator:
    """Recordings at random, from a seed: bytes, records, and what is near to them."""

    def __init__(self, seed):
        self.random = random.Random(seed)
        self.recorded = [path.read_bytes() for path in sorted((ROOT / "recordings").glob("*.rec"))]

    def noise(self):
        return self.random.choice([b"", form.VERSION]) + self.random.randbytes(self.random.randrange(80))

    def words(self):
        """Words as texts, equal ones, anything, and the three mixed."""
        letters = bytes(range(0x20, 0x7F))
        pieces = []
        for _ in range(self.random.choice([1, 1, 2, 5])):
            count, kind = self.random.choice([1, 2, 3, 9, 255, 256, 300]), self.random.randrange(3)
            equal = self.random.choice([b"\x00\x00", b"\x20\x20", self.random.randbytes(2)])
            pieces += [bytes(self.random.choices(letters, k=2)) if kind == 0 else equal if kind == 1 else self.random.randbytes(2)
                       for _ in range(count)]
        return pieces

    def records(self):
        payloads = []
        for _ in range(self.random.randrange(30)):
            kind, register = self.random.randrange(1, 8), self.random.choice([1, 2, 6, 7, 8, self.random.randrange(256)])
            if kind == form.WRITE_WORD:
                payloads += [bytes([kind]) + word for word in self.words()]
            elif kind == form.WRITE_REGISTER:
                values = self.random.choice([[0xF2], [0x20], [0] * 9, self.random.randbytes(20)])
                payloads += [bytes([kind, (register + place) % 256, value]) for place, value in enumerate(values)]
                payloads += [b"\x01\x07", b"\x01\x01"] * self.random.randrange(2)
            elif kind == form.READ_REGISTER:
                payloads += [bytes([kind, (register + place) % 256]) for place in range(self.random.choice([1, 6, 30]))]
            else:
                payloads += [bytes([kind])] * self.random.choice([1, 2, 256, 600])
        return form.VERSION + b"".join(map(form.record, payloads))

    def damaged(self):
        data = bytearray(self.random.choice([self.random.choice(self.recorded)[:3000], self.records()]))
        for _ in range(self.random.randrange(1, 6)):
            place = self.random.randrange(len(data) + 1)
            data[place:place + self.random.randrange(4)] = self.random.randbytes(self.random.randrange(4))
        return bytes(data)

    def step(self, payload):
        """A reply that a text can expect of a record."""
        if self.random.random() < 0.1:
            return form.step(self.random.choice([1, 4]))
        highest = {form.READ_REGISTER: 0x100, form.READ_WORD: 0x10000, form.LINE: 2}.get(payload[0], 1)
        return form.step(0, self.random.randrange(highest))

    def reply(self, recording):
        payloads, fault = form.records(recording)
        words = [form.step(0, int.from_bytes(word, "big")) for word in self.words()] * (1 + len(payloads) // 10)
        plain = [words.pop() if payload[0] == form.READ_WORD and words else self.step(payload) for payload in payloads]
        return form.VERSION + b"".join(plain) + (form.FAULT if fault else b"")


class BackToText(unittest.TestCase):
    def round_trip(self, recording, reply):
        self.assertEqual(parse(retell(recording), "NAME.txt", strict=False).recording, recording)
        again = parse(retell(recording, reply), "NAME.txt")
        self.assertEqual((again.recording, again.reply), (recording, reply))

    def test_every_recording(self):
        paths = sorted((ROOT / "recordings").glob("*.rec"))
        self.assertGreater(len(paths), 100)
        for path in paths:
            with self.subTest(name=path.name):
                self.round_trip(path.read_bytes(), path.with_suffix(".reply").read_bytes())

    def test_any_bytes(self):
        generator = Generator(1)
        for number, kind in [(300, generator.noise), (40, generator.records), (100, generator.damaged)]:
            for _ in range(number):
                recording = kind()
                with self.subTest(recording=recording[:200].hex()):
                    self.round_trip(recording, generator.reply(recording))

    def test_each_byte_of_a_small_recording_at_every_value(self):
        whole = strict("read status -> 50", "put 1234", "raw 00 02 07 00", "-> fault", "line").recording
        for place in range(len(whole)):
            for value in range(256):
                recording = whole[:place] + bytes([value]) + whole[place + 1:]
                self.assertEqual(parse(retell(recording), "NAME.txt", strict=False).recording, recording)

    def lines(self, *lines):
        """The text of what these lines make, without its first line and its comments."""
        made = strict(*lines)
        return [line.split("#")[0].rstrip() for line in retell(made.recording, made.reply).splitlines()[1:]]

    def test_lines_that_a_person_would_write(self):
        whole = ["write 2-6 02 0A 00 00 E0", "write command F1", 'put-password master maximum "pay day" rest FFFF',
                 "run 20 -> 51 04", "3 read status -> 50", "256 put 9876", "write command EC", "get-block -> identify 128=0007",
                 "read 9-255 -> answer 1", "write 0 00 -> answer 1", "write command F2", 'put-block 0=0001 1="pay" 40=0001',
                 "3 word -> answer 4", 'get-block -> 0="a text" 100-199=FFFF',
                 'put-block 3=0001 16="another, of odd length."', '5 word -> 0001 "letters"', "put 0001 0002", "2 hardware-reset",
                 "line -> 1", "power-on", "write device-control 04", "raw 00 03 09 00 19", "-> fault", "line", "raw 00"]
        self.assertEqual(self.lines(*whole), whole)

    def test_words_of_no_pattern_stand_sixteen_to_a_line(self):
        words = [f"{place * 7919 % 0x10000 | 0x8000:04X}" for place in range(256)]
        self.assertEqual(self.lines("put " + " ".join(words)),
                         ["put " + " ".join(words[place:place + 16]) for place in range(0, 256, 16)])

    def test_commands_and_faults_have_their_names_beside_them(self):
        text = retell(bytes.fromhex("01" "00030207EC" "00030207F2" "000109"))
        self.assertRegex(text, r"(?m)^write command EC +# IDENTIFY$")
        self.assertRegex(text, r"(?m)^write command F2 +# UNLOCK$")
        self.assertRegex(text, r"(?m)^raw 00 01 09 +# unknown kind 09h$")
        self.assertEqual(text.splitlines()[0], "# A recorded guest: 2 records, then a fault: unknown kind 09h.")

    def test_replies_that_no_text_can_expect(self):
        recording = bytes.fromhex("01" "00020107" "000105")
        for reply, reason in [("02", "starts with 02"), ("", "starts with nothing"), ("01 0003000050", "2 good records and no fault, the reply 1"),
                              ("01 0003000050 0003000000 000105", "the reply 3 records with a fault"),
                              ("01 0003000150 0003000000", "reply to record 1"), ("01 0003000050 0003000001", "reply to record 2"),
                              ("01 0003020000 0003000000", "reply to record 1"), ("01 0003010001 0003000000", "reply to record 1"),
                              ("01 0003000050 000105", "reply to record 2")]:
            with self.subTest(reply=reply):
                with self.assertRaisesRegex(BadInput, reason):
                    retell(recording, bytes.fromhex(reply))


if __name__ == "__main__":
    unittest.main()

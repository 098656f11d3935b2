"""A text into a recording, and into the reply that it expects."""
import re

from sessions import form, papers
from sessions.form import BadInput
from sessions.notation import block, cut_words, hexadecimal, password_block, registers, tokens, word_list

PLAIN = {"word": bytes([form.READ_WORD]), "hardware-reset": bytes([form.HARDWARE_RESET]),
         "power-on": bytes([form.POWER_ON]), "line": bytes([form.LINE])}
RUN_READS = [bytes([form.READ_REGISTER, 7]), bytes([form.READ_REGISTER, 1])]  # behind the Command of a run line
VALUE_DIGITS = {"read": 2, "word": 4, "line": 1}
ASKING = {*VALUE_DIGITS, "run", "get-block"}
MOST_TIMES = form.LONGEST // 3  # no record is shorter than three bytes


class Session:
    """One text: its one line, its bytes, and for each record the reply it expects and the text's line.

    A strict one says what every record is answered; else what has no arrow expects nothing (None).
    """

    def __init__(self, name, about, strict):
        self.name, self.about, self.strict = name, about, strict
        self.data = bytearray(form.VERSION)
        self.steps, self.lines = [], []
        self.faulted = False
        self.raw_line = None

    @property
    def recording(self):
        return bytes(self.data)

    @property
    def reply(self):
        return form.VERSION + b"".join(self.steps)

    def grow(self, data, times):
        if len(self.data) + len(data) * times > form.LONGEST:
            raise ValueError(f"the recording grows past {form.LONGEST:,} bytes")
        self.data += data * times

    def add(self, payloads, steps, times, line):
        self.grow(b"".join(map(form.record, payloads)), times)
        if not self.faulted:
            self.steps += steps * times
            self.lines += [line] * len(steps) * times


def register_payloads(action, args):
    if not args:
        raise ValueError(f"{action} needs a register")
    if action == "read":
        if len(args) != 1:
            raise ValueError("read takes one register or range")
        return [bytes([form.READ_REGISTER, number]) for number in registers(args[0], papers.READ_NAMES)]
    numbers = registers(args[0], papers.WRITE_NAMES)
    values = [hexadecimal(value, 2) for value in args[1:]]
    if len(values) == 1:
        values *= len(numbers)
    if len(values) != len(numbers):
        raise ValueError("write takes one value, or one for each register")
    return [bytes([form.WRITE_REGISTER, number, value]) for number, value in zip(numbers, values)]


def put(words):
    return [bytes([form.WRITE_WORD, *divmod(word, 256)]) for word in words]


def payloads(action, args):
    """The payloads one line stands for."""
    if action in ("read", "write"):
        return register_payloads(action, args)
    if action in PLAIN and not args:
        return [PLAIN[action]]
    if action == "put":
        return put(word_list(args))
    if action == "run" and len(args) == 1:
        return [bytes([form.WRITE_REGISTER, 7, hexadecimal(args[0], 2)]), *RUN_READS]
    if action in ("get-block", "put-block", "put-password"):
        args, part = cut_words(args)
        if action == "get-block":
            if args:
                raise ValueError("the words that get-block reads stand right of the arrow")
            return [PLAIN["word"]] * len(part)
        words = password_block(args) if action == "put-password" else block(args)
        return put(words[part[0]:part[-1] + 1])
    raise ValueError(f"can't read {' '.join([action, *args])!a}")


def values_of(action, args, count, right):
    """The value of each of a line's records, from what stands right of the arrow."""
    if action == "get-block":
        part = cut_words(args)[1]
        return block(right)[part[0]:part[-1] + 1]
    if action == "run" and len(right) == 2:
        return [0] + [hexadecimal(value, 2) for value in right]
    if action not in VALUE_DIGITS:
        raise ValueError(f"{action} gives no such value back")
    values = word_list(right) if action == "word" else [hexadecimal(value, VALUE_DIGITS[action]) for value in right]
    if len(values) != count:
        raise ValueError(f"{count} values are expected here, {len(values)} stand right of the arrow")
    return values


def expected(action, args, count, right):
    """The reply that each of a line's records expects."""
    if not right:
        raise ValueError("nothing stands right of the arrow")
    if right[0] == "answer":
        if len(right) != 2 or right[1] not in ("1", "4"):
            raise ValueError("the answers to name here are 1 and 4 (0 has a value, 5 is 'fault')")
        return [form.step(int(right[1]))] * count
    return [form.step(0, value) for value in values_of(action, args, count, right)]


def unsaid(session, action, count):
    """What a line without an arrow expects."""
    if not session.strict:
        return [None] * count
    if action in ASKING:
        raise ValueError(f"{action} needs '->' and what is expected")
    return [form.DONE] * count


def counts_values(action, right):
    """Whether the count in front says how many words have values of their own, and not how often the line stands."""
    return action == "word" and bool(right) and right[0] != "answer" and len(word_list(right)) > 1


def take_records(session, times, left, right, line):
    action, args = left[0], left[1:]
    sent = payloads(action, args)
    if counts_values(action, right):
        sent, times = sent * times, 1
    if session.faulted:
        if right is not None:
            raise ValueError("nothing is answered after a fault")
        steps = [None] * len(sent)
    elif right is not None and form.version_flaw(session.data):
        raise ValueError("nothing is answered where the version is not 01")
    elif session.raw_line and (session.strict or right is not None):
        session.raw_line = None  # said once is enough
        raise ValueError("raw bytes have to end in '-> fault'")
    elif right is None:
        steps = unsaid(session, action, len(sent))
    else:
        steps = expected(action, args, len(sent), right)
    session.add(sent, steps, times, line)


def take_version(session, args):
    if session.data != form.VERSION or session.faulted or session.raw_line or len(args) != 1:
        raise ValueError("'version none' or 'version XX' stands once, before every record")
    session.data = bytearray() if args[0] == "none" else bytearray([hexadecimal(args[0], 2)])


def take_raw(session, times, args, line):
    if not args:
        raise ValueError("raw needs bytes")
    session.grow(bytes(hexadecimal(value, 2) for value in args), times)
    session.raw_line = line


def take_fault(session, line):
    if session.faulted:
        raise ValueError("a reply ends at its first fault")
    session.steps.append(form.FAULT)
    session.lines.append(line)
    session.faulted = True


def split_count(left):
    """The count in front, 1 without one, and the rest."""
    if not left or not re.fullmatch("[0-9]+", left[0]):
        return 1, left
    if len(left[0]) > len(str(MOST_TIMES)) or int(left[0]) > MOST_TIMES:
        raise ValueError(f"a count is at most {MOST_TIMES:,}")
    return int(left[0]), left[1:]


def take_line(session, words, line):
    arrow = words.index("->") if "->" in words else len(words)
    left, right = words[:arrow], words[arrow + 1:] if arrow < len(words) else None
    times, left = split_count(left)
    if words == ["->", "fault"]:
        take_fault(session, line)
    elif not left or times == 0:
        raise ValueError("no action stands here")
    elif left[0] in ("version", "raw") and right is not None:
        raise ValueError("'-> fault' stands on a line of its own")
    elif left[0] == "version":
        take_version(session, left[1:])
    elif left[0] == "raw":
        take_raw(session, times, left[1:], line)
    else:
        take_records(session, times, left, right, line)


def decode(data, name, encoding):
    try:
        return data.decode(encoding)
    except UnicodeDecodeError as reason:
        line = data[:reason.start].count(b"\n") + 1
        kind = {"ascii": "plain ASCII", "utf-8-sig": "UTF-8"}[encoding]
        raise BadInput(f"{name}:{line}: the text is not {kind}") from None


def parse(text, name, strict=True):
    """The session of a text; every line that can't be taken stands in the complaint."""
    lines = re.split("\r\n|\r|\n", text)
    about = lines[0][1:].strip() if lines[0].startswith("#") else ""
    faults = []
    if strict and not about:
        faults.append(f"{name}:1: the first line has to be a comment on what the recording shows")
    session = Session(name, about, strict)
    for number, line in enumerate(lines, 1):
        try:
            words = tokens(line)
            if words:
                take_line(session, words, number)
        except ValueError as reason:
            faults.append(f"{name}:{number}: {reason}")
    if faults:
        raise BadInput("\n".join(faults))
    check_fault(session)
    return session


def check_fault(session):
    """The bytes have to fault exactly where the text says so; else a slip of the text would stand as a rule."""
    if not session.strict and not session.faulted:
        return
    good, fault = form.records(session.recording)
    said = len(session.lines) - session.faulted
    if (fault is not None) != session.faulted or len(good) != said:
        where = session.raw_line or (session.lines or [1])[-1]
        raise BadInput(f"{session.name}:{where}: the text says {said} good records"
                       f" and {'a' if session.faulted else 'no'} fault,"
                       f" the bytes hold {len(good)} and {fault or 'no fault'}")

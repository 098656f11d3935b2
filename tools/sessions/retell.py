"""A recording, and its reply where there is one, back into text.

parse makes the very same bytes of that text, whatever the recording's bytes are; where a reply was given the text is
strict, and expects that reply.
"""
from typing import NamedTuple, Optional

from sessions import form, papers
from sessions.form import BadInput
from sessions.notation import fresh_identify
from sessions.stretches import EQUAL, TEXT, is_text_byte, quoted, stretches
from sessions.text import PLAIN, RUN_READS

WIDTH = 100  # characters of a line that lists or names words
BYTES_A_LINE, WORDS_A_LINE, REGISTERS_A_LINE = 32, 16, 16
COMMENT_COLUMN = 31
PLAIN_NAMES = {payload[0]: name for name, payload in PLAIN.items()}


class Line(NamedTuple):
    """A line of text, to stand count times in a row; None where a count in front would not just repeat it."""
    body: str
    count: Optional[int] = 1
    comment: str = ""


class Record(NamedTuple):
    """A good record, and the reply that is expected of it, if any."""
    payload: bytes
    step: Optional[bytes]

    @property
    def kind(self):
        return self.payload[0]

    @property
    def written(self):
        """The value of a register write, or the word."""
        return self.payload[2] if self.kind == form.WRITE_REGISTER else int.from_bytes(self.payload[1:3], "big")

    @property
    def answer(self):
        return None if self.step is None else self.step[2]

    @property
    def value(self):
        return self.step[3] << 8 | self.step[4]


def arrow(record, digits=0):
    """What stands right of a record's line; a value only where digits says that there is one."""
    if record.answer:
        return f" -> answer {record.answer}"
    return f" -> {record.value:0{digits}X}" if digits and record.step is not None else ""


# --- words ---------------------------------------------------------------------------------------

def block_items(words, base):
    """What a block is besides the words of base, as PLACES=WORD and PLACE="text"."""
    items, place = [], 0
    while place < 256:
        end = place
        while end < 256 and words[end] != base[end]:
            end += 1
        for kind, first, last in stretches(words[place:end]):
            first, last = first + place, last + place
            if kind == TEXT:
                items.append(f"{first}={quoted(words[first:last])}")
            elif kind == EQUAL:
                items.append(f"{first}-{last - 1}={words[first]:04X}")
            else:
                items += [f"{each}={words[each]:04X}" for each in range(first, last)]
        place = end + 1
    return " ".join(items)


def password_line(words):
    """put-password, where it can say the block."""
    password = b"".join(word.to_bytes(2, "little") for word in words[1:17]).rstrip(b"\x00")
    if words[0] & ~0x0101 or not all(map(is_text_byte, password)) or len(set(words[17:])) > 1:
        return ""
    purpose, level = "master" if words[0] & 1 else "user", "maximum" if words[0] >> 8 else "high"
    rest = f" rest {words[17]:04X}" if words[17] else ""
    return f'put-password {purpose} {level} "{password.decode("ascii")}"{rest}'


def put_block_line(words):
    return "put-block " + block_items(words, [0] * 256)


def get_block_line(words):
    if len(set(words)) == 1:
        return ""
    plain = "get-block -> " + block_items(words, [0] * 256)
    identify = "get-block -> identify " + block_items(words, fresh_identify())
    return min(plain, identify, key=len).rstrip()


def word_tokens(kind, words):
    """(token, number of words) of a stretch."""
    if kind != TEXT:
        return [(f"{word:04X}", 1) for word in words]
    size = WIDTH // 4
    return [(quoted(part), len(part)) for part in (words[i:i + size] for i in range(0, len(words), size))]


def listed(words):
    """(number of words, tokens, whether one token is for all) of lines that list any words."""
    count, line = 0, []

    def whole_line():
        same = len(set(line)) == 1 and len(line) == count
        return count, line[0] if same else " ".join(line), same

    for kind, first, end in stretches(words):
        alone = kind == EQUAL and end - first >= 4
        for token, number in [(f"{words[first]:04X}", end - first)] if alone else word_tokens(kind, words[first:end]):
            if line and (alone or len(line) == WORDS_A_LINE or len(" ".join(line)) + len(token) > WIDTH):
                yield whole_line()
                count, line = 0, []
            if alone:
                yield number, token, True
            else:
                count, line = count + number, line + [token]
    if line:
        yield whole_line()


def word_lines(words, block_line, listed_line):
    """Lines for words in a row: blocks of 256 where a line can say one, and lists."""
    lines = []
    for place in range(0, len(words), 256):
        block = words[place:place + 256]
        body = block_line(block) if len(block) == 256 else ""
        if body and len(body) <= WIDTH:
            lines.append(Line(body))
        else:
            lines += [listed_line(*each) for each in listed(block)]
    return lines


def put_line(number, tokens, same):
    return Line(f"put {tokens}", number if same else 1)


def word_line(number, tokens, same):
    """A count before word says how many values there are; it repeats the line only where that is one."""
    if same:
        return Line(f"word -> {tokens}", number)
    return Line(f"{number} word -> {tokens}", None)


def take_puts(records, place, command):
    """Words written one after the other, all with the same answer."""
    end = place
    while end < len(records) and records[end].kind == form.WRITE_WORD and records[end].answer == records[place].answer:
        end += 1
    words = [record.written for record in records[place:end]]

    def block_line(block):
        password = password_line(block) if command in papers.PASSWORD_COMMANDS else ""
        return password or ("" if len(set(block)) == 1 else put_block_line(block))

    lines = word_lines(words, block_line, put_line)
    return end, [line._replace(body=line.body + arrow(records[place])) for line in lines]


def take_gets(records, place):
    """Words read one after the other, all with the same answer."""
    end = place
    while end < len(records) and records[end].kind == form.READ_WORD and records[end].answer == records[place].answer:
        end += 1
    if records[place].answer == 0:
        return end, word_lines([record.value for record in records[place:end]], get_block_line, word_line)
    if records[place].answer:
        return end, [Line("word" + arrow(records[place]), end - place)]
    blocks, rest = divmod(end - place, 256)
    return end, [Line(*each) for each in (("get-block", blocks), ("word", rest)) if each[1]]


# --- registers and the rest ----------------------------------------------------------------------

def is_command(record):
    return record.kind == form.WRITE_REGISTER and record.payload[1] == 7


def take_run(records, place):
    """Command written, then Status and Error read, all of them done."""
    three = records[place:place + 3]
    reads = [record.payload for record in three[1:]]
    if not is_command(three[0]) or reads != RUN_READS or any(record.answer for record in three):
        return None
    code, values = three[0].written, [f"{record.value:02X}" for record in three[1:] if record.step is not None]
    right = " -> " + " ".join(values) if values else ""
    return place + 3, [Line(f"run {code:02X}{right}", comment=papers.command_name(code))]


def rising(records, place):
    """Where the records end that read, or write, one register after the other with the same answer.

    Status, Command and register 8 stand by their names.
    """
    end, first = place + 1, records[place]
    while (end < len(records) and records[end].kind == first.kind and records[end].answer == first.answer
           and records[end].payload[1] == first.payload[1] + end - place and records[end].payload[1] not in (7, 8)):
        end += 1
    return end


def register_line(records, digits):
    """One line for records of registers in a row."""
    first, count = records[0], len(records)
    writing = first.kind == form.WRITE_REGISTER
    number, names = first.payload[1], papers.WRITE_NAMES if writing else papers.READ_NAMES
    register = f"{number}-{number + count - 1}" if count > 1 else names.get(number, str(number)).lower()
    values = [f"{record.written:02X}" for record in records] if writing else []
    left = " ".join(["write" if writing else "read", register, *(values[:1] if len(set(values)) == 1 else values)])
    right = arrow(first, digits) + "".join(f" {record.value:02X}" for record in records[1:] if digits and record.answer == 0)
    return Line(left + right, comment=papers.command_name(first.written) if is_command(first) else "")


def take_registers(records, place):
    """A register, or three and more in a row as a range."""
    writing = records[place].kind == form.WRITE_REGISTER
    end = rising(records, place)
    alike = len({record.written for record in records[place:end]}) == 1 if writing else records[place].answer != 0
    if not alike:
        end = min(end, place + REGISTERS_A_LINE)
    if end - place < 3:
        end = place + 1
    return end, [register_line(records[place:end], 0 if writing else 2)]


def take(records, place, command):
    """The lines for what starts at a place, and the place behind it."""
    record = records[place]
    if record.kind == form.WRITE_WORD:
        return take_puts(records, place, command)
    if record.kind == form.READ_WORD:
        return take_gets(records, place)
    if record.kind in (form.READ_REGISTER, form.WRITE_REGISTER):
        return take_run(records, place) or take_registers(records, place)
    return place + 1, [Line(PLAIN_NAMES[record.kind] + arrow(record, 1 if record.kind == form.LINE else 0))]


def record_lines(records):
    lines, place, command = [], 0, None
    while place < len(records):
        end, taken = take(records, place, command)
        for record in records[place:end]:
            if is_command(record):
                command = record.written
        lines += taken
        place = end
    return lines


def raw_lines(data, comment):
    pieces = [data[i:i + BYTES_A_LINE] for i in range(0, len(data), BYTES_A_LINE)]
    return [Line("raw " + piece.hex(" ").upper(), comment="" if place else comment) for place, piece in enumerate(pieces)]


# --- the whole -----------------------------------------------------------------------------------

def expected_steps(recording, reply):
    """The reply record by record; refused where it is none that a text can expect of this recording."""
    payloads, fault = form.records(recording)
    steps = form.replies(reply)
    for number, (payload, step) in enumerate(zip(payloads, steps), 1):
        answer, value = form.answer_of(step) or (None, None)
        highest = {form.READ_REGISTER: 0xFF, form.READ_WORD: 0xFFFF, form.LINE: 0xF}.get(payload[0], 0)
        if not (answer in (1, 4) and value == 0 or answer == 0 and value <= highest):
            raise BadInput(f"the reply to record {number} is {step[:16].hex(' ')}, which no text can expect")
    if steps[len(payloads):] != [form.FAULT] * (fault is not None) or len(steps) < len(payloads):
        raise BadInput(f"the recording has {len(payloads)} good records and {fault or 'no fault'}, the reply"
                       f" {len(steps)} records{' with a fault' if steps[-1:] == [form.FAULT] else ''}")
    return steps


def all_lines(recording, steps):
    """Every byte in a line: the good records, the fault, and what stands behind it."""
    lines, run, fault = [], [], form.version_flaw(recording)
    if fault:
        lines = [Line(f"version {recording[:1].hex().upper() or 'none'}", comment=fault), Line("-> fault", None)]
    for number, (frame, flaw) in enumerate(form.frames(recording)):
        if not flaw:
            run.append(Record(frame[2:], steps[number] if steps and not fault else None))
            continue
        lines += record_lines(run) + raw_lines(frame, flaw)
        run = []
        if not fault:
            fault = flaw
            lines.append(Line("-> fault", None))
    return lines + record_lines(run)


def fold(lines):
    folded = []
    for line in lines:
        if folded and line.count and (line.body, line.comment) == (folded[-1].body, folded[-1].comment):
            folded[-1] = line._replace(count=folded[-1].count + line.count)
        else:
            folded.append(line)
    return folded


def line_text(line):
    body = f"{line.count} {line.body}" if (line.count or 1) > 1 else line.body
    return f"{body:<{COMMENT_COLUMN}} # {line.comment}" if line.comment else body


def retell(recording, reply=None):
    """The text of a recording; its first line says how much there is."""
    steps = None if reply is None else expected_steps(recording, reply)
    payloads, fault = form.records(recording)
    number = "1 record" if len(payloads) == 1 else f"{len(payloads)} records"
    about = f"# A recorded guest: {number}{f', then a fault: {fault}' if fault else ''}."
    return "\n".join([about, *map(line_text, fold(all_lines(recording, steps)))]) + "\n"

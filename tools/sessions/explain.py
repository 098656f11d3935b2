"""A recording and its replies explained: a line for each record, equal ones and words in a row as one."""
from dataclasses import dataclass, field
from typing import Optional

from sessions import form, identify
from sessions.follow import Follower
from sessions.meanings import action_text, answer_text, inline, listed, places

ACTION_WIDTH = 46


def told(first, count, action, answer, details=()):
    """The lines for records that are told as one; details stand below."""
    number = f"{first}-{first + count - 1}" if count > 1 else f"{first}"
    head = f"{number:>11}  {action:<{ACTION_WIDTH}}"
    return [head.rstrip() if answer is None else f"{head} -> {answer}", *(" " * 15 + line for line in details)]


@dataclass
class Equal:
    """Records in a row that do and get the same."""
    first: int
    action: str
    answer: Optional[str]
    count: int = 1
    details: list = field(default_factory=list)

    def lines(self, _):
        return told(self.first, self.count, self.action + (f" x {self.count}" if self.count > 1 else ""), self.answer, self.details)


@dataclass
class Words:
    """Words that pass one after the other, up to a block's end; place is that of the first, where it is known."""
    first: int
    reading: bool
    answered: bool
    identifies: bool
    place: Optional[int]
    words: list

    def goes_on_with(self, other):
        alike = (self.reading, self.answered, self.identifies) == (other.reading, other.answered, other.identifies)
        behind = None if self.place is None else self.place + len(self.words)
        return alike and behind == other.place and (self.place or 0) + len(self.words) < 256

    def lines(self, base):
        """base is an IDENTIFY block told before, if any."""
        count = len(self.words)
        if self.identifies and self.reading and self.answered:
            return self.identify_lines(count, base)
        action = f"{'read' if self.reading else 'write'} {'word' if count == 1 else f'{count} words'}"
        if self.reading and not self.answered:
            return told(self.first, count, action, None)
        text = inline(self.words)
        details = [] if text else listed(self.words, self.place or 0)
        if self.reading:
            return told(self.first, count, action, text or "as follows", details)
        return told(self.first, count, f"{action}: {text}" if text else action, "done" if self.answered else None, details)

    def identify_lines(self, count, base):
        action = f"read {places(self.place, self.place + count)} of IDENTIFY"
        if count == 1:
            return told(self.first, 1, action, identify.word_text(self.words[0], self.place))
        known = (base.words, f"as in record {base.first}") if base else ()
        return told(self.first, count, action, "as follows", identify.lines(self.words, self.place, *known))


class Explanation:
    """What is told of the records so far; clashes counts the answers that are not what a text expects."""

    def __init__(self):
        self.rows, self.follower, self.clashes = [], Follower(), 0

    def add(self, number, payload, step, wanted):
        answer = form.answer_of(step)
        reading, writing = payload[0] == form.READ_WORD, payload[0] == form.WRITE_WORD
        passes = step is None or reading and answer and answer[0] == 0 or writing and step == form.DONE
        if (reading or writing) and passes and wanted in (None, step):
            word = answer[1] if reading and answer else int.from_bytes(payload[1:], "big")
            self.add_word(Words(number, reading, answer is not None, self.follower.identifies, self.follower.place, [word]))
        else:
            self.add_plain(number, action_text(payload), payload, step, wanted)
        self.follower.step(payload, answer)

    def add_word(self, word):
        last = self.rows[-1] if self.rows else None
        if isinstance(last, Words) and last.goes_on_with(word):
            last.words += word.words
        else:
            self.rows.append(word)

    def add_plain(self, number, action, payload, step, wanted):
        answer, last = answer_text(payload, step), self.rows[-1] if self.rows else None
        ignored = self.follower.ignored(payload)
        if ignored and step == form.DONE:
            answer += f", ignored: {ignored}"
        if wanted not in (None, step):
            answer += f"  (the text expects: {answer_text(payload, wanted)})"
            self.clashes += 1
        if isinstance(last, Equal) and (last.action, last.answer) == (action, answer):
            last.count += 1
        else:
            self.rows.append(Equal(number, action, answer))

    def add_fault(self, number, fault, unrun, step, wanted):
        self.add_plain(number, f"fault: {fault}", b"\x00", step, wanted)
        shown = unrun[:16].hex(" ").upper() + (" .." if len(unrun) > 16 else "")
        self.rows[-1].details = [f"not run: {shown}"] if unrun else []

    def lines(self):
        lines, base = [], None
        for row in self.rows:
            lines += row.lines(base)
            if base is None and isinstance(row, Words) and row.identifies and row.answered and len(row.words) == 256:
                base = row
        return lines or ["no records"]


def explain(recording, reply=None, expected=()):
    """The lines for a person, and how many answers are not what a text expects.

    expected has the reply that the text expects of each record, or None; without a reply it stands in for one.
    """
    payloads, fault = form.records(recording)
    replies = None if reply is None else form.replies(reply)
    explanation = Explanation()

    def steps(place):
        wanted = expected[place] if place < len(expected) else None
        if replies is None:
            return wanted, None
        return replies[place] if place < len(replies) else b"", wanted

    for place, payload in enumerate(payloads):
        explanation.add(place + 1, payload, *steps(place))
    if fault:
        run = form.VERSION + b"".join(map(form.record, payloads)) if recording[:1] == form.VERSION else b""
        explanation.add_fault(len(payloads) + 1, fault, recording[len(run):], *steps(len(payloads)))
    past = (replies or [])[len(payloads) + (fault is not None):]
    return explanation.lines() + [f"{'':11}  reply past the end: {extra[:16].hex(' ')}" for extra in past], explanation.clashes

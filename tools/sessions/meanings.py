"""What records, replies and words mean, in words for a person."""
from sessions import form, papers
from sessions.stretches import EQUAL, TEXT, quoted, stretches

INLINE_WIDTH = 60  # characters of words that stand on their record's own line
WORDS_A_LINE, TEXT_WORDS_A_LINE = 16, 32
PLAIN_ACTIONS = {form.READ_WORD: "read word", form.HARDWARE_RESET: "hardware reset", form.POWER_ON: "power-on",
                 form.LINE: "ask the interrupt line"}


# --- registers and answers -----------------------------------------------------------------------

def bits(value, names):
    return " ".join([f"{value:02X}h", *papers.bit_names(value, names)])


def register_value(number, value, writing):
    """A value beside its meaning, where the register has one."""
    if number == 7 and writing:
        return f"{value:02X}h {papers.command_name(value)}"
    if number == 8 and writing:
        return bits(value, papers.CONTROL_BITS)
    if number in (7, 8):
        return bits(value, papers.STATUS_BITS)
    if number == 1 and not writing:
        return "01h start value" if value == 1 else bits(value, papers.ERROR_BITS)
    if number == 6:
        return f"{bits(value, papers.DEVICE_BITS)} head nibble {value & 0x0F}"
    return f"{value:02X}h"


def action_text(payload):
    kind = payload[0]
    if kind == form.READ_REGISTER:
        return f"read {papers.READ_NAMES.get(payload[1], f'register {payload[1]}')}"
    if kind == form.WRITE_REGISTER:
        name = papers.WRITE_NAMES.get(payload[1], f"register {payload[1]}")
        return f"write {name} {register_value(payload[1], payload[2], True)}"
    if kind == form.WRITE_WORD:
        return f"write word {payload[1]:02X}{payload[2]:02X}h"
    return PLAIN_ACTIONS[kind]


def answer_text(payload, step):
    """What a reply to a record says; None where none is known."""
    if step is None:
        return None
    if not step:
        return "no reply"
    if step == form.FAULT:
        return f"fault, answer 5: {papers.ANSWERS[5]}"
    if form.answer_of(step) is None:
        return f"not a reply record: {step[:16].hex(' ')}"
    answer, value = form.answer_of(step)
    if answer:
        return f"answer {answer}: {papers.ANSWERS.get(answer, 'unknown')}" + (f", value {value:04X}h" if value else "")
    if payload[0] == form.READ_REGISTER and value < 256:
        return register_value(payload[1], value, False)
    if payload[0] == form.LINE:
        return {0: "0", 1: "1 raised"}.get(value, f"{value:04X}h")
    if payload[0] in (form.READ_REGISTER, form.READ_WORD):
        return f"{value:04X}h"
    return "done" if value == 0 else f"done, value {value:04X}h"


# --- words ---------------------------------------------------------------------------------------

def hex_words(words):
    return " ".join(f"{word:04X}h" for word in words)


def places(first, end):
    return f"word {first}" if end - first == 1 else f"words {first}-{end - 1}"


def by_place(found, count, others):
    """Lines for (first, end, text) in the order of places, and what the others of count words are, if there are any."""
    lines = [f"{places(first, end):<14} {text}" for first, end, text in sorted(found)]
    told = sum(end - first for first, end, _ in found)
    return lines + [f"{'all others':<14} {others}"] if told < count else lines


def stretch_text(kind, words):
    if kind == TEXT:
        return quoted(words)
    return f"{words[0]:04X}h x {len(words)}" if kind == EQUAL else hex_words(words)


def inline(words):
    """Words on one line in their order; nothing where that gets long."""
    text = " ".join(stretch_text(kind, words[first:end]) for kind, first, end in stretches(words))
    return text if len(text) <= INLINE_WIDTH else ""


def listed(words, place):
    """A line for each stretch that is not 0, or for a part of it."""
    found = []
    for kind, first, end in stretches(words):
        size = {EQUAL: end - first, TEXT: TEXT_WORDS_A_LINE}.get(kind, WORDS_A_LINE)
        parts = [(start, words[start:min(start + size, end)]) for start in range(first, end, size)]
        found += [(place + start, place + start + len(part), stretch_text(kind, part)) for start, part in parts if any(part)]
    return by_place(found, len(words), "0000h")

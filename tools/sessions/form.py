"""The bytes of recordings and replies, by document 01's section on replay."""

VERSION = b"\x01"
KIND_LENGTHS = {1: 2, 2: 3, 3: 1, 4: 3, 5: 1, 6: 1, 7: 1}
READ_REGISTER, WRITE_REGISTER, READ_WORD, WRITE_WORD, HARDWARE_RESET, POWER_ON, LINE = range(1, 8)
FAULT = b"\x00\x01\x05"
STEP_LENGTH = 5  # of a reply to a good record: length 0003h, answer, two-byte value
LONGEST = 1 << 26  # bytes; a slip in a count is to be refused and not to fill the memory


class BadInput(Exception):
    """Something given that can't be taken; the message is for the person who gave it, a line for each fault."""


def record(payload):
    return len(payload).to_bytes(2, "big") + payload


def step(answer, value=0):
    """The reply to one good record."""
    return b"\x00\x03" + bytes([answer]) + value.to_bytes(2, "big")


DONE = step(0)


def answer_of(reply_step):
    """Answer and value of a reply to a good record, or None where it is no such reply."""
    if reply_step and len(reply_step) == STEP_LENGTH and reply_step[:2] == b"\x00\x03":
        return reply_step[2], reply_step[3] << 8 | reply_step[4]
    return None


def flaw(frame):
    """Why the bytes of one record are no good record, or None."""
    length, payload = int.from_bytes(frame[:2], "big"), frame[2:]
    if len(frame) < 2 or len(payload) < length:
        return "a record cut short"
    if not payload:
        return "a payload too short: it has no kind"
    wanted = KIND_LENGTHS.get(payload[0])
    if wanted is None:
        return f"unknown kind {payload[0]:02X}h"
    if length != wanted:
        return f"a payload too {'long' if length > wanted else 'short'} for kind {payload[0]:02X}h"
    return None


def frames(recording):
    """Each record behind the version byte, good or not: its bytes, and its flaw."""
    place = 1
    while place < len(recording):
        length = 2 + int.from_bytes(recording[place:place + 2], "big")
        frame = recording[place:place + length]
        yield frame, flaw(frame)
        place += length


def version_flaw(recording):
    if not recording:
        return "empty input"
    if recording[:1] != VERSION:
        return f"another version ({recording[0]:02X}h)"
    return None


def records(recording):
    """The payloads that are run, and why the recording stops being one (None where it doesn't)."""
    fault = version_flaw(recording)
    if fault:
        return [], fault
    found = []
    for frame, fault in frames(recording):
        if fault:
            return found, fault
        found.append(frame[2:])
    return found, None


def replies(reply):
    """One bytes value for each reply record; a tail that is no whole record stands last."""
    if reply[:1] != VERSION:
        raise BadInput(f"the reply starts with {reply[:4].hex(' ') or 'nothing'}, not with version 01")
    found, place = [], 1
    while place < len(reply):
        length = 2 + int.from_bytes(reply[place:place + 2], "big")
        found.append(reply[place:place + length])
        place += length
    return found

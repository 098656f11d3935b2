"""Words in a row, cut into stretches that a person can read: equal words, texts, and the rest."""

EQUAL, TEXT, WORDS = "equal", "text", "words"
LONG_EQUAL = 8  # words from which equal ones are told as such, though they be part of a text


def is_text_byte(byte):
    return 0x20 <= byte <= 0x7E and byte != ord('"')


def equal_end(words, start):
    end = start + 1
    while end < len(words) and words[end] == words[start]:
        end += 1
    return end


def text_end(words, start):
    """Where the text ends that starts at a word; its last character may stand alone, as a quoted text leaves it."""
    for place in range(start, len(words)):
        low, high = words[place] & 0xFF, words[place] >> 8
        if not is_text_byte(low) or place > start and equal_end(words, place) - place >= LONG_EQUAL:
            return place
        if not is_text_byte(high):
            return place + (high == 0)
    return len(words)


def stretch_at(words, start):
    equal, text = equal_end(words, start), text_end(words, start)
    if equal - start >= LONG_EQUAL or equal - start >= max(2, text - start):
        return EQUAL, equal
    alone = text == len(words) or words[text] == 0
    return (TEXT, text) if text - start >= (2 if alone else 3) else (WORDS, start + 1)


def stretches(words):
    """(kind, first, end) of each stretch, in order and without a gap."""
    found, place = [], 0
    while place < len(words):
        kind, end = stretch_at(words, place)
        if kind == WORDS and found and found[-1][0] == WORDS:
            found[-1] = (WORDS, found[-1][1], end)
        else:
            found.append((kind, place, end))
        place = end
    return found


def quoted(words):
    """The quoted text that a TEXT stretch is."""
    characters = b"".join(word.to_bytes(2, "little") for word in words).rstrip(b"\x00")
    return f'"{characters.decode("ascii")}"'

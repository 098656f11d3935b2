"""The words of an IDENTIFY transfer by their meaning."""
from sessions import papers
from sessions.meanings import by_place, hex_words


def characters(words):
    """A text of IDENTIFY, whose first character is in the high byte."""
    data = b"".join(word.to_bytes(2, "big") for word in words)
    if not data.strip(b" "):
        return f"{len(data)} spaces"
    return f'"{data.decode("ascii")}"' if all(0x20 <= byte <= 0x7E for byte in data) else hex_words(words)


def field_text(words, field):
    """A whole field's words."""
    first, _, name, meaning = field
    if meaning == "text":
        return f"{name}: {characters(words)}"
    if meaning == "number":
        value = str(sum(word << 16 * place for place, word in enumerate(words)))
    elif first == papers.LOCK_WORD:
        value = papers.lock_state(words[0])
    else:
        value = ", ".join(papers.word_bits(words[0], meaning)) or "none"
    return f"{hex_words(words)}  {name}: {value}"


def named(words, place):
    """(first, end, text) of the fields among words that stand at a place; of a field cut off only whose part it is."""
    for field in papers.IDENTIFY_FIELDS:
        first, end = max(field[0], place), min(field[1] + 1, place + len(words))
        part = words[first - place:end - place]
        if first < end:
            whole = end - first == field[1] + 1 - field[0]
            yield first, end, field_text(part, field) if whole else f"{hex_words(part)}  part of {field[2]}"


def word_text(word, place):
    """One word alone."""
    return next((text for _, _, text in named([word], place)), hex_words([word]))


def lines(words, place, base=None, others="0000h"):
    """A line for each field, and for each other word that is not 0.

    With a base, the 256 words of an earlier IDENTIFY: for the lock state and what is not as it was; others then says where it was.
    """
    found = list(named(words, place))
    nameless = set(range(place, place + len(words))) - {each for first, end, _ in found for each in range(first, end)}
    if base:
        found = [(first, end, text) for first, end, text in found
                 if first == papers.LOCK_WORD or words[first - place:end - place] != base[first:end]]
    found += [(each, each + 1, hex_words([words[each - place]])) for each in nameless
              if words[each - place] != (base[each] if base else 0)]
    return by_place(found, len(words), others)

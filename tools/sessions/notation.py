"""What texts are made of, read: tokens, numbers, places, words and blocks of 256 words."""
import re

from sessions import papers

TOKEN = re.compile(r'\s+|#.*|((?:[^\s"#]|"[^"]*")+)')


def tokens(line):
    found, place = [], 0
    while place < len(line):
        match = TOKEN.match(line, place)
        if not match:
            raise ValueError("a quote is not closed")
        if match.group(1):
            found.append(match.group(1))
        place = match.end()
    return found


def hexadecimal(token, digits):
    if not re.fullmatch(r"[0-9A-Fa-f]{%d}" % digits, token):
        raise ValueError(f"{token!a} is not a number of {digits} hex digits")
    return int(token, 16)


def span(token, ceiling):
    """'7' or '0-6': places in decimal, as the papers number registers and words."""
    match = re.fullmatch(r"([0-9]{1,5})(?:-([0-9]{1,5}))?", token)
    if not match:
        raise ValueError(f"{token!a} is neither a number nor a range")
    first, last = int(match.group(1)), int(match.group(2) or match.group(1))
    if not first <= last <= ceiling:
        raise ValueError(f"range {token!a} is upside down or ends above {ceiling}")
    return range(first, last + 1)


def registers(token, names):
    for number, name in names.items():
        if token.lower() == name.lower():
            return [number]
    if token[0] in "0123456789":
        return list(span(token, 255))
    raise ValueError(f"no register {token!a} that way")


def text_words(token):
    """A quoted text as words, first character in the low byte, as a password's bytes lie."""
    if not re.fullmatch(r'"[ !#-~]*"', token):
        raise ValueError(f"{token!a} is not a text of printable ASCII in quotes")
    data = token[1:-1].encode("ascii")
    data += bytes(len(data) % 2)
    return [data[i] | data[i + 1] << 8 for i in range(0, len(data), 2)]


def word_list(items):
    """Words in a row: each item is one in hex, or a quoted text."""
    words = []
    for item in items:
        words += text_words(item) if item.startswith('"') else [hexadecimal(item, 4)]
    if not words:
        raise ValueError("no word stands here")
    return words


def fresh_identify():
    return [papers.FRESH_IDENTIFY.get(place, 0) for place in range(256)]


def block(items):
    """256 words: 'identify' for the fresh IDENTIFY words, then PLACES=WORD or PLACE="text"."""
    words = [0] * 256
    for item in items:
        if item == "identify":
            words = fresh_identify()
            continue
        places, equals, value = item.partition("=")
        if not equals:
            raise ValueError(f"{item!a} is not PLACES=WORD")
        places = span(places, 255)
        if not value.startswith('"'):
            words[places[0]:places[-1] + 1] = [hexadecimal(value, 4)] * len(places)
            continue
        text = text_words(value)
        if len(places) > 1:
            raise ValueError("a text has one place, that of its first word")
        if places[0] + len(text) > 256:
            raise ValueError("the text runs past word 255")
        words[places[0]:places[0] + len(text)] = text
    return words


def password_block(args):
    """PURPOSE LEVEL "text" [rest WORD]: word 0, the password padded with zeros, words 17 to 255."""
    if len(args) not in (3, 5) or (len(args) == 5 and args[3] != "rest"):
        raise ValueError('put-password takes user|master high|maximum "text" [rest WORD]')
    if args[0] not in ("user", "master") or args[1] not in ("high", "maximum"):
        raise ValueError(f"{args[0] + ' ' + args[1]!a} is not user|master high|maximum")
    if not re.fullmatch(r'"[ !#-~]{0,32}"', args[2]):
        raise ValueError("a password is a quoted text of at most 32 bytes")
    words = block(["1=" + args[2]] + [f"17-255={word}" for word in args[4:]])
    words[0] = (args[0] == "master") | (args[1] == "maximum") << 8
    return words


def cut_words(args):
    """Takes 'words A-B' off the end: the part of a block that is passed."""
    if len(args) >= 2 and args[-2] == "words":
        return args[:-2], span(args[-1], 255)
    return args, range(256)

"""Random damage to folders: to bytes, to tokens of mapping texts, to tables, to documents, and to the folder itself."""
import json
import os
import re

from files import csv_text
from spelling import ODD_WORDS

TOKEN = re.compile(r'"(?:[^"\\]|\\.)*"|\w+|->|\s+|//[^\n]*|.', re.DOTALL)
ODD_BYTES = [b"\xff", b"\xc3", b"\xe2\x82", b"\xed\xa0\x80", b"\xf4\x90\x80\x80", b"\xc0\xaf", b"\x00",
             b"\x01", b"\x7f", b"\"", b"\\", b"\\n", b"//", b"/", b"-", b"->", b"\xef\xbb\xbf",
             b"\r", b"\n", b",", b"[", b"{", b"1e999"]
ODD_TOKENS = ["{", "}", "(", ")", ",", ";", ".", "=", "->", '""', '"\u00fc\\""', "1", "2", "01", "nulls", "fold", "$",
              "-"]
ODD_VALUES = [3, -1, 1.5, 1e300, 18446744073709551616, 10 ** 400, "x", "", [], {}, [[]], [{}], [3], None, True, False,
              {"x": 1}, [{"x": []}], "\ud800", "\U0001f600"]


def span(random, length):
    """Two places of a text."""
    return sorted((random.randint(0, length), random.randint(0, length)))


def damaged_bytes(random, content):
    """The bytes with some flipped, cut off, taken out, doubled, put in or replaced."""
    start, end = span(random, len(content))
    short = min(end, start + random.randint(1, 8))
    choice = random.randrange(8)
    if choice == 0 and content:
        place = random.randrange(len(content))
        return content[:place] + bytes([content[place] ^ 1 << random.randrange(8)]) + content[place + 1:]
    if choice == 1:
        return content[:start]
    if choice == 2:
        return content[:start] + content[short:]
    if choice == 3:
        return content[:end] + content[start:]
    if choice == 4:
        return content[:start] + random.choice(ODD_BYTES) + content[start:]
    if choice == 5:
        return content[:start] + random.choice(ODD_BYTES) + content[short:]
    if choice == 6:
        return random.choice([b"", b"\xef\xbb\xbf", b"\n", b"\x00" * 5, b"[" * random.choice([100, 3000])])
    return content[:start] + bytes(random.randrange(256) for _ in range(random.randint(1, 6))) + content[start:]


def damaged_tokens(random, content):
    """A mapping text with a token taken out, doubled, exchanged or replaced by another."""
    tokens = TOKEN.findall(content.decode())
    places = [place for place, token in enumerate(tokens) if not token.isspace()]
    place, other = random.choice(places), random.choice(places)
    choice = random.randrange(6)
    if choice == 0:
        del tokens[place]
    elif choice == 1:
        tokens[place:place] = [tokens[place], " "]
    elif choice == 2:
        tokens[place], tokens[other] = tokens[other], tokens[place]
    elif choice == 3:
        tokens[place] = random.choice(ODD_WORDS + ODD_TOKENS)
    elif choice == 4:
        tokens[place] = renamed(random, tokens, tokens[place])
    else:
        tokens[place:place] = ["set ", "s%d " % place] + random.choice(WIDE)(random) + [" "]
    return "".join(tokens).encode()


def renamed(random, tokens, token):
    """For a word another word of the text."""
    words = [other for other in tokens if re.fullmatch(r"\w+", other)]
    return random.choice(words) if re.fullmatch(r"\w+", token) else token


def nested_sets(random):
    """A set with sets inside, near the depth that is allowed."""
    depth = random.randint(13, 17)
    inside = "".join("set n%d { c; " % level for level in range(depth))
    return ["{ c; ", inside, "}" * depth, "}"]


def wide_set(random):
    """A set with about as many columns as are allowed."""
    return ["{ ", ", ".join("w%d" % place for place in range(random.randint(62, 66))), "; }"]


def many_sets(random):
    """About as many sets as are allowed."""
    return ["{ c; } "] + ["set m%d { c; } " % place for place in range(random.randint(55, 66))]


WIDE = [nested_sets, wide_set, many_sets]


def damaged_table(random, content, columns):
    """A CSV file with a wrong header, a record that is too long or too short, or bytes that are no text."""
    lines = content.split(b"\n")
    place = random.randrange(len(lines))
    choice = random.randrange(5)
    if choice == 0:
        upper = [name.upper() for name in columns]
        header = random.choice([columns[1:], columns + ["more"], columns[::-1], upper, [""]])
        lines[0] = csv_text([header]).encode().rstrip(b"\n")
    elif choice == 1:
        lines[place] += b"," + random.choice([b"", b"x", b'"', b'"y"z'])
    elif choice == 2:
        lines[place] = lines[place].replace(b",", b"", 1)
    elif choice == 3:
        lines[place] += random.choice(ODD_BYTES)
    else:
        lines.insert(place, random.choice([b"", b" ", b'""', b",", b",,,", b'"', b"\r"]))
    return b"\n".join(lines)


def damaged_document(random, content):
    """A JSON document with a value replaced, a member more or less, or nesting near the depth that can be read."""
    value = json.loads(content.decode("utf-8-sig"))
    holders = list(containers(value))
    if not holders or random.random() < .1:
        depth = random.choice([2, 126, 127, 128, 129, 4000])
        return b"[" * depth + random.choice([b"", b"1", b"{}"]) + b"]" * depth
    holder = random.choice(holders)
    if isinstance(holder, list):
        place = random.randrange(len(holder) + 1)
        holder[place:place + random.randint(0, 1)] = [random.choice(ODD_VALUES)]
    elif holder and random.random() < .7:
        holder[random.choice(list(holder))] = random.choice(ODD_VALUES)
    else:
        holder[random.choice(["x", "", "#id", "a/b", "two\nlines", "~"])] = random.choice(ODD_VALUES)
    return json.dumps(value).encode()


def containers(value):
    """All lists and objects in a value."""
    if isinstance(value, (list, dict)):
        yield value
        for one in value.values() if isinstance(value, dict) else value:
            yield from containers(one)


def damage_entry(random, path):
    """Takes a file away, or puts a folder or a broken link in its place."""
    os.remove(path)
    choice = random.choice(["gone", "folder", "link", "circle"])
    if choice == "folder":
        os.mkdir(path)
    elif choice == "link":
        os.symlink("nowhere", path)
    elif choice == "circle":
        os.symlink(os.path.basename(path), path)


def damage_file(random, path, columns):
    """Damages one file of a folder; `columns` are those of its set."""
    if os.path.islink(path) or not os.path.isfile(path):
        return
    if random.random() < .1:
        damage_entry(random, path)
        return
    with open(path, "rb") as file:
        content = file.read()
    try:
        if random.random() < .35:
            content = damaged_bytes(random, content)
        elif path.endswith(".clio"):
            content = damaged_tokens(random, content)
        elif path.endswith(".csv"):
            content = damaged_table(random, content, columns)
        else:
            content = damaged_document(random, content)
    except (UnicodeError, ValueError, RecursionError, IndexError):  # damaged already
        content = damaged_bytes(random, content)
    with open(path, "wb") as file:
        file.write(content)

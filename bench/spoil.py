"""Changes of files that a fuzzer makes: by rule, in the cells, records, keys and lines of a file, and by bytes. Each takes
the bytes of a file and a source of draws, and gives other bytes."""

TABLE_LIMIT, CERTIFICATE_LIMIT = 4_194_304, 67_108_864

# what a cell, a value or a word may be
CELLS = [
    b"", b"-", b"0", b"00", b"1", b"2", b"16", b"17", b"24", b"25", b"28", b"29", b"59", b"60", b"480", b"1000", b"1001", b"1440",
    b"1441", b"999999", b"1000000", b"1000001", b"1000000000", b"1000000001", b"0000000001", b"00000000001", b"4294967295",
    b"4294967296", b"9999999999", b"18446744073709551616", b"-1", b"+1", b" 1", b"1 ", b"1.0", b"1e3", b"0x1", b"\xef\xbc\x91", b"x", b"X", b"S1", b"W1", b"R1",
    b"A", b"Main", b"Scope", b"x" * 60, b"x" * 61, b"\xc3\xa4" * 30, b"\xff", b"\x00", b"\x7f", b"\x1f", b"a\x00b", b'"', b'""',
    b'"a', b'"a"', b'"a,b"', b'"a\nb"', b'a"b', b"\xef\xbb\xbf", b"=1+1", b"patients", b"stay", b"\r", b"\t",
]
VALUES = [
    b"", b"0", b"1", b"2", b"7", b"28", b"29", b"-1", b"999999", b"1000000", b"1000000000", b"1000", b"20000", b"20001",
    b"9223372036854775807",
    b"9223372036854775808", b"1.5", b"1e6", b"nan", b"inf", b"true", b'"1"', b"'W1'", b'"W1"', b"[]", b"[500000]", b"[0]",
    b"[1000000]", b"[3]", b"[3, 0]", b"[1000]", b"[1001]", b"[-1]", b"[500000, 900000]",
    b"[1, 2, 3, 4, 5, 6, 7, 8]", b"[1, 2, 3, 4, 5, 6, 7, 8, 9]", b'["W1"]', b'["Main"]',
    b'["W1", "W1"]', b'["W1", "W2"]', b'["Nowhere"]', b'[1, "a"]', b"[[1]]", b"{a = 1}", b"1979-05-27", b"07:32:00", b"0x1C",
    b"0b11100", b"1_000", b"+7", b'"""a"""', b'"\\u00e9"', b'"\\ud800"', b'"\\e"', b"[" * 200, b"{a=" * 200, b"a.b.c = 1",
]
KEYS = [
    b"version", b"days", b"level", b"report", b"watch", b"budget", b"parts", b"allow", b'"days"', b"'level'", b"a.b", b"", b"days.a", b"[days]",
]
# keys of version 2 with values, behind a file
FINER = [b"parts = 1000000\n", b"parts = 1000000000\n", b"parts = 1000000000\nallow = [3]\n", b"parts = 1000000\nallow = [0, 2]\n"]
WEIGHTS_LINES = [
    b"mss weights 1", b"mss weights 2", b"number 2 power 3000 reach 2839", b"number 0 power 3000 reach 2839",
    b"number 1 power 131072 reach 131072", b"number 1 power 131073 reach 0", b"number 999999999 power 999999999 reach 999999999",
    b"number 1 power 0 reach 0", b"number 1 power 1", b"places", b"places 1 1", b"places 01", b"places 999999999 999999999",
    b"places 1000000000", b"places 1  1", b"places 1 ", b"blocks 5990", b"blocks", b"slots", b"slots 1", b"kinds", b"kinds 0 0",
    b"kinds -1", b"", b" ", b"\xff", b"places 1\r",
]
LINES = [
    b"branch 1", b"branch 0", b"branch 999999999", b"branch 1000000000", b"dead 1", b"dead 7", b"dead 8", b"dead 9", b"dead 0",
    b"full 1 2 1 1", b"full 1 0 1 1", b"full 1 0 0 0", b"full 1 999999999 1 1", b"closed 1 0 1 1", b"closed 1 2 1 29",
    b"closed 1 2 9 1", b"closed 1 2 1", b"open 0 1 1", b"open 2 1 1", b"open 0 999999999 999999999", b"lower 0", b"lower 2", b"none",
    b"", b" ", b"branch  1", b"branch 01", b"branch -1", b"Branch 1", b"branch 1 ", b"mss certificate 1", b"mss certificate 2",
    b"slots 4 options 2 level 500000", b"slots 0 options 0 level 0", b"\xff", b"dead\t7", b"dead 7\r",
]
SCRAPS = [b"\x00", b"\xff", b"\n", b"\r", b"\r\n", b",", b'"', b'""', b"\xef\xbb\xbf", b"\xed\xa0\x80", b"\xf4\x90\x80\x80", b" ", b"[", b"{", b"="]


def pick(draws, items):
    return items[draws(len(items))]


def lines_of(content):
    return content.split(b"\n")


def is_number(cell):
    return cell.isdigit() and len(cell) < 30


def any_record(content, draws):
    """All lines, the place of one of them, and its cells."""
    lines = lines_of(content)
    at = draws(len(lines))
    return lines, at, lines[at].split(b",")


def change_cell(content, draws):
    """Another cell in a record."""
    lines, at, cells = any_record(content, draws)
    cells[draws(len(cells))] = pick(draws, CELLS)
    lines[at] = b",".join(cells)
    return b"\n".join(lines)


def change_number(content, draws):
    """A number that is a little more or less."""
    lines, at, cells = any_record(content, draws)
    numbers = [place for place, cell in enumerate(cells) if is_number(cell)]
    if not numbers:
        return content
    place = pick(draws, numbers)
    cells[place] = str(max(0, int(cells[place]) + pick(draws, [-1, 1, 2, -2, 10, 480, 500_000]))).encode()
    lines[at] = b",".join(cells)
    return b"\n".join(lines)


def change_columns(content, draws):
    """A field more or fewer in a record."""
    lines, at, cells = any_record(content, draws)
    if draws(2):
        cells.insert(draws(len(cells) + 1), pick(draws, CELLS))
    else:
        del cells[draws(len(cells))]
    lines[at] = b",".join(cells)
    return b"\n".join(lines)


def change_order(content, draws):
    """Two lines that change places, one that is left out, or one that stands twice."""
    lines = lines_of(content)
    one, other = draws(len(lines)), draws(len(lines))
    way = draws(3)
    if way == 0:
        lines[one], lines[other] = lines[other], lines[one]
    elif way == 1:
        del lines[one]
    else:
        lines.insert(other, lines[one])
    return b"\n".join(lines)


def change_setting(content, draws):
    """Another value of a key, another key, or a key more."""
    lines = lines_of(content)
    at = draws(len(lines))
    key, _, value = lines[at].partition(b" = ")
    way = draws(3)
    if way == 0:
        value = pick(draws, VALUES)
    elif way == 1:
        key = pick(draws, KEYS)
    else:
        key, value = pick(draws, KEYS), pick(draws, VALUES)
        lines.insert(at, b"")
    lines[at] = key + b" = " + value
    return b"\n".join(lines)


def change_settings_version(content, draws):
    """Settings of version 2, with the chances as they stand or not."""
    content = content.replace(b"version = 1", b"version = 2", 1)
    return content if b"parts" in content else content + pick(draws, FINER)


def change_line(content, draws):
    """Another line of a certificate, or a line more."""
    return another_line(content, draws, LINES)


def change_weights_line(content, draws):
    """Another line of weights, or a line more."""
    return another_line(content, draws, WEIGHTS_LINES)


def another_line(content, draws, known):
    lines = lines_of(content)
    at = draws(len(lines))
    if draws(2):
        lines[at] = pick(draws, known)
    else:
        lines.insert(at, pick(draws, known))
    return b"\n".join(lines)


def change_word(content, draws):
    """Another number in a line of a certificate or of weights."""
    lines = lines_of(content)
    at = draws(len(lines))
    words = lines[at].split(b" ")
    place = draws(len(words))
    words[place] = str(int(words[place]) + pick(draws, [-1, 1, 7])).encode() if is_number(words[place]) else pick(draws, CELLS)
    lines[at] = b" ".join(words)
    return b"\n".join(lines)


def change_version(content, draws):
    """A certificate of the other version."""
    one, other = pick(draws, [(b"mss certificate 1\n", b"mss certificate 2\n"), (b"mss certificate 2\n", b"mss certificate 1\n")])
    return content.replace(one, other, 1)


def change_bytes(content, draws):
    """Some bytes that are others, left out, put in, or cut off."""
    content = bytearray(content)
    for _ in range(1 + draws(4)):
        at = draws(len(content) + 1)
        way = draws(5)
        if way == 0 and at < len(content):
            content[at] = draws(256)
        elif way == 1 and at < len(content):
            content[at] ^= 1 << draws(8)
        elif way == 2:
            del content[at : at + 1 + draws(8)]
        elif way == 3:
            content[at:at] = pick(draws, SCRAPS) * (1 + draws(3))
        elif draws(4) == 0:
            del content[at:]
    return bytes(content)


def change_ends(content, draws):
    """Other ends of lines, a byte order mark, blank lines, quotes, or no last end."""
    way = draws(6)
    if way == 0:
        return content.replace(b"\n", b"\r\n")
    if way == 1:
        return content.replace(b"\n", b"\r")
    if way == 2:
        return b"\xef\xbb\xbf" * (1 + draws(2)) + content
    if way == 3:
        return content.replace(b"\n", b"\n\n")
    if way == 4:
        return content.rstrip(b"\n")
    return b"\n".join(b",".join(b'"' + cell + b'"' for cell in line.split(b",")) if line else line for line in lines_of(content))


def change_all(content, draws):
    """No bytes, a scrap, a great many of one scrap, or the file up to its limit and a byte more."""
    way = draws(8)
    if way == 0:
        return b""
    if way == 1:
        return pick(draws, SCRAPS)
    if way == 2:
        return pick(draws, SCRAPS + CELLS) * (1 + draws(2000))
    if way == 3:
        return content + pick(draws, SCRAPS) * draws(2000)
    if way == 4 and draws(10) == 0:
        filler = pick(draws, SCRAPS + [b"x", b"0", b"1,", b"a\n", b"#", b"[a]\n", b"a.", b"dead 7\n", b"x,x,x\n"])
        limit = TABLE_LIMIT + pick(draws, [-1, 0, 1])
        return (content + filler * (limit // len(filler) + 1))[:limit]
    if way == 5:
        return content + content
    if way == 6:
        return content[: draws(len(content) + 1)]
    return content[draws(len(content) + 1) :]


ANY = [change_bytes, change_ends, change_all, change_order]
TABLE = [change_cell, change_cell, change_number, change_number, change_number, change_columns, *ANY]
SETTINGS = [change_setting, change_setting, change_setting, change_settings_version, *ANY]
CERTIFICATE = [change_version, change_line, change_word, change_word, change_word, *ANY]
WEIGHTS = [change_weights_line, change_word, change_word, change_word, *ANY]


def changes_of(name):
    if name == "settings.toml":
        return SETTINGS
    return {"certificate.txt": CERTIFICATE, "weights.txt": WEIGHTS}.get(name, TABLE)


def spoiled(name, content, draws):
    """The file of this name, changed in one way."""
    return pick(draws, changes_of(name))(content, draws)

"""Random listings for fuzz.py: good ones, changed ones, and heaps of parts. The random source given decides everything."""

NAMES = (b"tapes symbols states start", b"state read write move next", b"word", b"call number")
CALLS = (b"seek", b"forward", b"back")
# Numbers where something changes: slots (16, m 8), cells (4,096), table (512), bytes, words, 2^62, 64 bits.
EDGES = [n + more for n in (0, 16, 112, 128, 256, 512, 2048, 2112, 4080, 4096) for more in (-1, 0, 1) if n + more >= 0]
WIDE = [n + more for n in (2**8, 2**16, 2**32, 2**56, 2**62, 2**63, 2**64) for more in (-1, 0, 1)]
LIMITS = [*EDGES, *WIDE, 3, 513, 10**19, 10**20, int("9" * 70)]


def number(random):
    """A call's number."""
    kind = random.randrange(20)
    if kind < 8:
        return random.randrange(40)
    if kind < 13:
        return random.choice(EDGES)
    if kind < 18:
        return random.randrange(5000)
    return random.randrange(300_000) if kind == 18 else random.choice(WIDE)


def sizes(random):
    """Symbols and states: mostly few of both, at times as many as fit."""
    kind = random.randrange(10)
    if kind < 7:
        return random.randint(1, 4), random.randint(1, 6)
    if kind < 9:
        symbols = random.randint(1, 256)
        return symbols, random.randint(1, 512 // symbols)
    return random.choice([(256, 2), (1, 512), (2, 256), (512 // 3, 3), (3, 170), (16, 32)])


def entry(random, symbols, states, state, read):
    """An entry line. In large tables most entries lead on to their neighbours, so that runs are not short."""
    near = states > 8 and random.random() < 0.8
    after = (state + random.randint(0, 1)) % states if near else random.randrange(states)
    return f"{state} {read} {random.randrange(symbols)} {random.choice('LLRRRLLRRN')} {after}".encode()


def word(random, symbols):
    """A word line of at most 80 bytes."""
    length = random.choice([0, 0, 0, 1, 2, 3, random.randint(0, 20), 40])
    line = b" ".join(str(random.randrange(symbols)).encode() for _ in range(length))
    return line if len(line) <= 80 else line[:81].rpartition(b" ")[0]


def good(random):
    """A good listing, unless a call number is over 64 bits."""
    symbols, states = sizes(random)
    given = random.choice([1, 1, 0.95, 0.8, 0.5, 0])
    places = [(q, a) for q in range(states) for a in range(symbols) if random.random() < given]
    random.shuffle(places)
    lines = [NAMES[0], f"1 {symbols} {states} {random.randrange(states)}".encode(), NAMES[1]]
    lines += [entry(random, symbols, states, q, a) for q, a in places]
    lines += [NAMES[2], word(random, symbols), NAMES[3]]
    calls = random.choice([0, 1, 2, 5, 5, 10, random.randint(0, 64), 64])
    lines += [random.choice(CALLS) + b" %d" % number(random) for _ in range(calls)]
    return b"\n".join(lines) + random.choice([b"\n", b"\n", b"\n", b""])


def changed_bytes(random, data):
    """Some bytes changed, left out, put in or repeated."""
    at, length = random.randrange(len(data) + 1), random.choice([1, 1, 1, 2, 5, 30])
    part = data[at : at + length]
    other = random.choice([
        bytes([random.randrange(256)]),
        bytes(b ^ 1 << random.randrange(8) for b in part),
        b"",
        part + part,
        random.choice([b" ", b"\n", b"\r\n", b"\0", b"0", b"\t", b"-", b"+"]),
        random.choice([b" ", b"\n", b"0", b"1", b"9"]) + part,
        part.swapcase(),
        random.randbytes(length),
    ])
    return data[:at] + other + data[at + len(part) :]


def changed_lines(random, data):
    """A line left out, repeated, moved, put in, made long, or with other ends."""
    lines = data.split(b"\n")
    i, j = random.randrange(len(lines)), random.randrange(len(lines))
    kind = random.randrange(9)
    if kind == 0:
        del lines[i]
    elif kind == 1:
        lines.insert(i, lines[i])
    elif kind == 2:
        lines[i], lines[j] = lines[j], lines[i]
    elif kind == 3:
        lines.insert(i, random.choice([b"", b" ", b"word", *NAMES, lines[j]]))
    elif kind == 4:
        lines[i] += random.choice([b" ", b"\r", b" 0", b"\t", b"0", b"\0"])
    elif kind == 5:
        lines[i] = b" " + lines[i]
    elif kind == 6:
        lines[i] = (lines[i] + b" ") * random.randint(1, 20) + lines[i]
    elif kind == 7:
        lines[i] = lines[i].replace(b" ", random.choice([b"  ", b"\t", b"", b",", b" 0"]), random.choice([1, -1]))
    else:
        return data.replace(b"\n", b"\r\n")
    return b"\n".join(lines)


def changed_number(random, data):
    """A number replaced by another one, mostly one where something changes."""
    lines = data.split(b"\n")
    i = random.choice([1, random.randrange(len(lines)), random.randrange(len(lines))]) % len(lines)
    fields = lines[i].split(b" ")
    places = [at for at, part in enumerate(fields) if part.isdigit()]
    if not places:
        return data
    at = random.choice(places)
    old = int(fields[at])
    fields[at] = b"%d" % random.choice([random.choice(LIMITS), old + 1, max(old - 1, 0), random.randrange(600)])
    if random.randrange(8) == 0:
        fields[at] = random.choice([b"0", b"00", b"+", b"-"]) + fields[at]
    lines[i] = b" ".join(fields)
    return b"\n".join(lines)


def changed_end(random, data):
    """Cut off somewhere, or longer."""
    kind = random.randrange(6)
    if kind < 3:
        return data[: random.randrange(len(data) + 1)]
    if kind == 3:
        return data.rstrip(b"\n") + b"\n" * random.randint(0, 3)
    calls = b"".join(random.choice(CALLS) + b" %d\n" % random.randrange(20) for _ in range(random.choice([1, 63, 64, 65, 70])))
    more = [calls, b"x", b"\n" * random.randint(1, 200_000), random.randbytes(random.randint(1, 200_000))]
    return data + random.choice([calls, *more])


def changed(random, data):
    """A listing with one to four changes."""
    for _ in range(random.choice([1, 1, 1, 2, 2, 3, 4])):
        way = random.choice([changed_bytes, changed_bytes, changed_lines, changed_number, changed_number, changed_end])
        data = way(random, data)
    return data


def heap(random):
    """Parts of listings in any order, or any bytes."""
    if random.randrange(4) == 0:
        return random.randbytes(random.choice([0, 1, 10, 1000, random.randrange(200_000)]))
    parts = [*NAMES, *CALLS, b"1 2 3 0", b"0 0 1 R 1", b"1", b"0", b"L", b" ", b" ", b"\n", b"\n", b"\n", b"seek 3", b"1 1"]
    start = b"\n".join([NAMES[0], b"1 2 3 0", NAMES[1], b""])[: random.choice([0, 27, 35, 62])]
    return start + b"".join(random.choice(parts) for _ in range(random.randrange(60)))


def listing(random, corpus):
    """A good listing, a changed one (of the corpus or a good one), or a heap of parts: 40, 50 and 10 of 100."""
    kind = random.randrange(20)
    if kind < 8:
        return good(random)
    if kind < 18:
        return changed(random, random.choice(corpus) if kind < 13 else good(random))
    return heap(random)

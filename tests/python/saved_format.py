"""The bytes of a saved volume in plain Python, as docs/SPECIFICATION.md has them and by nothing else: `read` gives the
state of a volume or raises Fault, and `write` gives the bytes of any state, also of one that is no volume."""
import struct

HEAD, PIECE = b"lqvolume", 65_536
TYPES = {0x43535452: "CSTR", 0x4C4F4E47: "LONG", 0x4C4C4E47: "LLNG", 0x554C4E47: "ULNG", 0x554C4C47: "ULLG"}
NUMBERS = {"LONG": "<i", "LLNG": "<q", "ULNG": "<I", "ULLG": "<Q"}
ENTRY = struct.Struct("<QQQqQBB")
RESERVED = b"name", b"size", b"last_modified"


def checksum(raw):
    """CRC-32C, a bit at a time."""
    it = 0xFFFFFFFF
    for byte in raw:
        it ^= byte
        for _ in range(8):
            it = it >> 1 ^ (0x82F63B78 if it & 1 else 0)
    return it ^ 0xFFFFFFFF


assert checksum(b"123456789") == 0xE3069283
TABLE = [checksum(bytes([byte])) for byte in range(256)]
_STEP = [0] * 256
for _byte in range(256):
    _it = _byte
    for _ in range(8):
        _it = _it >> 1 ^ (0x82F63B78 if _it & 1 else 0)
    _STEP[_byte] = _it


def fast_checksum(raw):
    """The same by a table."""
    it = 0xFFFFFFFF
    for byte in raw:
        it = it >> 8 ^ _STEP[(it ^ byte) & 255]
    return it ^ 0xFFFFFFFF


class Fault(Exception):
    """A word, the place of a byte, and a node or 0."""

    def __init__(self, word, place, node=0):
        super().__init__(word, place, node)


# ---- writing


def head(version=1):
    raw = HEAD + struct.pack("<I", version)
    return raw + struct.pack("<I", fast_checksum(raw))


def piece(content):
    size = struct.pack("<I", len(content))
    return size + struct.pack("<I", fast_checksum(size + content)) + content


def value_of(type, value):
    if type != "CSTR":
        return struct.pack(NUMBERS[type], value)
    return struct.pack("<H", len(value)) + value


def attribute_of(name, type, value):
    code = next((it for it, word in TYPES.items() if word == type), 7)
    return struct.pack("<IB", code, len(name)) + name + (value_of(type, value) if code != 7 else value)


def entry_of(node, dir, name, kind, size, time, attributes):
    return ENTRY.pack(node, dir, size, time, len(attributes), kind, len(name)) + name


def items_of(entries):
    for entry in entries:
        yield entry_of(*entry)
        for it in entry[6]:
            yield attribute_of(*it)


def write(state, most=PIECE, count=None):
    """The bytes of a state, in pieces of at most so many bytes."""
    limit, changes, next, entries = state
    pieces, content = [struct.pack("<QQQQ", limit, changes, next, len(entries) if count is None else count)], b""
    for item in items_of(entries):
        if content and len(content) + len(item) > most:
            pieces.append(content)
            content = b""
        content += item
    return head() + b"".join(map(piece, [*pieces, content] if content else pieces))


# ---- reading


class Bytes:
    """What is left of bytes, and the place of the next."""

    def __init__(self, raw, place=0):
        self.raw, self.at, self.first = raw, 0, place

    @property
    def place(self):
        return self.first + self.at

    @property
    def left(self):
        return len(self.raw) - self.at

    def take(self, size, fault):
        if size > self.left:
            raise fault
        self.at += size
        return self.raw[self.at - size : self.at]


def pieces_of(source):
    """The content of each piece. What is sent is the node of the entry that is being read, for a fault in a piece."""
    node = 0
    while True:
        begin, cut = source.place, Fault("Cut", len(source.raw), node)
        prefix = source.take(8, cut)
        size, sum_of = struct.unpack("<II", prefix)
        if not 1 <= size <= PIECE:
            raise Fault("PieceSize", begin, node)
        content = source.take(size, cut)
        if fast_checksum(prefix[:4] + content) != sum_of:
            raise Fault("Checksum", begin, node)
        node = yield Bytes(content, begin + 8)


def text_of(raw, fault):
    try:
        raw.decode("utf-8")
    except UnicodeDecodeError:
        raise fault from None


class Reader:
    def __init__(self, raw):
        self.source = Bytes(raw)
        first = self.source.take(16, Fault("Cut", len(raw)))
        if first[:8] != HEAD:
            raise Fault("NoHead", 0)
        version, sum_of = struct.unpack("<II", first[8:])
        if fast_checksum(first[:12]) != sum_of:
            raise Fault("Checksum", 0)
        if version != 1:
            raise Fault("OtherVersion", 8)
        self.pieces, self.content, self.node = pieces_of(self.source), None, None

    def next_piece(self):
        self.content = next(self.pieces) if self.content is None else self.pieces.send(self.node or 0)

    def item(self):
        """The content with the next item, and its place."""
        while self.content.left == 0:
            self.next_piece()
        return self.content, self.content.place

    def state(self):
        self.next_piece()
        place = self.content.place
        numbers = self.content.take(32, Fault("NotWhole", place))
        if self.content.left:
            raise Fault("NotWhole", place)
        limit, changes, following, count = struct.unpack("<QQQQ", numbers)
        if limit > 1_000_000_000_000 or changes > limit:
            raise Fault("NumberOutOfRange", place)
        if not 2 <= following <= changes + 2:
            raise Fault("NodeOutOfRange", place)
        entries, taken, last = [], set(), 1
        for _ in range(count):
            entry, place = self.entry()
            node, dir, name, kind, size, _, attributes = entry
            names = [it[0] for it in attributes]
            text_of(name, Fault("NotUtf8", place, node))
            if kind > 1:
                raise Fault("NoKind", place, node)
            self.want_name(name, place, node, True)
            for word, fails in [
                ("OutOfOrder", node <= last), ("NodeOutOfRange", node >= following), ("NameTaken", (dir, name) in taken),
                ("SizeOfFolder", kind == 1 and size != 0), ("TooLong", size > (1 << 63) - 1),
            ]:
                if fails:
                    raise Fault(word, place, node)
            for at, it in enumerate(names):
                if it in RESERVED:
                    raise Fault("Reserved", place, node)
                if it in names[:at]:
                    raise Fault("NameTwice", place, node)
            last = node
            taken.add((dir, name))
            entries.append(entry)
        self.node = None
        if self.content.left:
            raise Fault("BytesAfter", self.content.place)
        if self.source.left:
            raise Fault("BytesAfter", self.source.place)
        self.tree(entries)
        return limit, changes, following, entries

    def entry(self):
        self.node = None
        content, place = self.item()
        fixed = content.take(ENTRY.size, Fault("NotWhole", place))
        node, dir, size, time, count, kind, name_size = ENTRY.unpack(fixed)
        name = content.take(name_size, Fault("NotWhole", place, node))
        self.node, attributes = node, []
        for _ in range(count):
            attributes.append(self.attribute(node))
        return (node, dir, name, kind, size, time, attributes), place

    def attribute(self, node):
        content, place = self.item()
        cut = Fault("NotWhole", place, node)
        code, name_size = struct.unpack("<IB", content.take(5, cut))
        name, type = content.take(name_size, cut), TYPES.get(code)
        if type is None:
            raise Fault("NoType", place, node)
        if type != "CSTR":
            raw = content.take(struct.calcsize(NUMBERS[type]), cut)
            (value,) = struct.unpack(NUMBERS[type], raw)
        else:
            (size,) = struct.unpack("<H", content.take(2, cut))
            value = content.take(size, cut)
            text_of(value, Fault("NotUtf8", place, node))
        self.want_name(name, place, node, False)
        if type == "CSTR" and len(value) > 4096:
            raise Fault("TooLong", place, node)
        return name, type, value

    @staticmethod
    def want_name(name, place, node, is_of_entry):
        text_of(name, Fault("NotUtf8", place, node))
        if not name or b"\0" in name or (is_of_entry and (b"/" in name or name in (b".", b".."))):
            raise Fault("BadName", place, node)

    def tree(self, entries):
        kinds, dirs = {1: 1, **{it[0]: it[3] for it in entries}}, {it[0]: it[1] for it in entries}
        end = len(self.source.raw)
        for it in entries:
            if it[1] not in kinds:
                raise Fault("NoFolder", end)
            if kinds[it[1]] == 0:
                raise Fault("NotFolder", end)
        for node in dirs:
            seen = set()
            while node != 1:
                if node in seen:
                    raise Fault("Ring", end)
                seen.add(node)
                node = dirs[node]


def read(raw):
    return Reader(raw).state()

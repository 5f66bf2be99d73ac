"""An oracle: a reader by the requirements that shares no code with the project.

A string is '-' absent, '0' empty, 'X' or 'U' the built-in prefix or namespace,
or (place, length, form); the form is what stands behind a stretch in README.md.
An event is (kind, prefix, namespace, name, value): name is the local name or
target, value the value, chunk, comment or content; its place is that of its
ROOM.  A table is a list of strings, or of triples of numbers.
"""
import re

HEAD = bytes.fromhex("e000000100")
TOP_SIZE, TOP_ENTRIES, TOP_DEPTH, TOP_NUMBER = 16384, 256, 32, 1 << 20

(SIZE, TRUNCATED, HEADER, OPTIONAL, CODE, PADDING, RANGE, FORMAT, TEXT,
 INDEX, REPEAT, FULL, DEPTH, ROOM, STRUCTURE) = range(1, 16)

(PREFIX, NAMESPACE, LOCAL, NCNAME, URI,
 VALUE, CHUNK, STRING, ELEMENT, ATTRIBUTE) = range(10)

BUILT_IN = {"X": b"xml", "U": b"http://www.w3.org/XML/1998/namespace"}

# The slots of an event that a kind has.
SLOTS = {"N": (1, 2), "S": (1, 2, 3), "A": (1, 2, 3, 4), "T": (4,), "C": (4,), "P": (3, 4), "E": ()}

# The tables whose entries are identifying strings, and those of other strings.
IDENTIFIED, OTHERS = (PREFIX, NAMESPACE, LOCAL, NCNAME, URI), (VALUE, CHUNK, STRING)

# Starting bit: forms (code, zero bits, field bits), in order of their values.
# A form's lowest value is one more than the highest of the form before it.
NUMBERS = {2: (("0", 0, 6), ("10", 0, 13), ("110", 0, 20)),                     # C.25
           3: (("0", 0, 5), ("100", 0, 11), ("101", 0, 19), ("110", 7, 20)),    # C.27
           4: (("0", 0, 4), ("100", 0, 10), ("101", 0, 18), ("110", 6, 20))}    # C.28
COUNTS = {1: (("0", 0, 7), ("1", 3, 20))}                                        # C.21
LENGTHS = {2: (("0", 0, 6), ("10", 5, 8), ("11", 5, 32)),                       # C.22
           5: (("0", 0, 3), ("10", 2, 8), ("11", 2, 32)),                       # C.23
           7: (("0", 0, 1), ("10", 0, 8), ("11", 0, 32))}                       # C.24


class Refusal(Exception):
    """A number and a place."""


def judge(place, *findings):
    """Refuses by the first finding (fault, number) whose fault is there."""
    for fault, number in findings:
        if fault:
            raise Refusal(number, place)


# The forms: format bits 00, format bits 01, alphabets 1 and 2 with the characters of their codes, algorithms 3, 4 and 5 with the octets of an integer.
UTF_8, UTF_16 = "", "/u"
ALPHABETS = {"/1": "0123456789-+.e ", "/2": "0123456789-:TZ "}
INTEGERS = {"/3": 2, "/4": 4, "/5": 8}

# Format bits with a number behind them, and the forms of the numbers that are read.
NUMBERED = {"10": {1: "/1", 2: "/2"}, "11": {3: "/3", 4: "/4", 5: "/5"}}

# XML 1.0, clause 2.2.
CHARACTERS = re.compile("[\x09\x0a\x0d\x20-\ud7ff\ue000-\ufffd\U00010000-\U0010ffff]*")


def unpacked(letters, octets):
    """The characters of four bits each; a last half of 15 fills up."""
    codes = [half for octet in octets for half in (octet >> 4, octet & 15)]
    if codes[-1] == 15:
        codes.pop()
    return None if 15 in codes else "".join(letters[code] for code in codes)


def listed_integers(width, octets):
    """Integers of so many octets each, the highest first, in two's complement, as decimal text with single blanks between."""
    if len(octets) % width:
        return None
    return " ".join(str(int.from_bytes(octets[at:at + width], "big", signed=True)) for at in range(0, len(octets), width))


def said(form, octets):
    """The characters that octets in a form say, or None.  Python's strict decoders follow RFC 3629, and take surrogates in pairs alone."""
    if form in ALPHABETS:
        return unpacked(ALPHABETS[form], octets)
    if form in INTEGERS:
        return listed_integers(INTEGERS[form], octets)
    try:
        text = octets.decode("utf-16-be" if form == UTF_16 else "utf-8")
    except UnicodeDecodeError:
        return None
    return text if CHARACTERS.fullmatch(text) else None


def form_at(forms, bit, octet):
    """(code, zero bits, field bits, lowest value) of the form whose code stands at this bit of an octet, or None."""
    bits, lowest = f"{octet:08b}"[bit - 1:], 1
    for code, zeros, field in forms[bit]:
        if bits.startswith(code):
            return code, zeros, field, lowest
        lowest += 1 << field
    return None


class Reader:
    """Reads from the place `at`; each method moves it on."""

    def __init__(self, octets, room):
        self.octets, self.room, self.at = octets, room, 0
        self.events, self.places = [], []
        self.tables = [[] for _ in range(10)]
        self.tables[PREFIX].append("X")
        self.tables[NAMESPACE].append("U")
        self.depth, self.rooted = 0, False
        self.due = False            # the octet before ended with 0000 after an end

    # Tables and events

    def text(self, string):
        """The UTF-8 octets of what a string says."""
        if string in BUILT_IN:
            return BUILT_IN[string]
        place, length, form = string
        return said(form, self.octets[place:place + length]).encode()

    def entry(self, table, number):
        return self.tables[table][number - 1] if number else "-"

    def add(self, table, entry, place):
        judge(place, (len(self.tables[table]) == TOP_ENTRIES, FULL))
        self.tables[table].append(entry)
        return len(self.tables[table])

    def give(self, place, kind, prefix="-", namespace="-", name="-", value="-"):
        judge(place, (len(self.events) == self.room, ROOM))
        self.events.append((kind, prefix, namespace, name, value))
        self.places.append(place)

    # Fields

    def first(self):
        judge(self.at, (self.at == len(self.octets), TRUNCATED))
        return self.octets[self.at]

    def coded(self, forms, bit, padding=False, structure=False):
        """A number or length from this bit on.  The caller may have found
        wrong padding or structure in the same first octet."""
        place, bits = self.at, f"{self.first():08b}"[bit - 1:]
        found = form_at(forms, bit, self.first())
        judge(place, (not found, CODE))
        code, zeros, field, lowest = found
        start = len(code) + zeros
        self.at += (bit - 1 + start + field) // 8
        judge(place, (padding or "1" in bits[len(code):start], PADDING), (structure, STRUCTURE),
              (self.at > len(self.octets), TRUNCATED))
        bits += "".join(f"{octet:08b}" for octet in self.octets[place + 1:self.at])
        judge(place, ("1" in bits[len(code):start], PADDING))
        return lowest + int(bits[start:], 2)

    def number(self, bit, table, padding=False, structure=False):
        place, number = self.at, self.coded(NUMBERS, bit, padding, structure)
        judge(place, (number > TOP_NUMBER, RANGE), (number > len(self.tables[table]), INDEX))
        return number

    def spelled(self, bit, form=UTF_8):
        place, length = self.at, self.coded(LENGTHS, bit)
        start, self.at = self.at, self.at + length
        judge(place, (self.at > len(self.octets), TRUNCATED),
              (not said(form, self.octets[start:self.at]), TEXT))
        return start, length, form

    def packed(self, bit, forms):
        """Eight bits from this bit on, the number less one of an alphabet or algorithm, then a length from the same bit of the second octet on.  The field
        is judged when all its octets are there: which form it is, the length's zero bits, the text."""
        place, end = self.at, len(self.octets)
        judge(place, (place + 2 > end, TRUNCATED))
        code, zeros, field, lowest = form_at(LENGTHS, bit, self.octets[place + 1])
        start = place + 1 + (bit - 1 + len(code) + zeros + field) // 8
        judge(place, (start > end, TRUNCATED))
        bits = "".join(f"{octet:08b}" for octet in self.octets[place:start])
        form, behind = forms.get(int(bits[bit - 1:bit + 7], 2) + 1), bits[bit + 7 + len(code):]
        length = lowest + int(behind[zeros:], 2)
        self.at = start + length
        judge(place, (self.at > end, TRUNCATED), (not form, FORMAT), ("1" in behind[:zeros], PADDING))
        judge(place, (not said(form, self.octets[start:self.at]), TEXT))
        return start, length, form

    def literal(self, bit):
        """C.19 and C.20: two format bits from this bit on, and the string."""
        form = f"{self.first():08b}"[bit - 1:bit + 1]
        return self.packed(bit + 2, NUMBERED[form]) if form in NUMBERED else self.spelled(bit + 2, UTF_16 if form == "01" else UTF_8)

    def identifying(self, table):
        """C.13; answers the string's number."""
        place = self.at
        if self.first() & 0x80:
            return self.number(2, table)
        string = self.spelled(2)
        held = [self.text(entry) for entry in self.tables[table]]
        judge(place, (self.text(string) in held, REPEAT))
        return self.add(table, string, place)

    def encoded(self, table, bit, numbered, add):
        """C.14 and C.15 from their number's bit on, by masks of the first octet."""
        place, octet = self.at, self.first()
        if octet & numbered:
            return self.entry(table, self.number(bit, table))
        string = self.literal(bit + 1)
        if octet & add:
            self.add(table, string, place)
        return string

    def value(self, table):
        if self.first() == 0xFF:
            self.at += 1
            return "0"
        return self.encoded(table, 2, 0x80, 0x40)

    # The head

    def head(self):
        """C.2.5; both octets of presence bits are one field."""
        place, octet = self.at, self.first()
        judge(place, (octet & 0xE0, PADDING), (octet & 0x1C, OPTIONAL), (place + 1 == len(self.octets), TRUNCATED))
        listed = f"{octet:08b}{self.octets[place + 1]:08b}"[6:]
        judge(place, ("1" not in listed, STRUCTURE))
        self.at += 2
        for table in range(10):
            if listed[table] == "1":
                self.entries(table)

    def entries(self, table):
        place, count = self.at, self.coded(COUNTS, 1)
        judge(place, (count > TOP_NUMBER, RANGE))
        for _ in range(count):
            if table in IDENTIFIED:
                judge(self.at, (self.first() & 0x80, PADDING))
                self.identifying(table)
            elif table in OTHERS:
                place = self.at
                judge(place, (self.first() & 0xC0, PADDING))
                self.add(table, self.literal(3), place)
            else:
                self.surrogate(table)

    def surrogate(self, table):
        """C.16: a name by the numbers of its parts."""
        place, octet = self.at, self.first()
        judge(place, (octet & 0xFC, PADDING), (octet & 3 == 2, STRUCTURE))
        self.at += 1
        triple = tuple(self.number(2, part, padding=self.first() & 0x80) if present else 0
                       for part, present in ((PREFIX, octet & 2), (NAMESPACE, octet & 1), (LOCAL, True)))
        judge(place, (triple in self.tables[table], REPEAT))
        self.add(table, triple, place)

    # Names

    def parts(self, octet):
        """The numbers of the prefix and namespace that bits 7 and 8 announce."""
        prefix = self.identifying(PREFIX) if octet & 2 else 0
        return prefix, self.identifying(NAMESPACE) if octet & 1 else 0

    def name(self, bit, table, padding=False, structure=False, deep=False):
        """C.17 and C.18; answers the three strings."""
        place, octet = self.at, self.first()
        mark = {2: 0x78, 3: 0x3C}[bit]
        if octet & mark == mark:
            judge(place, (padding or bit == 2 and octet & 4, PADDING),
                  (structure or octet & 3 == 2, STRUCTURE), (deep, DEPTH))
            self.at += 1
            triple = self.parts(octet) + (self.identifying(LOCAL),)
            judge(place, (triple in self.tables[table], REPEAT))
            self.add(table, triple, place)
        else:
            triple = self.entry(table, self.number(bit, table, padding, structure))
            judge(place, (deep, DEPTH))
        return [self.entry(part, number) for part, number in enumerate(triple)]

    # Items

    def element(self):
        place, octet = self.at, self.first()
        second, deep = self.depth == 0 and self.rooted, self.depth == TOP_DEPTH
        if octet & 0x3C == 0x38:
            judge(place, (octet & 3, PADDING), (second, STRUCTURE), (deep, DEPTH))
            self.at += 1
            self.declarations()
            place = self.at
            name = self.name(3, ELEMENT, padding=self.first() & 0xC0)
        else:
            name = self.name(3, ELEMENT, structure=second, deep=deep)
        self.give(place, "S", *name)
        self.depth, self.rooted = self.depth + 1, True
        if octet & 0x40:
            self.attributes()

    def declarations(self):
        begin = self.at
        while self.first() >> 4 != 15:
            place, octet = self.at, self.first()
            judge(place, (octet & 0xFC != 0xCC, CODE))
            self.at += 1
            prefix, namespace = self.parts(octet)
            self.give(place, "N", self.entry(PREFIX, prefix), self.entry(NAMESPACE, namespace))
        judge(self.at, (self.first() & 15, PADDING), (self.at == begin, STRUCTURE))
        self.at += 1

    def attributes(self):
        begin = self.at
        while self.first() >> 4 != 15:
            place = self.at
            judge(place, (self.first() & 0x80, CODE))
            name = self.name(2, ATTRIBUTE)
            self.give(place, "A", *name, self.value(VALUE))
        judge(self.at, (self.at == begin, STRUCTURE))
        self.second_half()

    def end(self):
        self.give(self.at, "E")
        self.depth -= 1

    def second_half(self):
        """Bits 5 to 8 after an end in bits 1 to 4; True at the document's end."""
        half, outside = self.first() & 15, self.depth == 0
        judge(self.at, (half not in (0, 15), PADDING))
        if half and not outside:
            self.end()
        self.due = not half
        self.at += 1
        return bool(half) and outside

    def child(self):
        """One child, or one octet of ends; True at the document's end."""
        place, octet, inside, due = self.at, self.first(), self.depth > 0, self.due
        self.due = False
        if octet < 0x80:
            self.element()
        elif octet < 0xC0 and inside:
            self.give(place, "T", value=self.encoded(CHUNK, 4, 0x20, 0x10))
        elif octet == 0xE1:
            self.at += 1
            target = self.entry(NCNAME, self.identifying(NCNAME))
            self.give(place, "P", name=target, value=self.value(STRING))
        elif octet == 0xE2:
            self.at += 1
            self.give(place, "C", value=self.value(STRING))
        elif octet >> 4 == 15:
            judge(place, (due, PADDING))
            if inside:
                self.end()
                return self.second_half()
            judge(place, (not self.rooted, STRUCTURE), (octet & 15, PADDING))
            self.at += 1
            return True
        else:
            known = octet & 0xFC == (0xC8 if inside else 0xC4)
            judge(place, (True, FORMAT if known else CODE))
        return False


def read(octets, room=32768, table_room=True):
    """The reader, its events and tables complete, or Refusal."""
    judge(0, (not 1 <= len(octets) <= TOP_SIZE, SIZE), (not table_room, ROOM),
          (len(octets) < 4, TRUNCATED), (octets[:4] != HEAD[:4], HEADER))
    reader = Reader(octets, room)
    reader.at = 4
    octet = reader.first()
    judge(4, (octet & 0x80, PADDING), (octet & 0x5F, OPTIONAL))
    reader.at = 5
    if octet:
        reader.head()
    while not reader.child():
        pass
    judge(reader.at, (reader.at < len(octets), STRUCTURE))
    return reader


def check(octets):
    """The check's number and the event count (0 where refused)."""
    try:
        return 0, len(read(octets).events)
    except Refusal as refusal:
        number, place = refusal.args
        return place * 32 + number, 0


def places_of(octets):
    """The places of the events with commas between; for a document that is refused, how."""
    try:
        return ",".join(map(str, read(octets).places))
    except Refusal as refusal:
        return "refused %d at %d" % refusal.args


def listing(octets):
    """What the listing program writes."""
    try:
        reader = read(octets[:TOP_SIZE + 1], room=512)
    except Refusal as refusal:
        return "refused %d at %d\n" % refusal.args
    lines = []
    for event in reader.events:
        strings = [event[slot] for slot in SLOTS[event[0]]]
        words = ["-" if s == "-" else "=" if s == "0" else "=" + reader.text(s).hex() for s in strings]
        lines.append(" ".join([event[0]] + words))
    return "\n".join(lines + ["end %d\n" % len(lines)])

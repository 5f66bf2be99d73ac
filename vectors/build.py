"""Builds documents and event lists: fields, and the places where they can stand.  The answers come from oracle.py, or from what a case is called."""
import re

from oracle import (ALPHABETS, ATTRIBUTE, CHUNK, COUNTS, ELEMENT, HEAD, IDENTIFIED, INTEGERS, LENGTHS, LOCAL, NAMESPACE, NCNAME, NUMBERED, NUMBERS, PREFIX, STRING,
                    UTF_8, UTF_16, VALUE, read)

# A document <a> is made of items (where, octets); END ends a child element.
BEFORE, DECLARED, ATTRIBUTED, INSIDE = range(4)
END = None


def document(items):
    before, declared, attributed, inside = (
        [octets for at, octets in items if at == where] for where in range(4))
    listed = 0x40 if attributed else 0
    octets = bytearray(HEAD + b"".join(before))
    if declared:
        octets += bytes([0x38 | listed]) + b"".join(declared) + b"\xf0\x3c\0a"
    else:
        octets += bytes([0x3C | listed]) + b"\0a"
    octets += b"".join(attributed)
    free = False                    # bits 5 to 8 of the last octet
    for item in [END] * bool(attributed) + inside + [END, END]:
        if item is not END:
            octets += item
        elif free:
            octets[-1] |= 15
        else:
            octets.append(0xF0)
        free = item is END and not free
    return bytes(octets)


def code(forms, bit, lead, value):
    """The octets of a number or length from this bit on, `lead` in front."""
    lowest = 1
    for prefix, zeros, field in forms[bit]:
        if value < lowest + (1 << field):
            break
        lowest += 1 << field
    bits = lead + prefix + "0" * zeros + f"{value - lowest:0{field}b}"
    return int(bits, 2).to_bytes(len(bits) // 8, "big")


def identifying(string):
    return code(LENGTHS, 2, "0", len(string)) + string


def numbered_form(format, number):
    """The bits of format 10 or 11 with an alphabet or algorithm of this number."""
    return f"{format}{number - 1:08b}"


# The bits between the add bit and the length.
FORMATS = {UTF_8: "00", UTF_16: "01"} | {form: numbered_form(format, number) for format in NUMBERED for number, form in NUMBERED[format].items()}


def encoded(octets, add=True, form=UTF_8):
    """A value, comment, content or listed entry; the form is a known one, or its bits."""
    return code(LENGTHS, 5, "0%d" % add + FORMATS.get(form, form), len(octets)) + octets


def chunk(octets, add=True, form=UTF_8):
    return code(LENGTHS, 7, "100%d" % add + FORMATS.get(form, form), len(octets)) + octets


def halves(codes):
    """Two codes of four bits to an octet; an odd one is filled up with 15."""
    codes = list(codes) + [15] * (len(codes) % 2)
    return bytes(high << 4 | low for high, low in zip(codes[::2], codes[1::2]))


# The word of an integer, and words with single blanks between.
WORD = "(0|-?[1-9][0-9]*)"
WORDS = re.compile(f"{WORD}( {WORD})*")


def edges(width):
    """The lowest and the highest integer of so many octets."""
    half = 1 << 8 * width - 1
    return -half, half - 1


def says(form, text):
    """Whether characters can be said in a form."""
    if form in INTEGERS:
        low, high = edges(INTEGERS[form])
        return bool(WORDS.fullmatch(text)) and all(low <= int(word) <= high for word in text.split(" "))
    return form not in ALPHABETS or set(text) <= set(ALPHABETS[form])


def in_form(form, text):
    """The octets that say these characters."""
    if form in INTEGERS:
        return integers(INTEGERS[form], map(int, text.split(" ")))
    if form in ALPHABETS:
        return halves([ALPHABETS[form].index(c) for c in text])
    return text.encode("utf-16-be" if form == UTF_16 else "utf-8")


def integers(width, some):
    return b"".join(integer.to_bytes(width, "big", signed=True) for integer in some)


def by_writer(spell, text, room=True):
    """The field that the writer makes of these characters: of the fewest octets, on a tie the first of utf-8, the alphabets, the algorithms, each by number; added if they are 1
    to 5 octets in utf-8 and the table has room."""
    add = room and len(text.encode()) <= 5
    return min((spell(in_form(form, text), add, form) for form in (UTF_8, *ALPHABETS, *INTEGERS) if says(form, text)), key=len)


def string_number(number):
    return code(NUMBERS, 2, "1", number)


def chunk_number(number):
    return code(NUMBERS, 4, "101", number)


def element_number(number):
    return code(NUMBERS, 3, "00", number)


def attribute_number(number):
    return code(NUMBERS, 2, "0", number)


def long(length):
    return bytes(97 + i % 26 for i in range(length))


def word(i):
    return bytes([65 + i // 26, 97 + i % 26])


def filled(table, count):
    """Items that bring the document's table to this many entries."""
    def name(lead, i):
        """Local names 0 to 127 spelled, then numbers from 1 in the built-in namespace."""
        if i < 128:
            return bytes([lead]) + identifying(word(i))
        return bytes([lead + 1, 0x80]) + string_number(i - 127)
    ways = {
        PREFIX: lambda i: [(DECLARED, b"\xce" + identifying(word(i)))],
        NAMESPACE: lambda i: [(DECLARED, b"\xcd" + identifying(word(i)))],
        LOCAL: lambda i: [(ATTRIBUTED, b"\x78" + identifying(word(i)) + b"\xff")],
        NCNAME: lambda i: [(BEFORE, b"\xe1" + identifying(word(i)) + b"\xff")],
        VALUE: lambda i: [(ATTRIBUTED, (b"\x00" if i else b"\x78\x80") + encoded(word(i)))],
        CHUNK: lambda i: [(INSIDE, chunk(word(i)))],
        STRING: lambda i: [(BEFORE, b"\xe2" + encoded(word(i)))],
        ELEMENT: lambda i: [(INSIDE, name(0x3C, i)), (INSIDE, END)],
        ATTRIBUTE: lambda i: [(ATTRIBUTED, name(0x78, i) + b"\xff")],
    }
    there = table in (PREFIX, NAMESPACE, LOCAL, ELEMENT)    # built in, or the root's
    return [item for i in range(there, count) for item in ways[table](i)]


# Where a field can stand: name, table, the items around the field.
IDENTIFYING = (
    ("prefix of a declaration", PREFIX, lambda f: [(DECLARED, b"\xce" + f)]),
    ("prefix of an element", PREFIX, lambda f: [(INSIDE, b"\x3f" + f + b"\x80\x80"), (INSIDE, END)]),
    ("prefix of an attribute", PREFIX, lambda f: [(ATTRIBUTED, b"\x7b" + f + b"\x80\x80\xff")]),
    ("namespace of a declaration", NAMESPACE, lambda f: [(DECLARED, b"\xcd" + f)]),
    ("namespace of an element", NAMESPACE, lambda f: [(INSIDE, b"\x3d" + f + b"\x80"), (INSIDE, END)]),
    ("namespace of an attribute", NAMESPACE, lambda f: [(ATTRIBUTED, b"\x79" + f + b"\x80\xff")]),
    ("local name of an element", LOCAL, lambda f: [(INSIDE, b"\x3c" + f), (INSIDE, END)]),
    ("local name of an attribute", LOCAL, lambda f: [(ATTRIBUTED, b"\x79\x80" + f + b"\xff")]),
    ("target before the root", NCNAME, lambda f: [(BEFORE, b"\xe1" + f + b"\xff")]),
    ("target", NCNAME, lambda f: [(INSIDE, b"\xe1" + f + b"\xff")]),
)
ENCODED = (
    ("value", VALUE, lambda f: [(ATTRIBUTED, b"\x79\x80\x80" + f)]),
    ("comment before the root", STRING, lambda f: [(BEFORE, b"\xe2" + f)]),
    ("comment", STRING, lambda f: [(INSIDE, b"\xe2" + f)]),
    ("content before the root", STRING, lambda f: [(BEFORE, b"\xe1\0t" + f)]),
    ("content", STRING, lambda f: [(INSIDE, b"\xe1\0t" + f)]),
)
CHUNKS = (("chunk", CHUNK, lambda f: [(INSIDE, f)]),)
ELEMENTS = (
    ("element", ELEMENT, lambda f: [(INSIDE, f), (INSIDE, END)]),
    ("element after a declaration", ELEMENT, lambda f: [(INSIDE, b"\x38\xcc\xf0" + f), (INSIDE, END)]),
)
ATTRIBUTES = (("attribute", ATTRIBUTE, lambda f: [(ATTRIBUTED, f + b"\xff")]),)


# A head is a list of entries, as octets, for each table; behind it stands an element without content.

TABLE_NAMES = ("PREFIX", "NAMESPACE NAME", "LOCAL NAME", "OTHER NCNAME", "OTHER URI", "ATTRIBUTE VALUE",
               "CONTENT CHARACTER CHUNK", "OTHER STRING", "ELEMENT NAME", "ATTRIBUTE NAME")
ROOT = b"\x3c\0~\xff"


def root(listed):
    """The root: by number, by the number of its local name, or spelled."""
    return b"\0\xff" if ELEMENT in listed else b"\x3c\x80\xff" if LOCAL in listed else ROOT


def headed(listed, body=None):
    """A document with these entries listed, {table: entries}; a table may be {table: (count, entries)}."""
    octets = bytearray(HEAD[:4] + b"\x20")
    octets += sum(1 << 9 - table for table in listed).to_bytes(2, "big")
    for table in sorted(listed):
        count, entries = listed[table] if isinstance(listed[table], tuple) else (len(listed[table]), listed[table])
        octets += code(COUNTS, 1, "", count) + b"".join(entries)
    return bytes(octets) + (root(listed) if body is None else body)


def listed_string(table, string, form=UTF_8):
    return identifying(string) if table in IDENTIFIED else encoded(string, False, form)


def surrogate(*triple):
    prefix, namespace, local = triple
    numbers = b"".join(code(NUMBERS, 2, "0", n) for n in triple if n)
    return bytes([2 * (prefix > 0) + (namespace > 0)]) + numbers


def entry(table, i):
    """Entry i of a table, from 0; a name is that of local name i, or from 128 on of one in the built-in namespace."""
    if table < ELEMENT:
        return listed_string(table, word(i))
    return surrogate(0, 0, i + 1) if i < 128 else surrogate(0, 1, i - 127)


def listing_of(table, count):
    """A head that lists so many entries for a table; names need local names."""
    listed = {table: [entry(table, i) for i in range(count)]}
    if table >= ELEMENT:
        listed[LOCAL] = [entry(LOCAL, i) for i in range(min(count, 129))]
    return listed


# The event that the writer is given for each place, {} the string; the text area is "at" and the string. The root is `a`.
EVENTS = {
    "prefix of a declaration": "N,{},-,-,-",
    "prefix of an element": "S,{},U,0+1,-",
    "prefix of an attribute": "A,{},U,0+1,0",
    "namespace of a declaration": "N,-,{},-,-",
    "namespace of an element": "S,-,{},0+1,-",
    "namespace of an attribute": "A,-,{},0+1,0",
    "local name of an element": "S,-,-,{},-",
    "local name of an attribute": "A,-,U,{},0",
    "target before the root": "P,-,-,{},0",
    "target": "P,-,-,{},0",
    "value": "A,-,U,0+1,{}",
    "comment before the root": "C,-,-,-,{}",
    "comment": "C,-,-,-,{}",
    "content before the root": "P,-,-,1+1,{}",
    "content": "P,-,-,1+1,{}",
    "chunk": "T,-,-,-,{}",
}
START, STOP, NO_TABLES = "S,-,-,0+1,-", "E,-,-,-,-", "-"


def events_with(name, string):
    """The events of a root with this string at a place, and the number of the event that has it."""
    event = EVENTS[name].format(string)
    early = event[0] == "N" or name.endswith("before the root")     # before the root's start
    events = [event, START] if early else [START, event]
    return events + [STOP] * (2 if event[0] == "S" else 1), events.index(event)


def written(octets):
    return "ok %s %s" % (octets.hex(), ",".join(str(len(table)) for table in read(octets).tables))

"""The documents of the bench, at any size: fast infoset octets, and the same infoset as XML text. For bench/run, bench/hold and bench/profile."""
import os, struct, subprocess

ROOT = os.path.dirname(os.path.dirname(os.path.abspath(__file__)))
# The opening and the root <a>; the last two ends; the three behind an empty element.
OPEN, END, ENDS = b'\xe0\x00\x00\x01\x00\x3c\x00a', b'\xff', b'\xff\xf0'
BLANK, NAMESPACE, START, ATTRIBUTE, TEXT, COMMENT, INSTRUCTION, LAST = range(8)
ENTRIES = 256
# Without erms, for the emulator counts a repeated string instruction once for each octet, and blanking by one would be all that is seen.
EMULATOR = ['qemu-x86_64', '-cpu', 'max,-erms']


# The forms of a stretch by tag, with the two format bits and, behind formats 10 and 11, the number less one; the alphabets and the octets of an integer by tag.
UTF_8, UTF_16, NUMERIC, DATES, SHORT, INT, LONG = 2, 5, 6, 7, 8, 9, 10
FORMATS = {UTF_8: (0, None), UTF_16: (1, None), NUMERIC: (2, 0), DATES: (2, 1), SHORT: (3, 2), INT: (3, 3), LONG: (3, 4)}
ALPHABETS = {NUMERIC: '0123456789-+.e ', DATES: '0123456789-:TZ '}
WIDTHS = {SHORT: 2, INT: 4, LONG: 8}


def packed(text, form):
    """The octets of a string in a form."""
    if form in WIDTHS:
        return b''.join(int(word).to_bytes(WIDTHS[form], 'big', signed=True) for word in text.split(' '))
    if form not in ALPHABETS:
        return text.encode('utf-16-be' if form == UTF_16 else 'utf-8')
    places = [ALPHABETS[form].index(c) for c in text] + [15] * (len(text) % 2)
    return bytes(16 * a + b for a, b in zip(places[::2], places[1::2]))


def said(octets, form):
    """The string that they are, in UTF-8."""
    if form in WIDTHS:
        return b' '.join(b'%d' % int.from_bytes(octets[at:at + WIDTHS[form]], 'big', signed=True) for at in range(0, len(octets), WIDTHS[form]))
    if form not in ALPHABETS:
        return octets.decode('utf-16-be').encode() if form == UTF_16 else octets
    places = [half for octet in octets for half in divmod(octet, 16)]
    return ''.join(ALPHABETS[form][k] for k in places if k < 15).encode()


def length(n, bit, lead):
    """C.23, C.24: a length from a bit on."""
    shorter = 1 << 8 - bit
    if n <= shorter:
        return bytes([lead | n - 1])
    return bytes([lead | shorter, n - shorter - 1]) if n <= shorter + 256 else bytes([lead | shorter | shorter >> 1]) + (n - shorter - 257).to_bytes(4, 'big')


def in_form(text, bit, lead, form):
    """C.19, C.20: the format, the number of an alphabet or algorithm, the length and the octets."""
    unit, (format, number) = 1 << 9 - bit, FORMATS[form]
    lead |= format * unit
    if number is None:
        return length(len(text), bit, lead) + text
    return bytes([lead]) + length(len(text), bit, number * unit) + text


def chunk(text, added, form=UTF_8):
    """A spelled chunk (C.15.3)."""
    return in_form(text, 7, 0x90 if added else 0x80, form)


def value(text, form=UTF_8):
    """A spelled value that is not added (C.14.3)."""
    return in_form(text, 5, 0, form)


def numbered_chunk(n):
    """C.15.4: the number in C.28."""
    return bytes([0xA0 | n - 1]) if n <= 16 else bytes([0xB0 | n - 17 >> 8, n - 17 & 255])


def spelled_element(name):
    """C.18.3 without prefix and namespace: a name of at most 64 octets."""
    return bytes([0x3C, len(name) - 1]) + name


def numbered_element(n):
    """C.18.4: the number in C.27."""
    return bytes([n - 1]) if n <= 32 else bytes([0x20 | n - 33 >> 8, n - 33 & 255])


def unlike(k, octets, behind=0):
    """String k of 256 that are alike but for two octets, which are the last or have some behind them."""
    return b'n' * (octets - 2 - behind) + bytes([97 + k // 16, 97 + k % 16]) + b'n' * behind


def small_elements(size):
    """<a/> in the root again and again: an octet for the start, half of one for the end and half for padding."""
    return OPEN + b'\x00\xf0' * ((size - 11) // 2) + b'\x00' + ENDS


def long_texts(size, pieces='abcd'):
    """Four chunks, none added, each of one character, or one line, again and again."""
    texts = [piece.encode() * ((size - 29) // 4 // len(piece.encode())) for piece in pieces]
    return OPEN + b''.join(chunk(text, False) for text in texts) + END


def full_tables(size):
    """256 chunks of two octets, which fill their table at every size; then chunks by number, all over the table."""
    entries = b''.join(chunk(unlike(k, 2), True) for k in range(ENTRIES))
    numbers, j = b'', 0
    while len(OPEN + entries + numbers) + 3 <= size:
        numbers += numbered_chunk(1 + 97 * j % ENTRIES)
        j += 1
    return OPEN + entries + numbers + END


def new_names(size, middle=False):
    """As many new element names as fit, up to a full table, all of one length and alike but for two octets: each is compared with all before it. It is what makes a
    reader compare most, since it looks up nothing but new names."""
    octets = max(3, size // ENTRIES - 3)
    count = min(ENTRIES - 1, (size - 11) // (octets + 3))
    return OPEN + b'\xf0'.join(spelled_element(unlike(k, octets, octets // 2 * middle)) for k in range(count)) + ENDS


def repeated_names(size, middle=False):
    """Half of the document is such names, the other half the last of them by number: a writer finds each in its table behind all the others."""
    octets = max(5, size // 2 // ENTRIES - 3)
    count = min(ENTRIES - 1, size // 2 // (octets + 3))
    names = b''.join(spelled_element(unlike(k, octets, octets // 2 * middle)) + b'\xf0' for k in range(count))
    again = numbered_element(count + 1)
    return OPEN + names + (again + b'\xf0') * ((size - 12 - len(names)) // 3) + again + ENDS


def number_25(n, lead):
    """C.25 behind a bit."""
    return bytes([lead | n - 1]) if n <= 64 else bytes([lead | 0x40, n - 65])


def listed_count(n):
    """C.21."""
    return bytes([n - 1]) if n <= 128 else bytes([0x80, 0, n - 129])


def full_head(size):
    """Half of the document, or as much as there is room for, is a head that lists as many entries in each of the ten tables, up to full ones; the other half elements with an
    attribute and a chunk, all by number, all over the tables. It is written with the tables that it lists."""
    count = min(ENTRIES, size // 2 // 30)
    head = b'\xe0\x00\x00\x01\x20\x03\xff'
    for table in range(8):
        entries = count - (count == ENTRIES and table < 2)
        # A value's length stands in other bits than a name's, but of two octets it is the same octet.
        head += listed_count(entries) + b''.join(b'\x01' + unlike(k, 2) for k in range(entries))
    head += (listed_count(count) + b''.join(b'\x00' + number_25(n, 0) for n in range(1, count + 1))) * 2
    body, j = b'\x00', 0
    while True:
        n = 1 + 97 * j % count
        start = bytes([0x40 | n - 1]) if n <= 32 else bytes([0x60 | n - 33 >> 8, n - 33 & 255])
        item = start + number_25(n, 0) + number_25(n, 0x80) + b'\xf0' + numbered_chunk(n)
        if len(head + body + item) + 3 > size:
            return head + body[:-1] + ENDS
        body, j = body + item + b'\xf0', j + 1


def records_of(size, forms, fields):
    """Elements with an attribute and a chunk, none added, as templates have them: serial numbers, counters, times. Element and attribute by number; `forms` and `fields` give the forms of
    the two strings of element k, and the strings."""
    def strings(k):
        (v, c), (of_value, of_chunk) = fields(k), forms(k)
        return value(packed(v, of_value), of_value) + b'\xf0' + chunk(packed(c, of_chunk), False, of_chunk)
    body, k = OPEN[:5] + bytes([0x3C, 0]) + b'a' + bytes([0x7C, 0]) + b'b' + bytes([0x78, 0]) + b'c' + strings(0), 1
    while True:
        # The element b with its attribute c.
        item = b'\xf0' + bytes([0x41, 0]) + strings(k)
        if len(body + item) + 2 > size:
            return body + ENDS
        body, k = body + item, k + 1


def digits(size):
    """A serial number of twelve digits and a measure of fifteen characters, in alphabet 1."""
    return records_of(size, lambda k: (NUMERIC, NUMERIC), lambda k: ('%012d' % (k * 7919 % 10**12), '-%d.%03de+%02d %04d' % (k % 10, k % 1000, k % 100, k % 10000)))


def dates(size):
    """A time of the day and a date with one, in alphabet 2."""
    return records_of(size, lambda k: (DATES, DATES), lambda k: ('%02d:%02d:%02d' % (k % 24, k % 60, k * 7 % 60), '2026-%02d-%02dT%02d:%02d:00Z' % (1 + k % 12, 1 + k % 28, k % 24, k % 60)))


def utf_16(size):
    """Names of places: a value of six characters and a chunk of twenty, in utf-16. It is read; our writer is given these and writes utf-8."""
    return records_of(size, lambda k: (UTF_16, UTF_16), lambda k: ('门%04d号' % (k % 10000), '航站楼端口 %04d à l’étage' % (k % 10000)))


def counters(size):
    """Counters of a port: a value of four shorts, of which one is below 0, and a chunk of six shorts, four ints or two longs, in turn. These take the fewest octets, so that they are
    written as they are read."""
    def some(k, count, low, high):
        return ' '.join(str(low + (k * count + i) * 2654435761 % (high - low)) for i in range(count))

    def fields(k):
        chunks = (some(k, 6, 10000, 1 << 15), some(k, 4, 10 ** 9, 1 << 31), some(k, 2, 10 ** 18, 1 << 63))
        return some(k, 3, 10000, 1 << 15) + ' -%d' % (10000 + k % 20000), chunks[k % 3]
    return records_of(size, lambda k: (SHORT, (SHORT, INT, LONG)[k % 3]), fields)


# Names that are unlike in the last octets cost most where octets are compared from the first on. Those that are unlike in the middle tell whether another order only
# moves the cost.
SHAPES = [
    ('small elements', small_elements), ('full tables', full_tables),
    ('long texts', long_texts), ('long texts, line ends', lambda size: long_texts(size, [39 * c + '\n' for c in 'abcd'])),
    ('long texts, not ASCII', lambda size: long_texts(size, '机场端口')),
    ('new names', new_names), ('repeated names', repeated_names), ('full head', full_head),
    ('new names, middle', lambda size: new_names(size, True)), ('repeated names, middle', lambda size: repeated_names(size, True)),
    ('digits', digits), ('dates', dates), ('utf-16', utf_16), ('counters', counters),
]
SIZES = [1024, 4096, 16384]


def documents():
    """Rows of shape, size in KB and octets; D.5 of the standard has no size."""
    with open(os.path.join(ROOT, 'vectors', 'd5_000_header_corrected.hex')) as f:
        d5 = bytes.fromhex(f.read().strip())
    return [('D.5', None, d5)] + [(name, size // 1024, make(size)) for name, make in SHAPES for size in SIZES]


def events(document, words):
    """The records as rows of a kind and four strings, None where absent."""
    marks = {1: b'', 3: b'xml', 4: b'http://www.w3.org/XML/1998/namespace'}
    for record in struct.iter_unpack('<14I', words):
        strings = [record[i:i + 3] for i in (1, 4, 7, 10)]
        yield record[0], [said(document[place:place + n], tag) if tag in FORMATS else marks.get(tag) for tag, place, n in strings]


def lines(rows):
    """Event lines, as the program `listing` prints them."""
    slots = {NAMESPACE: (0, 1), START: (0, 1, 2), ATTRIBUTE: (0, 1, 2, 3), TEXT: (3,), COMMENT: (3,), INSTRUCTION: (2, 3), LAST: ()}
    for kind, strings in rows:
        shown = ['-' if strings[slot] is None else '=' + strings[slot].hex() for slot in slots[kind]]
        yield ' '.join([' NSATCPE'[kind]] + shown) + '\n'


def xml(rows):
    """The XML text, and how many starts, attributes and octets of text a parser must find in it."""
    rows = list(rows)
    kinds = [kind for kind, _ in rows]
    text = subprocess.run([os.path.join(ROOT, 'programs', 'lines-to-xml')], input=''.join(lines(rows)).encode(), capture_output=True, check=True).stdout
    return text, (kinds.count(START), kinds.count(ATTRIBUTE), sum(len(strings[3]) for kind, strings in rows if kind == TEXT))

"""Documents and lists that tests/run and tests/write make and that no file keeps: strings with one octet, half or unit at every place that is not like the others; every short
string in a form, and every integer of two octets; every alphabet and algorithm that is not read. A document is refused by one string at most, so those that are good share documents,
and what they say is listed."""
from itertools import groupby, product

from make import *

LENGTHS = [*range(1, 81), 95, 96, 97, 127, 128, 129, 160, 191, 192, 193, 257]


def inside(field):
    return document([(INSIDE, field)])


def refused_at(document, field, number):
    return document.rindex(field) * 32 + number


def other_octets():
    """(name, octets, check number) of documents with a string in which one octet is no character by itself, a tab, or of none."""
    for kind, spell in (('chunk', chunk), ('local name', lambda text: b'\x3c' + identifying(text))):
        for length in LENGTHS:
            for place in range(length):
                for octet, refusal in ((0x1F, TEXT), (0x09, 0), (0xBF, TEXT)):
                    text = bytearray(b'x' * length)
                    text[place] = octet
                    body = [(INSIDE, spell(bytes(text)))] + [(INSIDE, END)] * (kind != 'chunk')
                    yield '%s of %d, %02x at %d' % (kind, length, octet, place), document(body), refusal and (8 + (kind != 'chunk')) * 32 + refusal


def other_halves():
    """A half of 15 at every place of a string in an alphabet; the last is fill."""
    for form, length in product(ALPHABETS, LENGTHS):
        for place in range(2 * length):
            field = chunk(halves([15 if half == place else half % 15 for half in range(2 * length)]), True, form)
            good = place == 2 * length - 1
            yield '%s, %d octets, 15 at %d' % (form, length, place), inside(field), 0 if good else refused_at(inside(field), field, TEXT)


def other_units():
    """A unit of utf-16 that is no character, or one that is none alone, at every place; and two that are a character together."""
    for length in LENGTHS:
        for place in range(length):
            for unit, refusal in ((b'\xd8\0', TEXT), (b'\xdf\xff', TEXT), (b'\xff\xfe', TEXT), (b'\0\x1f', TEXT), (b'\0\x09', 0), (b'\xdb\xff\xdf\xff', 0)):
                field = chunk(b'\0x' * place + unit + b'\0x' * (length - place - 1), True, UTF_16)
                yield '%d units, %s at %d' % (length, unit.hex(), place), inside(field), refusal and refused_at(inside(field), field, refusal)


def bad_strings():
    """Every string of one and two octets that is none in an alphabet, every unit that is no character, every count of octets up to 299 in integers, every alphabet and algorithm that
    is not read, also with wrong zero bits in its length."""
    for form, count in product(ALPHABETS, (1, 2)):
        for octets in product(range(256), repeat=count):
            if said(form, bytes(octets)) is None:
                field = chunk(bytes(octets), True, form)
                yield '%s, %s' % (form, bytes(octets).hex()), inside(field), refused_at(inside(field), field, TEXT)
    for unit in range(1 << 16):
        octets = unit.to_bytes(2, 'big')
        if said(UTF_16, octets) is None:
            yield 'unit %04x' % unit, inside(chunk(octets, True, UTF_16)), refused_at(inside(chunk(octets, True, UTF_16)), chunk(octets, True, UTF_16), TEXT)
    for (form, width), count in product(INTEGERS.items(), range(1, 300)):
        field = chunk(b'\x80' * count, True, form)
        yield '%s, %d octets' % (form, count), inside(field), refused_at(inside(field), field, TEXT) if count % width else 0
    for format, number, (place, spell) in product(NUMBERED, range(1, 257), (('chunk', chunk), ('comment', encoded))):
        for octets in (b'\x11', b'\xff' * 9) if number not in NUMBERED[format] else ():
            field = spell(octets, False, numbered_form(format, number))
            made = document([(INSIDE, field if place == 'chunk' else b'\xe2' + field)])
            name = '%s, format %s, number %d, %d octets' % (place, format, number, len(octets))
            yield name, made, refused_at(made, field, FORMAT)
            yield name + ', one short', made[:made.rindex(field) + len(field) - 1], refused_at(made, field, TRUNCATED)
    for format, number, bits in product(NUMBERED, range(1, 257), (1, 2, 3)):
        field = bytearray(encoded(b'\xff' * 9, False, numbered_form(format, number)))
        field[1] |= bits
        made = document([(INSIDE, b'\xe2' + field)])
        yield 'comment, format %s, number %d, length bits %d' % (format, number, bits), made, refused_at(made, field, PADDING if number in NUMBERED[format] else FORMAT)


def good_strings():
    """(form, octets): every string of up to four characters of an alphabet, every unit of utf-16 that is a character, each high and low surrogate with the edges of the others, every
    short, and steps through the ints and the longs."""
    for form in ALPHABETS:
        yield from ((form, halves(codes)) for count in (1, 2, 3, 4) for codes in product(range(15), repeat=count))
    yield from ((UTF_16, unit.to_bytes(2, 'big')) for unit in range(1 << 16) if said(UTF_16, unit.to_bytes(2, 'big')) is not None)
    high, low = range(0xD800, 0xDC00), range(0xDC00, 0xE000)
    pairs = [*product(high, (low[0], low[-1])), *product((high[0], high[-1]), low)]
    yield from ((UTF_16, h.to_bytes(2, 'big') + l.to_bytes(2, 'big')) for h, l in pairs)
    for form, width in INTEGERS.items():
        low, high = edges(width)
        yield from ((form, integers(width, [z])) for z in range(low, high + 1, 1 if width == 2 else (high - low) // 4095))


# A kind of place: the item of a string there, and its line up to the string; what must stand before it, and the lines of that.
WAYS = {
    'chunks': (lambda octets, form: (INSIDE, chunk(octets, False, form)), 'T', [], []),
    'comments': (lambda octets, form: (INSIDE, b'\xe2' + encoded(octets, False, form)), 'C', [], []),
    'contents': (lambda octets, form: (INSIDE, b'\xe1\x80' + encoded(octets, False, form)), 'P =74', [(INSIDE, b'\xe1\0t\xff')], ['P =74 =']),
    'values': (lambda octets, form: (ATTRIBUTED, b'\0' + encoded(octets, False, form)), 'A - - =61', [(ATTRIBUTED, b'\x78\x80\xff')], ['A - - =61 =']),
}
SHARE, MANY = 2000, 8000


def listed(lines):
    """The listing of a root with these lines."""
    return ['S - - =61', *lines, 'E', 'end %d' % (len(lines) + 2)]


def is_short(octets):
    """Whether these are at most three characters of an alphabet."""
    return len(octets) == 1 or octets[1] & 15 == 15


def parts(strings):
    """(name, as many of the strings of a form together as a document has room for)"""
    for form, some in groupby(strings, key=lambda string: string[0]):
        some = list(some)
        share = 16000 // (6 + max(len(octets) for _, octets in some))
        yield from (('%s from %d' % (form, at), some[at:at + share]) for at in range(0, len(some), share))


def shared_documents():
    """(name, document, its listing): strings of up to four characters in chunks and values, of up to three in the other places."""
    strings = list(good_strings())
    for way, (item, line, before, told) in WAYS.items():
        some = strings if way in ('chunks', 'values') else [(form, octets) for form, octets in strings if form not in ALPHABETS or is_short(octets)]
        for name, part in parts(some):
            lines = told + ['%s =%s' % (line, said(form, octets).encode().hex()) for form, octets in part]
            yield '%s, %s' % (way, name), document(before + [item(octets, form) for form, octets in part]), listed(lines)
    yield from shared_heads([(form, octets) for form, octets in strings if form in ALPHABETS and is_short(octets)])


def shared_heads(strings):
    """The same of strings that a head lists, each called by its number in the body."""
    for table, at in product(OTHERS, range(0, len(strings), 256)):
        part = strings[at:at + 256]
        entries = [encoded(octets, False, form) for form, octets in part]
        numbers = range(1, len(part) + 1)
        body, letter = {
            VALUE: (b'\x7c\0a\x78\x80' + string_number(1) + b''.join(b'\0' + string_number(n) for n in numbers) + b'\xff\xf0', 'A - - =61'),
            CHUNK: (b'\x3c\0a' + b''.join(chunk_number(n) for n in numbers) + b'\xff', 'T'),
            STRING: (b'\x3c\0a' + b''.join(b'\xe2' + string_number(n) for n in numbers) + b'\xff', 'C')}[table]
        lines = ['%s =%s' % (letter, said(form, octets).encode().hex()) for form, octets in part]
        yield 'listed in %s from %d' % (TABLE_NAMES[table], at), headed({table: entries}, body), listed(lines[:table == VALUE] + lines)


def every_short():
    """(name, text area, events, document): every short as a chunk, in lists that share it, given in decimal and in two octets; and lists of as many as a document has in one chunk."""
    low, high = edges(2)
    for at, form in product(range(low, high + 1, SHARE), (UTF_8, '/3')):
        some = [str(z) for z in range(at, min(at + SHARE, high + 1))]
        yield 'shorts from %d in %s' % (at, form or 'utf-8'), *chunks_of(some, form)
    for at in range(low, high + 1, MANY):
        yield '%d shorts from %d' % (MANY, at), *chunks_of([' '.join(str(z) for z in range(at, min(at + MANY, high + 1)))], '/3')


def chunks_of(texts, form):
    """A text area behind the root's name, the events and the document of these chunks."""
    area, events, fields, added = b'a', [START], [], 0
    for text in texts:
        octets = in_form(form, text)
        events.append('T,-,-,-,%d+%d%s' % (len(area), len(octets), form))
        area += octets
        fields.append((INSIDE, by_writer(chunk, text, added < TOP_ENTRIES)))
        added += len(text) <= 5
    return area, events + [STOP], document(fields)

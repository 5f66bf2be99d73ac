#!/usr/bin/env python3
"""Makes the vectors beside this script that are ours, all but adversarial.tsv; see README.md.

The oracle, a reader in oracle.py, is held against every vector that says how a document is read; nothing is made where it disagrees."""
import hashlib
from pathlib import Path

# The names of both are names of this module too.
from oracle import *
from build import *
from forms import form_documents, form_lists, numbered_forms

HERE = Path(__file__).resolve().parent


def rows(name):
    return [line.split("\t") for line in (HERE / name).read_text().splitlines() if not line.startswith("#")]


# The documents given to the project: name, octets, check number, sha1 of the listing.
READ = ("read.tsv", "items/read_1.tsv", "items/read_2.tsv", "items/read_4.tsv", "items/read_6.tsv")

# The header of a draft.
DRAFT = bytes.fromhex("e0010000")


def documents():
    """The rows of these files; some are in two of them."""
    return list(dict.fromkeys(tuple(row) for name in READ for row in rows(name)))


def placed_documents():
    """(name, octets, places) of items/places.tsv. A draft is not read yet: what is due in place of its places is the refusal of its header."""
    for name, octets, wanted in rows("items/places.tsv"):
        octets = bytes.fromhex(octets)
        yield name, octets, "refused %d at 0" % HEADER if octets[:4] == DRAFT else wanted


def digest_of(octets):
    return hashlib.sha1(listing(octets).encode()).hexdigest()


def disagreements():
    for name, octets, number, digest in documents():
        octets = bytes.fromhex(octets)
        if (check(octets)[0], digest_of(octets)) != (int(number), digest):
            yield "%s: %s" % (" or ".join(READ), name)
    for name, octets, wanted in placed_documents():
        if places_of(octets) != wanted:
            yield "items/places.tsv: " + name
    for name, octets, room, answer in rows("adversarial.tsv"):
        try:
            got = "accepted %d" % len(read(bytes.fromhex(octets), int(room)).events)
        except Refusal as refusal:
            got = "refused %d %d" % refusal.args
        if got != answer:
            yield "adversarial.tsv: " + name
    for path in sorted((HERE / "files").glob("*.fi")):
        if listing(path.read_bytes()) != path.with_suffix(".listing").read_text():
            yield path.name
    order = bytes.fromhex((HERE / "d5_000_header_corrected.hex").read_text())
    if listing(order) != (HERE / "d5_listing.txt").read_text():
        yield "d5"


# ----------------------------------------------------------------- events.tsv

def shown(entry):
    if isinstance(entry, str):
        return entry
    return "%d+%d%s" % entry if isinstance(entry[2], str) else "%d.%d.%d" % entry


def event_rows():
    short = [(name, bytes.fromhex(octets)) for name, octets, _, _ in documents() if len(octets) <= 120]
    for name, octets in short + list(numbered_forms()):
        if check(octets)[0] == 0:
            reader = read(octets)
            yield (name, " ".join(",".join(map(shown, event)) for event in reader.events),
                   "|".join(" ".join(map(shown, table)) for table in reader.tables), places_of(octets))


# --------------------------------------------------------------- boundary.tsv

def length_cases():
    def cases(places, lengths, ways):
        for place, _, around in places:
            for length in lengths:
                for way, spell in ways:
                    field = spell(long(length))
                    octets = document(around(field))
                    yield "%s of %d%s" % (place, length, way), octets, 0
                short = octets[:octets.index(field) + len(field) - 1]
                yield "%s of %d, one octet short" % (place, length), short, TRUNCATED
            top = field[:-len(long(length)) - 4] + b"\xff\xff\xff\xff"
            yield place + " of the greatest length", document(around(top)), TRUNCATED

    def ways(spell):
        return (", not added", lambda text: spell(text, False)), (", added", spell)
    yield from cases(IDENTIFYING, (64, 65, 320, 321), [("", identifying)])
    yield from cases(ENCODED, (8, 9, 264, 265), ways(encoded))
    yield from cases(CHUNKS, (2, 3, 258, 259), ways(chunk))


def table_cases():
    def cases(places, forms, numbered, new, others):
        for place, table, around in places:
            def case(count, field):
                return document(filled(table, count) + around(field))
            yield place + ", entry 256", case(255, new), 0
            yield place + ", entry 257", case(256, new), FULL
            for what, field, refusal in others:
                yield "%s, table full, %s" % (place, what), case(256, field), refusal
            top = 1 << forms[0][2]
            for count, number in ((256, 256), (256, 257), (top, top), (top, top + 1), (top + 1, top + 1)):
                yield ("%s, number %d of %d" % (place, number, count), case(count, numbered(number)),
                       INDEX if number > count else 0)
            for _, _, bits in forms[1:-1]:
                top += 1 << bits
                for number in (top, top + 1):
                    yield "%s, number %d" % (place, number), case(1, numbered(number)), INDEX
            yield "%s, number %d" % (place, TOP_NUMBER), case(1, numbered(TOP_NUMBER)), INDEX
            yield "%s, number %d" % (place, TOP_NUMBER + 1), case(1, numbered(TOP_NUMBER + 1)), RANGE

    def others(spell):
        return ("not added", spell(b"new", False), 0), ("held and added", spell(word(1)), FULL)

    def held(field):
        return [("held and spelled", field, REPEAT)]
    yield from cases(IDENTIFYING, NUMBERS[2], string_number, identifying(b"new"), held(identifying(word(1))))
    yield from cases(ENCODED, NUMBERS[2], string_number, encoded(b"new"), others(encoded))
    yield from cases(CHUNKS, NUMBERS[4], chunk_number, chunk(b"new"), others(chunk))
    yield from cases(ELEMENTS, NUMBERS[3], element_number, b"\x3f\x80\x80\x80", held(b"\x3d\x80\x80"))
    yield from cases(ATTRIBUTES, NUMBERS[2], attribute_number, b"\x7b\x80\x80\x80", held(b"\x79\x80\x80"))


def depth_cases():
    ways = (("by number", [], lambda i: [b"\x00"]),
            ("spelled", [], lambda i: [b"\x3c" + identifying(word(i))]),
            ("with declarations", [], lambda i: [b"\x38\xcc\xf0\x00"]),
            ("with attributes", [(ATTRIBUTED, b"\x78\x80\xff")], lambda i: [b"\x40\x00\xff", END]))
    for way, root, child in ways:
        for depth, refusal in ((32, 0), (33, DEPTH)):
            inside = [part for i in range(1, depth) for part in child(i)] + [END] * (depth - 1)
            yield "depth %d %s" % (depth, way), document(root + [(INSIDE, part) for part in inside]), refusal
    twice = [b"\x00"] * 31 + [END, b"\x00"] + [END] * 31
    yield "depth 32 twice", document([(INSIDE, part) for part in twice]), 0


def size_cases():
    def comment(size):
        return document([(BEFORE, b"\xe2" + encoded(long(size - 15), False))])
    yield "size 0", b"", SIZE
    yield "size 1", HEAD[:1], TRUNCATED
    yield "size 16384, one comment", comment(TOP_SIZE), 0
    yield "size 16385, one comment", comment(TOP_SIZE + 1), SIZE
    many = document([(INSIDE, part) for part in [b"\0", b"\0", END, END] * 5457 + [b"\0", END] * 2])
    yield "size 16384, many events", many, 0
    yield "size 16385, an octet after the end", many + b"\0", SIZE


def head_count_cases():
    for table, name in enumerate(TABLE_NAMES):
        most = TOP_ENTRIES - (table in (PREFIX, NAMESPACE))
        for count in (1, 128, 129, most, most + 1):
            yield "head, %d in %s" % (count, name), headed(listing_of(table, count)), FULL if count > most else 0
        listed = listing_of(table, most)
        again = listed | {table: listed[table] + listed[table][:1]}
        yield "head, %s full and one again" % name, headed(again), REPEAT if table not in OTHERS else FULL
        for count, refusal in ((1 << 20, TRUNCATED), ((1 << 20) + 1, RANGE)):
            yield "head, %s announces %d" % (name, count), headed({table: (count, [])}, b""), refusal
        few = {table: (129, listing_of(table, 128)[table])}
        if table < ELEMENT:
            yield "head, 128 in %s, where 129 are announced" % name, headed(few, b""), TRUNCATED
    every = {table: listing_of(table, TOP_ENTRIES - (table in (PREFIX, NAMESPACE)))[table] for table in range(10)}
    yield "head, all tables full", headed(every, element_number(256) + b"\xff"), 0
    yield "head, all tables full, a new name behind it", headed(every, b"\x3c\x80\xff"), REPEAT
    yield "head, all tables full, a new local name behind it", headed(every, ROOT), FULL


def head_length_cases():
    for table in IDENTIFIED + OTHERS:
        for length in (64, 65, 320, 321) if table in IDENTIFIED else (8, 9, 264, 265):
            listed = {table: [listed_string(table, long(length))]}
            yield "head, %s of %d" % (TABLE_NAMES[table], length), headed(listed), 0
            yield "head, %s of %d, one octet short" % (TABLE_NAMES[table], length), headed(listed, b"")[:-1], TRUNCATED
        top = listed_string(table, long(321))[:-321 - 4] + b"\xff\xff\xff\xff"
        yield "head, %s of the greatest length" % TABLE_NAMES[table], headed({table: [top]}), TRUNCATED


def head_number_cases():
    for table in (ELEMENT, ATTRIBUTE):
        for part, name in enumerate(("prefix", "namespace", "local name")):
            for count, number in ((64, 64), (64, 65), (65, 65), (256, 256), (256, 257), (2, 8256), (2, 8257), (2, TOP_NUMBER), (2, TOP_NUMBER + 1)):
                listed = {LOCAL: [entry(LOCAL, 0)]} | {part: [entry(part, i) for i in range(count - (part != LOCAL))]}
                triple = [1, 1, 1]
                triple[part] = number
                refusal = RANGE if number > TOP_NUMBER else INDEX if number > count else 0
                yield ("head, %s, %s %d of %d" % (TABLE_NAMES[table], name, number, count),
                       headed(listed | {table: [surrogate(*triple)]}), refusal)


def head_size_cases():
    for size, refusal in ((TOP_SIZE, 0), (TOP_SIZE + 1, SIZE)):
        yield "size %d, one listed uri" % size, headed({URI: [identifying(long(size - 13 - len(ROOT)))]}), refusal


def boundary_rows():
    for cases in (depth_cases, length_cases, table_cases, size_cases, head_count_cases, head_length_cases, head_number_cases, head_size_cases):
        for name, octets, refusal in cases():
            number, count = check(octets)
            assert number % 32 == refusal, (name, number)
            yield name, octets.hex(), str(number), str(count)


# -------------------------------------------- characters_read.tsv, characters_write.tsv

# Octets of a character, or of none, by what they are called. The neighbours at each edge of the table in XML 1.0, clause 2.2; some within; octets that are
# not well-formed.
THERE = {"%X" % n: chr(n).encode() for n in (0x9, 0xA, 0xD, 0x20, 0x7E, 0x7F, 0x80, 0x9F, 0x7FF, 0x800, 0xD7FF, 0xE000, 0xFDD0, 0xFEFF, 0xFFFD, 0x10000, 0x1FFFE, 0x10FFFF)}
NOT_THERE = {"%X" % n: chr(n).encode("utf-8", "surrogatepass") for n in (0x0, 0x1, 0x8, 0xB, 0xC, 0xE, 0x1F, 0xD800, 0xDFFF, 0xFFFE, 0xFFFF)} | {
    "110000": b"\xf4\x90\x80\x80", "0 in two octets": b"\xc0\x80", "9 in two octets": b"\xc0\x89", "FFFD in four octets": b"\xf0\x8f\xbf\xbd",
    "a following octet alone": b"\xbf", "FFFD without its last octet": b"\xef\xbf"}
PIECES = [(what, octets, 0) for what, octets in THERE.items()] + [(what, octets, TEXT) for what, octets in NOT_THERE.items()]
SOME = [piece for piece in PIECES if piece[0] in ("9", "D", "20", "7F", "D7FF", "FFFD", "10FFFF", "0", "8", "1F", "D800", "FFFE", "FFFF", "110000")]

# Octets of a string: each side of the lengths at which the archive tests text in another way.
SIZES = (1, 2, 3, 4, 7, 8, 9, 16, 17, 32, 33, 64, 65, 66, 97, 129, 200)


def in_string(piece, length, where, lead=b""):
    """A string of so many octets, of letters but for what is in front and the piece: behind that, in the middle or at the end."""
    rest = length - len(lead) - len(piece)
    front = {"first": 0, "in the middle": rest // 2, "last": rest}[where]
    return lead + long(front) + piece + long(rest - front)


def strings():
    """(what it is, string, refusal); the last are long and no longer plain where the piece comes."""
    for length in SIZES:
        for what, octets, refusal in SOME:
            for where in ("first", "in the middle", "last"):
                if len(octets) <= length:
                    yield "%d octets, %s %s" % (length, what, where), in_string(octets, length, where), refusal
    for name, lead in (("a tab", b"\t"), ("80", b"\xc2\x80"), ("800", b"\xe0\xa0\x80")):
        for what, octets, refusal in SOME:
            for where in ("first", "last"):
                yield "65 octets, %s in front, %s %s" % (name, what, where), in_string(octets, 65, where, lead), refusal


# Each place of a string, and how it is spelled there; the field of a chunk may begin with its presence bits.
SPELLED = [(place, identifying) for place in IDENTIFYING] + [(place, encoded) for place in ENCODED] + [(place, chunk) for place in CHUNKS]


def at_each_place():
    """(what, document, the string's field, refusal)"""
    for (name, table, around), spell in SPELLED:
        for what, octets, refusal in PIECES:
            field = spell(b"x" + octets + b"y")
            yield "%s, %s" % (name, what), document(around(field)), field, refusal
        field = spell(b"\0xy")
        octets = document(around(field))
        yield name + ", 0, one octet short", octets[:octets.index(field) + len(field) - 1], field[:-1], TRUNCATED
        yield name + ", 0, table full", document(filled(table, 256) + around(field)), field, TEXT
    for table in IDENTIFIED + OTHERS:
        for what, octets, refusal in PIECES:
            field = listed_string(table, b"x" + octets + b"y")
            yield "head, %s, %s" % (TABLE_NAMES[table], what), headed({table: [field]}), field, refusal
        field = listed_string(table, b"\0xy")
        yield "head, %s, 0, one octet short" % TABLE_NAMES[table], headed({table: [field]}, b"")[:-1], field[:-1], TRUNCATED


def in_long_strings():
    """The same, of strings of many lengths in the fields that have code of their own."""
    for (name, _, around), spell in SPELLED:
        if name in ("chunk", "value", "local name of an element"):
            for what, string, refusal in list(strings())[::1 if name == "chunk" else 2]:
                field = spell(string)
                yield "%s of %s" % (name, what), document(around(field)), field, refusal


def character_rows():
    for cases in (at_each_place, in_long_strings):
        for name, octets, field, refusal in cases():
            number, count = check(octets)
            assert number == (octets.rindex(field) * 32 + refusal if refusal else 0), (name, number)
            yield name, octets.hex(), str(number), str(count)


def spelled_by_writer(spell, string):
    return spell(string) if spell is identifying else by_writer(spell, string.decode())


def lists_of(texts):
    """A list with this string at each place: (name, text, output room, given tables, events, answer)"""
    for (name, _, around), spell in SPELLED:
        for what, string, refusal in texts(name):
            events, number = events_with(name, "2+%d" % len(string))
            answer = "refused %d %d" % (refusal, number) if refusal else written(document(around(spelled_by_writer(spell, string))))
            yield "%s, %s" % (name, what), b"at" + string, TOP_SIZE, NO_TABLES, events, answer


def given_lists():
    """The same of each table that is given."""
    for table in IDENTIFIED + OTHERS:
        for what, octets, refusal in PIECES:
            string = b"x" + octets + b"y"
            given = ";".join("1+%d" % len(string) if t == table else "" for t in range(10))
            start = "S,-,-,1+%d,-" % len(string) if table == LOCAL else START
            answer = "refused %d 0" % refusal if refusal else written(headed({table: [listed_string(table, string)]}))
            yield "head, %s, %s" % (TABLE_NAMES[table], what), b"~" + string, TOP_SIZE, given, [start, STOP], answer


def order_lists():
    """What is judged before the text and after it; the text area is "a" and a null."""
    null, deep = "1+1", [START] * 32
    for name, room, given, events, answer in (
            ("a chunk before the root", TOP_SIZE, NO_TABLES, ["T,-,-,-," + null], "refused 16 0"),
            ("a second root", TOP_SIZE, NO_TABLES, [START, STOP, "S,-,-,%s,-" % null], "refused 16 2"),
            ("a name with a prefix alone", TOP_SIZE, NO_TABLES, ["S,%s,-,0+1,-" % null], "refused 16 0"),
            ("a value of no octets", TOP_SIZE, NO_TABLES, [START, "A,-,-,%s,0+0" % null], "refused 16 1"),
            ("an element 33 deep", TOP_SIZE, NO_TABLES, deep + ["S,-,-,%s,-" % null], "refused 9 32"),
            ("an element 33 deep, by its declaration", TOP_SIZE, NO_TABLES, deep + ["N,%s,-,-,-" % null], "refused 9 32"),
            ("no room", 0, NO_TABLES, ["S,-,-,%s,-" % null], "refused 9 0"),
            ("room for the start alone", 8, NO_TABLES, [START, "T,-,-,-," + null], "refused 9 1"),
            ("no room for the start", 7, NO_TABLES, [START, "T,-,-,-," + null], "refused 14 0"),
            ("twice", TOP_SIZE, NO_TABLES, [START, "C,-,-,-," + null, "T,-,-,-," + null], "refused 9 1"),
            ("listed, and an entry that is absent", TOP_SIZE, ";;%s,-;;;;;;;" % null, [START, STOP], "refused 16 0"),
            ("listed, and a name of no local name", TOP_SIZE, ";;%s;;;;;;0.0.2;" % null, [START, STOP], "refused 16 0"),
            ("listed twice", TOP_SIZE, ";;%s,%s;;;;;;;" % (null, null), [START, STOP], "refused 9 0"),
            ("listed, and a prefix twice", TOP_SIZE, "0+1,0+1;;;;;;;%s;;" % null, [START, STOP], "refused 9 0"),
            ("listed, and no room", 0, ";;;;;%s;;;;" % null, [START, STOP], "refused 9 0"),
            ("listed, and no document", TOP_SIZE, ";;;;;;%s;;;" % null, [], "refused 9 0")):
        yield "a null, " + name, b"a\0", room, given, events, answer


def character_lists():
    def each(_):
        return [(what, b"x" + octets + b"y", refusal) for what, octets, refusal in PIECES]

    def long_ones(name):
        step = {"chunk": 2, "value": 5, "local name of an element": 5}.get(name)
        return list(strings())[::step] if step else ()
    for cases in (lists_of(each), lists_of(long_ones), given_lists(), order_lists()):
        for name, text, room, given, events, answer in cases:
            yield name, text.hex(), str(room), "standard", given, " ".join(events), answer


# ------------------------------------------------ forms_read.tsv, forms_write.tsv

def form_document_rows():
    for name, octets in form_documents():
        yield name, octets.hex(), str(check(octets)[0]), digest_of(octets)


def form_list_rows():
    for name, text, room, given, events, answer in form_lists():
        yield name, text.hex(), str(room), "standard", given, " ".join(events), answer


def main():
    wrong = list(disagreements())
    if wrong:
        raise SystemExit("\n".join(wrong))
    for name, made in (("events.tsv", event_rows()), ("boundary.tsv", boundary_rows()), ("characters_read.tsv", character_rows()),
                       ("characters_write.tsv", character_lists()), ("forms_read.tsv", form_document_rows()), ("forms_write.tsv", form_list_rows())):
        lines = list(made)
        assert len({line[0] for line in lines}) == len(lines)
        (HERE / name).write_text("".join("\t".join(line) + "\n" for line in lines))
        print(name, len(lines))


if __name__ == "__main__":
    main()

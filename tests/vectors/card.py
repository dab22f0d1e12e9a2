"""A model of a memory card, written from documents 01 and 02 and their sources 002 and 003 alone, and the expected values of
crates/samples/specs/CardSamples.antt: run as a program it prints one line for each row of that table, in its order.

A card is its bytes, a table the list of its 256 numbers, a directory the list of its entries of 32 bytes. A place is
("whole", 0), ("block", n) or ("entry", n); a refusal is a number and a place; GOOD is no refusal."""
import struct
from collections import namedtuple

FREE, DAMAGED, LAST = 0xFFFC, 0xFFFF, 0xFFFA
USER, HIDDEN, SYSTEM = range(200), range(200, 241), range(241, 256)
DIRECTORY, TABLE, ROOT = 253, 254, 255
ENTRIES = range(208)
CARD_LENGTH = 131072
UNUSED, DATA, GAME = 0x00, 0x33, 0xCC
WHOLE = ("whole", 0)
GOOD = (0, WHOLE)


# Parts of a card.


def block(card, b):
    return card[b * 512 : b * 512 + 512]


def table_of(card):
    return list(struct.unpack("<256H", block(card, TABLE)))


def entry_place(i):
    """The block of directory entry i, and its byte there."""
    return DIRECTORY - i // 16, i % 16 * 32


def directory_of(card):
    return [block(card, b)[at : at + 32] for b, at in map(entry_place, ENTRIES)]


class Fields:
    """What a directory entry says."""

    def __init__(self, entry):
        self.kind, self.flag, self.first, self.name, self.time, self.size, self.offset = struct.unpack("<BBH12s8sHH4x", entry)
        self.used = self.kind != UNUSED
        self.protected = self.flag == 0xFF


def used_files(directory):
    """The used entries, by rising number."""
    files = [(i, Fields(entry)) for i, entry in enumerate(directory)]
    return [(i, f) for i, f in files if f.used]


# Rows 21 to 30, each as its number and the place that it names, or GOOD.


def root_refusal(root):
    if root[:16] != b"\x55" * 16:
        return 21, ("block", ROOT)
    tested = {0x46: 254, 0x48: 1, 0x4A: 253, 0x4C: 13, 0x50: 200}
    if any(struct.unpack_from("<H", root, at) != (value,) for at, value in tested.items()):
        return 22, ("block", ROOT)
    return GOOD


def table_refusal(table):
    system = {b: b - 1 for b in SYSTEM} | {255: LAST, 254: LAST, 241: LAST}
    wrong = [
        (23, [b for b in SYSTEM if table[b] != system[b]]),
        (24, [b for b in HIDDEN if table[b] not in (FREE, DAMAGED)]),
        (25, [b for b in USER if table[b] not in (FREE, DAMAGED, LAST, *USER)]),
    ]
    for number, blocks in wrong:
        if blocks:
            return number, ("block", min(blocks))
    return GOOD


def bad_entry(f):
    return not (
        f.kind in (DATA, GAME)
        and f.first < 200
        and 1 <= f.size <= 200
        and (f.kind == GAME or f.offset < f.size)
    )


def chain(table, first, size):
    """The blocks of a chain of 1 block or more, or None where it is bad."""
    blocks = [first]
    while len(blocks) < size:
        following = table[blocks[-1]]
        if following not in USER:
            return None
        blocks.append(following)
    return blocks if table[blocks[-1]] == LAST else None


def breaks_game_rule(f, blocks, games_before):
    return f.kind == GAME and (games_before > 0 or f.size > 128 or blocks != list(range(f.size)))


def directory_refusal(table, directory):
    used = used_files(directory)
    for i, f in used:
        if bad_entry(f):
            return 26, ("entry", i)
    chains = {i: chain(table, f.first, f.size) for i, f in used}
    for i, f in used:
        if chains[i] is None:
            return 27, ("entry", i)
    taken = set()
    for i, f in used:
        if taken & set(chains[i]):
            return 28, ("entry", i)
        taken |= set(chains[i])
    names = set()
    for i, f in used:
        if f.name in names:
            return 29, ("entry", i)
        names.add(f.name)
    games = 0
    for i, f in used:
        if breaks_game_rule(f, chains[i], games):
            return 30, ("entry", i)
        games += f.kind == GAME
    return GOOD


def orphans(table, directory):
    """Document 01's strays, of a table and a directory that are not refused."""
    in_files = {b for i, f in used_files(directory) for b in chain(table, f.first, f.size)}
    return sum(table[b] not in (FREE, DAMAGED) and b not in in_files for b in USER)


# The calls.


def card_refusal(card):
    if len(card) != CARD_LENGTH:
        return 20, WHOLE
    table = table_of(card)
    for refused in (root_refusal(block(card, ROOT)), table_refusal(table), directory_refusal(table, directory_of(card))):
        if refused != GOOD:
            return refused
    return GOOD


def check(card):
    """Number, place, and how many orphans."""
    refused = card_refusal(card)
    return (*refused, orphans(table_of(card), directory_of(card)) if refused == GOOD else 0)


NOT_LISTED = (0, 0, 0, False, 0, 0, 0, bytes(12), bytes(8))


def listed(directory, start):
    for i, f in used_files(directory):
        if i >= start:
            return (*GOOD, (i, f.kind, f.flag, f.protected, f.first, f.size, f.offset, f.name, f.time))
    return 31, WHOLE, NOT_LISTED


def list_entry(card, start):
    """Number, place, and the entry's number and fields, or zeros."""
    refused = card_refusal(card)
    return listed(directory_of(card), start) if refused == GOOD else (*refused, NOT_LISTED)


def read_refusal(directory, name, index, buffer_length):
    if len(name) != 12 or buffer_length != 512:
        return 33, WHOLE
    sizes = [f.size for i, f in used_files(directory) if f.name == name]
    if not sizes:
        return 31, WHOLE
    return (32, WHOLE) if index >= sizes[0] else GOOD


def read_block(card, name, index, buffer_length):
    """Number, place, and the block's 512 bytes or None."""
    refused = card_refusal(card)
    if refused == GOOD:
        refused = read_refusal(directory_of(card), name, index, buffer_length)
    if refused != GOOD:
        return (*refused, None)
    found = next(f for i, f in used_files(directory_of(card)) if f.name == name)
    return (*GOOD, block(card, chain(table_of(card), found.first, found.size)[index]))


NewFile = namedtuple("NewFile", "name flag time offset data")


def free_blocks(table):
    return [b for b in USER if table[b] == FREE]


def write_refusal(table, directory, new):
    size, rest = divmod(len(new.data), 512)
    if len(new.name) != 12 or len(new.time) != 8 or rest != 0 or not 1 <= size <= 200:
        return 33, WHOLE
    if new.offset >= size:
        return 26, WHOLE
    for i, f in used_files(directory):
        if f.name == new.name:
            return 29, ("entry", i)
    return (34, WHOLE) if len(free_blocks(table)) < size else GOOD


def put_entry(card, i, entry):
    b, at = entry_place(i)
    card[b * 512 + at : b * 512 + at + 32] = entry


def write_file(card, new):
    """Number and place. Where it is not refused the card, a bytearray, has the file."""
    refused = card_refusal(card)
    if refused == GOOD:
        refused = write_refusal(table_of(card), directory_of(card), new)
    if refused != GOOD:
        return refused
    size = len(new.data) // 512
    blocks = free_blocks(table_of(card))[::-1][:size]
    for k, b in enumerate(blocks):
        card[b * 512 : b * 512 + 512] = block(new.data, k)
        struct.pack_into("<H", card, TABLE * 512 + 2 * b, LAST if k + 1 == size else blocks[k + 1])
    unused = next(i for i, entry in enumerate(directory_of(card)) if not Fields(entry).used)
    fields = DATA, new.flag, blocks[0], new.name, new.time, size, new.offset
    put_entry(card, unused, struct.pack("<BBH12s8sHH4x", *fields))
    return GOOD


def delete_file(card, name):
    """Number and place. Where it is not refused the card, a bytearray, no longer has the file."""
    refused = card_refusal(card)
    if refused == GOOD:
        refused = read_refusal(directory_of(card), name, 0, 512)
    if refused != GOOD:
        return refused
    i, found = next((i, f) for i, f in used_files(directory_of(card)) if f.name == name)
    for b in chain(table_of(card), found.first, found.size):
        struct.pack_into("<H", card, TABLE * 512 + 2 * b, FREE)
    put_entry(card, i, bytes(32))
    return GOOD


# Roots, tables, entries and cards for the samples.


def right_root():
    root = bytearray(512)
    root[:16] = b"\x55" * 16
    struct.pack_into("<6H", root, 0x46, 254, 1, 253, 13, 0, 200)
    return bytes(root)


def with_bytes(data, changes):
    changed = bytearray(data)
    for at, byte in changes.items():
        changed[at] = byte
    return bytes(changed)


def table_with(*chains, **more):
    """No user block in use but these chains, and then the entries given as b0=value."""
    table = [FREE] * 241 + [LAST] + list(range(241, 253)) + [LAST, LAST]
    for blocks in chains:
        for b, following in zip(blocks, [*blocks[1:], LAST]):
            table[b] = following
    for b, value in more.items():
        table[int(b[1:])] = value
    return table


def entry(kind, flag, first, letter, size, offset):
    return struct.pack("<BBH12s8sHH4x", kind, flag, first, bytes([letter]) * 12, b"\x20" * 8, size, offset)


def card_with(table, directory, root):
    """A card of blocks of zeros but for these."""
    entries = [*directory, *[NO_ENTRY] * (len(ENTRIES) - len(directory))]
    blocks = [b"".join(entries[i : i + 16]) for i in ENTRIES[::16]]
    return bytes(241 * 512) + b"".join(reversed(blocks)) + struct.pack("<256H", *table) + root


NO_ENTRY = bytes(32)
A, B, C = (entry(DATA, 0, first, letter, 1, 0) for first, letter in ((199, 0x41), (198, 0x42), (197, 0x43)))
TWO_BLOCKS = entry(DATA, 0, 199, 0x41, 2, 0)


# The lines.


def numbers(*values):
    """Everything as numbers: none is 0 and a chain 1 and its blocks, a whole card 0, a block 1 and an entry 2."""
    flat = []
    for value in values:
        if value is None:
            flat.append(0)
        elif isinstance(value, str):
            flat.append(("whole", "block", "entry").index(value))
        elif isinstance(value, (tuple, bytes)):
            flat += numbers(*value)
        elif isinstance(value, list):
            flat += [1, *value]
        else:
            flat.append(int(value))
    return flat


def line(label, *values):
    print(f"{label}:", *numbers(*values))


def links():
    values = (0, 199, 200, 255, 0xFFF9, 0xFFFA, 0xFFFB, 0xFFFC, 0xFFFD, 0xFFFE, 0xFFFF)
    classes = {FREE: (0, 0), DAMAGED: (1, 0), LAST: (2, 0)} | {b: (3, b) for b in USER}
    line("class of each value, bad is 4", *(classes.get(v, (4, 0)) for v in values))


def layout():
    line("(j) place of entry 16", entry_place(16))
    line("(k) byte of the table entry of block 253", TABLE * 512 + 2 * 253)
    line("places of entries 0, 15, 207", *map(entry_place, (0, 15, 207)))
    line("image bytes of entries 0, 15, 16, 207", *(b * 512 + at for b, at in map(entry_place, (0, 15, 16, 207))))
    line("bytes of the table entries of blocks 0, 255", TABLE * 512, TABLE * 512 + 2 * 255)
    own_places = block(range(1600), 2)
    line("block 2 of 1600 numbers, each its own place: the first two, and how many", *own_places[:2], len(own_places))
    line("bytes of a card, entries of its table and of its directory", CARD_LENGTH, len(table_with()), len(ENTRIES))


def root_with(byte, *places):
    return with_bytes(right_root(), dict.fromkeys(places, byte))


def roots():
    places = (0, 15, 16, *range(0x45, 0x53), 511)
    line("right root", root_refusal(right_root()))
    line("byte 0, and byte 0x50, 99", root_refusal(root_with(0x99, 0)), root_refusal(root_with(0x99, 0x50)))
    line("numbers where one byte is 99: 0, 15, 16, 0x45 to 0x52, 511", *(root_refusal(root_with(0x99, at))[0] for at in places))
    line("bytes 15 and 0x46 99", root_refusal(root_with(0x99, 15, 0x46)))
    line("byte 0x46 99 and table entry 241 0", check(card_with(table_with(b241=0), [], root_with(0x99, 0x46)))[:2])


TABLE_CASES = [
    *({}, dict(b0=199, b1=LAST, b198=DAMAGED, b199=0, b200=DAMAGED)),
    *(dict(b255=254), dict(b254=253), dict(b253=251), dict(b242=LAST), dict(b241=240), dict(b241=0, b255=0)),
    *(dict(b200=LAST), dict(b240=0), dict(b200=0xFFFB, b240=0xFFFB), dict(b240=0, b241=0)),
    *(dict(b0=200), dict(b199=0xFFF9), dict(b0=0xFFFB, b199=0xFFFE), dict(b0=0xFFFD, b240=200)),
]


def tables():
    for changes in TABLE_CASES:
        told = " ".join(f"{b[1:]}={value:X}" for b, value in changes.items())
        line(f"table with {told or 'no change'}", table_refusal(table_with(**changes)))


ENTRY_CASES = [
    ("right data", entry(DATA, 0x00, 199, 0x42, 2, 1)),
    ("type 32", entry(0x32, 0x00, 199, 0x42, 2, 1)),
    ("type CD", entry(0xCD, 0x00, 199, 0x42, 2, 1)),
    ("flag FF", entry(DATA, 0xFF, 199, 0x42, 2, 1)),
    ("flag 01", entry(DATA, 0x01, 199, 0x42, 2, 1)),
    ("flag FE", entry(DATA, 0xFE, 199, 0x42, 2, 1)),
    ("first 200", entry(DATA, 0x00, 200, 0x42, 2, 1)),
    ("first 256", entry(DATA, 0x00, 256, 0x42, 2, 1)),
    ("size 0", entry(GAME, 0x00, 199, 0x42, 0, 1)),
    ("size 200", entry(DATA, 0x00, 199, 0x42, 200, 1)),
    ("size 201", entry(DATA, 0x00, 199, 0x42, 201, 1)),
    ("size 257", entry(DATA, 0x00, 199, 0x42, 257, 1)),
    ("offset 2 of 2, data", entry(DATA, 0x00, 199, 0x42, 2, 2)),
    ("offset 256 of 2, data", entry(DATA, 0x00, 199, 0x42, 2, 256)),
    ("offset 256 of 2, game", entry(GAME, 0xFF, 199, 0x42, 2, 256)),
    ("type 00 with rubbish", entry(UNUSED, 0x01, 999, 0x42, 999, 999)),
]


def entries():
    table = table_with([199])
    for label, e in ENTRY_CASES:
        files = used_files([TWO_BLOCKS, e])
        line(f"entry 1: {label}", next(((26, ("entry", i)) for i, f in files if bad_entry(f)), GOOD))
    line("entries 1 and 2 bad", directory_refusal(table, [A, with_bytes(B, {0: 1}), with_bytes(C, {0: 2})]))
    line("entry 207 bad", directory_refusal(table, [NO_ENTRY] * 207 + [with_bytes(A, {0: 1})]))
    for label, e in (("right", A), ("type 01", with_bytes(A, {0: 1}))):
        line(f"bad with each flag: {label}", *(bad_entry(Fields(with_bytes(e, {1: flag}))) for flag in range(256)))
    line("protected with each flag", *(Fields(with_bytes(A, {1: flag})).protected for flag in range(256)))


CHAIN_CASES = [
    ("loop 5 6 5", table_with(b5=6, b6=5), 5, (1, 2, 3, 200)),
    ("loop 7 7", table_with(b7=7), 7, (1, 2)),
    ("20 alone", table_with([20]), 20, (1, 2)),
    ("10 to a free block", table_with(b10=11), 10, (1, 2)),
    ("10 to a damaged block", table_with(b10=11, b11=DAMAGED), 10, (1, 2)),
    ("10 to hidden block 200", table_with(b10=200, b200=LAST), 10, (1, 2)),
    ("10 to FFFB", table_with(b10=0xFFFB), 10, (1, 2)),
    ("10 to 0 to 199", table_with([10, 0, 199]), 10, (3,)),
]


def chains():
    table = table_with([199, 198])
    line("(l) chain 199 198, sizes (2, 1, 3)", *(chain(table, 199, size) for size in (2, 1, 3)))
    for size in (2, 1, 3):
        line(f"(l) a card's only file, size {size}", directory_refusal(table, [entry(DATA, 0, 199, 0x41, size, 0)]))
    for label, table, first, sizes in CHAIN_CASES:
        line(f"chain {label}, sizes {sizes}", *(chain(table, first, size) for size in sizes))
    line("length of the chain of all 200 blocks", len(chain(table_with(USER), 0, 200)))


def game(first, size):
    return entry(GAME, 0xFF, first, 0x47, size, 1)


SAME_NAME = entry(DATA, 0, 198, 0x41, 1, 0)
UNUSED_NAME = entry(UNUSED, 0, 199, 0x41, 1, 0)
THREE = table_with([199], [198], [197])
DIRECTORY_CASES = [
    ("three files", THREE, [A, B, C]),
    ("a last block shared", table_with([199, 198]), [TWO_BLOCKS, NO_ENTRY, B]),
    ("a first block shared, twice", THREE, [A, entry(DATA, 0, 199, 0x42, 1, 0), entry(DATA, 0, 199, 0x43, 1, 0)]),
    ("the block of an unused entry", THREE, [UNUSED_NAME, A]),
    ("same name, twice", THREE, [A, NO_ENTRY, SAME_NAME, entry(DATA, 0, 197, 0x41, 1, 0)]),
    ("same name, other time", THREE, [A, with_bytes(SAME_NAME, {0x10: 0})]),
    ("first letter differs", THREE, [A, with_bytes(SAME_NAME, {0x04: 0})]),
    ("last letter differs", THREE, [A, with_bytes(SAME_NAME, {0x0F: 0})]),
    ("name of an unused entry", THREE, [UNUSED_NAME, SAME_NAME, UNUSED_NAME]),
    ("game 0 1 2", table_with([0, 1, 2]), [game(0, 3)]),
    ("game at 1", table_with([1, 2]), [game(1, 2)]),
    ("game 0 2", table_with([0, 2]), [game(0, 2)]),
    ("game 0 1 3", table_with([0, 1, 3]), [game(0, 3)]),
    ("game of 128", table_with(range(128)), [game(0, 128)]),
    ("game of 129", table_with(range(129)), [game(0, 129)]),
    ("data of 129 from 0", table_with(range(129)), [entry(DATA, 0, 0, 0x47, 129, 0)]),
    ("second game", table_with([0], [1], [199]), [A, game(0, 1), with_bytes(game(1, 1), {4: 0})]),
    ("two games not at 0", table_with([1], [2]), [game(2, 1), with_bytes(game(1, 1), {4: 0})]),
    ("28, 27 and 26 at entries 1, 2 and 3", THREE, [A, A, entry(DATA, 0, 9, 0x44, 1, 0), with_bytes(C, {0: 1})]),
    ("28 and 27 at entries 1 and 2", THREE, [A, A, entry(DATA, 0, 9, 0x44, 1, 0)]),
    ("30, 29 and 28 at entries 0, 2 and 3", table_with([1], [199], [198]), [game(1, 1), A, SAME_NAME, B]),
    ("30 and 29 at entries 0 and 2", table_with([1], [199], [198]), [game(1, 1), A, SAME_NAME]),
]


def directories():
    for label, table, directory in DIRECTORY_CASES:
        line(label, directory_refusal(table, directory))


def orphan_counts():
    table = table_with([0, 1], [196], [198], [199], b60=DAMAGED, b61=197)
    line("orphans beside two files, beside one and an unused entry", orphans(table, [A, B]), orphans(table, [UNUSED_NAME, B]))


FIELDS = bytes([DATA, 0xFF, *range(2, 32)])


def listings():
    directory = [NO_ENTRY, FIELDS, UNUSED_NAME, A]
    for start in (0, 1, 2, 3):
        line(f"list from {start}", listed(directory, start))
    line("list from 4, 207, 208, 1000", *(listed(directory, start)[:2] for start in (4, 207, 208, 1000)))
    line("list from 4", listed(directory, 4))
    line("list from 207, where it is used", listed([NO_ENTRY] * 207 + [A], 207))
    line("list of flag FE", listed([with_bytes(A, {1: 0xFE})], 0))


READ_CASES = [
    *((12, 0x41, 1, 512), (12, 0x41, 2, 512), (12, 0x42, 0, 512), (12, 0x42, 2, 512)),
    *((11, 0x41, 1, 512), (13, 0x41, 1, 512), (12, 0x41, 1, 511), (12, 0x41, 1, 513), (11, 0x42, 2, 512)),
]


def reads():
    directory = [UNUSED_NAME, C, TWO_BLOCKS]
    for length, letter, index, buffer_length in READ_CASES:
        line(f"read {length} of {letter:X}, index {index}, buffer {buffer_length}",
             read_refusal(directory, bytes([letter]) * length, index, buffer_length))


def no_card():
    line("check of no bytes", check(b""))
    line("list of no bytes", list_entry(b"", 0))
    line("read of no bytes into a buffer of one byte, 7", read_block(b"", b"", 0, 1)[:2], 7)


def main():
    for part in (layout, links, roots, tables, entries, chains, directories, orphan_counts, listings, reads, no_card):
        part()


if __name__ == "__main__":
    main()

#!/usr/bin/env python3
"""manual.py LIBRARY: compiles the C programs of docs/MANUAL.md with this static library and runs them; its Python program must be
ctypes_example.py. What they are to answer is said by the models in vectors/. Ends with a line, or with the first difference and
status 1."""
import pathlib
import re
import subprocess
import sys
import tempfile

HERE = pathlib.Path(__file__).resolve().parent
ROOT = HERE.parent
sys.path.insert(0, str(HERE / "vectors"))
import card as card_model  # noqa: E402
import flash_runs as flash_model  # noqa: E402
import slots as slot_model  # noqa: E402

GCC = ["gcc", "-std=c99", "-Wall", "-Wextra", "-Wpedantic", "-Werror", f"-I{ROOT / 'include'}"]
WRONG_LENGTH = "the image length is not one of the three, or for slots not 32,768"
MANUAL = (ROOT / "docs/MANUAL.md").read_text(encoding="utf-8")


def programs(language):
    return re.findall(rf"^```{language}\n(.*?)^```$", MANUAL, re.M | re.S)


def compiled(text, source, library):
    source.write_text(text, encoding="utf-8")
    program = source.with_suffix("")
    subprocess.run([*GCC, source, library, "-o", program], check=True)
    return program


def expect(program, arguments, status, text):
    answer = subprocess.run([program, *arguments], capture_output=True, text=True, timeout=60)
    got = (answer.returncode, answer.stdout)
    if got != (status, text):
        sys.exit(f"{program.name} {arguments}: expected {(status, text)}, and the program gave {got}")


def try_partition(program, folder):
    """The page that is there has its first byte changed; a blank partition gets a page; one without its last byte is refused."""
    blank = flash_model.formatted(32768, 3)
    sample = (ROOT / "samples/partition3.bin").read_bytes()
    image, out = folder / "partition.bin", folder / "partition.out"
    for before in (sample, blank):
        image.write_bytes(before)
        expect(program, [image, out], 0, "saved\n")
        seen = flash_model.contents(before, 24)
        expected = bytearray(before)
        assert flash_model.save(expected, 3, 24, seen, b"\x5a" + (seen or bytes(60))[1:]) == 0
        assert out.read_bytes() == expected, "the image that the example left is another one"
    image.write_bytes(blank[:-1])
    expect(program, [image, out], 1, f"read refused 1: {WRONG_LENGTH}\n")


def try_slots(program, folder):
    """The first slot is claimed and found again; with all slots taken, or a byte too few, nothing is written."""
    image, out = folder / "partition.bin", folder / "partition.out"
    product = b"T-40502D01"
    expected = flash_model.formatted(32768, 3)
    image.write_bytes(expected)
    for count in (1, 2):
        expect(program, [image, out, product.decode()], 0, "saved in slot 0\n")
        assert slot_model.claim(expected, 3, *slot_model.make_header(product)) == (0, 0)
        seen, page = bytes([count - 1]).ljust(60, b"\0"), bytes([count]).ljust(60, b"\0")
        assert slot_model.save(expected, 3, 0, 0, seen if count > 1 else b"", page) == 0
        assert out.read_bytes() == expected, "the image that the example left is another one"
        image.write_bytes(expected)

    full = flash_model.formatted(32768, 3)
    for number in range(100):
        for block, page in enumerate(slot_model.make_header(b"T-%08d" % number)):
            assert flash_model.save(full, 3, slot_model.first_number(number) + block, b"", page) == 0
    image.write_bytes(full)
    no_slot = "claim refused 40: all hundred slots are valid, and none has the product number\n"
    expect(program, [image, out, product.decode()], 1, no_slot)
    image.write_bytes(full[:-1])
    expect(program, [image, out, product.decode()], 1, f"claim refused 1: {WRONG_LENGTH}\n")
    assert out.read_bytes() == expected, "a refused claim wrote an image"


def try_card(program, folder):
    """A file of two blocks is copied; a name that is not there is refused, and a card whose chain is broken."""
    directory = [card_model.TWO_BLOCKS, card_model.B]
    blocks = bytes(range(256)) * 2, bytes(range(255, -1, -1)) * 2
    card = bytearray(card_model.card_with(card_model.table_with([199, 7], [198]), directory, card_model.right_root()))
    for number, contents in zip((199, 7), blocks):
        card[number * 512 : number * 512 + 512] = contents
    image, out = folder / "card.bin", folder / "card.out"
    listing = f"{'A' * 12} 2\n{'B' * 12} 1\n"

    image.write_bytes(card)
    expect(program, [image, "A" * 12, out], 0, listing + "copied 2 blocks\n")
    assert out.read_bytes() == b"".join(blocks), "the file that the example copied is another one"
    missing = "refused 31: no file of that name, or no used entry from there on\n"
    expect(program, [image, "C" * 12, out], 1, listing + missing)
    card[254 * 512 + 2 * 7] = 0xFC
    image.write_bytes(card)
    expect(program, [image, "A" * 12, out], 1, "refused 27 at directory entry 0: bad chain\n")


def try_files(program, folder):
    """A file is put onto a card and another taken off; a name in use, a file one block too long and a short card are refused."""
    directory = [card_model.TWO_BLOCKS, card_model.B]
    table = card_model.table_with([199, 7], [198], b60=card_model.DAMAGED)
    card = card_model.card_with(table, directory, card_model.right_root())
    image, out, data = folder / "card.bin", folder / "card.out", folder / "data.bin"
    new = card_model.NewFile(b"C" * 12, 0x00, bytes.fromhex("1999111523595800"), 0, bytes(range(256)) * 4)

    image.write_bytes(card)
    data.write_bytes(new.data)
    expect(program, [image, out, "C" * 12, data], 0, "done, 194 blocks are free\n")
    expected = bytearray(card)
    assert card_model.write_file(expected, new) == card_model.GOOD
    assert out.read_bytes() == expected, "the card that the example wrote is another one"
    expect(program, [out, out, "A" * 12], 0, "done, 196 blocks are free\n")
    assert card_model.delete_file(expected, b"A" * 12) == card_model.GOOD
    assert out.read_bytes() == expected, "the card that the example took a file off is another one"

    in_use = "refused 29: the name is that of an earlier used entry, or in use already\n"
    expect(program, [image, out, "A" * 12, data], 1, in_use)
    data.write_bytes(bytes(197 * 512))
    no_room = "refused 34: fewer user blocks are free than the file has\n196 blocks are free\n"
    expect(program, [image, out, "C" * 12, data], 1, no_room)
    image.write_bytes(card[1:])
    expect(program, [image, out, "A" * 12], 1, "refused 20: the card length is not 131,072\n")
    assert out.read_bytes() == expected, "a refused call wrote a card"


def main(library):
    partition, slots, card, files = programs("c")
    (python,) = programs("python")
    assert python == (HERE / "ctypes_example.py").read_text(encoding="utf-8"), "the manual's Python program is another one"
    with tempfile.TemporaryDirectory() as name:
        folder = pathlib.Path(name)
        try_partition(compiled(partition, folder / "partition.c", library), folder)
        try_slots(compiled(slots, folder / "slots.c", library), folder)
        try_card(compiled(card, folder / "card.c", library), folder)
        try_files(compiled(files, folder / "files.c", library), folder)
    print("manual: its programs run as expected")


if __name__ == "__main__":
    main(sys.argv[1])

"""The game slots of partition 3, by document 02 and the header's fields in source 001, over the model of a partition in
flash_runs.py. Run by itself it prints a worked header: its two blocks of 60 bytes in hex, as a claim takes them, and then in
decimal."""
import flash_runs as flash

SLOTS = range(100)


def first_number(slot):
    return 24 + 4 * slot


def make_header(product, software=b"", file=b"", created=b""):
    """The two blocks of a right header, its fields as source document 001 has them."""
    summed = product + software.ljust(48) + file.ljust(44) + bytes(4) + created.rjust(4, b"\0")
    header = b"\x01\xff" + summed + flash.checksum(summed) + b"\xff" * 6
    return header[:60], header[60:]


WORKED_HEADER = make_header(b"T-40502D01", b"GALTUYEG SAMPLE", b"SETTINGS", bytes.fromhex("12345678"))


def is_right(header):
    return len(header) == 120 and header[:2] == b"\x01\xff" and header[0x70:0x72] == flash.checksum(header[0x02:0x70])


def header_of(image, slot):
    """The contents of both header blocks; fewer than 120 bytes where one has none."""
    return b"".join(flash.contents(image, first_number(slot) + block) for block in (0, 1))


def valid(image, slot):
    return is_right(header_of(image, slot))


def refusal(image, partition):
    if len(image) != 32768:
        return 1
    refused = flash.refusal(image, partition)
    return 3 if partition != 3 and refused in (0, 4, 5) else refused


def lowest(slots):
    """The answer of a search: refusal and slot."""
    return next(((0, slot) for slot in slots), (7, 0))


def find(image, partition, product):
    refused = refusal(image, partition) or (8 if len(product) != 10 else 0)
    if refused:
        return refused, 0
    return lowest(slot for slot in SLOTS if valid(image, slot) and header_of(image, slot)[2:12] == product)


def list_slot(image, partition, start):
    refused = refusal(image, partition)
    return (refused, 0) if refused else lowest(slot for slot in SLOTS if slot >= start and valid(image, slot))


def claim(image, partition, first, second):
    refused = refusal(image, partition) or (8 if len(first) != 60 or len(second) != 60 else 0)
    refused = refused or (0 if is_right(first + second) else 41)
    if refused:
        return refused, 0
    found = find(image, partition, first[2:12])
    if found[0] == 0:
        return found
    refused, slot = lowest(slot for slot in SLOTS if not valid(image, slot))
    if refused:
        return 40, 0
    for number, page in enumerate((first, second), start=first_number(slot)):
        assert flash.save(image, partition, number, flash.contents(image, number), page) == 0
    return 0, slot


def data_refusal(image, slot, block):
    if slot not in SLOTS or not valid(image, slot):
        return 42
    return 0 if block in (0, 1) else 43


def read(image, partition, slot, block, page):
    refused = refusal(image, partition) or (8 if len(page) != 60 else 0) or data_refusal(image, slot, block)
    return refused or flash.read(image, partition, first_number(slot) + 2 + block, page)


def save(image, partition, slot, block, expected, page):
    lengths = len(page) == 60 and len(expected) in (0, 60)
    refused = refusal(image, partition) or (0 if lengths else 8) or data_refusal(image, slot, block)
    return refused or flash.save(image, partition, first_number(slot) + 2 + block, expected, page)


def main():
    for page in WORKED_HEADER:
        print(page.hex(" "))
        print(" ".join(str(byte) for byte in page))


if __name__ == "__main__":
    main()

"""ctypes_example.py LIBRARY: saves a page in a blank partition and reads it back; claims a game slot there; puts a file onto an
empty card, reads a block of it and takes it off."""
import binascii
import ctypes
import struct
import sys
from ctypes import c_size_t, c_uint8, c_uint32, c_uint64, c_void_p

VERSION = 5  # GALTUYEG_VERSION of the header that these declarations follow
BUFFER = [c_void_p, c_size_t]
PARTITION = [*BUFFER, c_uint8]
CARD_FILE = [*BUFFER, *BUFFER]  # card, name


class Report(ctypes.Structure):
    _fields_ = [(name, c_uint64) for name in ("code", "version", "capacity", "used", "live")]


class Slot(ctypes.Structure):
    _fields_ = [(name, c_uint64) for name in ("code", "slot")]


class Verdict(ctypes.Structure):
    _fields_ = [(name, c_uint64) for name in ("code", "place_kind", "place")]


def declare(name, answer, *arguments):
    call = library[name]
    call.restype, call.argtypes = answer, arguments
    return call


def done(code):
    if code != 0:
        sys.exit(f"refused {code}")


library = ctypes.CDLL(sys.argv[1])
version = declare("galtuyeg_version", c_uint32)
check = declare("galtuyeg_flash_check", c_uint32, *PARTITION)
report = declare("galtuyeg_flash_report", Report, *PARTITION)
read = declare("galtuyeg_flash_read", c_uint32, *PARTITION, c_uint64, *BUFFER)
save = declare("galtuyeg_flash_save", c_uint32, *PARTITION, c_uint64, *BUFFER, *BUFFER)
slot_claim = declare("galtuyeg_slot_claim", Slot, *PARTITION, *BUFFER, *BUFFER)
slot_save = declare("galtuyeg_slot_save", c_uint32, *PARTITION, c_uint64, c_uint64, *BUFFER, *BUFFER)
card_read = declare("galtuyeg_card_read", Verdict, *CARD_FILE, c_uint64, *BUFFER)
card_write = declare("galtuyeg_card_write", Verdict, *CARD_FILE, c_uint8, *BUFFER, c_uint64, *BUFFER)
card_delete = declare("galtuyeg_card_delete", Verdict, *CARD_FILE)
if version() != VERSION:
    sys.exit(f"the library has version {version()}, and this program is for {VERSION}")

header = b"KATANA_FLASH____" + bytes([3, 1])  # letters, partition number, version
image = ctypes.create_string_buffer(header.ljust(32768, b"\xff"), 32768)
done(check(image, len(image), 3))

page = b"saved from Python".ljust(60)
done(save(image, len(image), 3, 500, None, 0, page, len(page)))
seen = ctypes.create_string_buffer(60)
done(read(image, len(image), 3, 500, seen, len(seen)))
if seen.raw != page:
    sys.exit("another page was read than saved")

found = report(image, len(image), 3)
done(found.code)
print(f"from Python: {found.used} of {found.capacity} blocks used, {found.live} live")

fields = b"T-40502D01" + b"FROM PYTHON".ljust(48) + b"SETTINGS".ljust(44) + bytes(8)  # product, names, time
checksum = struct.pack("<H", binascii.crc_hqx(fields, 0xFFFF) ^ 0xFFFF)
slot_header = b"\x01\xff" + fields + checksum + b"\xff" * 6
claimed = slot_claim(image, len(image), 3, slot_header[:60], 60, slot_header[60:], 60)
done(claimed.code)
done(slot_save(image, len(image), 3, claimed.slot, 0, None, 0, page, len(page)))
print(f"from Python: slot {claimed.slot} claimed, and a page saved in it")

table = [0xFFFC] * 241 + [0xFFFA, *range(241, 253), 0xFFFA, 0xFFFA]  # free blocks, directory, FAT, root
root = b"\x55" * 16 + bytes(0x36) + struct.pack("<6H", 254, 1, 253, 13, 0, 200)
card = ctypes.create_string_buffer(bytes(254 * 512) + struct.pack("<256H", *table) + root, 131072)

name, time, data = b"FROM_PYTHON_", bytes.fromhex("1999111523595800"), b"one".ljust(512) + b"two".ljust(512)
done(card_write(card, len(card), name, len(name), 0x00, time, len(time), 0, data, len(data)).code)
block = ctypes.create_string_buffer(512)
done(card_read(card, len(card), name, len(name), 1, block, len(block)).code)
if block.raw != data[512:]:
    sys.exit("another block was read than written")
done(card_delete(card, len(card), name, len(name)).code)
print(f"from Python: a file of {len(data) // 512} blocks put onto a card and taken off")

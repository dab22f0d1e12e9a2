"""Prints the 64 bytes of one whole flash user block, first in hex and then in decimal: the logical number 0x0124, a
payload of the 60 bytes (7 * i + 3) % 256, and the checksum by Python's own CRC. Numbers are little endian."""
import binascii

NUMBER = 0x0124
PAYLOAD = bytes((7 * i + 3) % 256 for i in range(60))


def block(number, payload):
    summed = number.to_bytes(2, "little") + payload
    checksum = binascii.crc_hqx(summed, 0xFFFF) ^ 0xFFFF
    return summed + checksum.to_bytes(2, "little")


whole = block(NUMBER, PAYLOAD)
print(" ".join(f"{byte:02x}" for byte in whole))
print(" ".join(str(byte) for byte in whole))

"""Writes the lines that crates/test_checksum_vectors must print. The checksums are those of Python's own CRC, and no
translation of the routine in crates/checksum."""
import binascii

LENGTHS = range(301)
BLOCKS = range(8)


def checksum(run):
    return binascii.crc_hqx(run, 0xFFFF) ^ 0xFFFF


def random_bytes(count):
    made, x = bytearray(), 1
    for _ in range(count):
        x = (x * 1103515245 + 12345) % 2**31
        made.append(x // 65536 % 256)
    return bytes(made)


def main():
    random = random_bytes(512)
    families = {
        "zero": bytes(512),
        "ff": b"\xff" * 512,
        "rising": bytes(range(256)) * 2,
        "random": random,
    }
    for name, data in families.items():
        for n in LENGTHS:
            print(f"{name} {n} {checksum(data[:n]):04x}")
    for k in BLOCKS:
        print(f"block {k} {checksum(random[k * 64 : k * 64 + 62]):04x}")


main()

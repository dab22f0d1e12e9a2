"""Prints the lines that a program must print, by its argument: with `runs` those of crates/test_flash_runs, and so on. They come
from a model of a flash partition written from documents 01 and 02 alone: an image is a bytearray, block checksums are Python's
own CRC, and the sums of whole images are zlib's Adler-32."""
import binascii
import sys
import zlib

MAGIC = b"KATANA_FLASH____"
FREE = b"\xff" * 64
AGAIN = 100


# The partition, in the words of document 01.


def first_bitmap_block(image):
    return len(image) // 64 - -(-len(image) // 32768)


def capacity(image):
    return first_bitmap_block(image) - 1


def block(image, k):
    return bytes(image[k * 64 : k * 64 + 64])


def bitmap_bits(image):
    """One character for each user block, 1 for a free one; block 1's comes first."""
    bits = "".join(f"{byte:08b}" for byte in image[first_bitmap_block(image) * 64 :])
    return bits[: capacity(image)]


def refusal(image, partition):
    if len(image) not in (16384, 32768, 65536):
        return 1
    if image[:16] != MAGIC:
        return 2
    if image[16] != partition:
        return 3
    if image[17] > 1:
        return 4
    return 5 if "10" in bitmap_bits(image) else 0


def checksum(data):
    return (binascii.crc_hqx(data, 0xFFFF) ^ 0xFFFF).to_bytes(2, "little")


def user_block(number, page):
    data = number.to_bytes(2, "little") + page
    return data + checksum(data)


def holders(image):
    """The block that holds the contents of each live number."""
    held = {}
    for k, bit in enumerate(bitmap_bits(image), start=1):
        b = block(image, k)
        number = int.from_bytes(b[:2], "little")
        if bit == "0" and number < capacity(image) and checksum(b[:62]) == b[62:]:
            held[number] = k
    return held


def contents(image, number):
    """The page of a number, or no bytes for nothing."""
    k = holders(image).get(number)
    return b"" if k is None else block(image, k)[2:62]


def rewrite(image, blocks):
    """The header, these blocks and FF, with the bitmap bits of the blocks."""
    bits = "0" * len(blocks) + "1" * (len(image) - first_bitmap_block(image) * 64) * 8
    bitmap = bytes(int(bits[i : i + 8], 2) for i in range(0, len(bits) - len(blocks), 8))
    body = block(image, 0) + b"".join(blocks)
    image[:] = body.ljust(len(image) - len(bitmap), b"\xff") + bitmap


def kept(image, dropped=None):
    return [block(image, k) for number, k in sorted(holders(image).items(), key=lambda item: item[1]) if number != dropped]


def check(image, partition):
    return refusal(image, partition)


def report(image, partition):
    refused = refusal(image, partition)
    if refused:
        return f"refused {refused}"
    used = bitmap_bits(image).count("0")
    return f"version {image[17]} user {capacity(image)} used {used} live {len(holders(image))}"


def next_live(image, partition, start):
    refused = refusal(image, partition)
    if refused:
        return f"refused {refused}"
    live = [number for number in holders(image) if number >= start]
    return f"number {min(live)}" if live else "refused 7"


def read(image, partition, number, page):
    refused = refusal(image, partition)
    if refused:
        return refused
    if number >= capacity(image):
        return 6
    if len(page) != 60:
        return 8
    found = contents(image, number)
    if not found:
        return 7
    page[:] = found
    return 0


def save(image, partition, number, expected, page):
    refused = refusal(image, partition)
    if refused:
        return refused
    if number >= capacity(image):
        return 6
    if len(page) != 60 or len(expected) not in (0, 60):
        return 8
    if contents(image, number) != expected:
        return 9
    if page == expected:
        return 0
    free = bitmap_bits(image).find("1") + 1
    if free and block(image, free) == FREE:
        append(image, free, user_block(number, page))
    else:
        rewrite(image, kept(image, dropped=number) + [user_block(number, page)])
    return 0


def append(image, k, new):
    image[k * 64 : k * 64 + 64] = new
    image[first_bitmap_block(image) * 64 + (k - 1) // 8] &= 0xFF ^ (0x80 >> (k - 1) % 8)


def erase(image, partition):
    refused = refusal(image, partition)
    if not refused:
        rewrite(image, kept(image))
    return refused


# Formatted images, pages, and the lines.


def formatted(length, partition, version=1):
    return bytearray((MAGIC + bytes([partition, version])).ljust(length, b"\xff"))


def page_of(number, round):
    x = number + 1021 * round
    return bytes((x // (i + 1) + 5 * i) % 256 for i in range(60))


def save_round(image, partition, number, round):
    expected = page_of(number, round - 1) if round > 1 else b""
    return save(image, partition, number, expected, page_of(number, round))


def save_each(image, partition, pairs):
    """How many saves are accepted before the first refusal."""
    for done, (number, round) in enumerate(pairs):
        if save_round(image, partition, number, round):
            return done
    return len(pairs)


def whole(image, numbers, round):
    held = holders(image)
    for number in numbers:
        if number not in held or block(image, held[number])[2:62] != page_of(number, round):
            return f"different {number}"
    return "whole"


def image_sum(image):
    return f"image {zlib.adler32(image):08x}"


def print_report(label, image, partition=3):
    print(f"{label}: {report(image, partition)} {image_sum(image)}")


def print_unchanged(label, before, after):
    print(f"{label}: {'unchanged' if before == after else 'changed'}")


def print_pages(label, image, numbers, round):
    print(f"{label}: {whole(image, numbers, round)}")


def refused_images():
    for length in (16383, 16384, 16385):
        print(f"length {length} check: {check(formatted(length, 2), 2)}")
    for version in (1, 2):
        print(f"version {version} check: {check(formatted(32768, 3, version), 3)}")
    image = formatted(32768, 3)
    print(f"wrong number check: {check(image, 2)}")
    image[15] = ord("-")
    print(f"wrong magic check: {check(image, 3)}")
    print(f"wrong number and magic check: {check(image, 2)}")
    for byte in (0x7F, 0xBF):
        image = formatted(32768, 3)
        image[-64] = byte
        print(f"bitmap {byte:02X} check: {check(image, 3)}")
    image = formatted(32768, 3)
    for number in (509, 510):
        print(f"save number {number}: {save_round(image, 3, number, 1)}")
    print_report("report", image)


def print_read(label, image, partition, number):
    page = bytearray(60)
    print(f"{label}: {read(image, partition, number, page)}")
    print_unchanged("page", bytes(60), page)


def refused_reads():
    image = formatted(32768, 3)
    save_round(image, 3, 24, 1)
    print_read("read number 25", image, 3, 25)
    print_read("read number 510", image, 3, 510)
    print_read("read of partition 2", image, 2, 24)
    print_read("read number 24", image, 3, 24)
    for number in (24, 25, 510):
        print(f"read number {number} into 59 bytes: {read(image, 3, number, bytearray(59))}")


def print_next_live(image, partition, start):
    print(f"next live of partition {partition} from {start}: {next_live(image, partition, start)}")


def refused_listings():
    image = formatted(32768, 3)
    print_next_live(image, 3, 0)
    save_each(image, 3, [(24, 1), (7, 1)])
    for start in (0, 7, 8, 25, 510):
        print_next_live(image, 3, start)


def other_partition():
    image = formatted(32768, 3)
    save_round(image, 3, 24, 1)
    print_next_live(image, 2, 0)
    print_report("report of partition 2", image, 2)
    print(f"save of partition 2: {save_round(image, 2, 24, 2)}")
    print(f"erase of partition 2: {erase(image, 2)}")
    print_report("report", image)


def refused_saves():
    image = formatted(32768, 3)
    page, short = page_of(24, 1), bytes(59)
    print(f"save 59 bytes: {save(image, 3, 24, page, short)}")
    print(f"save expecting 59 bytes: {save(image, 3, 24, short, page)}")
    print(f"save 59 bytes, number 510: {save(image, 3, 510, page, short)}")
    print_report("report", image)
    save_each(image, 3, [(24, 1), (24, 2)])
    before = bytes(image)
    print(f"save expecting a stale page: {save_round(image, 3, 24, 2)}")
    print(f"save expecting nothing: {save_round(image, 3, 24, 1)}")
    print(f"save expecting a page where nothing is: {save_round(image, 3, 25, 2)}")
    print_unchanged("image", before, image)
    print(f"save expecting the page: {save_round(image, 3, 24, 3)}")
    print_unchanged("image", before, image)


def two_writers():
    image = formatted(32768, 3)
    save_round(image, 3, 24, 1)
    first, second = bytearray(60), bytearray(60)
    print(f"first writer reads: {read(image, 3, 24, first)}")
    print(f"second writer reads: {read(image, 3, 24, second)}")
    print(f"first writer saves: {save(image, 3, 24, first, page_of(24, 2))}")
    print(f"second writer saves: {save(image, 3, 24, second, page_of(24, 3))}")
    print_pages("page of the first writer", image, [24], 2)
    print(f"second writer reads again: {read(image, 3, 24, second)}")
    print(f"second writer saves again: {save(image, 3, 24, second, page_of(24, 3))}")
    print_pages("page of the second writer", image, [24], 3)


def all_live():
    image = formatted(32768, 3)
    print(f"numbers saved: {save_each(image, 3, [(number, 1) for number in range(510)])}")
    print_report("all live", image)
    print(f"save number 24 again: {save_round(image, 3, 24, 2)}")
    print_report("after the compaction", image)
    print_pages("number 24", image, [24], 2)
    print_pages("numbers below 24", image, range(24), 1)
    print_pages("numbers above 24", image, range(25, 510), 1)


def stale_copies():
    rounds = [(24, round) for round in range(1, 511)]
    image = formatted(32768, 3)
    print(f"number 24 saved: {save_each(image, 3, rounds)}")
    print_report("stale copies", image)
    print(f"save number 24 again: {save_round(image, 3, 24, 511)}")
    print_report("after the compaction", image)
    print_pages("number 24", image, [24], 511)
    image = formatted(32768, 3)
    print(f"number 24 saved: {save_each(image, 3, rounds)}")
    print(f"erase: {erase(image, 3)}")
    print_report("after the erase", image)
    print_pages("number 24", image, [24], 510)


def spoiled_block():
    image = formatted(32768, 3)
    print(f"number 24 saved: {save_each(image, 3, [(24, 1), (24, 2)])}")
    image[3 * 64 + 17] = 254
    print_report("block 3 spoiled", image)
    print(f"save number 7: {save_round(image, 3, 7, 1)}")
    print_report("after the compaction", image)
    print(f"spoiled byte: {image[3 * 64 + 17]}")
    print_pages("number 24", image, [24], 2)
    print_pages("number 7", image, [7], 1)
    print(f"save number 8: {save_round(image, 3, 8, 1)}")
    print_report("after the append", image)


def save_again(image, number, round):
    return save(image, 3, number, page_of(number, round), page_of(number, round))


def idle_saves():
    image = formatted(32768, 3)
    print(f"number 24 saved: {save_each(image, 3, [(24, 1), (24, 2)])}")
    print_report("saved twice", image)
    print(f"save the page that is there: {save_again(image, 24, 2)}")
    print_report("after the idle save", image)
    image[3 * 64 + 17] = 254
    print_report("block 3 spoiled", image)
    print(f"save the page that is there: {save_again(image, 24, 2)}")
    print_report("after the idle save", image)
    print(f"save the page before it: {save(image, 3, 24, page_of(24, 2), page_of(24, 1))}")
    print_report("after the compaction", image)
    for byte in (0, 255):
        print(f"save {byte} throughout where nothing is: {save(image, 3, byte, b'', bytes([byte]) * 60)}")
    print_report("after the appends", image)


def idle_in_full():
    image = formatted(32768, 3)
    print(f"numbers saved: {save_each(image, 3, [(number, 1) for number in range(510)])}")
    print_report("all live", image)
    print(f"save the page that is there: {save_again(image, 24, 1)}")
    print_report("after the idle save", image)


def print_stage(stage, image, partition, end, round):
    walked = len(holders(image))
    first, rest = whole(image, range(AGAIN), round), whole(image, range(AGAIN, end), 1)
    counts = f"{report(image, partition)} walked {walked} first {AGAIN} {first} rest {rest}"
    print(f"length {len(image)} {stage}: {counts} {image_sum(image)}")


def stages(length, partition):
    again = [(number, 2) for number in range(AGAIN)]
    image = formatted(length, partition)
    save_each(image, partition, [(number, 1) for number in range(AGAIN)] + again)
    print_stage("saved twice", image, partition, AGAIN, 2)
    print(f"erase: {erase(image, partition)}")
    print_stage("saved twice, erased", image, partition, AGAIN, 2)
    image, top = formatted(length, partition), capacity(image)
    save_each(image, partition, [(number, 1) for number in range(top)])
    print_stage("filled", image, partition, top, 1)
    save_each(image, partition, again)
    print_stage("saved over", image, partition, top, 2)
    print(f"erase: {erase(image, partition)}")
    print_stage("saved over, erased", image, partition, top, 2)


def refusals():
    refused_images()
    refused_reads()


def later_refusals():
    refused_listings()
    other_partition()
    refused_saves()


def saves():
    two_writers()
    all_live()
    stale_copies()
    spoiled_block()
    idle_saves()
    idle_in_full()


def runs():
    for length, partition in ((16384, 2), (32768, 3), (65536, 4)):
        stages(length, partition)


def main():
    programs = {"refusals": refusals, "refused_saves": later_refusals, "saves": saves, "runs": runs}
    if len(sys.argv) != 2 or sys.argv[1] not in programs:
        sys.exit(f"usage: flash_runs.py {' | '.join(programs)}")
    programs[sys.argv[1]]()


if __name__ == "__main__":
    main()

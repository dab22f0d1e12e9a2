#!/usr/bin/env python3
"""report.py PROGRAM: runs the report program on images made here and compares what it prints with what a second model says.

The model of a partition is that of vectors/flash_runs.py, written from documents 01 and 02 alone. Ends with a line that counts the
outputs compared, or with the first difference and status 1."""
import fcntl
import os
import pathlib
import struct
import subprocess
import sys
import termios
import time

HERE = pathlib.Path(__file__).resolve().parent
sys.path.insert(0, str(HERE / "vectors"))
import flash_runs as model  # noqa: E402

PARTITIONS = {16384: 2, 32768: 3, 65536: 4}
UNREAD = "cannot read the image\n"
SAMPLE = "partition 3\nversion 1\nuser 510\nused 2\nlive 1\nblock 24\nend\n"


def expected_text(image):
    partition = PARTITIONS.get(len(image), 2)
    refused = model.refusal(image, partition)
    if refused:
        return f"refused {refused}\n"
    lines = [
        f"partition {partition}",
        f"version {image[17]}",
        f"user {model.capacity(image)}",
        f"used {model.bitmap_bits(image).count('0')}",
    ]
    live = sorted(model.holders(image))
    lines += [f"live {len(live)}"] + [f"block {number}" for number in live] + ["end"]
    return "\n".join(lines) + "\n"


def saved(length, pairs, version=1):
    """An image with these saves made: pairs of number and round."""
    image = model.formatted(length, PARTITIONS[length], version)
    for number, round in pairs:
        assert model.save_round(image, image[16], number, round) == 0
    return image


def filled(length, count, step):
    """An image whose first blocks are those of count numbers, the first page of each, at distance `step` from each other."""
    image = model.formatted(length, PARTITIONS[length])
    numbers = [i * step % model.capacity(image) for i in range(count)]
    model.rewrite(image, [model.user_block(number, model.page_of(number, 1)) for number in numbers])
    return image


def changed(image, at, value):
    other = bytearray(image)
    other[at] = value
    return other


def images_of(length):
    """What a partition of this length may be: its name, and the image."""
    capacity = model.capacity(bytearray(length))
    bitmap = model.first_bitmap_block(bytearray(length)) * 64
    full = filled(length, capacity, 1)
    twice = saved(length, [(24, 1), (24, 2)])
    yield "empty", saved(length, [])
    yield "empty, version 0", saved(length, [], version=0)
    yield "full", full
    yield "full, numbers far apart", filled(length, capacity, 7)
    yield "half full", filled(length, capacity // 2, 1)
    yield "block 24 twice", twice
    yield "first, one and last number", saved(length, [(capacity - 1, 1), (0, 1), (capacity // 2, 1)])
    yield "newer copy damaged", changed(twice, 2 * 64 + 30, twice[2 * 64 + 30] ^ 1)
    yield "both copies damaged", changed(changed(twice, 2 * 64 + 30, 0), 64 + 30, 0)
    yield "number above the top", append_block(twice, model.user_block(capacity, model.page_of(1, 1)))
    yield "letters wrong, 2", changed(full, 15, 0)
    yield "number of another partition, 3", changed(full, 16, 9)
    yield "version 2, 4", changed(full, 17, 2)
    yield "allocated after free, 5", changed(full, bitmap, 0x80)
    yield "one byte short, 1", full[:-1]
    yield "one byte long, 1", full + b"\xff"


def append_block(image, block):
    other = bytearray(image)
    model.append(other, model.bitmap_bits(other).find("1") + 1, block)
    return other


def run(program, **how):
    return subprocess.run([program], stdout=subprocess.PIPE, stderr=subprocess.PIPE, timeout=60, **how)


def compare(name, answer, text, complaint=""):
    got = (answer.returncode, answer.stdout.decode(), answer.stderr.decode())
    if got != (0, text, complaint):
        sys.exit(f"{name}: expected {(0, text, complaint)}, and the program gave {got}")


def run_on_pipe(program, reading):
    return subprocess.Popen([program], stdin=reading, stdout=subprocess.PIPE, stderr=subprocess.PIPE)


def ended(process):
    out, err = process.communicate(timeout=60)
    return subprocess.CompletedProcess(process.args, process.returncode, out, err)


def run_in_pieces(program, image, size):
    """The image through a pipe, each piece written when the one before has been read."""
    reading, writing = os.pipe()
    process = run_on_pipe(program, reading)
    for at in range(0, len(image), size):
        os.write(writing, bytes(image[at : at + size]))
        wait_until_read(reading, process)
    os.close(writing)
    os.close(reading)
    return ended(process)


def run_then_fail(program, image):
    """The whole image stands in a pipe that stays open: the read behind it finds neither a byte nor the end, and fails."""
    reading, writing = os.pipe()
    os.set_blocking(reading, False)
    os.write(writing, bytes(image))
    process = run_on_pipe(program, reading)
    os.close(reading)
    answer = ended(process)
    os.close(writing)
    return answer


def wait_until_read(pipe, process):
    while struct.unpack("i", fcntl.ioctl(pipe, termios.FIONREAD, bytes(4)))[0] and process.poll() is None:
        time.sleep(0.001)


def compare_read_errors(program):
    """An error at the first read, and errors where a whole sound image has been read."""
    directory = os.open("/", os.O_RDONLY)
    compare("a directory", run(program, stdin=directory), "", UNREAD)
    os.close(directory)
    for length in PARTITIONS:
        compare(f"{length} bytes, then an error", run_then_fail(program, saved(length, [(24, 1)])), "", UNREAD)
    return 1 + len(PARTITIONS)


def main(program):
    cases = [(f"{length}: {name}", image) for length in PARTITIONS for name, image in images_of(length)]
    cases += [("no input", b""), ("one byte", b"K"), ("65,537 bytes", filled(65536, 1021, 1) + b"\xff"), ("a mebibyte", bytes(1 << 20))]
    refused = set()
    for name, image in cases:
        text = expected_text(image)
        refused.add(text.split("\n")[0])
        compare(name, run(program, input=bytes(image)), text)
    missing = [n for n in range(1, 6) if f"refused {n}" not in refused]
    assert not missing, f"no image is refused {missing}"

    sample = (HERE.parent / "samples" / "partition3.bin").read_bytes()
    assert sample == saved(32768, [(24, 1), (24, 2)])
    compare("the sample", run(program, input=sample), SAMPLE)
    sizes = (1000, 4096, 16384)
    for size in sizes:
        compare(f"the sample in pieces of {size}", run_in_pieces(program, sample, size), SAMPLE)
    with open("/dev/zero", "rb") as endless:
        compare("endless input", run(program, stdin=endless), "refused 1\n")
    errors = compare_read_errors(program)
    print(f"report: {len(cases) + 1 + len(sizes) + 1 + errors} outputs as expected")


if __name__ == "__main__":
    main(sys.argv[1])

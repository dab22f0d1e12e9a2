#!/usr/bin/env python3
"""samples.py: holds the card's rows of the table of samples against vectors/card.py, and the slot header among the examples against
vectors/slots.py, models written from the papers alone.

The theorem samples-hold says that the definitions give the values of crates/samples/specs/CardSamples.antt. This says that those
values are the ones that the model prints, a line for each row, in the table's order. Ends with a line that counts the rows
compared, or with the first difference and status 1."""
import pathlib
import re
import subprocess
import sys

HERE = pathlib.Path(__file__).resolve().parent
CRATES = HERE.parent / "crates"
TABLE = CRATES / "samples/specs/CardSamples.antt"
EXAMPLES = CRATES / "flash_model/specs/SlotExamples.antt"
sys.path.insert(0, str(HERE / "vectors"))
import slots  # noqa: E402


def groups(text):
    """The arguments in parentheses at the beginning of a text, as they come."""
    while text.lstrip().startswith("("):
        text = text.lstrip()
        depth = 0
        for end, c in enumerate(text):
            depth += (c == "(") - (c == ")")
            if depth == 0:
                break
        yield text[1:end]
        text = text[end + 1 :]


def values(text):
    """The numbers of a list as antt writes it: elements and lists, joined by ∷ and ++."""
    flat = []
    for part in re.split(r"∷|\+\+", text):
        name, *arguments = part.split()
        if name == "replicate":
            count, value = map(int, arguments)
            flat += [value] * count
        elif name == "numbers_from":
            start, count = map(int, arguments)
            flat += range(start, start + count)
        elif name != "[]":
            flat.append(int(name, 0))
    return flat


def table_rows():
    """The expected values of each row, in the order in which all_card_samples puts the lists of rows together."""
    text = re.sub(r"--[^\n]*", "", TABLE.read_text(encoding="utf-8"))
    lists = dict(re.findall(r"^(\w+_samples) =(.*?)(?=^unfoldable|\Z)", text, re.M | re.S))
    (order,) = groups(lists.pop("all_card_samples").split("concat")[1])
    for name in re.findall(r"\w+_samples", order):
        for row in lists.pop(name).split("sample_of")[1:]:
            _, expected = groups(row)
            yield values(expected)
    assert not lists, f"rows that are in no table: {', '.join(lists)}"


def model_rows():
    """The label and the values of each line that the model prints."""
    printed = subprocess.run([sys.executable, HERE / "vectors/card.py"], capture_output=True, text=True, check=True).stdout
    for line in printed.splitlines():
        label, _, numbers = line.rpartition(": ")
        yield label, [int(n) for n in numbers.split()]


def example_header():
    """The header in the examples of slots, with its product number put in."""
    text = re.sub(r"--[^\n]*", "", EXAMPLES.read_text(encoding="utf-8"))
    product, header = (re.search(rf"^{name} =(.*?)^\s*$", text, re.M | re.S)[1] for name in ("product_number", "game_header"))
    return bytes(values(header.replace("product_number", product).replace("(", " ").replace(")", " ")))


def main():
    rows, lines = list(table_rows()), list(model_rows())
    for i, (row, (label, numbers)) in enumerate(zip(rows, lines)):
        if row != numbers:
            sys.exit(f"row {i}, {label}: the table has {row}, the model {numbers}")
    if len(rows) != len(lines):
        sys.exit(f"the table has {len(rows)} rows, the model prints {len(lines)} lines")
    if example_header() != b"".join(slots.WORKED_HEADER):
        sys.exit(f"the header in the examples is {example_header().hex()}, the model's {b''.join(slots.WORKED_HEADER).hex()}")
    print(f"{len(rows)} card samples and a slot header as the models have them")


if __name__ == "__main__":
    main()

#!/usr/bin/env python3
"""paths.py DIR CRATE FUNCTION: the names that each goal of a function's proof has in reach, one line for each goal.

First, in the crate's folder, `rt check --generated DIR --start NAME`, which proves nothing. FUNCTION is the function's folder below the
crate's proofs/, as `walk_files` or `walking/+walk`. A line is a goal, by the name that Answers.antt has for it, and what `c` there has,
behind each `<` what was known one step earlier: an answer writes `c.NAME` for any of them. In braces stand the fields of a name that
has some, as `if-a-b.{true}`. The check prints the same, but only for goals that are open."""
import pathlib
import re
import sys

RECORD = re.compile(r"\s*pub record (\S+) .*where")
FIELD = re.compile(r"\s+pub (\S+) :\s*(\S*)")
GOAL = re.compile(r"^(\S+) =\s+(?:\([^)]*\) → )?Past\.At(?:One)?\s+\(?([^\s()]+)", re.M)
PLACE = re.compile(r"^(\S+) =\s+(?:λ [^.]*\.\s+)?([\w'-]+\.[^\s()]+)", re.M)
USE = re.compile(r"^use (\S+)(?: as (\S+))?$", re.M)
# What the records have for Rattle's own use.
HIDDEN = {"before", "type_inv"}


class Module:
    """A generated file: the records in it, each with its fields and what they are of, and the modules that it names."""

    def __init__(self, text):
        self.records, fields = {}, None
        for line in text.split("\n"):
            record, field = RECORD.match(line), FIELD.match(line)
            if record:
                fields = self.records.setdefault(record[1], {})
            elif field and fields is not None:
                fields[field[1]] = field[2]
            elif not line.strip():
                fields = None
        self.named = {alias or path.rpartition(".")[2]: path for path, alias in USE.findall(text)}


def found(modules, module, name):
    """The module and the record that a name stands for in a module, or nothing."""
    if "." in name:
        head, _, name = name.rpartition(".")
        module = modules[module].named.get(head)
    fields = modules[module].records.get(name) if module in modules else None
    return fields and (module, fields)


def shown(modules, module, field, of):
    """A field, with the fields of what it is of, if that is a record of this function's alone."""
    inner = found(modules, module, of) if "Own-" in of else None
    return f"{field}.{{{','.join(inner[1])}}}" if inner else field


def chain(modules, module, name):
    """The names in a record, and those in each record before it."""
    place = found(modules, module, name)
    while place:
        module, fields = place
        names = [shown(modules, module, *field) for field in fields.items() if field[0] not in HIDDEN]
        if names:
            yield ",".join(names)
        place = found(modules, module, fields["before"]) if "before" in fields else None


def main(folder, crate, function):
    made = pathlib.Path(folder) / f"Rattle-{crate}-proofs"
    goals = made / function / "Goals.antt"
    if not goals.is_file():
        sys.exit(f"{goals} is not there. {__doc__}")
    modules = {}
    for path in made.joinpath(function).rglob("*.antt"):
        name = ".".join([f"Rattle.{crate}.proofs", *path.relative_to(made).with_suffix("").parts])
        modules[name] = Module(path.read_text(encoding="utf-8"))
    text = goals.read_text(encoding="utf-8")
    top = ".".join([f"Rattle.{crate}.proofs", *pathlib.Path(function).parts, "Goals"])
    places = dict(PLACE.findall(text))
    for goal, place in GOAL.findall(text):
        print(f"{goal}:", "  <  ".join(chain(modules, top, places.get(place, place))))


if __name__ == "__main__":
    if len(sys.argv) != 4:
        sys.exit(__doc__)
    main(*sys.argv[1:])

#!/usr/bin/env python3
"""edits.py [CRATE ..] [--errors [FILE]]: the edits that the check must refuse, a line each: crate, name, and the fact that it breaks.

The fact is the comment at the head of crates/CRATE/must-fail/NAME.edit. With --errors what rt said of the edit stands behind it, as a
rule the place of the first error: FILE is what `rt ci` or `rt must-fail` printed, and else what the last gate left in target/gate.log."""
import pathlib
import re
import sys

ROOT = pathlib.Path(__file__).resolve().parent.parent
SAID = re.compile(r"^rt: must-fail (\S+)/(\S+)\.edit: (?:refused, as it must be: )?(.*)$", re.M)


def errors(log):
    """What rt said of each edit, by crate and name."""
    if not log.is_file():
        sys.exit(f"{log} is not there: run the gate, or give what rt must-fail printed")
    return {(crate, name): said for crate, name, said in SAID.findall(log.read_text(encoding="utf-8", errors="replace"))}


def main(arguments):
    wanted, said = arguments, None
    if "--errors" in arguments:
        at = arguments.index("--errors")
        wanted, (log, *more) = arguments[:at], [*arguments[at + 1 :], "target/gate.log"]
        said = errors(pathlib.Path(log) if more else ROOT / log)
    for path in sorted(ROOT.glob("crates/*/must-fail/*.edit")):
        crate, name = path.parts[-3], path.stem
        if wanted and crate not in wanted:
            continue
        fact = path.read_text(encoding="utf-8").split("\n")[0].removeprefix("# ")
        print(f"{crate} {name}: {fact}" + ("" if said is None else f" [{said.get((crate, name), 'not tried')}]"))


if __name__ == "__main__":
    main(sys.argv[1:])

#!/usr/bin/env python3
"""bin_report.py: runs bin/report as a new user would, and compares its exit status, standard output and standard error.

It runs in copies of this repository with the program of crates/report/out, which has to be built. Where bin/report builds it, a
small script stands for rt, so that nothing is proved here. Ends with a line that counts the runs compared, or with the first
difference and status 1."""
import os
import pathlib
import select
import shutil
import signal
import stat
import subprocess
import sys
import tempfile

sys.dont_write_bytecode = True
HERE = pathlib.Path(__file__).resolve().parent
sys.path.insert(0, str(HERE))
import report as images  # noqa: E402

ROOT = HERE.parent
PROGRAM = "crates/report/out/report"
BUILT = ROOT / PROGRAM
SAMPLE = images.SAMPLE
IMAGE = "samples/partition3.bin"
NOBODY = {"user": 65534, "group": 65534, "extra_groups": []}
REFUSED = {
    1: "refused 1: the image's length is not 16,384, 32,768 or 65,536 bytes",
    2: "refused 2: the 16 header letters are not KATANA_FLASH____",
    3: "refused 3: the header's number is not that of the partition which the length names",
    4: "refused 4: the header's version is above 1",
    5: "refused 5: an allocated user block follows a free one",
}
NOT_BUILT = "the report program is not built yet"
NEWER = "a source is newer than the report program"
NOT_ENDED = "the last build of the report program failed or was cut off"
NO_RT = ", and a build needs rt, the Rattle toolchain, which is not in PATH"
RUN = "rt: run in "
RUNNING = "rt: running out/report"

# All that bin/report and the script for rt may call. No rt is among them, so that the machine's own is out of reach.
TOOLS = "bash cat cp dirname find git mkdir readlink rm sleep touch".split()

# Stands for rt and does as STUB says. It keeps something in out/, puts the program in place and runs it, as rt does.
RT = """#!/bin/sh
[ "$1" != version ] || { echo "stub-kit 1"; exit; }
mkdir -p out
case $STUB in
refuses | idles) ;;
*) cp "$BUILT" out/report ;;
esac
echo "rt: $* in $PWD" >&2
case $STUB in
waits) read -r _ <"$GO" ;;
refuses) echo "rt: flash NOT PROVED" >&2 && exit 1 ;;
fails_late) echo "rt: report proved, and its run FAILED" >&2 && exit 1 ;;
is_overtaken) sleep 0.1 && touch ../flash/src/lib.rt && sleep 0.1 ;;
esac
touch out/report.stamp
echo "rt: running out/report" >&2
case $STUB in
idles) cat >/dev/null && cat stdout ;;
differs) echo "partition 3" ;;
*) out/report ;;
esac
"""

compared = 0


class Place:
    """A temporary folder with the tools, the script for rt, and the clones made in it."""

    def __init__(self, folder):
        self.top = pathlib.Path(folder)
        self.top.chmod(0o755)
        self.tools = self.folder("tools")
        for tool in TOOLS:
            if shutil.which(tool):
                (self.tools / tool).symlink_to(shutil.which(tool))
        self.stub = self.folder("stub")
        self.file("stub/rt", RT.encode()).chmod(0o755)
        self.file("built", BUILT.read_bytes()).chmod(0o755)
        os.mkfifo(self.top / "go")

    def folder(self, name):
        (self.top / name).mkdir(parents=True)
        return self.top / name

    def file(self, name, data):
        (self.top / name).write_bytes(bytes(data))
        return self.top / name

    def clone(self, name, built):
        """The sources, which everybody may read, and with them the program, newer than they are. Two crates stand for all, of
        which bin/report itself only asks how old they are."""
        clone = self.folder(name)
        for part in ("bin", "crates/flash", "crates/report", "samples"):
            shutil.copytree(ROOT / part, clone / part, ignore=shutil.ignore_patterns("out"))
        shutil.copy2(ROOT / "crates.txt", clone)
        subprocess.run(["chmod", "-R", "a+rX", clone], check=True)
        if built:
            (clone / PROGRAM).parent.mkdir()
            shutil.copy(self.top / "built", clone / PROGRAM)
        return clone

    def environment(self, rt):
        path = f"{self.stub}:{self.tools}" if rt else f"{self.tools}"
        return {"PATH": path, "HOME": self.top, "LC_ALL": "C", "STUB": rt or "", "BUILT": self.top / "built", "GO": self.top / "go"}

    def start(self, *command, rt=None, **how):
        how = {"cwd": self.top, "stdin": subprocess.DEVNULL, "stdout": subprocess.PIPE, **how}
        return subprocess.Popen(command, env=self.environment(rt), stderr=subprocess.PIPE, start_new_session=True, **how)

    def run(self, *command, given=None, **how):
        if given is not None:
            how["stdin"] = subprocess.PIPE
        return ended(self.start(*command, **how), given)

    def use(self, clone, rt=None, **how):
        """The command of README.md."""
        return self.run("bin/report", IMAGE, cwd=clone, rt=rt, **how)

    def git(self, folder, *words):
        who = ["-c", "user.name=test", "-c", "user.email=test@localhost"]
        status, text, said = self.run("git", "-C", folder, *who, *words)
        assert status == 0, said
        return text.strip()


def ended(process, given=None):
    try:
        out, err = process.communicate(given, timeout=60)
    except subprocess.TimeoutExpired:
        os.killpg(process.pid, signal.SIGKILL)
        sys.exit(f"{' '.join(map(str, process.args))}: not ended after a minute")
    return process.returncode, (out or b"").decode(), err.decode()


def compare(name, answer, status, text, *says):
    """Standard error has as many lines as `says` has parts, and each line has its part."""
    global compared
    compared += 1
    lines = answer[2].splitlines()
    said = len(lines) == len(says) and all(part in line for part, line in zip(says, lines))
    if answer[:2] != (status, text) or not said:
        sys.exit(f"{name}: expected {(status, text, says)}, and bin/report gave {answer}")


def listing(folder):
    """What is in a folder, with what would tell of a change."""
    found = {path: path.lstat() for path in folder.rglob("*")}
    return {path: (its.st_mode, its.st_size, its.st_mtime_ns) for path, its in found.items()}


def compare_unchanged(name, folder, before):
    after = listing(folder)
    changed = sorted(str(path) for path in before.keys() | after.keys() if before.get(path) != after.get(path))
    if changed:
        sys.exit(f"{name}: expected no change in the clone, and these changed: {changed}")


def compare_places(place, clone):
    """From where it may be called, and by which name."""
    script = clone / "bin/report"
    links = place.folder("else where/links")
    there = links.parent
    shutil.copy(clone / IMAGE, there / "my image.bin")
    (links / "absolute").symlink_to(script)
    (links / "twice").symlink_to("absolute")
    (links / "relative").symlink_to(os.path.relpath(script, links))
    (links / "clone").symlink_to(clone)
    shutil.copy(script, links / "copy")
    compare("plain", place.use(clone), 0, SAMPLE)
    compare("from its folder", place.run("./report", f"../{IMAGE}", cwd=clone / "bin"), 0, SAMPLE)
    compare("by bash", place.run("bash", "report", f"../{IMAGE}", cwd=clone / "bin"), 0, SAMPLE)
    for command in (script, "links/absolute", "links/twice", "links/relative", "links/clone/bin/report"):
        compare(f"{command} from elsewhere", place.run(command, "my image.bin", cwd=there), 0, SAMPLE)
    found = 'PATH=$PWD/links/clone/bin:$PATH; report "my image.bin"'
    compare("found in PATH", place.run("bash", "-c", found, cwd=there), 0, SAMPLE)
    compare("a copy", place.run("links/copy", "my image.bin", cwd=there), 2, "", "linked from elsewhere, not copied")


def compare_inputs(place, clone):
    """The image other than by a plain name."""
    script = clone / "bin/report"
    image = (clone / IMAGE).read_bytes()
    place.file("-", b"not what - means")
    place.file("-x.bin", image)
    (place.top / "linked.bin").symlink_to(clone / IMAGE)
    compare("- and a pipe", place.run(script, "-", given=image), 0, SAMPLE)
    with open(clone / IMAGE, "rb") as opened:
        compare("- and a file", place.run(script, "-", stdin=opened), 0, SAMPLE)
    compare("- and no byte", place.run(script, "-"), 1, "refused 1\n", f"standard input: {REFUSED[1]}")
    compare("the file ./-x.bin", place.run(script, "./-x.bin"), 0, SAMPLE)
    compare("a linked image", place.run(script, "linked.bin"), 0, SAMPLE)
    compare("what a command writes", place.run("bash", "-c", '"$0" <(cat linked.bin)', script), 0, SAMPLE)


def compare_images(place, clone):
    """Reports and refusals, by name and through a pipe, against the model that tests/report.py has."""
    script = clone / "bin/report"
    tried = set()
    for name, image in images.images_of(32768):
        text = images.expected_text(image)
        number = int(text.split()[1]) if text.startswith("refused") else 0
        says = [REFUSED[number]] if number else []
        file = place.file("image.bin", image)
        compare(name, place.run(script, file), 1 if number else 0, text, *says)
        compare(f"{name}, -", place.run(script, "-", given=bytes(image)), 1 if number else 0, text, *says)
        tried.add(number)
    assert tried == {0, 1, 2, 3, 4, 5}, f"refusals tried: {tried}"
    # The answer is on standard output; what cannot be said besides does not change it.
    muted = 'exec "$0" image.bin 2>&-'
    place.file("image.bin", b"")
    compare("refused, standard error closed", place.run("bash", "-c", muted, script), 1, "refused 1\n")


def compare_help(name, answer):
    status, text, said = answer
    parts = ("usage: bin/report IMAGE\n", "--version", "standard input", "Exit status: 0 ", "; 1 ", "; 2 ", "docs/MANUAL.md")
    compare(name, (status, [part for part in parts if part not in text], said), 0, [])


def compare_usage(place, clone):
    script = clone / "bin/report"
    compare_help("--help", place.run(script, "--help"))
    compare_help("-h", place.run(script, "-h"))
    one = "takes one argument: an image, -, --help or --version"
    compare("no argument", place.run(script), 2, "", one)
    compare("two arguments", place.run(script, IMAGE, IMAGE, cwd=clone), 2, "", one)
    compare("--help and an image", place.run(script, "--help", IMAGE, cwd=clone), 2, "", one)
    compare("an unknown option", place.run(script, "--verbose"), 2, "", "unknown option --verbose; see bin/report --help")


def compare_versions(place, clone):
    """Without git and with it; a repository around the clone is not the clone's own."""
    unknown = "galtuyeg of a version that git cannot tell\n"
    compare("--version", place.run(clone / "bin/report", "--version"), 0, f"{unknown}no rt in PATH\n")
    compare("--version, rt", place.run(clone / "bin/report", "--version", rt="builds"), 0, f"{unknown}stub-kit 1\n")
    if not (place.tools / "git").exists():
        return ["versions by git, which is not here"]
    around = place.folder("around")
    inner = place.clone("around/clone", built=False)
    for folder in (around, inner):
        compare("--version, git around", place.run(inner / "bin/report", "--version"), 0, f"{unknown}no rt in PATH\n")
        place.git(folder, "init", "-q")
        place.git(folder, "commit", "-q", "--allow-empty", "-m", "first")
    place.git(inner, "add", "crates.txt")
    place.git(inner, "commit", "-q", "-m", "second")
    commit = place.git(inner, "rev-parse", "--short", "HEAD")
    compare("--version, a commit", place.run(inner / "bin/report", "--version"), 0, f"galtuyeg {commit}\nno rt in PATH\n")
    place.git(inner, "tag", "-a", "v1", "-m", "a version")
    (inner / "crates.txt").write_text("changed\n")
    compare("--version, changed", place.run(inner / "bin/report", "--version", rt="builds"), 0, "galtuyeg v1-dirty\nstub-kit 1\n")
    return []


def compare_unreadable(place, clone):
    """What is no image at all, for every user."""
    script = clone / "bin/report"
    (place.top / "dangling").symlink_to("nothing")
    os.mknod(place.top / "socket", stat.S_IFSOCK | 0o644)
    compare("a missing file", place.run(script, "no such.bin"), 2, "", "bin/report: cannot find no such.bin")
    compare("a dangling link", place.run(script, "dangling"), 2, "", "cannot find dangling")
    compare("no name", place.run(script, ""), 2, "", "cannot find a file with no name")
    compare("a directory", place.run(script, "samples", cwd=clone), 2, "", "samples is a directory, not an image")
    compare("what cannot be opened", place.run(script, "socket"), 2, "", "socket: No such device")
    opened = os.open("/", os.O_RDONLY)
    says = ("cannot read the image", "no report on standard input")
    compare("- and a directory", place.run(script, "-", stdin=opened), 2, "", *says)
    os.close(opened)
    compare("- and nothing open", place.run("bash", "-c", 'exec "$0" - <&-', script), 2, "", "standard input is closed")


def compare_unwritable(place, clone):
    """An output that takes nothing, for a report, a refusal and the help."""
    with open("/dev/full", "wb") as full:
        compare("a full disk", place.use(clone, stdout=full), 2, "", "write error")
        compare("a full disk, refused", place.run("bin/report", "bin/report", cwd=clone, stdout=full), 2, "", "write error")
        compare("a full disk, --help", place.run("bin/report", "--help", cwd=clone, stdout=full), 2, "", "write error")


def compare_half_answers(place):
    """A program that does not answer as it should: nothing of it is shown as an answer."""
    clone = place.clone("half", built=True)
    for name, lines in (("half a report", "echo partition 3"), ("an unknown refusal", "echo refused 6"), ("a crash", "kill -9 $$")):
        (clone / PROGRAM).write_text(f"#!/bin/sh\n{lines}\n")
        compare(name, place.use(clone), 2, "", f"no report on {IMAGE}")


def compare_without_build(place):
    """What needs a program that is not there, and what needs none: in no case is anything begun."""
    clone = place.clone("without", built=False)
    before = listing(clone)
    compare("not built, no rt", place.use(clone), 2, "", f"bin/report: {NOT_BUILT}{NO_RT}")
    compare("not built, no image", place.run("bin/report", "none", cwd=clone, rt="builds"), 2, "", "cannot find none")
    compare_help("not built, --help", place.run("bin/report", "--help", cwd=clone, rt="builds"))
    compare_unchanged("not built", clone, before)


def seen(process, part):
    """Standard error as far as it came, with a part that has to come while the build still runs."""
    said = b""
    while part not in said:
        if not select.select([process.stderr], [], [], 20)[0]:
            os.killpg(process.pid, signal.SIGKILL)
            sys.exit(f"a build that still runs: expected {part} on standard error, and only this came: {said}")
        more = os.read(process.stderr.fileno(), 4096)
        if not more:
            sys.exit(f"a build that waits: expected {part} on standard error, and this was all: {said}")
        said += more
    return said


def compare_first_use(place):
    """A fresh clone, called from elsewhere; the build ends only when its first line has been seen."""
    clone = place.clone("fresh", built=False)
    process = place.start(clone / "bin/report", clone / IMAGE, rt="waits")
    said = seen(process, b"rt: run").decode()
    go = os.open(place.top / "go", os.O_RDWR)
    os.write(go, b"\n")
    status, text, more = ended(process)
    os.close(go)
    compare("first use", (status, text, said + more), 0, SAMPLE, NOT_BUILT, f"{RUN}{clone}/crates/report", RUNNING)
    compare("second use", place.use(clone), 0, SAMPLE)
    compare("second use, rt", place.use(clone, "refuses"), 0, SAMPLE)
    piped = place.clone("piped", built=False)
    image = (piped / IMAGE).read_bytes()
    answer = place.run("bin/report", "-", cwd=piped, rt="builds", given=image)
    compare("first use, -", answer, 0, SAMPLE, NOT_BUILT, RUN, RUNNING)


def compare_failed_builds(place):
    """After each the next use builds again, even though a program is there."""
    clone = place.clone("failed", built=False)
    failed = "bin/report: the build failed; the lines above say why"
    compare("not proved", place.use(clone, "refuses"), 2, "", NOT_BUILT, RUN, "flash NOT PROVED", failed)
    compare("nothing made", place.use(clone, "idles"), 2, "", NOT_BUILT, RUN, RUNNING, "the build made no ")
    compare("its run failed", place.use(clone, "fails_late"), 2, "", NOT_BUILT, RUN, "its run FAILED", failed)
    compare("its run failed, then no rt", place.use(clone), 2, "", f"{NOT_ENDED}{NO_RT}")
    compare("its run failed, then built", place.use(clone, "builds"), 0, SAMPLE, NOT_ENDED, RUN, RUNNING)
    os.utime(clone / PROGRAM, (1, 1))
    another = "bin/report: what was built prints another report than "
    compare("another report", place.use(clone, "differs"), 2, "", NEWER, RUN, RUNNING, another)
    compare("another report, then built", place.use(clone, "builds"), 0, SAMPLE, NOT_ENDED, RUN, RUNNING)
    compare("built at last", place.use(clone), 0, SAMPLE)


def compare_cut_off_build(place):
    clone = place.clone("cut off", built=False)
    process = place.start("bin/report", IMAGE, cwd=clone, rt="waits")
    seen(process, b"rt: run")
    os.killpg(process.pid, signal.SIGKILL)
    assert ended(process)[:2] == (-signal.SIGKILL, "")
    compare("cut off, then no rt", place.use(clone), 2, "", f"{NOT_ENDED}{NO_RT}")


def compare_newer_sources(place):
    """Where only a time has changed rt has nothing to do, and leaves the program as old as it is. What rt keeps is no source."""
    clone = place.clone("newer", built=True)
    place.folder("newer/crates/flash/out/rlib")
    for path in clone.rglob("*"):
        os.utime(path, (1, 1))
    for kept in ("crates/flash", "crates/flash/out", "crates/flash/out/rlib", "crates/report", "crates/report/out"):
        os.utime(clone / kept, (2, 2))
        compare(f"{kept} newer", place.use(clone), 0, SAMPLE)
    for source in ("crates.txt", "crates/flash/src/lib.rt", "crates/flash/src"):
        for path in clone.rglob("*"):
            os.utime(path, (1, 1))
        compare("no newer source", place.use(clone, "builds"), 0, SAMPLE)
        os.utime(clone / source, (2, 2))
        compare(f"{source} newer, no rt", place.use(clone), 2, "", f"{NEWER}{NO_RT}")
        compare(f"{source} newer", place.use(clone, "idles"), 0, SAMPLE, NEWER, RUN, RUNNING)
        compare(f"{source} newer, built", place.use(clone), 0, SAMPLE)
    os.utime(clone / PROGRAM, (0, 0))
    compare("changed while it is built", place.use(clone, "is_overtaken"), 0, SAMPLE, NEWER, RUN, RUNNING)
    compare("changed while it was built, then no rt", place.use(clone), 2, "", f"{NEWER}{NO_RT}")


def lesser_user(place, clone):
    """How to run as one whom permissions bind: root becomes nobody. None where that cannot be."""
    if os.geteuid() != 0:
        return {}
    try:
        status, _, _ = place.run("bash", "-c", '[ -x "$0" ]', clone / "bin/report", **NOBODY)
    except (OSError, subprocess.SubprocessError):
        return None
    return NOBODY if status == 0 else None


def compare_locked_images(place, clone, user):
    script = clone / "bin/report"
    closed = place.folder("closed")
    place.file("locked.bin", b"").chmod(0)
    place.file("closed/image.bin", b"")
    closed.chmod(0)
    compare("an unreadable file", place.run(script, "locked.bin", **user), 2, "", "no permission to read locked.bin")
    compare("a file in a closed folder", place.run(script, "closed/image.bin", **user), 2, "", "cannot find closed/image.bin")
    closed.chmod(0o755)


def set_folders(clone, mode):
    for folder in (clone, *filter(pathlib.Path.is_dir, clone.rglob("*"))):
        folder.chmod(mode)


def compare_locked_clones(place, user):
    """Clones that may not be written: nothing is begun in them, and one that is built is good."""
    bare = place.clone("bare", built=False)
    outdated = place.clone("outdated", built=True)
    os.utime(outdated / PROGRAM, (1, 1))
    whole = place.clone("whole", built=True)
    for clone, reason in ((bare, NOT_BUILT), (outdated, NEWER), (whole, None)):
        set_folders(clone, 0o555)
        before = listing(clone)
        expected = (2, "", f"{reason}, and a build cannot write in {clone}/target") if reason else (0, SAMPLE)
        compare(f"{clone.name}, locked", place.use(clone, "builds", **user), *expected)
        compare_unchanged(f"{clone.name}, locked", clone, before)
        set_folders(clone, 0o755)


def compare_permissions(place, clone):
    user = lesser_user(place, clone)
    if user is None:
        return ["images and clones without permission, as root cannot become nobody here"]
    compare_locked_images(place, clone, user)
    compare_locked_clones(place, user)
    return []


def main():
    if not BUILT.exists():
        sys.exit(f"{BUILT} is not there: rt run, in crates/report, builds it")
    os.umask(0o022)
    with tempfile.TemporaryDirectory() as folder:
        place = Place(folder)
        clone = place.clone("a clone", built=True)
        before = listing(clone)
        for part in (compare_places, compare_inputs, compare_images, compare_usage, compare_unreadable, compare_unwritable):
            part(place, clone)
        skipped = compare_versions(place, clone) + compare_permissions(place, clone)
        compare_unchanged("a built clone", clone, before)
        for part in (compare_half_answers, compare_without_build, compare_first_use, compare_failed_builds):
            part(place)
        compare_cut_off_build(place)
        compare_newer_sources(place)
    print("; ".join([f"bin_report: {compared} runs as expected", *(f"skipped: {what}" for what in skipped)]))


if __name__ == "__main__":
    main()

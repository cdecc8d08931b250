#!/usr/bin/env python3
"""Plants each bug of tools/planted/CRATE.txt, one at a time, and tells whether it is refused.

usage: tools/planted.py CRATE [NUMBER...]
       tools/planted.py --edits CRATE      the bugs of the crate's must-fail edits, each alone

A list has sections as a must-fail edit has: a comment line `# function: what is wrong`, the file, the old text, which
stands there once, and the new one. In a library a bug is refused by the prover; in a program, by what it prints, or
if it does not build. A list that begins with `tried by: PROGRAM` is of a library whose lines that program prints. The last
line tells how many bugs were planted and which were not refused."""
import pathlib
import re
import shutil
import subprocess
import sys
import tempfile

ROOT = pathlib.Path(__file__).resolve().parent.parent


def sections(text):
    """The sections of a list, each as its lines."""
    found, head = [], True
    for line in text.splitlines():
        comment = line.startswith("#")
        if comment and not head or not found:
            found.append([])
        if line:
            found[-1].append(line)
        head = comment
    return found


def values(section, word):
    """The values of the lines of a section that begin with the word."""
    return [line[len(word) + 1 :].removeprefix(" ") for line in section if line.startswith(word + ":")]


def by_prover(copy, crate, bugs):
    """The numbers of the bugs with which the crate is still proved, and of those that say nothing."""
    place = copy / "crates" / crate / "must-fail"
    shutil.rmtree(place, ignore_errors=True)
    place.mkdir()
    for number, bug in bugs.items():
        (place / f"{number:02}.edit").write_text("\n".join(bug) + "\n")
    told = subprocess.run(["rt", "must-fail", crate], cwd=copy, capture_output=True, text=True)
    print(told.stdout + told.stderr, end="")
    refused = {int(it) for it in re.findall(r"/(\d+)\.edit: refused", told.stdout + told.stderr)}
    return sorted(set(bugs) - refused)


def plant(copy, crate, bug):
    """Plants a bug in the copy, and gives the texts that stood there; none where it does not fit."""
    before = {}
    for name, old, new in zip(values(bug, "file"), values(bug, "old"), values(bug, "new")):
        path = copy / "crates" / crate / name
        text = path.read_text()
        if text.count(old) != 1:
            return None
        before.setdefault(path, text)
        path.write_text(text.replace(old, new))
    return before


def by_output(copy, crate, program, bugs):
    """The numbers of the bugs with which the program still builds and prints what is stored."""
    folder = copy / "crates" / program
    stored = (folder / "stdout").read_bytes()
    data = [word for it in sorted(folder.glob("data/*")) for word in ("--data", f"{it.name}={it}")]
    words = (folder / "args").read_text().splitlines() if (folder / "args").exists() else []
    asked = ["rt", "try", "--seconds", "300", *data, *(["--", *words] if words else [])]

    def tried():
        given = (folder / "stdin").open() if (folder / "stdin").exists() else subprocess.DEVNULL
        ran = subprocess.run(asked, cwd=folder, stdin=given, capture_output=True)
        return ran.returncode, ran.stdout.endswith(stored)

    if tried() != (0, True):
        sys.exit(f"{program} does not print what is stored, with no bug planted")
    left = []
    for number, bug in bugs.items():
        before = plant(copy, crate, bug)
        if before is None:
            print(f"{crate}/{number:02}: does not fit the text")
            left.append(number)
            continue
        status, same = tried()
        for path, text in before.items():
            path.write_text(text)
        same = same and status == 0
        seen = "" if status == 0 else f", status {status}"
        print(f"{crate}/{number:02}: {'NOT REFUSED' if same else f'refused{seen}'}: {bug[0]}", flush=True)
        if same:
            left.append(number)
    return left


def listed(words):
    """The crate, the program that prints its lines, if it is one of those, and the bugs by their numbers."""
    if words[0] == "--edits":
        crate, program = words[1], None
        edits = sorted((ROOT / "crates" / crate / "must-fail").glob("*.edit"))
        bugs = [bug for edit in edits for bug in sections(edit.read_text())]
        return crate, program, dict(enumerate(bugs, 1))
    crate, chosen = words[0], {int(it) for it in words[1:]}
    text = (ROOT / "tools" / "planted" / f"{crate}.txt").read_text()
    named = re.match(r"tried by: (\S+)\n", text)
    bugs = enumerate(sections(text[named.end() :] if named else text), 1)
    return crate, named and named.group(1), {at: it for at, it in bugs if not chosen or at in chosen}


def main():
    if len(sys.argv) < 2:
        sys.exit(__doc__)
    crate, program, bugs = listed(sys.argv[1:])
    with tempfile.TemporaryDirectory() as room:
        copy = pathlib.Path(room) / "repository"
        shutil.copytree(ROOT, copy, ignore=shutil.ignore_patterns(".git", "must-fail", "out"))
        if program or (copy / "crates" / crate / "src" / "main.rt").exists():
            left = by_output(copy, crate, program or crate, bugs)
        else:
            left = by_prover(copy, crate, bugs)
    print(f"{crate}: {len(bugs)} planted, not refused: {left or 'none'}")
    sys.exit(bool(left))


main()

#!/usr/bin/env python3
"""Tries the wrong bodies of checks/wrong_bodies/CRATE.txt, each of which the contract of its own function must refuse.

    checks/wrong_bodies.py CRATE [NAME..]      all of them, or those named
    checks/wrong_bodies.py --stale [CRATE..]   proves nothing: whether each can be put in, of these crates or of all

A text has blocks, split by empty lines: `name: WHAT IT DOES`, then `file:`, `old:` and `new:` as in an edit of must-fail/, once or
more. Bodies of different functions are tried at once, by one `rt check --allow-holes`, on a copy of the crates with what checks before
kept; the repository's own files aren't touched. What is said of each:

    refused       it isn't proved
    PASSES        it is proved: a contract to strengthen; or a right body, which says `right:` after its name, and may pass
    LIMIT         nothing is known: the search gave up at a limit of its own, or the check was stopped at --minutes
    BROKEN NAME   nothing is known of the contract: a file of proofs names what the body took away
    NOT TRIED     it doesn't compile
    STALE         an old line doesn't stand exactly once in its file

The status is 0 where each is refused or right, 1 where one isn't, and 2 where a crate or a name is unknown or a text can't be read.
"""
import argparse
import os
import re
import shutil
import signal
import subprocess
import sys
import tempfile
from collections import Counter
from pathlib import Path

ROOT = Path(__file__).resolve().parent.parent
LISTS = ROOT / "checks" / "wrong_bodies"
HEAD = re.compile(r"^([ \t]*)(?:pub(?:\(crate\))? )?(?:const )?(?:unsafe )?fn (\w+)", re.M)
# What a check says where a file of proofs names what isn't there.
NO_NAME = re.compile(r"has no field `|is not in scope|has no `[^`]+` that can be named")
# What it says where it gave up.
AT_LIMIT = re.compile(r"gave up|(?:step|time) limit|hit a limit|could not tell")


class Body:
    """A wrong body: its name, whether it is right after all, and what is put in place of what, as (file, old, new)."""

    def __init__(self, name, right, steps):
        self.name, self.right, self.steps = name, right, steps
        # The functions that it changes, as (module, name), or None outside of all; known once it is seen to fit.
        self.functions = set()


def broken(path, number, why):
    print(f"{path.relative_to(ROOT)}, body {number}: {why}")
    sys.exit(2)


def bodies_of(crate):
    """The wrong bodies of a crate's text."""
    path, found = LISTS / f"{crate}.txt", []
    for number, block in enumerate(re.split(r"\n\s*\n", path.read_text(encoding="utf-8").strip()), 1):
        name, right, steps = "", False, []
        for line in block.split("\n"):
            word, colon, rest = line.partition(":")
            rest = rest[1:] if rest.startswith(" ") else rest
            if word == "name" and colon and not name:
                name = rest.strip()
            elif word == "right" and colon and name:
                right = True
            elif word == "file" and colon:
                steps.append([rest.strip(), None, None])
            elif word in ("old", "new") and colon and steps and steps[-1][1 if word == "old" else 2] is None:
                steps[-1][1 if word == "old" else 2] = rest
            else:
                broken(path, number, f"this line has no place here: {line}")
        if not name or not steps or any(part is None for step in steps for part in step):
            broken(path, number, "a name, and file, old and new, are wanted")
        if any(old == new for _, old, new in steps):
            broken(path, number, f"{name} changes nothing")
        if any(it.name == name for it in found):
            broken(path, number, f"{name} stands twice")
        found.append(Body(name, right, [tuple(step) for step in steps]))
    return found


def function_of(text, file, old):
    """The module and the name of the function in which a line stands, or None for a line outside of all of them."""
    found = list(HEAD.finditer(text, 0, text.find(old) + len(old)))
    if not found or re.search(rf"^{found[-1][1]}\}}", text[found[-1].end() : text.find(old)], re.M):
        return None
    return Path(file).stem, found[-1][2]


def fits(folder, body):
    """Whether each old line stands exactly once in its file; then the body knows its functions."""
    for file, old, _ in body.steps:
        path = folder / file
        text = path.read_text(encoding="utf-8") if path.is_file() else ""
        if text.count(old) != 1:
            return False
        body.functions.add(function_of(text, file, old))
    return True


def groups_of(bodies):
    """The bodies in groups, no two of one function; one outside of all functions stands alone."""
    groups = []
    for body in bodies:
        room = next((it for it in groups if None not in body.functions | it[0] and not body.functions & it[0]), None)
        if room is None:
            groups.append((set(body.functions), [body]))
        else:
            room[0].update(body.functions)
            room[1].append(body)
    return [group for _, group in groups]


def changed(text, steps):
    """A file's text with each old line replaced where it stands in the text as it was, whatever the other steps write."""
    for at, old, new in sorted(((text.find(old), old, new) for old, new in steps), reverse=True):
        text = text[:at] + new + text[at + len(old) :]
    return text


def below(crate):
    """A crate and those below it, by the list of crates."""
    uses = {}
    for line in (ROOT / "crates.txt").read_text(encoding="utf-8").split("\n"):
        if re.match(r"[a-z]", line):
            name, _, libraries = line.partition(":")
            uses[name.split()[0]] = libraries.split()
    found = [crate]
    for name in found:
        found += [it for it in uses.get(name, []) if it in uses and it not in found]
    return found


def copy_crates(crate, to):
    """Copies all crates, and what checks kept of those that this one stands on. The crate's folder in the copy."""
    for name in ("crates.txt", "HANDLES"):
        shutil.copy(ROOT / name, to)
    shutil.copytree(ROOT / "crates", to / "crates", symlinks=True, ignore=lambda _, names: [it for it in names if it == "out"])
    for name in below(crate):
        if (ROOT / "crates" / name / "out").is_dir():
            # With the times of the files, and without a second copy of the bytes where the file system can do that.
            subprocess.run(["cp", "-a", "--reflink=auto", ROOT / "crates" / name / "out", to / "crates" / name], check=True)
    return to / "crates" / crate


def check(folder, group, minutes):
    """What `rt check` says with these bodies in place, or None where it was stopped; the copy is as before afterwards."""
    steps_of, kept = {}, {}
    for body in group:
        for file, old, new in body.steps:
            steps_of.setdefault(folder / file, []).append((old, new))
    for path, steps in steps_of.items():
        kept[path] = path.read_text(encoding="utf-8")
        path.write_text(changed(kept[path], steps), encoding="utf-8")
    # In a group of its own, so that what it started ends with it.
    ran = subprocess.Popen(
        ["rt", "check", "--allow-holes"], cwd=folder, stdin=subprocess.DEVNULL, stdout=subprocess.PIPE, stderr=subprocess.STDOUT, text=True, start_new_session=True
    )
    try:
        return ran.communicate(timeout=60 * minutes)[0]
    except subprocess.TimeoutExpired:
        return None
    finally:
        if ran.poll() is None:
            os.killpg(ran.pid, signal.SIGTERM)
            ran.communicate()
        for path, text in kept.items():
            path.write_text(text, encoding="utf-8")


def is_of(parts, function):
    """Whether a path of names is a function's: its module among them, and its name at their end."""
    return parts[-1:] == [function[1]] and (function[0] in parts or function[0] in ("lib", "main"))


def messages_of(folder, said, function):
    """What a check says of a function: of the goals in its code, and of its own files of proofs."""
    goals, proofs = [], []
    for file, line, text in re.findall(r"^\w+: (src/[\w/]+\.rt):(\d+):\d+: (it is not proved .*)$", said, re.M):
        above = (folder / file).read_text(encoding="utf-8").split("\n")[: int(line)]
        heads = [it[2] for it in HEAD.finditer("\n".join(above))]
        if (Path(file).stem, heads[-1] if heads else None) == function:
            goals.append(text)
    for path, text in re.findall(r"^(?:\./)?proofs/([\w/]+)/\w+\.antt:\d+:\d+: error: (.*)$", said, re.M):
        if is_of(path.split("/"), function):
            proofs.append(text)
    return goals, proofs


def verdict(folder, crate, body, said):
    """What a check with a body in place says of it."""
    if said is None:
        return "LIMIT"
    lines = re.findall(rf"^fn {crate}::([\w:+<>]+): (.*)$", said, re.M)
    own = [text for path, text in lines if None in body.functions or any(is_of(path.split("::"), it) for it in body.functions)]
    open_ones = [it for it in own if it not in ("proved", "no holes")]
    if not own:
        return "NOT TRIED"
    if not open_ones:
        return "PASSES, as a right body may" if body.right else "PASSES"
    goals, proofs = [], []
    for function in body.functions - {None}:
        both = messages_of(folder, said, function)
        goals, proofs = goals + both[0], proofs + both[1]
    if any(not AT_LIMIT.search(it) for it in goals) or any(not NO_NAME.search(it) for it in proofs):
        return "refused"
    if proofs:
        return "BROKEN NAME"
    if goals or any(AT_LIMIT.search(it) for it in open_ones):
        return "LIMIT"
    # Nothing is said of the function itself: then a name of a lemma below may be what is missing.
    shared = re.findall(r"^(?:\./)?proofs/\w+\.antt:\d+:\d+: error: (.*)$", said, re.M)
    return "BROKEN NAME" if shared and all(NO_NAME.search(it) for it in shared) else "refused"


def try_group(folder, crate, group, minutes):
    """Each body of a group with its verdict. Where one of several doesn't compile, each is tried alone."""
    said = check(folder, group, minutes)
    found = [(body, verdict(folder, crate, body, said)) for body in group]
    if len(group) > 1 and any(it in ("NOT TRIED", "LIMIT") for _, it in found) and (said is None or not re.search(rf"^fn {crate}::", said, re.M)):
        return [it for body in group for it in try_group(folder, crate, [body], minutes)]
    if len(group) == 1 and found[0][1] == "NOT TRIED":
        print("\n".join(it for it in said.split("\n") if "error" in it)[:900])
    return found


def report(body, what, counts):
    print(f"{body.name}: {what}", flush=True)
    counts[what] += 1


def end(count, counts):
    """The last line, and the status."""
    kinds = ", ".join(f"{number} {kind}" for kind, number in sorted(counts.items()))
    print(f"{count} wrong bodies: {kinds}")
    return 0 if set(counts) <= {"refused", "PASSES, as a right body may", "can be put in"} else 1


def known(crates):
    """Ends where one of these has no list, or no folder."""
    lists = sorted(it.stem for it in LISTS.glob("*.txt"))
    for crate in crates:
        if crate not in lists or not (ROOT / "crates" / crate / "src").is_dir():
            print(f"no wrong bodies of a crate {crate}; there are those of {', '.join(lists)}")
            sys.exit(2)
    return crates or lists


def stale(crates):
    counts, count = Counter(), 0
    for crate in known(crates):
        for body in bodies_of(crate):
            count += 1
            fitting = fits(ROOT / "crates" / crate, body)
            counts["can be put in" if fitting else "STALE"] += 1
            if not fitting:
                print(f"{crate}, {body.name}: STALE")
    return end(count, counts)


def main():
    arguments = argparse.ArgumentParser(description=__doc__, formatter_class=argparse.RawDescriptionHelpFormatter)
    arguments.add_argument("--stale", action="store_true", help="prove nothing")
    arguments.add_argument("--minutes", type=float, default=20, help="for one check")
    arguments.add_argument("words", nargs="*", metavar="CRATE, NAME", help="a crate and names of its bodies; with --stale crates alone")
    options = arguments.parse_args()
    if options.stale:
        return stale(options.words)
    if not options.words:
        arguments.print_usage()
        return 2
    (crate,), names = known(options.words[:1]), options.words[1:]
    bodies = bodies_of(crate)
    for name in names:
        if name not in [it.name for it in bodies]:
            print(f"{crate} has no wrong body {name}")
            return 2
    bodies = [it for it in bodies if not names or it.name in names]
    counts = Counter()
    with tempfile.TemporaryDirectory(prefix="wrong-bodies-") as temporary:
        folder = copy_crates(crate, Path(temporary))
        fitting = [it for it in bodies if fits(folder, it)]
        for body in bodies:
            if body not in fitting:
                report(body, "STALE", counts)
        for group in groups_of(fitting):
            for body, what in try_group(folder, crate, group, options.minutes):
                report(body, what, counts)
    return end(len(bodies), counts)


if __name__ == "__main__":
    # A stop from outside ends the check, and takes the copy away.
    for number in (signal.SIGTERM, signal.SIGHUP):
        signal.signal(number, lambda number, _: sys.exit(128 + number))
    sys.exit(main())

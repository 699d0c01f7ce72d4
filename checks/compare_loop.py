#!/usr/bin/env python3
"""Compares the built program's `loop` with an independent program, byte for byte: status, OUT and what is printed, on random clips and scripts.

A case is named by its seed, from which clip and script are made: sizes, losses both ways, repeats, any order, late reports, waits short and
past half a second, windows that fill; a few clips are cut or have bad headers, and a few scripts ask for too much. `--seed N --count 1` runs
case N alone. The other program is the one of peer.py, with the codec without compression. Ours is the proved build that stands, or the words of
--program before IN, SCRIPT and OUT. Where one of them isn't there, one line says so, and the status is 77. A build that isn't of these sources
is refused with status 1.
It ends with status 1 where the two differ or one doesn't end in time, prints the size of the clip and the script, and keeps the files of the
first difference; and also where too few of the runs end well, since runs that are refused early show little."""
import argparse
import random
import re
import shlex
import shutil
import subprocess
import sys
import tempfile
import time
from collections import Counter
from pathlib import Path

import peer

PROGRAM = peer.ROOT / "crates" / "salsify" / "out" / "salsify"
LAUNCHER = peer.ROOT / "salsify"
# What stands for a status where a program doesn't end in time.
NO_END = "no end"
# The status of an input that isn't in the grammar.
BAD_INPUT = 3
# From how many cases on the share of runs with status 0 is tested.
ENOUGH = 40
# Bytes of a datagram's data, and how long a sender waits for acknowledgements until nothing counts as in flight, in microseconds.
DATA, QUIET = 1200, 500_000


def samples(width, height):
    return width * height + 2 * ((width + 1) // 2) * ((height + 1) // 2)


class Guess:
    """What was sent so far, as far as a script's author can guess: how many datagrams and acknowledgements there are.

    It follows the budget of the sender and the gaps of the receiver. Frames of all kinds count as equally long, so it can be wrong by a
    datagram for a few sizes, and the script then names one that isn't there."""

    def __init__(self, width, height):
        self.count = -(-(samples(width, height) + 1) // DATA)
        self.least = 16 + -(-width // 16) * -(-height // 16) // 16
        self.moment, self.sent, self.heard, self.sent_at, self.heard_at, self.average = 0, 0, 0, 0, 0, 10_000
        self.last_choice, self.pauses = None, {}
        self.gap, self.last_arrival, self.greatest = 10_000, None, 0
        # Serial and gap that each acknowledgement carries.
        self.acks = []
        self.downed, self.upped = set(), set()

    def next(self):
        window = min(4096, max(self.least, 100_000 // max(1, self.average)))
        quiet = self.moment - max(self.sent_at, self.heard_at) >= QUIET
        if self.count <= window - (0 if quiet else self.sent - self.heard):
            self.pauses[self.sent + 1] = 0 if self.last_choice is None else self.moment - self.last_choice
            self.last_choice = self.sent_at = self.moment
            self.sent += self.count

    def down(self, k):
        if not 1 <= k <= self.sent:
            return
        if k > self.greatest:
            if self.last_arrival is not None:
                gap = max(0, self.moment - self.last_arrival - self.pauses.get(k, 0))
                self.gap = min(10_000_000, (7 * self.gap + gap) // 8)
            self.last_arrival, self.greatest = self.moment, k
        self.downed.add(k)
        self.acks.append((self.greatest, self.gap))

    def up(self, k):
        if not 1 <= k <= len(self.acks):
            return
        serial, gap = self.acks[k - 1]
        if serial > self.heard:
            self.heard, self.average, self.heard_at = serial, gap, self.moment
        self.upped.add(k)

    def down_all(self):
        for k in range(1, self.sent + 1):
            if k not in self.downed:
                self.down(k)

    def up_all(self):
        for k in range(1, len(self.acks) + 1):
            if k not in self.upped:
                self.up(k)

    def wait(self, time):
        self.moment += time


# Lines that aren't in the grammar.
BAD_LINES = [
    b"nex", b"next ", b" next", b"NEXT", b"next  late", b"next late ", b"nextlate", b"late", b"down", b"down ", b"down 0", b"down -1", b"down 1 ",
    b"down  1", b"down 1x", b"down 4294967296", b"down 00000000001", b"up 0", b"up", b"up 4294967296", b"up +1", b"upall 1", b"downall ", b"rest 1",
    b"wait", b"wait ", b"wait -1", b"wait 1000000001", b"wait 00000000001", b"next\r", b" ", b"\t", b" # note", b"down 1\x00", b"jump",
    b"down " + b"9" * 59, b"#" + b"x" * 63, b"x" * 63, b"x" * 64, b"x" * 65, b"x" * 300,
]
# Lines that say nothing.
EMPTY_LINES = [b"", b"#", b"# note", b"#next", b"#" + b"x" * 62]


class Author:
    """Writes a script of some temper for a clip."""

    def __init__(self, chance, width, height, pictures):
        self.chance, self.left, self.lines = chance, pictures, []
        self.guess = Guess(width, height)
        # Shares of datagrams and acknowledgements lost, of those that come late, and of those that come again.
        self.lost_down = chance.choice([0, 0, 0.05, 0.1, 0.1, 0.3, 0.6])
        self.lost_up = chance.choice([0, 0, 0.05, 0.1, 0.3, 0.6, 1])
        self.shuffled = chance.choice([0, 0.2, 0.5, 1])
        self.again = chance.choice([0, 0.05, 0.2])
        self.late = chance.choice([0, 0.3, 0.5, 1])
        self.all_at_once = chance.choice([0, 0.2, 0.5])
        self.waits = chance.choice([[0], [0, 1, 33_333], [33_333], [1_000, 5_000, 20_000], [33_333, 100_000, 500_000], [499_999, 500_000, 500_001]])
        self.waiting = chance.choice([0.2, 0.6, 1])
        # How many of these are kept back, to come out of their time.
        self.held_down, self.held_up = [], []

    def say(self, line):
        if self.chance.random() < 0.03:
            self.lines.append(self.chance.choice(EMPTY_LINES))
        if self.chance.random() < 0.02:
            # The same with zeros in front, as the grammar allows.
            line = re.sub(rb"(\d+)$", lambda found: found[1].zfill(self.chance.choice([2, 10])), line)
        self.lines.append(line)

    def wait(self, time):
        self.say(b"wait %d" % time)
        self.guess.wait(time)

    def next(self):
        late = self.chance.random() < self.late
        self.say(b"next late" if late else b"next")
        self.guess.next()
        self.left -= 1

    def down(self, k):
        self.say(b"down %d" % k)
        self.guess.down(k)

    def up(self, k):
        self.say(b"up %d" % k)
        self.guess.up(k)

    def some(self, news, held, lost):
        """Which numbers come now, of the new ones and those kept back; some are lost, some are kept back, some come twice."""
        chance = self.chance
        news = [k for k in news if chance.random() >= lost] + held
        if chance.random() < self.shuffled:
            chance.shuffle(news)
        kept = [k for k in news if chance.random() < 0.3 * self.shuffled]
        now = [k for k in news if k not in kept]
        now += [k for k in now if chance.random() < self.again]
        return now, kept

    def turn(self):
        """A picture, and what comes after it."""
        chance, guess = self.chance, self.guess
        for _ in range(chance.choice([1, 1, 1, 1, 2, 3])):
            if self.left:
                sent = guess.sent
                self.next()
                self.held_down += range(sent + 1, guess.sent + 1)
        acks = len(guess.acks)
        if chance.random() < self.all_at_once * 0.5:
            self.say(b"downall")
            guess.down_all()
            self.held_down = []
        else:
            now, self.held_down = self.some([], self.held_down, self.lost_down)
            for k in now:
                self.down(k)
        news = list(range(acks + 1, len(guess.acks) + 1))
        if chance.random() < self.all_at_once * (0.5 if self.lost_up < 1 else 0):
            self.say(b"upall")
            guess.up_all()
            self.held_up = []
        else:
            now, self.held_up = self.some(news, self.held_up, self.lost_up)
            for k in now:
                self.up(k)
        if guess.sent and chance.random() < self.again:
            self.down(chance.randrange(1, guess.sent + 1))
        if guess.acks and chance.random() < self.again:
            self.up(chance.randrange(1, len(guess.acks) + 1))
        if chance.random() < self.waiting:
            self.wait(chance.choice(self.waits))

    def starve(self):
        """Pictures without a word from the receiver, until the window of numbers is full, and after the quiet one more."""
        for _ in range(self.chance.randrange(14, 20)):
            if self.left:
                self.next()
                if self.chance.random() < 0.2:
                    self.wait(QUIET)
        self.wait(self.chance.choice([QUIET - 1, QUIET, QUIET + 1, 10 ** 9]))

    def write(self):
        chance = self.chance
        resting = chance.random()
        stop = chance.randrange(0, self.left + 1) if resting < 0.5 else 0
        while self.left > stop:
            if chance.random() < 0.06:
                self.starve()
            else:
                self.turn()
        if resting < 0.5:
            self.say(b"rest")
            left, self.left = self.left, 0
            for _ in range(left):
                self.guess.next()
                self.guess.down_all()
                self.guess.up_all()
                self.guess.wait(33_333)
            # After the rest datagrams and acknowledgements can still come again.
            for _ in range(chance.choice([0, 0, 0, 2])):
                if self.guess.sent:
                    self.down(chance.randrange(1, self.guess.sent + 1))
        if chance.random() < 0.5:
            for line in chance.choice([[b"downall"], [b"upall"], [b"downall", b"upall"], [b"upall", b"downall", b"upall"], [b"downall", b"downall"], [b"rest"]]):
                self.say(line)
        return self.lines


def script(chance, width, height, pictures):
    """A script's lines; one in twelve asks for too much, and one in thirty isn't in the grammar."""
    author = Author(chance, width, height, pictures)
    lines = author.write()
    at = chance.randrange(len(lines) + 1)
    if chance.randrange(12) == 0:
        kind = chance.choice(["next", "next late", "down", "up"])
        last = author.guess.sent if kind == "down" else len(author.guess.acks)
        number = min(4_294_967_295, chance.choice([last + 1, last + 2, 2 * last + 7, 4_294_967_295]))
        lines.insert(len(lines) if chance.randrange(3) else at, kind.encode() if kind.startswith("next") else b"%s %d" % (kind.encode(), number))
    if chance.randrange(30) == 0:
        lines.insert(at, chance.choice(BAD_LINES))
    text = b"".join(line + b"\n" for line in lines)
    return text[:-1] if text and chance.randrange(15) == 0 else text


# Headers that the grammar of YUV4MPEG2 doesn't have.
BAD_HEADERS = [
    b"", b"\n", b"YUV4MPEG2", b"YUV4MPEG2\n", b"YUV4MPEG W16 H16\n", b"YUV4MPEG3 W16 H16\n", b"yuv4mpeg2 W16 H16\n", b"YUV4MPEG2 W16\n", b"YUV4MPEG2 H16\n",
    b"YUV4MPEG2 W0 H16\n", b"YUV4MPEG2 W16 H0\n", b"YUV4MPEG2 W1281 H16\n", b"YUV4MPEG2 W16 H721\n", b"YUV4MPEG2 W H16\n", b"YUV4MPEG2 W16 H\n",
    b"YUV4MPEG2 W00000000016 H16\n", b"YUV4MPEG2 W4294967312 H16\n", b"YUV4MPEG2 W99999999999999999999 H16\n", b"YUV4MPEG2 W-16 H16\n", b"YUV4MPEG2 W+16 H16\n",
    b"YUV4MPEG2 W16x H16\n", b"YUV4MPEG2 W16,H16\n", b"YUV4MPEG2 W16 H16\r\n", b"YUV4MPEG2\tW16 H16\n", b"YUV4MPEG2 w16 h16\n", b"YUV4MPEG2 W16 H16 Q\n",
    b"YUV4MPEG2 W16 H16 " + b"x" * 300 + b"\n", b" YUV4MPEG2 W16 H16\n", b"\nYUV4MPEG2 W16 H16\n", b"YUV4MPEG2 W16 H16",
]


def picture(chance, size, before):
    """Random samples; often few of them differ from the picture before, and at times none does."""
    kind = chance.randrange(8)
    if before is None or kind < 4:
        return chance.randbytes(size)
    if kind == 4:
        return before
    if kind == 5:
        return bytes([chance.randrange(256)]) * size
    text = bytearray(before)
    for _ in range(chance.randrange(1, 20)):
        text[chance.randrange(size)] = chance.randrange(256)
    return bytes(text)


def clip(chance):
    """A clip's bytes, sides and number of whole pictures, and whether they are sound; one in sixteen is spoilt."""
    shape = chance.randrange(20)
    if shape < 8:
        width, height = chance.randrange(1, 29), chance.randrange(1, 29)
    elif shape < 15:
        width, height = chance.randrange(16, 100), chance.randrange(16, 80)
    elif shape < 17:
        # A frame of just about a whole number of datagrams, so that its header decides how many there are.
        target = DATA * chance.randrange(1, 8) + chance.randrange(-8, 4)
        width, height = 2, max(1, target // 3 // 2 * 2)
        height = min(720, height)
    elif shape < 19:
        width, height = chance.randrange(100, 260), chance.randrange(80, 200)
    else:
        width, height = chance.choice([(1280, 1), (1, 720), (1280, 2), (2, 719), (597, 1), (1, 1)])
    size = samples(width, height)
    count = chance.randrange(0, 4) if chance.randrange(8) == 0 else chance.randrange(4, 40 if size < 20_000 else 16)
    # Rates of one period, so that a script's author guesses right.
    more = chance.choice([b"", b"", b" F30:1 Ip A1:1 C420jpeg XYSCSS=420JPEG", b" F0:0 I? A0:0 C420mpeg2", b"  F60:2 C420paldv ", b" F90:3 Xx"])
    header = b"YUV4MPEG2 W%s H%s%s\n" % (str(width).zfill(chance.choice([1, 1, 1, 10])).encode(), str(height).zfill(chance.choice([1, 1, 1, 5])).encode(), more)
    pictures, before = [], None
    for _ in range(count):
        before = picture(chance, size, before)
        pictures.append(chance.choice([b"FRAME\n"] * 7 + [b"FRAME Ip\n"]) + before)
    text = header + b"".join(pictures)
    spoilt = chance.randrange(64)
    if spoilt == 0:
        text = chance.choice(BAD_HEADERS) + b"".join(pictures)
    elif spoilt == 1:
        text = text[:chance.randrange(len(text) + 1)]
    elif spoilt == 2:
        text += chance.choice([b"F", b"FRAME", b"FRAME\n", b"frame\n" + bytes(size), b"FRAMEx\n" + bytes(size), b"\n", bytes(3), b"FRAME" + b"x" * 300])
    elif spoilt == 3 and pictures:
        at = len(header) + chance.randrange(len(pictures)) * (6 + size) + chance.randrange(6)
        text = text[:at] + bytes([text[at] ^ 1 << chance.randrange(8)]) + text[at + 1:]
    return text, width, height, count


class Case:
    def __init__(self, name, text, script_text, size):
        self.name, self.clip, self.script, self.size = name, text, script_text, size


def random_case(seed):
    chance = random.Random(seed)
    text, width, height, count = clip(chance)
    # Some scripts take a clip to be longer than it is.
    asked = count + chance.randrange(1, 4) if chance.randrange(25) == 0 else count
    return Case(f"seed {seed}", text, script(chance, width, height, asked), f"{width} by {height}, {count} pictures")


def plain_clip(width, height, values):
    size = samples(width, height)
    return b"YUV4MPEG2 W%d H%d\n" % (width, height) + b"".join(b"FRAME\n" + bytes([value]) * size for value in values)


def named_cases():
    """Cases that a random script seldom meets: numbers that fill the window, sessions and scripts at their limits."""
    small = "16 by 16"
    lines = b"next\ndown 1\nup 1\nnext\nnext\ndown 3\nup 2\nnext\ndown 4\nup 3\nnext\ndown 5\nup 4\nnext\ndown 6\n"
    values = [128, 100, 72, 44, 90, 60]
    yield Case("a loss, then a return to what is held", plain_clip(16, 16, values), lines, small)
    yield Case("the lost datagram after all", plain_clip(16, 16, values), lines + b"down 2\n", small)
    sixteen = plain_clip(16, 16, [128] * 17)
    yield Case("sixteen numbers, then the quiet", sixteen, b"next\n" * 16 + b"wait 500000\nnext\ndownall\n", small)
    yield Case("sixteen numbers, and no quiet", sixteen, b"next\n" * 16 + b"wait 499999\nnext\ndownall\n", small)
    yield Case("a late report", plain_clip(16, 16, [128]), b"next late\ndownall", small)
    yield Case("twice the same state", plain_clip(16, 16, [128, 128]), b"next\ndownall\nnext\ndownall\nupall\n", small)
    most, frame = 1_048_575, b"FRAME\n" + bytes(3)
    tiny = b"YUV4MPEG2 W1 H1\n"
    for count in (most, most + 1):
        yield Case(f"{count} pictures, none used", tiny + frame * count, b"", "1 by 1")
    most_bytes = 1 << 24
    note = b"#" + b"x" * 62 + b"\n"
    notes = b"next\ndown 1\n" + note * ((most_bytes - 12) // 64)
    left = most_bytes - len(notes)
    for more in (left, left + 1):
        yield Case(f"a script of {len(notes) + more} bytes", tiny + frame, notes + b"#" * more, "1 by 1")
    yield Case("many waits and repeats", tiny + frame * 2, b"next\n" + b"down 1\nup 1\nwait 1\n" * 20_000 + b"next\ndownall\n", "1 by 1")


def outcome(words, folder, names, limit):
    """Status, OUT and what was printed of a program over the files in a folder; the status is a word where it doesn't end in time."""
    (folder / names[2]).unlink(missing_ok=True)
    try:
        ended = subprocess.run([*words, *names], cwd=folder, stdin=subprocess.DEVNULL, capture_output=True, timeout=limit)
        status, printed = ended.returncode, ended.stdout
    except subprocess.TimeoutExpired:
        status, printed = NO_END, b""
    out = folder / names[2]
    return status, out.read_bytes() if out.exists() else None, printed.replace(names[2].encode(), b"OUT")


def happenings(journal):
    """What happened in a run, by the other program's journal."""
    found, last_key, keys = set(), None, 0
    for line in journal.decode("ascii", "replace").splitlines():
        words = line.split(" ")
        if words[0] == "report" and words[-1] == "late":
            found.add("late")
        elif words[0] == "nothing":
            found.add("nothing")
        elif words[0] == "choose":
            number, source = int(words[1]), int(words[3])
            if source == 0:
                keys += 1
                if keys > 1:
                    found.add("key again")
                if last_key is not None and number - last_key == 16:
                    found.add("window full")
                last_key = number
            elif source < number - 1:
                found.add("return")
        elif words[0] == "decoded":
            found.add(words[2])
        elif words[0] == "up":
            found.add("up " + words[2])
    return found


def difference(ours, theirs, case):
    """Where two outcomes differ, in a line. Two runs that don't end are no agreement."""
    words = [] if ours[0] == theirs[0] != NO_END else [f"status {ours[0]}, and theirs {theirs[0]}"]
    if ours[1] != theirs[1]:
        if ours[1] is None or theirs[1] is None:
            words.append("only one wrote OUT")
        else:
            at = next((i for i, (a, b) in enumerate(zip(ours[1], theirs[1])) if a != b), min(len(ours[1]), len(theirs[1])))
            words.append(f"OUT differs at byte {at} ({len(ours[1])} bytes, and theirs {len(theirs[1])})")
    if ours[2] != theirs[2]:
        words.append(f"printed is {ours[2]!r}, and theirs {theirs[2]!r}")
    return f"{case.name} ({case.size}): " + "; ".join(words)


def at_least_one(word):
    if int(word) < 1:
        raise argparse.ArgumentTypeError("from 1 on")
    return int(word)


def our_words(options):
    """The words of our program before IN, SCRIPT and OUT, or the status to end with where there is none that counts."""
    if options.program:
        return shlex.split(options.program), None
    if not PROGRAM.exists():
        print(f"compare_loop: skipped, {PROGRAM.relative_to(peer.ROOT)} isn't built (./salsify --prove builds it)")
        return None, peer.SKIPPED
    if subprocess.run([LAUNCHER, "--fresh"], stdin=subprocess.DEVNULL).returncode != 0:
        print(f"compare_loop: {PROGRAM.relative_to(peer.ROOT)} isn't built from these sources (./salsify --prove builds it)")
        return None, 1
    return [str(PROGRAM), "loop"], None


def main():
    arguments = argparse.ArgumentParser(description=__doc__, formatter_class=argparse.RawDescriptionHelpFormatter)
    arguments.add_argument("--count", type=at_least_one, default=500)
    arguments.add_argument("--seed", type=int, default=1)
    arguments.add_argument("--program", help="the words before IN, SCRIPT and OUT in place of the proved build's")
    arguments.add_argument("--limit", type=float, default=60, help="seconds for one run")
    arguments.add_argument("--floor", type=float, default=0.6, help=f"the least share of our runs with status 0, of {ENOUGH} cases or more")
    options = arguments.parse_args()
    other = peer.program()
    if other is None:
        print(f"compare_loop: skipped, {peer.missing()}")
        return peer.SKIPPED
    words, status = our_words(options)
    if words is None:
        return status
    folder = Path(tempfile.mkdtemp(prefix="compare-"))
    began = time.monotonic()
    statuses, happened, lines, differences, written, kept = Counter(), Counter(), Counter(), 0, 0, None
    cases = [random_case(seed) for seed in range(options.seed, options.seed + options.count)]
    cases += named_cases() if options.count > 1 else []
    for case in cases:
        (folder / "in.y4m").write_bytes(case.clip)
        (folder / "script").write_bytes(case.script)
        (folder / "journal").unlink(missing_ok=True)
        ours = outcome(words, folder, ["in.y4m", "script", "ours.y4m"], options.limit)
        theirs = outcome([*other, "loop", "--codec", "plain"], folder, ["in.y4m", "script", "theirs.y4m", "journal"], options.limit)
        statuses[ours[0]] += 1
        written += len(theirs[1] or b"")
        if (folder / "journal").exists():
            happened.update(happenings((folder / "journal").read_bytes()))
        if len(case.script) < 1 << 20:
            lines.update({b" ".join(line.split(b" ")[:2 if line == b"next late" else 1]) for line in case.script.split(b"\n") if not line.startswith(b"#")})
        if ours != theirs or ours[0] == NO_END:
            differences += 1
            print(f"compare_loop: {difference(ours, theirs, case)}")
            if kept is None:
                kept = Path(tempfile.mkdtemp(prefix="difference-"))
                for file in ("in.y4m", "script", "ours.y4m", "theirs.y4m", "journal"):
                    if (folder / file).exists():
                        shutil.copy(folder / file, kept)
                text = case.script.decode("ascii", "backslashreplace")
                print(f"compare_loop: its files are in {kept}; its script is\n{text[:4000]}{' ..' if len(text) > 4000 else ''}")
    shutil.rmtree(folder)
    ends = ", ".join(f"{count} of status {status}" for status, count in sorted(statuses.items(), key=str))
    print(f"compare_loop: {len(cases)} compared, {differences} differ ({ends}; {written} bytes of OUT; {time.monotonic() - began:.0f} s)")
    used = ", ".join(f"{lines[word]} {word.decode()}" for word in (b"next", b"next late", b"down", b"up", b"downall", b"upall", b"wait", b"rest"))
    seen = ", ".join(f"{count} {what}" for what, count in sorted(happened.items()))
    print(f"compare_loop: cases with each line: {used}; where it happened: {seen}")
    few = len(cases) >= ENOUGH and statuses[0] < options.floor * len(cases)
    if few:
        print(f"compare_loop: of {len(cases)} runs of ours {statuses[0]} ended with status 0, and not {options.floor:.0%} or more")
    return 1 if differences or few else 0


if __name__ == "__main__":
    sys.exit(main())

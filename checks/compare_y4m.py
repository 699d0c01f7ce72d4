#!/usr/bin/env python3
"""Compares how the built program reads YUV4MPEG2 with an independent program, byte for byte: status, OUT and what is printed, on random headers
and pictures, right ones and such as have one fault or several, and on right ones with a few bytes changed.

A case is named by its seed; `--seed N --count 1` runs case N alone. The programs are those of compare_loop.py, and so are the statuses of this
one. At the end it says how often each reason of a bad input came, and ends with status 1 where one never did in 2,000 cases or more."""
import argparse
import random
import shutil
import sys
import tempfile
import time
from collections import Counter
from concurrent.futures import ThreadPoolExecutor
from pathlib import Path

import compare_loop
import peer

REASONS = ["magic", "cut", "line", "side", "rate", "interlace", "colour", "param", "missing", "frame"]
# From how many cases on each reason must have come.
ENOUGH = 2000


def number(chance):
    """Digits of a number: small, at the limits of sides and of 32 bits, with zeros in front, too many, or none."""
    value = chance.choice([0, 1, 2, 9, 16, 25, 30, 720, 721, 1280, 1281, 30000, 1001, (1 << 32) - 1, 1 << 32, 9_999_999_999, 10**10, 10**20])
    text = str(value).encode()
    if chance.randrange(8) == 0:
        text = text.zfill(chance.randrange(1, 13))
    return chance.choice([b"", b"+1", b"-1", b"1x", b"0x1", b"1.5"]) if chance.randrange(12) == 0 else text


def ratio(chance):
    if chance.randrange(8) == 0:
        return chance.choice([b"0:0", b"00:0", b"0:1", b"1:0", b":", b"1", b"1:", b":1", b"1:1:1", b"1:1x", b"25/1"])
    return number(chance) + b":" + number(chance)


def parameter(chance):
    """One parameter, often a right one."""
    letter = chance.choice(b"WHFIACX" if chance.randrange(30) else b"wfBDEGYZ:0\t,")
    if letter in b"FA":
        value = ratio(chance) if chance.randrange(2) else chance.choice([b"25:1", b"30000:1001", b"0:0", b"1:1"])
    elif letter == ord("I"):
        value = chance.choice([b"p", b"p", b"?", b"t", b"b", b"m", b"", b"pp", b"P"]) if chance.randrange(3) == 0 else b"p"
    elif letter == ord("C"):
        value = chance.choice([b"420", b"420jpeg", b"420mpeg2", b"420paldv", b"420p10", b"422", b"444", b"mono", b"", b"420JPEG"])
        value = value if chance.randrange(3) == 0 else b"420jpeg"
    elif letter == ord("X"):
        value = bytes(chance.choice(b"abcXYZ=420:_") for _ in range(chance.randrange(0, 40)))
    elif letter in b"WH":
        value = number(chance) if chance.randrange(3) == 0 else str(chance.randrange(1, 20)).encode()
    else:
        value = bytes(chance.choice(b"0123:x") for _ in range(chance.randrange(0, 6)))
    return bytes([letter]) + value


def header(chance, width, height):
    """A header line of these sides, or of others where a parameter comes again."""
    parts = [b"W%d" % width, b"H%d" % height]
    parts += [parameter(chance) for _ in range(chance.choice([0, 0, 1, 2, 3, 8]))]
    if chance.randrange(2):
        # What other programs write.
        parts += [b"F%d:1" % chance.choice([25, 30, 60]), b"Ip", b"A1:1", chance.choice([b"C420jpeg", b"C420mpeg2", b"C420paldv", b"C420"]), b"XYSCSS=420JPEG"]
    if chance.randrange(6) == 0:
        chance.shuffle(parts)
    if chance.randrange(12) == 0:
        parts.pop(chance.randrange(len(parts)))
    word = chance.choice([b"YUV4MPEG", b"YUV4MPEG22", b"yuv4mpeg2", b"", b" YUV4MPEG2", b"YUV4MPEG2\t"]) if chance.randrange(25) == 0 else b"YUV4MPEG2"
    line = word + b"".join(b" " * chance.choice([1, 1, 1, 1, 2, 5]) + part for part in parts) + b" " * chance.choice([0, 0, 0, 1, 3])
    if chance.randrange(20) == 0:
        # At the limit of a line's length.
        line += b" " + b"X" * max(0, chance.choice([254, 255, 256, 257]) - len(line) - 1)
    return line + b"\n"


def frame_line(chance):
    if chance.randrange(6):
        return b"FRAME\n"
    return chance.choice([b"FRAME \n", b"FRAME Ip\n", b"FRAME  x y\n", b"FRAMES\n", b"frame\n", b"FRAM\n", b"\n", b"FRAME\t\n", b"FRAME " + b"x" * chance.choice([248, 249, 250, 300]) + b"\n"])


def input_of(seed):
    """The bytes of IN."""
    chance = random.Random(seed)
    width, height = chance.randrange(1, 20), chance.randrange(1, 20)
    size = compare_loop.samples(width, height)
    text = bytearray(header(chance, width, height))
    for _ in range(chance.choice([0, 0, 1, 1, 2])):
        text += frame_line(chance) + bytes([chance.randrange(256)]) * size
    kind = chance.randrange(10)
    if kind == 0 and text:
        del text[chance.randrange(len(text)):]
    elif kind == 1:
        text += chance.choice([b"F", b"FRAME", b"FRAME\n", b"\n", b"x" * 300])
    elif kind == 2:
        for _ in range(chance.randrange(1, 4)):
            at = chance.randrange(min(len(text), 80))
            text[at] = chance.choice(b" \n0:WHFIACXp420?" + bytes([chance.randrange(256)]))
    return bytes(text)


def compare(folder, words, other, seed, limit):
    """What both programs make of a case."""
    place = folder / str(seed)
    place.mkdir()
    (place / "in.y4m").write_bytes(input_of(seed))
    (place / "script").write_bytes(b"rest\n")
    ours = compare_loop.outcome(words, place, ["in.y4m", "script", "ours.y4m"], limit)
    theirs = compare_loop.outcome([*other, "loop", "--codec", "plain"], place, ["in.y4m", "script", "theirs.y4m", "journal"], limit)
    return place, ours, theirs


def main():
    arguments = argparse.ArgumentParser(description=__doc__, formatter_class=argparse.RawDescriptionHelpFormatter)
    arguments.add_argument("--count", type=compare_loop.at_least_one, default=20_000)
    arguments.add_argument("--seed", type=int, default=1)
    arguments.add_argument("--program", help="the words before IN, SCRIPT and OUT in place of the proved build's")
    arguments.add_argument("--limit", type=float, default=60, help="seconds for one run")
    options = arguments.parse_args()
    other = peer.program()
    if other is None:
        print(f"compare_y4m: skipped, {peer.missing()}")
        return peer.SKIPPED
    words, status = compare_loop.our_words(options)
    if words is None:
        return status
    folder = Path(tempfile.mkdtemp(prefix="compare-y4m-"))
    began = time.monotonic()
    statuses, reasons, differences, kept = Counter(), Counter(), 0, None
    with ThreadPoolExecutor(4) as pool:
        seeds = range(options.seed, options.seed + options.count)
        for seed, (place, ours, theirs) in zip(seeds, pool.map(lambda seed: compare(folder, words, other, seed, options.limit), seeds)):
            statuses[ours[0]] += 1
            if theirs[0] == compare_loop.BAD_INPUT:
                reasons[theirs[2].split(b" ")[-1].strip().decode()] += 1
            if ours != theirs or ours[0] == compare_loop.NO_END:
                differences += 1
                print(f"compare_y4m: seed {seed}: {compare_loop.difference(ours, theirs, compare_loop.Case('IN', b'', b'', 'a case'))}; {(place / 'in.y4m').read_bytes()[:160]!r}")
                if kept is None:
                    kept = Path(tempfile.mkdtemp(prefix="difference-")) / "in.y4m"
                    shutil.copy(place / "in.y4m", kept)
                    print(f"compare_y4m: its input is {kept}")
            shutil.rmtree(place)
    shutil.rmtree(folder)
    ends = ", ".join(f"{count} of status {status}" for status, count in sorted(statuses.items(), key=str))
    print(f"compare_y4m: {options.count} compared, {differences} differ ({ends}; {time.monotonic() - began:.0f} s)")
    print("compare_y4m: reasons: " + ", ".join(f"{reasons[word]} {word}" for word in REASONS))
    unmet = [word for word in REASONS if reasons[word] == 0] if options.count >= ENOUGH else []
    if unmet:
        print(f"compare_y4m: no case had the reason {', '.join(unmet)}")
    return 1 if differences or unmet else 0


if __name__ == "__main__":
    sys.exit(main())

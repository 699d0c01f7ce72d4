#!/usr/bin/env python3
"""Compares the proved VP8 decoder with other decoders: pictures sample by sample, the digests of states, and faults by their names.

The decoder is called through the static library of crate sal_decode_ffi, by the harness in checks/decoder. It is compared

- with the program of peer.py, on the streams that it makes of 20 clips, inter frames and key frames alone, and on those that lie beside it;
- with vpxdec and ffmpeg's own decoder, on streams of vpxenc. One digit of our profile isn't the standard's, so these streams are
  rewritten for ours by the other program (`profile-ivf`), and their pictures are those of the streams before that;
- with the other program, on such streams with flipped bits, cuts, frames of random bits, and lost or repeated frames.

What is missing (the library, the other program, rustc; vpxenc, vpxdec and ffmpeg; a folder of streams) is said by name in a line, and what
needs it is skipped; the status is 77 where all that was asked for is. --measure prints milliseconds and instructions for a picture of 1280 by
720 beside ffmpeg and vpxdec, and compares nothing.
It ends with status 1 where a picture, a state or a fault differs, and where a part comes to no comparison at all; a line names stream, frame,
plane and macroblock."""
import argparse
import os
import random
import shutil
import struct
import subprocess
import sys
import tempfile
import time
from collections import Counter
from pathlib import Path

import peer

CRATE = peer.ROOT / "crates" / "sal_decode_ffi"
LIBRARY = CRATE / "out" / "libsal_decode_ffi.a"
HARNESS = peer.ROOT / "checks" / "decoder" / "main.rs"
# Seconds for any one program but the mutations and the measurements.
LIMIT = 120
FFMPEG = ["ffmpeg", "-nostdin", "-v", "error", "-threads", "1"]
VPXENC = ["vpxenc", "--codec=vp8", "--ivf", "--profile=0", "--threads=1", "--disable-warning-prompt", "-q"]
RUSTC = ["rustc", "--edition", "2021", "-C", "opt-level=3"]


def say(text):
    print(f"compare_decoder: {text}", flush=True)


def run(words, limit=LIMIT, **more):
    """A program's output; any status but 0 is an error with what it said."""
    done = subprocess.run([str(word) for word in words], stdin=subprocess.DEVNULL, capture_output=True, timeout=limit, **more)
    if done.returncode != 0:
        said = (done.stdout[-500:] + done.stderr[-500:]).decode("utf-8", "replace")
        raise RuntimeError(f"{' '.join(map(str, words))} ended with status {done.returncode}: {said}")
    return done.stdout


# ---- Clips


def write_clip(path, width, height, pictures):
    with open(path, "wb") as file:
        file.write(b"YUV4MPEG2 W%d H%d F30:1 Ip A0:0 C420jpeg\n" % (width, height))
        for samples in pictures:
            file.write(b"FRAME\n" + samples)


def texture(chance, width, height, rough):
    """A plane of blobs and stripes, with some noise."""
    base = [[(x * chance.randrange(1, 5) + y * 3) & 255 for x in range(width)] for y in range(height)]
    for _ in range(max(2, width * height // 700)):
        top, left, value = chance.randrange(height), chance.randrange(width), chance.randrange(256)
        side, slope = chance.randrange(3, 24), chance.randrange(-3, 4)
        for row in base[top:top + side]:
            for x in range(left, min(width, left + side)):
                row[x] = (value + slope * x) & 255
    if rough:
        noise = chance.randbytes(width * height)
        for y, row in enumerate(base):
            row[:] = [min(255, max(0, a + noise[y * width + x] % rough - rough // 2)) for x, a in enumerate(row)]
    return [bytes(row) for row in base]


def window(plane, top, left, width, height):
    return b"".join(row[left:left + width] for row in plane[top:top + height])


def moving(chance, width, height, count, rough, far):
    """A window that moves over a larger texture, so that there are vectors, some of them long."""
    margin = far * count + 8
    luma = texture(chance, width + 2 * margin, height + 2 * margin, rough)
    chroma = [texture(chance, (width + 1) // 2 + margin, (height + 1) // 2 + margin, rough) for _ in range(2)]
    top, left = margin, margin
    for _ in range(count):
        parts = [window(luma, top, left, width, height)]
        parts += [window(plane, top // 2, left // 2, (width + 1) // 2, (height + 1) // 2) for plane in chroma]
        yield b"".join(parts)
        top = min(2 * margin, max(0, top + chance.randrange(-far, far + 1)))
        left = min(2 * margin, max(0, left + chance.randrange(-far, far + 1)))


def cutting(chance, width, height, count, rough):
    """Scenes of a few pictures that stand still, but for a square and the noise."""
    size = width * height + 2 * ((width + 1) // 2) * ((height + 1) // 2)
    scene = None
    for number in range(count):
        if number % 3 == 0:
            scene = next(moving(chance, width, height, 1, rough, 1))
        samples = bytearray(scene)
        for _ in range(size // 60):
            samples[chance.randrange(size)] = chance.randrange(256)
        top, left = chance.randrange(height), chance.randrange(width)
        for y in range(top, min(height, top + 12)):
            end = min(width, left + 12)
            samples[y * width + left:y * width + end] = bytes([200]) * (end - left)
        yield bytes(samples)


SIZES = [
    (16, 16), (17, 33), (1, 1), (64, 48), (80, 64), (33, 17), (96, 80), (47, 65), (112, 97), (2, 50), (50, 3), (128, 64), (31, 16), (144, 112),
    (16, 15), (175, 143), (90, 18), (64, 64), (24, 96), (176, 144),
]


def make_clips(folder, other):
    """Twenty clips of all kinds, by name and sides."""
    clips = []
    for number, (width, height) in enumerate(SIZES):
        chance = random.Random(1000 + number)
        path = folder / f"clip-{number}.y4m"
        count = 6 if width * height > 4000 else 9
        if number % 4 == 3:
            run([*other, "clip", number + 1, count, width, height, path])
        elif number % 4 == 2:
            write_clip(path, width, height, cutting(chance, width, height, count, chance.choice([0, 6, 40])))
        else:
            write_clip(path, width, height, moving(chance, width, height, count, chance.choice([0, 6, 40]), chance.choice([1, 3, 9])))
        clips.append((path, width, height))
    return clips


# ---- Streams


class Stream:
    """A stream in our profile, with what others say of it: pictures by the name of who gave them, and digests of its states."""

    def __init__(self, name, ivf, digests=None, **pictures):
        self.name, self.ivf, self.digests, self.pictures = name, ivf, digests, pictures


def digests(other, ivf):
    path = ivf.with_suffix(".digests")
    path.write_bytes(run([*other, "digest", ivf]))
    return path


def peer_streams(folder, other, clips):
    """Streams that the other program makes, with its picture of each frame."""
    for number, (clip, _, _) in enumerate(clips):
        chance = random.Random(2000 + number)
        for codec in ("vp8", "regions"):
            for q in sorted({chance.choice([0, 1, 5, 12]), chance.choice([20, 40, 63]), chance.choice([80, 110, 127])}):
                ivf = folder / f"{clip.stem}-{codec}-{q}.ivf"
                run([*other, "encode-ivf", clip, ivf, q, "--codec", codec])
                yield Stream(ivf.stem, ivf, digests(other, ivf), peer=Path(f"{ivf}.recon.y4m"))


def key_streams(folder, other, clips):
    """Key frames alone, of 50 clips and quantisers."""
    chance = random.Random(3000)
    for number in range(50):
        clip = clips[number % len(clips)][0]
        q = chance.choice([0, 127, chance.randrange(128)])
        ivf = folder / f"{clip.stem}-keys-{number}-{q}.ivf"
        run([*other, "encode-ivf", clip, ivf, q, "--key-every", 1, "--codec", ["vp8", "regions"][number // 25]])
        yield Stream(ivf.stem, ivf, digests(other, ivf), peer=Path(f"{ivf}.recon.y4m"))


STREAMS = peer.SOURCES / "vectors" / "streams"


def vector_streams(folder, other):
    """Streams that lie beside the other program's sources: sign biases, copies, segments of all kinds, hidden frames."""
    for ivf in sorted(STREAMS.glob("*.ivf")):
        out = folder / f"{ivf.stem}.y4m"
        run([*other, "decode-ivf", ivf, out])
        yield Stream(ivf.stem, ivf, ivf.with_suffix(".digests"), peer=out)


GOOD = ["--good", "--cpu-used=1"]
FAST = ["--rt", "--cpu-used=-6", "--lag-in-frames=0"]
LAG = ["--passes=2", "--auto-alt-ref=1"]
RATE = ["--end-usage=cbr", "--buf-sz=500", "--buf-initial-sz=300", "--buf-optimal-sz=400"]
# Names, sides, pictures, and the options of vpxenc.
OPTIONS = [
    ("parts-1", 176, 144, 8, [*FAST, "--token-parts=0"]),
    ("parts-2", 176, 144, 8, [*GOOD, "--token-parts=1"]),
    ("parts-4", 175, 143, 8, [*FAST, "--token-parts=2"]),
    ("parts-8", 160, 208, 8, [*GOOD, "--token-parts=3"]),
    ("parts-8-small", 33, 17, 8, [*FAST, "--token-parts=3"]),
    ("alternative", 96, 80, 40, [*LAG, "--good", "--cpu-used=0", "--lag-in-frames=16", "--arnr-maxframes=7", "--arnr-strength=5", "--arnr-type=3"]),
    ("alternative-fast", 128, 96, 40, ["--good", "--cpu-used=4", "--passes=1", "--auto-alt-ref=1", "--lag-in-frames=25", "--min-q=10"]),
    ("alternative-best", 64, 64, 30, [*LAG, "--best", "--lag-in-frames=10", "--target-bitrate=60"]),
    ("resilient-1", 112, 97, 12, [*FAST, "--error-resilient=1"]),
    ("resilient-2", 96, 80, 12, [*FAST, "--error-resilient=2", "--token-parts=1"]),
    ("resilient-3", 64, 48, 12, [*GOOD, "--error-resilient=3", "--token-parts=2"]),
    ("sharpness-3", 96, 80, 10, [*GOOD, "--sharpness=3"]),
    ("sharpness-5", 80, 64, 10, [*FAST, "--sharpness=5"]),
    ("sharpness-7", 96, 80, 10, [*GOOD, "--sharpness=7", "--min-q=40"]),
    ("static", 128, 96, 12, [*FAST, "--static-thresh=2000"]),
    ("static-low", 96, 80, 12, [*GOOD, "--static-thresh=100"]),
    ("noise-1", 96, 80, 12, [*FAST, "--noise-sensitivity=1"]),
    ("noise-4", 112, 97, 12, [*FAST, "--noise-sensitivity=4"]),
    ("noise-6", 96, 80, 12, [*GOOD, "--noise-sensitivity=6"]),
    ("rate-low", 176, 144, 20, [*FAST, *RATE, "--target-bitrate=20", "--min-q=20", "--max-q=63"]),
    ("rate-high", 112, 97, 8, [*FAST, *RATE, "--target-bitrate=8000", "--min-q=0"]),
    ("rate-changing", 96, 80, 24, [*GOOD, "--end-usage=vbr", "--target-bitrate=100", "--undershoot-pct=90", "--drop-frame=30"]),
    ("finest", 64, 48, 6, [*GOOD, "--min-q=0", "--max-q=0"]),
    ("coarsest", 176, 144, 8, [*FAST, "--min-q=63", "--max-q=63"]),
    ("odd-1-1", 1, 1, 8, FAST),
    ("odd-17-33", 17, 33, 10, GOOD),
    ("odd-3-61", 3, 61, 10, GOOD),
    ("odd-95-7", 95, 7, 10, FAST),
    ("odd-143-81", 143, 81, 8, ["--best", "--passes=1"]),
    ("keys-1", 64, 48, 6, [*FAST, "--kf-max-dist=0"]),
    ("keys-2", 96, 80, 10, [*FAST, "--kf-max-dist=2"]),
    ("keys-5", 80, 64, 16, [*GOOD, "--kf-max-dist=5", "--kf-min-dist=0"]),
    ("screen-1", 128, 96, 12, [*FAST, "--screen-content-mode=1"]),
    ("screen-2", 96, 80, 12, [*FAST, "--screen-content-mode=2", *RATE, "--target-bitrate=60"]),
    ("tuned", 96, 80, 8, [*GOOD, "--tune=ssim"]),
    ("fastest", 176, 144, 12, ["--rt", "--cpu-used=16", "--lag-in-frames=0", "--token-parts=1"]),
    ("slowest", 80, 64, 8, ["--best", "--passes=2", "--lag-in-frames=0"]),
    ("largest", 1280, 720, 4, [*FAST, "--token-parts=3"]),
]


def make_source(clip, source, width, height, count):
    """A clip of one of ffmpeg's sources."""
    run([*FFMPEG, "-f", "lavfi", "-i", f"{source}=size={width}x{height}:rate=30", "-frames:v", count, "-pix_fmt", "yuv420p", "-y", clip])


def real_streams(folder, other, options):
    """Streams of vpxenc rewritten for our profile, with the pictures that vpxdec and ffmpeg give of them before that."""
    for number, (name, width, height, count, words) in enumerate(options):
        chance = random.Random(4000 + number)
        clip, ivf, ours = folder / f"{name}.y4m", folder / f"{name}-standard.ivf", folder / f"{name}.ivf"
        if width * height > 100_000:
            make_source(clip, "mandelbrot", width, height, count)
        elif number % 3 == 0:
            write_clip(clip, width, height, cutting(chance, width, height, count, chance.choice([0, 10])))
        else:
            write_clip(clip, width, height, moving(chance, width, height, count, chance.choice([0, 10, 30]), chance.choice([1, 3, 7])))
        run([*VPXENC, *words, "-o", ivf, clip])
        run([*other, "profile-ivf", ivf, ours])
        pictures = {}
        for decoder, command in decoders(ivf):
            out = folder / f"{name}.{decoder}"
            run([*command, out])
            pictures[decoder] = out
        yield Stream(name, ours, digests(other, ours), **pictures)


def decoders(ivf):
    """Who else decodes the standard's streams, without the name of the file that they write."""
    yield "vpxdec", ["vpxdec", "--codec=vp8", "--threads=1", "--rawvideo", "--i420", ivf, "-o"]
    yield "ffmpeg", [*FFMPEG, "-c:v", "vp8", "-i", ivf, "-f", "rawvideo", "-pix_fmt", "yuv420p", "-fps_mode", "passthrough", "-y"]


# ---- Comparisons


def compare(harness, streams):
    """How many comparisons there were, of how many frames, and how many differ."""
    count = differences = frames = 0
    for stream in streams:
        for decoder, pictures in stream.pictures.items():
            count += 1
            try:
                words = [str(harness), "check", str(stream.ivf), str(pictures), *([str(stream.digests)] if stream.digests else [])]
                done = subprocess.run(words, stdin=subprocess.DEVNULL, capture_output=True, timeout=LIMIT)
                text = done.stdout.decode("utf-8", "replace").strip() or f"status {done.returncode}"
            except subprocess.TimeoutExpired:
                done, text = None, f"no end within {LIMIT} s"
            if done is None or done.returncode != 0:
                differences += 1
                if differences <= 20:
                    say(f"stream {stream.name} beside {decoder}: {text}")
                    keep(stream, pictures)
            else:
                frames += int(text.split()[0])
    return count, frames, differences


KEPT = []


def keep(stream, pictures):
    """Keeps the files of the first few differences."""
    if len(KEPT) < 3:
        folder = Path(tempfile.mkdtemp(prefix="difference-"))
        KEPT.append(folder)
        for file in (stream.ivf, pictures, stream.digests):
            if file is not None:
                shutil.copy(file, folder)
        say(f"its files are in {folder}")


def cut_stream(path, out, count):
    """The first frames of an IVF file."""
    data, at = path.read_bytes(), 32
    for _ in range(count):
        if at + 12 <= len(data):
            at += 12 + struct.unpack_from("<I", data, at)[0]
    out.write_bytes(data[:at])
    return out


def mutation_streams(folder, other, real):
    """Short streams of small pictures, of as many kinds as there are."""
    kinds = [(48, 48, 10, "vp8"), (33, 17, 60, "regions"), (64, 32, 110, "vp8"), (17, 49, 30, "regions"), (16, 16, 0, "vp8")]
    for number, (width, height, q, codec) in enumerate(kinds):
        chance = random.Random(5000 + number)
        clip, ivf = folder / f"short-{number}.y4m", folder / f"short-{number}.ivf"
        write_clip(clip, width, height, moving(chance, width, height, 5, 20, 4))
        run([*other, "encode-ivf", clip, ivf, q, "--codec", codec])
        yield ivf
    for stream in vector_streams(folder, other):
        if not stream.name.startswith("real"):
            yield cut_stream(stream.ivf, folder / stream.ivf.name, 6)
    if real:
        chosen = ["parts-2", "parts-8", "alternative", "resilient-3", "sharpness-5", "noise-4", "rate-low", "keys-2", "finest", "odd-95-7", "screen-2"]
        changed = [(f"short-{name}", width // 2, height // 2, min(count, 22), words) for name, width, height, count, words in OPTIONS if name in chosen]
        for stream in real_streams(folder, other, changed):
            # The end of a stream with a lag has the frames that aren't shown.
            yield stream.ivf if "alternative" in stream.name else cut_stream(stream.ivf, stream.ivf.with_suffix(".cut.ivf"), 6)


def mutate(harness, folder, other, streams, options):
    words = [harness, "mutate", folder, options.seed, options.mutation, options.mutations, options.jobs, *other, "--", *streams]
    began = time.monotonic()
    try:
        done = subprocess.run([str(word) for word in words], stdin=subprocess.DEVNULL, capture_output=True, timeout=60 + options.mutations / 10)
    except subprocess.TimeoutExpired:
        say("mutations: no end in time")
        return 1
    text = done.stdout.decode("utf-8", "replace").strip() or f"status {done.returncode}: {done.stderr[-500:].decode('utf-8', 'replace')}"
    if done.returncode != 0:
        kept = Path(tempfile.mkdtemp(prefix="difference-"))
        for file in folder.glob("difference-*.ivf"):
            shutil.copy(file, kept)
        say(f"mutations:\n{text}")
        say(f"the streams are in {kept}; --seed {options.seed} --mutation N --mutations 1 tries one again")
        return 1
    say(f"{options.mutations} mutations of {len(streams)} streams, each answered as the other program does ({text}; {time.monotonic() - began:.0f} s)")
    return 0


# ---- Measurements


def own_costs(words, out, limit=900):
    """Instructions of a run, by the function that they stand in."""
    counting = ["valgrind", "--tool=callgrind", f"--callgrind-out-file={out}"]
    run([*counting, *words], limit=limit)
    costs, names, function, called = Counter(), {}, None, False
    for line in out.read_text(errors="replace").splitlines():
        if line.startswith(("fn=", "cfn=")):
            # A name stands beside its number once, where that comes first.
            number, _, name = line.partition("=")[2].partition(" ")
            names.setdefault(number, name)
            function = names[number] if line[0] == "f" else function
        elif line.startswith("calls="):
            # The next line has the cost of what is called.
            called = True
        elif line and line[0] in "0123456789+-*":
            if not called:
                costs[function] += int(line.split()[1])
            called = False
    return costs


def user_seconds(words):
    child = subprocess.Popen([str(word) for word in words], stdin=subprocess.DEVNULL, stdout=subprocess.DEVNULL, stderr=subprocess.DEVNULL)
    _, status, used = os.wait4(child.pid, 0)
    child.returncode = os.waitstatus_to_exitcode(status)
    if child.returncode != 0:
        raise RuntimeError(f"{words} ended with status {child.returncode}")
    return used.ru_utime


def measured(harness, ours, standard):
    """The decoders with the words that decode the first pictures of a stream, apart from their number."""
    yield "ours", lambda count: [harness, "run", ours, count, 1]
    for name, flags in (("ffmpeg", []), ("ffmpeg -cpuflags 0", ["-cpuflags", "0"])):
        yield name, lambda count, flags=flags: [*FFMPEG, *flags, "-c:v", "vp8", "-i", standard, "-frames:v", count, "-f", "null", "-"]
    yield "vpxdec", lambda count: ["vpxdec", "--codec=vp8", "--noblit", "--threads=1", f"--limit={count}", standard]


CLIPS = ["testsrc2", "mandelbrot", "generated"]
WIDTH, HEIGHT = 1280, 720
SAMPLES = WIDTH * HEIGHT


def row(name, kind, decoder, milliseconds, instructions):
    print(f"| {name} | {kind} | {decoder} | {milliseconds} | {instructions / 1e6:.2f} | {instructions / SAMPLES:.1f} |", flush=True)


def measure(harness, folder, other, clips):
    """A table on standard output: each number is of one more picture, the start left out. Then where ours has its instructions."""
    functions = {}
    print("| clip | frames | decoder | ms/picture | million instructions/picture | per luma sample |\n|---|---|---|---|---|---|")
    for name in clips:
        clip = folder / f"{name}.y4m"
        if name == "generated":
            run([*other, "clip", 1, 24, WIDTH, HEIGHT, clip])
        else:
            make_source(clip, name, WIDTH, HEIGHT, 24)
        for kind, distance in (("key", 0), ("inter", 9999)):
            standard, ours = folder / f"{name}-{kind}-standard.ivf", folder / f"{name}-{kind}.ivf"
            run([*VPXENC, "--rt", "--cpu-used=-8", "--lag-in-frames=0", "--auto-alt-ref=0", "--end-usage=q", "--cq-level=32", "--min-q=32", "--max-q=32",
                 f"--kf-max-dist={distance}", "-o", standard, clip])
            run([*other, "profile-ivf", standard, ours], limit=600)
            for decoder, words in measured(harness, ours, standard):
                few, many, most = 2, 4, 24
                each = own_costs(words(many), folder / "callgrind")
                each.subtract(own_costs(words(few), folder / "callgrind"))
                seconds = (min(user_seconds(words(most)) for _ in range(3)) - min(user_seconds(words(few)) for _ in range(3))) / (most - few)
                row(name, kind, decoder, f"{1000 * seconds:.2f}", sum(each.values()) / (many - few))
                if decoder == "ours":
                    hashing = sum(cost for function, cost in each.items() if "sha2::" in function)
                    row(name, kind, "ours, hashing apart", "", (sum(each.values()) - hashing) / (many - few))
                    functions[name, kind] = [(function, cost / (many - few) / SAMPLES) for function, cost in each.most_common(11)]
    print("\nInstructions per luma sample of ours, by function:\n")
    for (name, kind), costs in functions.items():
        print(f"- {name}, {kind}: " + ", ".join(f"{function} {cost:.1f}" for function, cost in costs))


def build_library():
    """Proves what isn't proved yet, and builds the static library. Whether that went well."""
    began = time.monotonic()
    done = subprocess.run(["rt", "lib"], cwd=CRATE, stdin=subprocess.DEVNULL, capture_output=True, timeout=3600)
    if done.returncode != 0:
        say(f"rt lib in {CRATE.name} ended with status {done.returncode}: {done.stdout[-500:].decode('utf-8', 'replace')}")
    elif time.monotonic() - began > 60:
        say(f"the static library took {time.monotonic() - began:.0f} s to prove and build")
    return done.returncode == 0


def link_words(library):
    """What the compiler is told of a static library; with it goes what the toolchain's allocator calls of C."""
    words = ["-L", f"native={library.parent}", "-l", f"static:+verbatim={library.name}"]
    if shutil.which("rt") is not None:
        c = Path(run(["rt", "doc"]).decode().strip()).parent / "c" / "liblibc_c.a"
        words += ["-L", f"native={c.parent}", "-l", f"static:+verbatim={c.name}"] if c.exists() else []
    return words


def build(folder, library):
    """The harness over a static library."""
    harness = folder / "harness"
    run([*RUSTC, HARNESS, "-o", harness, *link_words(library)], limit=300)
    return harness


def at_least_one(word):
    if int(word) < 1:
        raise argparse.ArgumentTypeError("from 1 on")
    return int(word)


def main():
    arguments = argparse.ArgumentParser(description=__doc__, formatter_class=argparse.RawDescriptionHelpFormatter)
    arguments.add_argument("--mutations", type=at_least_one, default=5000, help="how many mutations are tried; 100000 is the whole")
    arguments.add_argument("--mutation", type=int, default=0, help="the number of the first one")
    arguments.add_argument("--seed", type=int, default=1, help="of the mutations")
    arguments.add_argument("--jobs", type=at_least_one, default=2, help="how many mutations are tried at once")
    arguments.add_argument("--library", type=Path, default=LIBRARY, help="another static library with the same function")
    arguments.add_argument("--measure", action="store_true", help="milliseconds and instructions, and no comparison")
    arguments.add_argument("--clip", choices=CLIPS, action="append", help="these clips alone, for --measure")
    arguments.add_argument("--only", choices=PARTS, action="append", help="these comparisons alone")
    arguments.add_argument("--build", action="store_true", help="prove and build the static library first")
    options = arguments.parse_args()
    other = peer.program()
    if options.build and other is not None and shutil.which("rt") is not None and not build_library():
        return 1
    if not options.library.exists() and options.library != LIBRARY:
        say(f"{options.library} isn't there")
        return 1
    for missing, what in ((other is None, peer.missing()), (shutil.which("rustc") is None, "rustc isn't here"),
                          (not options.library.exists(), f"{LIBRARY.relative_to(peer.ROOT)} isn't built (`rt lib` in its crate builds it)")):
        if missing:
            say(f"skipped, {what}")
            return peer.SKIPPED
    absent = [tool for tool in ("vpxenc", "vpxdec", "ffmpeg") if shutil.which(tool) is None]
    if options.measure and (absent or shutil.which("valgrind") is None):
        say(f"skipped, {', '.join(absent or ['valgrind'])} isn't here")
        return peer.SKIPPED
    folder = Path(tempfile.mkdtemp(prefix="decoder-"))
    try:
        harness = build(folder, options.library.resolve())
        if options.measure:
            measure(harness, folder, other, options.clip or CLIPS)
            return 0
        return comparisons(harness, folder, other, absent, options)
    finally:
        shutil.rmtree(folder, ignore_errors=True)


PARTS = ["peer", "keys", "real", "mutations"]


def comparisons(harness, folder, other, absent, options):
    """The parts that were asked for: 1 where one fails, the status of what is skipped where all are, and else 0."""
    wanted = options.only or PARTS
    began = time.monotonic()
    clips = make_clips(folder, other) if "peer" in wanted or "keys" in wanted else []
    # What each compares, and what it lacks.
    parts = [("peer", "streams of the other program", "", lambda: peer_streams(folder, other, clips)),
             ("peer", "streams beside the other program", "" if STREAMS.is_dir() else str(STREAMS), lambda: vector_streams(folder, other)),
             ("keys", "streams of key frames", "", lambda: key_streams(folder, other, clips)),
             ("real", "streams of vpxenc", ", ".join(absent), lambda: real_streams(folder, other, OPTIONS))]
    failed = tried = 0
    for word, what, lack, streams in parts:
        if word not in wanted:
            continue
        if lack:
            say(f"{what}: skipped, {lack} isn't here")
            continue
        count, frames, differences = compare(harness, streams())
        tried += 1
        # A part without comparisons shows nothing.
        failed += differences or not frames
        say(f"{what}: {count} comparisons of {frames} frames, {differences} differ ({time.monotonic() - began:.0f} s)")
    if "mutations" in wanted:
        for lack in [*absent, *([] if STREAMS.is_dir() else [STREAMS])]:
            say(f"mutations: of fewer kinds of streams, since {lack} isn't here")
        tried += 1
        failed += mutate(harness, folder, other, list(mutation_streams(folder, other, not absent)), options)
    return 1 if failed else 0 if tried else peer.SKIPPED


if __name__ == "__main__":
    sys.exit(main())

#!/usr/bin/env bash
# What ffmpeg writes of clips of many sizes and rates goes through the built program by pipes and is read again by ffmpeg, sample for
# sample, and by vpxenc where that is here; what isn't read of other forms is refused by name. Skipped with status 77 where ffmpeg or the
# built program isn't here.
set -u
cd "$(dirname "${BASH_SOURCE[0]}")/.." || exit 1
root=$PWD
program=$root/crates/salsify/out/salsify
if ! command -v ffmpeg >/dev/null; then
    echo "ffmpeg: skipped, ffmpeg isn't here"
    exit 77
fi
if [ ! -x "$program" ]; then
    echo "ffmpeg: skipped, crates/salsify/out/salsify isn't built (./salsify --prove builds it)"
    exit 77
fi
./salsify --fresh || { echo "ffmpeg: crates/salsify/out/salsify isn't built from these sources (./salsify --prove builds it)"; exit 1; }
folder=$(mktemp -d) || exit 1
trap 'rm -rf "$folder"' EXIT
cd "$folder" || exit 1
passed=0 failed=0
count() {
    if [ -z "$2" ]; then
        passed=$((passed + 1))
    else
        failed=$((failed + 1))
        echo "ffmpeg: $1: $2"
    fi
}
# A clip of these sides, rate and number of pictures, in this format, as ffmpeg writes it to a pipe.
clip() { ffmpeg -nostdin -loglevel error -f lavfi -i "testsrc2=size=320x240:rate=$3" -frames:v "$4" -vf "scale=$1:$2${6:-}" -pix_fmt "$5" -strict -1 -f yuv4mpegpipe - 2>/dev/null; }
# The samples of a clip.
samples() { ffmpeg -nostdin -loglevel error -i "$1" -f rawvideo -pix_fmt yuv420p - 2>/dev/null; }

printf 'rest\n' >script
# Sides, rate, pictures.
while read -r width height rate pictures; do
    what="$pictures pictures of $width by $height at $rate"
    clip "$width" "$height" "$rate" "$pictures" yuv420p >in.y4m
    timeout 60 "$program" loop /dev/stdin script out.y4m <in.y4m >said 2>&1
    status=$?
    if [ $status -ne 0 ]; then
        count "$what" "status $status: $(head -c 200 said)"
        continue
    fi
    samples in.y4m >in.raw
    samples out.y4m >out.raw
    if [ ! -s in.raw ]; then
        count "$what" "ffmpeg gave no samples"
    elif ! cmp -s in.raw out.raw; then
        count "$what" "what was shown isn't what ffmpeg gave: $(tr '\n' ' ' <said)"
    elif ! head -n 1 out.y4m | grep -q " F${rate/\//:} "; then
        count "$what" "the rate is lost: $(head -n 1 out.y4m)"
    elif command -v vpxenc >/dev/null && ! vpxenc --codec=vp8 --quiet -o out.webm out.y4m 2>said; then
        count "$what" "vpxenc doesn't read it: $(head -c 200 said)"
    else
        count "$what" ""
    fi
done <<'SIZES'
1 1 25/1 3
2 2 25/1 3
3 5 30/1 3
5 3 24/1 2
16 1 25/1 3
1 16 25/1 3
16 16 25/1 9
17 16 25/1 4
16 17 25/1 4
17 33 30000/1001 3
31 31 60/1 5
32 24 15/1 12
33 47 12/1 3
48 48 50/1 4
64 48 25/1 8
64 64 1/1 2
80 45 24000/1001 4
96 96 10/1 3
100 75 25/1 3
112 112 30/1 6
128 112 30/1 3
SIZES

# Forms that are refused, by their letters.
refused() {
    timeout 60 "$program" loop /dev/stdin script out.y4m <in.y4m >said 2>&1
    local status=$?
    if [ $status -ne 3 ] || ! grep -q "^bad input /dev/stdin at byte [0-9]*: $2\$" said; then
        count "$1" "status $status: $(head -c 200 said)"
    else
        count "$1" ""
    fi
}
clip 32 32 25/1 2 yuv444p >in.y4m
refused "4:4:4" colour
clip 32 32 25/1 2 yuv422p >in.y4m
refused "4:2:2" colour
clip 32 32 25/1 2 gray >in.y4m
refused "luma alone" colour
clip 32 32 25/1 2 yuv420p10le >in.y4m
refused "ten bits" colour
clip 32 32 25/1 4 yuv420p ",tinterlace=mode=interleave_top" >in.y4m
refused "an interlaced clip" interlace
clip 1282 32 25/1 1 yuv420p >in.y4m
refused "too wide" side

echo "ffmpeg: $passed passed, $failed failed"
[ "$failed" -eq 0 ]

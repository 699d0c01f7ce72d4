#!/usr/bin/env bash
# Runs the built program on real files: grey pictures of 16 by 16, the example clip, and once to each status that files can bring about.
# It ends with status 77 where the program isn't built, and with 1 where a run ends otherwise than it must.
set -u
root=$(cd "$(dirname "${BASH_SOURCE[0]}")/.." && pwd)
program=$root/crates/salsify/out/salsify
[ -x "$program" ] || { echo "example: skipped, crates/salsify/out/salsify isn't built (./salsify --prove builds it)"; exit 77; }
"$root/salsify" --fresh || { echo "example: crates/salsify/out/salsify isn't built from these sources (./salsify --prove builds it)"; exit 1; }
folder=$(mktemp -d) || exit 1
trap 'rm -rf "$folder"' EXIT
cd "$folder" || exit 1
clip=$root/examples/first.y4m
passed=0 failed=0

# Counts a case: its name and, where it failed, why.
count() {
    if [ -z "$2" ]; then
        passed=$((passed + 1))
    else
        failed=$((failed + 1))
        echo "example: $1: $2"
    fi
}

# Whether the program, called by these words, ends with this status and prints this.
ends() {
    local name=$1 wanted=$2 text=$3 status
    shift 3
    timeout 120 "$root/salsify" "$@" >said 2>&1 </dev/null
    status=$?
    count "$name" "$([ $status -eq "$wanted" ] || echo "status $status, and not $wanted")"
    count "$name" "$([ "$(cat said)" = "$text" ] || echo "it printed '$(cat said)', and not '$text'")"
}

# Whether `loop` over a clip and a script ends well, prints these six counts, and OUT is wanted.y4m.
shows() {
    local name=$1 clip=$2 script=$3
    shift 3
    rm -f out.y4m
    ends "$name" 0 "$(printf 'pictures %d\nchosen %d\nnothing %d\nkeys %d\ndatagrams %d\nshown %d' "$@")" loop "$clip" "$script" out.y4m
    count "$name" "$(cmp out.y4m wanted.y4m 2>&1)"
}

# A picture of 16 by 16 of this luma and grey chroma, after its line.
picture() {
    printf 'FRAME\n'
    head -c 256 /dev/zero | tr '\0' "\\$(printf %o "$1")"
    head -c 128 /dev/zero | tr '\0' '\200'
}
read_clip() { printf 'YUV4MPEG2 W16 H16\n'; for luma in "$@"; do picture "$luma"; done; }
shown_clip() { printf 'YUV4MPEG2 W16 H16 F30:1 Ip A0:0 C420jpeg\n'; for luma in "$@"; do picture "$luma"; done; }

read_clip 128 >in.y4m
printf 'next\ndown 1\n' >script
shown_clip 128 >wanted.y4m
shows "one picture" in.y4m script 1 1 0 1 1 1

# The second picture is lost, and the sixth is made from the first, which was acknowledged.
read_clip 128 100 72 44 90 60 >in.y4m
shown_clip 128 60 >wanted.y4m
shows "a loss" in.y4m "$root/examples/first.script" 6 6 0 1 6 2
cp "$root/examples/first.shown.y4m" wanted.y4m
shows "a loss in the example clip" "$clip" "$root/examples/first.script" 6 6 0 1 6 2

# Everything is delivered: the example clip's pictures after the header of 18 bytes, behind the header that is written.
printf 'rest\n' >script
{ printf 'YUV4MPEG2 W32 H24 F30:1 Ip A0:0 C420jpeg\n'; tail -c +19 "$clip"; } >wanted.y4m
shows "the whole example clip" "$clip" script 6 6 0 1 6 6

# A header of another program: its rate is written, and the text of a line before a picture is skipped.
{ printf 'YUV4MPEG2 W16 H16 F25:1 Ip A1:1 C420jpeg XYSCSS=420JPEG\nFRAME Ip\n'; head -c 384 /dev/zero; } >in.y4m
{ printf 'YUV4MPEG2 W16 H16 F25:1 Ip A0:0 C420jpeg\nFRAME\n'; head -c 384 /dev/zero; } >wanted.y4m
shows "a header of another program" in.y4m script 1 1 0 1 1 1

# Wide pictures, high ones and many of them are all shown.
grey_clip() { printf 'YUV4MPEG2 W%d H%d\n' "$1" "$2"; for ((n = 0; n < $4; n++)); do printf 'FRAME\n'; head -c "$3" /dev/zero; done; }
for sides in "641 9 8979 3 24" "1280 8 15360 3 39" "2 720 2160 3 6" "16 16 384 130 130"; do
    read -r width height samples count datagrams <<<"$sides"
    grey_clip "$width" "$height" "$samples" "$count" >in.y4m
    { printf 'YUV4MPEG2 W%d H%d F30:1 Ip A0:0 C420jpeg\n' "$width" "$height"; tail -n +2 in.y4m; } >wanted.y4m
    shows "$count pictures of $width by $height" in.y4m script "$count" "$count" 0 1 "$datagrams" "$count"
done

# Each status but 0, which the runs above ended with, and 1, which is the launcher's own.
usage="usage: salsify loop, send, receive, check or generate"
ends "no words" 2 "$usage"
ends "three words" 2 "$usage" loop "$clip" script
printf 'YUV4MPEG2 W0 H16\n' >bad.y4m
ends "a side of 0" 3 "bad input bad.y4m at byte 10: side" loop bad.y4m script out.y4m
printf 'YUV4MPEG2 W16\n' >bad.y4m
ends "no height" 3 "bad input bad.y4m at byte 13: missing" loop bad.y4m script out.y4m
printf 'YUV4MPEG2 W16 H16 It\n' >bad.y4m
ends "an interlaced clip" 3 "bad input bad.y4m at byte 18: interlace" loop bad.y4m script out.y4m
head -c 6000 "$clip" >bad.y4m
ends "a clip that is cut" 3 "bad input bad.y4m at byte 6000: cut" loop bad.y4m script out.y4m
printf 'nex\n' >bad.script
ends "a bad line" 4 "bad script at line 1" loop "$clip" bad.script out.y4m
printf 'next\ndown 2\n' >bad.script
ends "a datagram that wasn't sent" 4 "bad script at line 2" loop "$clip" bad.script out.y4m
ends "a folder as IN" 6 "read fault ." loop . script out.y4m
ends "a folder as SCRIPT" 6 "read fault ." loop "$clip" . out.y4m
ends "no room for OUT" 7 "write fault /dev/full" loop "$clip" script /dev/full
# No room for what is printed: OUT is whole, and Ok becomes a fault of the screen.
timeout 120 "$program" loop "$clip" script out.y4m >/dev/full 2>said </dev/null
status=$?
count "no room for the text" "$([ $status -eq 7 ] || echo "status $status, and not 7")"
ends "no IN" 8 "open fault missing" loop missing script out.y4m
ends "no SCRIPT" 8 "open fault missing" loop "$clip" missing out.y4m
ends "a folder as OUT" 8 "open fault ." loop "$clip" script .

# 777 pictures of 1,382,400 bytes, the last of which passes 1,073,741,824.
: >empty.script
long_clip() {
    printf 'YUV4MPEG2 W1280 H720\n'
    # It goes on only as long as it is read.
    for _ in {1..777}; do
        printf 'FRAME\n' || break
        head -c 1382400 /dev/zero || break
    done
}
ends "too many bytes" 11 "too long" loop <(long_clip 2>/dev/null) empty.script out.y4m

# 1,048,576 pictures of 1 by 1: two samples and, as the third, the end of the line.
{ printf 'YUV4MPEG2 W1 H1\n'; yes $'FRAME\nyu' | head -n 2097152; } >many.y4m
ends "too many pictures" 12 "too many" loop many.y4m empty.script out.y4m

# 2,396,745 lines, which 32 MiB of memory have no room for. The program is called by itself, so that it alone has no more.
yes 'wait 0' | head -n 2396745 >long.script
(ulimit -v 32768 && timeout 120 "$program" loop "$clip" long.script out.y4m) >said 2>&1
status=$?
count "no memory" "$([ $status -eq 15 ] || echo "status $status, and not 15")"
count "no memory" "$([ "$(cat said)" = "no memory" ] || echo "it printed '$(cat said)'")"

echo "example: $passed passed, $failed failed"
[ $failed -eq 0 ]

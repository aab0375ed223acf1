#!/bin/bash
# Times the archive against the walk in hand-written Rust (walk.rs) and prints a table; the same of saving (save.rs); then how the cost of a pick grows
# with the recording.
# Its output is in target/bench. Needs rustc and valgrind. Takes some two minutes, the proof of the archive not counted.
set -euo pipefail
cd "$(dirname "$0")/.."
archive=target/nookmallow/libnookmallow.a
if [ ! -f "$archive" ] || [ -n "$(find crates -name '*.rt' -newer "$archive" -print -quit)" ]; then
    make lib
fi
mkdir -p target/bench
speed=target/bench/speed
rustc -C opt-level=3 --edition 2021 bench/speed.rs -L target/nookmallow -o "$speed"
"$speed" compare

# Instructions a pick: a run of one turn less a run of none, so that the start and the making of the recording drop out; all of them, and those of them
# that clear memory by the C library's memset. Under valgrind a string instruction counts once for each byte or word it moves, so the C library is told
# to use none.
export GLIBC_TUNABLES=glibc.cpu.x86_rep_stosb_threshold=1000000000:glibc.cpu.x86_rep_movsb_threshold=1000000000
count() {
    valgrind --tool=callgrind --callgrind-out-file=target/bench/callgrind "$speed" "$@" >/dev/null 2>&1
    callgrind_annotate --threshold=100 target/bench/callgrind |
        awk '{ n = $1; gsub(",", "", n) } /PROGRAM TOTALS/ { all = n } /memset/ { clear += n } END { print all + 0, clear + 0 }'
}
instructions() { # SIDE MEASURE RECORDING MODE
    local picks=1024 one none
    one=($(count "$@" $picks 1))
    none=($(count "$@" $picks 0))
    echo $(((one[0] - none[0]) / picks)) $(((one[1] - none[1]) / picks))
}

echo "| Measure | Recording | Mode | ns a pick, archive | ns, Rust | Ratio of time, median | Instructions a pick, archive | of these clearing | Instructions, Rust | of these clearing | Ratio of instructions |"
echo "|---|---|---|---|---|---|---|---|---|---|---|"
"$speed" times >target/bench/times
while read -r measure kind mode ours theirs ratio; do
    a=($(instructions archive "$measure" "$kind" "$mode"))
    b=($(instructions rust "$measure" "$kind" "$mode"))
    echo "| $measure | $kind | $mode | $ours | $theirs | $ratio | ${a[0]} | ${a[1]} | ${b[0]} | ${b[1]} | $(awk "BEGIN { printf \"%.2f\", ${a[0]} / ${b[0]} }") |"
done <target/bench/times

echo
echo "| Saved | Bytes a pick | ns a pick, archive | ns, Rust | Ratio of time, median | Instructions a pick, archive | Rust | Ratio of instructions |"
echo "|---|---|---|---|---|---|---|---|"
"$speed" saves >target/bench/saves
while read -r kind ours theirs ratio bytes; do
    a=($(instructions archive 0 "$kind" save))
    b=($(instructions rust 0 "$kind" save))
    of=$(awk "BEGIN { printf \"%.2f\", ${a[0]} / ${b[0]} }")
    echo "| $kind | $bytes | $ours | $theirs | $ratio | ${a[0]} | ${b[0]} | $of |"
done <target/bench/saves

echo
echo "| Measure | Recording | Mode | ns a pick, archive, of 1,024 picks | of 2,048 | of 4,096 |"
echo "|---|---|---|---|---|---|"
"$speed" growth | while read -r measure kind mode x y z; do
    echo "| $measure | $kind | $mode | $x | $y | $z |"
done

#!/usr/bin/env bash
# Times the threads of `tdpmmu live` with 1, 2 and 4 virtual processors, each of which makes as many accesses.
#
#   bench/threads.sh [PROGRAM]            a minute; PROGRAM is another build of tdpmmu
#   bench/threads.sh --short [PROGRAM]    a tenth of the lines
#
# Each makes 200,000 adds to one page of its own, which it has read above `go`, so that its translation is cached; or reads
# 100,000 pages of its own that no one has accessed. The machine is the same for all: 524,288 pages, a pool of 2,048, 16
# virtual processors, of which those without lines end at once. State words of neighbours share a line of the processor's
# cache; of the four that are `apart` two and two share one.
# Printed are seconds of a clock from the start of the first thread to the end of the last one, the least of seven
# measurements, as strace tells them; lines a second; and how many times as many that is as with one. Reading the trace,
# making the machine, and putting the answers in order are no work of these threads. On a machine with fewer processors than
# threads it says little.
# Needs `rt`, strace, awk, nproc and bash.
set -euo pipefail
shopt -s inherit_errexit
top=$(cd "$(dirname "$0")/.." && pwd)
folder=$(mktemp -d)
trap 'rm -rf "$folder"' EXIT
adds=200000
reads=100000
if [ "${1:-}" = --short ]; then
  shift
  adds=20000
  reads=10000
fi
program=${1:-$top/crates/tdpmmu/out/tdpmmu}
[ $# -ge 1 ] || (cd "$top/crates/tdpmmu" && rt run -- replay < stdin > /dev/null 2>&1)

# The trace of these virtual processors, with so many lines each: adds, or reads.
trace() {
  echo 'tdp 1 vcpus 16 workers 0 pages 524288 frames 524288 words 1 pool 2048 cache 64 manual 0 hosts 0'
  echo 'vm slot 0 0 524288 0'
  awk -v list="$1" -v lines="$2" -v kind="$3" 'BEGIN {
    count = split(list, vcpus, " ")
    for (i = 1; kind == "adds" && i <= count; i++) print "v" vcpus[i] " read " (i - 1) * 131072 * 4096
    print "go"
    for (k = 0; k < lines; k++) for (i = 1; i <= count; i++)
      print "v" vcpus[i] (kind == "adds" ? " add " (i - 1) * 131072 * 4096 " 1" : " read " ((i - 1) * 131072 + k) * 4096)
  }'
}

# The least seconds of the threads on the trace, of seven measurements. An access that reaches no frame has done less.
best() {
  for ((round = 0; round < 7; round++)); do
    strace -f -ttt --seccomp-bpf -e trace=clone,clone3,exit -o "$folder/calls" "$program" live < "$folder/trace" > "$folder/printed"
    awk -v wanted="$1" '/ frame / { n++ } END { if (n != wanted) { print "accesses reached no frame" > "/dev/stderr"; exit 1 } }' "$folder/printed"
    awk '/clone/ && !first { first = $2 } /exit\(/ { last = $2 } END { printf "%.3f\n", last - first }' "$folder/calls"
  done > "$folder/seconds"
  sort -n "$folder/seconds" | head -n 1
}

echo "processors: $(nproc)"
for kind in adds reads; do
  lines=$([ $kind = adds ] && echo "$adds" || echo "$reads")
  echo "$lines $([ $kind = adds ] && echo 'adds to a cached page' || echo 'reads of cold pages') each:"
  printf '%12s %8s %13s %6s\n' vcpus seconds lines/second times
  for vcpus in '0' '0 1' '0 1 2 3' '0 5 10 15'; do
    count=$(wc -w <<< "$vcpus")
    trace "$vcpus" "$lines" "$kind" > "$folder/trace"
    seconds=$(best $((count * (lines + ($([ $kind = adds ] && echo 1 || echo 0))))))
    speed=$(awk -v lines=$((count * lines)) -v seconds="$seconds" 'BEGIN { printf "%.0f", lines / seconds }')
    [ "$vcpus" != 0 ] || one=$speed
    name=$([ "$vcpus" = '0 5 10 15' ] && echo '4, apart' || echo "$count")
    awk -v name="$name" -v seconds="$seconds" -v speed="$speed" -v one="$one" 'BEGIN { printf "%12s %8.3f %13d %6.2f\n", name, seconds, speed, speed / one }'
  done
done

#!/usr/bin/env bash
# Times `tdpmmu weave` beside `tdpmmu replay` on one trace without a schedule.
#
#   bench/weave.sh            a million lines, a minute
#   bench/weave.sh --short    100,000 lines, some seconds
#
# Four virtual processors access 16 pages each, of their own, so that both commands
# make the same steps but for the few lines that install the tables: nearly all
# accesses make 4 steps. Rounds make these in turn for the four processors, and a
# replay line by line. The answers have to be the same, in whatever order. Printed
# are seconds of a processor (user and system), the least of five measurements, and
# how many times as much a weave costs: no more than 1.3.
# Needs `rt`, awk and bash.
set -euo pipefail
top=$(cd "$(dirname "$0")/.." && pwd)
folder=$(mktemp -d)
trap 'rm -rf "$folder"' EXIT
bound=1.3
lines=1000000
[ "${1:-}" = --short ] && lines=100000

trace() {
  echo 'tdp 1 vcpus 4 workers 0 pages 4096 frames 4096 words 1 pool 64 cache 64 manual 0 hosts 0'
  echo 'vm slot 0 0 4096 0'
  echo go
  awk -v most="$((lines - 3))" 'BEGIN {
    for (k = 0; k < most; k++) {
      vcpu = k % 4; turn = int(k / 4) % 4
      page = vcpu * 512 + int(k / 7) % 16
      print "v" vcpu (turn < 2 ? " read " : turn == 2 ? " write " : " add ") page * 4096 (turn < 2 ? "" : " " k % 10)
    }
  }'
}

# the least seconds of a processor that a command takes, of five measurements
best() {
  local TIMEFORMAT='%U %S'
  for ((round = 0; round < 5; round++)); do
    { time "$program" "$1" < "$folder/trace" > "$folder/$1"; } 2>&1
  done | awk '{ t = $1 + $2; if (NR == 1 || t < m) m = t } END { print m }'
}

(cd "$top/crates/tdpmmu" && rt run -- replay < stdin > /dev/null 2>&1)
program=$top/crates/tdpmmu/out/tdpmmu
trace > "$folder/trace"
replay=$(best replay)
weave=$(best weave)
sort "$folder/replay" > "$folder/replay.sorted"
sort "$folder/weave" > "$folder/weave.sorted"
cmp "$folder/replay.sorted" "$folder/weave.sorted"
awk -v lines="$lines" -v r="$replay" -v w="$weave" -v bound="$bound" 'BEGIN {
  printf "%d lines: replay %.3f s, weave %.3f s, %.2f times as much: %s %.1f\n", lines, r, w, w / r, (w / r > bound ? "more than" : "not more than"), bound
}'

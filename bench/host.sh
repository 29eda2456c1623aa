#!/usr/bin/env bash
# Times `tdpmmu replay` on a trace of which one line of ten is a host thread's, beside the
# trace without these lines.
#
#   bench/host.sh            a million lines, three to five minutes
#   bench/host.sh --short    100,000 lines, half a minute
#
# Four virtual processors access 4,096 pages: three of four accesses are near, in 16 pages
# of this processor, and one is far, in any page. Each tenth line is by turns `h0 allow` and
# `h0 move` of the page that the line before it accessed: it zaps the leaf, has each processor
# flush, and changes the host word; a move goes to the one frame to spare, and gives the old
# one back. The pages are those of 1 slot and of 32; the machine has 4,096 pages and a
# pool of 14, or 1,048,576 pages and a pool of 16,384. Printed are steps a line,
# nanoseconds a line and nanoseconds a step, and whether a step costs more with host lines
# in the larger machine, or with more slots, than in the smallest one. What is printed has
# to be what `plain_replay` prints.
#
# The steps are counted from the trace by the order of steps (`bench/replay.sh --steps`, and
# `steps` for moves). Times are of a processor (user and system), the least of five
# measurements, without what the program takes to start. Needs `rt`, awk and bash.
set -euo pipefail
top=$(cd "$(dirname "$0")/.." && pwd)
folder=$(mktemp -d)
trap 'rm -rf "$folder"' EXIT
growth=1.3   # the most that a step may cost, over what it costs in the smallest machine
lines=1000000
[ "${1:-}" = --short ] && lines=100000

# The header, with one frame to spare, and the slots: the machine's pages, the pool's pages,
# the slots.
slots() {
  echo "tdp 1 vcpus 4 workers 0 pages $1 frames $(($1 + 1)) words 1 pool $2 cache 64 manual 0 hosts 0"
  for ((id = 0; id < $3; id++)); do
    echo "vm slot $id $((id * 4096 / $3)) $((4096 / $3)) $((id * 4096 / $3))"
  done
}

# So many accesses; where the second word is 1 each tenth line is a host line instead.
lines_of() {
  awk -v most="$1" -v hosts="$2" 'BEGIN {
    for (k = 0; k < most; k++) {
      if (hosts && k % 10 == 9) { print "h0 " (k % 20 == 9 ? "allow " : "move ") page; continue }
      four = int(k / 4); vcpu = (four + int(four / 4096)) % 4
      page = k % 4 == 3 ? four * 1103 % 4096 : vcpu * 16 + (four * 3 + k) % 16
      turn = (k + four) % 4
      print "v" vcpu (turn < 2 ? " read " : turn == 2 ? " write " : " add ") page * 4096 (turn < 2 ? "" : " " k % 10)
    }
  }'
}

# The steps of the trace. A move makes those of an allow; and before it begins it loads the map of
# frames up to the word with the free one, and claims that; it copies a word and stores it; and
# after it has ended it looks at the five other actors, and gives the old frame back.
steps() {
  sed 's/ move / allow /' "$folder/trace" | "$top/bench/replay.sh" --steps | awk '
    NR == FNR { steps = $1; next }
    FNR == 1 { free = $8 }
    $2 == "move" {
      steps += int(free / 64) + 10
      old = $3 in frame ? frame[$3] : $3
      frame[$3] = free; free = old
    }
    END { printf "%.0f\n", steps }' - "$folder/trace"
}

# the least seconds of a processor that a replay takes, of five measurements
best() {
  local TIMEFORMAT='%U %S'
  for ((round = 0; round < 5; round++)); do
    { time "$program" replay < "$folder/trace" > "$folder/machine"; } 2>&1
  done | awk '{ t = $1 + $2; if (NR == 1 || t < m) m = t } END { print m }'
}

# One row: the machine's pages, the pool's pages, the slots, and 1 with host lines.
row() {
  local start machine count
  slots "$1" "$2" "$3" > "$folder/trace"
  start=$(best)
  lines_of "$((lines - 1 - $3))" "$4" >> "$folder/trace"
  machine=$(best)
  "$plain" < "$folder/trace" > "$folder/plain"
  cmp "$folder/machine" "$folder/plain"
  count=$(steps)
  awk -v pages="$1" -v slots="$3" -v hosts="$4" -v lines="$lines" -v steps="$count" -v m="$machine" -v start="$start" -v rows="$folder/rows" 'BEGIN {
    m -= start
    printf "%9d %6d %10s %10.3f %9.1f %9.2f\n", pages, slots, (hosts ? "a tenth" : "none"), steps / lines, m * 1e9 / lines, m * 1e9 / steps
    printf "%d %d %d %.12f\n", pages, slots, hosts, m / steps >> rows
  }'
}

(cd "$top/crates/tdpmmu" && rt run -- replay < stdin > /dev/null 2>&1)
(cd "$top/crates/plain_replay" && rt run < stdin > /dev/null 2>&1)
program=$top/crates/tdpmmu/out/tdpmmu
plain=$top/crates/plain_replay/out/plain_replay
printf '%9s %6s %10s %10s %9s %9s\n' pages slots 'host lines' steps/line ns/line ns/step
for hosts in 0 1; do
  row 4096 14 1 "$hosts"
  row 4096 14 32 "$hosts"
  row 1048576 16384 1 "$hosts"
done
awk -v growth="$growth" '
  $3 { cost[$1, $2] = $4 }
  END {
    slots = cost[4096, 32] / cost[4096, 1]; pages = cost[1048576, 1] / cost[4096, 1]
    printf "a step beside host lines: with 32 slots %.2f times as much as with 1, with 1,048,576 pages %.2f times as much as with 4,096: %s %.1f\n",
      slots, pages, (slots > growth || pages > growth ? "more than" : "not more than"), growth
    exit slots > growth || pages > growth
  }' "$folder/rows"

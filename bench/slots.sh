#!/usr/bin/env bash
# Times `tdpmmu replay` on a trace of which one line of ten sets, moves or deletes a slot.
#
#   bench/slots.sh            100,000 lines, a minute or two
#   bench/slots.sh --short    20,000 lines
#   bench/slots.sh --steps    writes how many steps the trace on standard input takes, and runs nothing
#   bench/slots.sh --trace    writes the trace with 32 slots in the machine of 4,096 pages, and runs nothing
#
# The 4,096 host pages are shared out among 32 IDs, or 4. Each tenth line is of one ID after
# another: where its slot is at home (its guest frames are its host pages) it moves by 4,096
# guest frames, where it is away it is deleted, and where it is deleted it is set at home. The other
# lines are accesses by four virtual processors: of three of four the slot is where it is now,
# and each fourth is of a place that may be empty. The machine has 4,096 pages and a pool of 22,
# or 1,048,576 pages and a pool of 16,384. Printed are steps a line, nanoseconds a line and
# nanoseconds a step, and whether a step costs more in the larger machine, or with more slots.
# What is printed has to be what `plain_replay` prints.
#
# The steps are counted from the trace by the order of steps (`steps`). Times are of a processor
# (user and system), the least of five measurements, without what the program takes to start.
# Needs `rt`, awk and bash.
set -euo pipefail
top=$(cd "$(dirname "$0")/.." && pwd)
folder=$(mktemp -d)
trap 'rm -rf "$folder"' EXIT
growth=1.3   # the most that a step may cost, over what it costs in the smallest machine
lines=100000
[ "${1:-}" = --short ] && lines=20000

# The header, and the slots at home: the machine's pages, the pool's pages, the slots.
slots() {
  echo "tdp 1 vcpus 4 workers 0 pages $1 frames $1 words 1 pool $2 cache 64 manual 0 hosts 0"
  for ((id = 0; id < $3; id++)); do
    echo "vm slot $id $((id * 4096 / $3)) $((4096 / $3)) $((id * 4096 / $3))"
  done
}

# So many lines after these, of so many slots.
lines_of() {
  awk -v most="$1" -v slots="$2" 'BEGIN {
    size = 4096 / slots
    for (k = 0; k < most; k++) {
      if (k % 10 == 9) {
        id = int(k / 10) * 5 % slots
        turns[id] = (turns[id] + 1) % 3
        if (turns[id] == 2) print "vm slot " id " 0 0 0"
        else print "vm slot " id " " id * size + (turns[id] == 1 ? 4096 : 0) " " size " " id * size
        continue
      }
      four = int(k / 4); vcpu = (four + int(four / 4096)) % 4
      page = k % 4 == 3 ? four * 1103 % 4096 : vcpu * 1024 + (four * 3 + k) % 16
      away = k % 4 == 3 ? int(four / 7) % 2 : turns[int(page / size)] == 1
      turn = (k + four) % 4
      print "v" vcpu (turn < 2 ? " read " : turn == 2 ? " write " : " add ") (page + 4096 * away) * 4096 (turn < 2 ? "" : " " k % 10)
    }
  }'
}

# The steps of such a trace: its pool has its free pages below 64, its guest frames are below 2^18, no line is
# refused or starved, and slots are writable. A slot line claims a page, fills its 512 words and its role, takes the lock,
# loads the count, publishes the page, gives the lock back, looks at each other actor, clears the old page's role
# and gives it back. Where the slot is there an invalidation begins before that and ends after the publication: it takes
# the lock, loads the slot set and its words (of a slot of one page up to that slot), and the count, stores the range and the
# count, loads the root, each entry of the range's guest frames, in each table that is there, and zaps each leaf, asks for
# each flush and awaits it, and gives the lock back; the end takes the lock, loads and stores sequence number and count, and
# gives the lock back. What processors have cached is gone.
# An access that finds no slot leaves the guest after the entries that are there, and its fault begins, loads the
# sequence number, the slot set and all its words, and ends. The others are as in bench/replay.sh.
steps() {
  awk '
    function is_cached(vcpu, page) { return (vcpu, page) in filled && filled[vcpu, page] > fills[vcpu] - cache }
    function slot_words(wanted,   id, words) {
      for (id = 0; id < 32; id++) {
        words += id in size ? 4 : 1
        if (id == wanted) break
      }
      return words
    }
    function slot_of(page,   id) {
      for (id in size) if (base[id] <= page && page < base[id] + size[id]) return id
      return -1
    }
    function tables_over(page) { return tables ? 3 + (int(page / 512) in table) : 1 }
    function sweep(id,   span, page, last, loads) {
      last = base[id] + size[id] - 1; loads = 1 + tables
      for (span = int(base[id] / 512); tables && span <= int(last / 512); span++) loads += 1 + (span in table ? covered(id, span) : 0)
      for (page = base[id]; page <= last; page++) if (page in has_leaf) { loads++; delete has_leaf[page] }
      return loads
    }
    function covered(id, span,   from, to) {
      from = base[id] > span * 512 ? base[id] : span * 512
      to = base[id] + size[id] < (span + 1) * 512 ? base[id] + size[id] : (span + 1) * 512
      return to - from
    }
    function fault(page, id,   met) {
      met = tables_over(page)
      tables = 1; table[int(page / 512)]; has_leaf[page]
      return 4 + met + 15 + slot_words(id) + 516 * (4 - met)
    }
    NR == 1 {
      for (i = 1; i < NF; i++) {
        if ($i == "cache") cache = $(i + 1)
        if ($i == "vcpus") vcpus = $(i + 1)
        if ($i == "vcpus" || $i == "workers") others += $(i + 1)
        if ($i == "hosts") others += NF - i
      }
    }
    $1 == "vm" {
      steps += 521 + others
      if ($3 in size) {
        steps += 8 + slot_words(size[$3] == 1 ? $3 : -1) + sweep($3) + 2 * vcpus + 6
        for (v = 0; v < vcpus; v++) fills["v" v] += cache
        if ($5 == 0) delete size[$3]
      }
      if ($5) { base[$3] = $4; size[$3] = $5 }
    }
    $1 ~ /^v[0-9]/ {
      page = int($3 / 4096); id = slot_of(page)
      if (id < 0) { steps += 4 + tables_over(page) + 3 + slot_words(-1) + 1; next }
      if (is_cached($1, page)) { steps += 4; next }
      if (!(page in has_leaf)) steps += fault(page, id)
      steps += 9
      filled[$1, page] = ++fills[$1]
    }
    END { printf "%.0f\n", steps }'
}

if [ "${1:-}" = --steps ]; then
  steps
  exit
fi
if [ "${1:-}" = --trace ]; then
  slots 4096 22 32
  lines_of $((lines - 33)) 32
  exit
fi

# the least seconds of a processor that a replay takes, of five measurements
best() {
  local TIMEFORMAT='%U %S'
  for ((round = 0; round < 5; round++)); do
    { time "$program" replay < "$folder/trace" > "$folder/machine"; } 2>&1
  done | awk '{ t = $1 + $2; if (NR == 1 || t < m) m = t } END { print m }'
}

# One row: the machine's pages, the pool's pages, the slots.
row() {
  local start machine count
  slots "$1" "$2" "$3" > "$folder/trace"
  start=$(best)
  count=$(steps < "$folder/trace")
  lines_of $((lines - 1 - $3)) "$3" >> "$folder/trace"
  machine=$(best)
  "$plain" < "$folder/trace" > "$folder/plain"
  cmp "$folder/machine" "$folder/plain"
  awk -v pages="$1" -v slots="$3" -v lines="$lines" -v first="$count" -v steps="$(steps < "$folder/trace")" \
    -v m="$machine" -v start="$start" -v rows="$folder/rows" 'BEGIN {
    m -= start; steps -= first
    printf "%9d %6d %10.3f %9.1f %9.2f\n", pages, slots, steps / lines, m * 1e9 / lines, m * 1e9 / steps
    printf "%d %d %.12f\n", pages, slots, m / steps >> rows
  }'
}

(cd "$top/crates/tdpmmu" && rt run -- replay < stdin > /dev/null 2>&1)
(cd "$top/crates/plain_replay" && rt run < stdin > /dev/null 2>&1)
program=$top/crates/tdpmmu/out/tdpmmu
plain=$top/crates/plain_replay/out/plain_replay
printf '%9s %6s %10s %9s %9s\n' pages slots steps/line ns/line ns/step
row 4096 22 4
row 4096 22 32
row 1048576 16384 32
awk -v growth="$growth" '
  { cost[$1, $2] = $3 }
  END {
    slots = cost[4096, 32] / cost[4096, 4]; pages = cost[1048576, 32] / cost[4096, 32]
    printf "a step: with 32 slots %.2f times as much as with 4, with 1,048,576 pages %.2f times as much as with 4,096: %s %.1f\n",
      slots, pages, (slots > growth || pages > growth ? "more than" : "not more than"), growth
    exit slots > growth || pages > growth
  }' "$folder/rows"

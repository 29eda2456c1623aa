#!/usr/bin/env bash
# Times `tdpmmu replay` on accesses spread over 262,144 pages, which the host maps as small
# pages, as 512 large ones of level 2, or as one of level 3.
#
#   bench/large.sh            half a million accesses, a minute
#   bench/large.sh --short    65,536 accesses, a quarter of a minute
#
# Four virtual processors read and write pages in no order, each page twice, or each fourth
# page once. Before the accesses come the lines that make runs large (`h0 huge PAGE LEVEL`).
# Printed are the steps and nanoseconds of these lines for each page that they set, and of an
# access; and whether a page costs more in one run of 262,144 than in 512 of 512, or an
# access more over large pages than over small ones. What is printed has to be what
# `plain_replay` prints. A last row is of the largest machine: a run of 262,144 of 1,048,576
# pages is made large, written, and small again.
#
# The steps are counted from the trace by the order of steps (`steps`). Times are of a
# processor (user and system), the least of five measurements, without what the program
# takes to start. Needs `rt`, awk and bash.
set -euo pipefail
top=$(cd "$(dirname "$0")/.." && pwd)
folder=$(mktemp -d)
trap 'rm -rf "$folder"' EXIT
growth=1.3   # the most that a page of the larger run may cost, over what one of a smaller run costs
accesses=524288
spread=1
if [ "${1:-}" = --short ]; then
  accesses=65536
  spread=4
fi

# The header and the slot of a machine with so many pages, of which one slot has all.
machine() {
  echo "tdp 1 vcpus 4 workers 0 pages $1 frames $1 words 1 pool 1024 cache 64 manual 0 hosts 0"
  echo "vm slot 0 0 $1 0"
}

# The lines that make 262,144 pages large pages of this level; of level 1 there are none.
large_lines() {
  case $1 in
    2) for ((page = 0; page < 262144; page += 512)); do echo "h0 huge $page 2"; done ;;
    3) echo 'h0 huge 0 3' ;;
  esac
}

access_lines() {
  awk -v most="$accesses" -v spread="$spread" 'BEGIN {
    for (k = 0; k < most; k++) {
      page = k * 99991 % (262144 / spread) * spread
      print "v" k % 4 (k % 3 ? " read " : " write ") page * 4096 (k % 3 ? "" : " " k % 10)
    }
  }'
}

# The steps of the trace: of the lines that make runs large, and of the accesses. Such a line
# loads the host word of each page; then it begins as any host line does, but loads the words of
# all slots, and nothing is mapped yet, so its sweep loads one entry of the root; then it
# changes each page's word, and ends. An access enters, loads the pause, touches and leaves, and
# where no translation is cached it loads the root and the entries down to the leaf. Where the
# page has no leaf yet, a stay without one comes first, and a fault, which links the tables that
# are missing above the leaf (`bench/replay.sh`).
steps() {
  awk '
    function is_cached(vcpu, run) { return (vcpu, run) in filled && filled[vcpu, run] > fills[vcpu] - cache }
    function fault(page, leaf,   level, span, tables, made) {
      span = 134217728; tables = 1
      for (level = 3; level >= leaf; level--) {
        if ((level, int(page / span)) in table) tables++
        else { table[level, int(page / span)]; made += int(next_page / 64) + 516; next_page++ }
        span /= 512
      }
      return 4 + tables + 16 - leaf + 4 + made
    }
    BEGIN { next_page = 2; pages[1] = 1; pages[2] = 512; pages[3] = 262144 }
    NR == 1 { for (i = 1; i < NF; i++) { if ($i == "cache") cache = $(i + 1); if ($i == "vcpus") vcpus = $(i + 1) } }
    $2 == "huge" { leaf = $4; lines += 16 + 35 + 1 + 2 * vcpus + 2 * (pages[leaf] - 1) }
    $1 ~ /^v[0-9]/ {
      if (!leaf) leaf = 1
      page = int($3 / 4096); run = int(page / pages[leaf])
      if (is_cached($1, run)) { touches += 4; next }
      if (!(run in has_leaf)) { touches += fault(page, leaf); has_leaf[run] }
      touches += 10 - leaf
      filled[$1, run] = ++fills[$1]
    }
    END { printf "%.0f %.0f\n", lines, touches }' "$folder/trace"
}

# the least seconds of a processor that a replay takes, of five measurements
best() {
  local TIMEFORMAT='%U %S'
  for ((round = 0; round < 5; round++)); do
    { time "$program" replay < "$folder/trace" > "$folder/machine"; } 2>&1
  done | awk '{ t = $1 + $2; if (NR == 1 || t < m) m = t } END { print m }'
}

same_as_plain() {
  "$plain" < "$folder/trace" > "$folder/plain"
  cmp "$folder/machine" "$folder/plain"
}

# One row: of which level the pages are.
row() {
  local start large all
  machine 262144 > "$folder/trace"
  start=$(best)
  large_lines "$1" >> "$folder/trace"
  large=$(best)
  access_lines >> "$folder/trace"
  all=$(best)
  same_as_plain
  steps | awk -v level="$1" -v accesses="$accesses" -v start="$start" -v large="$large" -v all="$all" -v rows="$folder/rows" '{
    page = level > 1 ? (large - start) * 1e9 / 262144 : 0; access = (all - large) * 1e9 / accesses
    printf "%5d %10.3f %9.1f %12.3f %9.1f\n", level, $1 / 262144, page, $2 / accesses, access
    print level, page, access >> rows
  }'
}

(cd "$top/crates/tdpmmu" && rt run -- replay < stdin > /dev/null 2>&1)
(cd "$top/crates/plain_replay" && rt run < stdin > /dev/null 2>&1)
program=$top/crates/tdpmmu/out/tdpmmu
plain=$top/crates/plain_replay/out/plain_replay
printf '%5s %10s %9s %12s %9s\n' level steps/page ns/page steps/access ns/access
for level in 1 2 3; do
  row "$level"
done
{ machine 1048576; echo 'h0 huge 524288 3'; echo 'v0 write 2147483648 7'; echo 'h0 small 525000'; } > "$folder/trace"
echo "the largest machine, a run of level 3 made large, written and small again: $(best) seconds"
same_as_plain
awk -v growth="$growth" '
  { page[$1] = $2; access[$1] = $3 }
  END {
    pages = page[3] / page[2]; accesses = (access[2] > access[3] ? access[2] : access[3]) / access[1]
    printf "a page costs %.2f times as much in a run of level 3 as in one of level 2: %s %.1f\n",
      pages, (pages > growth ? "more than" : "not more than"), growth
    printf "an access over large pages costs %.2f times as much as over small ones: %s 1\n", accesses, (accesses > 1 ? "more than" : "not more than")
    exit pages > growth || accesses > 1
  }' "$folder/rows"

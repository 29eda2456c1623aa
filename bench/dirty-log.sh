#!/usr/bin/env bash
# Times `tdpmmu replay` on gets of a dirty log in which few pages are dirty.
#
#   bench/dirty-log.sh            200 rounds, a minute or two
#   bench/dirty-log.sh --short    20 rounds
#   bench/dirty-log.sh --trace    writes the trace of 262,144 pages with 10 dirty ones, and runs nothing
#
# A round writes to so many pages, which lie evenly in the slot, and gets the log. Its writes meet leaves that forbid them, since the
# get before has taken their pages: a write makes 31 steps. A get takes the lock, takes each word of the log, loads the root,
# walks to the leaf of each dirty page and forbids writes there, gives the lock back, asks for a flush and awaits it: one step
# for each 64 pages, 5 for each dirty page, and 5 more. Printed are the steps of a get, as show_steps counts them in the first round that
# is timed and as they are reckoned here, nanoseconds a round, and nanoseconds a step; and whether a step costs more in the larger slot,
# or with more dirty pages. Walks to all pages of the larger slot would be more than a million steps.
#
# Times are of a processor (user and system), the least of five measurements, without what the first round takes, and the program to start.
# Needs `rt`, awk and bash.
set -euo pipefail
top=$(cd "$(dirname "$0")/.." && pwd)
folder=$(mktemp -d)
trap 'rm -rf "$folder"' EXIT
growth=1.5   # the most that a step may cost, over what it costs in the smallest row
rounds=200
[ "${1:-}" = --short ] && rounds=20

# The header, the slot and its log, and the first round: the slot's pages, and how many of them are written.
first_round() {
  echo "tdp 1 vcpus 1 workers 0 pages $1 frames $1 words 1 pool 1024 cache 64 manual 0 hosts 0"
  echo "vm slot 0 0 $1 0"
  echo "vm logon 0"
  round_of "$1" "$2"
  round_of "$1" "$2"
}

round_of() {
  for ((page = 0; page < $2; page++)); do
    echo "v0 write $((page * ($1 / $2) * 4096)) $page"
  done
  echo "vm get 0"
}

rounds_of() {
  for ((round = 0; round < rounds; round++)); do
    round_of "$1" "$2"
  done
}

# the steps of a get, and of a round
get_steps() { echo $(($1 / 64 + 5 * $2 + 5)); }
round_steps() { echo $(($1 / 64 + 36 * $2 + 5)); }

if [ "${1:-}" = --trace ]; then
  first_round 262144 10
  rounds_of 262144 10
  exit
fi

# the least seconds of a processor that a replay takes, of five measurements
best() {
  local TIMEFORMAT='%U %S'
  for ((k = 0; k < 5; k++)); do
    { time "$program" replay < "$folder/trace" > "$folder/machine"; } 2>&1
  done | awk '{ t = $1 + $2; if (NR == 1 || t < m) m = t } END { print m }'
}

# the steps of the last get of the trace, as they are shown: up to its answer from the one before
shown() {
  "$show" replay < "$folder/trace" | awk '/ answers /{ split($1, n, "-"); last = n[1]; before = answered; answered = last } END { print answered - before }'
}

# One row: the slot's pages, and how many are dirty.
row() {
  local start machine counted
  first_round "$1" "$2" > "$folder/trace"
  counted=$(shown)
  start=$(best)
  rounds_of "$1" "$2" >> "$folder/trace"
  machine=$(best)
  "$plain" < "$folder/trace" > "$folder/plain"
  cmp "$folder/machine" "$folder/plain"
  awk -v pages="$1" -v dirty="$2" -v counted="$counted" -v get="$(get_steps "$1" "$2")" -v steps="$(round_steps "$1" "$2")" \
    -v rounds="$rounds" -v m="$machine" -v start="$start" -v rows="$folder/rows" 'BEGIN {
    m -= start
    printf "%9d %6d %10d %10d %12.1f %9.2f\n", pages, dirty, counted, get, m * 1e9 / rounds, m * 1e9 / rounds / steps
    printf "%d %d %d %d %.12f\n", pages, dirty, counted, get, m / rounds / steps >> rows
  }'
}

(cd "$top/crates/tdpmmu" && rt run -- replay < stdin > /dev/null 2>&1)
(cd "$top/crates/plain_replay" && rt run < stdin > /dev/null 2>&1)
(cd "$top/crates/show_steps" && rt run < stdin > /dev/null 2>&1)
program=$top/crates/tdpmmu/out/tdpmmu
plain=$top/crates/plain_replay/out/plain_replay
show=$top/crates/show_steps/out/show_steps
printf '%9s %6s %10s %10s %12s %9s\n' pages dirty steps/get reckoned ns/round ns/step
row 4096 10
row 262144 10
row 262144 500
awk -v growth="$growth" '
  { cost[$1, $2] = $5; if ($3 != $4) other = 1 }
  END {
    pages = cost[262144, 10] / cost[4096, 10]; dirty = cost[262144, 500] / cost[4096, 10]
    printf "a step: with 262,144 pages %.2f times as much as with 4,096, and with 500 dirty ones %.2f times as much: %s %.1f\n",
      pages, dirty, (pages > growth || dirty > growth ? "more than" : "not more than"), growth
    exit other || pages > growth || dirty > growth
  }' "$folder/rows"

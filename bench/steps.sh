#!/usr/bin/env bash
# What a step costs: times `tdpmmu replay` on traces whose lines make steps of few kinds.
#
#   bench/steps.sh             this build, a minute
#   bench/steps.sh OLD NEW     two builds of the program by turns, and how many times as
#                              much the second one takes
#
# Each trace has 400,000 accesses by 4 virtual processors in 1 slot of 4,096 pages. `random`
# has any page, and nearly no translation is cached: 9 steps, and a look-up through 64
# cached translations that finds none. `walked` is the same where a processor caches one
# translation, so the look-up costs next to nothing. `cached` stays in 16 pages of each
# processor: 4 steps, and a look-up that goes through 8 translations. `tables` has 2,000
# accesses, each of which claims, fills and links a table of the lowest level.
#
# Printed are steps a line, nanoseconds a line and a step, and seconds, of a processor (user
# and system): the least of nine measurements, without what the program takes to start.
# Reading and writing are in them: what `check` takes, which reads the trace and runs
# nothing, stands beside.
# Needs `rt`, awk and bash.
set -euo pipefail
top=$(cd "$(dirname "$0")/.." && pwd)
folder=$(mktemp -d)
trap 'rm -rf "$folder"' EXIT
rounds=9

if [ $# = 0 ]; then
  (cd "$top/crates/tdpmmu" && rt run -- replay < stdin > /dev/null 2>&1)
  set -- "$top/crates/tdpmmu/out/tdpmmu"
fi

# Accesses to 4,096 pages: how many translations a processor caches, and in how many pages
# of its own it stays (0: in none, it goes to all).
accesses() {
  echo "tdp 1 vcpus 4 workers 0 pages 4096 frames 4096 words 1 pool 64 cache $1 manual 0 hosts 0"
  echo 'vm slot 0 0 4096 0'
  awk -v near="$2" 'BEGIN {
    srand(7)
    for (k = 0; k < 400000; k++) {
      vcpu = int(rand() * 4); turn = int(rand() * 4)
      page = near ? vcpu * near + int(rand() * near) : int(rand() * 4096)
      print "v" vcpu (turn < 2 ? " read " : turn == 2 ? " write " : " add ") page * 4096 (turn < 2 ? "" : " " k % 10)
    }
  }'
}

# One access in each run of 512 pages.
tables() {
  echo 'tdp 1 vcpus 4 workers 0 pages 1048576 frames 1048576 words 1 pool 4096 cache 64 manual 0 hosts 0'
  echo 'vm slot 0 0 1048576 0'
  awk 'BEGIN { for (k = 0; k < 2000; k++) printf "v%d read %.0f\n", k % 4, k * 512 * 4096 }'
}

# seconds of a processor that a command takes
seconds() {
  local TIMEFORMAT='%U %S'
  { time "$@" < "$folder/trace" > "$folder/out"; } 2>&1 | awk '{ print $1 + $2 }'
}

# A row for each program: the trace's name, and the least of the program's measurements.
row() {
  local lines steps program
  lines=$(($(wc -l < "$folder/all") - 2))
  steps=$("$top/bench/replay.sh" --steps < "$folder/all")
  for ((round = 0; round < rounds; round++)); do
    for program in "$@"; do
      head -n 2 "$folder/all" > "$folder/trace"
      echo "$program start $(seconds "$program" replay)"
      cp "$folder/all" "$folder/trace"
      echo "$program replay $(seconds "$program" replay)"
      echo "$program check $(seconds "$program" check)"
    done
  done | awk -v name="$name" -v lines="$lines" -v steps="$steps" '
    !($1 in number) { number[$1] = ++programs; named[programs] = $1 }
    !(($1, $2) in least) || $3 < least[$1, $2] { least[$1, $2] = $3 }
    END {
      for (i = 1; i <= programs; i++) {
        r[i] = least[named[i], "replay"] - least[named[i], "start"]
        c = least[named[i], "check"]
        printf "%-8s %10.2f %9.0f %9.1f %9.0f %8.3f", name, steps / lines, r[i] * 1e9 / lines, r[i] * 1e9 / steps, c * 1e9 / lines, r[i]
        print (i > 1 ? sprintf("  %.2f times the first", r[i] / r[1]) : "")
      }
    }'
}

printf '%-8s %10s %9s %9s %9s %8s\n' trace steps/line ns/line ns/step check/line seconds
for name in random walked cached tables; do
  case $name in
    random) accesses 64 0 ;;
    walked) accesses 1 0 ;;
    cached) accesses 64 16 ;;
    tables) tables ;;
  esac > "$folder/all"
  row "$@"
done

#!/usr/bin/env bash
# Runs `tdpmmu live` on random traces, and checks what it prints against what any order of its steps must meet.
#
#   bench/live.sh [SECONDS [SEED [PROGRAM]]]
#
# The traces are those of the seeds from SEED on (1), until SECONDS (1800) have passed. PROGRAM is another build of tdpmmu.
# A seed gives the same trace each time; threads run as they come, so a fault may need more than one run to show again.
# A trace has 4 to 25 actors, 50 to 3,000 lines below `go`, and every form of line side by side, in pools that are large
# and small, and in each mode of dirty logs: slots that stay, slots that move, are deleted and are set again, and two that
# ask for the same guest frames; some words are only added to, some only written, some both, and some are one actor's alone.
# In two of five a slot has a run of 512 host pages, which a host thread makes large and small again, and workers split.
#
# Checked (live.py) is that
#   - the run ends, within 120 seconds, with status 0
#   - each line has one answer, in file order, with its actor, in a form that its kind of line has
#   - the lines above `go` are answered as `replay` answers them alone
#   - all accesses stand in one order, with the lines of each actor in turn, in which each finds what the one before it left in
#     its word: so no add or write is lost, no number comes from nowhere, and an actor finds what it has written itself
#   - the words of the last line are what the accesses leave in the slots that the manager's answers leave
#   - the manager's lines are done or refused as its own answers before say; a line of a host thread that of another thread's
#     page is refused, or of a page that is part of a large one, and a run is made large or refused as its thread's lines say
#   - `mmio`, `hostfault`, `starved` and `no-frame` come only where some moment allows them, and `frame F` only with a frame
#     that the page has had
#   - a log's words have only bits of pages that were asked for and that some line writes
# Not checked is which dirty pages a log must tell, at which moment a page was at which frame, and how accesses stand to
# lines of other actors that aren't accesses.
#
# A fault is printed with the trace's path, what was printed stands beside it, and the status is 1. At the end stands how
# often each answer came. Needs `rt`, timeout, python3, awk and bash.
set -euo pipefail
top=$(cd "$(dirname "$0")/.." && pwd)
seconds=${1:-1800}
first=${2:-1}
program=${3:-$top/crates/tdpmmu/out/tdpmmu}
limit=120
folder=$(mktemp -d)

[ $# -ge 3 ] || (cd "$top/crates/tdpmmu" && rt run -- replay < stdin > /dev/null 2>&1)

# Says what is wrong with the trace of this seed, and keeps it.
fault() {
  echo "seed $seed: $1"
  echo "trace: $folder/trace; printed: $folder/printed"
  exit 1
}

# Runs the trace, and checks what is printed.
run_seed() {
  python3 "$top/bench/live.py" make "$seed" > "$folder/trace"
  timeout "$limit" "$program" live < "$folder/trace" > "$folder/printed" && status=0 || status=$?
  [ "$status" != 124 ] || fault "no end after $limit seconds"
  [ "$status" = 0 ] || fault "status $status"
  python3 "$top/bench/live.py" check "$folder/trace" "$folder/printed" > "$folder/said" || fault "$(cat "$folder/said")"
  cat "$folder/said" >> "$folder/answers"
  if grep -q '^go$' "$folder/trace"; then
    sed '/^go$/,$d' "$folder/trace" > "$folder/head"
    timeout "$limit" "$program" replay < "$folder/head" > "$folder/alone" || fault "\`replay\` of the lines above go ends with status $?"
    head -n "$(wc -l < "$folder/alone")" "$folder/printed" | cmp -s - "$folder/alone" || fault 'the lines above go are answered otherwise than alone'
  fi
}

for ((seed = first; SECONDS < seconds; seed++)); do
  run_seed
done
awk -v first="$first" '{ for (i = 1; i < NF; i += 2) { if (!($i in count)) names[++most] = $i; count[$i] += $(i + 1); all += $(i + 1) } }
  END {
    printf "%d traces from seed %d on, %d lines, no fault:", NR, first, all
    for (i = 1; i <= most; i++) printf " %s %d", names[i], count[names[i]]
    print ""
  }' "$folder/answers"
rm -rf "$folder"

#!/usr/bin/env bash
# Times `tdpmmu replay`, the machine that makes one atomic step at a time, and
# `tdpmmu check`, which reads a trace and runs nothing.
#
#   bench/replay.sh             all of it, five to eight minutes
#   bench/replay.sh --short     shorter traces and fewer measurements, half a minute
#   bench/replay.sh --steps     writes how many steps the trace on standard input takes, and runs nothing
#
# First `replay` on traces of 10,000, 100,000 and 1,000,000 lines: accesses by 4
# virtual processors over 4,096 pages, of which each keeps 64 translations. Three
# of four are near, in 16 pages of this processor, and one is far, in any page.
# The pages are those of 1 slot and of 32; the pool has as many pages as the trace
# needs, 4,096, and 16,384. Printed are steps a line, nanoseconds a line and
# nanoseconds a step, and whether a line costs more in the longest traces where
# pool or slots are larger, or than in shorter ones. Then the same for near
# accesses alone, which nearly all make 4 steps. What is printed has to be what
# `plain_replay` prints, which runs the same trace over maps.
#
# The steps are counted from the trace by the order of steps (`steps`).
#
# Then both commands on two traces of nearly 16 MiB: reads and writes spread over
# 1,048,576 pages of 8 words, and comments, empty lines, lines of 65,536 bytes
# and numbers of every spelling. Reading them should take no more than six times
# what awk takes to count their words.
#
# All times are of a processor (user and system), the least of five measurements.
# What the program takes to start is taken off; where the trace is short and the
# pool large it is most of the time, so these rows are rough.
# Needs `rt`, awk and bash.
set -euo pipefail
top=$(cd "$(dirname "$0")/.." && pwd)
folder=$(mktemp -d)
trap 'rm -rf "$folder"' EXIT
growth=1.3   # the most that a line may cost, over what it costs in a smaller case
bound=6      # times of awk, for reading
cache=64
need=14      # the root, the slot set, two more, and tables: 1, 1 and 8
header='tdp 1 vcpus 16 workers 4 pages 1048576 frames 1048576 words 8 pool 16384 cache 64 manual 0 hosts 0'
lengths='10000 100000 1000000'
pools="$need 4096 16384"
rounds=5
if [ "${1:-}" = --short ]; then
  lengths='10000 100000'
  pools="$need 16384"
  rounds=2
fi

# The header and the slots of a trace over 4,096 pages: the pool's pages, the slots.
slots() {
  echo "tdp 1 vcpus 4 workers 0 pages 4096 frames 4096 words 1 pool $1 cache $cache manual 0 hosts 0"
  for ((id = 0; id < $2; id++)); do
    echo "vm slot $id $((id * 4096 / $2)) $((4096 / $2)) $((id * 4096 / $2))"
  done
}

# Accesses of those pages, so many lines: three of four, or all of them, are near.
accesses_of() {
  awk -v most="$1" -v far="$2" 'BEGIN {
    for (k = 0; k < most; k++) {
      four = int(k / 4); vcpu = (four + int(four / 4096)) % 4
      page = far && k % 4 == 3 ? four * 1103 % 4096 : vcpu * 16 + (four * 3 + k) % 16
      turn = (k + four) % 4
      print "v" vcpu (turn < 2 ? " read " : turn == 2 ? " write " : " add ") page * 4096 (turn < 2 ? "" : " " k % 10)
    }
  }'
}

# A trace of so many lines, of that pool and those slots.
trace() {
  slots "$2" "$3"
  accesses_of $(($1 - 1 - $3)) "$4"
}

# The steps of a trace with a pool that is large enough, whose numbers are decimal,
# whose slots are all taken and writable, and whose accesses lie in them. A slot
# line claims a page, fills its 512 words and its role, takes the lock, loads the
# count, publishes the page, gives the lock back, looks at each other actor, clears
# the old page's role and gives it back. An access enters, loads the pause, touches and leaves, and
# where no translation is cached it loads the root and four entries before it
# touches. Where the page has no leaf yet, a first stay enters, loads the pause,
# the root, and an entry of each table that is there, and leaves; then a fault
# begins a section, loads the sequence number, the slot set, the slots words up to
# the slot, and the host word, shares the lock, loads count, sequence number, root
# and four entries, and puts the leaf, gives the lock back and ends; for each table
# that is missing it loads words of the map up to a free page, claims it, fills
# its 512 words and its role, and links it.
# A line of a host thread, which has to be `allow` of a page of its own and of a slot
# whose frames are its pages' numbers, loads the host word, takes the lock, loads the
# slot set, the slots words up to the slot, and the count, stores the range and the
# count, loads the root and an entry of each table that is there, zaps the leaf if
# there is one, asks for each flush and awaits it, gives the lock back, changes the
# host word, takes the lock, loads and stores sequence number and count, and gives
# the lock back. What processors have cached is gone.
steps() {
  awk '
    function is_cached(vcpu, page) { return (vcpu, page) in filled && filled[vcpu, page] > fills[vcpu] - cache }
    function slot_words(page,   id, words) {
      for (id = 0; id < 32; id++) {
        words++
        if (!(id in pages)) continue
        words += 3
        if (base[id] <= page && page < base[id] + pages[id]) break
      }
      return words
    }
    function tables_over(page,   level, span, tables) {
      span = 134217728; tables = 1
      for (level = 3; level >= 1 && (level, int(page / span)) in table; level--) { tables++; span /= 512 }
      return tables
    }
    function fault(page,   level, span, tables, made) {
      span = 134217728; tables = 1
      for (level = 3; level >= 1; level--) {
        if ((level, int(page / span)) in table) tables++
        else { table[level, int(page / span)]; made += int(next_page / 64) + 516; next_page++ }
        span /= 512
      }
      has_leaf[page]
      return 4 + tables + 15 + slot_words(page) + made
    }
    NR == 1 {
      for (i = 1; i < NF; i++) {
        if ($i == "cache") cache = $(i + 1)
        if ($i == "vcpus") vcpus = $(i + 1)
        if ($i == "vcpus" || $i == "workers") others += $(i + 1)
        if ($i == "hosts") others += NF - i
      }
      next_page = 2
    }
    $1 == "vm" { base[$3 + 0] = $4; pages[$3 + 0] = $5; steps += 521 + others }
    $1 ~ /^h[0-9]/ {
      steps += 16 + slot_words($3) + tables_over($3) + 2 * vcpus
      if ($3 in has_leaf) { steps++; delete has_leaf[$3] }
      for (v = 0; v < vcpus; v++) fills["v" v] += cache
    }
    $1 ~ /^v[0-9]/ {
      page = int($3 / 4096)
      if (is_cached($1, page)) { steps += 4; next }
      if (!(page in has_leaf)) steps += fault(page)
      steps += 9
      filled[$1, page] = ++fills[$1]
    }
    END { printf "%.0f\n", steps }'
}

if [ "${1:-}" = --steps ]; then
  steps
  exit
fi

# Reads and writes spread over all pages of the largest machine.
accesses() {
  awk -v header="$header" 'BEGIN {
    srand(1)
    print header; print "vm slot 0 0 1048576 0"
    size = length(header) + 23; lines = 2
    while (lines < 1000000) {
      address = sprintf("%.0f", int(rand() * 1048576) * 4096 + int(rand() * 8) * 8)
      line = "v" int(rand() * 16)
      line = rand() < 0.5 ? line " read " address : line " write " address " " int(rand() * 100)
      size += length(line) + 1
      if (size > 16777216) break
      print line; lines++
    }
  }'
}

# Comments, long lines, and numbers of every spelling.
spellings() {
  awk -v header="$header" 'BEGIN {
    srand(2)
    print header; print "vm slot 0x1f 0x0 0x100000 0 ro"
    size = length(header) + 32; lines = 2
    long = "# "
    while (length(long) < 65536) long = long "every comment line is skipped and counted "
    long = substr(long, 1, 65536)
    while (lines < 1000000) {
      kind = int(rand() * 1000)
      address = sprintf(kind % 2 ? "%.0f" : "0x%x", int(rand() * 500000) * 4096 + int(rand() * 8) * 8)
      vcpu = "v" int(rand() * 16)
      if (kind == 0 && size < 12000000) line = long
      else if (kind < 200) line = "# " address
      else if (kind < 300) line = ""
      else if (kind < 600) line = vcpu " read " address
      else if (kind < 800) line = vcpu " add " address " 18446744073709551615"
      else line = vcpu " write " address " 0xffffffffffffffff"
      size += length(line) + 1
      if (size > 16777216) break
      print line; lines++
    }
  }'
}

# runs a command on the trace so many times
again() {
  local times=$1
  shift
  for ((run = 0; run < times; run++)); do
    "$@" < "$folder/trace" > "$folder/out"
  done
}

# the least seconds of a processor that so many runs of a command take, of all measurements
best() {
  local TIMEFORMAT='%U %S'
  for ((round = 0; round < rounds; round++)); do
    { time again "$@"; } 2>&1
  done | awk '{ t = $1 + $2; if (NR == 1 || t < m) m = t } END { print m }'
}

(cd "$top/crates/tdpmmu" && rt run -- replay < stdin > /dev/null 2>&1)
(cd "$top/crates/plain_replay" && rt run < stdin > /dev/null 2>&1)
program=$top/crates/tdpmmu/out/tdpmmu
plain=$top/crates/plain_replay/out/plain_replay

# The machine and the flat interpreter print the same; it stops here where they
# don't, and where the trace is refused.
compare() {
  "$program" replay < "$folder/trace" > "$folder/machine"
  "$plain" < "$folder/trace" > "$folder/plain"
  cmp "$folder/machine" "$folder/plain"
}

# One row: the trace's lines, its pool, its slots, and 1 where it has far accesses.
# What the program takes to start with this pool and these slots is taken off.
row() {
  trace "$1" "$2" "$3" "$4" > "$folder/trace"
  compare
  local times=$((longest / $1 < 20 ? longest / $1 : 20)) count machine
  count=$(steps < "$folder/trace")
  machine=$(best "$times" "$program" replay)
  awk -v times="$times" -v lines="$1" -v pool="$2" -v slots="$3" -v far="$4" -v steps="$count" \
    -v m="$machine" -v start="$(cat "$folder/start.$2.$3")" -v rows="$folder/rows" 'BEGIN {
    m = m / times - start
    printf "%9d %6d %6d %9.3f %9.1f %9.2f\n", lines, pool, slots, steps / lines, m * 1e9 / lines, m * 1e9 / steps
    printf "%d %d %d %d %.12f %.12f\n", lines, pool, slots, far, m / lines, m / steps >> rows
  }'
}

for pool in $pools; do
  for slots in 1 32; do
    slots "$pool" "$slots" > "$folder/trace"
    awk -v m="$(best 20 "$program" replay)" 'BEGIN { printf "%.12f\n", m / 20 }' > "$folder/start.$pool.$slots"
    awk -v pool="$pool" -v slots="$slots" -v m="$(cat "$folder/start.$pool.$slots")" 'BEGIN {
      printf "start with a pool of %d pages and %d slots: %.2f ms, taken off below\n", pool, slots, m * 1e3
    }'
  done
done
longest=${lengths##* }
for far in 1 0; do
  if [ $far = 1 ]; then echo 'one access of four in any page:'; else echo 'near accesses alone:'; fi
  printf '%9s %6s %6s %9s %9s %9s\n' lines pool slots steps/line ns/line ns/step
  for lines in $lengths; do
    for pool in $pools; do
      for slots in 1 32; do
        row "$lines" "$pool" "$slots" "$far"
      done
    done
  done
done
awk -v growth="$growth" -v longest="$longest" -v least="$need" '
  function say(what, ratio) {
    printf "%s a line costs %.2f times as much: %s %.1f\n", what, ratio, (ratio > growth ? "more than" : "not more than"), growth
  }
  $4 == 1 { cost[$1, $2, $3] = $5; pool = $2; if ($1 != longest) shorter = $1 }
  END {
    say("in the largest pool, not the one that is needed, with 1 slot:", cost[longest, pool, 1] / cost[longest, least, 1])
    say("with 32 slots, not 1, in the pool that is needed:", cost[longest, least, 32] / cost[longest, least, 1])
    say("in " longest " lines, not " shorter ", with 1 slot:", cost[longest, least, 1] / cost[shorter, least, 1])
  }' "$folder/rows"

trace "$longest" "$need" 1 1 > "$folder/trace"
awk -v m="$(best 1 "$program" replay)" -v f="$(best 1 "$plain")" -v lines="$longest" 'BEGIN {
  printf "%d lines: replay %.3f s, flat interpreter %.3f s, ratio %.2f (starts included)\n", lines, m, f, m / f
}'
[ "${1:-}" = --short ] && exit

printf '%s\n' "$header" > "$folder/trace"
awk -v m="$(best 5 "$program" replay)" 'BEGIN { printf "start with 1,048,576 pages of 8 words: machine %.3f s, not taken off below\n", m / 5 }'
for kind in accesses spellings; do
  "$kind" > "$folder/trace"
  compare
  reading=$(best 1 "$program" check)
  replay=$(best 1 "$program" replay)
  flat=$(best 1 "$plain")
  count=$(best 1 awk '{n += NF} END {print n}')
  printf '%s: %s bytes, %s lines\n' "$kind" "$(wc -c < "$folder/trace")" "$(wc -l < "$folder/trace")"
  awk -v r="$reading" -v m="$replay" -v f="$flat" -v c="$count" -v bound="$bound" 'BEGIN {
    printf "replay %.2f s, flat interpreter %.2f s; check %.2f s, awk %.2f s, ratio of check to awk %.1f: ", m, f, r, c, r / c
    print (r > bound * c ? "more than " : "not more than ") bound
  }'
done

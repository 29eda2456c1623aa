#!/usr/bin/env bash
# Compares a replay, whose words stand in one table that threads may share, with the same lines over a vector of words: `weave`
# runs lines that stand above `go` alone, in file order.
#
#   bench/table.sh               with crates/tdpmmu/out/tdpmmu
#   bench/table.sh PROGRAM       with another build of it
#
# The traces are those of bench/instructions.sh. Printed are millions of instructions (valgrind's callgrind) and seconds of a
# processor (the least of five runs), over the table and over the vector, and both ratios, which are to be 1.25 at most. Both print the same.
# Then seconds and megabytes of a replay of no line in the largest machine, of about 18 million words: its table is made and closed.
# Needs valgrind, GNU time, awk and bash.
set -euo pipefail
top=$(cd "$(dirname "$0")/.." && pwd)
program=${1:-$top/crates/tdpmmu/out/tdpmmu}
most=1.25
folder=$(mktemp -d)
trap 'rm -rf "$folder"' EXIT

instructions() {
  valgrind --tool=callgrind --callgrind-out-file="$folder/out" "$program" "$1" < "$folder/trace" 2> "$folder/told" > /dev/null
  awk '/Collected/ {print $NF / 1e6}' "$folder/told"
}

seconds() {
  for _ in 1 2 3 4 5; do
    /usr/bin/time -f '%U %S' -o "$folder/time" "$program" "$1" < "$folder/trace" > "$folder/printed.$1"
    awk '{print $1 + $2}' "$folder/time"
  done | sort -n | head -n 1
}

echo 'trace     millions: table  vector  ratio    seconds: table  vector  ratio'
for row in spread warm hosts gets; do
  { "$top/bench/instructions.sh" --trace "$row"; echo go; } > "$folder/trace"
  table=$(instructions replay) vector=$(instructions weave)
  table_time=$(seconds replay) vector_time=$(seconds weave)
  cmp "$folder/printed.replay" "$folder/printed.weave"
  awk -v row="$row" -v a="$table" -v b="$vector" -v c="$table_time" -v d="$vector_time" -v most="$most" 'BEGIN {
    printf "%-8s %16.1f %7.1f %6.2f %16.2f %7.2f %6.2f%s\n", row, a, b, a / b, c, d, c / d, (a / b > most ? "  above " most : "")
  }'
done
echo 'tdp 1 vcpus 1 workers 0 pages 1048576 frames 1048576 words 8 pool 16384 cache 64 manual 0 hosts 0' > "$folder/trace"
/usr/bin/time -f '%U %S %M' -o "$folder/time" "$program" replay < "$folder/trace"
awk '{printf "the largest machine, made and closed: %.2f seconds, %d megabytes\n", $1 + $2, $3 / 1024}' "$folder/time"

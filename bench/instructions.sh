#!/usr/bin/env bash
# Counts the instructions of `tdpmmu replay`, by valgrind's callgrind: the same numbers each time, whatever else the machine does.
#
#   bench/instructions.sh                   with crates/tdpmmu/out/tdpmmu
#   bench/instructions.sh PROGRAM           with another build of it
#   bench/instructions.sh --trace NAME      writes the trace of a row, and runs nothing
#
# Four traces of 40,000 lines after the slot's:
#   spread   reads, writes and adds of 4 virtual processors over 4,096 pages, in no order
#   warm     adds of 4 virtual processors to 16 pages that all have cached
#   hosts    as spread over 64 pages, but each tenth line moves, evicts, protects or allows one of them
#   gets     writes over 4,096 pages of a slot with a dirty log, and a get each 200 lines
# Printed are millions of instructions, and instructions a line, without those of a run of the slot's line alone.
# Needs valgrind, awk and bash.
set -euo pipefail
top=$(cd "$(dirname "$0")/.." && pwd)
lines=40000

# The header and the first lines of a row's trace.
head_of() {
  local hosts='hosts 0'
  echo "tdp 1 vcpus 4 workers 0 pages 4096 frames 4160 words 1 pool 16 cache 64 manual 0 $hosts"
  case $1 in
    warm) echo 'vm slot 0 0 16 0' ;;
    hosts) echo 'vm slot 0 0 64 0' ;;
    gets) printf 'vm slot 0 0 4096 0\nvm logon 0\n' ;;
    *) echo 'vm slot 0 0 4096 0' ;;
  esac
}

trace_of() {
  head_of "$1"
  awk -v row="$1" -v lines="$lines" 'BEGIN {
    split("read write add", ops, " "); split("move evict protect allow", changes, " ")
    pages = row == "warm" ? 16 : row == "hosts" ? 64 : 4096
    for (k = 0; k < lines; k++) {
      seed = (seed * 1103515 + 12345) % 2147483; page = seed % pages
      if (row == "gets" && k % 200 == 199) print "vm get 0"
      else if (row == "hosts" && k % 10 == 9) print "h0 " changes[seed % 4 + 1] " " page
      else {
        op = row == "warm" ? "add" : row == "gets" ? "write" : ops[k % 3 + 1]
        print "v" k % 4 " " op " " page * 4096 (op == "read" ? "" : " " k)
      }
    }
  }'
}

if [ "${1:-}" = --trace ]; then
  trace_of "$2"
  exit
fi
program=${1:-$top/crates/tdpmmu/out/tdpmmu}
folder=$(mktemp -d)
trap 'rm -rf "$folder"' EXIT

count() {
  valgrind --tool=callgrind --callgrind-out-file="$folder/out" "$program" replay < "$1" 2> "$folder/told" > /dev/null
  awk '/Collected/ {print $NF}' "$folder/told"
}

echo 'trace    millions  a line'
for row in spread warm hosts gets; do
  head_of "$row" > "$folder/head"
  trace_of "$row" > "$folder/trace"
  first=$(count "$folder/head")
  all=$(count "$folder/trace")
  awk -v row="$row" -v n=$((all - first)) -v lines="$lines" 'BEGIN {printf "%-8s %8.1f %7.0f\n", row, n / 1e6, n / lines}'
done

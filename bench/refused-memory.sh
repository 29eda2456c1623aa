#!/usr/bin/env bash
# Refuses each request for memory in turn, in `replay` and `weave` of three examples. The
# program has to answer that there is no memory (status 7), with a prefix of its output; or
# with all of it, as where a vector asks again, for less.
#
#   bench/refused-memory.sh            each request, half an hour to an hour
#   bench/refused-memory.sh 20 24      the 20th to the 24th alone
#
# `rt try --fail-alloc` refuses the request, and builds the program for each anew, which
# takes most of the time. It says nothing of how many requests there are: after 12 in a row
# whose refusal changes nothing there are no more. A line is printed for each answer that is
# another, and at the end how many there were of each; the status is 0 where all were right.
# Needs `rt`, awk and bash.
set -euo pipefail
top=$(cd "$(dirname "$0")/.." && pwd)
folder=$(mktemp -d)
trap 'rm -rf "$folder"' EXIT
examples='first race small-pool'
quiet=12
from=${1:-1}
to=${2:-1000}
no_memory=0
whole=0
wrong=0

(cd "$top/crates/tdpmmu" && rt run -- replay < stdin > /dev/null 2>&1)
mkdir "$folder/cases"
for name in $examples; do
  cp "$top/examples/$name.trace" "$folder/cases/$name"
done

# Runs the examples, where this request is refused.
refuse() {
  cd "$top/crates/tdpmmu"
  rt try --fail-alloc "$2" --cases "$folder/cases" -- "$1" > "$folder/all" 2> "$folder/said" || true
}

# Judges what an example printed, and its status, where this request was refused.
judge() {
  local command=$1 request=$2 name=$3 status length
  awk -v name="$name" '$1 == "==" && NF == 2 { mine = $2 == name; next } mine' "$folder/all" > "$folder/printed"
  status=$(sed -n "s/^case=$name run=ended status=\([0-9]*\) .*/\1/p" "$folder/said")
  length=$(wc -c < "$folder/printed")
  if [ "$status" = 7 ] && head -c "$length" "$folder/$command.$name" | cmp -s - "$folder/printed"; then
    no_memory=$((no_memory + 1))
    changed=$request
  elif [ "$status" = 0 ] && cmp -s "$folder/$command.$name" "$folder/printed"; then
    whole=$((whole + 1))
  else
    echo "$command of $name, request $request refused: status ${status:-unknown}, $length bytes that are no prefix or not all"
    wrong=$((wrong + 1))
    changed=$request
  fi
}

for command in replay weave; do
  for name in $examples; do
    "$top/crates/tdpmmu/out/tdpmmu" "$command" < "$folder/cases/$name" > "$folder/$command.$name"
  done
  changed=$from
  for ((request = from; request <= to && request <= changed + quiet; request++)); do
    refuse "$command" "$request"
    for name in $examples; do
      judge "$command" "$request" "$name"
    done
  done
  echo "$command: requests $from to $((request - 1)), the last one that changed the answer was $changed"
done
echo "$no_memory answers of no memory with a prefix, $whole whole ones, $wrong others"
[ "$wrong" = 0 ]

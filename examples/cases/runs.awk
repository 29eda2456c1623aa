# Makes of files of cases what each run is given and has to print: in the folder `to` the files trace/N and wanted/N, of which
# the last line is the exit status, and allowed/N.1, N.2 and so on where any of several outputs may come. Prints a line for each
# run: N, where its case stands, how its output is compared, the program, and the words that it is called with. README.md says
# what a file of cases is.

BEGIN {
  ORS = ""
  split("check replay weave live alone any-cache refused cut rows inputs plain endings flat calls", names, " ")
  digits = "0123456789abcdef"
  for (i in names) is_way[names[i]] = 1
}

# The line with an end for each `;`, after which a space doesn't count.
function unfolded(line, pieces, count, i, text) {
  count = split(line, pieces, ";")
  for (i = 1; i <= count; i++) {
    sub(/^ /, "", pieces[i])
    text = text pieces[i] "\n"
  }
  return text
}

function bad(reason) {
  print "0\t" FILENAME ":" FNR "\tbad\t-\t" reason "\n"
  is_bad = 1
}

function put(text, file) {
  print text > file
  close(file)
}

# A run: how its output is compared, the words of the call, the input, and what comes.
function run(how, words, input, text, status) {
  put(input, to "/trace/" ++runs)
  put(text "status " status "\n", to "/wanted/" runs)
  print runs "\t" at "\t" how "\t" program "\t" words "\n"
}

function run_any_cache(input, text, small, place, need) {
  place = index(text, "ok ")
  if (place) {
    need = substr(text, place)
    text = substr(text, 1, place - 1)
    run("whole", "tdpmmu check", input, need, 0)
  }
  place = index(input, " cache 64 ")
  small = place ? substr(input, 1, place - 1) " cache 1 " substr(input, place + 10) : ""
  run("whole", "tdpmmu replay", input, text, 0)
  run("whole", "tdpmmu replay", small, text, 0)
}

# The runs of a part of a case of calls: its first line says how they end.
function run_calls(calls, text, pieces, count, i, status, how) {
  status = text
  sub(/\n.*/, "", status)
  sub(/^.* /, "", status)
  sub(/^[^\n]*\n/, "", text)
  how = sub(/^\.\.\n/, "", text) ? "end" : "whole"
  count = split(calls, pieces, / \| /)
  for (i = 1; i <= count; i++) run(how, pieces[i], lines, text, status)
}

# The sizes stand for a header with the pool and the caches that the case is read with.
function run_flat(sizes, rest, hosts) {
  sizes = rest = lines
  sub(/\n.*/, "", sizes)
  sub(/^[^\n]*\n/, "", rest)
  hosts = sub(/ hosts .*/, "", sizes) ? substr(lines, length(sizes) + 8) : "0\n"
  sub(/\n.*/, "", hosts)
  run("flat", "tdpmmu replay", "tdp 1 " sizes " pool 64 cache 64 manual 0 hosts " hosts "\n" rest, "", 0)
}

function run_rows(text, pieces, count, i) {
  count = split(lines, pieces, "\n")
  for (i = 1; i < count; i++) {
    at = FILENAME ":" row_line[i]
    run("whole", "tdpmmu weave", header before (pieces[i] == "." ? "" : unfolded(pieces[i])) after, text, 0)
  }
}

# The text with a line's end for each `;`, and with the byte for each `\x` and two digits.
function bytes_of(text, all, code) {
  gsub(/;/, "\n", text)
  while (match(text, /\\x[0-9a-f][0-9a-f]/)) {
    code = 16 * (index(digits, substr(text, RSTART + 2, 1)) - 1) + index(digits, substr(text, RSTART + 3, 1)) - 1
    all = all substr(text, 1, RSTART - 1) sprintf("%c", code)
    text = substr(text, RSTART + 4)
  }
  return all text
}

# The text so many times.
function times(count, text, all) {
  for (; count > 0; count = int(count / 2)) {
    if (count % 2) all = all text
    text = text text
  }
  return all
}

# The text once for each of the numbers `FIRST,SECOND..LAST`, which fall, with the number in the place of `%`.
function falling(numbers, text, ends, parts, all, some, number) {
  split(numbers, ends, /,|\.\./)
  split(text, parts, /%/)
  for (number = ends[1]; number >= ends[3]; number -= ends[1] - ends[2]) {
    some = some parts[1] number parts[2]
    if (length(some) > 10000) {
      all = all some
      some = ""
    }
  }
  return all some
}

# What stands in braces: a number and a text, or numbers and a text.
function repeated(braced, place, count, text) {
  place = index(braced, " ")
  count = substr(braced, 1, place - 1)
  text = bytes_of(substr(braced, place + 1))
  return count ~ /,/ ? falling(count, text) : times(count, text)
}

# The input that a row stands for.
function input_of(row, all, place) {
  while ((place = index(row, "{"))) {
    all = all bytes_of(substr(row, 1, place - 1))
    row = substr(row, place + 1)
    place = index(row, "}")
    all = all repeated(substr(row, 1, place - 1))
    row = substr(row, place + 1)
  }
  return all bytes_of(row)
}

function run_inputs(text, pieces, count, i, row) {
  count = split(lines, pieces, "\n")
  for (i = 1; i < count; i++) {
    at = FILENAME ":" row_line[i]
    row = before (pieces[i] == "." ? "" : pieces[i])
    run("whole", "tdpmmu check", header input_of(row), text, text ~ /^refused / ? 3 : 0)
  }
}

# Any of the outputs may come.
function run_live(input, i) {
  input = lines ~ /^tdp / ? lines : header lines
  run("any", "tdpmmu live", input, allowed[1], 0)
  for (i = 1; i <= parts; i++) put(allowed[i] "status 0\n", to "/allowed/" runs "." i)
}

function run_case(text, input) {
  input = lines ~ /^tdp / ? lines : header lines
  if (way == "alone") {
    run("whole", "tdpmmu weave", input "go\n", text, 0)
    run("whole", "tdpmmu replay", input, text, 0)
  } else if (way == "plain") {
    run("whole", "tdpmmu replay", input, text, 0)
    program = "plain_replay"
    run("whole", "plain_replay", input, text, 0)
    program = "tdpmmu"
  } else if (way == "any-cache") run_any_cache(input, text)
  else if (way == "refused") run("whole", "tdpmmu replay", input, text, 3)
  else if (way == "cut") run("whole", "tdpmmu replay", substr(input, 1, length(input) - 1), text, 3)
  else if (way == "endings") run("endings", "show_steps", input, text, 0)
  else if (way == "rows") run_rows(text)
  else if (way == "inputs") run_inputs(text)
  else run("whole", "tdpmmu " way, input, text, 0)
}

function begin_case() {
  lines = text = calls = ""
  rows = parts = begun = is_bad = 0
}

# What stands since the last part of the case, if that may have several, has an end.
function end_part() {
  if (parts && way == "calls") run_calls(calls, text)
  if (parts && way == "live") allowed[parts] = text
  text = ""
}

FNR == 1 {
  if (begun) bad("the file before ends within a case")
  begin_case()
  way = ""
}

/^\/\// || ($0 == "" && !(way == "flat" && begun)) { next }

/^@ / {
  if (begun) bad("a setting within a case")
  if ($2 == "header") header = substr($0, 10) "\n"
  else if ($2 == "before") before = unfolded(substr($0, 10))
  else if ($2 == "after") after = unfolded(substr($0, 9))
  else {
    way = $2
    program = way == "calls" ? $3 : way == "endings" ? "show_steps" : "tdpmmu"
    header = before = after = ""
    if (!(way in is_way)) bad("no way to run a case")
  }
  next
}

!begun {
  begun = 1
  at = FILENAME ":" FNR
}

$0 == "--" {
  if (way == "flat") run_flat()
  else if (!parts) bad("a case without a line ==")
  else if (way == "calls") end_part()
  else if (way == "live") { end_part(); run_live() }
  else run_case(text)
  begin_case()
  next
}

$1 == "==" && way != "flat" {
  end_part()
  parts++
  calls = substr($0, 4)
  if (way != "calls" && way != "live" && parts > 1) bad("a case with two lines ==")
  next
}

parts { text = text (way == "calls" ? $0 "\n" : unfolded($0)); next }

{
  if (way == "rows" || way == "inputs") row_line[++rows] = FNR
  lines = lines (way == "rows" || way == "inputs" || way == "flat" || way == "calls" ? $0 "\n" : unfolded($0))
}

END { if (begun) bad("the last file ends within a case") }

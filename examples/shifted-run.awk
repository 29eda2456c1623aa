# Prints a trace that is too long to keep here, and with text=1 what it is answered:
#
#   awk -f examples/shifted-run.awk > shifted.trace
#   awk -v text=1 -f examples/shifted-run.awk
#
# A move takes the lowest free frame, which is the one that the move before it has left. So pages 512 down to 0 go to the frame of
# the page after them, the first one to frame 1024. Back up from page 0, each goes to its own.
BEGIN {
  put("tdp 1 vcpus 1 workers 1 pages 1024 frames 1025 words 1 pool 64 cache 64 manual 0 hosts 0", "")
  put("# A run whose frames come in a row isn't made large where the first of them is no multiple of 512. Each page is moved by itself,", "")
  put("# to the next frame; then back to its own, and the run is made large.", "")
  put("# run: replay", "")
  put("# status: 0", "")
  put("vm slot 0 0 512 0", "vm done")
  put("v0 write 0x5000 7", "v0 frame 5 value 0")
  for (page = 512; page >= 0; page--) put("h0 move " page, "h0 frame " (page == 512 ? 1024 : page + 1))
  put("h0 huge 0 2", "h0 refused not-aligned")
  put("v0 read 0x5000", "v0 frame 6 value 7")
  for (page = 0; page < 512; page++) put("h0 move " page, "h0 frame " page)
  put("h0 huge 0 2", "h0 done")
  put("v0 read 0x5000", "v0 frame 5 value 7")
}

# Prints a line of the trace, or its answer.
function put(words, answer) {
  line++
  if (!text) print words
  else if (answer != "") print line " " answer
}

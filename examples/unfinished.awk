# Prints a trace that is too long to keep here, and with text=1 what it is answered:
#
#   awk -f examples/unfinished.awk > long.trace
#   awk -v text=1 -f examples/unfinished.awk
#
# In steps: a read of a cold page makes 36 where its tables are there. Each table that is
# missing costs 515 more, and a load for each word of the pool's map before its page's. There
# are 2,048 tables of level 1, four of level 2 and one of level 3, in the pages 1 and 3 to 2,054:
# 515 * 2,053 + 31,968 = 1,089,263. With 36 * 247,520 that is 9,999,983, and one read more
# would be 10,000,019.
BEGIN {
  pages = 1048576; tables = 2048; reads = 250000; answered = 247520
  before[++above] = "tdp 1 vcpus 1 workers 0 pages 1048576 frames 1048576 words 1 pool 4096 cache 64 manual 0 hosts 0"
  before[++above] = "# An ordinary long trace that weave ends unfinished: reads of 250,000 cold pages make more than 10,000,000 turns in rounds."
  before[++above] = "# The line of a schedule, > v0 10000000, would make as many turns before the rounds begin, and all lines were answered."
  before[++above] = "# run: weave"
  before[++above] = "# status: 6"
  before[++above] = "vm slot 0 0 1048576 0"
  before[++above] = "go"
  if (!text) for (line = 1; line <= above; line++) print before[line]
  else print above - 1 " vm done"
  # The reads go over the tables of level 1, and take the next page of each in turn.
  for (read = 0; read < (text ? answered : reads); read++) {
    page = read % tables * (pages / tables) + int(read / tables)
    if (text) printf "%d v0 frame %d value 0\n", above + 1 + read, page
    else printf "v0 read %.0f\n", page * 4096
  }
  if (text) printf "unfinished %d v0\n", above + 1 + answered
}

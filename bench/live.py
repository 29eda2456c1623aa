#!/usr/bin/env python3
"""Makes random traces for `tdpmmu live`, and checks what it prints on one against what any order of its steps must meet.

    bench/live.py make SEED > TRACE
    bench/live.py check TRACE PRINTED

The same seed makes the same trace. `check` prints how often each answer came; where it finds a fault it prints that, and
ends with status 1. bench/live.sh runs both, and says what is checked.
"""
import random
import re
import sys
from collections import Counter, defaultdict, deque
from dataclasses import dataclass, replace

WRAP = 2**64
ROOM = 128  # host pages, and guest frames, from one slot's first to the next one's
RUN = {2: 512, 3: 262144}  # the pages of a run of this level


@dataclass(frozen=True)
class Slot:
    base: int
    pages: int
    host: int
    read_only: bool
    logged: bool = False


# ---- traces


class Maker:
    """A random trace. Which host page a guest frame gives is never in doubt: either all slots that ever have the frame are
    one slot, or no line moves their pages, so that the frame in an answer tells the page."""

    def __init__(self, seed):
        r = self.random = random.Random(seed)
        self.vcpus, self.hosts, self.workers = r.randint(1, 16), r.randint(1, 4), r.randint(0, 4)
        if self.vcpus + self.hosts + self.workers < 3:
            self.vcpus = 2
        self.words = r.choice([1, 1, 2, 4, 8])
        ids = r.sample(range(32), 8)
        self.fixed, self.moving, self.sharing = ids[:3], ids[3 : 3 + r.randint(0, 3)], ids[6 : 6 + r.choice([0, 2])]
        self.slots, self.bases, self.hot, self.pages = {}, {}, {}, 0
        self.large = ids[0] if r.random() < 0.4 else None  # this slot has a whole run, which may become large
        for k, i in enumerate(self.fixed + self.moving + self.sharing):
            pages = RUN[2] if i == self.large else r.choice([1, 5, 16, 64, 65, 100, 128])
            self.bases[i] = [(2 * k + turn) * ROOM + r.choice([0, 0, 2**12, 2**19, 2**30]) for turn in range(1 if i in self.fixed else 2)]
            if i == self.large:
                self.bases[i] = [2**33]
            self.slots[i] = Slot(self.bases[i][0], pages, self.pages, i not in self.sharing and r.random() < 0.15)
            self.hot[i] = [r.randrange(pages) for _ in range(r.randint(1, 4))]
            self.pages += max(pages, ROOM)
        if self.sharing:
            self.bases[self.sharing[1]][0] = self.bases[self.sharing[0]][0]
        self.kinds = defaultdict(lambda: r.choice(["add", "write", "mixed", "own"]))
        self.owners = defaultdict(lambda: r.randrange(self.vcpus))
        self.managed, self.hosted = r.choice([(0, 0), (0.02, 0.1), (0.1, 0.02), (0.1, 0.1), (0.3, 0.2)])

    def header(self):
        r, pages = self.random, self.pages
        self.firsts = [0] + sorted(r.sample(range(RUN[2] if self.large is not None and r.random() < 0.8 else 1, pages), self.hosts - 1))
        pool = r.choice([64, 100, 1024]) if r.random() < 0.7 else r.randint(4, 20)
        return (
            f"tdp 1 vcpus {self.vcpus} workers {self.workers} pages {pages} frames {pages + r.choice([0, 1, 3, 128, 200])}"
            f" words {self.words} pool {pool} cache {r.choice([1, 2, 8, 64])} manual {r.randrange(3)} hosts {' '.join(map(str, self.firsts))}"
        )

    def hot_page(self, ids):
        i = self.random.choice(ids)
        return i, self.random.choice(self.hot[i])

    def access(self):
        r = self.random
        i, page = self.hot_page(self.fixed if r.random() < 0.5 else list(self.slots))
        word, vcpu = r.randrange(self.words), r.randrange(self.vcpus)
        where = self.slots[i].host + page, word
        kind = self.kinds[where]
        if kind == "own":
            vcpu = self.owners[where]
        gfn = r.choice(self.bases[i]) + page if r.random() < 0.98 else 2**35 + page
        address = f"0x{gfn * 4096 + word * 8:x}" if r.random() < 0.5 else gfn * 4096 + word * 8
        if r.random() < 0.3:
            return f"v{vcpu} read {address}"
        if kind == "add" or kind != "write" and r.random() < 0.5:
            return f"v{vcpu} add {address} {r.randint(1, 9 if kind == 'add' else WRAP - 1)}"
        return f"v{vcpu} write {address} {r.randint(1, WRAP - 1)}"

    def host_line(self):
        r = self.random
        change = r.choice(["move", "move", "evict", "evict", "protect", "allow", "allow", "allow"])
        i, page = self.hot_page(self.fixed + self.moving if change == "move" else list(self.slots))
        page += self.slots[i].host
        if self.large is not None and r.random() < 0.3:
            change = r.choice(["huge", "huge", "small"])
            page = r.choice([0, 0, 0, r.randrange(RUN[2]), r.randrange(self.pages)])
        elif i == self.large and change in ("move", "evict") and r.random() < 0.8:
            change = "allow"
        owner = sum(first <= page for first in self.firsts) - 1
        if change == "huge":
            page = f"{page} {r.choice([2, 2, 2, 2, 3])}"
        return f"h{owner if r.random() < 0.95 else r.randrange(self.hosts)} {change} {page}"

    def manager_line(self):
        r, i = self.random, self.random.choice(list(self.slots))
        slot, kind = self.slots[i], r.choice(["slot"] * 6 + ["delete", "logon", "logoff", "get", "get", "clear", "clear"])
        if kind == "slot":
            return self.slot_line(i, r.choice(self.bases[i]))
        if kind == "delete" and i not in self.fixed:
            return f"vm slot {i} 0 0 0"
        if kind == "delete":  # lines that are refused
            other = f"{slot.base} {slot.pages + 1} {slot.host}", f"{slot.base} {slot.pages} {slot.host + 64}", f"0 {2**20} 0"
            return f"vm slot {i} {r.choice(other)}" if r.random() < 0.6 else f"vm slot {r.randrange(40)} {slot.base} 1 {slot.host}"
        if kind == "clear":
            first, count = r.choice([(0, slot.pages), (0, slot.pages), (0, 64), (64, 64), (0, 1), (64, max(slot.pages - 64, 1))])
            return f"vm clear {i} {first} {count}" + "".join(f" 0x{r.getrandbits(64):x}" for _ in range(-(-count // 64)))
        return f"vm {kind} {i if r.random() < 0.95 else r.randrange(32)}"

    def worker_line(self):
        r = self.random
        i, page = self.hot_page([self.large, self.large, *self.slots])
        return f"w{r.randrange(self.workers)} split {r.choice(self.bases[i]) + page}"

    def slot_line(self, i, base):
        slot = self.slots[i]
        return f"vm slot {i} {base} {slot.pages} {slot.host}{' ro' if slot.read_only else ''}"

    def line(self):
        if self.large is not None and self.workers and self.random.random() < 0.03:
            return self.worker_line()
        turn = self.random.random()
        return self.manager_line() if turn < self.managed else self.host_line() if turn < self.managed + self.hosted else self.access()

    def trace(self, seed):
        r, lines = self.random, [self.header(), f"# seed {seed}"]
        lines += [self.slot_line(i, self.bases[i][0]) for i in self.slots if i in self.fixed or r.random() < 0.7]
        lines += [f"vm logon {i}" for i in self.slots if r.random() < 0.3]
        lines += [self.line() for _ in range(r.choice([0, 10, 100]))]
        lines += ["go"] if r.random() < 0.9 else []
        for _ in range(r.choice([50, 300, 1000, 3000])):
            lines.append(self.line() if r.random() < 0.99 else r.choice(["", "# nothing", "> v0 end", "> vm publish"]))
        return "".join(f"{line}\n" for line in lines)


# ---- what a trace and an output say


class Fault(Exception):
    pass


def need(holds, what):
    if not holds:
        raise Fault(what)


def number(word):
    return int(word, 16 if word.startswith("0x") else 10)


@dataclass
class Line:
    number: int
    actor: str
    words: list
    answer: list
    below: bool  # it stands below `go`, or there is no `go`

    def __str__(self):
        return f"line {self.number}, '{self.actor} {' '.join(self.words)}', is answered '{' '.join(self.answer)}'"


def read(trace, printed):
    """The header's numbers, the lines with their answers, and the last line of the output."""
    rows = trace.splitlines()
    head = rows[0].split()
    sizes = {head[k]: number(head[k + 1]) for k in range(2, 18, 2)}
    sizes["firsts"] = [number(word) for word in head[19:]]
    need(printed.endswith("\n"), "the output doesn't end with a whole line")
    printed, lines, below = deque(printed.splitlines()), [], "go" not in rows
    for at, row in enumerate(rows[1:], 2):
        if row == "go":
            below = True
        elif row and row[0] not in "#>":
            actor, *words = row.split()
            need(printed, f"line {at} has no answer")
            got = printed.popleft().split(" ")
            need(got[:2] == [str(at), actor], f"where line {at} of {actor} should be answered stands '{' '.join(got)}'")
            lines.append(Line(at, actor, words, got[2:], below))
    need(len(printed) == 1, f"after the answers stand {len(printed)} lines, and not one")
    return sizes, lines, printed[0]


# ---- slots, as the manager's lines leave them


def meet(first, count, other, others):
    return first < other + others and other < first + count


def refusal(slots, words, pages):
    """Why the manager's line is refused, or None."""
    kind, i = words[0], number(words[1])
    old = slots.get(i)
    if kind == "slot" and words[3] == "0":
        rows = [("bad-id", i > 31), ("missing", not old), ("logged", old and old.logged)]
    elif kind == "slot":
        new, others = slot_of(words), [slot for other, slot in slots.items() if other != i]
        rows = [
            ("bad-id", i > 31),
            ("too-large", new.base + new.pages > 2**36 or new.host + new.pages > pages),
            ("resize", old and old.pages != new.pages),
            ("fixed", old and (old.host, old.read_only) != (new.host, new.read_only)),
            ("logged", old and old.logged and old.base != new.base),
            ("overlap", any(meet(new.base, new.pages, slot.base, slot.pages) for slot in others)),
            ("host-overlap", any(meet(new.host, new.pages, slot.host, slot.pages) for slot in others)),
        ]
    else:
        first, count = (number(words[2]), number(words[3])) if kind == "clear" else (0, 64)
        size = old.pages if old else 0
        is_bad = first % 64 or first > size or count > size - first or count % 64 and first + count != size
        rows = [
            ("missing", not old),
            ("logged", kind == "logon" and old and old.logged),
            ("no-log", kind != "logon" and old and not old.logged),
            ("bad-range", kind == "clear" and is_bad),
        ]
    return next((name for name, holds in rows if holds), None)


def slot_of(words):
    base, pages, host = map(number, words[2:5])
    return Slot(base, pages, host, len(words) == 6)


def changed(slots, words):
    """The slots after a line of the manager that is done."""
    kind, i = words[0], number(words[1])
    if kind == "slot" and words[3] == "0":
        return {other: slot for other, slot in slots.items() if other != i}
    if kind == "slot":
        return {**slots, i: replace(slot_of(words), logged=i in slots and slots[i].logged)}
    return {**slots, i: replace(slots[i], logged=kind == "logon")} if kind in ("logon", "logoff") else slots


def page_behind(slots, gfn, writes):
    for slot in slots.values():
        if slot.base <= gfn < slot.base + slot.pages:
            return None if writes and slot.read_only else slot.host + gfn - slot.base
    return None


# ---- the check


class Checker:
    def __init__(self, trace, printed):
        self.sizes, self.lines, self.memory = read(trace, printed)
        self.accesses = [line for line in self.lines if line.actor[0] == "v" and line.actor != "vm"]
        self.written = {number(line.words[1]) >> 12 for line in self.accesses if line.words[0] != "read"}
        self.early, self.late = [{}], [{}]  # the slots at each moment up to `go`, and from then on
        self.frames = defaultdict(set)  # the frames to which lines moved a page
        self.writable = defaultdict(lambda: {True})  # whether the host allows writes to a page, at each moment from `go` on
        self.touches = defaultdict(list)  # the accesses that reached a word
        self.behind = {}
        self.large = defaultdict(lambda: 1)  # of which level the host maps a page, after the lines of its thread so far
        self.allowed = defaultdict(lambda: True)  # whether it allows writes to it, so far
        self.evicted = set()  # the pages that were evicted at some moment
        self.may_starve = self.is_tight()

    def is_tight(self):
        """A claim fails only where it has found each word of the pool's map full, one after another. No 64 pages are taken
        at once where there are fewer tables and slot sets, with two pages for each vCPU."""
        groups = set()
        for line in self.lines:
            if line.actor == "vm" and line.words[0] == "slot":
                slot = slot_of(line.words)
                if 1 <= slot.pages <= self.sizes["pages"] and slot.base + slot.pages <= 2**36:
                    groups |= {(s, g) for s in (9, 18, 27) for g in range(slot.base >> s, (slot.base + slot.pages - 1 >> s) + 1)}
        return self.sizes["pool"] < 64 or 4 + len(groups) + 2 * self.sizes["vcpus"] >= 64

    def check(self):
        slots = {}
        for line in self.lines:
            if line.actor == "vm":
                slots = self.manager_line(line, slots)
        self.host_lines()
        for line in self.lines:
            if line.actor[0] == "w":
                need(line.answer == ["done"] or line.answer == ["starved"] and self.may_starve, line)
        for line in self.accesses:
            self.access(line)
        self.order_accesses()
        self.last_line(slots)

    def manager_line(self, line, slots):
        why = refusal(slots, line.words, self.sizes["pages"])
        if why:
            need(line.answer == ["refused", why], f"{line}, and not 'refused {why}'")
        elif line.words[0] in ("get", "clear"):
            self.bits(line, slots[number(line.words[1])])
        elif line.answer == ["starved"]:
            need(self.may_starve and changed(slots, line.words) != slots, line)
        else:
            need(line.answer == ["done"], f"{line}, and not 'done'")
            slots = changed(slots, line.words)
        self.late = self.late + [slots] if line.below else [slots]
        self.early += [] if line.below else [slots]
        return slots

    def bits(self, line, slot):
        first, count = (number(line.words[2]), number(line.words[3])) if line.words[0] == "clear" else (0, slot.pages)
        words = line.answer[1:]
        need(line.answer[0] == "bits" and len(words) == -(-count // 64), f"{line}, and not with {-(-count // 64)} words")
        need(all(re.fullmatch("0x(0|[1-9a-f][0-9a-f]{0,15})", word) for word in words), line)
        asked = 2**count - 1
        if line.words[0] == "clear":
            asked &= sum(number(word) << 64 * k for k, word in enumerate(line.words[4:]))
        got = sum(number(word) << 64 * k for k, word in enumerate(words))
        need(got & asked == got, f"{line}, with bits that weren't asked for")
        pages = [slot.base + first + k for k in range(count) if got >> k & 1]
        need(self.sizes["manual"] == 2 or self.written.issuperset(pages), f"{line}, with a page that no line writes")

    def host_lines(self):
        firsts = self.sizes["firsts"] + [self.sizes["pages"]]
        lines = [line for line in self.lines if line.actor[0] == "h"]
        own = {line.number for line in lines if self.is_own(line, firsts)}
        moved = {number(line.words[1]) for line in lines if line.number in own and line.words[0] == "move"}
        spare, frame_of = self.sizes["frames"] - self.sizes["pages"], {}
        # Of 128 frames to spare 64 are a word of the map, which so few pages don't fill.
        always = spare >= 128 and len(moved) + len(firsts) < 64
        for line in lines:
            change, page = line.words[0], number(line.words[1])
            if line.number not in own:
                need(line.answer == ["refused", "out-of-range"], f"{line}, and not 'refused out-of-range'")
            elif change in ("huge", "small"):
                self.run_line(line, change, page, frame_of)
            elif self.large[page] > 1:
                need(line.answer == ["refused", "is-huge"], f"{line}, and not 'refused is-huge'")
                continue
            elif change == "move" and line.answer == ["refused", "no-frame"]:
                need(not always, line)
            elif change == "move":
                frame = self.numbers(line, "frame N")[0]
                is_free = frame < self.sizes["frames"] and (frame >= self.sizes["pages"] or frame in moved)
                need(spare and is_free and frame != frame_of.get(page, page), f"{line}: the frame wasn't free")
                frame_of[page] = frame
                self.frames[page].add(frame)
            else:
                need(line.answer == ["done"], f"{line}, and not 'done'")
            if line.number in own and change == "evict":
                self.evicted.add(page)
            if line.number in own and change in ("protect", "allow"):
                self.allowed[page] = change == "allow"
                self.writable[page] = (self.writable[page] if line.below else set()) | {change == "allow"}

    def is_own(self, line, firsts):
        """Whether the pages that the line names are its thread's: those of the run that it is to make large, or one."""
        page, end = number(line.words[1]), firsts[int(line.actor[1:]) + 1]
        last = page + RUN[number(line.words[2])] - 1 if line.words[0] == "huge" else page
        return firsts[int(line.actor[1:])] <= page and last < end

    def run_line(self, line, change, page, frame_of):
        """A line that makes a run large, or the pages of one small. Only its thread changes these pages, but that an access
        brings in those that were evicted: so all else is known from the thread's lines before."""
        if change == "small":
            need(line.answer == ["done"], f"{line}, and not 'done'")
            first, pages = page // RUN.get(self.large[page], 1) * RUN.get(self.large[page], 1), RUN.get(self.large[page], 1)
            self.large.update({other: 1 for other in range(first, first + pages)})
            return
        pages = range(page, page + RUN[number(line.words[2])])
        first = frame_of.get(page, page)
        aligned = page % len(pages) == 0 == first % len(pages)
        alike = all(frame_of.get(other, other) == first + other - page and self.allowed[other] == self.allowed[page] for other in pages)
        if any(self.large[other] > 1 for other in pages):
            need(line.answer == ["refused", "is-huge"], f"{line}, and not 'refused is-huge'")
        elif not (aligned and alike) or self.evicted.intersection(pages) and line.answer != ["done"]:
            need(line.answer == ["refused", "not-aligned"], f"{line}, and not 'refused not-aligned'")
        else:
            need(line.answer == ["done"], f"{line}, and not 'done'")
            self.large.update({other: number(line.words[2]) for other in pages})

    def numbers(self, line, form):
        """The numbers of an answer of this form."""
        found = re.fullmatch(form.replace("N", "(0|[1-9][0-9]*)"), " ".join(line.answer))
        need(found and all(int(word) < WRAP for word in found.groups()), f"{line}, and not '{form}'")
        return [int(word) for word in found.groups()]

    def access(self, line):
        writes, address = line.words[0] != "read", number(line.words[1])
        key = address >> 12, writes, line.below
        if key not in self.behind:
            self.behind[key] = {page_behind(slots, key[0], writes) for slots in (self.late if line.below else self.early)}
        pages = self.behind[key] - {None}
        if line.answer == ["mmio"]:
            need(None in self.behind[key], f"{line}: its slot is always there")
        elif line.answer == ["starved"]:
            need(pages and self.may_starve, line)
        elif line.answer == ["hostfault"]:
            need(writes and any(not line.below or False in self.writable[page] for page in pages), line)
        else:
            frame, line.found = self.numbers(line, "frame N value N")
            pages = [page for page in pages if frame == page or frame in self.frames[page]]
            need(len(pages) == 1, f"{line}: {len(pages)} pages behind its address are ever at this frame")
            need(not writes or not line.below or True in self.writable[pages[0]], f"{line}: the host never allows it")
            self.touches[pages[0], address % 4096 // 8].append(line)

    def order_accesses(self):
        """All accesses stand in one order: the lines of an actor in that of the file, those above `go` first, and each finds what
        the one before it left in its word. Written numbers are so many that no word holds one twice."""
        later, waits, self.finals = defaultdict(list), Counter(), {}

        def follow(first, second):
            if first:
                later[first.number].append(second.number)
                waits[second.number] += 1

        reached = sorted((line for lines in self.touches.values() for line in lines), key=lambda line: line.number)
        last, head = {}, None
        for line in reached:
            follow(last.get(line.actor, head) if line.below else head, line)
            if line.below:
                last[line.actor] = line
            else:
                head = line
        for where, lines in self.touches.items():
            changes, reads, value, change = {}, defaultdict(list), 0, None
            for line in lines:
                if line.words[0] == "read":
                    reads[line.found].append(line)
                else:
                    need(line.found not in changes, f"{line}, and {changes.get(line.found)}")
                    changes[line.found] = line
            while True:
                here, was, change = reads.pop(value, []), change, changes.pop(value, None)
                for line in here:
                    follow(was, line)
                if not change:
                    break
                for line in here + ([was] if was else []):
                    follow(line, change)
                value = number(change.words[2]) if change.words[0] == "write" else (value + number(change.words[2])) % WRAP
            left = [*changes.values(), *(line for lines in reads.values() for line in lines)]
            need(not left, f"{left and left[0]}: no order of the accesses of page {where[0]}, word {where[1]}, leaves this value")
            self.finals[where] = value
        ready = [line.number for line in reached if not waits[line.number]]
        while ready:
            for at in later[ready.pop()]:
                waits[at] -= 1
                if not waits[at]:
                    ready.append(at)
        left = sorted(at for at in waits if waits[at])[:9]
        need(not left, f"no order of the accesses has all values, and the lines of each actor in turn: look at the lines {left}")

    def last_line(self, slots):
        wanted = ["memory"]
        for i, slot in sorted(slots.items()):
            for page in range(slot.pages):
                for word in range(self.sizes["words"]):
                    value = self.finals.get((slot.host + page, word), 0)
                    wanted += [f"{i}:{page}:{word}={value}"] if value else []
        got = self.memory.split(" ")
        differ = sorted(set(got) ^ set(wanted))[:6]
        need(got == wanted, f"the last line isn't what the answers leave: look at {' '.join(differ) or 'the order of its words'}")


def main(words):
    if len(words) == 2 and words[0] == "make":
        sys.stdout.write(Maker(int(words[1])).trace(int(words[1])))
    elif len(words) == 3 and words[0] == "check":
        try:
            checker = Checker(open(words[1]).read(), open(words[2]).read())
            checker.check()
        except Fault as fault:
            print(fault)
            return 1
        counts = Counter("-".join(line.answer) if line.answer[0] == "refused" else line.answer[0] for line in checker.lines)
        print(*(f"{name} {count}" for name, count in sorted(counts.items())))
    else:
        print(__doc__)
        return 2
    return 0


if __name__ == "__main__":
    sys.exit(main(sys.argv[1:]))

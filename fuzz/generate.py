#!/usr/bin/env python3
"""Writes a random script that reaches far: queues that wrap, readers that lag, edges of memory, processors that are
notified wherever their context is, moves out of turn, accesses beside what a thread's pages have, hypercalls at the
border of each of their checks, lines that are wrong.

    fuzz/generate.py SEED                   the script of a seed, always the same one
    fuzz/generate.py deep                   one long script: a queue of 2 MiB wraps, and is read across the wrap

A script is given to the model while it is made, so that the generator knows pairs and places. Besides that it has the
words of lines and their ranges from the model, to make lines that are wrong by one thing. A scene makes a whole script;
what one line may be is in `any_line`.
"""
import random
import sys

from model import CALLS, COUNTS as HEADER_COUNTS, LINES, RANGES, Refused, Run

TOP = 1 << 64
PAYLOADS = (0, 1, 0x10, 0x7f, 0x80, 0xff, 0x100, 0xff00, 0x10000, 0x1020304, 0x7f000000, 0x40000000, 0x7ffffffe,
            0x7fffffff, 0x80000000, 0x80000001, 0xffffffff, 0x100000000, 0x1ffffffff, 0xdeadbeef12345678, TOP - 1)
COUNTS = (1023, 1024, 1025, 1030, 1100, 1600, 2047, 2048, 2049, 2060, 2500, 3000, 3080)
NO_CALLS = (0, 4, 0x3a0, 0x3a4, 0x3a7, 0x3a9, 0x3ad, 0x3c0, 0x3c0, 0x3c4, 0x3c4, 0x3c1, 0x3c9, 0x3d1, 0x3d4, 0x999,
            0x13a8, (1 << 16) + 0x3b0, (1 << 32) + 0x3ac, (1 << 32) + 0x3d0, (1 << 63) + 0x3cc, TOP - 1)
NO_ATTRIBUTES = (0, 6, 7, 8, 9, 0x102, 0x104, 1 << 16 | 3, 1 << 31, (1 << 32) - 1)
NO_CONTROLS = (0, 4, 5, 0x101, 1 << 32 | 1, 1 << 32 | 2, 1 << 32 | 3, 1 << 63 | 2, TOP - 1)
LAGS = (0, 0, 0, 1, 2, 5, 40, 511, 1022, 1023, 1023, 1024, 1024, 1025, 1026, 1500, 2047, 2048, 2049, 2050, 2600)
ODD_BYTES = "\t\r\x00\x7f\x80\xff #"
TELLING_BYTES = "  0179axX-#v~\x1f\x7f\t"
FIRST_WORDS = """board sources processors threads ram actors esb level unclaimed unconnected go start end msix sched
    save resume endset x 0 00000000000000000000 000000000000000000000 18446744073709551615 18446744073709551616
    99999999999999999999 100000000000000000000 0xffffffffffffffff 0x0000000000000000 0x10000000000000000
    0x00000000000000000 0x -1 +0 0_0 #0 Board END Start""".split()
ODD_WORDS = """18446744073709551615 18446744073709551616 99999999999999999999 000000000000000000001
    00000000000000000001 0x 0X 0x00000000000000001 0xffffffffffffffff 0x10000000000000000 -1 +1 1. 1_0 0b1 1x 0xg x1
    - -- v e vqnbe qv vv vqs 00 01 11 000 2 3 4 7 8 9 12 13 16 21 24 0xff 0x100 255 256 0xffff 0x10000 65536 0xffffffff
    0x100000000 level end go # 0# trigger""".split()
ODD_LINES = """start; end 0; END; end now; go; board 1; sources 1; unclaimed 0 0; level 0 0; unconnected 0 0; 0; 0 end
    0 go; 0 hcall 0x3b8 1 0 0 0x1000; 0 hcall 0x3a8; 0 unconnected 0 0; 0 hcall 0x3cc 0 0 0 0; 0 hcall; 0 hcall -1
    0 hcall 0x3ac 0 0 0 0; 0 hcall 0x3ac 0 0 0 0 0 0; 0 hcall 0x3d0 0 0 0 0 0 0; 0 hcall 0x3ac 0 0 0 0 0x
    0 hcall H 0 0 0 0 0; 0 hcall 0x999 0 0 0 0; 0 Hcall 0x3d0 0 0 0 0 0; hcall 0x3d0 0 0 0 0 0
    0 Read 0; 0 read; 0 read 0 0
    0 peek; 0 peek 0 0; 0 zero 0; 0 zero 0 0 0; 0 reads 0; 0 peak 0; read 0; peek 0; zero 0 4; 0 read 0x; 0 peek -4
    0 zero 0 -4; 0 peek 18446744073709551616; 0 zero 0 0x10000000000000000; 0 read 4294967296
    0 endset 0 v 0 0 0 0 7 0
    0 endset 0 v 0 0 0 0 0 1; 0 endset 0 q 0 0 0 12 0 0; 0 endset 0 v 0 0 0x1000 0 0 0; 0 endset 0 v 0 0 0 12 0 0
    0 endset 0 - 0 1 0 0 0 0; 0 endset 0 - 0 0 0x1000 0 0 0; 0 endset 0 vq 0 0 0 4294967308 0 0; 0 raise 0; 0 lower 0
    0 endset 0 v 0 8 0 0 0 0; 0 assert 0; 0 init 0 1; 0 load 0 1 0; 0 endload 0 2 0; 0 peek 000000000000000000000
    0 tload 0 2 0x810 2; 0 tload 0 1 0x818 4; 0 tload 0 2 0x10 8; 0 tload 0 0 0x10 8; 0 tstore 0 2 0x11 1 4
    0 tstore 0 1 0x18 4 0x80000400; 0 tstore 0 2 0x812 1 0; 0 reset 0; 0 resets; reset; 0 migrate; 0 start
    0 kvmset 3 0 0; 0 kvmeq 0 1 12 0x1000 1 0; 0 kvmget 4 0; 0 vpget 0; 0 vpset 0 0xff 0; 0 escalate 0; 0 present 0 0
    0 settle 0; 0 settle 1; settle; 0 Settle; 0 settles; 0 take; 0 take 0 0; 0 take -1; 0 take 4294967296; take 0
    0 take 0x100000000; 0 takes 0; 0 connect; 0 connect 0 0; 0 disconnect 0; 0 restore 0; 0 restore 0 0 0; 0 restore
    0 save; 0 save 0 0; 0 push 0; 0 push 0 0 0; 0 push 0 0x80000400; 0 push 0 0x400; 0 push; 0 pull; 0 pull 0 0
    0 pull 0 0 0; 0 cppr 0; 0 cppr 0 0 0; 0 cppr 0 0x100; 0 cppr 0 256; 0 cppr 0 -1; 0 ack; 0 ack 0 0; 0 ack 0 0 0
    0 inject 0; 0 inject 0 0 0; 0 inject 0 256; 0 inject 0 0x100; 0 regs; 0 regs 0 0; 0 reg 0; 0 ring 0; 0 ipb 0 0
    0 kvmset; 0 kvmset 3; 0 kvmset 3 0; 0 kvmset 3 0 0 0; 0 kvmset -1 0 0; 0 kvmset 4294967296 0 0
    0 kvmset 3 0 18446744073709551616; 0 kvmset 4 0 1 12 0x1000 1 0; kvmset 3 0 0; 0 kvmseq 0 1 12 0x1000 1 0
    0 kvmeq 0 1 12 0x1000 1; 0 kvmeq 0 1 12 0x1000 1 0 0; 0 kvmeq 0 vqnb 12 0x1000 1 0
    0 kvmeq 0 1 12 0x1000 1 4294967296; 0 kvmeq 0 1 12 0x1000 4294967296 0; 0 kvmeq 0 1 4294967308 0x1000 1 0
    0 kvmeq 0 4294967297 12 0x1000 1 0; 0 kvmget; 0 kvmget 4; 0 kvmget 4 0 0; 0 kvmget 4294967300 0; 0 vpget
    0 vpget 0 0; 0 vpget 64; 0 vpset 0; 0 vpset 0 0; 0 vpset 0 256 0; 0 vpset 0 0 256; 0 vpset 0 0 0 0
    0 vpset 64 0 0; 0 migrate 0; 0 Migrate; migrate; 0 migrates"""
ODD_LINES = [line.strip() for line in ODD_LINES.replace("\n", ";").split(";")]


ODD_ESCALATION_LINES = """0 quiet; 0 quiet 0 0; 0 quiet -1; 0 quiet 8192; 0 Quiet 0; 0 quite 0; quiet 0
    0 quiet 4294967296; 0 sync; 0 sync 0 0; 0 sync 8192; 0 sync 0x; sync 0; 0 syncs 0; 0 drain 0; drain; 0 drains
    0 Drain; 0 sync 4294967296; 0 endset 0 vev 0 0 0 0 7 0; 0 endset 0 ve 0 0 0 0 7; 0 endset 0 ve 0 0 0 0 7 0 0
    0 endset 0 vbn 0 0 0 0 0 0; 0 endset 0 veu 0 0 0 0 0x100000007 0; 0 endset 0 VE 0 0 0 0 7 0
    0 endset 0 vee 0 0 0 0 7 0; 0 endset 0 ve 0 0 0 0 7 0x100000000; 0 endset 0 ve 0 0 0 0 -1 0; 0 take; 0 escalate 0"""
ODD_ESCALATION_LINES = [line.strip() for line in ODD_ESCALATION_LINES.replace("\n", ";").split(";")]


class Script:
    def __init__(self, seed):
        self.random = random.Random(seed)
        self.lines = []
        self.run = Run()
        self.broken = False  # a line was refused
        self.plain = False   # spell everything as one would write it
        self.ending = None   # what stands behind the last line, where the scene says it

    # -- spelling

    def spelled(self, n):
        kind = 0 if self.plain or n >= TOP else self.random.randrange(24)
        if kind < 12:
            return str(n)
        if kind < 19:
            return hex(n)
        if kind == 19:
            return "0X" + format(n, "X")
        if kind == 20:
            return "0x" + hex(n)[2:].zfill(self.random.randrange(1, 17))
        if kind == 21:
            return "0x" + "".join(self.random.choice((c, c.upper())) for c in hex(n)[2:])
        return str(n).zfill(20 if kind == 22 else self.random.randrange(1, 21))

    def feed(self, line):
        """One line as bytes. Once a line is refused, the model gets no more."""
        self.lines.append(line)
        if not self.broken:
            try:
                self.run.feed(line)
            except Refused:
                self.broken = True
            self.run.out.clear()

    def say(self, *words):
        """A line of words and numbers."""
        texts = [word if isinstance(word, str) else self.spelled(word) for word in words]
        line = " ".join(texts)
        if not self.plain and self.random.randrange(12) == 0:
            line = " " * self.random.randrange(3)
            line += "".join(text + " " * self.random.choice((1, 1, 2, 5)) for text in texts)
            if self.random.randrange(8) == 0:
                line = line.ljust(256)
            elif self.random.randrange(2):
                line = line.rstrip(" ")
        self.feed(line.encode("latin-1"))

    def work(self, *words):
        self.say(self.random.randrange(self.actors), *words)

    def remark(self):
        pick = self.random
        some = bytes(pick.randrange(0x20, 0x7f) for _ in range(pick.randrange(60)))
        self.feed(pick.choice((b"", b" " * pick.choice((1, 7, 256)), b"#" * pick.choice((1, 80, 256)), b" # " + some)))

    # -- the board

    def header(self, fewest_mib=0, crowd=False, gaps=False, empty=False):
        """With a crowd there are more processors and threads, and more often some that aren't connected; with gaps
        there are more often sources that aren't claimed. An empty board has no processor that is connected."""
        pick = self.random
        sources = pick.choice((1, 2, 2, 3, 4))
        processors = pick.choice((1, 2, 2, 2, 3, 3, 4, 5, 64) if crowd else (1, 1, 2))
        mib = pick.choice((0,) * 2 + (1,) * 12 + (2,) * 8 + (3, 16, 17, 64))
        self.say("board", 1)
        self.say("sources", sources)
        self.say("processors", processors)
        self.say("threads", pick.choice((1, 1, 2, 2, 3, 4, 32) if crowd else (1, 2)))
        self.say("ram", max(fewest_mib, mib))
        self.say("actors", pick.choice((1, 2, 3)))
        self.say("esb", pick.choice((1, 2)), pick.choice((0, 1)))
        for name, numbers, chances in (("level", sources, (0, 0, 1, 1, 2)),
                                       ("unclaimed", sources, (0, 0, 0, 0, 0, 1) + (1,) * 6 * gaps),
                                       ("unconnected", processors, (0, 0, 1, 1, 2) if crowd else (0,) * 15 + (1,))):
            for _ in range(pick.choice(chances)):
                first = pick.randrange(numbers)
                self.say(name, first, pick.choice((first, pick.randrange(first, numbers))))
        if empty:
            self.say("unconnected", 0, processors - 1)
        self.say("go")
        self.learn()

    def learn(self):
        """What the board is that the header makes."""
        pick = self.random
        self.machine = self.run.machine
        self.count = len(self.machine.sources)
        self.processors = range(len(self.machine.processors))
        self.threads = range(len(self.machine.threads))
        self.actors = self.machine.counts["actors"]
        self.size = self.machine.memory.size
        self.ends = range(len(self.machine.ends))
        self.few = pick.sample(self.ends, pick.choice((1, 2, 2, 3)))  # the ENDs that are used most
        most = pick.choice((1, 2, 2, 3, 4))
        self.crew = pick.sample(self.processors, min(len(self.processors), most))  # the processors that are used most
        self.seats = pick.sample(self.threads, min(len(self.threads), pick.choice((1, 1, 2, 3))))  # likewise
        self.home = pick.randrange(max(1, self.size >> 12)) << 12  # where most queues are
        last = self.ends[7::8]
        self.relays = pick.sample(last, min(len(last), pick.choice((1, 1, 2))))  # to which ENDs escalate mostly

    # -- what stands where

    def source(self):
        return self.random.randrange(self.count)

    def end(self):
        return self.random.choice(self.few if self.random.randrange(10) else self.ends)

    def target(self):
        """An END to which a source can be assigned."""
        return self.random.choice([e for e in self.few if e % 8 < 7] or [0])

    def processor(self):
        return self.random.choice(self.crew if self.random.randrange(10) else self.processors)

    def thread(self):
        return self.random.choice(self.seats if self.random.randrange(10) else self.threads)

    def queues(self):
        return [end for end in self.machine.ends if "q" in end.flags]

    def place(self):
        """An address that matters to a queue, or else somewhere."""
        pick = self.random
        queues = self.queues()
        if not queues or pick.randrange(8) == 0:
            return pick.randrange(max(1, self.size >> 2)) << 2
        end = pick.choice(queues)
        return pick.choice((
            end.place(end.written) + 4 * pick.choice((-2, -1, 0, 0, 1)),
            end.place(end.taken) + 4 * pick.choice((-1, 0, 0, 1, 2)),
            max(0, end.address + 4 * pick.choice((-2, -1, 0, 0, 0, 1, 2))),
            end.address + (1 << end.shift) + 4 * pick.choice((-2, -1, -1, 0, 1)),
            end.address + 4 * pick.randrange(end.entries()),
            end.address + 4 * pick.randrange(end.entries())))

    def edge(self):
        """An address near the end of memory, or where a sum could wrap."""
        pick = self.random
        size = self.size
        near = pick.choice((0, size, size, size, size - 4, TOP - 4, TOP - 1, 1 << 32, (1 << 32) + self.home, 1 << 63,
                            TOP - size, 1 << 31, (1 << 32) + size, size << 1))
        return near + pick.choice((0, 0, 0, -4, 4, -8, 1, 2, 3, -1, -2, -3))

    # -- lines

    def escalates(self, e):
        """Letters behind the others, an END and a payload: how an END escalates."""
        pick = self.random
        if e % 8 == 7:
            return pick.choice(("",) * 9 + ("u", "s", "us")), 0, 0
        letters = pick.choice(("", "s", "u", "us", *("e",) * 8, *("eu",) * 4, *("es",) * 3, "eus"))
        if "e" not in letters:
            return letters, 0, 0
        relay = pick.choice(self.relays if pick.randrange(12) else self.ends[7::8])
        return letters, relay, pick.choice((0, 1, e, 0x7fffffff, pick.getrandbits(31), pick.getrandbits(8)))

    def configure(self, e=None, flags=None, shift=None, address=None):
        pick = self.random
        e = self.end() if e is None else e
        flags = flags or pick.choice(("vq",) * 8 + ("vqb",) * 4 + ("vqn", "vqnb", "vqn", "v", "vn", "vb", "-", "-"))
        if flags == "-":
            return self.work("endset", e, flags, 0, 0, 0, 0, 0, 0)
        target, priority = self.processor(), pick.randrange(8)
        letters, relay, payload = self.escalates(e)
        if "q" not in flags or self.size == 0:
            flags = flags.replace("q", "") + letters
            return self.work("endset", e, flags, target, priority, 0, 0, relay, payload)
        shift = shift or pick.choice((12,) * 14 + (16,) * 4 + (21, 24))
        if 1 << shift > self.size:
            shift = 12
        last = self.size - (1 << shift)
        if address is None:
            address = self.home + pick.choice((0,) * 6 + (0x1000, -0x1000, 0x2000))
            address = pick.choice((address, address, address, 0, last, pick.randrange(self.size)))
        address = min(max(address, 0), last) >> shift << shift
        self.work("endset", e, flags + letters, target, priority, address, shift, relay, payload)

    def assign(self, s=None, e=None):
        """Mostly so that the notices of the source reach the END."""
        pick = self.random
        s = self.source() if s is None else s
        e = self.target() if e is None else e
        flags, target, priority = pick.choice((2,) * 6 + (0, 0, 3, 1)), e // 8, e % 8
        payload = pick.choice(PAYLOADS) if pick.randrange(2) else pick.getrandbits(pick.choice((7, 31, 32, 64)))
        odd = pick.randrange(60 if self.plain else 12)
        if odd == 0:
            priority = pick.choice((0xff, 0xff, 0xff, 7, 7, 8, 0x100, 0x1ff, TOP - 1, 1 << 32))
        elif odd == 1:
            most = self.processors[-1]
            target = pick.choice((most + 1, most, 1 << 32, (1 << 32) + target, 1 << 61, TOP - 1))
        elif odd == 2:
            flags = pick.choice((4, 5, 6, 1 << 32, TOP - 1))
        elif odd == 3:
            s = pick.choice((self.count, self.count - 1, 1 << 32, TOP - 1))
        elif odd == 4:
            target = pick.choice([v for v in self.processors if not self.machine.processors[v].connected] or [target])
        self.work("hcall", 0x3ac, flags, s, target, priority, payload)
        if priority == 0xff and pick.randrange(2):
            self.work("hcall", 0x3ac, 0, s, target, e % 8, payload)  # no longer masked; the payload stays 0

    def call(self, number=None):
        """A hypercall, often with an argument or two at the border of a check, and what shows its effect."""
        pick = self.random
        number = number or pick.choice((*CALLS, *CALLS, 0x3b8, 0x3b8, 0x3c8, pick.choice(NO_CALLS)))
        names = CALLS[number].names.split() if number in CALLS else []
        given = dict(zip(names, self.good_arguments(number, names)))
        for name in pick.sample(names, min(len(names), pick.choice((0, 0, 0, 0, 1, 1, 1, 2, 2, 3)))):
            given[name] = pick.choice(self.border(name, given))
        ignored = [pick.choice((0, 0, 0, 1, 0xff, TOP - 1)) for _ in range(5 - len(names))]
        self.work("hcall", number, *given.values(), *ignored)
        if pick.randrange(2):
            self.ask(given)

    def good_arguments(self, number, names):
        """Values with which the call is accepted, mostly."""
        pick = self.random
        e = self.target() if pick.randrange(4) else 8 * self.processor() + pick.randrange(7)
        size = pick.choice((12, 12, 12, 12, 16, 21, 24, 0))
        address = pick.choice((0, self.home, self.home, max(0, self.size - (1 << size)))) >> size << size
        flags = {0x3ac: (0, 1, 2, 2, 2, 3), 0x3b8: (0, 1), 0x3bc: (0, 1, 1), 0x3c8: (0, 1)}.get(number, (0,))
        offset = pick.choice((0, 0x3ff, 0x400, 0x7ff, 0x800, 0xbff, 0xc00, 0xc00, 0xd00, 0xe00, 0xf00, 0xfff, 0x1000,
                              0xffff, pick.randrange(0x10000)))
        good = {"flags": pick.choice(flags), "lisn": self.source(), "target": e // 8, "priority": e % 8, "size": size,
                "address": address, "eisn": pick.choice(PAYLOADS), "offset": offset}
        return [good[name] for name in names]

    def border(self, name, given):
        """Values on both sides of what a check asks of an argument, or that are good where they are cut."""
        good, sources, processors = given[name], self.machine.sources, self.machine.processors
        high = ((1 << 32) + good, (1 << 63) + good, (1 << 16) + good, TOP - 1)
        whole = 1 << min(given.get("size", 0), 32)
        return {
            "flags": (1, 2, 3, 4, 4, 5, 8, 0x10, *high),
            "lisn": (*[s for s, source in enumerate(sources) if not source.valid] * 4,
                     len(sources) - 1, *(len(sources),) * 3, len(sources) + 1, *high),
            "target": (*[v for v, processor in enumerate(processors) if not processor.connected] * 2,
                       len(processors) - 1, *(len(processors),) * 3, len(processors) + 1, *high),
            "priority": (5, 6, 6, 7, 7, 7, 8, 0x80, 0xff, 0xff, 0xff, 0x100, 0x1ff, *high),
            "size": (0, 0, 1, 2, 11, 13, 13, 14, 15, 16, 17, 20, 21, 22, 23, 24, 25, 28, 32, 64, 76, 0x10c, *high),
            "address": (self.size, self.size, self.size - whole, self.size - whole // 2, self.size - whole + 4, 4,
                        whole // 2, whole + 1, good + 4, good + 0x800, 0x1000, 0x10000, 0x200000, TOP - whole, *high),
            "eisn": PAYLOADS,
            "offset": (0xffff, *(0x10000,) * 4, 0x10001, 0x10c00, 0x20000, *high),
        }[name]

    def ask(self, given):
        """The get of what was named, or else of anything."""
        pick = self.random
        queue = "target" in given if pick.randrange(8) else pick.randrange(2)
        target, priority = given.get("target", self.processor()), given.get("priority", pick.randrange(7))
        if queue and "lisn" not in given:
            self.work("hcall", 0x3bc, pick.choice((0, 1, 1)), target, priority, 0, 0)
        else:
            self.work("hcall", 0x3b0, 0, given.get("lisn", self.source()), 0, 0, 0)

    def ask_queue(self, e):
        self.work("hcall", 0x3bc, self.random.choice((0, 1, 1, 1)), e // 8, e % 8, 0, 0)

    def reset(self):
        """A reset, what it left, and mostly a board that works again then."""
        pick = self.random
        written = [end.place(max(0, end.written - 1)) for end in self.queues()]
        self.work(*pick.choice((("reset",), ("hcall", 0x3d0, 0, 0, 0, 0, 0), ("hcall", 0x3d0, 0, *[TOP - 1] * 4))))
        for address in written[:2]:
            self.work("peek", address)
        s, e = self.source(), self.target()
        self.work("hcall", 0x3b0, 0, s, 0, 0, 0)
        self.ask_queue(e)
        if pick.randrange(4):
            self.configure(e)
            self.assign(s, e)
            self.switch_on(s)

    def event(self, s=None):
        """What makes a source forward, mostly with its route."""
        pick = self.random
        s = self.source() if s is None else s
        source = self.machine.sources[s]
        if source.pq == "01":
            self.work("set", s, "00")
        if source.level and source.asserted and pick.randrange(60):
            self.work("finish", s)
        elif source.level and pick.randrange(20) == 0:
            self.work("assert" if source.pq == "00" else pick.choice(("raise", "lower", "assert")), s)
        else:
            if source.pq == "00" or (source.pq == "10" and not source.level and pick.randrange(3) == 0):
                self.work("fire", s)
            if source.pq == "11" or (source.pq == "10" and pick.randrange(4)):
                self.work("finish", s)

    def read(self, e=None):
        self.work("read", self.end() if e is None else e)

    def peek(self):
        self.work("peek", (self.place() if self.random.randrange(4) else self.edge()) % TOP)

    def zero(self):
        pick = self.random
        what = pick.randrange(10)
        queues = self.queues()
        if what < 2:
            address, length = self.edge() % TOP, pick.choice((1, 2, 3, 4, 8, self.size, self.size + 4, 1 << 32))
            to_the_end = pick.choice((self.size, TOP, TOP, TOP + self.size, 1 << 32)) - address
            length = pick.choice((length, 0, to_the_end, to_the_end + 4, to_the_end - 4, TOP - 4, TOP - 8))
            self.work("zero", address, max(0, length) % TOP)
        elif what < 6 and queues:
            end = pick.choice(queues)
            whole = 1 << end.shift
            self.work("zero", *pick.choice((
                (end.address, whole), (end.address + pick.choice((0, whole >> 1)), whole >> 1),
                (end.place(end.taken), 4 * pick.choice((1, 1, 2, 5, 40))),
                (max(0, end.place(end.written) + 4 * pick.choice((-3, -2, -1, 0))), 4 * pick.choice((1, 2, 3, 9))))))
        else:
            length = pick.choice((0, 4, 4, 8, 12, 64, 0x1000, 2, 5, 4 * pick.randrange(1200)))
            self.work("zero", self.place() % TOP, length)

    def access(self):
        """A load or a store on a page of a source or of an END."""
        pick = self.random
        offset = pick.choice((0, 0x3ff, 0x400, 0x7ff, 0x800, 0xbff, 0xc00, 0xd00, 0xe00, 0xf00, 0xfff, 0x1000, 0xffff,
                              pick.randrange(0x10000)))
        what = pick.randrange(5)
        if what < 2:
            self.work(("load", "store")[what], self.source(), pick.randrange(self.machine.pages), offset)
        elif what == 2:
            self.work("endstore", self.end(), pick.randrange(2), offset)
        else:
            self.work("endload", self.end(), pick.choice((0, 0, 0, 1)), pick.choice((0, 0, 0xc00, 0xd00, offset)))

    def reopen(self):
        """Gives an END its state back, so that it presents again."""
        self.work("endload", self.end(), 0, 0xc00)

    # -- lines on processors and threads

    def notify(self):
        """An event for an END, which is often told before whom to notify, and how; its message may be taken."""
        pick = self.random
        if pick.randrange(2):
            self.configure(self.end(), pick.choice(("vnb",) * 4 + ("vn", "vn", "vb", "v", "vqnb")))
        self.event()
        if pick.randrange(2):
            self.take()

    def take(self):
        """Mostly the first message, else one in the middle, or none."""
        pick = self.random
        many = len(self.machine.flight)
        if pick.randrange(8) == 0:
            return self.work("settle")
        self.work("take", pick.choice((0, 0, 0, 0, many >> 1, many - 1, pick.randrange(many + 1)) if many else (
            0, 0, 0, 1, 4095, (1 << 32) - 1)))

    def move(self):
        """The move that a processor can make, mostly."""
        pick = self.random
        v = self.processor()
        if pick.randrange(6) == 0 or not self.machine.processors[v].connected:
            return self.any_move()
        if self.machine.processors[v].phase != "on" or pick.randrange(2):
            self.move_on(v)

    def move_on(self, v):
        processor = self.machine.processors[v]
        free = [t for t in self.threads if self.machine.threads[t].user is None]
        t = self.random.choice([t for t in self.seats if t in free] or free or [0])
        self.work(*{"saved": ("restore", v, t), "restored": ("push", processor.thread, v),
                    "on": ("pull", processor.thread), "pulled": ("save", v)}[processor.phase])

    def any_move(self):
        """A move that may be out of turn; who is connected is so for good, so that is rare."""
        v, t = self.processor(), self.thread()
        lines = ("restore", v, t), ("push", t, v), ("pull", t), ("save", v)
        self.work(*self.random.choice(lines * 4 + (("connect", v),)))

    def ring(self):
        """What a guest does on a thread, mostly on one that a processor is on."""
        pick = self.random
        on = [processor.thread for processor in self.machine.processors if processor.phase == "on"]
        if not on and pick.randrange(4):
            return self.move()
        t = pick.choice(on) if on and pick.randrange(8) else self.thread()
        value = pick.choice((*[0xff] * 6, 8, 9, 0x7f, 0x80, 0xfe, pick.randrange(256), *range(8)))
        priority = pick.choice((*range(8), *range(8), 8, 9, 15, 16, 31, 32, 64, 0x80, 0xff, pick.randrange(256)))
        lines = (("cppr", t, value), 3), (("ack", t), 4), (("inject", t, priority), 3), (("regs", t), 3)
        self.work(*self.choose(lines))

    def ring_page(self):
        """An access to a page of a thread, mostly one that there is, or one beside it."""
        pick = self.random
        size = pick.choice((1, 2, 4, 8))
        load = "tload", pick.randrange(3), 0x10 + pick.randrange(16) // size * size, size
        way, page, offset, size = pick.choice((
            load, load, load, ("tstore", 2, 0x11, 1), ("tload", 2, 0x810, 2), ("tstore", 2, 0x812, 1),
            ("tstore", 1, 0x18, 4), ("tload", 1, 0x818, 4), ("tload", 1, 0x818, 8)))
        what = pick.randrange(15)
        if what == 0:
            way = "tstore" if way == "tload" else "tload"
        elif what == 1:
            page = pick.randrange(4)
        elif what == 2:
            size = pick.choice((1, 2, 4, 8))
        elif what == 3:
            offset = max(0, offset + pick.choice((-8, -4, -2, -1, 1, 2, 4, 8, 16, 0x800, 0x1000, 0x8000)))
        elif what == 4:
            offset = pick.choice((0, 8, 0xf, 0x11, 0x12, 0x18, 0x1f, 0x20, 0x28, 0x810, 0x811, 0x812, 0x818, 0x81c,
                                  0x820, 0xc18, 0xffff, pick.randrange(0x10000)))
        elif what == 5:
            way, page, offset = "tload", pick.randrange(3), pick.choice((0x20, 0x10 - size))
        words = way, self.thread(), page, offset, size
        if way == "tload":
            return self.work(*words)
        v = self.processor()
        value = pick.choice((0, 4, 7, 8, 0x80, 0xff, pick.getrandbits(8), pick.getrandbits(8 * size)))
        if offset & 0xfff == 0x18:
            cams = 0x400, v, 0x80000000 + v, 0x80000400 + len(self.processors), 0x80000800 + v, 0x800003ff, 0xffffffff
            value = pick.choice((*[0x80000400 + v] * 8, 0x400 + v, *cams))
        self.work(*words, value % (1 << 8 * size))

    def start(self):
        """A line that makes no entry, and may stand once."""
        if not self.run.started:
            self.say("start")

    # -- lines on escalation, and on what is outstanding

    def relay(self):
        """An END to which others escalate is configured, or what was written there is read."""
        pick = self.random
        e = pick.choice(self.relays)
        if "q" in self.machine.ends[e].flags and pick.randrange(4):
            return self.read(e)
        self.configure(e, pick.choice(("vqnb",) * 4 + ("vqb", "vq", "vqn", "vnb", "vn", "-")), 12)

    def reopen_either(self):
        """Gives ESn or ESe its state back, or shows it, or takes it to another one."""
        pick = self.random
        e = pick.choice(self.relays) if pick.randrange(4) == 0 else self.end()
        self.work("endload", e, pick.choice((0, 1, 1)), pick.choice((0xc00,) * 4 + (0, 0, 0x800, 0xd00, 0xe00, 0xf00)))

    def owe(self):
        """Notices that aren't routed yet."""
        pick = self.random
        s = self.source()
        for _ in range(pick.choice((1, 1, 2, 3))):
            self.work("set", s, "00")
            self.work("trigger", s)

    def quiet(self):
        self.work("quiet", self.source())

    def settle_all(self):
        """What a drain or a sync does, and what is outstanding then."""
        pick = self.random
        self.work(*pick.choice((("drain",), ("sync", self.source()), ("sync", self.source()))))
        if pick.randrange(2):
            self.quiet()

    def change(self):
        """An END that is used most is configured anew, mostly while its messages are in flight."""
        pick = self.random
        moving = [message.end for message in self.machine.flight]
        e = pick.choice(moving) if moving and pick.randrange(4) else self.end()
        if pick.randrange(4) == 0:
            return self.change_by_call(e)
        self.configure(e, pick.choice(("vnb", "vnb", "vn", "vn", "vb", "v", "vqn", "vq", "-")), 12)

    def change_by_call(self, e):
        """The same by the hypercall: the END has no more than a queue then, or is reset; at times all are."""
        pick = self.random
        if pick.randrange(8) == 0:
            return self.work("reset")
        size = pick.choice((12, 0, 0))
        self.work("hcall", 0x3b8, pick.choice((0, 1)), e // 8, e % 8, self.home, size)

    def wrong_end(self):
        """At a rule of the letters e, u and s, or beyond it."""
        pick = self.random
        inner, last = [e for e in self.ends if e % 8 < 7], list(self.ends[7::8])
        e, relay, letters, payload = pick.choice(inner), pick.choice(last), pick.choice(("ve", "vneu", "ves")), 0
        what = pick.choice((1, 1, 2, 3, 3, 5, 5, 6, 6, 6, 7, 7, 9, 9, 9, 10, 10))
        if what == 1:
            payload = pick.choice((0x3fffffff, 0x7fffffff, 0x80000000, 0x80000000, 0xffffffff, 1 << 32, TOP - 1))
        elif what == 2:
            relay = pick.choice(inner)
        elif what == 3:
            relay = len(self.ends) + pick.choice((-1, 0, 7, 7, 7, 15, (1 << 32) + 7))
        elif what == 5:
            e = pick.choice(last)
            relay = pick.choice((e, pick.choice(last)))
        elif what == 6:
            letters = pick.choice(("v", "vu", "vs", "vus", "vnb"))
            relay, payload = pick.choice(((0, 1), (0, 1), (7, 0), (7, 0), (0, 0), (7, 1)))
        elif what == 7:
            letters, relay = pick.choice(("u", "s", "us", "e", "eus", "b", "-")), 0
            payload = pick.choice((0, 0, 0, 1))
        elif what == 9:
            letters = pick.choice("vse vue vsu vuse veb vee vee vees ev vE ve- vx vx vex vex".split())
            relay = relay if "e" in letters else 0
        else:
            return self.work(pick.choice(("quiet", "sync")), self.count + pick.choice((-1, 0, 0, 0, 1, 1 << 32)))
        self.work("endset", e, letters, self.processor() if "v" in letters else 0, 0, 0, 0, relay, payload)

    # -- lines of the KVM device, and migrations

    def attribute(self, group=None):
        """An attribute that is set, often with a field or two at the border of a check, and what shows its effect."""
        pick = self.random
        group = group or pick.choice((1, 2, 2, 3, 3, 3, 4, 4, 4, 4, 5, 5, 0))
        if group == 0:
            return self.no_attribute()
        given = self.good_fields(group)
        for name in pick.sample(list(given), min(len(given), pick.choice((0, 0, 0, 0, 1, 1, 1, 2)))):
            given[name] = pick.choice(self.border_of_field(name, given))
        self.set_attribute(group, given)
        if pick.randrange(2):
            self.ask_attribute(given)

    def no_attribute(self):
        """One that there isn't, or a number for a queue."""
        pick = self.random
        value = pick.choice((0, 1, 2, TOP - 1))
        self.work("kvmset", *pick.choice((
            (pick.choice(NO_ATTRIBUTES), pick.choice((0, 1, 2, 3)), value), (1, pick.choice(NO_CONTROLS), value),
            (4, pick.choice((8 * self.processor(), 7, 8 * len(self.processors), 0, TOP - 1)), value))))

    def good_fields(self, group):
        """Fields with which the attribute is accepted, mostly."""
        pick = self.random
        if group == 1:
            control = pick.choice((1, 2, 2, 2, 3, 3))
            values = (len(self.processors), 1) if control == 3 else (0, 1, TOP - 1)
            return {"control": control, "value": pick.choice(values)}
        s = self.source()
        if group == 2:
            return {"lisn": s, "kind": int(self.machine.sources[s].level), "line": pick.randrange(2), "above": 0}
        if group == 5:
            return {"lisn": s, "value": pick.choice((0, 0, 1, TOP - 1))}
        e = self.target() if pick.randrange(4) else 8 * self.processor() + pick.randrange(7)
        if group == 3:
            valid = [e for e in self.ends if e % 8 < 7 and "v" in self.machine.ends[e].flags]
            e = pick.choice(valid) if valid and pick.randrange(8) else e
            return {"lisn": s, "priority": e % 8, "target": e // 8, "mask": int(pick.randrange(6) == 0),
                    "eisn": pick.choice(PAYLOADS) & 0x7fffffff}
        shift = pick.choice((12, 12, 12, 12, 12, 16, 21, 24, 0))
        address = pick.choice((0, self.home, self.home, max(0, self.size - (1 << shift)))) >> shift << shift
        entries = (1 << shift) // 4
        index = pick.choice((0, 0, 1, 5, entries // 2, max(0, entries - 2), max(0, entries - 1)))
        return {"priority": e % 8, "target": e // 8, "above": 0, "flags": 1, "shift": shift, "address": address,
                "toggle": pick.choice((0, 1, 1)), "index": index}

    def border_of_field(self, name, given):
        """Values on both sides of what a check asks of a field, or that are ignored or cut."""
        processors = self.machine.processors
        shift = min(given.get("shift", 12), 24)
        entries = (1 << shift) // 4
        if name == "lisn":
            return self.border(name, given)
        if name == "address":
            pages = (self.home,) * 16 if shift > 12 else ()
            return [n % TOP for n in (*pages, *self.border(name, {"address": given[name], "size": shift}))]
        return {
            "control": (1, 2, 3, 3, *NO_CONTROLS),
            "value": (0, 1, len(processors), len(processors) + 1, 1 << 32 | 1, 1 << 63, TOP - 1),
            "kind": (0, 1),
            "line": (0, 1),
            "above": (1, 2, 3, 1 << 14, 1 << 30, 1 << 31, (1 << 32) - 1),
            "priority": (5, 6, 6, 7, 7, 7),
            "target": (*[v for v, processor in enumerate(processors) if not processor.connected] * 3,
                       len(processors) - 1, *(len(processors),) * 3, len(processors) + 1, 64, 1 << 8, 1 << 16,
                       1 << 28, (1 << 29) - 1),
            "mask": (0, 1),
            "eisn": (0, 1, 0x3fffffff, 0x40000000, 0x7fffffff),
            "flags": (0, 0, 0, 2, 3, 5, 0x101, 1 << 31 | 1, (1 << 32) - 1),
            "shift": (0, 0, 1, 2, 11, 13, 13, 14, 15, 16, 17, 20, 21, 22, 23, 24, 25, 28, 32, 44, 0x10c, 1 << 31 | 12),
            "toggle": (0, 1, 2, 2, 3, 0x100, 1 << 31, (1 << 32) - 1),
            "index": (0, 1, entries - 1, *(entries,) * 3, entries + 1, 2 * entries - 1, 2 * entries, 1 << 30,
                      (1 << 32) - 1),
        }[name]

    def set_attribute(self, group, given):
        """The line that sets an attribute with these fields."""
        if group == 1:
            self.work("kvmset", 1, given["control"], given["value"])
        elif group == 2:
            self.work("kvmset", 2, given["lisn"], given["kind"] | given["line"] << 1 | given["above"] << 2)
        elif group == 3:
            self.work("kvmset", 3, given["lisn"],
                      given["priority"] | given["target"] << 3 | given["mask"] << 32 | given["eisn"] << 33)
        elif group == 4:
            self.work("kvmeq", self.identifier(given), *[max(0, given[name]) for name in (
                "flags", "shift", "address", "toggle", "index")])
        else:
            self.work("kvmset", 5, given["lisn"], given["value"])

    @staticmethod
    def identifier(given):
        return given["priority"] | given["target"] << 3 | given.get("above", 0) << 32

    def ask_attribute(self, given=None):
        """The get of what was set, or else of any END."""
        pick = self.random
        given = given or self.good_fields(pick.choice((4, 4, 4, 3)))
        if "lisn" in given and pick.randrange(8):
            return self.work("hcall", 0x3b0, 0, given["lisn"], 0, 0, 0)
        if "priority" not in given:
            given = self.good_fields(4)
        if pick.randrange(8) == 0:
            given[pick.choice(("priority", "target"))] = 7
        if pick.randrange(4) == 0:
            given["above"] = pick.choice((1, 1 << 31))
        group = 4 if pick.randrange(12) else pick.choice((1, 2, 3, 5, *NO_ATTRIBUTES))
        self.work("kvmget", group, self.identifier(given))
        if pick.randrange(4) == 0:
            self.work("hcall", 0x3bc, 1, given["target"], given["priority"], 0, 0)

    def servers(self):
        """How many processors can be connected, or one that is to be."""
        pick = self.random
        many = len(self.processors)
        if pick.randrange(3) == 0:
            v = self.machine.servers + pick.choice((-1, -1, 0, 0, 0, 1))
            return self.work("connect", min(max(v, 0), many - 1))
        self.work("kvmset", 1, 3, pick.choice((
            0, 1, 1, 2, many - 1, many, many, many + 1, 1 << 8 | 1, 1 << 32, 1 << 32 | 1, 1 << 63 | 1, TOP - 1)))

    def state(self):
        """The state of a processor, which is got, or set and mostly got then; often of one that has a backlog, which is
        restored then, as its thread shows IPB alone."""
        pick = self.random
        kept = [v for v, processor in enumerate(self.machine.processors)
                if processor.phase == "saved" and processor.backlog]
        if kept and pick.randrange(2):
            v = pick.choice(kept)
            self.work("vpget", v)
            self.move_on(v)
            return self.work("regs", self.machine.processors[v].thread or 0)
        v = self.processor()
        if pick.randrange(2):
            return self.work("vpget", v)
        self.work("vpset", v, pick.choice((0, 1, 4, 6, 7, 7, 8, 8, 9, 0x7f, 0x80, 0xfe, 0xff)),
                  pick.choice((0, 1, 0x40, 0x80, 0xff, pick.getrandbits(8))))
        if pick.randrange(2):
            self.work("vpget", v)

    def migrate(self):
        """A migration, and what it left of a source."""
        self.work("migrate")
        if self.random.randrange(2):
            self.work(self.random.choice(("get", "quiet")), self.source())

    def attributes_up(self):
        """Queues, and sources that go there, by attributes alone; now and then one is refused."""
        pick = self.random
        for e in self.few:
            if not self.machine.processors[e // 8].connected and pick.randrange(8):
                self.work("connect", e // 8)
            self.set_attribute(4, dict(self.good_fields(4), priority=e % 8, target=e // 8, shift=12))
        for s in range(self.count):
            if not self.machine.sources[s].valid and pick.randrange(4):
                self.set_attribute(2, dict(self.good_fields(2), lisn=s, kind=int(self.machine.sources[s].level)))
            e = self.target()
            self.set_attribute(3, dict(self.good_fields(3), lisn=s, priority=e % 8, target=e // 8))
            self.switch_on(s)

    def raw(self):
        """A line of a source, whatever its pair is."""
        pick = self.random
        s = self.source()
        level = self.machine.sources[s].level
        names = "trigger eoi get set set init route fire finish" + " raise lower assert init" * level
        name = pick.choice(names.split())
        more = {"set": [pick.choice(("00", "00", "01", "10", "11"))], "init": [pick.randrange(2) if level else 0]}
        self.work(name, s, *more.get(name, []))

    def any_line(self):
        lines = ((self.event, 29), (self.read, 25), (self.raw, 8), (self.peek, 8), (self.zero, 6), (self.assign, 5),
                 (self.configure, 5), (self.access, 8), (self.reopen, 2), (self.move, 4), (self.take, 3),
                 (self.ring, 3), (self.remark, 4), (self.relay, 4), (self.reopen_either, 3), (self.owe, 3),
                 (self.quiet, 4), (self.settle_all, 2), (self.ring_page, 3), (self.start, 1), (self.call, 10),
                 (self.reset, 1), (self.attribute, 7), (self.ask_attribute, 2), (self.state, 2), (self.migrate, 1))
        self.choose(lines)()

    def choose(self, weighted):
        """One of these, by its weight."""
        things, weights = zip(*weighted)
        return self.random.choices(things, weights)[0]

    def mix(self, many):
        for _ in range(many):
            if self.broken:
                return
            self.any_line()

    # -- many events for one END

    def set_up(self, flags=None):
        """The ENDs that are used most have queues, and the sources go there."""
        for e in self.few:
            self.configure(e, flags or self.random.choice(("vq", "vqb", "vqn", "vq")), 12)
        for s in range(self.count):
            self.assign(s)
            self.switch_on(s)

    def switch_on(self, s):
        if self.random.randrange(6):
            self.work("set", s, "00")
        if self.machine.sources[s].level and self.random.randrange(4):
            self.work("assert", s)

    def burst(self, e, sources, many, lag, every, calm):
        """Events for an END, and reads that lag: one a time, or `every` of them together."""
        pick = self.random
        end = self.machine.ends[e]
        owed = 0
        for i in range(many):
            before = end.written
            for _ in range(4):
                self.event(pick.choice(sources))
                if end.written != before:
                    break
            else:
                if len(self.machine.flight) == 4096 and pick.randrange(40) == 0:
                    return
                if pick.randrange(3) == 0:
                    self.work("hcall", 0x3ac, 2, pick.choice(sources), e // 8, e % 8, i)
            owed += i >= lag
            if owed >= every:
                for _ in range(max(0, owed + pick.choice((0, 0, 0, 0, 1, 1, -1)))):
                    self.read(e)
                owed = 0
            if pick.randrange(400 if calm else 150) == 0:
                self.choose(((lambda: self.assign(pick.choice(sources), e), 3), (self.peek, 3), (self.reopen, 1)) + (
                    () if calm else ((self.zero, 2), (self.raw, 1), (self.read, 1), (self.configure, 1))))()

    def stream(self, flags, shift, counts, lags):
        """A queue that is written and read for long; some lines stand between."""
        pick = self.random
        e = self.target()
        sources = [s for s in range(self.count) if self.machine.sources[s].valid][:pick.choice((1, 1, 2, 4))]
        if not sources:
            return self.mix(100)
        if not self.machine.processors[e // 8].connected:
            self.work("connect", e // 8)
        if pick.randrange(6) or "q" not in self.machine.ends[e].flags:
            self.configure(e, flags, shift)
        if "q" in self.machine.ends[e].flags and pick.randrange(3):
            self.work("zero", self.machine.ends[e].address, 1 << shift)
        for s in sources:
            self.work("hcall", 0x3ac, 2, s, e // 8, e % 8, pick.choice(PAYLOADS))
            self.switch_on(s)
        self.plain = True
        every = pick.choice((1, 1, 1, 2, 7, 100, 1024, 9999))
        self.burst(e, sources, pick.choice(counts), pick.choice(lags), every, pick.randrange(3))
        self.plain = False
        self.ask_queue(e)
        for _ in range(pick.choice((0, 5, 5, 60, 1030, 1300))):
            self.read(e)
        for _ in range(pick.choice((0, 1, 3, 30))):
            self.event(pick.choice(sources))
            self.read(e)
            if pick.randrange(4) == 0:
                self.ask_queue(e)
        self.mix(pick.choice((10, 60)))

    # -- scenes

    def wrapping(self):
        self.header(1)
        self.set_up()
        for _ in range(self.random.choice((1, 1, 1, 2))):
            self.stream(self.random.choice(("vq", "vqb", "vqn", "vq")), 12, COUNTS, LAGS)

    def wrapping_64_kib(self):
        self.header(1)
        self.stream("vq", 16, (16383, 16384, 16385, 16400, 20000, 32770), (0, 3, 1024, 16383, 16384, 16385, 99999))

    def full_bus(self):
        """So many messages that the next route is refused."""
        self.header(1)
        self.set_up("vqn")
        self.stream(self.random.choice(("vqn", "vqnb", "vn")), 12, (4090, 4096, 4097, 4120), LAGS)

    def mixed(self):
        self.header()
        if self.random.randrange(4):
            self.set_up()
        self.mix(self.random.choice((0, 3, 20, 100, 300)))

    def edges(self):
        self.header()
        self.set_up()
        for _ in range(self.random.choice((30, 150))):
            self.choose(((self.zero, 4), (self.peek, 3), (self.event, 2), (self.read, 1)))()

    def one_page(self):
        """ENDs that share a page, or lie beside one another, or within one another."""
        self.header(1)
        pick = self.random
        self.few = pick.sample(self.ends[:7], 2) + self.few[:1]
        self.home = pick.choice((0, 0x1000, self.size - 0x1000, self.size - 0x2000, 0xf000, 0x10000))
        self.set_up("vq")
        if pick.randrange(2):
            self.configure(self.few[0], "vq", 16, self.home)
        self.mix(pick.choice((60, 300)))

    def reconfigured(self):
        """ENDs that are configured again while entries are unread, with and without zeros on the page."""
        self.header(1)
        self.set_up()
        pick = self.random
        for _ in range(pick.choice((4, 12))):
            e = pick.choice(self.few)
            for _ in range(pick.randrange(8)):
                self.event()
            for _ in range(pick.randrange(6)):
                self.read(e)
            self.configure(e)
            if pick.randrange(3) == 0:
                self.zero()
            for _ in range(pick.randrange(4)):
                self.read(e)
            self.mix(pick.randrange(6))

    def crew_up(self):
        """ENDs that notify the processors that are used most, mostly, and sources for them."""
        pick = self.random
        connected = [v for v in self.crew if self.machine.processors[v].connected]
        if not connected:
            connected = self.crew[:1]
            self.work("connect", self.crew[0])
        self.few = sorted({8 * pick.choice(connected) + pick.randrange(7) for _ in range(4)})
        for e in self.few:
            self.configure(e, pick.choice(("vnb", "vnb", "vn", "vb")))
        for s in range(self.count):
            self.assign(s)
            self.switch_on(s)

    def contexts(self):
        """Moves in and out of turn, notifications, and what a guest does on its thread."""
        self.header(crowd=True)
        self.crew_up()
        weights = self.random.choice(((6, 4, 2, 8), (6, 6, 2, 4), (2, 6, 2, 8), (9, 3, 3, 3)))
        for _ in range(self.random.choice((20, 60, 60, 200))):
            self.choose(tuple(zip((self.move, self.notify, self.take, self.ring), weights)))()
        if self.random.randrange(4) == 0:
            self.reset()
        self.mix(self.random.choice((0, 10)))

    def windows(self):
        """Rounds of moves, with notifications wherever the context is, and then acknowledgements of all of them."""
        self.header(crowd=True)
        self.crew_up()
        pick = self.random
        for _ in range(pick.choice((2, 5, 12))):
            v, t = self.processor(), self.thread()
            calm = pick.randrange(3)  # nothing else moves
            for words in ("restore", v, t), ("push", t, v), ("cppr", t, 0xff), ("pull", t), ("save", v):
                self.work(*words)
                for _ in range(pick.randrange(3)):
                    self.notify()
                if words[0] == "cppr":
                    for _ in range(pick.choice((0, 0, 2, 9, 20))):
                        self.ring()
                elif pick.randrange(3) == 0:
                    self.work("regs", t)
                if not calm:
                    self.any_move()
        for v in self.crew:
            for _ in range(3):
                if self.machine.processors[v].phase != "on":
                    self.move_on(v)
            if self.machine.processors[v].phase == "on":
                t = self.machine.processors[v].thread
                for _ in range(pick.choice((1, 9))):
                    self.work("ack", t)
                    self.work("cppr", t, 0xff)

    def ring_pages(self):
        """Accesses to the pages of threads on which processors are in every phase."""
        self.header(crowd=True)
        self.crew_up()
        pick = self.random
        weights = pick.choice(((4, 2, 1, 9), (3, 3, 2, 6), (6, 1, 0, 9)))
        for _ in range(pick.choice((20, 60, 120))):
            self.choose(tuple(zip((self.move, self.notify, self.ring, self.ring_page), weights)))()
        self.mix(pick.choice((0, 10)))

    def drained_bus(self):
        """A bus that is full, and messages taken from it so that routes go on."""
        self.header(crowd=True)
        self.crew_up()
        pick = self.random
        for e in self.few:
            self.configure(e, pick.choice(("vnb", "vn")))
        s = pick.choice([s for s in range(self.count) if self.machine.sources[s].valid] or [0])
        self.plain = True
        for _ in range(4100):
            self.event(s)
        for _ in range(pick.choice((3, 30))):
            self.choose(((self.take, 2), (self.event, 4), (self.move, 1), (self.ring, 1)))()
        if pick.randrange(2):
            self.work("settle")
        self.mix(10)

    def relays_up(self):
        """ENDs that escalate, the ENDs that they escalate to, and sources for the former."""
        pick = self.random
        self.header(1, crowd=pick.randrange(3) > 0)
        self.crew_up()
        for e in self.relays:
            self.configure(e, pick.choice(("vqnb", "vqnb", "vqb", "vq", "vnb")), 12)
        for v in self.crew:
            for _ in range(pick.choice((0, 0, 0, 1, 2, 3))):
                self.move_on(v)

    def escalating(self):
        self.relays_up()
        pick = self.random
        weights = pick.choice(((9, 6, 3, 4, 2, 1, 2, 1), (9, 9, 2, 6, 1, 1, 1, 1), (6, 3, 4, 4, 4, 4, 3, 2)))
        lines = (self.event, self.take, self.relay, self.reopen_either, self.change, self.move, self.quiet,
                 self.settle_all)
        for _ in range(pick.choice((15, 40, 40, 120))):
            self.choose(tuple(zip(lines, weights)))()
        self.mix(pick.choice((0, 10)))

    def changed_in_flight(self):
        """Rounds of one event, whose messages are taken one by one while its END changes."""
        self.relays_up()
        pick = self.random
        for _ in range(pick.choice((4, 12, 30))):
            if pick.randrange(3):
                self.change()
            self.event()
            for _ in range(pick.choice((1, 2, 3, 3, 4))):
                if pick.randrange(2):
                    self.choose(((self.change, 5), (self.relay, 2), (self.reopen_either, 2), (self.quiet, 1)))()
                self.take()

    def outstanding(self):
        """Notices and messages of several sources, and how they become quiet."""
        self.relays_up()
        pick = self.random
        for _ in range(pick.choice((2, 6, 15))):
            for _ in range(pick.randrange(5)):
                self.choose(((self.owe, 4), (self.event, 4), (self.take, 2), (self.reopen_either, 1)))()
            for _ in range(pick.choice((0, 1, 1, 2))):
                self.quiet()
            if pick.randrange(2):
                self.settle_all()
        self.mix(pick.choice((0, 10)))

    def called(self):
        """Hypercalls, and events that go as they say."""
        pick = self.random
        self.header(pick.randrange(2), crowd=pick.randrange(2) == 1, gaps=True)
        if pick.randrange(4):
            self.set_up(pick.choice(("vq", "vqb", "vqn", None)))
        weights = pick.choice(((12, 2, 1, 1, 1, 1, 1), (9, 4, 2, 2, 1, 1, 2), (5, 5, 3, 3, 2, 2, 3)))
        lines = self.call, self.event, self.owe, self.read, self.move, self.reset, self.settle_all
        for _ in range(pick.choice((6, 10, 10, 20, 60))):
            self.choose(tuple(zip(lines, weights)))()

    def driven(self):
        """Attributes of the KVM device, and events that go as they say."""
        pick = self.random
        self.header(1, crowd=pick.randrange(2) == 1, gaps=True)
        if pick.randrange(4):
            self.attributes_up()
        weights = pick.choice(((12, 2, 1, 1, 2, 1, 1, 1), (9, 6, 2, 4, 2, 1, 2, 1), (5, 9, 3, 6, 2, 2, 2, 1)))
        lines = (self.attribute, self.event, self.owe, self.read, self.ask_attribute, self.move, self.settle_all,
                 self.configure)
        for _ in range(pick.choice((4, 8, 10, 20, 60))):
            self.choose(tuple(zip(lines, weights)))()

    def served(self):
        """A board on which nobody is connected at first."""
        pick = self.random
        self.header(crowd=True, empty=True)
        for _ in range(pick.choice((0, 1, 2, 3))):
            self.work("kvmset", 1, 3, pick.randrange(1, len(self.processors) + 1))
        if pick.randrange(3) == 0:
            self.work(*pick.choice((("reset",), ("kvmset", 1, 1, 0))))
        weights = pick.choice(((8, 1, 1, 1, 0), (6, 1, 1, 1, 1)))
        for _ in range(pick.choice((3, 6, 10))):
            self.choose(tuple(zip((self.servers, self.state, self.attribute, self.any_move, self.reset), weights)))()

    def states(self):
        """States of processors whose contexts move."""
        pick = self.random
        self.header(crowd=True)
        self.crew_up()
        weights = pick.choice(((6, 4, 4, 2, 4), (3, 9, 6, 1, 6), (6, 1, 1, 4, 9)))
        for _ in range(pick.choice((10, 30, 60))):
            self.choose(tuple(zip((self.move, self.notify, self.take, self.ring, self.state), weights)))()

    def migrated(self):
        """Migrations while notices and messages of several sources are outstanding."""
        pick = self.random
        self.header(1, crowd=pick.randrange(2) == 1, gaps=True)
        if pick.randrange(3):
            self.set_up()
        for _ in range(pick.choice((1, 2, 3))):
            for _ in range(pick.randrange(6)):
                self.choose(((self.owe, 4), (self.raw, 4), (self.event, 3), (self.assign, 1)))()
            self.migrate()

    # -- scenes with lines that are wrong

    def refused_escalation(self):
        self.header(crowd=self.random.randrange(2) == 1)
        self.mix(self.random.choice((0, 0, 5)))
        self.plain = True
        odd = [line.encode() for line in ODD_ESCALATION_LINES]
        for _ in range(self.random.choice((1, 1, 2, 4))):
            self.choose(((self.wrong_end, 7), (lambda: self.feed(self.random.choice(odd)), 3)))()
        self.mix(4)

    def wrong_number(self):
        """A number of a processor, a thread, a message or a byte at the end of its range, or beyond it."""
        pick = self.random
        v, t = len(self.processors), len(self.threads)
        name, *limits = pick.choice((("connect", v), ("restore", v, t), ("save", v), ("push", t, v), ("pull", t),
                                     ("take", 1 << 32), ("cppr", t, 256), ("ack", t), ("inject", t, 256), ("regs", t)))
        numbers = [pick.randrange(limit) for limit in limits]
        at = pick.randrange(len(limits))
        limit = limits[at]
        numbers[at] = pick.choice((limit - 1, limit, limit, limit, limit + 1, limit << 1, (1 << 32) + numbers[at],
                                   TOP - 1))
        self.work(name, *numbers)

    def wrong_kind(self):
        """What only a level source has, mostly of a message source."""
        pick = self.random
        s = pick.choice([s for s in range(self.count) if not self.machine.sources[s].level] or [0])
        self.work(*pick.choice((("raise", s), ("lower", s), ("assert", s), ("init", s, 1))))

    def wrong_queue(self):
        """Behind the end of memory, or not aligned, or of a length that no queue has."""
        pick = self.random
        size = self.size
        beyond = ((12, size), (12, size), (12, size), (12, size + 0x1000), (12, TOP - 0x1000), (12, 1 << 32),
                  (16, size), (16, TOP - 0x10000), (21, 0 if size < 1 << 21 else size),
                  (24, 0 if size < 1 << 24 else size))
        not_aligned = ((12, 4), (12, 0x800), (12, size - 0x800), (16, size - 0x1000), (16, 0x1000), (16, 0x8000),
                       (16, 0x3000), (16, 0x1f000), (21, 0x100000), (21, 0x10000), (24, 0x200000))
        no_such_length = ((13, 0), (13, 0), (13, 0x2000), (13, size - 0x2000), (14, 0x4000), (11, 0), (20, 0), (22, 0),
                          (2, 0), (0, 0), (32, 0), (64, 0), (76, 0))
        shift, address = pick.choice(pick.choice((beyond, not_aligned, no_such_length, ((12, self.home),))))
        flags, priority = pick.choice((("vq", 0), ("vqn", 7)))
        if (shift, address) == (12, self.home):
            flags, priority = pick.choice((("vq", 8), ("q", 0)))
        self.work("endset", self.end(), flags, 0, priority, address % TOP, shift, 0, 0)

    def spoil(self, line):
        """A line with one mistake, mostly."""
        pick = self.random
        text = line.decode("latin-1")
        words = text.split(" ")
        at, i = pick.randrange(len(words)), pick.randrange(len(text) + 1)
        what = pick.randrange(14)
        if what == 0:
            del words[at]
        elif what == 1:
            words.insert(at, words[at])
        elif what == 2:
            words.append(pick.choice(ODD_WORDS))
        elif what < 8:
            words[at] = pick.choice(ODD_WORDS)
        elif what == 8:
            limits = (self.count, len(self.ends), self.actors, len(self.processors), len(self.threads),
                      self.machine.pages, self.size)
            words[at] = str(max(0, pick.choice(limits) - pick.choice((0, 0, 1, 0x1000))))
        elif what == 9:
            words[at] = pick.choice((words[at].upper(), words[at] + "0", words[at][:-1], words[at].zfill(21)))
        elif what == 10:
            words = [text.ljust(pick.choice((255, 256, 257, 300)))]
        elif what == 11:
            words = [text[:i] + chr(pick.randrange(256)) + text[i + 1:]]
        else:
            words = [text[:i] + pick.choice(ODD_BYTES) + text[i:]]
        return " ".join(words).replace("\n", " ").encode("latin-1")

    def spoiled_line(self):
        """The line that is spoiled is only made, and not done."""
        before = len(self.lines)
        kept, self.broken = self.broken, True
        while len(self.lines) == before:
            self.any_line()
        line = self.lines[before]
        del self.lines[before:]
        self.broken = kept
        self.feed(self.spoil(line))

    def odd_line(self):
        pick = self.random
        comment = b"#" + bytes(pick.choice((0x20, 0x41, 0x7e, 9, 13, 0x7f, 0xc3)) for _ in range(3))
        long = pick.choice((b"#", b"0 get 0", b"end")) + b" " * pick.choice((240, 249, 252, 253, 255, 256))
        self.feed(pick.choice((comment, long, *[pick.choice(ODD_LINES).encode() for _ in range(6)])))

    def refused(self):
        pick = self.random
        self.header(pick.randrange(2))
        if pick.randrange(3):
            self.set_up()
        self.mix(pick.choice((0, 3, 20)))
        self.plain = True
        for _ in range(pick.choice((1, 1, 2, 4))):
            self.choose(((self.odd_line, 8), (self.wrong_queue, 5), (self.wrong_number, 4), (self.wrong_kind, 1),
                         (self.spoiled_line, 4)))()
        self.mix(4)

    # -- lines that are right, and wrong by one thing or two

    def right_line(self):
        """A line of any word, mostly one that is right; it is only made, and not done."""
        pick = self.random
        name = pick.choices(list(LINES), [len(forms) + 2 for forms in LINES.values()])[0]
        makes = {"endset": self.configure, "hcall": self.call, "kvmset": self.attribute,
                 "kvmeq": lambda: self.attribute(4), "kvmget": self.ask_attribute}
        if name in makes and pick.randrange(8):
            return self.only_made(makes[name])
        level = [s for s in range(self.count) if self.machine.sources[s].level]
        words = []
        for form in LINES[name]:
            if form == "PQ":
                words.append(pick.choice(("00", "01", "10", "11")))
            elif form == "FLAGS":
                words.append(pick.choice("- v vq vqb vqn ve vneu ves".split()))
            elif form == "SIZE":
                size = pick.choice((1, 2, 4, 8))
                words.append(size)
            elif form == "S" and level and name in ("raise", "lower", "assert", "init") and pick.randrange(8):
                words.append(pick.choice(level))
            elif name == "hcall" and not words:
                words.append(pick.choice((*CALLS, *NO_CALLS)))
            else:
                most = (1 << 8 * size) - 1 if form == "VALUE" else self.machine.most[form]
                words.append(pick.choice((0, most, pick.randrange(most + 1), pick.randrange(min(most, 7) + 1))))
        return self.only_made(lambda: self.work(name, *words))

    def only_made(self, make):
        """The text of the first line that is made."""
        before = len(self.lines)
        kept, self.broken = self.broken, True
        make()
        line = self.lines[before]
        del self.lines[before:]
        self.broken = kept
        return line.decode("latin-1")

    def limit(self, words, at):
        """The least number that is too large for this word of a right line; None where it is no number."""
        if words[0] in HEADER_COUNTS:
            return HEADER_COUNTS[words[0]][1] + 1 if at == 1 else None
        if words[0] in RANGES:
            return self.machine.counts[RANGES[words[0]]] if at else None
        if words[0] == "esb":
            return {1: 3, 2: 2}.get(at)
        if at == 0:
            return self.actors
        form = LINES[words[1]][at - 2] if at > 1 and words[1] in LINES and at - 2 < len(LINES[words[1]]) else None
        if form == "VALUE":
            return {"1": 1 << 8, "2": 1 << 16, "4": 1 << 32}.get(words[at - 1], TOP)
        return {"SIZE": self.random.choice((3, 6, 9))}.get(form, self.machine.most.get(form, -1) + 1) or None

    def changed_bytes(self, text):
        pick = self.random
        at = pick.randrange(len(text) + 1)
        byte = pick.choice(TELLING_BYTES) if pick.randrange(4) else chr(pick.randrange(256))
        return pick.choice((text[:at] + byte + text[at + 1:], text[:at] + text[at + 1:], text[:at] + byte + text[at:]))

    def changed_words(self, text):
        pick = self.random
        words = text.split() or [""]
        at, other = pick.randrange(len(words)), pick.randrange(len(words))
        what = pick.randrange(8)
        if what == 0:
            del words[at]
        elif what == 1:
            words.insert(other, words[at])
        elif what == 2:
            words[at], words[other] = words[other], words[at]
        elif what == 3:
            words[at] = pick.choice(ODD_WORDS)
        elif what < 6:
            words.insert(pick.choice((at, len(words))), pick.choice(ODD_WORDS))
        elif what == 6:
            words[0] = pick.choice(FIRST_WORDS)
        else:
            words[at] = pick.choice((words[at].upper(), words[at] + "0", words[at][:-1] or "x", words[at].zfill(20),
                                     words[at].zfill(21), "0x" + words[at], words[at] + pick.choice("xvg-#")))
        return " ".join(words)

    def changed_number(self, text):
        """A number at the end of its range, or beyond it, or that is none as it's too long."""
        pick = self.random
        words = text.split() or [""]
        places = [at for at in range(len(words)) if self.limit(words, at)]
        if not places:
            return text
        at = pick.choice(places)
        limit = self.limit(words, at)
        n = pick.choice((limit - 1, *[limit] * 6, limit + 1, limit + 7, limit << 1, -limit, TOP - 1, TOP,
                         (1 << 32) + pick.randrange(limit), TOP + pick.randrange(limit), 10 ** 20 - 1, 10 ** 20, 0, 3))
        words[at] = pick.choice((str(n), str(n), hex(n), str(n).zfill(20), "0x" + format(n, "x").zfill(16)))
        return " ".join(words)

    def changed_letters(self, text):
        """Letters out of their order, or twice, or that are none; a pair of another length."""
        pick = self.random
        words = text.split()
        places = [at for at, word in enumerate(words) if at > 2 and word[0] in "01v-" and not word.startswith("0x")]
        if not places:
            return self.changed_bytes(text)
        at = pick.choice(places)
        letters = list(words[at] + pick.choice(("", "", "q", "v", "s", "x", "-", "0", "1")))
        pick.shuffle(letters)
        words[at] = "".join(letters)
        return " ".join(words)

    def padded(self, text):
        """Spaces around, and mostly as long as a line may be, or longer."""
        pick = self.random
        text = " " * pick.randrange(4) + text.replace(" ", " " * pick.choice((1, 1, 2, 5)))
        many = pick.choice((len(text) + 1, len(text) + 3, 255, 256, 256, 257, 257, 258, 300))
        return pick.choice((text.ljust(many), text.ljust(many), text.rjust(many), text.ljust(many - 1) + "\x7f"))

    def wrong(self, text):
        """A right line with one mistake mostly, as bytes. At times it is right nevertheless."""
        ways = ((self.changed_bytes, 6), (self.changed_words, 6), (self.changed_number, 20), (self.changed_letters, 2),
                (self.padded, 2), (lambda text: text, 1))
        for _ in range(self.random.choice((1, 1, 1, 1, 2, 2, 3))):
            text = self.choose(ways)(text)
        return text.replace("\n", " ").encode("latin-1")

    def wrong_rule(self):
        """An END at a limit that its letters and numbers have together, a word that a message source has not, a pair
        that is a number, or a processor that the board lacks."""
        pick = self.random
        what = pick.randrange(6)
        if what == 5:
            self.work("set", self.source(), pick.choice(("0", "1", "2", "3", "000", "0x0")))
        elif what == 4:
            self.work(pick.choice(("vpget", "vpget", "connect", "save")), len(self.processors) + pick.randrange(2))
        elif what == 0:
            self.work("endset", self.end(), pick.choice(("v", "vn", "vb")), self.processor(),
                      pick.choice((7, 8, 8, 9, 0xff, 0x100)), 0, 0, 0, 0)
        else:
            (self.wrong_end, self.wrong_queue, self.wrong_kind)[what - 1]()

    def wrong_lines(self):
        pick = self.random
        self.header(pick.randrange(2), crowd=pick.randrange(3) == 0)
        self.mix(pick.choice((0, 0, 0, 2, 8)))
        self.plain = pick.randrange(3) > 0
        for _ in range(12):
            what = pick.randrange(20)
            if what == 0:
                self.feed(self.wrong("# " + "comment " * pick.randrange(4)))
            elif what == 1 and pick.randrange(3) == 0:
                self.start()
                self.feed(pick.choice((b"start", b" start", b"start 0", b"#start", b"end 0")))
            elif what == 1:
                self.feed(self.wrong(pick.choice(("end", "start", "start 0", "end 0", "go", "level 0 0", "esb 2 0"))))
            elif what < 4:
                self.wrong_rule()
            elif what == 4:
                self.feed(self.wrong(self.only_made(self.wrong_rule)))
            else:
                self.feed(self.wrong(self.right_line()))
            if self.broken or self.run.ended:
                break
        self.mix(pick.choice((0, 0, 3)))

    def wrong_header_line(self):
        """A header with many ranges, and with a line that is wrong, or out of its turn."""
        pick = self.random
        self.header(crowd=pick.randrange(2) == 1)
        lines = [line.decode("latin-1") for line in self.lines[:7]]
        for name, of in RANGES.items():
            last = self.machine.counts[of] - 1
            for _ in range(pick.choice((0, 0, 1, 2, 15, 16, 17))):
                first = pick.randrange(last + 1)
                lines.append(f"{name} {first} {pick.randrange(first, last + 1)}")
                if pick.randrange(30) == 0:
                    lines[-1] = f"{name} {last} {first}"
        lines.append("go")
        at, to = (pick.randrange(pick.choice((len(lines), min(9, len(lines))))) for _ in range(2))
        what = pick.randrange(10)
        if what == 0:
            lines.insert(to, lines.pop(at))
        elif what == 1:
            lines.insert(to, lines[at])
        elif what == 2:
            del lines[at]
        elif what == 3:
            lines.insert(at, pick.choice((self.right_line(), pick.choice(FIRST_WORDS), pick.choice(ODD_LINES), "")))
        elif what == 4:
            lines = lines[:at] + [pick.choice(("end", "start", "", "#"))]
        for _ in range(pick.choice((0, 1)) if what < 5 else 1):
            at %= len(lines)
            lines[at] = self.wrong(lines[at]).decode("latin-1")
        self.given_anew([line.encode("latin-1") for line in lines])
        if self.run.machine and not self.broken:
            self.learn()
            self.mix(pick.choice((0, 0, 3)))

    def given_anew(self, lines):
        self.lines, self.run, self.broken = [], Run(), False
        for line in lines:
            self.feed(line)

    def cut(self):
        """A script that ends anywhere, mostly within its header or just behind it."""
        pick = self.random
        self.header()
        many = len(self.lines)
        self.mix(pick.choice((0, 0, 2)))
        script = b"\n".join(self.lines) + b"\n"
        header = sum(len(line) + 1 for line in self.lines[:many])
        at = pick.choice((pick.randrange(header), pick.randrange(header), header - 1, header, len(script),
                          pick.randrange(len(script)), 0))
        self.lines, self.ending = script[:at].split(b"\n"), b""

    def refused_header(self):
        pick = self.random
        self.header(crowd=pick.randrange(3) == 0)
        lines = self.lines[:]
        at, other = pick.randrange(len(lines)), pick.randrange(len(lines))
        what = pick.choice((0, 1, 2, 2, 3, 4, 5, 6, 7, 7, 7, 8, 8, 9))
        if what == 0:
            del lines[at]
        elif what == 1:
            lines[at], lines[other] = lines[other], lines[at]
        elif what == 2:
            lines = lines[:at]
        elif what == 3:
            lines[7:7] = [b"level 0 0"] * pick.choice((15, 16, 17))
        elif what == 4:
            lines[-1:-1] = [pick.choice((b"unclaimed 0 0", b"unconnected 0 0"))] * pick.choice((15, 16, 17))
        elif what == 5:
            lines.insert(at, pick.choice(lines + [pick.choice(ODD_LINES).encode()]))
        elif what == 6:
            at = pick.randrange(6)
            most = (1, 8192, 64, 32, 64, 16)[at]
            lines[at] = b"%s %d" % (lines[at].split()[0], pick.choice((0, most, most + 1)))
        elif what == 7:
            most = len(self.processors)
            lines.insert(-1, pick.choice((
                b"level 1 0", b"unclaimed 1 0", b"level 0 %d" % self.count, b"level 0", b"level 0 0", b"esb 2 2",
                b"end", b"unconnected 1 0", b"unconnected 0", b"unconnected 0 0 0", b"unconnected %d %d" % (most, most),
                b"unconnected 0 %d" % most, b"unconnected 0 %d" % (most - 1))))
        elif what == 8:
            kinds = b"level", b"unclaimed", b"unconnected"
            lines[-1:-1] = [kind + b" 0 0" for kind in pick.sample(kinds, pick.choice((2, 2, 2, 3)))]
        else:
            lines[at] = self.spoil(lines[at])
        self.given_anew(lines)
        if self.run.machine and not self.broken:
            self.learn()
            self.set_up()
            self.mix(pick.choice((0, 20)))

    # -- the whole

    def bytes(self):
        # Those of wrong lines are many, as each script has one refusal at most; they are short.
        scenes = ((self.wrapping, 28), (self.wrapping_64_kib, 4), (self.full_bus, 9), (self.mixed, 12),
                  (self.edges, 14), (self.one_page, 9), (self.reconfigured, 9), (self.contexts, 56),
                  (self.windows, 20), (self.drained_bus, 3), (self.refused, 130), (self.refused_header, 50),
                  (self.escalating, 75), (self.changed_in_flight, 55), (self.outstanding, 40),
                  (self.refused_escalation, 70), (self.ring_pages, 40), (self.called, 400), (self.wrong_lines, 1500),
                  (self.wrong_header_line, 340), (self.cut, 50), (self.driven, 450), (self.served, 150),
                  (self.states, 120), (self.migrated, 130))
        self.choose(scenes)()
        if self.ending is not None:
            return b"\n".join(self.lines) + self.ending
        return b"\n".join(self.lines) + self.random.choice((
            b"", b"\n", b"\nend", b"\nend\n", b"\nend\n", b"\n\n# the end\n  \n",
            b"\n  end \nread 0\n\xff\n" + b"#" * 300 + b"\n0 read 0\n"))


def generate(seed):
    return Script(seed).bytes()


def deep():
    lines = ["board 1", "sources 1", "processors 1", "threads 1", "ram 2", "actors 1", "esb 2 0", "level 0 0", "go",
             "0 endset 0 vq 0 0 0 21 0 0", "0 hcall 0x3ac 2 0 0 0 0x1234567", "0 set 0 00", "0 assert 0"]
    lines += ["0 finish 0"] * 3 + ["0 finish 0", "0 read 0"] * 524287 + ["0 read 0"] * 8
    lines += ["0 peek 0", "0 peek 4", "0 peek 8", "0 peek 12", "0 peek 0x1ffffc", "end", ""]
    return "\n".join(lines).encode()


def main():
    words = sys.argv[1:]
    if len(words) != 1:
        sys.exit("usage: fuzz/generate.py SEED, or fuzz/generate.py deep")
    sys.stdout.buffer.write(deep() if words == ["deep"] else generate(int(words[0])))


if __name__ == "__main__":
    main()

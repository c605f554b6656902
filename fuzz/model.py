#!/usr/bin/env python3
"""What `xive_cli run` has to write of a script: a second opinion, worked out from docs/FORMATS.md alone.

    fuzz/model.py < SCRIPT      writes the account; the exit status is 0 (done), 2 (refused) or 7 (too long)

`run(script)` answers both, of bytes. Streams that fail and too little memory are not in it.
"""
import re
import sys
from collections import namedtuple
from types import SimpleNamespace

MOST_BYTES = 16777216
MOST_IN_A_LINE = 256
MOST_RANGES = 16
MOST_IN_FLIGHT = 4096
QUEUE_SHIFTS = (12, 16, 21, 24)

# ---- words -----------------------------------------------------------------------------------------------------------

DECIMAL = re.compile(r"[0-9]{1,20}\Z")
HEXADECIMAL = re.compile(r"0[xX][0-9a-fA-F]{1,16}\Z")
LETTERS = re.compile(r"-\Z|(?=.)v?q?n?b?e?u?s?\Z")
BAD_BYTE = re.compile(rb"[^\x20-\x7e]")


class Refused(Exception):
    """The line isn't in the language: the cause, and the byte that is named, from 1."""

    def __init__(self, cause, byte):
        super().__init__(cause, byte)
        self.cause = cause
        self.byte = byte


def number(word):
    """The value of a number, below 2^64; None where the word has not its form."""
    if HEXADECIMAL.match(word):
        return int(word, 16)
    if DECIMAL.match(word) and int(word) < 1 << 64:
        return int(word)
    return None


class Words:
    """The words of a line. They are taken from the left, and each is checked wholly before the next is taken."""

    def __init__(self, line):
        self.left = [(found.start() + 1, found.group()) for found in re.finditer("[^ ]+", line)]
        self.at = None               # the byte of the word that was taken last
        self.behind = len(line) + 1  # one past the line's last byte

    def first(self):
        return self.left[0][1] if self.left else None

    def take(self):
        if not self.left:
            raise Refused("missing-word", self.behind)
        self.at, word = self.left.pop(0)
        return word

    def number(self, least, most):
        """A number from least to most, both included."""
        value = number(self.take())
        if value is None:
            raise Refused("bad-number", self.at)
        if not least <= value <= most:
            raise Refused("out-of-range", self.at)
        return value

    def end(self):
        if self.left:
            raise Refused("extra-word", self.left[0][0])


# ---- the table of pairs ----------------------------------------------------------------------------------------------

PAIRS = ("00", "01", "10", "11")


def row(cells):
    """What is left where 00, 01, 10 and 11 are found, and whether that forwards (F)."""
    return {found: (cell[:2], cell.endswith("F")) for found, cell in zip(PAIRS, cells.split())}


TRIGGER = row("10F 01 11 11")
LEVEL_TRIGGER = row("10F 01 10 11")
EOI = row("00 01 00 10F")
EOI_LINE_UP = row("10F 01 10F 10F")
RAISE = row("10F 01 10 11")
KEEP = row("00 01 10 11")
SET = {pair: row(" ".join([pair] * 4)) for pair in PAIRS}


def row_at(offset, store, trigger, eoi, store_eoi):
    """The row of an access to a management page; None where the offset is bad."""
    offset %= 4096
    if offset >= 0xc00:
        return SET[PAIRS[offset // 0x100 % 4]]
    if offset >= 0x800:
        return None if store else KEEP
    if not store:
        return eoi
    if offset < 0x400:
        return trigger
    return eoi if store_eoi else None


# ---- the pages of a thread -------------------------------------------------------------------------------------------

# What an access to a page, at an offset, of so many bytes is. The load of registers isn't among them.
RING = {
    ("store", 2, 0x11, 1): "cppr",
    ("load", 2, 0x810, 2): "ack",
    ("store", 2, 0x812, 1): "inject",
    ("store", 1, 0x18, 4): "push",
    ("load", 1, 0x818, 4): "pull",
    ("load", 1, 0x818, 8): "pull",
}


def ring_access(way, page, offset, size):
    """One of these, or `regs`; None where there is no such access."""
    if way == "load" and page <= 2 and 0x10 <= offset <= 0x1f and offset % size == 0:
        return "regs"
    return RING.get((way, page, offset, size))


# ---- the parts of a board --------------------------------------------------------------------------------------------


class Memory:
    """Words of 4 bytes, each a big-endian number. All are 0 at the start."""

    def __init__(self, mib):
        self.size = mib * 1048576
        self.bytes = bytearray(self.size)

    def fits(self, address, length):
        return address % 4 == 0 and length % 4 == 0 and address + length <= self.size

    def holds_queue(self, address, shift):
        """The queue is aligned and lies within the memory."""
        return address % (1 << shift) == 0 and address + (1 << shift) <= self.size

    def word(self, address):
        return int.from_bytes(self.bytes[address:address + 4], "big")

    def put(self, address, word):
        self.bytes[address:address + 4] = word.to_bytes(4, "big")

    def zero(self, address, length):
        self.bytes[address:address + length] = bytes(length)


class Source:
    """A source and its EAS. It starts off, and its EAS masked, with END 0 and payload 0."""

    def __init__(self, level, claimed):
        self.level = level
        self.pq = "01"
        self.asserted = False
        self.forwards = 0
        self.routes = 0
        self.valid = claimed
        self.clear()

    def clear(self):
        """Its EAS is as at the start, but for whether it is valid."""
        self.masked, self.end, self.payload = True, 0, 0

    def outstanding(self):
        return self.forwards - self.routes

    def trigger_row(self):
        return LEVEL_TRIGGER if self.level else TRIGGER

    def eoi_row(self):
        return EOI_LINE_UP if self.level and self.asserted else EOI

    def apply(self, cells):
        """Takes the pair through a row; answers the outcome, and whether it forwarded."""
        old = self.pq
        self.pq, forwards = cells[old]
        if not forwards:
            return f"{old} {self.pq}", False
        self.forwards += 1
        return f"{old} {self.pq} forward {self.forwards}", True


class End:
    def __init__(self):
        self.reset()

    def reset(self):
        """Not valid, and all else 0."""
        self.configure("-", 0, 0, 0, 0, 0, 0)

    def configure(self, flags, v, priority, address, shift, escalation, payload, start=0):
        """Both states are 00 with v, else 01; nothing was written since, and nothing taken."""
        self.flags = flags
        self.v = v
        self.priority = priority
        self.address = address
        self.shift = shift
        self.escalation = escalation  # the END that it escalates to, and what is written there
        self.payload = payload
        self.start = start            # the number of the entry that is written first, and read first
        self.states = ["00", "00"] if "v" in flags else ["01", "01"]
        self.written = 0
        self.taken = 0

    def entries(self):
        return 1 << (self.shift - 2)

    # Of the entry before which j others were written since the configuration.

    def index(self, j):
        return (self.start + j) % self.entries()

    def place(self, j):
        return self.address + 4 * self.index(j)

    def generation(self, j):
        return 1 if (self.start + j) // self.entries() % 2 == 0 else 0

    def enqueue(self, memory, payload):
        """Writes the next entry: the generation, and 31 bits of payload."""
        address = self.place(self.written)
        word = self.generation(self.written) << 31 | payload
        memory.put(address, word)
        self.written += 1
        return address, word

    def read(self, memory):
        """A guest sees memory alone: whether the next entry is there it finds by the generation."""
        if "q" not in self.flags:
            return "no-queue"
        word = memory.word(self.place(self.taken))
        if word >> 31 != self.generation(self.taken):
            return "empty"
        self.taken += 1
        return f"item {word & 0x7fffffff:#x}"


# What is in flight: the source that it comes from, its END, and of the END what was configured when it was made. It
# presents, or else it escalates.
Message = namedtuple("Message", "escalates origin end flags v priority escalation payload")


# ---- processors and threads ------------------------------------------------------------------------------------------


def pending_bit(priority):
    return 0x80 >> priority


class Processor:
    """A virtual processor. It starts saved, with CPPR 0 and nothing pending."""

    def __init__(self, connected):
        self.connected = connected
        self.phase = "saved"
        self.thread = None  # it has one exactly where it isn't saved
        self.cppr = 0       # this and IPB are what is saved of its context, and 0 where it isn't saved
        self.ipb = 0
        self.backlog = 0

    def where(self):
        return self.phase if self.thread is None else f"{self.phase} {self.thread}"

    def goes(self, phase, thread):
        self.phase, self.thread = phase, thread


class Thread:
    """A hardware thread with its ring. While it is free, its registers are 0 but for PIPR."""

    VALID = 1 << 31  # the top bit of CAM

    def __init__(self):
        self.clear()

    def clear(self):
        self.user = None  # the number of the processor whose context is here
        self.cppr = 0
        self.ipb = 0
        self.cam = 0

    def pipr(self):
        """The most urgent of the priorities that are pending."""
        return next((priority for priority in range(8) if self.ipb & pending_bit(priority)), 0xff)

    def nsr(self):
        return 0x80 if self.cam & self.VALID and self.pipr() < self.cppr else 0

    def registers(self):
        """The sixteen bytes of the ring."""
        first = bytes((self.nsr(), self.cppr, self.ipb, 0xff, 0xff, 0, 0xff, self.pipr()))
        return first + self.cam.to_bytes(4, "big") + bytes(4)

    def acknowledge(self):
        """NSR as it was and CPPR as it is then, in two bytes."""
        nsr = self.nsr()
        if nsr:
            self.cppr = self.pipr()
            self.ipb &= ~pending_bit(self.cppr)
        return nsr << 8 | self.cppr


# ---- the header ------------------------------------------------------------------------------------------------------


# The header's lines with one number, in their order, and what that is at least and at most.
COUNTS = {"board": (1, 1), "sources": (1, 8192), "processors": (1, 64), "threads": (1, 32), "ram": (0, 64),
          "actors": (1, 16)}
# Its lines with a range, in their order, and what they are ranges of.
RANGES = {"level": "sources", "unclaimed": "sources", "unconnected": "processors"}
HEADER_WORDS = (*COUNTS, "esb", *RANGES, "go")


class Board:
    """The header, given line by line."""

    def __init__(self):
        self.counts = {}
        self.esb = None
        self.ranges = {name: [] for name in RANGES}

    def turn(self):
        """The words with which the next line may begin."""
        if len(self.counts) < len(COUNTS):
            return (list(COUNTS)[len(self.counts)],)
        if self.esb is None:
            return ("esb",)
        given = [name for name in RANGES if self.ranges[name]]
        return HEADER_WORDS[HEADER_WORDS.index(given[-1] if given else "level"):]

    def feed(self, words):
        """A line whose first word is in its turn. True where this was the go line, so that the header is whole."""
        name = words.take()
        if name in COUNTS:
            self.counts[name] = words.number(*COUNTS[name])
        elif name == "esb":
            self.esb = words.number(1, 2), words.number(0, 1)
        elif name in RANGES:
            self.range(words, self.ranges[name], self.counts[RANGES[name]] - 1)
        words.end()
        return name == "go"

    @staticmethod
    def range(words, ranges, last):
        if len(ranges) == MOST_RANGES:
            raise Refused("out-of-range", words.at)
        first = words.number(0, last)
        ranges.append((first, words.number(first, last)))

    def text(self):
        lines = [f"{name} {self.counts[name]}" for name in COUNTS if name != "board"]
        lines.append("esb {} {}".format(*self.esb))
        for name, ranges in self.ranges.items():
            lines += ["{} {} {}".format(name, *both) for both in ranges]
        return lines + ["go"]


# ---- hypercalls ------------------------------------------------------------------------------------------------------

H_SUCCESS, H_FUNCTION, H_PARAMETER, H_P2, H_P3, H_P4, H_P5 = 0, -2, -4, -55, -56, -57, -58
NO_PAGE = (1 << 64) - 1
PAGE_SHIFT = 16
PAGE = 1 << PAGE_SHIFT
# Where the pages lie; each source has room for two, and each END has two.
SOURCE_PAGES = 0x6010000000000
END_PAGES = 0x6020000000000

# A check looks at the arguments that a call names. It answers the code with which the call ends, or None where the next
# check is to be made; H_SUCCESS goes to the effect at once. No argument is cut.


def only_flags(known):
    return lambda machine, given: H_PARAMETER if given.flags & ~known else None


def a_source(machine, given):
    good = given.lisn < len(machine.sources) and machine.sources[given.lisn].valid
    return None if good else H_P2


def a_mask(_machine, given):
    return H_SUCCESS if given.priority == 0xff else None


def a_priority(code):
    return lambda machine, given: None if given.priority <= 6 else code


def a_target(code):
    def check(machine, given):
        good = given.target < len(machine.processors) and machine.processors[given.target].connected
        return None if good else code
    return check


def a_size(_machine, given):
    """With size 0 there is no queue, so its address isn't looked at."""
    if given.size == 0:
        return H_SUCCESS
    return None if given.size in QUEUE_SHIFTS else H_P5


def an_address(machine, given):
    return None if machine.memory.holds_queue(given.address, given.size) else H_P4


def an_offset(_machine, given):
    return None if given.offset < PAGE else H_P3


# An effect changes the machine, or answers the outputs.


def source_info(machine, given):
    level, one_page = machine.sources[given.lisn].level, machine.pages == 1
    flags = (1 if machine.store_eoi else 0) | (2 if one_page else 0) | (4 | 8 if level else 0)
    first = SOURCE_PAGES + given.lisn * 2 * PAGE
    management, trigger = (first, NO_PAGE) if one_page else (first + PAGE, first)
    if level:
        management = trigger = NO_PAGE
    return flags, management, trigger, PAGE_SHIFT


def set_source(machine, given):
    source = machine.sources[given.lisn]
    if given.priority == 0xff:
        source.clear()
        return
    source.end = 8 * given.target + given.priority
    source.masked = given.flags & 1 != 0
    if given.flags & 2:
        source.payload = given.eisn & 0x7fffffff


def get_source(machine, given):
    """It answers by the number of the END, whatever that END is told."""
    source = machine.sources[given.lisn]
    return source.end // 8, 0xff if source.masked else source.end % 8, source.payload


def queue_info(_machine, given):
    return END_PAGES + (8 * given.target + given.priority) * 2 * PAGE, PAGE_SHIFT


def set_queue(machine, given):
    end = machine.ends[8 * given.target + given.priority]
    if given.size == 0:
        end.reset()
        return
    flags = "vqnb" if given.flags & 1 else "vqb"
    end.configure(flags, given.target, given.priority, given.address, given.size, 0, 0)


def get_queue(machine, given):
    """With flag 1 also where the next entry will be written, and with which generation."""
    end = machine.ends[8 * given.target + given.priority]
    flags, index = 1 if "n" in end.flags else 0, 0
    if given.flags & 1 and "q" in end.flags:
        flags |= end.generation(end.written) << 62
        index = end.index(end.written)
    return flags, end.address, end.shift, index


def reset_all(machine, _given):
    """EASes that aren't valid stay so; what is on its way, memory and processors stay as they are."""
    for source in machine.sources:
        if source.valid:
            source.clear()
    for end in machine.ends:
        end.reset()


def nothing(_machine, _given):
    pass


# What a line does behind a call that was accepted.


def accesses(machine, given):
    """The management page is the last one."""
    access = machine.line_store if given.flags & 1 else machine.line_load
    access(given.lisn, machine.pages - 1, given.offset)


def syncs(machine, given):
    machine.line_sync(given.lisn)


def switches_off(machine, _given):
    for s, source in enumerate(machine.sources):
        if source.valid:
            machine.line_set(s, "01")


# The names of the arguments that count, the checks in their order, the effect, and what the line goes on with.
Call = namedtuple("Call", "names checks effect goes_on", defaults=(nothing,))
CALLS = {
    0x3a8: Call("flags lisn", (only_flags(0), a_source), source_info),
    0x3ac: Call("flags lisn target priority eisn",
                (only_flags(3), a_source, a_mask, a_priority(H_P4), a_target(H_P3)), set_source),
    0x3b0: Call("flags lisn", (only_flags(0), a_source), get_source),
    0x3b4: Call("flags target priority", (only_flags(0), a_priority(H_P3), a_target(H_P2)), queue_info),
    0x3b8: Call("flags target priority address size",
                (only_flags(1), a_priority(H_P3), a_target(H_P2), a_size, an_address), set_queue),
    0x3bc: Call("flags target priority", (only_flags(1), a_priority(H_P3), a_target(H_P2)), get_queue),
    0x3c8: Call("flags lisn offset", (only_flags(1), a_source, an_offset), nothing, accesses),
    0x3cc: Call("flags lisn", (only_flags(0), a_source), nothing, syncs),
    0x3d0: Call("flags", (only_flags(0),), reset_all, switches_off),
}


def code_of(machine, call, given):
    """That of the first check that doesn't let the next one be made."""
    codes = (check(machine, given) for check in call.checks)
    return next((code for code in codes if code is not None), H_SUCCESS)


# ---- attributes of the KVM device ------------------------------------------------------------------------------------

ENOENT, ENXIO, E2BIG, EBUSY, EINVAL = -2, -6, -7, -16, -22
CONTROL, QUEUE = 1, 4  # the group whose attributes are things to do, and the one whose values are queues

# What is given: an attribute and its value are taken apart into fields. A processor is a server here.


def number_given(_attribute, value):
    return {"value": value}


def source_given(attribute, value):
    return {"lisn": attribute, "value": value}


def route_given(attribute, value):
    return {"lisn": attribute, "priority": value & 7, "target": value >> 3 & 0x1fffffff, "mask": value >> 32 & 1,
            "eisn": value >> 33}


def end_given(attribute):
    """The bits above are ignored."""
    return {"priority": attribute & 7, "target": attribute >> 3 & 0x1fffffff}


def queue_given(attribute, value):
    return dict(end_given(attribute), **dict(zip("flags shift address toggle index".split(), value)))


# Checks are as those of hypercalls, and some are the same.


def a_number_of_servers(machine, given):
    return None if 1 <= given.value <= len(machine.processors) else EINVAL


def nobody_connected(machine, _given):
    return EBUSY if any(processor.connected for processor in machine.processors) else None


def within_the_sources(code):
    return lambda machine, given: None if given.lisn < len(machine.sources) else code


def a_valid_source(machine, given):
    return None if machine.sources[given.lisn].valid else EINVAL


def its_kind(machine, given):
    """Bit 0 says that it is a level source."""
    return None if given.value & 1 == machine.sources[given.lisn].level else EINVAL


def is_masked(_machine, given):
    return H_SUCCESS if given.mask else None


def an_end_with_a_queue(machine, given):
    return None if "q" in machine.ends[8 * given.target + given.priority].flags else ENXIO


def is_reset(_machine, given):
    return H_SUCCESS if given.shift == 0 else None


def always_notifies(_machine, given):
    return None if given.flags == 1 else EINVAL


def a_shift(_machine, given):
    return None if given.shift in QUEUE_SHIFTS else EINVAL


def a_place(machine, given):
    return None if machine.memory.holds_queue(given.address, given.shift) else EINVAL


def a_start(_machine, given):
    return None if given.toggle <= 1 and given.index < 1 << given.shift - 2 else EINVAL


# Effects.


def set_servers(machine, given):
    machine.servers = given.value


def claim_source(machine, given):
    source = machine.sources[given.lisn]
    source.valid = True
    source.clear()


def set_route(machine, given):
    """A mask leaves all else."""
    source = machine.sources[given.lisn]
    source.masked = given.mask == 1
    if not source.masked:
        source.end, source.payload = 8 * given.target + given.priority, given.eisn


def set_eq(machine, given):
    """TOGGLE is the generation of the entry at INDEX."""
    end = machine.ends[8 * given.target + given.priority]
    if given.shift == 0:
        return end.reset()
    start = given.index if given.toggle else given.index + (1 << given.shift - 2)
    return end.configure("vqnb", given.target, given.priority, given.address, given.shift, 0, 0, start)


def get_eq(machine, given):
    """Of the entry that will be written next; all are 0 where there is no queue."""
    end = machine.ends[8 * given.target + given.priority]
    if "q" not in end.flags:
        return 0, 0, 0, 0, 0
    notifies = 1 if "n" in end.flags else 0
    return notifies, end.shift, end.address, end.generation(end.written), end.index(end.written)


# What the line does behind an attribute that was accepted.


def drains(machine, _given):
    machine.line_drain()


def starts_off(machine, given):
    """Bit 1 says that the line of a level source is up."""
    machine.line_init(given.lisn, given.value >> 1 & 1 if machine.sources[given.lisn].level else 0)


# How the fields are given, the checks in their order, the effect, and what the line goes on with.
Attribute = namedtuple("Attribute", "given checks effect goes_on", defaults=(nothing,))
CONTROLS = {
    1: Attribute(number_given, (), reset_all, switches_off),
    2: Attribute(number_given, (), nothing, drains),
    3: Attribute(number_given, (a_number_of_servers, nobody_connected), set_servers),
}
GROUPS = {
    2: Attribute(source_given, (within_the_sources(E2BIG), its_kind), claim_source, starts_off),
    3: Attribute(route_given,
                 (within_the_sources(ENOENT), a_valid_source, a_priority(EINVAL), is_masked, a_target(EINVAL),
                  an_end_with_a_queue), set_route),
    QUEUE: Attribute(queue_given,
                     (a_target(ENOENT), a_priority(EINVAL), is_reset, always_notifies, a_shift, a_place, a_start),
                     set_eq),
    5: Attribute(source_given, (within_the_sources(ENOENT), a_valid_source), nothing, syncs),
}
# The one group that is answered.
ASKED = Attribute(end_given, (a_target(ENOENT), a_priority(EINVAL)), get_eq)


# ---- the machine -----------------------------------------------------------------------------------------------------

# The work lines without their ACTOR. Of each the word, and the forms of the words behind it: N is any number, and I one
# of 32 bits; the others are in `field`. `line_NAME` of the machine does what a line says.
LINES = {line.split()[0]: line.split()[1:] for line in (
    "trigger S", "eoi S", "get S", "set S PQ", "raise S", "lower S", "init S A", "load S PAGE OFFSET",
    "store S PAGE OFFSET", "endload E END-PAGE OFFSET", "endstore E END-PAGE OFFSET", "route S", "take I", "quiet S",
    "endset E FLAGS V BYTE N I E I", "connect V", "restore V T", "save V", "tload T RING-PAGE OFFSET SIZE",
    "tstore T RING-PAGE OFFSET SIZE VALUE", "hcall N N N N N N", "kvmset I N N", "kvmeq N I I N I I", "kvmget I N",
    "vpget V", "vpset V BYTE BYTE", "read E", "peek N", "zero N N", "fire S", "finish S", "assert S", "settle", "drain",
    "sync S", "cppr T BYTE", "ack T", "inject T BYTE", "regs T", "push T V", "pull T", "reset", "migrate")}


def is_among(n, ranges):
    return any(first <= n <= last for first, last in ranges)


class Machine:
    def __init__(self, board, out):
        self.out = out
        self.counts = board.counts
        self.pages, self.store_eoi = board.esb
        self.memory = Memory(board.counts["ram"])
        ranges = board.ranges
        self.sources = [Source(is_among(s, ranges["level"]), not is_among(s, ranges["unclaimed"]))
                        for s in range(board.counts["sources"])]
        self.processors = [Processor(not is_among(v, ranges["unconnected"]))
                           for v in range(board.counts["processors"])]
        self.servers = len(self.processors)  # those from there on can't be connected
        self.threads = [Thread() for _ in range(board.counts["threads"])]
        self.ends = [End() for _ in range(8 * len(self.processors))]
        self.flight = []  # the messages in the order made
        self.count = 0
        self.actor = 0
        self.most = {"S": len(self.sources) - 1, "E": len(self.ends) - 1, "V": len(self.processors) - 1,
                     "T": len(self.threads) - 1, "A": 1, "PAGE": self.pages - 1, "END-PAGE": 1, "RING-PAGE": 3,
                     "OFFSET": 0xffff, "BYTE": 0xff, "I": (1 << 32) - 1, "N": (1 << 64) - 1}

    def line(self, words):
        """Reads a work line, and makes its entries."""
        self.actor = words.number(0, self.counts["actors"] - 1)
        name, at = words.take(), words.at
        if name not in LINES:
            raise Refused("unknown-word", at)
        fields = []
        for form in LINES[name]:
            fields.append(self.field(form, words, fields))
        words.end()
        cause = self.against(name, fields)
        if cause:
            raise Refused(cause, at)
        getattr(self, "line_" + name)(*fields)

    def field(self, form, words, before):
        """The next word of a line, by its form; `before` are the fields before it."""
        if form == "PQ" or form == "FLAGS":
            word = words.take()
            if not (word in PAIRS if form == "PQ" else LETTERS.match(word)):
                raise Refused("bad-number", words.at)
            return word
        if form == "VALUE":
            return words.number(0, (1 << 8 * before[-1]) - 1)
        if form == "SIZE":
            size = words.number(1, 8)
            if size not in (1, 2, 4, 8):
                raise Refused("out-of-range", words.at)
            return size
        return words.number(0, self.most[form])

    def against(self, name, fields):
        """Why a line isn't taken whose words are all right, each by itself; None where it is taken."""
        if name in ("raise", "lower", "assert") or name == "init" and fields[1] == 1:
            return None if self.sources[fields[0]].level else "not-level"
        if name == "endset":
            return None if self.takes_end(*fields) else "bad-end"
        return None

    def entry(self, operation, outcome):
        self.out.append(f"{self.count} {self.actor} {operation} -> {outcome}")
        self.count += 1

    # -- sources

    def on_pair(self, operation, s, cells):
        outcome, forwarded = self.sources[s].apply(cells)
        self.entry(operation, outcome)
        return forwarded

    def line_trigger(self, s):
        return self.on_pair(f"trigger {s}", s, self.sources[s].trigger_row())

    def line_eoi(self, s):
        return self.on_pair(f"eoi {s}", s, self.sources[s].eoi_row())

    def line_get(self, s):
        self.on_pair(f"get {s}", s, KEEP)

    def line_set(self, s, pair):
        self.on_pair(f"set {s} {pair}", s, SET[pair])

    def move(self, operation, s, cells, up):
        """The line of a level source goes up or down."""
        self.sources[s].asserted = up
        return self.on_pair(f"{operation} {s}", s, cells)

    def line_raise(self, s):
        return self.move("raise", s, RAISE, True)

    def line_lower(self, s):
        self.move("lower", s, KEEP, False)

    def line_init(self, s, up):
        self.sources[s].asserted = up == 1
        self.on_pair(f"init {s} {up}", s, SET["01"])

    # Where the first step forwarded, the notice is routed.

    def line_fire(self, s):
        if self.line_trigger(s):
            self.line_route(s)

    def line_finish(self, s):
        if self.line_eoi(s):
            self.line_route(s)

    def line_assert(self, s):
        if self.line_raise(s):
            self.line_route(s)

    # -- pages

    def line_load(self, s, page, offset):
        self.entry(f"load {s} {page} {offset:#x}", self.access(self.sources[s], page, offset, False))

    def line_store(self, s, page, offset):
        self.entry(f"store {s} {page} {offset:#x}", self.access(self.sources[s], page, offset, True))

    def access(self, source, page, offset, store):
        """With two pages, page 0 is the trigger page."""
        if self.pages == 2 and page == 0:
            return source.apply(source.trigger_row())[0] if store else "ones"
        cells = row_at(offset, store, source.trigger_row(), source.eoi_row(), self.store_eoi)
        return "bad-offset" if cells is None else source.apply(cells)[0]

    def line_endload(self, e, page, offset):
        """What a load of a management page does to the pair of a message source, a state of an END does too."""
        end = self.ends[e]
        outcome = "no-end"
        if "v" in end.flags:
            old = end.states[page]
            end.states[page] = row_at(offset, False, TRIGGER, EOI, False)[old][0]
            outcome = f"{old} {end.states[page]}"
        self.entry(f"endload {e} {page} {offset:#x}", outcome)

    def line_endstore(self, e, page, offset):
        self.entry(f"endstore {e} {page} {offset:#x}", "bad-offset")

    # -- hypercalls and configurations

    def line_hcall(self, number, *arguments):
        """Numbers that are no call's are answered too; arguments that a call doesn't name are shown alone."""
        shown = " ".join(hex(argument) for argument in (number, *arguments))
        call = CALLS.get(number)
        if call is None:
            return self.entry(f"hcall {shown}", f"code {H_FUNCTION}")
        given = SimpleNamespace(**dict(zip(call.names.split(), arguments)))
        code = code_of(self, call, given)
        outputs = ()
        if code == H_SUCCESS:
            outputs = call.effect(self, given) or ()
        self.entry(f"hcall {shown}", " ".join((f"code {code}", *map(hex, outputs))))
        if code == H_SUCCESS:
            call.goes_on(self, given)

    def line_kvmset(self, group, attribute, value):
        self.set_attribute(f"kvmset {group} {attribute:#x} {value:#x}", group, attribute, value)

    def line_kvmeq(self, attribute, *queue):
        self.set_attribute("kvmeq {:#x} {:#x} {} {:#x} {} {}".format(attribute, *queue), QUEUE, attribute, queue)

    def set_attribute(self, operation, group, attribute, value):
        """Whether there is such an attribute is asked first, and then whether its value has its form."""
        row = CONTROLS.get(attribute) if group == CONTROL else GROUPS.get(group)
        if row is None:
            return self.entry(operation, f"code {ENXIO}")
        if isinstance(value, int) == (group == QUEUE):
            return self.entry(operation, f"code {EINVAL}")
        given = SimpleNamespace(**row.given(attribute, value))
        code = code_of(self, row, given)
        if code == H_SUCCESS:
            row.effect(self, given)
        self.entry(operation, f"code {code}")
        if code == H_SUCCESS:
            row.goes_on(self, given)

    def line_kvmget(self, group, attribute):
        given = SimpleNamespace(**ASKED.given(attribute))
        code = code_of(self, ASKED, given) if group == QUEUE else ENXIO
        outcome = f"code {code}"
        if code == H_SUCCESS:
            outcome = "queue {:#x} {} {:#x} {} {}".format(*ASKED.effect(self, given))
        self.entry(f"kvmget {group} {attribute:#x}", outcome)

    def line_reset(self):
        self.line_hcall(0x3d0, 0, 0, 0, 0, 0)

    def line_endset(self, e, flags, v, priority, address, shift, escalation, payload):
        self.ends[e].configure(flags, v, priority, address, shift, escalation, payload)
        self.entry(f"endset {e} {flags} {v} {priority} {address:#x} {shift} {escalation} {payload:#x}", "ok")

    def takes_end(self, e, flags, v, priority, address, shift, escalation, payload):
        """Without v there are no flags, and the numbers are 0."""
        if "v" not in flags and (flags, v, priority) != ("-", 0, 0):
            return False
        return (priority <= 7 and self.takes_queue(flags, address, shift) and
                self.takes_escalation(e, flags, escalation, payload))

    def takes_queue(self, flags, address, shift):
        """Without q the numbers are 0."""
        if "q" not in flags:
            return address == 0 and shift == 0
        return shift in QUEUE_SHIFTS and self.memory.holds_queue(address, shift)

    @staticmethod
    def takes_escalation(e, flags, escalation, payload):
        """The last END of each eight is escalated to, and doesn't escalate; without e the numbers are 0."""
        if "e" not in flags:
            return escalation == 0 and payload == 0
        return e % 8 != 7 and escalation % 8 == 7 and payload < 1 << 31

    # -- routes

    def line_route(self, s):
        self.entry(f"route {s}", self.routed(s))

    def routed(self, s):
        """The first of these that holds decides."""
        source = self.sources[s]
        if source.outstanding() == 0:
            return "no-notice"
        if len(self.flight) == MOST_IN_FLIGHT:
            return "bus-full"
        source.routes += 1
        if not source.valid:
            return f"{source.routes} no-source"
        if source.masked:
            return f"{source.routes} masked"
        return f"{source.routes} {self.end_pass(source.end, source.payload, s)}"

    def end_pass(self, e, payload, origin):
        """Writes with q; then with s escalates or is silent; else presents, but without n only where ESn is 00."""
        end = self.ends[e]
        if "v" not in end.flags:
            return f"end {e} no-end"
        wrote = f"end {e} unwritten"
        if "q" in end.flags:
            wrote = "end {} wrote {:#x} {:#x}".format(e, *end.enqueue(self.memory, payload))
        message = Message("s" in end.flags, origin, e, end.flags, end.v, end.priority, end.escalation, end.payload)
        if message.escalates:
            if "e" not in end.flags:
                return wrote + " silent"
            self.flight.append(message)
            return wrote + " escalate"
        if "n" not in end.flags:
            end.states[0], notifies = TRIGGER[end.states[0]]
            if not notifies:
                return wrote + " coalesced"
        self.flight.append(message)
        return wrote + " present"

    def line_quiet(self, s):
        notices = self.sources[s].outstanding()
        messages = sum(message.origin == s for message in self.flight)
        self.entry(f"quiet {s}", f"busy {notices} {messages}" if notices or messages else "quiet")

    def line_sync(self, s):
        self.line_settle()
        self.route_all(s)
        self.line_quiet(s)

    def line_drain(self):
        self.line_settle()
        for s in range(len(self.sources)):
            self.route_all(s)

    def route_all(self, s):
        while self.sources[s].outstanding():
            self.line_route(s)
            self.line_settle()

    # -- messages

    def line_take(self, i):
        """True where there was such a message."""
        found = i < len(self.flight)
        outcome = "no-message"
        if found:
            message = self.flight.pop(i)
            outcome = self.escalated(message) if message.escalates else self.presented(message)
        self.entry(f"take {i}", outcome)
        return found

    def line_settle(self):
        while self.line_take(0):
            pass

    def presented(self, message):
        """Whom it doesn't find it escalates for, as the END was when the message was made."""
        bit, kept = pending_bit(message.priority), "b" in message.flags
        how = self.present(self.processors[message.v], bit, kept)
        text = f"present {message.v} {message.priority} {how}"
        if "e" in message.flags and how in ("backlogged", "lost"):
            self.flight.append(message._replace(escalates=True))
            text += " escalate"
        return text

    def escalated(self, message):
        """Without u only where ESe of the END is 00, as it is at the take."""
        states = self.ends[message.end].states
        if "u" not in message.flags:
            states[1], goes_on = TRIGGER[states[1]]
            if not goes_on:
                return f"escalate {message.end} coalesced"
        return f"escalate {message.end} {self.end_pass(message.escalation, message.payload, message.origin)}"

    def present(self, processor, bit, kept):
        """The first of these that holds decides; it is as the processor is at the take."""
        if not processor.connected:
            return "no-processor"
        if processor.phase == "on":
            self.threads[processor.thread].ipb |= bit
            return "found"
        if kept:
            processor.backlog |= bit
            return "backlogged"
        return "lost"

    # -- moves of contexts; of each the first refusal that holds

    def line_connect(self, v):
        if v >= self.servers:
            return self.entry(f"connect {v}", f"code {EINVAL}")
        self.processors[v].connected = True
        self.entry(f"connect {v}", "code 0")

    def line_restore(self, v, t):
        self.entry(f"restore {v} {t}", self.restore(v, t))

    def restore(self, v, t):
        processor, thread = self.processors[v], self.threads[t]
        if not processor.connected:
            return "refused not-valid"
        if processor.phase != "saved":
            return f"refused vp-busy {processor.where()}"
        if thread.user is not None:
            return f"refused ring-busy {thread.user}"
        thread.user, thread.cppr, thread.ipb = v, processor.cppr, processor.ipb
        processor.cppr = processor.ipb = 0
        processor.goes("restored", t)
        return "ok"

    def push(self, t, cam):
        v, thread = cam - 0x80000400, self.threads[t]
        if not 0 <= v < len(self.processors) or not self.processors[v].connected:
            return "refused not-valid"
        processor = self.processors[v]
        if (processor.phase, processor.thread) != ("restored", t):
            return f"refused not-restored {processor.where()}"
        thread.cam = cam
        thread.ipb |= processor.backlog
        processor.backlog = 0
        processor.goes("on", t)
        return "ok"

    def pull(self, t):
        thread = self.threads[t]
        if not thread.cam & thread.VALID:
            return "refused no-context"
        before = thread.cam
        thread.cam &= ~thread.VALID
        self.processors[thread.user].goes("pulled", t)
        return f"value {before:#x}"

    def line_save(self, v):
        self.entry(f"save {v}", self.save(self.processors[v]))

    def save(self, processor):
        if not processor.connected:
            return "refused not-valid"
        if processor.phase != "pulled":
            return f"refused not-pulled {processor.where()}"
        thread = self.threads[processor.thread]
        processor.cppr, processor.ipb = thread.cppr, thread.ipb
        thread.clear()
        processor.goes("saved", None)
        return "ok"

    # -- the state of a processor, which is got and set while its context is saved; and a migration

    def line_vpget(self, v):
        processor = self.processors[v]
        outcome = f"code {self.state_code(processor)}"
        if outcome == "code 0":
            outcome = f"context {processor.cppr:#x} {processor.ipb | processor.backlog:#x}"
        self.entry(f"vpget {v}", outcome)

    def line_vpset(self, v, cppr, ipb):
        processor = self.processors[v]
        code = self.state_code(processor)
        if code == 0:
            processor.cppr = cppr if cppr <= 7 else 0xff
            processor.ipb, processor.backlog = ipb, 0
        self.entry(f"vpset {v} {cppr:#x} {ipb:#x}", f"code {code}")

    @staticmethod
    def state_code(processor):
        if not processor.connected:
            return EINVAL
        return 0 if processor.phase == "saved" else EBUSY

    def line_migrate(self):
        """All sources are drained, but those alone are switched off and on whose EAS is valid."""
        pairs = {s: source.pq for s, source in enumerate(self.sources) if source.valid}
        for s in pairs:
            self.line_set(s, "01")
        self.line_drain()
        for s, pair in pairs.items():
            self.line_set(s, pair)

    # -- the pages of a thread, and the lines that are accesses to them

    def line_tload(self, t, page, offset, size):
        outcome = "bad-access"
        access = ring_access("load", page, offset, size)
        if access == "regs":
            at = offset - 0x10
            outcome = "value {:#x}".format(int.from_bytes(self.threads[t].registers()[at:at + size], "big"))
        elif access == "ack":
            outcome = self.on_thread(t, self.acknowledge)
        elif access == "pull":
            outcome = self.pull(t)
        self.entry(f"tload {t} {page} {offset:#x} {size}", outcome)

    def line_tstore(self, t, page, offset, size, value):
        outcome = "bad-access"
        access = ring_access("store", page, offset, size)
        if access == "cppr":
            outcome = self.on_thread(t, self.set_cppr, value)
        elif access == "inject":
            outcome = self.on_thread(t, self.inject, value)
        elif access == "push":
            outcome = self.push(t, value)
        self.entry(f"tstore {t} {page} {offset:#x} {size} {value:#x}", outcome)

    def on_thread(self, t, does, *value):
        """What needs a processor that is on the thread; a load of registers doesn't."""
        thread = self.threads[t]
        return does(thread, *value) if thread.cam & thread.VALID else "refused no-context"

    @staticmethod
    def acknowledge(thread):
        return f"value {thread.acknowledge():#x}"

    @staticmethod
    def set_cppr(thread, value):
        thread.cppr = value if value <= 7 else 0xff
        return "stored"

    @staticmethod
    def inject(thread, priority):
        if priority <= 7:
            thread.ipb |= pending_bit(priority)
        return "stored"

    def line_push(self, t, v):
        self.line_tstore(t, 1, 0x18, 4, 0x80000400 + v)

    def line_pull(self, t):
        self.line_tload(t, 1, 0x818, 4)

    def line_cppr(self, t, value):
        self.line_tstore(t, 2, 0x11, 1, value)

    def line_ack(self, t):
        self.line_tload(t, 2, 0x810, 2)

    def line_inject(self, t, priority):
        self.line_tstore(t, 2, 0x812, 1, priority)

    def line_regs(self, t):
        self.line_tload(t, 2, 0x10, 8)

    # -- memory

    def line_read(self, e):
        self.entry(f"read {e}", self.ends[e].read(self.memory))

    def line_peek(self, address):
        outcome = "bad-range"
        if self.memory.fits(address, 4):
            outcome = f"word {self.memory.word(address):#x}"
        self.entry(f"peek {address:#x}", outcome)

    def line_zero(self, address, length):
        outcome = "bad-range"
        if self.memory.fits(address, length):
            self.memory.zero(address, length)
            outcome = "ok"
        self.entry(f"zero {address:#x} {length:#x}", outcome)

    # -- the report

    def report(self):
        out = [f"end {self.count}"]
        for s, source in enumerate(self.sources):
            if source.pq != "01" or source.forwards or source.asserted:
                line = "source {} {} {} {}".format(s, source.pq, source.forwards, source.routes)
                out.append(line + (" asserted" if source.asserted else ""))
        for e, end in enumerate(self.ends):
            if "v" in end.flags:
                out.append("queue {} {} {} {} {} {}".format(e, end.flags, end.written, end.taken, *end.states))
        for v, processor in enumerate(self.processors):
            if processor.connected:
                out.append("processor {} {} {:#x} {:#x} {:#x}".format(
                    v, processor.where(), processor.cppr, processor.ipb, processor.backlog))
        for t, thread in enumerate(self.threads):
            out.append("ring {} {:#x} {:#x} {:#x} {:#x} {:#x}".format(
                t, thread.nsr(), thread.cppr, thread.ipb, thread.pipr(), thread.cam))
        out.append(f"flight {len(self.flight)}")
        out.append("notices {}".format(sum(source.outstanding() for source in self.sources)))
        return out + ["done"]


# ---- a run -----------------------------------------------------------------------------------------------------------


class Run:
    def __init__(self):
        self.board = Board()
        self.machine = None
        self.out = []
        self.started = False
        self.ended = False

    def feed(self, line):
        """One line, without its newline."""
        if len(line) > MOST_IN_A_LINE:
            raise Refused("long-line", MOST_IN_A_LINE + 1)
        bad = BAD_BYTE.search(line)
        if bad:
            raise Refused("bad-byte", bad.start() + 1)
        words = Words(line.decode("ascii"))
        first = words.first()
        if first is None or first.startswith("#"):
            return
        if not self.in_turn(first):
            known = first in HEADER_WORDS or first in ("start", "end") or number(first) is not None
            raise Refused("wrong-place" if known else "unknown-word", words.left[0][0])
        if self.machine is None:
            if self.board.feed(words):
                self.machine = Machine(self.board, self.out)
                self.out += ["xive-account 1"] + self.board.text()
        elif number(first) is not None:
            self.machine.line(words)
        else:
            words.take()
            words.end()
            self.started = True  # by `start`; behind `end` there are no lines
            self.ended = first == "end"

    def in_turn(self, first):
        """Whether a line may begin with this word here."""
        if self.machine is None:
            return first in self.board.turn()
        return number(first) is not None or first == "end" or first == "start" and not self.started

    def all(self, script):
        """The whole script; answers the status."""
        too_long = len(script) >= MOST_BYTES
        script = script[:MOST_BYTES]
        at, lines = 0, 0
        try:
            while at < len(script) and not self.ended:
                newline = script.find(b"\n", at)
                if newline < 0:
                    newline = len(script)
                    if too_long and newline - at <= MOST_IN_A_LINE:
                        break  # neither its newline nor its 257th byte is among the bytes that count
                lines += 1
                self.feed(script[at:newline])
                at = newline + 1
            if too_long and not self.ended:
                self.out.append("too-long")
                return 7
            if self.machine is None:
                lines += 1  # the line after the last
                raise Refused("no-go", 1)
        except Refused as why:
            self.out.append(f"refused line {lines} byte {why.byte} {why.cause}")
            return 2
        self.out += self.machine.report()
        return 0


def run(script):
    this = Run()
    status = this.all(script)
    return ("\n".join(this.out) + "\n").encode("ascii"), status


def main():
    if len(sys.argv) != 1:
        sys.exit("usage: fuzz/model.py < SCRIPT")
    written, status = run(sys.stdin.buffer.read())
    sys.stdout.buffer.write(written)
    sys.exit(status)


if __name__ == "__main__":
    main()

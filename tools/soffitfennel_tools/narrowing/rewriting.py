"""Rewrites the text of an LLVM module of x86-64 for a processor of 32 bits, and keeps the layout of its memory.

A pointer in memory stays 8 bytes: its address, then four bytes of zero. In a register it is a pointer of 32 bits.
usize stays 64 bits. A line that has none of the forms below stops the rewriting."""
from __future__ import annotations

import re
from collections import Counter
from collections.abc import Callable, Iterator
from dataclasses import dataclass, field

TRIPLE = "wasm32-unknown-unknown"
LAYOUT = "e-m:e-p:32:32-p10:8:8-p20:8:8-i64:64-i128:128-n32:64-S128-ni:1:10:20"
ARM = "e-m:e-p:32:32-Fi8-i64:64-v128:64:128-a:0:32-n32-S64"
# the triple and the layout of data of each processor
TARGETS = {
    "wasm32": (TRIPLE, LAYOUT),
    "thumbv6m": ("thumbv6m-none-unknown-eabi", ARM),
    "thumbv7m": ("thumbv7m-none-unknown-eabi", ARM),
    "thumbv7em": ("thumbv7em-none-unknown-eabi", ARM),
    "riscv32": ("riscv32-unknown-none-elf", "e-m:e-p:32:32-i64:64-n32-S128"),
}
# the first offset that 32 bits with a sign can't hold
TOO_FAR = 2**31

# ---- what stands in a line

VALUE = r"(?:%[\w.]+|-?\d+|true|false|undef|poison|null|zeroinitializer|@[\w.]+|@\"[^\"]*\")"
NUMBER = r"(?:i1|i8|i16|i32|i64|i128|<\d+ x i\d+>)"
PAIR = rf"\{{ (?:{NUMBER}|ptr), (?:{NUMBER}|ptr) \}}"
NAME = r"(?:@[\w.]+|@\"[^\"]*\")"
# a value, or a constant vector
ANY = rf"(?:{VALUE}|<[^>]*>|splat \(i\d+ -?\d+\))"
GIVEN = rf"(?:{NUMBER}|ptr)(?: noundef| zeroext| signext| noalias| nonnull| readonly| writeonly)* {VALUE}"
ELEMENT = rf"<\d+ x i\d+> {ANY}"
POINTER_PAIR = re.compile(r"\{ (?:ptr, [\w<> ]+|[\w<> ]+, ptr) \}")

# lines that stay as they are
SAME = re.compile(
    "|".join(
        [
            r"%[\w.]+ = alloca (?:\[\d+ x i8\]|i\d+), align \d+",
            rf"%[\w.]+ = load {NUMBER}, ptr {VALUE}, align \d+(?:, ![\w]+ !\d+)*",
            rf"store {NUMBER} {ANY}, ptr {VALUE}, align \d+",
            rf"%[\w.]+ = (?:add|sub|mul|udiv|urem|and|or|xor|shl|lshr|ashr)(?: nuw| nsw| exact| disjoint)* {NUMBER} "
            rf"{ANY}, {ANY}",
            rf"%[\w.]+ = icmp \w+ (?:{NUMBER}|ptr) {ANY}, {ANY}",
            rf"%[\w.]+ = (?:zext|sext|trunc)(?: nuw| nsw| nneg)* {NUMBER} {ANY} to {NUMBER}",
            rf"%[\w.]+ = select (?:i1|<\d+ x i1>) {ANY}, {NUMBER} {ANY}, {NUMBER} {ANY}",
            rf"%[\w.]+ = bitcast {NUMBER} {ANY} to {NUMBER}",
            rf"%[\w.]+ = inttoptr i64 {VALUE} to ptr",
            rf"%[\w.]+ = insertelement {ELEMENT}, i\d+ {VALUE}, i\d+ {VALUE}",
            rf"%[\w.]+ = extractelement {ELEMENT}, i\d+ {VALUE}",
            rf"%[\w.]+ = shufflevector {ELEMENT}, {ELEMENT}, {ELEMENT}",
            r"br label %[\w.]+",
            rf"br i1 {VALUE}, label %[\w.]+, label %[\w.]+",
            rf"switch i\d+ {VALUE}, label %[\w.]+ \[",
            r"i\d+ -?\d+, label %[\w.]+",
            r"\]",
            r"unreachable",
            r"[\w.]+:(?:\s+; .*)?",
            r"ret void",
            rf"ret (?:{NUMBER}|ptr) {ANY}",
            r"",
        ]
    )
)
HEAD = re.compile(
    rf"define (internal )?((?:noundef |zeroext |signext )*)(void|{NUMBER}|ptr|{PAIR}) ({NAME})\((.*)\) #(\d+) {{"
)
DATA = re.compile(r"@[\w.]+ = (?:private|internal) (?:unnamed_addr )?constant \[\d+ x i8\] .*")
TABLE = re.compile(
    r"(@[\w.]+ = (?:private|internal) (?:unnamed_addr )?constant )<\{ (.*?) \}> <\{ (.*) \}>(, align \d+)"
)
HEAP = re.compile(r"declare .*@rattle_(?:alloc|realloc|dealloc)\(.*")
OF_LLVM = re.compile(r"declare [\w]+ @llvm\.(?:memset|memmove|memcpy|trap|ctpop|cttz|ctlz)\b.*")
OF_C = re.compile(r"declare .*@(\w+)\(.*")
ATTRIBUTES = re.compile(r' "(?:probe-stack|stack-probe-size|target-cpu|target-features)"="[^"]*"')

# the allocator of the library's code, over the three functions of heap.c; a block has less than 2^31 bytes
ALLOCATOR = """
declare ptr @heap_get(i32, i32)
declare ptr @heap_more(ptr, i32, i32, i32)
declare void @heap_put(ptr)

define internal { i64, i64 } @rattle_alloc(i64 %size, i64 %align) #0 {
  %high = lshr i64 %size, 31
  %fits = icmp eq i64 %high, 0
  br i1 %fits, label %ask, label %none
ask:
  %s = trunc i64 %size to i32
  %a = trunc i64 %align to i32
  %got = call ptr @heap_get(i32 %s, i32 %a)
  %is = icmp ne ptr %got, null
  br i1 %is, label %some, label %none
some:
  %w = ptrtoint ptr %got to i64
  %x = insertvalue { i64, i64 } { i64 1, i64 0 }, i64 %w, 1
  ret { i64, i64 } %x
none:
  %y = insertvalue { i64, i64 } zeroinitializer, i64 %align, 1
  ret { i64, i64 } %y
}

define internal { i64, i64 } @rattle_realloc(ptr %old, i64 %kept, i64 %size, i64 %align) #0 {
  %high = lshr i64 %size, 31
  %fits = icmp eq i64 %high, 0
  br i1 %fits, label %ask, label %none
ask:
  %k = trunc i64 %kept to i32
  %s = trunc i64 %size to i32
  %a = trunc i64 %align to i32
  %got = call ptr @heap_more(ptr %old, i32 %k, i32 %s, i32 %a)
  %is = icmp ne ptr %got, null
  br i1 %is, label %some, label %none
some:
  %w = ptrtoint ptr %got to i64
  %x = insertvalue { i64, i64 } { i64 1, i64 0 }, i64 %w, 1
  ret { i64, i64 } %x
none:
  %y = insertvalue { i64, i64 } zeroinitializer, i64 %align, 1
  ret { i64, i64 } %y
}

define internal void @rattle_dealloc(ptr %old) #0 {
  call void @heap_put(ptr %old)
  ret void
}
"""


class Refused(Exception):
    """A line that the rewriting doesn't know."""


def widen(text: str) -> str:
    """Pairs in memory and in results: a pointer in a pair is a number of 64 bits."""
    return POINTER_PAIR.sub(lambda it: it[0].replace("ptr", "i64"), text)


@dataclass
class Rewriting:
    """One module. `imports` are the functions of C or of the page, by their names in the module."""

    imports: dict[str, str] = field(default_factory=dict)
    target: str = "wasm32"
    counts: Counter[str] = field(default_factory=Counter)
    fresh: int = 0

    def name(self) -> str:
        """A new name of a value."""
        self.fresh += 1
        return f"%wide{self.fresh}"

    def module(self, text: str) -> str:
        """The whole module."""
        lines = text.splitlines()
        if not any(it.startswith("define ") for it in lines):
            raise Refused("the module has no functions")
        return "\n".join([*self.rewritten(lines), ALLOCATOR])

    def rewritten(self, lines: list[str]) -> Iterator[str]:
        """What stands for each line."""
        is_inside = False
        for number, line in enumerate(lines, 1):
            try:
                if line == "}":
                    yield line
                    is_inside = False
                elif is_inside:
                    yield from self.instruction(line.strip())
                else:
                    yield from self.outside(line)
                    is_inside = line.startswith("define ")
            except Refused as why:
                raise Refused(f"line {number} of the module has no known form: {why}") from None

    def outside(self, line: str) -> list[str]:
        """What stands for a line outside of functions."""
        if line.startswith("target datalayout"):
            return [f'target datalayout = "{TARGETS[self.target][1]}"']
        if line.startswith("target triple"):
            return [f'target triple = "{TARGETS[self.target][0]}"']
        if line.startswith("define "):
            return [self.head(line)]
        if line.startswith("@"):
            return [self.constant(line)]
        if line.startswith("declare "):
            return self.declared(line)
        if line.startswith("attributes "):
            return [ATTRIBUTES.sub("", line)]
        if line == "" or line[0] in ";!" or line.startswith("source_filename"):
            return [line]
        raise Refused(line[:200])

    def declared(self, line: str) -> list[str]:
        """What stands for a function that is elsewhere. One of C's that isn't an import is dropped: a call of it then
        stops the compiler."""
        if HEAP.fullmatch(line):
            return []
        if OF_LLVM.fullmatch(line):
            if "llvm.mem" in line:
                line = line.replace(".i64(", ".i32(").replace(", i64, i1", ", i32, i1")
            return [line]
        made = OF_C.fullmatch(line)
        if not made:
            raise Refused(line[:200])
        return [self.named(line)] if made[1] in self.imports else []

    def named(self, line: str) -> str:
        """A line with the imports under their own names."""
        return re.sub(r"@(\w+)\(", lambda it: f"@{self.imports.get(it[1], it[1])}(", line)

    def head(self, line: str) -> str:
        """The head of a function."""
        made = HEAD.fullmatch(line)
        if not made:
            raise Refused(line[:200])
        for it in made[5].split(", ") if made[5] else []:
            if not re.fullmatch(GIVEN, it):
                raise Refused(it)
        if not made[1] and made[3] not in ("void", "i32"):
            raise Refused(f"{made[4]} returns {made[3]}, and JavaScript reads 32 bits")
        kept = made[2].replace("noundef ", "") if POINTER_PAIR.search(made[3]) else made[2]
        return f"define {made[1] or ''}{kept}{widen(made[3])} {made[4]}({made[5]}) #{made[6]} {{"

    def constant(self, line: str) -> str:
        """What stands for a constant. A pointer in it is an address and four bytes of zero."""
        if DATA.fullmatch(line):
            return line
        made = TABLE.fullmatch(line)
        kinds = re.findall(r"ptr|\[\d+ x i8\]", made[2]) if made else []
        if not made or ", ".join(kinds) != made[2]:
            raise Refused(line[:200])
        types = ", ".join("{ ptr, i32 }" if it == "ptr" else it for it in kinds)
        return f"{made[1]}<{{ {types} }}> <{{ {', '.join(self.parts(kinds, made[3]))} }}>{made[4]}"

    def parts(self, kinds: list[str], rest: str) -> Iterator[str]:
        """The parts of a constant table."""
        forms = {"ptr": r"ptr (getelementptr \(i8, ptr @[\w.]+, i64 (\d+)\)|@[\w.]+)(?:, |$)"}
        for kind in kinds:
            form = forms.get(kind, r'\[\d+ x i8\] (?:c"[^"]*"|zeroinitializer)(?:, |$)')
            made = re.match(form, rest)
            if not made:
                raise Refused(rest[:200])
            self.counts[f"constant {'pointer' if kind == 'ptr' else 'bytes'}"] += 1
            if kind == "ptr":
                yield "{ ptr, i32 } { ptr " + re.sub(r"i64 (\d+)\)", r"i32 \1)", made[1]) + ", i32 0 }"
            else:
                yield made[0].removesuffix(", ")
            rest = rest[made.end() :]
        if rest:
            raise Refused(rest[:200])

    def instruction(self, line: str) -> list[str]:
        """What stands for a line of a function."""
        if SAME.fullmatch(line):
            return [line]
        for form, rewrite in FORMS:
            if made := form.fullmatch(line):
                self.counts[rewrite.__name__] += 1
                return rewrite(self, made)
        raise Refused(line[:200])


# ---- the lines that change


def place_for_pointer(_: Rewriting, it: re.Match[str]) -> list[str]:
    """A variable on the stack."""
    return [f"{it[1]} = alloca i64, align 8"]


def load_pointer(work: Rewriting, it: re.Match[str]) -> list[str]:
    """A pointer out of memory: its 8 bytes, of which the address is the lower half."""
    wide = work.name()
    return [f"{wide} = load i64, ptr {it[2]}, align {it[3]}{it[4]}", f"{it[1]} = inttoptr i64 {wide} to ptr"]


def store_pointer(work: Rewriting, it: re.Match[str]) -> list[str]:
    """A pointer into memory."""
    wide = work.name()
    return [f"{wide} = ptrtoint ptr {it[1]} to i64", f"store i64 {wide}, ptr {it[2]}, align {it[3]}"]


def move_pair(_: Rewriting, it: re.Match[str]) -> list[str]:
    """A pair that is loaded, stored or returned."""
    return [widen(it[0])]


def part_of_pair(work: Rewriting, it: re.Match[str]) -> list[str]:
    """A part of a pair."""
    kinds = re.findall(r"ptr|i\d+|<\d+ x i\d+>", it[2])
    if kinds[int(it[4])] != "ptr":
        return [widen(it[0])]
    wide = work.name()
    return [f"{wide} = extractvalue {widen(it[2])} {it[3]}, {it[4]}", f"{it[1]} = inttoptr i64 {wide} to ptr"]


def address_of(_: Rewriting, it: re.Match[str]) -> list[str]:
    """An address as a number."""
    return [f"{it[1]} = ptrtoint ptr {it[2]} to i64"]


def fixed_offset(_: Rewriting, it: re.Match[str]) -> list[str]:
    """A pointer and a constant."""
    if not -TOO_FAR <= int(it[4]) < TOO_FAR:
        raise Refused(it[0])
    return [f"{it[1]} = getelementptr{it[2]} i8, ptr {it[3]}, i32 {it[4]}"]


def offset(work: Rewriting, it: re.Match[str]) -> list[str]:
    """A pointer and a number."""
    short = work.name()
    return [f"{short} = trunc i64 {it[4]} to i32", f"{it[1]} = getelementptr{it[2]} i8, ptr {it[3]}, i32 {short}"]


def memory_call(work: Rewriting, it: re.Match[str]) -> list[str]:
    """A copy or a fill of memory."""
    if re.fullmatch(r"\d+", it[3]):
        if int(it[3]) >= TOO_FAR:
            raise Refused(it[0])
        return [f"call void @llvm.{it[1]}.i32({it[2]}, i32 {it[3]}, i1 false)"]
    short = work.name()
    call = f"call void @llvm.{it[1]}.i32({it[2]}, i32 {short}, i1 false)"
    return [f"{short} = trunc i64 {it[3]} to i32", call]


def call(work: Rewriting, it: re.Match[str]) -> list[str]:
    """A call of a function by its name."""
    return [work.named(widen(it[0]))]


FLAGS = r"((?: inbounds| nuw| nusw)*)"
FORMS: list[tuple[re.Pattern[str], Callable[[Rewriting, re.Match[str]], list[str]]]] = [
    (re.compile(form), rewrite)
    for form, rewrite in (
        (r"(%[\w.]+) = alloca ptr, align 8", place_for_pointer),
        (rf"(%[\w.]+) = load ptr, ptr ({VALUE}), align (\d+)((?:, !noundef !\d+)?)", load_pointer),
        (rf"store ptr ({VALUE}), ptr ({VALUE}), align (\d+)", store_pointer),
        (rf"%[\w.]+ = load {PAIR}, ptr {VALUE}, align \d+", move_pair),
        (rf"store {PAIR} {VALUE}, ptr {VALUE}, align \d+", move_pair),
        (rf"ret {PAIR} {VALUE}", move_pair),
        (rf"(%[\w.]+) = extractvalue ({PAIR}) ({VALUE}), ([01])", part_of_pair),
        (rf"(%[\w.]+) = ptrtoaddr ptr ({VALUE}) to i64", address_of),
        (rf"(%[\w.]+) = getelementptr{FLAGS} i8, ptr ({VALUE}), i64 (-?\d+)", fixed_offset),
        (rf"(%[\w.]+) = getelementptr{FLAGS} i8, ptr ({VALUE}), i64 (%[\w.]+)", offset),
        (
            r"call void @llvm\.(memset\.p0|memmove\.p0\.p0|memcpy\.p0\.p0)\.i64\((.*), i64 ([^,]+), i1 false\)",
            memory_call,
        ),
        (
            rf"(?:%[\w.]+ = )?(?:tail )?call (?:noundef |zeroext |signext )*(?:void|{NUMBER}|ptr|{PAIR}) {NAME}"
            rf"\((?:{GIVEN}(?:, {GIVEN})*)?\)(?: #\d+)?",
            call,
        ),
    )
]

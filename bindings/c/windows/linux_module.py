"""What retarget.py knows of the LLVM module of a static library, as rattle makes it for x86-64 Linux. It stops at whatever it doesn't know to mean the same elsewhere."""
import os
import re
import sys
from collections.abc import Callable
from typing import NoReturn

X86_LAYOUT = re.compile(r'^target datalayout = "e-m:e-p270.*"$', re.M)
X86_TRIPLE = re.compile(r'^target triple = "x86_64-unknown-linux-gnu"$', re.M)

# What a module may declare: the allocator, and operations of LLVM that mean the same on each processor.
KNOWN_DECLARATION = re.compile(
    r"declare [^@]*@(rattle_(alloc|realloc|dealloc)"
    r"|llvm\.(memset\.p0\.i64|memmove\.p0\.p0\.i64|memcpy\.p0\.p0\.i64|trap|assume"
    r"|(ctlz|cttz|ctpop|bswap|bitreverse|fshl|fshr|abs|[us](min|max|(add|sub)\.sat)|[us](add|sub|mul)\.with\.overflow)\.i\d+))\(.*\) #\d+"
)
# What may be outside of functions: comments, bytes that don't change, metadata, and groups of attributes.
KNOWN_LINE = re.compile(
    r"""|;.*|source_filename\ =\ "rattle"|target\ (datalayout|triple)\ =\ ".*"
    |@static\.\d+\ =\ private\ unnamed_addr\ constant\ \[\d+\ x\ i8\]\ (zeroinitializer|c".*"),\ align\ \d+
    |!llvm\.ident\ =\ !\{!\d+\}|!\d+\ =\ !\{[^@]*\}
    |attributes\ \#\d+\ =\ \{\ ((alwaysinline|cold|nobuiltin|nocallback|nofree|noinline|noreturn|nosync|nounwind|speculatable|willreturn
        |memory\((none|(argmem|inaccessiblemem):\ (read|write|readwrite))\))\ )*
        ("probe-stack"="inline-asm"\ "stack-probe-size"="\d+"\ "target-cpu"="x86-64(-v\d)?"\ )?\}""",
    re.X,
)
LABEL = re.compile(r"[\w.]+:( *;.*)?")
NAME_OR_NUMBER = re.compile(r'[%@]"[^"]*"|[%@!#][\w.$]+|-?\b\d+\b')
# The words of functions, but for names and numbers. They mean the same on each processor of 64 bits that stores the low byte first: of a vector too, whose first
# lane is then the lowest bits.
KNOWN_WORDS = set(
    """align alloca add and ashr bitcast br call define eq exact extractelement extractvalue false getelementptr i1 i4 i8 i16 i32 i64 i128 icmp inbounds
    insertelement insertvalue internal label load lshr mul ne noundef nsw null nuw or poison ptr ptrtoaddr ret sdiv select sext sge sgt shl shufflevector
    signext sle slt srem store sub switch to true trunc udiv uge ugt ule ult undef unreachable urem void x xor zeroext zeroinitializer zext""".split()
)
FUNCTION_HEAD = re.compile(r'define (?P<internal>internal )?(?P<result>.*?)@(?P<name>"[^"]*"|[\w.$]+)\((?P<parameters>.*)\) #(?P<attributes>\d+) \{')
ATTRIBUTE = re.compile(r"\b(noundef|zeroext|signext) ?")


def stop(why: str) -> NoReturn:
    sys.exit(f"{os.path.basename(sys.argv[0])}: {why}")


def stop_at_the_unknown(text: str) -> None:
    is_in_body = False
    for line in text.split("\n"):
        if line.startswith("define "):
            is_in_body = True
        if is_in_body:
            words = set(re.findall(r"[A-Za-z_][\w.]*", NAME_OR_NUMBER.sub(" ", line)))
            is_known = words <= KNOWN_WORDS or LABEL.fullmatch(line)
        else:
            is_known = KNOWN_LINE.fullmatch(line) or KNOWN_DECLARATION.fullmatch(line)
        if not is_known:
            stop(f"it is not known to mean the same there: {line}")
        if line == "}":
            is_in_body = False


def with_target(text: str, layout: str, triple: str) -> str:
    """The module with the data layout and the triple of another machine."""
    text, layouts = X86_LAYOUT.subn(f'target datalayout = "{layout}"', text)
    text, triples = X86_TRIPLE.subn(f'target triple = "{triple}"', text)
    if (layouts, triples) != (1, 1):
        stop("it is no module for x86_64-unknown-linux-gnu")
    return text


def bare(type_and_attributes: str) -> str:
    return ATTRIBUTE.sub("", type_and_attributes).strip()


def rewrite(changed: Callable[[str], str]) -> None:
    """The script itself: reads the module that its first word names, and writes what becomes of it to the second."""
    if len(sys.argv) != 3:
        stop("usage: MODULE.ll CHANGED.ll")
    with open(sys.argv[1], encoding="utf-8") as source:
        text = source.read()
    with open(sys.argv[2], "w", encoding="utf-8") as to:
        to.write(changed(text))

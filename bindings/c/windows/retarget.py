#!/usr/bin/env python3
"""Turns the LLVM module that rattle makes of a static library for x86-64 Linux into one for x86-64 Windows.

usage: retarget.py LINUX.ll WINDOWS.ll

It changes the data layout and the triple; how a large frame reaches for the stack, which Windows has a function for; whether a table says
how each frame is left, by which Windows walks the stack; and what Windows passes between functions in another way than Linux: a whole
number narrower than its register has no known bits above it, and the pair that a function of the allocator returns comes back in memory.
It stops at whatever it doesn't know to mean the same on Windows, such as an exported function that is passed a struct. rattle has no
target of Windows, so what it writes can be compared with nothing.
"""
import re
import sys

sys.dont_write_bytecode = True
from linux_module import FUNCTION_HEAD, bare, rewrite, stop, stop_at_the_unknown, with_target

LAYOUT = "e-m:w-p270:32:32-p271:32:32-p272:64:64-i64:64-i128:128-f80:128-n8:16:32:64-S128"
TRIPLE = "x86_64-pc-windows-gnu"

PROBES = re.compile(r'"probe-stack"="inline-asm" "stack-probe-size"="\d+" ')
# What an exported function may be passed, and may answer.
SCALARS = {"ptr", "i8", "i16", "i32", "i64"}
RESULTS = SCALARS | {"void", "i1"}
EXTENSION = re.compile(r"\b(zeroext|signext) ?")

PAIR = "{ i64, i64 }"
ALLOCATOR_DECLARATION = re.compile(r"declare (?P<result>[^@]*)@rattle_(?P<name>\w+)\((?P<parameters>.*)\) #(?P<attributes>\d+)")
ALLOCATOR_CALL = re.compile(r"(call \{ i64, i64 \} )@rattle_(alloc|realloc)\(")
ALLOCATOR_NAME = re.compile(r"@rattle_(alloc|realloc)\b")
ALLOCATOR = {"alloc": (PAIR, ["i64", "i64"]), "realloc": (PAIR, ["ptr", "i64", "i64", "i64"]), "dealloc": ("void", ["ptr"])}


def types_of(parameters: str) -> list[str]:
    """The types of parameters, with what is known of them, but without their names."""
    return [re.sub(r" %[\w.]+$", "", parameter) for parameter in parameters.split(", ")] if parameters else []


def exported(line: str) -> str:
    """The head of an exported function, whose whole numbers are known as far as their types say."""
    head = FUNCTION_HEAD.fullmatch(line) or stop(f"a function in a form that is not known: {line}")
    if bare(head["result"]) not in RESULTS or any(bare(each) not in SCALARS for each in types_of(head["parameters"])):
        stop(f"Windows may pass this in another way: {line}")
    return line.replace(f'({head["parameters"]})', f'({EXTENSION.sub("", head["parameters"])})')


def allocator_calls(line: str) -> list[str]:
    """The lines that stand for the declaration of a function of the allocator: where it returns a pair, one that comes back in memory, and the call of it."""
    found = ALLOCATOR_DECLARATION.fullmatch(line)
    types = [bare(each) for each in types_of(found["parameters"])]
    if (bare(found["result"]), types) != ALLOCATOR.get(found["name"]):
        stop(f"a function of the allocator in a form that is not known: {line}")
    if found["name"] == "dealloc":
        return [line]
    name, attributes = found["name"], found["attributes"]
    return [
        f"declare void @rattle_{name}(ptr sret({PAIR}), {', '.join(types)}) #{attributes}",
        "",
        f'define internal {PAIR} @"windows::{name}"({", ".join(f"{each} %a{place}" for place, each in enumerate(types))}) #{attributes} uwtable {{',
        "start:",
        f"  %pair = alloca {PAIR}, align 8",
        f"  call void @rattle_{name}(ptr sret({PAIR}) %pair, {', '.join(f'{each} %a{place}' for place, each in enumerate(types))})",
        f"  %answer = load {PAIR}, ptr %pair, align 8",
        f"  ret {PAIR} %answer",
        "}",
    ]


def retargeted(text: str) -> str:
    stop_at_the_unknown(text)
    out = []
    for line in with_target(text, LAYOUT, TRIPLE).split("\n"):
        if line.startswith("define ") and not line.startswith("define internal "):
            out.append(exported(line))
        elif line.startswith("declare ") and "@rattle_" in line:
            out += allocator_calls(line)
        elif line.startswith("attributes "):
            out.append(PROBES.sub("uwtable ", line))
        else:
            out.append(ALLOCATOR_CALL.sub(r'\1@"windows::\2"(', line))
            if ALLOCATOR_NAME.search(out[-1]):
                stop(f"the allocator in a form that is not known: {line}")
    return "\n".join(out)


if __name__ == "__main__":
    rewrite(retargeted)

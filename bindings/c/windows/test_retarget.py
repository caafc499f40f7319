#!/usr/bin/env python3
"""Tests retarget.py, on a small LLVM module for x86-64 Linux: the right one passes and compiles, and one with something that isn't known stops the script.

The last line is 'tests of retarget.py: N passed, M failed'.
"""
import os
import subprocess
import sys
import tempfile

HERE = os.path.dirname(os.path.realpath(__file__))
RETARGET = os.path.join(HERE, "retarget.py")
COMPILE = os.path.join(HERE, "compile.sh")
MODULE = """\
; ModuleID = 'module.bc'
source_filename = "rattle"
target datalayout = "e-m:e-p270:32:32-p271:32:32-p272:64:64-i64:64-i128:128-f80:128-n8:16:32:64-S128"
target triple = "x86_64-unknown-linux-gnu"

@static.0 = private unnamed_addr constant [1 x i8] c"\\01", align 1

; Function Attrs: nounwind
define internal noundef i64 @"toy::kept"(ptr noundef %a0, i64 noundef %a1) #0 {
start:
  %r0 = alloca ptr, align 8
  %r1 = alloca i64, align 8
  store ptr %a0, ptr %r0, align 8
  %v0 = call { ptr, i64 } @"toy::pair"(ptr %r0, i64 %a1)
  %v1 = extractvalue { ptr, i64 } %v0, 0
  %v2 = extractvalue { ptr, i64 } %v0, 1
  %v3 = icmp ult i64 %v2, %a1
  br i1 %v3, label %then.0, label %else.0

then.0:                                           ; preds = %start
  call void @llvm.memset.p0.i64(ptr %v1, i8 0, i64 %v2, i1 false)
  ret i64 %v2

else.0:                                           ; preds = %start
  call void @llvm.trap()
  unreachable
}

; Function Attrs: nounwind
define internal { ptr, i64 } @"toy::pair"(ptr noundef %a0, i64 noundef %a1) #0 {
start:
  %v0 = load ptr, ptr %a0, align 8
  %v1 = load { ptr, i64 }, ptr %v0, align 8
  ret { ptr, i64 } %v1
}

; Function Attrs: nounwind
define internal i1 @"toy::lanes"(ptr noundef %a0, i32 noundef %a1) #0 {
start:
  %v0 = load <4 x i32>, ptr %a0, align 4
  %v1 = insertelement <4 x i32> %v0, i32 %a1, i64 3
  %v2 = shufflevector <4 x i32> %v1, <4 x i32> poison, <4 x i32> <i32 1, i32 2, i32 3, i32 0>
  store <4 x i32> %v2, ptr %a0, align 4
  %v3 = icmp eq <4 x i32> %v2, zeroinitializer
  %v4 = bitcast <4 x i1> %v3 to i4
  %v5 = icmp ne i4 %v4, 0
  %v6 = extractelement <4 x i1> %v3, i64 0
  %v7 = or i1 %v5, %v6
  ret i1 %v7
}

; Function Attrs: nounwind
define internal i64 @"toy::held"(i64 noundef %a0, ptr noundef %a1) #0 {
start:
  %v0 = call { i64, i64 } @rattle_alloc(i64 %a0, i64 8)
  %v1 = call { i64, i64 } @rattle_realloc(ptr %a1, i64 %a0, i64 %a0, i64 8)
  %v2 = extractvalue { i64, i64 } %v0, 0
  call void @rattle_dealloc(ptr %a1)
  ret i64 %v2
}

; Function Attrs: nounwind
define noundef i64 @toy_kept(ptr noundef %a0, i64 noundef %a1) #0 {
start:
  %v0 = call i64 @"toy::kept"(ptr %a0, i64 %a1)
  %v1 = call i64 @"toy::held"(i64 %v0, ptr %a0)
  ret i64 %v1
}

; Function Attrs: nounwind
define noundef zeroext i1 @toy_narrow(i16 noundef signext %a0) #0 {
start:
  %v0 = icmp eq i16 %a0, 7
  ret i1 %v0
}

; Function Attrs: nobuiltin nounwind
declare { i64, i64 } @rattle_realloc(ptr noundef, i64 noundef, i64 noundef, i64 noundef) #3

; Function Attrs: nobuiltin nounwind
declare { i64, i64 } @rattle_alloc(i64 noundef, i64 noundef) #3

; Function Attrs: nobuiltin nounwind
declare void @rattle_dealloc(ptr noundef) #3

; Function Attrs: nocallback nofree nounwind willreturn memory(argmem: write)
declare void @llvm.memset.p0.i64(ptr writeonly captures(none), i8, i64, i1 immarg) #1

; Function Attrs: cold noreturn nounwind memory(inaccessiblemem: write)
declare void @llvm.trap() #2

attributes #0 = { nounwind "probe-stack"="inline-asm" "stack-probe-size"="3072" "target-cpu"="x86-64-v2" }
attributes #1 = { nocallback nofree nounwind willreturn memory(argmem: write) }
attributes #2 = { cold noreturn nounwind memory(inaccessiblemem: write) }
attributes #3 = { nobuiltin nounwind }

!llvm.ident = !{!0}

!0 = !{!"rattle logic=0"}
"""
FIRST = "  %v3 = icmp ult i64 %v2, %a1\n"

# What the script stops at: its name, the text that the module has, and what is there in its place.
UNKNOWN = [
    ("another target", "x86_64-unknown-linux-gnu", "aarch64-unknown-linux-gnu"),
    ("another layout", "e-m:e-p270", "e-m:o-p270"),
    ("a function of C", "declare void @llvm.trap()", "declare void @malloc()"),
    ("an operation of one processor", "declare void @llvm.trap()", "declare void @llvm.x86.sse2.pause()"),
    ("assembly", FIRST, FIRST + '  call void asm sideeffect "nop", ""()\n'),
    ("assembly of the module", "source_filename", 'module asm "nop"\nsource_filename'),
    ("a float of one processor", FIRST, FIRST + "  %f = load x86_fp80, ptr %r0, align 16\n"),
    ("a float", FIRST, FIRST + "  %f = load double, ptr %r0, align 8\n"),
    ("lanes whose number the processor says", FIRST, FIRST + "  %f = load <vscale x 2 x i64>, ptr %r0, align 8\n"),
    ("an operation on lanes of one processor", "declare void @llvm.trap()", "declare <4 x i32> @llvm.x86.ssse3.phadd.d.128(<4 x i32>, <4 x i32>)"),
    ("a float's lanes", FIRST, FIRST + "  %f = load <2 x double>, ptr %r0, align 8\n"),
    ("a phi", FIRST, FIRST + "  %f = phi i64 [ 0, %start ]\n"),
    ("an atomic operation", FIRST, FIRST + "  fence seq_cst\n"),
    ("an argument on the stack", "i64 @toy_kept(ptr noundef", "i64 @toy_kept(ptr byval(i64) noundef"),
    ("another calling convention", "define noundef i64 @toy_kept", "define fastcc noundef i64 @toy_kept"),
    ("features of a processor", '"target-cpu"="x86-64-v2"', '"target-cpu"="x86-64-v2" "target-features"="+avx2"'),
    ("a variable", "@static.0 = private unnamed_addr constant", "@static.0 = internal global"),
    ("a thread's variable", "@static.0 = private unnamed_addr constant", "@static.0 = private thread_local unnamed_addr constant"),
    # what is passed in another way on Windows
    ("an exported function that is passed a struct", "@toy_kept(ptr noundef %a0, i64", "@toy_kept(ptr noundef %a0, { i64, i64 }"),
    ("an exported function that is passed a number of 128 bits", "@toy_kept(ptr noundef %a0, i64", "@toy_kept(ptr noundef %a0, i128"),
    ("an exported function that returns a pair", "define noundef i64 @toy_kept", "define { i64, i64 } @toy_kept"),
    ("an allocator that returns another pair", "declare { i64, i64 } @rattle_alloc", "declare { i64, ptr } @rattle_alloc"),
    ("an allocator that is passed more", "@rattle_alloc(i64 noundef,", "@rattle_alloc(ptr noundef, i64 noundef,"),
    ("a call of the allocator with words of its own", "call { i64, i64 } @rattle_realloc(", "call noundef { i64, i64 } @rattle_realloc("),
    ("an allocator whose address is kept", FIRST, FIRST + "  store ptr @rattle_alloc, ptr %r0, align 8\n"),
]


def retarget(text, folder):
    """What the script makes of a module, in this folder."""
    linux, windows = (os.path.join(folder, name) for name in ("linux.ll", "windows.ll"))
    with open(linux, "w", encoding="utf-8") as module:
        module.write(text)
    return subprocess.run([sys.executable, RETARGET, linux, windows], capture_output=True, text=True, check=False), windows


def is_stopped(text, folder):
    ran, _ = retarget(text, folder)
    return ran.returncode == 1 and ran.stderr.startswith("retarget.py: ")


def rows_of_the_right_one(folder):
    ran, windows = retarget(MODULE, folder)
    if ran.returncode:
        return [("the module", False)]
    with open(windows, encoding="utf-8") as module:
        text = module.read()
    return [
        ("the module", subprocess.run(["sh", COMPILE, "-O1", "-x", "ir", windows, "-o", os.devnull], check=False).returncode == 0),
        ("what is known of a narrow number", "@toy_narrow(i16 noundef %a0)" in text),
        ("how a frame is left", "attributes #0 = { nounwind uwtable " in text and text.count(" #3 uwtable {\n") == 2),
    ]


def main():
    with tempfile.TemporaryDirectory() as folder:
        rows = rows_of_the_right_one(folder)
        rows += [(name, old in MODULE and is_stopped(MODULE.replace(old, new, 1), folder)) for name, old, new in UNKNOWN]
    failed = [name for name, is_right in rows if not is_right]
    if failed:
        print(f"it is done otherwise: {', '.join(failed)}")
    print(f"tests of retarget.py: {len(rows) - len(failed)} passed, {len(failed)} failed")
    return 1 if failed else 0


if __name__ == "__main__":
    sys.exit(main())

"""Reads the library's LLVM module for x86-64 and writes it for Arm (AAPCS64). What it has to change must be there."""

import re
import sys

LAYOUT = "e-m:e-p270:32:32-p271:32:32-p272:64:64-i8:8:32-i16:16:32-i64:64-i128:128-n32:64-S128-Fn32"


def changed(pattern: str, new: str, text: str) -> str:
    """The text with the new one in each place of the pattern, which has at least one."""
    text, count = re.subn(pattern, new, text)
    if count == 0:
        sys.exit(f"retarget: the module has no {pattern}")
    return text


def answering_behind_x8(module: str, name: str, size: int) -> str:
    """An answer's address, on x86-64 the first argument and the result, has a register of its own on Arm."""
    start = module.index(f"define noundef ptr @{name}(")
    end = module.index("\n}", start)
    body = changed(r"define noundef ptr (@\w+)\(ptr noundef %a0", rf"define void \1(ptr noundef sret([{size} x i8]) align 4 %a0", module[start:end])
    return module[:start] + changed(r"ret ptr %\S+", "ret void", body) + module[end:]


module = sys.stdin.read()
module = changed(r'target datalayout = "[^"]*"', f'target datalayout = "{LAYOUT}"', module)
module = changed(r'target triple = "x86_64-unknown-linux-gnu"', 'target triple = "aarch64-unknown-linux-gnu"', module)
module = changed(r' "target-cpu"="x86-64"', "", module)
module = answering_behind_x8(module, "threshskiff_rewrite", 28)
module = answering_behind_x8(module, "threshskiff_final", 24)
# A struct of over 16 bytes is handed in by its address.
module = changed(r"ptr noundef byval\(\[\d+ x i8\]\) align 4", "ptr noundef", module)
sys.stdout.write(module)

#!/usr/bin/env python3
"""Reads the library's LLVM module and writes it with the count of a row, `rows::count`, by the machine's count of ones, word by word.

For bench/ones alone: what is left of a time when it is not spent on counting bit by bit. Nothing of it is proved or shipped. On x86-64 as the kit
compiles for it there is no instruction for it, and the compiler counts by shifts and masks."""

import re
import sys

WORDS = 8

module = sys.stdin.read()
found = list(re.finditer(r'(?ms)^(define [^\n]*@"rows::count"\(ptr noundef %a0, i64 noundef %a1, i64 noundef %a2\)[^\n]*\{\n).*?^\}\n', module))
if len(found) != 1:
    sys.exit("count_ones: the module does not have rows::count as it was")
body = [
    "start:",
    "  %words = load ptr, ptr %a0, align 8",
    "  %offset = shl i64 %a2, 6",
    "  %row = getelementptr i8, ptr %words, i64 %offset",
    "  %sum0 = add i64 0, 0",
]
for word in range(WORDS):
    body += [
        f"  %place{word} = getelementptr i8, ptr %row, i64 {8 * word}",
        f"  %word{word} = load i64, ptr %place{word}, align 8",
        f"  %ones{word} = call i64 @llvm.ctpop.i64(i64 %word{word})",
        f"  %sum{word + 1} = add i64 %sum{word}, %ones{word}",
    ]
body += [f"  ret i64 %sum{WORDS}", "}", ""]
start, end = found[0].span()
module = module[:start] + found[0].group(1) + "\n".join(body) + module[end:]
if "declare i64 @llvm.ctpop.i64(i64" not in module:
    module += "\ndeclare i64 @llvm.ctpop.i64(i64)\n"
sys.stdout.write(module)

"""Retargets LLVM's text of the proved crate from x86-64 to wasm64. Both have pointers of 64 bits and the same alignments.

If the text has anything that this script does not know, it ends with a message, so that no module is made of code that was read wrong.
"""
import re
import sys

LAYOUT = "e-m:e-p:64:64-p10:8:8-p20:8:8-i64:64-i128:128-f128:64-n32:64-S128-ni:1:10:20"
TRIPLE = "wasm64-unknown-unknown"
# The layout of x86-64 Linux: what it says of pointers, whole numbers and floats is what wasm64's says too.
KNOWN_LAYOUT = "e-m:e-p270:32:32-p271:32:32-p272:64:64-i64:64-i128:128-f80:128-n8:16:32:64-S128"
KNOWN_TRIPLE = "x86_64-unknown-linux-gnu"
# Attributes of functions that speak of the processor, or of how its stack is grown.
PROCESSOR = r' "(?:probe-stack|stack-probe-size|stack-protector-buffer-size|target-cpu|target-features|tune-cpu|frame-pointer)"="[^"]*"'
SHUFFLE = "llvm.x86.ssse3.pshuf.b.128"
# The function that hands each command to the part that answers it.
ANSWERING = '"dom_session::dispatch::answered"'


def refuse(what):
    sys.exit(f"the kit's LLVM code has what this script does not know: {what}")


def head(text, word, known, wanted):
    """Replaces the value in a line of the head, which has to be the known one."""
    found = re.findall(rf'(?m)^target {word} = "(.*)"$', text)
    if found != [known]:
        refuse(f"target {word} {found}")
    return re.sub(rf'(?m)^target {word} = .*$', f'target {word} = "{wanted}"', text)


def shuffle():
    """The operation `pshufb` in scalars: byte i of the answer is the byte of `a` whose place the four low bits of byte i of `b` say, or 0 under a high bit."""
    lines = ["  %r0 = insertelement <16 x i8> zeroinitializer, i8 0, i32 0"]
    for at in range(16):
        lines += [
            f"  %b{at} = extractelement <16 x i8> %b, i32 {at}",
            f"  %p{at} = and i8 %b{at}, 15",
            f"  %a{at} = extractelement <16 x i8> %a, i8 %p{at}",
            f"  %n{at} = icmp slt i8 %b{at}, 0",
            f"  %v{at} = select i1 %n{at}, i8 0, i8 %a{at}",
            f"  %r{at + 1} = insertelement <16 x i8> %r{at}, i8 %v{at}, i32 {at}",
        ]
    body = "\n".join(lines)
    return f"\ndefine internal <16 x i8> @shuffled(<16 x i8> %a, <16 x i8> %b) alwaysinline {{\n{body}\n  ret <16 x i8> %r16\n}}\n"


def apart(text):
    """Has the parts that answer commands stay functions of their own: an engine compiles a function whole, and what a page does needs few of them."""
    whole = re.search(rf"(?ms)^define [^\n]*@{re.escape(ANSWERING)}\(.*?^}}$", text)
    if not whole:
        return text
    return text[: whole.start()] + re.sub(r'(?m)(\bcall [^\n]*@"dom_[^\n]*\))$', r"\1 noinline", whole[0]) + text[whole.end() :]


def retarget(text):
    text = head(text, "datalayout", KNOWN_LAYOUT, LAYOUT)
    text = head(text, "triple", KNOWN_TRIPLE, TRIPLE)
    text = re.sub(PROCESSOR, "", text)
    if SHUFFLE in text:
        text = re.sub(rf"(?m)^declare <16 x i8> @{re.escape(SHUFFLE)}.*$", "", text).replace(f"@{SHUFFLE}", "@shuffled") + shuffle()
    left = sorted(set(re.findall(r"@(llvm\.x86[\w.]*)", text)))
    if left:
        refuse(f"operations of x86-64: {', '.join(left)}")
    # (an empty text of assembly only keeps the compiler from looking through a value)
    written = [it for it in re.findall(r'\basm (?:sideeffect )?(?:alignstack )?(?:inteldialect )?"([^"]*)"', text) if it]
    if written or "module asm" in text:
        refuse(f"assembly: {written[:3]}")
    return text

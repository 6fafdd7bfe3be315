#!/usr/bin/env python3
"""Makes a module of another processor out of the one that module.sh writes.

usage: retarget.py IN.ll OUT.ll TARGET [small]      TARGET: x86-64, aarch64, riscv64, thumbv7m, thumbv7em or riscv32imac

What is changed: the triple, the data layout, and the attributes that name a processor. On riscv64 results of 32 bits are marked as its
convention wants. On processors of 32 bits pointers alone are shorter: each keeps its place of 8 octets, and numbers their 64 bits.
With `small` no function has to be inlined, and each is compiled for its size.
"""
import re
import sys

# Each as clang 22 has it for this triple; those of 32 bits with places of 64 bits for numbers of 64.
TARGETS = {
    "x86-64": ("x86_64-unknown-linux-gnu", "e-m:e-p270:32:32-p271:32:32-p272:64:64-i64:64-i128:128-f80:128-n8:16:32:64-S128"),
    "aarch64": ("aarch64-unknown-linux-gnu", "e-m:e-p270:32:32-p271:32:32-p272:64:64-i8:8:32-i16:16:32-i64:64-i128:128-n32:64-S128-Fn32"),
    "riscv64": ("riscv64-unknown-linux-gnu", "e-m:e-p:64:64-i64:64-i128:128-n32:64-S128"),
    "thumbv7m": ("thumbv7m-unknown-none-eabi", "e-m:e-p:32:32-Fi8-i64:64-v128:64:128-a:0:32-n32-S64"),
    "thumbv7em": ("thumbv7em-unknown-none-eabi", "e-m:e-p:32:32-Fi8-i64:64-v128:64:128-a:0:32-n32-S64"),
    "riscv32imac": ("riscv32-unknown-none-elf", "e-m:e-p:32:32-i64:64-n32-S128"),
}


def shortened(text):
    """Returns the module with pointers of 32 bits in places of 64."""
    text = text.replace("= ptrtoaddr ptr ", "= ptrtoint ptr ")
    # A pair is read by its parts: its pointer stands 8 octets behind its first part.
    by_parts = (
        "  {0}.a = load {1}, ptr {2}\n  {0}.g = getelementptr i8, ptr {2}, i64 8\n  {0}.b = load ptr, ptr {0}.g\n"
        "  {0}.c = insertvalue {{ {1}, ptr }} poison, {1} {0}.a, 0\n"
        "  {0} = insertvalue {{ {1}, ptr }} {0}.c, ptr {0}.b, 1"
    )
    pair = r"^  (%\w+) = load \{ (i8|i16|i32), ptr \}, ptr (%\w+), align \d+.*$"
    text = re.sub(pair, lambda m: by_parts.format(*m.groups()), text, flags=re.M)
    assert not re.search(r"(load|store) \{ i(8|16|32), ptr", text)

    def widened(match):
        # A constant is packed, so the second half of a pointer's place has to be said.
        pointer = r"ptr(?= getelementptr| @)(?! @static\.\d+, i64)( getelementptr \(i8, ptr @[\w.]+, i64 \d+\)| @[\w.]+)"
        head, _, rest = re.sub(pointer, r"PTR\1, [4 x i8] zeroinitializer", match.group()).partition("}>")
        return (head.replace("ptr", "ptr, [4 x i8]") + "}>" + rest).replace("PTR", "ptr")

    return re.sub(r"^@[^\n]* constant <\{ [^\n]*\bptr\b[^\n]*$", widened, text, flags=re.M)


def main():
    source, out, name, *how = sys.argv[1:]
    triple, layout = TARGETS[name]
    text = open(source).read()
    text = re.sub(r'^target triple = ".*"$', f'target triple = "{triple}"', text, flags=re.M)
    text = re.sub(r'^target datalayout = ".*"$', f'target datalayout = "{layout}"', text, flags=re.M)
    if name != "x86-64":
        text = re.sub(r' "(target-cpu|target-features|probe-stack|stack-probe-size)"="[^"]*"', "", text)
    if name.startswith(("thumb", "riscv32")):
        text = shortened(text)
    if name.startswith("thumb"):
        # It passes no floating-point number, so it fits programs that pass these in registers, and others.
        text = re.sub(r"^(target triple = .*)$", r'\1\nmodule asm ".eabi_attribute 28, 3"', text, flags=re.M)
    if name == "riscv64":
        text = re.sub(r"^(define (?:dso_local )?(?:noundef )?)(i32 @iface_)", r"\1signext \2", text, flags=re.M)
    if how == ["small"]:
        text = text.replace(" alwaysinline", "").replace(" inlinehint", "")
        text = re.sub(r"^(attributes #\d+ = \{ )", r"\1optsize ", text, flags=re.M)
    open(out, "w").write(text)


main()

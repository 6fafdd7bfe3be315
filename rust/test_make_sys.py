#!/usr/bin/env python3
"""Tells whether make_sys.py refuses what it can't translate, with the line at which it stands."""
import os
import sys

import make_sys

os.chdir(os.path.dirname(os.path.abspath(__file__)))
with open("../c/iface.h") as file:
    HEADER = file.read()
# What is put into the header, and what has to be told of it.
REFUSED = {
    "uint32_t iface_x(iface *host, const uint8_t address[6]);": "an array that is a parameter",
    "uint32_t iface_x(iface *host, void (*called)(uint32_t code, void *of));": "a pointer to a function",
    "uint32_t iface_x(iface *host, uint32_t count, ...);": "arguments of any number",
    "uint32_t iface_x(iface *host, const iface_code *code);": "const iface_code *code",
    "uint32_t iface_x(iface *host, uint8_t **frame);": "uint8_t **frame",
    "uint64_t iface_x(iface *host);": "uint64_t iface_x(iface *host)",
    "extern uint32_t iface_x;": "extern uint32_t iface_x",
    "typedef uint32_t iface_x;": "typedef uint32_t iface_x",
    "union iface_x {\n    uint8_t octet;\n};": "a union",
    "struct iface_x {\n    union {\n        uint8_t octet;\n    } either;\n};": "a union",
    "struct iface_x {\n    void (*called)(void);\n};": "a pointer to a function",
    "struct iface_x {\n    uint8_t is : 1;\n};": "a field of bits",
    "struct iface_x {\n    double number;\n};": "double number",
    "#define IFACE_X 1": "#define IFACE_X 1",
    "enum iface_x { IFACE_X = -1 };": "enum iface_x { IFACE_X = -1 }",
}
PLACE = "/* ---- routes ---- */\n"
LINE = HEADER[: HEADER.index(PLACE)].count("\n") + 2
wrong = []
for text, told in REFUSED.items():
    try:
        make_sys.make(HEADER.replace(PLACE, f"{PLACE}{text}\n"), "iface.h")
        wrong.append(f"it takes {text!r}")
    except SystemExit as refused:
        if str(refused) != f"iface.h:{LINE}: make_sys.py doesn't know this form: {told}":
            wrong.append(f"of {text!r} it says {str(refused)!r}")
sys.exit("\n".join(wrong) or 0)

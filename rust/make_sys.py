#!/usr/bin/env python3
"""Makes src/sys.rs out of iface.h, with the header's comments as docs.

  make_sys.py IFACE_H            writes src/sys.rs
  make_sys.py IFACE_H --check    tells whether src/sys.rs is what it would write

It knows the forms that iface.h has, and stops at any other with its line, as at an array that is a parameter, a pointer
to a function or a union. test_make_sys.py shows it."""
import os
import re
import sys

OWN = os.path.join(os.path.dirname(os.path.abspath(__file__)), "src", "sys.rs")
TYPES = {
    "uint8_t": "u8", "uint16_t": "u16", "uint32_t": "u32", "uint64_t": "u64", "int64_t": "i64", "size_t": "usize",
    "char": "c_char", "void": "c_void", "iface": "iface", "struct iface_address": "iface_address",
    "struct iface_endpoint": "iface_endpoint", "struct iface_config": "iface_config", "struct iface_cidr": "iface_cidr",
    "struct iface_counts": "iface_counts", "struct iface_queue": "iface_queue",
    "struct iface_checksums": "iface_checksums", "struct iface_rooms": "iface_rooms", "struct iface_segment": "iface_segment",
    "struct iface_rate": "iface_rate", "struct iface_guard": "iface_guard", "struct iface_drops": "iface_drops",
    "iface_dhcp": "iface_dhcp", "struct iface_lease": "iface_lease",
    "iface_dns": "iface_dns", "struct iface_dns_answer": "iface_dns_answer",
    "iface_streams": "iface_streams", "struct iface_streams_config": "iface_streams_config",
    "struct iface_stream": "iface_stream",
}
# The enums whose numbers calls write as words. The others are octets.
WORDS = {"iface_code", "iface_dns_type", "iface_dns_state", "iface_stream_state", "iface_stream_ending"}
# IFACE_ROOMS isn't translated: `host::Rooms::new` makes the same.
DEFINED = {"IFACE_H", "IFACE_FRAME_ROOM", "IFACE_LAST_MOMENT", "IFACE_NEVER", "IFACE_NONE", "IFACE_VERSION", "IFACE_ANY",
           "IFACE_ROOMS", "IFACE_DHCP_NONE", "IFACE_DNS_NONE", "IFACE_STREAMS_NONE", "IFACE_DNS_SERVERS", "IFACE_DNS_ADDRESSES"}
# The handles, and what each owns.
HANDLES = [("iface", "host"), ("iface_dhcp", "client"), ("iface_dns", "client"), ("iface_streams", "connections")]
RESULTS = {"uint32_t ": " -> u32", "void ": "", "const char *": " -> *const c_char"}
HEAD = """//! `c/iface.h`, declared: made by `make_sys.py`, with the comments of the header.
//!
//! Calling any of it is `unsafe`: the header says what the caller keeps. [`Host`](crate::Host) keeps it.
//!
//! Sum of the header: {sum:#018x}
#![allow(non_camel_case_types)]
"""
COMMENT = re.compile(r"/\*.*?\*/", re.S)
# The header's own function, which is written in Rust below.
NEW = re.compile(r"(/\*(?:(?!\*/).)*\*/)\n(static inline uint32_t iface_new\(iface \*host, const struct iface_config \*config\) \{\n"
                 r"    return iface_new_for\(host, config, IFACE_VERSION\);\n\}\n)", re.S)


def header_sum(header):
    """FNV-1a of the header's declarations: without comments, and with one blank between words."""
    total = 0xcbf29ce484222325
    for octet in " ".join(COMMENT.sub(" ", header).split()).encode():
        total = (total ^ octet) * 0x100000001b3 % 2**64
    return total


def told(comment):
    """The text of a comment, in one line for each paragraph."""
    text = re.sub(r"\n[ \t]*\* ?", "\n", comment.strip()[2:-2]).strip()
    return [" ".join(part.split()) for part in re.split(r"\n\s*\n", text)]


def docs(comment, indent=""):
    """A comment as docs: names of the header and of parameters as code."""
    lines = []
    for part in told(comment):
        part = re.sub(r"(\*?\b(?:IFACE_\w+|iface_\w+(?:\.\w+)?(?:\(\))?))", r"`\1`", part.replace("`", ""))
        part = re.sub(r"(?<!`)(\*\w+)", r"`\1`", part)
        lines += ([f"{indent}///"] if lines else []) + [f"{indent}/// {part}"]
    return lines


def declared(text):
    """A type, a name and, of an array, its length, as Rust has them."""
    m = re.fullmatch(r"(const )?((?:struct )?\w+) (\*?)(\w+)(?:\[(\d+)\])?", " ".join(text.split()))
    if not m or m[2] not in TYPES:
        raise Unknown(text)
    kind = TYPES[m[2]]
    if m[3]:
        kind = ("*const " if m[1] else "*mut ") + kind
    return m[4], f"[{kind}; {m[5]}]" if m[5] else kind


class Unknown(Exception):
    """A part of the header of no form that it knows."""


# What a reader would like to know of a form that isn't known.
REASONS = [
    (r"\bunion\b", "a union"),
    (r"\(\s*\*", "a pointer to a function"),
    (r"\.\.\.", "arguments of any number"),
    (r"\w\s*:\s*\d", "a field of bits"),
]


def parameter(text):
    """A parameter, as Rust has it. C passes an array as a pointer."""
    if "[" in text:
        raise Unknown("an array that is a parameter")
    return ": ".join(declared(text))


def statements(header):
    """What the header declares: each text with the line at which it begins, without comments and directives."""
    blank = lambda m: re.sub(r"[^\n]", " ", m[0])
    text = COMMENT.sub(blank, header)
    text = re.sub(r"^#ifdef __cplusplus$.*?^#endif$", blank, text, flags=re.S | re.M)
    text = re.sub(r"^#.*$", blank, text, flags=re.M)
    depth = begin = 0
    for place, octet in enumerate(text):
        depth += {"{": 1, "}": -1}.get(octet, 0)
        if octet == ";" and depth == 0:
            one = text[begin:place]
            yield text.count("\n", 0, begin + len(one) - len(one.lstrip())) + 1, one.strip()
            begin = place + 1
    if text[begin:].strip():
        raise SystemExit(f"make_sys.py: what is {text[begin:].strip()[:40]!r}?")


def is_known(text):
    """Raises Unknown unless a declaration is of a form that the functions below read."""
    if re.fullmatch(r"_Static_assert\(.*\)", text, flags=re.S):
        return
    if re.fullmatch(r"enum \w+ \{\s*\w+ = \d+(,\s*\w+ = \d+)*,?\s*\}", text):
        return
    structure = re.fullmatch(r"(?:typedef )?struct \w+ \{(.*)\}(?: \w+)?", text, flags=re.S)
    call = re.fullmatch(r"(uint32_t |void |const char \*)\w+\((.*)\)", text, flags=re.S)
    if structure:
        for field in structure[1].split(";")[:-1]:
            declared(field.strip())
    elif call and "(" not in call[2]:
        for one in call[2].split(",") if call[2] != "void" else []:
            parameter(one.strip())
    else:
        raise Unknown(text)


def refuse_unknown(header, name):
    """Stops at the first declaration that it doesn't know, with its line."""
    for one in re.finditer(r"^#define (\w+).*$", header, flags=re.M):
        if one[1] not in DEFINED:
            line = header.count("\n", 0, one.start()) + 1
            raise SystemExit(f"{name}:{line}: make_sys.py doesn't know this form: {one[0]}")
    for line, text in statements(header):
        try:
            is_known(text)
        except Unknown as unknown:
            told = [reason for form, reason in REASONS if re.search(form, text)] or [str(unknown)]
            raise SystemExit(f"{name}:{line}: make_sys.py doesn't know this form: {told[0]}") from None


def constants(header):
    """The enums and numbers."""
    out = []
    for name, body in re.findall(r"enum (\w+) \{(.*?)\};", header, flags=re.S):
        kind = "u32" if name in WORDS else "u8"
        for one in re.finditer(r"(\w+) = (\d+),?\s*(/\*.*?\*/)?", body, flags=re.S):
            out += docs(one[3]) if one[3] else [f"/// `{name}`."]
            out += [f"pub const {one[1]}: {kind} = {one[2]};"]
        out.append("")
    room = re.search(r"#define IFACE_FRAME_ROOM (\d+)\n", header)[1]
    last = re.search(r"#define IFACE_LAST_MOMENT \(\(int64_t\)1 << (\d+)\)\n", header)[1]
    assert "#define IFACE_NEVER INT64_MAX\n" in header
    assert all(f"#define {name.upper()}_NONE {{0, NULL}}\n" in header for name, _ in HANDLES)
    out += ["/// The room that `iface_receive` and `iface_next` need for a frame, in octets.",
            f"pub const IFACE_FRAME_ROOM: usize = {room};",
            "/// The last moment, in microseconds.", f"pub const IFACE_LAST_MOMENT: i64 = 1 << {last};",
            "/// The instant that stands for none.", "pub const IFACE_NEVER: i64 = i64::MAX;"]
    for name in ("IFACE_DNS_SERVERS", "IFACE_DNS_ADDRESSES"):
        number = re.search(rf"#define {name} (\d+)\n", header)
        if number:
            most = "servers of a client" if name.endswith("SERVERS") else "addresses of a result"
            out += [f"/// How many {most} there are at most.", f"pub const {name}: usize = {number[1]};"]
    version = re.search(r"#define IFACE_VERSION (0x[0-9a-f]+)u\n", header)
    if version:
        out += ["/// The version of the header.", f"pub const IFACE_VERSION: u32 = {version[1]};"]
    if "#define IFACE_ANY {0, {0}}\n" in header:
        out += ["/// Any address, for the end at which a socket listens.",
                "pub const IFACE_ANY: iface_address = iface_address { version: 0, octets: [0; 16] };"]
    return out + [""]


def structures(header):
    """The structures, and their sizes as the header asserts them."""
    out, names = [], []
    form = r"(/\*(?:(?!\*/).)*\*/)\n(typedef )?struct (\w+) \{\n(.*?)\n\}"
    for comment, is_handle, name, body in re.findall(form, header, flags=re.S):
        names.append(name)
        out += docs(comment) + ["#[repr(C)]"]
        out += ["#[derive(Debug)]" if is_handle else "#[derive(Clone, Copy, Debug)]", f"pub struct {name} {{"]
        for one in re.finditer(r"([^;/]+);\s*(/\*.*?\*/)?", body, flags=re.S):
            field, kind = declared(one[1])
            if not is_handle:
                out += docs(one[2], "    ") if one[2] else [f"    /// `{field}`."]
            out.append(f"    {'' if is_handle else 'pub '}{field}: {kind},")
        out += ["}", ""]
    for name, owned in HANDLES:
        out += [f"impl {name} {{", f"    /// A handle that owns no {owned}.", f"    pub const NONE: {name} = {name} {{",
                "        tag: 0,", "        at: core::ptr::null_mut(),", "    };", "}", ""]
    sizes = re.findall(r"sizeof\((?:struct )?(\w+)\) == (\d+)", header)
    assert sorted(name for name, _ in sizes) == sorted(names) and len(names) == header.count("struct ") - len(
        re.findall(r"struct \w+ [*&]?\w+|struct \w+\)|\(struct iface\)", header)), "a structure that it didn't read"
    return out + [f"const _: () = assert!(size_of::<{name}>() == {size});" for name, size in sizes] + [""]


def calls(header):
    """The calls. One without a comment of its own has that of the calls before it."""
    out, group = ['unsafe extern "C" {'], None
    form = r"(/\*(?:(?!\*/).)*\*/)(?=\n)|^(uint32_t |void |const char \*)(\w+)\(([^)]*)\);"
    begin = header.index("/* ---- hosts ---- */")
    count = 0
    for comment, kind, name, parameters in re.findall(form, header[begin:], flags=re.S | re.M):
        if comment:
            group = None if comment.startswith("/* ----") and "\n" not in comment else comment
            continue
        count += 1
        out += docs(group, "    ") if group else [f"    /// `{name}`."]
        named = [] if parameters == "void" else [parameter(one) for one in parameters.split(",")]
        out.append(f"    pub fn {name}({', '.join(named)}){RESULTS[kind]};")
    assert count == len(re.findall(r"\biface_\w+\(", COMMENT.sub(" ", header))), "a call that it didn't read"
    return out + ["}", ""]


def own_call(header):
    """The header's own function."""
    return docs(NEW.search(header)[1]) + [
        "///", "/// # Safety", "/// As each call of the header.",
        "pub unsafe fn iface_new(host: *mut iface, config: *const iface_config) -> u32 {",
        "    // SAFETY: the caller keeps what the header says.",
        "    unsafe { iface_new_for(host, config, IFACE_VERSION) }", "}", ""]


def make(whole, name):
    header = NEW.sub(lambda m: re.sub(r"[^\n]", "", m[0]), whole)
    refuse_unknown(header, name)
    body = "\n".join(constants(header) + structures(header) + calls(header) + own_call(whole))
    used = [name for name in ("c_char", "c_void") if re.search(rf"\b{name}\b", body)]
    use = "use core::ffi::" + (used[0] if len(used) == 1 else "{" + ", ".join(used) + "}") + ";\n"
    return HEAD.format(sum=header_sum(whole)) + "\n" + use + "\n" + body


def main():
    with open(sys.argv[1]) as file:
        made = make(file.read(), sys.argv[1])
    if sys.argv[2:] == ["--check"]:
        with open(OWN) as file:
            if file.read() != made:
                raise SystemExit(f"src/sys.rs isn't what make_sys.py makes of {sys.argv[1]}: run it without --check")
        return
    with open(OWN, "w") as file:
        file.write(made)


if __name__ == "__main__":
    main()

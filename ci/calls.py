#!/usr/bin/env python3
"""Compares the C interface in each place that declares it: the headers, the Rust crate's `extern` block, the proved exports.

No compiler sees two of the three, so none finds a `u32` for a `u64`. A type is read as `u64`, `usize`, `bool`, the name of a
struct in small letters, or `const` or `mut` and what a pointer leads to. A slice of Rattle's is a pointer and a length in C, and a
`Global` is nothing. The status is 0 if nothing differs.
"""
import glob
import os
import re
import sys

TOP = os.path.dirname(os.path.dirname(os.path.abspath(__file__)))
# (a pointer to `void` counts as one to bytes, and a `Word` of the crate's has the bytes of a `u64`)
NUMBERS = {"uint64_t": "u64", "uint32_t": "u32", "uint8_t": "u8", "size_t": "usize", "void": "u8", "c_void": "u8", "Word": "u64"}
C_CALL = re.compile(r"^(\w+) (hz_\w+)\(([^;]*)\);", re.M)
C_STRUCT = re.compile(r"typedef struct \{(.*?)\} hz_(\w+);", re.S)
RUST_CALL = re.compile(r"\bfn (hz_\w+)\(((?:\[[^]]*\]|[^;{])*?)\)(?: -> (\w+))?\s*(?=[;{]|requires|ensures|ghost)")
RUST_STRUCT = re.compile(r"#\[repr\(C\)\]\s*(?:#\[[^]]*\]\s*)*(?:pub(?:\(\w+\))? )?struct (\w+) \{(.*?)^\s*\}", re.S | re.M)


def plain(name):
    """The name of a type. Rattle's structs that cross to C end in `In` or `Out`."""
    return NUMBERS.get(name, re.sub(r"(?<=\w)(In|Out)$", "", name).lower().removeprefix("hz_"))


def parts(text, mark=","):
    """The parts of a list, cut at each comma that is not within brackets."""
    return [" ".join(it.split()) for it in re.split(rf"{mark}(?![^<\[(]*[>\])])", text) if it.strip()]


def in_c(declared):
    """The type of a parameter or field, as `const uint8_t seed[32]`, which is a pointer, or `hz_handle *hub`."""
    const, name, star, many = re.fullmatch(r"(const )?(?:struct )?(\w+) (\*?)\w+(\[\d+\])?", declared).groups()
    return ("const " if const else "mut ") * bool(star or many) + plain(name) + (many or "")


def in_rust(kind):
    """The types that C has for a type of Rust or Rattle: none, one, or two."""
    found = re.fullmatch(r"(&mut |&|\*mut |\*const |)\[?(\w+)(?:; (\d+))?(\]?)", kind)
    if not found:
        return [kind]
    pointer, name, many, slice_ = found.groups()
    one = ("mut " if "mut" in pointer else "const ") * bool(pointer) + plain(name) + (f"[{many}]" if many else "")
    return [] if kind == "Global" else [one, "usize"] if slice_ and not many else [one]


def of_header(text):
    """The calls, structs and codes of a C header."""
    text = re.sub(r"/\*.*?\*/", "", text, flags=re.S)
    calls = {name: ([in_c(it) for it in parts(given) if it != "void"], plain(back)) for back, name, given in C_CALL.findall(text)}
    structs = {name: [(re.search(r"\w+$", it)[0], in_c(it)) for it in parts(body, ";")] for body, name in C_STRUCT.findall(text)}
    return calls, structs, dict(re.findall(r"\bHZ_(\w+) = (\d+)", text))


def of_rust(text):
    """The calls, structs and codes of Rust, or of Rattle, which writes them alike."""
    text = re.sub(r"//[^\n]*|\bpub(\(\w+\))? (?!fn|struct|const|extern)", "", text)
    pairs = lambda fields: (it.split(": ", 1) for it in fields)
    typed = lambda fields: [(name, it) for name, kind in pairs(fields) if "ghost" not in name for it in in_rust(kind)]
    calls = {name: ([it[1] for it in typed(parts(given))], back or plain("void")) for name, given, back in RUST_CALL.findall(text)}
    structs = {plain(name): typed(parts(body)) for name, body in RUST_STRUCT.findall(text)}
    # A struct within a struct counts as its fields.
    structs = {name: [it for one in fields for it in structs.get(one[1], [one])] for name, fields in structs.items()}
    return calls, structs, dict(re.findall(r"\bconst (\w+): u32 = (\d+);", text))


def told_of(header, what, text, spare=()):
    """What a text of Rust declares otherwise than the header. It may have structs of its own, and need not have each code.

    Nor need it have the calls `spare`.
    """
    for number, (wanted, found) in enumerate(zip(header, of_rust(text))):
        for name in sorted({*wanted, *found}):
            is_own, may_lack = number == 1 and name not in wanted, number == 2 or name in spare
            if found.get(name) != wanted.get(name) and not is_own and not (may_lack and name not in found):
                yield f"{name} is {found.get(name)} in {what}, and {wanted.get(name)} in the header"


def read(pattern):
    """The texts of all files of a pattern."""
    texts = []
    for path in sorted(glob.glob(f"{TOP}/{pattern}", recursive=True)):
        with open(path, encoding="utf-8") as file:
            texts.append(file.read())
    return "\n".join(texts)


def headers():
    """The calls, structs and codes of the mailbox, those of the channel, and both together."""
    mailbox = of_header(read("bindings/c/hazbultra.h"))
    # (the other calls of this header are those of channel.c, which includes it, and so are its senders and receivers)
    calls, structs, _ = of_header(read("bindings/c/hazbultra_channel.h"))
    calls = {name: it for name, it in calls.items() if name.startswith("hz_channel_")}
    channel = calls, {name: structs[name] for name in ("end", "wake")}, mailbox[2]
    return mailbox, channel, tuple({**one, **other} for one, other in zip(mailbox, channel))


def main():
    mailbox, channel, both = headers()
    told = [*told_of(mailbox, "the proved crate", read("crates/hazbultra/src/**/*.rt"))]
    told += told_of(channel, "the proved crate of the channel", read("crates/hazbultra_channel/src/**/*.rt"))
    # (the Rust crate calls only some of the channel's calls)
    told += told_of(both, "the Rust crate", read("bindings/rust/src/ffi/*.rs"), channel[0])
    print("\n".join([*told, f"{len(both[0])} calls, {len(told)} differences"]))
    return bool(told) or not mailbox[0] or not channel[0]


if __name__ == "__main__":
    sys.exit(main())

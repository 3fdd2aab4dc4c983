"""Compares the declarations of the bindings for Python, Rust and C++ with sacn.h, for tests/bindings.sh.

usage: bindings.py TOP     a line 'ok bindings: WHAT' or 'not ok bindings: WHAT: why' for each look
"""

import ctypes
import re
import sys

TOP = sys.argv[1]
sys.path.insert(0, f"{TOP}/bindings/python")
import sacn_core  # noqa: E402

RUST = {"uint8_t": "u8", "uint16_t": "u16", "uint64_t": "u64", "size_t": "usize", "char": "c_char"}
PYTHON = {"uint8_t": ctypes.c_uint8, "uint16_t": ctypes.c_uint16, "uint64_t": ctypes.c_uint64, "size_t": ctypes.c_size_t}
# The structs that the module for Python has by another name.
STRUCTS = {
    "sacn_packet": "_Packet", "sacn_source": "_Source", "sacn_universe": "_Universe", "sacn_sender": "_Sender", "sacn_news": "_News",
    "sacn_stream": "_Stream",
}
ENUMS = {
    "sacn_status": "Status", "sacn_packet_fault": "PacketFault", "sacn_setup_fault": "SetupFault", "sacn_show_fault": "ShowFault",
    "sacn_console_fault": "ConsoleFault", "sacn_source_fault": "SourceFault", "sacn_sources_fault": "SourcesFault", "sacn_taken": "Taken",
    "sacn_command": "Command",
    "sacn_universe_state": "UniverseState", "sacn_noted": "Noted", "sacn_event": "Event", "sacn_stream_state": "StreamState",
}
# The numbers that an exception stands for.
RAISED = {"SACN_DONE", "SACN_TAKEN_REFUSED", "SACN_NOTED_REFUSED"}


def text_of(path):
    with open(f"{TOP}/{path}", encoding="utf-8") as file:
        return file.read()


HEADER = re.sub(r"/\*.*?\*/", "", text_of("include/sacn.h"), flags=re.S)
LIBRARY = text_of("bindings/rust/sacn-core-sys/src/lib.rs")
ENUM = {name: dict(re.findall(r"(\w+) = (\d+)", body)) for name, body in re.findall(r"^enum (\w+) \{(.*?)\};", HEADER, re.S | re.M)}
SIZES = dict(re.findall(r"#define (\w+) (\d+)$", HEADER, re.M))
STRUCT = {
    name: re.findall(r"(\w+) \*?(\w+)(?:\[(\w+)\])?;", body)
    for name, body in re.findall(r"^struct (\w+) \{(.*?)^\};", HEADER, re.S | re.M)
}
CALL = {
    name: [re.match(r"(const )?(?:struct )?(\w+) (\*?)(\w+)(\[\w+\])?$", it.strip()).groups() for it in arguments.split(",")]
    for name, arguments in re.findall(r"^int (\w+)\((.*?)\);", HEADER, re.S | re.M)
}


def differ(wanted, found):
    """Each name that two tables don't have alike."""
    for name in sorted({*wanted, *found}):
        if wanted.get(name) != found.get(name):
            yield f"{name} is {found.get(name)}, and sacn.h has {wanted.get(name)}"


def header_is_read():
    for table, front in ((ENUM, "enum"), (STRUCT, "struct"), (CALL, "int"), (SIZES, "#define")):
        count = len(re.findall(rf"^{front} (?:sacn|SACN)_\w+(?: \d+$| ?[({{])", HEADER, re.M))
        if not table or len(table) != count:
            yield f"{len(table)} of {count} are read that begin with {front}"


def rust_numbers():
    # (a family is a type there)
    numbers = {name: it for enum, its in ENUM.items() if enum != "sacn_family" for name, it in its.items()}
    found = dict(re.findall(r"pub const (SACN_\w+): \w+ = (\d+);", LIBRARY))
    return differ({**SIZES, **numbers}, found)


def rust_structs():
    found = {
        name: re.findall(r"pub (\w+): ([^\n]*),", body)
        for name, body in re.findall(r"#\[repr\(C\)\]\n#\[derive[^\n]*\npub struct (\w+) \{\n(.*?)\n\}", LIBRARY, re.S)
    }
    wanted = {
        name: [
            (field, "*mut c_void" if kind == "void" else f"[{RUST[kind]}; {count}]" if count else RUST[kind])
            for kind, field, count in fields
        ]
        for name, fields in STRUCT.items()
    }
    return differ(wanted, found)


def rust_calls():
    found = {
        name: re.findall(r"(\w+): ([\w* ]+)", arguments)
        for name, arguments in re.findall(r"pub fn (\w+)\((.*?)\) -> c_int;", LIBRARY, re.S)
    }
    wanted = {}
    for name, arguments in CALL.items():
        wanted[name] = []
        for is_const, kind, star, argument, array in arguments:
            pointer = ("*const " if is_const else "*mut ") if star or array else ""
            wanted[name].append((argument, pointer + RUST.get(kind, kind)))
    return differ(wanted, found)


def python_numbers():
    for name, python in ENUMS.items():
        wanted = {it: int(number) for it, number in ENUM[name].items() if it not in RAISED}
        found = {int(it): it.name for it in getattr(sacn_core, python)}
        if sorted(wanted.values()) != sorted(found):
            yield f"{python} has {sorted(found)}"
        for it, number in wanted.items():
            if not it.endswith("_" + found.get(number, "")):
                yield f"{it} is {found.get(number)} of {python}"
    for name, number in SIZES.items():
        if name != "SACN_TEXT_OCTETS" and getattr(sacn_core, name.removeprefix("SACN_"), None) != int(number):
            yield f"{name} is {getattr(sacn_core, name.removeprefix('SACN_'), None)}"


def python_structs():
    for name, python in STRUCTS.items():
        found = [(field, ctypes.sizeof(kind), getattr(kind, "_length_", 0)) for field, kind in getattr(sacn_core, python)._fields_]
        wanted = []
        for kind, field, count in STRUCT[name]:
            wanted.append((field, ctypes.sizeof(PYTHON[kind]) * int(count or 1), int(count or 0)))
        if found != wanted:
            yield f"{python} is {found}"


def python_calls():
    found = {f"sacn_{name}": list(arguments) for name, arguments in sacn_core._CALLS.items()}
    wanted = {}
    for name, arguments in CALL.items():
        wanted[name] = []
        for is_const, kind, star, _, array in arguments:
            if not star and not array:
                wanted[name].append(PYTHON[kind])
            elif kind == "char" or (is_const and kind == "uint8_t"):
                wanted[name].append(ctypes.c_char_p)
            else:
                struct = sacn_core._Raw if kind not in STRUCTS else getattr(sacn_core, STRUCTS[kind])
                wanted[name].append(ctypes.POINTER(PYTHON.get(kind, struct)))
    return differ(wanted, found)


def cxx_calls():
    used = set(re.findall(r"\b(sacn_\w+)\(", text_of("bindings/cxx/sacn.hpp"))) | set(
        re.findall(r"Handle<\w+, (sacn_\w+_free)>", text_of("bindings/cxx/sacn.hpp"))
    )
    for name in sorted(set(CALL) - used):
        yield f"sacn.hpp doesn't call {name}"


def sentences():
    """What each status means stands in each language once, and is the same sentence."""
    python = {
        sacn_core.SacnError(it).name: (int(it), it.meaning) for family in sacn_core._PREFIXES for it in family
    }
    number = {name: int(it) for numbers in ENUM.values() for name, it in numbers.items()}
    for path, pattern in (
        ("bindings/rust/sacn-core/src/error.rs", r'= (SACN_\w+):\s+"(.*?)",'),
        ("bindings/cxx/sacn.hpp", r'SACN_TOLD\(\w+, (SACN_\w+),\s+"(.*?)"\)'),
        ("crates/sacn_c/border/border.c", r'\{SACN_FAMILY_\w+, (SACN_\w+),\s+"(.*?)"\}'),
    ):
        found = re.findall(pattern, text_of(path))
        if len(found) != len(python):
            yield f"{path} has {len(found)} of {len(python)} sentences"
        yield from differ(python, {name: (number[name], meaning) for name, meaning in found})


def verdict(what, faults):
    told = list(faults)
    print(f"not ok bindings: {what}: {'; '.join(told[:4])}" if told else f"ok bindings: {what}")
    return not told


LOOKS = {
    "sacn.h is read": header_is_read,
    "the numbers of sacn-core-sys are those of sacn.h": rust_numbers,
    "its structs too": rust_structs,
    "its calls too": rust_calls,
    "the numbers of sacn_core.py are those of sacn.h": python_numbers,
    "the structs of sacn_core.py too": python_structs,
    "the calls of sacn_core.py too": python_calls,
    "sacn.hpp has each call": cxx_calls,
    "a status has one sentence, the same in each language": sentences,
}

sys.exit(0 if all([verdict(what, look()) for what, look in LOOKS.items()]) else 1)

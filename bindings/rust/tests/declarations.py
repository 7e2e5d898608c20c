#!/usr/bin/env python3
"""declarations.py HEADER FILE: compares the calls that gabrosty.h declares with those that ffi.rs does: their names, and the types of their
parameters and results, but for those that the crate leaves out. It prints each difference, and ends with status 1 if there is one."""
import re
import sys

# the types of the header, and what they are in Rust
TYPES = {
    "void": "", "bool": "bool", "uint16_t": "u16", "uint32_t": "u32", "size_t": "usize", "gabro_session *": "Session",
    "const gabro_session *": "Asked", "int": "c_int",
    "const char *": "Bytes", "char *": "Room", "size_t *": "*mut usize", "uint32_t *": "*mut u32", "gabro_key *": "*mut Key",
    "const gabro_key *": "*const Key", "gabro_side_info *": "*mut SideInfo", "gabro_cell *": "*mut Cell",
    "gabro_screen_info *": "*mut ScreenInfo", "const gabro_side_info *": "*const SideInfo", "const gabro_changed *": "*const Changed",
    "gabro_pager *": "*mut Pager", "const gabro_pager *": "*const Pager", "gabro_shown *": "*mut Shown", "gabro_in_tree *": "*mut InTree",
}

# the calls that the crate leaves out: this one takes functions of a program, and the crate has `gabro_run`
LEFT_OUT = {"gabro_run_with"}


def of_header(text):
    """Returns the parameters and the result of each call of the header."""
    text = re.sub(r"/\*.*?\*/", "", text, flags=re.S)
    calls = {}
    found = re.findall(r"^(?:GABRO_USE_CODE )?(\w+) (gabro_\w+)\(([^)]*)\);", text, re.M | re.S)
    for result, name, parameters in (call for call in found if call[1] not in LEFT_OUT):
        kinds = [re.sub(r"\w+$", "", " ".join(it.split())).strip() for it in parameters.split(",")] if parameters != "void" else []
        calls[name] = [TYPES[kind] for kind in kinds], TYPES[result]
    return calls


def of_crate(text):
    """Returns the parameters and the result of each call that the crate declares."""
    found = re.findall(r"^ *pub fn (gabro_\w+)\(([^)]*)\)(?: -> (\w+))?;", text, re.M)
    return {name: ([it.split(": ")[1] for it in parameters.split(", ") if it], result) for name, parameters, result in found}


def main():
    header, crate = (read(open(path).read()) for read, path in zip((of_header, of_crate), sys.argv[1:]))
    names = [name for name in sorted({*header, *crate}) if header.get(name) != crate.get(name)]
    for name in names:
        print("%s: the header has %s, and the crate %s" % (name, header.get(name), crate.get(name)))
    sys.exit(1 if names or not header else 0)


main()

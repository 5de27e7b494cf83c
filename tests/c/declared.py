"""Whether the Rust crate declares what the header declares: the same structs, field by field, the same functions, the same numbers, and the
same that descriptors begin with."""

import re

WIDTHS = {"uint64_t": "u64", "uint32_t": "u32", "size_t": "usize", "void": "c_void"}


def name_of(word):
    """The name that a type of the header has in Rust."""
    return WIDTHS.get(word) or "".join(part.capitalize() for part in word.replace("wethlorn_", "").split("_"))


def of_header(text):
    text = re.sub(r"/\*.*?\*/", "", text, flags=re.S)
    structs, functions = {}, {}
    for name, body in re.findall(r"typedef struct wethlorn_(\w+) \{(.*?)\}", text, re.S):
        fields = re.findall(r"(\w+)\s+(\*?[\w, ]+);", body)
        structs[name_of(name)] = [
            (field.strip(" *"), "*mut " * ("*" in field) + name_of(kind)) for kind, names in fields for field in names.split(",")
        ]
    for name, given in re.findall(r"uint32_t (wethlorn_\w+)\((.*?)\);", text, re.S):
        found = re.findall(r"(const )?(\w+) (\*?)(\w+)(?:,|$)", " ".join(given.split()))
        functions[name] = [(each, ("*const " if const else "*mut ") * bool(star) + name_of(kind)) for const, kind, star, each in found]
    numbers = {name: int(value) for name, value in re.findall(r"WETHLORN_(\w+)(?: = | UINT64_C\()(\d+)", text)}
    return structs, functions, numbers


def begins_of_header(text):
    """The fields of each descriptor as its WETHLORN_.._INIT has them, in their order: numbers, names, or what another one begins with."""
    text = re.sub(r" \\\n +", " ", re.sub(r"/\*.*?\*/", "", text, flags=re.S))
    found = {}
    for name, body in re.findall(r"#define WETHLORN_(\w+)_INIT \{(.*)\}", text):
        found[name_of(name.lower())] = [re.sub(r"^WETHLORN_", "", each) for each in body.split(", ")]
    return found


def begins_of_rust(text):
    """The same of the crate, of those that have it of their own, in the words of the header."""
    found = {}
    for name, body in re.findall(r"impl Default for (\w+) \{.*?Self \{(.*?)\}", text, re.S):
        found[name] = [in_header(value) for value in re.findall(r"\w+: ([\w:()]+),", body)]
    return found


def in_header(value):
    """What a value of the crate is called in the header, without WETHLORN_."""
    value = re.sub(r"(\w+)::default\(\)", r"\1_INIT", re.sub(r"^DIM_", "", value))
    words = re.sub(r"(?<=[a-z])(?=[A-Z])", "_", value.replace("::", "_"))
    return words.upper()


def of_rust(text):
    text = re.sub(r"//.*", "", text)
    structs, functions = {}, {}
    for name, body in re.findall(r"pub struct (\w+) \{(.*?)\n\}", text, re.S):
        structs[name] = re.findall(r"pub (\w+): ([\w* ]+),", body)
    for name, given in re.findall(r"pub fn (wethlorn_\w+)\((.*?)\)\s+-> u32;", text, re.S):
        functions[name] = re.findall(r"(\w+): ([\w* ]+)", given)
    numbers = {name: int(value) for name, value in re.findall(r"pub const (\w+): u(?:32|64) = (\d+);", text)}
    for kind, body in re.findall(r"^impl (\w+) \{(.*?)^\}", text, re.M | re.S):
        own = re.findall(r"const (\w+): Self = Self\((\d+)\);", body)
        numbers.update({in_header(f"{kind}::{name}"): int(value) for name, value in own})
    return structs, functions, numbers


def differences(header, rust):
    """What is declared otherwise. Of the numbers the crate has those that its callers give; what a device tells is an enum there."""
    structs, functions, numbers = of_header(header)
    in_rust = of_rust(rust)
    for what, wanted, found in (("struct", structs, in_rust[0]), ("function", functions, in_rust[1])):
        for name in sorted({*wanted, *found}):
            if wanted.get(name) != found.get(name):
                yield f"the {what} {name} is {found.get(name)} in the Rust crate, and {wanted.get(name)} in the header"
    for name, value in in_rust[2].items():
        if numbers.get(re.sub(r"^DIM_", "", name)) != value:
            yield f"the number {name} is {value} in the Rust crate, and {numbers.get(name)} in the header"
    yield from begins_apart(structs, header, rust)


def begins_apart(structs, header, rust):
    """Where a descriptor begins otherwise, or has nothing to begin with. One that has no impl of its own in the crate has there 0, no flag,
    or what another begins with, in each of its fields."""
    begins, in_rust = begins_of_header(header), begins_of_rust(rust)
    given = {name_of(kind) for kind in re.findall(r"const (wethlorn_\w+) \*", header)}
    for name in sorted({*begins, *in_rust, *given}):
        wanted, fields = begins.get(name, []), structs.get(name, [])
        if len(wanted) != len(fields):
            yield f"the header has {len(wanted)} values with which {name} begins, and {len(fields)} fields of it"
        is_derived = all(value == "0" or value.endswith(("_NONE", "_INIT")) for value in wanted)
        if in_rust.get(name) != wanted and not (name not in in_rust and is_derived):
            yield f"{name} begins with {in_rust.get(name)} in the Rust crate, and with {wanted} in the header"

"""Compares what crates/conguraha exports with what others say of it: the static library's symbols, the declarations of
include/conguraha.h, and those of harness/src/rattle.rs and bindings/rust. The functions, the names, order and types of
their parameters, their results, and the fields of the structs that go by value must agree. So must the header's
version with the exports' names, and its answers with its sentences. Types are written here as Rust writes them."""
import pathlib
import re
import subprocess
import sys

HEADER = pathlib.Path("include/conguraha.h")
HARNESS = pathlib.Path("harness/src/rattle.rs")
BINDINGS = pathlib.Path("bindings/rust/src")
LIBRARIES = {"conguraha": "target/staticlib/libconguraha.a", "chains": "target/staticlib/libchains.a"}
# The benchmark's alone, of a library that is not installed.
CHAIN = "conguraha_aes_chain"

# The structs in Rattle and in C.
STRUCTS = {
    "HeldSession": "conguraha_session",
    "HeldSession32": "conguraha_session32",
    "HeldOpened": "conguraha_opened",
    "HeldFed": "conguraha_fed",
    "Forecast": "conguraha_cost",
    "CounterPlace": "conguraha_place",
    "Length": "conguraha_length",
    "Neighbour": "conguraha_neighbour",
}
IN_C = {"uint8_t": "u8", "uint32_t": "u32", "uint64_t": "u64", "size_t": "usize"}
IN_C.update({c: rattle for rattle, c in STRUCTS.items()})

REPR_C = r"#\[repr\(C\)\]\s*(?:#\[[^\]]*\]\s*)*(?:pub(?:\(\w+\))? )?struct (\w+) \{(.*?)^\}"


def must(holds, words):
    if not holds:
        sys.exit(words)


def split(parameters):
    return [" ".join(p.split()) for p in parameters.split(",") if p.strip()]


def named(field):
    """A name and a type. `register` is a word of C, so there it is `reg`, and may be elsewhere."""
    name, type_ = re.sub(r"^pub(\(\w+\))? ", "", field).split(": ", 1)
    return ("reg" if name == "register" else name), type_


def structs(text):
    """The structs of Rattle or Rust that have C's layout."""
    return {name: [named(f) for f in split(fields)] for name, fields in re.findall(REPR_C, text, re.S | re.M)}


def passed(name, type_):
    """How C and Rust pass what Rattle lends: a slice as a pointer and a length."""
    lent = re.fullmatch(r"&(?:'\w+ )?(mut )?(\[(\w+)\]|\[\w+; \d+\]|\w+)", type_)
    if not lent:
        return [(name, type_)]
    mutable, whole, element = lent.groups()
    pointer = (name, ("*mut " if mutable else "*const ") + (element or whole))
    return [pointer, (name + "_length", "usize")] if element else [pointer]


def exported(text):
    """Of Rattle's functions: the parameters as they are passed, and the result."""
    pattern = r'extern "C" fn (\w+)(?:<[^>]*>)?\(([^)]*)\) -> (\w+)\s'
    functions = {}
    for name, parameters, result in re.findall(pattern, text):
        functions[name] = [p for parameter in split(parameters) for p in passed(*named(parameter))], result
    must(len(functions) == text.count('extern "C"'), "the crates have an export of an unknown form")
    return functions


def without_comments(text):
    return re.sub(r"/\*.*?\*/|//[^\n]*", "", text, flags=re.S)


def header_text():
    """With each number in the place of its name."""
    text = without_comments(HEADER.read_text())
    for name, number in re.findall(r"#define (\w+) (\d+)\s", text):
        text = text.replace(f"[{name}]", f"[{number}]")
    return text


def c_parts(declaration):
    parts = re.fullmatch(r"(const )?(?:struct )?(\w+) (\*?)(\w+)(?:\[(\d+)\])?", declaration)
    must(parts and parts[2] in IN_C, f"{HEADER}: an unknown type, {declaration}")
    return parts[1], IN_C[parts[2]], parts[3], parts[4], parts[5]


def c_parameter(declaration):
    const, type_, star, name, size = c_parts(declaration)
    of = f"[{type_}; {size}]" if size else type_
    return name, f"{'*const' if const else '*mut'} {of}" if star or size else of


def c_field(declaration):
    const, type_, star, name, size = c_parts(declaration)
    must(not const and not star, f"{HEADER}: an unknown field, {declaration}")
    return name, f"[{type_}; {size}]" if size else type_


def in_c(text):
    """A result that a caller may drop is not found."""
    pattern = r"^CONGURAHA_USE_RESULT\s+(?:struct\s+)?(\w+)\s+(conguraha\d\w*)\(([^)]*)\);"
    functions = {}
    for result, name, parameters in re.findall(pattern, text, re.M):
        functions[name] = [c_parameter(p) for p in split(parameters)], IN_C.get(result, result)
    found = re.findall(r"^struct (\w+) \{(.*?)^\};", text, re.M | re.S)
    return functions, {IN_C.get(n, n): [c_field(f) for f in split(fs.replace(";", ","))] for n, fs in found}


def in_rust(text, constants, library):
    """The structs get Rattle's names: those of what Rattle has where the function has them."""
    for name, number in re.findall(r"const (\w+): usize = (\d+);", without_comments(constants)):
        text = text.replace(f"; {name}]", f"; {number}]")
    text = without_comments(text)
    functions, names = {}, {}
    for block in re.findall(r'^(?:unsafe )?extern "C" \{(.*?)^\}', text, re.M | re.S):
        for name, parameters, result in re.findall(r"fn (conguraha\w*)\(([^)]*)\) -> (\w+);", block):
            functions[name] = [named(p) for p in split(parameters)], result
            of, of_result = library.get(name, ([], ""))
            for here, there in [*zip([t for _, t in functions[name][0]], [t for _, t in of]), (result, of_result)]:
                if there in STRUCTS:
                    names.setdefault(here, there)

    must(len(names) == len(set(names.values())), f"two structs stand for one: {names}")

    def renamed(fields):
        return [(name, names.get(type_, type_)) for name, type_ in fields]

    functions = {name: (renamed(fields), names.get(result, result)) for name, (fields, result) in functions.items()}
    return functions, {names[name]: renamed(fields) for name, fields in structs(text).items() if name in names}


def agrees(type_, declared):
    """In Rust a pointer to an array may be one to its first byte."""
    return declared in (type_, re.sub(r"^(\*\w+) \[(\w+); \d+\]$", r"\1 \2", type_))


def same(fields, declared, rust):
    if [name for name, _ in fields] != [name for name, _ in declared]:
        return False
    return all(agrees(a, b) if rust else a == b for (_, a), (_, b) in zip(fields, declared))


def differences(place, library, declared, rust):
    """Of functions, with the result as a last parameter, or of structs."""
    if not declared:
        yield f"nothing was found in {place}"
    for name in sorted(library.keys() | declared.keys()):
        if name not in library or name not in declared:
            yield f"{name}: {'not in ' + place if name in library else 'only in ' + place}"
        elif not same(library[name], declared[name], rust):
            yield f"{name}:\n    {library[name]}\n    {declared[name]} in {place}"


def with_result(functions):
    return {name: [*parameters, ("", result)] for name, (parameters, result) in functions.items()}


def symbols(library):
    lines = subprocess.check_output(["nm", "-g", "--defined-only", LIBRARIES[library]], text=True)
    return re.findall(r"^\w+ [A-Z] (\w+)$", lines, re.M)


def versions(text, functions):
    made = [re.findall(rf"#define CONGURAHA_VERSION_{part} (\d+)\s", text) for part in ("MAJOR", "MINOR", "PATCH")]
    if re.findall(r'#define CONGURAHA_VERSION "(.*)"', text) != [".".join(n[0] for n in made if len(n) == 1)]:
        yield f"CONGURAHA_VERSION is not made of {made}"
    for name in functions:
        if not made[0] or not name.startswith(f"conguraha{made[0][0]}_"):
            yield f"{name} is not of the major version {made[0]}"


def sentences(text):
    answers = re.findall(r"(\w+) = \d+", "".join(re.findall(r"^enum conguraha_answer \{(.*?)\}", text, re.M | re.S)))
    body = "".join(re.findall(r"conguraha_answer_text\(size_t answer\)\n\{(.*?)^\}", text, re.M | re.S))
    said = dict(re.findall(r'case (\w+):\s+return "(.+)";', body))
    if not answers or len(set(said.values())) != len(said):
        yield f"{len(answers)} answers, {len(said)} sentences, of which {len(set(said.values()))} differ"
    for name in sorted(set(answers) ^ set(said)):
        yield f"{name}: {'no sentence' if name in answers else 'no answer'}"


def rust_places():
    """Each file with declarations, and the text that has its constants."""
    yield HARNESS, HARNESS.read_text()
    if not BINDINGS.exists():
        print(f"{BINDINGS} is not there, and not compared")
        return
    files = sorted(BINDINGS.glob("*.rs"))
    declaring = [file for file in files if re.search(r'^(unsafe )?extern "C" \{', file.read_text(), re.M)]
    must(declaring, f'no file of {BINDINGS} has a block of extern "C"')
    for file in declaring:
        yield file, "".join(f.read_text() for f in files)


def sources(*crates):
    files = [file for crate in crates for file in sorted(pathlib.Path(f"crates/{crate}/src").glob("*.rt"))]
    return "".join(file.read_text() for file in files)


def main():
    library, chains = exported(sources("conguraha")), exported(sources("chains"))
    layouts = structs(sources("conguraha", "held"))
    must(library and layouts, "crates/conguraha exports nothing, or no struct of it was found")
    must(chains.keys() == {CHAIN}, f"crates/chains exports {sorted(chains)}")
    wrong = [f"{name}: in one of the crates and of this file alone" for name in layouts.keys() ^ STRUCTS.keys()]
    for crate, functions in (("conguraha", library), ("chains", chains)):
        if sorted(symbols(crate)) != sorted(functions):
            wrong.append(f"{LIBRARIES[crate]} has {symbols(crate)}, and the crate {sorted(functions)}")

    text = header_text()
    functions, fields = in_c(text)
    wrong += differences(HEADER.name, with_result(library), with_result(functions), False)
    wrong += differences(HEADER.name, layouts, fields, False)
    wrong += [*versions(text, library), *sentences(text)]
    places = [HEADER]
    for file, constants in rust_places():
        expected = {**library, **chains} if file == HARNESS else library
        functions, fields = in_rust(file.read_text(), constants, expected)
        wrong += differences(str(file), with_result(expected), with_result(functions), True)
        wrong += differences(str(file), layouts, fields, True)
        places.append(file)
    agreed = f"{len(library)} exported functions and {len(layouts)} structs are declared as they are in"
    print("\n".join(wrong) or f"{agreed} {', '.join(map(str, places))}")
    return bool(wrong)


sys.exit(main())

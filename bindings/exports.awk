# The exports in the .rt files given, as a C header (-v as=c) or a Rust module (-v as=rust) declares them, in the order of the files. A slice
# is an address, then a length; a matrix or a vector is an array of floats. In Rust a returned bool is its byte, so that the caller can see
# that it is 0 or 1. Behind them stands their number, RIG_ABI, from the one constant ABI of the files. What is not understood is an error
# that names its place: no export is left out.
BEGIN {
    split("u8 uint8_t u16 uint16_t u32 uint32_t u64 uint64_t usize size_t f32 float bool bool", pairs, " ")
    for (i = 1; i in pairs; i += 2) c[pairs[i]] = pairs[i + 1]
    arrays["Mat4"] = "[f32; 16]"; arrays["Vec3"] = "[f32; 3]"; arrays["Vec4"] = "[f32; 4]"
    if (as == "rust") {
        print "//! The exports as C declares them: a slice is its address, then its length. `crates/rig` says what each gives and leaves."
        print "//! Made by `bindings/exports --write`: not to be edited."
        print ""
        print "#[rustfmt::skip]"
        print "#[allow(dead_code)] // a crate need not call them all"
        print "extern \"C\" {"
    }
}

function fail(message) {
    failed = 1
    print "exports: FAILED: " FILENAME ":" FNR ": " message >"/dev/stderr"
    exit 1
}

function known(type, of) {
    if (!(type in c)) fail(export ": " of ": no type of C is known for " type)
    return type
}

# adds a parameter to the list; `pointer` is "&", "&mut " or "", `size` that of an array or ""
function add(name, pointer, type, size) {
    known(type, name)
    if (as == "c") list[++n] = (pointer == "&" ? "const " : "") c[type] (pointer == "" || size ? " " : " *") name (size ? "[" size "]" : "")
    else list[++n] = name ": " (pointer == "" ? "" : pointer == "&" ? "*const " : "*mut ") (size ? "[" type "; " size "]" : type)
}

# one parameter, "name: type"
function parameter(text,   name, type, pointer, size) {
    name = type = text
    sub(/:.*/, "", name)
    sub(/[^:]*: /, "", type)
    pointer = ""
    if (sub(/^&mut /, "", type)) pointer = "&mut "
    else if (sub(/^&/, "", type)) pointer = "&"
    if (pointer != "" && type in arrays) type = arrays[type]
    if (pointer != "" && type ~ /^\[[a-z0-9]+\]$/) {
        gsub(/[][]/, "", type)
        add(name, pointer, type)
        add(name "_len", "", "usize")
    } else if (pointer != "" && type ~ /^\[[a-z0-9]+; [0-9]+\]$/) {
        gsub(/[][]/, "", type)
        size = type
        sub(/.*; /, "", size)
        sub(/;.*/, "", type)
        add(name, pointer, type, size)
    } else add(name, pointer, type)
}

# an export, from its name to its result
function signature(text,   result, inner, parts, count, i) {
    gsub(/[ \t]+/, " ", text)
    gsub(/<'[a-z]+>|'[a-z]+ | $/, "", text)
    if (text !~ /^rig_[a-z0-9_]+\([^()]*\)( -> [A-Za-z0-9]+)?$/) fail("not understood: " text)
    export = result = inner = text
    sub(/\(.*/, "", export)
    sub(/.*\)( -> )?/, "", result)
    sub(/[^(]*\( ?/, "", inner)
    sub(/,? ?\).*/, "", inner)
    n = 0
    count = split(inner, parts, ", ")
    for (i = 1; i <= count; i++) parameter(parts[i])
    if (as == "c") print_c(result == "" ? "void" : c[known(result, "result")])
    else print_rust(result == "" ? "" : " -> " (known(result, "result") == "bool" ? "u8" : result))
}

function print_c(result,   i) {
    if (!n) list[++n] = "void"
    print result " " export "("
    for (i = 1; i <= n; i++) print "    " list[i] (i < n ? "," : "")
    print ");"
}

function print_rust(result,   i, line) {
    line = list[1]
    for (i = 2; i <= n; i++) line = line ", " list[i]
    line = "    pub fn " export "(" (n ? line : "") ")" result ";"
    if (length(line) > 130) {
        print "    pub fn " export "("
        for (i = 1; i <= n; i++) print "        " list[i] ","
        line = "    )" result ";"
    }
    print line
}

{ sub(/\/\/.*/, "") }

/const ABI[ :]/ {
    if (abi != "" || $0 !~ /^const ABI: u32 = [0-9]+;$/) fail("not understood: " $0)
    abi = $5 + 0
    next
}

/no_mangle/ {
    if ($0 != "#[unsafe(no_mangle)]" || marked || open) fail("not understood: " $0)
    marked = 1
    next
}

/extern "C"/ {
    if (!marked) fail("no #[unsafe(no_mangle)] in front of: " $0)
    if (!sub(/^pub extern "C" fn /, "")) fail("not understood: " $0)
    marked = 0
    open = 1
    text = ""
}

marked && NF && !/^#\[/ { fail("no `pub extern \"C\" fn` behind #[unsafe(no_mangle)]: " $0) }

# a signature ends where its contract or its body begins
open && (/^ +(ensures|requires) / || /\{/) {
    sub(/^ +(ensures|requires) .*| *\{.*/, "")
    open = 0
    signature(text $0)
}

open { text = text $0 " " }

END {
    if (!failed && (marked || open || export == "")) fail("the export has no end, or there is none")
    if (!failed && abi == "") fail("there is no constant ABI")
    if (!failed && as == "rust") {
        print "}"
        print ""
        print "/// The number of these exports: what `rig_abi` of a library that has them answers."
        print "#[allow(dead_code)]"
        print "pub const RIG_ABI: u32 = " abi ";"
    } else if (!failed) print "#define RIG_ABI " abi
}

# The prototypes of a C header, as exports.awk prints them: a parameter on each line, and the size of an array as a number, also where an
# enum of the header names it; behind them the number RIG_ABI. Comments, other lines for the preprocessor, and the functions that the header
# defines itself (from `static inline` to a brace at the start of a line) are passed over.
/^# *define +RIG_ABI / { abi = abi "#define RIG_ABI " $3 "\n" }
hidden || /^#/ { hidden = /\\$/; next }
/^static inline / { defined = 1 }
defined { if (/^}/) defined = 0; next }
{ text = text $0 " " }

function prototype(text,   name) {
    gsub(/ +/, " ", text)
    sub(/.*[{}] /, "", text)
    sub(/^ /, "", text)
    for (name in value) gsub("\\[" name "\\]", "[" value[name] "]", text)
    gsub(/, /, ",\n    ", text)
    sub(/\(/, "(\n    ", text)
    sub(/\)$/, "\n)", text)
    print text ";"
}

function constants(text,   n, parts, i, pair) {
    n = split(text, parts, /[{},]/)
    for (i = 1; i <= n; i++)
        if (parts[i] ~ /^ *RIG_[A-Z0-9_]+ = [0-9]+ *$/) {
            split(parts[i], pair, " ")
            value[pair[1]] = pair[3]
        }
}

END {
    while (i = index(text, "/*")) {
        comment = substr(text, i)
        text = substr(text, 1, i - 1) substr(comment, index(comment, "*/") + 2)
    }
    n = split(text, statements, ";")
    for (i = 1; i <= n; i++)
        if (statements[i] ~ /rig_[a-z0-9_]+\(/) prototype(statements[i])
        else constants(statements[i])
    printf "%s", abi
}

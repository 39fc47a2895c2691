# What comments cite of the format, by the words quoted behind "docs/FORMAT.md": after a colon a phrase, else a section. Tells of sections that
# are no heading there, of phrases that do not stand there and of papers that are not in the repository, and then ends with 1.
# Files: docs/FORMAT.md first, then the sources.
function cited(text,    before, quoted, rest, end) {
    if (match(text, /[Dd]ocument 0[0-9]/)) {
        print "cited: not in the repository: " substr(text, RSTART, RLENGTH)
        wrong++
    }
    while (match(text, /docs\/FORMAT\.md/)) {
        rest = text = substr(text, RSTART + RLENGTH)
        times++
        # a few words may stand between
        if (!match(rest, /^[^".]*"/) || RLENGTH > 30) continue
        do {
            before = substr(rest, 1, RLENGTH - 1)
            rest = substr(rest, RLENGTH + 1)
            end = index(rest, "\"")
            if (!end) break
            quoted = substr(rest, 1, end - 1)
            rest = substr(rest, end + 1)
            if (before ~ /: *$/) phrases[quoted]++
            else sections[quoted]++
        } while (match(rest, /^(,|:|;| and) *"/))
    }
}

FNR == 1 { cited(comment); comment = ""; files++ }
files == 1 {
    if (/^##+ /) { title = $0; sub(/^#+ /, "", title); heading[title] = 1 }
    format = format " " $0
    next
}
# a comment may break a citation over its lines
/^[ \t]*(\/\/|--)/ { sub(/^[ \t]*(\/\/|--)[ \t]*/, ""); comment = comment " " $0; next }
{ cited(comment); comment = ""; cited($0) }
END {
    cited(comment)
    gsub(/ +/, " ", format)
    for (s in sections) {
        named += sections[s]
        if (!(s in heading)) { print "cited: no section of docs/FORMAT.md: \"" s "\""; wrong++ }
    }
    for (p in phrases) {
        said += phrases[p]
        if (!index(format, p)) { print "cited: no words of docs/FORMAT.md: \"" p "\""; wrong++ }
    }
    if (!wrong) print "cited: " times + 0 " times docs/FORMAT.md, a section " named + 0 " times and its words " said + 0 " times, as they stand there"
    exit wrong > 0
}

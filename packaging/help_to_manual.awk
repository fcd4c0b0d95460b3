# Makes a page of the manual of what a helper prints for --help, whose lines man fills: `usage: ..`, paragraphs, options (two
# blanks and `--`, the text after two blanks or more), items (two blanks and `-`), and `status: ..`.
function escaped(text,    bold) {
    gsub(/\\/, "\\e", text)
    gsub(/-/, "\\-", text)
    while (match(text, /`[^`]*`/)) {
        bold = substr(text, RSTART + 1, RLENGTH - 2)
        text = substr(text, 1, RSTART - 1) "\\fB" bold "\\fP" substr(text, RSTART + RLENGTH)
    }
    return text ~ /^[.']/ ? "\\&" text : text
}

NR == 1 {
    sub(/^usage: /, "")
    printf ".TH %s 8 \"\" \"nscagate %s\"\n.SH NAME\n%s \\- %s\n.SH SYNOPSIS\n%s\n.SH DESCRIPTION\n",
        name, version, name, escaped(about), escaped($0)
    next
}
/^$/ { kind = "end"; next }
/^  --/ {
    sub(/^  /, "")
    place = index($0, "  ")
    print ".TP\n.B " escaped(place ? substr($0, 1, place - 1) : $0)
    rest = place ? substr($0, place) : ""
    sub(/^ +/, "", rest)
    if (rest != "") print escaped(rest)
    kind = "option"
    next
}
/^  - / {
    print ".IP \\- 2\n" escaped(substr($0, 5))
    kind = "item"
    next
}
/^status: / {
    sub(/^status: /, "")
    print ".SH EXIT STATUS"
    kind = "paragraph"
}
{
    if ((kind == "end" && begun) || (kind == "item" && $0 !~ /^ /)) print ".PP"
    begun = 1
    if (kind != "option" && kind != "item" || $0 !~ /^ /) kind = "paragraph"
    sub(/^ +/, "")
    print escaped($0)
}
END { print ".SH SEE ALSO\n.BR nscagate (8)" }

# Writes a cell of a table as an argument of printf '%b'.
# In a cell \n, \r, \t and \\ stand for LF, CR, tab and backslash, and \x with two hexadecimal digits for that byte.
# {N*TEXT} stands for TEXT N times; each # in TEXT is the number of the repetition, from 1.
# Reads the cell from the variable CELL of the environment.

function octal(digits,    value) {
    value = 16 * (index("0123456789abcdef", substr(digits, 1, 1)) - 1)
    return sprintf("\\0%03o", value + index("0123456789abcdef", substr(digits, 2, 1)) - 1)
}

# The text with each byte written in hexadecimal turned to octal, which is what printf reads.
function escapes(text,    done, at, next_one) {
    done = ""
    while ((at = index(text, "\\")) > 0) {
        next_one = substr(text, at + 1, 1)
        done = done substr(text, 1, at - 1)
        if (next_one == "x") {
            done = done octal(substr(text, at + 2, 2))
            text = substr(text, at + 4)
        } else {
            done = done "\\" next_one
            text = substr(text, at + 2)
        }
    }
    return done text
}

function write_times(count, text,    has_number, number, numbered) {
    has_number = index(text, "#") > 0
    for (number = 1; number <= count; number++) {
        numbered = text
        if (has_number) gsub(/#/, number, numbered)
        printf "%s", numbered
    }
}

BEGIN {
    cell = ENVIRON["CELL"]
    while (match(cell, /[{][0-9]+[*][^}]*[}]/)) {
        printf "%s", escapes(substr(cell, 1, RSTART - 1))
        repeated = substr(cell, RSTART + 1, RLENGTH - 2)
        cell = substr(cell, RSTART + RLENGTH)
        write_times(repeated + 0, escapes(substr(repeated, index(repeated, "*") + 1)))
    }
    printf "%s", escapes(cell)
}

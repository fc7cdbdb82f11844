# Prints each line of Rattle (.rt) and antt (.antt) files as FILE:LINE, a tab and its code.
# Comments are left out, also those that reach over lines or stand in one another.

# What begins a comment, or a text in which nothing begins one. In antt a name may hold `--`, so there it begins a
# comment only where a name could begin.
FNR == 1 {
    depth = 0
    if (FILENAME ~ /\.antt$/) {
        opener = "{-"
        first = "\"([^\"\\\\]|\\\\.)*\"|(^|[ (){}.;,@])--|[{]-"
        bounds = "[{]-|-[}]"
    } else {
        opener = "/*"
        first = "b'(\\\\.|[^\\\\'])'|\"([^\"\\\\]|\\\\.)*\"|//|/[*]"
        bounds = "/[*]|[*]/"
    }
}

# The code of the line `rest`; `depth` is how many comments are open.
function code(rest,    kept, found) {
    kept = ""
    while (match(rest, depth ? bounds : first)) {
        found = substr(rest, RSTART, RLENGTH)
        if (depth) depth += found == opener ? 1 : -1
        else {
            kept = kept substr(rest, 1, RSTART - 1)
            if (found == opener) depth = 1
            else if (found ~ /["']$/) kept = kept found
            else return kept substr(found, 1, RLENGTH - 2)
        }
        rest = substr(rest, RSTART + RLENGTH)
    }
    return depth ? kept : kept rest
}

{
    text = code($0)
    sub(/[ \t\r]+$/, "", text)
    print FILENAME ":" FNR "\t" text
}

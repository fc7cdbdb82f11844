# Finds what gives ≡ < ≤ + * or `length` a meaning of its own, in specs/ or in a `ghost use` of src/.
# Reads the lines of tools/code.awk, and prints FILE:LINE and the fault.

# The modules that each symbol comes from: the words of every clause, the lemmas beside them, and what both hand on.
BEGIN {
    FS = "\t"
    both = " Rattle.std.specs.Prelude Rattle.std.proofs.Common "
    home["◌≡◌"] = both "mathlib.Core.Path Rattle.std.proofs.Math.Path "
    home["◌<◌"] = home["◌≤◌"] = home["◌+◌"] = home["◌*◌"] = both "Prim.Native.Nat "
    home["length"] = both "lib.ListN Rattle.std.proofs.Math.ListN "
}

# Prints a fault of the line at hand.
function fault(what) { print $1 ": " what }

# Whether word i is given a type: a colon follows it behind other names or behind levels in braces.
function typed(i) {
    i++
    if (word[i] == "{") {
        while (i <= words && word[i] != "}") i++
        i++
    } else while (i <= words && word[i] !~ /^([(){};,=:|]|→|λ|in|let|where|do)$/) i++
    return i <= words && word[i] == ":"
}

# Looks at an item of `use MODULE.{ITEM, ITEM}`; a path in the item leads on from the module.
function imported(item,    module, name) {
    module = path "." item
    name = item
    sub(/^.*[.]/, "", name)
    sub(/[.][^.]*$/, "", module)
    if (name in home && !index(home[name], " " module " ")) fault("`" name "` is brought in from " module)
}

# Splits the line into words; an escaped name is the name.
{
    line = $2
    gsub(/«|»/, "", line)
    gsub(/[(){};,]/, " & ", line)
    words = split(line, word, " ")
    spec = $1 ~ /^crates\/[^\/]*\/specs\//
    if (!spec && !using && line !~ /^ *ghost use /) next
}

# `before` is the word before word i, also over the end of a line; `using` holds in the braces of a `use` line.
{
    opened = 0
    for (i = 1; i <= words; before = word[i++]) {
        if (word[i] == "use") {
            path = word[i + 1]
            using = path ~ /[.]$/
            sub(/^package[.]/, "", path)
            sub(/[.]$/, "", path)
        } else if (word[i] == "}") using = 0
        else if (word[i] == "using") opened = 1
        else if (before == "as" && word[i] in home) fault("something else is renamed to `" word[i] "`")
        else if (using && before ~ /^[{,]$/ && word[i + 1] != "as") imported(word[i])
        else if (!(word[i] in home) || word[i + 1] == "as") continue
        else if (opened) fault("a field is opened as `" word[i] "`")
        else if (before ~ /^(data|record)$/ || typed(i)) fault("`" word[i] "` is declared")
    }
}

# Where each field of the state begins, from the reading functions of crates/codec/specs: a line "OFFSET SIZE NAME" for each. Codec.antt is
# read first, and then again among all. A part has a file of its own, and its fields have in front the field that holds it: Codec.antt says
# object_dma = object_of b, so what Object.antt reads is OBJECT_DMA_ and its name. A field that is a record of its own has its name in
# front of what it holds, but a countdown's ticks, which have no name.
NR == FNR {
    gsub(/[{};]/, " ")
    n = split($0, word, " ")
    for (i = 2; i < n; i++) if (word[i] == "=" && sub(/_of$/, "", word[i + 1])) holder[word[i + 1]] = word[i - 1]
    next
}
FNR == 1 {
    part = FILENAME
    sub(/.*\//, "", part); sub(/\.antt$/, "", part)
    part = tolower(part)
    part = part in holder ? toupper(holder[part]) "_" : ""
    depth = 0
}
!/(byte_at|flag_at|number_at|bytes_at) b|record \{$|^ *}$/ { next }
/^use/ { next }
{
    gsub(/[();]/, " ")
    n = split($0, word, " ")
    for (i = 1; i <= n; i++) {
        if (word[i + 1] == "=") field = word[i]
        else if (word[i] == "record") { depth++; within[depth] = field }
        else if (word[i] == "}") { field = within[depth]; depth-- }
        else if (word[i] == "latency_of") option = 2
        else if (word[i] ~ /^(byte_at|flag_at)$/) place(word[i + 2], 1)
        else if (word[i] ~ /^(number_at|bytes_at)$/) place(word[i + 2], word[i + 3])
    }
}
function place(at, size) { if (at ~ /^[0-9]+$/) print at, size, part named() }
# a field that may be absent has a tag, then its value
function named(    name, k) {
    for (k = 2; k <= depth; k++) name = name within[k] "_"
    name = field == "0" ? substr(name, 1, length(name) - 1) : name field
    if (option > 0) name = name (option-- == 2 ? "_tag" : "_value")
    return toupper(name)
}

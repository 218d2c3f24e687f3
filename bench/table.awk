# Joins the plugin's counts (region, instructions, pairs) with the program's rows (number|name|bytes|targets) to a table.
# Region 1 is empty: what it counts is the cost of a mark, and is taken off each pair.

function each(row, column,    region) {
    region = 4 * row + column
    return region in pairs ? instructions[region] / pairs[region] - mark : ""
}

function number(value, digits) {
    return value == "" ? "" : sprintf("%." digits "f", value)
}

# Adds a target to the row's text, and notes where the value is above it.
function target(limit, value, text) {
    if (limit == "-" || value == "")
        return
    targets = targets (targets == "" ? "" : ", ") text
    if (value > limit)
        missed = 1
}

FNR == NR {
    instructions[$1] = $2
    pairs[$1] = $3
    if ($1 == 1)
        mark = $2 / $3
    next
}

/^0\|/ {
    printf "%s## %s\n\n", rows ? "\n" : "", substr($0, 3)
    print "| call and input | calls | ours | plain twin | ratio | tuned | ours a byte | target | |"
    print "|---|--:|--:|--:|--:|--:|--:|---|---|"
    next
}

{
    split($0, part, "|")
    split(part[4], limit, " ")
    ours = each(part[1], 1)
    plain = each(part[1], 2)
    calls = pairs[4 * part[1] + 1]
    ratio = ours / plain
    byte = part[3] > 0 ? ours * calls / part[3] : ""
    targets = ""
    missed = 0
    target(limit[1], ratio, limit[1] == 1 ? "twin" : limit[1] " twin")
    target(limit[2], ours, limit[2] " a call")
    target(limit[3], byte, limit[3] " a byte")
    rows++
    above += missed
    printf "| %s | %d | %s | %s | %s | %s | %s | %s | %s |\n", part[2], calls, number(ours, 0), number(plain, 0),
        number(ratio, 2), number(each(part[1], 3), 0), number(byte, 2), targets, missed ? "missed" : "met"
}

END {
    printf "\n%d rows, %d missed.\n", rows, above
}

# Reads the listing of examples/refill and prints the slots that its TBWR have to choose, by arithmetic alone: a line for each with its step,
# page and slot, and the steps in all. A step is an instruction of the listing or a miss, and the slot is 4 + (4 - 4 + n) mod 28, where n steps
# were made before (document 02, job 4; the index is 4 at reset). Which page misses follows from the slots before.
#
#   awk -f slots.awk examples/refill/refill.lst

# Comments begin behind the fields.
{ sub(/ *;.*/, "") }
/^[a-z]+:$/ { place[substr($0, 1, length($0) - 1)] = words }
/^[0-9A-F]/ {
    name[words] = $3
    if ($3 == "BNE")
        branch[$6] = words
    words++
}

# The page's entry by TBWR. A miss, the jump at its entry, and the service up to TBWR stand before it.
function refill(page,    slot) {
    steps += 2 + place["write"] - place["refill"]
    slot = 4 + (4 - 4 + steps) % 28
    printf "%d %05X %d\n", steps + 1, page, slot
    if (slot in held)
        delete where[held[slot]]
    held[slot] = page
    where[page] = slot
    steps += place["stop"] - place["write"]
}

# A word of the program. Its own page is 00000; that of its data, if it has any, comes after it.
function word(at, page) {
    for (;;) {
        if (!(0 in where))
            refill(0)
        else if (name[at] ~ /^(LDW|STW)$/ && !(page in where))
            refill(page)
        else
            break
    }
    steps++
}

function part(first, last, page,    at) {
    for (at = first; at <= last; at++)
        word(at, page)
}

END {
    # To the RFX of boot: the table's loop is made for each of 32 pages.
    steps = 1 + place["refill"] - place["boot"] + 31 * (branch["table"] - place["table"] + 1)
    part(place["program"], place["round"] - 1, 0)
    for (round = 1; round <= 2; round++) {
        part(place["round"], place["touch"] - 1, 0)
        for (page = 1; page <= 32; page++)
            part(place["touch"], branch["touch"], page)
        part(branch["touch"] + 1, branch["round"], 0)
    }
    # TRAP, the jump at its entry, and the first jump to itself.
    print steps + 3, "steps"
}

# Reads the names of the opcodes, then a charged and traced run, whose list of charges has 1000 * i + 7 in entry i. Prints the table of the
# trace as --charge-table has it, by the words and the exceptions of the lines. Fails where a line has another charge, and where the line about
# the steps has another sum.
function check(holds, says) {
    if (!holds) {
        print FILENAME ":" FNR ": " says ": " $0 | "cat >&2"
        failed = 1
    }
}

# The upper six bits of a word.
function opcode_of(word) {
    return 4 * (index("0123456789ABCDEF", substr(word, 1, 1)) - 1) + int((index("0123456789ABCDEF", substr(word, 2, 1)) - 1) / 4)
}

function print_line(name, count, charge) {
    printf "%-9s %20d %20d\n", name, count, charge
}

FNR == NR { name[NR - 1] = $0; next }
/^steps / { line = $0; exit }
{
    entry = $5 == "--" ? opcode_of($3) : 64
    check(index($0 " ", " Charge=" 1000 * entry + 7 " "), "another charge")
    steps[entry]++
    made++
    total += 1000 * entry + 7
}
END {
    check(index(line, "steps " made ",") == 1 && index(line ", ", ", charge " total ", "), "another sum than " total)
    name[64] = "exception"
    printf "%-9s %20s %20s\n", "entry", "steps", "charge"
    for (i = 0; i <= 64; i++)
        if (steps[i])
            print_line(name[i], steps[i], steps[i] * (1000 * i + 7))
    print_line("total", made, total)
    exit failed
}

# Reads a listing such as examples/timer/pusher.lst, twice, and prints each address with the word that its instruction makes. The formats are
# those of the manual's chapter 3; only the instructions that the listings use are known here.
#
#   awk -f assemble.awk LISTING LISTING

function number(text,    i, value) {
    value = 0
    for (i = 1; i <= length(text); i++)
        value = 16 * value + index("0123456789ABCDEF", substr(text, i, 1)) - 1
    return value
}

# A register's number, from R0 to R31 with a comma or not.
function register(text) {
    sub(/^R/, "", text)
    sub(/,$/, "", text)
    return text + 0
}

# The offset of a label in words from the next instruction, in that many bits.
function offset(label, modulus) {
    if (!(label in place))
        fail("no such label: " label)
    return ((place[label] - place[FNR] - 4) / 4 + modulus) % modulus
}

function fail(what) {
    print "assemble: line " FNR ": " what > "/dev/stderr"
    failed = 1
    exit 1
}

BEGIN {
    split("ADD 0 ADDI 1 ANDI 17 ORI 19 XORI 21 SLLI 25 SLRI 27 LDHI 31 BEQ 32 BNE 33 BGEU 39 J 42 TRAP 46 RFX 47 LDW 48 STW 53 STH 54 " \
        "MVFS 56 MVTS 57 TBS 58 TBWR 59", table, " ")
    for (i = 1; i in table; i += 2)
        opcode[table[i]] = table[i + 1]
}
# Comments begin behind the fields.
{ sub(/ *;.*/, "") }
FNR == NR && /^[a-z]+:$/ { waiting = substr($0, 1, length($0) - 1) }
FNR == NR && /^[0-9A-F]/ {
    place[FNR] = number($1)
    if (waiting != "")
        place[waiting] = place[FNR]
    waiting = ""
}
FNR == NR || !/^[0-9A-F]/ { next }
{
    if (!($3 in opcode))
        fail("unknown instruction: " $3)
    word = opcode[$3] * 67108864
    if ($3 == "J")
        word += offset($4, 67108864)
    else if ($3 == "ADD")
        word += register($5) * 2097152 + register($6) * 65536 + register($4) * 2048
    else if ($3 ~ /^B/)
        word += register($4) * 2097152 + register($5) * 65536 + offset($6, 65536)
    else if ($3 ~ /^(LDHI|MVFS|MVTS)$/)
        word += register($4) * 65536 + number($5)
    else if ($3 !~ /^(TRAP|RFX|TBS|TBWR)$/)
        word += register($5) * 2097152 + register($4) * 65536 + number($6)
    printf "%s  %04X%04X\n", $1, int(word / 65536), word % 65536
}
END { exit failed }

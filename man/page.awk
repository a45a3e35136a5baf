# Makes the manual page: reads what eco32 --help prints, then man/eco32.1.in, and prints the latter with the parts of the former in
# the places @SYNOPSIS@, @DESCRIPTION@, @OPTIONS@ and @STATUS@, and the version for @VERSION@.
#
#   awk -v version=VERSION -f man/page.awk HELP man/eco32.1.in
#
# Of the help this is asked: "Usage:" begins it; an option stands behind some blanks, its text behind two more or in the lines below,
# further in; a line before options that ends with a colon is their heading, an empty line before options ends a group; a paragraph that
# begins with "Exit status:" is about that. All other paragraphs before the options describe the program, and those behind them belong
# to the options.

function plain(text) {
    gsub(/\\/, "\\e", text)
    gsub(/-/, "\\-", text)
    if (text ~ /^[.']/)
        text = "\\&" text
    return text
}

# The words of an option: in bold what is typed as it stands, in italics what stands for something else.
function tag(text,    count, words, i, word, rest, end, said) {
    count = split(text, words, " ")
    for (i = 1; i <= count; i++) {
        word = words[i]
        rest = end = ""
        if (word ~ /,$/) {
            end = ","
            sub(/,$/, "", word)
        }
        if (word ~ /^-/ && match(word, /[=\[]/)) {
            rest = substr(word, RSTART)
            word = substr(word, 1, RSTART - 1)
        }
        word = word ~ /^-/ ? "\\fB" plain(word) "\\fR" : "\\fI" plain(word) "\\fR"
        if (rest != "") {
            word = word substr(rest, 1, 1)
            rest = substr(rest, 2)
            word = word "\\fI" plain(rest) "\\fR"
        }
        said = said (i > 1 ? " " : "") word end
    }
    return said
}

function add(part, line) {
    page[part] = page[part] line "\n"
}

function indent(line) {
    match(line, /^ */)
    return RLENGTH
}

function is_option(line) {
    return line ~ /^ +-/ && indent(line) <= 8
}

# The first line below number i that is not empty.
function below(i) {
    for (i++; i <= lines && help[i] == ""; i++)
        ;
    return i <= lines ? help[i] : ""
}

# A paragraph, from line i on; answers the line behind it. Lines further in stay as they are.
function paragraph(part, i,    kept) {
    add(part, ".PP")
    for (; i <= lines && help[i] != "" && !is_option(help[i]); i++) {
        if (indent(help[i]) > 0 && !kept) {
            add(part, ".RS 2\n.nf")
            kept = 1
        } else if (indent(help[i]) == 0 && kept) {
            add(part, ".fi\n.RE\n.PP")
            kept = 0
        }
        add(part, plain(substr(help[i], indent(help[i]) + 1)))
    }
    if (kept)
        add(part, ".fi\n.RE")
    return i
}

# An option, from line i on; answers the line behind it.
function option(i,    line, text, inner) {
    line = text = help[i]
    inner = indent(line)
    sub(/^ +/, "", line)
    sub(/   *.*/, "", line)
    sub(/^ +/, "", text)
    text = substr(text, length(line) + 1)
    sub(/^ +/, "", text)
    add("OPTIONS", ".TP")
    add("OPTIONS", tag(line))
    if (text != "")
        add("OPTIONS", plain(text))
    for (i++; i <= lines && help[i] != "" && indent(help[i]) > inner && !is_option(help[i]); i++)
        add("OPTIONS", plain(substr(help[i], indent(help[i]) + 1)))
    return i
}

function read_help(    i, part, name) {
    part = "DESCRIPTION"
    for (i = 1; i <= lines; ) {
        if (help[i] == "")
            i++
        else if (help[i] ~ /^Usage:/) {
            for (; i <= lines && help[i] != ""; i++) {
                sub(/^(Usage:)? */, "", help[i])
                if (help[i] == "")
                    continue
                name = help[i]
                sub(/ .*/, "", name)
                add("SYNOPSIS", (page["SYNOPSIS"] != "" ? ".br\n" : "") "\\fB" plain(name) "\\fR" plain(substr(help[i], length(name) + 1)))
            }
        } else if (is_option(help[i])) {
            if (part == "OPTIONS" && help[i - 1] == "")
                add(part, ".SS Further options")
            part = "OPTIONS"
            i = option(i)
        } else if (help[i] ~ /^[^ ].*:$/ && is_option(below(i))) {
            part = "OPTIONS"
            add(part, ".SS " plain(substr(help[i], 1, length(help[i]) - 1)))
            while (help[++i] == "")
                ;
            i = option(i)
        } else if (sub(/^Exit status: */, "The exit status is ", help[i]))
            i = paragraph("STATUS", i)
        else
            i = paragraph(part, i)
    }
}

FNR == NR { help[++lines] = $0; next }
FNR == 1 { read_help() }
/^@[A-Z]+@$/ {
    part = substr($0, 2, length($0) - 2)
    if (page[part] == "") {
        print "page.awk: the help has no part for " part | "cat >&2"
        failed = 1
    }
    text = page[part]
    if (part != "OPTIONS")
        sub(/^\.PP\n/, "", text)
    printf "%s", text
    next
}
{
    gsub(/@VERSION@/, version)
    print
}
END { exit failed }

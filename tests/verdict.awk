# What pdbmaster has to print for the file on standard input, by document 02, sharing nothing with the port. Run with LC_ALL=C, so that a character
# is a byte; size says how many bytes the file has, for the last line tells itself by no LF, and is no line if it has no byte.
#
#     LC_ALL=C awk -v size=BYTES -f tests/verdict.awk < FILE
BEGIN {
    split("REMARK HET HELIX SHEET TURN SITE ORIGX+SCALE+MTRIX ATOM+HETATM TER CONECT SEQRES", shown, " ")
    split("REMARK,HET   ,HELIX ,SHEET ,TURN  ,SITE  ,ORIGX1 ORIGX2 ORIGX3 SCALE1 SCALE2 SCALE3 MTRIX1 MTRIX2 MTRIX3,ATOM   HETATM,TER   ,CONECT,SEQRES", names, ",")
    for (i = 1; i <= 11; i++)
        for (j = 1; j <= length(names[i]); j += 7)
            counts[substr(names[i], j, 6)] = i
    for (i = 0; i < 128; i++)
        low[sprintf("%c", i)] = 1
    place = 0
    masters = 0
}

# The line before is known to have an LF once another follows.
NR > 1 { line(held, 1) }
{ held = $0 }
END {
    if (NR > 0) line(held, place + length(held) < size)
    if (masters == 0) refuse(10, 0, 0, "there is no MASTER line")
    else if (masters > 1) refuse(11, second, second_length, "there is more than one MASTER line")
    else if (!readable) refuse(12, first, first_length, "the MASTER line can't be read")
    else tell()
}

function line(text, ended,    name, whole) {
    whole = length(text) + ended
    if (ended) sub(/\r$/, "", text)
    name = substr(text "      ", 1, 6)
    if (length(text) >= 3 && name in counts) counted[counts[name]]++
    if (name == "MASTER" && length(text) >= 6) {
        masters++
        if (masters == 1) { first = place; first_length = length(text); readable = master(text) }
        if (masters == 2) { second = place; second_length = length(text) }
    }
    place += whole
}

# Twelve numbers of five columns each, from the eleventh on.
function master(text,    i, cell) {
    if (length(text) < 70 || length(text) > 1024) return 0
    for (i = 1; i <= length(text); i++)
        if (!(substr(text, i, 1) in low)) return 0
    for (i = 0; i < 12; i++) {
        cell = substr(text, 11 + 5 * i, 5)
        gsub(/^[ \t\n\v\f\r]+|[ \t\n\v\f\r]+$/, "", cell)
        if (cell !~ /^[+]?[0-9]+$/) return 0
        sub(/^[+]/, "", cell)
        said[i] = cell + 0
    }
    return 1
}

function refuse(number, at, many, why) {
    printf "refusal=%.0f,%.0f,%.0f\n%s\n", number, at, many, why
}

function row(name, a, b) {
    printf "%s: %.0f counted, %.0f said, %s\n", name, a, b, a == b ? "same" : "differs"
    if (a != b) differs = 1
    if (a < b && name != "second number") missing = 1
}

function tell(    i) {
    row(shown[1], counted[1] + 0, said[0])
    row("second number", 0, said[1])
    for (i = 2; i <= 11; i++) row(shown[i], counted[i] + 0, said[i])
    print missing ? "lines are missing" : differs ? "no lines are missing, but MASTER says other numbers" : "no lines are missing"
}

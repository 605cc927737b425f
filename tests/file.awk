# Draws a file with a MASTER line that says nearly what is in it, and then takes lines out, doubles them and cuts them; sometimes there is no MASTER
# line, or a second one. The same seed gives the same file.
#
#     LC_ALL=C awk -v seed=SEED -v lines=MOST -f tests/file.awk < /dev/null
function draw(end) {
    seed = seed * 16807 % 2147483647
    return int(seed / 2147483647 * end)
}

# A line, as it is, twice, cut, or not at all.
function put(text,    what) {
    what = draw(40)
    if (what == 0) return
    if (what == 1) printf "%s%s", text, draw(3) ? "\n" : "\r\n"
    if (what == 2) text = substr(text, 1, draw(length(text) + 1))
    printf "%s%s", text, draw(3) ? "\n" : "\r\n"
}

function noise(many,    text) {
    while (many-- > 0) text = text sprintf("%c", draw(30) ? 32 + draw(95) : draw(2) ? 128 + draw(128) : 13)
    return text
}

# Twelve numbers, each off by one in eight cases.
function master(    text, i, n) {
    text = "MASTER    "
    for (i = 0; i < 12; i++) {
        n = i == 1 ? 0 : said[i] + 0
        if (draw(12) == 0) n += draw(2) ? 1 : n > 0 ? -1 : 0
        text = text sprintf(draw(20) ? "%5d" : "%-5d", n % 100000)
    }
    if (draw(10) == 0) text = substr(text, 1, 6 + draw(65))
    if (draw(12) == 0) text = text noise(draw(4) ? draw(20) : 900 + draw(200))
    return text
}

BEGIN {
    for (i = 0; i < 20; i++) draw(2)
    many = split("REMARK=0 HET=2 HELIX=3 SHEET=4 TURN=5 SITE=6 ORIGX1=7 ORIGX3=7 SCALE2=7 MTRIX1=7 ATOM=8 HETATM=8 ATOM=8 TER=9 CONECT=10 SEQRES=11 HETNAM=1 ENDMDL=1 TERX=1 SCALE4=1 MASTEr=1 remark=1", kinds, " ")
    n = draw(lines + 1)
    for (i = 0; i < n; i++) {
        split(kinds[1 + draw(many)], kind, "=")
        said[kind[2]]++
        text[i] = sprintf("%-6s", kind[1]) noise(draw(8) ? draw(75) : draw(30) ? 0 : 2000 + draw(3000))
        if (length(kind[1]) < 6 && draw(20) == 0) text[i] = kind[1]
    }
    at = draw(n + 1)
    for (i = 0; i <= n; i++) {
        if (i == at && draw(12)) put(master())
        if (i < n) put(text[i])
        if (i == n - 1 && draw(10) == 0) put(master())
    }
    if (draw(3) == 0) printf "%s", draw(2) ? "TER" : "MASTER\r"
}

# Draws a trace as a ladder of the two ports of one link.
#
# usage: rio replay < SCRIPT | awk [-v left=PORT -v right=PORT] [-v wide=COLUMNS] \
#            -f examples/ladder.awk -f examples/names.awk
#
# Without ports they are those of the first 'sent' and of the first 'got' of another port. An
# arrow is what a port sent. If it was changed on its way, the other port says what it got. An
# edit is shown as its line of the script.

BEGIN { if (!wide) wide = 60 }

$1 == "sent" && left == "" { left = $2 }
$1 == "got" && right == "" && $2 != left { right = $2 }
{ line[NR] = $0; next }

END {
    row(left, "", right)
    for (number = 1; number <= NR; number++) {
        $0 = line[number]
        draw()
    }
}

function row(one, text, other) {
    text = sprintf("%7s |%-" wide "s| %s", one, substr(text, 1, wide), other)
    sub(/ +$/, "", text)
    print text
}

function beside(port, text) { row(port == left ? text : "", "", port == left ? "" : text) }

function within(port, text) {
    row("", port == left ? " " text : sprintf("%" (wide - 1) "s", text), "")
}

function draw() {
    if ($1 == ">" && ($3 == left || $3 == right)) edit($2, $3, line[number + 1] == "short")
    if ($1 == "take" || $1 == "leave") $2 = $2 ".0"
    if ($2 != left && $2 != right) return
    if ($1 == "sent") send($2, short_words(), "")
    else if ($1 == "got") get($2, $2 == left ? right : left)
    else if ($1 != ">") beside($2, $1)
}

function characters(    at, text) {
    for (at = 3; at <= NF; at++) text = text " " $at
    return text
}

function send(port, text, dashes,    room) {
    room = wide - 8
    if (length(text) > room) text = substr(text, 1, room - 2) ".."
    while (length(text dashes) < room) dashes = dashes "-"
    row("", port == left ? "--- " text " " dashes "-->" : "<-- " text " " dashes "---", "")
    wire[port] = wire[port] characters()
}

# A character of a wire takes four places: a space and three letters.
function edit(kind, port, is_short,    before, after) {
    if (kind !~ /^(alter|insert|erase)$/) return
    within(port, $0 (is_short ? ": too short" : ""))
    if (is_short) return
    before = substr(wire[port], 1, 4 * $4)
    after = substr(wire[port], 4 * $4 + 1)
    if (kind == "erase") wire[port] = before substr(after, 4 * $5 + 1)
    else wire[port] = before " " $5 (kind == "insert" ? after : substr(after, 5))
    changed[port] = wire[port] != ""
}

# what came of the wire of a port
function get(port, from,    came) {
    came = characters()
    if (changed[from]) within(port, "got " short_words())
    changed[from] = 0
    wire[from] = substr(wire[from], length(came) + 1)
}

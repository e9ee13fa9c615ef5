# Counts what each port did in a trace, and what is left in the fabric at its end.
#
# usage: rio replay < SCRIPT | awk -f examples/count.awk
#
# 'to send' has the packets that wait at a port and those that were not acknowledged yet; of these
# the next port may hold a copy already. 'received' has those that it holds.

function port_of(node) {
    if (!(node in met)) { met[node] = 1; order[++ports] = node }
    return node
}

function count_symbols(port,    at, one, two) {
    for (at = 3; at <= NF; at++)
        if ($at == "k1c" || $at == "k7c") {
            one = index("0123456789abcdef", substr($(at + 1), 2, 1)) - 1
            two = index("0123456789abcdef", substr($(at + 2), 3, 1)) - 1
            packets[port] += two % 8 == 0
            requests[port] += two % 8 == 4
            retries[port] += int(one / 2) == 1
            refused[port] += int(one / 2) == 2
        }
}

$1 == "take" { waiting[port_of($2 ".0")]++; taken++ }
$1 == "sent" { characters[port_of($2)] += NF - 2; count_symbols($2) }
$1 == "hold" { held[port_of($2)]++ }
$1 == "free" { waiting[port_of($2)]-- }
$1 == "fire" { fired[port_of($2)]++ }
$1 == "move" { held[port_of($2)]--; waiting[port_of($3)]++ }
$1 == "drop" { held[port_of($2)]--; dropped++ }
$1 == "answer" { held[port_of($2)]--; waiting[$2]++; answered++ }
$1 == "leave" { held[port_of($2 ".0")]--; gone++ }
{ last = $0 }

END {
    form = "%-11s %10s %7s %7s %7s %8s %9s %7s %8s\n"
    printf form, "port", "characters", "packets", "retries", "refused", "requests", "time-outs", \
        "to send", "received"
    for (at = 1; at <= ports; at++) {
        p = order[at]
        printf form, p, characters[p] + 0, packets[p] + 0, retries[p] + 0, refused[p] + 0, \
            requests[p] + 0, fired[p] + 0, waiting[p] + 0, held[p] + 0
    }
    # an answer ends one packet and makes another
    print taken + 0 " taken, " answered + 0 " answered, " gone + 0 " gone, " \
        dropped + 0 " dropped, " taken - gone - dropped " still there; " last
}

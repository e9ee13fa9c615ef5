# Puts words after the lines that rio decode or rio replay writes.
#
# usage: rio decode < CHARACTERS | awk -f examples/names.awk
#        rio replay < SCRIPT | awk [-v brief=1] -f examples/names.awk
#
# With brief=1 a trace has its events, one line for each packet or symbol that was sent, and what
# became of packets at their ends, all in words alone.
#
# IDs and ackIDs are decimal, as in scripts; data and registers are hexadecimal. A response has
# the name of its register if its request was seen. Zeros at the end of a packet are taken for its
# pad.

BEGIN {
    for (at = 0; at < 256; at++) value[sprintf("%02x", at)] = at
    # by stype0 and by stype1, each less 1
    split("packet-accepted packet-retry packet-not-accepted reserved status reserved " \
        "link-response reserved", senders)
    split("start-of-packet stomp end-of-packet restart-from-retry link-request " \
        "multicast-event reserved NOP", receivers)
    causes[1] = "unexpected ackID"; causes[2] = "bad symbol"; causes[3] = "not accepting"
    causes[4] = "bad packet"; causes[5] = "bad character"; causes[31] = "general error"
    statuses[2] = "error"; statuses[4] = "retry-stopped"; statuses[5] = "error-stopped"
    statuses[16] = "OK"
    commands[3] = "reset-device"; commands[4] = "input-status"
    split("read write read-response write-response port-write", types)
    registers["000000"] = "identity"; registers["00000c"] = "assembly information"
    registers["000010"] = "features"; registers["000014"] = "switch port information"
    registers["000034"] = "route limit"; registers["000060"] = "base device ID"
    registers["000068"] = "host lock"; registers["00006c"] = "component tag"
    registers["000070"] = "route destination"; registers["000074"] = "route port"
    registers["000078"] = "default port"
}

# byte N of a packet, counted from 0
function byte(hex, n) { return value[substr(hex, 2 * n + 1, 2)] }

function named(list, number) { return number in list ? list[number] : "reserved " number }

function buffers(number) {
    return number == 31 ? "" : ", " number (number == 30 ? " or more" : "") " free"
}

function sender_words(s0, p0, p1) {
    if (s0 < 2) return senders[s0 + 1] " " p0 buffers(p1)
    if (s0 == 2) return senders[3] ", " named(causes, p1) ", expects " p0
    if (s0 == 4) return "expects " p0 buffers(p1)
    if (s0 == 6) return senders[7] ", " named(statuses, p1) ", expects " p0
    return "reserved stype0 " s0
}

function symbol_words(s0, p0, p1, s1, cmd,    sender, receiver) {
    sender = sender_words(s0, p0, p1)
    if (s1 == 7) return (s0 == 4 ? "status, " : "") sender
    receiver = receivers[s1 + 1] (s1 == 4 ? " " named(commands, cmd) : "")
    return receiver (s0 == 4 ? ", " : ", and ") sender
}

function register(offset,    far) {
    if (offset in registers) return registers[offset]
    far = byte(offset, 1) * 256 + byte(offset, 2) - 344
    if (byte(offset, 0) == 0 && far >= 0 && far % 32 == 0 && far < 512)
        return "status of port " far / 32
    return "register " offset
}

# how many bytes each device ID has, of a packet of transport type 0 or 1
function width(hex) { return int(byte(hex, 1) / 16) % 4 + 1 }

# the device ID that begins at a byte
function id_at(hex, at) { return width(hex) == 2 ? 256 * byte(hex, at) + byte(hex, at + 1) : byte(hex, at) }
function dest_of(hex) { return id_at(hex, 2) }
function source_of(hex) { return id_at(hex, 2 + width(hex)) }

# the bytes behind the IDs
function behind_ids(hex) { return substr(hex, 4 * width(hex) + 5) }

# the word of eight bytes of data that an offset names
function word_at(rest, offset) { return substr(rest, byte(offset, 2) % 8 < 4 ? 13 : 21, 8) }

# whether a request is to read four bytes (0) or to write them (1), by its size and its length
function is_of_four(hex, rest, type) {
    return byte(rest, 0) % 16 == 8 && length(hex) == 16 + 8 * width(hex) + 16 * type
}

# whether a response is of a known form: a read with status 0 and two words, or with status 7 and no data, or a write
# with status 0 or 7 and no data
function is_response(hex, rest, type,    status, short) {
    status = byte(rest, 0) % 16
    short = width(hex) == 2 ? 32 : 24
    if (type == 2 && status == 0) return length(hex) == short + 16
    return length(hex) == short && (status == 7 || type == 3 && status == 0)
}

function maintenance_words(hex,    rest, type, tid, key, offset) {
    rest = behind_ids(hex)
    type = int(byte(rest, 0) / 16)
    tid = byte(rest, 1)
    if (type > 4) return "reserved maintenance type " type
    if (type > 3) return types[5]
    if (type < 2) {
        offset = substr(rest, 7, 6)
        asked[width(hex) " " source_of(hex) " " tid] = offset
        return types[type + 1] " " tid " hop " byte(rest, 2) ", " register(offset) \
            (!is_of_four(hex, rest, type) ? ", not of four bytes" : type ? " = " word_at(rest, offset) : "")
    }
    if (!is_response(hex, rest, type)) return types[type + 1] " of another form"
    if (byte(rest, 0) % 16) return types[type + 1] " " tid ", error " byte(rest, 0) % 16
    if (type == 3) return types[4] " " tid ", done"
    key = width(hex) " " dest_of(hex) " " tid
    if (key in asked)
        return types[3] " " tid ", " register(asked[key]) " = " word_at(rest, asked[key])
    return types[3] " " tid ", " substr(rest, 13, 8) " " substr(rest, 21, 8)
}

# the data of a packet, without its CRCs and pad
function data_words(hex,    text) {
    text = substr(hex, 1, length(hex) - (hex ~ /0000$/ ? 8 : 4))
    if (length(text) > 160) text = substr(text, 1, 160) substr(text, 165)
    text = behind_ids(text)
    if (length(text) > 32) return length(text) / 2 " bytes " substr(text, 1, 16) ".."
    return text == "" ? "no data" : text
}

function packet_words(hex,    text) {
    text = "priority " int(byte(hex, 1) / 64)
    if (width(hex) > 2) return text ", IDs of another width"
    text = source_of(hex) " to " dest_of(hex) (width(hex) == 2 ? " with 16-bit IDs, " : ", ") text ", "
    if (byte(hex, 1) % 16 == 8) return text maintenance_words(hex)
    return text "type " byte(hex, 1) % 16 ", " data_words(hex)
}

function sent_packet_words(hex) { return "packet " int(byte(hex, 0) / 8) ": " packet_words(hex) }

# the words of the characters that the line has from one field on, as a list; how many there are
function character_words(from,    at, count, hex) {
    for (at = from; at <= NF; at++)
        if ($at ~ /^d/) hex = hex substr($at, 2)
        else {
            if (hex != "") list[++count] = length(hex) < 16 ? "data " hex : sent_packet_words(hex)
            hex = ""
            if (($at == "k1c" || $at == "k7c") && at + 3 <= NF) {
                list[++count] = spelt_words($(at + 1), $(at + 2), $(at + 3))
                at += 3
            } else list[++count] = $at
        }
    if (hex != "") list[++count] = "data " hex
    return count + 0
}

# the words of the symbol with these three characters
function spelt_words(one, two, three,    a, b, c) {
    a = value[substr(one, 2)]; b = value[substr(two, 2)]; c = value[substr(three, 2)]
    return symbol_words(int(a / 32), a % 32, int(b / 8), b % 8, int(c / 32))
}

function line_of_list(count,    at, text) {
    for (at = 1; at <= count; at++) text = text (at > 1 ? "; " : "") list[at]
    return text
}

# the words of a line's characters: of a packet alone, without the symbols around it
function short_words(    count, at, text) {
    count = character_words(3)
    for (at = 1; at <= count; at++)
        if (list[at] !~ /^(start|end)-of-packet, expects/) {
            sub(/^restart-from-retry.*/, "restart-from-retry", list[at])
            sub(/^link-request input-status.*/, "link-request input-status", list[at])
            text = text (text == "" ? "" : "; ") list[at]
        }
    return text
}

brief && $1 == "sent" { print "  " $2 ": " short_words(); next }
brief && ($1 == "drop" || $1 == "leave") { print "  " $1 " " $2 ": " packet_words($3); next }
brief && $1 == "answer" { print "  " $1 " " $2 ": " packet_words($4); next }
brief && $1 == "fire" { print "  " $0; next }
brief && $1 ~ /^(got|take|hold|free|move)$/ { next }

$2 == "symbol" { print $0 "  # " symbol_words($3, $4, $5, $6, $7); next }
$2 == "packet" { print $0 "  # ackID " $3 ", " packet_words($4); next }
$2 == "bad" { print $0 "  # " causes[$3]; next }
$1 == "sent" || $1 == "got" { print $0 "  # " line_of_list(character_words(3)); next }
$1 ~ /^(take|hold|free|drop|leave)$/ { print $0 "  # " packet_words($3); next }
$1 == "move" { print $0 "  # " packet_words($4); next }
$1 == "answer" { print $0 "  # " packet_words($3) " -> " packet_words($4); next }
$1 == "undetected" && $4 == "symbol" { print $0 "  # " symbol_words($5, $6, $7, $8, $9); next }
$1 == "undetected" { print $0 "  # " packet_words($6); next }
{ print }

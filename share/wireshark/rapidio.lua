-- A dissector of RapidIO packets for Wireshark 4: the link form of the RapidIO Interconnect
-- Specification 1.3, Part 6, with what Part 1 (input/output), Part 2 (messages) and Part 3 (IDs of
-- 8 and of 16 bits) have in it.
--
-- usage: tshark -X lua_script:share/wireshark/rapidio.lua -r FILE.pcapng
--        or a copy of this file in Wireshark's folder of plugins
--
-- It takes frames of the link type USER0 (147): the bytes of a packet with its CRCs and its pad. The
-- ackID may be 0: the CRC does not cover it. Of the link type USER1 (148) it takes what 'rio_view
-- packets' writes: a byte of the kind, one that says how long the words of what happened are, the
-- words, and then such a packet (kind 0) or the bytes of the four characters of a control symbol
-- (kind 1).

local rapidio = Proto("rapidio", "RapidIO")

local ftypes = {
  [2] = "request", [5] = "write", [6] = "streaming write", [7] = "flow control",
  [8] = "maintenance", [10] = "doorbell", [11] = "message", [13] = "response",
}
local widths = { [0] = "IDs of 8 bits", [1] = "IDs of 16 bits" }
local request_types = {
  [4] = "NREAD", [12] = "ATOMIC increment", [13] = "ATOMIC decrement", [14] = "ATOMIC set",
  [15] = "ATOMIC clear",
}
local write_types = {
  [4] = "NWRITE", [5] = "NWRITE_R", [12] = "ATOMIC swap", [13] = "ATOMIC compare-and-swap",
  [14] = "ATOMIC test-and-swap",
}
local maintenance_types = {
  [0] = "read request", [1] = "write request", [2] = "read response", [3] = "write response",
  [4] = "port-write",
}
local response_types = { [0] = "response", [1] = "message response", [8] = "response with data" }
local statuses = { [0] = "done", [3] = "retry", [5] = "retry with data", [7] = "error" }
local checks = { [0] = "bad", [1] = "good" }

-- The names of registers, by their offsets.
local registers = {
  [0x000000] = "identity", [0x000004] = "device information", [0x000008] = "assembly identity",
  [0x00000c] = "assembly information", [0x000010] = "features",
  [0x000014] = "switch port information", [0x000018] = "source operations",
  [0x00001c] = "destination operations", [0x000034] = "route limit",
  [0x00004c] = "logical layer control", [0x000058] = "local configuration space base 0",
  [0x00005c] = "local configuration space base 1", [0x000060] = "base device ID",
  [0x000068] = "host lock", [0x00006c] = "component tag",
  [0x000070] = "route destination select", [0x000074] = "route port select",
  [0x000078] = "default port",
}

local fields = {
  ack = ProtoField.uint8("rapidio.ack", "ackID", base.DEC, nil, 0xf8),
  reserved = ProtoField.uint8("rapidio.reserved", "Reserved", base.DEC, nil, 0x04),
  carried = ProtoField.uint8("rapidio.carried", "Carried", base.DEC, nil, 0x03),
  prio = ProtoField.uint8("rapidio.prio", "Priority", base.DEC, nil, 0xc0),
  tt = ProtoField.uint8("rapidio.tt", "Transport type", base.DEC, widths, 0x30),
  ftype = ProtoField.uint8("rapidio.ftype", "Format type", base.DEC, ftypes, 0x0f),
  dest = ProtoField.uint16("rapidio.dest", "Destination ID"),
  source = ProtoField.uint16("rapidio.source", "Source ID"),
  request_type = ProtoField.uint8("rapidio.request.type", "Transaction type", base.DEC,
    request_types, 0xf0),
  write_type = ProtoField.uint8("rapidio.write.type", "Transaction type", base.DEC, write_types,
    0xf0),
  maintenance_type = ProtoField.uint8("rapidio.maintenance.type", "Transaction type", base.DEC,
    maintenance_types, 0xf0),
  response_type = ProtoField.uint8("rapidio.response.type", "Transaction type", base.DEC,
    response_types, 0xf0),
  size = ProtoField.uint8("rapidio.size", "Size", base.DEC, nil, 0x0f),
  bytes = ProtoField.uint16("rapidio.bytes", "Bytes that are asked for"),
  status = ProtoField.uint8("rapidio.status", "Status", base.DEC, statuses, 0x0f),
  tid = ProtoField.uint8("rapidio.tid", "Transaction number"),
  hop = ProtoField.uint8("rapidio.hop", "Hop count"),
  offset = ProtoField.uint24("rapidio.offset", "Offset of the register", base.HEX),
  double = ProtoField.uint24("rapidio.double", "Offset of the double-word", base.HEX, nil,
    0xfffff8),
  wdptr = ProtoField.uint24("rapidio.wdptr", "Word pointer", base.DEC, nil, 0x000004),
  register = ProtoField.string("rapidio.register", "Register"),
  value = ProtoField.uint32("rapidio.value", "Value", base.HEX),
  address = ProtoField.uint64("rapidio.address", "Address", base.HEX),
  address_wdptr = ProtoField.uint32("rapidio.address.wdptr", "Word pointer", base.DEC, nil,
    0x00000004),
  xamsbs = ProtoField.uint32("rapidio.address.xamsbs", "Highest address bits", base.DEC, nil,
    0x00000003),
  info = ProtoField.uint16("rapidio.doorbell.info", "Information", base.HEX),
  length = ProtoField.uint8("rapidio.message.length", "Packets less 1", base.DEC, nil, 0xf0),
  segment_size = ProtoField.uint8("rapidio.message.size", "Size of a packet", base.DEC, nil, 0x0f),
  letter = ProtoField.uint8("rapidio.message.letter", "Letter", base.DEC, nil, 0xc0),
  mailbox = ProtoField.uint8("rapidio.message.mailbox", "Mailbox", base.DEC, nil, 0x30),
  segment = ProtoField.uint8("rapidio.message.segment", "Packet, or more of the mailbox", base.DEC,
    nil, 0x0f),
  data = ProtoField.bytes("rapidio.data", "Data"),
  first_crc = ProtoField.uint16("rapidio.crc.first", "CRC of the first 80 bytes", base.HEX),
  crc = ProtoField.uint16("rapidio.crc", "CRC", base.HEX),
  check = ProtoField.uint8("rapidio.crc.status", "CRC status", base.DEC, checks),
  pad = ProtoField.uint16("rapidio.pad", "Pad", base.HEX),
  request_in = ProtoField.framenum("rapidio.request_in", "Request in frame", base.NONE),
}
rapidio.fields = fields

local bad_crc = ProtoExpert.new("rapidio.crc.bad", "Bad CRC", expert.group.CHECKSUM,
  expert.severity.ERROR)
local too_short = ProtoExpert.new("rapidio.short", "Too short", expert.group.MALFORMED,
  expert.severity.ERROR)
rapidio.experts = { bad_crc, too_short }

-- What requests asked for, by the size of their IDs, their source, destination and transaction
-- number, and the request of each response, by the numbers of their frames.
local asked, answered

function rapidio.init()
  asked, answered = {}, {}
end

-- The register of the CRC (x^16 + x^12 + x^5 + 1) behind one more byte.
local function crc_step(register, byte)
  register = bit.bxor(register, bit.lshift(byte, 8))
  for _ = 1, 8 do
    local top = bit.band(register, 0x8000)
    register = bit.band(bit.lshift(register, 1), 0xffff)
    if top ~= 0 then register = bit.bxor(register, 0x1021) end
  end
  return register
end

-- The registers behind each byte of a packet, of which the first six bits are taken as 0.
local function crcs(buffer)
  local register, list = 0xffff, {}
  for at = 0, buffer:len() - 1 do
    local byte = buffer(at, 1):uint()
    if at == 0 then byte = bit.band(byte, 3) end
    register = crc_step(register, byte)
    list[at + 1] = register
  end
  return list
end

-- Where the CRC at the end begins, and how long the pad behind it is.
local function tail(buffer, list)
  local count = buffer:len()
  if list[count - 2] == 0 and buffer(count - 2, 2):uint() == 0 then return count - 4, 2 end
  return count - 2, 0
end

-- The body without CRCs, from a place on.
local function body(buffer, from, stop)
  if stop <= 82 or from >= 82 then return buffer(from, math.max(stop - from, 0)):bytes() end
  local bytes = buffer(from, 80 - from):bytes()
  bytes:append(buffer(82, stop - 82):bytes())
  return bytes
end

-- How many bytes a request of this size asks for.
local function bytes_of(size, wdptr)
  local small = { [0] = 1, 1, 1, 1, 2, 3, 2, 5, 4, 6, 7 }
  if size <= 10 then return small[size] end
  local large = {
    [11] = { 8, 16 }, [12] = { 32, 64 }, [13] = { 96, 128 }, [14] = { 160, 192 },
    [15] = { 224, 256 },
  }
  return large[size][wdptr + 1]
end

local function register_name(offset)
  if registers[offset] then return registers[offset] end
  local behind = offset - 0x158
  if behind >= 0 and behind % 0x20 == 0 and behind < 0x200 then
    return string.format("port %d error and status", behind / 0x20)
  end
  return string.format("register %06x", offset)
end

local function hex(number) return string.format("%08x", number) end

-- A maintenance packet: what is put behind the IDs, and what is said of it.
local function maintenance(packet, tree)
  local buffer, at = packet.buffer, packet.at
  local ttype = buffer(at, 1):bitfield(0, 4)
  local tid = buffer(at + 1, 1):uint()
  tree:add(fields.maintenance_type, buffer(at, 1))
  if ttype == 2 or ttype == 3 then
    tree:add(fields.status, buffer(at, 1))
  else
    tree:add(fields.size, buffer(at, 1))
  end
  tree:add(fields.tid, buffer(at + 1, 1))
  tree:add(fields.hop, buffer(at + 2, 1))
  local words = string.format("%s %d, hop %d", maintenance_types[ttype] or "maintenance", tid,
    buffer(at + 2, 1):uint())
  local offset
  if ttype == 0 or ttype == 1 then
    offset = buffer(at + 3, 3):uint()
    tree:add(fields.offset, buffer(at + 3, 3))
    tree:add(fields.double, buffer(at + 3, 3))
    tree:add(fields.wdptr, buffer(at + 3, 3))
    tree:add(fields.bytes, buffer(at, 1),
      bytes_of(buffer(at, 1):bitfield(4, 4), bit.band(bit.rshift(offset, 2), 1)))
    asked[packet.wide .. "/" .. packet.source .. "/" .. packet.dest .. "/" .. tid] =
      { offset = offset, frame = packet.number }
  elseif ttype == 2 or ttype == 3 then
    local status = buffer(at, 1):bitfield(4, 4)
    words = words .. ", " .. (statuses[status] or ("status " .. status))
    local key = packet.wide .. "/" .. packet.dest .. "/" .. packet.source .. "/" .. tid
    if not packet.visited then answered[packet.number] = asked[key] end
    local request = answered[packet.number]
    if request then
      offset = request.offset
      tree:add(fields.request_in, request.frame):set_generated()
    end
  end
  if offset then
    local name = register_name(offset)
    local item = tree:add(fields.register, name)
    item:set_generated()
    words = words .. ", " .. name
    local from = at + 6 + (bit.band(offset, 4) ~= 0 and 4 or 0)
    if packet.stop - (at + 6) == 8 then
      tree:add(fields.value, buffer(from, 4))
      words = words .. " = " .. hex(buffer(from, 4):uint())
    end
  end
  return words, at + 6
end

-- An address of 34 bits, in four bytes: its highest two bits are the last.
local function address(packet, tree, at, has_wdptr)
  local word = packet.buffer(at, 4):uint()
  local low = bit.band(word, 0xfffffff8)
  if low < 0 then low = low + 0x100000000 end
  local high = bit.band(word, 3)
  tree:add(fields.address, packet.buffer(at, 4), UInt64(low % 0x100000000, high))
  if has_wdptr then tree:add(fields.address_wdptr, packet.buffer(at, 4)) end
  tree:add(fields.xamsbs, packet.buffer(at, 4))
  return string.format("%x%08x", high, low)
end

-- A request or a write with a size.
local function memory(field, names)
  return function(packet, tree)
    local buffer, at = packet.buffer, packet.at
    local ttype = buffer(at, 1):bitfield(0, 4)
    local size = buffer(at, 1):bitfield(4, 4)
    local wdptr = bit.band(bit.rshift(buffer(at + 5, 1):uint(), 2), 1)
    tree:add(field, buffer(at, 1))
    tree:add(fields.size, buffer(at, 1))
    tree:add(fields.bytes, buffer(at, 1), bytes_of(size, wdptr))
    tree:add(fields.tid, buffer(at + 1, 1))
    local place = address(packet, tree, at + 2, true)
    return string.format("%s %d, %d bytes at %s", names[ttype] or ("type " .. ttype),
      buffer(at + 1, 1):uint(), bytes_of(size, wdptr), place), at + 6
  end
end

local function streaming(packet, tree)
  return "SWRITE at " .. address(packet, tree, packet.at, false), packet.at + 4
end

local function doorbell(packet, tree)
  local buffer, at = packet.buffer, packet.at
  tree:add(fields.tid, buffer(at + 1, 1))
  tree:add(fields.info, buffer(at + 2, 2))
  return string.format("doorbell %d, %04x", buffer(at + 1, 1):uint(), buffer(at + 2, 2):uint()),
    at + 4
end

local function add_mailbox(tree, range)
  tree:add(fields.letter, range)
  tree:add(fields.mailbox, range)
  tree:add(fields.segment, range)
  return string.format("letter %d, mailbox %d, packet %d", range:bitfield(0, 2),
    range:bitfield(2, 2), range:bitfield(4, 4))
end

local function message(packet, tree)
  local buffer, at = packet.buffer, packet.at
  tree:add(fields.length, buffer(at, 1))
  tree:add(fields.segment_size, buffer(at, 1))
  return "message, " .. add_mailbox(tree, buffer(at + 1, 1)), at + 2
end

local function response(packet, tree)
  local buffer, at = packet.buffer, packet.at
  local ttype = buffer(at, 1):bitfield(0, 4)
  local status = buffer(at, 1):bitfield(4, 4)
  tree:add(fields.response_type, buffer(at, 1))
  tree:add(fields.status, buffer(at, 1))
  local words
  if ttype == 1 then
    words = add_mailbox(tree, buffer(at + 1, 1))
  else
    tree:add(fields.tid, buffer(at + 1, 1))
    words = tostring(buffer(at + 1, 1):uint())
  end
  return string.format("%s %s, %s", response_types[ttype] or "response", words,
    statuses[status] or ("status " .. status)), at + 2
end

-- Each format type: how many bytes it has behind the IDs at the least, and who reads them.
local readers = {
  [2] = { 6, memory(fields.request_type, request_types) },
  [5] = { 6, memory(fields.write_type, write_types) },
  [6] = { 4, streaming },
  [8] = { 6, maintenance },
  [10] = { 4, doorbell },
  [11] = { 2, message },
  [13] = { 2, response },
}

-- The CRCs and the pad; whether the CRCs are good.
local function add_crcs(buffer, tree, list, stop, pad)
  local count, good = buffer:len(), list[buffer:len()] == 0 and buffer:len() % 4 == 0
  if stop > 82 then
    tree:add(fields.first_crc, buffer(80, 2))
    good = good and list[82] == 0
  end
  tree:add(fields.crc, buffer(stop, 2))
  local item = tree:add(fields.check, buffer(stop, 2), good and 1 or 0)
  item:set_generated()
  if not good then item:add_proto_expert_info(bad_crc) end
  if pad > 0 then tree:add(fields.pad, buffer(count - 2, 2)) end
  return good
end

function rapidio.dissector(buffer, pinfo, root)
  pinfo.cols.protocol = "RapidIO"
  local tree = root:add(rapidio, buffer())
  if buffer:len() < 8 then
    tree:add_proto_expert_info(too_short)
    return buffer:len()
  end
  local list = crcs(buffer)
  local stop, pad = tail(buffer, list)
  tree:add(fields.ack, buffer(0, 1))
  tree:add(fields.reserved, buffer(0, 1))
  tree:add(fields.carried, buffer(0, 1))
  tree:add(fields.prio, buffer(1, 1))
  tree:add(fields.tt, buffer(1, 1))
  tree:add(fields.ftype, buffer(1, 1))
  local tt, ftype = buffer(1, 1):bitfield(2, 2), buffer(1, 1):bitfield(4, 4)
  local wide = tt == 1 and 2 or 1
  if 2 + 2 * wide > stop then
    tree:add_proto_expert_info(too_short)
    return buffer:len()
  end
  local dest, source = buffer(2, wide):uint(), buffer(2 + wide, wide):uint()
  tree:add(fields.dest, buffer(2, wide))
  tree:add(fields.source, buffer(2 + wide, wide))
  pinfo.cols.src = tostring(source)
  pinfo.cols.dst = tostring(dest)
  local packet = {
    buffer = buffer, at = 2 + 2 * wide, stop = stop, dest = dest, source = source,
    number = pinfo.number, visited = pinfo.visited, wide = wide,
  }
  local reader = readers[ftype]
  local words, from = ftypes[ftype] or ("type " .. ftype), packet.at
  if reader and packet.at + reader[1] <= stop then words, from = reader[2](packet, tree) end
  if from < stop then
    local bytes = body(buffer, from, stop)
    if bytes:len() > 0 then
      tree:add(fields.data, buffer(from, stop - from), bytes:raw())
      words = words .. ", " .. bytes:len() .. " bytes of data"
    end
  end
  local good = add_crcs(buffer, tree, list, stop, pad)
  pinfo.cols.info = string.format("priority %d, %s%s", buffer(1, 1):bitfield(0, 2), words,
    good and "" or ", bad CRC")
  tree:append_text(string.format(", %d to %d, %s", source, dest, words))
  return buffer:len()
end

-- What happened to a packet, or a control symbol by which a port asks for one again or refuses it.
local event = Proto("rapidio_event", "RapidIO event")

local stype0s = {
  [0] = "packet-accepted", [1] = "packet-retry", [2] = "packet-not-accepted", [4] = "status",
  [6] = "link-response",
}
local causes = {
  [1] = "unexpected ackID", [2] = "bad symbol", [3] = "not accepting", [4] = "bad packet",
  [5] = "bad character", [31] = "general error",
}

local event_fields = {
  what = ProtoField.string("rapidio.event", "What happened"),
  stype0 = ProtoField.uint8("rapidio.symbol.stype0", "stype0", base.DEC, stype0s, 0xe0),
  parameter0 = ProtoField.uint8("rapidio.symbol.parameter0", "parameter0: the ackID", base.DEC, nil,
    0x1f),
  parameter1 = ProtoField.uint8("rapidio.symbol.parameter1", "parameter1", base.DEC, nil, 0xf8),
}
event.fields = event_fields

local function symbol(buffer, tree)
  tree:add(event_fields.stype0, buffer(1, 1))
  tree:add(event_fields.parameter0, buffer(1, 1))
  tree:add(event_fields.parameter1, buffer(2, 1))
  local stype0, ack = buffer(1, 1):bitfield(0, 3), buffer(1, 1):bitfield(3, 5)
  local words = stype0s[stype0] or ("reserved stype0 " .. stype0)
  if stype0 ~= 2 then return string.format("%s %d", words, ack) end
  local cause = buffer(2, 1):bitfield(0, 5)
  return string.format("%s, %s, expects %d", words, causes[cause] or ("reserved " .. cause), ack)
end

function event.dissector(buffer, pinfo, root)
  local count = buffer:len() >= 2 and buffer(1, 1):uint() or 0
  pinfo.cols.protocol = "RapidIO"
  if buffer:len() < 2 + count + 4 then return 0 end
  local tree = root:add(event, buffer(0, 2 + count))
  local what = buffer(2, count):string()
  tree:add(event_fields.what, buffer(2, count))
  tree:append_text(", " .. what)
  local rest = buffer(2 + count):tvb()
  if buffer(0, 1):uint() == 1 then
    pinfo.cols.info = what .. ": " .. symbol(rest, tree)
  else
    rapidio.dissector(rest, pinfo, root)
    pinfo.cols.info:prepend(what .. ": ")
  end
  return buffer:len()
end

DissectorTable.get("wtap_encap"):add(wtap.USER0, rapidio)
DissectorTable.get("wtap_encap"):add(wtap.USER1, event)

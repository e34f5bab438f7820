-- A dissector of Wireshark for the frames of docs/protocol.md, each alone in a UDP datagram. The port of the master is
-- a preference, and the slave's is the next one. So are the safe data bytes of both ends, which a frame doesn't tell;
-- with 0 any length of the profile is taken. The CRCs aren't tested, since they cover more than the frame:
-- `companion/gatepast trace` has them judged. Nothing here is proved.
local gatepast = Proto("gatepast", "Gatepast")

local COMMANDS = {
  [0x2a] = "Reset",
  [0x4e] = "Session",
  [0x64] = "Connection",
  [0x52] = "Parameter",
  [0x08] = "FailSafeData",
  [0x36] = "ProcessData",
}
local CODES = { -- those of page/src/words.json
  [0x00] = "local reset, or the answer to a reset",
  [0x01] = "command not allowed in this state",
  [0x02] = "unknown command",
  [0x03] = "wrong connection id",
  [0x04] = "wrong CRC",
  [0x05] = "watchdog expired",
  [0x06] = "wrong slave address",
  [0x07] = "wrong safe data",
  [0x08] = "wrong length of communication parameters",
  [0x09] = "wrong communication parameter",
  [0x0a] = "wrong length of application parameters",
  [0x0b] = "wrong application parameter",
}

local fields = gatepast.fields
fields.sender = ProtoField.string("gatepast.sender", "Sender")
fields.command = ProtoField.uint8("gatepast.command", "Command", base.HEX, COMMANDS)
fields.code = ProtoField.uint8("gatepast.code", "Code", base.HEX, CODES)
fields.data = ProtoField.bytes("gatepast.data", "Safe data")
fields.group = ProtoField.bytes("gatepast.group", "Group")
fields.crc = ProtoField.uint16("gatepast.crc", "CRC", base.HEX)
fields.connection = ProtoField.uint16("gatepast.connection", "Connection id")
local why = "The frame hasn't the length of its end's frames"
local wrong_length = ProtoExpert.new("gatepast.length", why, expert.group.MALFORMED, expert.severity.ERROR)
gatepast.experts = { wrong_length }

gatepast.prefs.port = Pref.uint("UDP port of the master", 51000, "The slave's port is the next one")
gatepast.prefs.master_length = Pref.uint("Safe data bytes of the master", 0, "1, or even and from 2 to 126; 0 for any")
gatepast.prefs.slave_length = Pref.uint("Safe data bytes of the slave", 0, "1, or even and from 2 to 126; 0 for any")

local function has_length(length, data)
  if data == 0 then return length == 6 or (length >= 7 and length <= 255 and length % 4 == 3) end
  return length == (data == 1 and 6 or 3 + 2 * data)
end

function gatepast.dissector(frame, packet, tree)
  local is_master = packet.src_port == gatepast.prefs.port
  local sender = is_master and "master" or "slave"
  local length, width = frame:len(), frame:len() == 6 and 1 or 2
  local part = tree:add(gatepast, frame())
  packet.cols.protocol = "Gatepast"
  part:add(fields.sender, sender):set_generated()
  if not has_length(length, is_master and gatepast.prefs.master_length or gatepast.prefs.slave_length) then
    part:add_proto_expert_info(wrong_length)
    return length
  end
  local command = frame(0, 1):uint()
  local data = ByteArray.new()
  part:add(fields.command, frame(0, 1))
  if command == 0x2a then part:add(fields.code, frame(1, 1)) end
  for at = 1, length - 3, width + 2 do
    data:append(frame(at, width):bytes())
    part:add(fields.group, frame(at, width))
    part:add_le(fields.crc, frame(at + width, 2))
  end
  part:add(fields.data, data:tvb("Safe data")())
  part:add_le(fields.connection, frame(length - 2, 2))
  packet.cols.info = string.format("%s %s %s", sender, COMMANDS[command] or "unknown command", data:tohex(true))
  return length
end

local ports = DissectorTable.get("udp.port")
local port = 0

local function take_ports()
  for next = 0, 1 do
    if port ~= 0 then ports:remove(port + next, gatepast) end
    ports:add(gatepast.prefs.port + next, gatepast)
  end
  port = gatepast.prefs.port
end

gatepast.prefs_changed = take_ports
take_ports()

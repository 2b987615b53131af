-- A dissector of the engine's packets for Wireshark and tshark: telecommands of service 18, reports of services 1 and 18.
-- The layouts are those of docs/PROFILE.md (CCSDS 133.0-B, ECSS-E-ST-70-41C).
--
--     tshark -X lua_script:ground/ocp.lua -r FILE
--
-- It reads UDP and TCP port 10018 (preference ocp.port), files of link type USER15 (162), and by Decode As any port. A
-- datagram may hold several packets; a packet may be parted over TCP segments. Preference ocp.profile says how the data of an
-- activation are read.

local ocp = Proto("ocp", "On-board control procedures")

local SUBTYPES = {
    [1] = "direct-load", [2] = "unload", [3] = "activate", [4] = "stop", [5] = "suspend", [6] = "resume",
    [7] = "communicate parameters", [8] = "report status", [9] = "status report", [12] = "abort",
}
local VERIFICATIONS = {
    [1] = "successful acceptance", [2] = "failed acceptance", [3] = "successful start", [4] = "failed start",
    [7] = "successful completion", [8] = "failed completion",
}
local SERVICES = { [1] = "verification", [18] = "on-board control procedures" }
local STATUSES = { [0] = "inactive", [1] = "running", [2] = "held" }
local CODES = {
    [1] = "Segmented", [2] = "NoSecondary", [3] = "NoRoom", [4] = "Pec", [5] = "PusVersion", [6] = "Service",
    [7] = "Subtype", [8] = "Layout", [16] = "AlreadyLoaded", [17] = "TableFull", [18] = "BadCode", [19] = "NotLoaded",
    [20] = "NotInactive", [21] = "NotActive", [22] = "NotRunning", [23] = "NotHeld", [24] = "StopPending",
    [25] = "MailboxFull", [26] = "Overtaken", [27] = "OutboxFull",
}
local LOAD_FAULTS = {
    [1] = "EmptyCode", [2] = "RaggedCode", [3] = "TooLong", [4] = "CutWide", [5] = "UnknownOpcode", [6] = "BadRegister",
    [7] = "ReservedField", [8] = "WritesFramePointer", [9] = "BadCall", [10] = "BadTarget", [11] = "FallsOffEnd",
}
local TYPES = { [0] = "telemetry", [1] = "telecommand" }
local SEQUENCES = { [0] = "continuation", [1] = "first", [2] = "last", [3] = "unsegmented" }
local PRIMARY = 6

local field = {
    version = ProtoField.uint16("ocp.version", "Packet version", base.DEC, nil, 0xe000),
    type = ProtoField.uint16("ocp.type", "Packet type", base.DEC, TYPES, 0x1000),
    secondary = ProtoField.bool("ocp.secondary", "Secondary header", 16, nil, 0x0800),
    apid = ProtoField.uint16("ocp.apid", "APID", base.DEC, nil, 0x07ff),
    sequence = ProtoField.uint16("ocp.sequence", "Sequence flags", base.DEC, SEQUENCES, 0xc000),
    count = ProtoField.uint16("ocp.count", "Sequence count", base.DEC, nil, 0x3fff),
    length = ProtoField.uint16("ocp.length", "Data length (octets minus 1)", base.DEC),
    pus = ProtoField.uint8("ocp.pus_version", "PUS version", base.DEC, nil, 0xf0),
    flags = ProtoField.uint8("ocp.flags", "Acknowledgement flags", base.HEX, nil, 0x0f),
    acceptance = ProtoField.bool("ocp.flags.acceptance", "Acceptance", 8, nil, 0x01),
    start = ProtoField.bool("ocp.flags.start", "Start", 8, nil, 0x02),
    progress = ProtoField.bool("ocp.flags.progress", "Progress", 8, nil, 0x04),
    completion = ProtoField.bool("ocp.flags.completion", "Completion", 8, nil, 0x08),
    time_status = ProtoField.uint8("ocp.time_status", "Time reference status", base.DEC, nil, 0x0f),
    service = ProtoField.uint8("ocp.service", "Service", base.DEC, SERVICES),
    subtype = ProtoField.uint8("ocp.subtype", "Subtype", base.DEC),
    source = ProtoField.uint16("ocp.source", "Source ID", base.DEC),
    counter = ProtoField.uint16("ocp.counter", "Message type counter", base.DEC),
    destination = ProtoField.uint16("ocp.destination", "Destination ID", base.DEC),
    time = ProtoField.uint32("ocp.time", "Time", base.DEC),
    request = ProtoField.bytes("ocp.request", "Request ID"),
    code = ProtoField.uint16("ocp.code", "Failure code", base.DEC, CODES),
    load_fault = ProtoField.uint8("ocp.load_fault", "Load fault", base.DEC, LOAD_FAULTS),
    slot = ProtoField.uint16("ocp.slot", "Slot", base.DEC),
    id = ProtoField.uint16("ocp.id", "Procedure", base.DEC),
    octets = ProtoField.uint16("ocp.octets", "Octets", base.DEC),
    image = ProtoField.bytes("ocp.image", "Image"),
    arguments = ProtoField.bytes("ocp.arguments", "Arguments"),
    budget = ProtoField.uint32("ocp.budget", "Budget of instructions", base.DEC),
    step = ProtoField.uint16("ocp.step", "Step", base.DEC),
    words = ProtoField.uint8("ocp.words", "Words", base.DEC),
    word = ProtoField.uint64("ocp.word", "Word", base.DEC),
    procedures = ProtoField.uint8("ocp.procedures", "Procedures", base.DEC),
    status = ProtoField.uint8("ocp.status", "Status", base.DEC, STATUSES),
    pec = ProtoField.uint16("ocp.pec", "Packet error control", base.HEX),
    pec_good = ProtoField.bool("ocp.pec.good", "Error control is right"),
    data = ProtoField.bytes("ocp.data", "Data"),
}
local fields = {}
for _, one in pairs(field) do fields[#fields + 1] = one end
ocp.fields = fields

local fault = {
    pec = ProtoExpert.new("ocp.pec.bad", "Wrong error control", expert.group.CHECKSUM, expert.severity.ERROR),
    cut = ProtoExpert.new("ocp.cut", "Cut packet", expert.group.MALFORMED, expert.severity.ERROR),
    layout = ProtoExpert.new("ocp.layout", "Data of another layout", expert.group.MALFORMED, expert.severity.ERROR),
    subtype = ProtoExpert.new("ocp.unknown", "Unknown service or subtype", expert.group.PROTOCOL, expert.severity.WARN),
}
ocp.experts = { fault.pec, fault.cut, fault.layout, fault.subtype }

ocp.prefs.port = Pref.uint("Port", 10018, "UDP and TCP port of the engine")
ocp.prefs.profile = Pref.enum("Profile", 1, "How an activation is read", { { 1, "Profile 1", 1 }, { 2, "Profile 2", 2 } }, true)

-- x^16 + x^12 + x^5 + 1, preset all ones, most significant bit first
local function error_control(octets)
    local sum = 0xffff
    for at = 0, octets:len() - 1 do
        sum = bit.bxor(sum, bit.lshift(octets:get_index(at), 8))
        for _ = 1, 8 do
            local high = bit.band(sum, 0x8000) ~= 0
            sum = bit.band(bit.lshift(sum, 1), 0xffff)
            if high then sum = bit.bxor(sum, 0x1021) end
        end
    end
    return sum
end

-- A reader of data, one field after the other; `short` if a field is not whole.
local function reader(data, tree)
    local self = { at = 0, short = false }
    function self.take(one, octets)
        if self.short or self.at + octets > data:len() then
            self.short = true
            return nil
        end
        local part = data:range(self.at, octets)
        self.at = self.at + octets
        tree:add(one, part)
        return part
    end
    function self.rest(one) if not self.short and self.at < data:len() then self.take(one, data:len() - self.at) end end
    return self
end

local function number(part) return part and part:uint() or 0 end

-- The data of each request, and of the status report. Gives a word for the column.
local function counted(one)
    return function(read)
        local id = number(read.take(field.id, 2))
        if one == field.arguments and ocp.prefs.profile == 2 then read.take(field.budget, 4) end
        local octets = number(read.take(field.octets, 2))
        if octets > 0 then read.take(one, octets) end
        if one == field.arguments and octets > 256 then read.short = true end
        return " " .. id
    end
end
local function id_alone(read) return " " .. number(read.take(field.id, 2)) end
local function id_and_step(read)
    return " " .. number(read.take(field.id, 2)) .. " step " .. number(read.take(field.step, 2))
end
local LAYOUTS = {
    [1] = counted(field.image), [2] = id_alone, [3] = counted(field.arguments), [4] = id_and_step, [5] = id_and_step,
    [6] = id_alone, [12] = id_alone,
    [7] = function(read)
        local id = number(read.take(field.id, 2))
        local words = number(read.take(field.words, 1))
        if words < 1 or words > 8 then read.short = true end
        for _ = 1, words do read.take(field.word, 8) end
        return " " .. id
    end,
    [8] = function() return "" end,
    [9] = function(read)
        local rows = {}
        local procedures = number(read.take(field.procedures, 1))
        if procedures > 16 then read.short = true end
        for _ = 1, procedures do
            local id, status = number(read.take(field.id, 2)), number(read.take(field.status, 1))
            rows[#rows + 1] = id .. " " .. (STATUSES[status] or "?")
            if not STATUSES[status] then read.short = true end
        end
        return ": " .. (#rows > 0 and table.concat(rows, ", ") or "nothing loaded")
    end,
}

local function verification(read, subtype)
    local request = read.take(field.request, 4)
    local text = " of " .. (request and tostring(request:bytes()):lower() or "?")
    if subtype % 2 == 1 then return text end
    local code = number(read.take(field.code, 2))
    text = text .. ": " .. code .. " " .. (CODES[code] or "?")
    if code == 18 then
        local kind = number(read.take(field.load_fault, 1))
        text = text .. " (" .. (LOAD_FAULTS[kind] or "?") .. " at slot " .. number(read.take(field.slot, 2)) .. ")"
    end
    return text
end

-- Services and data after the secondary header; gives the text of the packet.
local function content(tvb, tree, telecommand, first, size)
    local service, subtype = tvb(7, 1):uint(), tvb(8, 1):uint()
    local names = service == 18 and SUBTYPES or service == 1 and not telecommand and VERIFICATIONS or {}
    local known = names[subtype] and (service ~= 18 or telecommand == (subtype ~= 9))
    local item = tree:add(field.service, tvb(7, 1))
    item = tree:add(field.subtype, tvb(8, 1))
    item:append_text(known and " (" .. names[subtype] .. ")" or " (unknown)")
    if telecommand then
        tree:add(field.source, tvb(9, 2))
    else
        tree:add(field.counter, tvb(9, 2))
        tree:add(field.destination, tvb(11, 2))
        tree:add(field.time, tvb(13, 4))
    end
    local octets = size - 2 - first
    local data = tvb(first, octets)
    if not known then
        item:add_proto_expert_info(fault.subtype)
        if octets > 0 then tree:add(field.data, data) end
        return "unknown [" .. service .. "," .. subtype .. "]"
    end
    local part = octets > 0 and tree:add(ocp, data, "Data") or tree
    local read = reader(octets > 0 and data:tvb() or ByteArray.new():tvb("none"), part)
    local text = service == 1 and verification(read, subtype) or service == 18 and LAYOUTS[subtype](read)
    if read.short or read.at < octets then
        read.short = false
        read.rest(field.data)
        part:add_proto_expert_info(fault.layout)
        text = " (data of another layout)"
    end
    return names[subtype] .. text
end

-- One whole packet.
local function packet(tvb, root)
    local size = tvb:len()
    local tree = root:add(ocp, tvb())
    tree:add(field.version, tvb(0, 2))
    tree:add(field.type, tvb(0, 2))
    tree:add(field.secondary, tvb(0, 2))
    tree:add(field.apid, tvb(0, 2))
    tree:add(field.sequence, tvb(2, 2))
    tree:add(field.count, tvb(2, 2))
    tree:add(field.length, tvb(4, 2))
    local telecommand = bit.band(tvb(0, 1):uint(), 0x10) ~= 0
    local first = telecommand and 11 or 17
    local text
    if size < first + 2 then
        tree:add_proto_expert_info(fault.layout, "No room for a secondary header and error control")
        text = "no room for a secondary header"
    elseif bit.band(tvb(0, 1):uint(), 0x08) == 0 then
        tree:add(field.data, tvb(PRIMARY, size - PRIMARY - 2))
        tree:add_proto_expert_info(fault.layout, "No secondary header")
        text = "no secondary header"
    else
        tree:add(field.pus, tvb(6, 1))
        if telecommand then
            local flags = tree:add(field.flags, tvb(6, 1))
            for _, one in ipairs({ field.acceptance, field.start, field.progress, field.completion }) do
                flags:add(one, tvb(6, 1))
            end
        else
            tree:add(field.time_status, tvb(6, 1))
        end
        text = content(tvb, tree, telecommand, first, size)
    end
    local said, right = tvb(size - 2, 2):uint(), error_control(tvb(0, size - 2):bytes())
    local item = tree:add(field.pec, tvb(size - 2, 2))
    local good = item:add(field.pec_good, tvb(size - 2, 2), said == right)
    good:set_generated()
    if said ~= right then
        item:append_text(string.format(" (wrong: the octets give 0x%04x)", right))
        item:add_proto_expert_info(fault.pec)
        text = text .. " (wrong error control)"
    end
    tree:append_text(", " .. text)
    return text
end

-- How many octets the packet there says that it has, or nil if its header is cut.
local function size_at(tvb, at) return tvb:len() - at >= PRIMARY and tvb(at + 4, 2):uint() + 7 or nil end

-- The packets of one datagram, record or reassembled piece.
local function packets(tvb, info, root)
    info.cols.protocol = "OCP"
    local texts, at = {}, 0
    while at < tvb:len() do
        local left = tvb:len() - at
        local size = size_at(tvb, at)
        if not size or size > left then
            local tree = root:add(ocp, tvb(at))
            tree:add_proto_expert_info(fault.cut, "Cut packet: " .. left .. " octets" .. (size and " of " .. size or ""))
            texts[#texts + 1] = "cut packet"
            break
        end
        texts[#texts + 1] = packet(tvb(at, size):tvb(), root)
        at = at + size
    end
    return table.concat(texts, "; ")
end

function ocp.dissector(tvb, info, root)
    info.cols.info = packets(tvb, info, root)
    return tvb:len()
end

-- Over TCP a packet may begin in one segment and end in another.
local over_tcp = Proto("ocp_tcp", "On-board control procedures over TCP")
function over_tcp.dissector(tvb, info, root)
    local at, texts = 0, {}
    info.cols.protocol = "OCP"
    while at < tvb:len() do
        local left = tvb:len() - at
        local size = size_at(tvb, at)
        if not size or size > left then
            info.desegment_offset = at
            info.desegment_len = size and size - left or DESEGMENT_ONE_MORE_SEGMENT
            break
        end
        texts[#texts + 1] = packet(tvb(at, size):tvb(), root)
        at = at + size
    end
    if #texts > 0 then info.cols.info = table.concat(texts, "; ") end
    return tvb:len()
end

local udp, tcp = DissectorTable.get("udp.port"), DissectorTable.get("tcp.port")
local port = 10018
udp:add(port, ocp)
tcp:add(port, over_tcp)
udp:add_for_decode_as(ocp)
tcp:add_for_decode_as(over_tcp)
DissectorTable.get("wtap_encap"):add(wtap.USER15, ocp)

function ocp.prefs_changed()
    if ocp.prefs.port ~= port then
        udp:remove(port, ocp)
        tcp:remove(port, over_tcp)
        port = ocp.prefs.port
        udp:add(port, ocp)
        tcp:add(port, over_tcp)
    end
end

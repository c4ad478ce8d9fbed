-- nqnfs.lua: shows nqnfs in Wireshark and tshark. Each request, reply and notice is shown with its fields, and a reply is tied to
-- its call. The protocol is in docs/nqnfs.x.
--
--     tshark -X lua_script:tools/nqnfs.lua -r session.pcap
--
-- The server has UDP port 20560, and host h has port 20561 + h.

local nqnfs = Proto("nqnfs", "nqnfs, leased file sharing")

local PROGRAM = 0x20004e51
local SERVER_PORT = 20560
local MOST_HOSTS = 64

local procedures = {
    [0] = "NULL", [1] = "ATTACH", [2] = "LOOKUP", [3] = "CREATE", [4] = "GETATTR", [5] = "READ", [6] = "WRITE",
    [7] = "GETLEASE", [8] = "VACATED", [9] = "EVICTED", [10] = "RESIZE", [11] = "REMOVE",
    [12] = "COMMIT", [13] = "READDIRLOOK", [14] = "STAGE", [15] = "DIREVICTED", [16] = "DIRVACATED",
}
local statuses = {
    [0] = "OK", [2] = "NOENT", [17] = "EXIST", [22] = "INVAL", [28] = "NOSPC", [70] = "STALE", [501] = "TRYLATER",
    [502] = "FENCED", [503] = "NOTATTACHED", [504] = "OLD",
    [505] = "UNSTAGED",
}
local modes = { [0] = "non-caching", [1] = "reading", [2] = "writing" }
local directions = { [0] = "call", [1] = "reply" }
local answered = { [0] = "accepted", [1] = "denied" }
local accepted = {
    [0] = "SUCCESS", [1] = "PROG_UNAVAIL", [2] = "PROG_MISMATCH", [3] = "PROC_UNAVAIL", [4] = "GARBAGE_ARGS",
}
local denied = { [0] = "RPC_MISMATCH", [1] = "AUTH_ERROR" }

local f = {
    xid = ProtoField.uint32("nqnfs.xid", "Number (xid)"),
    direction = ProtoField.uint32("nqnfs.direction", "Direction", base.DEC, directions),
    rpcvers = ProtoField.uint32("nqnfs.rpcvers", "Version of RPC"),
    program = ProtoField.uint32("nqnfs.program", "Program", base.HEX),
    version = ProtoField.uint32("nqnfs.version", "Version"),
    procedure = ProtoField.uint32("nqnfs.procedure", "Procedure", base.DEC, procedures),
    flavor = ProtoField.uint32("nqnfs.auth.flavor", "Flavor of authentication"),
    auth = ProtoField.bytes("nqnfs.auth.body", "Authentication"),
    reply_stat = ProtoField.uint32("nqnfs.reply_stat", "Answered", base.DEC, answered),
    accept_stat = ProtoField.uint32("nqnfs.accept_stat", "Accepted", base.DEC, accepted),
    reject_stat = ProtoField.uint32("nqnfs.reject_stat", "Why it was denied", base.DEC, denied),
    auth_stat = ProtoField.uint32("nqnfs.auth_stat", "Fault of authentication"),
    low = ProtoField.uint32("nqnfs.low", "Lowest version"),
    high = ProtoField.uint32("nqnfs.high", "Highest version"),
    host = ProtoField.uint32("nqnfs.host", "Host"),
    inc = ProtoField.uint32("nqnfs.inc", "Incarnation"),
    status = ProtoField.uint32("nqnfs.status", "Status", base.DEC, statuses),
    file = ProtoField.uint32("nqnfs.file", "File"),
    name = ProtoField.string("nqnfs.name", "Name"),
    blocks = ProtoField.uint32("nqnfs.blocks", "Blocks of the file"),
    block = ProtoField.uint32("nqnfs.block", "Block"),
    seq = ProtoField.uint64("nqnfs.seq", "Sequence"),
    call = ProtoField.uint64("nqnfs.call", "Call"),
    first = ProtoField.uint64("nqnfs.first", "First write"),
    last = ProtoField.uint64("nqnfs.last", "Last write"),
    rev = ProtoField.uint64("nqnfs.rev", "Revision"),
    mode = ProtoField.uint32("nqnfs.mode", "Kind of lease", base.DEC, modes),
    term = ProtoField.uint32("nqnfs.term", "Term in seconds"),
    boot = ProtoField.uint32("nqnfs.boot", "Boot"),
    number = ProtoField.uint64("nqnfs.number", "Number"),
    verifier = ProtoField.uint32("nqnfs.verifier", "Boot that took the body"),
    prefix = ProtoField.string("nqnfs.prefix", "Directory"),
    after = ProtoField.uint32("nqnfs.after", "Id behind which the page begins"),
    count = ProtoField.uint32("nqnfs.count", "Files of the page"),
    more = ProtoField.uint32("nqnfs.more", "Whether the list goes on"),
    base = ProtoField.uint64("nqnfs.base", "Revision that the push rests on"),
    present = ProtoField.uint32("nqnfs.present", "Present"),
    value = ProtoField.uint32("nqnfs.value", "Number in the first four bytes"),
    body = ProtoField.bytes("nqnfs.body", "Block"),
    reply_in = ProtoField.framenum("nqnfs.reply_in", "Reply in", base.NONE, frametype.RESPONSE),
    call_in = ProtoField.framenum("nqnfs.call_in", "Call in", base.NONE, frametype.REQUEST),
    time = ProtoField.relative_time("nqnfs.time", "Time since the call"),
}
for _, field in pairs(f) do
    nqnfs.fields[#nqnfs.fields + 1] = field
end

local malformed = ProtoExpert.new("nqnfs.malformed", "The message ends too early, or too late", expert.group.MALFORMED, expert.severity.ERROR)
local garbage = ProtoExpert.new("nqnfs.garbage", "The arguments or results are outside their grammar", expert.group.MALFORMED, expert.severity.ERROR)
nqnfs.experts = { malformed, garbage }

-- Which frames have the calls and replies, by the ports and the number: frames are seen once in order, and then at random.
local calls, replies = {}, {}

function nqnfs.init()
    calls, replies = {}, {}
end

-- A reader of XDR (RFC 1014). Each method adds an item to `tree` and gives its value, or raises SHORT. What is read although it is
-- outside the grammar is noted in `is_garbage`: a server answers such a call GARBAGE_ARGS.
local SHORT = {}
local Reader = {}
Reader.__index = Reader

function Reader:take(count)
    if self.at + count > self.buffer:len() then
        error(SHORT)
    end
    local range = self.buffer(self.at, count)
    self.at = self.at + count
    return range
end

function Reader:uint(field)
    local range = self:take(4)
    self.tree:add(field, range)
    return range:uint()
end

function Reader:hyper(field)
    local range = self:take(8)
    self.tree:add(field, range)
    return range:uint64()
end

-- Notes that what was read is outside the grammar, unless this is so.
function Reader:wants(is_so)
    self.is_garbage = self.is_garbage or not is_so
end

function Reader:opaque()
    local length = self:take(4):uint()
    local range = length > 0 and self:take(length) or nil
    local filling = (4 - length % 4) % 4
    if filling > 0 then
        self:wants(self:take(filling):uint() == 0)
    end
    return range
end

-- A name: 1 to 64 bytes, each from 33 to 126, and none of them a slash. A prefix may have none.
function Reader:text(field, is_prefix)
    local range = self:opaque()
    self:wants(is_prefix or range)
    self:wants(not range or range:len() <= 64)
    if range then
        self.tree:add(field, range)
        for at = 0, range:len() - 1 do
            local byte = range(at, 1):uint()
            self:wants(33 <= byte and byte <= 126 and byte ~= 47)
        end
        return range:string()
    end
    return ""
end

-- A part of the message, as a tree of its own.
function Reader:within(title, read)
    local from, outer = self.at, self.tree
    self.tree = outer:add(nqnfs, self.buffer(from), title)
    read(self)
    self.tree:set_len(self.at - from)
    self.tree = outer
end

-- What may be absent: a count of 0 or 1 before it.
function Reader:optional(title, read)
    local present = self:uint(f.present)
    self:wants(present <= 1)
    if present == 1 then
        self:within(title, read)
        return true
    end
    return false
end

local function who(r)
    local host, inc = r:uint(f.host), r:uint(f.inc)
    return "host " .. host .. " incarnation " .. inc
end

local function tag(r)
    r:uint(f.boot)
    r:hyper(f.number)
end

local function want(r)
    local mode = r:uint(f.mode)
    r:wants(mode == 1 or mode == 2)
    r:uint(f.term)
end

local function grant(r)
    r:wants(r:uint(f.mode) <= 2)
    r:uint(f.term)
    r:within("Tag", tag)
    r:within("Tag of the row's first grant", tag)
    r:hyper(f.rev)
    r:uint(f.blocks)
end

local function push(r)
    r:uint(f.boot)
    r:hyper(f.base)
end

local function body(r)
    local range = r:opaque()
    r:wants(range and range:len() == 4096)
    if range then
        r.tree:add(f.body, range)
        if range:len() >= 4 then
            r.tree:add(f.value, range(0, 4))
            return range(0, 4):uint()
        end
    end
    return 0
end

-- What each call says behind the host and its incarnation, and how it is told in the column of Wireshark.
local arguments = {
    [1] = function() return "" end,
    [2] = function(r) return r:text(f.name) end,
    [3] = function(r)
        r:hyper(f.seq)
        local name, blocks = r:text(f.name), r:uint(f.blocks)
        return name .. " of " .. blocks .. " blocks"
    end,
    [4] = function(r) return "file " .. r:uint(f.file) end,
    [5] = function(r)
        r:hyper(f.call)
        local file, block = r:uint(f.file), r:uint(f.block)
        local wants = r:optional("Wanted lease", want)
        return "file " .. file .. " block " .. block .. (wants and ", wants a lease" or "")
    end,
    [6] = function(r)
        r:hyper(f.seq)
        local file, block = r:uint(f.file), r:uint(f.block)
        local first, last = r:hyper(f.first), r:hyper(f.last)
        local pushes = r:optional("Push", push)
        r:wants(pushes or first == last)
        return (pushes and "push of " or "") .. "file " .. file .. " block " .. block .. " value " .. body(r)
    end,
    [7] = function(r)
        local file = r:uint(f.file)
        r:within("Wanted lease", want)
        return "file " .. file
    end,
    [10] = function(r)
        r:hyper(f.seq)
        r:hyper(f.call)
        local file, blocks = r:uint(f.file), r:uint(f.blocks)
        return "file " .. file .. " to " .. blocks .. " blocks"
    end,
    [11] = function(r)
        r:hyper(f.seq)
        r:hyper(f.call)
        return "file " .. r:uint(f.file)
    end,
    [12] = function(r)
        r:hyper(f.seq)
        local file, block = r:uint(f.file), r:uint(f.block)
        r:hyper(f.first)
        r:hyper(f.last)
        r:within("Push", push)
        return "push of file " .. file .. " block " .. block .. " staged in boot " .. r:uint(f.verifier)
    end,
    [14] = function(r)
        local file, block = r:uint(f.file), r:uint(f.block)
        r:hyper(f.last)
        return "file " .. file .. " block " .. block .. " value " .. body(r)
    end,
}
arguments[8] = function(r)
    local file = r:uint(f.file)
    r:within("Tag", tag)
    return "file " .. file
end
arguments[9] = arguments[8]
arguments[13] = function(r)
    local prefix, after = r:text(f.prefix, true), r:uint(f.after)
    r:uint(f.term)
    return "directory /" .. prefix .. " behind " .. after
end
arguments[15] = function(r)
    local prefix = r:text(f.prefix)
    r:within("Tag", tag)
    return "directory /" .. prefix
end
arguments[16] = arguments[15]

-- What each reply says behind a status that is OK.
local results = {
    [1] = function() return "" end,
    [2] = function(r) return "file " .. r:uint(f.file) .. " of " .. r:uint(f.blocks) .. " blocks" end,
    [3] = function(r) return "file " .. r:uint(f.file) end,
    [4] = function(r) return r:uint(f.blocks) .. " blocks, revision " .. tostring(r:hyper(f.rev)) end,
    [5] = function(r)
        local rev = tostring(r:hyper(f.rev))
        local value = body(r)
        local granted = r:optional("Grant", grant)
        return "value " .. value .. ", revision " .. rev .. (granted and ", with a lease" or "")
    end,
    [6] = function(r) return "revision " .. tostring(r:hyper(f.rev)) end,
    [7] = function(r) return r:optional("Grant", grant) and "with a lease" or "without a lease" end,
    [10] = function(r) return "revision " .. tostring(r:hyper(f.rev)) end,
    [11] = function() return "" end,
    [12] = function(r) return "revision " .. tostring(r:hyper(f.rev)) end,
    [13] = function(r)
        local count = r:uint(f.count)
        for _ = 1, count do
            r:uint(f.file)
            r:text(f.name)
        end
        local more = r:uint(f.more) == 1
        local granted = r:optional("Grant", grant)
        return count .. " files" .. (more and " and more" or "") .. (granted and ", with a lease" or "")
    end,
    [14] = function(r) return "boot " .. r:uint(f.verifier) end,
}

local function authentication(r, title)
    r:within(title, function(inner)
        inner:uint(f.flavor)
        local range = inner:opaque()
        if range then
            inner.tree:add(f.auth, range)
        end
    end)
end

-- The name by which a call is found again: who asked whom, and the number.
local function key_of(from, to, xid)
    return from .. ">" .. to .. "#" .. xid
end

local function call(r, pinfo, xid)
    r:uint(f.rpcvers)
    local program = r:uint(f.program)
    r:uint(f.version)
    local number = r:uint(f.procedure)
    authentication(r, "Credential")
    authentication(r, "Verifier")
    local key = key_of(pinfo.src_port, pinfo.dst_port, xid)
    -- A host that begins again begins its numbers again.
    local inc = r.buffer:len() >= r.at + 8 and r.buffer(r.at + 4, 4):uint()
    if not pinfo.visited and not (calls[key] and calls[key].inc == inc) then
        calls[key] = { frame = pinfo.number, procedure = number, time = pinfo.abs_ts, inc = inc }
        replies[key] = nil
    end
    if replies[key] then
        r.tree:add(f.reply_in, replies[key]):set_generated()
    end
    local said = procedures[number] or ("procedure " .. number)
    if program ~= PROGRAM or not arguments[number] then
        return said
    end
    return said .. ", " .. who(r) .. " " .. arguments[number](r)
end

local function reply(r, pinfo, xid)
    local key = key_of(pinfo.dst_port, pinfo.src_port, xid)
    local asked = calls[key]
    if not pinfo.visited then
        replies[key] = replies[key] or pinfo.number
    end
    local said = "reply"
    if asked then
        r.tree:add(f.call_in, asked.frame):set_generated()
        r.tree:add(f.time, NSTime.new(math.floor(pinfo.abs_ts - asked.time), math.floor((pinfo.abs_ts - asked.time) % 1 * 1e9))):set_generated()
        said = "reply to " .. (procedures[asked.procedure] or asked.procedure)
    end
    if r:uint(f.reply_stat) == 1 then
        if r:uint(f.reject_stat) == 0 then
            r:uint(f.low)
            r:uint(f.high)
            return said .. ": another version of RPC is wanted"
        end
        r:uint(f.auth_stat)
        return said .. ": denied"
    end
    authentication(r, "Verifier")
    local stat = r:uint(f.accept_stat)
    if stat == 2 then
        r:uint(f.low)
        r:uint(f.high)
    end
    if stat ~= 0 then
        return said .. ": " .. (accepted[stat] or stat)
    end
    if not asked or not results[asked.procedure] then
        r.at = r.buffer:len()
        return said
    end
    r:uint(f.inc)
    local status = r:uint(f.status)
    if status ~= 0 then
        return said .. ": " .. (statuses[status] or status)
    end
    return said .. ": OK " .. results[asked.procedure](r)
end

local function message(r, pinfo)
    local xid = r:uint(f.xid)
    local said = r:uint(f.direction) == 0 and call(r, pinfo, xid) or nil
    return said or reply(r, pinfo, xid)
end

function nqnfs.dissector(buffer, pinfo, root)
    pinfo.cols.protocol = "nqnfs"
    local tree = root:add(nqnfs, buffer())
    local r = setmetatable({ buffer = buffer, at = 0, tree = tree }, Reader)
    local ok, said = pcall(message, r, pinfo)
    if ok then
        pinfo.cols.info = said
        tree:append_text(": " .. said)
    elseif said ~= SHORT then
        error(said)
    end
    if not ok or r.at ~= buffer:len() then
        pinfo.cols.info = "malformed message"
        tree:add_proto_expert_info(malformed)
    elseif r.is_garbage then
        pinfo.cols.info = said .. " (outside the grammar)"
        tree:add_proto_expert_info(garbage)
    end
    return buffer:len()
end

local ports = DissectorTable.get("udp.port")
for port = SERVER_PORT, SERVER_PORT + MOST_HOSTS do
    ports:add(port, nqnfs)
end

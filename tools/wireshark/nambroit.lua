-- Shows blocks in Wireshark's tree as csn_explain reads them: each part with its bits, and each label a field to filter
-- by, as in nambroit.tlli == 3221225473.
--
-- tools/README.md says where this file is put and which preferences it has. A variable such as NAMBROIT_UPLINK is the
-- default of the preference `uplink`. It needs pipes with names, which Windows has not.

local FOLDER = debug.getinfo(1, "S").source:match("^@(.*/)") or "./"

-- What stands in GSMTAP frames, as in tools/frames.py.
local GSMTAP_OCTETS, GSMTAP_VERSION, UM = 16, 2, 1
local PACCH, PDCH, BLOCK_OCTETS = 11, 13, 23
local CONTROL, SEGMENTED = 1, 2        -- payload types of the MAC header
local BROADCAST = { [1] = true, [2] = true, [4] = true, [5] = true }    -- BCCH, CCCH, AGCH and PCH
local RADIO_RESOURCE = 6               -- protocol discriminator
-- The messages that end in rest octets: type, preference, the rule of these octets, and how many octets come before
-- them at least, where these are not 3.
local MESSAGES = {
    { 0x19, "si1", "SI 1 Rest Octets" }, { 0x02, "si2bis", "SI 2bis Rest Octets" },
    { 0x03, "si2ter", "SI 2ter Rest Octets" }, { 0x07, "si2quater", "SI 2quater Rest Octets" },
    { 0x1B, "si3", "SI 3 Rest Octets" }, { 0x1C, "si4", "SI 4 Rest Octets" }, { 0x1F, "si7", "SI 7 Rest Octets" },
    { 0x18, "si8", "SI 8 Rest Octets" }, { 0x04, "si9", "SI 9 Rest Octets", 6 }, { 0x00, "si13", "SI 13 Rest Octets" },
    { 0x3D, "si16", "SI 16 Rest Octets" }, { 0x3E, "si17", "SI 17 Rest Octets" }, { 0x3F, "ia", "IA Rest Octets" },
    { 0x3A, "iar", "IAR Rest Octets" }, { 0x39, "iax", "IAX Rest Octets" }, { 0x21, "p1", "P1 Rest Octets" },
    { 0x22, "p2", "P2 Rest Octets" }, { 0x24, "p3", "P3 Rest Octets" }, { 0x20, "ntn", "NT/N Rest Octets" },
}

local nambroit = Proto("nambroit", "Nambroit")

----------------------------------------------------------------------------------------------------------- Settings

local function is_there(path)
    local file = io.open(path)
    if file then file:close() end
    return file ~= nil
end

-- The preferences in their order: name, default and title.
local function preferences()
    local built = FOLDER .. "../../crates/csn_explain/out/csn_explain"
    local all = {
        { "program", is_there(built) and built or "csn_explain", "Program csn_explain" },
        { "reading", "received", "Reading, received or sent" },
        { "uplink", "44.060.csn1#Uplink RLC/MAC control message", "FILE#RULE of uplink control blocks" },
        { "downlink", "44.060.csn1#Downlink RLC/MAC control message", "FILE#RULE of downlink control blocks" },
    }
    for _, message in ipairs(MESSAGES) do
        table.insert(all, { message[2], "44.018.csn1#" .. message[3], "FILE#RULE of " .. message[3] })
    end
    table.insert(all, { "other", "", "FILE#RULE of other blocks" })
    table.insert(all, { "other_field", "", "Field of Wireshark's whose octets are such a block" })
    table.insert(all, { "other_skip", "0", "Octets that come before it there" })
    return all
end

-- What is saved. Wireshark reads it behind its plugins, and these have to name all fields before.
local function saved_preferences()
    local saved, path = {}, Dir.personal_config_path("preferences")
    for line in is_there(path) and io.lines(path) or function() end do
        local name, value = line:match("^nambroit%.([%w_]+):%s*(.-)%s*$")
        if name then saved[name] = value end
    end
    return saved
end

local settings, order = {}, {}
do
    local saved = saved_preferences()
    for _, row in ipairs(preferences()) do
        local name, default, title = row[1], row[2], row[3]
        default = os.getenv("NAMBROIT_" .. name:upper()) or default
        nambroit.prefs[name] = Pref.string(title, default, "Its default is the variable NAMBROIT_" .. name:upper())
        settings[name] = saved[name] or default
        table.insert(order, name)
    end
end

-------------------------------------------------------------------------------------------------------------- Rules

local MOST_INPUT = 16 * 1024 * 1024    -- octets that one run of csn_explain takes
local MOST_KEPT, LONGEST_KEPT = 10000, 500    -- leaves, or paths, that are kept taken apart, and their octets
local MOST_MASK = 64                   -- bits that are drawn in their octets
-- The kinds of leaf.
local TITLES = { literal = "Literal", spare = "Spare", field = "Field", rest = "Rest", padding = "Padding" }

-- What is made of texts, of each once as long as there is room.
local Kept = {}
Kept.__index = Kept

function Kept.new()
    return setmetatable({ made = {}, many = 0 }, Kept)
end

function Kept:of(text, make, ...)
    local made = self.made[text]
    if made then return made end
    made = make(text, ...)
    if #text <= LONGEST_KEPT then
        if self.many == MOST_KEPT then self.made, self.many = {}, 0 end
        self.made[text], self.many = made, self.many + 1
    end
    return made
end

local function quoted(word)
    return "'" .. word:gsub("'", "'\\''") .. "'"
end

-- Where a description is: as it is named, beside this file, or among the descriptions of the repository.
local function found(file)
    for _, folder in ipairs({ "", FOLDER, FOLDER .. "../../descriptions/" }) do
        if is_there(folder .. file) then return folder .. file end
    end
    return file
end

-- A rule: its labels, and the run of csn_explain that reads its blocks and stays.
local Rule = {}
Rule.__index = Rule

function Rule.of(text)
    local file, name = text:match("^(.*)#([^#]+)$")
    if not file then return nil end
    local words = { quoted(settings.program), "%s", quoted(found(file)), quoted(name), quoted(settings.reading) }
    local rule = { name = name, command = table.concat(words, " "), labels = {}, listed = {}, widths = {} }
    rule.paths, rule.leaves = Kept.new(), Kept.new()
    setmetatable(rule, Rule):learn()
    return rule
end

-- The label that a node adds to the path of the part round it, or nothing. That part was listed before.
local function label_of(path, seen)
    for at = #path, 1, -1 do
        if path:find("^[.#%[]", at) and seen[path:sub(1, at - 1)] then
            return path:sub(at):gsub("^[#%[][^.]*", ""):gsub("^%.", "")
        end
    end
    return path
end

-- A path without the numbers of turns and of components.
local function plain(path)
    return (path:gsub("%[%d*%]", ""):gsub("^%.", ""))
end

-- Learns the labels in their order: how many bits those have that stand right at a leaf, and which stand at a choice.
function Rule:learn()
    local ran = io.popen(self.command:format("nodes") .. " 2>&1")
    local seen, labelled = { [""] = true }, nil
    for line in ran:lines() do
        local kind, bits, path = line:match("^%d+\t[^\t]*\t([^\t]*)\t([^\t]*)\t(.*)$")
        if not kind then
            self.fault = self.fault or line
        elseif kind == "label" then
            labelled = { label = label_of(path, seen) }
            self.labels[labelled.label] = true
            table.insert(self.listed, labelled)
            seen[path] = true
        else
            if labelled and TITLES[kind] then
                labelled.bits = tonumber(bits) or math.huge
                self.widths[plain(path)] = labelled.bits
            elseif labelled then
                labelled.is_choice = kind == "choice"
            end
            labelled = nil
            seen[path] = true
        end
    end
    if not ran:close() then self.fault = self.fault or settings.program .. " does not run" end
end

-- Starts the run. Its answers come through a pipe with a name, since io.popen gives one direction only. What is written
-- to a run that has ended is thrown away, since a broken pipe would end Wireshark.
function Rule:start()
    local pipe = os.tmpname()
    os.remove(pipe)
    if not os.execute("mkfifo -m 600 " .. quoted(pipe)) then return false end
    local words = ("{ %s > %s 2> /dev/null; cat > /dev/null; }"):format(self.command:format("fields"), quoted(pipe))
    self.to, self.from, self.given = io.popen(words, "w"), io.open(pipe), 0
    os.remove(pipe)
    return true
end

function Rule:stop()
    if self.to then
        self.from:close()
        self.to:close()
        self.to = nil
    end
end

-- The lines of the leaves of a block, and the line that closes it.
function Rule:ask(block)
    if self.to and self.given + #block + 1 > MOST_INPUT then self:stop() end
    if self.fault or not (self.to or self:start()) then return {}, self.fault or "mkfifo is not there" end
    self.given = self.given + #block + 1
    self.to:write(block, "\n")
    self.to:flush()
    local leaves, line = {}, self.from:read()
    while line and line:find("^%d") do
        table.insert(leaves, line)
        line = self.from:read()
    end
    local word = line and line:match("^%a+")
    if word ~= "ok" and word ~= "no" and word ~= "bad" then
        self.fault = line or settings.program .. " ended"
        self:stop()
    end
    return leaves, line or self.fault
end

-- The label at a place of a path: the longest that is known, since a label may have a point in it.
function Rule:label_at(path, at)
    local longest, till
    repeat
        till = path:find("[.#%[]", (till or at) + 1) or #path + 1
        local label = path:sub(at, till - 1)
        if not longest or self.labels[label] then longest = label end
    until till > #path
    return longest
end

-- A path taken apart: its labels and turns, each with the path up to it; where alternatives begin; and the label that
-- stands right at the leaf, if there is one.
local function path_of(path, rule)
    local steps, alternatives, at = {}, {}, 1
    while at <= #path do
        local sign = path:match("^#%d+", at) or path:match("^%[%d*%]", at)
        local begun = path:find("^%.", at) and at + 1 or at
        local name = sign or rule:label_at(path, begun)
        at = (sign and at or begun) + #name
        if name:find("^#") then
            table.insert(alternatives, { path = path:sub(1, at - 1), number = name:sub(2) })
            if steps[#steps] and steps[#steps].till == at - #name then steps[#steps].alternative = name:sub(2) end
        else
            table.insert(steps, { path = path:sub(1, at - 1), till = at, name = name, label = not sign and name or nil })
        end
    end
    local last = steps[#steps]
    local is_at_leaf = last and last.label and last.till == at and rule.widths[plain(path)]
    if is_at_leaf then table.remove(steps) end
    return { steps = steps, alternatives = alternatives, label = is_at_leaf and last.label }
end

local rules = {}                       -- by the text of the preference

local function rule_of(name)
    local text = settings[name]
    if rules[text] == nil then rules[text] = Rule.of(text) or false end
    return rules[text]
end

------------------------------------------------------------------------------------------------------------- Fields

local answer_field = ProtoField.string("nambroit.block.answer", "Answer")
local rule_field = ProtoField.string("nambroit.block.rule", "Rule")
local refused_field = ProtoField.uint32("nambroit.block.refused", "Refused at bit")
local segment_field = ProtoField.framenum("nambroit.block.segment", "The other segment is in frame")
local refusal = ProtoExpert.new("nambroit.block.refusal", "Refused", expert.group.MALFORMED, expert.severity.WARN)
local fault = ProtoExpert.new("nambroit.block.fault", "Not read", expert.group.UNDECODED, expert.severity.ERROR)
local all_fields = { answer_field, rule_field, refused_field, segment_field }
-- Of parts that stand right at no label, by their kind. Their value is their bits.
local kind_fields = {}
for kind, title in pairs(TITLES) do
    kind_fields[kind] = ProtoField.string("nambroit.part." .. kind, title)
    table.insert(all_fields, kind_fields[kind])
end
-- Of labels: a number, or the alternative of a choice; bits where a number has too few; and any other part.
local number_fields, bits_fields, group_fields = {}, {}, {}
local types = {}                       -- of the names that are taken

-- Makes a field for a label, where none is made and its name is not of another type.
local function make(fields, label, name, type_of)
    if fields[label] or (types[name] or type_of) ~= type_of then return end
    fields[label], types[name] = type_of(name, label), type_of
    table.insert(all_fields, fields[label])
end

-- Labels that differ only in case and signs share a name to filter by.
local function name_of(label)
    return "nambroit." .. label:lower():gsub("%W+", "_"):gsub("^_", ""):gsub("_$", "")
end

local function make_fields()
    local listed = {}
    for _, name in ipairs(order) do
        local rule = settings[name]:find("#") and rule_of(name)
        for _, labelled in ipairs(rule and rule.listed or {}) do table.insert(listed, labelled) end
    end
    for _, labelled in ipairs(listed) do
        local label, name = labelled.label, name_of(labelled.label)
        if labelled.bits or labelled.is_choice then make(number_fields, label, name, ProtoField.uint64) end
        if labelled.bits and labelled.bits > 64 then make(bits_fields, label, name .. ".bits", ProtoField.string) end
    end
    for _, labelled in ipairs(listed) do
        local label, name = labelled.label, name_of(labelled.label)
        if not number_fields[label] then
            make(group_fields, label, types[name] == ProtoField.uint64 and name .. ".parts" or name, ProtoField.none)
        end
    end
end

make_fields()
nambroit.fields = all_fields
nambroit.experts = { refusal, fault }

------------------------------------------------------------------------------------------------------ Shown blocks

local DIGITS = {}                      -- the bits of each
for number = 0, 15 do
    local bits = ""
    for power = 3, 0, -1 do bits = bits .. math.floor(number / 2 ^ power) % 2 end
    DIGITS[("%X"):format(number)] = bits
end

-- A block that is shown: its octets, its bits, its parts that are open, and where the last leaf ended.
local Shown = {}
Shown.__index = Shown

function Shown.of(octets, digits, tree)
    local bits = digits:gsub(".", DIGITS)
    return setmetatable({ octets = octets, bits = bits, tree = tree, open = {}, told = {}, till = 0 }, Shown)
end

-- Octets of the block, from the one behind the first so many up to others; one at least.
function Shown:range(first, till)
    first = math.min(first, self.octets:len() - 1)
    return self.octets(first, math.max(math.min(till, self.octets:len()) - first, 1))
end

-- Some bits in their octets, as Wireshark draws them.
local function mask_of(place, bits)
    if bits == "" or #bits > MOST_MASK then return ("Bits %d to %d = "):format(place, place + #bits - 1) end
    bits = ("."):rep(place % 8) .. bits
    return (bits .. ("."):rep(-#bits % 8)):gsub("....", "%0 ") .. "= "
end

-- A leaf of a block with these bits, by the line that tells it: its octets, its path, and its field, value and text.
local function leaf_of(line, block_bits, rule)
    local place, width, kind, value, path = line:match("^(%d+)\t(%d+)\t([^\t]*)\t([^\t]*)\t(.*)$")
    local bits = block_bits:sub(place + 1, place + width)
    local leaf = { first = math.floor(place / 8), till = math.ceil((place + width) / 8) }
    leaf.path = rule.paths:of(path, path_of, rule)
    leaf.text = mask_of(tonumber(place), bits)
    local label, is_number = leaf.path.label, bits ~= "" and #bits <= 64
    if label and is_number then
        leaf.field, leaf.value = number_fields[label] or kind_fields[kind], UInt64.new(value)
        leaf.text = ("%s%s: %s"):format(leaf.text, label, value)
        if #bits > 8 then leaf.text = ("%s (0x%s)"):format(leaf.text, leaf.value:tohex():sub(-math.ceil(#bits / 4))) end
    else
        leaf.field = label and bits_fields[label] or kind_fields[kind]
        leaf.text = leaf.text .. (label or TITLES[kind]) .. ": " .. bits:sub(1, MOST_MASK)
        if #bits > MOST_MASK then leaf.text = leaf.text .. ".." end
    end
    if not leaf.value or leaf.field == kind_fields[kind] then leaf.value = bits end
    return leaf
end

-- Adds the part of a step, over the octets of the first bits that are in it.
function Shown:begin(above, step, range)
    local number, group, text = number_fields[step.label], group_fields[step.label], step.name
    if step.alternative then
        self.told[step.path .. "#" .. step.alternative] = true
        text = text .. ": alternative " .. step.alternative
        if number then return above:add(number, range, UInt64.new(step.alternative), text) end
    end
    return group and above:add(group, range):set_text(text) or above:add(range, text)
end

-- The item of the part round a leaf. Bits of a part come without a gap, so of the parts that are open those stay that
-- the path goes through.
function Shown:part(leaf)
    local open, item = self.open, self.tree
    for number, step in ipairs(leaf.path.steps) do
        if not open[number] or open[number].path ~= step.path then
            self:close(number)
            item = self:begin(item, step, self:range(leaf.first, leaf.till))
            open[number] = { path = step.path, item = item, first = leaf.first }
        end
        item = open[number].item
    end
    self:close(#leaf.path.steps + 1)
    self.till = leaf.till
    return item
end

-- Closes the open parts from one on: each has the octets up to the last leaf in it.
function Shown:close(from)
    for number = #self.open, from, -1 do
        local part = table.remove(self.open)
        part.item:set_len(math.max(1, self.till - part.first))
    end
end

-- Adds a leaf, and says which alternatives begin with it.
function Shown:add(leaf)
    local item, text = self:part(leaf), leaf.text
    for _, alternative in ipairs(leaf.path.alternatives) do
        if not self.told[alternative.path] then
            self.told[alternative.path] = true
            text = text .. ", alternative " .. alternative.number
        end
    end
    item:add(leaf.field, self:range(leaf.first, leaf.till), leaf.value, text)
end

-- Adds what csn_explain says where it refused the block, or did not read it.
function Shown:refused(line)
    local place, why, path, wanted = line:match("^no (%d+) (%a+)\t?([^\t]*)\t?(.*)$")
    if not place then
        self.tree:add_proto_expert_info(fault, "Not read: " .. line)
        return
    end
    local text = "Refused at bit " .. place .. (why == "ended" and ", where the block ends" or "")
    if wanted ~= "" then text = text .. ". Wanted: " .. wanted end
    if path ~= "" then text = text .. ", at " .. path end
    local first = math.floor(place / 8)
    local mask = why == "bit" and mask_of(tonumber(place), self.bits:sub(place + 1, place + 1)) or ""
    local item = self.tree:add(refused_field, self:range(first, first + 1), tonumber(place), mask .. text)
    item:add_proto_expert_info(refusal, text)
end

-- Shows a block, and gives the item that it has in the tree.
local function show(rule, octets, tree)
    local under, digits = tree:add(nambroit, octets, "Nambroit, " .. rule.name), octets:bytes():tohex()
    local shown = Shown.of(octets, digits, under)
    local leaves, line = rule:ask(digits)
    local answer = line:match("^[^\t]*")
    under:append_text(", " .. answer)
    under:add(rule_field, octets, rule.name):set_generated()
    under:add(answer_field, octets, answer):set_generated()
    for _, leaf in ipairs(leaves) do shown:add(rule.leaves:of(leaf, leaf_of, shown.bits, rule)) end
    shown:close(1)
    if answer ~= "ok" then shown:refused(line) end
    return under
end

------------------------------------------------------------------------------------------------------------- Blocks

-- Of each transaction of each downlink, the first segment that waits; and of each segment, by its frame and its number
-- there, that it was taken, and what it is joined with. Wireshark asks again for frames that it has shown, in any
-- order.
local waiting, taken, joined = {}, {}, {}

function nambroit.init()
    waiting, taken, joined = {}, {}, {}
end

-- Takes a block with segments, the first time that it comes.
local function take(place, key, segment, body)
    if taken[place.word] or segment == "not final" then return end
    local first = waiting[key]
    taken[place.word], waiting[key] = true, nil
    if segment == "first" then
        waiting[key] = { place = place, body = body }
    elseif segment == "second" and first then
        joined[place.word] = { body = first.body .. body, frame = first.place.frame }
        joined[first.place.word] = { frame = place.frame }
    end
end

-- Shows a block of a message that may come in two (3GPP TS 44.060, clauses 10.3 and 10.4).
local function show_segment(octets, downlink, place, tree)
    local control, body = octets(1, 1), octets(2 + octets(1, 1):bitfield(7, 1))
    local transaction, is_final = control:bitfield(1, 5), control:bitfield(6, 1) == 1
    local segment = is_final and "only" or "first"
    if control:bitfield(0, 1) == 1 then segment = is_final and "second" or "not final" end
    take(place, downlink .. "/" .. transaction, segment, body:bytes():tohex())
    local other, rule = joined[place.word], rule_of("downlink")
    local answer, under = segment == "first" and "wait " .. transaction or segment == "second" and "bad 9" or "bad 8", nil
    if segment == "only" then
        return show(rule, body, tree)
    elseif segment == "second" and other then
        under = show(rule, ByteArray.new(other.body):tvb("Message of two segments"):range(), tree)
    else
        under = tree:add(nambroit, body, "Nambroit, a segment, " .. answer)
        under:add(answer_field, body, answer):set_generated()
    end
    if other then under:add(segment_field, control, other.frame):set_generated() end
end

local message_of = {}
for _, message in ipairs(MESSAGES) do message_of[message[1]] = message end

-- Shows the block in a GSMTAP datagram, where it has one.
local function show_gsmtap(datagram, place, tree)
    if datagram:len() < GSMTAP_OCTETS or datagram(0, 1):uint() ~= GSMTAP_VERSION or datagram(2, 1):uint() ~= UM then return end
    local head = 4 * datagram(1, 1):uint()
    if head < GSMTAP_OCTETS or head >= datagram:len() then return end
    local channel, is_uplink, octets = datagram(12, 1):uint(), datagram(4, 1):bitfield(1, 1) == 1, datagram(head)
    if channel == PACCH or channel == PDCH then
        local payload_type = octets(0, 1):bitfield(0, 2)
        if octets:len() ~= BLOCK_OCTETS then return end
        if payload_type == CONTROL then
            local rule = rule_of(is_uplink and "uplink" or "downlink")
            if rule then show(rule, octets(1), tree) end
        elseif payload_type == SEGMENTED and not is_uplink and rule_of("downlink") then
            local downlink = ("%s %d/%d"):format(place.from, datagram(4, 2):uint(), datagram(3, 1):bitfield(5, 3))
            show_segment(octets, downlink, place, tree)
        end
    elseif BROADCAST[channel] and not is_uplink and octets:len() > 3 and octets(1, 1):uint() == RADIO_RESOURCE then
        local message = message_of[octets(2, 1):uint()]
        if not message then return end
        -- The first octet tells how many octets of the message come before the rest octets.
        local begun = math.max(message[4] or 3, 1 + octets(0, 1):bitfield(0, 6))
        local rule = begun < octets:len() and rule_of(message[2])
        if rule then show(rule, octets(begun), tree) end
    end
end

local gsmtaps, payloads = Field.new("gsmtap"), Field.new("udp.payload")
local has_others, others = pcall(Field.new, settings.other_field)
if not has_others and settings.other_field ~= "" then
    io.stderr:write("nambroit.lua: Wireshark has no field ", settings.other_field, "\n")
end

function nambroit.dissector(_, pinfo, tree)
    local found_payloads, number = { payloads() }, 0
    for _, gsmtap in ipairs({ gsmtaps() }) do
        for _, payload in ipairs(found_payloads) do
            if payload.offset == gsmtap.offset then
                number = number + 1
                -- A frame that a read filter drops has the number of the next one, so the time is told too.
                local word = ("%d %d %f"):format(pinfo.number, number, pinfo.abs_ts)
                show_gsmtap(payload.range, { frame = pinfo.number, word = word, from = tostring(pinfo.src) }, tree)
            end
        end
    end
    local rule = has_others and rule_of("other")
    for _, other in ipairs(rule and { others() } or {}) do
        local skipped = tonumber(settings.other_skip) or 0
        if skipped < other.len then show(rule, other.range(skipped), tree) end
    end
end

function nambroit.prefs_changed()
    local is_same = true
    for _, name in ipairs(order) do
        is_same = is_same and settings[name] == nambroit.prefs[name]
        settings[name] = nambroit.prefs[name]
    end
    if is_same then return end
    for _, rule in pairs(rules) do
        if rule then rule:stop() end
    end
    rules = {}
end

register_postdissector(nambroit)

# The sentences of tools/explain, in POSIX awk. Input: the program's answers; `script` names the script that they answer.
#
# The rules stand here once more, and an account of the model is kept beside the program's answers. Each answer is worked out from the account:
# the line must be the program's, to the byte, and only then is the reason printed. So every sentence is true in the account, and the account is
# moved on by accepted answers alone. Answers 12, 13 and 14 can't follow from a script of lines 10000: there is no reason for them here.
#
# The account: TYPE, OWNER, BLOCKED_AT and TABLE by frame; KEY, LIFE, OP, PAGES, CHILDREN, EPOCH and RECORD by the frame of the TDR; STATE and
# LEADS by table and index, where a table is named by its frame, and a root by its TDR's; TDR_OF by record and EPT_OF by table in use;
# cachewb_line, the line of the last cachewb.
# Numbers of a script go up to 2^64 - 1 and a double doesn't, so an operand stays text until is_below has seen that it is short.

function limits(   level) {
    BASE = 1073741824; FRAME_BYTES = 4096; FRAMES = 1024; RECORDS = 4; TABLES = 12; ENTRIES = 512
    KEY_LOWEST = 32; KEY_HIGHEST = 95; CONTROL_PAGES = 4; FIRST_EPOCH = 1
    TOP_LEVEL = 3; GPA_BITS = 47
    for (level = 0; level <= TOP_LEVEL; level++) ALIGNED_TO[level] = power_of_two(12 + 9 * level)
    RAISE_MARK = 0.75; CLEAR_MARK = 0.5
    LINE_BYTES = 120; LINES = 10000; NUMBER_HIGHEST = "18446744073709551615"
    EXACT_DIGITS = 15
}

function names() {
    name_codes("type", "NDA,TDR,TDCX,EPT,REG")
    name_codes("lifecycle", "HKID assigned,keys configured,blocked,teardown,blocked and written back")
    name_codes("op state", "uninitialized,initialized,runnable")
    name_codes("state", "FREE,NL_MAPPED,MAPPED,PENDING,NL_BLOCKED,BLOCKED,PENDING_BLOCKED")
    NDA = 0; TDR = 1; TDCX = 2; EPT = 3; REG = 4
    BLOCKED = 2; TEARDOWN = 3; INITIALIZED = 1; FREE = 0; NL_MAPPED = 1; BLOCKING = 3
    UNIT["D"] = UNIT["F"] = "hpa"; UNIT["G"] = "gpa"; UNIT["L"] = "level"; UNIT["K"] = "key"
    IS_UNIT["hpa"] = IS_UNIT["gpa"] = IS_UNIT["level"] = IS_UNIT["key"] = 1
}

function name_codes(unit, list,   n, name, i) {
    n = split(list, name, ",")
    for (i = 1; i <= n; i++) NAME[unit, i - 1] = name[i]
}

# The paper's table of calls. Codes are digits, any of which will do; "live" is lifecycle 1, pages 4, op state 1 or 2. BECOMES is the code that
# the lifecycle, the op state or the new entry's state goes to.
function rules() {
    #    call          operands   lowest lifecycle pages   op state entry      becomes further
    rule("create",     "F K",     "",    "",       "",     "",      "",        0,      "free key record")
    rule("keyconfig",  "D",       "",    "0",      "",     "",      "",        1,      "")
    rule("addcx",      "D F",     "",    "1",      "0123", "",      "",        "",     "free")
    rule("init",       "D",       "",    "1",      "4",    "0",     "",        1,      "")
    rule("septadd",    "D G L F", 1,     "1",      "4",    "12",    "0",       1,      "free table")
    rule("pageadd",    "D G F",   0,     "1",      "4",    "1",     "0",       2,      "free")
    rule("finalize",   "D",       "",    "1",      "4",    "1",     "",        2,      "")
    rule("pageaug",    "D G F",   0,     "1",      "4",    "2",     "0",       3,      "free")
    rule("block",      "D G L",   0,     "1",      "4",    "12",    "123",     "",     "")
    rule("track",      "D",       "",    "1",      "4",    "12",    "",        "",     "")
    rule("unblock",    "D G L",   0,     "1",      "4",    "12",    "456",     "",     "tracked")
    rule("pageremove", "D G",     0,     "1",      "4",    "12",    "56",      "",     "tracked")
    rule("septremove", "D G L",   1,     "1",      "4",    "12",    "4",       "",     "tracked empty")
    rule("flushdone",  "D",       "",    "01",     "",     "",      "",        2,      "")
    rule("cachewb",    "",        "",    "",       "",     "",      "",        4,      "")
    rule("keyfree",    "D",       "",    "4",      "",     "",      "",        3,      "")
    rule("reclaim",    "F",       "",    "3",      "",     "",      "",        "",     "")
    rule("readpage",   "F",       "",    "",       "",     "",      "",        "",     "")
    rule("readentry",  "D G L",   0,     "1",      "4",    "12",    "0123456", "",     "")
}

function rule(name, operands, lowest, lifecycles, pages, op_states, states, becomes, further) {
    OPERANDS[name] = operands
    LOWEST_LEVEL[name] = lowest
    LIFECYCLES[name] = lifecycles
    LISTED[name] = pages
    OP_STATES[name] = op_states
    STATES[name] = states
    BECOMES[name] = becomes
    ALSO[name] = " " further " "
}

# ---- numbers and words

# Some awks are built without the operator for powers.
function power_of_two(bits,   power) {
    for (power = 1; bits > 0; bits--) power *= 2
    return power
}

function is_below(number, limit) { return length(number) <= EXACT_DIGITS && number + 0 < limit }

# The remainder of a number of any length.
function remainder(number, divisor,   rest, i) {
    for (i = 1; i <= length(number); i++) rest = (rest * 10 + substr(number, i, 1)) % divisor
    return rest + 0
}

function is_above_highest(number) {
    if (length(number) != length(NUMBER_HIGHEST)) return length(number) > length(NUMBER_HIGHEST)
    return (number "") > (NUMBER_HIGHEST "")
}

function whole(number) { return sprintf("%.0f", number) }
function hpa_of(frame) { return whole(BASE + FRAME_BYTES * frame) }
function index_at(gpa, level) { return int(gpa / ALIGNED_TO[level]) % ENTRIES }
function has(set, code) { return index(set, code) > 0 }
function also(word) { return index(ALSO[call], " " word " ") > 0 }
function coded(unit, code) { return unit " " code " (" NAME[unit, code] ")" }
function fill_text(   fill) { fill = sprintf("%.10g", used / FRAMES); return "used " used " of frames " FRAMES " is fill " fill }

function any_of(unit, codes,   said, i) {
    for (i = 1; i <= length(codes); i++) said = said (i > 1 ? " or " : "") coded(unit, substr(codes, i, 1))
    return said
}

function the_domain(tdr) { return "the domain at hpa " hpa_of(tdr) }
function its_domain(tdr) { return "its domain, at hpa " hpa_of(tdr) ", is in " coded("lifecycle", LIFE[tdr]) }
function domain_of(frame) { return TYPE[frame] == TDR ? frame : OWNER[frame] }
function the_entry() { return "the entry of gpa " TEXT["G"] " at level " asked_level() }
function asked_level() { return has(OPERANDS[call], "L") ? TEXT["L"] : 0 }

function the_frame(frame,   said) {
    said = "frame " frame " is of " coded("type", TYPE[frame] + 0)
    if (TYPE[frame] == NDA) return said ", free"
    return TYPE[frame] == TDR ? said : said ", owned by " the_domain(OWNER[frame])
}

# ---- answer 15: a line as a call. These give 1 if the line can't be read, and the reason in `why`.

function unreadable(reason) { return refuse(15, "unreadable: " reason) }

function judge_bytes(line,   byte) {
    if (line == "") return unreadable("the line is empty")
    if (length(line) > LINE_BYTES) return unreadable("the line has bytes " length(line) ", and at most bytes " LINE_BYTES " may stand in a line")
    if (!match(line, /[^\t!-~]/)) return 0
    byte = substr(line, RSTART, 1)
    if (byte == "\r") return unreadable("byte " RSTART " of the line is a CR, and a line ends in LF alone")
    if (byte == " ") return unreadable("byte " RSTART " of the line is a blank, and fields are parted by single tabs")
    return unreadable("byte " RSTART " of the line is no letter, digit or tab")
}

function judge_line(line,   n, field, roles, count, i) {
    if (judge_bytes(line)) return 1
    n = split(line, field, "\t")
    call = field[1]
    if (call == "") return unreadable("the line begins with a tab, not with a call's name")
    if (!(call in OPERANDS)) return unreadable("there is no call " call)
    count = split(OPERANDS[call], roles, " ")
    for (i = 1; i <= count; i++) {
        if (judge_unit(2 * i > n, field[2 * i], UNIT[roles[i]])) return 1
        if (judge_number(2 * i + 1 > n, field[2 * i + 1], UNIT[roles[i]])) return 1
        TEXT[roles[i]] = field[2 * i + 1]
    }
    if (n > 2 * count + 1) return unreadable(call " has fields " (2 * count + 1) (count ? "" : ", its name alone") ", and the line has fields " n)
    return 0
}

function judge_unit(is_missing, word, unit) {
    if (is_missing) return unreadable("the line ends where the unit " unit " belongs")
    if (word == unit) return 0
    if (word == "") return unreadable("nothing stands where the unit " unit " belongs")
    if (word ~ /^[0-9]+$/) return unreadable("number " word " stands where the unit " unit " belongs")
    if (word in IS_UNIT) return unreadable("the unit " word " stands where the unit " unit " belongs")
    return unreadable("there is no unit " word)
}

function judge_number(is_missing, word, unit) {
    if (is_missing || word == "") return unreadable("no number follows the unit " unit)
    if (word !~ /^[0-9]+$/) return unreadable("what follows the unit " unit " is no decimal number: " word)
    if (word ~ /^0./) return unreadable(unit " " word " has a leading zero")
    if (is_above_highest(word)) return unreadable(unit " " word " is above 2^64 - 1")
    return 0
}

# ---- the checks in the paper's order. Each gives 1 if it refuses, the answer in `answer`, the reason in `why`, the read-out in `read_out`.

function refuse(number, reason) {
    answer = number
    why = reason
    return 1
}

function refuse_at(number, level, state, reason) {
    read_out = "\tlevel\t" level "\tstate\t" state
    return refuse(number, reason)
}

function judge() {
    if (judge_operands()) return 1
    if (call == "reclaim") return judge_reclaim()
    return judge_domain() || judge_lifecycle() || judge_pages() || judge_op_state() || judge_free() || judge_key() \
        || judge_walk() || judge_state() || judge_tracked() || judge_empty() || judge_stock()
}

# Answer 1, for the first operand at fault.
function judge_operands(   count, roles, i) {
    count = split(OPERANDS[call], roles, " ")
    for (i = 1; i <= count; i++) {
        if (UNIT[roles[i]] == "hpa" && judge_hpa(roles[i], TEXT[roles[i]])) return 1
        if (roles[i] == "G" && judge_gpa(TEXT["G"], asked_level())) return 1
        if (roles[i] == "L" && judge_level(TEXT["L"])) return 1
        if (roles[i] == "K" && judge_key_range(TEXT["K"])) return 1
    }
    return 0
}

function judge_hpa(role, hpa,   is_inside, is_aligned, said) {
    is_inside = is_below(hpa, BASE + FRAME_BYTES * FRAMES) && !is_below(hpa, BASE)
    is_aligned = remainder(hpa, FRAME_BYTES) == 0
    if (is_inside && is_aligned) {
        FRAME[role] = (hpa - BASE) / FRAME_BYTES
        return 0
    }
    if (!is_aligned) said = "is not a multiple of bytes " FRAME_BYTES (is_inside ? "" : " and ")
    if (!is_inside) said = said "is outside the window, whose frames stand from hpa " hpa_of(0) " to hpa " hpa_of(FRAMES - 1)
    return refuse(1, "hpa " hpa " " said frame_hint(hpa))
}

# The slip of the house: a frame's number where an address in bytes belongs.
function frame_hint(hpa) {
    if (is_below(hpa, FRAMES)) return "; as a frame's number it would be frame " hpa
    if (is_below(hpa, BASE / FRAME_BYTES) || !is_below(hpa, BASE / FRAME_BYTES + FRAMES)) return ""
    return "; as a frame's number counted from byte 0 it would be frame " (hpa - BASE / FRAME_BYTES)
}

function judge_gpa(gpa, level) {
    if (!is_below(gpa, power_of_two(GPA_BITS))) return refuse(1, "gpa " gpa " is not below 2^" GPA_BITS)
    if (!is_below(level, TOP_LEVEL + 1) || remainder(gpa, ALIGNED_TO[level]) == 0) return 0
    return refuse(1, "gpa " gpa " is not a multiple of bytes " whole(ALIGNED_TO[level]) ", as level " level " needs")
}

function judge_level(level) {
    if (is_below(level, TOP_LEVEL + 1) && !is_below(level, LOWEST_LEVEL[call])) return 0
    return refuse(1, "level " level " is out of range: " call " takes level " LOWEST_LEVEL[call] " to level " TOP_LEVEL)
}

function judge_key_range(key) {
    if (is_below(key, KEY_HIGHEST + 1) && !is_below(key, KEY_LOWEST)) return 0
    return refuse(1, "key " key " is out of range: keys go from key " KEY_LOWEST " to key " KEY_HIGHEST)
}

# D's answer 2.
function judge_domain() {
    if (!has(OPERANDS[call], "D") || TYPE[FRAME["D"]] == TDR) return 0
    return refuse(2, "D is no TDR: " the_frame(FRAME["D"]))
}

# Answer 3.
function judge_lifecycle(   tdr) {
    tdr = FRAME["D"]
    if (LIFECYCLES[call] == "" || has(LIFECYCLES[call], LIFE[tdr])) return 0
    return refuse(3, the_domain(tdr) " is in " coded("lifecycle", LIFE[tdr]) ", and " call " needs " any_of("lifecycle", LIFECYCLES[call]) \
        (call == "keyfree" && LIFE[tdr] == BLOCKED ? ": " missing_write_back() : ""))
}

# A cachewb reaches every blocked domain, so one that is blocked now was blocked after the last.
function missing_write_back() {
    if (!cachewb_line) return "cachewb is missing"
    return "it was blocked after the cachewb of line " cachewb_line ", and another is missing"
}

# Answer 4.
function judge_pages(   listed) {
    listed = PAGES[FRAME["D"]]
    if (LISTED[call] == "" || has(LISTED[call], listed)) return 0
    return refuse(4, the_domain(FRAME["D"]) " has control pages " listed ", and " call " needs " \
        (listed < CONTROL_PAGES ? "" : "fewer than ") "control pages " CONTROL_PAGES)
}

# Answer 5.
function judge_op_state(   tdr) {
    tdr = FRAME["D"]
    if (OP_STATES[call] == "" || has(OP_STATES[call], OP[tdr])) return 0
    return refuse(5, the_domain(tdr) " is in " coded("op state", OP[tdr]) ", and " call " needs " any_of("op state", OP_STATES[call]))
}

# F's answer 2.
function judge_free(   frame) {
    frame = FRAME["F"]
    if (!also("free") || TYPE[frame] == NDA) return 0
    return refuse(2, "F is not free: " the_frame(frame) (has(OPERANDS[call], "D") && frame == FRAME["D"] ? ", and it is D itself" : ""))
}

# Answer 10.
function judge_key(   record, tdr) {
    if (!also("key")) return 0
    for (record = 0; record < RECORDS; record++) {
        if (!(record in TDR_OF)) continue
        tdr = TDR_OF[record]
        if (KEY[tdr] == TEXT["K"] + 0 && LIFE[tdr] != TEARDOWN)
            return refuse(10, "key " TEXT["K"] " is taken: " the_domain(tdr) " has it, in " coded("lifecycle", LIFE[tdr]))
    }
    return 0
}

# Answer 6. It leaves the table and the index of the entry asked for in `table` and `place`.
function judge_walk(   level, state) {
    if (STATES[call] == "") return 0
    table = FRAME["D"]
    for (level = TOP_LEVEL; level > asked_level(); level--) {
        place = index_at(TEXT["G"], level)
        state = STATE[table, place] + 0
        if (state != NL_MAPPED)
            return refuse_at(6, level, state, "the walk to gpa " TEXT["G"] " at level " asked_level() " stopped at level " level \
                ": the entry there is in " coded("state", state) ", and only " coded("state", NL_MAPPED) " leads on")
        table = LEADS[table, place]
    }
    place = index_at(TEXT["G"], level)
    return 0
}

# Answer 7.
function judge_state(   state) {
    if (STATES[call] == "") return 0
    state = STATE[table, place] + 0
    if (has(STATES[call], state)) return 0
    return refuse_at(7, asked_level(), state, the_entry() " is in " coded("state", state) ", and " call " needs " any_of("state", STATES[call]))
}

# Answer 8. Before finalize nothing need be tracked.
function judge_tracked(   tdr, frame) {
    tdr = FRAME["D"]
    frame = LEADS[table, place]
    if (!also("tracked") || OP[tdr] == INITIALIZED || BLOCKED_AT[frame] < EPOCH[tdr]) return 0
    return refuse(8, "not tracked: " its_tracking(tdr, frame))
}

# Answer 9 of septremove.
function judge_empty(   inner, i, count, first) {
    if (!also("empty")) return 0
    inner = LEADS[table, place]
    for (i = ENTRIES - 1; i >= 0; i--) if (STATE[inner, i] + 0 != FREE) { count++; first = i }
    if (!count) return 0
    return refuse(9, "the table in frame " inner " has entries " count " that are not FREE: the first is entry " first ", in " \
        coded("state", STATE[inner, first]))
}

# Answer 11.
function judge_stock() {
    if (also("record") && lowest_unused(TDR_OF, RECORDS) < 0) return refuse(11, "no record is unused: the records " RECORDS " are all in use")
    if (also("table") && lowest_unused(EPT_OF, TABLES) < 0) return refuse(11, "no table is unused: the tables " TABLES " are all in use")
    return 0
}

# Answers 2, 3 and 9 of reclaim.
function judge_reclaim(   frame, tdr) {
    frame = FRAME["F"]
    if (TYPE[frame] == NDA) return refuse(2, "nothing to reclaim: " the_frame(frame))
    tdr = domain_of(frame)
    if (!has(LIFECYCLES[call], LIFE[tdr]))
        return refuse(3, "frame " frame " is of " coded("type", TYPE[frame]) ": " its_domain(tdr) ", and reclaim needs " \
            any_of("lifecycle", LIFECYCLES[call]))
    if (frame == tdr && CHILDREN[tdr] > 0) return refuse(9, the_domain(tdr) " has children " CHILDREN[tdr] ", and a TDR goes last")
    return 0
}

function lowest_unused(holders, count,   number) {
    for (number = 0; number < count; number++) if (!(number in holders)) return number
    return -1
}

# ---- what an accepted call does to the account, and the sentence for it in `why`

function carry_out() {
    if (call == "create") create(FRAME["F"])
    else if (call == "addcx") list_page(FRAME["D"], FRAME["F"])
    else if (call == "init" || call == "finalize") move_op_state(FRAME["D"])
    else if (call == "keyconfig" || call == "flushdone" || call == "keyfree") move_lifecycle(FRAME["D"])
    else if (call == "cachewb") write_back()
    else if (call == "septadd" || call == "pageadd" || call == "pageaug") enter(FRAME["D"], FRAME["F"])
    else if (call == "block") block(FRAME["D"], LEADS[table, place])
    else if (call == "unblock") unblock(FRAME["D"], LEADS[table, place])
    else if (call == "track") move_epoch(FRAME["D"])
    else if (call == "pageremove" || call == "septremove") remove(FRAME["D"], LEADS[table, place])
    else if (call == "reclaim") reclaim(FRAME["F"])
    else if (call == "readpage") why = the_frame(FRAME["F"])
    else if (call == "readentry") tell_entry()
}

function create(tdr) {
    TYPE[tdr] = TDR; used++
    KEY[tdr] = TEXT["K"] + 0; LIFE[tdr] = BECOMES[call]; OP[tdr] = 0; PAGES[tdr] = 0; CHILDREN[tdr] = 0; EPOCH[tdr] = FIRST_EPOCH
    RECORD[tdr] = lowest_unused(TDR_OF, RECORDS)
    TDR_OF[RECORD[tdr]] = tdr
    wipe(tdr)
    why = "frame " tdr " becomes the TDR of a new domain with key " KEY[tdr] ", in record " RECORD[tdr] ": " coded("lifecycle", LIFE[tdr]) \
        ", " coded("op state", OP[tdr]) ", epoch " EPOCH[tdr]
}

function wipe(inner,   i) {
    for (i = 0; i < ENTRIES; i++) delete STATE[inner, i]
}

function give(tdr, frame, type) {
    TYPE[frame] = type; OWNER[frame] = tdr; BLOCKED_AT[frame] = 0
    CHILDREN[tdr]++; used++
}

# A frame becomes NDA. What is told of the stock goes behind the sentence.
function take_back(frame,   said) {
    if (TYPE[frame] == TDR) { delete TDR_OF[RECORD[frame]]; said = ", and record " RECORD[frame] " is given back" }
    else CHILDREN[OWNER[frame]]--
    if (TYPE[frame] == EPT) { delete EPT_OF[TABLE[frame]]; said = ", and table " TABLE[frame] " is given back" }
    TYPE[frame] = NDA; used--
    return said
}

function list_page(tdr, frame) {
    give(tdr, frame, TDCX)
    PAGES[tdr]++
    why = "frame " frame " becomes a TDCX of " the_domain(tdr) ", which now has control pages " PAGES[tdr]
}

function move_op_state(tdr,   before) {
    before = coded("op state", OP[tdr])
    OP[tdr] = BECOMES[call]
    why = the_domain(tdr) " goes from " before " to " coded("op state", OP[tdr])
}

function move_lifecycle(tdr,   before) {
    before = coded("lifecycle", LIFE[tdr])
    LIFE[tdr] = BECOMES[call]
    why = the_domain(tdr) " goes from " before " to " coded("lifecycle", LIFE[tdr])
    if (call != "keyconfig") why = why ", and key " KEY[tdr] " is " (LIFE[tdr] == TEARDOWN ? "free" : "still taken")
}

# The one call that moves several domains.
function write_back(   record, tdr, count, said) {
    cachewb_line = NR - 1
    for (record = 0; record < RECORDS; record++) {
        if (!(record in TDR_OF) || LIFE[TDR_OF[record]] != BLOCKED) continue
        tdr = TDR_OF[record]
        LIFE[tdr] = BECOMES[call]
        said = said (count++ ? ", and " : "") "the one at hpa " hpa_of(tdr) ", with key " KEY[tdr] " still taken"
    }
    if (!count) why = "no domain is in " coded("lifecycle", BLOCKED) ", and nothing changes"
    else why = "domains " count " go from " coded("lifecycle", BLOCKED) " to " coded("lifecycle", BECOMES[call]) ": " said
}

function move_epoch(tdr) {
    EPOCH[tdr]++
    why = the_domain(tdr) " goes from epoch " (EPOCH[tdr] - 1) " to epoch " EPOCH[tdr]
}

function enter(tdr, frame,   said) {
    give(tdr, frame, call == "septadd" ? EPT : REG)
    if (TYPE[frame] == EPT) {
        TABLE[frame] = lowest_unused(EPT_OF, TABLES)
        EPT_OF[TABLE[frame]] = frame
        wipe(frame)
        said = " with table " TABLE[frame]
    }
    STATE[table, place] = BECOMES[call]; LEADS[table, place] = frame
    why = "frame " frame " becomes " (TYPE[frame] == EPT ? "an EPT" : "a REG") said " of " the_domain(tdr) ", and " the_entry() \
        " leads to it, in " coded("state", BECOMES[call])
}

function turn(by,   before) {
    before = coded("state", STATE[table, place])
    STATE[table, place] += by
    return the_entry() " goes from " before " to " coded("state", STATE[table, place])
}

function block(tdr, frame) {
    BLOCKED_AT[frame] = EPOCH[tdr]
    why = turn(BLOCKING) ", and frame " frame " notes epoch " EPOCH[tdr]
}

function unblock(tdr, frame) {
    why = turn(-BLOCKING) ": " its_tracking(tdr, frame)
}

function remove(tdr, frame,   tracking, said) {
    tracking = its_tracking(tdr, frame)
    said = take_back(frame)
    STATE[table, place] = FREE
    why = "frame " frame " becomes NDA and " the_entry() " FREE" said ": " tracking
}

# Why a frame is tracked, or isn't.
function its_tracking(tdr, frame,   said) {
    said = "the domain is in " coded("op state", OP[tdr])
    if (OP[tdr] == INITIALIZED) return said " and needs no tracking"
    return said " and at epoch " EPOCH[tdr] ", and frame " frame " was blocked at epoch " BLOCKED_AT[frame]
}

function reclaim(frame,   tdr, said) {
    tdr = domain_of(frame)
    said = "frame " frame ", of " coded("type", TYPE[frame]) ", becomes NDA"
    said = said take_back(frame)
    why = said ": " its_domain(tdr) ", with children " CHILDREN[tdr] " left"
}
function tell_entry(   state) {
    state = STATE[table, place] + 0
    why = the_entry() " is in " coded("state", state) (state == FREE ? "" : " and leads to frame " LEADS[table, place])
}

# An accepted call moves the gauge; where the lamp changes, the sentence says so.
function move_lamp(   fill) {
    fill = used / FRAMES
    if (fill >= RAISE_MARK && !lamp) { lamp = 1; why = why "; " fill_text() ", and the lamp is lit" }
    if (fill < CLEAR_MARK && lamp) { lamp = 0; why = why "; " fill_text() ", and the lamp is put out" }
}

# ---- the lines of the answers

# Whether the line is the one that the rules give. If not, the account is of no use from here on.
function agrees(expected) {
    if (!is_lost && $0 == expected) return 1
    gsub(/\t/, " ", expected)
    print $0 "\tno reason found" (is_lost ? "" : ": the rules give \"" expected "\"" (why == "" ? "" : ", for " why))
    is_lost = 1
    return 0
}

function first_line() {
    if (agrees("bytes\t" FRAME_BYTES "\tframes\t" FRAMES))
        print $0 "\tthe window has frames " FRAMES " of bytes " FRAME_BYTES " each, from hpa " hpa_of(0) " to hpa " hpa_of(FRAMES - 1) \
            ": all are free, and the lamp is out"
}

function answer_line(number,   line, has_line) {
    answer = 0; why = read_out = ""
    has_line = (getline line < script) > 0
    if (!has_line) { why = "the script has no such line"; return agrees("") }
    if (number > LINES) unreadable("a script has at most lines " LINES ", and the reading ends here")
    else if (!judge_line(line) && !judge()) look()
    if (!agrees("line\t" number "\tanswer\t" answer read_out)) return
    if (answer == 0) { carry_out(); move_lamp() }
    print $0 "\t" why
}

# What an accepted read reads out.
function look(   frame, state) {
    frame = FRAME["F"]
    state = STATE[table, place] + 0
    if (call == "readpage") read_out = "\ttype\t" (TYPE[frame] + 0) "\towner\t" (TYPE[frame] > TDR ? hpa_of(OWNER[frame]) : 0)
    if (call == "readentry")
        read_out = "\tlevel\t" asked_level() "\tstate\t" state "\thpa\t" (state == FREE ? 0 : hpa_of(LEADS[table, place]))
}

function last_line(   fill, said) {
    why = ""
    is_ended = 1
    fill = used / FRAMES
    if (fill >= RAISE_MARK) said = "at or above the raise mark " RAISE_MARK ": the lamp is lit"
    else if (fill < CLEAR_MARK) said = "below the clear mark " CLEAR_MARK ": the lamp is out"
    else said = "below the raise mark " RAISE_MARK " but not below the clear mark " CLEAR_MARK ": the lamp stays " (lamp ? "lit" : "out")
    if (agrees("used\t" used "\tlamp\t" lamp)) print $0 "\t" fill_text() ", " said
}

BEGIN {
    FS = "\t"
    used = lamp = 0
    limits()
    names()
    rules()
}

NR == 1 { first_line(); next }
$1 == "line" && !is_ended { answer_line(NR - 1); next }
{ last_line() }

END {
    if (!is_ended) print "tools/explain: the answers have no last line: used, lamp" > "/dev/stderr"
    exit is_lost || !is_ended ? 3 : 0
}

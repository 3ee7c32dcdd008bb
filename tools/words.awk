# Commands, host answers and status words of paper 01 in words. Commands and responses are upper-case hexadecimal digits.

BEGIN {
    names("A4 SELECT,F2 STATUS,B0 READ BINARY,D6 UPDATE BINARY,B2 READ RECORD,DC UPDATE RECORD,A2 SEEK,32 INCREASE,20 VERIFY,24 CHANGE")
    names("26 DISABLE,28 ENABLE,2C UNBLOCK,04 INVALIDATE,44 REHABILITATE,FA SLEEP,C0 GET RESPONSE")
    # Of the standard, not played here.
    names("88 RUN GSM ALGORITHM,10 TERMINAL PROFILE,12 FETCH,14 TERMINAL RESPONSE,C2 ENVELOPE")
    sends = " A4 D6 DC A2 32 20 24 26 28 2C "

    HOST[1] = "not an image of the shelf form"
    HOST[2] = "the session does not fit the image"
    HOST[3] = "the response room is under 258 bytes"
    HOST[4] = "under 5 command bytes, or not the data bytes that P3 tells"

    WORDS["9000"] = "done"
    WORDS["9240"] = "memory problem"
    WORDS["9400"] = "no EF is selected"
    WORDS["9402"] = "out of range"
    WORDS["9404"] = "identifier or pattern not found"
    WORDS["9408"] = "the file's structure does not suit the command"
    WORDS["9802"] = "the code is not initialised"
    WORDS["9804"] = "access not fulfilled or wrong code"
    WORDS["9808"] = "contradicts the state of CHV1, disabled or enabled"
    WORDS["9810"] = "contradicts the file's invalidation status"
    WORDS["9840"] = "the code is blocked, no attempts left"
    WORDS["9850"] = "the increase would pass the maximum"
    WORDS["6B00"] = "wrong P1 or P2"
    WORDS["6D00"] = "unknown instruction"
    WORDS["6E00"] = "wrong class"
    WORDS["6F00"] = "no response waits"
}

function names(list,   count, entries, i) {
    count = split(list, entries, ",")
    for (i = 1; i <= count; i++)
        NAMES[substr(entries[i], 1, 2)] = substr(entries[i], 4)
}

# The number that a byte or two tell.
function number(digits,   i, sum) {
    for (i = 1; i <= length(digits); i++)
        sum = sum * 16 + index("0123456789ABCDEF", substr(digits, i, 1)) - 1
    return sum + 0
}

function counted(count, what) {
    return count " " what (count == 1 ? "" : "s")
}

# A command's name and what its header asks for.
function name_of(command,   ins) {
    ins = substr(command, 3, 2)
    if (command == "")
        return "(no bytes)"
    if (length(command) < 10)
        return "(under 5 bytes)"
    if (substr(command, 1, 2) != "A0")
        return "(class " substr(command, 1, 2) ")"
    if (!(ins in NAMES))
        return "(instruction " ins ")"
    return NAMES[ins] asked(ins, substr(command, 5, 2), substr(command, 7, 2), substr(command, 9, 2), substr(command, 11))
}

function asked(ins, p1, p2, p3, data) {
    if (ins == "A4")
        return length(data) == 4 ? " " data : ""
    if (ins == "F2" || ins == "C0")
        return " " number(p3)
    if (ins == "B0" || ins == "D6")
        return " " (ins p3 == "B000" ? 256 : number(p3)) " at " number(p1 p2)
    if (ins == "B2" || ins == "DC")
        return record(number(p1), p2)
    if (ins == "A2")
        return seek(p2)
    if (ins == "20" || ins == "24" || ins == "26" || ins == "28")
        return p2 == "01" ? " CHV1" : p2 == "02" ? " CHV2" : ""
    if (ins == "2C")
        return p2 == "00" ? " CHV1" : p2 == "02" ? " CHV2" : ""
    return ""
}

function record(place, mode) {
    if (mode == "02")
        return " next"
    if (mode == "03")
        return " previous"
    if (mode == "04")
        return place ? " " place : " current"
    return " in mode " mode
}

function seek(mode,   low, high, way) {
    high = substr(mode, 1, 1)
    low = index("0123", substr(mode, 2))
    if (!low || high !~ /[01]/)
        return " in mode " mode
    split("from first,from last,next,previous", way, ",")
    return " " way[low] (high == "1" ? ", number" : "")
}

# A status word in words; the command tells what some lengths mean.
function words_of(status, command,   high, low) {
    high = substr(status, 1, 2)
    low = number(substr(status, 3))
    if (status in WORDS)
        return WORDS[status]
    if (high == "9F")
        return "done, " counted(low, "byte") (low == 1 ? " waits" : " wait")
    if (high == "92" && low < 16)
        return "done after " low (low == 1 ? " retry" : " retries")
    if (high == "67")
        return "wrong length in P3" right_length(low, substr(command, 3, 2))
    return "a status word that paper 01 does not name"
}

# 67 00 names a length only where 0 is the one allowed.
function right_length(length_told, ins) {
    if (length_told || ins == "04" || ins == "44" || ins == "FA")
        return ", " length_told " would do"
    if (ins == "A2")
        return ", 1 to 16 would do"
    return ", 1 or more would do"
}

function host_words(host, command,   data, p3) {
    if (host != 4)
        return HOST[host]
    if (length(command) < 10)
        return "the command has under 5 bytes"
    data = length(command) / 2 - 5
    p3 = number(substr(command, 9, 2))
    if (!index(sends, " " substr(command, 3, 2) " ") && data)
        return counted(data, "data byte") " where the command sends none"
    if (index(sends, " " substr(command, 3, 2) " ") && data != p3)
        return counted(data, "data byte") " where P3 tells " p3
    return HOST[4]
}

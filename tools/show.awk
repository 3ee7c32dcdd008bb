# Lays out a run: first the plan of tools/text.awk (with part=plan), then the player's lines (with part=answers). With tools/words.awk.
# Exit status 0; 1 where an expectation is not met; 3 where the player did not answer every command in its form.

part == "plan" {
    ++commands
    from[commands] = $1
    command[commands] = $2 == "-" ? "" : $2
    host[commands] = $3
    response[commands] = $4
    next
}

{
    told[++lines] = $0
}

END {
    if (commands)
        lay_out()
    for (i = 1; i <= commands; i++)
        row(i)
    for (i = commands + 1; i <= lines; i++) {
        print "The player printed a line too many: " told[i]
        faults++
    }
    print summary()
    exit faults ? 3 : unmet ? 1 : 0
}

# Columns as wide as they must be; long commands go on below.
function lay_out(   i) {
    widest_name = length("Command")
    widest_command = length("Bytes")
    for (i = 1; i <= commands; i++) {
        widest_name = larger(widest_name, length(name_of(command[i])))
        widest_command = larger(widest_command, length(command[i]))
        if (host[i] != ".")
            expected++
    }
    if (widest_command > 42)
        widest_command = 42
    widest_number = larger(3, length(commands ""))
    print left("No.", "Command", "Bytes") "    Host  " (expected ? "Expected  " : "") "Answer"
}

function larger(a, b) {
    return a > b ? a : b
}

function left(place, name, bytes) {
    return before(place, widest_number) "  " after(name, widest_name) "  " after(bytes, widest_command)
}

function before(text, width) {
    return substr("          ", 1, width - length(text)) text
}

function after(text, width) {
    while (length(text) < width)
        text = text " "
    return text
}

# One command beside its answer. Data of more than 24 bytes goes below the answer, 32 bytes a line.
function row(i,   words, data, start, below) {
    start = widest_command + 1
    if (!sound(i)) {
        print left(i "", name_of(command[i]), substr(command[i], 1, start - 1)) " -> " (i in told ? "the player printed: " told[i] : "no answer")
        faults++
        unmet += host[i] != "."
        below_row(command[i], start, "")
        return
    }
    split(told[i], words, " ")
    data = words[2] == "0" ? substr(words[3], 1, length(words[3]) - 4) : ""
    below = length(data) > 48 ? data : ""
    print left(i "", name_of(command[i]), substr(command[i], 1, start - 1)) " -> " words[2] "     " mark(i, words[2], words[3]) \
        answer(words[2], words[3], command[i]) (below != "" ? ", " length(data) / 2 " bytes:" : data != "" ? ": " data : "")
    below_row(command[i], start, below)
    if (!met(i, words[2], words[3])) {
        unmet++
        print left("", "", "") "    expected in line " from[i] ": " host[i] "  " wanted(i)
    }
}

# What is left of the command from its digit `start`, and the data, side by side.
function below_row(command, start, data,   place, text) {
    for (place = 1; start <= length(command) || place <= length(data); place += 64) {
        text = left("", "", substr(command, start, widest_command)) (place <= length(data) ? "          " (expected ? "          " : "") substr(data, place, 64) : "")
        sub(/ +$/, "", text)
        print text
        start += widest_command
    }
}

# Whether the player's line has its form: command number, host answer, response or `-`.
function sound(i,   words) {
    if (!(i in told) || split(told[i], words, " ") != 3 || words[1] != i "" || words[2] !~ /^[0-4]$/)
        return 0
    if (words[2] != "0")
        return words[3] == "-"
    return length(words[3]) >= 4 && length(words[3]) % 2 == 0 && words[3] !~ /[^0-9A-F]/
}

function answer(host, response, command,   status) {
    if (host != "0")
        return "-      " host_words(host, command)
    status = substr(response, length(response) - 3)
    return substr(status, 1, 2) " " substr(status, 3) "  " words_of(status, command)
}

function met(i, own_host, own_response) {
    return host[i] == "." || (host[i] == own_host && response[i] "" == own_response "")
}

function mark(i, own_host, own_response) {
    if (!expected)
        return ""
    if (host[i] == ".")
        return "          "
    return met(i, own_host, own_response) ? "met       " : "NOT MET   "
}

# An expectation in words, as far as it is an answer that can be.
function wanted(i,   data) {
    if (host[i] != "0" || length(response[i]) < 4)
        return response[i]
    data = substr(response[i], 1, length(response[i]) - 4)
    return answer("0", response[i], command[i]) (data == "" ? "" : ": " data)
}

function summary(   text) {
    text = (commands + 0) (commands == 1 ? " command" : " commands")
    if (expected)
        text = text ", " expected - unmet " of " expected " expectations met"
    if (faults)
        text = text "; the player did not answer as it should " faults (faults == 1 ? " time" : " times")
    return text
}

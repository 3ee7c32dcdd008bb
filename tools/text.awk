# Reads a run in text form; ./play --help tells the form. Where the text has no mistake it writes, to the files that the environment names,
#   BYTES: the playing program's input as calls of the shell's printf with octal escapes (awk itself may lose NUL bytes);
#   PLAN:  a line a command: its line in the text, the command, the host answer and the response expected (`-` no bytes, `.` not written).
# Mistakes go to standard output, with file, line, what is wrong and what to do; the exit status is 2 then. NAME is the text's name as the
# user wrote it, FOLDER its folder with a slash.

BEGIN {
    name = ENVIRON["NAME"]
    most = 65535
    how = "write `image FILE`, or `image` and lines of hexadecimal below it"
}

{
    line = trimmed($0)
    if (line == "")
        next
    word = line
    sub(/[ \t].*/, "", word)
    rest = trimmed(substr(line, length(word) + 1))
    if (part == "end")
        stop(NR, "`" line "` stands after `end`: take it away, or put it above `end`")
    else if (word == "image")
        image_line(rest)
    else if (word == "commands" || word == "end")
        part_line(word, rest)
    else if (part == "image")
        add_image(digits_of(line, name, NR), name, NR)
    else if (part == "commands")
        command_line(line)
    else
        outside(line)
}

END {
    if (!mistakes)
        check_whole()
    if (mistakes)
        exit 2
    write_plan()
    write_bytes()
}

# Mistakes. After ten, and after one that makes the lines below it meaningless, nothing more is read.

function mistake(where, at, what) {
    print where ":" at ": " what
    if (++mistakes == 10) {
        print name ": there may be more mistakes; these are the first ten"
        exit 2
    }
}

function stop(at, what) {
    mistake(name, at, what)
    exit 2
}

function check_whole() {
    if (commands_at && !image_at)
        stop(commands_at, "no image stands above the commands: " how ", above this line")
    if (!image_at)
        stop(NR ? NR : 1, "nothing is written here but blanks and comments: " how ", then `commands` and one command a line")
    if (!commands_at)
        stop(NR, "the text ends without commands: write `commands` and one command a line below the image")
}

function outside(line) {
    if (part == "file")
        stop(NR, "`" shortened(line) "` stands below `image FILE`, which is the whole image: write `commands` first if this is a command")
    stop(NR, "`" shortened(line) "` stands in no part: " how ", then `commands` and one command a line")
}

# The lines that start a part.

function image_line(file) {
    if (commands_at && !image_at)
        stop(commands_at, "the commands stand before the image, which is in line " NR ": put the image above `commands`")
    if (image_at)
        stop(NR, "a second image, after the one in line " image_at ": a text has one; take one of them away")
    image_at = NR
    part = "image"
    if (file != "") {
        part = "file"
        read_image(file)
    }
}

function part_line(word, rest) {
    if (rest != "")
        stop(NR, "`" shortened(rest) "` stands after `" word "`: put it on a line of its own")
    if (word == "commands" && commands_at)
        stop(NR, "a second `commands`, after the one in line " commands_at ": take it away")
    part = word
    if (word == "commands")
        commands_at = NR
}

# The image.

function read_image(file,   path, text, at, told) {
    path = file ~ /^\// ? file : ENVIRON["FOLDER"] file
    if (system("test -f " quoted(path) " && test -r " quoted(path)) != 0)
        stop(NR, "there is no image file `" file "` that can be read: its name starts from this text's folder; put it there or write its name anew")
    while ((told = (getline text < path)) > 0)
        add_image(digits_of(trimmed(text), path, ++at), path, at)
    close(path)
    if (told < 0)
        stop(NR, "the image file `" file "` cannot be read to its end")
}

function add_image(digits, where, at) {
    image[++pieces] = digits
    image_bytes += length(digits) / 2
    if (image_bytes > most && !too_large++)
        mistake(where, at, "the image passes 65535 bytes here, the most that its count can tell: take bytes away")
}

# The commands.

function command_line(line,   at) {
    at = index(line, "=>")
    ++commands
    from[commands] = NR
    host[commands] = response[commands] = "."
    command[commands] = digits_of(at ? substr(line, 1, at - 1) : line, name, NR)
    if (at && (line ~ /^[ \t]*=>/))
        mistake(name, NR, "no command stands before `=>`: write it there, or `-` for a command of no bytes")
    if (length(command[commands]) / 2 > most)
        mistake(name, NR, "a command of " length(command[commands]) / 2 " bytes: 65535 are the most that its count can tell; take bytes away")
    if (commands == most + 1)
        mistake(name, NR, "the 65536th command: 65535 are the most that their number can tell; put the others into another text")
    if (at)
        expectation(trimmed(substr(line, at + 2)))
}

# `=>` with nothing after it is an expectation still to be written.
function expectation(text,   first, digits) {
    if (text == "")
        return
    first = text
    sub(/[ \t].*/, "", first)
    text = trimmed(substr(text, length(first) + 1))
    if (first !~ /^[0-4]$/) {
        mistake(name, NR, "`" shortened(first) "` is no host answer: write 0 to 4 after `=>`, then the response")
        return
    }
    if (text == "") {
        mistake(name, NR, "no response is written after the host answer: write it in hexadecimal, or `-` for none")
        return
    }
    digits = digits_of(text, name, NR)
    host[commands] = first
    response[commands] = digits
}

# Text.

function trimmed(text) {
    sub(/#.*/, "", text)
    sub(/^[ \t\r\f\v]+/, "", text)
    sub(/[ \t\r\f\v]+$/, "", text)
    return text
}

function shortened(text) {
    return length(text) > 40 ? substr(text, 1, 40) ".." : text
}

# A character for a message.
function shown(character) {
    return character ~ /[!-~]/ ? "`" character "`" : "a character that is not of ASCII"
}

# A word of the shell that stands for the text, whatever it holds.
function quoted(text,   count, parts, i, word) {
    count = split(text, parts, "'")
    word = "'" parts[1]
    for (i = 2; i <= count; i++)
        word = word "'\\''" parts[i]
    return word "'"
}

# The upper-case digits of bytes in hexadecimal; none for `-`, and none where a mistake was told.
function digits_of(text, where, at) {
    gsub(/[ \t\r\f\v]+/, "", text)
    if (text == "-")
        return ""
    if (match(text, /[^0-9A-Fa-f]/)) {
        mistake(where, at, shown(substr(text, RSTART, 1)) " is no hexadecimal digit: bytes are written with 0 to 9 and A to F, and a comment starts with `#`")
        return ""
    }
    if (length(text) % 2) {
        mistake(where, at, "an odd number of hexadecimal digits, " length(text) ": a byte has two; add the one that is missing or take one away")
        return ""
    }
    return toupper(text)
}

# Output.

function write_plan(   i) {
    printf "" > ENVIRON["PLAN"]
    for (i = 1; i <= commands; i++)
        print from[i], or_none(command[i]), host[i], or_none(response[i]) > ENVIRON["PLAN"]
    close(ENVIRON["PLAN"])
}

function or_none(digits) {
    return digits == "" ? "-" : digits
}

function write_bytes(   i) {
    for (i = 0; i < 256; i++)
        octal[sprintf("%02X", i)] = sprintf("\\%03o", i)
    put_count(image_bytes)
    for (i = 1; i <= pieces; i++)
        put(image[i])
    put_count(commands)
    for (i = 1; i <= commands; i++) {
        put_count(length(command[i]) / 2)
        put(command[i])
    }
    flush()
    close(ENVIRON["BYTES"])
}

function put_count(count) {
    put(sprintf("%04X", count))
}

# Long texts are cut first: some awks walk from the start for each substr.
function put(digits,   start, piece, i) {
    for (start = 1; start <= length(digits); start += 256) {
        piece = substr(digits, start, 256)
        for (i = 1; i <= length(piece); i += 2)
            escapes = escapes octal[substr(piece, i, 2)]
        if (length(escapes) > 512)
            flush()
    }
}

function flush() {
    if (escapes != "")
        print "printf '" escapes "'" > ENVIRON["BYTES"]
    escapes = ""
}

# What the program flow takes, by its sources: bin/flow asks here where no program is built.
#
#     awk -f bin/commands.awk FILE list             prints each command with what it does
#     awk -f bin/commands.awk FILE usage COMMAND    prints how that command is called
#     awk -f bin/commands.awk FILE judge WORD..     prints what the program would make of these words: taken, help, help COMMAND,
#                                                   version, or refused and why
#
# FILE is crates/flow_tool/src/command.rt, in which each command is an `Entry` with its arguments, and each argument has a `Form`.

BEGIN {
    if (!read_tokens(ARGV[1])) exit
    for (at = 1; at <= last; at++) {
        if (token[at] == "const" && token[at + 3] == "Argument") {
            shared[token[at + 1]] = at
        } else if (token[at] == "const" && token[at + 3] == "Entry") {
            read_entry(at + 4)
        } else if (token[at] == "range" && token[at + 3] token[at + 4] token[at + 5] == "..=") {
            least = token[at + 2] + 0
            most = token[at + 6] + 0
        }
    }
    if (ARGV[2] == "list") {
        for (number = 1; number <= commands; number++) print named[number], about[named[number]]
    } else if (ARGV[2] == "usage") {
        print usage_of(ARGV[3])
    } else if (ARGV[2] == "judge") {
        print judged()
    }
}

# Cuts the sources into names and numbers, texts, and single characters.
function read_tokens(file,    line, text) {
    while ((getline line < file) > 0) if (line !~ /^ *\/\//) text = text line " "
    while (match(text, /"([^"\\]|\\.)*"|[A-Za-z_0-9]+|[^ ]/)) {
        token[++last] = substr(text, RSTART, RLENGTH)
        text = substr(text, RSTART + RLENGTH)
    }
    return last
}

# Reads a command.
function read_entry(at,    name) {
    for (; token[at] != ";" && at < last; at++) {
        if (token[at + 1] != ":") continue
        if (token[at] == "name") {
            name = unquoted(token[at + 2])
            named[++commands] = name
        } else if (token[at] == "about") {
            about[name] = unquoted(token[at + 2])
        } else if (token[at] == "arguments") {
            read_arguments(name, at + 2)
        }
    }
}

# Reads the arguments of a command.
function read_arguments(name, at,    depth) {
    count[name] = 0
    do {
        if (token[at] == "[" || token[at] == "(") depth++
        if (token[at] == "]" || token[at] == ")") depth--
        if (token[at] == "argument") read_argument(name, at)
        else if (token[at] in shared) read_argument(name, shared[token[at]] + 5)
        at++
    } while ((depth > 0 || token[at - 1] == "&") && at < last)
}

# Reads an argument: its own name, its form, and what stands in the form.
function read_argument(name, at,    number) {
    number = ++count[name]
    own[name, number] = unquoted(token[at + 3])
    form[name, number] = token[at + 8]
    if (form[name, number] !~ /^(Needed|Optional|Parts|Words|SomeWords|Named|Repeated|Flag)$/) has_others[name] = 1
    for (at += 9; token[at] != ")" && at < last; at++)
        if (token[at] ~ /^"/) told[name, number] = told[name, number] (told[name, number] == "" ? "" : " ") unquoted(token[at])
}

function unquoted(text) {
    return substr(text, 2, length(text) - 2)
}

# How a command is called.
function usage_of(name,    number, line) {
    line = "usage: flow " name
    for (number = 1; number <= count[name]; number++) line = line " " shown_as(form[name, number], own[name, number], told[name, number])
    return line
}

function shown_as(kind, name, value) {
    if (kind == "Optional") return "[" value "]"
    if (kind == "Words") return "[" value "..]"
    if (kind == "SomeWords") return value ".."
    if (kind == "Named") return "[--" name " " value "]"
    if (kind == "Repeated") return "[--" name " " value "].."
    if (kind == "Flag") return "[--" name "]"
    return value
}

# What the program would make of the words behind `judge`.
function judged(    name) {
    name = ARGV[3]
    if (name == "--help" || name ~ /^-h/) return "help"
    if (name == "--version" || name == "-V") return "version"
    if (!(name in count)) return "refused there is no command " shown(name)
    # of forms that came later nothing is known here
    return name in has_others ? "taken" : judged_of(name)
}

# Goes over the words of a command, as far as one is wrong or asks for help.
function judged_of(name,    at, word, are_plain, why, number) {
    for (at = 4; at < ARGC; at++) {
        word = ARGV[at]
        if (are_plain || word == "-" || word !~ /^-/) {
            why = placed(name, word)
        } else if (word == "--") {
            are_plain = 1
        } else if (word == "--help" || word ~ /^-h/) {
            return "help " name
        } else {
            number = option_of(name, word)
            why = number ? given_option(name, number, word, ARGV[at + 1], at + 1 < ARGC) : 1
            if (number && takes_word(name, number) && word !~ /=/) at++
        }
        if (why) return refused(name, why)
    }
    return lacks(name) ? refused(name, 1) : unpaired(name)
}

# Puts a word in the next place that takes one, and answers what is wrong with that.
function placed(name, word,    number) {
    for (number = 1; number <= count[name]; number++) {
        if (form[name, number] ~ /^(Named|Repeated|Flag)$/) continue
        if (has[number] && form[name, number] !~ /Words$/) continue
        has[number] = 1
        return form[name, number] == "Parts" && !is_in_range(word) ? told[name, number] " is a number from " least " to " most : ""
    }
    return 1
}

function is_in_range(word) {
    return word ~ /^[+]?[0-9]+$/ && word + 0 >= least && word + 0 <= most
}

# The option that this word names, or 0.
function option_of(name, word,    number) {
    sub(/=.*/, "", word)
    for (number = 1; number <= count[name]; number++)
        if (form[name, number] ~ /^(Named|Repeated|Flag)$/ && word == "--" own[name, number]) return number
    return 0
}

# Notes an option, and answers whether it is wrong: it is there already, lacks its word, has one without need, or stands beside what it
# never stands beside.
function given_option(name, number, word, following, is_followed,    other) {
    if (has[number]++ && form[name, number] != "Repeated") return 1
    if (takes_word(name, number)) return word !~ /=/ && (!is_followed || following ~ /^-./)
    if (word ~ /=/) return 1
    for (other = 1; other <= count[name]; other++)
        if (has[other] && other != number && (excludes(name, number, other) || excludes(name, other, number))) return 1
    return 0
}

# Whether a word follows this option.
function takes_word(name, number) {
    return form[name, number] ~ /^(Named|Repeated)$/
}

function excludes(name, number, other) {
    return form[name, number] == "Flag" && index(" " told[name, number] " ", " " own[name, other] " ")
}

# Whether a word is missing.
function lacks(name,    number) {
    for (number = 1; number <= count[name]; number++)
        if (form[name, number] ~ /^(Needed|Parts|SomeWords)$/ && !has[number]) return 1
    return 0
}

# Some options are of no use without another.
function unpaired(name,    number, given) {
    for (number = 1; number <= count[name]; number++) if (has[number]) given[own[name, number]] = 1
    if ("align" in given && !("by-key" in given)) return "refused --align is for --by-key"
    if ("unmatched" in given && !("align" in given)) return "refused --unmatched is for --by-key --align"
    if (name == "feed" && "force" in given && !("bad" in given)) return "refused --force is for --bad"
    if (name == "results" && "force" in given && !("files" in given)) return "refused --force is for --files"
    return "taken"
}

function refused(name, why) {
    return "refused " (why == 1 ? usage_of(name) : why)
}

# A word without control characters.
function shown(word) {
    gsub(/[\001-\037\177]/, "?", word)
    return "\"" word "\""
}

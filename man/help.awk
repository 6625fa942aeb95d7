# Fills a manual page with the server's help (`help` is its file): the lines @DESCRIPTION@, @OPTIONS@ and @EXIT STATUS@ of the page give way to those
# parts of it. In the help a line with four blanks and '--' begins an option, deeper lines go on with it, a line at the margin just before an option is a
# heading, and 'Exit status:' begins the last part.

# A text as roff has it: no escapes, no requests, hyphens that can be copied.
function plain(text) {
    gsub(/\\/, "\\e", text)
    gsub(/-/, "\\-", text)
    gsub(/\.\/serve/, "sonde\\-serve", text)
    if (text ~ /^[.']/) text = "\\&" text
    return text
}

function add(part, line) { parts[part] = parts[part] line "\n" }

# An option's first line: its name and value, then the text, which may begin in the next line.
function option(line,    name, value, at) {
    sub(/^ +/, "", line)
    at = index(line, "  ")
    name = at ? substr(line, 1, at - 1) : line
    line = at ? substr(line, at) : ""
    sub(/^ +/, "", line)
    value = ""
    if (name ~ / /) { value = name; sub(/^[^ ]* /, "", value); sub(/ .*/, "", name) }
    add("OPTIONS", ".TP\n.B " plain(name) (value == "" ? "" : " \\fI" plain(value) "\\fR"))
    if (line != "") add("OPTIONS", plain(line))
}

function read_help(    line, lines, n, i, part) {
    while ((getline line < help) > 0) lines[++n] = line
    part = "DESCRIPTION"
    for (i = 2; i <= n; i++) {
        line = lines[i]
        if (line ~ /^    --/) {
            if (lines[i - 1] == "") add("OPTIONS", ".SS Others")
            part = "OPTIONS"
            option(line)
        } else if (line ~ /^ *\.\/serve / || line == "") continue
        else if (lines[i + 1] ~ /^    --/ && line !~ /^ /) add("OPTIONS", ".SS " plain(line))
        else if (sub(/^Exit status: */, "", line)) add(part = "EXIT STATUS", plain(line))
        else {
            if (line !~ /^ / && lines[i - 1] == "" && parts[part] != "") add(part, ".PP")
            sub(/^ +/, "", line)
            add(part, plain(line))
        }
    }
}

BEGIN { read_help() }

/^@[A-Z ]*@$/ { gsub(/@/, ""); printf "%s", parts[$0]; next }
{ print }

# The work of side-by-side: reads the answers of replay --explain --chart, then the log.

function flush() {
    if (held != "") print held
    held = ""
}

function show(ruling, call) {
    # the sheets that leave one after the other share a line
    if (ruling == "accepted" && call ~ /^retire \(/ && held != "") {
        held = held "," substr(call, 7)
        return
    }
    flush()
    held = sprintf("  %-10s  %s", ruling, call)
    if (ruling != "accepted" || call !~ /^retire \(/) flush()
}

function under(text) {
    flush()
    printf "  %-10s  %s\n", "", text
}

# the answers, up to the empty line before the chart
FNR == NR {
    if (charted) chart = chart $0 "\n"
    else if ($0 == "") charted = 1
    else answer[++answers] = $0
    next
}

/^## / { flush(); print substr($0, 4); next }
/^#: / { readable = substr($0, 4); next }
/^# kind / { under(substr($0, 3)); next }
/^#/ { flush(); printf "  %s\n", substr($0, 3); next }
/^$/ { flush(); print; next }

{
    call = readable == "" ? substr($0, 1, 100) : readable
    readable = ""
}
/^(plant|board) / { show("", call); next }
/^list / { at++; next }
{
    split(answer[++at], words, " ")
    if (words[1] != "=") show("", call)
    else show(words[2] ? "refused " words[2] : "accepted", call)
    while (answer[at + 1] ~ /^( |[rtjl] )/) {
        at++
        if (split(answer[at], words, " ") == 5 && words[1] == "r")
            under("job " words[2] ", point " words[3] ": from " words[4] " to " words[5])
        else {
            sub(/^ *refused: /, "", answer[at])
            under(answer[at])
        }
    }
}

END {
    flush()
    printf "\n%s", chart
}

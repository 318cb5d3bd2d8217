# The work of make-log: reads plant.txt, then a text of calls, and writes the call log.

function stop(why) {
    printf "%s, line %d: %s\n", FILENAME, FNR, why >"/dev/stderr"
    stopped = 1
    exit 1
}

# a u32, low byte first
function word(n,    i, hex) {
    for (i = 0; i < 4; i++) {
        hex = hex sprintf("%02x", n % 256)
        n = int(n / 256)
    }
    return hex
}

# two sets of facts, of "in-feeder, front-up, not heavy": the true ones, then the false ones
function sets(text,    names, n, i, sign, sum, seen) {
    gsub(/,/, " ", text)
    n = split(text, names, " ")
    sign = sum["yes"] = sum["no"] = 0
    for (i = 1; i <= n; i++) {
        if (names[i] == "not") { sign = 1; continue }
        if (!(names[i] in fact)) stop("no fact is called '" names[i] "'")
        if (seen[sign, names[i]]++) stop("'" names[i] "' stands there twice")
        sum[sign ? "no" : "yes"] += 2 ^ fact[names[i]]
        sign = 0
    }
    return word(sum["yes"]) word(sum["no"])
}

# the numbers that words in hex spell, each behind a blank
function numbers(hex,    i, j, n, text) {
    for (i = 1; i < length(hex); i += 8) {
        n = 0
        for (j = 6; j >= 0; j -= 2) n = 256 * n + 16 * digit(substr(hex, i + j, 1)) + digit(substr(hex, i + j + 1, 1))
        text = text " " n
    }
    return text
}
function digit(c) { return index("0123456789abcdef", c) - 1 }

# the fields of the actions, as the writer takes them
function fields(    a, text) {
    for (a = 0; a < actions; a++) text = text numbers(needs[a] makes[a] takes[a]) " " length(uses[a]) / 24 numbers(uses[a])
    return actions text
}

# the plant file: records, their starts, the trailer; one action may have other durations, one its count of allocations high byte first
function plant(changed, shortest, longest, turned,    a, records, starts) {
    for (a = 0; a < actions; a++) {
        starts = starts word(length(records) / 2)
        records = records needs[a] makes[a]
        records = records (a == changed ? word(shortest) word(longest) : takes[a])
        records = records (a == turned ? sprintf("%08x", length(uses[a]) / 24) : word(length(uses[a]) / 24)) uses[a]
    }
    return records starts word(length(records) / 2) word(actions) "504c4e54"
}

function number(name) {
    if (name ~ /^action-[0-9]+$/) return substr(name, 8)
    if (!(name in action)) stop("no action is called '" name "'")
    return action[name]
}

# the number that follows "batch" or "due" in a sheet's n words; 0 where that is not said
function behind(name, words, n,    i) {
    for (i = 3; i < n; i++) if (words[i] == name) return words[i + 1]
    return 0
}

# the offer of "sheet 7 of batch 1 due 9000, duplex: feed-a:0 front-a:2 .."
function offer(text,    head, body, words, steps, n, i, j, step, places, m, hex, due) {
    i = index(text, ": ")
    head = substr(text, 1, i - 1)
    body = substr(text, i + 2)
    if (head !~ /^sheet [^ ]+( of batch [0-9]+)?( due [0-9]+)?, [^ ]+$/) stop("not 'sheet NAME of batch N due TIME, KIND: CHAIN'")
    n = split(head, words, / |, /)
    if (!(words[n] in kind)) stop("no kind is called '" words[n] "'")
    hex = word(behind("batch", words, n)) kind[words[n]]
    due = word(behind("due", words, n))
    n = split(body, steps, " ")
    hex = hex word(n) due
    for (i = 1; i <= n; i++) {
        split(steps[i], step, ":")
        hex = hex word(number(step[1]))
        m = split(step[2], places, ",")
        for (j = 1; j <= m; j++) {
            if (places[j] !~ /^[0-9]+$/) stop("'" places[j] "' is no place")
            hex = hex word(places[j])
        }
    }
    return hex
}

{ sub(/[ \t\r]+$/, "") }

# plant.txt
FNR == NR && /^ *(#|$)/ { next }
FNR == NR && $1 == "fact" { fact[$3] = $2; next }
FNR == NR && $1 == "resource" { resource[$3] = $2; next }
FNR == NR && $1 == "action" {
    if ($2 != actions + 0) stop("the actions are not in order")
    action[$3] = here = $2
    actions++
    next
}
FNR == NR && $1 == "needs" { sub(/^ *needs /, ""); needs[here] = sets($0); next }
FNR == NR && $1 == "makes" { sub(/^ *makes /, ""); makes[here] = sets($0); next }
FNR == NR && $1 == "takes" { takes[here] = word($2) word($4); next }
FNR == NR && $1 == "uses" {
    if (!($2 in resource)) stop("no resource is called '" $2 "'")
    uses[here] = uses[here] word(resource[$2]) word($4) word($6)
    next
}
FNR == NR { stop("not a line of a plant") }

# the text of calls
/^(#|$)/ { print; next }
/^kind / {
    if (split($0, part, /: known |; goal /) != 3) stop("not 'kind NAME: known FACTS; goal FACTS'")
    kind[substr(part[1], 6)] = sets(part[2]) sets(part[3])
    print "# " $0
    next
}
{ print "#: " $0 }
/^plant$/ { print "plant " plant(-1, 0, 0, -1); next }
/^plant without its last [0-9]+ bytes$/ { hex = plant(-1, 0, 0, -1); print "plant " substr(hex, 1, length(hex) - 2 * $5); next }
/^plant with .+ taking [0-9]+ to [0-9]+$/ { print "plant " plant(number($3), $5, $7, -1); next }
/^plant with .+ counted high byte first$/ { print "plant " plant(-1, 0, 0, number($3)); next }
/^write the plant into [0-9]+ bytes$/ { print "write " $5 " " fields(); next }
/^(plan|fact) sheet / { print $1 " " offer(substr($0, 6)); next }
/^part / { print "part " number($2); next }
/^(list|fresh|send|clock|retire|report|check|table|state)( |$)/ { sub(/ *\(.*\)$/, ""); print; next }
{ stop("not a call") }

END { exit stopped }

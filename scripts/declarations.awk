# Prints the functions that a C header declares, a line each: the name, then its types without the names of its parameters, and the structs that it
# names. Two headers that agree on a line agree on how the function is called. Each parameter must have a name, as those of snipefeather.h do.
{ if ($0 !~ /^#/) text = text " " $0 }

END {
    while (match(text, /\/\*([^*]|\*+[^*\/])*\*+\//)) text = substr(text, 1, RSTART - 1) " " substr(text, RSTART + RLENGTH)
    gsub(/[ \t]+/, " ", text)
    while (match(text, /struct [A-Za-z0-9_]+ \{[^}]*\} ?;/)) {
        struct = substr(text, RSTART, RLENGTH)
        text = substr(text, 1, RSTART - 1) substr(text, RSTART + RLENGTH)
        split(struct, words, " ")
        structs[words[2]] = struct
    }
    count = split(text, statements, ";")
    for (i = 1; i <= count; i++) {
        if (!match(statements[i], /[A-Za-z0-9_]+\(/)) continue
        name = substr(statements[i], RSTART, RLENGTH - 1)
        types = substr(statements[i], 1, RSTART - 1) substr(statements[i], RSTART + RLENGTH - 1)
        gsub(/[A-Za-z0-9_]+,/, ",", types)
        gsub(/[A-Za-z0-9_]+\)/, ")", types)
        sub(/^.*[{}]/, "", types)
        gsub(/ /, "", types)
        for (tag in structs) if (index(statements[i], "struct " tag " ")) types = types " " structs[tag]
        print name, types
    }
}

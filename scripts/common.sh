# What ./check, ./demo, ./bench, ./soak and ./install share: plain words on what is being done, and a clear stop where something is missing.

say() { printf '\n== %s\n' "$*"; }

stop() {
    printf '\nstopped: %s\n' "$*" >&2
    exit 1
}

# need COMMAND WHAT-IT-IS WHAT-TO-DO
need() {
    command -v "$1" >/dev/null 2>&1 || stop "the command '$1' ($2) is not found: $3, and run this again."
}

need_rt() { need rt "the Rattle kit" "install the Rattle kit and put its 'rt' on your PATH"; }
need_cc() { need cc "a C compiler" "install gcc or clang"; }
need_cargo() { need cargo "Rust's build tool" "install Rust with cargo"; }

# A sum of all that libraries and programs are made from.
sources() {
    { rt version; cat crates.txt; find crates -name out -prune -o -type f \( -name '*.rt' -o -name '*.antt' \) -print0 | LC_ALL=C sort -z | xargs -0 cat; } | sha256sum
}

# is_made FOLDER: whether what lies in the folder was made of the crates as they are
is_made() { [ "$(cat "$1/sources" 2>/dev/null)" = "$(sources)" ]; }

# Proves and builds what C and Rust link: the fact check and the board's calls for C, in target/staticlib.
build_libraries() {
    local library sum folder=target/staticlib
    is_made $folder && return
    say "proving and building the static libraries (some minutes the first time)"
    sum=$(sources)
    mkdir -p $folder || stop "$folder cannot be written: see that there is room."
    for library in factcheck cabi; do
        { (cd crates/$library && rt lib) >/dev/null 2>&1 && cp crates/$library/out/lib$library.a $folder; } \
            || stop "the static library was not built: run 'rt lib' in crates/$library to see why."
    done
    printf '%s\n' "$sum" >$folder/sources
}

# Proves and builds the programs, in target/bin. rt builds a program to run it, here on no input and with no argument.
build_programs() {
    local program sum folder=target/bin
    is_made $folder && return
    say "proving and building the programs 'replay' and 'compare' (some ten minutes the first time, at once after that)"
    sum=$(sources)
    mkdir -p $folder || stop "$folder cannot be written: see that there is room."
    for program in replay compare; do
        (cd crates/$program && rt run </dev/null) >$folder/$program.log 2>&1
        { grep -q '^rt: running ' $folder/$program.log && cp crates/$program/out/$program $folder; } \
            || stop "$program was not proved: $folder/$program.log says why."
    done
    printf '%s\n' "$sum" >$folder/sources
}

# crates_alone FOLDER: a copy of the crates in which edits are checked. What rt keeps of them is not copied: rt finds it where it is.
crates_alone() {
    local part
    mkdir -p "$1" && cp crates.txt "$1" || return
    for part in crates/*/{src,specs,proofs}; do
        [ ! -d "$part" ] || { mkdir -p "$1/${part%/*}" && cp -r "$part" "$1/$part"; } || return
    done
}

# edited EDIT FOLDER: makes the changes of an edit, of which each `file:` lies below the folder and `\n` is the end of a line; false, and why, where it cannot
edited() {
    local line file='' old='' new text
    while IFS= read -r line; do
        case $line in
            'file: '*) file=$2/${line#file: } ;;
            'old: '*) old=$(printf '%b' "${line#old: }") ;;
            'new:'*)
                new=$(printf '%b' "${line#new: }")
                text=$(cat "$file") || return
                case $text in
                    *"$old"*"$old"*) printf '%s: the text to change is in %s more than once: %s\n' "$1" "$file" "$old"; return 1 ;;
                    *"$old"*) ;;
                    *) printf '%s: the text to change is not in %s: %s\n' "$1" "$file" "$old"; return 1 ;;
                esac
                printf '%s\n' "${text/"$old"/"$new"}" >"$file"
                ;;
        esac
    done <"$1"
}

# as_it_was EDIT FOLDER FROM: puts the files of an edit back
as_it_was() {
    local file
    sed -n 's/^file: //p' "$1" | sort -u | while IFS= read -r file; do cp "$3/$file" "$2/$file"; done
}

# The seed of made-up logs: SEED where that is set, else the first eight digits of the commit, so that each commit tries other logs and the same commit
# the same ones; 1 where there is no commit.
commit_seed() {
    local head
    [ -z "${SEED-}" ] || { printf '%s\n' "$SEED"; return; }
    head=$(git rev-parse --verify --quiet HEAD 2>/dev/null) || head=1
    printf '%d\n' "0x${head:0:8}"
}

# Finds the program. The launcher and the scripts of release/ and .ci/ source this file. It lies
# next to the program, here and where release/install put both.

# shellcheck shell=bash disable=SC2034  # who sources it reads the variables

place=${BASH_SOURCE[0]%/*}
[[ $place == */* ]] || place=./$place
top=${place%/release}
out=$top/crates/carousel/out
version=0.1
alone=' carousel operating status ' # these pages of help are no command's
unset CDPATH                        # else cd may go to another folder

program='' # the program that was found,
sources='' # the sum of its sources
kit=''     # and the kit that built it
fault=''   # why none was found

in_repository() {
    [ "$place" != "$top" ]
}

# The names of the commands, each of which has a page in this folder.
commands_in() {
    local page name
    for page in "$1"/*.txt; do
        name=${page##*/}
        name=${name%.txt}
        [[ $alone == *" $name "* ]] || echo "$name"
    done
}

# ---- Sums

# The crates that a crate depends on by crates.txt, and itself.
crates_below() {
    awk -v last="$1" '
        function visit(name,    count, word, n) {
            if (!(name in uses) || name in is_seen) return
            is_seen[name]
            count = split(uses[name], word, /[ ,]+/)
            for (n = 1; n <= count; n++) visit(word[n])
            print name
        }
        { sub(/#.*/, "") }
        NF {
            name = $1
            sub(/:.*/, "", name)
            uses[name] = substr($0, index($0, ":") + 1)
        }
        END { visit(last) }' "$top/crates.txt"
}

sum_of() {
    local sum
    sum=$(sha256sum <"$1") && echo "${sum%% *}"
}

# One sum of all that the program is made from. It covers paths below the top and no times, so
# every copy of these sources has the same sum.
sum_of_the_sources() {
    local name folders=()
    for name in $(crates_below carousel); do
        folders+=("crates/$name/"{src,specs,proofs})
    done
    {
        printf '%s\0' crates.txt HANDLES
        cd "$top" && find "${folders[@]}" -type f \( -name '*.rt' -o -name '*.antt' \) -print0
    } 2>/dev/null | LC_ALL=C sort -z | (cd "$top" && xargs -0 sha256sum) | sum_of /dev/stdin
}

# ---- SOURCES: what is known of the program next to it

# Sets `sources`, `kit` and `sum`, the program's own.
read_sources() {
    sources='' kit='' sum=''
    { read -r sources && read -r kit && read -r sum; } 2>/dev/null <"$1/SOURCES"
}

# Writes SOURCES for the program in folder $1, with the sum of its sources and its kit.
write_sources() {
    local new=$1/SOURCES.$$ sum
    sum=$(sum_of "$1/carousel") && printf '%s\n' "$2" "$3" "$sum" >"$new" &&
        mv -f "$new" "$1/SOURCES"
} 2>/dev/null

kit_here() {
    local line
    line=$(rt version 2>/dev/null) && echo "${line%% *}"
}

# Every file and folder of the sources, of all crates, for find's words.
find_sources() {
    find "$top/crates.txt" "$top/HANDLES" "$top"/crates/*/{src,specs,proofs} "$@" 2>/dev/null
}

# Writes SOURCES for the program that `rt ci` left, unless it may be of other sources than these.
# `rt ci` opens its lock first, empties out/ next, and runs the program last. So the program is of
# these sources if it ran and no source was touched since the lock was.
note_build() {
    local git=$top/.git lock named
    [ ! -f "$git" ] || git=$(cd "$top" && cd "$(sed 's/^gitdir: //' .git)" && pwd)
    lock=$git/rt-ci.lock
    [ "$out/carousel" -nt "$lock" ] && [ "$out/stdout" -nt "$lock" ] &&
        cmp -s "$out/stdout" "$top/crates/carousel/stdout" &&
        [ "$lock" -nt "$top/crates" ] && flock -s -n "$lock" true &&
        [ -z "$(find_sources -cnewer "$lock" -print -quit)" ] || return
    named=$(kit_here)
    write_sources "$out" "$1" "${named:-unknown}"
}

# Reads SOURCES of the program that `rt ci` left, if it is of the sources with this sum.
read_build() {
    [ -e "$out/SOURCES" ] || note_build "$1"
    read_sources "$out" && [ "$sources" = "$1" ]
}

# ---- The choice

# Why the program in a folder can't run here. Prints nothing where it can.
fault_in() {
    local file=$1/carousel machine libc major minor _
    machine=$(uname -m)
    libc=$(getconf GNU_LIBC_VERSION 2>/dev/null)
    IFS=.\  read -r _ major minor _ <<<"$libc"
    if [ "$machine" != x86_64 ]; then
        echo "the program needs an x86-64 processor, and this one is $machine"
    elif [ -z "$libc" ] && [ ! -e /lib64/ld-linux-x86-64.so.2 ]; then
        echo "the program needs glibc 2.34 or later, and this system has none"
    elif [ -n "$libc" ] && ((major < 2 || major == 2 && minor < 34)); then
        echo "the program needs glibc 2.34 or later, and this system has $libc"
    elif [ ! -f "$file" ]; then
        echo "$file isn't there"
    elif [ "$(sum_of "$file")" != "$sum" ]; then
        echo "$file was changed: its checksum isn't the one in ${file%/*}/SOURCES"
    elif [ ! -x "$file" ]; then
        echo "$file has no run bit: chmod +x gives it one"
    fi
} 2>/dev/null

# Takes the program in a folder, or keeps why it can't run.
take() {
    local why
    why=$(fault_in "$1")
    fault=${fault:-$why}
    [ -z "$why" ] && program=$1/carousel
}

# Takes the program that `rt ci` left of these sources, else the one in release/.
choose() {
    local sum now
    now=$(sum_of_the_sources)
    read_build "$now" && take "$out" && return
    read_sources "$place" && [ "$sources" = "$now" ] && take "$place" && return
    if [ -n "$fault" ]; then
        return 1
    elif [ -e "$place/SOURCES" ]; then
        fault='the sources were edited since release/carousel was made: rt ci makes their program'
    else
        fault='release/ has no program: rt ci makes one of these sources'
    fi
    return 1
}

# Lists what the choice depends on: the sources, the programs, the folders of both, whether they are
# there or not, and the system's loader, which is another file on another system.
list_traced() {
    local crate
    cd "$top" || return
    printf '%s\0' /lib64/ld-linux-x86-64.so.2 crates crates/carousel/out/{carousel,SOURCES}
    for crate in crates/*; do
        printf '%s\0' "$crate"/{src,specs,proofs}
    done
    find release crates.txt HANDLES crates/*/{src,specs,proofs} -print0
} 2>/dev/null

# Tells the choice, and what changes whenever a listed file does: its inode and the time of its last
# change, which no program can set. A file that isn't there has no line.
tell_choice() {
    printf '%s\n' "${program#"$top/"}" "$sources" "$kit"
    uname -m
    cd "$top" && LC_ALL=C xargs -0 stat -c '%i %.Z'
} 2>/dev/null

# Chooses anew, and keeps the choice for later calls. It isn't kept if something changed since the
# choice began: each file has to be older than a new one, also where a clock is coarse.
choose_and_keep() {
    local new=$1.$$ list=$2.$$ began
    { [ -d "$out" ] || mkdir "$out"; } 2>/dev/null && : 2>/dev/null >"$new"
    began=$(LC_ALL=C stat -c %.Z "$new" 2>/dev/null)
    choose || program=''
    if [ -n "$program" ] && [ -n "$began" ]; then
        (list_traced) >"$list"
        (tell_choice) <"$list" >"$new"
        LC_ALL=C awk -v began="$began" '$2 >= began { exit young = 1 } END { exit young }' "$new" &&
            mv -f "$list" "$2" && mv -f "$new" "$1"
    fi
    rm -f "$new" "$list"
    [ -n "$program" ]
}

# Finds the program of these sources, or takes the choice that an earlier call kept.
find_program() {
    local chosen=$out/chosen list=$out/traced folder=''
    if ! in_repository; then
        read_sources "$place"
        take "$place"
        return
    fi
    { read -r folder && read -r sources && read -r kit; } 2>/dev/null <"$chosen"
    program=$top/$folder
    # A trap between the two commands of a pipe would have bash leave out the second one.
    [ -n "$({ tell_choice <"$list" | cmp -s - "$chosen"; } 2>/dev/null || echo other)" ] || return 0
    program=''
    choose_and_keep "$chosen" "$list"
}

# Which program runs: the one that was proved and built here, or the prebuilt one of this folder. `relay` and `tools/prebuilt` source
# it after they have set `top`, the folder of the repository. It needs bash, coreutils, getconf and, to unpack the prebuilt program, xz.
#
# The stamp lists what the prebuilt program was built from, one fact a line: `kit`, `glibc` (the least version that it needs), `HANDLES`
# and `crate NAME` with their SHA-256, and last `program` with its own, so that a stamp that was cut short has none.
main=relay_main
built=$top/crates/$main/out/$main
unpacked=$top/out/$main
packed=dist/relay-x86_64-linux.xz
stamp=dist/relay-x86_64-linux.stamp
or_prove="or run ./relay prove, which proves and builds the program here"

# Writes a line and ends the script with status 1.
fail() {
    echo "${0##*/}: $1" >&2
    exit 1
}

# Ends the script if one of these commands isn't there.
need() {
    local name
    for name; do
        command -v "$name" > /dev/null || fail "$name is not on the PATH: add it, and run this again"
    done
}

# Ends the script if neither the program nor the kit runs on this machine.
check_machine() {
    local system
    system=$(uname -s -m)
    [ "$system" = 'Linux x86_64' ] ||
        fail "the program and the Rattle kit that builds it are for Linux on x86_64, and this is ${system/ / on }: run it on such a machine"
}

# Ends the script with the reason why a folder can't be written, taken from the message of the command that failed.
cannot_write() {
    case $2 in
        *'No space left'* | *[Qq]uota*) fail "the disk of $1 is full: free some room there, and run this again" ;;
        *) fail "$1 can't be written (${2##*: }): make it writable, and run this again" ;;
    esac
}

# Reads crates.txt: `lines` has each crate's line, and `needs` the crates of this repository that it names.
read_crates() {
    local line crate name
    while IFS= read -r line || [ -n "$line" ]; do
        case $line in ?*:*) ;; *) continue ;; esac
        crate=${line%%:*}
        lines[$crate]=$line
        for name in ${line#*:}; do
            [ ! -d "$top/crates/$name" ] || needs[$crate]+=" $name"
        done
    done < "$top/crates.txt"
}

# Adds a crate and all that it stands on to `crates`, each after those below it.
add_crate() {
    local name
    [ -z "${seen[$1]:-}" ] || return 0
    seen[$1]=1
    for name in ${needs[$1]:-}; do add_crate "$name"; done
    crates+=" $1"
}

# Goes to the top of the repository and adds the source files of the program's crates to `sources`, and none that an editor left beside
# them, each crate's in the order of their bytes; `counts` has how many each one has. For subshells.
list_sources() {
    local name before
    cd "$top" || exit
    shopt -s globstar nullglob
    LC_ALL=C
    unset GLOBSORT
    declare -gA counts=()
    for name in $crates; do
        before=${#sources[@]}
        sources+=(crates/"$name"/{proofs,specs,src}/**/*.{antt,rt})
        counts[$name]=$((${#sources[@]} - before))
    done
}

# Returns true if a program was built here and no source is newer.
is_current() (
    [ -x "$built" ] || exit 1
    sources=(crates.txt HANDLES)
    list_sources
    for file in "${sources[@]}"; do [ ! "$file" -nt "$built" ] || exit 1; done
)

# Prints the SHA-256 of HANDLES and of each crate of the program: over its line of crates.txt and over the sums and paths of its source
# files. All crates are summed by one process, through a pipe each, since `./relay` does this at each start.
tree_sums() (
    declare -A of=()
    sources=(HANDLES) pipes=()
    list_sources
    mapfile -t sums < <(sha256sum -- "${sources[@]}")
    # If a file can't be read, `sha256sum` has reported it.
    [ ${#sums[@]} = ${#sources[@]} ] || exit 1
    echo "HANDLES ${sums[0]%% *}"
    first=1
    for name in $crates; do
        exec {pipe}< <(printf '%s\n' "${lines[$name]:-}" "${sums[@]:first:${counts[$name]}}")
        pipes+=("/dev/fd/$pipe") of[/dev/fd/$pipe]=$name
        first=$((first + ${counts[$name]}))
    done
    while read -r sum pipe; do echo "crate ${of[$pipe]} $sum"; done < <(sha256sum "${pipes[@]}")
)

# Reads the stamp: its facts into `fact`, and its sums of the sources into `stamped`. Returns false if it isn't whole.
read_stamp() {
    local word rest
    stamped=''
    while read -r word rest; do
        case $word in
            HANDLES | crate) stamped+=${stamped:+$'\n'}"$word $rest" ;;
            kit | glibc | program) fact[$word]=$rest ;;
            *) return 1 ;;
        esac
    done < "$top/$stamp"
    [[ ${fact[program]:-} =~ ^[0-9a-f]{64}$ && ${fact[glibc]:-} =~ ^[0-9]+(\.[0-9]+)+$ && -n ${fact[kit]:-} ]]
}

# Returns true if the sources are those of the stamp. If not, `why` names what differs.
fits_sources() {
    local now kind name sum names=() last='' verb=differ
    now=$(tree_sums) || exit
    [ "$now" != "$stamped" ] || return 0
    while read -r kind name sum; do
        [ "$kind" = crate ] || name=$kind
        case " ${names[*]} " in *" $name "*) ;; *) names+=("$name") ;; esac
    done < <(printf '%s\n' "$now" "$stamped" | LC_ALL=C sort | uniq -u)
    case ${#names[@]} in
        0) names=("the stamp's list of crates") verb=differs ;;
        1) verb=differs ;;
        2 | 3) last=${names[-1]} names=("${names[@]::${#names[@]}-1}") ;;
        *) last="$((${#names[@]} - 3)) more" names=("${names[@]::3}") ;;
    esac
    why=$(printf ', %s' "${names[@]}")
    why="${why#, }${last:+ and $last} $verb from what $packed was built from"
    return 1
}

# Returns true if a file is the program of the stamp.
is_program() {
    local sum
    [ -f "$1" ] && sum=$(sha256sum < "$1") && [ "${sum%% *}" = "${fact[program]}" ]
}

# Ends the script if this system's C library is older than the prebuilt program needs.
check_libc() {
    local found
    need getconf
    found=$(getconf GNU_LIBC_VERSION 2> /dev/null) || found=''
    case $found in
        'glibc '[0-9]*) found=${found#glibc } ;;
        *) fail "the program needs glibc ${fact[glibc]} or newer, and this system has none: run it on a system or in a container that has it" ;;
    esac
    printf '%s\n' "${fact[glibc]}" "$found" | sort -V -C ||
        fail "the program needs glibc ${fact[glibc]} or newer, and this system has $found: run it on a newer system or in a container of one"
}

# Unpacks the prebuilt program into a file and compares it with the stamp. Returns false if that fails; then `why` has the reason, and
# `cure` what to do.
unpack_to() {
    cure="restore it with git checkout dist, $or_prove"
    if [ ! -e "$top/$packed" ]; then
        why="$packed is missing"
    elif ! command -v xz > /dev/null; then
        why="xz, which unpacks $packed, is not on the PATH" cure="install it (xz-utils), $or_prove"
    elif ! why=$(LC_ALL=C xz -dc < "$top/$packed" 2>&1 > "$1"); then
        case $why in *'No space left'* | *[Qq]uota*) cannot_write "${1%/*}" "$why" ;; esac
        why="$packed can't be unpacked (${why##*: })"
    elif ! is_program "$1"; then
        why="$packed isn't the program of its stamp"
    else
        return 0
    fi
    return 1
}

# Makes a new file beside the target, whose folder is made if it isn't there; `fresh` has its name, for the caller's trap.
make_fresh() {
    local message
    message=$(umask 022 && LC_ALL=C mkdir -p "${1%/*}" 2>&1) || cannot_write "${1%/*}" "$message"
    message=$(LC_ALL=C mktemp "$1.XXXXXX" 2>&1) || cannot_write "${1%/*}" "$message"
    fresh=$message
}

# put_in_place TARGET COMMAND ..: the command is given the name of a new file and makes it. Then the file, whole, takes the target's place.
put_in_place() {
    local message
    make_fresh "$1"
    "${@:2}" "$fresh" || return 1
    message=$(LC_ALL=C chmod 755 "$fresh" 2>&1 && LC_ALL=C mv -fT "$fresh" "$1" 2>&1) || cannot_write "$1" "$message"
    fresh=''
}

# Sets `program` to the path of what runs, and `origin` to `built here` or `prebuilt`. Returns false if it has to be proved first; then
# `why` has the reason, and `cure` what else can be done.
choose_program() {
    program=$built origin='built here'
    ! is_current || return 0
    program=$unpacked origin=prebuilt
    if [ ! -e "$top/$stamp" ]; then
        why="there is no $stamp" cure='restore dist/ with git checkout dist'
        return 1
    fi
    read_stamp || fail "$stamp is damaged: restore it with git checkout dist, $or_prove"
    cure='undo the change'
    fits_sources || return 1
    check_libc
    if [ -x "$unpacked" ] && is_program "$unpacked"; then return; fi
    trap 'rm -f "$fresh"' EXIT
    trap 'exit 130' INT
    trap 'exit 143' TERM
    trap 'exit 129' HUP
    put_in_place "$unpacked" unpack_to || fail "$why: $cure"
    trap - EXIT INT TERM HUP
    [ -x "$unpacked" ] || fail "no program may run from ${unpacked%/*} (noexec): put the repository on another file system"
    echo "${0##*/}: using the program that the gate proved and built from these sources; ./relay prove proves and builds it here" >&2 || true
}

set +o noglob
need uname sha256sum sort uniq
check_machine
declare -A lines=() needs=() seen=() fact=()
crates='' fresh=''
read_crates
add_crate "$main"

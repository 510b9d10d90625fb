# Functions of the scripts osdgate and osdgate_bench. Each answers by the verified build of its program where that was made
# of the sources as they are, and else by the toolchain's unverified build, and says so.
#
# A caller sets `top` (the repository) and `name` (the program's crate), and may set `note`, more words on an unverified
# build, and `smaller`, a program that is built sooner and answers as this one does, but for the first words in
# `smaller_lacks`.
#
# Beside a build is what it was made of, by content (`.made_of`: one hash), and what its sources looked like when they were
# last hashed (`.listing`: sizes, numbers and times of their files; `.seen`: whether they were what it was made of, and their
# folders). So a call hashes nothing where nothing changed, and starts two processes beside the program.

# Takes the program that answers: its verified build, as `rt run` leaves it, and its unverified build, as `rt try` links it.
use_program() {
    program="$1"
    proved="$top/crates/$program/out/$program"
    quick="$top/out/quick/$program"
}

use_program "$name"

say() {
    echo "$name: $*" >&2
}

# The crates below a crate, the lowest first, and it itself.
crates_of() {
    local crate order=" "
    visit() {
        case "$order" in *" $1 "*) return ;; esac
        local below
        for below in $(sed -n "s/^$1\( [^:]*\)\{0,1\}://p" "$top/crates.txt"); do
            if [ -d "$top/crates/$below" ]; then visit "$below"; fi
        done
        order="$order$1 "
    }
    visit "$1"
    for crate in $order; do echo "$crate"; done
}

# The folders and files that a build is made of: these parts of each crate below it.
sources_of() {
    local crate part
    echo crates.txt
    for crate in $(crates_of "$program"); do
        for part in "$@"; do
            if [ -d "$top/crates/$crate/$part" ]; then echo "crates/$crate/$part"; fi
        done
    done
}

# What the files of these folders look like from outside. Each change of a file gives it a new time `C`.
listing_of() {
    (cd "$top" && find "$@" -type f -printf '%p %s %i %C@\n' 2>/dev/null)
}

# One hash of the names and contents of the files in these folders.
hash_of() {
    (cd "$top" && find "$@" -type f -print0 | LC_ALL=C sort -z | xargs -0 sha256sum | sha256sum | cut -d ' ' -f 1)
}

# Whether nothing below is newer than a build that has no note: so is one that `rt ci` left.
is_newest() {
    local build="$1"
    shift
    (cd "$top" && [ -z "$(find "$@" \( -newer "$build" -o -cnewer "$build" \) -print -quit 2>/dev/null)" ])
}

# Which kind of build a path is of.
kind_of() {
    case "$1" in "$top/out/quick/"*) echo unverified ;; *) echo verified ;; esac
}

# Whether the contents of these folders are what a build was made of.
is_made_of() {
    local build="$1"
    shift
    if [ -r "$build.made_of" ] && [ ! "$build" -nt "$build.made_of" ]; then
        [ "$(<"$build.made_of")" = "$(hash_of "$@")" ]
    else
        is_newest "$build" "$@" && { note_made_of "$build" "$(hash_of "$@")" "$(kind_of "$build")" || true; } 2>/dev/null
    fi
}

# A build is there, and its sources are as they were when it was made. Where they look otherwise than when that was last
# decided, their contents decide.
is_fresh() {
    local build="$1" folders=() word=stale
    shift
    [ -x "$build" ] || return 1
    if [ -r "$build.seen" ] && [ ! "$build" -nt "$build.seen" ]; then
        read -r -a folders <"$build.seen"
        if listing_of "${folders[@]:1}" | cmp -s - "$build.listing"; then
            [ "${folders[0]}" = fresh ]
            return
        fi
    fi
    mapfile -t folders < <(sources_of "$@")
    { listing_of "${folders[@]}" >"$build.listing" || true; } 2>/dev/null
    if is_made_of "$build" "${folders[@]}"; then word=fresh; fi
    { echo "$word ${folders[*]}" >"$build.seen" || true; } 2>/dev/null
    [ "$word" = fresh ]
}

# The proofs of a build are not among what it is made of: once they were found good, code and definitions alone say what is
# proved.
is_proved() {
    is_fresh "$proved" src specs
}

has_quick() {
    is_fresh "$quick" src
}

# The commit that the sources are of, and whether they were changed since.
commit_of() {
    local commit
    commit="$(git -C "$top" rev-parse --short=12 HEAD 2>/dev/null)" || commit=unknown
    if [ -n "$(git -C "$top" status --porcelain -- crates crates.txt 2>/dev/null)" ]; then commit="$commit, changed"; fi
    echo "$commit"
}

# Notes of which kind a build is, and what it was made of, which the caller hashed before it was made. The program's
# `--version` prints the first of these notes.
note_made_of() {
    local build="$1" hash="$2" kind="$3"
    printf 'build %s\ncommit %s\ntoolchain %s\n' "$kind" "$(commit_of)" "$(rt version 2>/dev/null || echo unknown)" >"$build.build"
    echo "$hash" >"$build.made_of"
    rm -f "$build.seen" "$build.listing"
}

# Runs a command in a group of its own, and ends all of the group where this script is told to end.
run_stoppable() {
    local status=0 runs
    setsid "$@" &
    runs=$!
    trap 'kill -TERM -- "-$runs" 2>/dev/null || true; wait "$runs" 2>/dev/null || true; exit 130' INT TERM HUP
    wait "$runs" || status=$?
    trap - INT TERM HUP
    return "$status"
}

# Proves the program and the crates below it by `rt ci`, and builds it.
prove() {
    local folders=() hash
    if is_proved; then
        say "the verified build is there, made of these sources"
        return
    fi
    mapfile -t folders < <(sources_of src specs)
    hash="$(hash_of "${folders[@]}")"
    run_stoppable python3 "$top/tools/prove_program.py" "$top" "$name" "$name" || return 3
    if [ "$(hash_of "${folders[@]}")" != "$hash" ]; then
        say "sources were changed meanwhile; run --prove again"
        return 3
    fi
    note_made_of "$proved" "$hash" verified
}

# Makes the unverified build by `rt try`, which runs the program a few times on `--help`, and keeps what it linked.
build_quick() {
    local folders=() hash status=0
    mkdir -p "$top/out/quick"
    exec 9>"$quick.lock"
    flock 9
    if ! has_quick; then
        rm -rf "$top/out/quick/making-$program-"*
        mapfile -t folders < <(sources_of src)
        hash="$(hash_of "${folders[@]}")"
        run_stoppable python3 "$top/tools/keep_quick_build.py" "$top/crates/$program" "$quick" "$name" >&2 || status=$?
        if [ "$status" = 0 ]; then note_made_of "$quick" "$hash" unverified; fi
    fi
    exec 9>&-
    return "$status"
}

# Becomes a command in a crate's folder: for a subshell.
in_crate() {
    cd "$top/crates/$1" && shift && exec "$@"
}

# Answers by `rt try` itself, where what it linked could not be kept. Files that a word names go along. Its own
# lines come last on standard error, and are left out.
try_once() {
    local word data=() status=0 said
    said="$(mktemp)"
    for word in "$@"; do
        case "$word" in
            *=* | */../* | ../* | /*) ;;
            *) if [ -f "$word" ]; then data+=(--data "$word=$PWD/$word"); fi ;;
        esac
    done
    (in_crate "$program" rt try "${data[@]+"${data[@]}"}" -- "$@") 2>"$said" || status=$?
    grep -v -e '^interpreter: ' -e '^checked: ' -e '^races: ' -e '^run=[a-z]* ' "$said" >&2 || true
    rm -f "$said"
    return "$status"
}

# The path of the build that answers. Where there is none, the unverified one is made.
build_that_answers() {
    if is_proved; then
        echo "$proved"
    elif has_quick || build_quick; then
        echo "$quick"
    else
        return 1
    fi
}

# Takes the smaller program where it has these words and the program itself is not there.
use_smaller() {
    case " ${smaller_lacks:-} " in *" ${1:-} "*) return ;; esac
    if [ -z "${smaller:-}" ] || has_quick; then return; fi
    use_program "$smaller"
}

# Proves and builds the C library, if it is not there.
prove_library() {
    . "$top/library/install.sh"
    make_library
}

# The program's answer on these words, or with the one word --prove its proof, with --library that of the C library.
answer() {
    case "$#$*" in
        1--prove) prove ;;
        1--library) prove_library ;;
        *) answer_words "$@" ;;
    esac
}

answer_words() {
    if is_proved; then exec -a "$name" "$proved" "$@"; fi
    use_smaller "$@"
    say "this answer comes from an unverified build, which is about 100 times slower than the verified one; ./$name --prove makes that${note:-}"
    if [ "$(ulimit -v)" != unlimited ]; then
        say "an unverified build cannot start under \`ulimit -v\`: to check each access of memory it reserves some terabytes of addresses"
    fi
    if has_quick || build_quick; then exec -a "$name" "$quick" "$@"; fi
    try_once "$@"
}

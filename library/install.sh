# Functions of tools/install and tools/test_library for the C library. The caller has set `top` and sourced tools/program.sh.
# shellcheck shell=bash disable=SC2034,SC2154

library_version=1

library_archive="$top/crates/gate_c/out/libgate_c.a"

# One hash of what the library is made of: code and definitions of gate_c and of the crates below it.
library_hash() (
    program=gate_c
    mapfile -t folders < <(sources_of src specs)
    hash_of "${folders[@]}"
)

# Whether the verified static library is there, made of the sources as they are.
has_library() {
    [ -r "$library_archive" ] && [ -r "$library_archive.made_of" ] && [ "$(<"$library_archive.made_of")" = "$(library_hash)" ]
}

# Proves the library and the crates below it by `rt ci`, and builds it.
make_library() {
    local hash
    if has_library; then
        say "the verified library is there, made of these sources"
        return
    fi
    say "proving the C library: some minutes if \`rt ci\` has proved these sources, half an hour or more if not"
    hash="$(library_hash)"
    run_stoppable python3 "$top/tools/prove_program.py" "$top" gate_c "$name" || return 3
    if [ "$(library_hash)" != "$hash" ]; then
        say "sources were changed meanwhile; run it again"
        return 3
    fi
    echo "$hash" >"$library_archive.made_of"
}

# Builds the library over what `rt ci` has just proved in this clone, which had no builds before.
make_library_over_ci() {
    local hash
    hash="$(library_hash)"
    run_stoppable python3 "$top/tools/prove_program.py" --over-ci "$top" gate_c "$name" || return 3
    echo "$hash" >"$library_archive.made_of"
}

# Links libsigmuyap.so and libsigmuyap.a into a folder. Only the names sig_* can be seen from outside.
link_library() {
    local folder="$1" heap shared="libsigmuyap.so.$library_version"
    heap="$(dirname "$(rt doc | head -1)")/c/liblibc_c.a"
    mkdir -p "$folder"
    ld -r -o "$folder/sigmuyap.o" --whole-archive "$library_archive" "$heap"
    objcopy --wildcard --keep-global-symbol='sig_*' "$folder/sigmuyap.o"
    rm -f "$folder/libsigmuyap.a"
    ar rcsD "$folder/libsigmuyap.a" "$folder/sigmuyap.o"
    cc -shared -o "$folder/$shared" "$folder/sigmuyap.o" -Wl,-soname,"$shared" -Wl,-z,defs \
        -Wl,--version-script="$top/library/sigmuyap.map" -Wl,--gc-sections
    ln -sf "$shared" "$folder/libsigmuyap.so"
    rm "$folder/sigmuyap.o"
}

# Installs the library below a folder: lib/, lib/pkgconfig/ and include/. A second word is the prefix that pkg-config gives, for a
# folder that is moved there later.
install_library() {
    local folder prefix
    mkdir -p "$1/lib/pkgconfig" "$1/include"
    folder="$(cd "$1" && pwd)"
    prefix="${2:-$folder}"
    link_library "$folder/lib"
    install -m 644 "$top/include/sigmuyap.h" "$top/include/sigmuyap.hpp" "$folder/include"
    sed -e "s|@PREFIX@|$prefix|" -e "s|@VERSION@|$library_version|" "$top/library/sigmuyap.pc.in" >"$folder/lib/pkgconfig/sigmuyap.pc"
    chmod 644 "$folder"/lib/libsigmuyap.* "$folder/lib/pkgconfig/sigmuyap.pc"
    say "the C library is installed in $folder"
}

# Installs the library where it is made already.
install_library_if_made() {
    if has_library && command -v cc >/dev/null; then
        install_library "$1"
    else
        say "the C library is not built: tools/install --library PREFIX builds and installs it"
    fi
}

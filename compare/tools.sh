# Read by the scripts of this folder, which set `here` to it. Builds the library, compiles programs for x86-64 and
# runs them there: as they are on an x86-64 machine, under an emulator on Arm. What is made goes to target/compare.

root=$(cd "$here/.." && pwd -P) || exit 2
out=$root/target/compare
mkdir -p "$out" || exit 2
target=x86_64-unknown-linux-gnu

fail() {
    printf 'compare: %s\n' "$1" >&2
    exit 2
}

case $(uname -m) in
x86_64) native=yes ;;
*) native= ;;
esac

# need COMMAND PACKAGE..
need() {
    command -v "$1" >/dev/null 2>&1 && return
    what=$1
    shift
    fail "$what is missing. On Debian: apt-get install $*"
}

# A compiler that has the standard library for x86-64. RUSTC may name one.
find_rustc() {
    for rustc in ${RUSTC:+"$RUSTC"} rustc /usr/bin/rustc; do
        libs=$("$rustc" --print target-libdir --target $target 2>/dev/null) || continue
        ls "$libs"/libstd-*.rlib >/dev/null 2>&1 && return
    done
    [ "$native" ] && fail "rustc is missing. On Debian: apt-get install rustc"
    fail "no rustc with the x86-64 standard library. On Debian: dpkg --add-architecture amd64 && apt-get update && apt-get install rustc libstd-rust-dev:amd64"
}

# target/staticlib/libf24.a, proved and built where it is missing or older than its sources: what `rt lib` makes of the
# crate f24_c, under the name that C callers link. F24_ARCHIVE may name an archive that is taken as it is.
find_archive() {
    archive=${F24_ARCHIVE:-}
    if [ "$archive" ]; then
        [ -f "$archive" ] || fail "F24_ARCHIVE: no file $archive"
        return
    fi
    archive=$root/target/staticlib/libf24.a
    if [ -f "$archive" ]; then
        newer=$(find "$root/crates" "$root/crates.txt" -name out -prune -o -newer "$archive" \( -name '*.rt' -o -name '*.antt' -o -name crates.txt \) -print | head -n 1)
        [ "$newer" ] || return 0
    fi
    command -v rt >/dev/null 2>&1 || fail "the Rattle kit's command rt is not on the path"
    printf 'compare: building the library, which is proved first\n' >&2
    (cd "$root/crates/f24_c" && rt lib) >"$out/staticlib.log" 2>&1 || {
        tail -n 5 "$out/staticlib.log" >&2
        fail "the build failed: target/compare/staticlib.log has it whole"
    }
    mkdir -p "$root/target/staticlib" && cp "$root/crates/f24_c/out/libf24_c.a" "$archive" || exit 2
}

# judges TO [OPTION..]: the reference and the fast judge, as TO/libreference.rlib and TO/libfast.rlib.
judges() {
    to=$1
    shift
    for judge in reference fast; do
        "$rustc" "$@" --edition 2021 -C opt-level=3 --crate-type rlib --crate-name $judge -o "$to/lib$judge.rlib" "$root/$judge/src/lib.rs" || return 1
    done
}

# compile NAME: src/NAME.rs with the library, the reference and the fast judge, all optimised alike, to $out/NAME.
compile() {
    name=$1
    find_rustc
    if [ "$native" ]; then
        for_x86="--target $target"
    else
        need x86_64-linux-gnu-gcc gcc-x86-64-linux-gnu libc6-dev-amd64-cross
        for_x86="--target $target -C linker=x86_64-linux-gnu-gcc -C target-feature=+crt-static"
    fi
    # What is there stays where neither the library nor a source has changed.
    if cmp -s "$archive" "$out/link/libf24.a" && [ -x "$out/$name" ]; then
        [ "$(find "$here" "$root/reference/src" "$root/fast/src" "$out/link" -newer "$out/$name" -type f -print | head -n 1)" ] || return 0
    fi
    mkdir -p "$out/link" && cp "$archive" "$out/link/libf24.a" || exit 2
    # shellcheck disable=SC2086
    judges "$out" $for_x86 &&
        "$rustc" $for_x86 --edition 2021 -C opt-level=3 --crate-name "$name" --extern "reference=$out/libreference.rlib" --extern "fast=$out/libfast.rlib" -L "native=$out/link" -o "$out/$name" "$here/src/$name.rs" ||
        fail "$name does not compile"
}

# compile_alone NAME: the same for this machine and without the library, in whose place the reference stands.
compile_alone() {
    need rustc rustc
    rustc=rustc
    mkdir -p "$out/alone" || exit 2
    judges "$out/alone" &&
        "$rustc" --edition 2021 -C opt-level=3 --cfg stand_in --crate-name "$1" --extern "reference=$out/alone/libreference.rlib" --extern "fast=$out/alone/libfast.rlib" -o "$out/alone/$1" "$here/src/$1.rs" ||
        fail "$1 does not compile"
}

# run_x86 PROGRAM [ARGUMENT..]
run_x86() {
    if [ "$native" ]; then
        "$@"
    else
        need qemu-x86_64 qemu-user
        qemu-x86_64 "$@"
    fi
}

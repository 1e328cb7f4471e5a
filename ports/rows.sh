# For the scripts beside it: a target's row of ports/targets, and what the header promises.

# names: the targets, one to a line.
names() { sed -n 's/^\([a-z][^ |]*\) .*/\1/p' ports/targets; }

# row NAME: the columns of its row, each as a list of words, and the folder $out for what is made for it.
row() {
    local line columns
    line=$(grep "^$1 " ports/targets) || { echo "ports/targets has no $1; it has: $(names | tr '\n' ' ')"; exit 2; }
    IFS='|' read -ra columns <<<"$line"
    name=$1
    read -ra clang_words <<<"${columns[1]}"
    read -r kind <<<"${columns[2]}"
    read -ra compiler_words <<<"${columns[3]}"
    read -ra runner_words <<<"${columns[4]}"
    read -ra packages <<<"${columns[5]}"
    out=target/ports/${TEXT:+other/}${name/page/wasm32}
    mkdir -p "$out"
}

# missing: the first of the tools that the row's target is tried with which is not there. What is made for this machine itself needs no emulator, and
# the kit has one for x86-64.
missing() {
    local compiler=("${compiler_words[@]}") emulator=${runner_words[0]}
    case $name in
        x86_64) emulator='' && { [ "$(uname -m)" != x86_64 ] || compiler=(cc); } ;;
        "$(uname -m)") emulator='' ;;
    esac
    if [ -n "$emulator" ] && ! command -v "$emulator" >/dev/null; then
        echo "$emulator"
    elif [ "${#compiler[@]}" -gt 0 ] && ! command -v "${compiler[0]}" >/dev/null; then
        echo "${compiler[0]}"
    elif [ "${#compiler[@]}" -gt 0 ] && ! "${compiler[@]}" -E -x c - <<<'#include <stdio.h>' >/dev/null 2>&1; then
        echo "C library for ${compiler[0]}"
    fi
}

# promise [CRATE]: the bytes of stack that the header promises to be enough; reading and printing have a promise of their own.
promise() {
    case ${1:-engine} in
        office) sed -n 's/^#define PITXARGOLE_TEXT_STACK \([0-9]*\).*/\1/p' include/pitxargole_text.h ;;
        *) sed -n 's/^#define PITXARGOLE_STACK \([0-9]*\).*/\1/p' include/pitxargole.h ;;
    esac
}

# same_object: the object for x86-64 that was made of the module's text is the archive's own, byte by byte, so that nothing was lost on the way.
same_object() { "$tools/bin/llvm-ar" p target/staticlib/libengine.a | cmp - target/ports/x86_64/engine.o; }

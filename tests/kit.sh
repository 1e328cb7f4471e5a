# For the scripts beside it: where the kit is, and how to make and run its programs.
kit=$(dirname "$(dirname "$(readlink -f "$(command -v rt)")")")
tools=$kit/toolchain

# on_kit PROGRAM WORD..: runs a program under the kit's loader and C library.
on_kit() { "$tools/lib/ld-linux-x86-64.so.2" --library-path "$tools/lib" "$@"; }

# program NAME: target/bin/NAME, made anew where a crate has changed since: `rt run` proves what has not been proved yet, builds the program and runs it once.
program() {
    [ -x "target/bin/$1" ] && [ -z "$(find crates crates.txt -name out -prune -o -newer "target/bin/$1" -print -quit)" ] && return
    mkdir -p target/bin
    (cd "crates/$1" && rt run) </dev/null >"target/$1.log" 2>&1
    grep -q '^logic=proved' "target/$1.log" && [ -x "crates/$1/out/$1" ] || { tail -n 20 "target/$1.log"; echo "$1 is not proved"; return 1; }
    cp "crates/$1/out/$1" "target/bin/$1"
}

# archive NAME..: target/staticlib/libengine.a, and that of each crate named, made anew where a crate has changed since, with the modules of which ports/build
# makes other archives. Their exports for C are in the crates engine_c, profile_c and office_c.
archive() {
    built=target/staticlib/libengine.a
    ports/module engine "$@"
}

# native_archive NAME..: the archives for this machine itself, which valgrind can follow.
native_archive() { archive "$@"; }

# c_compiler: the name of the compiler for C programs that link the archive.
c_compiler() { echo cc; }

# for_c: that compiler. Where it is missing the script is skipped.
for_c() {
    compiler=$(c_compiler)
    command -v "$compiler" >/dev/null || { echo "there is no $compiler"; exit 77; }
}

# c_program FILE ARCHIVE..: the program of a C file, linked with the engine's archive and others in the folder $out, and run.
c_program() {
    "$compiler" -std=c11 -Wall -Wextra -Werror -O2 -Iinclude "$@" target/staticlib/libengine.a -o "$out/program" && "$out/program"
}

# needed NAME: how many crates a check of NAME proves, itself and what it is built on.
needed() {
    awk -F': *' -v name="$1" '
        function visit(crate, list, i, n) {
            if (!(crate in on) || crate in seen) return
            seen[crate] = 1
            count++
            n = split(on[crate], list, " ")
            for (i = 1; i <= n; i++) visit(list[i])
        }
        /^[a-z]/ { sub(/ staticlib$/, "", $1); on[$1] = $2 }
        END { visit(name); print count + 0 }' crates.txt
}

# progress CRATES: of what `rt ci` says, a line for each crate that is proved, each edit, test and program; and all of it where something else is said.
progress() {
    proved=0 said=''
    while IFS= read -r line; do
        case $line in
        'rt: '*' proved' | 'rt: '*' is kept: '*)
            proved=$((proved + 1)) said=''
            line=${line#rt: }
            echo "proved $proved of $1: ${line%% *}" ;;
        'rt: '*': refused, as it must be'*)
            said=''
            line=${line#rt: }
            echo "refused: ${line%%: *}" ;;
        'rt: '*)
            printf '%s%s\n' "$said" "$line"
            said='' ;;
        *)
            said="$said$line
" ;;
        esac
    done
    printf '%s' "$said"
}

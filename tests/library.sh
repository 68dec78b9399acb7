#!/usr/bin/env bash
# Proves and links the C library (`make lib`), and tries what dwv.h and docs/LIBRARY.md say of it: the names that it has
# and needs, the layout of its structs, callers in C, C++, Rust, Python and Go, allocations that fail, threads, and
# `make install`. It prints one line a check and ends with 'N passed, N failed, N skipped'. A tool that is not installed
# is skipped, or fails, as in tests/common.py.
set -u
cd "$(dirname "$0")/.." || exit 1

folder=$(mktemp -d)
trap 'rm -rf "$folder"' EXIT
dwv=crates/dwv/out/dwv
addr=crates/dwv_addr/out/dwv_addr
tests=tests/library
sample=crates/dwv/data/X1
four=crates/dwv_addr/data/four
passed=0
failed=0
skipped=0
# How many checks there are at least, if no tool is missing that they need.
least=56
lacking=

# is NAME SAID WANTED: the two texts must be the same.
is() {
    if [ "$2" = "$3" ]; then
        passed=$((passed + 1))
        echo "passed $1"
    else
        failed=$((failed + 1))
        echo "FAILED $1: ${2:-nothing}, wanted ${3:-nothing}"
    fi
}

# ends NAME COMMAND WORD..: it must end with status 0. If not, what it printed is shown.
ends() {
    local name=$1
    shift
    "$@" > "$folder/log" 2>&1
    is "$name" "$?" 0
    [ "$(tail -n 1 "$folder/log")" ] && tail -n 1 "$folder/log" | sed 's/^/    /'
}

# has COMMAND: whether it is installed. If not, a check that needs it fails in CI and is else skipped, as is each check
# that could do without it.
has() {
    command -v "$1" > /dev/null && return
    case $1 in
    gcc | clang | g++ | nm | readelf | pkg-config)
        lacking=$1
        if [ "${CI:-}" ]; then
            is 'what the checks need' "$1 is not installed" "$1"
            return 1
        fi
        ;;
    esac
    skipped=$((skipped + 1))
    echo "skipped: $1 is not installed"
    return 1
}

# end: prints the counts, and ends.
end() {
    if [ $((passed + failed)) -lt "$least" ] && [ -z "$lacking" ]; then
        is 'the count of checks' "$((passed + failed))" "at least $least"
    fi
    echo "$passed passed, $failed failed, $skipped skipped"
    [ "$failed" -eq 0 ]
    exit
}

[ -x "$dwv" ] || (cd crates/dwv && rt run -- check data/X1)
[ -x "$addr" ] || (cd crates/dwv_addr && rt run -- check data/four)
make --no-print-directory lib > "$folder/log" 2>&1
is 'make lib ends' "$?" 0
[ "$failed" -eq 0 ] || { cat "$folder/log"; end; }

# The names that a file has or needs, of these kinds.
names() {
    sed -n "s/^[0-9a-f ]* [$1] \\([A-Za-z0-9_.]*\\)\$/\\1/p" | sort -u | xargs
}
calls='dwv_check dwv_check_sections dwv_frames dwv_report dwv_table dwv_table_sections dwv_version'
needs='free malloc memcpy memmove memset realloc'
if has nm; then
    is 'what libdwv.a has' "$(nm -g out/lib/libdwv.a | names TDBRVWC)" "$calls"
    is 'what libdwv.a needs' "$(nm -g out/lib/libdwv.a | names Uw)" "$needs"
    is 'what libdwv.so.0 has' "$(nm -D out/lib/libdwv.so.0 | sed 's/@.*//' | names TDBRVWC)" "$calls"
    is 'what libdwv.so.0 needs' "$(nm -D out/lib/libdwv.so.0 | sed 's/@.*//' | names U)" "$needs"
fi
# dynamic KIND: the entries of this kind in the dynamic section.
dynamic() {
    readelf -d out/lib/libdwv.so.0 | sed -n "s/.*($1).*\\[\\(.*\\)\\]/\\1/p"
}
if has readelf; then
    is 'the libraries that libdwv.so.0 needs' "$(dynamic NEEDED)" libc.so.6
    is 'the name of libdwv.so.0' "$(dynamic SONAME)" libdwv.so.0
fi

# layout FILE TYPE NAME: of a struct of the sources, a test that the one of dwv.h has the same size and offsets.
layout() {
    awk -v type="$2" -v name="$3" '
        $0 ~ "^pub struct " type " " { inside = 1; next }
        /^}/ && inside { size = int((at + most - 1) / most) * most
            print "_Static_assert(sizeof(struct " name ") == " size ", \"size\");"; exit }
        inside && /^ *pub / { field = $2; sub(":", "", field); kind = $0; sub(/^[^:]*: /, "", kind); sub(/,$/, "", kind)
            if (match(kind, /^\[u8; [0-9]+\]$/)) { size = substr(kind, 6) + 0; align = 1 }
            else if (match(kind, /^u[0-9]+$/)) { size = substr(kind, 2) / 8; align = size }
            else { print "#error " kind; exit }
            at = int((at + align - 1) / align) * align
            most = align > most ? align : most
            print "_Static_assert(offsetof(struct " name ", " field ") == " at ", \"" field "\");"
            print "_Static_assert(sizeof(((struct " name " *)0)->" field ") == " size ", \"" field "\");"
            at += size }' "$1"
}
{
    echo '#include "dwv.h"'
    layout crates/dwv_c/src/verdict.rt Verdict dwv_verdict
    layout crates/dwv_c/src/table_rows.rt UnitRow dwv_unit
    layout crates/dwv_c/src/table_rows.rt EntryRow dwv_entry
    layout crates/dwv_c/src/meaning.rt ValueRow dwv_value
    layout crates/dwv_c/src/table_rows.rt TableCounts dwv_counts
    layout crates/dwv_c/src/frame_rows.rt FrameRow dwv_frame
    layout crates/dwv_c/src/frame_rows.rt Located dwv_located
    layout crates/dwv_c/src/frame_rows.rt FrameCounts dwv_frame_counts
    sed -n 's/^pub const \([A-Z_]*\): u32 = \([0-9]*\);/_Static_assert(DWV_\1 == \2, "\1");/p' \
        crates/dwv_c/src/verdict.rt crates/dwv_c/src/places.rt
} > "$folder/layout.c"
is 'tests of the layout' "$(grep -c '^_Static_assert' "$folder/layout.c")" 120

# Files: a sound one, one with a fault, and one of each compiler. Names are in .debug_info, .debug_str and
# .debug_line_str, and in clang's program at indexed offsets.
LC_ALL=C sed 's/\x02int/\x03int/' "$sample" > "$folder/broken"
files=("$sample" "$folder/broken")
for compiler in gcc clang; do
    has "$compiler" || continue
    program="$folder/program-$compiler"
    ends "$compiler: a program compiles" \
        "$compiler" -gdwarf-5 -w -o "$program" tests/programs/shapes.c tests/programs/calls.c
    [ -e "$program" ] && files+=("$program")
done

# The addresses that are looked up in a file: those of its functions, and some of `four`.
addresses_of() {
    echo 0 1000 1006 100c
    nm "$1" 2> /dev/null | sed -n 's/^\([0-9a-f]*\) [Tt] .*/\1/p'
}

flags=(-std=c11 -g -O1 -Wall -Wextra -Werror -pedantic -Iout/include)
sanitizers=(-fsanitize=address,undefined -fno-sanitize-recover=all)
for compiler in gcc clang; do
    command -v "$compiler" > /dev/null || continue
    build() {
        "$compiler" "${flags[@]}" "${sanitizers[@]}" "$@" out/lib/libdwv.a
    }
    ends "$compiler: the layout of the structs" "$compiler" "${flags[@]}" -c -o "$folder/layout.o" "$folder/layout.c"
    ends "$compiler: calls.c compiles" build -o "$folder/calls" "$tests/calls.c"
    ends "$compiler: table.c compiles" build -o "$folder/table" "$tests/table.c"
    ends "$compiler: frames.c compiles" build -o "$folder/frames" "$tests/frames.c"
    for file in "${files[@]}"; do
        name=$(basename "$file")
        is "$compiler: check of $name" "$("$folder/calls" "$file" 2>&1; echo $?)" \
            "$("$dwv" check "$file"; echo $?)"
        is "$compiler: table of $name" "$("$folder/table" "$file" 2>&1 | md5sum)" \
            "$("$dwv" show "$file" | sed '/^fault/d' | md5sum)"
    done
    for file in "${files[@]}" "$four"; do
        mapfile -t addresses < <(addresses_of "$file" | xargs -n 1)
        is "$compiler: frames of $(basename "$file")" "$("$folder/frames" "$file" "${addresses[@]}" 2>&1 | md5sum)" \
            "$("$addr" find "$file" "${addresses[@]}" | md5sum)"
    done
    wraps=(-Wl,--wrap=malloc,--wrap=realloc,--wrap=free)
    ends "$compiler: failing.c compiles" build "${wraps[@]}" -o "$folder/failing" "$tests/failing.c"
    ends "$compiler: allocations that fail" "$folder/failing" "${files[@]:0:2}" "$four"
    ends "$compiler: threads.c compiles" build -pthread -o "$folder/threads" "$tests/threads.c"
    ends "$compiler: eight threads" "$folder/threads" "${files[@]:0:2}"
done

wanted=$(printf 'sound, 2 entries\nG1 UndeclaredCode at .debug_info+0x0000000f')
# The first example of docs/LIBRARY.md in C, and the examples that are files.
awk '/^```$/ && inside { exit } inside { print } $0 == "```c" { inside = 1 }' docs/LIBRARY.md > "$folder/example.c"
examples=contrib/integrations/examples

# The functions in what `nm -S` prints, as the example with the table prints them: start, end and name. Those of the C
# runtime have no entry.
functions_of() {
    while read -r start size kind name; do
        case $kind:$name in
        [Tt]:_*) ;;
        [Tt]:*) printf '%#x %#x %s\n' "0x$start" "$((0x$start + 0x$size))" "$name" ;;
        esac
    done
}

# What the Rust example with gimli prints of a file.
read_by_gimli() {
    local verdict shown
    verdict=$("$dwv" check "$1")
    shown=$("$dwv" show "$1")
    case $verdict in
    sound*) verdict+="; gimli reads $(wc -l <<< "$shown") entries, $(grep -c '"' <<< "$shown") of them with a name" ;;
    esac
    echo "$1: $verdict"
}

# The library as `make install` leaves it, with no `rt`.
root="$folder/root"
mkdir "$folder/bin" "$root"
printf '#!/bin/sh\nexit 1\n' > "$folder/bin/rt"
chmod +x "$folder/bin/rt"
makes() {
    env -u MAKEFLAGS -u MAKELEVEL PATH="$folder/bin:$PATH" \
        make --no-print-directory "$@" DESTDIR="$root" PREFIX=/opt/dwv
}
installed="$root/opt/dwv"
ends 'make install' makes install
is 'what make install installs' "$(cd "$installed" && find include lib | sort | xargs)" \
    'include include/dwv.h lib lib/libdwv.a lib/libdwv.so lib/libdwv.so.0 lib/pkgconfig lib/pkgconfig/dwv.pc'
if has pkg-config && has gcc; then
    said() {
        PKG_CONFIG_PATH="$installed/lib/pkgconfig" pkg-config "$@" dwv
    }
    eval "words=($(said --cflags --libs))"
    ends 'the C example compiles by pkg-config' \
        gcc -Wall -Wextra -Werror -o "$folder/c" "$folder/example.c" "${words[@]}"
    is 'the C example' "$(LD_LIBRARY_PATH="$installed/lib" "$folder/c" "$sample" "$folder/broken")" "$wanted"
    ends 'the C example with the table compiles' \
        gcc -Wall -Wextra -Werror -o "$folder/functions" $examples/functions.c "${words[@]}"
    if [ -e "$folder/program-gcc" ] && has nm; then
        # Functions of the program, as nm has them: where each starts and ends.
        is 'the C example with the table' \
            "$(LD_LIBRARY_PATH="$installed/lib" "$folder/functions" "$folder/program-gcc" | sort)" \
            "$(nm -S "$folder/program-gcc" | functions_of | sort)"
    fi
    if has g++; then
        ends 'the C++ example compiles' \
            g++ -std=c++17 -Wall -Wextra -Werror -o "$folder/cc" $examples/check.cc "${words[@]}"
        is 'the C++ example' "$(LD_LIBRARY_PATH="$installed/lib" "$folder/cc" "$sample" "$folder/broken")" "$wanted"
    fi
    if has go; then
        mkdir "$folder/go"
        cp $examples/check.go "$folder/go/main.go"
        (cd "$folder/go" && printf 'module example\n' > go.mod && PKG_CONFIG_PATH="$installed/lib/pkgconfig" \
            GOCACHE="$folder/cache" go build -o ../example .) > "$folder/log" 2>&1
        is 'the Go example compiles' "$?" 0
        is 'the Go example' "$(LD_LIBRARY_PATH="$installed/lib" "$folder/example" "$sample" "$folder/broken")" "$wanted"
    fi
fi
if has cargo; then
    export DWV_LIB_DIR="$PWD/out/lib" CARGO_TARGET_DIR="$folder/target" RUSTDOCFLAGS='-D warnings'
    crate() {
        ends "the Rust crate: cargo $*" \
            cargo "$1" --quiet --offline --locked --manifest-path rust/dwv/Cargo.toml "${@:2}"
    }
    crate test
    if has gcc; then
        # `deep` prints the backtrace of its program.
        ends 'a program that prints its backtrace compiles' gcc -g -o "$folder/crash" "$tests/crash.c"
        ends 'the Rust example with a backtrace compiles' \
            cargo build --quiet --offline --locked --manifest-path rust/dwv/Cargo.toml --example backtrace
        is 'the Rust example with a backtrace' \
            "$("$folder/crash" | "$folder/target/debug/examples/backtrace" "$folder/crash" | sed -n 's/ at .*:/ /p' |
                xargs)" 'deep 6 main 11'
    fi
    crate doc
    crate package --allow-dirty
    if has cargo-clippy; then
        crate clippy --all-targets -- -D warnings
    fi
    # gimli and object as Debian's librust-gimli-dev and librust-object-dev install them.
    registry=/usr/share/cargo/registry
    if compgen -G "$registry/gimli-0.27.*" > /dev/null && compgen -G "$registry/object-0.30.*" > /dev/null; then
        cp -r rust "$folder/rust"
        ends 'the Rust example with gimli compiles' cargo build --quiet --offline \
            --manifest-path "$folder/rust/gimli/Cargo.toml" --config 'source.crates-io.replace-with="debian"' \
            --config "source.debian.directory=\"$registry\""
        is 'the Rust example with gimli' "$("$folder/target/debug/dwv-gimli" "${files[@]}"; echo "$?")" \
            "$(for file in "${files[@]}"; do read_by_gimli "$file"; done; echo 1)"
    else
        skipped=$((skipped + 1))
        echo 'skipped: librust-gimli-dev or librust-object-dev is not installed'
    fi
fi
makes uninstall > "$folder/log" 2>&1
is 'make uninstall removes every file' "$(cd "$root" && find . ! -type d)" ''
end

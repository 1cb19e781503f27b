#!/usr/bin/env bash
# Installs into a temporary directory, and compiles and runs examples/install.c and examples/read.c with what was installed. Prints each failure, and
# at the end 'N passed, 0 failed'.
set -euo pipefail
cd "$(dirname "$0")/../.."

folder=$(mktemp -d)
trap 'rm -rf "$folder"' EXIT

passed=0 failed=0
expect() {
    if [ "$2" = "$3" ]; then
        passed=$((passed + 1))
    else
        failed=$((failed + 1))
        printf '%s:\n%s\nexpected:\n%s\n' "$1" "$2" "$3"
    fi
}

make install PREFIX="$folder/here"
make install PREFIX=/usr DESTDIR="$folder/image"
files() {
    (cd "$1" && find . -type f -printf '%m %P\n' | sort)
}
expect "PREFIX" "$(files "$folder/here")" $'644 include/rows.h\n644 lib/libinstaller.a\n755 bin/rows\n755 bin/sums'
expect "PREFIX and DESTDIR" "$(files "$folder/image")" $'644 usr/include/rows.h\n644 usr/lib/libinstaller.a\n755 usr/bin/rows\n755 usr/bin/sums'
for text in rows/texts/document-01 sums/texts/document-02; do
    expect "the program ${text%%/*}" "$("$folder/here/bin/${text%%/*}" < "tests/$text.in")" "$(cat "tests/$text.out")"
done

# The examples, with the installed header and library, and as README says.
for example in install read; do
    gcc -std=c11 -Wall -Wextra -Wpedantic -Werror -I"$folder/here/include" "examples/$example.c" -L"$folder/here/lib" -linstaller -o "$folder/$example"
    gcc -Iinclude "examples/$example.c" target/staticlib/libinstaller.a -o "$folder/$example-in-place"
done
for place in "" -in-place; do
    printed=$(cd "$folder" && "./install$place" rows.bin 2>&1)
    expect "install$place" "$printed" $'4 rows with 11 tested bits\nevery wanted code is matched, and no barred one\n10 bytes in rows.bin'
    expect "its list file" "$(od -An -tx1 "$folder/rows.bin")" " 04 04 0c 09 0a 07 0c 0b 0b 07"
    printed=$(cd "$folder" && "./read$place" rows.bin 2>&1)
    expect "read$place" "$printed" $'11--\n1-01\n1-10\n-111\nwidth 4, 4 rows'
    rm "$folder/rows.bin"
done
status() {
    "$@" > "$folder/out" 2>&1 && echo 0 || echo $?
}
expect "a list file that cannot be written" "$(status "$folder/install" "$folder/missing/rows.bin")" 1
expect "a full device" "$(status "$folder/install" /dev/full)" 1
expect "no path" "$(status "$folder/install")" 1

# What read says on standard error, then its status, then what it prints.
reading() {
    (cd "$folder" && { ./read "$@" 2>&1 > out && echo 0 || echo $?; } && cat out)
}
"$folder/install" "$folder/rows.bin" > "$folder/out"
head -c 9 "$folder/rows.bin" > "$folder/cut.bin"
: > "$folder/empty.bin"
printf '\1\0' > "$folder/no-rows.bin"
{ printf '\6\377' && head -c 510 /dev/zero; } > "$folder/most-rows.bin"
{ cat "$folder/most-rows.bin" && printf '\0'; } > "$folder/long.bin"
expect "a list file that is cut" "$(reading cut.bin)" $'rows_read refused: -10\n1'
expect "an empty file" "$(reading empty.bin)" $'rows_read refused: -10\n1'
expect "a list file without rows" "$(reading no-rows.bin)" $'0\nwidth 1, 0 rows'
expect "the longest list file" "$(reading most-rows.bin | tail -n 2)" $'------\nwidth 6, 255 rows'
expect "a file that is too long" "$(reading long.bin)" $'long.bin: more than 512 bytes\n1'
expect "a file that is missing" "$(reading missing.bin)" $'missing.bin: No such file or directory\n1'
expect "a directory" "$(reading .)" $'.: Is a directory\n1'
expect "no file" "$(reading)" $'usage: read FILE\n1'
expect "two files" "$(reading rows.bin rows.bin)" $'usage: read FILE\n1'
expect "rows that cannot be printed" "$("$folder/read" "$folder/rows.bin" 2>&1 > /dev/full || echo $?)" $'standard output: No space left on device\n1'

echo "$passed passed, $failed failed"
exit $((failed > 0))

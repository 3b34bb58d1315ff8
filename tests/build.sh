# Sourced in the repository's root by what runs C programs: the static library and its header under
# target/, proved and built where a source is newer than they are; run_program of bin/kit; and
#   compile PROGRAM FILE..    makes $built/PROGRAM of C files, options and the library
#   compile_plain             makes $plain, the objects of the plain C that the benchmark times, as it times them
#   $comparison               the files of the comparison, with those of tests/reference and without $plain
# natively on x86-64, elsewhere with Debian's cross compiler.
# If the script's first argument is --native, it is taken away, and all is made for this machine, with the plain C of
# tests/reference in the library's place: to try the tests themselves and the plain C without a library.
mkdir -p target
cflags="-std=c11 -O2 -Wall -Wextra -Werror"
native=
if [ "${1-}" = --native ]; then
    shift
    native=yes
    cc=cc
    built=target/native
    library=$built/libstandin.a
    headers=include
    mkdir -p "$built"
    rm -f "$library"
    for source in tests/cli_stand_in.c tests/reference/read.c tests/reference/plan.c tests/reference/check.c; do
        object=$built/standin_$(basename "$source" .c).o
        $cc $cflags -Iinclude -Itests -c -o "$object" "$source"
        ar rc "$library" "$object"
    done
    run_program() { "$@"; }
    echo "no library here: tests/reference is in its place"
else
    . bin/kit
    cc=$x86_cc
    built=target
    library=target/staticlib/libcommission.a
    headers=target/include
    if [ ! -f target/include/cartheron.h ] || stale "$library" crates crates.txt include bin/library; then
        bin/library >target/library.log 2>&1 || {
            tail -n 20 target/library.log
            exit 1
        }
    fi
fi
compile() {
    program=$built/$1
    shift
    $cc $cflags -static -pthread -I"$headers" -o "$program" "$@" "$library"
}
comparison="$(ls tests/differential.c tests/contest*.c tests/generator*.c tests/reference/*.c)"
plain="$built/plain_read.o $built/plain_plan.o $built/plain_write.o $built/plain_check.o"
compile_plain() {
    for object in $plain; do
        $cc $cflags -O3 -c -o "$object" "bench/$(basename "$object" .o).c"
    done
}

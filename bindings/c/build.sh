#!/bin/sh
# Builds Dirgwako for C into bindings/out: archives, shared libraries, the header, and for each library a file for pkg-config.
#
#   build.sh                  three libraries: dirgwako for 4 threads, 64 counters, 8 histograms and 8 gauges, dirgwako16 for 16, 256, 32 and 64,
#                             and dirgwako32 for 32, 256, 32 and 64
#   build.sh N C H G          dirgwako alone, for N threads, C counters, H histograms and G gauges: 1 to 32, and at most 256, 32 and 64
#   build.sh --proved ..      the same over the libraries below as `rt ci` has left them in crates/*/out, which it does not look at again
#   build.sh --compiler ..    the same by Rattle's own compiler and not by LLVM
#   build.sh install PREFIX   copies what was built last to PREFIX/lib, PREFIX/include and PREFIX/lib/pkgconfig
#
# The first build proves all crates below: twenty to thirty minutes on 4 cores.
set -eu
here=$(cd "$(dirname "$0")" && pwd)
top=$(cd "$here/../.." && pwd)
out=$top/bindings/out

fail() {
    echo "build.sh: $1" >&2
    exit 1
}

if [ "${1-}" = install ]; then
    [ $# = 2 ] || fail "usage: build.sh install PREFIX"
    [ -f "$out/libdirgwako.a" ] || fail "nothing is built yet: run build.sh first"
    mkdir -p "$2/lib/pkgconfig" "$2/include"
    prefix=$(cd "$2" && pwd)
    cp "$out/dirgwako.h" "$out/dirgwako_heap.h" "$prefix/include/"
    for it in "$out"/*.pc; do
        name=$(basename "$it" .pc)
        cp "$out/lib$name.a" "$out/lib$name.so.1" "$prefix/lib/"
        ln -sf "lib$name.so.1" "$prefix/lib/lib$name.so"
        sed "s|^prefix=.*|prefix=$prefix|" "$it" > "$prefix/lib/pkgconfig/$name.pc"
    done
    exit 0
fi

proved='' compiler=''
while :; do
    case ${1-} in
        --proved) proved=1 ;;
        --compiler) compiler=rattle ;;
        *) break ;;
    esac
    shift
done
[ $# = 0 ] || [ $# = 4 ] || fail "usage: build.sh [--proved] [--compiler] [N C H G], or build.sh install PREFIX"
for it in rt cc ar; do
    command -v $it > /dev/null || fail "'$it' is not on the path"
done
kit=$(dirname "$(rt doc)")

# Where what was proved for these four numbers is kept: a build proves again only what has changed, or rests on what has. Most functions are for any
# numbers, so the first build for some begins with what the last one has left for others, or a check of the crate.
kept_for() {
    kept=$out/kept/$1_$2_$3_$4
    mkdir -p "$out/kept"
    last=$(ls -td "$out"/kept/*/ "$top/crates/dirgwako_c/out/incremental/" 2> /dev/null | head -n 1)
    [ -d "$kept" ] || [ ! "$last" ] || cp -Rl "$last" "$kept" 2> /dev/null || { rm -rf "$kept" && cp -R "$last" "$kept"; }
    mkdir -p "$kept"
}

# The archive of the crate in this folder, over the libraries below: what `rt lib` does last. By one process: several take as long together, and far
# more of the processor, since each reads anew what it rests on.
library() {
    words='' kept=$out/kept/$1_$2_$3_$4
    for it in std $(sed -n 's/^dirgwako_c staticlib: //p' "$top/crates.txt"); do
        file=$kit/rlibs/$it.rlib
        [ ! -d "$top/crates/$it" ] || file=$top/crates/$it/out/rlib/$it.rlib
        words="$words --extern $it=$file"
    done
    for it in "$kit/rlibs" "$top"/crates/*/out/rlib; do
        words="$words -L dependency=$it"
    done
    # (each word is one: no path here has a blank)
    "$kit/bin/rattle" build --crate-name dirgwako_c src/lib.rt $words --antt-project "$kit/rattle/logic/antt-project.json" --links dirgwako_c= \
        --crate-type staticlib --logic-built "$kit/logic_built" --incremental "$kept" --jobs 1 --toolchain "$kit/toolchain" \
        --backend "${compiler:-llvm}" -o archive.a
}

# The library of this name for these four numbers, from a copy of the crate, which is proved for them.
make() {
    name=$1 work=$out/work/$1
    mkdir -p "$out/work"
    cp -r "$top/crates/dirgwako_c" "$work"
    for it in "WORKERS $2" "COUNTERS $3" "HISTOGRAMS $4" "GAUGES $5"; do
        sed -i "s/const ${it% *}: usize = .*;/const ${it% *}: usize = ${it#* };/" "$work/src/geometry.rt"
    done
    (cd "$work" && library "$2" "$3" "$4" "$5") > "$out/$name.log" 2>&1 || fail "$name is not built: $out/$name.log says why"

    # One archive has it all: the library, what it calls of the C library's heap, and the ids of boards.
    mkdir "$work/objects"
    (cd "$work/objects" && ar x ../archive.a && ar x "$kit/c/liblibc_c.a")
    cc -std=c99 -Wall -Wextra -O2 -fPIC -c "$here/ids.c" -o "$work/objects/ids.o"
    ar rcs "$out/lib$name.a" "$work"/objects/*.o
    cc -shared -Wl,-soname,"lib$name.so.1" -o "$out/lib$name.so.1" -Wl,--whole-archive "$out/lib$name.a" -Wl,--no-whole-archive
    cat > "$out/$name.pc" << END
prefix=$out
libdir=\${prefix}/lib
includedir=\${prefix}/include

Name: $name
Description: Prometheus metrics whose scrapes are of one moment: $2 threads, $3 counters, $4 histograms, $5 gauges
Version: $(sed -n 's/^#define DIRGWAKO_ABI //p' "$here/dirgwako.h")
Libs: -L\${libdir} -l$name
Cflags: -I\${includedir}
END
}

mkdir -p "$out"
find "$out" -mindepth 1 -maxdepth 1 ! -name kept -exec rm -rf {} +
[ "$proved" ] || (cd "$top/crates/dirgwako_c" && rt lib) > "$out/build.log" 2>&1 || fail "the library is not built: $out/build.log says why"
cp "$here/dirgwako.h" "$here/dirgwako_heap.h" "$out/"
if [ $# = 4 ]; then
    kept_for "$@"
    make dirgwako "$@"
else
    kept_for 4 64 8 8
    make dirgwako 4 64 8 8
    # The others side by side, over what the first has proved.
    kept_for 16 256 32 64
    kept_for 32 256 32 64
    is_made=1
    make dirgwako16 16 256 32 64 &
    large=$!
    make dirgwako32 32 256 32 64 &
    for it in $large $!; do
        wait "$it" || is_made=''
    done
    [ "$is_made" ] || exit 1
fi
rm -rf "$out/work"

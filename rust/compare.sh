#!/usr/bin/env bash
# Compares the proved library with the second implementation: compare.sh ROUNDS (1 if not given) times as many random cases.
# Then runs the examples from C, and from C++ if there is a compiler for it.
set -eu
cd "$(dirname "$0")/.."
tests='cargo test --release --offline --manifest-path rust/Cargo.toml'
# The second implementation's own tests need no archive: they run while it is made.
said=$(mktemp)
trap 'rm -f "$said"' EXIT
$tests -p second >"$said" 2>&1 &
tools/make panel_c
if ! wait $!; then
    cat "$said"
    exit 1
fi
cat "$said"
PANEL_ROUNDS=${1:-1} $tests --workspace --exclude second

library=target/staticlib/libpanel_c.a
options='-Wall -Wextra -Werror -Iinclude'
cc -std=c99 $options -o target/draw_c examples/draw.c "$library"
cc -std=c99 $options -o target/look_c examples/look.c "$library"
cc -std=c99 $options -o target/moves_c examples/moves.c "$library"
cc -std=c99 $options -o target/import_c examples/import.c "$library"
target/draw_c <examples/k4.order | cmp - examples/k4.drawing
target/draw_c <examples/feeders.order | cmp - examples/feeders.drawing
target/draw_c straight <examples/feeders.order | cmp - examples/feeders.straight
target/look_c 4 <examples/k4.order | diff - <(
    printf '%s\n' 'point 4 at (5,3)' 'line 3: 4 to 1, plain' 'line 4: 4 to 3, plain' 'line 6: 5 to 4, plain'
)
target/look_c 3 <examples/feeders.order | diff - <(
    printf '%s\n' 'point 3 at (7,2)' 'line 1: 3 to 1, guide' 'line 2: 3 to 2, feeder' 'line 4: 4 to 3, plain' 'line 7: 5 to 3, guide'
)
# All moves: K4's first three lines, the first of which has one cut less, and how many there are.
target/moves_c 8 8 8 <examples/k4.order | head -n 14 | diff - <(
    printf '%s\n' 'travel 12 0' 'plunge -1' 'cut 0 0' 'lift 1'
    printf '%s\n' 'travel 7 2' 'plunge -1' 'cut 4 1' 'cut 0 0' 'lift 1'
    printf '%s\n' 'travel 7 2' 'plunge -1' 'cut 9 1' 'cut 12 0' 'lift 1'
)
target/moves_c 8 8 8 <examples/k4.order | wc -l | diff - <(echo 42)
target/moves_c 8 8 8 <examples/feeders.order | wc -l | diff - <(echo 50)
target/moves_c 1 3 5 straight <examples/feeders.order | head -n 4 | diff - <(
    printf '%s\n' 'travel 0.75 0' 'plunge -0.375' 'cut 0 0' 'lift 0.625'
)
target/moves_c 8 8 8 straight <examples/feeders.order | wc -l | diff - <(echo 44)
target/moves_c 8 41 8 <examples/k4.order | diff - <(echo 'refused 12 at 0')
# The programs print what the library lists, also of the largest panel with every line a feeder and the largest tool.
tools/make moves moves_straight import import_vertices draw
for order in examples/k4.order examples/feeders.order examples/largest.order; do
    for tool in '80 40 80' '1 1 1' '7 13 41' '8 8 81' '8 8'; do
        target/moves_c $tool <"$order" | cmp - <(target/bin/moves $tool <"$order")
    done
    target/moves_c 80 40 80 straight <"$order" | cmp - <(target/bin/moves_straight 80 40 80 <"$order")
done
target/bin/moves 80 40 80 <examples/largest.order | wc -l | diff - <(echo 29728)
# Nets in planar_code: the octahedron's vertices by point, and nets that are broken, not triangulated or not alone in their file.
octahedron='>>planar_code<<\6\2\3\4\5\0\1\5\6\3\0\1\2\6\4\0\1\3\6\5\0\1\4\6\2\0\2\5\4\3\0'
printf "$octahedron" | target/import_c vertices | diff - <(printf '%s\n' 1 2 5 6 4 3)
printf "$octahedron" | target/import_c | target/draw_c | wc -c | diff - <(echo 192)
printf '%s' '>>planar_code<<' | target/import_c | diff - <(echo 'refused 14 at 0')
cat examples/planar_code/planarg_04_01.pc examples/planar_code/planarg_05_01.pc | target/import_c | diff - <(echo 'refused 14 at 0')
target/import_c vertices <examples/planar_code/no_cube.pc | diff - <(echo 'refused 15 at 0')
# The programs write what the library writes, and their order files are drawn, from every stored net.
for net in examples/planar_code/*.pc; do
    target/import_c <"$net" | cmp - <(target/bin/import <"$net")
    target/import_c vertices <"$net" | cmp - <(target/bin/import_vertices <"$net")
    target/bin/import <"$net" | target/bin/draw | cmp - <(target/import_c <"$net" | target/draw_c)
done
# They judge the first 32,768 bytes as the whole file: four lists that end there give 15, whatever follows, and one byte less 14.
long() {
    printf '>>planar_code<<\4' && head -c 32748 /dev/zero | tr '\0' '\1' && head -c "$1" /dev/zero
}
for zeros in 3 4 5 70000; do
    wanted="refused $((zeros < 4 ? 14 : 15)) at 0"
    for program in target/bin/import target/bin/import_vertices target/import_c; do
        long $zeros | "$program" | diff - <(echo "$wanted")
    done
done
if target/draw_c <examples/k4.order >/dev/full 2>/dev/null; then
    echo "compare.sh: draw_c does not tell a failed write" >&2
    exit 1
fi
if target/import_c <examples/planar_code/planarg_04_01.pc >/dev/full 2>/dev/null; then
    echo "compare.sh: import_c does not tell a failed write" >&2
    exit 1
fi
if command -v c++ >/dev/null; then
    c++ -std=c++11 $options -o target/draw_cpp -x c++ examples/draw.c -x none "$library"
    target/draw_cpp <examples/k4.order | cmp - examples/k4.drawing
    target/draw_cpp straight <examples/feeders.order | cmp - examples/feeders.straight
    c++ -std=c++11 $options -o target/import_cpp -x c++ examples/import.c -x none "$library"
    target/import_cpp <examples/planar_code/made_255_turned.pc | cmp - <(target/import_c <examples/planar_code/made_255_turned.pc)
fi

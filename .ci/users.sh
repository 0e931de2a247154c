#!/bin/sh
# The library as its users take it: the header as C11 and as C++17, the C examples, the sample meshes, the Rust tests, the Python package.
# C and Rust run beside two parts of the Python tests. Needs target/staticlib/libmahunopi.a (`.ci/staticlib`; MAHUNOPI_LIB names another directory that has
# it) and what .ci/install installs. Prints a line for each check and last `users: N passed, M failed`, where every Rust test
# and every Python test counts; the status is 0 when none failed.
set -u
cd "$(dirname "$0")/.." || exit 2
library=${MAHUNOPI_LIB:-$PWD/target/staticlib}
MAHUNOPI_LIB=$library
CARGO_NET_OFFLINE=true
export MAHUNOPI_LIB CARGO_NET_OFFLINE
command -v cargo >/dev/null || PATH=$PATH:$HOME/.cargo/bin
work=$(mktemp -d) || exit 2
trap 'rm -rf "$work"' EXIT
warnings='-Wall -Wextra -Wpedantic -Wconversion -Wshadow -Werror'
passed=0
failed=0

# check NAME COMMAND..: runs the command, and shows what it says only where it fails
check() {
    name=$1
    shift
    if "$@" >"$work/said" 2>&1; then
        echo "users: $name: passed"
        passed=$((passed + 1))
    else
        echo "users: $name: FAILED"
        sed 's/^/    /' "$work/said"
        failed=$((failed + 1))
    fi
}

# compiled NAME COMPILER..: the example NAME
compiled() {
    example=$1
    shift
    # shellcheck disable=SC2086
    "$@" $warnings -O2 -Iinclude "examples/$example.c" -o "$work/$example" -L"$library" -lmahunopi
}

cube() {
    compiled cube "$@" && "$work/cube" >"$work/printed" && diff examples/cube.expected "$work/printed"
}

inspect() {
    compiled inspect "$@" && for mesh in meshes/*.dms; do
        "$work/inspect" <"$mesh"
    done >"$work/printed" && diff examples/inspect.expected "$work/printed"
}

# the buffers of a mesh, by C++ and by Rust
draw() {
    # shellcheck disable=SC2086
    g++ -std=c++17 $warnings -O2 -Iinclude examples/draw.cpp -o "$work/draw" -L"$library" -lmahunopi || return 1
    for mesh in meshes/torus.dms meshes/crisp-prism.dms; do
        "$work/draw" "$mesh" 4 >"$work/printed" &&
            cargo run --quiet --manifest-path rust/Cargo.toml --release --offline --locked -p mahunopi --example draw -- "$mesh" 4 | diff - "$work/printed" || return 1
    done
    lines=$(wc -l <examples/draw.cpp)
    echo "examples/draw.cpp has $lines lines, at most 60 are meant"
    [ "$lines" -le 60 ]
}

# no warning, of what is public and has no documentation among them
documented() {
    RUSTFLAGS=-Dwarnings cargo check --manifest-path rust/Cargo.toml --offline --locked -p mahunopi --lib --examples --target-dir "$work/checked"
}

samples() {
    for text in meshes/*.txt; do
        meshes/make-dms "$text" | cmp - "${text%.txt}.dms" || return 1
    done
}

# Building works on four numbers at once: its 20 products in a lane are 40 steps `pmuludq`, which nothing else in the library has. A change of text
# that loses them makes building slower than it was before and is seen here, with no clock.
vectors() {
    found=$(objdump -d "$library/libmahunopi.a" | grep -c pmuludq)
    echo "pmuludq: $found, expected 40 or more"
    [ "$found" -ge 40 ]
}

# Archiving takes four numbers at once: the bytes of four are packed by `packuswb`, which nothing else in the library has either.
packed() {
    found=$(objdump -d "$library/libmahunopi.a" | grep -c packuswb)
    echo "packuswb: $found, expected 4 or more"
    [ "$found" -ge 4 ]
}

# The archive needs of the C library what include/mahunopi.h says, and nothing else.
needs() {
    found=$(nm -u "$library/libmahunopi.a" | awk '$1 == "U" { print $2 }' | sort -u | xargs)
    echo "needed: $found, expected memcpy memset"
    [ "$found" = 'memcpy memset' ]
}

# Every test that cargo runs counts as one; what does not compile counts as one that fails.
rust_tests() {
    cargo test --manifest-path rust/Cargo.toml --workspace --release --offline --locked --no-fail-fast \
        >"$work/cargo" 2>&1
    status=$?
    counts=$(awk '
        /^test result:/ { passed += $4; failed += $6 }
        END { printf "%d %d\n", passed, failed }' "$work/cargo")
    run=${counts% *}
    wrong=${counts#* }
    if [ $status -ne 0 ] && [ "$wrong" -eq 0 ]; then
        wrong=1
    fi
    if [ $status -eq 0 ] && [ "$run" -eq 0 ]; then
        wrong=1
    fi
    passed=$((passed + run))
    failed=$((failed + wrong))
    if [ "$wrong" -eq 0 ]; then
        echo "users: Rust tests and documentation examples: $run passed"
    else
        echo "users: Rust tests and documentation examples: $run passed, $wrong FAILED"
        grep -v -e '^test .* ok$' -e '^$' "$work/cargo" | sed 's/^/    /'
    fi
}

# python_tests PART FILES..: every test that pytest runs counts as one; what does not even start counts as one that fails. The counts go to a file.
python_tests() {
    part=$1
    shift
    PYTHONDONTWRITEBYTECODE=1 /usr/bin/python3 -m pytest -q -rs -p no:cacheprovider "$@" >"$work/pytest.$part" 2>&1
    status=$?
    sed -n 's/^SKIPPED/users: Python tests: skipped/p' "$work/pytest.$part"
    last=$(tail -n 1 "$work/pytest.$part")
    run=$(echo "$last" | sed -n 's/.*\b\([0-9][0-9]*\) passed.*/\1/p')
    wrong=$(echo "$last" | grep -o '[0-9]* \(failed\|error\)' | awk '{ sum += $1 } END { print sum + 0 }')
    if [ $status -ne 0 ] && [ "$wrong" -eq 0 ] || [ -z "$run" ] && [ "$wrong" -eq 0 ]; then
        wrong=1
    fi
    if [ "$wrong" -eq 0 ]; then
        echo "users: Python tests, $part: $run passed"
    else
        echo "users: Python tests, $part: ${run:-0} passed, $wrong FAILED"
        sed 's/^/    /' "$work/pytest.$part"
    fi
    echo "${run:-0} $wrong" >"$work/counts.$part"
}

# C and Rust; the counts go to a file
native() {
    # shellcheck disable=SC2086
    {
        check 'header as C11' gcc -std=c11 $warnings -fsyntax-only -x c include/mahunopi.h
        check 'header as C++17' g++ -std=c++17 $warnings -fsyntax-only -x c++ include/mahunopi.h
    }
    check 'example cube in C11 prints what it should' cube gcc -std=c11
    check 'example cube in C++17 prints what it should' cube g++ -std=c++17 -x c++
    check 'example inspect in C11 prints what it should' inspect gcc -std=c11
    check 'example inspect in C++17 prints what it should' inspect g++ -std=c++17 -x c++
    check 'building is compiled to vectors' vectors
    check 'archiving is compiled to vectors' packed
    check 'the archive needs memcpy and memset alone' needs
    check 'sample meshes are what make-dms makes of their texts' samples
    rust_tests
    check 'example draw in C++17 and in Rust print the same' draw
    check 'Rust wrapper and its examples without warnings' documented
    echo "$passed $failed" >"$work/counts.native"
}

# Side by side: C and Rust, and the Python tests in two parts that take about as long. A shell has what runs beside it ignore interrupts, which
# python/tests/conftest.py undoes.
first='' others=''
for file in python/tests/test_*.py; do
    case ${file##*/} in
    test_command.py | test_first_use.py | test_report.py) first="$first $file" ;;
    *) others="$others $file" ;;
    esac
done
made=0
python/make-library || made=1
native >"$work/native" 2>&1 &
# shellcheck disable=SC2086
python_tests first $first >"$work/first" 2>&1 &
# shellcheck disable=SC2086
python_tests others $others >"$work/others" 2>&1 &
wait
for part in native first others; do
    counts='0 1'
    cat "$work/$part"
    if [ -s "$work/counts.$part" ]; then
        read -r counts <"$work/counts.$part"
    else
        echo "users: $part ended early: FAILED"
    fi
    passed=$((passed + ${counts% *}))
    failed=$((failed + ${counts#* }))
done
if [ "$made" -ne 0 ]; then
    echo "users: the library for Python was not made: FAILED"
    failed=$((failed + 1))
fi
echo "users: $passed passed, $failed failed"
[ "$failed" -eq 0 ]

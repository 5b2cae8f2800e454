#!/bin/sh
# Builds and runs all tests: `make check`. The test programs are built with the library in several ways, and each must run without a
# failure. Tests whose tools are missing are skipped, with a line that reports it. The status is 1 if a test failed.
set -u
cd "$(dirname "$0")" || exit 1
: "${MAKE:=make}" "${CC:=cc}" "${CFLAGS:=-O2 -g}" "${BUILD:=build}"
rows=../rows.txt
plugin=../../crates/plugin_host/data/plugin.wasm
failures=0

fail() {
  echo "FAILED: $*"
  failures=$((failures + 1))
}

# run TEST COMMAND..: runs a test, whose command must end with status 0.
run() {
  test_name=$1
  shift
  if output=$("$@" 2>&1); then
    echo "$test_name: $(echo "$output" | tail -n 1)"
  else
    echo "$output"
    fail "$test_name"
  fi
}

has() {
  command -v "$1" > /dev/null 2>&1
}

# build FOLDER FLAGS..: builds all test programs, with a library that is built with the flags.
build() {
  folder=$BUILD/$1
  shift
  rm -rf "$folder"
  if ! output=$($MAKE BUILD="$folder" CC="$CC" CFLAGS="$*" programs 2>&1); then
    echo "$output"
    fail "build $folder"
    return 1
  fi
}

# deep FOLDER: builds and runs the program that measures the use of the stack.
deep() {
  if [ "$(uname -m)" != x86_64 ]; then
    echo "skipped: it is for x86-64"
    return
  fi
  $MAKE BUILD="$BUILD/$1" CC="$CC" CFLAGS="$CFLAGS" "$BUILD/$1/deep" && "$BUILD/$1/deep"
}

# programs WAY FOLDER COMMAND..: runs all programs except the one that refuses allocations, each as the last argument of the command.
programs() {
  way_name=$1 programs=$BUILD/$2
  shift 2
  run "$way_name rows" "$@" "$programs/rows" "$rows"
  run "$way_name edges" "$@" "$programs/edges"
  run "$way_name ends" "$@" "$programs/ends"
  run "$way_name quotas" "$@" "$programs/quota"
  run "$way_name example" compare "$@" "$programs/example" "$plugin"
}

# compare COMMAND..: checks that the output of the command is that of the example.
compare() {
  "$@" > "$BUILD/example.printed" && diff "$BUILD/example.printed" example.out && echo "as it has to be"
}

# Checks that both libraries export exactly the names of the header.
names() {
  sort "$BUILD/names" > "$BUILD/names.wanted"
  nm -D --defined-only "$BUILD/libtegvurn.so" | awk '{ print $3 }' | sort > "$BUILD/names.so"
  nm -g --defined-only "$BUILD/libtegvurn.a" | awk 'NF == 3 { print $3 }' | sort > "$BUILD/names.a"
  [ -s "$BUILD/names.wanted" ] && diff "$BUILD/names.wanted" "$BUILD/names.so" && diff "$BUILD/names.wanted" "$BUILD/names.a" &&
    echo "$(wc -l < "$BUILD/names.wanted") names"
}

# Checks that the shared library is bound when it is loaded, and that its relocated data is read-only afterwards. Checks that no relocation
# writes to code, that the stack is not executable, and that no control-flow enforcement is claimed (the Makefile explains why).
hardened() {
  readelf -dW "$BUILD/libtegvurn.so" > "$BUILD/dynamic" && readelf -lW "$BUILD/libtegvurn.so" > "$BUILD/segments" || return 1
  grep -q 'FLAGS.*BIND_NOW' "$BUILD/dynamic" || { echo "not bound when it is loaded"; return 1; }
  ! grep TEXTREL "$BUILD/dynamic" || return 1
  grep -q GNU_RELRO "$BUILD/segments" || { echo "no read-only relocations"; return 1; }
  grep -q 'GNU_STACK.* RW ' "$BUILD/segments" || { echo "an executable stack"; return 1; }
  ! readelf -nW "$BUILD/libtegvurn.so" "$BUILD/libtegvurn.a" | grep -E 'IBT|SHSTK' || return 1
  echo "as it has to be"
}

# Checks that the switch of stacks has unwind information, which begins at its address.
unwound() {
  start=$(nm "$BUILD/libtegvurn.so" | awk '$3 == "tegvurn_switch" { print $1 }')
  [ -n "$start" ] || { echo "no tegvurn_switch"; return 1; }
  readelf --debug-dump=frames "$BUILD/libtegvurn.so" | awk '/^Contents/ { section = $4 } /FDE/ && section == ".eh_frame"' |
    grep -q "pc=$start\.\." || { echo "no unwind information of tegvurn_switch"; return 1; }
  echo "as it has to be"
}

# Checks that the header compiles as C++ without a warning.
header() {
  for standard in c++98 c++11 c++20; do
    printf '#include "tegvurn.h"\nint main() { return (int)tegvurn_i32(0).i32; }\n' |
      "${CXX:-c++}" -std=$standard -pedantic -Wall -Wextra -Werror -I. -x c++ -fsyntax-only - || return 1
  done
  echo "no complaint"
}

# Checks that a C++ exception can leave a callback.
thrown() {
  "${CXX:-c++}" -std=c++11 -Wall -Wextra -I. -o "$BUILD/thrown" thrown.cpp "$BUILD/libtegvurn.a" && "$BUILD/thrown"
}

# Builds the example over the library installed in a folder, by the flags of pkg-config, shared and static, and runs it.
installed_in() {
  place=$1
  $MAKE BUILD="$BUILD" CC="$CC" install PREFIX="$place" > /dev/null || return 1
  flags=$(PKG_CONFIG_PATH=$place/lib/pkgconfig pkg-config --cflags --libs tegvurn) || return 1
  # shellcheck disable=SC2086
  $CC -std=c11 -o "$place/example" example.c $flags || return 1
  LD_LIBRARY_PATH=$place/lib ldd "$place/example" | grep -q "$place/lib/libtegvurn.so" || return 1
  compare env LD_LIBRARY_PATH="$place/lib" "$place/example" "$plugin" || return 1
  # shellcheck disable=SC2086
  $CC -std=c11 -static -o "$place/example" example.c $flags || return 1
  compare "$place/example" "$plugin"
}

# Installs the library outside of the repository, in which the gate takes no links, and checks that it works there.
installed() {
  folder=$(mktemp -d) || return 1
  installed_in "$folder"
  ended=$?
  rm -rf "$folder"
  return $ended
}

run "global names" names
if has readelf; then
  run "hardening" hardened
  if [ "$(uname -m)" = x86_64 ]; then run "unwind information" unwound; fi
else
  echo "skipped: hardening and unwind information of the shared library (no readelf)"
fi
if has "${CXX:-c++}"; then
  run "header for C++" header
  run "exception" thrown
else
  echo "skipped: the header for C++, and an exception (no ${CXX:-c++})"
fi
if has pkg-config; then run "installed" installed; else echo "skipped: what is installed (no pkg-config)"; fi

for way in assembly ucontext; do
  define=
  if [ $way = ucontext ]; then define=-DTEGVURN_UCONTEXT; fi
  if build $way "$CFLAGS" $define; then
    programs $way $way
    run "$way refused allocations" "$BUILD/$way/memory"
    if [ $way = assembly ]; then run "$way stack" deep "$way"; fi
  fi
  if has valgrind; then
    if build $way-valgrind -O1 -gdwarf-4 $define -DTEGVURN_VALGRIND; then
      grind="valgrind -q --error-exitcode=9 --leak-check=full --show-leak-kinds=all"
      # shellcheck disable=SC2086
      programs "$way valgrind" $way-valgrind $grind
      # shellcheck disable=SC2086
      run "$way valgrind refused allocations" $grind "$BUILD/$way-valgrind/memory" 20
    fi
  else
    echo "skipped: $way under valgrind (no valgrind)"
  fi
  if echo 'int main(void) { return 0; }' | $CC -fsanitize=address,undefined -x c -o "$BUILD/sanitized" - 2> /dev/null; then
    if build $way-sanitize -O1 -g $define -fsanitize=address,undefined -fno-sanitize-recover=all; then
      export ASAN_OPTIONS=detect_stack_use_after_return=0:allocator_may_return_null=1
      programs "$way sanitizers" $way-sanitize
      run "$way sanitizers refused allocations" "$BUILD/$way-sanitize/memory" 5
    fi
  else
    echo "skipped: $way with sanitizers ($CC has none)"
  fi
done

echo "$failures failed"
[ $failures -eq 0 ]

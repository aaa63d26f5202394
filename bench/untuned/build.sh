#!/bin/sh
# Builds the kernels that nothing was tuned on, each of 9 to 10 million instructions, and prints what each answers,
# compiled for this machine and by wasm-interp: 0, if it comes to what it expects. Ends with status 1 if one does not.
# Needs Debian's packages clang, lld and wabt. usage: bench/untuned/build.sh
set -eu
usage() { sed -n '2,/^set/{/^#/s/^# \{0,1\}//p}' "$0"; }
case "$*" in
    "") ;;
    --help | -h) usage; exit 0 ;;
    *) usage >&2; exit 2 ;;
esac
cd -- "$(dirname -- "$0")"
scratch=$(mktemp -d)
trap 'rm -rf "$scratch"' EXIT

wrong=0
echo 'int invoke(void); int main(void) { return invoke(); }' >"$scratch/main.c"
for source in *.c; do
    kernel=${source%.c}
    clang --target=wasm32 -mcpu=mvp -O2 -Wall -Wextra -ffreestanding -fno-builtin -nostdlib \
        -Wl,--no-entry -Wl,--strip-all -Wl,--compress-relocations -Wl,-z,stack-size=8192 \
        -o "$kernel.wasm" "$source"
    clang -O2 -w -o "$scratch/native" "$scratch/main.c" "$source"
    native=0
    "$scratch/native" || native=$?
    wabt=$(wasm-interp "$kernel.wasm" --run-all-exports | sed -n 's/^invoke() => i32://p')
    printf '%-14s %3s %3s\n' "$kernel" "$native" "$wabt"
    [ "$native $wabt" = '0 0' ] || wrong=1
done
exit "$wrong"

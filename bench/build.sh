#!/bin/sh
# Builds the kernels that bench/run times, each of 9 to 10 million instructions, keys.wasm, which its chains call, and
# host_calls.wasm, which bench/slowest calls. Needs
# Debian's packages clang, lld and wabt. usage: bench/build.sh
set -eu
usage() { sed -n '2,/^set/{/^#/s/^# \{0,1\}//p}' "$0"; }
case "$*" in
    "") ;;
    --help | -h) usage; exit 0 ;;
    *) usage >&2; exit 2 ;;
esac
cd -- "$(dirname -- "$0")"

# build NAME SOURCE [OPTION..]: the module of a C file.
build() {
    name=$1 source=$2
    shift 2
    clang --target=wasm32 -mcpu=mvp -O2 -Wall -Wextra -ffreestanding -fno-builtin -nostdlib "$@" \
        -Wl,--no-entry -Wl,--strip-all -Wl,--compress-relocations -Wl,-z,stack-size=8192 \
        -o "$name.wasm" "$source"
}

for kernel in count tree fibonacci; do wat2wasm "$kernel.wat" -o "$kernel.wasm"; done
chaincode=../examples/chaincode
build sort "$chaincode/sort.c" -DCOUNT=12288
build sha256 "$chaincode/sha256.c" -DLENGTH=63488 \
    -DDIGEST=0xdb1abc01,0x530ceaa0,0x3c9ee282,0x24a99755,0x3fe7f610,0xeb1e2173,0x5a39a96a,0xb0b8aa40
build hash_map hash_map.c
build keys keys.c
build host_calls host_calls.c

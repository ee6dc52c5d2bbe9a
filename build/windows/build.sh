#!/bin/sh
# The libraries for Windows on x86-64, from the machine code of the static one for Linux: build/windows/build.sh TOOLS LIBRARY FOLDER
#
# TOOLS is `mingw` (x86_64-w64-mingw32-gcc) or `clang` (clang, ld.lld, llvm-dlltool and llvm-ar, with no file of Windows' own). LIBRARY is
# the one for Linux. The folder gets fazgrond.dll, its import library libfazgrond.dll.a, fazgrond.def, and the static library libfazgrond.a.
#
# The library is linked flat: all its jumps, tables and constants are relative, so its bytes run at any place. The assembler
# takes these bytes in, puts jumps behind them to what they call, and names what they define.
set -eu
here=$(cd "$(dirname -- "$0")" && pwd)
tools=$1
library=$(realpath -- "$2")
mkdir -p -- "$3"
out=$(cd -- "$3" && pwd)
work=$(mktemp -d)
trap 'rm -rf -- "$work"' EXIT
trap 'exit 1' HUP INT TERM
cd "$work"

case $tools in
mingw)
    kernel32=-lkernel32
    ar=x86_64-w64-mingw32-ar
    set -- x86_64-w64-mingw32-gcc -fno-tree-loop-distribute-patterns
    ;;
clang)
    kernel32=kernel32.a
    ar=llvm-ar
    llvm-dlltool -m i386:x86-64 -d "$here/kernel32.def" -l kernel32.a
    set -- clang --target=x86_64-w64-mingw32 -fuse-ld=lld
    ;;
*)
    echo "tools are mingw or clang" >&2
    exit 2
    ;;
esac

# The library's bytes.
mkdir members
(cd members && ar x "$library")
ld -m elf_x86_64 --orphan-handling=error -T "$here/flat.ld" -o flat.elf members/*
objcopy -O binary flat.elf flat.bin

# Those bytes, the jumps to what they call, and the names of what they define; `sysv_` stands before each name.
nm -gn flat.elf > names
outside=$((0x$(awk '$3 == "outside" { print $1 }' names)))
{
    printf '.text\n.balign 64\nbase:\n.incbin "flat.bin", 0, %s\n' "$outside"
    awk '$3 ~ /^fazgrond_/ { printf ".globl sysv_%s\n.set sysv_%s, base + 0x%s\n", $3, $3, $1; next }
        $3 != "outside" { printf ".balign 16, 0xcc\njmp sysv_%s\n", $3 }' names
} > image.S

# The header's functions are what the DLL exports.
{
    printf 'LIBRARY fazgrond.dll\nEXPORTS\n'
    sed -n 's/^[a-z0-9_]* \(fazgrond_[a-z_]*\)(.*/\1/p' "$here/../../include/fazgrond.h"
} > fazgrond.def

"$@" -c image.S -o image.o
for source in exports heap start; do
    "$@" -std=c11 -Wall -Wextra -Werror -O3 -ffreestanding -fno-builtin -fno-stack-protector -funwind-tables \
        -I "$here/../../include" -c "$here/$source.c" -o "$source.o"
done
"$@" -shared -nostdlib -s -Wl,-e,DllMainCRTStartup -Wl,--dynamicbase,--nxcompat,--high-entropy-va,--no-insert-timestamp \
    -Wl,--out-implib,libfazgrond.dll.a -o fazgrond.dll exports.o heap.o start.o image.o fazgrond.def "$kernel32"
"$ar" rcsD libfazgrond.a exports.o heap.o image.o
mv fazgrond.dll libfazgrond.dll.a fazgrond.def libfazgrond.a "$out"

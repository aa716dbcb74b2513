#!/bin/sh
# Builds the images of the measurements from their programs: bench/build.sh [PROGRAM]. Those that begin with ";" are built by the program
# itself (`pico thumb`), the others by arm-none-eabi-as and tools/uf2.py, where that is there.
program=${1:-$(dirname "$0")/../crates/pico_main/out/pico_main}
program=$(cd "$(dirname "$program")" && pwd)/$(basename "$program")
cd "$(dirname "$0")" || exit 1
set -e
work=$(mktemp -d)
trap 'rm -r "$work"' EXIT
for source in *.s; do
    name=${source%.s}
    if head -c 1 "$source" | grep -q ';'; then
        "$program" thumb "$source" >"$work/$name.uf2"
        mv "$work/$name.uf2" "$name.uf2"
    elif command -v arm-none-eabi-as >/dev/null; then
        arm-none-eabi-as -mcpu=cortex-m0plus -o "$work/$name.o" "$source"
        arm-none-eabi-objcopy -O binary -j .text "$work/$name.o" "$work/$name.bin"
        python3 ../tools/uf2.py "$work/$name.bin" "$name.uf2"
    else
        echo "build: $name.uf2 stays: arm-none-eabi-as is not there" >&2
    fi
done

#!/bin/sh
# Builds each example of this folder to an image beside it: examples/firmware/build.sh [NAME.c..]
# It needs arm-none-eabi-gcc (Debian: gcc-arm-none-eabi) and python3. The images are kept in the repository, so that they run without it,
# and so is the listing of fault.c, by which tools/where.py names lines of C in the debugger's tour.
set -e
cd "$(dirname "$0")"
if ! command -v arm-none-eabi-gcc >/dev/null; then
    echo "build.sh: arm-none-eabi-gcc is not on the PATH (Debian: apt-get install gcc-arm-none-eabi)" >&2
    exit 1
fi
work=$(mktemp -d)
trap 'rm -r "$work"' EXIT
[ $# = 0 ] && set -- *.c
for source; do
    name=${source%.c}
    case $name in
    print) more="--specs=nano.specs --specs=nosys.specs" ;; # newlib's printf
    startup) more="-Wl,--wrap=memset,--wrap=memcpy" ;;      # the table's routines in the place of newlib's
    *) more= ;;
    esac
    # -nostartfiles: the start is start.s, and libgcc is linked, so that n / 10 has its routine
    # shellcheck disable=SC2086
    arm-none-eabi-gcc -mcpu=cortex-m0plus -mthumb -g -Os -Wall -ffreestanding -fno-tree-loop-distribute-patterns -nostartfiles $more \
        -fdebug-prefix-map="$PWD=." -T sram.ld -o "$work/$name.elf" start.s "$name.c"
    python3 ../../tools/uf2.py "$work/$name.elf" "$name.uf2"
    if [ "$name" = fault ]; then
        arm-none-eabi-objdump -dlS "$work/$name.elf" | sed "s#^$work/##; s#^[./]*\([a-z]*[.][cs]:\)#\1#; s/[[:space:]]*\$//" >"$name.lst"
    fi
done

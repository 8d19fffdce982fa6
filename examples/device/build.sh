#!/usr/bin/env bash
# Builds the device's program: build.sh FILE.elf [FOLDER], FOLDER having tcpcore.c and tcpcore.h, release/ by default.
# It wants arm-none-eabi-gcc (Debian's gcc-arm-none-eabi) and no C library: what of one is needed is in memory.c.
set -euo pipefail
here=$(cd "$(dirname "$0")" && pwd)
top=$here/../..
elf=$1 library=${2:-$top/release}
arm-none-eabi-gcc -std=c11 -Os -mcpu=cortex-m3 -mthumb -ffreestanding -nostdlib -Wall -Wextra -Wno-unused-parameter \
    -ffunction-sections -fdata-sections -fno-tree-loop-distribute-patterns -Wl,--gc-sections -Wl,-T,"$here/device.ld" \
    -I"$here" -I"$library" -I"$top/c/companions" "$here"/*.c "$top/c/companions/ip.c" "$top/c/companions/secret.c" "$library/tcpcore.c" -lgcc -o "$elf"

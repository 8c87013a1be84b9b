#!/usr/bin/env bash
# Compiles the programs at four levels (PowerPC's GCC of Debian, gcc-powerpc-linux-gnu), runs them under qemu-ppc, and
# keeps what they write and their status, which must be the same at each level. bin/NAME.LEVEL is what the gate runs.
set -eu
cd "$(dirname "$0")"
mkdir -p bin
flags="-static -nostdlib -ffreestanding -fno-pic -no-pie -mcpu=powerpc -msoft-float -fno-stack-protector
    -fno-asynchronous-unwind-tables -fno-tree-loop-distribute-patterns -Wall -Wextra -Wno-unused-function
    -Wl,--build-id=none -Wl,-z,noexecstack -Wl,-z,max-page-size=4096 -Wl,-s"
for source in *.c; do
    name=${source%.c}
    link=; [ -f "$name.ld" ] && link="-Wl,-T,$name.ld"
    input=/dev/null; [ -f "bin/$name.in" ] && input=bin/$name.in
    for level in O0 O1 O2 Os; do
        # shellcheck disable=SC2086
        powerpc-linux-gnu-gcc $flags -$level $link -o "bin/$name.$level" "$source" -lgcc
        status=0
        qemu-ppc "bin/$name.$level" <"$input" >"bin/$name.$level.out" 2>/dev/null || status=$?
        chmod -x "bin/$name.$level"
        echo "$status" >"bin/$name.$level.status"
        for what in out status; do
            if [ $level = O0 ]; then
                mv "bin/$name.$level.$what" "bin/$name.$what"
            else
                cmp "bin/$name.$level.$what" "bin/$name.$what"
                rm "bin/$name.$level.$what"
            fi
        done
    done
done

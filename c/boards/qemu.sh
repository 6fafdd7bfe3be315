#!/bin/sh
# Runs a program on a board under qemu, and prints its lines, until it is ended.
#
#   qemu.sh BOARD PROGRAM NETWORK      NETWORK as qemu's -netdev has it, without an id: user,hostfwd=tcp:127.0.0.1:8080-:80
set -eu
case $1 in
mps2-an385 | mps2-an386) set -- qemu-system-arm -M "$1" -kernel "$2" -nic "$3,model=lan9118" ;;
virt-riscv32)
    set -- qemu-system-riscv32 -M virt -bios none -kernel "$2" -global virtio-mmio.force-legacy=false -netdev "$3,id=net" \
        -device virtio-net-device,netdev=net
    ;;
*) echo "qemu.sh: $1?" >&2 && exit 2 ;;
esac
exec "$@" -display none -monitor none -serial stdio </dev/null

#!/usr/bin/env bash
# Runs a program for a Cortex-M3 on qemu's board mps2-an385: what it prints comes by semihosting, on standard error.
exec qemu-system-arm -M mps2-an385 -nographic -monitor none -serial none -semihosting-config enable=on,target=native -kernel "$1" 2>&1

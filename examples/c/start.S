# Where each hart begins: x10 (a0) is its number, x11 (a1) how many harts there are, x2 (sp) the end of its own stack of
# 65,536 bytes. That is what a call of `main(hart, harts)` needs; what `main` answers is the hart's exit code.
    .section .text.start, "ax"
    .globl _start
_start:
    call main
    li   a7, 93
    ecall

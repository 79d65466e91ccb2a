/* Text that may be executed and data that may be written, in two segments of their own, at the addresses that the
   assembler of rvcollide uses. Whatever is zero at the start has no bytes in the file. The data end at a multiple of 4, since an
   atomic operation on a byte, as of an atomic_flag, is one on the whole word. */
ENTRY(_start)

PHDRS
{
    text PT_LOAD FLAGS(5);
    data PT_LOAD FLAGS(6);
}

SECTIONS
{
    .text 0x10000 : { *(.text.start) *(.text .text.*) } :text
    .rodata : { *(.rodata .rodata.* .srodata .srodata.*) } :text
    . = 0x20000;
    .data : { *(.data .data.* .sdata .sdata.*) } :data
    .bss : { *(.bss .bss.* .sbss .sbss.* COMMON) . = ALIGN(4); } :data
    /DISCARD/ : { *(.comment) *(.note .note.*) *(.riscv.attributes) *(.eh_frame) }
}

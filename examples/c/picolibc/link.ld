/* As ../link.ld, and with what picolibc asks for: a thread-local block for each of 16 harts, and room for malloc. */
ENTRY(_start)

PHDRS
{
    text PT_LOAD FLAGS(5);
    data PT_LOAD FLAGS(6);
    tls PT_TLS;
}

SECTIONS
{
    .text 0x10000 : { *(.text.start) *(.text .text.*) } :text
    .rodata : { *(.rodata .rodata.* .srodata .srodata.*) } :text
    . = ALIGN(0x10000);
    .data : { *(.data .data.* .sdata .sdata.*) . = ALIGN(16); } :data
    .tdata : { __tdata_start = .; *(.tdata .tdata.*) . = ALIGN(4); __tdata_end = .; } :data :tls
    .tbss : { *(.tbss .tbss.* .tcommon) } :data :tls
    __tls_size = (SIZEOF(.tdata) + SIZEOF(.tbss) + 31) / 16 * 16;
    .bss : {
        *(.bss .bss.* .sbss .sbss.* COMMON)
        . = ALIGN(16);
        __tls_blocks = .;
        . += 16 * __tls_size;
        __heap_start = .;
        . += DEFINED(__heap_size) ? __heap_size : 0x10000;
        __heap_end = .;
    } :data
    /DISCARD/ : { *(.comment) *(.note .note.*) *(.riscv.attributes) *(.eh_frame) }
}

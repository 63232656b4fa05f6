/* Layout of the guests with the C library: code, constants and data on pages of their own, near in the file. */
PHDRS
{
    code PT_LOAD FLAGS(5);
    constants PT_LOAD FLAGS(4);
    data PT_LOAD FLAGS(6);
    thread PT_TLS FLAGS(4);
}

SECTIONS
{
    . = 0x10000 + SIZEOF_HEADERS;
    .text : { *(.text.init.enter) *(.text .text.*) } :code
    . = ALIGN(4096) + (. & 4095);
    .rodata : { *(.rodata .rodata.* .srodata .srodata.*) . = ALIGN(16); } :constants
    . = ALIGN(4096) + (. & 4095);
    .data : { *(.data .data.*) __global_pointer$ = . + 0x800; *(.sdata .sdata.*) . = ALIGN(16); } :data
    .tbss : { *(.tbss .tbss.*) } :data :thread
    .bss : { *(.sbss .sbss.* .bss .bss.* COMMON) . = ALIGN(16); } :data
    /DISCARD/ : { *(.eh_frame .eh_frame.*) *(.note .note.*) }
}

ENTRY(_start)
ASSERT(SIZEOF(.tbss) <= 64, "start.S has 64 bytes for the thread's variables")

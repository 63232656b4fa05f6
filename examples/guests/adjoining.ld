/* Two executable segments, one right behind the other. */
PHDRS
{
    first PT_LOAD FLAGS(5);
    second PT_LOAD FLAGS(5);
}

SECTIONS
{
    . = 0x10000 + SIZEOF_HEADERS;
    .first : { *(.first) } :first
    .second : { *(.second) } :second
    /DISCARD/ : { *(.eh_frame .eh_frame.*) *(.note .note.*) *(.riscv.attributes) }
}

ENTRY(_start)

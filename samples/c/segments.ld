/* Three segments of data at addresses of their own; the code segment begins with the file's headers. */
PHDRS { code PT_LOAD FILEHDR PHDRS FLAGS(5); here PT_LOAD FLAGS(6); far PT_LOAD FLAGS(6); zeros PT_LOAD FLAGS(6); }
ENTRY(_start)
SECTIONS {
    . = 0x10000000 + SIZEOF_HEADERS;
    .text : { *(.text*) *(.rodata*) } :code
    . = 0x10020000 + (. & 0xffff);
    .data : { *(.data*) *(.sdata*) } :here
    .bss : { *(.bss*) *(.sbss*) } :here
    . = 0x10040000 + (. & 0xffff);
    .far : { *(.far) } :far
    . = 0x10060000;
    .zeros (NOLOAD) : { *(.zeros) } :zeros
    /DISCARD/ : { *(.comment) *(.gnu.attributes) *(.note*) *(.eh_frame*) }
}

ENTRY(_start)
SECTIONS
{
    . = 0x1000;
    .text : { *(.text.start) *(.text .text.*) code_end = .; }
    . = 0x4000;
    .data : { *(.rodata .rodata.*) *(.srodata .srodata.*) *(.sdata .sdata.*) *(.data .data.*) }
    .bss : { *(.sbss .sbss.*) *(.bss .bss.*) *(COMMON) }
    /DISCARD/ : { *(.comment) *(.eh_frame) *(.riscv.attributes) *(.note.*) }
}

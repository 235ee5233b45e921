/* The sections of a program for QEMU's machine `virt`. A RISC-V processor starts at the first byte. */
ENTRY(_start)
SECTIONS {
    .text : { *(.text.start) *(.text .text.*) }
    .rodata : { *(.rodata .rodata.*) }
    . = ALIGN(0x10000);
    .data : { *(.data .data.*) }
    .bss : { *(.bss .bss.*) *(COMMON) }
    /DISCARD/ : { *(.comment) *(.note.*) *(.eh_frame) }
}

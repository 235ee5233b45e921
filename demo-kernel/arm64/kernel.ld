/* The kernel lies at its physical addresses, 512 KiB above the begin of RAM. The programs of partitions lie after it and run at
 * USER_CODE. */
USER_CODE = 0x10000000000;
ENTRY(header)
SECTIONS
{
    . = 0x40080000;
    image_start = .;
    .boot : { *(.boot) }
    .text : { *(EXCLUDE_FILE(*programs.o) .text EXCLUDE_FILE(*programs.o) .text.*) }
    .rodata : { *(EXCLUDE_FILE(*programs.o) .rodata EXCLUDE_FILE(*programs.o) .rodata.*) }
    .data : { *(EXCLUDE_FILE(*programs.o) .data EXCLUDE_FILE(*programs.o) .data.* .got .got.plt) }
    . = ALIGN(4096);
    programs = .;
    .programs USER_CODE : AT(programs) { *programs.o(.text .text.* .rodata .rodata.*) . = ALIGN(4096); }
    programs_bytes = SIZEOF(.programs);
    image_end = programs + SIZEOF(.programs);
    .bss image_end : AT(image_end) { bss_start = .; *(.bss .bss.* COMMON) . = ALIGN(4096); bss_end = .; }
    image_bytes = bss_end - image_start;
    .unwanted : { *programs.o(.data .data.* .bss .bss.*) }
    ASSERT(SIZEOF(.unwanted) == 0, "a program has variables outside of its stack")
    ASSERT(bss_end <= 0x41000000, "the kernel reaches into the RAM of partitions")
    /DISCARD/ : { *(.comment .note .note.* .eh_frame) }
}

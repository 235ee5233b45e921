/* The entry from a loader that follows Linux's protocol for ARM64, the vectors of exceptions, the return to a partition, and the
 * loads and stores of its vector registers. */
        .section .boot, "ax"
        .globl  header
header: b       enter
        .long   0
        .quad   0x80000, image_bytes, 2         /* the distance from the begin of RAM; the size with .bss; pages of 4 KiB */
        .quad   0, 0, 0
        .ascii  "ARM\x64"
        .long   0

        .macro  address register, name
        adrp    \register, \name
        add     \register, \register, :lo12:\name
        .endm

        /* The loader leaves the MMU off, interrupts masked, and the address of the device tree in x0. */
enter:  address x1, bss_start
        address x2, bss_end
1:      stp     xzr, xzr, [x1], #16
        cmp     x1, x2
        b.lo    1b
        msr     spsel, #1                       /* exceptions use this stack, and the kernel the one below */
        address x1, exception_stack_top
        mov     sp, x1
        msr     spsel, #0
        address x1, kernel_stack_top
        mov     sp, x1
        address x1, vectors
        msr     vbar_el1, x1
        bl      kernel_main
        brk     #0

        .section .text
        .set    BYTES, 304                      /* of struct registers */
        .macro  exception number
        .balign 128
        sub     sp, sp, #BYTES
        stp     x0, x1, [sp]
        mov     x0, #\number
        b       enter_kernel
        .endm

        /* Four exceptions (synchronous, IRQ, FIQ, SError) in the kernel on its stack, in the kernel on the exceptions' stack, in
         * 64-bit user mode, and in 32-bit user mode. */
        .balign 2048
vectors:
        .irp    number, 0, 1, 2, 3, 4, 5, 6, 7, 8, 9, 10, 11, 12, 13, 14, 15
        exception \number
        .endr

enter_kernel:
        stp     x2, x3, [sp, #16]
        stp     x4, x5, [sp, #32]
        stp     x6, x7, [sp, #48]
        stp     x8, x9, [sp, #64]
        stp     x10, x11, [sp, #80]
        stp     x12, x13, [sp, #96]
        stp     x14, x15, [sp, #112]
        stp     x16, x17, [sp, #128]
        stp     x18, x19, [sp, #144]
        stp     x20, x21, [sp, #160]
        stp     x22, x23, [sp, #176]
        stp     x24, x25, [sp, #192]
        stp     x26, x27, [sp, #208]
        stp     x28, x29, [sp, #224]
        mrs     x1, sp_el0
        stp     x30, x1, [sp, #240]
        mrs     x1, elr_el1
        mrs     x2, spsr_el1
        stp     x1, x2, [sp, #256]
        mrs     x1, tpidr_el0
        stp     x1, x0, [sp, #272]
        mrs     x1, esr_el1
        mrs     x2, far_el1
        stp     x1, x2, [sp, #288]
        msr     cpacr_el1, xzr                  /* an instruction on vector registers faults now, also in the kernel */
        isb
        mov     x1, sp
        cmp     x0, #8
        b.lo    1f                              /* a fault in the kernel, perhaps since its stack is full: stays on this one */
        msr     spsel, #0
        address x0, kernel_stack_top
        mov     sp, x0
1:      mov     x0, x1
        bl      trap
        msr     spsel, #1
        mov     x0, sp
        add     sp, sp, #BYTES

        .globl  resume
resume: msr     spsel, #1                       /* resume(registers) */
        mov     x1, #3 << 20
        msr     cpacr_el1, x1
        ldp     x30, x1, [x0, #240]
        msr     sp_el0, x1
        ldp     x1, x2, [x0, #256]
        msr     elr_el1, x1
        msr     spsr_el1, x2
        ldr     x1, [x0, #272]
        msr     tpidr_el0, x1
        ldp     x2, x3, [x0, #16]
        ldp     x4, x5, [x0, #32]
        ldp     x6, x7, [x0, #48]
        ldp     x8, x9, [x0, #64]
        ldp     x10, x11, [x0, #80]
        ldp     x12, x13, [x0, #96]
        ldp     x14, x15, [x0, #112]
        ldp     x16, x17, [x0, #128]
        ldp     x18, x19, [x0, #144]
        ldp     x20, x21, [x0, #160]
        ldp     x22, x23, [x0, #176]
        ldp     x24, x25, [x0, #192]
        ldp     x26, x27, [x0, #208]
        ldp     x28, x29, [x0, #224]
        ldp     x0, x1, [x0]
        dsb     ishst                           /* the processor sees pages that the kernel has mapped */
        eret

        /* save_vectors(to), load_vectors(from) */
        .globl  save_vectors, load_vectors
save_vectors:
        mov     x1, #3 << 20                    /* only here and in load_vectors the kernel can use these registers */
        msr     cpacr_el1, x1
        isb
        st1     {v0.2d - v3.2d}, [x0], #64
        st1     {v4.2d - v7.2d}, [x0], #64
        st1     {v8.2d - v11.2d}, [x0], #64
        st1     {v12.2d - v15.2d}, [x0], #64
        st1     {v16.2d - v19.2d}, [x0], #64
        st1     {v20.2d - v23.2d}, [x0], #64
        st1     {v24.2d - v27.2d}, [x0], #64
        st1     {v28.2d - v31.2d}, [x0], #64
        mrs     x1, fpcr
        mrs     x2, fpsr
        stp     x1, x2, [x0]
        msr     cpacr_el1, xzr
        isb
        ret
load_vectors:
        mov     x1, #3 << 20
        msr     cpacr_el1, x1
        isb
        ld1     {v0.2d - v3.2d}, [x0], #64
        ld1     {v4.2d - v7.2d}, [x0], #64
        ld1     {v8.2d - v11.2d}, [x0], #64
        ld1     {v12.2d - v15.2d}, [x0], #64
        ld1     {v16.2d - v19.2d}, [x0], #64
        ld1     {v20.2d - v23.2d}, [x0], #64
        ld1     {v24.2d - v27.2d}, [x0], #64
        ld1     {v28.2d - v31.2d}, [x0], #64
        ldp     x1, x2, [x0]
        msr     fpcr, x1
        msr     fpsr, x2
        msr     cpacr_el1, xzr
        isb
        ret

        /* The entries of the programs, which lie far from the kernel. */
        .section .rodata
        .balign 8
        .globl  user_entries
user_entries:
        .quad   steady, quiet, noisy

        .section .bss
        .balign 4096
        .globl  kernel_guard, kernel_stack_top
kernel_guard:     .skip 4096                    /* not mapped once the kernel runs (duty 9) */
                  .skip 65536
kernel_stack_top: .skip 8192
exception_stack_top:
        .section .note.GNU-stack, "", @progbits

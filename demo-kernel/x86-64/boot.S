/* The entry from a multiboot loader, the switch to long mode, the stubs of traps, and the return to a partition. */
        .set    MAGIC, 0x1badb002
        .set    FLAGS, 0x00010002               /* the address fields are valid; the loader has to give the size of memory */
        .section .boot, "awx"
        .align  4
header: .long   MAGIC, FLAGS, -(MAGIC + FLAGS)
        .long   header, image_start, image_end, bss_end, enter

        .code32
        .globl  enter
enter:  cli
        movl    $kernel_stack_top, %esp
        movl    %ebx, %ebp                      /* the address of the loader's information */
        /* The kernel has the first GiB at its physical addresses, in pages of 2 MiB that user mode cannot reach. */
        xorl    %ecx, %ecx
1:      movl    %ecx, %eax
        shll    $21, %eax
        orl     $0x83, %eax
        movl    %eax, kernel_directory(, %ecx, 8)
        incl    %ecx
        cmpl    $512, %ecx
        jne     1b
        movl    $kernel_directory + 3, kernel_pointers
        movl    $kernel_pointers + 3, kernel_root
        movl    $kernel_root, %eax
        movl    %eax, %cr3
        movl    $0x620, %eax                    /* PAE; FXSAVE and SSE, for the partitions */
        movl    %eax, %cr4
        movl    $0xc0000080, %ecx
        rdmsr
        orl     $0x900, %eax                    /* long mode; pages that are not executable */
        wrmsr
        movl    $0x80010033, %eax               /* paging, WP, NE, ET, MP, PE; neither EM nor TS */
        movl    %eax, %cr0
        lgdt    gdt_pointer
        ljmp    $0x08, $1f
        .code64
1:      movl    $0x10, %eax
        movl    %eax, %ds
        movl    %eax, %es
        movl    %eax, %fs
        movl    %eax, %gs
        movl    %eax, %ss
        movq    $task, %rax                     /* the descriptor of the task segment gets its base here */
        movw    %ax, gdt + 0x2a
        shrq    $16, %rax
        movb    %al, gdt + 0x2c
        movb    %ah, gdt + 0x2f
        movl    $0x28, %eax
        ltr     %ax
        movl    %ebp, %edi
        call    kernel_main
        ud2

        .section .data
        .align  16
gdt:    .quad   0
        .quad   0x00af9b000000ffff              /* 08: kernel code */
        .quad   0x00cf93000000ffff              /* 10: kernel data */
        .quad   0x00cff3000000ffff              /* 18: user data */
        .quad   0x00affb000000ffff              /* 20: user code */
        .quad   0x0000890000000067, 0           /* 28: the task segment */
gdt_pointer:
        .word   . - gdt - 1
        .quad   gdt
        .align  16
task:   .long   0
        .quad   kernel_stack_top, 0, 0, 0
        .quad   fault_stack_top                 /* IST 1: NMI, double fault, machine check */
        .fill   6, 8, 0
        .long   0, 0, 0x00680000                /* no table of ports: user mode can use none */

        .section .text
        .align  16
        .globl  stubs, call_stub, resume
stubs:  .set    vector, 0
        .rept   48
        .align  16
        .if     (0x60227d00 >> vector) & (vector < 32)
        .else
        pushq   $0                              /* the processor pushes no error code */
        .endif
        pushq   $vector
        jmp     enter_kernel
        .set    vector, vector + 1
        .endr
        .align  16
call_stub:
        pushq   $0
        pushq   $0x80
enter_kernel:
        pushq   %rax
        pushq   %rbx
        pushq   %rcx
        pushq   %rdx
        pushq   %rsi
        pushq   %rdi
        pushq   %rbp
        pushq   %r8
        pushq   %r9
        pushq   %r10
        pushq   %r11
        pushq   %r12
        pushq   %r13
        pushq   %r14
        pushq   %r15
        movl    %ds, %eax
        pushq   %rax
        movl    %es, %eax
        pushq   %rax
        movl    %fs, %eax
        pushq   %rax
        movl    %gs, %eax
        pushq   %rax
        pushq   $2                              /* clears a user's flags: direction, alignment check, nested task (duty 9) */
        popfq
        movq    %rsp, %rdi
        call    trap
        movq    %rsp, %rdi
resume: movq    %rdi, %rsp                      /* resume(registers) */
        popq    %rax
        movl    %eax, %gs
        popq    %rax
        movl    %eax, %fs
        popq    %rax
        movl    %eax, %es
        popq    %rax
        movl    %eax, %ds
        popq    %r15
        popq    %r14
        popq    %r13
        popq    %r12
        popq    %r11
        popq    %r10
        popq    %r9
        popq    %r8
        popq    %rbp
        popq    %rdi
        popq    %rsi
        popq    %rdx
        popq    %rcx
        popq    %rbx
        popq    %rax
        addq    $16, %rsp
        iretq

        /* The entries of the programs. C code of the small model cannot contain such large addresses. */
        .section .rodata
        .globl  user_entries
user_entries:
        .quad   steady, quiet, noisy

        .section .bss
        .align  4096
        .globl  kernel_root, kernel_pointers, kernel_directory, kernel_guard, kernel_stack_top
kernel_root:      .skip 4096
kernel_pointers:  .skip 4096
kernel_directory: .skip 4096
kernel_guard:     .skip 4096                    /* not mapped once the kernel runs (duty 9) */
                  .skip 65536
kernel_stack_top: .skip 4096
fault_stack_top:
        .section .note.GNU-stack, "", @progbits

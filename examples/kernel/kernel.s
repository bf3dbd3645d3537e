# A small kernel: its entry code, the handlers that it calls, and the memory that it is described by.
# GNU assembler, AT&T order of operands (source first). The addresses are given by kernel.ld.

MSR_GS_BASE = 0xc0000101        # IA32_GS_BASE
USER_MAP    = 0x1000            # bit 12 of CR3 selects the user's map
USER_SS     = 0x2b              # (star_user + 8) | 3
USER_CS     = 0x33              # (star_user + 16) | 3

# Where per-CPU data lies from the kernel's GS base on.
USER_RSP     = 0x800
KERNEL_STACK = 0x808

        .macro  push_registers
        push    %rax
        push    %rcx
        push    %rdx
        push    %rbx
        push    %rbp
        push    %rsi
        push    %rdi
        push    %r8
        push    %r9
        push    %r10
        push    %r11
        push    %r12
        push    %r13
        push    %r14
        push    %r15
        .endm

        .macro  pop_registers
        pop     %r15
        pop     %r14
        pop     %r13
        pop     %r12
        pop     %r11
        pop     %r10
        pop     %r9
        pop     %r8
        pop     %rdi
        pop     %rsi
        pop     %rbp
        pop     %rbx
        pop     %rdx
        pop     %rcx
        pop     %rax
        .endm

        # To the kernel's map; RDI is lost. Not by RAX: GNU as would take the short forms of AND and OR
        # (opcodes 25 and 0d), which the certifier doesn't read.
        .macro  enter_kernel_map
        mov     %cr3, %rdi
        and     $~USER_MAP, %rdi
        mov     %rdi, %cr3
        .endm

        # To the user's map; RDI is lost.
        .macro  leave_kernel_map
        mov     %cr3, %rdi
        or      $USER_MAP, %rdi
        mov     %rdi, %cr3
        .endm

# Entries where a debug exception may come like everywhere.
        .section .entry.text, "ax", @progbits
        .balign 0x100, 0xcc

# SYSCALL: RCX has the user's RIP, R11 its RFLAGS, RSP is still the user's.
        .globl  entry_syscall
entry_syscall:
        swapgs
        mov     %rsp, %gs:USER_RSP
        mov     %cr3, %rsp                      # RSP is free: the user's is kept
        and     $~USER_MAP, %rsp
        mov     %rsp, %cr3
        mov     %gs:KERNEL_STACK, %rsp
        push    $USER_SS                        # a frame as an interrupt pushes it
        push    %gs:USER_RSP
        push    %r11
        push    $USER_CS
        push    %rcx
        call    do_syscall
        pop     %rcx
        pop     %rdx                            # the user's CS isn't needed
        pop     %r11
        mov     %cr3, %rdx
        or      $USER_MAP, %rdx
        pop     %rsp                            # while the kernel's map still has the stack
        mov     %rdx, %cr3
        mov     $0, %edx
        swapgs
        sysretq

# An interrupt: the saved CS says whose code was interrupted.
        .balign 0x100, 0xcc
        .globl  entry_interrupt
entry_interrupt:
        testb   $3, 8(%rsp)
        jz      interrupt_in_kernel
        swapgs
        push_registers
        enter_kernel_map
        call    do_interrupt
        leave_kernel_map
        pop_registers
        swapgs
        iretq
interrupt_in_kernel:
        push_registers
        call    do_interrupt
        pop_registers
        iretq

# A page fault: as an interrupt, with an error code on top of the frame.
        .balign 0x100, 0xcc
        .globl  entry_page_fault
entry_page_fault:
        testb   $3, 16(%rsp)
        jz      page_fault_in_kernel
        swapgs
        push_registers
        enter_kernel_map
        call    do_page_fault
        leave_kernel_map
        pop_registers
        add     $8, %rsp
        swapgs
        iretq
page_fault_in_kernel:
        push_registers
        call    do_page_fault
        pop_registers
        add     $8, %rsp
        iretq

# Entries in which no debug exception comes (a description's `quiet`).
        .section .quiet.text, "ax", @progbits
        .balign 0x100, 0xcc

        # A debug exception or an NMI may come anywhere, so the saved CS tells too little: the sign of
        # the active GS base does. EBX keeps whether it was exchanged, R14 keeps CR3.
        .macro  paranoid_entry handler
        push_registers
        mov     $MSR_GS_BASE, %ecx
        rdmsr
        mov     $0, %ebx
        test    %edx, %edx
        js      1f
        swapgs
        mov     $1, %ebx
1:      mov     %cr3, %r14
        mov     %r14, %rdi
        and     $~USER_MAP, %rdi
        mov     %rdi, %cr3
        call    \handler
        mov     %r14, %cr3
        test    %ebx, %ebx
        jz      2f
        swapgs
2:      pop_registers
        iretq
        .endm

        .globl  entry_debug
entry_debug:
        paranoid_entry do_debug

        .balign 0x100, 0xcc
        .globl  entry_nmi
entry_nmi:
        paranoid_entry do_nmi

# A machine check: from the user as an interrupt; from the kernel it doesn't return.
        .balign 0x100, 0xcc
        .globl  entry_machine_check
entry_machine_check:
        testb   $3, 8(%rsp)
        jz      machine_check_in_kernel
        swapgs
        push_registers
        enter_kernel_map
        call    do_machine_check
        leave_kernel_map
        pop_registers
        swapgs
        iretq
machine_check_in_kernel:
        mov     $MSR_GS_BASE, %ecx
        rdmsr
        test    %edx, %edx
        js      1f
        swapgs
1:      enter_kernel_map
        call    kernel_machine_check

# The handlers stand for C functions. Their code is never read: a description gives their contracts.
        .section .text, "ax", @progbits
        .globl  do_syscall, do_interrupt, do_page_fault, do_debug, do_nmi, do_machine_check
        .globl  kernel_machine_check
        .balign 16, 0xcc
do_syscall:
        ret
        .balign 16, 0xcc
do_interrupt:
        ret
        .balign 16, 0xcc
do_page_fault:
        ret
        .balign 16, 0xcc
do_debug:
        ret
        .balign 16, 0xcc
do_nmi:
        ret
        .balign 16, 0xcc
do_machine_check:
        ret
        .balign 16, 0xcc
kernel_machine_check:
        jmp     kernel_machine_check

# Memory that only the processor and entry code touch: no bytes of it stand in the file.
        .section .cpu_entry_area, "aw", @nobits
        .globl  idt_table, gdt_page, cpu_tss, user_rsp, kernel_stack_top
idt_table:
        .skip   0x1000
gdt_page:
        .skip   0x1000
cpu_tss:                                        # and the kernel's GS base
        .skip   USER_RSP
user_rsp:
        .skip   8
kernel_stack_top:
        .skip   8
        .skip   0x1000 - (KERNEL_STACK + 8)

        .section .stacks, "aw", @nobits
        .globl  kernel_stack
kernel_stack:
        .skip   0x4000

# The stacks of the TSS; the page before each is left out of the page tables.
        .section .entry_stacks, "aw", @nobits
        .globl  entry_stack, debug_stack, nmi_stack, mc_stack
        .skip   0x1000
entry_stack:
        .skip   0x1000
        .skip   0x1000
debug_stack:
        .skip   0x1000
        .skip   0x1000
nmi_stack:
        .skip   0x1000
        .skip   0x1000
mc_stack:
        .skip   0x1000

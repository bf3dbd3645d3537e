# The entry code of a small kernel, for GNU as: Intel syntax, destination first, as the certifier prints instructions.
# Where its parts lie is said in kernel.ld, what is promised about the rest of the kernel in description.toml.
#
# GNU as spells `and rax, -0x1001` by the accumulator's own opcode (48 25), which the certifier doesn't read: it has
# 48 81 /4 alone. So CR3 is masked in RDI, RSP or RDX. The same is so of or, add, sub, xor and cmp of RAX with a number
# that doesn't fit a byte.

        .intel_syntax noprefix

MSR_GS_BASE  = 0xc0000101               # IA32_GS_BASE: the base that is active
USER_MAP     = 0x1000                   # this bit of CR3 selects the user's page tables
USER_SS      = 0x2b
USER_CS      = 0x33

# Words at these distances from the kernel's GS base, which the user's page tables map too.
USER_RSP     = 0x800                    # the user's RSP, until it stands in the frame
STACK_TOP    = 0x808                    # where the kernel's stack begins, kept by the scheduler
USER_RDX     = 0x810                    # the user's RDX, on the way out

        .macro  save_registers
        push    rax
        push    rcx
        push    rdx
        push    rbx
        push    rbp
        push    rsi
        push    rdi
        push    r8
        push    r9
        push    r10
        push    r11
        push    r12
        push    r13
        push    r14
        push    r15
        .endm

        .macro  restore_registers
        pop     r15
        pop     r14
        pop     r13
        pop     r12
        pop     r11
        pop     r10
        pop     r9
        pop     r8
        pop     rdi
        pop     rsi
        pop     rbp
        pop     rbx
        pop     rdx
        pop     rcx
        pop     rax
        .endm

        # RDI is lost by both.
        .macro  to_kernel_map
        mov     rdi, cr3
        and     rdi, ~USER_MAP
        mov     cr3, rdi
        .endm

        .macro  to_user_map
        mov     rdi, cr3
        or      rdi, USER_MAP
        mov     cr3, rdi
        .endm

# ---- Entries in which a debug exception may come at every instruction.

        .section .entry.text, "ax", @progbits

# SYSCALL. RCX has the user's RIP and R11 its RFLAGS; RSP, GS and CR3 are the user's. The frame that is built is that of an
# interrupt, so that C code finds one layout: the fifteen registers, an instruction pointer, CS, RFLAGS, RSP and SS.
        .globl  entry_syscall
entry_syscall:
        endbr64
        swapgs
        mov     gs:[USER_RSP], rsp
        mov     rsp, cr3                # RSP is free from here on, and no other register is
        and     rsp, ~USER_MAP
        mov     cr3, rsp
        mov     rsp, gs:[STACK_TOP]
        push    USER_SS
        push    qword ptr gs:[USER_RSP]
        push    r11
        push    USER_CS
        push    rcx
        save_registers
        cld
        mov     rdi, rsp                # the frame, for C code
        call    do_syscall
        restore_registers
        pop     rcx                     # RIP, for SYSRET
        add     rsp, 8
        pop     r11                     # RFLAGS
        mov     gs:[USER_RDX], rdx
        mov     rdx, cr3
        or      rdx, USER_MAP
        pop     rsp                     # the last use of the stack: the user's page tables don't map it
        mov     cr3, rdx
        mov     rdx, gs:[USER_RDX]
        swapgs
        sysretq

# External interrupts: each vector has a stub that tells its number in the place of an error code.
        .macro  interrupt_stub vector
        .balign 16, 0xcc
        .globl  entry_irq_\vector
entry_irq_\vector:
        endbr64
        push    \vector
        jmp     common_interrupt
        .endm

        interrupt_stub 32
        interrupt_stub 33

        # What a frame with an error code below it leads to. The saved CS, at RSP + 16, says whose code was interrupted: the
        # kernel's runs with its own GS base and page tables, since no such event can come before it has them. LFENCE keeps
        # the processor from going on with a guess of the branch and the other base.
        .macro  handle_frame handler
        test    byte ptr [rsp+16], 3
        jz      1f
        swapgs
        lfence
        save_registers
        cld
        to_kernel_map
        mov     rdi, rsp
        call    \handler
        to_user_map
        restore_registers
        add     rsp, 8                  # the error code
        swapgs
        iretq
1:      lfence
        save_registers
        cld
        mov     rdi, rsp
        call    \handler
        restore_registers
        add     rsp, 8
        iretq
        .endm

        .balign 16, 0xcc
common_interrupt:
        handle_frame do_interrupt

        .balign 16, 0xcc
        .globl  entry_page_fault
entry_page_fault:
        endbr64
        handle_frame do_page_fault

        .balign 16, 0xcc
        .globl  entry_general_protection
entry_general_protection:
        endbr64
        handle_frame do_general_protection

# ---- Entries in which no debug exception comes: no breakpoint is set there.

        .section .quiet.text, "ax", @progbits

        # Debug exceptions and NMIs may come before SYSCALL's entry has exchanged the GS base: there the saved CS is the kernel's
        # and the base the user's. So the sign of the active base decides: the kernel's is negative, the user's can't be. EBX keeps
        # whether it was exchanged, R14 keeps CR3; C code preserves both.
        .macro  handle_anywhere handler
        save_registers
        cld
        mov     ecx, MSR_GS_BASE
        rdmsr
        xor     ebx, ebx
        test    edx, edx
        js      1f
        swapgs
        mov     ebx, 1
1:      lfence
        mov     r14, cr3
        mov     rdi, r14
        and     rdi, ~USER_MAP
        mov     cr3, rdi
        mov     rdi, rsp
        call    \handler
        mov     cr3, r14
        test    ebx, ebx
        jz      2f
        swapgs
2:      restore_registers
        iretq
        .endm

        .globl  entry_debug
entry_debug:
        endbr64
        handle_anywhere do_debug

        .balign 16, 0xcc
        .globl  entry_nmi
entry_nmi:
        endbr64
        handle_anywhere do_nmi

# A machine check that met user code is handled as an interrupt is. One that met the kernel isn't returned from: it has the
# kernel's GS base and page tables put in place, for the C function that writes the last message.
        .balign 16, 0xcc
        .globl  entry_machine_check
entry_machine_check:
        endbr64
        test    byte ptr [rsp+8], 3
        jz      1f
        swapgs
        lfence
        save_registers
        cld
        to_kernel_map
        mov     rdi, rsp
        call    do_machine_check
        to_user_map
        restore_registers
        swapgs
        iretq
1:      mov     ecx, MSR_GS_BASE
        rdmsr
        test    edx, edx
        js      2f
        swapgs
2:      lfence
        to_kernel_map
        mov     rdi, rsp
        call    panic_machine_check

# ---- The C functions. Their code isn't read: description.toml has their contracts. These here only give the names addresses.

        .section .text, "ax", @progbits
        .macro  c_function name
        .balign 16, 0xcc
        .globl  \name
\name:
        ret
        .endm

        c_function do_syscall
        c_function do_interrupt
        c_function do_page_fault
        c_function do_general_protection
        c_function do_debug
        c_function do_nmi
        c_function do_machine_check
        c_function panic_machine_check

# ---- Memory without bytes in the file.

        .section .cpu_area, "aw", @nobits
        .globl  idt, gdt, tss, cpu_user_rsp, cpu_stack_top
idt:    .skip   0x1000
gdt:    .skip   0x1000
tss:    .skip   USER_RSP                # the kernel's GS base is here too
cpu_user_rsp:
        .skip   8
cpu_stack_top:
        .skip   8
        .skip   0x1000 - (STACK_TOP + 8)

        # A stack of so many bytes, and the page below it, which the page tables leave out.
        .macro  stack name, size
        .globl  \name\()_guard, \name
\name\()_guard:
        .skip   0x1000
\name:
        .skip   \size
        .endm

        .section .stacks, "aw", @nobits
        stack   kernel_stack, 0x4000
        stack   entry_stack, 0x1000
        stack   debug_stack, 0x1000
        stack   nmi_stack, 0x1000
        stack   machine_check_stack, 0x1000

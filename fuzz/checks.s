# What fuzz/instrument puts before the archive's code: a counter for each basic block, and a check of each access against the shadow memory of
# AddressSanitizer and against the stack. Flags, registers and the red zone below the stack pointer, which functions may use, are kept.
    .intel_syntax noprefix

    .set RED_ZONE, 128

# Where the shadow of address 0 lies on x86-64 Linux; each of its bytes stands for eight.
    .set SHADOW, 0x7fff8000

# The greatest number of arguments that an exported function has on the stack.
    .set STACK_ARGUMENTS, 7

# How far below the red zone an access counts as one to the stack.
    .set NEAR, 1 << 20

    .macro count block
    lea rsp, [rsp - RED_ZONE]
    push rax
    lahf
    seto al
    inc byte ptr [rip + counters + \block]
    add al, 127
    sahf
    pop rax
    lea rsp, [rsp + RED_ZONE]
    .endm

# The address is told as in the instruction; `moved` is how far the registers in it have moved since.
    .macro access kind, moved, address:vararg
    lea rsp, [rsp - RED_ZONE]
    push rax
    push rdi
    lea rdi, [\address + \moved]
    lahf
    seto al
    call check_\kind
    add al, 127
    sahf
    pop rdi
    pop rax
    lea rsp, [rsp + RED_ZONE]
    .endm

# At the start of an exported function: what lies above its arguments is not the archive's.
    .macro enter
    push rax
    lea rax, [rsp + 8 * (2 + STACK_ARGUMENTS)]
    mov [rip + stack_end], rax
    pop rax
    .endm

# Jumps to `bad` unless the shadow of the byte at rdi is 0, or greater than the byte's offset in its eight.
    .macro shadow bad
    mov rax, rdi
    shr rax, 3
    movsx eax, byte ptr [rax + SHADOW]
    test eax, eax
    jz 1f
    mov ecx, edi
    and ecx, 7
    cmp ecx, eax
    jge \bad
1:
    .endm

# Checks an access at rdi, and reports a bad one. Buffers lie at least 16 bytes apart, so that the first and the last byte tell of them all.
# Five words lie between the stack pointer here and the red zone.
    .macro checker kind, size
check_\kind\()_\size:
    push rax
    push rcx
    cmp rdi, [rip + stack_end]
    jae 3f
    lea rax, [rsp + 5 * 8 - 1]
    sub rax, rdi
    cmp rax, NEAR
    jb 3f
    shadow 3f
    add rdi, \size - 1
    shadow 2f
    pop rcx
    pop rax
    ret
2:
    sub rdi, \size - 1
3:
    mov esi, \size
    and rsp, -16
    call __asan_report_\kind\()_n
    .endm

    .text
    .irp size, 1, 2, 4, 8, 16
    checker load, \size
    checker store, \size
    .endr

# Tells libFuzzer where the counters stand and which addresses they count.
register_counters:
    push rax
    lea rdi, [rip + counters]
    lea rsi, [rip + counters_end]
    call __sanitizer_cov_8bit_counters_init
    lea rdi, [rip + blocks]
    lea rsi, [rip + blocks_end]
    call __sanitizer_cov_pcs_init
    pop rax
    ret

    .section .init_array, "aw"
    .quad register_counters

    .bss
    .balign 8
stack_end:
    .skip 8

    .section .note.GNU-stack, "", @progbits

/*
 * Code that bounds.py has to refuse, a case each, since its stack has no bound or none that it tells; and two, KNOWN and GIVEN_BACK,
 * whose bounds are known. The run of tests/stack names a case by defining it.
 */
#define FUNCTION(name) .section .text.name, "ax", @progbits; .globl name; .type name, @function; name:
#define LOCAL(name) .section .text.name, "ax", @progbits; .type name, @function; name:

FUNCTION(pebrassola_case)
#if defined KNOWN /* 8 + 8 + 64 to the call, 8 + 8 + 128 below it; and 8 + 128 of a second one, which has no type */
    push %rbx
    sub $64, %rsp
    lea .Lkept(%rip), %rbx /* the start of a table that is used in a loop, and kept over a call */
.Lagain:
    call helper
    movslq (%rbx, %rax, 4), %rax
    add %rbx, %rax
    jmp *%rax
.Lby_kept:
    lea .Ltable(%rip), %rcx
    movslq (%rcx, %rax, 4), %rax
    add %rcx, %rax
    mov %rdi, %r12
    jmp *%rax
.Lby_table:
    add $64, %rsp
    pop %rbx
    ret
    .section .rodata.pebrassola_case, "a", @progbits
.Ltable:
    .long .Lby_table - .Ltable
.Lkept:
    .long .Lagain - .Lkept
    .long .Lby_kept - .Lkept
LOCAL(helper)
    push %rbx
    mov %rdi, -128(%rsp)
    pop %rbx
    ret
    .section .text.untyped, "ax", @progbits
    .globl untyped
untyped:
    ret
#elif defined GIVEN_BACK /* 8 + 4000 + 128, whichever way it is left: lea keeps the flags, and counts as the add that it is */
    sub $4000, %rsp
    test %rdi, %rdi
    lea 4000(%rsp), %rsp
    jne .Lother
    ret
.Lother:
    push %rbx
    pop %rbx
    ret
#elif defined ITSELF
    push %rbx
    call pebrassola_case
    pop %rbx
    ret
#elif defined EACH_OTHER
    call other
    ret
LOCAL(other)
    push %rbx
    call pebrassola_case
    pop %rbx
    ret
#elif defined ITSELF_BEHIND_A_PREFIX
    .byte 0x64
    call pebrassola_case
    ret
#elif defined LAST_CALL_EACH_OTHER
    jmp other
LOCAL(other)
    call pebrassola_case
    ret
#elif defined CALL_BY_POINTER
    call *%rsi
    ret
#elif defined JUMP_BY_POINTER
    jmp *%rsi
#elif defined JUMP_BY_POINTER_BESIDE_A_TABLE
    lea .Ltable(%rip), %rcx
    add %rdi, %rsi
    jmp *%rsi
.Lby_table:
    ret
    .section .rodata.pebrassola_case, "a", @progbits
.Ltable:
    .long .Lby_table - .Ltable
#elif defined JUMP_BY_POINTER_BEHIND_A_TABLE
    lea .Ltable(%rip), %rcx
    movslq (%rcx, %rax, 4), %rax
    add %rcx, %rax
    mov %rsi, %rax
    jmp *%rax
.Lby_table:
    ret
    .section .rodata.pebrassola_case, "a", @progbits
.Ltable:
    .long .Lby_table - .Ltable
#elif defined START_OF_NO_TABLE
    lea .Ltable(%rip), %rcx
    movslq (%rsi, %rax, 4), %rax
    add %rsi, %rax
    jmp *%rax
.Lby_table:
    ret
    .section .rodata.pebrassola_case, "a", @progbits
.Ltable:
    .long .Lby_table - .Ltable
#elif defined START_NOT_KEPT
    lea .Ltable(%rip), %rcx
    call other
    movslq (%rcx, %rax, 4), %rax
    add %rcx, %rax
    jmp *%rax
.Lby_table:
    ret
    .section .rodata.pebrassola_case, "a", @progbits
.Ltable:
    .long .Lby_table - .Ltable
LOCAL(other)
    mov %rsi, %rcx
    ret
#elif defined START_WRITTEN
    lea .Ltable(%rip), %rbx
    call other
    mov %esi, %ebx
    movslq (%rbx, %rax, 4), %rax
    add %rbx, %rax
    jmp *%rax
.Lby_table:
    ret
    .section .rodata.pebrassola_case, "a", @progbits
.Ltable:
    .long .Lby_table - .Ltable
LOCAL(other)
    ret
#elif defined START_EXCHANGED
    lea .Ltable(%rip), %rbx
    xchg %rbx, (%rsi)
    movslq (%rbx, %rax, 4), %rax
    add %rbx, %rax
    jmp *%rax
.Lby_table:
    ret
    .section .rodata.pebrassola_case, "a", @progbits
.Ltable:
    .long .Lby_table - .Ltable
#elif defined START_NOT_NAMED_ON_ONE_WAY
    test %rdi, %rdi
    je .Lunnamed
    lea .Ltable(%rip), %rbx
.Lunnamed:
    test %rsi, %rsi
    movslq (%rbx, %rax, 4), %rax
    add %rbx, %rax
    jmp *%rax
.Lby_table:
    ret
    .section .rodata.pebrassola_case, "a", @progbits
.Ltable:
    .long .Lby_table - .Ltable
#elif defined START_WRITTEN_BEHIND_A_TABLE
    lea .Ltable(%rip), %rbx
.Lagain:
    movslq (%rbx, %rax, 4), %rax
    add %rbx, %rax
    jmp *%rax
.Lby_table:
    mov %rsi, %rbx
    jmp .Lagain
    .section .rodata.pebrassola_case, "a", @progbits
.Ltable:
    .long .Lby_table - .Ltable
#elif defined JUMP_PAST_A_KEPT_START
    lea .Ltable(%rip), %rbx
    test %rdi, %rdi
    je .Lpast
    movslq (%rbx, %rax, 4), %rax
.Lpast:
    add %rbx, %rax
    jmp *%rax
.Lby_table:
    ret
    .section .rodata.pebrassola_case, "a", @progbits
.Ltable:
    .long .Lby_table - .Ltable
#elif defined TABLE_PAST_A_TABLE
    lea .Ltable(%rip), %rcx
    movslq (%rcx, %rax, 4), %rax
    add %rcx, %rax
    mov %rsi, %rdx
.Lpast:
    jmp *%rax
.Lby_table:
    ret
    .section .rodata.pebrassola_case, "a", @progbits
.Ltable:
    .long .Lby_table - .Ltable
    .long .Lpast - .Ltable
#elif defined JUMP_PAST_A_TABLE
    test %rdi, %rdi
    je .Lpast
    lea .Ltable(%rip), %rcx
    movslq (%rcx, %rax, 4), %rax
    add %rcx, %rax
.Lpast:
    jmp *%rax
.Lby_table:
    ret
    .section .rodata.pebrassola_case, "a", @progbits
.Ltable:
    .long .Lby_table - .Ltable
#elif defined TABLE_BACK_TO_ANOTHER_DEPTH
.Lby_table:
    sub $4000, %rsp
    lea .Ltable(%rip), %rcx
    movslq (%rcx, %rax, 4), %rax
    add %rcx, %rax
    jmp *%rax
    .section .rodata.pebrassola_case, "a", @progbits
.Ltable:
    .long .Lby_table - .Ltable
#elif defined JUMP_OUT_BESIDE_A_TABLE
    jmp *other@GOTPCREL(%rip)
.Lby_table:
    ret
    .section .rodata.pebrassola_case, "a", @progbits
.Ltable:
    .long .Lby_table - .Ltable
FUNCTION(other)
    sub $4000, %rsp
    add $4000, %rsp
    ret
#elif defined ADDRESS_TAKEN
    lea other(%rip), %rax
    ret
LOCAL(other)
    ret
#elif defined ADDRESS_IN_DATA
    ret
    .data
    .quad pebrassola_case
#elif defined OUTSIDE
    call memmove
    ret
#elif defined MIDDLE
    call other + 8
    ret
FUNCTION(other)
    sub $4000, %rsp
    add $4000, %rsp
    ret
#elif defined MOVED_BY_A_LENGTH
    sub %rdi, %rsp
    add %rdi, %rsp
    ret
#elif defined MOVED_TO_A_MULTIPLE
    and $-64, %rsp
    ret
#elif defined MOVED_BY_AN_ADDRESS
    lea -4000(%rsp), %rsp
    ret
#elif defined MOVED_BY_A_REGISTER
    mov %rdi, %rsp
    ret
#elif defined MOVED_BY_HALF_A_SLOT
    push %ax
    pop %ax
    ret
#elif defined FAR_BELOW
    mov %rdi, -136(%rsp)
    ret
#elif defined FRAME_LEFT
    leave
    ret
#elif defined PUSHED_IN_A_LOOP
.Lagain:
    push %rax
    dec %rdi
    jne .Lagain
    pop %rax
    ret
#elif defined NOT_GIVEN_BACK
    push %rax
    ret
#elif defined OVER_ITS_END
    push %rax
#elif defined TWO_IN_A_SECTION
    ret
    .globl other
    .type other, @function
other:
    sub $4000, %rsp
    add $4000, %rsp
    ret
#elif defined TWO_NAMES
    ret
    .globl other
    .set other, pebrassola_case
#elif defined NO_INSTRUCTION
    .byte 0x06
    ret
#endif
    .section .note.GNU-stack, "", @progbits

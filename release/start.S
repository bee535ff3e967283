/* Where the static program starts. Before the C library does, this asks it for large pages under large tables, and for
   one heap that is not given back, by GLIBC_TUNABLES, unless the environment has that variable: an installed program is
   then as fast as one by ./aiger, which says why. And it ignores SIGXFSZ, as ./aiger does, so that a write above the
   limit on the size of files fails.

   The C library ends a program by a signal where it cannot have its first memory, and with what is asked for here that
   is 6 MB. So this first looks what can be had, by memory that it gives back at once. Where that is little, it asks for
   nothing, since no table is large there. Where it is less than the C library and the program need before they can say
   so, this says it, as they would.

   The system puts on the stack, a word for each: how many arguments there are, the arguments, 0, the variables, 0.
   These go down by a word, and ours becomes the last variable. It can be written, since the C library cuts the text as
   it reads. */

        .data
asked:  .ascii  "GLIBC_TUNABLES=glibc.malloc.hugetlb=1:glibc.malloc.mmap_threshold=33554432"
        .asciz  ":glibc.malloc.trim_threshold=1073741824:glibc.malloc.top_pad=4194304"
        .set    name_length, 15                 # with the =
        .balign 8
ignored:
        .quad   1, 0, 0, 0                      # SIG_IGN, no flags, no restorer, no mask
refused:
        .ascii  "aiger: out of memory\n"
        .set    refused_length, . - refused

        .set    least, 192 << 10                # bytes: with these the C library and the program begin
        .set    ample, 64 << 20                 # and with these large pages are asked for

        .text
        .globl  start_with_large_pages
start_with_large_pages:
        mov     %rdx, %r12                      # the C library wants it as it was
        mov     $13, %eax                       # rt_sigaction
        mov     $25, %edi                       # SIGXFSZ
        lea     ignored(%rip), %rsi
        xor     %edx, %edx                      # what stood there before is not asked for
        mov     $8, %r10d                       # bytes of a mask
        syscall

        mov     $least, %esi
        call    look
        jc      refuse
        mov     $ample, %esi
        call    look
        mov     %r12, %rdx
        jc      _start

        mov     (%rsp), %rax
        lea     16(%rsp, %rax, 8), %rdi         # the variables
        lea     asked(%rip), %rsi
variable:
        mov     (%rdi), %rax
        test    %rax, %rax
        jz      add
        add     $8, %rdi
        xor     %ecx, %ecx
letter: mov     (%rax, %rcx), %r8b
        cmp     (%rsi, %rcx), %r8b
        jne     variable
        inc     %ecx
        cmp     $name_length, %ecx
        jne     letter
        jmp     _start

add:    mov     %rsp, %rax                      # %rdi is where the 0 behind the variables stands
        sub     $8, %rsp
down:   mov     (%rax), %r8
        mov     %r8, -8(%rax)
        add     $8, %rax
        cmp     %rdi, %rax
        jne     down
        mov     %rsi, -8(%rdi)
        jmp     _start                          # that of the C library

/* Sets the carry flag if %rsi bytes of memory are not to be had now, and gives them back if they are. */
look:   mov     $9, %eax                        # mmap
        xor     %edi, %edi                      # anywhere
        mov     $3, %edx                        # to read and to write
        mov     $0x22, %r10d                    # private, of no file
        mov     $-1, %r8
        xor     %r9d, %r9d
        syscall
        cmp     $-4095, %rax                    # an error is one of the numbers from here on
        cmc
        jc      looked
        mov     %rax, %rdi
        mov     $11, %eax                       # munmap
        syscall
        clc
looked: ret

refuse: mov     $1, %eax                        # write
        mov     $2, %edi                        # to standard error
        lea     refused(%rip), %rsi
        mov     $refused_length, %edx
        syscall
        mov     $231, %eax                      # exit_group
        mov     $1, %edi
        syscall

        .section .note.GNU-stack, "", @progbits

# A program of 1 + 2 * 1000000 + 3 = 2000004 instructions, to try the plugin on.
    .globl _start
_start:
    mov $1000000, %ecx
1:  dec %ecx
    jnz 1b
    mov $60, %eax
    xor %edi, %edi
    syscall

; a call, references to data by three kinds of relocation, a common and uninitialised data
        global  start
        extern  puts
        common  shared 16

        section .text
start:  lea     rcx, [rel text]
        call    puts
        mov     rax, [rel shared]
        add     [rel count + 8], rax
        cmp     dword [rel shared + 4], 3
        jmp     [rel jumps]

        section .data
text:   db      "hello", 0
        align   8
jumps:  dq      start, text + 2, puts
image:  dd      start wrt ..imagebase

        section .bss
count:  resq    2

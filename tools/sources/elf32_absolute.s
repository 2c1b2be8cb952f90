# Relocations of ELF for i386: 32, 16, 8, PC32, PLT32, and PC16, PC8 of data.
# prints: address 1234
# prints: moved 1235
# prints: small 154
# prints: distance 1234
# prints: short 5
	.section .rodata
address:	.long	outside
two:	.word	seventy_seven
one:	.byte	seventy_seven
	.balign	4
near:	.long	outside - .
	.text
	.macro	told name
	.section .rodata
name_\name:	.asciz	"\name"
	.text
	pushl	%eax
	pushl	$name_\name
	call	report
	addl	$8, %esp
	.endm
	.globl	run
run:	pushl	%ebx
	movl	address, %ecx
	movl	(%ecx), %eax
	told	address
	movl	outside + 4, %eax
	told	moved
	movzwl	two, %eax
	movzbl	one, %ecx
	addl	%ecx, %eax
	told	small
	movl	$near, %ecx
	addl	near, %ecx
	movl	(%ecx), %eax
	told	distance
	movsbl	byte, %eax
	movswl	word, %ecx
	addl	%ecx, %eax
	told	short
	xorl	%eax, %eax
	popl	%ebx
	ret
	.globl	label
	.data
word:	.word	label - .
byte:	.byte	label - .
	.byte	0
label:	.byte	0

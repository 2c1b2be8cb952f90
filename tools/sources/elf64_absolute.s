# Relocations of ELF for x86-64 that hold addresses: 64, 32, 32S, 16, 8, and PC32, PC64, PC16, PC8 of data.
# prints: wide 1234
# prints: low 1235
# prints: signed 1234
# prints: small 154
# prints: distance 1234
# prints: short 5
	.section .rodata
wide:	.quad	outside
low:	.long	outside + 4
two:	.word	seventy_seven
one:	.byte	seventy_seven
	.balign	8
far:	.quad	outside - .
near:	.long	outside - .
	.text
	.macro	told name
	.section .rodata
name_\name:	.asciz	"\name"
	.text
	leaq	name_\name(%rip), %rdi
	call	report@PLT
	.endm
	.globl	run
run:	pushq	%rbx
	movq	wide(%rip), %rax
	movl	(%rax), %esi
	told	wide
	movl	low(%rip), %eax
	movl	(%rax), %esi
	told	low
	movq	$outside, %rax
	movl	outside, %esi
	cmpl	%esi, (%rax)
	je	1f
	xorl	%esi, %esi
1:	told	signed
	movzwl	two(%rip), %esi
	movzbl	one(%rip), %eax
	addl	%eax, %esi
	told	small
	leaq	far(%rip), %rax
	addq	far(%rip), %rax
	movl	(%rax), %esi
	leaq	near(%rip), %rax
	movslq	near(%rip), %rcx
	cmpl	(%rax,%rcx), %esi
	je	2f
	xorl	%esi, %esi
2:	told	distance
	movsbl	byte(%rip), %esi
	movswl	word(%rip), %eax
	addl	%eax, %esi
	told	short
	xorl	%eax, %eax
	popq	%rbx
	ret
	.globl	label
	.type	label, @object
	.data
word:	.word	label - .
byte:	.byte	label - .
	.byte	0
label:	.byte	0

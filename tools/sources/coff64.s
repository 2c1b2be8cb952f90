# Relocations of COFF for x86-64: ADDR64, ADDR32, ADDR32NB, SECREL, SECTION, REL32 and REL32_1 to REL32_5's places.
# prints: address 1234
# prints: low 1235
# prints: called 5
# prints: immediate 300
# prints: image 1
	.data
address:	.quad	outside
low:	.long	outside + 4
from:	.rva	run
other:	.rva	called
offset:	.secrel32	called
number:	.secidx	called
	.balign	4
place:	.long	0
	.text
	.macro	told name
	.section .rdata,"dr"
name_\name:	.asciz	"\name"
	.text
	leaq	name_\name(%rip), %rcx
	call	report
	.endm
	.globl	run
run:	subq	$40, %rsp
	movq	address(%rip), %rax
	movl	(%rax), %edx
	told	address
	movl	low(%rip), %eax
	movl	(%rax), %edx
	told	low
	call	called
	movl	%eax, %edx
	told	called
	movl	$300, place(%rip)
	movw	$300, place(%rip)
	movb	$44, place(%rip)
	movl	place(%rip), %edx
	told	immediate
	movl	other(%rip), %edx
	subl	from(%rip), %edx
	leaq	called(%rip), %rax
	leaq	run(%rip), %rcx
	subq	%rcx, %rax
	cmpl	%eax, %edx
	movl	$1, %edx
	je	1f
	xorl	%edx, %edx
1:	told	image
	xorl	%eax, %eax
	addq	$40, %rsp
	ret
	.globl	called
called:	movl	$5, %eax
	ret

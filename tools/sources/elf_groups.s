# One-definition groups of ELF, one with data of its own, and weak names. It is for both words, and prints nothing.
	.section .text.shared,"axG",@progbits,shared,comdat
	.globl	shared
	.type	shared, @function
shared:	call	lone
	ret
	.section .rodata.shared,"aG",@progbits,shared,comdat
	.balign	8
table:	.long	1, 2, 3
	.section .data.other,"awG",@progbits,other,comdat
	.globl	other
other:	.long	4
	.text
	.globl	lone
lone:	ret
	.globl	run
run:	xorl	%eax, %eax
	ret
	.weak	maybe
	.weak	certain
certain:	.byte	0
	.data
	.long	shared - ., table - ., other - ., certain - .
	.long	maybe

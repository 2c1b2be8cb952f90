# COMDAT sections of COFF, and a weak external with its default. It is for both words, and prints nothing.
	.section .text$shared,"xr",discard,shared
	.globl	shared
shared:	call	lone
	ret
	.section .rdata$shared,"dr",associative,shared
	.balign	8
table:	.long	1, 2, 3
	.section .data$other,"dw",discard,other
	.globl	other
other:	.long	4
	.text
	.globl	lone
lone:	ret
	.globl	run
run:	xorl	%eax, %eax
	ret
	.weak	maybe
	.data
	.secrel32	shared
	.secrel32	table
	.secrel32	other

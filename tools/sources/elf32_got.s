# Relocations of ELF for i386 through the GOT: GOTPC, GOT32, GOT32X, GOTOFF, PLT32.
# prints: slot 1234
# prints: sum 2469
# prints: offset 7
	.text
	.macro	told name
	.section .rodata
name_\name:	.asciz	"\name"
	.text
	leal	name_\name@GOTOFF(%ebx), %ecx
	pushl	%eax
	pushl	%ecx
	call	report@PLT
	addl	$8, %esp
	.endm
	.globl	run
run:	pushl	%ebx
	call	here
here:	popl	%ebx
	addl	$_GLOBAL_OFFSET_TABLE_ + (. - here), %ebx
	movl	outside@GOT(%ebx), %ecx
	movl	(%ecx), %eax
	told	slot
	movl	$outside@GOT, %ecx
	movl	(%ebx,%ecx), %ecx
	movl	(%ecx), %eax
	addl	4(%ecx), %eax
	told	sum
	movl	seven@GOTOFF(%ebx), %eax
	told	offset
	xorl	%eax, %eax
	popl	%ebx
	ret
	.data
seven:	.long	7

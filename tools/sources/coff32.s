# Relocations of COFF for i386: DIR32, DIR32NB, SECREL, SECTION, REL32.
# prints: address 1234
# prints: moved 1235
# prints: called 5
# prints: image 1
	.data
address:	.long	_outside
from:	.rva	_run
other:	.rva	_called
offset:	.secrel32	_called
number:	.secidx	_called
	.text
	.macro	told name
	.section .rdata,"dr"
name_\name:	.asciz	"\name"
	.text
	pushl	%eax
	pushl	$name_\name
	call	_report
	addl	$8, %esp
	.endm
	.globl	_run
_run:	movl	address, %ecx
	movl	(%ecx), %eax
	told	address
	movl	_outside + 4, %eax
	told	moved
	call	_called
	told	called
	movl	other, %ecx
	subl	from, %ecx
	movl	$_called, %edx
	subl	$_run, %edx
	cmpl	%ecx, %edx
	movl	$1, %eax
	je	1f
	xorl	%eax, %eax
1:	told	image
	xorl	%eax, %eax
	ret
	.globl	_called
_called:	movl	$5, %eax
	ret

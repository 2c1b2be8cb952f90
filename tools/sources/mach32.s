# Relocations of Mach-O for i386: VANILLA, self-relative too, scattered ones with an offset, and SECTDIFF.
# prints: address 1234
# prints: called 5
# prints: scattered 7
# prints: difference 1235
	.section __TEXT,__text,regular,pure_instructions
	.globl	_run
_run:	pushl	%ebx
	subl	$8, %esp
	calll	here
here:	popl	%ebx
	movl	address, %eax
	movl	(%eax), %eax
	movl	%eax, 4(%esp)
	movl	$name_address, (%esp)
	calll	_report
	calll	_called
	movl	%eax, 4(%esp)
	leal	name_called - here(%ebx), %eax
	movl	%eax, (%esp)
	calll	_report
	movl	row + 1200, %eax
	movl	%eax, 4(%esp)
	leal	name_scattered - here(%ebx), %eax
	movl	%eax, (%esp)
	calll	_report
	movl	address - here(%ebx), %eax
	movl	4(%eax), %eax
	movl	%eax, 4(%esp)
	leal	name_difference - here(%ebx), %eax
	movl	%eax, (%esp)
	calll	_report
	xorl	%eax, %eax
	addl	$8, %esp
	popl	%ebx
	retl
	.globl	_called
_called:	movl	$5, %eax
	retl
	.section __TEXT,__cstring,cstring_literals
name_address:	.asciz	"address"
name_called:	.asciz	"called"
name_scattered:	.asciz	"scattered"
name_difference:	.asciz	"difference"
	.section __DATA,__data
	.p2align	2
address:	.long	_outside
row:	.space	1200
	.long	7
	.long	address - here
	.long	row - address

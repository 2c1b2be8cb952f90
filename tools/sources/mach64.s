# Relocations of Mach-O for x86-64: UNSIGNED, SIGNED, SIGNED_1, _2, _4, BRANCH, GOT, GOT_LOAD, SUBTRACTOR of four and eight bytes.
# prints: address 1234
# prints: called 5
# prints: slot 1235
# prints: immediate 300
# prints: difference 8
	.section __TEXT,__text,regular,pure_instructions
	.globl	_run
_run:	pushq	%rbx
	movq	address(%rip), %rax
	movl	(%rax), %esi
	leaq	name_address(%rip), %rdi
	callq	_report
	callq	_called
	movl	%eax, %esi
	leaq	name_called(%rip), %rdi
	callq	_report
	movq	_outside@GOTPCREL(%rip), %rax
	movl	4(%rax), %esi
	leaq	name_slot(%rip), %rdi
	callq	_report
	pushq	_outside@GOTPCREL(%rip)
	popq	%rax
	movl	$300, place(%rip)
	movw	$300, place(%rip)
	movb	$44, place(%rip)
	movl	place(%rip), %esi
	leaq	name_immediate(%rip), %rdi
	callq	_report
	movl	_four(%rip), %esi
	subl	_eight(%rip), %esi
	addl	$8, %esi
	leaq	name_difference(%rip), %rdi
	callq	_report
	xorl	%eax, %eax
	popq	%rbx
	retq
	.globl	_called
_called:	movl	$5, %eax
	retq
	.section __TEXT,__cstring,cstring_literals
name_address:	.asciz	"address"
name_called:	.asciz	"called"
name_slot:	.asciz	"slot"
name_immediate:	.asciz	"immediate"
name_difference:	.asciz	"difference"
	.section __DATA,__data
	.p2align	3
address:	.quad	_outside
	.globl	_four
_four:	.long	_called - _run
	.p2align	3
	.globl	_eight
_eight:	.quad	_called - _run
place:	.long	0

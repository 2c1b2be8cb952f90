# Relocations of ELF for x86-64 through the GOT: GOTPCREL, GOTPCRELX, REX_GOTPCRELX, GOTPC32, GOTOFF64, and PLT32, PC32.
# prints: slot 1234
# prints: relaxed 1235
# prints: rex 1234
# prints: offset 7
	.text
	.macro	told name
	.section .rodata
name_\name:	.asciz	"\name"
	.text
	leaq	name_\name(%rip), %rdi
	call	report@PLT
	.endm
	.globl	run
run:	pushq	%rbx
	pushq	outside@GOTPCREL(%rip)
	popq	%rax
	movl	(%rax), %esi
	told	slot
	movl	outside@GOTPCREL(%rip), %ebx
	movq	outside@GOTPCREL(%rip), %rax
	cmpl	%eax, %ebx
	jne	1f
	movl	4(%rax), %esi
1:	told	relaxed
	movq	outside@GOTPCREL(%rip), %rcx
	movl	(%rcx), %esi
	told	rex
	leaq	_GLOBAL_OFFSET_TABLE_(%rip), %rax
	movabsq	$seven@GOTOFF, %rcx
	movl	(%rax,%rcx), %esi
	told	offset
	xorl	%eax, %eax
	popq	%rbx
	ret
	.data
seven:	.long	7

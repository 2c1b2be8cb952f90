; nasm and yasm for x86-64: addresses of two, four and eight bytes, distances, tables, reserved bytes.
; ELF and Mach-O pass arguments in rdi and rsi, COFF in rcx and rdx. One of ELF, WIN and MACH is defined.
; prints: address 1234
; prints: moved 1235
; prints: table 60
; prints: zeros 3
%ifdef WIN
  %define FIRST rcx
  %define SECOND edx
%else
  %define FIRST rdi
  %define SECOND esi
%endif
%ifdef MACH
  %define run _run
  %define report _report
  %define outside _outside
%endif
	bits 64
	default rel
	global run
	extern report, outside
	section .text
%macro told 1
	section .data
%%name:	db %1, 0
	section .text
	lea FIRST, [%%name]
%ifdef ELF
	call report wrt ..plt
%else
	call report
%endif
%endmacro
run:	sub rsp, 40
	mov rax, [address]
	mov SECOND, [rax]
	told "address"
	lea rax, [outside]
	mov SECOND, [rax + 4]
	told "moved"
	mov rax, qword table.end
	lea rcx, [table]
	xor r8d, r8d
again:	add r8d, [rcx]
	add rcx, 4
	cmp rcx, rax
	jb again
	mov SECOND, r8d
	told "table"
	mov dword [zeros + 8], 3
	mov SECOND, [zeros + 8]
	told "zeros"
	xor eax, eax
	add rsp, 40
	ret
	section .data
	align 8
address:	dq outside
table:	dd 10, 20, 30
.end:
	section .bss
zeros:	resb 64

; nasm and yasm for i386: addresses, distances, tables, reserved bytes. Names begin with _ but where ELF is defined.
; prints: address 1234
; prints: moved 1235
; prints: table 60
; prints: zeros 3
%ifndef ELF
  %define run _run
  %define report _report
  %define outside _outside
%endif
	bits 32
	global run
	extern report, outside
	section .text
%macro told 1
	section .data
%%name:	db %1, 0
	section .text
	push eax
	push dword %%name
	call report
	add esp, 8
%endmacro
run:	mov ecx, [address]
	mov eax, [ecx]
	told "address"
	mov eax, [outside + 4]
	told "moved"
	mov ecx, table
	xor eax, eax
again:	add eax, [ecx]
	add ecx, 4
	cmp ecx, table.end
	jb again
	told "table"
	mov dword [zeros + 8], 3
	mov eax, [zeros + 8]
	told "zeros"
	xor eax, eax
	ret
	section .data
	align 4
address:	dd outside
table:	dd 10, 20, 30
.end:
	section .bss
zeros:	resb 64

; OMF by nasm: segments of three classes, a group, a near communal, addresses in the flat group and calls.
; prints: address 1234
; prints: moved 1235
; prints: table 60
; prints: zeros 3
; prints: common 4
	group FLAT
	extern _report, _outside
	common _shared 4:near
	global _run
	segment code use32 class=CODE align=16
%macro told 1
	segment data
%%name:	db %1, 0
	segment code
	push eax
	push dword %%name wrt FLAT
	call _report
	add esp, 8
%endmacro
	segment data use32 class=DATA align=4
address:	dd _outside wrt FLAT
table:	dd 10, 20, 30
tail:
	segment bss use32 class=BSS align=16
zeros:	resb 64
	segment code
_run:	mov ecx, [address wrt FLAT]
	mov eax, [ecx]
	told "address"
	mov eax, [_outside + 4 wrt FLAT]
	told "moved"
	mov ecx, table wrt FLAT
	xor eax, eax
again:	add eax, [ecx]
	add ecx, 4
	cmp ecx, tail wrt FLAT
	jb again
	told "table"
	mov dword [zeros + 8 wrt FLAT], 3
	mov eax, [zeros + 8 wrt FLAT]
	told "zeros"
	mov dword [_shared wrt FLAT], 4
	mov eax, [_shared wrt FLAT]
	told "common"
	xor eax, eax
	ret

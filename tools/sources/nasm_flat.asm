; OMF of both offsets: segments that are grouped, repeated data, and distances from a segment. It prints nothing.
	segment text public use32 class=CODE align=16
	global _first
	global _run
_run:	xor eax, eax
	ret
_first:	mov eax, [words]
	call _other
	times 40 nop
	ret
	segment consts public use32 class=CONST align=256
words:	times 300 dd 0x12345678
	dd _first
	segment vars public use32 class=DATA align=2
	global _other
_other:	ret
	times 100 db 1, 2, 3
	resb 20
	dd words
	group DGROUP consts vars

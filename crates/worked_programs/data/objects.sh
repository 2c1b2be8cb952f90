#!/bin/sh
# Makes the objects of the rows on linking that are not those of other runs: GNU as 2.40 for ELF and COFF, clang 14 for weak
# names of COFF and for Mach-O. The call of `foo` in each format is the canonical file of one object, as in the runs of
# conversions, also in the forms for many sections; `displacement.omf` and `executable.elf32` are two of them with other bytes.
set -e

as --32 -o bindings.elf32 - <<'S'
	.text
	.globl start
start:	.long weak_here, weak_other, outside, shared, local, number
	.data
	.globl start_of_data
local:	.long 7
start_of_data:	.long start
	.bss
	.globl room
room:	.skip 8
	.comm shared, 12, 4
	.weak weak_here
	.data
weak_here:	.long 9
	.weak weak_other
	.globl number
number = 0x1234
S

as --32 -o got.elf32 - <<'S'
	.text
	.globl f
f:	addl $_GLOBAL_OFFSET_TABLE_, %ebx
	movl g@GOT(%ebx), %eax
	movl f@GOT(%ebx), %eax
	leal f@GOTOFF(%ebx), %eax
	ret
S

as --32 -o long.elf32 - <<'S'
	.data
	.fill 2000, 1, 0xcc
S

i686-w64-mingw32-as -o parts.coff32 - <<'S'
	.text
	.globl _f
_f:	.long _g
	.rva _g
	.secrel32 _g
	.secidx _g
	.short 0
	.long _g - .
S

llvm-mc --triple=i686-pc-windows-msvc --filetype=obj -o weak.coff32 - <<'S'
	.text
	.globl _d
_d:	ret
	.data
	.long _w, _u
	.weak _w
	_w = _d
	.weak _u
S

llvm-mc --triple=i386-apple-darwin --filetype=obj -o difference.mac32 - <<'S'
	.section __TEXT,__text
	.globl _f
_f:	ret
	nop
	.section __DATA,__data
a:	.long b - _f
	.long a - _f + 4
	.long b - a
b:	.long 0
S

# a fixup with a target displacement of 5 in place of one without; and e_type 2, an executable
python3 - <<'P'
with open("call.omf", "rb") as file:
    call = file.read()
fixup = bytes.fromhex("9d0600a401160101a0")
displaced = bytes.fromhex("9d0a00a40112010105000000")
displaced += bytes([-sum(displaced) & 255])
assert fixup in call
with open("displacement.omf", "wb") as file:
    file.write(call.replace(fixup, displaced))
with open("call.elf32", "rb") as file:
    call = bytearray(file.read())
call[16] = 2
with open("executable.elf32", "wb") as file:
    file.write(call)
P

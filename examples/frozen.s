	.file	"frozen.c"
	.text
	.p2align 4
	.globl	barrier
	.type	barrier, @function
barrier:
.LFB11:
	.cfi_startproc
#APP
# 6 "examples/frozen.c" 1
	nop
# 0 "" 2
#NO_APP
	leal	1(%rdi), %eax
	ret
	.cfi_endproc
.LFE11:
	.size	barrier, .-barrier
	.p2align 4
	.globl	half
	.type	half, @function
half:
.LFB12:
	.cfi_startproc
	mulsd	.LC0(%rip), %xmm0
	ret
	.cfi_endproc
.LFE12:
	.size	half, .-half
	.p2align 4
	.globl	twice
	.type	twice, @function
twice:
.LFB13:
	.cfi_startproc
	leal	(%rdi,%rdi), %eax
	ret
	.cfi_endproc
.LFE13:
	.size	twice, .-twice
	.section	.rodata.str1.1,"aMS",@progbits,1
.LC2:
	.string	"%d %g %d\n"
	.section	.text.startup,"ax",@progbits
	.p2align 4
	.globl	main
	.type	main, @function
main:
.LFB14:
	.cfi_startproc
	subq	$8, %rsp
	.cfi_def_cfa_offset 16
	movl	$21, %edi
	call	twice
	movsd	.LC1(%rip), %xmm0
	movl	$4, %edi
	movl	%eax, %edx
	call	half
	call	barrier
	movl	$.LC2, %edi
	movl	%eax, %esi
	movl	$1, %eax
	call	printf
	xorl	%eax, %eax
	addq	$8, %rsp
	.cfi_def_cfa_offset 8
	ret
	.cfi_endproc
.LFE14:
	.size	main, .-main
	.section	.rodata.cst8,"aM",@progbits,8
	.align 8
.LC0:
	.long	0
	.long	1071644672
	.align 8
.LC1:
	.long	0
	.long	1074266112
	.ident	"GCC: (Debian 12.2.0-14+deb12u1) 12.2.0"
	.section	.note.GNU-stack,"",@progbits

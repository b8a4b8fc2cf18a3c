	.file	"pick.c"
	.text
	.p2align 4
	.globl	pick
	.type	pick, @function
pick:
.LFB0:
	.cfi_startproc
	endbr64
	cmpl	$2, %edi
	ja	.L5
	movl	%edi, %edi
	notrack jmp	*.L4(,%rdi,8)
	.section	.rodata
	.align 8
	.align 4
.L4:
	.quad	.L7
	.quad	.L6
	.quad	.L3
	.text
	.p2align 4,,10
	.p2align 3
.L7:
	leal	1(%rsi), %eax
	ret
	.p2align 4,,10
	.p2align 3
.L6:
	movl	%esi, %eax
	subl	$7, %eax
	testl	%eax, %eax
	js	.L5
	ret
	.p2align 4,,10
	.p2align 3
.L3:
	leal	(%rsi,%rsi,2), %eax
	ret
.L5:
	xorl	%eax, %eax
	ret
	.cfi_endproc
.LFE0:
	.size	pick, .-pick
	.ident	"GCC: (GNU) 13.2.0"
	.section	.note.GNU-stack,"",@progbits

	.file	"kernel.c"
	.text
	.p2align 4
	.globl	dot
	.type	dot, @function
dot:
.LFB11:
	.cfi_startproc
	testl	%edx, %edx
	jle	.L4
	movslq	%edx, %rdx
	xorl	%eax, %eax
	xorl	%ecx, %ecx
	leaq	0(,%rdx,4), %r9
	.p2align 4,,10
	.p2align 3
.L3:
	movslq	(%rdi,%rax), %rdx
	movslq	(%rsi,%rax), %r8
	addq	$4, %rax
	imulq	%r8, %rdx
	addq	%rdx, %rcx
	cmpq	%rax, %r9
	jne	.L3
	movq	%rcx, %rax
	ret
	.p2align 4,,10
	.p2align 3
.L4:
	xorl	%ecx, %ecx
	movq	%rcx, %rax
	ret
	.cfi_endproc
.LFE11:
	.size	dot, .-dot
	.p2align 4
	.globl	bits
	.type	bits, @function
bits:
.LFB12:
	.cfi_startproc
	xorl	%edx, %edx
	testl	%edi, %edi
	je	.L7
	.p2align 4,,10
	.p2align 3
.L9:
	leal	-1(%rdi), %eax
	addl	$1, %edx
	andl	%eax, %edi
	jne	.L9
.L7:
	movl	%edx, %eax
	ret
	.cfi_endproc
.LFE12:
	.size	bits, .-bits
	.section	.rodata.str1.1,"aMS",@progbits,1
.LC0:
	.string	"%ld %u\n"
	.section	.text.startup,"ax",@progbits
	.p2align 4
	.globl	main
	.type	main, @function
main:
.LFB13:
	.cfi_startproc
	subq	$520, %rsp
	.cfi_def_cfa_offset 528
	movl	$-7, %edx
	xorl	%eax, %eax
	movl	$11, %esi
	.p2align 4,,10
	.p2align 3
.L13:
	movl	%esi, %ecx
	movl	%edx, (%rsp,%rax,4)
	addl	$3, %edx
	subl	%eax, %ecx
	movl	%ecx, 256(%rsp,%rax,4)
	addq	$1, %rax
	cmpq	$64, %rax
	jne	.L13
	movl	$61681, %edi
	leaq	256(%rsp), %rsi
	call	bits
	movq	%rsp, %rdi
	movl	$64, %edx
	movl	%eax, %r10d
	call	dot
	movl	%r10d, %edx
	movl	$.LC0, %edi
	movq	%rax, %rsi
	xorl	%eax, %eax
	call	printf
	xorl	%eax, %eax
	addq	$520, %rsp
	.cfi_def_cfa_offset 8
	ret
	.cfi_endproc
.LFE13:
	.size	main, .-main
	.ident	"GCC: (Debian 12.2.0-14+deb12u1) 12.2.0"
	.section	.note.GNU-stack,"",@progbits

	.file	"switch.c"
	.text
	.p2align 4
	.globl	weekday
	.type	weekday, @function
weekday:
.LFB11:
	.cfi_startproc
	cmpl	$6, %edi
	ja	.L11
	movl	%edi, %edi
	jmp	*.L4(,%rdi,8)
	.section	.rodata
	.align 8
	.align 4
.L4:
	.quad	.L10
	.quad	.L9
	.quad	.L8
	.quad	.L7
	.quad	.L6
	.quad	.L5
	.quad	.L3
	.text
	.p2align 4,,10
	.p2align 3
.L5:
	leal	0(,%rsi,4), %eax
	ret
	.p2align 4,,10
	.p2align 3
.L3:
	movl	%esi, %eax
	negl	%eax
	ret
	.p2align 4,,10
	.p2align 3
.L10:
	leal	(%rsi,%rsi,2), %eax
	ret
	.p2align 4,,10
	.p2align 3
.L9:
	leal	-7(%rsi), %eax
	ret
	.p2align 4,,10
	.p2align 3
.L8:
	movl	%esi, %eax
	xorl	$21, %eax
	ret
	.p2align 4,,10
	.p2align 3
.L7:
	leal	400(%rsi), %eax
	ret
	.p2align 4,,10
	.p2align 3
.L6:
	movslq	%esi, %rax
	movl	%esi, %edx
	imulq	$1431655766, %rax, %rax
	sarl	$31, %edx
	shrq	$32, %rax
	subl	%edx, %eax
	ret
.L11:
	xorl	%eax, %eax
	ret
	.cfi_endproc
.LFE11:
	.size	weekday, .-weekday
	.section	.rodata.str1.1,"aMS",@progbits,1
.LC0:
	.string	"%d\n"
	.section	.text.startup,"ax",@progbits
	.p2align 4
	.globl	main
	.type	main, @function
main:
.LFB12:
	.cfi_startproc
	pushq	%rbx
	.cfi_def_cfa_offset 16
	.cfi_offset 3, -16
	movl	$-1, %ebx
	.p2align 4,,10
	.p2align 3
.L14:
	leal	100(%rbx), %esi
	movl	%ebx, %edi
	addl	$1, %ebx
	call	weekday
	movl	$.LC0, %edi
	movl	%eax, %esi
	xorl	%eax, %eax
	call	printf
	cmpl	$8, %ebx
	jne	.L14
	xorl	%eax, %eax
	popq	%rbx
	.cfi_def_cfa_offset 8
	ret
	.cfi_endproc
.LFE12:
	.size	main, .-main
	.ident	"GCC: (Debian 12.2.0-14+deb12u1) 12.2.0"
	.section	.note.GNU-stack,"",@progbits

	.text
	.p2align 4
	.type f, @function
f:
	movl $1, %eax
	nop
	je .L2
	addq $-1, %rax
	nop
.L2:
	nop
	ret
	.size f, .-f

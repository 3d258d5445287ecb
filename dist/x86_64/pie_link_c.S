	.file	"rattle"
	.section	".text.atomic_table::owned::Table::drop::<#1bc90b9fb1d10aae>","ax",@progbits
	.p2align	4
	.type	"atomic_table::owned::Table::drop::<#1bc90b9fb1d10aae>",@function
"atomic_table::owned::Table::drop::<#1bc90b9fb1d10aae>":
	pushq	%rbp
	pushq	%r15
	pushq	%r14
	pushq	%r13
	pushq	%r12
	pushq	%rbx
	subq	$24, %rsp
	movq	24(%rdi), %rbx
	movq	32(%rdi), %rax
	movq	%rax, 8(%rsp)
	movq	48(%rdi), %rax
	movq	%rax, 16(%rsp)
	testq	%rbx, %rbx
	je	.LBB0_5
	movq	8(%rdi), %r14
	addq	$8, %r14
	jmp	.LBB0_2
	.p2align	4
.LBB0_4:
	addq	$16, %r14
	decq	%rbx
	je	.LBB0_5
.LBB0_2:
	cmpb	$0, -8(%r14)
	je	.LBB0_4
	movq	(%r14), %rdi
	movq	264(%rdi), %r15
	movq	448(%rdi), %r12
	movq	680(%rdi), %r13
	movq	1048(%rdi), %rbp
	callq	rattle_dealloc@PLT
	movq	%r15, %rdi
	callq	rattle_dealloc@PLT
	movq	%r12, %rdi
	callq	rattle_dealloc@PLT
	movq	%r13, %rdi
	callq	rattle_dealloc@PLT
	movq	%rbp, %rdi
	callq	rattle_dealloc@PLT
	jmp	.LBB0_4
.LBB0_5:
	movq	8(%rsp), %rdi
	callq	rattle_dealloc@PLT
	movq	16(%rsp), %rdi
	addq	$24, %rsp
	popq	%rbx
	popq	%r12
	popq	%r13
	popq	%r14
	popq	%r15
	popq	%rbp
	jmp	rattle_dealloc@PLT
.Lfunc_end0:
	.size	"atomic_table::owned::Table::drop::<#1bc90b9fb1d10aae>", .Lfunc_end0-"atomic_table::owned::Table::drop::<#1bc90b9fb1d10aae>"

	.section	.rodata.cst16,"aM",@progbits,16
	.p2align	4, 0x0
.LCPI1_0:
	.quad	-2
	.quad	-1
.LCPI1_1:
	.quad	-9223372036854775808
	.quad	-9223372036854775808
.LCPI1_2:
	.quad	-9223371036854775808
	.quad	-9223372036853775808
.LCPI1_3:
	.quad	-9223372036853775808
	.quad	-9223371036854775808
.LCPI1_4:
	.quad	-9223372026854775810
	.quad	-9223372026854775809
.LCPI1_5:
	.quad	-9223372036854710274
	.quad	-9223372035781033985
.LCPI1_6:
	.byte	255
	.byte	1
	.byte	1
	.byte	1
	.zero	1
	.zero	1
	.zero	1
	.zero	1
	.zero	1
	.zero	1
	.zero	1
	.zero	1
	.zero	1
	.zero	1
	.zero	1
	.zero	1
	.section	".text.pie_abi::opening::checked","ax",@progbits
	.p2align	4
	.type	"pie_abi::opening::checked",@function
"pie_abi::opening::checked":
	pushq	%rbp
	pushq	%r15
	pushq	%r14
	pushq	%r13
	pushq	%r12
	pushq	%rbx
	movq	64(%rsi), %rax
	movdqu	16(%rsi), %xmm0
	movdqu	(%rsi), %xmm1
	movdqu	32(%rsi), %xmm2
	movdqu	48(%rsi), %xmm4
	movdqa	%xmm4, %xmm5
	palignr	$8, %xmm2, %xmm5
	pcmpeqd	%xmm3, %xmm3
	paddq	%xmm5, %xmm3
	paddq	.LCPI1_0(%rip), %xmm1
	pblendw	$240, %xmm4, %xmm2
	movdqa	.LCPI1_1(%rip), %xmm4
	pxor	%xmm4, %xmm0
	pcmpgtq	.LCPI1_2(%rip), %xmm0
	popcntq	%rax, %rcx
	pxor	%xmm4, %xmm2
	pcmpgtq	.LCPI1_3(%rip), %xmm2
	cmpl	$1, %ecx
	pxor	%xmm4, %xmm1
	pcmpgtq	.LCPI1_4(%rip), %xmm1
	sete	%cl
	pxor	%xmm4, %xmm3
	pcmpgtq	.LCPI1_5(%rip), %xmm3
	packssdw	%xmm2, %xmm0
	packssdw	%xmm3, %xmm1
	packssdw	%xmm0, %xmm1
	pmovmskb	%xmm1, %edx
	testl	%edx, %edx
	sete	%dl
	andb	%cl, %dl
	cmpb	$1, %dl
	jne	.LBB1_4
	rep		bsfq	%rax, %rcx
	addl	$-10, %ecx
	cmpl	$6, %ecx
	ja	.LBB1_4
	movq	72(%rsi), %rdx
	movq	%rdx, %rcx
	shrq	$60, %rcx
	je	.LBB1_7
	movabsq	$433791696897, %rax
	jmp	.LBB1_5
.LBB1_4:
	movabsq	$459561500673, %rax
.LBB1_5:
	movq	%rax, (%rdi)
	pxor	%xmm0, %xmm0
	movdqu	%xmm0, 8(%rdi)
	movdqu	%xmm0, 24(%rdi)
	movdqu	%xmm0, 40(%rdi)
	movdqu	%xmm0, 56(%rdi)
	movdqu	%xmm0, 72(%rdi)
.LBB1_6:
	popq	%rbx
	popq	%r12
	popq	%r13
	popq	%r14
	popq	%r15
	popq	%rbp
	retq
.LBB1_7:
	movq	80(%rsi), %r10
	leaq	-1(%r10), %rcx
	cmpq	$2, %rcx
	jae	.LBB1_8
	movq	88(%rsi), %rcx
	cmpq	$32, %rcx
	jb	.LBB1_11
	movabsq	$502511173633, %rax
	jmp	.LBB1_5
.LBB1_8:
	movabsq	$485331304449, %rax
	jmp	.LBB1_5
.LBB1_11:
	movq	96(%rsi), %r14
	cmpq	$2, %r14
	jae	.LBB1_12
	movq	104(%rsi), %r9
	cmpq	$1048576, %r9
	ja	.LBB1_12
	movq	112(%rsi), %r11
	cmpq	$1048576, %r11
	ja	.LBB1_12
	movq	120(%rsi), %rbx
	testq	%r9, %r9
	sete	%r8b
	testq	%r11, %r11
	sete	%bpl
	orb	%r8b, %bpl
	leaq	-1(%rbx), %r8
	shrq	$47, %r8
	setne	%r8b
	orb	%bpl, %r8b
	jne	.LBB1_12
	movq	56(%rsi), %r15
	movq	48(%rsi), %r13
	movq	40(%rsi), %r12
	movq	32(%rsi), %r8
	movq	%r8, -8(%rsp)
	decl	%eax
	xorl	%ebp, %ebp
	cmpq	$2, %r10
	movq	24(%rsi), %r10
	sete	%bpl
	cmpq	$1, %r14
	movq	16(%rsi), %r14
	movq	(%rsi), %r8
	movq	8(%rsi), %rsi
	sete	80(%rdi)
	movq	$0, (%rdi)
	movq	%rdx, 8(%rdi)
	movl	%r9d, 16(%rdi)
	movl	%r11d, 20(%rdi)
	movq	%rbx, 24(%rdi)
	movl	%r13d, 32(%rdi)
	movw	%ax, 36(%rdi)
	movw	%r12w, 38(%rdi)
	movq	%r8, 40(%rdi)
	movq	%rsi, 48(%rdi)
	movq	%r14, 56(%rdi)
	movq	%r15, 64(%rdi)
	movl	%ecx, %eax
	shrb	$2, %al
	movd	%ebp, %xmm0
	movl	%ecx, %edx
	shrb	%dl
	movl	%ecx, %esi
	shrb	$3, %sil
	andb	$1, %sil
	cmpq	$16, %rcx
	pinsrb	$1, %ecx, %xmm0
	movl	%r10d, 72(%rdi)
	movzbl	%dl, %ecx
	pinsrb	$2, %ecx, %xmm0
	movq	-8(%rsp), %rcx
	movl	%ecx, 76(%rdi)
	movzbl	%al, %eax
	pinsrb	$3, %eax, %xmm0
	pand	.LCPI1_6(%rip), %xmm0
	movd	%xmm0, 81(%rdi)
	movb	%sil, 85(%rdi)
	setae	86(%rdi)
	movb	$0, 87(%rdi)
	jmp	.LBB1_6
.LBB1_12:
	movabsq	$515396075521, %rax
	jmp	.LBB1_5
.Lfunc_end1:
	.size	"pie_abi::opening::checked", .Lfunc_end1-"pie_abi::opening::checked"

	.section	".text.pie_book::core_state::Core::try_clone","ax",@progbits
	.p2align	4
	.type	"pie_book::core_state::Core::try_clone",@function
"pie_book::core_state::Core::try_clone":
	pushq	%rbp
	pushq	%r15
	pushq	%r14
	pushq	%r13
	pushq	%r12
	pushq	%rbx
	subq	$792, %rsp
	movq	%rdx, %r15
	movq	%rsi, 24(%rsp)
	movq	%rdi, %rbx
	leaq	410(%rsp), %rdi
	xorl	%ebp, %ebp
	movl	$382, %edx
	xorl	%esi, %esi
	callq	memset@PLT
	movl	8(%r15), %r12d
	movl	12(%r15), %eax
	movq	16(%r15), %r13
	movzbl	73(%r15), %edx
	movzbl	78(%r15), %ecx
	movb	%cl, 12(%rsp)
	movl	74(%r15), %ecx
	movl	%ecx, 8(%rsp)
	leal	-1(%r12), %ecx
	cmpl	$1048576, %ecx
	setb	%cl
	decl	%eax
	cmpl	$1048576, %eax
	setb	%al
	andb	%cl, %al
	leaq	-1(%r13), %rcx
	shrq	$47, %rcx
	sete	%cl
	andb	%al, %cl
	cmpb	$1, %cl
	jne	.LBB2_4
	movq	(%r15), %r14
	movq	%r14, %rax
	shrq	$60, %rax
	movb	$1, %bpl
	jne	.LBB2_4
	leaq	(,%r12,8), %rax
	leaq	(%rax,%rax,2), %rdi
	movl	$8, %esi
	movl	%edx, %ebp
	callq	rattle_alloc@PLT
	movl	%ebp, %r11d
	movb	$2, %bpl
	testb	$1, %al
	je	.LBB2_4
	movl	24(%r15), %eax
	movzwl	28(%r15), %ecx
	movzwl	30(%r15), %esi
	movq	48(%r15), %rdi
	movq	56(%r15), %r8
	incq	%rcx
	testb	%r11b, %r11b
	movzbl	12(%rsp), %r9d
	movb	%r9b, 20(%rsp)
	movl	8(%rsp), %r10d
	movl	%r10d, 16(%rsp)
	movq	%r13, 32(%rsp)
	movb	%r11b, 40(%rsp)
	movl	%r10d, 41(%rsp)
	movb	%r9b, 45(%rsp)
	movw	$0, 46(%rsp)
	movups	32(%r15), %xmm0
	movaps	%xmm0, 48(%rsp)
	movq	%rdi, 64(%rsp)
	pmovzxdq	64(%r15), %xmm0
	movdqu	%xmm0, 72(%rsp)
	movq	%rsi, 88(%rsp)
	movq	%rax, 96(%rsp)
	movq	%r8, 104(%rsp)
	movq	%rcx, 112(%rsp)
	movq	%r14, 120(%rsp)
	sete	128(%rsp)
	pxor	%xmm0, %xmm0
	movdqu	%xmm0, 129(%rsp)
	movdqu	%xmm0, 145(%rsp)
	movdqu	%xmm0, 161(%rsp)
	movdqu	%xmm0, 176(%rsp)
	movq	%rdi, 192(%rsp)
	movq	%r14, 200(%rsp)
	movq	$0, 208(%rsp)
	movq	%rdx, 216(%rsp)
	movq	%r12, 224(%rsp)
	movdqu	%xmm0, 232(%rsp)
	movdqu	%xmm0, 248(%rsp)
	movdqu	%xmm0, 264(%rsp)
	movdqu	%xmm0, 280(%rsp)
	movdqu	%xmm0, 296(%rsp)
	movdqu	%xmm0, 312(%rsp)
	movdqu	%xmm0, 328(%rsp)
	movdqu	%xmm0, 344(%rsp)
	movdqu	%xmm0, 360(%rsp)
	movdqu	%xmm0, 376(%rsp)
	movq	$0, 392(%rsp)
	leaq	32(%rsp), %r15
	movq	%r15, %rdi
	movq	24(%rsp), %rsi
	callq	"pie_book::core_state::Core::copy_from"
	leaq	424(%rsp), %rdi
	movl	$368, %edx
	movq	%r15, %rsi
	callq	memcpy@PLT
	xorl	%eax, %eax
	xorl	%ebp, %ebp
	jmp	.LBB2_5
.LBB2_4:
	movb	$1, %al
.LBB2_5:
	leaq	424(%rsp), %rsi
	movb	%al, (%rbx)
	movb	%bpl, 1(%rbx)
	addq	$16, %rbx
	movl	$368, %edx
	movq	%rbx, %rdi
	callq	memcpy@PLT
	addq	$792, %rsp
	popq	%rbx
	popq	%r12
	popq	%r13
	popq	%r14
	popq	%r15
	popq	%rbp
	retq
.Lfunc_end2:
	.size	"pie_book::core_state::Core::try_clone", .Lfunc_end2-"pie_book::core_state::Core::try_clone"

	.section	".text.pie_book::core_state::Core::copy_from","ax",@progbits
	.p2align	4
	.type	"pie_book::core_state::Core::copy_from",@function
"pie_book::core_state::Core::copy_from":
	movq	192(%rdi), %rcx
	cmpq	192(%rsi), %rcx
	jne	.LBB3_49
	movq	200(%rsi), %r9
	cmpq	%r9, %rcx
	jb	.LBB3_49
	pushq	%rbp
	pushq	%r15
	pushq	%r14
	pushq	%r13
	pushq	%r12
	pushq	%rbx
	subq	$184, %rsp
	leaq	8(%rsp), %rax
	testq	%r9, %r9
	je	.LBB3_3
	movq	184(%rsi), %rdx
	movq	208(%rsi), %r8
	movq	%rcx, %r10
	subq	%r8, %r10
	movq	%r9, %rbx
	leaq	(%r8,%r8,2), %r8
	leaq	(%rdx,%r8,8), %r8
	subq	%r10, %rbx
	jbe	.LBB3_5
	movq	%r10, %r9
	movq	%rdx, %rax
	cmpq	$0, 200(%rdi)
	jne	.LBB3_8
	jmp	.LBB3_9
.LBB3_3:
	xorl	%r9d, %r9d
	movq	%rax, %r8
	xorl	%ebx, %ebx
	cmpq	$0, 200(%rdi)
	je	.LBB3_9
.LBB3_8:
	movq	$0, 200(%rdi)
.LBB3_9:
	xorl	%edx, %edx
	movq	%r9, %r10
	subq	%rcx, %r10
	cmovaeq	%r10, %rdx
	movq	%r9, %r10
	subq	%rdx, %r10
	jne	.LBB3_11
	xorl	%r11d, %r11d
	movq	%rbx, %r9
	subq	%rcx, %r9
	cmovbq	%r11, %r9
	movq	%rbx, %r8
	subq	%r9, %r8
	cmpq	%r9, %rbx
	jne	.LBB3_31
	jmp	.LBB3_48
.LBB3_11:
	movq	%rbx, 32(%rsp)
	leaq	(%rdx,%rdx,2), %rdx
	leaq	(%r8,%rdx,8), %rbx
	movq	184(%rdi), %r11
	movq	208(%rdi), %r15
	xorl	%r12d, %r12d
	cmpq	%rcx, %r15
	cmovaeq	%rcx, %r12
	movq	%r15, %rdx
	subq	%r12, %rdx
	movq	%rcx, %r13
	subq	%rdx, %r13
	cmpq	%r10, %r13
	cmovaeq	%r10, %r13
	subq	%rdx, %rcx
	je	.LBB3_19
	movl	%r13d, %edx
	andl	$3, %edx
	cmpq	$4, %r13
	movq	%rdx, 16(%rsp)
	jae	.LBB3_14
	xorl	%ebp, %ebp
	jmp	.LBB3_17
.LBB3_5:
	xorl	%ebx, %ebx
	cmpq	$0, 200(%rdi)
	jne	.LBB3_8
	jmp	.LBB3_9
.LBB3_14:
	movq	%r13, %r14
	andq	$-4, %r14
	movq	%r15, 24(%rsp)
	leaq	(,%r15,8), %rdx
	leaq	(%rdx,%rdx,2), %rdx
	movq	%r12, 40(%rsp)
	leaq	(,%r12,8), %r12
	leaq	(%r12,%r12,2), %r12
	subq	%r12, %rdx
	addq	%r11, %rdx
	movl	$72, %r12d
	xorl	%ebp, %ebp
	.p2align	4
.LBB3_15:
	movups	-72(%rbx,%r12), %xmm0
	movq	-56(%rbx,%r12), %r15
	movq	%r15, -56(%rdx,%r12)
	movups	%xmm0, -72(%rdx,%r12)
	movups	-48(%rbx,%r12), %xmm0
	movq	-32(%rbx,%r12), %r15
	movq	%r15, -32(%rdx,%r12)
	movups	%xmm0, -48(%rdx,%r12)
	movups	-24(%rbx,%r12), %xmm0
	movq	-8(%rbx,%r12), %r15
	movq	%r15, -8(%rdx,%r12)
	movups	%xmm0, -24(%rdx,%r12)
	movups	(%rbx,%r12), %xmm0
	movq	16(%rbx,%r12), %r15
	movq	%r15, 16(%rdx,%r12)
	movups	%xmm0, (%rdx,%r12)
	addq	$4, %rbp
	addq	$96, %r12
	cmpq	%rbp, %r14
	jne	.LBB3_15
	movq	16(%rsp), %rdx
	testq	%rdx, %rdx
	movq	24(%rsp), %r15
	movq	40(%rsp), %r12
	je	.LBB3_19
.LBB3_17:
	leaq	(%r9,%r9,2), %rdx
	leaq	(,%rbp,2), %r14
	addq	%rbp, %r14
	shlq	$3, %r14
	leaq	(%r14,%rdx,8), %rdx
	leaq	(,%r10,8), %r14
	leaq	(%r14,%r14,2), %r14
	subq	%r14, %rdx
	addq	%r8, %rdx
	addq	%rbp, %r15
	subq	%r12, %r15
	leaq	(%r15,%r15,2), %r14
	leaq	(%r11,%r14,8), %r14
	movq	16(%rsp), %r15
	shll	$3, %r15d
	leaq	(%r15,%r15,2), %r15
	xorl	%r12d, %r12d
	.p2align	4
.LBB3_18:
	movups	(%rdx,%r12), %xmm0
	movq	16(%rdx,%r12), %rbp
	movq	%rbp, 16(%r14,%r12)
	movups	%xmm0, (%r14,%r12)
	addq	$24, %r12
	cmpq	%r12, %r15
	jne	.LBB3_18
.LBB3_19:
	cmpq	%rcx, %r10
	jbe	.LBB3_27
	leaq	(,%r13,8), %rcx
	leaq	(%rcx,%rcx,2), %r15
	movq	%r10, %r12
	subq	%r13, %r12
	movl	%r12d, %ecx
	andl	$7, %ecx
	subq	%r10, %r13
	cmpq	$-8, %r13
	jbe	.LBB3_22
	xorl	%r14d, %r14d
	jmp	.LBB3_25
.LBB3_22:
	addq	%r15, %rbx
	andq	$-8, %r12
	movl	$168, %r13d
	xorl	%r14d, %r14d
	.p2align	4
.LBB3_23:
	movups	-168(%rbx,%r13), %xmm0
	movq	-152(%rbx,%r13), %rdx
	movq	%rdx, -152(%r11,%r13)
	movups	%xmm0, -168(%r11,%r13)
	movups	-144(%rbx,%r13), %xmm0
	movq	-128(%rbx,%r13), %rdx
	movq	%rdx, -128(%r11,%r13)
	movups	%xmm0, -144(%r11,%r13)
	movups	-120(%rbx,%r13), %xmm0
	movq	-104(%rbx,%r13), %rdx
	movq	%rdx, -104(%r11,%r13)
	movups	%xmm0, -120(%r11,%r13)
	movups	-96(%rbx,%r13), %xmm0
	movq	-80(%rbx,%r13), %rdx
	movq	%rdx, -80(%r11,%r13)
	movups	%xmm0, -96(%r11,%r13)
	movups	-72(%rbx,%r13), %xmm0
	movq	-56(%rbx,%r13), %rdx
	movq	%rdx, -56(%r11,%r13)
	movups	%xmm0, -72(%r11,%r13)
	movups	-48(%rbx,%r13), %xmm0
	movq	-32(%rbx,%r13), %rdx
	movq	%rdx, -32(%r11,%r13)
	movups	%xmm0, -48(%r11,%r13)
	movups	-24(%rbx,%r13), %xmm0
	movq	-8(%rbx,%r13), %rdx
	movq	%rdx, -8(%r11,%r13)
	movups	%xmm0, -24(%r11,%r13)
	movups	(%rbx,%r13), %xmm0
	movq	16(%rbx,%r13), %rdx
	movq	%rdx, 16(%r11,%r13)
	movups	%xmm0, (%r11,%r13)
	addq	$8, %r14
	addq	$192, %r13
	cmpq	%r14, %r12
	jne	.LBB3_23
	testq	%rcx, %rcx
	je	.LBB3_27
.LBB3_25:
	shlq	$3, %r14
	leaq	(%r14,%r14,2), %rdx
	addq	%rdx, %r11
	leaq	(%r9,%r9,2), %r9
	leaq	(%rdx,%r9,8), %rdx
	addq	%r15, %rdx
	leaq	(,%r10,8), %r9
	leaq	(%r9,%r9,2), %r9
	subq	%r9, %rdx
	addq	%rdx, %r8
	shll	$3, %ecx
	leaq	(%rcx,%rcx,2), %rcx
	xorl	%edx, %edx
	.p2align	4
.LBB3_26:
	movups	(%r8,%rdx), %xmm0
	movq	16(%r8,%rdx), %r9
	movq	%r9, 16(%r11,%rdx)
	movups	%xmm0, (%r11,%rdx)
	addq	$24, %rdx
	cmpq	%rdx, %rcx
	jne	.LBB3_26
.LBB3_27:
	addq	200(%rdi), %r10
	movq	%r10, 200(%rdi)
	movq	192(%rdi), %rcx
	xorl	%r9d, %r9d
	movq	32(%rsp), %rbx
	movq	%rbx, %rdx
	subq	%rcx, %rdx
	cmovaeq	%rdx, %r9
	movq	%rbx, %r8
	subq	%r9, %r8
	movq	%rcx, %r11
	subq	%r8, %r11
	movq	%r10, %rdx
	subq	%r11, %rdx
	jbe	.LBB3_28
	addq	208(%rdi), %rdx
	xorl	%r10d, %r10d
	cmpq	%rcx, %rdx
	cmovaeq	%rcx, %r10
	subq	%r10, %rdx
	movq	%rdx, 208(%rdi)
	movq	%r11, 200(%rdi)
	cmpq	%r9, %rbx
	jne	.LBB3_31
	jmp	.LBB3_48
.LBB3_28:
	movq	%r10, %r11
	cmpq	%r9, %rbx
	je	.LBB3_48
.LBB3_31:
	shlq	$3, %r9
	leaq	(%r9,%r9,2), %rbp
	leaq	(%rax,%rbp), %r10
	movq	208(%rdi), %r14
	leaq	(%r14,%r11), %r9
	xorl	%r15d, %r15d
	cmpq	%rcx, %r9
	cmovaeq	%rcx, %r15
	movq	184(%rdi), %rdx
	subq	%r15, %r9
	movq	%rcx, %rbx
	subq	%r9, %rbx
	cmpq	%r8, %rbx
	cmovaeq	%r8, %rbx
	subq	%r9, %rcx
	je	.LBB3_39
	leaq	-1(%rbx), %r9
	movl	%ebx, %r12d
	andl	$3, %r12d
	cmpq	$3, %r9
	jae	.LBB3_34
	xorl	%r13d, %r13d
	jmp	.LBB3_37
.LBB3_34:
	movq	%r12, 24(%rsp)
	movq	%rbp, 32(%rsp)
	movq	%rbx, %rbp
	andq	$-4, %rbp
	leaq	(%r11,%r11,2), %r9
	movq	%r14, 16(%rsp)
	leaq	(%r14,%r14,2), %r14
	shlq	$3, %r14
	leaq	(%r14,%r9,8), %r9
	leaq	(,%r15,8), %r14
	leaq	(%r14,%r14,2), %r14
	subq	%r14, %r9
	addq	%rdx, %r9
	xorl	%r13d, %r13d
	xorl	%r14d, %r14d
	.p2align	4
.LBB3_35:
	movups	(%r10,%r14), %xmm0
	movq	16(%r10,%r14), %r12
	movq	%r12, 16(%r9,%r14)
	movups	%xmm0, (%r9,%r14)
	movups	24(%r10,%r14), %xmm0
	movq	40(%r10,%r14), %r12
	movq	%r12, 40(%r9,%r14)
	movups	%xmm0, 24(%r9,%r14)
	movups	48(%r10,%r14), %xmm0
	movq	64(%r10,%r14), %r12
	movq	%r12, 64(%r9,%r14)
	movups	%xmm0, 48(%r9,%r14)
	movups	72(%r10,%r14), %xmm0
	movq	88(%r10,%r14), %r12
	movq	%r12, 88(%r9,%r14)
	movups	%xmm0, 72(%r9,%r14)
	addq	$4, %r13
	addq	$96, %r14
	cmpq	%r13, %rbp
	jne	.LBB3_35
	movq	24(%rsp), %r12
	testq	%r12, %r12
	movq	32(%rsp), %rbp
	movq	16(%rsp), %r14
	je	.LBB3_39
.LBB3_37:
	leaq	(,%r13,2), %r9
	addq	%r13, %r9
	leaq	(,%r9,8), %r9
	addq	%rbp, %r9
	addq	%rax, %r9
	addq	%r13, %r11
	addq	%r14, %r11
	subq	%r15, %r11
	leaq	(%r11,%r11,2), %r11
	leaq	(%rdx,%r11,8), %r11
	shll	$3, %r12d
	leaq	(%r12,%r12,2), %r14
	xorl	%r15d, %r15d
	.p2align	4
.LBB3_38:
	movups	(%r9,%r15), %xmm0
	movq	16(%r9,%r15), %r12
	movq	%r12, 16(%r11,%r15)
	movups	%xmm0, (%r11,%r15)
	addq	$24, %r15
	cmpq	%r15, %r14
	jne	.LBB3_38
.LBB3_39:
	cmpq	%rcx, %r8
	jbe	.LBB3_47
	leaq	(,%rbx,8), %rcx
	leaq	(%rcx,%rcx,2), %r11
	movq	%r8, %r14
	subq	%rbx, %r14
	movl	%r14d, %ecx
	andl	$7, %ecx
	subq	%r8, %rbx
	cmpq	$-8, %rbx
	jbe	.LBB3_42
	xorl	%ebx, %ebx
	jmp	.LBB3_45
.LBB3_42:
	addq	%r11, %r10
	andq	$-8, %r14
	movl	$168, %r15d
	xorl	%ebx, %ebx
	.p2align	4
.LBB3_43:
	movups	-168(%r10,%r15), %xmm0
	movq	-152(%r10,%r15), %r9
	movq	%r9, -152(%rdx,%r15)
	movups	%xmm0, -168(%rdx,%r15)
	movups	-144(%r10,%r15), %xmm0
	movq	-128(%r10,%r15), %r9
	movq	%r9, -128(%rdx,%r15)
	movups	%xmm0, -144(%rdx,%r15)
	movups	-120(%r10,%r15), %xmm0
	movq	-104(%r10,%r15), %r9
	movq	%r9, -104(%rdx,%r15)
	movups	%xmm0, -120(%rdx,%r15)
	movups	-96(%r10,%r15), %xmm0
	movq	-80(%r10,%r15), %r9
	movq	%r9, -80(%rdx,%r15)
	movups	%xmm0, -96(%rdx,%r15)
	movups	-72(%r10,%r15), %xmm0
	movq	-56(%r10,%r15), %r9
	movq	%r9, -56(%rdx,%r15)
	movups	%xmm0, -72(%rdx,%r15)
	movups	-48(%r10,%r15), %xmm0
	movq	-32(%r10,%r15), %r9
	movq	%r9, -32(%rdx,%r15)
	movups	%xmm0, -48(%rdx,%r15)
	movups	-24(%r10,%r15), %xmm0
	movq	-8(%r10,%r15), %r9
	movq	%r9, -8(%rdx,%r15)
	movups	%xmm0, -24(%rdx,%r15)
	movups	(%r10,%r15), %xmm0
	movq	16(%r10,%r15), %r9
	movq	%r9, 16(%rdx,%r15)
	movups	%xmm0, (%rdx,%r15)
	addq	$8, %rbx
	addq	$192, %r15
	cmpq	%rbx, %r14
	jne	.LBB3_43
	testq	%rcx, %rcx
	je	.LBB3_47
.LBB3_45:
	shlq	$3, %rbx
	leaq	(%rbx,%rbx,2), %r9
	addq	%r9, %rdx
	addq	%r11, %rbp
	addq	%rbp, %rax
	addq	%r9, %rax
	shll	$3, %ecx
	leaq	(%rcx,%rcx,2), %rcx
	xorl	%r9d, %r9d
	.p2align	4
.LBB3_46:
	movups	(%rax,%r9), %xmm0
	movq	16(%rax,%r9), %r10
	movq	%r10, 16(%rdx,%r9)
	movups	%xmm0, (%rdx,%r9)
	addq	$24, %r9
	cmpq	%r9, %rcx
	jne	.LBB3_46
.LBB3_47:
	addq	%r8, 200(%rdi)
.LBB3_48:
	movq	216(%rsi), %rax
	movq	%rax, 216(%rdi)
	movq	(%rsi), %rax
	movq	%rax, (%rdi)
	leaq	8(%rsi), %rax
	leaq	8(%rdi), %rcx
	movl	$176, %edx
	movq	%rdi, %rbx
	movq	%rcx, %rdi
	movq	%rsi, %r14
	movq	%rax, %rsi
	callq	memmove@PLT
	movq	224(%r14), %rax
	movups	240(%r14), %xmm0
	movaps	%xmm0, 48(%rsp)
	movups	256(%r14), %xmm0
	movaps	%xmm0, 64(%rsp)
	movups	272(%r14), %xmm0
	movaps	%xmm0, 80(%rsp)
	movups	288(%r14), %xmm0
	movaps	%xmm0, 96(%rsp)
	movups	304(%r14), %xmm0
	movaps	%xmm0, 112(%rsp)
	movups	320(%r14), %xmm0
	movaps	%xmm0, 128(%rsp)
	movups	336(%r14), %xmm0
	movaps	%xmm0, 144(%rsp)
	movups	352(%r14), %xmm0
	movaps	%xmm0, 160(%rsp)
	movq	%rax, 224(%rbx)
	movq	$0, 232(%rbx)
	movaps	48(%rsp), %xmm0
	movaps	64(%rsp), %xmm1
	movaps	80(%rsp), %xmm2
	movaps	96(%rsp), %xmm3
	movups	%xmm0, 240(%rbx)
	movups	%xmm1, 256(%rbx)
	movups	%xmm2, 272(%rbx)
	movups	%xmm3, 288(%rbx)
	movaps	112(%rsp), %xmm0
	movups	%xmm0, 304(%rbx)
	movaps	128(%rsp), %xmm0
	movups	%xmm0, 320(%rbx)
	movaps	144(%rsp), %xmm0
	movups	%xmm0, 336(%rbx)
	movaps	160(%rsp), %xmm0
	movups	%xmm0, 352(%rbx)
	addq	$184, %rsp
	popq	%rbx
	popq	%r12
	popq	%r13
	popq	%r14
	popq	%r15
	popq	%rbp
.LBB3_49:
	retq
.Lfunc_end3:
	.size	"pie_book::core_state::Core::copy_from", .Lfunc_end3-"pie_book::core_state::Core::copy_from"

	.section	".text.pie_link::pie_link++kept_book++KeptBook+Destruct::drop","ax",@progbits
	.p2align	4
	.type	"pie_link::pie_link++kept_book++KeptBook+Destruct::drop",@function
"pie_link::pie_link++kept_book++KeptBook+Destruct::drop":
	pushq	%r15
	pushq	%r14
	pushq	%r12
	pushq	%rbx
	pushq	%rax
	movq	264(%rdi), %rbx
	movq	448(%rdi), %r14
	movq	680(%rdi), %r15
	movq	1048(%rdi), %r12
	callq	rattle_dealloc@PLT
	movq	%rbx, %rdi
	callq	rattle_dealloc@PLT
	movq	%r14, %rdi
	callq	rattle_dealloc@PLT
	movq	%r15, %rdi
	callq	rattle_dealloc@PLT
	movq	%r12, %rdi
	addq	$8, %rsp
	popq	%rbx
	popq	%r12
	popq	%r14
	popq	%r15
	jmp	rattle_dealloc@PLT
.Lfunc_end4:
	.size	"pie_link::pie_link++kept_book++KeptBook+Destruct::drop", .Lfunc_end4-"pie_link::pie_link++kept_book++KeptBook+Destruct::drop"

	.section	".text.pie_link_c::port::boxed","ax",@progbits
	.p2align	4
	.type	"pie_link_c::port::boxed",@function
"pie_link_c::port::boxed":
	pushq	%rbp
	pushq	%r15
	pushq	%r14
	pushq	%r13
	pushq	%r12
	pushq	%rbx
	subq	$72, %rsp
	movl	%ecx, %ebp
	movl	%edx, %r14d
	movq	%rsi, %r12
	movq	%rdi, %rbx
	movl	$4096, %edi
	movl	$8, %esi
	callq	rattle_alloc@PLT
	movq	%rax, %r13
	xorl	%r15d, %r15d
	testb	$1, %r13b
	cmovneq	%rdx, %r15
	je	.LBB5_7
	andl	$1, %r13d
	shll	$6, %r13d
	movq	(%r12), %r12
	.p2align	4
.LBB5_2:
	#APP
	#NO_APP
	movq	(%r12), %rax
	#APP
	#NO_APP
	movabsq	$9223372036854775806, %rcx
	cmpq	%rcx, %rax
	ja	.LBB5_6
	leaq	1(%rax), %rcx
	#APP
	#NO_APP
	lock		cmpxchgq	%rcx, (%r12)
	#APP
	#NO_APP
	jne	.LBB5_2
	movl	$40, %edi
	movl	$8, %esi
	callq	rattle_alloc@PLT
	testb	$1, %al
	je	.LBB5_8
	shll	$16, %ebp
	movzwl	%r14w, %eax
	orl	%ebp, %eax
	movq	%r12, (%rdx)
	movl	%eax, 8(%rdx)
	movl	$0, 12(%rdx)
	movq	%r15, 16(%rdx)
	movq	$0, 24(%rdx)
	movq	%r13, 32(%rdx)
	xorl	%eax, %eax
	xorl	%ecx, %ecx
	jmp	.LBB5_11
.LBB5_6:
	movq	%r15, %rdi
	callq	rattle_dealloc@PLT
.LBB5_7:
	movw	$1, (%rbx)
	shll	$16, %ebp
	movzwl	%r14w, %eax
	orl	%ebp, %eax
	movl	%eax, 2(%rbx)
	movq	$0, 8(%rbx)
	jmp	.LBB5_12
.LBB5_8:
	xorps	%xmm0, %xmm0
	movaps	%xmm0, 48(%rsp)
	movaps	%xmm0, 32(%rsp)
	movaps	%xmm0, 16(%rsp)
	movaps	%xmm0, (%rsp)
	movq	$0, 64(%rsp)
	#APP
	#NO_APP
	lock		decq	(%r12)
	#APP
	#NO_APP
	jne	.LBB5_10
	movq	72(%r12), %rax
	movq	%rax, 64(%rsp)
	movups	8(%r12), %xmm0
	movups	24(%r12), %xmm1
	movups	40(%r12), %xmm2
	movups	56(%r12), %xmm3
	movaps	%xmm3, 48(%rsp)
	movaps	%xmm2, 32(%rsp)
	movaps	%xmm1, 16(%rsp)
	movaps	%xmm0, (%rsp)
	movq	%r12, %rdi
	callq	rattle_dealloc@PLT
	movq	%rsp, %rdi
	callq	"atomic_table::owned::Table::drop::<#1bc90b9fb1d10aae>"
.LBB5_10:
	movq	%r15, %rdi
	callq	rattle_dealloc@PLT
	shll	$16, %ebp
	movzwl	%r14w, %ecx
	orl	%ebp, %ecx
	movw	$1, %ax
	xorl	%edx, %edx
.LBB5_11:
	movw	%ax, (%rbx)
	movl	%ecx, 2(%rbx)
	movq	%rdx, 8(%rbx)
.LBB5_12:
	addq	$72, %rsp
	popq	%rbx
	popq	%r12
	popq	%r13
	popq	%r14
	popq	%r15
	popq	%rbp
	retq
.Lfunc_end5:
	.size	"pie_link_c::port::boxed", .Lfunc_end5-"pie_link_c::port::boxed"

	.section	".text.pie_book::book::Book::copy_running","ax",@progbits
	.p2align	4
	.type	"pie_book::book::Book::copy_running",@function
"pie_book::book::Book::copy_running":
	pushq	%r15
	pushq	%r14
	pushq	%r12
	pushq	%rbx
	subq	$376, %rsp
	movq	%rdi, %rbx
	movq	464(%rdi), %rdx
	movq	1232(%rdi), %rax
	movq	%rdx, %rcx
	subq	%rax, %rcx
	cmpq	%rdx, %rcx
	jae	.LBB6_2
	movq	456(%rbx), %rdx
	movq	472(%rbx), %rsi
	addq	%rax, %rsi
	xorl	%edi, %edi
	cmpq	%rdx, %rsi
	cmovaeq	%rdx, %rdi
	subq	%rdi, %rsi
	movq	%rsi, 472(%rbx)
	movq	%rcx, 464(%rbx)
.LBB6_2:
	subq	%rax, 480(%rbx)
	movq	%rcx, 1232(%rbx)
	leaq	496(%rbx), %r14
	leaq	864(%rbx), %r15
	movq	%rsp, %r12
	movl	$368, %edx
	movq	%r12, %rdi
	movq	%r14, %rsi
	callq	memcpy@PLT
	movl	$368, %edx
	movq	%r14, %rdi
	movq	%r15, %rsi
	callq	memcpy@PLT
	movl	$368, %edx
	movq	%r15, %rdi
	movq	%r12, %rsi
	callq	memcpy@PLT
	addq	$80, %rbx
	movq	%r15, %rdi
	movq	%rbx, %rsi
	addq	$376, %rsp
	popq	%rbx
	popq	%r12
	popq	%r14
	popq	%r15
	jmp	"pie_book::core_state::Core::copy_from"
.Lfunc_end6:
	.size	"pie_book::book::Book::copy_running", .Lfunc_end6-"pie_book::book::Book::copy_running"

	.section	".text.pie_early::decision::scaled","ax",@progbits
	.p2align	4
	.type	"pie_early::decision::scaled",@function
"pie_early::decision::scaled":
	movq	%rdx, %rax
	movl	%esi, %edx
	cmpq	%rdx, %rdi
	jbe	.LBB7_2
	pushq	%rax
	movq	%rdi, %rcx
	mulq	%rdx
	movq	%rax, %rdi
	movq	%rdx, %rsi
	movq	%rcx, %rdx
	xorl	%ecx, %ecx
	callq	__udivti3@PLT
	addq	$8, %rsp
.LBB7_2:
	retq
.Lfunc_end7:
	.size	"pie_early::decision::scaled", .Lfunc_end7-"pie_early::decision::scaled"

	.section	".text.pie_aqm::raw::RawController::arrive_out_of_line","ax",@progbits
	.p2align	4
	.type	"pie_aqm::raw::RawController::arrive_out_of_line",@function
"pie_aqm::raw::RawController::arrive_out_of_line":
	pushq	%rbp
	pushq	%r15
	pushq	%r14
	pushq	%r13
	pushq	%r12
	pushq	%rbx
	pushq	%rax
	movq	64(%rsp), %r14
	movq	56(%rdi), %r10
	movl	%ecx, %r11d
	leaq	(%rsi,%r11), %rax
	cmpq	%rax, %r10
	setb	%bl
	orb	%dl, %bl
	je	.LBB8_3
	cmpq	%rax, %r10
	movb	$4, %al
	sbbb	$0, %al
	movq	$0, 168(%rdi)
	movq	80(%rdi), %rcx
	cmpq	%rcx, %r14
	cmovaq	%r14, %rcx
	movq	%rcx, 80(%rdi)
	cmpb	$0, 88(%rdi)
	jne	.LBB8_13
	xorl	%r11d, %r11d
	addq	%rsi, %r11
	leaq	(%r11,%r11,2), %rcx
	cmpq	%rcx, %r10
	jbe	.LBB8_7
	jmp	.LBB8_13
.LBB8_3:
	cmpb	$0, 88(%rdi)
	je	.LBB8_6
	movq	168(%rdi), %r15
	cmpq	$0, 152(%rdi)
	jne	.LBB8_11
	movq	48(%rdi), %rax
	movq	%rsi, %rdx
	shrq	%rdx
	subq	%rdx, %rsi
	cmpq	%rsi, %rax
	jae	.LBB8_11
	movq	8(%rdi), %rdx
	movq	136(%rdi), %rbx
	movq	%rdx, %rsi
	shrq	%rsi
	subq	%rsi, %rdx
	cmpq	%rdx, 144(%rdi)
	setb	%dl
	movq	%rbx, %rsi
	shrq	$12, %rsi
	cmpq	$48828125, %rsi
	setb	%sil
	testb	%sil, %dl
	jne	.LBB8_11
	movzbl	2(%rdi), %r12d
	cmpb	$0, 4(%rdi)
	je	.LBB8_16
	movq	%rdi, (%rsp)
	movq	%rax, %rdi
	movl	%ecx, %esi
	movq	%rbx, %rdx
	movl	%r8d, %r13d
	movq	%r9, %rbp
	callq	"pie_early::decision::scaled"
	movq	%rbp, %r9
	movl	%r13d, %r8d
	movq	(%rsp), %rdi
	movq	%rax, %rcx
	jmp	.LBB8_17
.LBB8_6:
	movq	80(%rdi), %rax
	cmpq	%rax, %r14
	cmovaq	%r14, %rax
	movq	%rax, 80(%rdi)
	xorl	%eax, %eax
	addq	%rsi, %r11
	leaq	(%r11,%r11,2), %rcx
	cmpq	%rcx, %r10
	ja	.LBB8_13
.LBB8_7:
	xorps	%xmm0, %xmm0
	movups	%xmm0, 112(%rdi)
	movups	%xmm0, 96(%rdi)
	movq	$0, 128(%rdi)
	movq	24(%rdi), %rcx
	movups	%xmm0, 136(%rdi)
	movq	%rcx, 152(%rdi)
	movq	$0, 168(%rdi)
	movb	$1, 88(%rdi)
	jmp	.LBB8_13
.LBB8_16:
	movq	%rbx, %rcx
.LBB8_17:
	testq	%rcx, %rcx
	je	.LBB8_21
	cmpb	$1, %r12b
	jne	.LBB8_22
.LBB8_19:
	movabsq	$1000000000000, %rdx
	movq	%r9, %rax
	mulq	%rdx
	cmpq	%rcx, %rdx
	jae	.LBB8_11
	jmp	.LBB8_23
.LBB8_21:
	xorl	%r15d, %r15d
.LBB8_11:
	xorl	%eax, %eax
.LBB8_12:
	movq	%r15, 168(%rdi)
	movq	80(%rdi), %rcx
	cmpq	%rcx, %r14
	cmovaq	%r14, %rcx
	movq	%rcx, 80(%rdi)
.LBB8_13:
	addq	$8, %rsp
	popq	%rbx
	popq	%r12
	popq	%r13
	popq	%r14
	popq	%r15
	popq	%rbp
	retq
.LBB8_22:
	addq	%rcx, %r15
	jae	.LBB8_24
.LBB8_23:
	testb	%r8b, %r8b
	setne	%al
	cmpq	64(%rdi), %rbx
	setb	%cl
	andb	%al, %cl
	movb	$2, %al
	subb	%cl, %al
	xorl	%r15d, %r15d
	jmp	.LBB8_12
.LBB8_24:
	movq	%r15, %rax
	shrq	$10, %rax
	cmpq	$830078125, %rax
	jb	.LBB8_11
	movabsq	$8499999999999, %rax
	cmpq	%rax, %r15
	jbe	.LBB8_19
	jmp	.LBB8_23
.Lfunc_end8:
	.size	"pie_aqm::raw::RawController::arrive_out_of_line", .Lfunc_end8-"pie_aqm::raw::RawController::arrive_out_of_line"

	.section	".text.pie_book::tally::Tally::arrived","ax",@progbits
	.p2align	4
	.type	"pie_book::tally::Tally::arrived",@function
"pie_book::tally::Tally::arrived":
	incq	(%rdi)
	incq	16(%rdi)
	movzbl	%sil, %eax
	leaq	.LJTI9_0(%rip), %rcx
	movslq	(%rcx,%rax,4), %rax
	addq	%rcx, %rax
	jmpq	*%rax
.LBB9_1:
	incq	24(%rdi)
	retq
.LBB9_5:
	incq	56(%rdi)
	retq
.LBB9_3:
	incq	40(%rdi)
	retq
.LBB9_4:
	incq	48(%rdi)
	retq
.LBB9_2:
	incq	32(%rdi)
	retq
.Lfunc_end9:
	.size	"pie_book::tally::Tally::arrived", .Lfunc_end9-"pie_book::tally::Tally::arrived"
	.section	".rodata.pie_book::tally::Tally::arrived","a",@progbits
	.p2align	2, 0x0
.LJTI9_0:
	.long	.LBB9_1-.LJTI9_0
	.long	.LBB9_2-.LJTI9_0
	.long	.LBB9_3-.LJTI9_0
	.long	.LBB9_4-.LJTI9_0
	.long	.LBB9_5-.LJTI9_0

	.section	".text.pie_queue::queue::ByteQueue::admit","ax",@progbits
	.p2align	4
	.type	"pie_queue::queue::ByteQueue::admit",@function
"pie_queue::queue::ByteQueue::admit":
	movq	(%rdx), %r8
	movl	8(%rdx), %eax
	movl	12(%rdx), %edx
	movq	8(%rsi), %r11
	movq	16(%rsi), %r10
	movb	$1, %r9b
	cmpq	%r10, %r11
	jbe	.LBB10_2
	addq	24(%rsi), %r10
	xorl	%r9d, %r9d
	cmpq	%r11, %r10
	cmovbq	%r9, %r11
	subq	%r11, %r10
	movq	(%rsi), %r11
	leaq	(%r10,%r10,2), %r10
	movq	%r8, (%r11,%r10,8)
	movl	%eax, 8(%r11,%r10,8)
	movl	%edx, 12(%r11,%r10,8)
	movq	%rcx, 16(%r11,%r10,8)
	incq	16(%rsi)
	addq	%rax, 32(%rsi)
	xorl	%r8d, %r8d
	xorl	%eax, %eax
	xorl	%edx, %edx
.LBB10_2:
	movb	%r9b, (%rdi)
	movq	%r8, 8(%rdi)
	movl	%eax, 16(%rdi)
	movl	%edx, 20(%rdi)
	retq
.Lfunc_end10:
	.size	"pie_queue::queue::ByteQueue::admit", .Lfunc_end10-"pie_queue::queue::ByteQueue::admit"

	.section	".text.pie_queue::queue::ByteQueue::take","ax",@progbits
	.p2align	4
	.type	"pie_queue::queue::ByteQueue::take",@function
"pie_queue::queue::ByteQueue::take":
	movq	16(%rsi), %rax
	testq	%rax, %rax
	je	.LBB11_3
	movq	24(%rsi), %rcx
	movq	(%rsi), %rdx
	movq	8(%rsi), %r8
	leaq	1(%rcx), %r9
	xorl	%r10d, %r10d
	cmpq	%r8, %r9
	cmovaeq	%r8, %r10
	negq	%r10
	leaq	(%rcx,%r10), %r8
	incq	%r8
	movq	%r8, 24(%rsi)
	decq	%rax
	movq	%rax, 16(%rsi)
	leaq	(%rcx,%rcx,2), %r8
	movq	(%rdx,%r8,8), %rax
	movl	8(%rdx,%r8,8), %ecx
	movq	12(%rdx,%r8,8), %r9
	movq	%r9, -16(%rsp)
	movl	20(%rdx,%r8,8), %edx
	movl	%edx, -8(%rsp)
	subq	%rcx, 32(%rsi)
	movl	-8(%rsp), %edx
	movl	%edx, 28(%rdi)
	movq	-16(%rsp), %rdx
	movq	%rdx, 20(%rdi)
	movl	$1, %edx
	movq	%rdx, (%rdi)
	movq	%rax, 8(%rdi)
	movl	%ecx, 16(%rdi)
	retq
.LBB11_3:
	movl	$0, 28(%rdi)
	movq	$0, 20(%rdi)
	xorl	%edx, %edx
	xorl	%eax, %eax
	xorl	%ecx, %ecx
	movq	%rdx, (%rdi)
	movq	%rax, 8(%rdi)
	movl	%ecx, 16(%rdi)
	retq
.Lfunc_end11:
	.size	"pie_queue::queue::ByteQueue::take", .Lfunc_end11-"pie_queue::queue::ByteQueue::take"

	.section	".text.pie_aqm::raw::wait","ax",@progbits
	.p2align	4
	.type	"pie_aqm::raw::wait",@function
"pie_aqm::raw::wait":
	testq	%rdi, %rdi
	je	.LBB12_2
	xorl	%eax, %eax
	subq	%rsi, %rdx
	cmovaeq	%rdx, %rax
	movabsq	$1099511627776, %rcx
	cmpq	%rcx, %rax
	cmovaeq	%rcx, %rax
	retq
.LBB12_2:
	xorl	%eax, %eax
	retq
.Lfunc_end12:
	.size	"pie_aqm::raw::wait", .Lfunc_end12-"pie_aqm::raw::wait"

	.section	".text.pie_aqm::controller::Controller::update","ax",@progbits
	.p2align	4
	.type	"pie_aqm::controller::Controller::update",@function
"pie_aqm::controller::Controller::update":
	pushq	%r14
	pushq	%rbx
	pushq	%rax
	movq	80(%rdi), %rbx
	cmpq	%rbx, %rdx
	cmovaq	%rdx, %rbx
	movq	%rbx, 80(%rdi)
	cmpb	$0, 88(%rdi)
	je	.LBB13_1
	cmpb	$0, 1(%rdi)
	je	.LBB13_3
	movq	128(%rdi), %rax
	jmp	.LBB13_16
.LBB13_1:
	movq	%rbx, 160(%rdi)
	xorl	%eax, %eax
	addq	$8, %rsp
	popq	%rbx
	popq	%r14
	retq
.LBB13_3:
	movq	72(%rdi), %rcx
	movq	%rsi, %rax
	mulq	96(%rdi)
	xorl	%esi, %esi
	popcntq	%rcx, %rsi
	cmpl	$1, %esi
	jne	.LBB13_13
	rep		bsfq	%rcx, %rsi
	addq	$-10, %rsi
	cmpq	$6, %rsi
	ja	.LBB13_13
	leaq	.LJTI13_0(%rip), %rcx
	movslq	(%rcx,%rsi,4), %rsi
	addq	%rcx, %rsi
	jmpq	*%rsi
.LBB13_6:
	shrdq	$10, %rdx, %rax
	shrq	$10, %rdx
	jmp	.LBB13_14
.LBB13_13:
	cmpq	$1, %rcx
	adcq	$0, %rcx
	movq	%rdi, %r14
	movq	%rax, %rdi
	movq	%rdx, %rsi
	movq	%rcx, %rdx
	xorl	%ecx, %ecx
	callq	__udivti3@PLT
	movq	%r14, %rdi
.LBB13_14:
	movabsq	$1099511627776, %rcx
	cmpq	%rcx, %rax
	cmovaeq	%rcx, %rax
	testq	%rdx, %rdx
	cmovneq	%rcx, %rax
.LBB13_16:
	movzbl	5(%rdi), %r9d
	movq	136(%rdi), %rcx
	movq	144(%rdi), %rsi
	movq	8(%rdi), %r8
	movq	%rax, %r10
	subq	%r8, %r10
	imulq	32(%rdi), %r10
	movq	%rax, %rdx
	subq	%rsi, %rdx
	imulq	40(%rdi), %rdx
	addq	%r10, %rdx
	cmpq	$999999, %rcx
	ja	.LBB13_18
	leaq	2047(%rdx), %r10
	testq	%rdx, %rdx
	cmovnsq	%rdx, %r10
	sarq	$11, %r10
	movq	%r10, %rdx
	jmp	.LBB13_30
.LBB13_18:
	cmpq	$9999999, %rcx
	ja	.LBB13_20
	leaq	511(%rdx), %r10
	testq	%rdx, %rdx
	cmovnsq	%rdx, %r10
	sarq	$9, %r10
	movq	%r10, %rdx
	jmp	.LBB13_30
.LBB13_20:
	cmpq	$99999999, %rcx
	ja	.LBB13_22
	leaq	127(%rdx), %r10
	testq	%rdx, %rdx
	cmovnsq	%rdx, %r10
	sarq	$7, %r10
	movq	%r10, %rdx
	jmp	.LBB13_30
.LBB13_22:
	cmpq	$999999999, %rcx
	ja	.LBB13_24
	leaq	31(%rdx), %r10
	testq	%rdx, %rdx
	cmovnsq	%rdx, %r10
	sarq	$5, %r10
	movq	%r10, %rdx
	jmp	.LBB13_30
.LBB13_24:
	movq	%rcx, %r10
	shrq	$10, %r10
	cmpq	$9765624, %r10
	ja	.LBB13_26
	leaq	7(%rdx), %r10
	testq	%rdx, %rdx
	cmovnsq	%rdx, %r10
	sarq	$3, %r10
	movq	%r10, %rdx
	jmp	.LBB13_30
.LBB13_26:
	movq	%rcx, %r10
	shrq	$11, %r10
	cmpq	$48828124, %r10
	ja	.LBB13_28
	movq	%rdx, %r10
	shrq	$63, %r10
	addq	%rdx, %r10
	sarq	%r10
	movq	%r10, %rdx
	jmp	.LBB13_30
.LBB13_10:
	shrdq	$14, %rdx, %rax
	shrq	$14, %rdx
	jmp	.LBB13_14
.LBB13_8:
	shrdq	$12, %rdx, %rax
	shrq	$12, %rdx
	jmp	.LBB13_14
.LBB13_9:
	shrdq	$13, %rdx, %rax
	shrq	$13, %rdx
	jmp	.LBB13_14
.LBB13_7:
	shrdq	$11, %rdx, %rax
	shrq	$11, %rdx
	jmp	.LBB13_14
.LBB13_11:
	shrdq	$15, %rdx, %rax
	shrq	$15, %rdx
	jmp	.LBB13_14
.LBB13_12:
	shrdq	$16, %rdx, %rax
	shrq	$16, %rdx
	jmp	.LBB13_14
.LBB13_28:
	cmpb	$0, 3(%rdi)
	jne	.LBB13_30
	movabsq	$20000000000, %r10
	cmpq	%r10, %rdx
	cmovgeq	%r10, %rdx
.LBB13_30:
	testb	%r9b, %r9b
	je	.LBB13_31
	leaq	(%rax,%rax), %r9
	cmpq	%r8, %r9
	setae	%r9b
	leaq	(%rsi,%rsi), %r10
	cmpq	%r8, %r10
	setae	%r10b
	addq	%rcx, %rdx
	orb	%r9b, %r10b
	jne	.LBB13_34
.LBB13_33:
	xorl	%ecx, %ecx
	testq	%rdx, %rdx
	cmovgq	%rdx, %rcx
	movabsq	$2000000000000, %rdx
	cmpq	%rdx, %rcx
	cmovgeq	%rdx, %rcx
	imulq	$98, %rcx, %rcx
	movabsq	$184467440737095517, %rdx
	movq	%rax, %r9
	movq	%rcx, %rax
	mulq	%rdx
	movq	%r9, %rax
.LBB13_34:
	xorl	%ecx, %ecx
	testq	%rdx, %rdx
	cmovgq	%rdx, %rcx
	movabsq	$1000000000000, %r9
	cmpq	%r9, %rcx
	cmovgeq	%r9, %rcx
	testq	%rdx, %rdx
	jle	.LBB13_36
	movq	152(%rdi), %rsi
	xorl	%edx, %edx
	subq	16(%rdi), %rsi
	cmovaeq	%rsi, %rdx
	movb	$1, %sil
	jmp	.LBB13_38
.LBB13_31:
	addq	%rcx, %rdx
	movq	%rsi, %rcx
	orq	%rax, %rcx
	jne	.LBB13_34
	jmp	.LBB13_33
.LBB13_36:
	leaq	(%rax,%rax), %rdx
	cmpq	%r8, %rdx
	setae	%r9b
	addq	%rsi, %rsi
	cmpq	%r8, %rsi
	setae	%r8b
	movq	152(%rdi), %rsi
	xorl	%edx, %edx
	subq	16(%rdi), %rsi
	cmovaeq	%rsi, %rdx
	movb	$1, %sil
	orb	%r9b, %r8b
	jne	.LBB13_38
	movq	24(%rdi), %rdx
	xorl	%esi, %esi
.LBB13_38:
	movq	%rcx, 136(%rdi)
	movq	%rax, 144(%rdi)
	movq	%rdx, 152(%rdi)
	movq	%rbx, 160(%rdi)
	cmpb	$0, (%rdi)
	movzbl	%sil, %ecx
	movl	$1, %edx
	cmovnel	%ecx, %edx
	movb	%dl, 88(%rdi)
	addq	$8, %rsp
	popq	%rbx
	popq	%r14
	retq
.Lfunc_end13:
	.size	"pie_aqm::controller::Controller::update", .Lfunc_end13-"pie_aqm::controller::Controller::update"
	.section	".rodata.pie_aqm::controller::Controller::update","a",@progbits
	.p2align	2, 0x0
.LJTI13_0:
	.long	.LBB13_6-.LJTI13_0
	.long	.LBB13_7-.LJTI13_0
	.long	.LBB13_8-.LJTI13_0
	.long	.LBB13_9-.LJTI13_0
	.long	.LBB13_10-.LJTI13_0
	.long	.LBB13_11-.LJTI13_0
	.long	.LBB13_12-.LJTI13_0

	.section	".text.pie_book::core_state::RawCore::set","ax",@progbits
	.p2align	4
	.type	"pie_book::core_state::RawCore::set",@function
"pie_book::core_state::RawCore::set":
	pushq	%rbp
	pushq	%r15
	pushq	%r14
	pushq	%r13
	pushq	%r12
	pushq	%rbx
	movl	(%r8), %eax
	movzwl	4(%r8), %r9d
	movzwl	6(%r8), %r10d
	movq	8(%r8), %r11
	movq	16(%r8), %rbx
	movq	24(%r8), %r14
	movq	32(%r8), %r15
	movl	40(%r8), %r12d
	movl	44(%r8), %r8d
	movq	%r9, %r13
	incq	%r13
	movq	88(%rsi), %rbp
	cmpq	%rbp, %rcx
	cmovaq	%rcx, %rbp
	movq	%rbp, 88(%rsi)
	movq	%r11, 16(%rsi)
	movq	%rbx, 24(%rsi)
	movq	%r14, 32(%rsi)
	movq	%r12, 40(%rsi)
	movq	%r8, 48(%rsi)
	movq	%r10, 56(%rsi)
	movq	%rax, 64(%rsi)
	movq	%r15, 72(%rsi)
	movq	%r13, 80(%rsi)
	xorps	%xmm0, %xmm0
	movups	%xmm0, 104(%rsi)
	movups	%xmm0, 120(%rsi)
	incq	224(%rsi)
	incq	328(%rsi)
	movw	$5, (%rdi)
	movw	%dx, 2(%rdi)
	movl	$0, 4(%rdi)
	movq	%rcx, 8(%rdi)
	movl	%eax, 16(%rdi)
	movw	%r9w, 20(%rdi)
	movw	%r10w, 22(%rdi)
	movq	%r11, 24(%rdi)
	movq	%rbx, 32(%rdi)
	movq	%r14, 40(%rdi)
	movq	%r15, 48(%rdi)
	movl	%r12d, 56(%rdi)
	movl	%r8d, 60(%rdi)
	popq	%rbx
	popq	%r12
	popq	%r13
	popq	%r14
	popq	%r15
	popq	%rbp
	retq
.Lfunc_end14:
	.size	"pie_book::core_state::RawCore::set", .Lfunc_end14-"pie_book::core_state::RawCore::set"

	.section	.rodata.cst16,"aM",@progbits,16
	.p2align	4, 0x0
.LCPI15_0:
	.quad	1
	.zero	8
	.section	".text.core::mem::replace_with::<#c61a209208d31057>","ax",@progbits
	.p2align	4
	.type	"core::mem::replace_with::<#c61a209208d31057>",@function
"core::mem::replace_with::<#c61a209208d31057>":
	pushq	%rbp
	pushq	%r15
	pushq	%r14
	pushq	%r13
	pushq	%r12
	pushq	%rbx
	subq	$392, %rsp
	movl	(%rsi), %ebx
	movq	(%rdx), %rax
	#APP
	#NO_APP
	movq	(%rax), %rax
	#APP
	#NO_APP
	testq	%rax, %rax
	je	.LBB15_2
	movl	$1, %r11d
	xorl	%r9d, %r9d
	xorl	%r10d, %r10d
	xorl	%r8d, %r8d
	xorl	%r12d, %r12d
	jmp	.LBB15_12
.LBB15_2:
	movq	(%rdx), %r8
	#APP
	#NO_APP
	xorl	%r9d, %r9d
	movl	$1, %r11d
	xorl	%eax, %eax
	lock		cmpxchgq	%r11, (%r8)
	#APP
	#NO_APP
	movl	$0, %r10d
	movl	$0, %r8d
	movl	$0, %r12d
	movl	$0, %r15d
	jne	.LBB15_13
	movq	8(%rdx), %rax
	movq	8(%rax), %r14
	cmpb	$1, (%rax)
	pxor	%xmm0, %xmm0
	movdqu	%xmm0, (%rax)
	jne	.LBB15_91
	movzbl	(%rcx), %eax
	movq	8(%rcx), %r13
	movq	16(%rcx), %r11
	movl	24(%rcx), %r9d
	movl	28(%rcx), %ebp
	movq	32(%rcx), %r12
	movq	56(%rcx), %r8
	movq	%r8, 384(%rsp)
	movdqu	40(%rcx), %xmm1
	movdqa	%xmm1, 368(%rsp)
	movw	$0, 16(%rsp)
	movb	$0, 18(%rsp)
	movq	$0, 152(%rsp)
	movl	$0, 159(%rsp)
	movdqa	%xmm0, 192(%rsp)
	movq	$0, 208(%rsp)
	movq	%r13, %rcx
	shrq	$60, %rcx
	jne	.LBB15_8
	movl	%eax, %r15d
	leaq	.LJTI15_0(%rip), %rax
	movslq	(%rax,%r15,4), %rcx
	addq	%rax, %rcx
	jmpq	*%rcx
.LBB15_6:
	movq	304(%r14), %rax
	cmpq	80(%r14), %rax
	jne	.LBB15_14
	movl	$3, %r10d
	jmp	.LBB15_9
.LBB15_8:
	xorl	%r10d, %r10d
.LBB15_9:
	xorl	%r8d, %r8d
.LBB15_10:
	movq	8(%rdx), %rcx
	movq	8(%rcx), %rax
	cmpb	$0, (%rcx)
	movq	$1, (%rcx)
	movq	%r14, 8(%rcx)
	jne	.LBB15_92
	movq	(%rdx), %rax
	#APP
	#NO_APP
	xorl	%r12d, %r12d
	xorl	%ecx, %ecx
	xchgq	%rcx, (%rax)
	#APP
	#NO_APP
	movl	$1, %r11d
	movl	$1, %r9d
.LBB15_12:
	xorl	%r15d, %r15d
.LBB15_13:
	movl	%ebx, (%rsi)
	movq	%r11, (%rdi)
	movq	%r9, 8(%rdi)
	movq	%r10, 16(%rdi)
	movq	%r8, 24(%rdi)
	movq	%r12, 32(%rdi)
	movq	%r15, 40(%rdi)
	addq	$392, %rsp
	popq	%rbx
	popq	%r12
	popq	%r13
	popq	%r14
	popq	%r15
	popq	%rbp
	retq
.LBB15_14:
	movq	%r9, 128(%rsp)
	movq	464(%r14), %rax
	movq	480(%r14), %rcx
	movq	%rax, %r8
	subq	%rcx, %r8
	movl	12(%r14), %r9d
	cmpq	%r9, %r8
	jb	.LBB15_17
	cmpb	$0, 72(%r14)
	je	.LBB15_29
	incq	%rcx
	movq	%rcx, 480(%r14)
.LBB15_17:
	movq	%rdx, 24(%rsp)
	movq	%rsi, 40(%rsp)
	movq	%rdi, 32(%rsp)
	subq	1232(%r14), %rax
	cmpq	1240(%r14), %rax
	jne	.LBB15_19
	movq	%r14, %rdi
	movq	%r13, 120(%rsp)
	movl	%ebp, %r13d
	movq	%r11, %rbp
	callq	"pie_book::book::Book::copy_running"
	movq	%rbp, %r11
	movl	%r13d, %ebp
	movq	120(%rsp), %r13
.LBB15_19:
	movw	$0, 20(%rsp)
	movb	$0, 22(%rsp)
	movq	$0, 168(%rsp)
	movl	$0, 175(%rsp)
	pxor	%xmm0, %xmm0
	movdqa	%xmm0, 224(%rsp)
	movq	$0, 240(%rsp)
	movdqa	%xmm0, 320(%rsp)
	movdqa	%xmm0, 336(%rsp)
	movdqa	%xmm0, 352(%rsp)
	movdqa	%xmm0, 48(%rsp)
	movdqa	%xmm0, 64(%rsp)
	movdqa	%xmm0, 80(%rsp)
	movdqa	%xmm0, 96(%rsp)
	leaq	.LJTI15_1(%rip), %rax
	movslq	(%rax,%r15,4), %rcx
	addq	%rax, %rcx
	jmpq	*%rcx
.LBB15_20:
	leaq	304(%r14), %r9
	movq	168(%r14), %rdi
	movq	272(%r14), %rcx
	cmpq	%rdi, %r13
	cmovaq	%r13, %rdi
	movq	296(%r14), %rsi
	movq	280(%r14), %r8
	cmpb	$0, 90(%r14)
	movq	%r11, 112(%rsp)
	movq	%rdi, 184(%rsp)
	jne	.LBB15_22
	cmpb	$0, 92(%r14)
	je	.LBB15_53
.LBB15_22:
	leaq	88(%r14), %rdi
	xorl	%edx, %edx
	cmpq	%rcx, %r8
	sete	%dl
	movq	%r13, (%rsp)
	movzbl	%bpl, %r8d
	movq	128(%rsp), %rcx
	movq	%r12, %r9
	callq	"pie_aqm::raw::RawController::arrive_out_of_line"
	leaq	304(%r14), %r9
.LBB15_23:
	movq	%rax, 120(%rsp)
	movzbl	%al, %r15d
	movq	%r9, %rdi
	movl	%r15d, %esi
	callq	"pie_book::tally::Tally::arrived"
	movq	%r15, %rdi
	movq	120(%rsp), %r15
	movq	112(%rsp), %rax
	movq	%rax, 272(%rsp)
	movq	128(%rsp), %rdx
	movl	%edx, 280(%rsp)
	movl	%ebp, 284(%rsp)
	movabsq	$12884901888, %rcx
	movq	%rcx, 264(%rsp)
	leal	-2(%rdi), %ecx
	cmpl	$3, %ecx
	movq	%rdx, %rcx
	jb	.LBB15_40
	leaq	264(%r14), %rsi
	cmpl	$1, %edi
	jne	.LBB15_38
	movq	%rax, 256(%rsp)
	movl	%ecx, 264(%rsp)
	leaq	288(%rsp), %rdi
	leaq	256(%rsp), %rdx
	movq	184(%rsp), %rcx
	movq	%rax, %r15
	callq	"pie_queue::queue::ByteQueue::admit"
	movq	128(%rsp), %rcx
	movq	%r15, %rax
	jmp	.LBB15_39
.LBB15_26:
	movq	104(%r14), %r8
	movq	168(%r14), %rax
	cmpq	%rax, %r13
	cmovaq	%r13, %rax
	addq	248(%r14), %r8
	movl	$2, %r10d
	cmpq	%r8, %rax
	jb	.LBB15_10
	jmp	.LBB15_6
.LBB15_27:
	leal	-65536(%r9), %eax
	cmpl	$-65535, %eax
	jae	.LBB15_6
	movl	$1, %r10d
	jmp	.LBB15_9
.LBB15_29:
	movl	$4, %r10d
	jmp	.LBB15_9
.LBB15_30:
	leaq	80(%r14), %rsi
	movq	%r11, 320(%rsp)
	movq	128(%rsp), %rax
	movl	%eax, 328(%rsp)
	movl	%ebp, 332(%rsp)
	movq	%r12, 336(%rsp)
	movdqa	368(%rsp), %xmm0
	movdqu	%xmm0, 344(%rsp)
	movq	384(%rsp), %rax
	movq	%rax, 360(%rsp)
	leaq	48(%rsp), %rdi
	leaq	320(%rsp), %r8
	movl	%ebx, %edx
	movq	%r13, %rcx
	callq	"pie_book::core_state::RawCore::set"
	movzbl	48(%rsp), %r11d
	movzbl	52(%rsp), %r15d
	movq	64(%rsp), %rax
	movq	80(%rsp), %r12
	jmp	.LBB15_41
.LBB15_31:
	movdqu	%xmm0, 88(%rsp)
	movq	$0, 104(%rsp)
	leaq	88(%r14), %rdi
	movq	296(%r14), %rsi
	movq	%r13, %rdx
	callq	"pie_aqm::controller::Controller::update"
	incq	304(%r14)
	incq	392(%r14)
	movq	424(%r14), %rcx
	cmpq	%rcx, %rax
	cmovaq	%rax, %rcx
	movq	%rcx, 424(%r14)
	movq	224(%r14), %rcx
	movq	240(%r14), %r12
	movw	$0, 53(%rsp)
	movb	$0, 55(%rsp)
	movw	$3, 48(%rsp)
	movw	%bx, 50(%rsp)
	movb	$0, 52(%rsp)
	movq	%r13, 56(%rsp)
	movq	%rax, 64(%rsp)
	movq	%rcx, 72(%rsp)
	movq	%r12, 80(%rsp)
	movb	$3, %r11b
	xorl	%r15d, %r15d
	jmp	.LBB15_41
.LBB15_32:
	movq	168(%r14), %rax
	cmpq	%rax, %r13
	cmovaq	%r13, %rax
	movq	112(%r14), %rcx
	movq	%rax, 168(%r14)
	movdqu	%xmm0, 184(%r14)
	movdqu	%xmm0, 200(%r14)
	movq	$0, 216(%r14)
	movdqu	%xmm0, 224(%r14)
	movq	%rcx, 240(%r14)
	movq	$0, 256(%r14)
	incq	304(%r14)
	incq	400(%r14)
	movw	$4, 48(%rsp)
	movw	%bx, 50(%rsp)
	movq	%r13, 56(%rsp)
	movdqa	%xmm0, 64(%rsp)
	movdqa	%xmm0, 80(%rsp)
	movdqa	%xmm0, 96(%rsp)
	movb	$4, %r11b
	xorl	%r12d, %r12d
	xorl	%eax, %eax
	xorl	%r15d, %r15d
	jmp	.LBB15_41
.LBB15_33:
	leaq	264(%r14), %rsi
	leaq	288(%rsp), %rdi
	callq	"pie_queue::queue::ByteQueue::take"
	cmpb	$1, 288(%rsp)
	jne	.LBB15_37
	movq	296(%rsp), %rax
	movsd	304(%rsp), %xmm2
	movl	304(%rsp), %r15d
	movq	312(%rsp), %rbp
	movq	168(%r14), %r12
	cmpq	%r12, %r13
	cmovaq	%r13, %r12
	movq	296(%r14), %rcx
	movq	%r12, 168(%r14)
	cmpb	$1, 176(%r14)
	movq	32(%rsp), %rdi
	movq	40(%rsp), %rsi
	movq	24(%rsp), %rdx
	jne	.LBB15_73
	movq	%rax, 112(%rsp)
	cmpb	$0, 89(%r14)
	je	.LBB15_58
	movq	%rcx, %rdi
	movq	%rbp, %rsi
	movq	%r12, %rdx
	movaps	%xmm2, 128(%rsp)
	callq	"pie_aqm::raw::wait"
	movaps	128(%rsp), %xmm2
	movq	24(%rsp), %rdx
	movq	40(%rsp), %rsi
	movq	32(%rsp), %rdi
	movq	%rax, 216(%r14)
	jmp	.LBB15_72
.LBB15_37:
	movq	168(%r14), %rax
	cmpq	%rax, %r13
	cmovaq	%r13, %rax
	movq	%rax, 168(%r14)
	incq	304(%r14)
	incq	384(%r14)
	movw	$2, 48(%rsp)
	movw	%bx, 50(%rsp)
	movl	$0, 52(%rsp)
	movq	%r13, 56(%rsp)
	pxor	%xmm0, %xmm0
	movdqa	%xmm0, 64(%rsp)
	movdqa	%xmm0, 80(%rsp)
	movdqa	%xmm0, 96(%rsp)
	movb	$2, %r11b
	xorl	%eax, %eax
	movq	32(%rsp), %rdi
	movq	40(%rsp), %rsi
	movq	24(%rsp), %rdx
	jmp	.LBB15_74
.LBB15_38:
	movq	%rax, %r15
	leaq	288(%rsp), %rdi
	leaq	272(%rsp), %rdx
	movq	184(%rsp), %rcx
	callq	"pie_queue::queue::ByteQueue::admit"
	movq	%r15, %rax
	movq	128(%rsp), %rcx
.LBB15_39:
	movq	120(%rsp), %r15
.LBB15_40:
	movw	$0, 48(%rsp)
	movw	%bx, 50(%rsp)
	movb	%r15b, 52(%rsp)
	movw	$0, 53(%rsp)
	movb	$0, 55(%rsp)
	movq	%r13, 56(%rsp)
	movq	%rax, 64(%rsp)
	movl	%ecx, 72(%rsp)
	movl	%ebp, 76(%rsp)
	movq	%r12, 80(%rsp)
	pxor	%xmm0, %xmm0
	movdqu	%xmm0, 88(%rsp)
	movq	$0, 104(%rsp)
	xorl	%r11d, %r11d
.LBB15_41:
	movq	32(%rsp), %rdi
	movq	40(%rsp), %rsi
	movq	24(%rsp), %rdx
.LBB15_42:
	movq	72(%rsp), %r8
	movzwl	49(%rsp), %ecx
	movw	%cx, 20(%rsp)
	movzbl	51(%rsp), %ecx
	movb	%cl, 22(%rsp)
	movq	53(%rsp), %rcx
	movq	%rcx, 168(%rsp)
	movl	60(%rsp), %ecx
	movl	%ecx, 175(%rsp)
	movups	88(%rsp), %xmm0
	movaps	%xmm0, 224(%rsp)
	movq	104(%rsp), %rcx
	movq	%rcx, 240(%rsp)
	movq	296(%r14), %rcx
	movq	416(%r14), %r9
	cmpq	%r9, %rcx
	cmovaq	%rcx, %r9
	movq	%r9, 416(%r14)
	movzbl	22(%rsp), %ecx
	movb	%cl, 18(%rsp)
	movzwl	20(%rsp), %ecx
	movw	%cx, 16(%rsp)
	movq	168(%rsp), %rcx
	movq	%rcx, 152(%rsp)
	movl	175(%rsp), %ecx
	movl	%ecx, 159(%rsp)
	movdqa	224(%rsp), %xmm0
	movdqa	%xmm0, 192(%rsp)
	movq	240(%rsp), %rcx
	movq	%rcx, 208(%rsp)
	movq	456(%r14), %r9
	movq	464(%r14), %rcx
	cmpq	%rcx, %r9
	jbe	.LBB15_44
	addq	472(%r14), %rcx
	xorl	%r10d, %r10d
	cmpq	%r9, %rcx
	cmovaeq	%r9, %r10
	subq	%r10, %rcx
	movq	448(%r14), %r9
	shlq	$6, %rcx
	movb	%r11b, (%r9,%rcx)
	movzwl	16(%rsp), %r10d
	movw	%r10w, 1(%r9,%rcx)
	movzbl	18(%rsp), %r10d
	movb	%r10b, 3(%r9,%rcx)
	movb	%r15b, 4(%r9,%rcx)
	movq	152(%rsp), %r10
	movq	%r10, 5(%r9,%rcx)
	movl	159(%rsp), %r10d
	movl	%r10d, 12(%r9,%rcx)
	movq	%rax, 16(%r9,%rcx)
	movq	%r8, 24(%r9,%rcx)
	movq	%r12, 32(%r9,%rcx)
	movdqa	192(%rsp), %xmm0
	movdqu	%xmm0, 40(%r9,%rcx)
	movq	208(%rsp), %r10
	movq	%r10, 56(%r9,%rcx)
	incq	464(%r14)
.LBB15_44:
	movzbl	%r11b, %r9d
	leaq	.LJTI15_2(%rip), %rcx
	movslq	(%rcx,%r9,4), %r9
	addq	%rcx, %r9
	jmpq	*%r9
.LBB15_45:
	movl	$8, %r9d
	jmp	.LBB15_49
.LBB15_46:
	movl	$5, %r9d
	jmp	.LBB15_49
.LBB15_47:
	movl	$7, %r9d
	jmp	.LBB15_50
.LBB15_48:
	movzbl	%r15b, %r9d
.LBB15_49:
	xorl	%r12d, %r12d
	xorl	%r8d, %r8d
	xorl	%eax, %eax
.LBB15_50:
	movq	%rax, %r10
	movq	304(%r14), %r15
	movq	8(%rdx), %rcx
	movq	8(%rcx), %rax
	cmpb	$0, (%rcx)
	movq	$1, (%rcx)
	movq	%r14, 8(%rcx)
	jne	.LBB15_92
	movq	(%rdx), %rax
	#APP
	#NO_APP
	xorl	%ecx, %ecx
	xchgq	%rcx, (%rax)
	xorl	%r11d, %r11d
	#APP
	#NO_APP
	jmp	.LBB15_13
.LBB15_52:
	movl	$6, %r9d
	xorl	%r12d, %r12d
	jmp	.LBB15_50
.LBB15_53:
	movq	128(%rsp), %r15
	leaq	(%rsi,%r15), %rdx
	movq	144(%r14), %rax
	cmpq	%rcx, %r8
	je	.LBB15_61
	cmpq	%rdx, %rax
	jb	.LBB15_61
	cmpb	$0, 176(%r14)
	je	.LBB15_64
	movq	256(%r14), %rcx
	cmpq	$0, 240(%r14)
	jne	.LBB15_86
	movq	%rsi, %rax
	shrq	%rax
	subq	%rax, %rsi
	cmpq	%rsi, 136(%r14)
	jae	.LBB15_86
	movq	96(%r14), %rax
	movq	224(%r14), %rsi
	movq	%rax, %rdx
	shrq	%rdx
	subq	%rdx, %rax
	cmpq	%rax, 232(%r14)
	jae	.LBB15_80
	movq	%rsi, %rax
	shrq	$12, %rax
	cmpq	$48828125, %rax
	jae	.LBB15_81
	jmp	.LBB15_86
.LBB15_58:
	movq	160(%r14), %rax
	cmpq	$65536, %rax
	movl	$65536, %r11d
	cmovbq	%rax, %r11
	cmpb	$1, 192(%r14)
	jne	.LBB15_71
	movq	208(%r14), %r8
	addq	%r15, %r8
	movq	$-1, %rax
	cmovaeq	%r8, %rax
	cmpq	%r11, %rax
	jae	.LBB15_68
	movq	%rax, 208(%r14)
	jmp	.LBB15_72
.LBB15_61:
	cmpq	%rdx, %rax
	movb	$4, %dl
	sbbb	$0, %dl
	movq	$0, 256(%r14)
	movq	%rdi, 168(%r14)
	cmpb	$0, 176(%r14)
	jne	.LBB15_62
	xorl	%ecx, %ecx
	jmp	.LBB15_65
.LBB15_64:
	movq	%rdi, 168(%r14)
	xorl	%edx, %edx
	movq	%r15, %rcx
.LBB15_65:
	addq	%rsi, %rcx
	leaq	(%rcx,%rcx,2), %rcx
	cmpq	%rcx, %rax
	jbe	.LBB15_67
.LBB15_62:
	movq	%rdx, %rax
	jmp	.LBB15_23
.LBB15_67:
	movdqu	%xmm0, 200(%r14)
	movdqu	%xmm0, 184(%r14)
	movq	$0, 216(%r14)
	movq	112(%r14), %rax
	movdqu	%xmm0, 224(%r14)
	movq	%rax, 240(%r14)
	movq	$0, 256(%r14)
	movb	$1, 176(%r14)
	movq	%rdx, %rax
	jmp	.LBB15_23
.LBB15_68:
	xorl	%eax, %eax
	movq	%r12, %rdx
	subq	200(%r14), %rdx
	cmovaeq	%rdx, %rax
	cmpq	$1, %rax
	adcq	$0, %rax
	movq	184(%r14), %r8
	testq	%r8, %r8
	je	.LBB15_70
	movl	$65536, %r9d
	subq	%r11, %r9
	mulq	%r11
	movq	%rdx, 128(%rsp)
	movq	%rax, %r10
	movq	%r8, %rax
	mulq	%r9
	movq	%rax, %r8
	addq	%r10, %r8
	movq	%rdx, %rax
	adcq	128(%rsp), %rax
	shldq	$48, %r8, %rax
.LBB15_70:
	movq	%rax, 184(%r14)
	movq	24(%rsp), %rdx
.LBB15_71:
	xorl	%eax, %eax
	xorl	%r8d, %r8d
	cmpq	%r11, %rcx
	cmovaeq	%r12, %rax
	setae	%r8b
	movq	%r8, 192(%r14)
	movq	%rax, 200(%r14)
	movq	$0, 208(%r14)
.LBB15_72:
	movq	112(%rsp), %rax
.LBB15_73:
	xorl	%ecx, %ecx
	subq	%rbp, %r12
	cmovaeq	%r12, %rcx
	incq	304(%r14)
	movdqu	368(%r14), %xmm0
	movdqa	.LCPI15_0(%rip), %xmm1
	pinsrq	$1, %r15, %xmm1
	paddq	%xmm0, %xmm1
	movdqu	%xmm1, 368(%r14)
	addq	%rcx, 432(%r14)
	adcq	$0, 440(%r14)
	movw	$1, 48(%rsp)
	movw	%bx, 50(%rsp)
	movl	$0, 52(%rsp)
	movq	%r13, 56(%rsp)
	movq	%rax, 64(%rsp)
	movlps	%xmm2, 72(%rsp)
	pxor	%xmm0, %xmm0
	movdqa	%xmm0, 80(%rsp)
	movdqa	%xmm0, 96(%rsp)
	movb	$1, %r11b
.LBB15_74:
	xorl	%r12d, %r12d
	xorl	%r15d, %r15d
	jmp	.LBB15_42
.LBB15_80:
	testq	%rsi, %rsi
	je	.LBB15_85
.LBB15_81:
	addq	%rsi, %rcx
	jae	.LBB15_83
.LBB15_82:
	testb	%bpl, %bpl
	setne	%al
	cmpq	152(%r14), %rsi
	setb	%cl
	andb	%al, %cl
	movb	$2, %al
	subb	%cl, %al
	xorl	%ecx, %ecx
	jmp	.LBB15_87
.LBB15_83:
	movq	%rcx, %rax
	shrq	$10, %rax
	cmpq	$830078125, %rax
	jb	.LBB15_86
	movabsq	$8499999999999, %rax
	cmpq	%rax, %rcx
	ja	.LBB15_82
	movabsq	$1000000000000, %rdx
	movq	%r12, %rax
	mulq	%rdx
	cmpq	%rsi, %rdx
	jb	.LBB15_82
	jmp	.LBB15_86
.LBB15_85:
	xorl	%ecx, %ecx
.LBB15_86:
	xorl	%eax, %eax
.LBB15_87:
	movq	%rcx, 256(%r14)
	movq	%rdi, 168(%r14)
	jmp	.LBB15_23
.LBB15_91:
	ud2
.LBB15_92:
	movq	%rax, %rdi
	callq	"pie_link::pie_link++kept_book++KeptBook+Destruct::drop"
	ud2
.Lfunc_end15:
	.size	"core::mem::replace_with::<#c61a209208d31057>", .Lfunc_end15-"core::mem::replace_with::<#c61a209208d31057>"
	.section	".rodata.core::mem::replace_with::<#c61a209208d31057>","a",@progbits
	.p2align	2, 0x0
.LJTI15_0:
	.long	.LBB15_27-.LJTI15_0
	.long	.LBB15_6-.LJTI15_0
	.long	.LBB15_26-.LJTI15_0
	.long	.LBB15_6-.LJTI15_0
	.long	.LBB15_6-.LJTI15_0
.LJTI15_1:
	.long	.LBB15_20-.LJTI15_1
	.long	.LBB15_33-.LJTI15_1
	.long	.LBB15_31-.LJTI15_1
	.long	.LBB15_32-.LJTI15_1
	.long	.LBB15_30-.LJTI15_1
.LJTI15_2:
	.long	.LBB15_48-.LJTI15_2
	.long	.LBB15_52-.LJTI15_2
	.long	.LBB15_46-.LJTI15_2
	.long	.LBB15_47-.LJTI15_2
	.long	.LBB15_45-.LJTI15_2
	.long	.LBB15_45-.LJTI15_2

	.section	".text.pie_record::long_row::LongRow::number","ax",@progbits
	.p2align	4
	.type	"pie_record::long_row::LongRow::number",@function
"pie_record::long_row::LongRow::number":
	pushq	%r15
	pushq	%r14
	pushq	%rbx
	subq	$48, %rsp
	movq	%rdi, %rbx
	xorps	%xmm0, %xmm0
	movaps	%xmm0, 16(%rsp)
	movaps	%xmm0, (%rsp)
	movq	$0, 32(%rsp)
	movl	$40, %ecx
	cmpq	$10000, %rsi
	jb	.LBB16_1
	.p2align	4
.LBB16_2:
	movabsq	$3777893186295716171, %rdx
	movq	%rsi, %rax
	mulq	%rdx
	shrq	$11, %rdx
	imull	$10000, %edx, %eax
	movl	%esi, %edi
	subl	%eax, %edi
	imull	$5243, %edi, %eax
	shrl	$19, %eax
	imull	$100, %eax, %r8d
	subl	%r8d, %edi
	movzwl	%di, %edi
	leaq	.Lstatic.17(%rip), %r8
	movzwl	(%r8,%rdi,2), %edi
	movw	%di, -2(%rsp,%rcx)
	movzwl	(%r8,%rax,2), %eax
	movw	%ax, -4(%rsp,%rcx)
	addq	$-4, %rcx
	cmpq	$99999999, %rsi
	movq	%rdx, %rsi
	ja	.LBB16_2
	cmpq	$99, %rdx
	ja	.LBB16_7
.LBB16_4:
	cmpq	$9, %rdx
	ja	.LBB16_6
	orb	$48, %dl
	movb	%dl, -1(%rsp,%rcx)
	decq	%rcx
	jmp	.LBB16_10
.LBB16_1:
	movq	%rsi, %rdx
	cmpq	$99, %rdx
	jbe	.LBB16_4
.LBB16_7:
	movl	%edx, %eax
	shrl	$2, %eax
	movzwl	%ax, %eax
	imull	$5243, %eax, %eax
	shrl	$17, %eax
	imull	$100, %eax, %esi
	movl	%edx, %edi
	subl	%esi, %edi
	movzwl	%di, %edi
	leaq	.Lstatic.17(%rip), %rsi
	movzwl	(%rsi,%rdi,2), %edi
	movw	%di, -2(%rsp,%rcx)
	cmpq	$999, %rdx
	ja	.LBB16_9
	orb	$48, %al
	movb	%al, -3(%rsp,%rcx)
	addq	$-3, %rcx
	jmp	.LBB16_10
.LBB16_6:
	leaq	.Lstatic.17(%rip), %rax
	movzwl	(%rax,%rdx,2), %eax
	movw	%ax, -2(%rsp,%rcx)
	addq	$-2, %rcx
	jmp	.LBB16_10
.LBB16_9:
	movzwl	%ax, %eax
	movzwl	(%rsi,%rax,2), %eax
	movw	%ax, -4(%rsp,%rcx)
	addq	$-4, %rcx
.LBB16_10:
	leaq	(%rsp,%rcx), %rsi
	movl	$40, %r14d
	subq	%rcx, %r14
	movq	1280(%rbx), %r15
	leaq	(%rbx,%r15), %rdi
	movq	%r14, %rdx
	callq	memcpy@PLT
	leaq	(%r15,%r14), %rax
	movb	$44, (%rbx,%rax)
	leaq	(%r15,%r14), %rax
	incq	%rax
	movq	%rax, 1280(%rbx)
	addq	$48, %rsp
	popq	%rbx
	popq	%r14
	popq	%r15
	retq
.Lfunc_end16:
	.size	"pie_record::long_row::LongRow::number", .Lfunc_end16-"pie_record::long_row::LongRow::number"

	.section	".text.pie_record::row_buffer::RowBuffer::prepend_number","ax",@progbits
	.p2align	4
	.type	"pie_record::row_buffer::RowBuffer::prepend_number",@function
"pie_record::row_buffer::RowBuffer::prepend_number":
	movq	%rsi, %rdx
	movq	512(%rdi), %rsi
	movb	$44, -1(%rdi,%rsi)
	cmpq	$10000, %rdx
	jb	.LBB17_2
	.p2align	4
.LBB17_1:
	movq	%rdx, %rcx
	movabsq	$3777893186295716171, %rdx
	movq	%rcx, %rax
	mulq	%rdx
	shrq	$11, %rdx
	imull	$10000, %edx, %eax
	movl	%ecx, %r8d
	subl	%eax, %r8d
	imull	$5243, %r8d, %eax
	shrl	$19, %eax
	imull	$100, %eax, %r9d
	subl	%r9d, %r8d
	movzwl	%r8w, %r8d
	leaq	.Lstatic.17(%rip), %r9
	movzwl	(%r9,%r8,2), %r8d
	movw	%r8w, -3(%rdi,%rsi)
	movzwl	(%r9,%rax,2), %eax
	movw	%ax, -5(%rdi,%rsi)
	addq	$-4, %rsi
	cmpq	$99999999, %rcx
	ja	.LBB17_1
.LBB17_2:
	decq	%rsi
	cmpq	$99, %rdx
	ja	.LBB17_6
	cmpq	$9, %rdx
	ja	.LBB17_5
	orb	$48, %dl
	movb	%dl, -1(%rdi,%rsi)
	decq	%rsi
	movq	%rsi, 512(%rdi)
	retq
.LBB17_6:
	movl	%edx, %eax
	shrl	$2, %eax
	movzwl	%ax, %eax
	imull	$5243, %eax, %eax
	shrl	$17, %eax
	imull	$100, %eax, %ecx
	movl	%edx, %r8d
	subl	%ecx, %r8d
	movzwl	%r8w, %r8d
	leaq	.Lstatic.17(%rip), %rcx
	movzwl	(%rcx,%r8,2), %r8d
	movw	%r8w, -2(%rdi,%rsi)
	cmpq	$999, %rdx
	ja	.LBB17_8
	orb	$48, %al
	movb	%al, -3(%rdi,%rsi)
	addq	$-3, %rsi
	movq	%rsi, 512(%rdi)
	retq
.LBB17_5:
	leaq	.Lstatic.17(%rip), %rax
	movzwl	(%rax,%rdx,2), %eax
	movw	%ax, -2(%rdi,%rsi)
	addq	$-2, %rsi
	movq	%rsi, 512(%rdi)
	retq
.LBB17_8:
	movzwl	%ax, %eax
	movzwl	(%rcx,%rax,2), %eax
	movw	%ax, -4(%rdi,%rsi)
	addq	$-4, %rsi
	movq	%rsi, 512(%rdi)
	retq
.Lfunc_end17:
	.size	"pie_record::row_buffer::RowBuffer::prepend_number", .Lfunc_end17-"pie_record::row_buffer::RowBuffer::prepend_number"

	.section	".text.pie_record::event::put_change","ax",@progbits
	.p2align	4
	.type	"pie_record::event::put_change",@function
"pie_record::event::put_change":
	pushq	%rbp
	pushq	%r14
	pushq	%rbx
	subq	$80, %rsp
	movq	%rdx, %r14
	movl	%esi, %ebp
	movq	%rdi, %rbx
	movq	64(%rcx), %rax
	movups	(%rcx), %xmm0
	movaps	%xmm0, (%rsp)
	movups	16(%rcx), %xmm0
	movaps	%xmm0, 16(%rsp)
	movups	32(%rcx), %xmm0
	movaps	%xmm0, 32(%rsp)
	movups	48(%rcx), %xmm0
	movaps	%xmm0, 48(%rsp)
	movq	%rax, 64(%rsp)
	movq	%rsp, %rsi
	movl	$9, %edx
	callq	"pie_record::put_field::put_numbers"
	movq	%rbx, %rdi
	movq	%r14, %rsi
	callq	"pie_record::row_buffer::RowBuffer::prepend_number"
	movzwl	%bp, %esi
	movq	%rbx, %rdi
	callq	"pie_record::row_buffer::RowBuffer::prepend_number"
	movq	512(%rbx), %rax
	leaq	-1(%rax), %rcx
	movq	%rcx, 512(%rbx)
	movb	$44, -1(%rbx,%rax)
	movq	512(%rbx), %rax
	leaq	-6(%rax), %rcx
	movq	%rcx, 512(%rbx)
	addq	%rbx, %rax
	addq	$-6, %rax
	leaq	.Lstatic.40(%rip), %rcx
	movq	%rax, %rdx
	subq	%rcx, %rdx
	cmpq	$5, %rdx
	ja	.LBB18_3
	movl	$1634886000, (%rax)
	movw	$29549, 4(%rax)
	jmp	.LBB18_2
.LBB18_3:
	movw	$29549, 4(%rax)
	movl	$1634886000, (%rax)
.LBB18_2:
	addq	$80, %rsp
	popq	%rbx
	popq	%r14
	popq	%rbp
	retq
.Lfunc_end18:
	.size	"pie_record::event::put_change", .Lfunc_end18-"pie_record::event::put_change"

	.section	".text.pie_record::put_field::put_numbers","ax",@progbits
	.p2align	4
	.type	"pie_record::put_field::put_numbers",@function
"pie_record::put_field::put_numbers":
	testq	%rdx, %rdx
	je	.LBB19_1
	pushq	%r14
	pushq	%rbx
	pushq	%rax
	leaq	8(%rsi), %rax
	decq	%rdx
	movq	%rdi, %rbx
	movq	%rsi, %r14
	movq	%rax, %rsi
	callq	"pie_record::put_field::put_numbers"
	movq	(%r14), %rsi
	movq	%rbx, %rdi
	addq	$8, %rsp
	popq	%rbx
	popq	%r14
	jmp	"pie_record::row_buffer::RowBuffer::prepend_number"
.LBB19_1:
	retq
.Lfunc_end19:
	.size	"pie_record::put_field::put_numbers", .Lfunc_end19-"pie_record::put_field::put_numbers"

	.section	.text.pie_link_close_excerpt,"ax",@progbits
	.globl	pie_link_close_excerpt
	.p2align	4
	.type	pie_link_close_excerpt,@function
pie_link_close_excerpt:
	pushq	%rbp
	pushq	%r15
	pushq	%r14
	pushq	%r12
	pushq	%rbx
	movq	%rdi, %rax
	movq	(%rdi), %rdi
	movq	$0, (%rax)
	testq	%rdi, %rdi
	je	.LBB20_1
	movq	416(%rdi), %r14
	movq	440(%rdi), %rbx
	movq	456(%rdi), %r15
	movq	432(%rdi), %r12
	callq	rattle_dealloc@PLT
	testq	%r12, %r12
	je	.LBB20_4
	movq	%r14, %rdi
	callq	rattle_dealloc@PLT
.LBB20_4:
	xorl	%ebp, %ebp
	testq	%r15, %r15
	je	.LBB20_6
	movq	%rbx, %rdi
	callq	rattle_dealloc@PLT
	jmp	.LBB20_6
.LBB20_1:
	movl	$122, %ebp
.LBB20_6:
	movl	%ebp, %eax
	popq	%rbx
	popq	%r12
	popq	%r14
	popq	%r15
	popq	%rbp
	retq
.Lfunc_end20:
	.size	pie_link_close_excerpt, .Lfunc_end20-pie_link_close_excerpt

	.section	.text.pie_link_close_port,"ax",@progbits
	.globl	pie_link_close_port
	.p2align	4
	.type	pie_link_close_port,@function
pie_link_close_port:
	pushq	%rbp
	pushq	%r15
	pushq	%r14
	pushq	%rbx
	subq	$72, %rsp
	movq	%rdi, %rax
	movq	(%rdi), %rdi
	movq	$0, (%rax)
	testq	%rdi, %rdi
	je	.LBB21_1
	movq	(%rdi), %r14
	movq	16(%rdi), %rbx
	movq	32(%rdi), %r15
	callq	rattle_dealloc@PLT
	xorps	%xmm0, %xmm0
	movaps	%xmm0, 48(%rsp)
	movaps	%xmm0, 32(%rsp)
	movaps	%xmm0, 16(%rsp)
	movaps	%xmm0, (%rsp)
	movq	$0, 64(%rsp)
	#APP
	#NO_APP
	lock		decq	(%r14)
	#APP
	#NO_APP
	jne	.LBB21_4
	movq	72(%r14), %rax
	movq	%rax, 64(%rsp)
	movups	8(%r14), %xmm0
	movups	24(%r14), %xmm1
	movups	40(%r14), %xmm2
	movups	56(%r14), %xmm3
	movaps	%xmm3, 48(%rsp)
	movaps	%xmm2, 32(%rsp)
	movaps	%xmm1, 16(%rsp)
	movaps	%xmm0, (%rsp)
	movq	%r14, %rdi
	callq	rattle_dealloc@PLT
	movq	%rsp, %rdi
	callq	"atomic_table::owned::Table::drop::<#1bc90b9fb1d10aae>"
.LBB21_4:
	xorl	%ebp, %ebp
	testq	%r15, %r15
	je	.LBB21_6
	movq	%rbx, %rdi
	callq	rattle_dealloc@PLT
	jmp	.LBB21_6
.LBB21_1:
	movl	$122, %ebp
.LBB21_6:
	movl	%ebp, %eax
	addq	$72, %rsp
	popq	%rbx
	popq	%r14
	popq	%r15
	popq	%rbp
	retq
.Lfunc_end21:
	.size	pie_link_close_port, .Lfunc_end21-pie_link_close_port

	.section	.text.pie_link_gather_ports,"ax",@progbits
	.globl	pie_link_gather_ports
	.p2align	4
	.type	pie_link_gather_ports,@function
pie_link_gather_ports:
	pushq	%rbp
	pushq	%r15
	pushq	%r14
	pushq	%r13
	pushq	%r12
	pushq	%rbx
	subq	$88, %rsp
	movq	(%rdi), %r13
	movq	$0, (%rdi)
	movl	$122, %eax
	testq	%r13, %r13
	je	.LBB22_31
	movq	%rsi, %rbx
	movq	(%rsi), %r14
	movq	$0, (%rsi)
	testq	%r14, %r14
	je	.LBB22_25
	movzwl	10(%r13), %eax
	cmpw	8(%r14), %ax
	je	.LBB22_5
	movzwl	10(%r14), %eax
	cmpw	8(%r13), %ax
	jne	.LBB22_4
.LBB22_5:
	movq	%rdi, 72(%rsp)
	movq	(%r14), %r12
	movl	8(%r14), %ebp
	movq	16(%r14), %rax
	movq	%rax, 80(%rsp)
	movq	32(%r14), %r15
	movq	%r14, %rdi
	callq	rattle_dealloc@PLT
	xorps	%xmm0, %xmm0
	movaps	%xmm0, 48(%rsp)
	movaps	%xmm0, 32(%rsp)
	movaps	%xmm0, 16(%rsp)
	movaps	%xmm0, (%rsp)
	movq	$0, 64(%rsp)
	#APP
	#NO_APP
	lock		decq	(%r12)
	#APP
	#NO_APP
	jne	.LBB22_7
	movq	72(%r12), %rax
	movq	%rax, 64(%rsp)
	movups	8(%r12), %xmm0
	movups	24(%r12), %xmm1
	movups	40(%r12), %xmm2
	movups	56(%r12), %xmm3
	movaps	%xmm3, 48(%rsp)
	movaps	%xmm2, 32(%rsp)
	movaps	%xmm1, 16(%rsp)
	movaps	%xmm0, (%rsp)
	movq	%r12, %rdi
	callq	rattle_dealloc@PLT
	movq	%rsp, %rdi
	callq	"atomic_table::owned::Table::drop::<#1bc90b9fb1d10aae>"
.LBB22_7:
	testq	%r15, %r15
	je	.LBB22_9
	movq	80(%rsp), %rdi
	callq	rattle_dealloc@PLT
.LBB22_9:
	movl	%ebp, %eax
	shrl	$16, %eax
	movq	(%r13), %rcx
	cmpw	%bp, 10(%r13)
	je	.LBB22_11
	cmpw	%ax, 8(%r13)
	jne	.LBB22_12
.LBB22_11:
	movq	8(%rcx), %rdx
	#APP
	#NO_APP
	movq	(%rdx), %rdx
	#APP
	#NO_APP
	movq	8(%rcx), %rcx
	#APP
	#NO_APP
	movq	(%rcx), %rcx
	#APP
	#NO_APP
	movzwl	8(%r13), %ecx
	cmpw	%cx, %bp
	cmovael	%ecx, %ebp
	movw	%bp, 8(%r13)
	movzwl	10(%r13), %ecx
	cmpw	%cx, %ax
	cmovbel	%ecx, %eax
	movw	%ax, 10(%r13)
.LBB22_12:
	movb	$1, %bpl
	xorl	%r14d, %r14d
	movq	72(%rsp), %rdi
	movq	(%rdi), %rax
	movq	%r13, (%rdi)
	testq	%rax, %rax
	jne	.LBB22_14
	jmp	.LBB22_18
.LBB22_25:
	movq	(%rdi), %rcx
	movq	%r13, (%rdi)
	testq	%rcx, %rcx
	je	.LBB22_31
	movq	(%rcx), %r14
	movq	16(%rcx), %rbx
	movq	32(%rcx), %r15
	movq	%rcx, %rdi
	callq	rattle_dealloc@PLT
	xorps	%xmm0, %xmm0
	movaps	%xmm0, 48(%rsp)
	movaps	%xmm0, 32(%rsp)
	movaps	%xmm0, 16(%rsp)
	movaps	%xmm0, (%rsp)
	movq	$0, 64(%rsp)
	#APP
	#NO_APP
	lock		decq	(%r14)
	#APP
	#NO_APP
	jne	.LBB22_28
	movq	72(%r14), %rax
	movq	%rax, 64(%rsp)
	movups	8(%r14), %xmm0
	movups	24(%r14), %xmm1
	movups	40(%r14), %xmm2
	movups	56(%r14), %xmm3
	movaps	%xmm3, 48(%rsp)
	movaps	%xmm2, 32(%rsp)
	movaps	%xmm1, 16(%rsp)
	movaps	%xmm0, (%rsp)
	movq	%r14, %rdi
	callq	rattle_dealloc@PLT
	movq	%rsp, %rdi
	callq	"atomic_table::owned::Table::drop::<#1bc90b9fb1d10aae>"
.LBB22_28:
	testq	%r15, %r15
	je	.LBB22_30
	movq	%rbx, %rdi
	callq	rattle_dealloc@PLT
.LBB22_30:
	movl	$122, %eax
	jmp	.LBB22_31
.LBB22_4:
	xorl	%ebp, %ebp
	movq	(%rdi), %rax
	movq	%r13, (%rdi)
	testq	%rax, %rax
	je	.LBB22_18
.LBB22_14:
	movq	(%rax), %r12
	movq	16(%rax), %r15
	movq	32(%rax), %r13
	movq	%rax, %rdi
	callq	rattle_dealloc@PLT
	xorps	%xmm0, %xmm0
	movaps	%xmm0, 48(%rsp)
	movaps	%xmm0, 32(%rsp)
	movaps	%xmm0, 16(%rsp)
	movaps	%xmm0, (%rsp)
	movq	$0, 64(%rsp)
	#APP
	#NO_APP
	lock		decq	(%r12)
	#APP
	#NO_APP
	jne	.LBB22_16
	movq	72(%r12), %rax
	movq	%rax, 64(%rsp)
	movups	8(%r12), %xmm0
	movups	24(%r12), %xmm1
	movups	40(%r12), %xmm2
	movups	56(%r12), %xmm3
	movaps	%xmm3, 48(%rsp)
	movaps	%xmm2, 32(%rsp)
	movaps	%xmm1, 16(%rsp)
	movaps	%xmm0, (%rsp)
	movq	%r12, %rdi
	callq	rattle_dealloc@PLT
	movq	%rsp, %rdi
	callq	"atomic_table::owned::Table::drop::<#1bc90b9fb1d10aae>"
.LBB22_16:
	testq	%r13, %r13
	je	.LBB22_18
	movq	%r15, %rdi
	callq	rattle_dealloc@PLT
.LBB22_18:
	xorl	%eax, %eax
	testb	%bpl, %bpl
	jne	.LBB22_31
	movq	(%rbx), %rdi
	movq	%r14, (%rbx)
	movl	$126, %eax
	testq	%rdi, %rdi
	je	.LBB22_31
	movq	(%rdi), %r14
	movq	16(%rdi), %rbx
	movq	32(%rdi), %r15
	callq	rattle_dealloc@PLT
	xorps	%xmm0, %xmm0
	movaps	%xmm0, 48(%rsp)
	movaps	%xmm0, 32(%rsp)
	movaps	%xmm0, 16(%rsp)
	movaps	%xmm0, (%rsp)
	movq	$0, 64(%rsp)
	#APP
	#NO_APP
	lock		decq	(%r14)
	#APP
	#NO_APP
	jne	.LBB22_22
	movq	72(%r14), %rax
	movq	%rax, 64(%rsp)
	movups	8(%r14), %xmm0
	movups	24(%r14), %xmm1
	movups	40(%r14), %xmm2
	movups	56(%r14), %xmm3
	movaps	%xmm3, 48(%rsp)
	movaps	%xmm2, 32(%rsp)
	movaps	%xmm1, 16(%rsp)
	movaps	%xmm0, (%rsp)
	movq	%r14, %rdi
	callq	rattle_dealloc@PLT
	movq	%rsp, %rdi
	callq	"atomic_table::owned::Table::drop::<#1bc90b9fb1d10aae>"
.LBB22_22:
	testq	%r15, %r15
	je	.LBB22_24
	movq	%rbx, %rdi
	callq	rattle_dealloc@PLT
.LBB22_24:
	movl	$126, %eax
.LBB22_31:
	addq	$88, %rsp
	popq	%rbx
	popq	%r12
	popq	%r13
	popq	%r14
	popq	%r15
	popq	%rbp
	retq
.Lfunc_end22:
	.size	pie_link_gather_ports, .Lfunc_end22-pie_link_gather_ports

	.section	.text.pie_link_open_port,"ax",@progbits
	.globl	pie_link_open_port
	.p2align	4
	.type	pie_link_open_port,@function
pie_link_open_port:
	pushq	%rbp
	pushq	%r15
	pushq	%r14
	pushq	%r13
	pushq	%r12
	pushq	%rbx
	subq	$3072, %rsp
	movq	$0, (%rsp)
	subq	$3072, %rsp
	movq	$0, (%rsp)
	subq	$888, %rsp
	movq	(%rdx), %rax
	movq	$0, (%rdx)
	testq	%rax, %rax
	je	.LBB23_2
	movq	%rax, (%rdx)
	movl	$127, %eax
	jmp	.LBB23_43
.LBB23_2:
	movl	%esi, %ebx
	movq	%rdi, %rsi
	movl	%ebx, 44(%rsp)
	movq	%rdx, 592(%rsp)
	leaq	600(%rsp), %rdi
	callq	"pie_abi::opening::checked"
	cmpb	$0, 600(%rsp)
	je	.LBB23_3
	movl	604(%rsp), %eax
.LBB23_43:
	addq	$7032, %rsp
	popq	%rbx
	popq	%r12
	popq	%r13
	popq	%r14
	popq	%r15
	popq	%rbp
	retq
.LBB23_3:
	cmpw	$0, 44(%rsp)
	je	.LBB23_4
	movq	608(%rsp), %r12
	movl	616(%rsp), %r15d
	movl	620(%rsp), %ebx
	movq	624(%rsp), %r14
	movl	632(%rsp), %eax
	movq	%rax, 16(%rsp)
	movzwl	636(%rsp), %r13d
	movzwl	638(%rsp), %eax
	movw	%ax, 48(%rsp)
	movq	640(%rsp), %rax
	movq	%rax, 560(%rsp)
	movq	648(%rsp), %rax
	movq	%rax, 568(%rsp)
	movq	656(%rsp), %rax
	movq	%rax, 24(%rsp)
	movq	664(%rsp), %rax
	movq	%rax, 56(%rsp)
	movl	672(%rsp), %eax
	movq	%rax, 576(%rsp)
	movl	676(%rsp), %eax
	movq	%rax, 584(%rsp)
	movzbl	680(%rsp), %eax
	movb	%al, 14(%rsp)
	movzbl	681(%rsp), %eax
	movb	%al, 15(%rsp)
	movzbl	687(%rsp), %eax
	movb	%al, 32(%rsp)
	leaq	6476(%rsp), %rdi
	movl	$278, %edx
	xorl	%esi, %esi
	callq	memset@PLT
	xorps	%xmm0, %xmm0
	movaps	%xmm0, 208(%rsp)
	movq	$0, 224(%rsp)
	movaps	%xmm0, 1568(%rsp)
	movaps	%xmm0, 1584(%rsp)
	movaps	%xmm0, 1600(%rsp)
	movaps	%xmm0, 1616(%rsp)
	movaps	%xmm0, 1632(%rsp)
	movaps	%xmm0, 1648(%rsp)
	movaps	%xmm0, 1664(%rsp)
	movaps	%xmm0, 1680(%rsp)
	movaps	%xmm0, 1696(%rsp)
	movaps	%xmm0, 688(%rsp)
	movaps	%xmm0, 4384(%rsp)
	movaps	%xmm0, 4400(%rsp)
	movaps	%xmm0, 4416(%rsp)
	movaps	%xmm0, 4432(%rsp)
	movaps	%xmm0, 4448(%rsp)
	movaps	%xmm0, 4464(%rsp)
	movaps	%xmm0, 4480(%rsp)
	movaps	%xmm0, 4496(%rsp)
	movaps	%xmm0, 4512(%rsp)
	movaps	%xmm0, 4528(%rsp)
	movaps	%xmm0, 4544(%rsp)
	movaps	%xmm0, 4560(%rsp)
	movaps	%xmm0, 176(%rsp)
	movq	$0, 192(%rsp)
	movaps	%xmm0, 1424(%rsp)
	movaps	%xmm0, 1440(%rsp)
	movaps	%xmm0, 1456(%rsp)
	movaps	%xmm0, 1472(%rsp)
	movaps	%xmm0, 1488(%rsp)
	movaps	%xmm0, 1504(%rsp)
	movaps	%xmm0, 1520(%rsp)
	movaps	%xmm0, 1536(%rsp)
	movaps	%xmm0, 1552(%rsp)
	movaps	%xmm0, 3008(%rsp)
	movaps	%xmm0, 3024(%rsp)
	movaps	%xmm0, 3040(%rsp)
	movaps	%xmm0, 3056(%rsp)
	movaps	%xmm0, 3072(%rsp)
	movaps	%xmm0, 3088(%rsp)
	movaps	%xmm0, 3104(%rsp)
	movaps	%xmm0, 3120(%rsp)
	movaps	%xmm0, 3136(%rsp)
	movaps	%xmm0, 3152(%rsp)
	movaps	%xmm0, 3168(%rsp)
	movq	$0, 3184(%rsp)
	movaps	%xmm0, 144(%rsp)
	movq	$0, 160(%rsp)
	movaps	%xmm0, 1408(%rsp)
	movaps	%xmm0, 1392(%rsp)
	movaps	%xmm0, 1376(%rsp)
	movaps	%xmm0, 1360(%rsp)
	movaps	%xmm0, 1344(%rsp)
	movaps	%xmm0, 1328(%rsp)
	movaps	%xmm0, 1312(%rsp)
	movaps	%xmm0, 1296(%rsp)
	movaps	%xmm0, 1280(%rsp)
	leaq	6754(%rsp), %rdi
	movl	$278, %edx
	xorl	%esi, %esi
	callq	memset@PLT
	xorps	%xmm0, %xmm0
	movaps	%xmm0, 304(%rsp)
	movq	$0, 320(%rsp)
	movaps	%xmm0, 2000(%rsp)
	movaps	%xmm0, 2016(%rsp)
	movaps	%xmm0, 2032(%rsp)
	movaps	%xmm0, 2048(%rsp)
	movaps	%xmm0, 2064(%rsp)
	movaps	%xmm0, 2080(%rsp)
	movaps	%xmm0, 2096(%rsp)
	movaps	%xmm0, 2112(%rsp)
	movaps	%xmm0, 2128(%rsp)
	movaps	%xmm0, 704(%rsp)
	movaps	%xmm0, 4576(%rsp)
	movaps	%xmm0, 4592(%rsp)
	movaps	%xmm0, 4608(%rsp)
	movaps	%xmm0, 4624(%rsp)
	movaps	%xmm0, 4640(%rsp)
	movaps	%xmm0, 4656(%rsp)
	movaps	%xmm0, 4672(%rsp)
	movaps	%xmm0, 4688(%rsp)
	movaps	%xmm0, 4704(%rsp)
	movaps	%xmm0, 4720(%rsp)
	movaps	%xmm0, 4736(%rsp)
	movaps	%xmm0, 4752(%rsp)
	movaps	%xmm0, 272(%rsp)
	movq	$0, 288(%rsp)
	movaps	%xmm0, 1856(%rsp)
	movaps	%xmm0, 1872(%rsp)
	movaps	%xmm0, 1888(%rsp)
	movaps	%xmm0, 1904(%rsp)
	movaps	%xmm0, 1920(%rsp)
	movaps	%xmm0, 1936(%rsp)
	movaps	%xmm0, 1952(%rsp)
	movaps	%xmm0, 1968(%rsp)
	movaps	%xmm0, 1984(%rsp)
	movaps	%xmm0, 3200(%rsp)
	movaps	%xmm0, 3216(%rsp)
	movaps	%xmm0, 3232(%rsp)
	movaps	%xmm0, 3248(%rsp)
	movaps	%xmm0, 3264(%rsp)
	movaps	%xmm0, 3280(%rsp)
	movaps	%xmm0, 3296(%rsp)
	movaps	%xmm0, 3312(%rsp)
	movaps	%xmm0, 3328(%rsp)
	movaps	%xmm0, 3344(%rsp)
	movaps	%xmm0, 3360(%rsp)
	movq	$0, 3376(%rsp)
	movaps	%xmm0, 240(%rsp)
	movq	$0, 256(%rsp)
	movaps	%xmm0, 1840(%rsp)
	movaps	%xmm0, 1824(%rsp)
	movaps	%xmm0, 1808(%rsp)
	movaps	%xmm0, 1792(%rsp)
	movaps	%xmm0, 1776(%rsp)
	movaps	%xmm0, 1760(%rsp)
	movaps	%xmm0, 1744(%rsp)
	movaps	%xmm0, 1728(%rsp)
	movaps	%xmm0, 1712(%rsp)
	leal	-1(%r15), %eax
	cmpl	$1048576, %eax
	setb	%al
	leal	-1(%rbx), %ecx
	cmpl	$1048576, %ecx
	setb	%cl
	andb	%al, %cl
	leaq	-1(%r14), %rax
	shrq	$47, %rax
	sete	%al
	andb	%cl, %al
	movq	%r12, %rcx
	shrq	$60, %rcx
	sete	%cl
	andb	%al, %cl
	cmpb	$1, %cl
	jne	.LBB23_6
	movq	%rbx, %rbp
	leaq	(,%r15,8), %rax
	leaq	(%rax,%rax,2), %rdi
	movl	$8, %esi
	callq	rattle_alloc@PLT
	testb	$1, %al
	je	.LBB23_8
	movzwl	%r13w, %r13d
	movq	%rdx, 552(%rsp)
	movzwl	48(%rsp), %ebx
	leaq	682(%rsp), %rcx
	leaq	1(%r13), %rax
	movq	%rax, 48(%rsp)
	movzbl	4(%rcx), %eax
	movb	%al, 925(%rsp)
	movl	(%rcx), %eax
	movl	%eax, 921(%rsp)
	xorps	%xmm0, %xmm0
	movaps	%xmm0, 3968(%rsp)
	movaps	%xmm0, 3984(%rsp)
	movaps	%xmm0, 4000(%rsp)
	movaps	%xmm0, 4016(%rsp)
	movaps	%xmm0, 4032(%rsp)
	movaps	%xmm0, 4048(%rsp)
	movaps	%xmm0, 4064(%rsp)
	movaps	%xmm0, 4080(%rsp)
	movaps	%xmm0, 4096(%rsp)
	movaps	%xmm0, 4112(%rsp)
	movaps	%xmm0, 4128(%rsp)
	movaps	%xmm0, 4144(%rsp)
	movq	$0, 4158(%rsp)
	movaps	%xmm0, 464(%rsp)
	movq	$0, 480(%rsp)
	movaps	%xmm0, 2704(%rsp)
	movaps	%xmm0, 2688(%rsp)
	movaps	%xmm0, 2672(%rsp)
	movaps	%xmm0, 2656(%rsp)
	movaps	%xmm0, 2640(%rsp)
	movaps	%xmm0, 2624(%rsp)
	movaps	%xmm0, 2608(%rsp)
	movaps	%xmm0, 2592(%rsp)
	movaps	%xmm0, 2576(%rsp)
	movaps	%xmm0, 3744(%rsp)
	movaps	%xmm0, 3728(%rsp)
	movaps	%xmm0, 3712(%rsp)
	movaps	%xmm0, 3696(%rsp)
	movaps	%xmm0, 3680(%rsp)
	movaps	%xmm0, 3664(%rsp)
	movaps	%xmm0, 3648(%rsp)
	movaps	%xmm0, 3632(%rsp)
	movaps	%xmm0, 3616(%rsp)
	movaps	%xmm0, 3600(%rsp)
	movaps	%xmm0, 3584(%rsp)
	movq	$0, 3760(%rsp)
	movaps	%xmm0, 432(%rsp)
	movq	$0, 448(%rsp)
	movaps	%xmm0, 2560(%rsp)
	movaps	%xmm0, 2544(%rsp)
	movaps	%xmm0, 2528(%rsp)
	movaps	%xmm0, 2512(%rsp)
	movaps	%xmm0, 2496(%rsp)
	movaps	%xmm0, 2480(%rsp)
	movaps	%xmm0, 2464(%rsp)
	movaps	%xmm0, 2448(%rsp)
	movaps	%xmm0, 2432(%rsp)
	movaps	%xmm0, 736(%rsp)
	leaq	6192(%rsp), %rdi
	movl	$278, %edx
	xorl	%esi, %esi
	callq	memset@PLT
	xorps	%xmm0, %xmm0
	movaps	%xmm0, 400(%rsp)
	movq	$0, 416(%rsp)
	movaps	%xmm0, 768(%rsp)
	movaps	%xmm0, 784(%rsp)
	movaps	%xmm0, 800(%rsp)
	movaps	%xmm0, 816(%rsp)
	movaps	%xmm0, 832(%rsp)
	movaps	%xmm0, 848(%rsp)
	movaps	%xmm0, 864(%rsp)
	movaps	%xmm0, 880(%rsp)
	movaps	%xmm0, 896(%rsp)
	movaps	%xmm0, 720(%rsp)
	movaps	%xmm0, 4960(%rsp)
	movaps	%xmm0, 4976(%rsp)
	movaps	%xmm0, 4992(%rsp)
	movaps	%xmm0, 5008(%rsp)
	movaps	%xmm0, 5024(%rsp)
	movaps	%xmm0, 5040(%rsp)
	movaps	%xmm0, 5056(%rsp)
	movaps	%xmm0, 5072(%rsp)
	movaps	%xmm0, 5088(%rsp)
	movaps	%xmm0, 5104(%rsp)
	movaps	%xmm0, 5120(%rsp)
	movaps	%xmm0, 5136(%rsp)
	movaps	%xmm0, 368(%rsp)
	movq	$0, 384(%rsp)
	movaps	%xmm0, 2288(%rsp)
	movaps	%xmm0, 2304(%rsp)
	movaps	%xmm0, 2320(%rsp)
	movaps	%xmm0, 2336(%rsp)
	movaps	%xmm0, 2352(%rsp)
	movaps	%xmm0, 2368(%rsp)
	movaps	%xmm0, 2384(%rsp)
	movaps	%xmm0, 2400(%rsp)
	movaps	%xmm0, 2416(%rsp)
	movaps	%xmm0, 3392(%rsp)
	movaps	%xmm0, 3408(%rsp)
	movaps	%xmm0, 3424(%rsp)
	movaps	%xmm0, 3440(%rsp)
	movaps	%xmm0, 3456(%rsp)
	movaps	%xmm0, 3472(%rsp)
	movaps	%xmm0, 3488(%rsp)
	movaps	%xmm0, 3504(%rsp)
	movaps	%xmm0, 3520(%rsp)
	movaps	%xmm0, 3536(%rsp)
	movaps	%xmm0, 3552(%rsp)
	movq	$0, 3568(%rsp)
	movaps	%xmm0, 336(%rsp)
	movq	$0, 352(%rsp)
	movaps	%xmm0, 2272(%rsp)
	movaps	%xmm0, 2256(%rsp)
	movaps	%xmm0, 2240(%rsp)
	movaps	%xmm0, 2224(%rsp)
	movaps	%xmm0, 2208(%rsp)
	movaps	%xmm0, 2192(%rsp)
	movaps	%xmm0, 2176(%rsp)
	movaps	%xmm0, 2160(%rsp)
	movaps	%xmm0, 2144(%rsp)
	leaq	5920(%rsp), %rdi
	movl	$264, %edx
	xorl	%esi, %esi
	callq	memset@PLT
	movq	%r12, 64(%rsp)
	movl	%r15d, 72(%rsp)
	movl	%ebp, 76(%rsp)
	movq	%r14, 80(%rsp)
	movq	16(%rsp), %rax
	movl	%eax, 88(%rsp)
	movw	%r13w, 92(%rsp)
	movq	%rbp, %r13
	movq	%r14, 912(%rsp)
	movw	%bx, 94(%rsp)
	movq	560(%rsp), %rcx
	movq	%rcx, 96(%rsp)
	movzbl	15(%rsp), %esi
	movb	%sil, 920(%rsp)
	movw	$0, 926(%rsp)
	movq	%rcx, 928(%rsp)
	movq	568(%rsp), %rcx
	movq	%rcx, 104(%rsp)
	movq	%rcx, 936(%rsp)
	movq	24(%rsp), %rcx
	movq	%rcx, 112(%rsp)
	movq	56(%rsp), %rdx
	movq	%rdx, 120(%rsp)
	movq	576(%rsp), %rdi
	movl	%edi, 128(%rsp)
	movq	%rcx, 944(%rsp)
	movq	%rdi, 952(%rsp)
	movq	584(%rsp), %rdi
	movl	%edi, 132(%rsp)
	movq	%rdi, 960(%rsp)
	movq	%rbx, 968(%rsp)
	movq	552(%rsp), %rbx
	movq	%rax, 976(%rsp)
	movq	%rdx, 984(%rsp)
	movzbl	14(%rsp), %eax
	movb	%al, 136(%rsp)
	testb	%sil, %sil
	movb	%sil, 137(%rsp)
	movq	48(%rsp), %rax
	movq	%rax, 992(%rsp)
	leaq	682(%rsp), %rdx
	movl	(%rdx), %eax
	movq	%r12, 1000(%rsp)
	sete	1008(%rsp)
	movl	%eax, 138(%rsp)
	xorps	%xmm0, %xmm0
	movups	%xmm0, 1056(%rsp)
	movups	%xmm0, 1041(%rsp)
	movups	%xmm0, 1025(%rsp)
	movups	%xmm0, 1009(%rsp)
	movq	%rcx, 1072(%rsp)
	movq	%r12, 1080(%rsp)
	movq	$0, 1088(%rsp)
	cmpl	%r13d, %r15d
	cmoval	%r15d, %r13d
	movq	%rbx, 1096(%rsp)
	movq	%r15, 1104(%rsp)
	movzbl	4(%rdx), %eax
	movb	%al, 142(%rsp)
	movzbl	32(%rsp), %eax
	movb	%al, 143(%rsp)
	movaps	%xmm0, 4768(%rsp)
	movaps	%xmm0, 4784(%rsp)
	movaps	%xmm0, 4800(%rsp)
	movaps	%xmm0, 4816(%rsp)
	movaps	%xmm0, 4832(%rsp)
	movaps	%xmm0, 4848(%rsp)
	movaps	%xmm0, 4864(%rsp)
	movaps	%xmm0, 4880(%rsp)
	movaps	%xmm0, 4896(%rsp)
	movaps	%xmm0, 4912(%rsp)
	movaps	%xmm0, 4928(%rsp)
	movaps	%xmm0, 4944(%rsp)
	movups	%xmm0, 1112(%rsp)
	movups	%xmm0, 1128(%rsp)
	movups	%xmm0, 1144(%rsp)
	movups	%xmm0, 1160(%rsp)
	movups	%xmm0, 1176(%rsp)
	movups	%xmm0, 1192(%rsp)
	movups	%xmm0, 1208(%rsp)
	movups	%xmm0, 1224(%rsp)
	movups	%xmm0, 1240(%rsp)
	movups	%xmm0, 1256(%rsp)
	movq	$0, 1272(%rsp)
	leaq	5152(%rsp), %r15
	movl	$384, %edx
	movq	%r15, %rdi
	xorl	%esi, %esi
	callq	memset@PLT
	leaq	5536(%rsp), %rdi
	movl	$384, %edx
	xorl	%esi, %esi
	callq	memset@PLT
	xorps	%xmm0, %xmm0
	movaps	%xmm0, 4176(%rsp)
	movaps	%xmm0, 4192(%rsp)
	movaps	%xmm0, 4208(%rsp)
	movaps	%xmm0, 4224(%rsp)
	movaps	%xmm0, 4240(%rsp)
	movaps	%xmm0, 4256(%rsp)
	movaps	%xmm0, 4272(%rsp)
	movaps	%xmm0, 4288(%rsp)
	movaps	%xmm0, 4304(%rsp)
	movaps	%xmm0, 4320(%rsp)
	movaps	%xmm0, 4336(%rsp)
	movaps	%xmm0, 4352(%rsp)
	movq	$0, 4366(%rsp)
	movaps	%xmm0, 528(%rsp)
	movq	$0, 544(%rsp)
	movaps	%xmm0, 2864(%rsp)
	movaps	%xmm0, 2880(%rsp)
	movaps	%xmm0, 2896(%rsp)
	movaps	%xmm0, 2912(%rsp)
	movaps	%xmm0, 2928(%rsp)
	movaps	%xmm0, 2944(%rsp)
	movaps	%xmm0, 2960(%rsp)
	movaps	%xmm0, 2976(%rsp)
	movaps	%xmm0, 2992(%rsp)
	movaps	%xmm0, 3936(%rsp)
	movaps	%xmm0, 3920(%rsp)
	movaps	%xmm0, 3904(%rsp)
	movaps	%xmm0, 3888(%rsp)
	movaps	%xmm0, 3872(%rsp)
	movaps	%xmm0, 3856(%rsp)
	movaps	%xmm0, 3840(%rsp)
	movaps	%xmm0, 3824(%rsp)
	movaps	%xmm0, 3808(%rsp)
	movaps	%xmm0, 3792(%rsp)
	movaps	%xmm0, 3776(%rsp)
	movq	$0, 3952(%rsp)
	movaps	%xmm0, 496(%rsp)
	movq	$0, 512(%rsp)
	movaps	%xmm0, 2720(%rsp)
	movaps	%xmm0, 2736(%rsp)
	movaps	%xmm0, 2752(%rsp)
	movaps	%xmm0, 2768(%rsp)
	movaps	%xmm0, 2784(%rsp)
	movaps	%xmm0, 2800(%rsp)
	movaps	%xmm0, 2816(%rsp)
	movaps	%xmm0, 2832(%rsp)
	movaps	%xmm0, 2848(%rsp)
	movaps	%xmm0, 752(%rsp)
	leaq	912(%rsp), %rsi
	leaq	64(%rsp), %rdx
	movq	%r15, %rdi
	callq	"pie_book::core_state::Core::try_clone"
	cmpb	$0, 5152(%rsp)
	jne	.LBB23_14
	movq	5352(%rsp), %r15
	movq	5384(%rsp), %r14
	leaq	5536(%rsp), %rdi
	leaq	912(%rsp), %rsi
	leaq	64(%rsp), %rdx
	callq	"pie_book::core_state::Core::try_clone"
	cmpb	$0, 5536(%rsp)
	je	.LBB23_11
	movq	%r15, %rdi
	callq	rattle_dealloc@PLT
	jmp	.LBB23_14
.LBB23_4:
	movl	$124, %eax
	jmp	.LBB23_43
.LBB23_6:
	xorl	%r14d, %r14d
	xorl	%r12d, %r12d
	movq	$0, 16(%rsp)
	xorl	%r15d, %r15d
	movq	$0, 32(%rsp)
	xorl	%ebp, %ebp
	movq	$0, 24(%rsp)
	xorl	%r13d, %r13d
	xorl	%ebx, %ebx
	jmp	.LBB23_19
.LBB23_8:
	xorl	%ebx, %ebx
	xorl	%r14d, %r14d
	xorl	%r12d, %r12d
	movq	$0, 16(%rsp)
	xorl	%r15d, %r15d
	movq	$0, 32(%rsp)
	xorl	%ebp, %ebp
	movq	$0, 24(%rsp)
	xorl	%r13d, %r13d
	jmp	.LBB23_19
.LBB23_11:
	movq	%r14, 32(%rsp)
	movq	5736(%rsp), %r14
	movq	5768(%rsp), %rbp
	movq	%r13, %rdi
	shlq	$7, %rdi
	movl	$8, %esi
	callq	rattle_alloc@PLT
	movq	%rax, 56(%rsp)
	testb	$1, %al
	je	.LBB23_15
	movq	%rdx, %r12
	movq	%rbp, 24(%rsp)
	leaq	5168(%rsp), %rbp
	leaq	(,%r13,2), %rax
	movq	%rax, 16(%rsp)
	leaq	4190(%rsp), %rdi
	movl	$184, %edx
	movq	%rbp, %rsi
	callq	memcpy@PLT
	movups	192(%rbp), %xmm0
	movaps	%xmm0, 528(%rsp)
	movq	208(%rbp), %rax
	movq	%r14, %rbp
	movq	%rax, 544(%rsp)
	leaq	2864(%rsp), %rdi
	movl	$144, %edx
	leaq	5392(%rsp), %rsi
	callq	memcpy@PLT
	leaq	3776(%rsp), %rdi
	movl	$184, %edx
	leaq	5552(%rsp), %rsi
	callq	memcpy@PLT
	movaps	5744(%rsp), %xmm0
	movaps	%xmm0, 496(%rsp)
	movq	5760(%rsp), %rax
	movq	%rax, 512(%rsp)
	leaq	2720(%rsp), %rdi
	movl	$144, %edx
	leaq	5776(%rsp), %rsi
	callq	memcpy@PLT
	xorps	%xmm0, %xmm0
	movaps	%xmm0, 752(%rsp)
	jmp	.LBB23_16
.LBB23_15:
	movq	%r14, %rdi
	callq	rattle_dealloc@PLT
	movq	%r15, %rdi
	callq	rattle_dealloc@PLT
	xorl	%r15d, %r15d
	movq	$0, 32(%rsp)
	xorl	%ebp, %ebp
	movq	$0, 24(%rsp)
	xorl	%r12d, %r12d
	movq	$0, 16(%rsp)
.LBB23_16:
	leaq	4190(%rsp), %rsi
	leaq	3982(%rsp), %rdi
	movl	$184, %edx
	callq	memcpy@PLT
	movaps	528(%rsp), %xmm0
	movaps	%xmm0, 464(%rsp)
	movq	544(%rsp), %rax
	movq	%rax, 480(%rsp)
	leaq	2576(%rsp), %rdi
	leaq	2864(%rsp), %rsi
	movl	$144, %edx
	callq	memcpy@PLT
	leaq	3584(%rsp), %rdi
	leaq	3776(%rsp), %rsi
	movl	$184, %edx
	callq	memcpy@PLT
	movaps	496(%rsp), %xmm0
	movaps	%xmm0, 432(%rsp)
	movq	512(%rsp), %rax
	movq	%rax, 448(%rsp)
	leaq	2432(%rsp), %rdi
	leaq	2720(%rsp), %rsi
	movl	$144, %edx
	callq	memcpy@PLT
	movaps	752(%rsp), %xmm0
	movaps	%xmm0, 736(%rsp)
	testb	$1, 56(%rsp)
	je	.LBB23_14
	leaq	1104(%rsp), %r14
	movups	128(%rsp), %xmm0
	movaps	%xmm0, 5984(%rsp)
	movups	64(%rsp), %xmm0
	movups	80(%rsp), %xmm1
	movups	96(%rsp), %xmm2
	movups	112(%rsp), %xmm3
	movaps	%xmm3, 5968(%rsp)
	movaps	%xmm2, 5952(%rsp)
	movaps	%xmm1, 5936(%rsp)
	movaps	%xmm0, 5920(%rsp)
	leaq	6000(%rsp), %rdi
	leaq	912(%rsp), %rsi
	movl	$184, %edx
	callq	memcpy@PLT
	leaq	4776(%rsp), %rdi
	movl	$184, %edx
	leaq	3982(%rsp), %rsi
	callq	memcpy@PLT
	leaq	6206(%rsp), %rdi
	leaq	5920(%rsp), %rsi
	movl	$264, %edx
	callq	memcpy@PLT
	movups	(%r14), %xmm0
	movaps	%xmm0, 400(%rsp)
	movq	16(%r14), %rax
	movq	%rax, 416(%rsp)
	xorps	%xmm0, %xmm0
	movaps	%xmm0, 768(%rsp)
	movaps	%xmm0, 784(%rsp)
	movaps	%xmm0, 800(%rsp)
	movaps	%xmm0, 816(%rsp)
	movaps	%xmm0, 832(%rsp)
	movaps	%xmm0, 848(%rsp)
	movaps	%xmm0, 864(%rsp)
	movaps	%xmm0, 880(%rsp)
	movaps	%xmm0, 896(%rsp)
	movaps	736(%rsp), %xmm0
	movaps	%xmm0, 720(%rsp)
	leaq	4960(%rsp), %rdi
	leaq	4768(%rsp), %rsi
	movl	$192, %edx
	callq	memcpy@PLT
	movaps	464(%rsp), %xmm0
	movaps	%xmm0, 368(%rsp)
	movq	480(%rsp), %rax
	movq	%rax, 384(%rsp)
	leaq	2288(%rsp), %rdi
	leaq	2576(%rsp), %rsi
	movl	$144, %edx
	callq	memcpy@PLT
	leaq	3392(%rsp), %rdi
	leaq	3584(%rsp), %rsi
	movl	$184, %edx
	callq	memcpy@PLT
	movaps	432(%rsp), %xmm0
	movaps	%xmm0, 336(%rsp)
	movq	448(%rsp), %rax
	movq	%rax, 352(%rsp)
	leaq	2144(%rsp), %rdi
	leaq	2432(%rsp), %rsi
	movl	$144, %edx
	callq	memcpy@PLT
	movb	$1, %r14b
	jmp	.LBB23_18
.LBB23_14:
	movq	%rbx, %rdi
	callq	rattle_dealloc@PLT
	xorl	%ebx, %ebx
	xorl	%r14d, %r14d
	xorl	%r15d, %r15d
	movq	$0, 32(%rsp)
	xorl	%ebp, %ebp
	movq	$0, 24(%rsp)
	xorl	%r12d, %r12d
	movq	$0, 16(%rsp)
	xorl	%r13d, %r13d
.LBB23_18:
	leaq	6754(%rsp), %rdi
	leaq	6192(%rsp), %rsi
	movl	$278, %edx
	callq	memcpy@PLT
	movaps	400(%rsp), %xmm0
	movaps	%xmm0, 304(%rsp)
	movq	416(%rsp), %rax
	movq	%rax, 320(%rsp)
	leaq	2000(%rsp), %rdi
	leaq	768(%rsp), %rsi
	movl	$144, %edx
	callq	memcpy@PLT
	movaps	720(%rsp), %xmm0
	movaps	%xmm0, 704(%rsp)
	leaq	4576(%rsp), %rdi
	leaq	4960(%rsp), %rsi
	movl	$192, %edx
	callq	memcpy@PLT
	movaps	368(%rsp), %xmm0
	movaps	%xmm0, 272(%rsp)
	movq	384(%rsp), %rax
	movq	%rax, 288(%rsp)
	leaq	1856(%rsp), %rdi
	leaq	2288(%rsp), %rsi
	movl	$144, %edx
	callq	memcpy@PLT
	leaq	3200(%rsp), %rdi
	leaq	3392(%rsp), %rsi
	movl	$184, %edx
	callq	memcpy@PLT
	movaps	336(%rsp), %xmm0
	movaps	%xmm0, 240(%rsp)
	movq	352(%rsp), %rax
	movq	%rax, 256(%rsp)
	leaq	1712(%rsp), %rdi
	leaq	2144(%rsp), %rsi
	movl	$144, %edx
	callq	memcpy@PLT
.LBB23_19:
	leaq	6476(%rsp), %rdi
	leaq	6754(%rsp), %rsi
	movl	$278, %edx
	callq	memcpy@PLT
	movaps	304(%rsp), %xmm0
	movaps	%xmm0, 208(%rsp)
	movq	320(%rsp), %rax
	movq	%rax, 224(%rsp)
	leaq	1568(%rsp), %rdi
	leaq	2000(%rsp), %rsi
	movl	$144, %edx
	callq	memcpy@PLT
	movaps	704(%rsp), %xmm0
	movaps	%xmm0, 688(%rsp)
	leaq	4384(%rsp), %rdi
	leaq	4576(%rsp), %rsi
	movl	$192, %edx
	callq	memcpy@PLT
	movaps	272(%rsp), %xmm0
	movaps	%xmm0, 176(%rsp)
	movq	288(%rsp), %rax
	movq	%rax, 192(%rsp)
	leaq	1424(%rsp), %rdi
	leaq	1856(%rsp), %rsi
	movl	$144, %edx
	callq	memcpy@PLT
	leaq	3008(%rsp), %rdi
	leaq	3200(%rsp), %rsi
	movl	$184, %edx
	callq	memcpy@PLT
	movaps	240(%rsp), %xmm0
	movaps	%xmm0, 144(%rsp)
	movq	256(%rsp), %rax
	movq	%rax, 160(%rsp)
	leaq	1280(%rsp), %rdi
	leaq	1712(%rsp), %rsi
	movl	$144, %edx
	callq	memcpy@PLT
	testb	%r14b, %r14b
	je	.LBB23_20
	movq	%rbp, %r14
	movl	$1248, %edi
	movl	$16, %esi
	callq	rattle_alloc@PLT
	testb	$1, %al
	je	.LBB23_30
	movq	%rdx, %rbp
	leaq	6490(%rsp), %rsi
	movl	$264, %edx
	movq	%rbp, %rdi
	callq	memcpy@PLT
	movq	%rbx, 264(%rbp)
	movaps	208(%rsp), %xmm0
	movups	%xmm0, 272(%rbp)
	movq	224(%rsp), %rax
	movq	%rax, 288(%rbp)
	movq	$0, 296(%rbp)
	leaq	304(%rbp), %rdi
	leaq	1568(%rsp), %rsi
	movl	$144, %edx
	callq	memcpy@PLT
	movq	%r12, 448(%rbp)
	movq	16(%rsp), %rax
	movq	%rax, 456(%rbp)
	movaps	688(%rsp), %xmm0
	movups	%xmm0, 464(%rbp)
	movq	$0, 480(%rbp)
	leaq	488(%rbp), %rdi
	leaq	4384(%rsp), %rsi
	movl	$192, %edx
	callq	memcpy@PLT
	movq	%r15, 680(%rbp)
	movaps	176(%rsp), %xmm0
	movups	%xmm0, 688(%rbp)
	movq	192(%rsp), %rax
	movq	%rax, 704(%rbp)
	movq	32(%rsp), %rax
	movq	%rax, 712(%rbp)
	leaq	720(%rbp), %rdi
	leaq	1424(%rsp), %rsi
	movl	$144, %edx
	callq	memcpy@PLT
	leaq	864(%rbp), %rdi
	leaq	3008(%rsp), %rsi
	movl	$184, %edx
	callq	memcpy@PLT
	movq	%r14, 1048(%rbp)
	movaps	144(%rsp), %xmm0
	movups	%xmm0, 1056(%rbp)
	movq	160(%rsp), %rax
	movq	%rax, 1072(%rbp)
	movq	24(%rsp), %rax
	movq	%rax, 1080(%rbp)
	leaq	1088(%rbp), %rdi
	leaq	1280(%rsp), %rsi
	movl	$144, %edx
	callq	memcpy@PLT
	movq	$0, 1232(%rbp)
	movq	%r13, 1240(%rbp)
	movl	$16, %edi
	movl	$8, %esi
	callq	rattle_alloc@PLT
	testb	$1, %al
	je	.LBB23_28
	movq	%rdx, %r12
	movq	$1, (%rdx)
	movq	%rbp, 8(%rdx)
	movl	$8, %edi
	movl	$8, %esi
	callq	rattle_alloc@PLT
	movq	%rax, %r14
	testb	$1, %r14b
	je	.LBB23_26
	movq	%rdx, %r15
	movl	$16, %edi
	movl	$8, %esi
	callq	rattle_alloc@PLT
	testb	$1, %al
	je	.LBB23_25
	movq	%rdx, %rbp
	andl	$1, %r14d
	movq	$0, (%r15)
	movzbl	(%r12), %eax
	movq	8(%r12), %rcx
	movq	%rax, (%rdx)
	movq	%rcx, 8(%rdx)
	movq	%r12, %rdi
	callq	rattle_dealloc@PLT
	xorps	%xmm0, %xmm0
	movaps	%xmm0, 912(%rsp)
	movaps	%xmm0, 5536(%rsp)
	movaps	%xmm0, 5552(%rsp)
	movaps	%xmm0, 5568(%rsp)
	movaps	%xmm0, 5584(%rsp)
	movl	$80, %edi
	movl	$8, %esi
	callq	rattle_alloc@PLT
	testb	$1, %al
	je	.LBB23_44
	movq	%rdx, %r12
	movq	$1, (%rdx)
	movq	%r15, 8(%rdx)
	movq	%rbp, 16(%rdx)
	movq	%r14, 24(%rdx)
	movq	$1, 32(%rdx)
	movq	%r15, 40(%rdx)
	movq	%r14, 48(%rdx)
	movq	%rbp, 56(%rdx)
	movq	$1, 64(%rdx)
	movq	$0, 72(%rdx)
	movq	%rdx, 6192(%rsp)
	leaq	912(%rsp), %rdi
	leaq	6192(%rsp), %rsi
	xorl	%edx, %edx
	movl	44(%rsp), %ecx
	callq	"pie_link_c::port::boxed"
	movzbl	912(%rsp), %ebp
	movq	920(%rsp), %rbx
	xorps	%xmm0, %xmm0
	movaps	%xmm0, 5200(%rsp)
	movaps	%xmm0, 5184(%rsp)
	movaps	%xmm0, 5168(%rsp)
	movaps	%xmm0, 5152(%rsp)
	movq	$0, 5216(%rsp)
	#APP
	#NO_APP
	lock		decq	(%r12)
	#APP
	#NO_APP
	jne	.LBB23_35
	movq	%r12, %rax
	addq	$8, %rax
	movq	64(%rax), %rcx
	movq	%rcx, 5216(%rsp)
	movups	(%rax), %xmm0
	movups	16(%rax), %xmm1
	movups	32(%rax), %xmm2
	movups	48(%rax), %xmm3
	movaps	%xmm3, 5200(%rsp)
	movaps	%xmm2, 5184(%rsp)
	movaps	%xmm1, 5168(%rsp)
	movaps	%xmm0, 5152(%rsp)
	movq	%r12, %rdi
	callq	rattle_dealloc@PLT
	leaq	5152(%rsp), %rdi
	callq	"atomic_table::owned::Table::drop::<#1bc90b9fb1d10aae>"
.LBB23_35:
	movl	$123, %eax
	testb	%bpl, %bpl
	jne	.LBB23_43
	movq	592(%rsp), %rax
	movq	(%rax), %rdi
	movq	%rbx, (%rax)
	xorl	%eax, %eax
	testq	%rdi, %rdi
	je	.LBB23_43
	movq	(%rdi), %r14
	movq	16(%rdi), %rbx
	movq	32(%rdi), %r15
	callq	rattle_dealloc@PLT
	xorps	%xmm0, %xmm0
	movaps	%xmm0, 5200(%rsp)
	movaps	%xmm0, 5184(%rsp)
	movaps	%xmm0, 5168(%rsp)
	movaps	%xmm0, 5152(%rsp)
	movq	$0, 5216(%rsp)
	#APP
	#NO_APP
	lock		decq	(%r14)
	#APP
	#NO_APP
	jne	.LBB23_39
	movq	72(%r14), %rax
	movq	%rax, 5216(%rsp)
	movups	8(%r14), %xmm0
	movups	24(%r14), %xmm1
	movups	40(%r14), %xmm2
	movups	56(%r14), %xmm3
	movaps	%xmm3, 5200(%rsp)
	movaps	%xmm2, 5184(%rsp)
	movaps	%xmm1, 5168(%rsp)
	movaps	%xmm0, 5152(%rsp)
	movq	%r14, %rdi
	callq	rattle_dealloc@PLT
	leaq	5152(%rsp), %rdi
	callq	"atomic_table::owned::Table::drop::<#1bc90b9fb1d10aae>"
.LBB23_39:
	testq	%r15, %r15
	je	.LBB23_40
	movq	%rbx, %rdi
	callq	rattle_dealloc@PLT
	xorl	%eax, %eax
	jmp	.LBB23_43
.LBB23_20:
	movl	$123, %eax
	jmp	.LBB23_43
.LBB23_30:
	movq	%rbx, %rdi
	callq	rattle_dealloc@PLT
	movq	%r12, %rdi
	callq	rattle_dealloc@PLT
	movq	%r15, %rdi
	callq	rattle_dealloc@PLT
	movq	%r14, %rdi
	jmp	.LBB23_31
.LBB23_25:
	movq	%r15, %rdi
	callq	rattle_dealloc@PLT
.LBB23_26:
	cmpb	$1, (%r12)
	jne	.LBB23_29
	movq	8(%r12), %rbp
	movq	%r12, %rdi
	callq	rattle_dealloc@PLT
.LBB23_28:
	movq	264(%rbp), %rbx
	movq	448(%rbp), %r14
	movq	680(%rbp), %r15
	movq	1048(%rbp), %r12
	movq	%rbp, %rdi
	callq	rattle_dealloc@PLT
	movq	%rbx, %rdi
	callq	rattle_dealloc@PLT
	movq	%r14, %rdi
	callq	rattle_dealloc@PLT
	movq	%r15, %rdi
	callq	rattle_dealloc@PLT
	movq	%r12, %rdi
.LBB23_31:
	callq	rattle_dealloc@PLT
	movl	$123, %eax
	jmp	.LBB23_43
.LBB23_44:
	movq	%r15, 5536(%rsp)
	movq	%rbp, 5544(%rsp)
	movq	%r14, 5552(%rsp)
	movq	$1, 5560(%rsp)
	movq	%r15, 5568(%rsp)
	movq	%r14, 5576(%rsp)
	movq	%rbp, 5584(%rsp)
	movq	$1, 5592(%rsp)
	leaq	5536(%rsp), %rdi
	callq	"atomic_table::owned::Table::drop::<#1bc90b9fb1d10aae>"
	movl	$123, %eax
	jmp	.LBB23_43
.LBB23_40:
	xorl	%eax, %eax
	jmp	.LBB23_43
.LBB23_29:
	ud2
.Lfunc_end23:
	.size	pie_link_open_port, .Lfunc_end23-pie_link_open_port

	.section	.text.pie_link_share_port,"ax",@progbits
	.globl	pie_link_share_port
	.p2align	4
	.type	pie_link_share_port,@function
pie_link_share_port:
	pushq	%rbp
	pushq	%r15
	pushq	%r14
	pushq	%r13
	pushq	%r12
	pushq	%rbx
	subq	$88, %rsp
	movq	(%rdi), %r14
	movq	$0, (%rdi)
	testq	%r14, %r14
	je	.LBB24_1
	movq	(%rsi), %rax
	movq	$0, (%rsi)
	testq	%rax, %rax
	je	.LBB24_5
	movq	%rax, (%rsi)
	movq	(%rdi), %rax
	movq	%r14, (%rdi)
	movl	$127, %ebx
	testq	%rax, %rax
	je	.LBB24_24
	movq	(%rax), %r15
	movq	16(%rax), %r14
	movq	32(%rax), %r12
	movq	%rax, %rdi
	callq	rattle_dealloc@PLT
	xorps	%xmm0, %xmm0
	movaps	%xmm0, 64(%rsp)
	movaps	%xmm0, 48(%rsp)
	movaps	%xmm0, 32(%rsp)
	movaps	%xmm0, 16(%rsp)
	movq	$0, 80(%rsp)
	#APP
	#NO_APP
	lock		decq	(%r15)
	#APP
	#NO_APP
	jne	.LBB24_22
.LBB24_21:
	movq	72(%r15), %rax
	movq	%rax, 80(%rsp)
	movups	8(%r15), %xmm0
	movups	24(%r15), %xmm1
	movups	40(%r15), %xmm2
	movups	56(%r15), %xmm3
	movaps	%xmm3, 64(%rsp)
	movaps	%xmm2, 48(%rsp)
	movaps	%xmm1, 32(%rsp)
	movaps	%xmm0, 16(%rsp)
	movq	%r15, %rdi
	callq	rattle_dealloc@PLT
	leaq	16(%rsp), %rdi
	callq	"atomic_table::owned::Table::drop::<#1bc90b9fb1d10aae>"
.LBB24_22:
	testq	%r12, %r12
	je	.LBB24_24
	movq	%r14, %rdi
	callq	rattle_dealloc@PLT
	jmp	.LBB24_24
.LBB24_1:
	movl	$122, %ebx
	jmp	.LBB24_24
.LBB24_5:
	xorps	%xmm0, %xmm0
	movaps	%xmm0, 16(%rsp)
	movzwl	10(%r14), %edx
	decl	%edx
	cmpw	%dx, 8(%r14)
	movq	%rsi, 8(%rsp)
	jne	.LBB24_7
	movl	$125, %ebx
	xorl	%r13d, %r13d
	xorl	%ebp, %ebp
	movq	(%rdi), %rax
	movq	%r14, (%rdi)
	testq	%rax, %rax
	jne	.LBB24_14
	jmp	.LBB24_18
.LBB24_7:
	movq	%rdi, %r15
	movq	(%r14), %rax
	movq	8(%rax), %rax
	#APP
	#NO_APP
	movq	(%rax), %rax
	#APP
	#NO_APP
	movzwl	10(%r14), %ecx
	movw	%dx, 10(%r14)
	leaq	16(%rsp), %rdi
	movq	%r14, %rsi
	callq	"pie_link_c::port::boxed"
	cmpb	$0, 16(%rsp)
	je	.LBB24_8
	movzwl	18(%rsp), %ecx
	movzwl	20(%rsp), %eax
	movq	(%r14), %rdx
	cmpw	%cx, 10(%r14)
	movq	%r15, %rdi
	je	.LBB24_11
	cmpw	8(%r14), %ax
	jne	.LBB24_12
.LBB24_11:
	movq	8(%rdx), %rsi
	#APP
	#NO_APP
	movq	(%rsi), %rsi
	#APP
	#NO_APP
	movq	8(%rdx), %rdx
	#APP
	#NO_APP
	movq	(%rdx), %rdx
	#APP
	#NO_APP
	movzwl	8(%r14), %edx
	cmpw	%dx, %cx
	cmovael	%edx, %ecx
	movw	%cx, 8(%r14)
	movzwl	10(%r14), %ecx
	cmpw	%cx, %ax
	cmovbel	%ecx, %eax
	movw	%ax, 10(%r14)
.LBB24_12:
	movl	$123, %ebx
	xorl	%r13d, %r13d
	xorl	%ebp, %ebp
	movq	8(%rsp), %rsi
	movq	(%rdi), %rax
	movq	%r14, (%rdi)
	testq	%rax, %rax
	jne	.LBB24_14
	jmp	.LBB24_18
.LBB24_8:
	xorl	%ebx, %ebx
	movb	$1, %r13b
	movq	24(%rsp), %rbp
	movq	8(%rsp), %rsi
	movq	%r15, %rdi
	movq	(%rdi), %rax
	movq	%r14, (%rdi)
	testq	%rax, %rax
	je	.LBB24_18
.LBB24_14:
	movq	(%rax), %r15
	movq	16(%rax), %r14
	movq	32(%rax), %r12
	movq	%rax, %rdi
	callq	rattle_dealloc@PLT
	xorps	%xmm0, %xmm0
	movaps	%xmm0, 64(%rsp)
	movaps	%xmm0, 48(%rsp)
	movaps	%xmm0, 32(%rsp)
	movaps	%xmm0, 16(%rsp)
	movq	$0, 80(%rsp)
	#APP
	#NO_APP
	lock		decq	(%r15)
	#APP
	#NO_APP
	jne	.LBB24_16
	movq	72(%r15), %rax
	movq	%rax, 80(%rsp)
	movups	8(%r15), %xmm0
	movups	24(%r15), %xmm1
	movups	40(%r15), %xmm2
	movups	56(%r15), %xmm3
	movaps	%xmm3, 64(%rsp)
	movaps	%xmm2, 48(%rsp)
	movaps	%xmm1, 32(%rsp)
	movaps	%xmm0, 16(%rsp)
	movq	%r15, %rdi
	callq	rattle_dealloc@PLT
	leaq	16(%rsp), %rdi
	callq	"atomic_table::owned::Table::drop::<#1bc90b9fb1d10aae>"
.LBB24_16:
	testq	%r12, %r12
	movq	8(%rsp), %rsi
	je	.LBB24_18
	movq	%r14, %rdi
	callq	rattle_dealloc@PLT
	movq	8(%rsp), %rsi
.LBB24_18:
	testb	%r13b, %r13b
	je	.LBB24_24
	movq	(%rsi), %rdi
	movq	%rbp, (%rsi)
	xorl	%ebx, %ebx
	testq	%rdi, %rdi
	je	.LBB24_24
	movq	(%rdi), %r15
	movq	16(%rdi), %r14
	movq	32(%rdi), %r12
	callq	rattle_dealloc@PLT
	xorps	%xmm0, %xmm0
	movaps	%xmm0, 64(%rsp)
	movaps	%xmm0, 48(%rsp)
	movaps	%xmm0, 32(%rsp)
	movaps	%xmm0, 16(%rsp)
	movq	$0, 80(%rsp)
	#APP
	#NO_APP
	lock		decq	(%r15)
	#APP
	#NO_APP
	je	.LBB24_21
	jmp	.LBB24_22
.LBB24_24:
	movl	%ebx, %eax
	addq	$88, %rsp
	popq	%rbx
	popq	%r12
	popq	%r13
	popq	%r14
	popq	%r15
	popq	%rbp
	retq
.Lfunc_end24:
	.size	pie_link_share_port, .Lfunc_end24-pie_link_share_port

	.section	.text.pie_link_try_arrive_all,"ax",@progbits
	.globl	pie_link_try_arrive_all
	.p2align	4
	.type	pie_link_try_arrive_all,@function
pie_link_try_arrive_all:
	pushq	%rbp
	pushq	%r15
	pushq	%r14
	pushq	%r13
	pushq	%r12
	pushq	%rbx
	subq	$152, %rsp
	xorl	%ecx, %ecx
	testq	%rsi, %rsi
	sete	%r8b
	movq	(%rdi), %r11
	movq	$0, (%rdi)
	testq	%r11, %r11
	je	.LBB25_91
	movl	8(%r11), %ebp
	testq	%rdx, %rdx
	je	.LBB25_92
	movzwl	8(%r11), %r9d
	movq	(%r11), %r14
	movq	8(%r14), %rax
	#APP
	#NO_APP
	movq	(%rax), %rax
	#APP
	#NO_APP
	movl	$121, %ebx
	testq	%rax, %rax
	jne	.LBB25_95
	movw	%r9w, 22(%rsp)
	movq	8(%r14), %r9
	#APP
	#NO_APP
	movl	$1, %r10d
	xorl	%eax, %eax
	lock		cmpxchgq	%r10, (%r9)
	#APP
	#NO_APP
	jne	.LBB25_95
	movl	%ebp, 44(%rsp)
	movq	%r11, 72(%rsp)
	movq	%r14, 64(%rsp)
	movq	16(%r14), %rax
	movq	8(%rax), %rbx
	cmpb	$1, (%rax)
	xorps	%xmm0, %xmm0
	movups	%xmm0, (%rax)
	jne	.LBB25_101
	movb	%r8b, %cl
	shll	$12, %ecx
	leaq	(%rcx,%rsi), %r13
	addq	$60, %r13
	movq	%rdi, 32(%rsp)
	movzwl	22(%rsp), %r11d
	jmp	.LBB25_8
	.p2align	4
.LBB25_6:
	movzbl	%cl, %eax
	addl	$101, %eax
	movl	%eax, -8(%r13)
	movl	$0, (%r13)
	xorps	%xmm0, %xmm0
	movups	%xmm0, -44(%r13)
	movups	%xmm0, -28(%r13)
	movw	$3, -2(%r13)
	movq	$0, -52(%r13)
	movl	$0, -12(%r13)
.LBB25_7:
	movw	%r11w, -4(%r13)
	addq	$64, %r13
	decq	%rdx
	je	.LBB25_93
.LBB25_8:
	movq	-60(%r13), %r15
	movzbl	-2(%r13), %ebp
	cmpb	$3, %bpl
	jne	.LBB25_12
	xorl	%r14d, %r14d
	movabsq	$1152921504606846976, %rax
	cmpq	%rax, %r15
	jae	.LBB25_15
	movq	168(%rbx), %rcx
	cmpq	%rcx, %r15
	cmovaq	%r15, %rcx
	movq	104(%rbx), %rax
	addq	248(%rbx), %rax
	cmpq	%rax, %rcx
	jae	.LBB25_19
	movb	$2, %cl
	jmp	.LBB25_38
	.p2align	4
.LBB25_12:
	movzbl	-1(%r13), %r12d
	cmpq	$3, %r12
	ja	.LBB25_16
	movl	-12(%r13), %r14d
	shlq	$32, %r12
	movabsq	$1152921504606846976, %rax
	cmpq	%rax, %r15
	jb	.LBB25_17
.LBB25_14:
	xorl	%r14d, %r14d
.LBB25_15:
	xorl	%eax, %eax
	xorl	%ecx, %ecx
	jmp	.LBB25_38
	.p2align	4
.LBB25_16:
	xorl	%r14d, %r14d
	movabsq	$12884901888, %r12
	movabsq	$1152921504606846976, %rax
	cmpq	%rax, %r15
	jae	.LBB25_14
.LBB25_17:
	leal	-65536(%r14), %eax
	cmpl	$-65535, %eax
	jae	.LBB25_35
	movb	$1, %cl
	jmp	.LBB25_37
.LBB25_19:
	xorl	%ecx, %ecx
	xorl	%r12d, %r12d
	xorl	%esi, %esi
	movq	304(%rbx), %rax
	cmpq	80(%rbx), %rax
	je	.LBB25_36
.LBB25_20:
	movq	%rsi, 56(%rsp)
	movq	%rcx, 48(%rsp)
	movq	464(%rbx), %rax
	movq	480(%rbx), %rcx
	movq	%rax, %rsi
	subq	%rcx, %rsi
	movl	12(%rbx), %r8d
	cmpq	%r8, %rsi
	jb	.LBB25_23
	cmpb	$0, 72(%rbx)
	je	.LBB25_52
	incq	%rcx
	movq	%rcx, 480(%rbx)
.LBB25_23:
	subq	1232(%rbx), %rax
	cmpq	1240(%rbx), %rax
	jne	.LBB25_25
	movq	%rbx, %rdi
	movq	%rdx, 24(%rsp)
	callq	"pie_book::book::Book::copy_running"
	movq	24(%rsp), %rdx
	movq	32(%rsp), %rdi
.LBB25_25:
	cmpb	$3, %bpl
	jne	.LBB25_45
	movq	296(%rbx), %rsi
	leaq	88(%rbx), %rdi
	movq	%rdx, %r14
	movq	%r15, %rdx
	callq	"pie_aqm::controller::Controller::update"
	movq	%r14, %rdx
	movq	32(%rsp), %rdi
	incq	304(%rbx)
	incq	392(%rbx)
	movq	424(%rbx), %rcx
	cmpq	%rcx, %rax
	cmovaq	%rax, %rcx
	movq	%rcx, 424(%rbx)
	movq	224(%rbx), %rsi
	movq	240(%rbx), %r14
	movb	$3, %r8b
	movb	$7, %cl
	xorl	%r9d, %r9d
	movq	%rax, 48(%rsp)
	movq	%rsi, 24(%rsp)
	movq	%r14, 56(%rsp)
.LBB25_27:
	movq	296(%rbx), %r10
	movq	416(%rbx), %r11
	cmpq	%r11, %r10
	cmovaq	%r10, %r11
	movq	%r11, 416(%rbx)
	movq	464(%rbx), %r11
	movq	456(%rbx), %r12
	movb	$1, %r10b
	cmpq	%r11, %r12
	jbe	.LBB25_29
	addq	472(%rbx), %r11
	xorl	%ebp, %ebp
	cmpq	%r12, %r11
	cmovaeq	%r12, %rbp
	subq	%rbp, %r11
	movq	448(%rbx), %r12
	shlq	$6, %r11
	movb	%r8b, (%r12,%r11)
	movb	$0, 1(%r12,%r11)
	movl	44(%rsp), %r8d
	movw	%r8w, 2(%r12,%r11)
	movb	%r9b, 4(%r12,%r11)
	movb	$0, 7(%r12,%r11)
	movw	$0, 5(%r12,%r11)
	movq	%r15, 8(%r12,%r11)
	movq	48(%rsp), %r8
	movq	%r8, 16(%r12,%r11)
	movq	24(%rsp), %r8
	movq	%r8, 24(%r12,%r11)
	movq	56(%rsp), %r8
	movq	%r8, 32(%r12,%r11)
	xorps	%xmm0, %xmm0
	movups	%xmm0, 40(%r12,%r11)
	movq	$0, 56(%r12,%r11)
	incq	464(%rbx)
.LBB25_29:
	movzwl	22(%rsp), %r11d
	movzbl	-2(%r13), %r9d
	cmpb	$3, %r9b
	je	.LBB25_39
	.p2align	4
.LBB25_30:
	cmpb	$4, -1(%r13)
	jb	.LBB25_32
	movb	$1, -2(%r13)
	movl	$111, -8(%r13)
	jmp	.LBB25_34
	.p2align	4
.LBB25_32:
	testb	%r10b, %r10b
	jne	.LBB25_40
	movzbl	%cl, %eax
	addl	$101, %eax
	movb	$1, -2(%r13)
	movl	%eax, -8(%r13)
.LBB25_34:
	movl	$0, (%r13)
	xorps	%xmm0, %xmm0
	movups	%xmm0, -36(%r13)
	movq	$0, -20(%r13)
	jmp	.LBB25_7
.LBB25_35:
	movq	-52(%r13), %rcx
	movq	-44(%r13), %rsi
	movq	304(%rbx), %rax
	cmpq	80(%rbx), %rax
	jne	.LBB25_20
.LBB25_36:
	movb	$3, %cl
.LBB25_37:
	xorl	%r14d, %r14d
	xorl	%eax, %eax
.LBB25_38:
	xorl	%r10d, %r10d
	xorl	%esi, %esi
	movzbl	-2(%r13), %r9d
	cmpb	$3, %r9b
	jne	.LBB25_30
.LBB25_39:
	testb	%r10b, %r10b
	je	.LBB25_6
.LBB25_40:
	movzbl	%cl, %r8d
	leaq	.Lswitch.table.pie_link_try_arrive_all(%rip), %r10
	movl	(%r10,%r8,4), %r10d
	movl	%r10d, -8(%r13)
	xorps	%xmm0, %xmm0
	movups	%xmm0, -36(%r13)
	movb	$1, %r10b
	cmpb	$3, %r9b
	jne	.LBB25_42
	movl	$0, -12(%r13)
	movb	$0, -1(%r13)
	movups	%xmm0, -52(%r13)
	movb	$3, %r10b
.LBB25_42:
	movq	$0, -20(%r13)
	movl	$0, (%r13)
	movb	%r10b, -2(%r13)
	cmpb	$6, %cl
	jb	.LBB25_7
	cmpl	$7, %r8d
	jne	.LBB25_51
	movq	%rax, -36(%r13)
	movq	%rsi, -28(%r13)
	movq	%r14, -20(%r13)
	jmp	.LBB25_7
.LBB25_45:
	movl	%r14d, %ecx
	orq	%r12, %rcx
	movq	168(%rbx), %r14
	movq	272(%rbx), %r9
	cmpq	%r14, %r15
	cmovaq	%r15, %r14
	shrq	$32, %r12
	movq	296(%rbx), %rsi
	movq	280(%rbx), %r10
	cmpb	$0, 90(%rbx)
	movq	%rcx, 24(%rsp)
	jne	.LBB25_47
	cmpb	$0, 92(%rbx)
	je	.LBB25_53
.LBB25_47:
	xorl	%eax, %eax
	cmpq	%r9, %r10
	sete	%al
	movq	%r15, (%rsp)
	movzbl	%r12b, %r8d
	leaq	88(%rbx), %rdi
	movq	%rdx, %rbp
	movl	%eax, %edx
	movq	56(%rsp), %r9
	callq	"pie_aqm::raw::RawController::arrive_out_of_line"
	movq	%rbp, %rdx
	movq	32(%rsp), %rdi
.LBB25_48:
	incq	304(%rbx)
	incq	320(%rbx)
	movzbl	%al, %eax
	leaq	.LJTI25_0(%rip), %rcx
	movslq	(%rcx,%rax,4), %rax
	addq	%rcx, %rax
	jmpq	*%rax
.LBB25_49:
	incq	328(%rbx)
	movq	272(%rbx), %rsi
	movq	280(%rbx), %rax
	cmpq	%rax, %rsi
	jbe	.LBB25_58
	addq	288(%rbx), %rax
	xorl	%ecx, %ecx
	cmpq	%rsi, %rax
	cmovbq	%rcx, %rsi
	subq	%rsi, %rax
	movq	264(%rbx), %rsi
	leaq	(%rax,%rax,2), %rax
	movq	48(%rsp), %r8
	movq	%r8, (%rsi,%rax,8)
	movq	24(%rsp), %r8
	movl	%r8d, 8(%rsi,%rax,8)
	movl	%r12d, 12(%rsi,%rax,8)
	movq	%r14, 16(%rsi,%rax,8)
	incq	280(%rbx)
	movl	%r8d, %eax
	addq	%rax, 296(%rbx)
	jmp	.LBB25_59
.LBB25_51:
	movq	%rsi, %rcx
	shrq	$32, %rcx
	movq	%rax, -52(%r13)
	movl	%esi, -12(%r13)
	movb	%cl, -1(%r13)
	jmp	.LBB25_7
.LBB25_52:
	movb	$4, %cl
	jmp	.LBB25_37
.LBB25_53:
	movl	%ecx, %r8d
	leaq	(%rsi,%r8), %rax
	movq	144(%rbx), %rcx
	movzbl	176(%rbx), %r11d
	cmpq	%r9, %r10
	je	.LBB25_60
	cmpq	%rax, %rcx
	jb	.LBB25_60
	testb	%r11b, %r11b
	je	.LBB25_62
	movq	256(%rbx), %rcx
	cmpq	$0, 240(%rbx)
	jne	.LBB25_69
	movq	%rsi, %rax
	shrq	%rax
	subq	%rax, %rsi
	cmpq	%rsi, 136(%rbx)
	jae	.LBB25_69
	movq	96(%rbx), %rax
	movq	224(%rbx), %rsi
	movq	%rax, %r8
	shrq	%r8
	subq	%r8, %rax
	cmpq	%rax, 232(%rbx)
	jae	.LBB25_77
	movq	%rsi, %rax
	shrq	$12, %rax
	cmpq	$48828125, %rax
	jae	.LBB25_78
	jmp	.LBB25_69
.LBB25_58:
	xorl	%ecx, %ecx
.LBB25_59:
	xorl	%eax, %eax
	xorl	%esi, %esi
	xorl	%r14d, %r14d
	xorl	%r8d, %r8d
	xorl	%r9d, %r9d
	jmp	.LBB25_27
.LBB25_60:
	cmpq	%rax, %rcx
	movb	$4, %al
	sbbb	$0, %al
	movq	$0, 256(%rbx)
	movq	%r14, 168(%rbx)
	testb	%r11b, %r11b
	jne	.LBB25_48
	xorl	%r8d, %r8d
	jmp	.LBB25_63
.LBB25_62:
	movq	%r14, 168(%rbx)
	xorl	%eax, %eax
.LBB25_63:
	addq	%rsi, %r8
	leaq	(%r8,%r8,2), %rsi
	cmpq	%rsi, %rcx
	ja	.LBB25_48
	xorps	%xmm0, %xmm0
	leaq	184(%rbx), %rcx
	movups	%xmm0, 16(%rcx)
	movups	%xmm0, (%rcx)
	movq	$0, 32(%rcx)
	movq	112(%rbx), %rcx
	leaq	224(%rbx), %rsi
	movups	%xmm0, (%rsi)
	movq	%rcx, 240(%rbx)
	movq	$0, 256(%rbx)
	movb	$1, 176(%rbx)
	incq	304(%rbx)
	incq	320(%rbx)
	movzbl	%al, %eax
	leaq	.LJTI25_0(%rip), %rcx
	movslq	(%rcx,%rax,4), %rax
	addq	%rcx, %rax
	jmpq	*%rax
.LBB25_77:
	testq	%rsi, %rsi
	je	.LBB25_84
.LBB25_78:
	addq	%rsi, %rcx
	jae	.LBB25_82
.LBB25_79:
	testq	%r12, %r12
	je	.LBB25_88
.LBB25_80:
	cmpq	152(%rbx), %rsi
	jae	.LBB25_88
	xorl	%ecx, %ecx
	movb	$1, %al
	jmp	.LBB25_70
.LBB25_82:
	movq	%rcx, %rax
	shrq	$10, %rax
	cmpq	$830078125, %rax
	jb	.LBB25_69
	movabsq	$8499999999999, %rax
	cmpq	%rax, %rcx
	ja	.LBB25_79
	movq	%rdx, %r8
	movabsq	$1000000000000, %rdx
	movq	56(%rsp), %rax
	mulq	%rdx
	cmpq	%rsi, %rdx
	jae	.LBB25_90
	testq	%r12, %r12
	movq	32(%rsp), %rdi
	movq	%r8, %rdx
	jne	.LBB25_80
.LBB25_88:
	movq	$0, 256(%rbx)
	movq	%r14, 168(%rbx)
	incq	304(%rbx)
	incq	320(%rbx)
	jmp	.LBB25_89
.LBB25_84:
	xorl	%ecx, %ecx
.LBB25_69:
	xorl	%eax, %eax
.LBB25_70:
	movq	%rcx, 256(%rbx)
	movq	%r14, 168(%rbx)
	incq	304(%rbx)
	incq	320(%rbx)
	movzbl	%al, %eax
	leaq	.LJTI25_0(%rip), %rcx
	movslq	(%rcx,%rax,4), %rax
	addq	%rcx, %rax
	jmpq	*%rax
.LBB25_71:
	incq	336(%rbx)
	movq	272(%rbx), %r8
	movq	280(%rbx), %rsi
	movb	$1, %cl
	cmpq	%rsi, %r8
	jbe	.LBB25_75
	addq	288(%rbx), %rsi
	xorl	%eax, %eax
	cmpq	%r8, %rsi
	cmovbq	%rax, %r8
	subq	%r8, %rsi
	movq	264(%rbx), %r8
	leaq	(%rsi,%rsi,2), %rsi
	movq	48(%rsp), %r9
	movq	%r9, (%r8,%rsi,8)
	movq	24(%rsp), %r9
	movl	%r9d, 8(%r8,%rsi,8)
	movl	$3, 12(%r8,%rsi,8)
	movq	%r14, 16(%r8,%rsi,8)
	incq	280(%rbx)
	movl	%r9d, %esi
	addq	%rsi, 296(%rbx)
	jmp	.LBB25_76
.LBB25_89:
	incq	344(%rbx)
	movb	$2, %cl
	xorl	%eax, %eax
	xorl	%esi, %esi
	xorl	%r14d, %r14d
	xorl	%r8d, %r8d
	movb	$2, %r9b
	jmp	.LBB25_27
.LBB25_73:
	incq	360(%rbx)
	movb	$4, %cl
	xorl	%eax, %eax
	xorl	%esi, %esi
	xorl	%r14d, %r14d
	xorl	%r8d, %r8d
	movb	$4, %r9b
	jmp	.LBB25_27
.LBB25_74:
	incq	352(%rbx)
	movb	$3, %cl
	xorl	%eax, %eax
	xorl	%esi, %esi
	xorl	%r14d, %r14d
	xorl	%r8d, %r8d
	movb	$3, %r9b
	jmp	.LBB25_27
.LBB25_75:
	xorl	%eax, %eax
.LBB25_76:
	xorl	%esi, %esi
	xorl	%r14d, %r14d
	xorl	%r8d, %r8d
	movb	$1, %r9b
	jmp	.LBB25_27
.LBB25_90:
	xorl	%eax, %eax
	movq	32(%rsp), %rdi
	movq	%r8, %rdx
	jmp	.LBB25_70
.LBB25_91:
	movl	$122, %ebx
	jmp	.LBB25_100
.LBB25_92:
	xorl	%ebx, %ebx
	jmp	.LBB25_95
.LBB25_93:
	movq	64(%rsp), %rdx
	movq	16(%rdx), %rcx
	movq	8(%rcx), %rax
	cmpb	$0, (%rcx)
	movq	$1, (%rcx)
	movq	%rbx, 8(%rcx)
	movq	72(%rsp), %r11
	movl	44(%rsp), %ebp
	jne	.LBB25_102
	movq	8(%rdx), %rax
	#APP
	#NO_APP
	xorl	%ebx, %ebx
	xorl	%ecx, %ecx
	xchgq	%rcx, (%rax)
	#APP
	#NO_APP
.LBB25_95:
	movl	%ebp, 8(%r11)
	movq	(%rdi), %rax
	movq	%r11, (%rdi)
	testq	%rax, %rax
	je	.LBB25_100
	movq	(%rax), %r15
	movq	16(%rax), %r14
	movq	32(%rax), %r12
	movq	%rax, %rdi
	callq	rattle_dealloc@PLT
	xorps	%xmm0, %xmm0
	movaps	%xmm0, 128(%rsp)
	movaps	%xmm0, 112(%rsp)
	movaps	%xmm0, 96(%rsp)
	movaps	%xmm0, 80(%rsp)
	movq	$0, 144(%rsp)
	#APP
	#NO_APP
	lock		decq	(%r15)
	#APP
	#NO_APP
	jne	.LBB25_98
	movq	72(%r15), %rax
	movq	%rax, 144(%rsp)
	movups	8(%r15), %xmm0
	movups	24(%r15), %xmm1
	movups	40(%r15), %xmm2
	movups	56(%r15), %xmm3
	movaps	%xmm3, 128(%rsp)
	movaps	%xmm2, 112(%rsp)
	movaps	%xmm1, 96(%rsp)
	movaps	%xmm0, 80(%rsp)
	movq	%r15, %rdi
	callq	rattle_dealloc@PLT
	leaq	80(%rsp), %rdi
	callq	"atomic_table::owned::Table::drop::<#1bc90b9fb1d10aae>"
.LBB25_98:
	testq	%r12, %r12
	je	.LBB25_100
	movq	%r14, %rdi
	callq	rattle_dealloc@PLT
.LBB25_100:
	movl	%ebx, %eax
	addq	$152, %rsp
	popq	%rbx
	popq	%r12
	popq	%r13
	popq	%r14
	popq	%r15
	popq	%rbp
	retq
.LBB25_101:
	ud2
.LBB25_102:
	movq	%rax, %rdi
	callq	"pie_link::pie_link++kept_book++KeptBook+Destruct::drop"
	ud2
.Lfunc_end25:
	.size	pie_link_try_arrive_all, .Lfunc_end25-pie_link_try_arrive_all
	.section	.rodata.pie_link_try_arrive_all,"a",@progbits
	.p2align	2, 0x0
.LJTI25_0:
	.long	.LBB25_49-.LJTI25_0
	.long	.LBB25_71-.LJTI25_0
	.long	.LBB25_89-.LJTI25_0
	.long	.LBB25_74-.LJTI25_0
	.long	.LBB25_73-.LJTI25_0

	.section	.rodata.cst16,"aM",@progbits,16
	.p2align	4, 0x0
.LCPI26_0:
	.quad	1
	.zero	8
	.section	.text.pie_link_try_depart_all,"ax",@progbits
	.globl	pie_link_try_depart_all
	.p2align	4
	.type	pie_link_try_depart_all,@function
pie_link_try_depart_all:
	pushq	%rbp
	pushq	%r15
	pushq	%r14
	pushq	%r13
	pushq	%r12
	pushq	%rbx
	subq	$184, %rsp
	movq	%r8, %r13
	xorl	%r8d, %r8d
	testq	%rdx, %rdx
	sete	%r9b
	xorl	%ebp, %ebp
	cmpq	$-1, %rsi
	movl	$0, %r11d
	cmovneq	%rsi, %r11
	movq	(%rdi), %r15
	movq	$0, (%rdi)
	testq	%r15, %r15
	je	.LBB26_1
	movl	8(%r15), %ebx
	testq	%rcx, %rcx
	je	.LBB26_3
	movzwl	8(%r15), %r10d
	movq	(%r15), %r12
	movq	8(%r12), %rax
	#APP
	#NO_APP
	movq	(%rax), %rax
	#APP
	#NO_APP
	movl	$121, %r14d
	testq	%rax, %rax
	je	.LBB26_6
	xorl	%ebp, %ebp
	jmp	.LBB26_67
.LBB26_1:
	movl	$122, %r14d
	jmp	.LBB26_72
.LBB26_3:
	xorl	%r14d, %r14d
	jmp	.LBB26_67
.LBB26_6:
	movq	%r11, 64(%rsp)
	movw	%r10w, 10(%rsp)
	movq	8(%r12), %r10
	#APP
	#NO_APP
	xorl	%ebp, %ebp
	movl	$1, %r11d
	xorl	%eax, %eax
	lock		cmpxchgq	%r11, (%r10)
	#APP
	#NO_APP
	jne	.LBB26_67
	movl	%ebx, 12(%rsp)
	movq	%r13, 104(%rsp)
	movq	%r12, 96(%rsp)
	movq	16(%r12), %rax
	movq	8(%rax), %r14
	cmpb	$1, (%rax)
	pxor	%xmm0, %xmm0
	movdqu	%xmm0, (%rax)
	jne	.LBB26_73
	movb	%r9b, %r8b
	shll	$12, %r8d
	leaq	(%r8,%rdx), %r13
	addq	$60, %r13
	xorl	%ebp, %ebp
	movq	%rdi, 56(%rsp)
	movq	%rsi, 48(%rsp)
	movzwl	10(%rsp), %r11d
	movq	%rcx, 32(%rsp)
	jmp	.LBB26_9
.LBB26_60:
	movl	%r9d, %eax
	shrq	$32, %r9
	cmpb	$3, -2(%r13)
	sete	%dl
	orb	$2, %dl
	movl	$0, -8(%r13)
	movl	$0, (%r13)
	pxor	%xmm0, %xmm0
	movdqu	%xmm0, -44(%r13)
	movdqu	%xmm0, -28(%r13)
	movb	%dl, -2(%r13)
	movq	%r8, -52(%r13)
	movl	%eax, -12(%r13)
	movb	%r9b, -1(%r13)
.LBB26_61:
	movw	%r11w, -4(%r13)
	.p2align	4
.LBB26_62:
	incq	%rbp
	addq	$64, %r13
	cmpq	%rcx, %rbp
	jae	.LBB26_63
.LBB26_9:
	movq	-60(%r13), %r12
	movzbl	-2(%r13), %ebx
	cmpq	$-1, %rsi
	je	.LBB26_13
	cmpb	$3, %bl
	je	.LBB26_13
	cmpq	$0, 280(%r14)
	je	.LBB26_13
	movq	264(%r14), %rax
	movq	272(%r14), %rdx
	movq	288(%r14), %r8
	xorl	%r9d, %r9d
	cmpq	%rdx, %r8
	cmovaeq	%rdx, %r9
	subq	%r9, %r8
	leaq	(%r8,%r8,2), %rdx
	movl	8(%rax,%rdx,8), %eax
	cmpq	%rax, 64(%rsp)
	jb	.LBB26_64
.LBB26_13:
	movq	%r12, %rax
	shrq	$60, %rax
	jne	.LBB26_14
	cmpb	$3, %bl
	jne	.LBB26_21
	movq	168(%r14), %rax
	cmpq	%rax, %r12
	cmovaq	%r12, %rax
	movq	104(%r14), %rdx
	addq	248(%r14), %rdx
	cmpq	%rdx, %rax
	jae	.LBB26_21
	movl	$103, %edx
	movb	$1, %al
	jmp	.LBB26_16
	.p2align	4
.LBB26_14:
	movl	$101, %edx
	jmp	.LBB26_15
	.p2align	4
.LBB26_21:
	movq	304(%r14), %rax
	cmpq	80(%r14), %rax
	jne	.LBB26_23
	movl	$104, %edx
.LBB26_15:
	xorl	%eax, %eax
.LBB26_16:
	cmpb	$3, %bl
	sete	%r8b
	orb	$2, %r8b
	movl	%edx, -8(%r13)
	movl	$0, (%r13)
	pxor	%xmm0, %xmm0
	movdqu	%xmm0, -44(%r13)
	movdqu	%xmm0, -28(%r13)
	movb	%r8b, -2(%r13)
	movq	$0, -52(%r13)
	movl	$0, -12(%r13)
	movb	$0, -1(%r13)
	movw	%r11w, -4(%r13)
	testb	%al, %al
	jne	.LBB26_62
	jmp	.LBB26_17
.LBB26_23:
	movq	464(%r14), %rax
	movq	480(%r14), %rdx
	movq	%rax, %r8
	subq	%rdx, %r8
	movl	12(%r14), %r9d
	cmpq	%r9, %r8
	jb	.LBB26_27
	cmpb	$0, 72(%r14)
	je	.LBB26_25
	incq	%rdx
	movq	%rdx, 480(%r14)
.LBB26_27:
	subq	1232(%r14), %rax
	cmpq	1240(%r14), %rax
	jne	.LBB26_29
	movq	%r14, %rdi
	callq	"pie_book::book::Book::copy_running"
	movq	48(%rsp), %rsi
	movq	56(%rsp), %rdi
.LBB26_29:
	cmpb	$3, %bl
	je	.LBB26_48
	movq	280(%r14), %rax
	testq	%rax, %rax
	movl	12(%rsp), %ebx
	je	.LBB26_47
	movq	288(%r14), %rcx
	movq	272(%r14), %rdx
	leaq	1(%rcx), %r8
	xorl	%r9d, %r9d
	cmpq	%rdx, %r8
	cmovaeq	%rdx, %r9
	negq	%r9
	leaq	(%rcx,%r9), %rdx
	incq	%rdx
	movq	%rdx, 288(%r14)
	decq	%rax
	movq	%rax, 280(%r14)
	movq	264(%r14), %rdx
	leaq	(%rcx,%rcx,2), %rcx
	movq	(%rdx,%rcx,8), %rax
	movl	8(%rdx,%rcx,8), %r10d
	movl	12(%rdx,%rcx,8), %r9d
	movq	16(%rdx,%rcx,8), %rcx
	movq	%rcx, 16(%rsp)
	movq	296(%r14), %r8
	movq	%r10, 80(%rsp)
	subq	%r10, %r8
	movq	%r8, 296(%r14)
	movq	168(%r14), %rdx
	cmpq	%rdx, %r12
	cmovaq	%r12, %rdx
	movq	%rdx, 168(%r14)
	cmpb	$1, 176(%r14)
	movq	32(%rsp), %rcx
	jne	.LBB26_46
	movq	16(%rsp), %r10
	cmpb	$0, 89(%r14)
	movq	%rdx, 24(%rsp)
	je	.LBB26_33
	movq	%r8, %rdi
	movq	%r10, %rsi
	movq	%rax, 40(%rsp)
	movq	%r9, %rbx
	callq	"pie_aqm::raw::wait"
	movq	24(%rsp), %rdx
	movq	%rbx, %r9
	movq	48(%rsp), %rsi
	movq	32(%rsp), %rcx
	movq	56(%rsp), %rdi
	movq	%rax, %r8
	movq	40(%rsp), %rax
	movq	%r8, 216(%r14)
	movl	12(%rsp), %ebx
	jmp	.LBB26_46
.LBB26_48:
	movq	296(%r14), %rsi
	leaq	88(%r14), %rdi
	movq	%r12, %rdx
	callq	"pie_aqm::controller::Controller::update"
	movq	48(%rsp), %rsi
	movq	56(%rsp), %rdi
	incq	304(%r14)
	incq	392(%r14)
	movq	424(%r14), %rcx
	cmpq	%rcx, %rax
	cmovaq	%rax, %rcx
	movq	%rcx, 424(%r14)
	movq	224(%r14), %rdx
	movq	240(%r14), %rcx
	movq	%rcx, 16(%rsp)
	movq	%rax, %r10
	movabsq	$-281474976710656, %rcx
	andq	%rcx, %r10
	movb	$3, %r9b
	movq	32(%rsp), %rcx
	movl	12(%rsp), %ebx
	jmp	.LBB26_49
.LBB26_25:
	movl	$105, %edx
	jmp	.LBB26_15
.LBB26_47:
	movq	168(%r14), %rax
	cmpq	%rax, %r12
	cmovaq	%r12, %rax
	movq	%rax, 168(%r14)
	incq	304(%r14)
	incq	384(%r14)
	movb	$2, %r9b
	xorl	%eax, %eax
	xorl	%r10d, %r10d
	xorl	%edx, %edx
	movq	$0, 16(%rsp)
	movq	32(%rsp), %rcx
.LBB26_49:
	movzwl	10(%rsp), %r11d
	jmp	.LBB26_50
.LBB26_33:
	movq	%r9, 72(%rsp)
	movq	160(%r14), %rdx
	cmpq	$65536, %rdx
	movl	$65536, %ebx
	cmovbq	%rdx, %rbx
	cmpb	$1, 192(%r14)
	jne	.LBB26_42
	movq	208(%r14), %r9
	movq	$-1, %rdx
	addq	80(%rsp), %r9
	jb	.LBB26_36
	movq	%r9, %rdx
.LBB26_36:
	cmpq	%rbx, %rdx
	jae	.LBB26_39
	movq	%rdx, 208(%r14)
	jmp	.LBB26_38
.LBB26_39:
	xorl	%edx, %edx
	movq	24(%rsp), %r9
	subq	200(%r14), %r9
	cmovaeq	%r9, %rdx
	cmpq	$1, %rdx
	adcq	$0, %rdx
	movq	184(%r14), %r9
	testq	%r9, %r9
	je	.LBB26_41
	movl	$65536, %r11d
	subq	%rbx, %r11
	movq	%rax, 40(%rsp)
	movq	%rdx, %rax
	mulq	%rbx
	movq	%rdx, %r10
	movq	%rax, 88(%rsp)
	movq	%r9, %rax
	mulq	%r11
	movq	%rax, %r9
	movq	40(%rsp), %rax
	addq	88(%rsp), %r9
	adcq	%r10, %rdx
	shldq	$48, %r9, %rdx
.LBB26_41:
	movq	%rdx, 184(%r14)
.LBB26_42:
	xorl	%edx, %edx
	movq	24(%rsp), %r9
	cmpq	%rbx, %r8
	setae	%r8b
	jae	.LBB26_44
	xorl	%r9d, %r9d
.LBB26_44:
	movb	%r8b, %dl
	movq	%rdx, 192(%r14)
	movq	%r9, 200(%r14)
	movq	$0, 208(%r14)
.LBB26_38:
	movl	12(%rsp), %ebx
	movq	72(%rsp), %r9
	movq	24(%rsp), %rdx
.LBB26_46:
	xorl	%r10d, %r10d
	subq	16(%rsp), %rdx
	movl	$0, %r8d
	movq	%r8, 16(%rsp)
	cmovbq	%r10, %rdx
	incq	304(%r14)
	movdqu	368(%r14), %xmm0
	movdqa	.LCPI26_0(%rip), %xmm1
	movq	80(%rsp), %r11
	pinsrq	$1, %r11, %xmm1
	paddq	%xmm0, %xmm1
	movdqu	%xmm1, 368(%r14)
	addq	%rdx, 432(%r14)
	adcq	$0, 440(%r14)
	movq	%rax, %r10
	movabsq	$-281474976710656, %r8
	andq	%r8, %r10
	shlq	$32, %r9
	orq	%r11, %r9
	movzwl	10(%rsp), %r11d
	movq	%r9, %rdx
	movb	$1, %r9b
.LBB26_50:
	movabsq	$281474976710655, %r8
	andq	%rax, %r8
	orq	%r10, %r8
	movq	296(%r14), %rax
	movq	416(%r14), %r10
	cmpq	%r10, %rax
	cmovaq	%rax, %r10
	movq	%r10, 416(%r14)
	movq	464(%r14), %rax
	movq	456(%r14), %r10
	cmpq	%rax, %r10
	jbe	.LBB26_54
	addq	472(%r14), %rax
	cmpq	%r10, %rax
	jae	.LBB26_53
	xorl	%r10d, %r10d
.LBB26_53:
	subq	%r10, %rax
	movq	448(%r14), %r10
	shlq	$6, %rax
	movb	%r9b, (%r10,%rax)
	movb	$0, 1(%r10,%rax)
	movw	%bx, 2(%r10,%rax)
	movb	$0, 4(%r10,%rax)
	movb	$0, 7(%r10,%rax)
	movw	$0, 5(%r10,%rax)
	movq	%r12, 8(%r10,%rax)
	movq	%r8, 16(%r10,%rax)
	movq	%rdx, 24(%r10,%rax)
	movq	16(%rsp), %r12
	movq	%r12, 32(%r10,%rax)
	pxor	%xmm0, %xmm0
	movdqu	%xmm0, 40(%r10,%rax)
	movq	$0, 56(%r10,%rax)
	incq	464(%r14)
.LBB26_54:
	cmpb	$1, %r9b
	je	.LBB26_57
	movzbl	%r9b, %eax
	cmpl	$3, %eax
	jne	.LBB26_74
	cmpb	$3, -2(%r13)
	sete	%al
	orb	$2, %al
	movl	$0, (%r13)
	movb	%al, -2(%r13)
	pxor	%xmm0, %xmm0
	movdqu	%xmm0, -52(%r13)
	movq	$0, -12(%r13)
	movb	$0, -1(%r13)
	movq	%r8, -36(%r13)
	movq	%rdx, -28(%r13)
	movq	16(%rsp), %rax
	movq	%rax, -20(%r13)
	jmp	.LBB26_61
.LBB26_57:
	movq	%rdx, %r9
	cmpq	$-1, %rsi
	je	.LBB26_60
	movl	%r9d, %eax
	subq	%rax, 64(%rsp)
	jae	.LBB26_60
	movq	$0, 64(%rsp)
	jmp	.LBB26_60
.LBB26_63:
	movq	%rcx, %rbp
	jmp	.LBB26_64
.LBB26_17:
	incq	%rbp
.LBB26_64:
	movl	12(%rsp), %ebx
.LBB26_65:
	movq	96(%rsp), %rdx
	movq	16(%rdx), %rcx
	movq	8(%rcx), %rax
	cmpb	$0, (%rcx)
	movq	$1, (%rcx)
	movq	%r14, 8(%rcx)
	movq	104(%rsp), %r13
	jne	.LBB26_75
	movq	8(%rdx), %rax
	#APP
	#NO_APP
	xorl	%r14d, %r14d
	xorl	%ecx, %ecx
	xchgq	%rcx, (%rax)
	#APP
	#NO_APP
.LBB26_67:
	movl	%ebx, 8(%r15)
	movq	(%rdi), %rax
	movq	%r15, (%rdi)
	testq	%rax, %rax
	je	.LBB26_72
	movq	(%rax), %r12
	movq	16(%rax), %r15
	movq	32(%rax), %rbx
	movq	%rax, %rdi
	callq	rattle_dealloc@PLT
	pxor	%xmm0, %xmm0
	movdqa	%xmm0, 160(%rsp)
	movdqa	%xmm0, 144(%rsp)
	movdqa	%xmm0, 128(%rsp)
	movdqa	%xmm0, 112(%rsp)
	movq	$0, 176(%rsp)
	#APP
	#NO_APP
	lock		decq	(%r12)
	#APP
	#NO_APP
	jne	.LBB26_70
	movq	72(%r12), %rax
	movq	%rax, 176(%rsp)
	movdqu	8(%r12), %xmm0
	movdqu	24(%r12), %xmm1
	movups	40(%r12), %xmm2
	movups	56(%r12), %xmm3
	movaps	%xmm3, 160(%rsp)
	movaps	%xmm2, 144(%rsp)
	movdqa	%xmm1, 128(%rsp)
	movdqa	%xmm0, 112(%rsp)
	movq	%r12, %rdi
	callq	rattle_dealloc@PLT
	leaq	112(%rsp), %rdi
	callq	"atomic_table::owned::Table::drop::<#1bc90b9fb1d10aae>"
.LBB26_70:
	testq	%rbx, %rbx
	je	.LBB26_72
	movq	%r15, %rdi
	callq	rattle_dealloc@PLT
.LBB26_72:
	movq	%rbp, (%r13)
	movl	%r14d, %eax
	addq	$184, %rsp
	popq	%rbx
	popq	%r12
	popq	%r13
	popq	%r14
	popq	%r15
	popq	%rbp
	retq
.LBB26_74:
	cmpb	$3, -2(%r13)
	sete	%al
	orb	$2, %al
	movl	$0, (%r13)
	pxor	%xmm0, %xmm0
	movdqu	%xmm0, -44(%r13)
	movdqu	%xmm0, -28(%r13)
	movb	%al, -2(%r13)
	movq	$0, -52(%r13)
	movabsq	$21474836480, %rax
	movq	%rax, -12(%r13)
	movb	$0, -1(%r13)
	movw	%r11w, -4(%r13)
	incq	%rbp
	jmp	.LBB26_65
.LBB26_73:
	ud2
.LBB26_75:
	movq	%rax, %rdi
	callq	"pie_link::pie_link++kept_book++KeptBook+Destruct::drop"
	ud2
.Lfunc_end26:
	.size	pie_link_try_depart_all, .Lfunc_end26-pie_link_try_depart_all

	.section	.text.pie_link_try_arrive,"ax",@progbits
	.globl	pie_link_try_arrive
	.p2align	4
	.type	pie_link_try_arrive,@function
pie_link_try_arrive:
	pushq	%rbp
	pushq	%r15
	pushq	%r14
	pushq	%r13
	pushq	%r12
	pushq	%rbx
	subq	$200, %rsp
	movq	(%rdi), %r13
	movq	$0, (%rdi)
	testq	%r13, %r13
	je	.LBB27_3
	movzwl	8(%r13), %r14d
	movzbl	59(%rsi), %ebp
	cmpq	$4, %rbp
	jb	.LBB27_4
	movb	$1, 58(%rsi)
	movl	$111, 52(%rsi)
	movl	$0, 60(%rsi)
	xorps	%xmm0, %xmm0
	movups	%xmm0, 24(%rsi)
	movq	$0, 40(%rsi)
	movw	%r14w, 56(%rsi)
	movl	$111, %r12d
	jmp	.LBB27_13
.LBB27_3:
	movl	$122, %r12d
	jmp	.LBB27_18
.LBB27_4:
	movq	(%rsi), %r10
	movq	8(%rsi), %r11
	movl	48(%rsi), %r8d
	movq	(%r13), %r15
	movq	16(%rsi), %r9
	movl	8(%r13), %ebx
	movq	8(%r15), %rax
	#APP
	#NO_APP
	movq	(%rax), %rax
	#APP
	#NO_APP
	testq	%rax, %rax
	jne	.LBB27_12
	movq	8(%r15), %rcx
	#APP
	#NO_APP
	movl	$1, %edx
	xorl	%eax, %eax
	lock		cmpxchgq	%rdx, (%rcx)
	#APP
	#NO_APP
	jne	.LBB27_12
	movq	16(%r15), %rax
	movq	8(%rax), %rdx
	cmpb	$1, (%rax)
	xorps	%xmm0, %xmm0
	movups	%xmm0, (%rax)
	jne	.LBB27_65
	movq	%r10, %rax
	shrq	$60, %rax
	movl	$101, %r12d
	jne	.LBB27_10
	leal	-65536(%r8), %eax
	movl	$102, %r12d
	cmpl	$-65535, %eax
	jb	.LBB27_10
	movq	304(%rdx), %rax
	movl	$104, %r12d
	cmpq	80(%rdx), %rax
	jne	.LBB27_19
.LBB27_10:
	movq	16(%r15), %rcx
	movq	8(%rcx), %rax
	cmpb	$0, (%rcx)
	movq	$1, (%rcx)
	movq	%rdx, 8(%rcx)
	jne	.LBB27_66
	movq	8(%r15), %rax
	#APP
	#NO_APP
	xorl	%ecx, %ecx
	xchgq	%rcx, (%rax)
	#APP
	#NO_APP
	movl	%ebx, 8(%r13)
	movb	$1, 58(%rsi)
	movl	%r12d, 52(%rsi)
	movl	$0, 60(%rsi)
	movups	%xmm0, 24(%rsi)
	movq	$0, 40(%rsi)
	movw	%r14w, 56(%rsi)
	jmp	.LBB27_13
.LBB27_12:
	movl	%ebx, 8(%r13)
	movl	$121, %r12d
.LBB27_13:
	movq	(%rdi), %rax
	movq	%r13, (%rdi)
	testq	%rax, %rax
	je	.LBB27_18
	movq	(%rax), %r14
	movq	16(%rax), %rbx
	movq	32(%rax), %r15
	movq	%rax, %rdi
	callq	rattle_dealloc@PLT
	xorps	%xmm0, %xmm0
	movaps	%xmm0, 176(%rsp)
	movaps	%xmm0, 160(%rsp)
	movaps	%xmm0, 144(%rsp)
	movaps	%xmm0, 128(%rsp)
	movq	$0, 192(%rsp)
	#APP
	#NO_APP
	lock		decq	(%r14)
	#APP
	#NO_APP
	jne	.LBB27_16
	movq	72(%r14), %rax
	movq	%rax, 192(%rsp)
	movups	8(%r14), %xmm0
	movups	24(%r14), %xmm1
	movups	40(%r14), %xmm2
	movups	56(%r14), %xmm3
	movaps	%xmm3, 176(%rsp)
	movaps	%xmm2, 160(%rsp)
	movaps	%xmm1, 144(%rsp)
	movaps	%xmm0, 128(%rsp)
	movq	%r14, %rdi
	callq	rattle_dealloc@PLT
	leaq	128(%rsp), %rdi
	callq	"atomic_table::owned::Table::drop::<#1bc90b9fb1d10aae>"
.LBB27_16:
	testq	%r15, %r15
	je	.LBB27_18
	movq	%rbx, %rdi
	callq	rattle_dealloc@PLT
.LBB27_18:
	movl	%r12d, %eax
	addq	$200, %rsp
	popq	%rbx
	popq	%r12
	popq	%r13
	popq	%r14
	popq	%r15
	popq	%rbp
	retq
.LBB27_19:
	movq	%r8, 64(%rsp)
	movq	464(%rdx), %rax
	movq	480(%rdx), %rcx
	movq	%rdx, 16(%rsp)
	movq	%rax, %rdx
	subq	%rcx, %rdx
	movq	16(%rsp), %r8
	movl	12(%r8), %r8d
	cmpq	%r8, %rdx
	movq	16(%rsp), %rdx
	jb	.LBB27_22
	cmpb	$0, 72(%rdx)
	je	.LBB27_30
	incq	%rcx
	movq	%rcx, 480(%rdx)
.LBB27_22:
	movq	%r11, 56(%rsp)
	movq	%rbp, %r8
	shlq	$32, %r8
	subq	1232(%rdx), %rax
	cmpq	1240(%rdx), %rax
	movq	%rdi, 80(%rsp)
	movq	%r10, 72(%rsp)
	movq	%r9, 48(%rsp)
	jne	.LBB27_24
	movq	%rdx, %rdi
	movq	%rsi, %r12
	movq	%r8, 40(%rsp)
	callq	"pie_book::book::Book::copy_running"
	movq	40(%rsp), %r8
	movq	16(%rsp), %rdx
	movq	48(%rsp), %r9
	movq	72(%rsp), %r10
	movq	%r12, %rsi
.LBB27_24:
	movq	64(%rsp), %rcx
	orq	%rcx, %r8
	movq	%r8, 40(%rsp)
	leaq	304(%rdx), %rax
	movq	%rax, 32(%rsp)
	movq	168(%rdx), %rax
	movq	272(%rdx), %r8
	cmpq	%rax, %r10
	cmovaq	%r10, %rax
	movq	%rax, 24(%rsp)
	movq	296(%rdx), %rax
	movq	280(%rdx), %r11
	cmpb	$0, 90(%rdx)
	movq	%rsi, 88(%rsp)
	jne	.LBB27_26
	cmpb	$0, 92(%rdx)
	je	.LBB27_41
.LBB27_26:
	leaq	88(%rdx), %rdi
	xorl	%edx, %edx
	cmpq	%r8, %r11
	sete	%dl
	movq	%r10, (%rsp)
	movq	%rax, %rsi
	movl	%ebp, %r8d
	callq	"pie_aqm::raw::RawController::arrive_out_of_line"
	movq	32(%rsp), %rdi
.LBB27_27:
	movl	%eax, %r12d
	movzbl	%al, %ebp
	movl	%ebp, %esi
	callq	"pie_book::tally::Tally::arrived"
	movq	56(%rsp), %rdi
	movq	%rdi, 112(%rsp)
	movq	40(%rsp), %rsi
	movq	%rsi, 120(%rsp)
	movabsq	$12884901888, %rax
	movq	%rax, 104(%rsp)
	leal	-2(%rbp), %eax
	cmpl	$3, %eax
	jb	.LBB27_32
	movq	16(%rsp), %rax
	leaq	264(%rax), %rsi
	cmpl	$1, %ebp
	jne	.LBB27_31
	movq	%rdi, 96(%rsp)
	movq	64(%rsp), %rax
	movl	%eax, 104(%rsp)
	leaq	128(%rsp), %rdi
	leaq	96(%rsp), %rdx
	movq	24(%rsp), %rcx
	callq	"pie_queue::queue::ByteQueue::admit"
	movq	40(%rsp), %rsi
	movq	56(%rsp), %rdi
	jmp	.LBB27_32
.LBB27_30:
	movl	$105, %r12d
	jmp	.LBB27_10
.LBB27_31:
	leaq	128(%rsp), %rdi
	leaq	112(%rsp), %rdx
	movq	24(%rsp), %rcx
	callq	"pie_queue::queue::ByteQueue::admit"
	movq	56(%rsp), %rdi
	movq	40(%rsp), %rsi
.LBB27_32:
	movq	16(%rsp), %rdx
	movq	296(%rdx), %rax
	movq	416(%rdx), %rcx
	cmpq	%rcx, %rax
	cmovaq	%rax, %rcx
	movq	%rcx, 416(%rdx)
	movq	464(%rdx), %rax
	movq	456(%rdx), %rcx
	cmpq	%rax, %rcx
	jbe	.LBB27_34
	addq	472(%rdx), %rax
	xorl	%edx, %edx
	cmpq	%rcx, %rax
	cmovaeq	%rcx, %rdx
	subq	%rdx, %rax
	movq	16(%rsp), %rcx
	movq	448(%rcx), %rcx
	shlq	$6, %rax
	movw	$0, (%rcx,%rax)
	movw	%bx, 2(%rcx,%rax)
	movb	%r12b, 4(%rcx,%rax)
	movw	$0, 5(%rcx,%rax)
	movb	$0, 7(%rcx,%rax)
	movq	72(%rsp), %rdx
	movq	%rdx, 8(%rcx,%rax)
	movq	16(%rsp), %rdx
	movq	%rdi, 16(%rcx,%rax)
	movq	%rsi, 24(%rcx,%rax)
	movq	48(%rsp), %rsi
	movq	%rsi, 32(%rcx,%rax)
	xorps	%xmm0, %xmm0
	movups	%xmm0, 40(%rcx,%rax)
	movq	$0, 56(%rcx,%rax)
	incq	464(%rdx)
.LBB27_34:
	movq	16(%r15), %rcx
	movq	8(%rcx), %rax
	cmpb	$0, (%rcx)
	movq	$1, (%rcx)
	movq	%rdx, 8(%rcx)
	movq	80(%rsp), %rdi
	movq	88(%rsp), %rcx
	jne	.LBB27_66
	movq	8(%r15), %rax
	#APP
	#NO_APP
	xorl	%edx, %edx
	xchgq	%rdx, (%rax)
	xorl	%r12d, %r12d
	#APP
	#NO_APP
	movl	%ebx, 8(%r13)
	movb	$1, 58(%rcx)
	leaq	24(%rcx), %rax
	leaq	.LJTI27_0(%rip), %rdx
	movslq	(%rdx,%rbp,4), %rsi
	addq	%rdx, %rsi
	jmpq	*%rsi
.LBB27_36:
	movl	$0, 52(%rcx)
	movl	$0, 60(%rcx)
	xorps	%xmm0, %xmm0
	movups	%xmm0, (%rax)
	movq	$0, 16(%rax)
	movw	%r14w, 56(%rcx)
	jmp	.LBB27_13
.LBB27_37:
	movl	$4, 52(%rcx)
	movl	$0, 60(%rcx)
	xorps	%xmm0, %xmm0
	movups	%xmm0, (%rax)
	movq	$0, 16(%rax)
	movw	%r14w, 56(%rcx)
	movl	$4, %r12d
	jmp	.LBB27_13
.LBB27_38:
	movl	$2, 52(%rcx)
	movl	$0, 60(%rcx)
	xorps	%xmm0, %xmm0
	movups	%xmm0, (%rax)
	movq	$0, 16(%rax)
	movw	%r14w, 56(%rcx)
	movl	$2, %r12d
	jmp	.LBB27_13
.LBB27_39:
	movl	$3, 52(%rcx)
	movl	$0, 60(%rcx)
	xorps	%xmm0, %xmm0
	movups	%xmm0, (%rax)
	movq	$0, 16(%rax)
	movw	%r14w, 56(%rcx)
	movl	$3, %r12d
	jmp	.LBB27_13
.LBB27_40:
	movl	$1, 52(%rcx)
	movl	$0, 60(%rcx)
	xorps	%xmm0, %xmm0
	movups	%xmm0, (%rax)
	movq	$0, 16(%rax)
	movw	%r14w, 56(%rcx)
	movl	$1, %r12d
	jmp	.LBB27_13
.LBB27_41:
	movq	%rdx, %r12
	leaq	(%rax,%rcx), %rdx
	movq	144(%r12), %rcx
	cmpq	%r8, %r11
	je	.LBB27_46
	cmpq	%rdx, %rcx
	jb	.LBB27_46
	movq	16(%rsp), %rdx
	cmpb	$0, 176(%rdx)
	je	.LBB27_48
	movq	256(%rdx), %rcx
	cmpq	$0, 240(%rdx)
	jne	.LBB27_45
	movq	%rax, %rdx
	shrq	%rdx
	subq	%rdx, %rax
	movq	16(%rsp), %rdx
	cmpq	%rax, 136(%rdx)
	jae	.LBB27_45
	movq	96(%rdx), %rax
	movq	224(%rdx), %rsi
	movq	%rdx, %rdi
	movq	%rax, %rdx
	shrq	%rdx
	subq	%rdx, %rax
	cmpq	%rax, 232(%rdi)
	jae	.LBB27_56
	movq	%rsi, %rax
	shrq	$12, %rax
	cmpq	$48828125, %rax
	jae	.LBB27_57
	jmp	.LBB27_63
.LBB27_46:
	cmpq	%rdx, %rcx
	movb	$4, %r11b
	sbbb	$0, %r11b
	movq	16(%rsp), %rdx
	movq	$0, 256(%rdx)
	movq	24(%rsp), %r8
	movq	%r8, 168(%rdx)
	cmpb	$0, 176(%rdx)
	jne	.LBB27_51
	xorl	%edx, %edx
	jmp	.LBB27_49
.LBB27_48:
	movq	24(%rsp), %r8
	movq	%r8, 168(%rdx)
	xorl	%r11d, %r11d
	movq	64(%rsp), %rdx
.LBB27_49:
	addq	%rax, %rdx
	leaq	(%rdx,%rdx,2), %rax
	cmpq	%rax, %rcx
	ja	.LBB27_51
	xorps	%xmm0, %xmm0
	movq	16(%rsp), %rcx
	movups	%xmm0, 200(%rcx)
	movups	%xmm0, 184(%rcx)
	movq	$0, 216(%rcx)
	movq	112(%rcx), %rax
	movups	%xmm0, 224(%rcx)
	movq	%rax, 240(%rcx)
	movq	$0, 256(%rcx)
	movb	$1, 176(%rcx)
.LBB27_51:
	movq	32(%rsp), %rdi
	movl	%r11d, %eax
	jmp	.LBB27_27
.LBB27_45:
	xorl	%esi, %esi
.LBB27_64:
	movq	%rcx, 256(%rdx)
	movq	24(%rsp), %rax
	movq	%rax, 168(%rdx)
	movq	32(%rsp), %rdi
	movl	%esi, %eax
	jmp	.LBB27_27
.LBB27_56:
	testq	%rsi, %rsi
	je	.LBB27_62
.LBB27_57:
	addq	%rsi, %rcx
	jae	.LBB27_59
.LBB27_58:
	testq	%rbp, %rbp
	setne	%al
	movq	16(%rsp), %rdx
	cmpq	152(%rdx), %rsi
	setb	%cl
	andb	%al, %cl
	movb	$2, %sil
	subb	%cl, %sil
	xorl	%ecx, %ecx
	jmp	.LBB27_64
.LBB27_59:
	movq	%rcx, %rax
	shrq	$10, %rax
	cmpq	$830078125, %rax
	jb	.LBB27_63
	movabsq	$8499999999999, %rax
	cmpq	%rax, %rcx
	ja	.LBB27_58
	movabsq	$1000000000000, %rdx
	movq	48(%rsp), %rax
	mulq	%rdx
	cmpq	%rsi, %rdx
	jb	.LBB27_58
	jmp	.LBB27_63
.LBB27_62:
	xorl	%ecx, %ecx
.LBB27_63:
	xorl	%esi, %esi
	movq	16(%rsp), %rdx
	jmp	.LBB27_64
.LBB27_65:
	ud2
.LBB27_66:
	movq	%rax, %rdi
	callq	"pie_link::pie_link++kept_book++KeptBook+Destruct::drop"
	ud2
.Lfunc_end27:
	.size	pie_link_try_arrive, .Lfunc_end27-pie_link_try_arrive
	.section	.rodata.pie_link_try_arrive,"a",@progbits
	.p2align	2, 0x0
.LJTI27_0:
	.long	.LBB27_36-.LJTI27_0
	.long	.LBB27_40-.LJTI27_0
	.long	.LBB27_38-.LJTI27_0
	.long	.LBB27_39-.LJTI27_0
	.long	.LBB27_37-.LJTI27_0

	.section	.rodata.cst16,"aM",@progbits,16
	.p2align	4, 0x0
.LCPI28_0:
	.quad	1
	.zero	8
	.section	.text.pie_link_try_depart,"ax",@progbits
	.globl	pie_link_try_depart
	.p2align	4
	.type	pie_link_try_depart,@function
pie_link_try_depart:
	pushq	%rbp
	pushq	%r15
	pushq	%r14
	pushq	%r13
	pushq	%r12
	pushq	%rbx
	subq	$152, %rsp
	movq	(%rdi), %r13
	movq	$0, (%rdi)
	testq	%r13, %r13
	je	.LBB28_1
	movzwl	8(%r13), %r9d
	movq	(%r13), %r12
	movq	(%rsi), %rbp
	movl	8(%r13), %r15d
	movq	8(%r12), %rax
	#APP
	#NO_APP
	movq	(%rax), %rax
	#APP
	#NO_APP
	testq	%rax, %rax
	jne	.LBB28_36
	movq	8(%r12), %rcx
	#APP
	#NO_APP
	movl	$1, %edx
	xorl	%eax, %eax
	lock		cmpxchgq	%rdx, (%rcx)
	#APP
	#NO_APP
	jne	.LBB28_36
	movq	16(%r12), %rax
	movq	8(%rax), %rbx
	cmpb	$1, (%rax)
	pxor	%xmm0, %xmm0
	movdqu	%xmm0, (%rax)
	jne	.LBB28_43
	movq	%rbp, %rax
	shrq	$60, %rax
	movl	$101, %r14d
	jne	.LBB28_10
	movq	304(%rbx), %rax
	movl	$104, %r14d
	cmpq	80(%rbx), %rax
	jne	.LBB28_7
.LBB28_10:
	movq	16(%r12), %rcx
	movq	8(%rcx), %rax
	cmpb	$0, (%rcx)
	movq	$1, (%rcx)
	movq	%rbx, 8(%rcx)
	jne	.LBB28_44
	movq	8(%r12), %rax
	#APP
	#NO_APP
	xorl	%ecx, %ecx
	xchgq	%rcx, (%rax)
	#APP
	#NO_APP
	movl	%r15d, 8(%r13)
	movl	%r14d, 52(%rsi)
	movl	$0, 60(%rsi)
	movdqu	%xmm0, 16(%rsi)
	movdqu	%xmm0, 32(%rsi)
	movw	$2, 58(%rsi)
	movq	$0, 8(%rsi)
	movl	$0, 48(%rsi)
	movw	%r9w, 56(%rsi)
	jmp	.LBB28_37
.LBB28_36:
	movl	%r15d, 8(%r13)
	movl	$121, %r14d
.LBB28_37:
	movq	(%rdi), %rax
	movq	%r13, (%rdi)
	testq	%rax, %rax
	je	.LBB28_42
	movq	(%rax), %r15
	movq	16(%rax), %rbx
	movq	32(%rax), %r12
	movq	%rax, %rdi
	callq	rattle_dealloc@PLT
	pxor	%xmm0, %xmm0
	movdqa	%xmm0, 128(%rsp)
	movdqa	%xmm0, 112(%rsp)
	movdqa	%xmm0, 96(%rsp)
	movdqa	%xmm0, 80(%rsp)
	movq	$0, 144(%rsp)
	#APP
	#NO_APP
	lock		decq	(%r15)
	#APP
	#NO_APP
	jne	.LBB28_40
	movq	72(%r15), %rax
	movq	%rax, 144(%rsp)
	movdqu	8(%r15), %xmm0
	movdqu	24(%r15), %xmm1
	movups	40(%r15), %xmm2
	movups	56(%r15), %xmm3
	movaps	%xmm3, 128(%rsp)
	movaps	%xmm2, 112(%rsp)
	movdqa	%xmm1, 96(%rsp)
	movdqa	%xmm0, 80(%rsp)
	movq	%r15, %rdi
	callq	rattle_dealloc@PLT
	leaq	80(%rsp), %rdi
	callq	"atomic_table::owned::Table::drop::<#1bc90b9fb1d10aae>"
.LBB28_40:
	testq	%r12, %r12
	je	.LBB28_42
	movq	%rbx, %rdi
	callq	rattle_dealloc@PLT
	jmp	.LBB28_42
.LBB28_1:
	movl	$122, %r14d
.LBB28_42:
	movl	%r14d, %eax
	addq	$152, %rsp
	popq	%rbx
	popq	%r12
	popq	%r13
	popq	%r14
	popq	%r15
	popq	%rbp
	retq
.LBB28_7:
	movq	464(%rbx), %rax
	movq	480(%rbx), %rcx
	movq	%rax, %rdx
	subq	%rcx, %rdx
	movl	12(%rbx), %r8d
	cmpq	%r8, %rdx
	jb	.LBB28_14
	cmpb	$0, 72(%rbx)
	je	.LBB28_9
	incq	%rcx
	movq	%rcx, 480(%rbx)
.LBB28_14:
	subq	1232(%rbx), %rax
	cmpq	1240(%rbx), %rax
	jne	.LBB28_16
	movq	%rdi, 16(%rsp)
	movq	%rbx, %rdi
	movq	%rsi, %r14
	movw	%r9w, 10(%rsp)
	callq	"pie_book::book::Book::copy_running"
	movzwl	10(%rsp), %r9d
	movq	%r14, %rsi
	movq	16(%rsp), %rdi
.LBB28_16:
	movq	280(%rbx), %r11
	testq	%r11, %r11
	je	.LBB28_29
	movq	288(%rbx), %rax
	movq	272(%rbx), %rcx
	leaq	1(%rax), %rdx
	xorl	%r8d, %r8d
	cmpq	%rcx, %rdx
	cmovaeq	%rcx, %r8
	negq	%r8
	leaq	(%rax,%r8), %rcx
	incq	%rcx
	movq	%rcx, 288(%rbx)
	leaq	-1(%r11), %rcx
	movq	%rcx, 280(%rbx)
	movq	264(%rbx), %rcx
	leaq	(%rax,%rax,2), %rax
	movq	(%rcx,%rax,8), %r8
	movl	8(%rcx,%rax,8), %r14d
	movl	12(%rcx,%rax,8), %r10d
	movq	16(%rcx,%rax,8), %rcx
	movq	296(%rbx), %rdx
	movq	%r14, 64(%rsp)
	subq	%r14, %rdx
	movq	%rdx, 296(%rbx)
	movq	168(%rbx), %r14
	cmpq	%r14, %rbp
	cmovaq	%rbp, %r14
	movq	%r14, 168(%rbx)
	cmpb	$1, 176(%rbx)
	jne	.LBB28_28
	movq	%r10, 56(%rsp)
	cmpb	$0, 89(%rbx)
	movq	%rcx, 48(%rsp)
	je	.LBB28_19
	movq	%rdi, 16(%rsp)
	movq	%rdx, %rdi
	movq	%rsi, 72(%rsp)
	movq	%rcx, %rsi
	movq	%rdx, 24(%rsp)
	movq	%r14, %rdx
	movw	%r9w, 10(%rsp)
	movq	%r11, 40(%rsp)
	movq	%r8, 32(%rsp)
	callq	"pie_aqm::raw::wait"
	movq	48(%rsp), %rcx
	movq	24(%rsp), %rdx
	movq	32(%rsp), %r8
	movq	40(%rsp), %r11
	movzwl	10(%rsp), %r9d
	movq	72(%rsp), %rsi
	movq	16(%rsp), %rdi
	movq	%rax, 216(%rbx)
	movq	56(%rsp), %r10
	jmp	.LBB28_28
.LBB28_29:
	movq	168(%rbx), %rax
	cmpq	%rax, %rbp
	cmovaq	%rbp, %rax
	movq	%rax, 168(%rbx)
	incq	304(%rbx)
	incq	384(%rbx)
	movb	$0, 14(%rsp)
	movw	$0, 12(%rsp)
	pxor	%xmm0, %xmm0
	movdqa	%xmm0, 80(%rsp)
	movq	$0, 96(%rsp)
	movq	296(%rbx), %rdx
	movb	$2, %al
	xorl	%r10d, %r10d
	xorl	%r8d, %r8d
	jmp	.LBB28_30
.LBB28_9:
	movl	$105, %r14d
	jmp	.LBB28_10
.LBB28_19:
	movq	160(%rbx), %rax
	cmpq	$65536, %rax
	movl	$65536, %r10d
	cmovbq	%rax, %r10
	cmpb	$1, 192(%rbx)
	jne	.LBB28_26
	movq	208(%rbx), %rcx
	addq	64(%rsp), %rcx
	movq	$-1, %rax
	cmovaeq	%rcx, %rax
	cmpq	%r10, %rax
	jae	.LBB28_23
	movq	%rax, 208(%rbx)
	jmp	.LBB28_22
.LBB28_23:
	xorl	%eax, %eax
	movq	%r14, %rcx
	subq	200(%rbx), %rcx
	cmovaeq	%rcx, %rax
	cmpq	$1, %rax
	adcq	$0, %rax
	movq	184(%rbx), %rcx
	testq	%rcx, %rcx
	je	.LBB28_25
	movq	%r11, 40(%rsp)
	movl	$65536, %r11d
	subq	%r10, %r11
	movq	%rdx, 24(%rsp)
	mulq	%r10
	movq	%rdx, 16(%rsp)
	movq	%r8, 32(%rsp)
	movl	%r9d, %r8d
	movq	%rax, %r9
	movq	%rcx, %rax
	mulq	%r11
	movq	40(%rsp), %r11
	movq	%rax, %rcx
	addq	%r9, %rcx
	movl	%r8d, %r9d
	movq	32(%rsp), %r8
	movq	%rdx, %rax
	movq	24(%rsp), %rdx
	adcq	16(%rsp), %rax
	shldq	$48, %rcx, %rax
.LBB28_25:
	movq	%rax, 184(%rbx)
.LBB28_26:
	xorl	%eax, %eax
	xorl	%ecx, %ecx
	cmpq	%r10, %rdx
	cmovaeq	%r14, %rax
	setae	%cl
	movq	%rcx, 192(%rbx)
	movq	%rax, 200(%rbx)
	movq	$0, 208(%rbx)
.LBB28_22:
	movq	56(%rsp), %r10
	movq	48(%rsp), %rcx
.LBB28_28:
	xorl	%eax, %eax
	subq	%rcx, %r14
	cmovaeq	%r14, %rax
	incq	304(%rbx)
	movdqu	368(%rbx), %xmm0
	movdqa	.LCPI28_0(%rip), %xmm1
	movq	64(%rsp), %rcx
	pinsrq	$1, %rcx, %xmm1
	paddq	%xmm0, %xmm1
	movdqu	%xmm1, 368(%rbx)
	addq	%rax, 432(%rbx)
	adcq	$0, 440(%rbx)
	movb	$0, 14(%rsp)
	movw	$0, 12(%rsp)
	pxor	%xmm0, %xmm0
	movdqa	%xmm0, 80(%rsp)
	movq	$0, 96(%rsp)
	shlq	$32, %r10
	orq	%rcx, %r10
	movb	$1, %al
.LBB28_30:
	movq	416(%rbx), %rcx
	cmpq	%rcx, %rdx
	cmovaq	%rdx, %rcx
	movq	456(%rbx), %rdx
	movq	%rcx, 416(%rbx)
	movq	464(%rbx), %rcx
	cmpq	%rcx, %rdx
	jbe	.LBB28_32
	addq	472(%rbx), %rcx
	movq	%r8, %r14
	xorl	%r8d, %r8d
	cmpq	%rdx, %rcx
	cmovaeq	%rdx, %r8
	subq	%r8, %rcx
	movq	%r14, %r8
	movq	448(%rbx), %rdx
	shlq	$6, %rcx
	movb	%al, (%rdx,%rcx)
	movb	$0, 1(%rdx,%rcx)
	movw	%r15w, 2(%rdx,%rcx)
	movb	$0, 4(%rdx,%rcx)
	movzwl	12(%rsp), %eax
	movw	%ax, 5(%rdx,%rcx)
	movzbl	14(%rsp), %eax
	movb	%al, 7(%rdx,%rcx)
	movq	%rbp, 8(%rdx,%rcx)
	movq	%r14, 16(%rdx,%rcx)
	movq	%r10, 24(%rdx,%rcx)
	movq	$0, 32(%rdx,%rcx)
	movdqa	80(%rsp), %xmm0
	movdqu	%xmm0, 40(%rdx,%rcx)
	movq	96(%rsp), %rax
	movq	%rax, 56(%rdx,%rcx)
	incq	464(%rbx)
.LBB28_32:
	movq	16(%r12), %rcx
	movq	8(%rcx), %rax
	cmpb	$0, (%rcx)
	movq	$1, (%rcx)
	movq	%rbx, 8(%rcx)
	jne	.LBB28_44
	leaq	16(%rsi), %rax
	movq	8(%r12), %rcx
	#APP
	#NO_APP
	movl	$0, %edx
	xchgq	%rdx, (%rcx)
	xorl	%r14d, %r14d
	#APP
	#NO_APP
	movl	%r15d, 8(%r13)
	testq	%r11, %r11
	je	.LBB28_35
	movq	%r10, %rcx
	shrq	$32, %rcx
	movl	$0, 52(%rsi)
	movl	$0, 60(%rsi)
	pxor	%xmm0, %xmm0
	movdqu	%xmm0, 16(%rax)
	movdqu	%xmm0, (%rax)
	movb	$2, 58(%rsi)
	movq	%r8, 8(%rsi)
	movl	%r10d, 48(%rsi)
	movb	%cl, 59(%rsi)
	movw	%r9w, 56(%rsi)
	jmp	.LBB28_37
.LBB28_35:
	movl	$5, 52(%rsi)
	movl	$0, 60(%rsi)
	pxor	%xmm0, %xmm0
	movdqu	%xmm0, 16(%rax)
	movdqu	%xmm0, (%rax)
	movw	$2, 58(%rsi)
	movq	$0, 8(%rsi)
	movl	$0, 48(%rsi)
	movw	%r9w, 56(%rsi)
	movl	$5, %r14d
	jmp	.LBB28_37
.LBB28_43:
	ud2
.LBB28_44:
	movq	%rax, %rdi
	callq	"pie_link::pie_link++kept_book++KeptBook+Destruct::drop"
	ud2
.Lfunc_end28:
	.size	pie_link_try_depart, .Lfunc_end28-pie_link_try_depart

	.section	.text.pie_link_try_reset,"ax",@progbits
	.globl	pie_link_try_reset
	.p2align	4
	.type	pie_link_try_reset,@function
pie_link_try_reset:
	pushq	%rbp
	pushq	%r15
	pushq	%r14
	pushq	%r12
	pushq	%rbx
	subq	$128, %rsp
	movq	(%rdi), %r15
	movq	$0, (%rdi)
	testq	%r15, %r15
	je	.LBB29_1
	movq	%rsi, %r14
	movq	%rdi, %rbx
	leaq	8(%r15), %rsi
	movzwl	8(%r15), %r12d
	movq	(%r15), %rdx
	addq	$8, %rdx
	movq	(%r14), %rax
	xorps	%xmm0, %xmm0
	movaps	%xmm0, 80(%rsp)
	movaps	%xmm0, 96(%rsp)
	movaps	%xmm0, 112(%rsp)
	movq	$3, (%rsp)
	movq	%rax, 8(%rsp)
	movups	%xmm0, 16(%rsp)
	movups	%xmm0, 32(%rsp)
	movups	%xmm0, 48(%rsp)
	leaq	80(%rsp), %rdi
	movq	%rsp, %rcx
	callq	"core::mem::replace_with::<#c61a209208d31057>"
	movzbl	88(%rsp), %eax
	movq	96(%rsp), %rcx
	cmpb	$0, 80(%rsp)
	je	.LBB29_3
	testq	%rax, %rax
	je	.LBB29_18
	movzbl	%cl, %ebp
	addl	$101, %ebp
	movl	%ebp, 52(%r14)
	movl	$0, 60(%r14)
	xorps	%xmm0, %xmm0
	movups	%xmm0, 16(%r14)
	movups	%xmm0, 32(%r14)
	movw	$4, 58(%r14)
	movq	$0, 8(%r14)
	movl	$0, 48(%r14)
	movw	%r12w, 56(%r14)
	movq	(%rbx), %rdi
	movq	%r15, (%rbx)
	testq	%rdi, %rdi
	jne	.LBB29_21
	jmp	.LBB29_25
.LBB29_1:
	movl	$122, %ebp
	jmp	.LBB29_25
.LBB29_3:
	leaq	.LJTI29_0(%rip), %rdx
	movslq	(%rdx,%rax,4), %rsi
	addq	%rdx, %rsi
	jmpq	*%rsi
.LBB29_11:
	movq	104(%rsp), %rdx
	movups	104(%rsp), %xmm0
	movl	$0, 60(%r14)
	xorps	%xmm1, %xmm1
	movups	%xmm1, 16(%r14)
	movups	%xmm1, 32(%r14)
	movw	$4, 58(%r14)
	movq	$0, 8(%r14)
	movq	$0, 48(%r14)
	cmpb	$6, %al
	jb	.LBB29_10
	cmpl	$8, %eax
	je	.LBB29_10
	cmpl	$7, %eax
	jne	.LBB29_14
	movq	%rcx, 24(%r14)
	movups	%xmm0, 32(%r14)
	jmp	.LBB29_16
.LBB29_18:
	movl	$121, %ebp
	movq	(%rbx), %rdi
	movq	%r15, (%rbx)
	testq	%rdi, %rdi
	jne	.LBB29_21
	jmp	.LBB29_25
.LBB29_7:
	movl	$4, %ecx
	jmp	.LBB29_9
.LBB29_5:
	movl	$2, %ecx
	jmp	.LBB29_9
.LBB29_6:
	movl	$3, %ecx
	jmp	.LBB29_9
.LBB29_8:
	movl	$5, %ecx
	jmp	.LBB29_9
.LBB29_4:
	movl	%eax, %ecx
.LBB29_9:
	movl	%ecx, 52(%r14)
	movl	$0, 60(%r14)
	xorps	%xmm0, %xmm0
	movups	%xmm0, 16(%r14)
	movups	%xmm0, 32(%r14)
	movw	$4, 58(%r14)
	movq	$0, 8(%r14)
	movl	$0, 48(%r14)
.LBB29_10:
	movw	%r12w, 56(%r14)
	leaq	.Lswitch.table.pie_link_try_set_params(%rip), %rcx
	movl	(%rcx,%rax,4), %ebp
	movq	(%rbx), %rdi
	movq	%r15, (%rbx)
	testq	%rdi, %rdi
	je	.LBB29_25
.LBB29_21:
	movq	(%rdi), %r14
	movq	16(%rdi), %rbx
	movq	32(%rdi), %r15
	callq	rattle_dealloc@PLT
	xorps	%xmm0, %xmm0
	movaps	%xmm0, 48(%rsp)
	movaps	%xmm0, 32(%rsp)
	movaps	%xmm0, 16(%rsp)
	movaps	%xmm0, (%rsp)
	movq	$0, 64(%rsp)
	#APP
	#NO_APP
	lock		decq	(%r14)
	#APP
	#NO_APP
	jne	.LBB29_23
	movq	72(%r14), %rax
	movq	%rax, 64(%rsp)
	movups	8(%r14), %xmm0
	movups	24(%r14), %xmm1
	movups	40(%r14), %xmm2
	movups	56(%r14), %xmm3
	movaps	%xmm3, 48(%rsp)
	movaps	%xmm2, 32(%rsp)
	movaps	%xmm1, 16(%rsp)
	movaps	%xmm0, (%rsp)
	movq	%r14, %rdi
	callq	rattle_dealloc@PLT
	movq	%rsp, %rdi
	callq	"atomic_table::owned::Table::drop::<#1bc90b9fb1d10aae>"
.LBB29_23:
	testq	%r15, %r15
	je	.LBB29_25
	movq	%rbx, %rdi
	callq	rattle_dealloc@PLT
.LBB29_25:
	movl	%ebp, %eax
	addq	$128, %rsp
	popq	%rbx
	popq	%r12
	popq	%r14
	popq	%r15
	popq	%rbp
	retq
.LBB29_14:
	movq	%rdx, %rax
	shrq	$32, %rax
	movq	%rcx, 8(%r14)
	movl	%edx, 48(%r14)
	movb	%al, 59(%r14)
.LBB29_16:
	movw	%r12w, 56(%r14)
	xorl	%ebp, %ebp
	movq	(%rbx), %rdi
	movq	%r15, (%rbx)
	testq	%rdi, %rdi
	jne	.LBB29_21
	jmp	.LBB29_25
.Lfunc_end29:
	.size	pie_link_try_reset, .Lfunc_end29-pie_link_try_reset
	.section	.rodata.pie_link_try_reset,"a",@progbits
	.p2align	2, 0x0
.LJTI29_0:
	.long	.LBB29_11-.LJTI29_0
	.long	.LBB29_4-.LJTI29_0
	.long	.LBB29_5-.LJTI29_0
	.long	.LBB29_6-.LJTI29_0
	.long	.LBB29_7-.LJTI29_0
	.long	.LBB29_8-.LJTI29_0
	.long	.LBB29_11-.LJTI29_0
	.long	.LBB29_11-.LJTI29_0
	.long	.LBB29_11-.LJTI29_0

	.section	.text.pie_link_try_update,"ax",@progbits
	.globl	pie_link_try_update
	.p2align	4
	.type	pie_link_try_update,@function
pie_link_try_update:
	pushq	%rbp
	pushq	%r15
	pushq	%r14
	pushq	%r12
	pushq	%rbx
	subq	$128, %rsp
	movq	(%rdi), %r15
	movq	$0, (%rdi)
	testq	%r15, %r15
	je	.LBB30_1
	movq	%rsi, %r14
	movq	%rdi, %rbx
	leaq	8(%r15), %rsi
	movzwl	8(%r15), %r12d
	movq	(%r15), %rdx
	addq	$8, %rdx
	movq	(%r14), %rax
	xorps	%xmm0, %xmm0
	movaps	%xmm0, 80(%rsp)
	movaps	%xmm0, 96(%rsp)
	movaps	%xmm0, 112(%rsp)
	movq	$2, (%rsp)
	movq	%rax, 8(%rsp)
	movups	%xmm0, 16(%rsp)
	movups	%xmm0, 32(%rsp)
	movups	%xmm0, 48(%rsp)
	leaq	80(%rsp), %rdi
	movq	%rsp, %rcx
	callq	"core::mem::replace_with::<#c61a209208d31057>"
	movzbl	88(%rsp), %eax
	movq	96(%rsp), %rcx
	cmpb	$0, 80(%rsp)
	je	.LBB30_3
	testq	%rax, %rax
	je	.LBB30_18
	movzbl	%cl, %ebp
	addl	$101, %ebp
	movl	%ebp, 52(%r14)
	movl	$0, 60(%r14)
	xorps	%xmm0, %xmm0
	movups	%xmm0, 16(%r14)
	movups	%xmm0, 32(%r14)
	movw	$3, 58(%r14)
	movq	$0, 8(%r14)
	movl	$0, 48(%r14)
	movw	%r12w, 56(%r14)
	movq	(%rbx), %rdi
	movq	%r15, (%rbx)
	testq	%rdi, %rdi
	jne	.LBB30_21
	jmp	.LBB30_25
.LBB30_1:
	movl	$122, %ebp
	jmp	.LBB30_25
.LBB30_3:
	leaq	.LJTI30_0(%rip), %rdx
	movslq	(%rdx,%rax,4), %rsi
	addq	%rdx, %rsi
	jmpq	*%rsi
.LBB30_11:
	movq	104(%rsp), %rdx
	movups	104(%rsp), %xmm0
	movl	$0, 60(%r14)
	xorps	%xmm1, %xmm1
	movups	%xmm1, 16(%r14)
	movups	%xmm1, 32(%r14)
	movw	$3, 58(%r14)
	movq	$0, 8(%r14)
	movq	$0, 48(%r14)
	cmpb	$6, %al
	jb	.LBB30_10
	cmpl	$8, %eax
	je	.LBB30_10
	cmpl	$7, %eax
	jne	.LBB30_14
	movq	%rcx, 24(%r14)
	movups	%xmm0, 32(%r14)
	jmp	.LBB30_16
.LBB30_18:
	movl	$121, %ebp
	movq	(%rbx), %rdi
	movq	%r15, (%rbx)
	testq	%rdi, %rdi
	jne	.LBB30_21
	jmp	.LBB30_25
.LBB30_7:
	movl	$4, %ecx
	jmp	.LBB30_9
.LBB30_5:
	movl	$2, %ecx
	jmp	.LBB30_9
.LBB30_6:
	movl	$3, %ecx
	jmp	.LBB30_9
.LBB30_8:
	movl	$5, %ecx
	jmp	.LBB30_9
.LBB30_4:
	movl	%eax, %ecx
.LBB30_9:
	movl	%ecx, 52(%r14)
	movl	$0, 60(%r14)
	xorps	%xmm0, %xmm0
	movups	%xmm0, 16(%r14)
	movups	%xmm0, 32(%r14)
	movw	$3, 58(%r14)
	movq	$0, 8(%r14)
	movl	$0, 48(%r14)
.LBB30_10:
	movw	%r12w, 56(%r14)
	leaq	.Lswitch.table.pie_link_try_set_params(%rip), %rcx
	movl	(%rcx,%rax,4), %ebp
	movq	(%rbx), %rdi
	movq	%r15, (%rbx)
	testq	%rdi, %rdi
	je	.LBB30_25
.LBB30_21:
	movq	(%rdi), %r14
	movq	16(%rdi), %rbx
	movq	32(%rdi), %r15
	callq	rattle_dealloc@PLT
	xorps	%xmm0, %xmm0
	movaps	%xmm0, 48(%rsp)
	movaps	%xmm0, 32(%rsp)
	movaps	%xmm0, 16(%rsp)
	movaps	%xmm0, (%rsp)
	movq	$0, 64(%rsp)
	#APP
	#NO_APP
	lock		decq	(%r14)
	#APP
	#NO_APP
	jne	.LBB30_23
	movq	72(%r14), %rax
	movq	%rax, 64(%rsp)
	movups	8(%r14), %xmm0
	movups	24(%r14), %xmm1
	movups	40(%r14), %xmm2
	movups	56(%r14), %xmm3
	movaps	%xmm3, 48(%rsp)
	movaps	%xmm2, 32(%rsp)
	movaps	%xmm1, 16(%rsp)
	movaps	%xmm0, (%rsp)
	movq	%r14, %rdi
	callq	rattle_dealloc@PLT
	movq	%rsp, %rdi
	callq	"atomic_table::owned::Table::drop::<#1bc90b9fb1d10aae>"
.LBB30_23:
	testq	%r15, %r15
	je	.LBB30_25
	movq	%rbx, %rdi
	callq	rattle_dealloc@PLT
.LBB30_25:
	movl	%ebp, %eax
	addq	$128, %rsp
	popq	%rbx
	popq	%r12
	popq	%r14
	popq	%r15
	popq	%rbp
	retq
.LBB30_14:
	movq	%rdx, %rax
	shrq	$32, %rax
	movq	%rcx, 8(%r14)
	movl	%edx, 48(%r14)
	movb	%al, 59(%r14)
.LBB30_16:
	movw	%r12w, 56(%r14)
	xorl	%ebp, %ebp
	movq	(%rbx), %rdi
	movq	%r15, (%rbx)
	testq	%rdi, %rdi
	jne	.LBB30_21
	jmp	.LBB30_25
.Lfunc_end30:
	.size	pie_link_try_update, .Lfunc_end30-pie_link_try_update
	.section	.rodata.pie_link_try_update,"a",@progbits
	.p2align	2, 0x0
.LJTI30_0:
	.long	.LBB30_11-.LJTI30_0
	.long	.LBB30_4-.LJTI30_0
	.long	.LBB30_5-.LJTI30_0
	.long	.LBB30_6-.LJTI30_0
	.long	.LBB30_7-.LJTI30_0
	.long	.LBB30_8-.LJTI30_0
	.long	.LBB30_11-.LJTI30_0
	.long	.LBB30_11-.LJTI30_0
	.long	.LBB30_11-.LJTI30_0

	.section	.text.pie_link_try_excerpt,"ax",@progbits
	.globl	pie_link_try_excerpt
	.p2align	4
	.type	pie_link_try_excerpt,@function
pie_link_try_excerpt:
	pushq	%rbp
	pushq	%r15
	pushq	%r14
	pushq	%r13
	pushq	%r12
	pushq	%rbx
	subq	$2360, %rsp
	movq	(%rdi), %r12
	movq	$0, (%rdi)
	movl	$122, %ebp
	testq	%r12, %r12
	je	.LBB31_27
	movq	%rdi, %r15
	movq	(%rsi), %r14
	movq	$0, (%rsi)
	testq	%r14, %r14
	je	.LBB31_22
	movq	%rsi, 456(%rsp)
	movq	(%r12), %rbx
	xorps	%xmm0, %xmm0
	movaps	%xmm0, 704(%rsp)
	movaps	%xmm0, 720(%rsp)
	movaps	%xmm0, 736(%rsp)
	movaps	%xmm0, 752(%rsp)
	movaps	%xmm0, 768(%rsp)
	movaps	%xmm0, 1648(%rsp)
	movaps	%xmm0, 1664(%rsp)
	movaps	%xmm0, 1680(%rsp)
	movaps	%xmm0, 1696(%rsp)
	movaps	%xmm0, 1712(%rsp)
	movaps	%xmm0, 1728(%rsp)
	movaps	%xmm0, 1744(%rsp)
	movaps	%xmm0, 1760(%rsp)
	movaps	%xmm0, 1776(%rsp)
	movaps	%xmm0, 1792(%rsp)
	movaps	%xmm0, 1808(%rsp)
	movaps	%xmm0, 576(%rsp)
	movaps	%xmm0, 592(%rsp)
	movaps	%xmm0, 608(%rsp)
	movaps	%xmm0, 624(%rsp)
	movaps	%xmm0, 640(%rsp)
	movaps	%xmm0, 656(%rsp)
	movaps	%xmm0, 672(%rsp)
	movaps	%xmm0, 688(%rsp)
	movups	64(%r14), %xmm0
	movaps	%xmm0, 1296(%rsp)
	movups	(%r14), %xmm0
	movups	16(%r14), %xmm1
	movups	32(%r14), %xmm2
	movups	48(%r14), %xmm3
	movaps	%xmm3, 1280(%rsp)
	movaps	%xmm2, 1264(%rsp)
	movaps	%xmm1, 1248(%rsp)
	movaps	%xmm0, 1232(%rsp)
	leaq	80(%r14), %rsi
	leaq	1312(%rsp), %rdi
	movl	$336, %edx
	callq	memcpy@PLT
	movups	(%r14), %xmm0
	movups	16(%r14), %xmm1
	movups	32(%r14), %xmm2
	movups	48(%r14), %xmm3
	movaps	%xmm0, 96(%rsp)
	movaps	%xmm1, 112(%rsp)
	movaps	%xmm2, 128(%rsp)
	movaps	%xmm3, 144(%rsp)
	movups	64(%r14), %xmm0
	movaps	%xmm0, 160(%rsp)
	movq	80(%r14), %rax
	movq	%rax, 64(%rsp)
	leaq	88(%r14), %rsi
	leaq	2184(%rsp), %rdi
	movl	$176, %edx
	callq	memcpy@PLT
	movq	264(%r14), %rax
	movq	%rax, 40(%rsp)
	movups	272(%r14), %xmm0
	movaps	%xmm0, 560(%rsp)
	movups	400(%r14), %xmm0
	movaps	%xmm0, 416(%rsp)
	movups	384(%r14), %xmm0
	movaps	%xmm0, 400(%rsp)
	movups	368(%r14), %xmm0
	movaps	%xmm0, 384(%rsp)
	movups	352(%r14), %xmm0
	movaps	%xmm0, 368(%rsp)
	movdqu	288(%r14), %xmm0
	movups	304(%r14), %xmm1
	movups	320(%r14), %xmm2
	movups	336(%r14), %xmm3
	movaps	%xmm3, 352(%rsp)
	movaps	%xmm2, 336(%rsp)
	movaps	%xmm1, 320(%rsp)
	movdqa	%xmm0, 304(%rsp)
	movq	416(%r14), %rax
	movq	%rax, 48(%rsp)
	movq	424(%r14), %rax
	movq	%rax, 56(%rsp)
	movq	432(%r14), %rax
	movq	%rax, 80(%rsp)
	movq	440(%r14), %rax
	movq	%rax, 32(%rsp)
	movq	448(%r14), %rax
	movq	%rax, (%rsp)
	movq	456(%r14), %rax
	movq	%rax, 72(%rsp)
	movq	464(%r14), %rax
	movq	%rax, 24(%rsp)
	movq	472(%r14), %rax
	movq	%rax, 440(%rsp)
	leaq	1232(%rsp), %rsi
	movl	$416, %edx
	movq	%r14, %rdi
	callq	memcpy@PLT
	leaq	8(%rsp), %rbp
	movq	%rbp, 416(%r14)
	pxor	%xmm0, %xmm0
	movdqu	%xmm0, 424(%r14)
	movq	%rbp, 440(%r14)
	movdqu	%xmm0, 448(%r14)
	movdqu	%xmm0, 464(%r14)
	movdqa	%xmm0, 1040(%rsp)
	movdqa	%xmm0, 1056(%rsp)
	movdqa	%xmm0, 1072(%rsp)
	movdqa	%xmm0, 1088(%rsp)
	movdqa	%xmm0, 1104(%rsp)
	movdqu	%xmm0, 1116(%rsp)
	movdqa	%xmm0, 1824(%rsp)
	movdqa	%xmm0, 1840(%rsp)
	movdqa	%xmm0, 1856(%rsp)
	movdqa	%xmm0, 1872(%rsp)
	movdqa	%xmm0, 1888(%rsp)
	movdqa	%xmm0, 1904(%rsp)
	movdqa	%xmm0, 1920(%rsp)
	movdqa	%xmm0, 1936(%rsp)
	movdqa	%xmm0, 1952(%rsp)
	movdqa	%xmm0, 1968(%rsp)
	movdqa	%xmm0, 1984(%rsp)
	movdqa	%xmm0, 784(%rsp)
	movdqa	%xmm0, 800(%rsp)
	movdqa	%xmm0, 816(%rsp)
	movdqa	%xmm0, 832(%rsp)
	movdqa	%xmm0, 848(%rsp)
	movdqa	%xmm0, 864(%rsp)
	movdqa	%xmm0, 880(%rsp)
	movdqa	%xmm0, 896(%rsp)
	movq	%r12, 88(%rsp)
	movl	8(%r12), %r13d
	movdqa	%xmm0, 1136(%rsp)
	movdqa	%xmm0, 1152(%rsp)
	movdqa	%xmm0, 1168(%rsp)
	movdqa	%xmm0, 1184(%rsp)
	movdqa	%xmm0, 1200(%rsp)
	movdqu	%xmm0, 1212(%rsp)
	movdqa	%xmm0, 2000(%rsp)
	movdqa	%xmm0, 2016(%rsp)
	movdqa	%xmm0, 2032(%rsp)
	movdqa	%xmm0, 2048(%rsp)
	movdqa	%xmm0, 2064(%rsp)
	movdqa	%xmm0, 2080(%rsp)
	movdqa	%xmm0, 2096(%rsp)
	movdqa	%xmm0, 2112(%rsp)
	movdqa	%xmm0, 2128(%rsp)
	movdqa	%xmm0, 2144(%rsp)
	movdqa	%xmm0, 2160(%rsp)
	movdqa	%xmm0, 912(%rsp)
	movdqa	%xmm0, 928(%rsp)
	movdqa	%xmm0, 944(%rsp)
	movdqa	%xmm0, 960(%rsp)
	movdqa	%xmm0, 976(%rsp)
	movdqa	%xmm0, 992(%rsp)
	movdqa	%xmm0, 1008(%rsp)
	movdqa	%xmm0, 1024(%rsp)
	movdqa	%xmm0, 464(%rsp)
	movdqa	%xmm0, 480(%rsp)
	movdqa	%xmm0, 496(%rsp)
	movdqa	%xmm0, 512(%rsp)
	movdqa	%xmm0, 528(%rsp)
	movdqu	%xmm0, 540(%rsp)
	movdqa	%xmm0, 1232(%rsp)
	movdqa	%xmm0, 1248(%rsp)
	movdqa	%xmm0, 1264(%rsp)
	movdqa	%xmm0, 1280(%rsp)
	movdqa	%xmm0, 1296(%rsp)
	movdqa	%xmm0, 1312(%rsp)
	movdqa	%xmm0, 1328(%rsp)
	movdqa	%xmm0, 1344(%rsp)
	movdqa	%xmm0, 1360(%rsp)
	movdqa	%xmm0, 1376(%rsp)
	movdqa	%xmm0, 1392(%rsp)
	movdqa	%xmm0, 176(%rsp)
	movdqa	%xmm0, 192(%rsp)
	movdqa	%xmm0, 208(%rsp)
	movdqa	%xmm0, 224(%rsp)
	movdqa	%xmm0, 240(%rsp)
	movdqa	%xmm0, 256(%rsp)
	movdqa	%xmm0, 272(%rsp)
	movdqa	%xmm0, 288(%rsp)
	movq	8(%rbx), %rax
	#APP
	#NO_APP
	movq	(%rax), %rax
	#APP
	#NO_APP
	testq	%rax, %rax
	movq	%r15, 448(%rsp)
	jne	.LBB31_7
	movq	8(%rbx), %rcx
	#APP
	#NO_APP
	movl	$1, %edx
	xorl	%eax, %eax
	lock		cmpxchgq	%rdx, (%rcx)
	#APP
	#NO_APP
	jne	.LBB31_7
	movq	16(%rbx), %rax
	movq	8(%rax), %r12
	cmpb	$1, (%rax)
	movdqu	%xmm0, (%rax)
	jne	.LBB31_60
	movq	80(%rsp), %rax
	cmpq	688(%r12), %rax
	jb	.LBB31_6
	movq	72(%rsp), %rax
	cmpq	456(%r12), %rax
	jae	.LBB31_30
.LBB31_6:
	xorl	%ebp, %ebp
	jmp	.LBB31_57
.LBB31_7:
	movaps	160(%rsp), %xmm0
	movups	%xmm0, 540(%rsp)
	movaps	96(%rsp), %xmm0
	movaps	112(%rsp), %xmm1
	movaps	128(%rsp), %xmm2
	movaps	144(%rsp), %xmm3
	movups	%xmm3, 524(%rsp)
	movups	%xmm2, 508(%rsp)
	movups	%xmm1, 492(%rsp)
	movups	%xmm0, 476(%rsp)
	leaq	1232(%rsp), %rdi
	leaq	2184(%rsp), %rsi
	movl	$176, %edx
	callq	memcpy@PLT
	movaps	304(%rsp), %xmm0
	movaps	320(%rsp), %xmm1
	movaps	336(%rsp), %xmm2
	movaps	352(%rsp), %xmm3
	movaps	%xmm0, 176(%rsp)
	movaps	%xmm1, 192(%rsp)
	movaps	%xmm2, 208(%rsp)
	movaps	%xmm3, 224(%rsp)
	movaps	368(%rsp), %xmm0
	movaps	%xmm0, 240(%rsp)
	movaps	384(%rsp), %xmm0
	movaps	%xmm0, 256(%rsp)
	movaps	400(%rsp), %xmm0
	movaps	%xmm0, 272(%rsp)
	movaps	416(%rsp), %xmm0
	movaps	%xmm0, 288(%rsp)
	movl	$121, 20(%rsp)
	movl	$0, 16(%rsp)
.LBB31_8:
	leaq	288(%r14), %r15
	movups	540(%rsp), %xmm0
	movups	%xmm0, 1212(%rsp)
	movups	476(%rsp), %xmm0
	movups	492(%rsp), %xmm1
	movups	508(%rsp), %xmm2
	movups	524(%rsp), %xmm3
	movups	%xmm3, 1196(%rsp)
	movups	%xmm2, 1180(%rsp)
	movups	%xmm1, 1164(%rsp)
	movups	%xmm0, 1148(%rsp)
	leaq	2000(%rsp), %rbx
	leaq	1232(%rsp), %rsi
	movl	$176, %edx
	movq	%rbx, %rdi
	callq	memcpy@PLT
	movaps	176(%rsp), %xmm0
	movaps	192(%rsp), %xmm1
	movaps	208(%rsp), %xmm2
	movaps	224(%rsp), %xmm3
	movaps	%xmm0, 912(%rsp)
	movaps	%xmm1, 928(%rsp)
	movaps	%xmm2, 944(%rsp)
	movaps	%xmm3, 960(%rsp)
	movaps	240(%rsp), %xmm0
	movaps	%xmm0, 976(%rsp)
	movaps	256(%rsp), %xmm0
	movaps	%xmm0, 992(%rsp)
	movaps	272(%rsp), %xmm0
	movaps	%xmm0, 1008(%rsp)
	movaps	288(%rsp), %xmm0
	movaps	%xmm0, 1024(%rsp)
	movups	1212(%rsp), %xmm0
	movups	%xmm0, 1116(%rsp)
	movups	1148(%rsp), %xmm0
	movups	1164(%rsp), %xmm1
	movups	1180(%rsp), %xmm2
	movups	1196(%rsp), %xmm3
	movups	%xmm3, 1100(%rsp)
	movups	%xmm2, 1084(%rsp)
	movups	%xmm1, 1068(%rsp)
	movups	%xmm0, 1052(%rsp)
	leaq	1824(%rsp), %r12
	movl	$176, %edx
	movq	%r12, %rdi
	movq	%rbx, %rsi
	callq	memcpy@PLT
	movaps	912(%rsp), %xmm0
	movaps	928(%rsp), %xmm1
	movaps	944(%rsp), %xmm2
	movaps	960(%rsp), %xmm3
	movaps	%xmm0, 784(%rsp)
	movaps	%xmm1, 800(%rsp)
	movaps	%xmm2, 816(%rsp)
	movaps	%xmm3, 832(%rsp)
	movaps	976(%rsp), %xmm0
	movaps	%xmm0, 848(%rsp)
	movaps	992(%rsp), %xmm0
	movaps	%xmm0, 864(%rsp)
	movaps	1008(%rsp), %xmm0
	movaps	%xmm0, 880(%rsp)
	movaps	1024(%rsp), %xmm0
	movaps	%xmm0, 896(%rsp)
	movq	88(%rsp), %rax
	movl	%r13d, 8(%rax)
	movups	1116(%rsp), %xmm0
	movaps	%xmm0, 768(%rsp)
	movups	1052(%rsp), %xmm0
	movups	1068(%rsp), %xmm1
	movups	1084(%rsp), %xmm2
	movups	1100(%rsp), %xmm3
	movaps	%xmm3, 752(%rsp)
	movaps	%xmm2, 736(%rsp)
	movaps	%xmm1, 720(%rsp)
	movaps	%xmm0, 704(%rsp)
	leaq	1648(%rsp), %rbx
	movl	$176, %edx
	movq	%rbx, %rdi
	movq	%r12, %rsi
	callq	memcpy@PLT
	movaps	784(%rsp), %xmm0
	movaps	800(%rsp), %xmm1
	movaps	816(%rsp), %xmm2
	movaps	832(%rsp), %xmm3
	movaps	%xmm0, 576(%rsp)
	movaps	%xmm1, 592(%rsp)
	movaps	%xmm2, 608(%rsp)
	movaps	%xmm3, 624(%rsp)
	movaps	848(%rsp), %xmm0
	movaps	%xmm0, 640(%rsp)
	movaps	864(%rsp), %xmm0
	movaps	%xmm0, 656(%rsp)
	movaps	880(%rsp), %xmm0
	movaps	%xmm0, 672(%rsp)
	movaps	896(%rsp), %xmm0
	movaps	%xmm0, 688(%rsp)
	movq	416(%r14), %r12
	movq	440(%r14), %rax
	movq	%rax, 432(%rsp)
	movq	456(%r14), %rbp
	movaps	704(%rsp), %xmm0
	movaps	720(%rsp), %xmm1
	movaps	736(%rsp), %xmm2
	movaps	752(%rsp), %xmm3
	movups	%xmm0, (%r14)
	movups	%xmm1, 16(%r14)
	movups	%xmm2, 32(%r14)
	movups	%xmm3, 48(%r14)
	movaps	768(%rsp), %xmm0
	movups	%xmm0, 64(%r14)
	movq	64(%rsp), %rax
	movq	%rax, 80(%r14)
	movq	432(%r14), %r13
	movl	$176, %edx
	leaq	88(%r14), %rdi
	movq	%rbx, %rsi
	callq	memcpy@PLT
	movq	40(%rsp), %rax
	movq	%rax, 264(%r14)
	movaps	560(%rsp), %xmm0
	movups	%xmm0, 272(%r14)
	movaps	576(%rsp), %xmm0
	movaps	592(%rsp), %xmm1
	movaps	608(%rsp), %xmm2
	movaps	624(%rsp), %xmm3
	movups	%xmm0, (%r15)
	movups	%xmm1, 16(%r15)
	movups	%xmm2, 32(%r15)
	movups	%xmm3, 48(%r15)
	movaps	640(%rsp), %xmm0
	movups	%xmm0, 64(%r15)
	movaps	656(%rsp), %xmm0
	movups	%xmm0, 80(%r15)
	movaps	672(%rsp), %xmm0
	movups	%xmm0, 96(%r15)
	movaps	688(%rsp), %xmm0
	movups	%xmm0, 112(%r15)
	movq	48(%rsp), %rax
	movq	%rax, 416(%r14)
	movq	56(%rsp), %rax
	movq	%rax, 424(%r14)
	movq	80(%rsp), %rax
	movq	%rax, 432(%r14)
	movq	32(%rsp), %rax
	movq	%rax, 440(%r14)
	movq	(%rsp), %rax
	movq	%rax, 448(%r14)
	movq	72(%rsp), %rax
	movq	%rax, 456(%r14)
	movq	24(%rsp), %rax
	movq	%rax, 464(%r14)
	movq	440(%rsp), %rax
	movq	%rax, 472(%r14)
	testq	%r13, %r13
	je	.LBB31_10
	movq	%r12, %rdi
	callq	rattle_dealloc@PLT
.LBB31_10:
	testq	%rbp, %rbp
	movq	448(%rsp), %rbx
	je	.LBB31_12
	movq	432(%rsp), %rdi
	callq	rattle_dealloc@PLT
.LBB31_12:
	cmpb	$0, 16(%rsp)
	movq	88(%rsp), %rax
	movl	20(%rsp), %ebp
	je	.LBB31_14
	movq	$0, 480(%r14)
	xorl	%ebp, %ebp
.LBB31_14:
	movq	(%rbx), %rdi
	movq	%rax, (%rbx)
	testq	%rdi, %rdi
	je	.LBB31_19
	movq	(%rdi), %r15
	movq	16(%rdi), %rbx
	movq	32(%rdi), %r12
	callq	rattle_dealloc@PLT
	xorps	%xmm0, %xmm0
	movaps	%xmm0, 1280(%rsp)
	movaps	%xmm0, 1264(%rsp)
	movaps	%xmm0, 1248(%rsp)
	movaps	%xmm0, 1232(%rsp)
	movq	$0, 1296(%rsp)
	#APP
	#NO_APP
	lock		decq	(%r15)
	#APP
	#NO_APP
	jne	.LBB31_17
	movq	72(%r15), %rax
	movq	%rax, 1296(%rsp)
	movups	8(%r15), %xmm0
	movups	24(%r15), %xmm1
	movups	40(%r15), %xmm2
	movups	56(%r15), %xmm3
	movaps	%xmm3, 1280(%rsp)
	movaps	%xmm2, 1264(%rsp)
	movaps	%xmm1, 1248(%rsp)
	movaps	%xmm0, 1232(%rsp)
	movq	%r15, %rdi
	callq	rattle_dealloc@PLT
	leaq	1232(%rsp), %rdi
	callq	"atomic_table::owned::Table::drop::<#1bc90b9fb1d10aae>"
.LBB31_17:
	testq	%r12, %r12
	je	.LBB31_19
	movq	%rbx, %rdi
	callq	rattle_dealloc@PLT
.LBB31_19:
	movq	456(%rsp), %rax
	movq	(%rax), %rdi
	movq	%r14, (%rax)
	testq	%rdi, %rdi
	je	.LBB31_27
	movq	416(%rdi), %r14
	movq	440(%rdi), %rbx
	movq	456(%rdi), %r15
	movq	432(%rdi), %r12
	callq	rattle_dealloc@PLT
	testq	%r12, %r12
	je	.LBB31_25
	movq	%r14, %rdi
	callq	rattle_dealloc@PLT
	jmp	.LBB31_25
.LBB31_22:
	movq	(%r15), %rdi
	movq	%r12, (%r15)
	testq	%rdi, %rdi
	je	.LBB31_27
	movq	(%rdi), %r14
	movq	16(%rdi), %rbx
	movq	32(%rdi), %r15
	callq	rattle_dealloc@PLT
	xorps	%xmm0, %xmm0
	movaps	%xmm0, 1280(%rsp)
	movaps	%xmm0, 1264(%rsp)
	movaps	%xmm0, 1248(%rsp)
	movaps	%xmm0, 1232(%rsp)
	movq	$0, 1296(%rsp)
	#APP
	#NO_APP
	lock		decq	(%r14)
	#APP
	#NO_APP
	jne	.LBB31_25
	movq	72(%r14), %rax
	movq	%rax, 1296(%rsp)
	movups	8(%r14), %xmm0
	movups	24(%r14), %xmm1
	movups	40(%r14), %xmm2
	movups	56(%r14), %xmm3
	movaps	%xmm3, 1280(%rsp)
	movaps	%xmm2, 1264(%rsp)
	movaps	%xmm1, 1248(%rsp)
	movaps	%xmm0, 1232(%rsp)
	movq	%r14, %rdi
	callq	rattle_dealloc@PLT
	leaq	1232(%rsp), %rdi
	callq	"atomic_table::owned::Table::drop::<#1bc90b9fb1d10aae>"
.LBB31_25:
	testq	%r15, %r15
	je	.LBB31_27
	movq	%rbx, %rdi
	callq	rattle_dealloc@PLT
.LBB31_27:
	movl	%ebp, %eax
	addq	$2360, %rsp
	popq	%rbx
	popq	%r12
	popq	%r13
	popq	%r14
	popq	%r15
	popq	%rbp
	retq
.LBB31_30:
	movups	64(%r12), %xmm0
	movaps	%xmm0, 160(%rsp)
	movups	(%r12), %xmm0
	movups	16(%r12), %xmm1
	movups	32(%r12), %xmm2
	movups	48(%r12), %xmm3
	movaps	%xmm3, 144(%rsp)
	movaps	%xmm2, 128(%rsp)
	movaps	%xmm1, 112(%rsp)
	movaps	%xmm0, 96(%rsp)
	movq	720(%r12), %rax
	movq	%rax, 64(%rsp)
	leaq	504(%r12), %rsi
	leaq	2184(%rsp), %rdi
	movl	$176, %edx
	callq	memcpy@PLT
	movq	696(%r12), %rax
	movq	712(%r12), %r11
	movups	848(%r12), %xmm0
	movaps	%xmm0, 416(%rsp)
	movups	832(%r12), %xmm0
	movaps	%xmm0, 400(%rsp)
	movups	816(%r12), %xmm0
	movaps	%xmm0, 384(%rsp)
	movups	800(%r12), %xmm0
	movaps	%xmm0, 368(%rsp)
	movups	784(%r12), %xmm0
	movaps	%xmm0, 352(%rsp)
	movups	768(%r12), %xmm0
	movaps	%xmm0, 336(%rsp)
	movups	752(%r12), %xmm0
	movaps	%xmm0, 320(%rsp)
	movdqu	736(%r12), %xmm0
	movdqa	%xmm0, 304(%rsp)
	testq	%rax, %rax
	je	.LBB31_34
	xorl	%ecx, %ecx
	movq	48(%rsp), %rdx
	.p2align	4
.LBB31_32:
	cmpq	%rcx, 696(%r12)
	jbe	.LBB31_60
	movq	680(%r12), %rsi
	movq	688(%r12), %rdi
	movq	704(%r12), %r8
	leaq	(%rcx,%r8), %r9
	xorl	%r10d, %r10d
	cmpq	%rdi, %r9
	cmovaeq	%rdi, %r10
	subq	%r10, %r8
	addq	%rcx, %r8
	leaq	(%r8,%r8,2), %rdi
	movdqu	(%rsi,%rdi,8), %xmm0
	movq	16(%rsi,%rdi,8), %rsi
	movq	%rsi, 16(%rdx)
	movdqu	%xmm0, (%rdx)
	incq	%rcx
	addq	$24, %rdx
	cmpq	%rcx, %rax
	jne	.LBB31_32
.LBB31_34:
	movq	464(%r12), %rdx
	testq	%rdx, %rdx
	movq	%rax, 40(%rsp)
	je	.LBB31_38
	movq	448(%r12), %rcx
	movq	456(%r12), %rdi
	movq	472(%r12), %rsi
	subq	%rsi, %rdi
	movq	%rdx, %r8
	subq	%rdi, %rdx
	jbe	.LBB31_39
	testq	%rdi, %rdi
	je	.LBB31_59
	movq	%rcx, %rbp
	movq	%rdi, %r8
	jmp	.LBB31_40
.LBB31_38:
	movq	$0, (%rsp)
	jmp	.LBB31_56
.LBB31_39:
	xorl	%edx, %edx
.LBB31_40:
	shlq	$6, %rsi
	movl	%r8d, %edi
	andl	$7, %edi
	cmpq	$8, %r8
	movq	%r8, (%rsp)
	jae	.LBB31_42
	xorl	%r8d, %r8d
	jmp	.LBB31_45
.LBB31_42:
	movq	%r11, 24(%rsp)
	leaq	(%rcx,%rsi), %r9
	movq	%r8, %r10
	andq	$-8, %r10
	movl	$448, %r11d
	xorl	%r8d, %r8d
	movq	32(%rsp), %rax
.LBB31_43:
	movups	-448(%r9,%r11), %xmm0
	movups	-432(%r9,%r11), %xmm1
	movups	-416(%r9,%r11), %xmm2
	movups	-400(%r9,%r11), %xmm3
	movups	%xmm3, -400(%rax,%r11)
	movups	%xmm2, -416(%rax,%r11)
	movups	%xmm1, -432(%rax,%r11)
	movups	%xmm0, -448(%rax,%r11)
	movups	-384(%r9,%r11), %xmm0
	movups	-368(%r9,%r11), %xmm1
	movups	-352(%r9,%r11), %xmm2
	movups	-336(%r9,%r11), %xmm3
	movups	%xmm3, -336(%rax,%r11)
	movups	%xmm2, -352(%rax,%r11)
	movups	%xmm1, -368(%rax,%r11)
	movups	%xmm0, -384(%rax,%r11)
	movups	-320(%r9,%r11), %xmm0
	movups	-304(%r9,%r11), %xmm1
	movups	-288(%r9,%r11), %xmm2
	movups	-272(%r9,%r11), %xmm3
	movups	%xmm3, -272(%rax,%r11)
	movups	%xmm2, -288(%rax,%r11)
	movups	%xmm1, -304(%rax,%r11)
	movups	%xmm0, -320(%rax,%r11)
	movups	-256(%r9,%r11), %xmm0
	movups	-240(%r9,%r11), %xmm1
	movups	-224(%r9,%r11), %xmm2
	movups	-208(%r9,%r11), %xmm3
	movups	%xmm3, -208(%rax,%r11)
	movups	%xmm2, -224(%rax,%r11)
	movups	%xmm1, -240(%rax,%r11)
	movups	%xmm0, -256(%rax,%r11)
	movups	-192(%r9,%r11), %xmm0
	movups	-176(%r9,%r11), %xmm1
	movups	-160(%r9,%r11), %xmm2
	movups	-144(%r9,%r11), %xmm3
	movups	%xmm3, -144(%rax,%r11)
	movups	%xmm2, -160(%rax,%r11)
	movups	%xmm1, -176(%rax,%r11)
	movups	%xmm0, -192(%rax,%r11)
	movups	-128(%r9,%r11), %xmm0
	movups	-112(%r9,%r11), %xmm1
	movups	-96(%r9,%r11), %xmm2
	movups	-80(%r9,%r11), %xmm3
	movups	%xmm3, -80(%rax,%r11)
	movups	%xmm2, -96(%rax,%r11)
	movups	%xmm1, -112(%rax,%r11)
	movups	%xmm0, -128(%rax,%r11)
	movups	-64(%r9,%r11), %xmm0
	movups	-48(%r9,%r11), %xmm1
	movups	-32(%r9,%r11), %xmm2
	movups	-16(%r9,%r11), %xmm3
	movups	%xmm3, -16(%rax,%r11)
	movups	%xmm2, -32(%rax,%r11)
	movups	%xmm1, -48(%rax,%r11)
	movups	%xmm0, -64(%rax,%r11)
	movdqu	(%r9,%r11), %xmm0
	movups	16(%r9,%r11), %xmm1
	movups	32(%r9,%r11), %xmm2
	movups	48(%r9,%r11), %xmm3
	movups	%xmm3, 48(%rax,%r11)
	movups	%xmm2, 32(%rax,%r11)
	movups	%xmm1, 16(%rax,%r11)
	movdqu	%xmm0, (%rax,%r11)
	addq	$8, %r8
	addq	$512, %r11
	cmpq	%r8, %r10
	jne	.LBB31_43
	testq	%rdi, %rdi
	movq	24(%rsp), %r11
	je	.LBB31_47
.LBB31_45:
	shlq	$6, %r8
	movq	32(%rsp), %rax
	leaq	(%rax,%r8), %r9
	addq	%r8, %rcx
	addq	%rsi, %rcx
	shll	$6, %edi
	xorl	%esi, %esi
	.p2align	4
.LBB31_46:
	movdqu	(%rcx,%rsi), %xmm0
	movups	16(%rcx,%rsi), %xmm1
	movups	32(%rcx,%rsi), %xmm2
	movups	48(%rcx,%rsi), %xmm3
	movups	%xmm3, 48(%r9,%rsi)
	movups	%xmm2, 32(%r9,%rsi)
	movups	%xmm1, 16(%r9,%rsi)
	movdqu	%xmm0, (%r9,%rsi)
	addq	$64, %rsi
	cmpq	%rsi, %rdi
	jne	.LBB31_46
.LBB31_47:
	movq	%rbp, %rcx
	movq	40(%rsp), %rax
	testq	%rdx, %rdx
	movq	32(%rsp), %r10
	je	.LBB31_56
.LBB31_48:
	movl	%edx, %esi
	andl	$3, %esi
	cmpq	$4, %rdx
	jae	.LBB31_50
	xorl	%edi, %edi
	jmp	.LBB31_54
.LBB31_50:
	movq	(%rsp), %r8
	shlq	$6, %r8
	addq	%r10, %r8
	andq	$-4, %rdx
	negq	%rdx
	movl	$192, %r9d
	xorl	%edi, %edi
.LBB31_51:
	movups	-192(%rcx,%r9), %xmm0
	movups	-176(%rcx,%r9), %xmm1
	movups	-160(%rcx,%r9), %xmm2
	movups	-144(%rcx,%r9), %xmm3
	movups	%xmm3, -144(%r8,%r9)
	movups	%xmm2, -160(%r8,%r9)
	movups	%xmm1, -176(%r8,%r9)
	movups	%xmm0, -192(%r8,%r9)
	movups	-128(%rcx,%r9), %xmm0
	movups	-112(%rcx,%r9), %xmm1
	movups	-96(%rcx,%r9), %xmm2
	movups	-80(%rcx,%r9), %xmm3
	movups	%xmm3, -80(%r8,%r9)
	movups	%xmm2, -96(%r8,%r9)
	movups	%xmm1, -112(%r8,%r9)
	movups	%xmm0, -128(%r8,%r9)
	movups	-64(%rcx,%r9), %xmm0
	movups	-48(%rcx,%r9), %xmm1
	movups	-32(%rcx,%r9), %xmm2
	movups	-16(%rcx,%r9), %xmm3
	movups	%xmm3, -16(%r8,%r9)
	movups	%xmm2, -32(%r8,%r9)
	movups	%xmm1, -48(%r8,%r9)
	movups	%xmm0, -64(%r8,%r9)
	movdqu	(%rcx,%r9), %xmm0
	movups	16(%rcx,%r9), %xmm1
	movups	32(%rcx,%r9), %xmm2
	movups	48(%rcx,%r9), %xmm3
	movups	%xmm3, 48(%r8,%r9)
	movups	%xmm2, 32(%r8,%r9)
	movups	%xmm1, 16(%r8,%r9)
	movdqu	%xmm0, (%r8,%r9)
	addq	$256, %r9
	addq	$-4, %rdi
	cmpq	%rdi, %rdx
	jne	.LBB31_51
	subq	%rdi, (%rsp)
	testq	%rsi, %rsi
	je	.LBB31_56
	negq	%rdi
.LBB31_54:
	movq	(%rsp), %r8
	movq	%r8, %rdx
	shlq	$6, %rdx
	addq	%r10, %rdx
	shlq	$6, %rdi
	addq	%rdi, %rcx
	movl	%esi, %edi
	shll	$6, %edi
	addq	%rsi, %r8
	movq	%r8, (%rsp)
	xorl	%esi, %esi
.LBB31_55:
	movdqu	(%rcx,%rsi), %xmm0
	movups	16(%rcx,%rsi), %xmm1
	movups	32(%rcx,%rsi), %xmm2
	movups	48(%rcx,%rsi), %xmm3
	movups	%xmm3, 48(%rdx,%rsi)
	movups	%xmm2, 32(%rdx,%rsi)
	movups	%xmm1, 16(%rdx,%rsi)
	movdqu	%xmm0, (%rdx,%rsi)
	addq	$64, %rsi
	cmpq	%rsi, %rdi
	jne	.LBB31_55
.LBB31_56:
	movq	480(%r12), %rcx
	movq	%rcx, 24(%rsp)
	movq	%r11, %xmm0
	movdqa	%xmm0, 560(%rsp)
	movb	$1, %bpl
	movq	%rax, 56(%rsp)
.LBB31_57:
	movq	16(%rbx), %rax
	movq	8(%rax), %rdi
	cmpb	$0, (%rax)
	movq	$1, (%rax)
	movq	%r12, 8(%rax)
	jne	.LBB31_61
	movq	8(%rbx), %rax
	#APP
	#NO_APP
	xorl	%ecx, %ecx
	xchgq	%rcx, (%rax)
	#APP
	#NO_APP
	movaps	160(%rsp), %xmm0
	movups	%xmm0, 540(%rsp)
	movaps	96(%rsp), %xmm0
	movaps	112(%rsp), %xmm1
	movaps	128(%rsp), %xmm2
	movaps	144(%rsp), %xmm3
	movups	%xmm3, 524(%rsp)
	movups	%xmm2, 508(%rsp)
	movups	%xmm1, 492(%rsp)
	movups	%xmm0, 476(%rsp)
	leaq	1232(%rsp), %rdi
	leaq	2184(%rsp), %rsi
	movl	$176, %edx
	callq	memcpy@PLT
	movaps	304(%rsp), %xmm0
	movaps	320(%rsp), %xmm1
	movaps	336(%rsp), %xmm2
	movaps	352(%rsp), %xmm3
	movaps	%xmm0, 176(%rsp)
	movaps	%xmm1, 192(%rsp)
	movaps	%xmm2, 208(%rsp)
	movaps	%xmm3, 224(%rsp)
	movaps	368(%rsp), %xmm0
	movaps	%xmm0, 240(%rsp)
	movaps	384(%rsp), %xmm0
	movaps	%xmm0, 256(%rsp)
	movaps	400(%rsp), %xmm0
	movaps	%xmm0, 272(%rsp)
	movaps	416(%rsp), %xmm0
	movaps	%xmm0, 288(%rsp)
	movl	%ebp, 16(%rsp)
	movl	%ebp, %eax
	xorb	$1, %al
	movzbl	%al, %eax
	leal	121(,%rax,8), %eax
	movl	%eax, 20(%rsp)
	jmp	.LBB31_8
.LBB31_59:
	movq	$0, (%rsp)
	testq	%rdx, %rdx
	movq	32(%rsp), %r10
	jne	.LBB31_48
	jmp	.LBB31_56
.LBB31_60:
	ud2
.LBB31_61:
	callq	"pie_link::pie_link++kept_book++KeptBook+Destruct::drop"
	ud2
.Lfunc_end31:
	.size	pie_link_try_excerpt, .Lfunc_end31-pie_link_try_excerpt

	.section	.rodata.cst16,"aM",@progbits,16
	.p2align	4, 0x0
.LCPI32_0:
	.byte	1
	.byte	255
	.zero	1
	.zero	1
	.zero	1
	.zero	1
	.zero	1
	.zero	1
	.zero	1
	.zero	1
	.zero	1
	.zero	1
	.zero	1
	.zero	1
	.zero	1
	.zero	1
	.section	.text.pie_link_try_registers,"ax",@progbits
	.globl	pie_link_try_registers
	.p2align	4
	.type	pie_link_try_registers,@function
pie_link_try_registers:
	pushq	%rbp
	pushq	%r15
	pushq	%r14
	pushq	%r13
	pushq	%r12
	pushq	%rbx
	subq	$120, %rsp
	movq	(%rdi), %rcx
	movq	$0, (%rdi)
	testq	%rcx, %rcx
	je	.LBB32_1
	movq	(%rcx), %rbx
	movl	8(%rcx), %edx
	movq	8(%rbx), %rax
	#APP
	#NO_APP
	movq	(%rax), %rax
	#APP
	#NO_APP
	testq	%rax, %rax
	jne	.LBB32_7
	movq	8(%rbx), %r8
	#APP
	#NO_APP
	movl	$1, %r9d
	xorl	%eax, %eax
	lock		cmpxchgq	%r9, (%r8)
	#APP
	#NO_APP
	jne	.LBB32_7
	movq	16(%rbx), %rax
	movq	8(%rax), %r11
	cmpb	$1, (%rax)
	xorps	%xmm0, %xmm0
	movups	%xmm0, (%rax)
	jne	.LBB32_14
	movq	168(%r11), %rax
	movq	%rax, 16(%rsp)
	movzbl	176(%r11), %eax
	movb	%al, 15(%rsp)
	movq	184(%r11), %rax
	movq	%rax, 40(%rsp)
	movzbl	192(%r11), %eax
	movb	%al, 14(%rsp)
	movups	224(%r11), %xmm3
	movq	248(%r11), %r9
	movups	240(%r11), %xmm4
	movq	256(%r11), %r15
	movq	304(%r11), %r8
	movq	280(%r11), %r12
	movq	296(%r11), %r13
	movq	104(%r11), %r10
	movdqu	96(%r11), %xmm2
	movq	112(%r11), %rax
	movq	%rax, 24(%rsp)
	movdqu	120(%r11), %xmm0
	movdqu	136(%r11), %xmm1
	movq	152(%r11), %rax
	movq	%rax, 32(%rsp)
	movq	160(%r11), %rbp
	movq	16(%rbx), %r14
	movq	8(%r14), %rax
	cmpb	$0, (%r14)
	movq	$1, (%r14)
	movq	%r11, 8(%r14)
	jne	.LBB32_15
	movq	8(%rbx), %rax
	#APP
	#NO_APP
	xorl	%r11d, %r11d
	xchgq	%r11, (%rax)
	decl	%ebp
	xorl	%ebx, %ebx
	movzwl	%bp, %eax
	incq	%rax
	addq	%r9, %r10
	movq	$-1, %r9
	cmovaeq	%r10, %r9
	#APP
	#NO_APP
	movl	%edx, 8(%rcx)
	movq	%r8, (%rsi)
	movq	16(%rsp), %rdx
	movq	%rdx, 8(%rsi)
	movq	%r12, 16(%rsi)
	movq	%r13, 24(%rsi)
	movups	%xmm3, 32(%rsi)
	movq	%r15, 48(%rsi)
	movups	%xmm4, 56(%rsi)
	movq	%r9, 72(%rsi)
	movzbl	14(%rsp), %edx
	movd	%edx, %xmm3
	movzbl	15(%rsp), %edx
	pinsrb	$1, %edx, %xmm3
	pand	.LCPI32_0(%rip), %xmm3
	movq	40(%rsp), %rdx
	movq	%rdx, 80(%rsi)
	pmovzxbq	%xmm3, %xmm3
	movdqu	%xmm3, 88(%rsi)
	movdqu	%xmm2, 104(%rsi)
	movq	24(%rsp), %rdx
	movq	%rdx, 120(%rsi)
	pxor	%xmm2, %xmm2
	pblendw	$204, %xmm2, %xmm0
	pblendw	$206, %xmm2, %xmm1
	movdqu	%xmm0, 128(%rsi)
	movdqu	%xmm1, 144(%rsi)
	movq	32(%rsp), %rdx
	movq	%rdx, 160(%rsi)
	movq	%rax, 168(%rsi)
	movq	(%rdi), %rax
	movq	%rcx, (%rdi)
	testq	%rax, %rax
	jne	.LBB32_9
	jmp	.LBB32_13
.LBB32_7:
	movl	%edx, 8(%rcx)
	movl	$121, %ebx
	movq	(%rdi), %rax
	movq	%rcx, (%rdi)
	testq	%rax, %rax
	je	.LBB32_13
.LBB32_9:
	movq	(%rax), %r15
	movq	16(%rax), %r14
	movq	32(%rax), %r12
	movq	%rax, %rdi
	callq	rattle_dealloc@PLT
	pxor	%xmm0, %xmm0
	movdqa	%xmm0, 96(%rsp)
	movdqa	%xmm0, 80(%rsp)
	movdqa	%xmm0, 64(%rsp)
	movdqa	%xmm0, 48(%rsp)
	movq	$0, 112(%rsp)
	#APP
	#NO_APP
	lock		decq	(%r15)
	#APP
	#NO_APP
	jne	.LBB32_11
	movq	72(%r15), %rax
	movq	%rax, 112(%rsp)
	movdqu	8(%r15), %xmm0
	movdqu	24(%r15), %xmm1
	movdqu	40(%r15), %xmm2
	movdqu	56(%r15), %xmm3
	movdqa	%xmm3, 96(%rsp)
	movdqa	%xmm2, 80(%rsp)
	movdqa	%xmm1, 64(%rsp)
	movdqa	%xmm0, 48(%rsp)
	movq	%r15, %rdi
	callq	rattle_dealloc@PLT
	leaq	48(%rsp), %rdi
	callq	"atomic_table::owned::Table::drop::<#1bc90b9fb1d10aae>"
.LBB32_11:
	testq	%r12, %r12
	je	.LBB32_13
	movq	%r14, %rdi
	callq	rattle_dealloc@PLT
	jmp	.LBB32_13
.LBB32_1:
	movl	$122, %ebx
.LBB32_13:
	movl	%ebx, %eax
	addq	$120, %rsp
	popq	%rbx
	popq	%r12
	popq	%r13
	popq	%r14
	popq	%r15
	popq	%rbp
	retq
.LBB32_14:
	ud2
.LBB32_15:
	movq	%rax, %rdi
	callq	"pie_link::pie_link++kept_book++KeptBook+Destruct::drop"
	ud2
.Lfunc_end32:
	.size	pie_link_try_registers, .Lfunc_end32-pie_link_try_registers

	.section	.rodata.cst16,"aM",@progbits,16
	.p2align	4, 0x0
.LCPI33_0:
	.quad	-2
	.quad	-1
.LCPI33_1:
	.quad	-9223372036854775808
	.quad	-9223372036854775808
.LCPI33_2:
	.quad	-9223371036854775808
	.quad	-9223372036853775808
.LCPI33_3:
	.quad	-9223372036853775808
	.quad	-9223371036854775808
.LCPI33_4:
	.quad	-9223372026854775810
	.quad	-9223372026854775809
.LCPI33_5:
	.quad	-9223372036854710274
	.quad	-9223372035781033985
	.section	.text.pie_link_try_set_params,"ax",@progbits
	.globl	pie_link_try_set_params
	.p2align	4
	.type	pie_link_try_set_params,@function
pie_link_try_set_params:
	pushq	%rbp
	pushq	%r15
	pushq	%r14
	pushq	%r13
	pushq	%r12
	pushq	%rbx
	subq	$136, %rsp
	movq	(%rdi), %r14
	movq	$0, (%rdi)
	testq	%r14, %r14
	je	.LBB33_1
	movzwl	8(%r14), %ebp
	movq	64(%rsi), %rcx
	movdqu	16(%rsi), %xmm0
	movdqu	(%rsi), %xmm1
	movdqu	32(%rsi), %xmm2
	movdqu	48(%rsi), %xmm4
	movdqa	%xmm4, %xmm5
	palignr	$8, %xmm2, %xmm5
	pcmpeqd	%xmm3, %xmm3
	paddq	%xmm5, %xmm3
	paddq	.LCPI33_0(%rip), %xmm1
	pblendw	$240, %xmm4, %xmm2
	movdqa	.LCPI33_1(%rip), %xmm4
	pxor	%xmm4, %xmm0
	pcmpgtq	.LCPI33_2(%rip), %xmm0
	popcntq	%rcx, %rax
	pxor	%xmm4, %xmm2
	pcmpgtq	.LCPI33_3(%rip), %xmm2
	cmpl	$1, %eax
	pxor	%xmm4, %xmm1
	pcmpgtq	.LCPI33_4(%rip), %xmm1
	sete	%al
	pxor	%xmm4, %xmm3
	pcmpgtq	.LCPI33_5(%rip), %xmm3
	packssdw	%xmm2, %xmm0
	packssdw	%xmm3, %xmm1
	packssdw	%xmm0, %xmm1
	pmovmskb	%xmm1, %r8d
	testl	%r8d, %r8d
	sete	%r8b
	andb	%al, %r8b
	cmpb	$1, %r8b
	jne	.LBB33_10
	rep		bsfq	%rcx, %rax
	addl	$-10, %eax
	cmpl	$6, %eax
	ja	.LBB33_10
	movq	%rdi, %r15
	movq	56(%rsi), %rdi
	movq	48(%rsi), %r9
	movq	40(%rsi), %r10
	movq	32(%rsi), %r11
	movq	24(%rsi), %rbx
	movq	16(%rsi), %r13
	movq	(%rsi), %rax
	movq	8(%rsi), %rsi
	decl	%ecx
	movq	(%r14), %r8
	addq	$8, %r8
	movq	%rdx, %r12
	movq	(%rdx), %rdx
	pxor	%xmm0, %xmm0
	movdqa	%xmm0, 80(%rsp)
	movdqa	%xmm0, 96(%rsp)
	movdqa	%xmm0, 112(%rsp)
	movl	%r9d, 16(%rsp)
	movw	%cx, 20(%rsp)
	movw	%r10w, 22(%rsp)
	movq	%rax, 24(%rsp)
	movq	%rsi, 32(%rsp)
	movq	%r13, 40(%rsp)
	movq	%rdi, 48(%rsp)
	movl	%ebx, 56(%rsp)
	movl	%r11d, 60(%rsp)
	movq	$4, (%rsp)
	movq	%rdx, 8(%rsp)
	leaq	80(%rsp), %rdi
	movq	%rsp, %rcx
	leaq	8(%r14), %rsi
	movq	%r8, %rdx
	callq	"core::mem::replace_with::<#c61a209208d31057>"
	movzbl	80(%rsp), %eax
	movzbl	88(%rsp), %ecx
	testb	%al, %al
	je	.LBB33_8
	testq	%rcx, %rcx
	movq	%r15, %rdi
	je	.LBB33_6
	movzbl	96(%rsp), %ebx
	addl	$101, %ebx
	jmp	.LBB33_9
.LBB33_10:
	movl	$0, 60(%rdx)
	pxor	%xmm0, %xmm0
	movdqu	%xmm0, 16(%rdx)
	movdqu	%xmm0, 32(%rdx)
	movw	$5, 58(%rdx)
	movq	$0, 8(%rdx)
	movabsq	$459561500672, %rax
	movq	%rax, 48(%rdx)
	movw	%bp, 56(%rdx)
	movl	$107, %ebx
	jmp	.LBB33_11
.LBB33_1:
	movl	$122, %ebx
	jmp	.LBB33_16
.LBB33_8:
	leaq	.Lswitch.table.pie_link_try_set_params(%rip), %rax
	movl	(%rax,%rcx,4), %ebx
	movq	%r15, %rdi
	jmp	.LBB33_9
.LBB33_6:
	movl	$121, %ebx
	cmpb	$1, %al
	je	.LBB33_11
.LBB33_9:
	movl	%ebx, 52(%r12)
	movl	$0, 60(%r12)
	pxor	%xmm0, %xmm0
	movdqu	%xmm0, 16(%r12)
	movdqu	%xmm0, 32(%r12)
	movw	$5, 58(%r12)
	movq	$0, 8(%r12)
	movl	$0, 48(%r12)
	movw	%bp, 56(%r12)
.LBB33_11:
	movq	(%rdi), %rax
	movq	%r14, (%rdi)
	testq	%rax, %rax
	je	.LBB33_16
	movq	(%rax), %r15
	movq	16(%rax), %r14
	movq	32(%rax), %r12
	movq	%rax, %rdi
	callq	rattle_dealloc@PLT
	pxor	%xmm0, %xmm0
	movdqa	%xmm0, 48(%rsp)
	movdqa	%xmm0, 32(%rsp)
	movdqa	%xmm0, 16(%rsp)
	movdqa	%xmm0, (%rsp)
	movq	$0, 64(%rsp)
	#APP
	#NO_APP
	lock		decq	(%r15)
	#APP
	#NO_APP
	jne	.LBB33_14
	movq	72(%r15), %rax
	movq	%rax, 64(%rsp)
	movdqu	8(%r15), %xmm0
	movdqu	24(%r15), %xmm1
	movdqu	40(%r15), %xmm2
	movdqu	56(%r15), %xmm3
	movdqa	%xmm3, 48(%rsp)
	movdqa	%xmm2, 32(%rsp)
	movdqa	%xmm1, 16(%rsp)
	movdqa	%xmm0, (%rsp)
	movq	%r15, %rdi
	callq	rattle_dealloc@PLT
	movq	%rsp, %rdi
	callq	"atomic_table::owned::Table::drop::<#1bc90b9fb1d10aae>"
.LBB33_14:
	testq	%r12, %r12
	je	.LBB33_16
	movq	%r14, %rdi
	callq	rattle_dealloc@PLT
.LBB33_16:
	movl	%ebx, %eax
	addq	$136, %rsp
	popq	%rbx
	popq	%r12
	popq	%r13
	popq	%r14
	popq	%r15
	popq	%rbp
	retq
.Lfunc_end33:
	.size	pie_link_try_set_params, .Lfunc_end33-pie_link_try_set_params

	.section	.text.pie_link_try_stats,"ax",@progbits
	.globl	pie_link_try_stats
	.p2align	4
	.type	pie_link_try_stats,@function
pie_link_try_stats:
	pushq	%r15
	pushq	%r14
	pushq	%r12
	pushq	%rbx
	subq	$72, %rsp
	movq	(%rdi), %rcx
	movq	$0, (%rdi)
	testq	%rcx, %rcx
	je	.LBB34_1
	movq	(%rcx), %r8
	movl	8(%rcx), %edx
	movq	8(%r8), %rax
	#APP
	#NO_APP
	movq	(%rax), %rax
	#APP
	#NO_APP
	testq	%rax, %rax
	jne	.LBB34_7
	movq	8(%r8), %r9
	#APP
	#NO_APP
	movl	$1, %r10d
	xorl	%eax, %eax
	lock		cmpxchgq	%r10, (%r9)
	#APP
	#NO_APP
	jne	.LBB34_7
	movq	16(%r8), %rax
	movq	8(%rax), %rbx
	cmpb	$1, (%rax)
	xorps	%xmm0, %xmm0
	movups	%xmm0, (%rax)
	jne	.LBB34_15
	movq	304(%rbx), %r10
	movups	320(%rbx), %xmm0
	movups	336(%rbx), %xmm1
	movups	352(%rbx), %xmm2
	movups	368(%rbx), %xmm3
	movups	384(%rbx), %xmm4
	movups	400(%rbx), %xmm5
	movups	416(%rbx), %xmm6
	movq	440(%rbx), %r9
	movq	432(%rbx), %r11
	movq	16(%r8), %r14
	movq	8(%r14), %rax
	cmpb	$0, (%r14)
	movq	$1, (%r14)
	movq	%rbx, 8(%r14)
	jne	.LBB34_6
	movq	8(%r8), %rax
	#APP
	#NO_APP
	xorl	%ebx, %ebx
	xorl	%r8d, %r8d
	xchgq	%r8, (%rax)
	#APP
	#NO_APP
	movl	%edx, 8(%rcx)
	movq	%r10, (%rsi)
	movups	%xmm0, 8(%rsi)
	movups	%xmm1, 24(%rsi)
	movups	%xmm2, 40(%rsi)
	movups	%xmm3, 56(%rsi)
	movups	%xmm4, 72(%rsi)
	movups	%xmm5, 88(%rsi)
	movups	%xmm6, 104(%rsi)
	movq	%r11, 120(%rsi)
	movq	%r9, 128(%rsi)
	movq	(%rdi), %rax
	movq	%rcx, (%rdi)
	testq	%rax, %rax
	jne	.LBB34_10
	jmp	.LBB34_14
.LBB34_7:
	movl	%edx, 8(%rcx)
	movl	$121, %ebx
	movq	(%rdi), %rax
	movq	%rcx, (%rdi)
	testq	%rax, %rax
	je	.LBB34_14
.LBB34_10:
	movq	(%rax), %r15
	movq	16(%rax), %r14
	movq	32(%rax), %r12
	movq	%rax, %rdi
	callq	rattle_dealloc@PLT
	xorps	%xmm0, %xmm0
	movaps	%xmm0, 48(%rsp)
	movaps	%xmm0, 32(%rsp)
	movaps	%xmm0, 16(%rsp)
	movaps	%xmm0, (%rsp)
	movq	$0, 64(%rsp)
	#APP
	#NO_APP
	lock		decq	(%r15)
	#APP
	#NO_APP
	jne	.LBB34_12
	movq	72(%r15), %rax
	movq	%rax, 64(%rsp)
	movups	8(%r15), %xmm0
	movups	24(%r15), %xmm1
	movups	40(%r15), %xmm2
	movups	56(%r15), %xmm3
	movaps	%xmm3, 48(%rsp)
	movaps	%xmm2, 32(%rsp)
	movaps	%xmm1, 16(%rsp)
	movaps	%xmm0, (%rsp)
	movq	%r15, %rdi
	callq	rattle_dealloc@PLT
	movq	%rsp, %rdi
	callq	"atomic_table::owned::Table::drop::<#1bc90b9fb1d10aae>"
.LBB34_12:
	testq	%r12, %r12
	je	.LBB34_14
	movq	%r14, %rdi
	callq	rattle_dealloc@PLT
	jmp	.LBB34_14
.LBB34_1:
	movl	$122, %ebx
.LBB34_14:
	movl	%ebx, %eax
	addq	$72, %rsp
	popq	%rbx
	popq	%r12
	popq	%r14
	popq	%r15
	retq
.LBB34_15:
	ud2
.LBB34_6:
	movq	%rax, %rdi
	callq	"pie_link::pie_link++kept_book++KeptBook+Destruct::drop"
	ud2
.Lfunc_end34:
	.size	pie_link_try_stats, .Lfunc_end34-pie_link_try_stats

	.section	.text.pie_link_open_excerpt,"ax",@progbits
	.globl	pie_link_open_excerpt
	.p2align	4
	.type	pie_link_open_excerpt,@function
pie_link_open_excerpt:
	movq	(%rsi), %rcx
	movq	$0, (%rsi)
	testq	%rcx, %rcx
	je	.LBB35_2
	movq	%rcx, (%rsi)
	movl	$127, %eax
	retq
.LBB35_2:
	pushq	%rbp
	pushq	%r15
	pushq	%r14
	pushq	%r13
	pushq	%r12
	pushq	%rbx
	subq	$200, %rsp
	movq	%rdi, %rax
	movq	%rsi, %r15
	leaq	112(%rsp), %rdi
	movq	%rax, %rsi
	callq	"pie_abi::opening::checked"
	cmpb	$0, 112(%rsp)
	je	.LBB35_4
	movl	116(%rsp), %eax
	jmp	.LBB35_21
.LBB35_4:
	movq	120(%rsp), %rdx
	movl	128(%rsp), %r12d
	movl	132(%rsp), %r14d
	movq	136(%rsp), %rbp
	leal	-1(%r12), %eax
	cmpl	$1048576, %eax
	setb	%al
	leal	-1(%r14), %ecx
	cmpl	$1048576, %ecx
	setb	%cl
	andb	%al, %cl
	leaq	-1(%rbp), %rax
	shrq	$47, %rax
	sete	%al
	andb	%cl, %al
	movq	%rdx, %rcx
	shrq	$60, %rcx
	sete	%cl
	andb	%al, %cl
	movl	$123, %eax
	cmpb	$1, %cl
	jne	.LBB35_21
	movq	%rdx, 48(%rsp)
	movl	144(%rsp), %eax
	movq	%rax, 96(%rsp)
	movzwl	148(%rsp), %eax
	movw	%ax, 32(%rsp)
	movzwl	150(%rsp), %eax
	movw	%ax, 24(%rsp)
	movq	152(%rsp), %rax
	movq	%rax, 80(%rsp)
	movq	160(%rsp), %rax
	movq	%rax, 72(%rsp)
	movq	168(%rsp), %rax
	movq	%rax, 104(%rsp)
	movq	176(%rsp), %rax
	movq	%rax, 88(%rsp)
	movl	184(%rsp), %eax
	movq	%rax, 64(%rsp)
	movl	188(%rsp), %eax
	movq	%rax, 56(%rsp)
	movzbl	192(%rsp), %eax
	movb	%al, 13(%rsp)
	movzbl	193(%rsp), %r13d
	movzbl	199(%rsp), %eax
	movb	%al, 15(%rsp)
	leaq	(,%r12,8), %rax
	leaq	(%rax,%rax,2), %rbx
	movl	$8, %esi
	movq	%rbx, %rdi
	callq	rattle_alloc@PLT
	testb	$1, %al
	je	.LBB35_20
	movb	%r13b, 14(%rsp)
	testb	%r13b, %r13b
	sete	%r13b
	movq	%rdx, %rdi
	callq	rattle_dealloc@PLT
	movl	$8, %esi
	movq	%rbx, %rdi
	callq	rattle_alloc@PLT
	testb	$1, %al
	je	.LBB35_20
	movq	%rdx, 16(%rsp)
	cmpl	%r14d, %r12d
	movl	%r14d, %ebx
	cmoval	%r12d, %ebx
	addl	%ebx, %ebx
	movq	%rbx, %rdi
	shlq	$6, %rdi
	movl	$8, %esi
	callq	rattle_alloc@PLT
	testb	$1, %al
	je	.LBB35_17
	movq	%rdx, 40(%rsp)
	movl	$496, %edi
	movl	$16, %esi
	callq	rattle_alloc@PLT
	testb	$1, %al
	je	.LBB35_18
	movq	48(%rsp), %rcx
	movq	%rcx, (%rdx)
	movl	%r12d, 8(%rdx)
	movl	%r14d, 12(%rdx)
	movq	%rbp, 16(%rdx)
	movzwl	32(%rsp), %eax
	movq	%rax, 32(%rsp)
	movzwl	24(%rsp), %esi
	movq	%rsi, 24(%rsp)
	movq	96(%rsp), %r9
	movl	%r9d, 24(%rdx)
	movw	%ax, 28(%rdx)
	movw	%si, 30(%rdx)
	movq	80(%rsp), %r11
	movq	%r11, 32(%rdx)
	movq	72(%rsp), %r14
	movq	%r14, 40(%rdx)
	movq	104(%rsp), %r8
	movq	%r8, 48(%rdx)
	movq	88(%rsp), %r10
	movq	%r10, 56(%rdx)
	movq	64(%rsp), %rbp
	movl	%ebp, 64(%rdx)
	movq	56(%rsp), %rax
	movl	%eax, 68(%rdx)
	movzbl	13(%rsp), %esi
	movb	%sil, 72(%rdx)
	movb	%r13b, 13(%rsp)
	movzbl	14(%rsp), %r13d
	movb	%r13b, 73(%rdx)
	leaq	194(%rsp), %rsi
	movl	(%rsi), %edi
	movl	%edi, 74(%rdx)
	movzbl	4(%rsi), %edi
	movb	%dil, 78(%rdx)
	movzbl	15(%rsp), %edi
	movb	%dil, 79(%rdx)
	movq	$0, 80(%rdx)
	movb	%r13b, 88(%rdx)
	movzbl	4(%rsi), %edi
	movb	%dil, 93(%rdx)
	movl	(%rsi), %esi
	movl	%esi, 89(%rdx)
	movw	$0, 94(%rdx)
	movq	%r11, 96(%rdx)
	movq	%r14, 104(%rdx)
	movq	%r8, 112(%rdx)
	movq	%rbp, 120(%rdx)
	movq	%rax, 128(%rdx)
	movq	24(%rsp), %rax
	movq	%rax, 136(%rdx)
	movq	%r9, 144(%rdx)
	movq	%r10, 152(%rdx)
	movq	32(%rsp), %rax
	leaq	1(%rax), %rax
	movq	%rax, 160(%rdx)
	movq	%rcx, 168(%rdx)
	movzbl	13(%rsp), %eax
	movb	%al, 176(%rdx)
	xorps	%xmm0, %xmm0
	movups	%xmm0, 224(%rdx)
	movups	%xmm0, 209(%rdx)
	movups	%xmm0, 193(%rdx)
	movups	%xmm0, 177(%rdx)
	movq	%r8, 240(%rdx)
	movq	%rcx, 248(%rdx)
	movups	%xmm0, 256(%rdx)
	movups	%xmm0, 272(%rdx)
	movups	%xmm0, 288(%rdx)
	movups	%xmm0, 304(%rdx)
	movups	%xmm0, 320(%rdx)
	movups	%xmm0, 336(%rdx)
	movups	%xmm0, 352(%rdx)
	movups	%xmm0, 368(%rdx)
	movups	%xmm0, 384(%rdx)
	movups	%xmm0, 400(%rdx)
	movq	16(%rsp), %rax
	movq	%rax, 416(%rdx)
	movq	$0, 424(%rdx)
	movq	%r12, 432(%rdx)
	movq	40(%rsp), %rax
	movq	%rax, 440(%rdx)
	movq	$0, 448(%rdx)
	movq	%rbx, 456(%rdx)
	movups	%xmm0, 480(%rdx)
	movups	%xmm0, 464(%rdx)
	movq	(%r15), %rdi
	movq	%rdx, (%r15)
	xorl	%eax, %eax
	testq	%rdi, %rdi
	je	.LBB35_21
	movq	416(%rdi), %r14
	movq	440(%rdi), %rbx
	movq	456(%rdi), %r15
	movq	432(%rdi), %r12
	callq	rattle_dealloc@PLT
	testq	%r12, %r12
	je	.LBB35_12
	movq	%r14, %rdi
	callq	rattle_dealloc@PLT
.LBB35_12:
	testq	%r15, %r15
	je	.LBB35_14
	movq	%rbx, %rdi
	callq	rattle_dealloc@PLT
.LBB35_14:
	xorl	%eax, %eax
	jmp	.LBB35_21
.LBB35_17:
	movq	16(%rsp), %rdi
	jmp	.LBB35_19
.LBB35_18:
	movq	16(%rsp), %rdi
	callq	rattle_dealloc@PLT
	movq	40(%rsp), %rdi
.LBB35_19:
	callq	rattle_dealloc@PLT
.LBB35_20:
	movl	$123, %eax
.LBB35_21:
	addq	$200, %rsp
	popq	%rbx
	popq	%r12
	popq	%r13
	popq	%r14
	popq	%r15
	popq	%rbp
	retq
.Lfunc_end35:
	.size	pie_link_open_excerpt, .Lfunc_end35-pie_link_open_excerpt

	.section	.text.pie_link_try_fold,"ax",@progbits
	.globl	pie_link_try_fold
	.p2align	4
	.type	pie_link_try_fold,@function
pie_link_try_fold:
	pushq	%rbp
	pushq	%r15
	pushq	%r14
	pushq	%r13
	pushq	%r12
	pushq	%rbx
	subq	$200, %rsp
	xorl	%ebx, %ebx
	testq	%rsi, %rsi
	sete	%r11b
	movq	(%rdi), %r10
	movq	$0, (%rdi)
	testq	%r10, %r10
	je	.LBB36_51
	movq	%r9, %r12
	movq	%rsi, %r13
	movq	%rcx, 184(%rsp)
	movq	%r8, 168(%rsp)
	movq	%rdi, 192(%rsp)
	movq	(%r10), %r9
	movq	16(%r10), %rbp
	movq	32(%r10), %rsi
	leaq	32(%rsp), %rax
	movq	%rax, 16(%r10)
	xorps	%xmm0, %xmm0
	movups	%xmm0, 24(%r10)
	movq	%r10, 72(%rsp)
	movl	8(%r10), %r8d
	movq	8(%r9), %rax
	#APP
	#NO_APP
	movq	(%rax), %rax
	#APP
	#NO_APP
	testq	%rax, %rax
	je	.LBB36_3
	xorl	%eax, %eax
	xorl	%edi, %edi
	xorl	%r15d, %r15d
	jmp	.LBB36_18
.LBB36_51:
	movq	$0, (%rcx)
	movl	$122, %ebp
	jmp	.LBB36_52
.LBB36_3:
	movq	8(%r9), %rdi
	#APP
	#NO_APP
	movl	$1, %r10d
	xorl	%eax, %eax
	lock		cmpxchgq	%r10, (%rdi)
	movl	$0, %eax
	#APP
	#NO_APP
	movl	$0, %edi
	movl	$0, %r15d
	jne	.LBB36_18
	movq	16(%r9), %rdi
	movq	8(%rdi), %rax
	cmpb	$1, (%rdi)
	movups	%xmm0, (%rdi)
	jne	.LBB36_53
	cmpq	%rsi, %rdx
	cmovaeq	%rsi, %rdx
	cmpq	$64, %rdx
	movl	$64, %edi
	cmovbq	%rdx, %rdi
	testq	%rdx, %rdx
	movb	%r11b, 8(%rsp)
	je	.LBB36_6
	leaq	1(%rbp), %rdx
	xorl	%r15d, %r15d
	.p2align	4
.LBB36_8:
	movq	464(%rax), %r11
	movq	480(%rax), %r10
	movq	%r11, %r14
	subq	%r10, %r14
	cmpq	%r15, %r14
	jbe	.LBB36_16
	leaq	(%r15,%r10), %r14
	cmpq	%r14, %r11
	jbe	.LBB36_16
	movq	%rbp, %rcx
	movq	456(%rax), %r11
	addq	472(%rax), %r10
	movq	%r15, %rbp
	leaq	(%r15,%r10), %r14
	cmpq	%r11, %r14
	jae	.LBB36_12
	xorl	%r11d, %r11d
.LBB36_12:
	movq	448(%rax), %r14
	subq	%r11, %r10
	movq	%rbp, %r15
	addq	%rbp, %r10
	shlq	$6, %r10
	movzbl	(%r14,%r10), %r11d
	movups	48(%r14,%r10), %xmm0
	movups	%xmm0, 127(%rsp)
	movups	33(%r14,%r10), %xmm0
	movaps	%xmm0, 112(%rsp)
	movups	17(%r14,%r10), %xmm0
	movaps	%xmm0, 96(%rsp)
	movups	1(%r14,%r10), %xmm0
	movaps	%xmm0, 80(%rsp)
	movb	%r11b, -1(%rdx)
	movaps	80(%rsp), %xmm0
	movdqa	96(%rsp), %xmm1
	movaps	112(%rsp), %xmm2
	movups	%xmm0, (%rdx)
	movdqu	%xmm1, 16(%rdx)
	movups	%xmm2, 32(%rdx)
	movups	127(%rsp), %xmm0
	movups	%xmm0, 47(%rdx)
	incq	%r15
	cmpb	$5, %r11b
	je	.LBB36_15
	addq	$64, %rdx
	cmpq	%r15, %rdi
	movq	%rcx, %rbp
	jne	.LBB36_8
	movq	%rdi, %r15
	jmp	.LBB36_16
.LBB36_6:
	xorl	%r15d, %r15d
	jmp	.LBB36_16
.LBB36_15:
	movq	%rcx, %rbp
.LBB36_16:
	movq	480(%rax), %rdx
	movq	%r15, %r14
	addq	%r15, %rdx
	movq	%rdx, 480(%rax)
	movq	304(%rax), %r15
	movq	464(%rax), %r10
	movq	16(%r9), %r11
	movq	8(%r11), %rdi
	cmpb	$0, (%r11)
	movq	$1, (%r11)
	movq	%rax, 8(%r11)
	jne	.LBB36_54
	subq	%rdx, %r10
	xorl	%eax, %eax
	subq	%r10, %r15
	cmovbq	%rax, %r15
	movq	8(%r9), %rdx
	#APP
	#NO_APP
	xchgq	%rax, (%rdx)
	#APP
	#NO_APP
	movb	$1, %dil
	movq	%r14, %rax
	movzbl	8(%rsp), %r11d
.LBB36_18:
	movq	%rdi, 176(%rsp)
	movq	72(%rsp), %r14
	movl	%r8d, 8(%r14)
	movq	16(%r14), %rdi
	movq	%rbp, 16(%r14)
	movq	%rax, 24(%r14)
	cmpq	$0, 32(%r14)
	movq	%rsi, 32(%r14)
	je	.LBB36_20
	movl	%r11d, %ebp
	callq	rattle_dealloc@PLT
	movl	%ebp, %r11d
	movq	16(%r14), %rbp
	movq	24(%r14), %rax
.LBB36_20:
	movq	%r15, 160(%rsp)
	movq	%rax, 64(%rsp)
	testq	%rax, %rax
	je	.LBB36_44
	movb	%r11b, %bl
	shll	$12, %ebx
	leaq	(%rbx,%r13), %rax
	addq	$60, %rax
	xorl	%edx, %edx
	movq	64(%rsp), %rdi
	movq	%rbp, 24(%rsp)
	jmp	.LBB36_22
	.p2align	4
.LBB36_42:
	movl	56(%rsp), %esi
	movzwl	48(%rsp), %r8d
	incq	%r8
	movq	16(%rsp), %rcx
.LBB36_43:
	movups	%xmm0, (%r12)
	movq	%rbx, 16(%r12)
	movdqu	%xmm1, 24(%r12)
	movq	%r10, 40(%r12)
	movq	%rsi, 48(%r12)
	movq	%rcx, 56(%r12)
	movq	%r8, 64(%r12)
	addq	$64, %rdx
	decq	%rdi
	movq	24(%rsp), %rbp
	je	.LBB36_44
.LBB36_22:
	movzbl	(%rbp,%rdx), %esi
	movzbl	%sil, %r8d
	leaq	.LJTI36_0(%rip), %r9
	movslq	(%r9,%r8,4), %r8
	addq	%r9, %r8
	jmpq	*%r8
.LBB36_24:
	movq	8(%rbp,%rdx), %rcx
	xorps	%xmm0, %xmm0
	cmpb	$2, %sil
	jne	.LBB36_37
	movl	$5, %r9d
	movq	$0, 8(%rsp)
	movq	$0, 16(%rsp)
	xorl	%ebx, %ebx
	movq	$0, 56(%rsp)
	movq	$0, 48(%rsp)
	xorl	%r10d, %r10d
	xorl	%r11d, %r11d
	xorl	%r13d, %r13d
	xorl	%r15d, %r15d
	xorl	%r8d, %r8d
	xorl	%r14d, %r14d
	jmp	.LBB36_26
.LBB36_37:
	movq	16(%rbp,%rdx), %r11
	movq	24(%rbp,%rdx), %r8
	movq	%r8, %r14
	shrq	$32, %r14
	movq	$0, 8(%rsp)
	movq	$0, 16(%rsp)
	xorl	%ebx, %ebx
	movq	$0, 56(%rsp)
	movq	$0, 48(%rsp)
	xorl	%r10d, %r10d
	xorl	%r13d, %r13d
	xorl	%r15d, %r15d
	xorl	%r9d, %r9d
.LBB36_26:
	pxor	%xmm1, %xmm1
	xorps	%xmm2, %xmm2
	movq	%rcx, %rsi
	movb	$2, %cl
	jmp	.LBB36_40
.LBB36_38:
	movq	8(%rbp,%rdx), %rsi
	movups	16(%rbp,%rdx), %xmm2
	movq	32(%rbp,%rdx), %r15
	xorps	%xmm0, %xmm0
	movb	$3, %cl
	movq	$0, 8(%rsp)
	movq	$0, 16(%rsp)
	xorl	%ebx, %ebx
	movq	$0, 56(%rsp)
	movq	$0, 48(%rsp)
	xorl	%r10d, %r10d
	xorl	%r11d, %r11d
	xorl	%r13d, %r13d
	xorl	%r8d, %r8d
	xorl	%r9d, %r9d
	xorl	%r14d, %r14d
	pxor	%xmm1, %xmm1
	jmp	.LBB36_40
.LBB36_27:
	movq	%rbp, %rcx
	movq	8(%rbp,%rdx), %rbp
	movq	16(%rcx,%rdx), %rsi
	movq	32(%rcx,%rdx), %r8
	movq	%r8, 40(%rsp)
	movups	24(%rcx,%rdx), %xmm0
	movq	24(%rcx,%rdx), %r8
	movzbl	4(%rcx,%rdx), %ecx
	movq	%rsi, %r9
	shrq	$32, %r9
	movq	%r9, 48(%rsp)
	movq	%rsi, %r10
	shrq	$48, %r10
	movq	%r8, %r14
	shrq	$32, %r14
	movzbl	%cl, %r9d
	pxor	%xmm1, %xmm1
	leaq	.LJTI36_1(%rip), %r11
	movslq	(%r11,%r9,4), %rbx
	addq	%r11, %rbx
	movq	%rsi, 56(%rsp)
	jmpq	*%rbx
.LBB36_36:
	movq	$0, 16(%rsp)
	movb	$1, %cl
	movq	$0, 8(%rsp)
	xorl	%ebx, %ebx
	movq	%rsi, %r11
	xorl	%r15d, %r15d
	xorl	%r9d, %r9d
	jmp	.LBB36_30
.LBB36_39:
	movq	8(%rbp,%rdx), %rsi
	movq	16(%rbp,%rdx), %r10
	movups	24(%rbp,%rdx), %xmm0
	movq	40(%rbp,%rdx), %rbx
	movq	48(%rbp,%rdx), %rcx
	movq	%rcx, 16(%rsp)
	pmovzxdq	56(%rbp,%rdx), %xmm1
	movq	%r10, %rcx
	shrq	$32, %rcx
	movq	%rcx, 48(%rsp)
	movq	%r10, 56(%rsp)
	shrq	$48, %r10
	xorps	%xmm2, %xmm2
	movb	$5, %cl
	xorl	%r11d, %r11d
	movb	$1, %r8b
	movq	%r8, 8(%rsp)
	xorl	%r13d, %r13d
	xorl	%r15d, %r15d
	xorl	%r8d, %r8d
	xorl	%r9d, %r9d
	xorl	%r14d, %r14d
	jmp	.LBB36_40
.LBB36_23:
	movq	8(%rbp,%rdx), %rsi
	xorps	%xmm0, %xmm0
	movb	$4, %cl
	movq	$0, 8(%rsp)
	movq	$0, 16(%rsp)
	xorl	%ebx, %ebx
	movq	$0, 56(%rsp)
	movq	$0, 48(%rsp)
	xorl	%r10d, %r10d
	xorl	%r11d, %r11d
	xorl	%r13d, %r13d
	xorl	%r15d, %r15d
	xorl	%r8d, %r8d
	xorl	%r9d, %r9d
	xorl	%r14d, %r14d
	pxor	%xmm1, %xmm1
	xorps	%xmm2, %xmm2
	jmp	.LBB36_40
.LBB36_34:
	movb	$1, %cl
	movl	$4, %r9d
	jmp	.LBB36_32
.LBB36_31:
	movb	$1, %cl
	movl	$2, %r9d
	jmp	.LBB36_32
.LBB36_33:
	movb	$1, %cl
	movl	$3, %r9d
	jmp	.LBB36_32
.LBB36_35:
	movb	$1, %cl
	movl	$5, %r9d
.LBB36_32:
	movq	$0, 8(%rsp)
	movq	$0, 16(%rsp)
.LBB36_29:
	xorl	%ebx, %ebx
	movq	%rsi, %r11
	xorl	%r15d, %r15d
.LBB36_30:
	xorps	%xmm2, %xmm2
	movq	%rbp, %rsi
	movq	24(%rsp), %rbp
	movq	40(%rsp), %r13
	.p2align	4
.LBB36_40:
	movzwl	2(%rbp,%rdx), %ebp
	movq	%rsi, -60(%rax,%rdx)
	movq	%r11, -52(%rax,%rdx)
	movq	%r13, -44(%rax,%rdx)
	movups	%xmm2, -36(%rax,%rdx)
	movq	%r15, -20(%rax,%rdx)
	movl	%r8d, -12(%rax,%rdx)
	movl	%r9d, -8(%rax,%rdx)
	movw	%bp, -4(%rax,%rdx)
	movb	%cl, -2(%rax,%rdx)
	movb	%r14b, -1(%rax,%rdx)
	movl	$0, (%rax,%rdx)
	cmpb	$0, 8(%rsp)
	jne	.LBB36_42
	movups	(%r12), %xmm0
	movq	16(%r12), %rbx
	movdqu	24(%r12), %xmm1
	movq	40(%r12), %r10
	movq	48(%r12), %rsi
	movq	56(%r12), %rcx
	movq	64(%r12), %r8
	jmp	.LBB36_43
.LBB36_28:
	movq	$0, 16(%rsp)
	movq	$0, 8(%rsp)
	jmp	.LBB36_29
.LBB36_44:
	movq	184(%rsp), %rax
	movq	64(%rsp), %rcx
	movq	%rcx, (%rax)
	movl	$121, %ebp
	cmpb	$0, 176(%rsp)
	je	.LBB36_46
	xorl	%eax, %eax
	testq	%rcx, %rcx
	movq	168(%rsp), %rcx
	movq	160(%rsp), %rdx
	movq	%rdx, (%rcx)
	movl	$106, %ebp
	cmovnel	%eax, %ebp
.LBB36_46:
	movq	192(%rsp), %rax
	movq	(%rax), %rdi
	movq	72(%rsp), %rcx
	movq	%rcx, (%rax)
	testq	%rdi, %rdi
	je	.LBB36_52
	movq	(%rdi), %r14
	movq	16(%rdi), %rbx
	movq	32(%rdi), %r15
	callq	rattle_dealloc@PLT
	xorps	%xmm0, %xmm0
	movaps	%xmm0, 128(%rsp)
	movaps	%xmm0, 112(%rsp)
	movaps	%xmm0, 96(%rsp)
	movaps	%xmm0, 80(%rsp)
	movq	$0, 144(%rsp)
	#APP
	#NO_APP
	lock		decq	(%r14)
	#APP
	#NO_APP
	jne	.LBB36_49
	movq	72(%r14), %rax
	movq	%rax, 144(%rsp)
	movups	8(%r14), %xmm0
	movdqu	24(%r14), %xmm1
	movups	40(%r14), %xmm2
	movups	56(%r14), %xmm3
	movaps	%xmm3, 128(%rsp)
	movaps	%xmm2, 112(%rsp)
	movdqa	%xmm1, 96(%rsp)
	movaps	%xmm0, 80(%rsp)
	movq	%r14, %rdi
	callq	rattle_dealloc@PLT
	leaq	80(%rsp), %rdi
	callq	"atomic_table::owned::Table::drop::<#1bc90b9fb1d10aae>"
.LBB36_49:
	testq	%r15, %r15
	je	.LBB36_52
	movq	%rbx, %rdi
	callq	rattle_dealloc@PLT
.LBB36_52:
	movl	%ebp, %eax
	addq	$200, %rsp
	popq	%rbx
	popq	%r12
	popq	%r13
	popq	%r14
	popq	%r15
	popq	%rbp
	retq
.LBB36_53:
	ud2
.LBB36_54:
	callq	"pie_link::pie_link++kept_book++KeptBook+Destruct::drop"
	ud2
.Lfunc_end36:
	.size	pie_link_try_fold, .Lfunc_end36-pie_link_try_fold
	.section	.rodata.pie_link_try_fold,"a",@progbits
	.p2align	2, 0x0
.LJTI36_0:
	.long	.LBB36_27-.LJTI36_0
	.long	.LBB36_24-.LJTI36_0
	.long	.LBB36_24-.LJTI36_0
	.long	.LBB36_38-.LJTI36_0
	.long	.LBB36_23-.LJTI36_0
	.long	.LBB36_39-.LJTI36_0
.LJTI36_1:
	.long	.LBB36_36-.LJTI36_1
	.long	.LBB36_28-.LJTI36_1
	.long	.LBB36_31-.LJTI36_1
	.long	.LBB36_33-.LJTI36_1
	.long	.LBB36_34-.LJTI36_1
	.long	.LBB36_35-.LJTI36_1
	.long	.LBB36_36-.LJTI36_1
	.long	.LBB36_36-.LJTI36_1
	.long	.LBB36_36-.LJTI36_1

	.section	.rodata.cst16,"aM",@progbits,16
	.p2align	4, 0x0
.LCPI37_0:
	.byte	108
	.byte	108
	.byte	105
	.byte	110
	.zero	1
	.zero	1
	.zero	1
	.zero	1
	.zero	1
	.zero	1
	.zero	1
	.zero	1
	.zero	1
	.zero	1
	.zero	1
	.zero	1
.LCPI37_1:
	.byte	117
	.byte	110
	.byte	100
	.byte	101
	.zero	1
	.zero	1
	.zero	1
	.zero	1
	.zero	1
	.zero	1
	.zero	1
	.zero	1
	.zero	1
	.zero	1
	.zero	1
	.zero	1
.LCPI37_2:
	.byte	108
	.byte	108
	.byte	105
	.byte	110
	.byte	0
	.byte	0
	.byte	0
	.byte	0
	.byte	0
	.byte	0
	.byte	0
	.byte	0
	.byte	0
	.byte	0
	.byte	0
	.byte	0
	.section	.text.pie_link_write_excerpt,"ax",@progbits
	.globl	pie_link_write_excerpt
	.p2align	4
	.type	pie_link_write_excerpt,@function
pie_link_write_excerpt:
	pushq	%rbp
	pushq	%r15
	pushq	%r14
	pushq	%r13
	pushq	%r12
	pushq	%rbx
	subq	$2792, %rsp
	xorl	%eax, %eax
	testq	%rsi, %rsi
	sete	%cl
	movq	(%rdi), %r13
	movq	$0, (%rdi)
	testq	%r13, %r13
	je	.LBB37_8
	movq	%rdx, %r14
	movq	%rsi, %rbp
	movq	%rdi, %r12
	movb	%cl, %al
	shll	$12, %eax
	addq	%rax, %rbp
	movq	480(%r13), %rbx
	leaq	1504(%rsp), %rdi
	movl	$1288, %edx
	xorl	%esi, %esi
	callq	memset@PLT
	leaq	80(%rsp), %rdi
	movl	$520, %edx
	xorl	%esi, %esi
	callq	memset@PLT
	movabsq	$3777893186295716171, %r15
	testq	%rbx, %rbx
	je	.LBB37_9
	leaq	80(%rsp), %rdi
	movl	$512, %edx
	xorl	%esi, %esi
	callq	memset@PLT
	movq	$512, 592(%rsp)
	decq	%rbx
	movq	%rbx, %rdi
	subq	424(%r13), %rdi
	jae	.LBB37_11
	movq	416(%r13), %rax
	leaq	(%rbx,%rbx,2), %rcx
	movq	(%rax,%rcx,8), %rbx
	movl	8(%rax,%rcx,8), %esi
	movzbl	12(%rax,%rcx,8), %edi
	movq	16(%rax,%rcx,8), %rcx
	movb	$10, 591(%rsp)
	movl	$511, %r8d
	cmpq	$10000, %rcx
	jb	.LBB37_35
	.p2align	4
.LBB37_4:
	movq	%rcx, %rax
	mulq	%r15
	shrq	$11, %rdx
	imull	$10000, %edx, %eax
	movl	%ecx, %r9d
	subl	%eax, %r9d
	imull	$5243, %r9d, %eax
	shrl	$19, %eax
	imull	$100, %eax, %r10d
	subl	%r10d, %r9d
	movzwl	%r9w, %r9d
	leaq	.Lstatic.17(%rip), %r10
	movzwl	(%r10,%r9,2), %r9d
	movw	%r9w, 78(%rsp,%r8)
	movzwl	(%r10,%rax,2), %eax
	movw	%ax, 76(%rsp,%r8)
	addq	$-4, %r8
	cmpq	$99999999, %rcx
	movq	%rdx, %rcx
	ja	.LBB37_4
	cmpq	$99, %rdx
	ja	.LBB37_36
.LBB37_6:
	cmpq	$9, %rdx
	ja	.LBB37_42
	orb	$48, %dl
	movb	%dl, 79(%rsp,%r8)
	decq	%r8
	leaq	-1(%r8), %rax
	movq	%rax, 592(%rsp)
	movb	$44, 79(%rsp,%r8)
	movq	592(%rsp), %rax
	movl	%edi, %ecx
	leaq	.LJTI37_5(%rip), %rdx
	movslq	(%rdx,%rcx,4), %rcx
	addq	%rdx, %rcx
	jmpq	*%rcx
.LBB37_8:
	xorl	%ebx, %ebx
	jmp	.LBB37_114
.LBB37_9:
	leaq	1504(%rsp), %rdi
	movl	$1280, %edx
	xorl	%esi, %esi
	callq	memset@PLT
	movzwl	28(%r13), %edx
	movzbl	72(%r13), %r15d
	leaq	.Lstatic.1(%rip), %rax
	negq	%rax
	addq	%rsp, %rax
	addq	$1504, %rax
	cmpq	$5, %rax
	movq	%r12, 16(%rsp)
	movq	%rbp, 32(%rsp)
	movq	%r14, 56(%rsp)
	movq	%rdx, 600(%rsp)
	ja	.LBB37_17
	movl	$1970496882, 1504(%rsp)
	movw	$25965, 1508(%rsp)
	jmp	.LBB37_18
.LBB37_11:
	cmpq	448(%r13), %rdi
	jae	.LBB37_104
	movq	440(%r13), %r8
	shlq	$6, %rdi
	movzwl	2(%r8,%rdi), %esi
	movzbl	(%r8,%rdi), %eax
	movzbl	%al, %ecx
	leaq	.LJTI37_0(%rip), %rdx
	movslq	(%rdx,%rcx,4), %rcx
	addq	%rdx, %rcx
	movq	%r12, 16(%rsp)
	movq	%rbp, 32(%rsp)
	movq	%rsi, 64(%rsp)
	jmpq	*%rcx
.LBB37_13:
	movq	8(%r8,%rdi), %r9
	cmpb	$2, %al
	jne	.LBB37_53
	movb	$1, %dl
	xorl	%r12d, %r12d
	xorl	%r15d, %r15d
	xorl	%ebp, %ebp
	xorl	%r10d, %r10d
.LBB37_15:
	movb	$10, 591(%rsp)
	movq	$506, 592(%rsp)
	leaq	.Lstatic.31(%rip), %rax
	negq	%rax
	addq	%rsp, %rax
	addq	$586, %rax
	movzbl	%dl, %ecx
	cmpq	$4, %rax
	ja	.LBB37_66
	movl	$1953525093, 586(%rsp)
	movb	$121, 590(%rsp)
	pxor	%xmm0, %xmm0
	xorl	%eax, %eax
	leaq	.LJTI37_3(%rip), %rdx
	movslq	(%rdx,%rcx,4), %rsi
	addq	%rdx, %rsi
	xorl	%ecx, %ecx
	jmpq	*%rsi
.LBB37_17:
	movw	$25965, 1508(%rsp)
	movl	$1970496882, 1504(%rsp)
.LBB37_18:
	movl	8(%r13), %eax
	movq	%rax, 640(%rsp)
	movl	12(%r13), %eax
	movq	%rax, 664(%rsp)
	movl	24(%r13), %eax
	movq	%rax, 776(%rsp)
	movzwl	30(%r13), %eax
	movq	%rax, 752(%rsp)
	movl	64(%r13), %eax
	movq	%rax, 736(%rsp)
	movl	68(%r13), %eax
	movq	%rax, 744(%rsp)
	movzbl	176(%r13), %eax
	movq	%rax, 64(%rsp)
	movq	(%r13), %rax
	movq	%rax, 608(%rsp)
	movq	16(%r13), %rax
	movq	%rax, 648(%rsp)
	movq	32(%r13), %rax
	movq	%rax, 672(%rsp)
	movq	40(%r13), %rax
	movq	%rax, 688(%rsp)
	movq	48(%r13), %rax
	movq	%rax, 704(%rsp)
	movq	56(%r13), %rax
	movq	%rax, 760(%rsp)
	testb	%r15b, %r15b
	leaq	.Lstatic.3(%rip), %rax
	leaq	.Lstatic.4(%rip), %rbx
	cmoveq	%rax, %rbx
	movzbl	88(%r13), %eax
	movb	%al, 14(%rsp)
	movd	89(%r13), %xmm0
	movdqa	%xmm0, 960(%rsp)
	movzbl	93(%r13), %r14d
	movzbl	192(%r13), %eax
	movb	%al, 15(%rsp)
	movq	80(%r13), %rax
	movq	%rax, 768(%rsp)
	movq	96(%r13), %rax
	movq	%rax, 616(%rsp)
	movq	104(%r13), %rax
	movq	%rax, 624(%rsp)
	movq	112(%r13), %rax
	movq	%rax, 632(%rsp)
	movq	120(%r13), %rax
	movq	%rax, 656(%rsp)
	movq	128(%r13), %rax
	movq	%rax, 680(%rsp)
	movq	136(%r13), %rax
	movq	%rax, 696(%rsp)
	movq	144(%r13), %rax
	movq	%rax, 712(%rsp)
	movq	152(%r13), %rax
	movq	%rax, 720(%rsp)
	movq	160(%r13), %rax
	movq	%rax, 728(%rsp)
	movq	168(%r13), %rax
	movq	%rax, 808(%rsp)
	movq	184(%r13), %rax
	movq	%rax, 848(%rsp)
	movq	200(%r13), %rax
	movq	%rax, 856(%rsp)
	movq	%r13, %rcx
	movq	208(%r13), %r13
	movq	216(%rcx), %rax
	movq	%rax, 864(%rsp)
	movq	224(%rcx), %rax
	movq	%rax, 800(%rsp)
	movq	232(%rcx), %rax
	movq	%rax, 816(%rsp)
	movq	240(%rcx), %rax
	movq	%rax, 832(%rsp)
	movq	248(%rcx), %rax
	movq	%rax, 840(%rsp)
	movq	256(%rcx), %rax
	movq	%rax, 824(%rsp)
	movq	264(%rcx), %rax
	movq	%rax, 784(%rsp)
	movq	272(%rcx), %rax
	movq	%rax, 792(%rsp)
	movq	288(%rcx), %rax
	movq	%rax, 872(%rsp)
	movq	296(%rcx), %rax
	movq	%rax, 880(%rsp)
	movq	304(%rcx), %rax
	movq	%rax, 888(%rsp)
	movq	312(%rcx), %rax
	movq	%rax, 896(%rsp)
	movq	320(%rcx), %rax
	movq	%rax, 904(%rsp)
	movq	328(%rcx), %rax
	movq	%rax, 912(%rsp)
	movq	336(%rcx), %rax
	movq	%rax, 920(%rsp)
	movq	344(%rcx), %rax
	movq	%rax, 928(%rsp)
	movq	352(%rcx), %rax
	movq	%rax, 936(%rsp)
	movq	360(%rcx), %rax
	movq	%rax, 944(%rsp)
	movq	368(%rcx), %rax
	movq	%rax, 952(%rsp)
	movq	376(%rcx), %rax
	movq	%rax, 40(%rsp)
	movq	384(%rcx), %rax
	movq	%rax, 24(%rsp)
	movq	392(%rcx), %rax
	movq	%rax, 48(%rsp)
	movq	408(%rcx), %rbp
	movq	%rcx, 72(%rsp)
	movq	400(%rcx), %r12
	movb	$44, 1510(%rsp)
	movq	$7, 2784(%rsp)
	leaq	976(%rsp), %rdi
	movl	$512, %edx
	xorl	%esi, %esi
	callq	memset@PLT
	movq	$511, 1488(%rsp)
	movb	$44, 1487(%rsp)
	leaq	1480(%rsp), %rax
	movq	%rax, %rcx
	subq	%rbx, %rcx
	cmpq	$6, %rcx
	ja	.LBB37_21
	xorl	%eax, %eax
	xorl	%ecx, %ecx
	testb	%r15b, %r15b
	sete	%al
	movzbl	(%rbx), %edx
	movb	%dl, 1480(%rsp)
	movb	$111, 1481(%rsp)
	movd	%eax, %xmm0
	punpcklbw	%xmm0, %xmm0
	pshuflw	$0, %xmm0, %xmm0
	psllw	$7, %xmm0
	movd	.LCPI37_2(%rip), %xmm1
	pblendvb	%xmm0, .LCPI37_1(%rip), %xmm1
	movd	%xmm1, 1482(%rsp)
	setne	%cl
	leal	(%rcx,%rcx,2), %eax
	addl	$100, %eax
	movb	%al, 1486(%rsp)
	movq	600(%rsp), %r15
	incq	%r15
	testb	%r14b, %r14b
	je	.LBB37_22
.LBB37_20:
	movb	$44, 1479(%rsp)
	leaq	.Lstatic.6(%rip), %rax
	negq	%rax
	addq	%rsp, %rax
	addq	$1475, %rax
	cmpq	$3, %rax
	movl	$1718378856, 1475(%rsp)
	movl	$498, %eax
	jmp	.LBB37_23
.LBB37_21:
	movl	(%rbx), %ecx
	movl	3(%rbx), %edx
	movl	%edx, 3(%rax)
	movl	%ecx, (%rax)
	movq	600(%rsp), %r15
	incq	%r15
	testb	%r14b, %r14b
	jne	.LBB37_20
.LBB37_22:
	movl	$503, %eax
.LBB37_23:
	pxor	%xmm0, %xmm0
	movdqa	960(%rsp), %xmm1
	pcmpeqb	%xmm0, %xmm1
	pmovsxbd	%xmm1, %xmm0
	movmskps	%xmm0, %ebx
	movl	%ebx, %ecx
	shrb	$3, %cl
	movzbl	%cl, %ecx
	leaq	6(,%rcx,2), %rdx
	leaq	.Lstatic.7(%rip), %rdi
	leaq	.Lstatic.8(%rip), %rsi
	testb	%cl, %cl
	cmovneq	%rdi, %rsi
	movb	$44, 976(%rsp,%rax)
	subq	%rdx, %rax
	movq	%rax, 1488(%rsp)
	leaq	(%rsp,%rax), %rdi
	addq	$976, %rdi
	callq	memcpy@PLT
	xorl	%eax, %eax
	testb	$4, %bl
	sete	%al
	leaq	6(%rax,%rax), %rdx
	leaq	.Lstatic.9(%rip), %rax
	leaq	.Lstatic.10(%rip), %rsi
	cmovneq	%rax, %rsi
	movq	1488(%rsp), %rax
	leaq	-1(%rax), %rcx
	movq	%rcx, 1488(%rsp)
	movb	$44, 975(%rsp,%rax)
	movq	1488(%rsp), %rax
	subq	%rdx, %rax
	movq	%rax, 1488(%rsp)
	leaq	(%rsp,%rax), %rdi
	addq	$976, %rdi
	callq	memcpy@PLT
	testb	$2, %bl
	movl	$12, %eax
	movl	$6, %edx
	cmovneq	%rax, %rdx
	leaq	.Lstatic.11(%rip), %rax
	leaq	.Lstatic.12(%rip), %rsi
	cmovneq	%rax, %rsi
	movq	1488(%rsp), %rax
	leaq	-1(%rax), %rcx
	movq	%rcx, 1488(%rsp)
	movb	$44, 975(%rsp,%rax)
	movq	1488(%rsp), %rax
	subq	%rdx, %rax
	movq	%rax, 1488(%rsp)
	leaq	(%rsp,%rax), %rdi
	addq	$976, %rdi
	callq	memcpy@PLT
	movl	%ebx, %edx
	andl	$1, %edx
	xorq	$5, %rdx
	leaq	.Lstatic.13(%rip), %rax
	leaq	.Lstatic.14(%rip), %rsi
	testb	$1, %bl
	cmovneq	%rax, %rsi
	movq	1488(%rsp), %rax
	leaq	-1(%rax), %rcx
	movq	%rcx, 1488(%rsp)
	movb	$44, 975(%rsp,%rax)
	movq	1488(%rsp), %rax
	subq	%rdx, %rax
	movq	%rax, 1488(%rsp)
	leaq	(%rsp,%rax), %rdi
	addq	$976, %rdi
	callq	memcpy@PLT
	movq	1488(%rsp), %rax
	leaq	-1(%rax), %rcx
	movq	%rcx, 1488(%rsp)
	movb	$44, 975(%rsp,%rax)
	movq	1488(%rsp), %rax
	leaq	-1(%rax), %rcx
	movq	%rcx, 1488(%rsp)
	cmpb	$1, 14(%rsp)
	movb	$50, %cl
	sbbb	$0, %cl
	movb	%cl, 975(%rsp,%rax)
	movq	1488(%rsp), %rbx
	leaq	(%rsp,%rbx), %rsi
	addq	$976, %rsi
	movl	$512, %edx
	subq	%rbx, %rdx
	leaq	1511(%rsp), %rdi
	callq	memcpy@PLT
	movl	$519, %eax
	subq	%rbx, %rax
	movq	%rax, 2784(%rsp)
	leaq	1504(%rsp), %rbx
	movq	%rbx, %rdi
	movq	608(%rsp), %rsi
	callq	"pie_record::long_row::LongRow::number"
	movq	%rbx, %rdi
	movq	640(%rsp), %rsi
	callq	"pie_record::long_row::LongRow::number"
	movq	%rbx, %rdi
	movq	664(%rsp), %rsi
	callq	"pie_record::long_row::LongRow::number"
	movq	%rbx, %rdi
	movq	648(%rsp), %rsi
	callq	"pie_record::long_row::LongRow::number"
	movq	%rbx, %rdi
	movq	672(%rsp), %rsi
	callq	"pie_record::long_row::LongRow::number"
	movq	%rbx, %rdi
	movq	688(%rsp), %rsi
	callq	"pie_record::long_row::LongRow::number"
	movq	%rbx, %rdi
	movq	704(%rsp), %rsi
	callq	"pie_record::long_row::LongRow::number"
	movq	%rbx, %rdi
	movq	736(%rsp), %rsi
	callq	"pie_record::long_row::LongRow::number"
	movq	%rbx, %rdi
	movq	744(%rsp), %rsi
	callq	"pie_record::long_row::LongRow::number"
	movq	%rbx, %rdi
	movq	752(%rsp), %rsi
	callq	"pie_record::long_row::LongRow::number"
	movq	%rbx, %rdi
	movq	776(%rsp), %rsi
	callq	"pie_record::long_row::LongRow::number"
	movq	%rbx, %rdi
	movq	760(%rsp), %rsi
	callq	"pie_record::long_row::LongRow::number"
	movq	%rbx, %rdi
	movq	%r15, %rsi
	callq	"pie_record::long_row::LongRow::number"
	movq	%rbx, %rdi
	movq	616(%rsp), %rsi
	callq	"pie_record::long_row::LongRow::number"
	movq	%rbx, %rdi
	movq	624(%rsp), %rsi
	callq	"pie_record::long_row::LongRow::number"
	movq	%rbx, %rdi
	movq	632(%rsp), %rsi
	callq	"pie_record::long_row::LongRow::number"
	movq	%rbx, %rdi
	movq	656(%rsp), %rsi
	callq	"pie_record::long_row::LongRow::number"
	movq	%rbx, %rdi
	movq	680(%rsp), %rsi
	callq	"pie_record::long_row::LongRow::number"
	movq	%rbx, %rdi
	movq	696(%rsp), %rsi
	callq	"pie_record::long_row::LongRow::number"
	movq	%rbx, %rdi
	movq	712(%rsp), %rsi
	callq	"pie_record::long_row::LongRow::number"
	movq	%rbx, %rdi
	movq	720(%rsp), %rsi
	callq	"pie_record::long_row::LongRow::number"
	movq	%rbx, %rdi
	movq	728(%rsp), %rsi
	callq	"pie_record::long_row::LongRow::number"
	movq	%rbx, %rdi
	movq	768(%rsp), %rsi
	callq	"pie_record::long_row::LongRow::number"
	movq	2784(%rsp), %rax
	movb	$44, 1504(%rsp,%rax)
	incq	%rax
	movq	%rax, 2784(%rsp)
	xorl	%eax, %eax
	xorl	%r15d, %r15d
	cmpb	$0, 15(%rsp)
	movq	856(%rsp), %r14
	cmoveq	%rax, %r14
	setne	%r15b
	cmoveq	%rax, %r13
	movq	64(%rsp), %rax
	andl	$1, %eax
	movq	%rax, 64(%rsp)
	movq	%rbx, %rdi
	movq	784(%rsp), %rsi
	callq	"pie_record::long_row::LongRow::number"
	movq	%rbx, %rdi
	movq	792(%rsp), %rsi
	callq	"pie_record::long_row::LongRow::number"
	movq	%rbx, %rdi
	movq	808(%rsp), %rsi
	callq	"pie_record::long_row::LongRow::number"
	movq	%rbx, %rdi
	movq	800(%rsp), %rsi
	callq	"pie_record::long_row::LongRow::number"
	movq	%rbx, %rdi
	movq	816(%rsp), %rsi
	callq	"pie_record::long_row::LongRow::number"
	movq	%rbx, %rdi
	movq	824(%rsp), %rsi
	callq	"pie_record::long_row::LongRow::number"
	movq	%rbx, %rdi
	movq	832(%rsp), %rsi
	callq	"pie_record::long_row::LongRow::number"
	movq	%rbx, %rdi
	movq	840(%rsp), %rsi
	callq	"pie_record::long_row::LongRow::number"
	movq	%rbx, %rdi
	movq	848(%rsp), %rsi
	callq	"pie_record::long_row::LongRow::number"
	movq	%rbx, %rdi
	movq	%r15, %rsi
	callq	"pie_record::long_row::LongRow::number"
	movq	%rbx, %rdi
	movq	%r14, %rsi
	callq	"pie_record::long_row::LongRow::number"
	movq	%rbx, %rdi
	movq	%r13, %rsi
	callq	"pie_record::long_row::LongRow::number"
	movq	%rbx, %rdi
	movq	864(%rsp), %rsi
	callq	"pie_record::long_row::LongRow::number"
	movq	%rbx, %rdi
	movq	64(%rsp), %rsi
	callq	"pie_record::long_row::LongRow::number"
	movq	%rbx, %rdi
	movq	872(%rsp), %rsi
	callq	"pie_record::long_row::LongRow::number"
	movq	%rbx, %rdi
	movq	880(%rsp), %rsi
	callq	"pie_record::long_row::LongRow::number"
	movq	%rbx, %rdi
	movq	888(%rsp), %rsi
	callq	"pie_record::long_row::LongRow::number"
	movq	%rbx, %rdi
	movq	896(%rsp), %rsi
	callq	"pie_record::long_row::LongRow::number"
	movq	%rbx, %rdi
	movq	904(%rsp), %rsi
	callq	"pie_record::long_row::LongRow::number"
	movq	%rbx, %rdi
	movq	912(%rsp), %rsi
	callq	"pie_record::long_row::LongRow::number"
	movq	%rbx, %rdi
	movq	920(%rsp), %rsi
	callq	"pie_record::long_row::LongRow::number"
	movq	%rbx, %rdi
	movq	928(%rsp), %rsi
	callq	"pie_record::long_row::LongRow::number"
	movq	%rbx, %rdi
	movq	936(%rsp), %rsi
	callq	"pie_record::long_row::LongRow::number"
	movq	%rbx, %rdi
	movq	944(%rsp), %rsi
	callq	"pie_record::long_row::LongRow::number"
	movq	%rbx, %rdi
	movq	952(%rsp), %rsi
	callq	"pie_record::long_row::LongRow::number"
	movq	%rbx, %rdi
	movq	40(%rsp), %rsi
	callq	"pie_record::long_row::LongRow::number"
	movq	%rbx, %rdi
	movq	24(%rsp), %rsi
	callq	"pie_record::long_row::LongRow::number"
	movq	%rbx, %rdi
	movq	48(%rsp), %rsi
	callq	"pie_record::long_row::LongRow::number"
	pxor	%xmm0, %xmm0
	movdqa	%xmm0, 992(%rsp)
	movdqa	%xmm0, 976(%rsp)
	movq	$0, 1008(%rsp)
	movl	$40, %edi
	testq	%rbp, %rbp
	je	.LBB37_27
	movq	%rbp, %r8
	movabsq	$3777893186295716171, %r10
	movq	72(%rsp), %r13
	.p2align	4
.LBB37_25:
	movq	%rbp, %rcx
	shldq	$63, %r12, %rcx
	shrq	%r8
	movq	%rcx, %rsi
	addq	%r8, %rsi
	adcq	$0, %rsi
	movabsq	$-3689348814741910323, %r9
	movq	%rsi, %rax
	mulq	%r9
	shrq	$2, %rdx
	leaq	(%rdx,%rdx,4), %rax
	subq	%rax, %rsi
	subq	%rsi, %rcx
	sbbq	$0, %r8
	movq	%rcx, %rax
	mulq	%r9
	leaq	(%rax,%rax), %rsi
	leaq	(%rsi,%rsi,4), %rsi
	subl	%esi, %r12d
	orb	$48, %r12b
	movb	%r12b, 975(%rsp,%rdi)
	decq	%rdi
	movabsq	$-3689348814741910324, %rsi
	imulq	%rcx, %rsi
	addq	%rsi, %rdx
	imulq	%r9, %r8
	addq	%rdx, %r8
	movq	%rax, %r12
	cmpq	$9, %rbp
	movq	%r8, %rbp
	ja	.LBB37_25
	movq	%rax, %r12
	cmpq	$10000, %r12
	movq	32(%rsp), %rbp
	jae	.LBB37_28
	jmp	.LBB37_32
.LBB37_27:
	movabsq	$3777893186295716171, %r10
	movq	72(%rsp), %r13
	cmpq	$10000, %r12
	movq	32(%rsp), %rbp
	jb	.LBB37_32
	.p2align	4
.LBB37_28:
	movq	%r12, %rax
	mulq	%r10
	shrq	$11, %rdx
	imull	$10000, %edx, %eax
	movl	%r12d, %ecx
	subl	%eax, %ecx
	imull	$5243, %ecx, %eax
	shrl	$19, %eax
	imull	$100, %eax, %esi
	subl	%esi, %ecx
	movzwl	%cx, %ecx
	leaq	.Lstatic.17(%rip), %rsi
	movzwl	(%rsi,%rcx,2), %ecx
	movw	%cx, 974(%rsp,%rdi)
	movzwl	(%rsi,%rax,2), %eax
	movw	%ax, 972(%rsp,%rdi)
	addq	$-4, %rdi
	cmpq	$99999999, %r12
	movq	%rdx, %r12
	ja	.LBB37_28
	cmpq	$99, %rdx
	ja	.LBB37_33
.LBB37_30:
	cmpq	$9, %rdx
	movq	16(%rsp), %r12
	ja	.LBB37_38
	orb	$48, %dl
	movb	%dl, 975(%rsp,%rdi)
	decq	%rdi
	jmp	.LBB37_40
.LBB37_32:
	movq	%r12, %rdx
	cmpq	$99, %rdx
	jbe	.LBB37_30
.LBB37_33:
	movl	%edx, %eax
	shrl	$2, %eax
	movzwl	%ax, %eax
	imull	$5243, %eax, %eax
	shrl	$17, %eax
	imull	$100, %eax, %ecx
	movl	%edx, %esi
	subl	%ecx, %esi
	movzwl	%si, %esi
	leaq	.Lstatic.17(%rip), %rcx
	movzwl	(%rcx,%rsi,2), %esi
	movw	%si, 974(%rsp,%rdi)
	cmpq	$999, %rdx
	movq	16(%rsp), %r12
	ja	.LBB37_39
	orb	$48, %al
	movb	%al, 973(%rsp,%rdi)
	addq	$-3, %rdi
	jmp	.LBB37_40
.LBB37_35:
	movq	%rcx, %rdx
	cmpq	$99, %rdx
	jbe	.LBB37_6
.LBB37_36:
	movl	%edx, %eax
	shrl	$2, %eax
	movzwl	%ax, %eax
	imull	$5243, %eax, %eax
	shrl	$17, %eax
	imull	$100, %eax, %ecx
	movl	%edx, %r9d
	subl	%ecx, %r9d
	movzwl	%r9w, %r9d
	leaq	.Lstatic.17(%rip), %rcx
	movzwl	(%rcx,%r9,2), %r9d
	movw	%r9w, 78(%rsp,%r8)
	cmpq	$999, %rdx
	ja	.LBB37_43
	orb	$48, %al
	movb	%al, 77(%rsp,%r8)
	addq	$-3, %r8
	leaq	-1(%r8), %rax
	movq	%rax, 592(%rsp)
	movb	$44, 79(%rsp,%r8)
	movq	592(%rsp), %rax
	movl	%edi, %ecx
	leaq	.LJTI37_5(%rip), %rdx
	movslq	(%rdx,%rcx,4), %rcx
	addq	%rdx, %rcx
	jmpq	*%rcx
.LBB37_38:
	leaq	.Lstatic.17(%rip), %rax
	movzwl	(%rax,%rdx,2), %eax
	movw	%ax, 974(%rsp,%rdi)
	addq	$-2, %rdi
	jmp	.LBB37_40
.LBB37_39:
	movzwl	%ax, %eax
	movzwl	(%rcx,%rax,2), %eax
	movw	%ax, 972(%rsp,%rdi)
	addq	$-4, %rdi
.LBB37_40:
	leaq	(%rsp,%rdi), %rsi
	addq	$976, %rsi
	movl	$40, %ebx
	subq	%rdi, %rbx
	movq	2784(%rsp), %r14
	leaq	(%rsp,%r14), %rdi
	addq	$1504, %rdi
	movq	%rbx, %rdx
	callq	memcpy@PLT
	leaq	(%r14,%rbx), %rax
	movb	$10, 1504(%rsp,%rax)
	addq	%r14, %rbx
	incq	%rbx
	movq	%rbx, 2784(%rsp)
	cmpq	%rbx, 56(%rsp)
	jb	.LBB37_109
	leaq	1504(%rsp), %rsi
	jmp	.LBB37_107
.LBB37_42:
	leaq	.Lstatic.17(%rip), %rax
	movzwl	(%rax,%rdx,2), %eax
	movw	%ax, 78(%rsp,%r8)
	addq	$-2, %r8
	leaq	-1(%r8), %rax
	movq	%rax, 592(%rsp)
	movb	$44, 79(%rsp,%r8)
	movq	592(%rsp), %rax
	movl	%edi, %ecx
	leaq	.LJTI37_5(%rip), %rdx
	movslq	(%rdx,%rcx,4), %rcx
	addq	%rdx, %rcx
	jmpq	*%rcx
.LBB37_43:
	movzwl	%ax, %eax
	movzwl	(%rcx,%rax,2), %eax
	movw	%ax, 76(%rsp,%r8)
	addq	$-4, %r8
	leaq	-1(%r8), %rax
	movq	%rax, 592(%rsp)
	movb	$44, 79(%rsp,%r8)
	movq	592(%rsp), %rax
	movl	%edi, %ecx
	leaq	.LJTI37_5(%rip), %rdx
	movslq	(%rdx,%rcx,4), %rcx
	addq	%rdx, %rcx
	jmpq	*%rcx
.LBB37_44:
	movq	%r14, %r15
	leaq	-3(%rax), %rcx
	movq	%rcx, 592(%rsp)
	addq	%rsp, %rax
	addq	$77, %rax
	leaq	.Lstatic.21(%rip), %rcx
	movq	%rax, %rdx
	subq	%rcx, %rdx
	cmpq	$2, %rdx
	ja	.LBB37_49
	movw	$28526, (%rax)
	movb	$116, 2(%rax)
	jmp	.LBB37_50
.LBB37_46:
	movq	%r14, %r15
	leaq	-4(%rax), %rcx
	movq	%rcx, 592(%rsp)
	addq	%rsp, %rax
	addq	$76, %rax
	leaq	.Lstatic.23(%rip), %rcx
	movq	%rax, %rdx
	subq	%rcx, %rdx
	cmpq	$3, %rdx
	movl	$812933989, (%rax)
	jmp	.LBB37_50
.LBB37_47:
	movq	%r14, %r15
	leaq	-2(%rax), %rcx
	movq	%rcx, 592(%rsp)
	addq	%rsp, %rax
	addq	$78, %rax
	leaq	.Lstatic.24(%rip), %rcx
	movq	%rax, %rdx
	subq	%rcx, %rdx
	cmpq	$1, %rdx
	movw	$25955, (%rax)
	jmp	.LBB37_50
.LBB37_48:
	movq	%r14, %r15
	leaq	-4(%rax), %rcx
	movq	%rcx, 592(%rsp)
	addq	%rsp, %rax
	addq	$76, %rax
	leaq	.Lstatic.22(%rip), %rcx
	movq	%rax, %rdx
	subq	%rcx, %rdx
	cmpq	$3, %rdx
	movl	$829711205, (%rax)
	jmp	.LBB37_50
.LBB37_49:
	movb	$116, 2(%rax)
	movw	$28526, (%rax)
.LBB37_50:
	leaq	80(%rsp), %r14
	movq	%r14, %rdi
	callq	"pie_record::row_buffer::RowBuffer::prepend_number"
	movq	%r14, %rdi
	movq	%rbx, %rsi
	callq	"pie_record::row_buffer::RowBuffer::prepend_number"
	movq	592(%rsp), %rax
	leaq	-1(%rax), %rcx
	movq	%rcx, 592(%rsp)
	movb	$44, 79(%rsp,%rax)
	movq	592(%rsp), %rax
	leaq	-6(%rax), %rcx
	movq	%rcx, 592(%rsp)
	addq	%rsp, %rax
	addq	$74, %rax
	leaq	.Lstatic.20(%rip), %rcx
	movq	%rax, %rdx
	subq	%rcx, %rdx
	cmpq	$5, %rdx
	ja	.LBB37_52
	movl	$1969583473, (%rax)
	movw	$25701, 4(%rax)
	movq	%r15, %r14
	jmp	.LBB37_104
.LBB37_52:
	movw	$25701, 4(%rax)
	movl	$1969583473, (%rax)
	movq	%r15, %r14
	jmp	.LBB37_104
.LBB37_53:
	movq	16(%r8,%rdi), %rax
	movq	%rax, 40(%rsp)
	movq	24(%r8,%rdi), %rax
	movq	%rax, %r12
	shrq	$32, %r12
	movb	$10, 591(%rsp)
	movzbl	%r12b, %r10d
	leaq	.LJTI37_1(%rip), %rcx
	movslq	(%rcx,%r10,4), %rdx
	addq	%rcx, %rdx
	jmpq	*%rdx
.LBB37_54:
	movb	$1, %bl
	movq	%r10, %rbp
	movq	%r10, %r15
	jmp	.LBB37_117
.LBB37_55:
	movq	8(%r8,%rdi), %rax
	movq	%rax, 48(%rsp)
	movq	16(%r8,%rdi), %rax
	movq	%rax, 24(%rsp)
	movq	24(%r8,%rdi), %rsi
	movq	32(%r8,%rdi), %rcx
	movb	$10, 591(%rsp)
	movl	$511, %edi
	cmpq	$10000, %rcx
	jb	.LBB37_67
	.p2align	4
.LBB37_56:
	movq	%rcx, %rax
	mulq	%r15
	shrq	$11, %rdx
	imull	$10000, %edx, %eax
	movl	%ecx, %r8d
	subl	%eax, %r8d
	imull	$5243, %r8d, %eax
	shrl	$19, %eax
	imull	$100, %eax, %r9d
	subl	%r9d, %r8d
	movzwl	%r8w, %r8d
	leaq	.Lstatic.17(%rip), %r9
	movzwl	(%r9,%r8,2), %r8d
	movw	%r8w, 78(%rsp,%rdi)
	movzwl	(%r9,%rax,2), %eax
	movw	%ax, 76(%rsp,%rdi)
	addq	$-4, %rdi
	cmpq	$99999999, %rcx
	movq	%rdx, %rcx
	ja	.LBB37_56
	jmp	.LBB37_68
.LBB37_57:
	movq	8(%r8,%rdi), %r9
	movq	16(%r8,%rdi), %r15
	movq	24(%r8,%rdi), %rbp
	movq	32(%r8,%rdi), %r10
	movzbl	4(%r8,%rdi), %eax
	movq	%rbp, %r12
	shrq	$32, %r12
	xorl	%edx, %edx
	leaq	.LJTI37_2(%rip), %rcx
	movslq	(%rcx,%rax,4), %rax
	addq	%rcx, %rax
	jmpq	*%rax
.LBB37_58:
	movb	$10, 591(%rsp)
	movq	$504, 592(%rsp)
	leaq	.Lstatic.25(%rip), %rax
	negq	%rax
	addq	%rsp, %rax
	addq	$584, %rax
	cmpq	$6, %rax
	ja	.LBB37_124
	movl	$1970368101, 584(%rsp)
	movw	$30053, 588(%rsp)
	movb	$101, 590(%rsp)
	jmp	.LBB37_125
.LBB37_60:
	movq	16(%r8,%rdi), %r15
	movq	24(%r8,%rdi), %rbp
	movq	32(%r8,%rdi), %r10
	movq	40(%r8,%rdi), %rcx
	movq	48(%r8,%rdi), %rax
	movq	56(%r8,%rdi), %xmm0
	movb	$4, %dl
	jmp	.LBB37_62
.LBB37_61:
	pxor	%xmm0, %xmm0
	movb	$3, %dl
	xorl	%r15d, %r15d
	xorl	%ebp, %ebp
	xorl	%ecx, %ecx
	xorl	%eax, %eax
	xorl	%r10d, %r10d
.LBB37_62:
	movq	8(%r8,%rdi), %r9
	movq	%rbp, %r12
	shrq	$32, %r12
.LBB37_63:
	movb	$10, 591(%rsp)
	movq	$507, 592(%rsp)
	leaq	.Lstatic.32(%rip), %rsi
	negq	%rsi
	leaq	(%rsp,%rsi), %rdi
	addq	$587, %rdi
	movzbl	%dl, %esi
	leaq	.LJTI37_3(%rip), %rdx
	cmpq	$3, %rdi
	ja	.LBB37_65
	movl	$1701736292, 587(%rsp)
	movslq	(%rdx,%rsi,4), %rsi
	addq	%rdx, %rsi
	jmpq	*%rsi
.LBB37_65:
	movl	$1701736292, 587(%rsp)
	movslq	(%rdx,%rsi,4), %rsi
	addq	%rdx, %rsi
	jmpq	*%rsi
.LBB37_66:
	leaq	586(%rsp), %rax
	movb	$121, 4(%rax)
	movl	$1953525093, (%rax)
	pxor	%xmm0, %xmm0
	xorl	%eax, %eax
	leaq	.LJTI37_3(%rip), %rdx
	movslq	(%rdx,%rcx,4), %rsi
	addq	%rdx, %rsi
	xorl	%ecx, %ecx
	jmpq	*%rsi
.LBB37_67:
	movq	%rcx, %rdx
.LBB37_68:
	cmpq	$99, %rdx
	movq	%r14, 56(%rsp)
	ja	.LBB37_71
	cmpq	$9, %rdx
	ja	.LBB37_80
	movb	$2, %bpl
	xorl	%r10d, %r10d
	movq	$0, 40(%rsp)
	xorl	%r15d, %r15d
	xorl	%r12d, %r12d
	jmp	.LBB37_90
.LBB37_71:
	movl	%edx, %eax
	shrl	$2, %eax
	movzwl	%ax, %eax
	imull	$5243, %eax, %eax
	shrl	$17, %eax
	imull	$100, %eax, %ecx
	movl	%edx, %r8d
	subl	%ecx, %r8d
	movzwl	%r8w, %r8d
	leaq	.Lstatic.17(%rip), %rcx
	movzwl	(%rcx,%r8,2), %r8d
	movw	%r8w, 78(%rsp,%rdi)
	cmpq	$999, %rdx
	ja	.LBB37_81
	orb	$48, %al
	movb	%al, 77(%rsp,%rdi)
	addq	$-3, %rdi
	jmp	.LBB37_82
.LBB37_73:
	movq	%r9, 48(%rsp)
	movq	%r14, 56(%rsp)
	movq	$507, 592(%rsp)
	leaq	.Lstatic.23(%rip), %rcx
	negq	%rcx
	addq	%rsp, %rcx
	addq	$587, %rcx
	cmpq	$3, %rcx
	movl	$812933989, 587(%rsp)
	jmp	.LBB37_76
.LBB37_74:
	movq	%r9, 48(%rsp)
	movq	%r14, 56(%rsp)
	movq	$509, 592(%rsp)
	leaq	.Lstatic.24(%rip), %rcx
	negq	%rcx
	addq	%rsp, %rcx
	addq	$589, %rcx
	cmpq	$1, %rcx
	movw	$25955, 589(%rsp)
	jmp	.LBB37_76
.LBB37_75:
	movq	%r9, 48(%rsp)
	movq	%r14, 56(%rsp)
	movq	$507, 592(%rsp)
	leaq	.Lstatic.22(%rip), %rcx
	negq	%rcx
	addq	%rsp, %rcx
	addq	$587, %rcx
	cmpq	$3, %rcx
	movl	$829711205, 587(%rsp)
.LBB37_76:
	movb	$1, %bl
	movq	$0, 24(%rsp)
	xorl	%ebp, %ebp
	xorl	%r15d, %r15d
	xorl	%r12d, %r12d
.LBB37_77:
	movl	%eax, %esi
	leaq	80(%rsp), %r14
	movq	%r14, %rdi
	callq	"pie_record::row_buffer::RowBuffer::prepend_number"
	movq	%r14, %rdi
	movq	40(%rsp), %rsi
	callq	"pie_record::row_buffer::RowBuffer::prepend_number"
	movq	592(%rsp), %rax
	leaq	-1(%rax), %rcx
	movq	%rcx, 592(%rsp)
	movb	$44, 79(%rsp,%rax)
	movq	592(%rsp), %rax
	leaq	-4(%rax), %rcx
	movq	%rcx, 592(%rsp)
	addq	%rsp, %rax
	addq	$76, %rax
	leaq	.Lstatic.30(%rip), %rcx
	movq	%rax, %rdx
	subq	%rcx, %rdx
	cmpq	$3, %rdx
	ja	.LBB37_79
	movl	$1952867692, (%rax)
	pxor	%xmm0, %xmm0
	xorl	%eax, %eax
	movzbl	%bl, %ecx
	leaq	.LJTI37_3(%rip), %rdx
	movslq	(%rdx,%rcx,4), %rsi
	addq	%rdx, %rsi
	xorl	%ecx, %ecx
	movq	56(%rsp), %r14
	movq	48(%rsp), %r9
	movq	24(%rsp), %r10
	jmpq	*%rsi
.LBB37_79:
	movl	$1952867692, (%rax)
	pxor	%xmm0, %xmm0
	xorl	%eax, %eax
	movzbl	%bl, %ecx
	leaq	.LJTI37_3(%rip), %rdx
	movslq	(%rdx,%rcx,4), %rsi
	addq	%rdx, %rsi
	xorl	%ecx, %ecx
	movq	56(%rsp), %r14
	movq	48(%rsp), %r9
	movq	24(%rsp), %r10
	jmpq	*%rsi
.LBB37_80:
	leaq	.Lstatic.17(%rip), %rax
	movzwl	(%rax,%rdx,2), %eax
	movw	%ax, 78(%rsp,%rdi)
	addq	$-2, %rdi
	jmp	.LBB37_82
.LBB37_81:
	movzwl	%ax, %eax
	movzwl	(%rcx,%rax,2), %eax
	movw	%ax, 76(%rsp,%rdi)
	addq	$-4, %rdi
.LBB37_82:
	movb	$2, %bpl
	xorl	%r12d, %r12d
	xorl	%r15d, %r15d
	movq	$0, 40(%rsp)
	xorl	%ebx, %ebx
	jmp	.LBB37_91
.LBB37_83:
	movb	$10, 591(%rsp)
	movq	$504, 592(%rsp)
	leaq	.Lstatic.29(%rip), %rax
	negq	%rax
	addq	%rsp, %rax
	addq	$584, %rax
	cmpq	$6, %rax
	ja	.LBB37_121
	movl	$1801675120, 584(%rsp)
	movw	$29797, 588(%rsp)
	movb	$115, 590(%rsp)
	jmp	.LBB37_125
.LBB37_85:
	movb	$10, 591(%rsp)
	movq	$506, 592(%rsp)
	leaq	.Lstatic.27(%rip), %rax
	negq	%rax
	addq	%rsp, %rax
	addq	$586, %rax
	cmpq	$4, %rax
	ja	.LBB37_122
	movl	$1819435365, 586(%rsp)
	movb	$121, 590(%rsp)
	jmp	.LBB37_125
.LBB37_87:
	movb	$10, 591(%rsp)
	movq	$506, 592(%rsp)
	leaq	.Lstatic.28(%rip), %rax
	negq	%rax
	addq	%rsp, %rax
	addq	$586, %rax
	cmpq	$4, %rax
	ja	.LBB37_123
	movl	$1702132066, 586(%rsp)
	movb	$115, 590(%rsp)
	jmp	.LBB37_125
.LBB37_89:
	movq	%rbp, 40(%rsp)
	movq	%r9, 48(%rsp)
	movq	%r14, 56(%rsp)
	movb	$10, 591(%rsp)
	movl	$511, %edi
	xorl	%ebp, %ebp
	movq	$0, 24(%rsp)
	xorl	%esi, %esi
	xorl	%edx, %edx
.LBB37_90:
	movq	%r10, %rbx
	orb	$48, %dl
	movb	%dl, 79(%rsp,%rdi)
	decq	%rdi
.LBB37_91:
	movq	%rdi, 592(%rsp)
	leaq	80(%rsp), %r14
	movq	%r14, %rdi
	callq	"pie_record::row_buffer::RowBuffer::prepend_number"
	movq	%r14, %rdi
	movq	24(%rsp), %rsi
	callq	"pie_record::row_buffer::RowBuffer::prepend_number"
	pxor	%xmm0, %xmm0
	xorl	%eax, %eax
	movzbl	%bpl, %ecx
	leaq	.LJTI37_3(%rip), %rdx
	movslq	(%rdx,%rcx,4), %rsi
	addq	%rdx, %rsi
	xorl	%ecx, %ecx
	movq	56(%rsp), %r14
	movq	48(%rsp), %r9
	movq	%rbx, %r10
	movq	40(%rsp), %rbp
	jmpq	*%rsi
.LBB37_92:
	leaq	80(%rsp), %rbx
	movq	%rbx, %rdi
	movq	%r9, %rsi
	callq	"pie_record::row_buffer::RowBuffer::prepend_number"
	movq	%rbx, %rdi
	movq	64(%rsp), %rsi
	callq	"pie_record::row_buffer::RowBuffer::prepend_number"
	movq	592(%rsp), %rax
	leaq	-1(%rax), %rcx
	movq	%rcx, 592(%rsp)
	movb	$44, 79(%rsp,%rax)
	movq	592(%rsp), %rax
	leaq	-6(%rax), %rcx
	movq	%rcx, 592(%rsp)
	addq	%rsp, %rax
	addq	$74, %rax
	leaq	.Lstatic.37(%rip), %rcx
	movq	%rax, %rdx
	subq	%rcx, %rdx
	cmpq	$5, %rdx
	ja	.LBB37_101
	movl	$1634755940, (%rax)
	movw	$29810, 4(%rax)
	jmp	.LBB37_102
.LBB37_94:
	movq	%r15, %rdx
	shrq	$32, %rdx
	movq	%r15, %rsi
	shrq	$48, %rsi
	movl	%r15d, %edi
	movzwl	%dx, %edx
	incq	%rdx
	movq	%rbp, 976(%rsp)
	movq	%r10, 984(%rsp)
	movq	%rcx, 992(%rsp)
	pmovzxdq	%xmm0, %xmm0
	movdqu	%xmm0, 1000(%rsp)
	movq	%rsi, 1016(%rsp)
	movq	%rdi, 1024(%rsp)
	movq	%rax, 1032(%rsp)
	movq	%rdx, 1040(%rsp)
	leaq	80(%rsp), %rdi
	leaq	976(%rsp), %rcx
	movq	64(%rsp), %rsi
	movq	%r9, %rdx
	callq	"pie_record::event::put_change"
	jmp	.LBB37_102
.LBB37_95:
	leaq	80(%rsp), %rbx
	movq	%rbx, %rdi
	movq	%r9, %rsi
	callq	"pie_record::row_buffer::RowBuffer::prepend_number"
	movq	%rbx, %rdi
	movq	64(%rsp), %rsi
	callq	"pie_record::row_buffer::RowBuffer::prepend_number"
	movq	592(%rsp), %rax
	leaq	-1(%rax), %rcx
	movq	%rcx, 592(%rsp)
	movb	$44, 79(%rsp,%rax)
	movq	592(%rsp), %rax
	leaq	-6(%rax), %rcx
	movq	%rcx, 592(%rsp)
	addq	%rsp, %rax
	addq	$74, %rax
	leaq	.Lstatic.38(%rip), %rcx
	movq	%rax, %rdx
	subq	%rcx, %rdx
	cmpq	$5, %rdx
	ja	.LBB37_99
	movl	$1633972341, (%rax)
	movw	$25972, 4(%rax)
	jmp	.LBB37_102
.LBB37_97:
	leaq	80(%rsp), %rbx
	movq	%rbx, %rdi
	movq	%r9, %rsi
	callq	"pie_record::row_buffer::RowBuffer::prepend_number"
	movq	%rbx, %rdi
	movq	64(%rsp), %rsi
	callq	"pie_record::row_buffer::RowBuffer::prepend_number"
	movq	592(%rsp), %rax
	leaq	-1(%rax), %rcx
	movq	%rcx, 592(%rsp)
	movb	$44, 79(%rsp,%rax)
	movq	592(%rsp), %rax
	leaq	-5(%rax), %rcx
	movq	%rcx, 592(%rsp)
	addq	%rsp, %rax
	addq	$75, %rax
	leaq	.Lstatic.39(%rip), %rcx
	movq	%rax, %rdx
	subq	%rcx, %rdx
	cmpq	$4, %rdx
	ja	.LBB37_100
	movl	$1702061426, (%rax)
	movb	$116, 4(%rax)
	jmp	.LBB37_102
.LBB37_99:
	movw	$25972, 4(%rax)
	movl	$1633972341, (%rax)
	jmp	.LBB37_102
.LBB37_100:
	movb	$116, 4(%rax)
	movl	$1702061426, (%rax)
	jmp	.LBB37_102
.LBB37_101:
	movw	$29810, 4(%rax)
	movl	$1634755940, (%rax)
.LBB37_102:
	movq	16(%rsp), %r12
.LBB37_103:
	movq	32(%rsp), %rbp
.LBB37_104:
	movq	592(%rsp), %rax
	movl	$512, %ebx
	subq	%rax, %rbx
	cmpq	%rbx, %r14
	jb	.LBB37_109
	leaq	(%rsp,%rax), %rsi
	addq	$80, %rsi
.LBB37_107:
	movq	%rbp, %rdi
	movq	%rbx, %rdx
	callq	memcpy@PLT
	testq	%rbx, %rbx
	je	.LBB37_109
	incq	480(%r13)
	movq	(%r12), %rdi
	movq	%r13, (%r12)
	testq	%rdi, %rdi
	jne	.LBB37_110
	jmp	.LBB37_114
.LBB37_109:
	xorl	%ebx, %ebx
	movq	(%r12), %rdi
	movq	%r13, (%r12)
	testq	%rdi, %rdi
	je	.LBB37_114
.LBB37_110:
	movq	416(%rdi), %r15
	movq	440(%rdi), %r14
	movq	456(%rdi), %r12
	movq	432(%rdi), %r13
	callq	rattle_dealloc@PLT
	testq	%r13, %r13
	je	.LBB37_112
	movq	%r15, %rdi
	callq	rattle_dealloc@PLT
.LBB37_112:
	testq	%r12, %r12
	je	.LBB37_114
	movq	%r14, %rdi
	callq	rattle_dealloc@PLT
.LBB37_114:
	movq	%rbx, %rax
	addq	$2792, %rsp
	popq	%rbx
	popq	%r12
	popq	%r13
	popq	%r14
	popq	%r15
	popq	%rbp
	retq
.LBB37_115:
	movb	$10, 591(%rsp)
	movq	$507, 592(%rsp)
	leaq	.Lstatic.26(%rip), %rax
	negq	%rax
	addq	%rsp, %rax
	addq	$587, %rax
	cmpq	$3, %rax
	movl	$1802658157, 587(%rsp)
	jmp	.LBB37_125
.LBB37_116:
	movb	$10, 591(%rsp)
	xorl	%ebx, %ebx
	movq	$0, 40(%rsp)
	xorl	%eax, %eax
.LBB37_117:
	movq	%r9, 48(%rsp)
	movq	%r14, 56(%rsp)
	movq	$508, 592(%rsp)
	leaq	.Lstatic.21(%rip), %rcx
	negq	%rcx
	addq	%rsp, %rcx
	addq	$588, %rcx
	cmpq	$2, %rcx
	movq	%r10, 24(%rsp)
	ja	.LBB37_119
	movw	$28526, 588(%rsp)
	movb	$116, 590(%rsp)
	jmp	.LBB37_77
.LBB37_119:
	leaq	588(%rsp), %rcx
	movb	$116, 2(%rcx)
	movw	$28526, (%rcx)
	jmp	.LBB37_77
.LBB37_120:
	pxor	%xmm0, %xmm0
	xorl	%ecx, %ecx
	xorl	%eax, %eax
	jmp	.LBB37_63
.LBB37_121:
	leaq	584(%rsp), %rax
	movl	$1937007979, 3(%rax)
	movl	$1801675120, (%rax)
	jmp	.LBB37_125
.LBB37_122:
	leaq	586(%rsp), %rax
	movb	$121, 4(%rax)
	movl	$1819435365, (%rax)
	jmp	.LBB37_125
.LBB37_123:
	leaq	586(%rsp), %rax
	movb	$115, 4(%rax)
	movl	$1702132066, (%rax)
	jmp	.LBB37_125
.LBB37_124:
	leaq	584(%rsp), %rax
	movl	$1702192501, 3(%rax)
	movl	$1970368101, (%rax)
.LBB37_125:
	movq	%rbp, %rbx
	movq	%r9, %rbp
	leaq	80(%rsp), %rdi
	movq	%r10, %rsi
	callq	"pie_record::row_buffer::RowBuffer::prepend_number"
	movq	592(%rsp), %rax
	leaq	-1(%rax), %rcx
	movq	%rcx, 592(%rsp)
	movb	$44, 79(%rsp,%rax)
	movq	592(%rsp), %rax
	movzbl	%r12b, %ecx
	leaq	.LJTI37_4(%rip), %rdx
	movslq	(%rdx,%rcx,4), %rcx
	addq	%rdx, %rcx
	jmpq	*%rcx
.LBB37_126:
	leaq	-3(%rax), %rcx
	movq	%rcx, 592(%rsp)
	addq	%rsp, %rax
	addq	$77, %rax
	leaq	.Lstatic.21(%rip), %rcx
	movq	%rax, %rdx
	subq	%rcx, %rdx
	cmpq	$2, %rdx
	movq	16(%rsp), %r12
	ja	.LBB37_131
	movw	$28526, (%rax)
	movb	$116, 2(%rax)
	jmp	.LBB37_132
.LBB37_128:
	leaq	-4(%rax), %rcx
	movq	%rcx, 592(%rsp)
	addq	%rsp, %rax
	addq	$76, %rax
	leaq	.Lstatic.23(%rip), %rcx
	movq	%rax, %rdx
	subq	%rcx, %rdx
	cmpq	$3, %rdx
	movq	16(%rsp), %r12
	movl	$812933989, (%rax)
	jmp	.LBB37_132
.LBB37_129:
	leaq	-2(%rax), %rcx
	movq	%rcx, 592(%rsp)
	addq	%rsp, %rax
	addq	$78, %rax
	leaq	.Lstatic.24(%rip), %rcx
	movq	%rax, %rdx
	subq	%rcx, %rdx
	cmpq	$1, %rdx
	movq	16(%rsp), %r12
	movw	$25955, (%rax)
	jmp	.LBB37_132
.LBB37_130:
	leaq	-4(%rax), %rcx
	movq	%rcx, 592(%rsp)
	addq	%rsp, %rax
	addq	$76, %rax
	leaq	.Lstatic.22(%rip), %rcx
	movq	%rax, %rdx
	subq	%rcx, %rdx
	cmpq	$3, %rdx
	movq	16(%rsp), %r12
	movl	$829711205, (%rax)
	jmp	.LBB37_132
.LBB37_131:
	movb	$116, 2(%rax)
	movw	$28526, (%rax)
.LBB37_132:
	movl	%ebx, %esi
	leaq	80(%rsp), %rbx
	movq	%rbx, %rdi
	callq	"pie_record::row_buffer::RowBuffer::prepend_number"
	movq	%rbx, %rdi
	movq	%r15, %rsi
	callq	"pie_record::row_buffer::RowBuffer::prepend_number"
	movq	%rbx, %rdi
	movq	%rbp, %rsi
	callq	"pie_record::row_buffer::RowBuffer::prepend_number"
	movq	%rbx, %rdi
	movq	64(%rsp), %rsi
	callq	"pie_record::row_buffer::RowBuffer::prepend_number"
	movq	592(%rsp), %rax
	leaq	-1(%rax), %rcx
	movq	%rcx, 592(%rsp)
	movb	$44, 79(%rsp,%rax)
	movq	592(%rsp), %rax
	leaq	-6(%rax), %rcx
	movq	%rcx, 592(%rsp)
	addq	%rsp, %rax
	addq	$74, %rax
	leaq	.Lstatic.36(%rip), %rcx
	movq	%rax, %rdx
	subq	%rcx, %rdx
	cmpq	$5, %rdx
	ja	.LBB37_134
	movl	$1769108065, (%rax)
	movw	$25974, 4(%rax)
	jmp	.LBB37_103
.LBB37_134:
	movw	$25974, 4(%rax)
	movl	$1769108065, (%rax)
	jmp	.LBB37_103
.Lfunc_end37:
	.size	pie_link_write_excerpt, .Lfunc_end37-pie_link_write_excerpt
	.section	.rodata.pie_link_write_excerpt,"a",@progbits
	.p2align	2, 0x0
.LJTI37_0:
	.long	.LBB37_57-.LJTI37_0
	.long	.LBB37_13-.LJTI37_0
	.long	.LBB37_13-.LJTI37_0
	.long	.LBB37_55-.LJTI37_0
	.long	.LBB37_61-.LJTI37_0
	.long	.LBB37_60-.LJTI37_0
.LJTI37_1:
	.long	.LBB37_54-.LJTI37_1
	.long	.LBB37_75-.LJTI37_1
	.long	.LBB37_73-.LJTI37_1
	.long	.LBB37_74-.LJTI37_1
.LJTI37_2:
	.long	.LBB37_58-.LJTI37_2
	.long	.LBB37_115-.LJTI37_2
	.long	.LBB37_85-.LJTI37_2
	.long	.LBB37_87-.LJTI37_2
	.long	.LBB37_83-.LJTI37_2
	.long	.LBB37_15-.LJTI37_2
	.long	.LBB37_116-.LJTI37_2
	.long	.LBB37_89-.LJTI37_2
	.long	.LBB37_120-.LJTI37_2
.LJTI37_3:
	.long	.LBB37_125-.LJTI37_3
	.long	.LBB37_92-.LJTI37_3
	.long	.LBB37_95-.LJTI37_3
	.long	.LBB37_97-.LJTI37_3
	.long	.LBB37_94-.LJTI37_3
.LJTI37_4:
	.long	.LBB37_126-.LJTI37_4
	.long	.LBB37_130-.LJTI37_4
	.long	.LBB37_128-.LJTI37_4
	.long	.LBB37_129-.LJTI37_4
.LJTI37_5:
	.long	.LBB37_44-.LJTI37_5
	.long	.LBB37_48-.LJTI37_5
	.long	.LBB37_46-.LJTI37_5
	.long	.LBB37_47-.LJTI37_5

	.type	.Lstatic.1,@object
	.section	.rodata..Lstatic.1,"a",@progbits
.Lstatic.1:
	.ascii	"resume"
	.size	.Lstatic.1, 6

	.type	.Lstatic.3,@object
	.section	.rodata..Lstatic.3,"a",@progbits
.Lstatic.3:
	.ascii	"bounded"
	.size	.Lstatic.3, 7

	.type	.Lstatic.4,@object
	.section	.rodata..Lstatic.4,"a",@progbits
.Lstatic.4:
	.ascii	"rolling"
	.size	.Lstatic.4, 7

	.type	.Lstatic.6,@object
	.section	.rodata.cst4,"aM",@progbits,4
.Lstatic.6:
	.ascii	"half"
	.size	.Lstatic.6, 4

	.type	.Lstatic.7,@object
	.section	.rodata.cst8,"aM",@progbits,8
.Lstatic.7:
	.ascii	"unscaled"
	.size	.Lstatic.7, 8

	.type	.Lstatic.8,@object
	.section	.rodata..Lstatic.8,"a",@progbits
.Lstatic.8:
	.ascii	"scaled"
	.size	.Lstatic.8, 6

	.type	.Lstatic.9,@object
	.section	.rodata..Lstatic.9,"a",@progbits
.Lstatic.9:
	.ascii	"capped"
	.size	.Lstatic.9, 6

	.type	.Lstatic.10,@object
	.section	.rodata.cst8,"aM",@progbits,8
.Lstatic.10:
	.ascii	"uncapped"
	.size	.Lstatic.10, 8

	.type	.Lstatic.11,@object
	.section	.rodata..Lstatic.11,"a",@progbits
.Lstatic.11:
	.ascii	"derandomized"
	.size	.Lstatic.11, 12

	.type	.Lstatic.12,@object
	.section	.rodata..Lstatic.12,"a",@progbits
.Lstatic.12:
	.ascii	"random"
	.size	.Lstatic.12, 6

	.type	.Lstatic.13,@object
	.section	.rodata.cst4,"aM",@progbits,4
.Lstatic.13:
	.ascii	"rate"
	.size	.Lstatic.13, 4

	.type	.Lstatic.14,@object
	.section	.rodata..Lstatic.14,"a",@progbits
.Lstatic.14:
	.ascii	"stamp"
	.size	.Lstatic.14, 5

	.type	.Lstatic.17,@object
	.section	.rodata..Lstatic.17,"a",@progbits
.Lstatic.17:
	.ascii	"00010203040506070809101112131415161718192021222324252627282930313233343536373839404142434445464748495051525354555657585960616263646566676869707172737475767778798081828384858687888990919293949596979899"
	.size	.Lstatic.17, 200

	.type	.Lstatic.20,@object
	.section	.rodata..Lstatic.20,"a",@progbits
.Lstatic.20:
	.ascii	"queued"
	.size	.Lstatic.20, 6

	.type	.Lstatic.21,@object
	.section	.rodata..Lstatic.21,"a",@progbits
.Lstatic.21:
	.ascii	"not"
	.size	.Lstatic.21, 3

	.type	.Lstatic.22,@object
	.section	.rodata.cst4,"aM",@progbits,4
.Lstatic.22:
	.ascii	"ect1"
	.size	.Lstatic.22, 4

	.type	.Lstatic.23,@object
.Lstatic.23:
	.ascii	"ect0"
	.size	.Lstatic.23, 4

	.type	.Lstatic.24,@object
	.section	.rodata..Lstatic.24,"a",@progbits
.Lstatic.24:
	.ascii	"ce"
	.size	.Lstatic.24, 2

	.type	.Lstatic.25,@object
	.section	.rodata..Lstatic.25,"a",@progbits
.Lstatic.25:
	.ascii	"enqueue"
	.size	.Lstatic.25, 7

	.type	.Lstatic.26,@object
	.section	.rodata.cst4,"aM",@progbits,4
.Lstatic.26:
	.ascii	"mark"
	.size	.Lstatic.26, 4

	.type	.Lstatic.27,@object
	.section	.rodata..Lstatic.27,"a",@progbits
.Lstatic.27:
	.ascii	"early"
	.size	.Lstatic.27, 5

	.type	.Lstatic.28,@object
	.section	.rodata..Lstatic.28,"a",@progbits
.Lstatic.28:
	.ascii	"bytes"
	.size	.Lstatic.28, 5

	.type	.Lstatic.29,@object
	.section	.rodata..Lstatic.29,"a",@progbits
.Lstatic.29:
	.ascii	"packets"
	.size	.Lstatic.29, 7

	.type	.Lstatic.30,@object
	.section	.rodata.cst4,"aM",@progbits,4
.Lstatic.30:
	.ascii	"left"
	.size	.Lstatic.30, 4

	.type	.Lstatic.31,@object
	.section	.rodata..Lstatic.31,"a",@progbits
.Lstatic.31:
	.ascii	"empty"
	.size	.Lstatic.31, 5

	.type	.Lstatic.32,@object
	.section	.rodata.cst4,"aM",@progbits,4
.Lstatic.32:
	.ascii	"done"
	.size	.Lstatic.32, 4

	.type	.Lstatic.36,@object
	.section	.rodata..Lstatic.36,"a",@progbits
.Lstatic.36:
	.ascii	"arrive"
	.size	.Lstatic.36, 6

	.type	.Lstatic.37,@object
	.section	.rodata..Lstatic.37,"a",@progbits
.Lstatic.37:
	.ascii	"depart"
	.size	.Lstatic.37, 6

	.type	.Lstatic.38,@object
	.section	.rodata..Lstatic.38,"a",@progbits
.Lstatic.38:
	.ascii	"update"
	.size	.Lstatic.38, 6

	.type	.Lstatic.39,@object
	.section	.rodata..Lstatic.39,"a",@progbits
.Lstatic.39:
	.ascii	"reset"
	.size	.Lstatic.39, 5

	.type	.Lstatic.40,@object
	.section	.rodata..Lstatic.40,"a",@progbits
.Lstatic.40:
	.ascii	"params"
	.size	.Lstatic.40, 6

	.type	.Lswitch.table.pie_link_try_arrive_all,@object
	.section	.rodata.cst32,"aM",@progbits,32
	.p2align	2, 0x0
.Lswitch.table.pie_link_try_arrive_all:
	.long	0
	.long	1
	.long	2
	.long	3
	.long	4
	.long	5
	.long	0
	.long	0
	.size	.Lswitch.table.pie_link_try_arrive_all, 32

	.type	.Lswitch.table.pie_link_try_set_params,@object
	.section	.rodata..Lswitch.table.pie_link_try_set_params,"a",@progbits
	.p2align	2, 0x0
.Lswitch.table.pie_link_try_set_params:
	.long	0
	.long	1
	.long	2
	.long	3
	.long	4
	.long	5
	.long	0
	.long	0
	.long	0
	.size	.Lswitch.table.pie_link_try_set_params, 36

	.ident	"rattle logic=dac8208d650f15bf3e2dc313a14fa4c783a3acf887bdfab66e1714b038d9e11b"
	.section	".note.GNU-stack","",@progbits

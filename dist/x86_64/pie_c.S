	.file	"rattle"
	.section	".text.pie_explain::live_interval::LiveInterval::begin_interval","ax",@progbits
	.p2align	4
	.type	"pie_explain::live_interval::LiveInterval::begin_interval",@function
"pie_explain::live_interval::LiveInterval::begin_interval":
	movq	(%rdi), %rcx
	cmpq	$1, %rcx
	adcq	$0, %rcx
	movq	%rsi, %rax
	orq	%rcx, %rax
	shrq	$32, %rax
	je	.LBB0_1
	movq	%rsi, %rax
	xorl	%edx, %edx
	divq	%rcx
	movq	16(%rdi), %rdx
	testq	%rdx, %rdx
	jne	.LBB0_4
	jmp	.LBB0_6
.LBB0_1:
	movl	%esi, %eax
	xorl	%edx, %edx
	divl	%ecx
	movq	16(%rdi), %rdx
	testq	%rdx, %rdx
	je	.LBB0_6
.LBB0_4:
	cmpq	%rax, 24(%rdi)
	jne	.LBB0_6
	retq
.LBB0_6:
	movq	%rax, 24(%rdi)
	imulq	%rcx, %rax
	movq	%rax, 32(%rdi)
	addq	%rcx, %rax
	movq	$-1, %rcx
	cmovbq	%rcx, %rax
	movq	%rax, 40(%rdi)
	incq	%rdx
	cmoveq	%rcx, %rdx
	movq	%rdx, 16(%rdi)
	xorps	%xmm0, %xmm0
	movups	%xmm0, 72(%rdi)
	movups	%xmm0, 88(%rdi)
	movups	%xmm0, 104(%rdi)
	movups	%xmm0, 120(%rdi)
	movups	%xmm0, 136(%rdi)
	movups	%xmm0, 152(%rdi)
	movups	%xmm0, 168(%rdi)
	movups	%xmm0, 184(%rdi)
	movups	%xmm0, 200(%rdi)
	movups	%xmm0, 216(%rdi)
	movups	%xmm0, 232(%rdi)
	movups	%xmm0, 248(%rdi)
	movq	%rsi, 264(%rdi)
	movq	$0, 272(%rdi)
	movq	%rsi, 280(%rdi)
	addq	$288, %rdi
	movl	$13952, %edx
	xorl	%esi, %esi
	jmp	memset@PLT
.Lfunc_end0:
	.size	"pie_explain::live_interval::LiveInterval::begin_interval", .Lfunc_end0-"pie_explain::live_interval::LiveInterval::begin_interval"

	.section	".text.unlikely.pie_explain::live_interval::LiveInterval::note_first_time","ax",@progbits
	.p2align	4
	.type	"pie_explain::live_interval::LiveInterval::note_first_time",@function
"pie_explain::live_interval::LiveInterval::note_first_time":
	cmpq	$1, 48(%rdi)
	jne	.LBB1_6
	movq	56(%rdi), %rdx
	movq	64(%rdi), %rcx
	movq	%rsi, %r8
	subq	%rdx, %r8
	jae	.LBB1_3
	subq	%rsi, %rdx
	xorl	%eax, %eax
	subq	%rdx, %rcx
	cmovaeq	%rcx, %rax
	cmpq	$0, 416(%rdi)
	jne	.LBB1_6
	jmp	.LBB1_5
.LBB1_3:
	addq	%rcx, %r8
	movq	$-1, %rax
	cmovaeq	%r8, %rax
	cmpq	$0, 416(%rdi)
	je	.LBB1_5
.LBB1_6:
	retq
.LBB1_5:
	movq	$1, 416(%rdi)
	movq	%rax, 424(%rdi)
	retq
.Lfunc_end1:
	.size	"pie_explain::live_interval::LiveInterval::note_first_time", .Lfunc_end1-"pie_explain::live_interval::LiveInterval::note_first_time"

	.section	".text.unlikely.pie_explain::aggregates::Total::carry","ax",@progbits
	.p2align	4
	.type	"pie_explain::aggregates::Total::carry",@function
"pie_explain::aggregates::Total::carry":
	movq	(%rdi), %rax
	cmpq	$-1, %rax
	je	.LBB2_1
	incq	%rax
	movq	%rax, (%rdi)
	retq
.LBB2_1:
	movq	$-1, 8(%rdi)
	retq
.Lfunc_end2:
	.size	"pie_explain::aggregates::Total::carry", .Lfunc_end2-"pie_explain::aggregates::Total::carry"

	.section	".text.pie_explain::aggregates::Bounds::take_rare","ax",@progbits
	.p2align	4
	.type	"pie_explain::aggregates::Bounds::take_rare",@function
"pie_explain::aggregates::Bounds::take_rare":
	movq	(%rdi), %rdx
	movq	%rdx, %rcx
	incq	%rcx
	movq	$-1, %rax
	cmovneq	%rcx, %rax
	movq	%rsi, %rcx
	testq	%rdx, %rdx
	je	.LBB3_2
	movq	8(%rdi), %rcx
.LBB3_2:
	movq	%rax, (%rdi)
	movq	%rcx, 8(%rdi)
	movq	%rsi, 16(%rdi)
	retq
.Lfunc_end3:
	.size	"pie_explain::aggregates::Bounds::take_rare", .Lfunc_end3-"pie_explain::aggregates::Bounds::take_rare"

	.section	".text.unlikely.pie_explain::explainer::saturate","ax",@progbits
	.p2align	4
	.type	"pie_explain::explainer::saturate",@function
"pie_explain::explainer::saturate":
	movq	$-1, (%rdi)
	retq
.Lfunc_end4:
	.size	"pie_explain::explainer::saturate", .Lfunc_end4-"pie_explain::explainer::saturate"

	.section	".text.pie_explain::ranges::range_place_out_of_line","ax",@progbits
	.p2align	4
	.type	"pie_explain::ranges::range_place_out_of_line",@function
"pie_explain::ranges::range_place_out_of_line":
	movq	%rdi, %rdx
	leaq	-1000000(%rdi), %rax
	cmpq	$-990000, %rax
	jae	.LBB5_7
	cmpq	$100, %rdx
	jae	.LBB5_3
	xorl	%ecx, %ecx
	addq	%rdx, %rcx
	movq	%rcx, %rax
	retq
.LBB5_7:
	movl	%edx, %eax
	cmpq	$99999, %rdx
	ja	.LBB5_9
	imulq	$274877907, %rax, %rcx
	shrq	$38, %rcx
	addl	$270, %ecx
	movq	%rcx, %rax
	retq
.LBB5_3:
	movb	$-17, %dil
	xorl	%ecx, %ecx
	.p2align	4
.LBB5_4:
	movq	%rdx, %rsi
	movabsq	$-3689348814741910323, %rdx
	movq	%rsi, %rax
	mulq	%rdx
	shrq	$3, %rdx
	addq	$90, %rcx
	cmpq	$1000, %rsi
	jb	.LBB5_6
	testb	%dil, %dil
	leal	1(%rdi), %eax
	movl	%eax, %edi
	jne	.LBB5_4
.LBB5_6:
	addq	%rdx, %rcx
	movq	%rcx, %rax
	retq
.LBB5_9:
	movl	$3518437209, %ecx
	imulq	%rax, %rcx
	shrq	$45, %rcx
	addl	$360, %ecx
	movq	%rcx, %rax
	retq
.Lfunc_end5:
	.size	"pie_explain::ranges::range_place_out_of_line", .Lfunc_end5-"pie_explain::ranges::range_place_out_of_line"

	.section	.rodata.cst16,"aM",@progbits,16
	.p2align	4, 0x0
.LCPI6_0:
	.quad	-2
	.quad	-1
.LCPI6_1:
	.quad	-9223372036854775808
	.quad	-9223372036854775808
.LCPI6_2:
	.quad	-9223371036854775808
	.quad	-9223372036853775808
.LCPI6_3:
	.quad	-9223372036853775808
	.quad	-9223371036854775808
.LCPI6_4:
	.quad	-9223372026854775810
	.quad	-9223372026854775809
.LCPI6_5:
	.quad	-9223372036854710274
	.quad	-9223372035781033985
.LCPI6_6:
	.byte	255
	.byte	1
	.byte	1
	.byte	1
	.zero	1
	.zero	1
	.zero	1
	.zero	1
	.zero	1
	.zero	1
	.zero	1
	.zero	1
	.zero	1
	.zero	1
	.zero	1
	.zero	1
	.section	".text.pie_abi::opening::checked","ax",@progbits
	.p2align	4
	.type	"pie_abi::opening::checked",@function
"pie_abi::opening::checked":
	pushq	%rbp
	pushq	%r15
	pushq	%r14
	pushq	%r13
	pushq	%r12
	pushq	%rbx
	movq	64(%rsi), %rax
	movdqu	16(%rsi), %xmm0
	movdqu	(%rsi), %xmm1
	movdqu	32(%rsi), %xmm2
	movdqu	48(%rsi), %xmm4
	movdqa	%xmm4, %xmm5
	palignr	$8, %xmm2, %xmm5
	pcmpeqd	%xmm3, %xmm3
	paddq	%xmm5, %xmm3
	paddq	.LCPI6_0(%rip), %xmm1
	pblendw	$240, %xmm4, %xmm2
	movdqa	.LCPI6_1(%rip), %xmm4
	pxor	%xmm4, %xmm0
	pcmpgtq	.LCPI6_2(%rip), %xmm0
	popcntq	%rax, %rcx
	pxor	%xmm4, %xmm2
	pcmpgtq	.LCPI6_3(%rip), %xmm2
	cmpl	$1, %ecx
	pxor	%xmm4, %xmm1
	pcmpgtq	.LCPI6_4(%rip), %xmm1
	sete	%cl
	pxor	%xmm4, %xmm3
	pcmpgtq	.LCPI6_5(%rip), %xmm3
	packssdw	%xmm2, %xmm0
	packssdw	%xmm3, %xmm1
	packssdw	%xmm0, %xmm1
	pmovmskb	%xmm1, %edx
	testl	%edx, %edx
	sete	%dl
	andb	%cl, %dl
	cmpb	$1, %dl
	jne	.LBB6_4
	rep		bsfq	%rax, %rcx
	addl	$-10, %ecx
	cmpl	$6, %ecx
	ja	.LBB6_4
	movq	72(%rsi), %rdx
	movq	%rdx, %rcx
	shrq	$60, %rcx
	je	.LBB6_7
	movabsq	$433791696897, %rax
	jmp	.LBB6_5
.LBB6_4:
	movabsq	$459561500673, %rax
.LBB6_5:
	movq	%rax, (%rdi)
	pxor	%xmm0, %xmm0
	movdqu	%xmm0, 8(%rdi)
	movdqu	%xmm0, 24(%rdi)
	movdqu	%xmm0, 40(%rdi)
	movdqu	%xmm0, 56(%rdi)
	movdqu	%xmm0, 72(%rdi)
.LBB6_6:
	popq	%rbx
	popq	%r12
	popq	%r13
	popq	%r14
	popq	%r15
	popq	%rbp
	retq
.LBB6_7:
	movq	80(%rsi), %r10
	leaq	-1(%r10), %rcx
	cmpq	$2, %rcx
	jae	.LBB6_8
	movq	88(%rsi), %rcx
	cmpq	$32, %rcx
	jb	.LBB6_11
	movabsq	$502511173633, %rax
	jmp	.LBB6_5
.LBB6_8:
	movabsq	$485331304449, %rax
	jmp	.LBB6_5
.LBB6_11:
	movq	96(%rsi), %r14
	cmpq	$2, %r14
	jae	.LBB6_12
	movq	104(%rsi), %r9
	cmpq	$1048576, %r9
	ja	.LBB6_12
	movq	112(%rsi), %r11
	cmpq	$1048576, %r11
	ja	.LBB6_12
	movq	120(%rsi), %rbx
	testq	%r9, %r9
	sete	%r8b
	testq	%r11, %r11
	sete	%bpl
	orb	%r8b, %bpl
	leaq	-1(%rbx), %r8
	shrq	$47, %r8
	setne	%r8b
	orb	%bpl, %r8b
	jne	.LBB6_12
	movq	56(%rsi), %r15
	movq	48(%rsi), %r13
	movq	40(%rsi), %r12
	movq	32(%rsi), %r8
	movq	%r8, -8(%rsp)
	decl	%eax
	xorl	%ebp, %ebp
	cmpq	$2, %r10
	movq	24(%rsi), %r10
	sete	%bpl
	cmpq	$1, %r14
	movq	16(%rsi), %r14
	movq	(%rsi), %r8
	movq	8(%rsi), %rsi
	sete	80(%rdi)
	movq	$0, (%rdi)
	movq	%rdx, 8(%rdi)
	movl	%r9d, 16(%rdi)
	movl	%r11d, 20(%rdi)
	movq	%rbx, 24(%rdi)
	movl	%r13d, 32(%rdi)
	movw	%ax, 36(%rdi)
	movw	%r12w, 38(%rdi)
	movq	%r8, 40(%rdi)
	movq	%rsi, 48(%rdi)
	movq	%r14, 56(%rdi)
	movq	%r15, 64(%rdi)
	movl	%ecx, %eax
	shrb	$2, %al
	movd	%ebp, %xmm0
	movl	%ecx, %edx
	shrb	%dl
	movl	%ecx, %esi
	shrb	$3, %sil
	andb	$1, %sil
	cmpq	$16, %rcx
	pinsrb	$1, %ecx, %xmm0
	movl	%r10d, 72(%rdi)
	movzbl	%dl, %ecx
	pinsrb	$2, %ecx, %xmm0
	movq	-8(%rsp), %rcx
	movl	%ecx, 76(%rdi)
	movzbl	%al, %eax
	pinsrb	$3, %eax, %xmm0
	pand	.LCPI6_6(%rip), %xmm0
	movd	%xmm0, 81(%rdi)
	movb	%sil, 85(%rdi)
	setae	86(%rdi)
	movb	$0, 87(%rdi)
	jmp	.LBB6_6
.LBB6_12:
	movabsq	$515396075521, %rax
	jmp	.LBB6_5
.Lfunc_end6:
	.size	"pie_abi::opening::checked", .Lfunc_end6-"pie_abi::opening::checked"

	.section	".text.pie_units::number::read","ax",@progbits
	.p2align	4
	.type	"pie_units::number::read",@function
"pie_units::number::read":
	pushq	%rbp
	pushq	%r15
	pushq	%r14
	pushq	%r13
	pushq	%r12
	pushq	%rbx
	pushq	%rax
	movq	%rdx, %r8
	movzbl	%sil, %edx
	testq	%rcx, %rcx
	je	.LBB7_4
	xorl	%r15d, %r15d
	.p2align	4
.LBB7_2:
	movzbl	(%r8,%r15), %eax
	addb	$-48, %al
	cmpb	$9, %al
	ja	.LBB7_5
	incq	%r15
	cmpq	%r15, %rcx
	jne	.LBB7_2
.LBB7_4:
	leaq	(%r8,%rcx), %rbx
	xorl	%r14d, %r14d
	leaq	(%r8,%rcx), %rax
	leaq	1(%r14), %rsi
	testq	$0, %r14
	cmoveq	%r14, %rsi
	addq	%rsi, %rax
	xorl	%r9d, %r9d
	subq	%rsi, %r9
	decl	%edx
	leaq	.LJTI7_0(%rip), %rsi
	movslq	(%rsi,%rdx,4), %rdx
	addq	%rsi, %rdx
	movq	%rcx, %r15
	jmpq	*%rdx
.LBB7_5:
	leaq	(%r8,%r15), %rbx
	movq	%rcx, %r9
	subq	%r15, %r9
	jne	.LBB7_7
	xorl	%r9d, %r9d
	jmp	.LBB7_10
.LBB7_7:
	cmpb	$46, (%rbx)
	jne	.LBB7_10
	leaq	(%r8,%r15), %rbx
	incq	%rbx
	leaq	-1(%rcx), %rax
	cmpq	%r15, %rax
	jne	.LBB7_68
	movl	$1, %r9d
.LBB7_10:
	xorl	%r14d, %r14d
.LBB7_11:
	leaq	(%r8,%r15), %rax
	leaq	1(%r14), %rcx
	testq	%r14, %r14
	cmoveq	%r14, %rcx
	addq	%rcx, %rax
	subq	%rcx, %r9
	decl	%edx
	leaq	.LJTI7_0(%rip), %rcx
	movslq	(%rcx,%rdx,4), %rdx
	addq	%rcx, %rdx
	jmpq	*%rdx
.LBB7_12:
	movb	$1, %bpl
	decq	%r9
	cmpq	$4, %r9
	ja	.LBB7_127
	leaq	.LJTI7_4(%rip), %rcx
	movslq	(%rcx,%r9,4), %rdx
	addq	%rcx, %rdx
	jmpq	*%rdx
.LBB7_14:
	movzbl	(%rax), %eax
.LBB7_15:
	leal	-65(%rax), %ecx
	leal	32(%rax), %edx
	cmpb	$26, %cl
	movzbl	%dl, %ecx
	cmovael	%eax, %ecx
	movl	$1000000000, %r12d
	jmp	.LBB7_108
.LBB7_16:
	movb	$1, %bpl
	xorl	%esi, %esi
	xorl	%ecx, %ecx
	cmpq	$4, %r9
	ja	.LBB7_129
	movl	$1, %r12d
	leaq	.LJTI7_1(%rip), %rdx
	movslq	(%rdx,%r9,4), %r9
	addq	%rdx, %r9
	jmpq	*%r9
.LBB7_18:
	movzbl	(%rax), %eax
	leal	-65(%rax), %ecx
	leal	32(%rax), %edx
	cmpb	$26, %cl
	movzbl	%dl, %ecx
	cmovael	%eax, %ecx
	movzbl	%cl, %eax
	xorl	%esi, %esi
	xorl	%ecx, %ecx
	addl	$-98, %eax
	cmpl	$11, %eax
	ja	.LBB7_129
	leaq	.LJTI7_2(%rip), %rdx
	movslq	(%rdx,%rax,4), %rax
	addq	%rdx, %rax
	jmpq	*%rax
.LBB7_20:
	movl	$1073741824, %r12d
	jmp	.LBB7_124
.LBB7_21:
	movl	$1, %r12d
	testq	%r9, %r9
	je	.LBB7_124
	movb	$1, %bpl
	cmpq	$1, %r9
	jne	.LBB7_127
	movzbl	(%rax), %eax
	leal	-65(%rax), %ecx
	leal	32(%rax), %edx
	cmpb	$26, %cl
	movzbl	%dl, %ecx
	cmovael	%eax, %ecx
	cmpb	$112, %cl
	jne	.LBB7_127
	jmp	.LBB7_124
.LBB7_24:
	xorl	%ecx, %ecx
	movq	%r9, %rdx
	subq	$3, %rdx
	cmovaeq	%rdx, %rcx
	movq	%r9, %rdx
	subq	%rcx, %rdx
	movb	$1, %bpl
	movl	$1, %esi
	cmpq	$4, %r9
	jae	.LBB7_26
.LBB7_25:
	movb	$1, %r9b
	jmp	.LBB7_117
.LBB7_26:
	cmpq	$2, %rcx
	je	.LBB7_49
	cmpq	$1, %rcx
	jne	.LBB7_67
	movzbl	(%rax), %r9d
	leal	-65(%r9), %esi
	leal	32(%r9), %r10d
	cmpb	$26, %sil
	movzbl	%r10b, %esi
	cmovael	%r9d, %esi
	cmpb	$103, %sil
	je	.LBB7_91
	movzbl	%sil, %r9d
	cmpl	$107, %r9d
	je	.LBB7_86
	cmpl	$109, %r9d
	jne	.LBB7_92
	movl	$1000000, %esi
	movb	$1, %r9b
	jmp	.LBB7_117
.LBB7_32:
	movzbl	(%rax), %edx
	leal	-65(%rdx), %ecx
	leal	32(%rdx), %esi
	cmpb	$26, %cl
	movzbl	%sil, %ecx
	cmovael	%edx, %ecx
	cmpb	$103, %cl
	je	.LBB7_73
	movzbl	%cl, %ecx
	cmpl	$107, %ecx
	je	.LBB7_72
	cmpl	$109, %ecx
	jne	.LBB7_127
	movzbl	1(%rax), %eax
	leal	-65(%rax), %ecx
	leal	32(%rax), %edx
	cmpb	$26, %cl
	movzbl	%dl, %ecx
	cmovael	%eax, %ecx
	movl	$1048576, %r12d
	jmp	.LBB7_74
.LBB7_36:
	movzbl	(%rax), %edx
	leal	-65(%rdx), %ecx
	leal	32(%rdx), %esi
	cmpb	$26, %cl
	movzbl	%sil, %ecx
	cmovael	%edx, %ecx
	cmpb	$103, %cl
	je	.LBB7_78
	movzbl	%cl, %ecx
	cmpl	$107, %ecx
	je	.LBB7_75
	cmpl	$109, %ecx
	jne	.LBB7_127
	movzbl	1(%rax), %ecx
	leal	-65(%rcx), %edx
	leal	32(%rcx), %esi
	cmpb	$26, %dl
	movzbl	%sil, %edx
	cmovael	%ecx, %edx
	cmpb	$98, %dl
	jne	.LBB7_127
	movzbl	2(%rax), %ecx
	leal	-65(%rcx), %edx
	leal	32(%rcx), %esi
	cmpb	$26, %dl
	movzbl	%sil, %edx
	cmovael	%ecx, %edx
	cmpb	$105, %dl
	jne	.LBB7_127
	movzbl	3(%rax), %eax
	leal	-65(%rax), %ecx
	leal	32(%rax), %edx
	cmpb	$26, %cl
	movzbl	%dl, %ecx
	cmovael	%eax, %ecx
	movl	$131072, %r12d
	jmp	.LBB7_81
.LBB7_42:
	movzbl	(%rax), %edx
	leal	-65(%rdx), %ecx
	leal	32(%rdx), %esi
	cmpb	$26, %cl
	movzbl	%sil, %ecx
	cmovael	%edx, %ecx
	cmpb	$109, %cl
	je	.LBB7_87
	movzbl	%cl, %ecx
	cmpl	$110, %ecx
	je	.LBB7_82
	cmpl	$117, %ecx
	jne	.LBB7_127
	movzbl	1(%rax), %ecx
	leal	-65(%rcx), %edx
	leal	32(%rcx), %esi
	cmpb	$26, %dl
	movzbl	%sil, %edx
	cmovael	%ecx, %edx
	cmpb	$115, %dl
	jne	.LBB7_127
	movzbl	2(%rax), %ecx
	leal	-65(%rcx), %edx
	leal	32(%rcx), %esi
	cmpb	$26, %dl
	movzbl	%sil, %edx
	cmovael	%ecx, %edx
	cmpb	$101, %dl
	jne	.LBB7_127
	movzbl	3(%rax), %ecx
	leal	-65(%rcx), %edx
	leal	32(%rcx), %esi
	cmpb	$26, %dl
	movzbl	%sil, %edx
	cmovael	%ecx, %edx
	cmpb	$99, %dl
	jne	.LBB7_127
	movzbl	4(%rax), %eax
	jmp	.LBB7_97
.LBB7_49:
	movzbl	(%rax), %esi
	leal	-65(%rsi), %r9d
	leal	32(%rsi), %r10d
	cmpb	$26, %r9b
	movzbl	%r10b, %r9d
	cmovael	%esi, %r9d
	movzbl	%r9b, %r10d
	xorl	%esi, %esi
	xorl	%r9d, %r9d
	addl	$-103, %r10d
	cmpl	$13, %r10d
	ja	.LBB7_117
	leaq	.LJTI7_3(%rip), %r11
	movslq	(%r11,%r10,4), %r10
	addq	%r11, %r10
	jmpq	*%r10
.LBB7_51:
	movzbl	1(%rax), %esi
	leal	-65(%rsi), %r9d
	leal	32(%rsi), %r10d
	cmpb	$26, %r9b
	movzbl	%r10b, %r9d
	cmovael	%esi, %r9d
	movl	$1073741824, %esi
	cmpb	$105, %r9b
	je	.LBB7_25
	jmp	.LBB7_115
.LBB7_53:
	movzbl	(%rax), %ecx
	leal	-65(%rcx), %edx
	leal	32(%rcx), %esi
	cmpb	$26, %dl
	movzbl	%sil, %edx
	cmovael	%ecx, %edx
	cmpb	$115, %dl
	jne	.LBB7_127
	movzbl	1(%rax), %ecx
	leal	-65(%rcx), %edx
	leal	32(%rcx), %esi
	cmpb	$26, %dl
	movzbl	%sil, %edx
	cmovael	%ecx, %edx
	cmpb	$101, %dl
	jne	.LBB7_127
	movzbl	2(%rax), %eax
	leal	-65(%rax), %ecx
	leal	32(%rax), %edx
	cmpb	$26, %cl
	movzbl	%dl, %ecx
	cmovael	%eax, %ecx
	movl	$1000000000, %r12d
	cmpb	$99, %cl
	je	.LBB7_124
	jmp	.LBB7_127
.LBB7_56:
	movzbl	(%rax), %edx
	leal	-65(%rdx), %ecx
	leal	32(%rdx), %esi
	cmpb	$26, %cl
	movzbl	%sil, %ecx
	cmovael	%edx, %ecx
	cmpb	$109, %cl
	je	.LBB7_98
	movzbl	%cl, %ecx
	cmpl	$117, %ecx
	je	.LBB7_93
	cmpl	$110, %ecx
	jne	.LBB7_102
	movzbl	1(%rax), %ecx
	leal	-65(%rcx), %edx
	leal	32(%rcx), %esi
	cmpb	$26, %dl
	movzbl	%sil, %edx
	cmovael	%ecx, %edx
	cmpb	$115, %dl
	jne	.LBB7_102
	movzbl	2(%rax), %ecx
	leal	-65(%rcx), %edx
	leal	32(%rcx), %esi
	cmpb	$26, %dl
	movzbl	%sil, %edx
	cmovael	%ecx, %edx
	cmpb	$101, %dl
	jne	.LBB7_102
	movzbl	3(%rax), %ecx
	leal	-65(%rcx), %edx
	leal	32(%rcx), %esi
	cmpb	$26, %dl
	movzbl	%sil, %edx
	cmovael	%ecx, %edx
	movl	$1, %r12d
	jmp	.LBB7_101
.LBB7_62:
	movzbl	(%rax), %edx
	leal	-65(%rdx), %ecx
	leal	32(%rdx), %esi
	cmpb	$26, %cl
	movzbl	%sil, %ecx
	cmovael	%edx, %ecx
	cmpb	$109, %cl
	je	.LBB7_106
	movzbl	%cl, %ecx
	cmpl	$117, %ecx
	je	.LBB7_96
	cmpl	$110, %ecx
	jne	.LBB7_127
	movzbl	1(%rax), %eax
.LBB7_66:
	leal	-65(%rax), %ecx
	leal	32(%rax), %edx
	cmpb	$26, %cl
	movzbl	%dl, %ecx
	cmovael	%eax, %ecx
	movl	$1, %r12d
	jmp	.LBB7_108
.LBB7_67:
	xorl	%esi, %esi
	xorl	%r9d, %r9d
	jmp	.LBB7_117
.LBB7_68:
	movq	%r15, %rsi
	notq	%rsi
	leaq	(%rsi,%rcx), %rax
	addq	%rcx, %rsi
	xorl	%r14d, %r14d
	.p2align	4
.LBB7_69:
	leaq	(%r8,%r14), %rcx
	movzbl	1(%r15,%rcx), %ecx
	addb	$-48, %cl
	cmpb	$9, %cl
	ja	.LBB7_11
	incq	%r14
	cmpq	%r14, %rsi
	jne	.LBB7_69
	movq	%rax, %r14
	jmp	.LBB7_11
.LBB7_72:
	movzbl	1(%rax), %eax
	leal	-65(%rax), %ecx
	leal	32(%rax), %edx
	cmpb	$26, %cl
	movzbl	%dl, %ecx
	cmovael	%eax, %ecx
	movl	$1024, %r12d
	jmp	.LBB7_74
.LBB7_73:
	movzbl	1(%rax), %eax
	leal	-65(%rax), %ecx
	leal	32(%rax), %edx
	cmpb	$26, %cl
	movzbl	%dl, %ecx
	cmovael	%eax, %ecx
	movl	$1073741824, %r12d
.LBB7_74:
	cmpb	$98, %cl
	jne	.LBB7_127
	jmp	.LBB7_124
.LBB7_75:
	movzbl	1(%rax), %ecx
	leal	-65(%rcx), %edx
	leal	32(%rcx), %esi
	cmpb	$26, %dl
	movzbl	%sil, %edx
	cmovael	%ecx, %edx
	cmpb	$98, %dl
	jne	.LBB7_127
	movzbl	2(%rax), %ecx
	leal	-65(%rcx), %edx
	leal	32(%rcx), %esi
	cmpb	$26, %dl
	movzbl	%sil, %edx
	cmovael	%ecx, %edx
	cmpb	$105, %dl
	jne	.LBB7_127
	movzbl	3(%rax), %eax
	leal	-65(%rax), %ecx
	leal	32(%rax), %edx
	cmpb	$26, %cl
	movzbl	%dl, %ecx
	cmovael	%eax, %ecx
	movl	$128, %r12d
	jmp	.LBB7_81
.LBB7_78:
	movzbl	1(%rax), %ecx
	leal	-65(%rcx), %edx
	leal	32(%rcx), %esi
	cmpb	$26, %dl
	movzbl	%sil, %edx
	cmovael	%ecx, %edx
	cmpb	$98, %dl
	jne	.LBB7_127
	movzbl	2(%rax), %ecx
	leal	-65(%rcx), %edx
	leal	32(%rcx), %esi
	cmpb	$26, %dl
	movzbl	%sil, %edx
	cmovael	%ecx, %edx
	cmpb	$105, %dl
	jne	.LBB7_127
	movzbl	3(%rax), %eax
	leal	-65(%rax), %ecx
	leal	32(%rax), %edx
	cmpb	$26, %cl
	movzbl	%dl, %ecx
	cmovael	%eax, %ecx
	movl	$134217728, %r12d
.LBB7_81:
	cmpb	$116, %cl
	jne	.LBB7_127
	jmp	.LBB7_124
.LBB7_82:
	movzbl	1(%rax), %ecx
	leal	-65(%rcx), %edx
	leal	32(%rcx), %esi
	cmpb	$26, %dl
	movzbl	%sil, %edx
	cmovael	%ecx, %edx
	cmpb	$115, %dl
	jne	.LBB7_127
	movzbl	2(%rax), %ecx
	leal	-65(%rcx), %edx
	leal	32(%rcx), %esi
	cmpb	$26, %dl
	movzbl	%sil, %edx
	cmovael	%ecx, %edx
	cmpb	$101, %dl
	jne	.LBB7_127
	movzbl	3(%rax), %ecx
	leal	-65(%rcx), %edx
	leal	32(%rcx), %esi
	cmpb	$26, %dl
	movzbl	%sil, %edx
	cmovael	%ecx, %edx
	cmpb	$99, %dl
	jne	.LBB7_127
	movzbl	4(%rax), %eax
	jmp	.LBB7_66
.LBB7_86:
	movl	$1000, %esi
	movb	$1, %r9b
	jmp	.LBB7_117
.LBB7_87:
	movzbl	1(%rax), %ecx
	leal	-65(%rcx), %edx
	leal	32(%rcx), %esi
	cmpb	$26, %dl
	movzbl	%sil, %edx
	cmovael	%ecx, %edx
	cmpb	$115, %dl
	jne	.LBB7_127
	movzbl	2(%rax), %ecx
	leal	-65(%rcx), %edx
	leal	32(%rcx), %esi
	cmpb	$26, %dl
	movzbl	%sil, %edx
	cmovael	%ecx, %edx
	cmpb	$101, %dl
	jne	.LBB7_127
	movzbl	3(%rax), %ecx
	leal	-65(%rcx), %edx
	leal	32(%rcx), %esi
	cmpb	$26, %dl
	movzbl	%sil, %edx
	cmovael	%ecx, %edx
	cmpb	$99, %dl
	jne	.LBB7_127
	movzbl	4(%rax), %eax
	jmp	.LBB7_107
.LBB7_91:
	movl	$1000000000, %esi
	movb	$1, %r9b
	jmp	.LBB7_117
.LBB7_92:
	xorl	%r10d, %r10d
	cmpb	$116, %sil
	sete	%r9b
	movabsq	$1000000000000, %rsi
	cmovneq	%r10, %rsi
	jmp	.LBB7_117
.LBB7_93:
	movzbl	1(%rax), %ecx
	leal	-65(%rcx), %edx
	leal	32(%rcx), %esi
	cmpb	$26, %dl
	movzbl	%sil, %edx
	cmovael	%ecx, %edx
	cmpb	$115, %dl
	jne	.LBB7_102
	movzbl	2(%rax), %ecx
	leal	-65(%rcx), %edx
	leal	32(%rcx), %esi
	cmpb	$26, %dl
	movzbl	%sil, %edx
	cmovael	%ecx, %edx
	cmpb	$101, %dl
	jne	.LBB7_102
	movzbl	3(%rax), %ecx
	leal	-65(%rcx), %edx
	leal	32(%rcx), %esi
	cmpb	$26, %dl
	movzbl	%sil, %edx
	cmovael	%ecx, %edx
	movl	$1000, %r12d
	jmp	.LBB7_101
.LBB7_96:
	movzbl	1(%rax), %eax
.LBB7_97:
	leal	-65(%rax), %ecx
	leal	32(%rax), %edx
	cmpb	$26, %cl
	movzbl	%dl, %ecx
	cmovael	%eax, %ecx
	movl	$1000, %r12d
	jmp	.LBB7_108
.LBB7_98:
	movzbl	1(%rax), %ecx
	leal	-65(%rcx), %edx
	leal	32(%rcx), %esi
	cmpb	$26, %dl
	movzbl	%sil, %edx
	cmovael	%ecx, %edx
	cmpb	$115, %dl
	jne	.LBB7_102
	movzbl	2(%rax), %ecx
	leal	-65(%rcx), %edx
	leal	32(%rcx), %esi
	cmpb	$26, %dl
	movzbl	%sil, %edx
	cmovael	%ecx, %edx
	cmpb	$101, %dl
	jne	.LBB7_102
	movzbl	3(%rax), %ecx
	leal	-65(%rcx), %edx
	leal	32(%rcx), %esi
	cmpb	$26, %dl
	movzbl	%sil, %edx
	cmovael	%ecx, %edx
	movl	$1000000, %r12d
.LBB7_101:
	cmpb	$99, %dl
	je	.LBB7_124
.LBB7_102:
	movzbl	(%rax), %ecx
	leal	-65(%rcx), %edx
	leal	32(%rcx), %esi
	cmpb	$26, %dl
	movzbl	%sil, %edx
	cmovael	%ecx, %edx
	cmpb	$115, %dl
	jne	.LBB7_127
	movzbl	1(%rax), %ecx
	leal	-65(%rcx), %edx
	leal	32(%rcx), %esi
	cmpb	$26, %dl
	movzbl	%sil, %edx
	cmovael	%ecx, %edx
	cmpb	$101, %dl
	jne	.LBB7_127
	movzbl	2(%rax), %ecx
	leal	-65(%rcx), %edx
	leal	32(%rcx), %esi
	cmpb	$26, %dl
	movzbl	%sil, %edx
	cmovael	%ecx, %edx
	cmpb	$99, %dl
	jne	.LBB7_127
	movzbl	3(%rax), %eax
	jmp	.LBB7_15
.LBB7_106:
	movzbl	1(%rax), %eax
.LBB7_107:
	leal	-65(%rax), %ecx
	leal	32(%rax), %edx
	cmpb	$26, %cl
	movzbl	%dl, %ecx
	cmovael	%eax, %ecx
	movl	$1000000, %r12d
.LBB7_108:
	cmpb	$115, %cl
	jne	.LBB7_127
	jmp	.LBB7_124
.LBB7_109:
	movl	$1024, %r12d
	jmp	.LBB7_124
.LBB7_110:
	movl	$1048576, %r12d
	jmp	.LBB7_124
.LBB7_111:
	movzbl	1(%rax), %esi
	leal	-65(%rsi), %r9d
	leal	32(%rsi), %r10d
	cmpb	$26, %r9b
	movzbl	%r10b, %r9d
	cmovael	%esi, %r9d
	movl	$1048576, %esi
	cmpb	$105, %r9b
	je	.LBB7_25
	jmp	.LBB7_115
.LBB7_113:
	movzbl	1(%rax), %esi
	leal	-65(%rsi), %r9d
	leal	32(%rsi), %r10d
	cmpb	$26, %r9b
	movzbl	%r10b, %r9d
	cmovael	%esi, %r9d
	movl	$1024, %esi
	cmpb	$105, %r9b
	je	.LBB7_25
.LBB7_115:
	xorl	%r9d, %r9d
	xorl	%esi, %esi
	jmp	.LBB7_117
.LBB7_116:
	movzbl	1(%rax), %esi
	leal	-65(%rsi), %r9d
	leal	32(%rsi), %r10d
	cmpb	$26, %r9b
	movzbl	%r10b, %r10d
	cmovael	%esi, %r10d
	xorl	%r9d, %r9d
	cmpb	$105, %r10b
	sete	%r9b
	movq	%r9, %rsi
	shlq	$40, %rsi
.LBB7_117:
	cmpq	$3, %rdx
	jne	.LBB7_127
	movzbl	(%rax,%rcx), %edx
	leal	-65(%rdx), %r10d
	leal	32(%rdx), %r11d
	cmpb	$26, %r10b
	movzbl	%r11b, %r10d
	cmovael	%edx, %r10d
	cmpb	$98, %r10b
	jne	.LBB7_127
	movzbl	1(%rax,%rcx), %r10d
	leal	-65(%r10), %edx
	leal	32(%r10), %r11d
	cmpb	$26, %dl
	movzbl	%r11b, %edx
	cmovael	%r10d, %edx
	cmpb	$112, %dl
	je	.LBB7_122
	movzbl	%dl, %edx
	cmpl	$105, %edx
	jne	.LBB7_127
	movzbl	2(%rax,%rcx), %eax
	leal	-65(%rax), %ecx
	leal	32(%rax), %edx
	cmpb	$26, %cl
	movzbl	%dl, %ecx
	cmovael	%eax, %ecx
	xorl	%r12d, %r12d
	cmpb	$116, %cl
	sete	%al
	cmoveq	%rsi, %r12
	testb	%al, %r9b
	je	.LBB7_127
	jmp	.LBB7_124
.LBB7_122:
	movzbl	2(%rax,%rcx), %eax
	leal	-65(%rax), %ecx
	leal	32(%rax), %edx
	cmpb	$26, %cl
	movzbl	%dl, %ecx
	cmovael	%eax, %ecx
	shlq	$3, %rsi
	xorl	%r12d, %r12d
	cmpb	$115, %cl
	sete	%al
	cmoveq	%rsi, %r12
	testb	%al, %r9b
	je	.LBB7_127
.LBB7_124:
	movq	%r14, %rax
	movb	$1, %bpl
	orq	%r15, %rax
	je	.LBB7_127
	cmpq	$18, %r14
	jbe	.LBB7_130
	xorl	%esi, %esi
	movb	$1, %cl
	jmp	.LBB7_129
.LBB7_127:
	xorl	%ecx, %ecx
.LBB7_128:
	xorl	%esi, %esi
.LBB7_129:
	movb	%bpl, (%rdi)
	movb	%cl, 1(%rdi)
	movq	%rsi, 8(%rdi)
	addq	$8, %rsp
	popq	%rbx
	popq	%r12
	popq	%r13
	popq	%r14
	popq	%r15
	popq	%rbp
	retq
.LBB7_130:
	testq	%r15, %r15
	je	.LBB7_135
	xorl	%ebp, %ebp
	xorl	%eax, %eax
	xorl	%esi, %esi
	xorl	%r13d, %r13d
	jmp	.LBB7_133
	.p2align	4
.LBB7_132:
	incq	%r13
	cmpq	%r13, %r15
	je	.LBB7_136
.LBB7_133:
	movzbl	(%r8,%r13), %ecx
	subb	$48, %cl
	movzbl	%cl, %r11d
	cmovbl	%ebp, %r11d
	movl	$10, %ecx
	mulq	%rcx
	movq	%rdx, %r10
	movq	%rax, %r9
	movq	%rsi, %rax
	mulq	%rcx
	movq	%rax, %rcx
	addq	%r10, %rcx
	adcq	$0, %rdx
	movq	$-1, %rax
	movq	$-1, %rsi
	jne	.LBB7_132
	movzbl	%r11b, %eax
	addq	%r9, %rax
	adcq	$0, %rcx
	movq	$-1, %rdx
	cmovbq	%rdx, %rcx
	cmovbq	%rdx, %rax
	movq	%rcx, %rsi
	jmp	.LBB7_132
.LBB7_135:
	xorl	%eax, %eax
	xorl	%esi, %esi
.LBB7_136:
	testq	%r14, %r14
	je	.LBB7_145
	xorl	%r10d, %r10d
	xorl	%r15d, %r15d
	movb	$1, %bpl
	jmp	.LBB7_139
	.p2align	4
.LBB7_138:
	incq	%r15
	cmpq	%r15, %r14
	je	.LBB7_141
.LBB7_139:
	movzbl	(%rbx,%r15), %ecx
	subb	$48, %cl
	movzbl	%cl, %r11d
	cmovbl	%r10d, %r11d
	movl	$10, %ecx
	mulq	%rcx
	movq	%rdx, %r9
	movq	%rax, %r8
	movq	%rsi, %rax
	mulq	%rcx
	movq	%rax, %rcx
	addq	%r9, %rcx
	adcq	$0, %rdx
	movq	$-1, %rax
	movq	$-1, %rsi
	jne	.LBB7_138
	movzbl	%r11b, %eax
	addq	%r8, %rax
	adcq	$0, %rcx
	movq	$-1, %rdx
	cmovbq	%rdx, %rcx
	cmovbq	%rdx, %rax
	movq	%rcx, %rsi
	jmp	.LBB7_138
.LBB7_141:
	cmpq	$18, %r14
	movq	$-1, %r15
	jne	.LBB7_146
.LBB7_142:
	mulq	%r12
	movq	%rdx, %rcx
	movq	%rax, %rbx
	movq	%rsi, %rax
	mulq	%r12
	addq	%rcx, %rax
	adcq	$0, %rdx
	cmovneq	%r15, %rax
	cmovneq	%r15, %rbx
	movabsq	$-1000000000000000000, %rcx
	cmpq	%rbx, %rcx
	movabsq	$62499999999999999, %rcx
	sbbq	%rax, %rcx
	jae	.LBB7_144
	movb	$2, %cl
	jmp	.LBB7_128
.LBB7_144:
	xorl	%r15d, %r15d
	movabsq	$1000000000000000000, %r14
	movq	%rdi, %r12
	movq	%rbx, %rdi
	movq	%rax, %rsi
	movq	%r14, %rdx
	xorl	%ecx, %ecx
	movq	%rax, %r13
	callq	__udivti3@PLT
	movq	%r12, %rdi
	movq	%rax, %rsi
	movq	%rdx, %rcx
	mulq	%r14
	imulq	%r14, %rcx
	addq	%rcx, %rdx
	subq	%rax, %rbx
	sbbq	%rdx, %r13
	orq	%rbx, %r13
	setne	%bpl
	cmovneq	%r15, %rsi
	movl	%ebp, %ecx
	jmp	.LBB7_129
.LBB7_145:
	movb	$1, %bpl
	movq	$-1, %r15
.LBB7_146:
	movl	$18, %r10d
	subq	%r14, %r10
	xorl	%ebx, %ebx
	xorl	%r14d, %r14d
	jmp	.LBB7_148
	.p2align	4
.LBB7_147:
	incq	%r14
	cmpq	%r14, %r10
	je	.LBB7_142
.LBB7_148:
	leaq	.Lstatic.33(%rip), %rcx
	movzbl	16(%r14,%rcx), %ecx
	subb	$48, %cl
	movzbl	%cl, %r11d
	cmovbl	%ebx, %r11d
	movl	$10, %ecx
	mulq	%rcx
	movq	%rdx, %r9
	movq	%rax, %r8
	movq	%rsi, %rax
	mulq	%rcx
	movq	%rax, %rcx
	addq	%r9, %rcx
	adcq	$0, %rdx
	movq	$-1, %rax
	movq	$-1, %rsi
	jne	.LBB7_147
	movzbl	%r11b, %eax
	addq	%r8, %rax
	adcq	$0, %rcx
	movq	$-1, %rdx
	cmovbq	%rdx, %rcx
	cmovbq	%rdx, %rax
	movq	%rcx, %rsi
	jmp	.LBB7_147
.Lfunc_end7:
	.size	"pie_units::number::read", .Lfunc_end7-"pie_units::number::read"
	.section	".rodata.pie_units::number::read","a",@progbits
	.p2align	2, 0x0
.LJTI7_0:
	.long	.LBB7_12-.LJTI7_0
	.long	.LBB7_24-.LJTI7_0
	.long	.LBB7_16-.LJTI7_0
	.long	.LBB7_21-.LJTI7_0
.LJTI7_1:
	.long	.LBB7_124-.LJTI7_1
	.long	.LBB7_18-.LJTI7_1
	.long	.LBB7_32-.LJTI7_1
	.long	.LBB7_129-.LJTI7_1
	.long	.LBB7_36-.LJTI7_1
.LJTI7_2:
	.long	.LBB7_124-.LJTI7_2
	.long	.LBB7_129-.LJTI7_2
	.long	.LBB7_129-.LJTI7_2
	.long	.LBB7_129-.LJTI7_2
	.long	.LBB7_129-.LJTI7_2
	.long	.LBB7_20-.LJTI7_2
	.long	.LBB7_129-.LJTI7_2
	.long	.LBB7_129-.LJTI7_2
	.long	.LBB7_129-.LJTI7_2
	.long	.LBB7_109-.LJTI7_2
	.long	.LBB7_129-.LJTI7_2
	.long	.LBB7_110-.LJTI7_2
.LJTI7_3:
	.long	.LBB7_51-.LJTI7_3
	.long	.LBB7_117-.LJTI7_3
	.long	.LBB7_117-.LJTI7_3
	.long	.LBB7_117-.LJTI7_3
	.long	.LBB7_113-.LJTI7_3
	.long	.LBB7_117-.LJTI7_3
	.long	.LBB7_111-.LJTI7_3
	.long	.LBB7_117-.LJTI7_3
	.long	.LBB7_117-.LJTI7_3
	.long	.LBB7_117-.LJTI7_3
	.long	.LBB7_117-.LJTI7_3
	.long	.LBB7_117-.LJTI7_3
	.long	.LBB7_117-.LJTI7_3
	.long	.LBB7_116-.LJTI7_3
.LJTI7_4:
	.long	.LBB7_14-.LJTI7_4
	.long	.LBB7_62-.LJTI7_4
	.long	.LBB7_53-.LJTI7_4
	.long	.LBB7_56-.LJTI7_4
	.long	.LBB7_42-.LJTI7_4

	.section	".text.pie_record::note::put_note","ax",@progbits
	.p2align	4
	.type	"pie_record::note::put_note",@function
"pie_record::note::put_note":
	pushq	%rbp
	pushq	%r14
	pushq	%rbx
	subq	$48, %rsp
	movq	%rdx, %r14
	movl	%esi, %ebp
	movq	%rdi, %rbx
	xorps	%xmm0, %xmm0
	movaps	%xmm0, 16(%rsp)
	movaps	%xmm0, (%rsp)
	movq	$0, 32(%rsp)
	movb	$10, 511(%rdi)
	movl	$40, %edi
	cmpq	$10000, %rcx
	jb	.LBB8_1
	.p2align	4
.LBB8_2:
	movabsq	$3777893186295716171, %rdx
	movq	%rcx, %rax
	mulq	%rdx
	shrq	$11, %rdx
	imull	$10000, %edx, %eax
	movl	%ecx, %esi
	subl	%eax, %esi
	imull	$5243, %esi, %eax
	shrl	$19, %eax
	imull	$100, %eax, %r8d
	subl	%r8d, %esi
	movzwl	%si, %esi
	leaq	.Lstatic.34(%rip), %r8
	movzwl	(%r8,%rsi,2), %esi
	movw	%si, -2(%rsp,%rdi)
	movzwl	(%r8,%rax,2), %eax
	movw	%ax, -4(%rsp,%rdi)
	addq	$-4, %rdi
	cmpq	$99999999, %rcx
	movq	%rdx, %rcx
	ja	.LBB8_2
	cmpq	$99, %rdx
	ja	.LBB8_7
.LBB8_4:
	cmpq	$9, %rdx
	ja	.LBB8_6
	orb	$48, %dl
	movb	%dl, -1(%rsp,%rdi)
	decq	%rdi
	jmp	.LBB8_10
.LBB8_1:
	movq	%rcx, %rdx
	cmpq	$99, %rdx
	jbe	.LBB8_4
.LBB8_7:
	movl	%edx, %eax
	shrl	$2, %eax
	movzwl	%ax, %eax
	imull	$5243, %eax, %eax
	shrl	$17, %eax
	imull	$100, %eax, %ecx
	movl	%edx, %esi
	subl	%ecx, %esi
	movzwl	%si, %esi
	leaq	.Lstatic.34(%rip), %rcx
	movzwl	(%rcx,%rsi,2), %esi
	movw	%si, -2(%rsp,%rdi)
	cmpq	$999, %rdx
	ja	.LBB8_9
	orb	$48, %al
	movb	%al, -3(%rsp,%rdi)
	addq	$-3, %rdi
	jmp	.LBB8_10
.LBB8_6:
	leaq	.Lstatic.34(%rip), %rax
	movzwl	(%rax,%rdx,2), %eax
	movw	%ax, -2(%rsp,%rdi)
	addq	$-2, %rdi
	jmp	.LBB8_10
.LBB8_9:
	movzwl	%ax, %eax
	movzwl	(%rcx,%rax,2), %eax
	movw	%ax, -4(%rsp,%rdi)
	addq	$-4, %rdi
.LBB8_10:
	leaq	(%rsp,%rdi), %rsi
	movl	$40, %edx
	subq	%rdi, %rdx
	leaq	471(%rdi), %rax
	movq	%rax, 512(%rbx)
	addq	%rbx, %rdi
	addq	$471, %rdi
	callq	memcpy@PLT
	movl	$1, %edx
	movq	%rbx, %rdi
	movq	%r14, %rsi
	callq	"pie_record::put_field::put_numbers"
	addb	$-12, %bpl
	movzbl	%bpl, %eax
	shll	$3, %eax
	leaq	".Lswitch.table.pie_record::note::put_note"(%rip), %rcx
	movq	(%rax,%rcx), %rdx
	leaq	".Lswitch.table.pie_record::note::put_note.29"(%rip), %rcx
	movq	(%rax,%rcx), %rsi
	movq	512(%rbx), %rax
	leaq	-1(%rax), %rcx
	movq	%rcx, 512(%rbx)
	movb	$44, -1(%rbx,%rax)
	movq	512(%rbx), %rcx
	subq	%rdx, %rcx
	movq	%rcx, 512(%rbx)
	leaq	(%rbx,%rcx), %rdi
	movq	%rdi, %rax
	subq	%rsi, %rax
	cmpq	%rdx, %rax
	jae	.LBB8_15
	movl	%edx, %eax
	andl	$3, %eax
	andq	$-4, %rdx
	leaq	(%rcx,%rbx), %r8
	addq	$3, %r8
	xorl	%ecx, %ecx
	.p2align	4
.LBB8_12:
	movzbl	(%rsi,%rcx), %r9d
	movb	%r9b, -3(%r8,%rcx)
	movzbl	1(%rsi,%rcx), %r9d
	movb	%r9b, -2(%r8,%rcx)
	movzbl	2(%rsi,%rcx), %r9d
	movb	%r9b, -1(%r8,%rcx)
	movzbl	3(%rsi,%rcx), %r9d
	movb	%r9b, (%r8,%rcx)
	addq	$4, %rcx
	cmpq	%rcx, %rdx
	jne	.LBB8_12
	.p2align	4
.LBB8_13:
	movzbl	(%rsi,%rcx), %edx
	movb	%dl, (%rdi,%rcx)
	incq	%rcx
	decq	%rax
	jne	.LBB8_13
	addq	$48, %rsp
	popq	%rbx
	popq	%r14
	popq	%rbp
	retq
.LBB8_15:
	addq	$48, %rsp
	popq	%rbx
	popq	%r14
	popq	%rbp
	jmp	memcpy@PLT
.Lfunc_end8:
	.size	"pie_record::note::put_note", .Lfunc_end8-"pie_record::note::put_note"

	.section	".text.pie_record::put_field::put_numbers","ax",@progbits
	.p2align	4
	.type	"pie_record::put_field::put_numbers",@function
"pie_record::put_field::put_numbers":
	testq	%rdx, %rdx
	je	.LBB9_1
	pushq	%r14
	pushq	%rbx
	pushq	%rax
	leaq	8(%rsi), %rax
	decq	%rdx
	movq	%rdi, %rbx
	movq	%rsi, %r14
	movq	%rax, %rsi
	callq	"pie_record::put_field::put_numbers"
	movq	(%r14), %rsi
	movq	%rbx, %rdi
	addq	$8, %rsp
	popq	%rbx
	popq	%r14
	jmp	"pie_record::row_buffer::RowBuffer::prepend_number"
.LBB9_1:
	retq
.Lfunc_end9:
	.size	"pie_record::put_field::put_numbers", .Lfunc_end9-"pie_record::put_field::put_numbers"

	.section	".text.pie_record::row_buffer::RowBuffer::prepend_number","ax",@progbits
	.p2align	4
	.type	"pie_record::row_buffer::RowBuffer::prepend_number",@function
"pie_record::row_buffer::RowBuffer::prepend_number":
	movq	%rsi, %rdx
	movq	512(%rdi), %rsi
	movb	$44, -1(%rdi,%rsi)
	cmpq	$10000, %rdx
	jb	.LBB10_2
	.p2align	4
.LBB10_1:
	movq	%rdx, %rcx
	movabsq	$3777893186295716171, %rdx
	movq	%rcx, %rax
	mulq	%rdx
	shrq	$11, %rdx
	imull	$10000, %edx, %eax
	movl	%ecx, %r8d
	subl	%eax, %r8d
	imull	$5243, %r8d, %eax
	shrl	$19, %eax
	imull	$100, %eax, %r9d
	subl	%r9d, %r8d
	movzwl	%r8w, %r8d
	leaq	.Lstatic.34(%rip), %r9
	movzwl	(%r9,%r8,2), %r8d
	movw	%r8w, -3(%rdi,%rsi)
	movzwl	(%r9,%rax,2), %eax
	movw	%ax, -5(%rdi,%rsi)
	addq	$-4, %rsi
	cmpq	$99999999, %rcx
	ja	.LBB10_1
.LBB10_2:
	decq	%rsi
	cmpq	$99, %rdx
	ja	.LBB10_6
	cmpq	$9, %rdx
	ja	.LBB10_5
	orb	$48, %dl
	movb	%dl, -1(%rdi,%rsi)
	decq	%rsi
	movq	%rsi, 512(%rdi)
	retq
.LBB10_6:
	movl	%edx, %eax
	shrl	$2, %eax
	movzwl	%ax, %eax
	imull	$5243, %eax, %eax
	shrl	$17, %eax
	imull	$100, %eax, %ecx
	movl	%edx, %r8d
	subl	%ecx, %r8d
	movzwl	%r8w, %r8d
	leaq	.Lstatic.34(%rip), %rcx
	movzwl	(%rcx,%r8,2), %r8d
	movw	%r8w, -2(%rdi,%rsi)
	cmpq	$999, %rdx
	ja	.LBB10_8
	orb	$48, %al
	movb	%al, -3(%rdi,%rsi)
	addq	$-3, %rsi
	movq	%rsi, 512(%rdi)
	retq
.LBB10_5:
	leaq	.Lstatic.34(%rip), %rax
	movzwl	(%rax,%rdx,2), %eax
	movw	%ax, -2(%rdi,%rsi)
	addq	$-2, %rsi
	movq	%rsi, 512(%rdi)
	retq
.LBB10_8:
	movzwl	%ax, %eax
	movzwl	(%rcx,%rax,2), %eax
	movw	%ax, -4(%rdi,%rsi)
	addq	$-4, %rsi
	movq	%rsi, 512(%rdi)
	retq
.Lfunc_end10:
	.size	"pie_record::row_buffer::RowBuffer::prepend_number", .Lfunc_end10-"pie_record::row_buffer::RowBuffer::prepend_number"

	.section	".text.pie_record::note::put_lost","ax",@progbits
	.p2align	4
	.type	"pie_record::note::put_lost",@function
"pie_record::note::put_lost":
	movb	$10, 511(%rdi)
	movl	$511, %ecx
	cmpq	$10000, %rsi
	jb	.LBB11_1
	.p2align	4
.LBB11_2:
	movabsq	$3777893186295716171, %rdx
	movq	%rsi, %rax
	mulq	%rdx
	shrq	$11, %rdx
	imull	$10000, %edx, %eax
	movl	%esi, %r8d
	subl	%eax, %r8d
	imull	$5243, %r8d, %eax
	shrl	$19, %eax
	imull	$100, %eax, %r9d
	subl	%r9d, %r8d
	movzwl	%r8w, %r8d
	leaq	.Lstatic.34(%rip), %r9
	movzwl	(%r9,%r8,2), %r8d
	movw	%r8w, -2(%rdi,%rcx)
	movzwl	(%r9,%rax,2), %eax
	movw	%ax, -4(%rdi,%rcx)
	addq	$-4, %rcx
	cmpq	$99999999, %rsi
	movq	%rdx, %rsi
	ja	.LBB11_2
	cmpq	$99, %rdx
	ja	.LBB11_7
.LBB11_4:
	cmpq	$9, %rdx
	ja	.LBB11_6
	orb	$48, %dl
	movb	%dl, -1(%rdi,%rcx)
	decq	%rcx
	jmp	.LBB11_10
.LBB11_1:
	movq	%rsi, %rdx
	cmpq	$99, %rdx
	jbe	.LBB11_4
.LBB11_7:
	movl	%edx, %eax
	shrl	$2, %eax
	movzwl	%ax, %eax
	imull	$5243, %eax, %eax
	shrl	$17, %eax
	imull	$100, %eax, %esi
	movl	%edx, %r8d
	subl	%esi, %r8d
	movzwl	%r8w, %r8d
	leaq	.Lstatic.34(%rip), %rsi
	movzwl	(%rsi,%r8,2), %r8d
	movw	%r8w, -2(%rdi,%rcx)
	cmpq	$999, %rdx
	ja	.LBB11_9
	orb	$48, %al
	movb	%al, -3(%rdi,%rcx)
	addq	$-3, %rcx
	jmp	.LBB11_10
.LBB11_6:
	leaq	.Lstatic.34(%rip), %rax
	movzwl	(%rax,%rdx,2), %eax
	movw	%ax, -2(%rdi,%rcx)
	addq	$-2, %rcx
	jmp	.LBB11_10
.LBB11_9:
	movzwl	%ax, %eax
	movzwl	(%rsi,%rax,2), %eax
	movw	%ax, -4(%rdi,%rcx)
	addq	$-4, %rcx
.LBB11_10:
	leaq	-1(%rcx), %rax
	movq	%rax, 512(%rdi)
	movb	$44, -1(%rdi,%rcx)
	movq	512(%rdi), %rax
	leaq	-4(%rax), %rcx
	movq	%rcx, 512(%rdi)
	movl	$1953722220, -4(%rdi,%rax)
	retq
.Lfunc_end11:
	.size	"pie_record::note::put_lost", .Lfunc_end11-"pie_record::note::put_lost"

	.section	.rodata.cst16,"aM",@progbits,16
	.p2align	4, 0x0
.LCPI12_0:
	.byte	108
	.byte	108
	.byte	105
	.byte	110
	.zero	1
	.zero	1
	.zero	1
	.zero	1
	.zero	1
	.zero	1
	.zero	1
	.zero	1
	.zero	1
	.zero	1
	.zero	1
	.zero	1
.LCPI12_1:
	.byte	117
	.byte	110
	.byte	100
	.byte	101
	.zero	1
	.zero	1
	.zero	1
	.zero	1
	.zero	1
	.zero	1
	.zero	1
	.zero	1
	.zero	1
	.zero	1
	.zero	1
	.zero	1
.LCPI12_2:
	.byte	108
	.byte	108
	.byte	105
	.byte	110
	.byte	0
	.byte	0
	.byte	0
	.byte	0
	.byte	0
	.byte	0
	.byte	0
	.byte	0
	.byte	0
	.byte	0
	.byte	0
	.byte	0
	.section	".text.pie_record::opening::put_chosen","ax",@progbits
	.p2align	4
	.type	"pie_record::opening::put_chosen",@function
"pie_record::opening::put_chosen":
	pushq	%rbp
	pushq	%r15
	pushq	%r14
	pushq	%r12
	pushq	%rbx
	movq	%rdi, %rbx
	movzbl	(%rsi), %edi
	movzbl	1(%rsi), %ebp
	movzbl	2(%rsi), %r14d
	movzbl	3(%rsi), %r15d
	movzbl	4(%rsi), %r12d
	movzbl	5(%rsi), %eax
	testb	%dil, %dil
	leaq	.Lstatic.53(%rip), %rcx
	leaq	.Lstatic.36(%rip), %r8
	cmoveq	%rcx, %r8
	movzbl	6(%rsi), %ecx
	movq	512(%rbx), %rdx
	leaq	-1(%rdx), %rsi
	movq	%rsi, 512(%rbx)
	movb	$44, -1(%rbx,%rdx)
	movq	512(%rbx), %rdx
	leaq	-7(%rdx), %rsi
	movq	%rsi, 512(%rbx)
	addq	%rbx, %rdx
	addq	$-7, %rdx
	movq	%rdx, %rsi
	subq	%r8, %rsi
	cmpq	$6, %rsi
	ja	.LBB12_2
	xorl	%esi, %esi
	xorl	%r9d, %r9d
	testb	%dil, %dil
	sete	%sil
	movzbl	(%r8), %edi
	movb	%dil, (%rdx)
	movb	$111, 1(%rdx)
	movd	%esi, %xmm0
	punpcklbw	%xmm0, %xmm0
	pshuflw	$0, %xmm0, %xmm0
	psllw	$7, %xmm0
	movd	.LCPI12_2(%rip), %xmm1
	pblendvb	%xmm0, .LCPI12_1(%rip), %xmm1
	movd	%xmm1, 2(%rdx)
	setne	%r9b
	leal	(%r9,%r9,2), %esi
	addl	$100, %esi
	movb	%sil, 6(%rdx)
	testb	%cl, %cl
	jne	.LBB12_4
	jmp	.LBB12_5
.LBB12_2:
	movl	(%r8), %esi
	movl	3(%r8), %edi
	movl	%edi, 3(%rdx)
	movl	%esi, (%rdx)
	testb	%cl, %cl
	je	.LBB12_5
.LBB12_4:
	movq	512(%rbx), %rcx
	leaq	-1(%rcx), %rdx
	movq	%rdx, 512(%rbx)
	movb	$44, -1(%rbx,%rcx)
	movq	512(%rbx), %rcx
	leaq	-4(%rcx), %rdx
	movq	%rdx, 512(%rbx)
	addq	%rbx, %rcx
	addq	$-4, %rcx
	leaq	.Lstatic.57(%rip), %rdx
	movq	%rcx, %rsi
	subq	%rdx, %rsi
	cmpq	$3, %rsi
	movl	$1718378856, (%rcx)
.LBB12_5:
	xorl	%ecx, %ecx
	testb	%al, %al
	sete	%cl
	leaq	.Lstatic.58(%rip), %rax
	leaq	.Lstatic.59(%rip), %rsi
	cmoveq	%rax, %rsi
	leaq	6(,%rcx,2), %rdx
	movq	512(%rbx), %rax
	leaq	-1(%rax), %rcx
	movq	%rcx, 512(%rbx)
	movb	$44, -1(%rbx,%rax)
	movq	512(%rbx), %rax
	subq	%rdx, %rax
	movq	%rax, 512(%rbx)
	leaq	(%rbx,%rax), %rdi
	movq	%rdi, %rcx
	subq	%rsi, %rcx
	cmpq	%rdx, %rcx
	jae	.LBB12_28
	movl	%edx, %ecx
	andl	$-4, %ecx
	leaq	(%rax,%rbx), %r8
	addq	$3, %r8
	xorl	%eax, %eax
	.p2align	4
.LBB12_7:
	movl	(%rsi,%rax), %r9d
	movl	%r9d, -3(%r8,%rax)
	addq	$4, %rax
	cmpq	%rax, %rcx
	jne	.LBB12_7
	testb	$2, %dl
	je	.LBB12_11
	movl	$2, %ecx
	.p2align	4
.LBB12_10:
	movzbl	(%rsi,%rax), %edx
	movb	%dl, (%rdi,%rax)
	incq	%rax
	decq	%rcx
	jne	.LBB12_10
	jmp	.LBB12_11
.LBB12_28:
	callq	memcpy@PLT
.LBB12_11:
	xorl	%eax, %eax
	testb	%r12b, %r12b
	setne	%al
	leaq	.Lstatic.60(%rip), %rcx
	leaq	.Lstatic.61(%rip), %rsi
	cmoveq	%rcx, %rsi
	leaq	6(,%rax,2), %rdx
	movq	512(%rbx), %rax
	leaq	-1(%rax), %rcx
	movq	%rcx, 512(%rbx)
	movb	$44, -1(%rbx,%rax)
	movq	512(%rbx), %rax
	subq	%rdx, %rax
	movq	%rax, 512(%rbx)
	leaq	(%rbx,%rax), %rdi
	movq	%rdi, %rcx
	subq	%rsi, %rcx
	cmpq	%rdx, %rcx
	jae	.LBB12_29
	movl	%edx, %ecx
	andl	$-4, %ecx
	leaq	(%rax,%rbx), %r8
	addq	$3, %r8
	xorl	%eax, %eax
	.p2align	4
.LBB12_13:
	movl	(%rsi,%rax), %r9d
	movl	%r9d, -3(%r8,%rax)
	addq	$4, %rax
	cmpq	%rax, %rcx
	jne	.LBB12_13
	testb	$2, %dl
	je	.LBB12_17
	movl	$2, %ecx
	.p2align	4
.LBB12_16:
	movzbl	(%rsi,%rax), %edx
	movb	%dl, (%rdi,%rax)
	incq	%rax
	decq	%rcx
	jne	.LBB12_16
	jmp	.LBB12_17
.LBB12_29:
	callq	memcpy@PLT
.LBB12_17:
	testb	%r15b, %r15b
	movl	$12, %eax
	movl	$6, %edx
	cmoveq	%rax, %rdx
	leaq	.Lstatic.62(%rip), %rax
	leaq	.Lstatic.63(%rip), %rsi
	cmoveq	%rax, %rsi
	movq	512(%rbx), %rax
	leaq	-1(%rax), %rcx
	movq	%rcx, 512(%rbx)
	movb	$44, -1(%rbx,%rax)
	movq	512(%rbx), %rax
	subq	%rdx, %rax
	movq	%rax, 512(%rbx)
	leaq	(%rbx,%rax), %rdi
	movq	%rdi, %rcx
	subq	%rsi, %rcx
	cmpq	%rdx, %rcx
	jae	.LBB12_30
	movl	%edx, %ecx
	andl	$-4, %ecx
	leaq	(%rax,%rbx), %r8
	addq	$3, %r8
	xorl	%eax, %eax
	.p2align	4
.LBB12_19:
	movl	(%rsi,%rax), %r9d
	movl	%r9d, -3(%r8,%rax)
	addq	$4, %rax
	cmpq	%rax, %rcx
	jne	.LBB12_19
	testb	$2, %dl
	je	.LBB12_23
	movl	$2, %ecx
	.p2align	4
.LBB12_22:
	movzbl	(%rsi,%rax), %edx
	movb	%dl, (%rdi,%rax)
	incq	%rax
	decq	%rcx
	jne	.LBB12_22
	jmp	.LBB12_23
.LBB12_30:
	callq	memcpy@PLT
.LBB12_23:
	xorl	%edx, %edx
	testb	%r14b, %r14b
	sete	%dl
	leaq	.Lstatic.64(%rip), %rax
	leaq	.Lstatic.65(%rip), %rsi
	cmoveq	%rax, %rsi
	xorq	$5, %rdx
	movq	512(%rbx), %rax
	leaq	-1(%rax), %rcx
	movq	%rcx, 512(%rbx)
	movb	$44, -1(%rbx,%rax)
	movq	512(%rbx), %rdi
	subq	%rdx, %rdi
	movq	%rdi, 512(%rbx)
	addq	%rbx, %rdi
	movq	%rdi, %rax
	subq	%rsi, %rax
	cmpq	%rdx, %rax
	jae	.LBB12_24
	testb	%r14b, %r14b
	setne	%al
	shlb	$3, %al
	orb	$101, %al
	testb	%r14b, %r14b
	movzbl	(%rsi), %ecx
	movb	%cl, (%rdi)
	movl	$97, %ecx
	movl	$116, %edx
	movl	$116, %esi
	cmovel	%ecx, %esi
	movb	%sil, 1(%rdi)
	cmovel	%edx, %ecx
	movb	%cl, 2(%rdi)
	movb	%al, 3(%rdi)
	je	.LBB12_27
	movb	$112, 4(%rdi)
	jmp	.LBB12_27
.LBB12_24:
	callq	memcpy@PLT
.LBB12_27:
	movq	512(%rbx), %rax
	leaq	-1(%rax), %rcx
	movq	%rcx, 512(%rbx)
	movb	$44, -1(%rbx,%rax)
	movq	512(%rbx), %rax
	leaq	-1(%rax), %rcx
	movq	%rcx, 512(%rbx)
	cmpb	$1, %bpl
	movb	$50, %cl
	sbbb	$0, %cl
	movb	%cl, -1(%rbx,%rax)
	popq	%rbx
	popq	%r12
	popq	%r14
	popq	%r15
	popq	%rbp
	retq
.Lfunc_end12:
	.size	"pie_record::opening::put_chosen", .Lfunc_end12-"pie_record::opening::put_chosen"

	.section	".text.pie_explain::summary_record::together","ax",@progbits
	.p2align	4
	.type	"pie_explain::summary_record::together",@function
"pie_explain::summary_record::together":
	testq	%rsi, %rsi
	je	.LBB13_1
	pushq	%rbx
	decq	%rsi
	movq	(%rdi), %rbx
	addq	$8, %rdi
	callq	"pie_explain::summary_record::together"
	addq	%rbx, %rax
	movq	$-1, %rcx
	cmovbq	%rcx, %rax
	popq	%rbx
	retq
.LBB13_1:
	xorl	%eax, %eax
	retq
.Lfunc_end13:
	.size	"pie_explain::summary_record::together", .Lfunc_end13-"pie_explain::summary_record::together"

	.section	".text.pie_record::long_row::LongRow::number","ax",@progbits
	.p2align	4
	.type	"pie_record::long_row::LongRow::number",@function
"pie_record::long_row::LongRow::number":
	pushq	%r15
	pushq	%r14
	pushq	%rbx
	subq	$48, %rsp
	movq	%rdi, %rbx
	xorps	%xmm0, %xmm0
	movaps	%xmm0, 16(%rsp)
	movaps	%xmm0, (%rsp)
	movq	$0, 32(%rsp)
	movl	$40, %ecx
	cmpq	$10000, %rsi
	jb	.LBB14_1
	.p2align	4
.LBB14_2:
	movabsq	$3777893186295716171, %rdx
	movq	%rsi, %rax
	mulq	%rdx
	shrq	$11, %rdx
	imull	$10000, %edx, %eax
	movl	%esi, %edi
	subl	%eax, %edi
	imull	$5243, %edi, %eax
	shrl	$19, %eax
	imull	$100, %eax, %r8d
	subl	%r8d, %edi
	movzwl	%di, %edi
	leaq	.Lstatic.34(%rip), %r8
	movzwl	(%r8,%rdi,2), %edi
	movw	%di, -2(%rsp,%rcx)
	movzwl	(%r8,%rax,2), %eax
	movw	%ax, -4(%rsp,%rcx)
	addq	$-4, %rcx
	cmpq	$99999999, %rsi
	movq	%rdx, %rsi
	ja	.LBB14_2
	cmpq	$99, %rdx
	ja	.LBB14_7
.LBB14_4:
	cmpq	$9, %rdx
	ja	.LBB14_6
	orb	$48, %dl
	movb	%dl, -1(%rsp,%rcx)
	decq	%rcx
	jmp	.LBB14_10
.LBB14_1:
	movq	%rsi, %rdx
	cmpq	$99, %rdx
	jbe	.LBB14_4
.LBB14_7:
	movl	%edx, %eax
	shrl	$2, %eax
	movzwl	%ax, %eax
	imull	$5243, %eax, %eax
	shrl	$17, %eax
	imull	$100, %eax, %esi
	movl	%edx, %edi
	subl	%esi, %edi
	movzwl	%di, %edi
	leaq	.Lstatic.34(%rip), %rsi
	movzwl	(%rsi,%rdi,2), %edi
	movw	%di, -2(%rsp,%rcx)
	cmpq	$999, %rdx
	ja	.LBB14_9
	orb	$48, %al
	movb	%al, -3(%rsp,%rcx)
	addq	$-3, %rcx
	jmp	.LBB14_10
.LBB14_6:
	leaq	.Lstatic.34(%rip), %rax
	movzwl	(%rax,%rdx,2), %eax
	movw	%ax, -2(%rsp,%rcx)
	addq	$-2, %rcx
	jmp	.LBB14_10
.LBB14_9:
	movzwl	%ax, %eax
	movzwl	(%rsi,%rax,2), %eax
	movw	%ax, -4(%rsp,%rcx)
	addq	$-4, %rcx
.LBB14_10:
	leaq	(%rsp,%rcx), %rsi
	movl	$40, %r14d
	subq	%rcx, %r14
	movq	1280(%rbx), %r15
	leaq	(%rbx,%r15), %rdi
	movq	%r14, %rdx
	callq	memcpy@PLT
	leaq	(%r15,%r14), %rax
	movb	$44, (%rbx,%rax)
	leaq	(%r15,%r14), %rax
	incq	%rax
	movq	%rax, 1280(%rbx)
	addq	$48, %rsp
	popq	%rbx
	popq	%r14
	popq	%r15
	retq
.Lfunc_end14:
	.size	"pie_record::long_row::LongRow::number", .Lfunc_end14-"pie_record::long_row::LongRow::number"

	.section	".text.pie_explain::summary_record::push_padded","ax",@progbits
	.p2align	4
	.type	"pie_explain::summary_record::push_padded",@function
"pie_explain::summary_record::push_padded":
	pushq	%rbp
	pushq	%r15
	pushq	%r14
	pushq	%r13
	pushq	%r12
	pushq	%rbx
	subq	$40, %rsp
	movq	%rcx, %r14
	movq	%rdx, %rcx
	movq	%rdi, %rbx
	xorps	%xmm0, %xmm0
	movaps	%xmm0, 16(%rsp)
	movaps	%xmm0, (%rsp)
	movq	$0, 32(%rsp)
	movl	$40, %r13d
	cmpq	$10000, %rdx
	jb	.LBB15_1
	.p2align	4
.LBB15_2:
	movabsq	$3777893186295716171, %rdx
	movq	%rcx, %rax
	mulq	%rdx
	shrq	$11, %rdx
	imull	$10000, %edx, %eax
	movl	%ecx, %edi
	subl	%eax, %edi
	imull	$5243, %edi, %eax
	shrl	$19, %eax
	imull	$100, %eax, %r8d
	subl	%r8d, %edi
	movzwl	%di, %edi
	leaq	.Lstatic.34(%rip), %r8
	movzwl	(%r8,%rdi,2), %edi
	movw	%di, -2(%rsp,%r13)
	movzwl	(%r8,%rax,2), %eax
	movw	%ax, -4(%rsp,%r13)
	addq	$-4, %r13
	cmpq	$99999999, %rcx
	movq	%rdx, %rcx
	ja	.LBB15_2
	cmpq	$99, %rdx
	ja	.LBB15_7
.LBB15_4:
	cmpq	$9, %rdx
	ja	.LBB15_6
	orb	$48, %dl
	movb	%dl, -1(%rsp,%r13)
	decq	%r13
	jmp	.LBB15_10
.LBB15_1:
	movq	%rcx, %rdx
	cmpq	$99, %rdx
	jbe	.LBB15_4
.LBB15_7:
	movl	%edx, %eax
	shrl	$2, %eax
	movzwl	%ax, %eax
	imull	$5243, %eax, %eax
	shrl	$17, %eax
	imull	$100, %eax, %ecx
	movl	%edx, %edi
	subl	%ecx, %edi
	movzwl	%di, %edi
	leaq	.Lstatic.34(%rip), %rcx
	movzwl	(%rcx,%rdi,2), %edi
	movw	%di, -2(%rsp,%r13)
	cmpq	$999, %rdx
	ja	.LBB15_9
	orb	$48, %al
	movb	%al, -3(%rsp,%r13)
	addq	$-3, %r13
	jmp	.LBB15_10
.LBB15_6:
	leaq	.Lstatic.34(%rip), %rax
	movzwl	(%rax,%rdx,2), %eax
	movw	%ax, -2(%rsp,%r13)
	addq	$-2, %r13
	jmp	.LBB15_10
.LBB15_9:
	movzwl	%ax, %eax
	movzwl	(%rcx,%rax,2), %eax
	movw	%ax, -4(%rsp,%r13)
	addq	$-4, %r13
.LBB15_10:
	movl	$40, %r15d
	subq	%r13, %r15
	xorl	%r12d, %r12d
	subq	%r15, %rsi
	cmovaeq	%rsi, %r12
	movq	1280(%rbx), %rbp
	leaq	(%rbx,%rbp), %rdi
	leaq	.Lstatic.74(%rip), %rax
	movq	%rdi, %rcx
	subq	%rax, %rcx
	addq	$-16, %rcx
	cmpq	%r12, %rcx
	jae	.LBB15_19
	cmpq	$4, %r12
	jb	.LBB15_12
	cmpq	$32, %rcx
	jae	.LBB15_15
.LBB15_12:
	xorl	%ecx, %ecx
	jmp	.LBB15_13
.LBB15_19:
	leaq	.Lstatic.74+16(%rip), %rsi
	movq	%r12, %rdx
	callq	memcpy@PLT
	jmp	.LBB15_18
.LBB15_15:
	movl	%r12d, %ecx
	andl	$12, %ecx
	xorl	%edx, %edx
	.p2align	4
.LBB15_16:
	movl	16(%rdx,%rax), %esi
	movl	%esi, (%rdi,%rdx)
	addq	$4, %rdx
	cmpq	%rdx, %rcx
	jne	.LBB15_16
	jmp	.LBB15_17
.LBB15_13:
	movzbl	16(%rcx,%rax), %edx
	movb	%dl, (%rdi,%rcx)
	incq	%rcx
.LBB15_17:
	cmpq	%rcx, %r12
	jne	.LBB15_13
.LBB15_18:
	leaq	(%rsp,%r13), %rsi
	addq	%rbp, %r12
	leaq	(%rbx,%r12), %rdi
	movq	%r15, %rdx
	callq	memcpy@PLT
	leaq	(%r12,%r15), %rax
	movq	%rax, 1280(%rbx)
	movzbl	(%r14), %ecx
	movb	%cl, (%rbx,%rax)
	leaq	(%r15,%r12), %rax
	incq	%rax
	movq	%rax, 1280(%rbx)
	addq	$40, %rsp
	popq	%rbx
	popq	%r12
	popq	%r13
	popq	%r14
	popq	%r15
	popq	%rbp
	retq
.Lfunc_end15:
	.size	"pie_explain::summary_record::push_padded", .Lfunc_end15-"pie_explain::summary_record::push_padded"

	.section	".text.pie_record::event::put_change","ax",@progbits
	.p2align	4
	.type	"pie_record::event::put_change",@function
"pie_record::event::put_change":
	pushq	%rbp
	pushq	%r14
	pushq	%rbx
	subq	$80, %rsp
	movq	%rdx, %r14
	movl	%esi, %ebp
	movq	%rdi, %rbx
	movq	64(%rcx), %rax
	movups	(%rcx), %xmm0
	movaps	%xmm0, (%rsp)
	movups	16(%rcx), %xmm0
	movaps	%xmm0, 16(%rsp)
	movups	32(%rcx), %xmm0
	movaps	%xmm0, 32(%rsp)
	movups	48(%rcx), %xmm0
	movaps	%xmm0, 48(%rsp)
	movq	%rax, 64(%rsp)
	movq	%rsp, %rsi
	movl	$9, %edx
	callq	"pie_record::put_field::put_numbers"
	movq	%rbx, %rdi
	movq	%r14, %rsi
	callq	"pie_record::row_buffer::RowBuffer::prepend_number"
	movzwl	%bp, %esi
	movq	%rbx, %rdi
	callq	"pie_record::row_buffer::RowBuffer::prepend_number"
	movq	512(%rbx), %rax
	leaq	-1(%rax), %rcx
	movq	%rcx, 512(%rbx)
	movb	$44, -1(%rbx,%rax)
	movq	512(%rbx), %rax
	leaq	-6(%rax), %rcx
	movq	%rcx, 512(%rbx)
	addq	%rbx, %rax
	addq	$-6, %rax
	leaq	.Lstatic.43(%rip), %rcx
	movq	%rax, %rdx
	subq	%rcx, %rdx
	cmpq	$5, %rdx
	ja	.LBB16_3
	movl	$1634886000, (%rax)
	movw	$29549, 4(%rax)
	jmp	.LBB16_2
.LBB16_3:
	movw	$29549, 4(%rax)
	movl	$1634886000, (%rax)
.LBB16_2:
	addq	$80, %rsp
	popq	%rbx
	popq	%r14
	popq	%rbp
	retq
.Lfunc_end16:
	.size	"pie_record::event::put_change", .Lfunc_end16-"pie_record::event::put_change"

	.section	.rodata.cst16,"aM",@progbits,16
	.p2align	4, 0x0
.LCPI17_0:
	.quad	-2
	.quad	-1
.LCPI17_1:
	.quad	-9223372036854775808
	.quad	-9223372036854775808
.LCPI17_2:
	.quad	-9223371036854775808
	.quad	-9223372036853775808
.LCPI17_3:
	.quad	-9223372036853775808
	.quad	-9223371036854775808
.LCPI17_4:
	.quad	-9223372026854775810
	.quad	-9223372026854775809
.LCPI17_5:
	.quad	-9223372036854710274
	.quad	-9223372035781033985
	.section	".text.pie_c::writing::pie_reset_event","ax",@progbits
	.p2align	4
	.type	"pie_c::writing::pie_reset_event",@function
"pie_c::writing::pie_reset_event":
	movl	$110, %eax
	cmpq	$31, 168(%rdi)
	ja	.LBB17_23
	movabsq	$1099511627777, %r8
	cmpq	%r8, 176(%rdi)
	jae	.LBB17_23
	movq	64(%rdi), %rcx
	movdqu	(%rdi), %xmm0
	movdqu	16(%rdi), %xmm1
	movdqu	32(%rdi), %xmm2
	movdqu	48(%rdi), %xmm4
	movdqa	%xmm4, %xmm5
	palignr	$8, %xmm2, %xmm5
	pcmpeqd	%xmm3, %xmm3
	paddq	%xmm5, %xmm3
	paddq	.LCPI17_0(%rip), %xmm0
	pblendw	$240, %xmm4, %xmm2
	movdqa	.LCPI17_1(%rip), %xmm4
	pxor	%xmm4, %xmm1
	pcmpgtq	.LCPI17_2(%rip), %xmm1
	popcntq	%rcx, %rdx
	pxor	%xmm4, %xmm2
	pcmpgtq	.LCPI17_3(%rip), %xmm2
	cmpl	$1, %edx
	pxor	%xmm4, %xmm0
	pcmpgtq	.LCPI17_4(%rip), %xmm0
	sete	%dl
	pxor	%xmm4, %xmm3
	pcmpgtq	.LCPI17_5(%rip), %xmm3
	packssdw	%xmm2, %xmm1
	packssdw	%xmm3, %xmm0
	packssdw	%xmm1, %xmm0
	pmovmskb	%xmm0, %r9d
	testl	%r9d, %r9d
	sete	%r9b
	andb	%dl, %r9b
	cmpb	$1, %r9b
	jne	.LBB17_23
	rep		bsfq	%rcx, %rdx
	addl	$-10, %edx
	cmpl	$6, %edx
	ja	.LBB17_23
	movabsq	$1152921504606846975, %r9
	movq	72(%rdi), %rdx
	leaq	1(%r9), %r10
	cmpq	%r10, %rdx
	jae	.LBB17_23
	movabsq	$1000000000001, %r10
	cmpq	%r10, 80(%rdi)
	jae	.LBB17_23
	cmpq	%r8, 88(%rdi)
	jae	.LBB17_23
	cmpq	%r10, 96(%rdi)
	jae	.LBB17_23
	cmpq	%rdx, 104(%rdi)
	ja	.LBB17_23
	movabsq	$8499999999999, %r8
	cmpq	%r8, 112(%rdi)
	ja	.LBB17_23
	cmpq	%r9, 120(%rdi)
	ja	.LBB17_23
	movq	(%rsi), %r10
	movq	16(%rdi), %r8
	movq	128(%rdi), %r11
	testq	%r11, %r11
	je	.LBB17_15
	cmpq	$1, %r11
	jne	.LBB17_23
	cmpq	%rdx, 136(%rdi)
	ja	.LBB17_23
	cmpq	%rcx, 144(%rdi)
	jb	.LBB17_17
	jmp	.LBB17_23
.LBB17_15:
	cmpq	$0, 136(%rdi)
	jne	.LBB17_23
	cmpq	$0, 144(%rdi)
	jne	.LBB17_23
.LBB17_17:
	movq	152(%rdi), %rcx
	cmpq	$1, %rcx
	je	.LBB17_20
	cmpq	$2, %rcx
	jne	.LBB17_23
	movq	160(%rdi), %rcx
	cmpq	$2, %rcx
	jb	.LBB17_21
	jmp	.LBB17_23
.LBB17_20:
	movl	$1, %ecx
	cmpq	$1, 160(%rdi)
	jne	.LBB17_23
.LBB17_21:
	movl	$101, %eax
	cmpq	%r9, %r10
	ja	.LBB17_23
	cmpq	%rdx, %r10
	cmovaq	%r10, %rdx
	leaq	80(%rdi), %rax
	leaq	120(%rdi), %r9
	movq	%rdx, 72(%rdi)
	pxor	%xmm0, %xmm0
	movdqu	%xmm0, (%rax)
	movdqu	%xmm0, 16(%r9)
	movdqu	%xmm0, (%r9)
	movq	%r8, 96(%rdi)
	movq	$0, 112(%rdi)
	movq	%rcx, 160(%rdi)
	movq	$0, 176(%rdi)
	xorl	%eax, %eax
.LBB17_23:
	movl	%eax, 52(%rsi)
	movl	$0, 60(%rsi)
	pxor	%xmm0, %xmm0
	movdqu	%xmm0, 24(%rsi)
	movq	$0, 40(%rsi)
	movw	$4, 58(%rsi)
	movdqu	%xmm0, 8(%rsi)
	movl	$0, 48(%rsi)
	retq
.Lfunc_end17:
	.size	"pie_c::writing::pie_reset_event", .Lfunc_end17-"pie_c::writing::pie_reset_event"

	.section	.rodata.cst16,"aM",@progbits,16
	.p2align	4, 0x0
.LCPI18_0:
	.quad	-2
	.quad	-1
.LCPI18_1:
	.quad	-9223372036854775808
	.quad	-9223372036854775808
.LCPI18_2:
	.quad	-9223371036854775808
	.quad	-9223372036853775808
.LCPI18_3:
	.quad	-9223372036853775808
	.quad	-9223371036854775808
.LCPI18_4:
	.quad	-9223372026854775810
	.quad	-9223372026854775809
.LCPI18_5:
	.quad	-9223372036854710274
	.quad	-9223372035781033985
	.section	".text.pie_c::writing::pie_set_params_event","ax",@progbits
	.p2align	4
	.type	"pie_c::writing::pie_set_params_event",@function
"pie_c::writing::pie_set_params_event":
	movl	$110, %eax
	cmpq	$31, 168(%rdi)
	ja	.LBB18_25
	movabsq	$1099511627777, %r9
	cmpq	%r9, 176(%rdi)
	jae	.LBB18_25
	movq	64(%rdi), %r10
	movdqu	(%rdi), %xmm1
	movdqu	16(%rdi), %xmm2
	movdqu	32(%rdi), %xmm3
	movdqu	48(%rdi), %xmm0
	movdqa	%xmm0, %xmm5
	palignr	$8, %xmm3, %xmm5
	pcmpeqd	%xmm4, %xmm4
	paddq	%xmm5, %xmm4
	paddq	.LCPI18_0(%rip), %xmm1
	pblendw	$240, %xmm0, %xmm3
	movdqa	.LCPI18_1(%rip), %xmm0
	pxor	%xmm0, %xmm2
	pcmpgtq	.LCPI18_2(%rip), %xmm2
	popcntq	%r10, %rcx
	pxor	%xmm0, %xmm3
	pcmpgtq	.LCPI18_3(%rip), %xmm3
	cmpl	$1, %ecx
	pxor	%xmm0, %xmm1
	pcmpgtq	.LCPI18_4(%rip), %xmm1
	sete	%cl
	pxor	%xmm0, %xmm4
	pcmpgtq	.LCPI18_5(%rip), %xmm4
	packssdw	%xmm3, %xmm2
	packssdw	%xmm4, %xmm1
	packssdw	%xmm2, %xmm1
	pmovmskb	%xmm1, %r8d
	testl	%r8d, %r8d
	sete	%r8b
	andb	%cl, %r8b
	cmpb	$1, %r8b
	jne	.LBB18_25
	rep		bsfq	%r10, %rcx
	addl	$-10, %ecx
	cmpl	$6, %ecx
	ja	.LBB18_25
	movabsq	$1152921504606846975, %r8
	movq	72(%rdi), %rcx
	leaq	1(%r8), %r11
	cmpq	%r11, %rcx
	jae	.LBB18_25
	movabsq	$1000000000001, %r11
	cmpq	%r11, 80(%rdi)
	jae	.LBB18_25
	cmpq	%r9, 88(%rdi)
	jae	.LBB18_25
	cmpq	%r11, 96(%rdi)
	jae	.LBB18_25
	cmpq	%rcx, 104(%rdi)
	ja	.LBB18_25
	movabsq	$8499999999999, %r9
	cmpq	%r9, 112(%rdi)
	ja	.LBB18_25
	cmpq	%r8, 120(%rdi)
	ja	.LBB18_25
	movq	(%rdx), %r9
	movq	128(%rdi), %r11
	testq	%r11, %r11
	je	.LBB18_15
	cmpq	$1, %r11
	jne	.LBB18_25
	cmpq	%rcx, 136(%rdi)
	ja	.LBB18_25
	cmpq	%r10, 144(%rdi)
	jb	.LBB18_17
	jmp	.LBB18_25
.LBB18_15:
	cmpq	$0, 136(%rdi)
	jne	.LBB18_25
	cmpq	$0, 144(%rdi)
	jne	.LBB18_25
.LBB18_17:
	movq	152(%rdi), %r10
	cmpq	$1, %r10
	je	.LBB18_20
	cmpq	$2, %r10
	jne	.LBB18_25
	cmpq	$2, 160(%rdi)
	jb	.LBB18_21
	jmp	.LBB18_25
.LBB18_20:
	cmpq	$1, 160(%rdi)
	jne	.LBB18_25
.LBB18_21:
	movq	64(%rsi), %r10
	movdqu	(%rsi), %xmm1
	movdqu	16(%rsi), %xmm2
	movdqu	32(%rsi), %xmm4
	movdqu	48(%rsi), %xmm5
	movdqa	%xmm5, %xmm6
	palignr	$8, %xmm4, %xmm6
	pcmpeqd	%xmm3, %xmm3
	paddq	%xmm6, %xmm3
	paddq	.LCPI18_0(%rip), %xmm1
	pblendw	$240, %xmm5, %xmm4
	popcntq	%r10, %rax
	pxor	%xmm0, %xmm2
	pcmpgtq	.LCPI18_2(%rip), %xmm2
	cmpl	$1, %eax
	pxor	%xmm0, %xmm4
	pcmpgtq	.LCPI18_3(%rip), %xmm4
	sete	%al
	pxor	%xmm0, %xmm1
	pcmpgtq	.LCPI18_4(%rip), %xmm1
	packssdw	%xmm4, %xmm2
	pxor	%xmm0, %xmm3
	pcmpgtq	.LCPI18_5(%rip), %xmm3
	packssdw	%xmm3, %xmm1
	packssdw	%xmm2, %xmm1
	pmovmskb	%xmm1, %r11d
	testl	%r11d, %r11d
	sete	%r11b
	andb	%al, %r11b
	movl	$107, %eax
	cmpb	$1, %r11b
	jne	.LBB18_25
	rep		bsfq	%r10, %r10
	addl	$-10, %r10d
	cmpl	$6, %r10d
	ja	.LBB18_25
	movl	$101, %eax
	cmpq	%r8, %r9
	ja	.LBB18_25
	cmpq	%rcx, %r9
	cmovaq	%r9, %rcx
	leaq	120(%rdi), %rax
	movdqu	(%rsi), %xmm0
	movdqu	16(%rsi), %xmm1
	movdqu	32(%rsi), %xmm2
	movdqu	48(%rsi), %xmm3
	movq	64(%rsi), %rsi
	movq	%rsi, 64(%rdi)
	movdqu	%xmm3, 48(%rdi)
	movdqu	%xmm2, 32(%rdi)
	movdqu	%xmm1, 16(%rdi)
	movdqu	%xmm0, (%rdi)
	movq	%rcx, 72(%rdi)
	pxor	%xmm0, %xmm0
	movdqu	%xmm0, 16(%rax)
	movdqu	%xmm0, (%rax)
	xorl	%eax, %eax
.LBB18_25:
	movl	%eax, 52(%rdx)
	movl	$0, 60(%rdx)
	pxor	%xmm0, %xmm0
	movdqu	%xmm0, 24(%rdx)
	movq	$0, 40(%rdx)
	movw	$5, 58(%rdx)
	movdqu	%xmm0, 8(%rdx)
	movl	$0, 48(%rdx)
	retq
.Lfunc_end18:
	.size	"pie_c::writing::pie_set_params_event", .Lfunc_end18-"pie_c::writing::pie_set_params_event"

	.section	".text.pie_control::update::delay","ax",@progbits
	.p2align	4
	.type	"pie_control::update::delay",@function
"pie_control::update::delay":
	movq	%rdx, %rcx
	movq	%rsi, %rax
	mulq	%rdi
	xorl	%esi, %esi
	popcntq	%rcx, %rsi
	cmpl	$1, %esi
	jne	.LBB19_10
	rep		bsfq	%rcx, %rsi
	addq	$-10, %rsi
	cmpq	$6, %rsi
	ja	.LBB19_10
	leaq	.LJTI19_0(%rip), %rcx
	movslq	(%rcx,%rsi,4), %rsi
	addq	%rcx, %rsi
	jmpq	*%rsi
.LBB19_3:
	shrdq	$10, %rdx, %rax
	shrq	$10, %rdx
	jmp	.LBB19_11
.LBB19_10:
	pushq	%rax
	cmpq	$1, %rcx
	adcq	$0, %rcx
	movq	%rax, %rdi
	movq	%rdx, %rsi
	movq	%rcx, %rdx
	xorl	%ecx, %ecx
	callq	__udivti3@PLT
	addq	$8, %rsp
.LBB19_11:
	movabsq	$1099511627776, %rcx
	cmpq	%rcx, %rax
	cmovaeq	%rcx, %rax
	testq	%rdx, %rdx
	cmovneq	%rcx, %rax
	retq
.LBB19_7:
	shrdq	$14, %rdx, %rax
	shrq	$14, %rdx
	jmp	.LBB19_11
.LBB19_5:
	shrdq	$12, %rdx, %rax
	shrq	$12, %rdx
	jmp	.LBB19_11
.LBB19_6:
	shrdq	$13, %rdx, %rax
	shrq	$13, %rdx
	jmp	.LBB19_11
.LBB19_4:
	shrdq	$11, %rdx, %rax
	shrq	$11, %rdx
	jmp	.LBB19_11
.LBB19_8:
	shrdq	$15, %rdx, %rax
	shrq	$15, %rdx
	jmp	.LBB19_11
.LBB19_9:
	shrdq	$16, %rdx, %rax
	shrq	$16, %rdx
	jmp	.LBB19_11
.Lfunc_end19:
	.size	"pie_control::update::delay", .Lfunc_end19-"pie_control::update::delay"
	.section	".rodata.pie_control::update::delay","a",@progbits
	.p2align	2, 0x0
.LJTI19_0:
	.long	.LBB19_3-.LJTI19_0
	.long	.LBB19_4-.LJTI19_0
	.long	.LBB19_5-.LJTI19_0
	.long	.LBB19_6-.LJTI19_0
	.long	.LBB19_7-.LJTI19_0
	.long	.LBB19_8-.LJTI19_0
	.long	.LBB19_9-.LJTI19_0

	.section	.rodata.cst16,"aM",@progbits,16
	.p2align	4, 0x0
.LCPI20_0:
	.quad	-2
	.quad	-1
.LCPI20_1:
	.quad	-9223372036854775808
	.quad	-9223372036854775808
.LCPI20_2:
	.quad	-9223371036854775808
	.quad	-9223372036853775808
.LCPI20_3:
	.quad	-9223372036853775808
	.quad	-9223371036854775808
.LCPI20_4:
	.quad	-9223372026854775810
	.quad	-9223372026854775809
.LCPI20_5:
	.quad	-9223372036854710274
	.quad	-9223372035781033985
	.section	".text.pie_c::writing::pie_update_event","ax",@progbits
	.p2align	4
	.type	"pie_c::writing::pie_update_event",@function
"pie_c::writing::pie_update_event":
	pushq	%rbp
	pushq	%r15
	pushq	%r14
	pushq	%r13
	pushq	%r12
	pushq	%rbx
	subq	$72, %rsp
	movq	168(%rdi), %rbp
	movl	$110, %eax
	cmpq	$31, %rbp
	ja	.LBB20_1
	movabsq	$1099511627777, %r9
	movq	176(%rdi), %rcx
	cmpq	%r9, %rcx
	jae	.LBB20_1
	movq	64(%rdi), %r8
	movdqu	16(%rdi), %xmm0
	movdqu	(%rdi), %xmm1
	movdqu	32(%rdi), %xmm2
	movdqu	48(%rdi), %xmm4
	movdqa	%xmm4, %xmm5
	palignr	$8, %xmm2, %xmm5
	pcmpeqd	%xmm3, %xmm3
	paddq	%xmm5, %xmm3
	paddq	.LCPI20_0(%rip), %xmm1
	pblendw	$240, %xmm4, %xmm2
	movdqa	.LCPI20_1(%rip), %xmm4
	pxor	%xmm4, %xmm0
	pcmpgtq	.LCPI20_2(%rip), %xmm0
	popcntq	%r8, %r10
	pxor	%xmm4, %xmm2
	pcmpgtq	.LCPI20_3(%rip), %xmm2
	cmpl	$1, %r10d
	pxor	%xmm4, %xmm1
	pcmpgtq	.LCPI20_4(%rip), %xmm1
	sete	%r10b
	pxor	%xmm4, %xmm3
	pcmpgtq	.LCPI20_5(%rip), %xmm3
	packssdw	%xmm2, %xmm0
	packssdw	%xmm3, %xmm1
	packssdw	%xmm0, %xmm1
	pmovmskb	%xmm1, %r11d
	testl	%r11d, %r11d
	sete	%r11b
	andb	%r10b, %r11b
	cmpb	$1, %r11b
	jne	.LBB20_1
	rep		bsfq	%r8, %r10
	addl	$-10, %r10d
	cmpl	$6, %r10d
	ja	.LBB20_1
	movabsq	$1152921504606846975, %r10
	movq	72(%rdi), %r12
	leaq	1(%r10), %r11
	cmpq	%r11, %r12
	jae	.LBB20_1
	movabsq	$1000000000001, %r11
	movq	80(%rdi), %r15
	cmpq	%r11, %r15
	jae	.LBB20_1
	movq	88(%rdi), %rbx
	cmpq	%r9, %rbx
	jae	.LBB20_1
	movq	96(%rdi), %r14
	cmpq	%r11, %r14
	jae	.LBB20_1
	movq	104(%rdi), %r11
	cmpq	%r12, %r11
	ja	.LBB20_1
	movabsq	$8499999999999, %r9
	cmpq	%r9, 112(%rdi)
	ja	.LBB20_1
	movq	120(%rdi), %r9
	cmpq	%r10, %r9
	ja	.LBB20_1
	movq	(%rdx), %r13
	movq	%r13, 40(%rsp)
	movq	32(%rdi), %r13
	movq	%r13, 64(%rsp)
	movq	24(%rdi), %r13
	movq	%r13, 56(%rsp)
	movq	16(%rdi), %r13
	movq	%r13, 48(%rsp)
	movq	(%rdi), %r13
	movq	%r13, 16(%rsp)
	movq	8(%rdi), %r13
	movq	%r13, 32(%rsp)
	movq	128(%rdi), %r13
	testq	%r13, %r13
	je	.LBB20_16
	cmpq	$1, %r13
	jne	.LBB20_1
	cmpq	%r12, 136(%rdi)
	ja	.LBB20_1
	cmpq	%r8, 144(%rdi)
	jae	.LBB20_1
	jmp	.LBB20_18
.LBB20_16:
	cmpq	$0, 136(%rdi)
	jne	.LBB20_1
	cmpq	$0, 144(%rdi)
	je	.LBB20_18
.LBB20_1:
	xorl	%ebx, %ebx
	xorl	%r15d, %r15d
	xorl	%r14d, %r14d
.LBB20_58:
	movl	%eax, 52(%rdx)
	movl	$0, 60(%rdx)
	movw	$3, 58(%rdx)
	pxor	%xmm0, %xmm0
	movdqu	%xmm0, 8(%rdx)
	movl	$0, 48(%rdx)
	movq	%rbx, 24(%rdx)
	movq	%r15, 32(%rdx)
	movq	%r14, 40(%rdx)
	addq	$72, %rsp
	popq	%rbx
	popq	%r12
	popq	%r13
	popq	%r14
	popq	%r15
	popq	%rbp
	retq
.LBB20_18:
	movq	%rdx, 8(%rsp)
	movq	%rdi, 24(%rsp)
	movq	152(%rdi), %r13
	cmpq	$1, %r13
	je	.LBB20_22
	cmpq	$2, %r13
	jne	.LBB20_20
	movq	24(%rsp), %rax
	movq	160(%rax), %rax
	cmpq	$2, %rax
	jae	.LBB20_20
.LBB20_23:
	cmpq	%r10, 40(%rsp)
	jbe	.LBB20_26
	movl	$101, %eax
	jmp	.LBB20_25
.LBB20_22:
	movl	$1, %eax
	movq	24(%rsp), %rdx
	cmpq	$1, 160(%rdx)
	je	.LBB20_23
.LBB20_20:
	xorl	%ebx, %ebx
	xorl	%r15d, %r15d
	xorl	%r14d, %r14d
	movq	8(%rsp), %rdx
	movl	$110, %eax
	jmp	.LBB20_58
.LBB20_26:
	cmpq	$1073741824, %rsi
	jbe	.LBB20_28
	movl	$112, %eax
.LBB20_25:
	xorl	%ebx, %ebx
	xorl	%r15d, %r15d
	xorl	%r14d, %r14d
	movq	8(%rsp), %rdx
	jmp	.LBB20_58
.LBB20_28:
	movq	40(%rsp), %rdx
	cmpq	%r12, %rdx
	cmovaq	%rdx, %r12
	addq	32(%rsp), %r11
	cmpq	%r11, %r12
	jae	.LBB20_30
	movq	8(%rsp), %rdx
	movl	$103, %eax
	jmp	.LBB20_58
.LBB20_30:
	testq	%rax, %rax
	je	.LBB20_31
	testb	$1, %bpl
	jne	.LBB20_34
	movq	%rsi, %rdi
	movq	%r9, %rsi
	movq	%r8, %rdx
	callq	"pie_control::update::delay"
	movq	%rax, %rcx
.LBB20_34:
	movq	%rcx, %rax
	subq	16(%rsp), %rax
	imulq	56(%rsp), %rax
	movq	%rcx, %rdx
	subq	%rbx, %rdx
	imulq	64(%rsp), %rdx
	addq	%rax, %rdx
	cmpq	$999999, %r15
	ja	.LBB20_36
	leaq	2047(%rdx), %rax
	testq	%rdx, %rdx
	cmovnsq	%rdx, %rax
	sarq	$11, %rax
	movq	%rax, %rdx
	jmp	.LBB20_48
.LBB20_31:
	xorl	%eax, %eax
	movq	%rbx, %rcx
	xorl	%ebx, %ebx
	jmp	.LBB20_57
.LBB20_36:
	cmpq	$9999999, %r15
	ja	.LBB20_38
	leaq	511(%rdx), %rax
	testq	%rdx, %rdx
	cmovnsq	%rdx, %rax
	sarq	$9, %rax
	movq	%rax, %rdx
	jmp	.LBB20_48
.LBB20_38:
	cmpq	$99999999, %r15
	ja	.LBB20_40
	leaq	127(%rdx), %rax
	testq	%rdx, %rdx
	cmovnsq	%rdx, %rax
	sarq	$7, %rax
	movq	%rax, %rdx
	jmp	.LBB20_48
.LBB20_40:
	cmpq	$999999999, %r15
	ja	.LBB20_42
	leaq	31(%rdx), %rax
	testq	%rdx, %rdx
	cmovnsq	%rdx, %rax
	sarq	$5, %rax
	movq	%rax, %rdx
	jmp	.LBB20_48
.LBB20_42:
	movq	%r15, %rax
	shrq	$10, %rax
	cmpq	$9765624, %rax
	ja	.LBB20_44
	leaq	7(%rdx), %rax
	testq	%rdx, %rdx
	cmovnsq	%rdx, %rax
	sarq	$3, %rax
	movq	%rax, %rdx
	jmp	.LBB20_48
.LBB20_44:
	movq	%r15, %rax
	shrq	$11, %rax
	cmpq	$48828124, %rax
	ja	.LBB20_46
	movq	%rdx, %rax
	shrq	$63, %rax
	addq	%rdx, %rax
	sarq	%rax
	movq	%rax, %rdx
	jmp	.LBB20_48
.LBB20_46:
	testb	$4, %bpl
	jne	.LBB20_48
	movabsq	$20000000000, %rax
	cmpq	%rax, %rdx
	cmovgeq	%rax, %rdx
.LBB20_48:
	cmpq	$15, %rbp
	ja	.LBB20_50
	addq	%r15, %rdx
	movq	%rcx, %rax
	orq	%rbx, %rax
	jne	.LBB20_53
	jmp	.LBB20_52
.LBB20_50:
	leaq	(%rbx,%rbx), %rax
	addq	%r15, %rdx
	cmpq	16(%rsp), %rax
	jae	.LBB20_53
	leaq	(%rcx,%rcx), %rax
	cmpq	16(%rsp), %rax
	jae	.LBB20_53
.LBB20_52:
	xorl	%eax, %eax
	testq	%rdx, %rdx
	cmovgq	%rdx, %rax
	movabsq	$2000000000000, %rdx
	cmpq	%rdx, %rax
	cmovgeq	%rdx, %rax
	imulq	$98, %rax, %rax
	movabsq	$184467440737095517, %rdx
	mulq	%rdx
.LBB20_53:
	xorl	%r15d, %r15d
	testq	%rdx, %rdx
	cmovgq	%rdx, %r15
	movabsq	$1000000000000, %rax
	cmpq	%rax, %r15
	cmovgeq	%rax, %r15
	testq	%rdx, %rdx
	jle	.LBB20_55
	xorl	%eax, %eax
	subq	32(%rsp), %r14
	cmovbq	%rax, %r14
	movb	$1, %al
	jmp	.LBB20_56
.LBB20_55:
	leaq	(%rcx,%rcx), %rax
	movq	16(%rsp), %rsi
	cmpq	%rsi, %rax
	setae	%dl
	addq	%rbx, %rbx
	cmpq	%rsi, %rbx
	setae	%al
	orb	%dl, %al
	xorl	%edx, %edx
	subq	32(%rsp), %r14
	cmovaeq	%r14, %rdx
	testb	%al, %al
	movq	48(%rsp), %r14
	cmovneq	%rdx, %r14
.LBB20_56:
	cmpq	$2, %r13
	setne	%dl
	orb	%al, %dl
	movzbl	%dl, %eax
	andl	$1, %eax
	movq	%rcx, %rbx
.LBB20_57:
	movq	24(%rsp), %rdx
	movq	%r12, 72(%rdx)
	movq	%r15, 80(%rdx)
	movq	%rcx, 88(%rdx)
	movq	%r14, 96(%rdx)
	movq	%r12, 104(%rdx)
	movq	%rax, 160(%rdx)
	movq	8(%rsp), %rdx
	xorl	%eax, %eax
	jmp	.LBB20_58
.Lfunc_end20:
	.size	"pie_c::writing::pie_update_event", .Lfunc_end20-"pie_c::writing::pie_update_event"

	.section	".text.pie_c::calls::depart_otherwise","ax",@progbits
	.p2align	4
	.type	"pie_c::calls::depart_otherwise",@function
"pie_c::calls::depart_otherwise":
	movq	%rsi, %rax
	shrq	$60, %rsi
	setne	%sil
	leal	-65536(%rdx), %r8d
	cmpl	$-65535, %r8d
	setb	%r8b
	orb	%sil, %r8b
	je	.LBB21_1
.LBB21_6:
	movl	%edx, %esi
	movq	%rcx, %rdx
	movq	%rax, %rcx
	jmp	"pie_c::calls::depart"
.LBB21_1:
	movq	64(%rdi), %r8
	cmpq	$65536, %r8
	movl	$65536, %esi
	cmovbq	%r8, %rsi
	cmpq	$1, 128(%rdi)
	je	.LBB21_6
	movq	168(%rdi), %r8
	andl	$1, %r8d
	jne	.LBB21_6
	cmpq	$1, 160(%rdi)
	jne	.LBB21_6
	cmpq	%rsi, %rcx
	jae	.LBB21_6
	leaq	128(%rdi), %rcx
	xorps	%xmm0, %xmm0
	movups	%xmm0, (%rcx)
	movq	$0, 16(%rcx)
	movq	72(%rdi), %rcx
	cmpq	%rcx, %rax
	cmovaq	%rax, %rcx
	movq	%rcx, 72(%rdi)
	xorl	%eax, %eax
	retq
.Lfunc_end21:
	.size	"pie_c::calls::depart_otherwise", .Lfunc_end21-"pie_c::calls::depart_otherwise"

	.section	".text.pie_c::calls::depart","ax",@progbits
	.p2align	4
	.type	"pie_c::calls::depart",@function
"pie_c::calls::depart":
	movq	%rcx, %rax
	shrq	$60, %rax
	movl	$101, %eax
	jne	.LBB22_19
	leal	-65536(%rsi), %r8d
	movl	$102, %eax
	cmpl	$-65535, %r8d
	jb	.LBB22_19
	movl	$112, %eax
	cmpq	$1073741824, %rdx
	ja	.LBB22_19
	movl	$119, %eax
	testb	$1, 168(%rdi)
	jne	.LBB22_19
	movq	128(%rdi), %r10
	cmpq	$1, %r10
	jne	.LBB22_5
	movq	136(%rdi), %rax
	movq	144(%rdi), %r9
	movb	$1, %r8b
	jmp	.LBB22_7
.LBB22_5:
	xorl	%r8d, %r8d
	xorl	%eax, %eax
	xorl	%r9d, %r9d
.LBB22_7:
	pushq	%rbx
	movq	72(%rdi), %r11
	cmpq	%r11, %rcx
	cmovaq	%rcx, %r11
	movq	120(%rdi), %rcx
	cmpq	$1, 160(%rdi)
	jne	.LBB22_16
	movq	64(%rdi), %rbx
	cmpq	$65536, %rbx
	movl	$65536, %r8d
	cmovbq	%rbx, %r8
	cmpq	$1, %r10
	jne	.LBB22_15
	movl	%esi, %esi
	addq	%r9, %rsi
	movq	$-1, %r9
	cmovaeq	%rsi, %r9
	cmpq	%r8, %r9
	jae	.LBB22_12
	movq	%r11, 72(%rdi)
	jmp	.LBB22_11
.LBB22_12:
	xorl	%r9d, %r9d
	movq	%r11, %rsi
	subq	%rax, %rsi
	cmovaeq	%rsi, %r9
	cmpq	$1, %r9
	adcq	$0, %r9
	testq	%rcx, %rcx
	je	.LBB22_13
	movl	$65536, %esi
	subq	%r8, %rsi
	movq	%r8, %rax
	movq	%rdx, %rbx
	mulq	%r9
	movq	%rdx, %r9
	movq	%rax, %r10
	movq	%rsi, %rax
	mulq	%rcx
	addq	%r10, %rax
	movq	%rdx, %rcx
	movq	%rbx, %rdx
	adcq	%r9, %rcx
	shldq	$48, %rax, %rcx
	jmp	.LBB22_15
.LBB22_13:
	movq	%r9, %rcx
.LBB22_15:
	xorl	%r9d, %r9d
	cmpq	%r8, %rdx
	setae	%r8b
	movl	$0, %eax
	cmovaeq	%r11, %rax
.LBB22_16:
	movq	%r11, 72(%rdi)
	movq	%rcx, 120(%rdi)
	testb	%r8b, %r8b
	je	.LBB22_17
.LBB22_11:
	movl	$1, %ecx
	jmp	.LBB22_18
.LBB22_17:
	xorl	%ecx, %ecx
	xorl	%eax, %eax
	xorl	%r9d, %r9d
.LBB22_18:
	movq	%rcx, 128(%rdi)
	movq	%rax, 136(%rdi)
	movq	%r9, 144(%rdi)
	xorl	%eax, %eax
	popq	%rbx
.LBB22_19:
	retq
.Lfunc_end22:
	.size	"pie_c::calls::depart", .Lfunc_end22-"pie_c::calls::depart"

	.section	".text.pie_aqm::raw::wait","ax",@progbits
	.p2align	4
	.type	"pie_aqm::raw::wait",@function
"pie_aqm::raw::wait":
	testq	%rdi, %rdi
	je	.LBB23_2
	xorl	%eax, %eax
	subq	%rsi, %rdx
	cmovaeq	%rdx, %rax
	movabsq	$1099511627776, %rcx
	cmpq	%rcx, %rax
	cmovaeq	%rcx, %rax
	retq
.LBB23_2:
	xorl	%eax, %eax
	retq
.Lfunc_end23:
	.size	"pie_aqm::raw::wait", .Lfunc_end23-"pie_aqm::raw::wait"

	.section	".text.pie_early::decision::scaled","ax",@progbits
	.p2align	4
	.type	"pie_early::decision::scaled",@function
"pie_early::decision::scaled":
	movq	%rdx, %rax
	movl	%esi, %edx
	cmpq	%rdx, %rdi
	jbe	.LBB24_2
	pushq	%rax
	movq	%rdi, %rcx
	mulq	%rdx
	movq	%rax, %rdi
	movq	%rdx, %rsi
	movq	%rcx, %rdx
	xorl	%ecx, %ecx
	callq	__udivti3@PLT
	addq	$8, %rsp
.LBB24_2:
	retq
.Lfunc_end24:
	.size	"pie_early::decision::scaled", .Lfunc_end24-"pie_early::decision::scaled"

	.section	".text.pie_c::calls::arrive_out_of_line","ax",@progbits
	.p2align	4
	.type	"pie_c::calls::arrive_out_of_line",@function
"pie_c::calls::arrive_out_of_line":
	pushq	%rbp
	pushq	%r15
	pushq	%r14
	pushq	%r13
	pushq	%r12
	pushq	%rbx
	pushq	%rax
	movq	64(%rsp), %r10
	movq	%r10, %rax
	shrq	$60, %rax
	movl	$101, %eax
	jne	.LBB25_16
	leal	-65536(%rdx), %r11d
	movl	$102, %eax
	cmpl	$-65535, %r11d
	jb	.LBB25_16
	movl	$111, %eax
	cmpl	$3, %r8d
	ja	.LBB25_16
	movl	$112, %eax
	cmpq	$1073741824, %rsi
	ja	.LBB25_16
	cmpq	%r10, 72(%rdi)
	jae	.LBB25_6
	movq	%r10, 72(%rdi)
.LBB25_6:
	testl	%ecx, %ecx
	sete	%bpl
	movq	16(%rdi), %rcx
	movq	48(%rdi), %r10
	movq	160(%rdi), %rbx
	movl	%edx, %r11d
	leaq	(%rsi,%r11), %rax
	cmpq	%rax, %r10
	setb	%r14b
	orb	%bpl, %r14b
	je	.LBB25_8
	cmpq	%rax, %r10
	movb	$4, %al
	sbbb	$0, %al
	xorl	%r11d, %r11d
	movl	$0, %r14d
	cmpq	$1, %rbx
	jne	.LBB25_12
	jmp	.LBB25_13
.LBB25_8:
	movq	112(%rdi), %r14
	cmpq	$1, %rbx
	jne	.LBB25_11
	cmpq	$0, 96(%rdi)
	jne	.LBB25_10
	movq	40(%rdi), %rax
	movq	%rsi, %rcx
	shrq	%rcx
	subq	%rcx, %rsi
	cmpq	%rsi, %rax
	jae	.LBB25_10
	movq	168(%rdi), %r12
	movq	56(%rdi), %r13
	movq	80(%rdi), %rbx
	movq	%rbx, %rcx
	shrq	$12, %rcx
	cmpq	$48828124, %rcx
	ja	.LBB25_22
	movq	(%rdi), %rcx
	movq	%rcx, %rsi
	shrq	%rsi
	subq	%rsi, %rcx
	cmpq	%rcx, 88(%rdi)
	jae	.LBB25_22
.LBB25_10:
	xorl	%eax, %eax
	jmp	.LBB25_13
.LBB25_11:
	xorl	%eax, %eax
.LBB25_12:
	addq	%rsi, %r11
	leaq	(%r11,%r11,2), %rdx
	cmpq	%rdx, %r10
	jbe	.LBB25_14
.LBB25_13:
	movq	%r14, 112(%rdi)
	jmp	.LBB25_15
.LBB25_14:
	leaq	120(%rdi), %rdx
	leaq	80(%rdi), %rsi
	xorps	%xmm0, %xmm0
	movups	%xmm0, (%rsi)
	movups	%xmm0, 16(%rdx)
	movups	%xmm0, (%rdx)
	movq	%rcx, 96(%rdi)
	movq	$0, 112(%rdi)
	movq	$1, 160(%rdi)
	movq	$0, 176(%rdi)
.LBB25_15:
	movzbl	%al, %eax
.LBB25_16:
	addq	$8, %rsp
	popq	%rbx
	popq	%r12
	popq	%r13
	popq	%r14
	popq	%r15
	popq	%rbp
	retq
.LBB25_22:
	movq	%rbx, %rcx
	testb	$8, %r12b
	je	.LBB25_24
	movq	%rdi, (%rsp)
	movq	%rax, %rdi
	movl	%edx, %esi
	movq	%rbx, %rdx
	movl	%r8d, %ebp
	movq	%r9, %r15
	callq	"pie_early::decision::scaled"
	movq	%r15, %r9
	movl	%ebp, %r8d
	movq	(%rsp), %rdi
	movq	%rax, %rcx
.LBB25_24:
	testq	%rcx, %rcx
	je	.LBB25_29
	testb	$2, %r12b
	jne	.LBB25_31
	addq	%rcx, %r14
	jb	.LBB25_32
	movq	%r14, %rax
	shrq	$10, %rax
	cmpq	$830078125, %rax
	jb	.LBB25_10
	movabsq	$8499999999999, %rax
	cmpq	%rax, %r14
	ja	.LBB25_32
.LBB25_31:
	movabsq	$1000000000000, %rdx
	movq	%r9, %rax
	mulq	%rdx
	cmpq	%rcx, %rdx
	jae	.LBB25_10
.LBB25_32:
	testl	%r8d, %r8d
	setne	%al
	cmpq	%r13, %rbx
	setb	%cl
	andb	%al, %cl
	movb	$2, %al
	subb	%cl, %al
	xorl	%r14d, %r14d
	jmp	.LBB25_13
.LBB25_29:
	xorl	%r14d, %r14d
	xorl	%eax, %eax
	jmp	.LBB25_13
.Lfunc_end25:
	.size	"pie_c::calls::arrive_out_of_line", .Lfunc_end25-"pie_c::calls::arrive_out_of_line"

	.section	".text.pie_c::summing::arrive_summed_out_of_line","ax",@progbits
	.p2align	4
	.type	"pie_c::summing::arrive_summed_out_of_line",@function
"pie_c::summing::arrive_summed_out_of_line":
	pushq	%rbp
	pushq	%r15
	pushq	%r14
	pushq	%r13
	pushq	%r12
	pushq	%rbx
	subq	$56, %rsp
	movq	%r8, %rbx
	movq	160(%rdi), %r15
	movl	48(%rcx), %r11d
	movq	(%rcx), %rax
	movq	%rax, %r8
	shrq	$60, %r8
	je	.LBB26_2
	movl	$101, %ebp
	jmp	.LBB26_8
.LBB26_2:
	leal	-65536(%r11), %r8d
	cmpl	$-65535, %r8d
	jae	.LBB26_4
	movl	$102, %ebp
	jmp	.LBB26_8
.LBB26_4:
	movzbl	59(%rcx), %r12d
	cmpb	$3, %r12b
	ja	.LBB26_7
	cmpq	$1073741824, %rsi
	jbe	.LBB26_30
	movl	$112, %ebp
	jmp	.LBB26_8
.LBB26_7:
	movl	$111, %ebp
.LBB26_8:
	xorl	%edx, %edx
	xorl	%r8d, %r8d
.LBB26_9:
	cmpq	$1, %r15
	setne	%r15b
	movb	$1, 58(%rcx)
	movl	%ebp, 52(%rcx)
	movl	$0, 60(%rcx)
	xorps	%xmm0, %xmm0
	movups	%xmm0, 24(%rcx)
	movq	$0, 40(%rcx)
	cmpq	$1, 160(%rdi)
	sete	%cl
	cmpl	$8, %ebp
	movl	$8, %r13d
	cmovbl	%ebp, %r13d
	cmpl	$4, %ebp
	ja	.LBB26_26
	movq	(%rdi), %r14
	movq	72(%rdi), %rsi
	movq	80(%rdi), %rax
	movq	%rax, 48(%rsp)
	movq	96(%rdi), %r12
	cmpq	%rsi, 32(%rbx)
	ja	.LBB26_27
	cmpq	40(%rbx), %rsi
	jae	.LBB26_27
	movq	48(%rbx), %rax
	cmpq	416(%rbx), %rax
	jne	.LBB26_28
.LBB26_13:
	movl	%r13d, %eax
	incq	72(%rbx,%rax,8)
	je	.LBB26_29
.LBB26_14:
	movl	%r11d, %r13d
	testb	%r8b, %r8b
	je	.LBB26_16
.LBB26_15:
	incq	144(%rbx,%rdx)
	je	.LBB26_42
.LBB26_16:
	movq	%rsi, 272(%rbx)
	incq	288(%rbx)
	je	.LBB26_38
	addq	%r13, 304(%rbx)
	jb	.LBB26_39
.LBB26_18:
	movl	%r15d, %eax
	andb	%cl, %al
	movq	48(%rsp), %rdx
	cmpq	%rdx, 360(%rbx)
	je	.LBB26_21
	movq	%rdx, 360(%rbx)
	cmpq	%rdx, 352(%rbx)
	jae	.LBB26_21
	movq	%rdx, 352(%rbx)
.LBB26_21:
	orb	%cl, %r15b
	testb	%al, %al
	je	.LBB26_23
	leaq	368(%rbx), %rdi
	movq	%rsi, %r13
	callq	"pie_explain::aggregates::Bounds::take_rare"
	movq	%r13, %rsi
.LBB26_23:
	testb	%r15b, %r15b
	jne	.LBB26_25
	leaq	392(%rbx), %rdi
	callq	"pie_explain::aggregates::Bounds::take_rare"
.LBB26_25:
	movq	%r14, 464(%rbx)
	movq	%r12, 472(%rbx)
.LBB26_26:
	movl	%ebp, %eax
	addq	$56, %rsp
	popq	%rbx
	popq	%r12
	popq	%r13
	popq	%r14
	popq	%r15
	popq	%rbp
	retq
.LBB26_27:
	movq	%rbx, %rdi
	movl	%ebp, 16(%rsp)
	movq	%rsi, %rbp
	movb	%r15b, 8(%rsp)
	movq	%r14, 24(%rsp)
	movq	%rbx, 32(%rsp)
	movq	%r11, %rbx
	movq	%r12, 40(%rsp)
	movq	%rdx, %r12
	movl	%ecx, %r15d
	movq	%r8, %r14
	callq	"pie_explain::live_interval::LiveInterval::begin_interval"
	movq	%r14, %r8
	movl	%r15d, %ecx
	movq	%rbp, %rsi
	movl	16(%rsp), %ebp
	movq	%r12, %rdx
	movq	40(%rsp), %r12
	movq	%rbx, %r11
	movq	32(%rsp), %rbx
	movq	24(%rsp), %r14
	movzbl	8(%rsp), %r15d
	movq	48(%rbx), %rax
	cmpq	416(%rbx), %rax
	je	.LBB26_13
.LBB26_28:
	movq	%rbx, %rdi
	movl	%ebp, 16(%rsp)
	movq	%rsi, %rbp
	movb	%r15b, 8(%rsp)
	movq	%r14, 24(%rsp)
	movq	%rbx, 32(%rsp)
	movq	%r11, %rbx
	movq	%r12, 40(%rsp)
	movq	%rdx, %r12
	movl	%ecx, %r15d
	movq	%r8, %r14
	callq	"pie_explain::live_interval::LiveInterval::note_first_time"
	movq	%r14, %r8
	movl	%r15d, %ecx
	movq	%rbp, %rsi
	movl	16(%rsp), %ebp
	movq	%r12, %rdx
	movq	40(%rsp), %r12
	movq	%rbx, %r11
	movq	32(%rsp), %rbx
	movq	24(%rsp), %r14
	movzbl	8(%rsp), %r15d
	movl	%r13d, %eax
	incq	72(%rbx,%rax,8)
	jne	.LBB26_14
.LBB26_29:
	leaq	(%rbx,%rax,8), %rdi
	addq	$72, %rdi
	movb	%r15b, 8(%rsp)
	movq	%r14, 24(%rsp)
	movq	%rbx, 32(%rsp)
	movq	%r11, %rbx
	movq	%r12, 40(%rsp)
	movq	%rdx, %r12
	movl	%ebp, %r15d
	movq	%rsi, %rbp
	movl	%ecx, %r13d
	movq	%r8, %r14
	callq	"pie_explain::explainer::saturate"
	movq	%r14, %r8
	movl	%r13d, %ecx
	movq	%rbp, %rsi
	movl	%r15d, %ebp
	movq	%r12, %rdx
	movq	40(%rsp), %r12
	movq	%rbx, %r11
	movq	32(%rsp), %rbx
	movq	24(%rsp), %r14
	movzbl	8(%rsp), %r15d
	movl	%r11d, %r13d
	testb	%r8b, %r8b
	jne	.LBB26_15
	jmp	.LBB26_16
.LBB26_30:
	movq	16(%rcx), %r13
	cmpq	%rax, 72(%rdi)
	jae	.LBB26_32
	movq	%rax, 72(%rdi)
.LBB26_32:
	testl	%edx, %edx
	sete	%r8b
	movq	16(%rdi), %rax
	movq	48(%rdi), %r9
	leaq	(%rsi,%r11), %rdx
	cmpq	%rdx, %r9
	setb	%r10b
	orb	%r8b, %r10b
	je	.LBB26_34
	cmpq	%rdx, %r9
	setae	%dl
	movb	$4, %r8b
	sbbb	$0, %r8b
	xorl	%r11d, %r11d
	movl	$0, %ebp
	cmpq	$1, %r15
	jne	.LBB26_36
	jmp	.LBB26_47
.LBB26_34:
	movq	112(%rdi), %rbp
	cmpq	$1, %r15
	je	.LBB26_40
	movb	$2, %dl
	xorl	%r8d, %r8d
.LBB26_36:
	addq	%rsi, %r11
	leaq	(%r11,%r11,2), %rsi
	cmpq	%rsi, %r9
	ja	.LBB26_47
	leaq	120(%rdi), %rsi
	leaq	80(%rdi), %r9
	xorps	%xmm0, %xmm0
	movups	%xmm0, (%r9)
	movups	%xmm0, 16(%rsi)
	movups	%xmm0, (%rsi)
	movq	%rax, 96(%rdi)
	movq	$0, 112(%rdi)
	movq	$1, 160(%rdi)
	movq	$0, 176(%rdi)
	jmp	.LBB26_48
.LBB26_38:
	leaq	288(%rbx), %rdi
	movl	%ebp, 16(%rsp)
	movq	%rsi, 8(%rsp)
	movl	%ecx, %ebp
	callq	"pie_explain::explainer::saturate"
	movl	%ebp, %ecx
	movq	8(%rsp), %rsi
	movl	16(%rsp), %ebp
	addq	%r13, 304(%rbx)
	jae	.LBB26_18
.LBB26_39:
	leaq	296(%rbx), %rdi
	movq	%rsi, 8(%rsp)
	movl	%ecx, %r13d
	callq	"pie_explain::aggregates::Total::carry"
	movl	%r13d, %ecx
	movq	8(%rsp), %rsi
	jmp	.LBB26_18
.LBB26_40:
	cmpq	$0, 96(%rdi)
	je	.LBB26_43
	movb	$3, %dl
	jmp	.LBB26_46
.LBB26_42:
	leaq	(%rbx,%rdx), %rdi
	addq	$144, %rdi
	movl	%ebp, 16(%rsp)
	movq	%rsi, 8(%rsp)
	movl	%ecx, %ebp
	callq	"pie_explain::explainer::saturate"
	movl	%ebp, %ecx
	movq	8(%rsp), %rsi
	movl	16(%rsp), %ebp
	jmp	.LBB26_16
.LBB26_43:
	movq	(%rdi), %r8
	movq	40(%rdi), %rax
	movq	80(%rdi), %r14
	movq	88(%rdi), %r9
	movabsq	$200000000000, %rdx
	movq	%rsi, %r10
	shrq	%r10
	subq	%r10, %rsi
	movq	%r8, %r10
	shrq	%r10
	subq	%r10, %r8
	cmpq	%r8, %r9
	setb	%r10b
	cmpq	%rsi, %rax
	jae	.LBB26_45
	cmpq	%r8, %r9
	setae	%sil
	cmpq	%rdx, %r14
	setae	%r8b
	movb	$1, %r10b
	orb	%sil, %r8b
	jne	.LBB26_49
.LBB26_45:
	cmpq	%rdx, %r14
	setb	%dl
	andb	%r10b, %dl
	xorb	$5, %dl
.LBB26_46:
	xorl	%r8d, %r8d
.LBB26_47:
	movq	%rbp, 112(%rdi)
.LBB26_48:
	movzbl	%r8b, %ebp
	movzbl	%dl, %edx
	shll	$3, %edx
	movl	48(%rcx), %r11d
	movb	$1, %r8b
	jmp	.LBB26_9
.LBB26_49:
	movq	%r14, %rsi
	movq	168(%rdi), %r14
	movq	56(%rdi), %r9
	movq	%rsi, 48(%rsp)
	testb	$8, %r14b
	je	.LBB26_51
	movq	%rdi, 16(%rsp)
	movq	%rax, %rdi
	movl	%r11d, %esi
	movq	48(%rsp), %rdx
	movq	%rcx, 8(%rsp)
	movq	%r9, 24(%rsp)
	callq	"pie_early::decision::scaled"
	movq	24(%rsp), %r9
	movq	8(%rsp), %rcx
	movq	16(%rsp), %rdi
	movq	%rax, %rsi
.LBB26_51:
	testq	%rsi, %rsi
	je	.LBB26_55
	testb	$2, %r14b
	jne	.LBB26_56
	addq	%rsi, %rbp
	movq	48(%rsp), %r8
	jae	.LBB26_61
.LBB26_54:
	cmpq	%r9, %r8
	setae	%al
	addb	%al, %al
	testb	%r12b, %r12b
	movzbl	%al, %edx
	movl	$1, %eax
	cmovnel	%edx, %eax
	leal	8(%rax), %edx
	jmp	.LBB26_59
.LBB26_55:
	movb	$6, %dl
	xorl	%ebp, %ebp
	jmp	.LBB26_46
.LBB26_56:
	movq	48(%rsp), %r8
.LBB26_57:
	movabsq	$1000000000000, %rdx
	movq	%r13, %rax
	mulq	%rdx
	cmpq	%rsi, %rdx
	jae	.LBB26_60
	cmpq	%r9, %r8
	setae	%al
	addb	%al, %al
	testb	%r12b, %r12b
	movzbl	%al, %edx
	movl	$1, %eax
	cmovnel	%edx, %eax
	leal	11(%rax), %edx
.LBB26_59:
	shlb	$3, %al
	movl	$131585, %r8d
	movq	%rcx, %rsi
	movl	%eax, %ecx
	shrl	%cl, %r8d
	movq	%rsi, %rcx
	xorl	%ebp, %ebp
	jmp	.LBB26_47
.LBB26_60:
	movb	$14, %dl
	jmp	.LBB26_46
.LBB26_61:
	movq	%rbp, %rax
	shrq	$10, %rax
	cmpq	$830078125, %rax
	jae	.LBB26_63
	movb	$7, %dl
	jmp	.LBB26_46
.LBB26_63:
	movabsq	$8499999999999, %rax
	cmpq	%rax, %rbp
	ja	.LBB26_54
	jmp	.LBB26_57
.Lfunc_end26:
	.size	"pie_c::summing::arrive_summed_out_of_line", .Lfunc_end26-"pie_c::summing::arrive_summed_out_of_line"

	.section	".text.pie_record::event::put_arrival","ax",@progbits
	.p2align	4
	.type	"pie_record::event::put_arrival",@function
"pie_record::event::put_arrival":
	pushq	%rbp
	pushq	%r15
	pushq	%r14
	pushq	%r13
	pushq	%r12
	pushq	%rbx
	pushq	%rax
	movl	%r9d, %r13d
	movl	%r8d, %r12d
	movq	%rcx, %r15
	movq	%rdx, %r14
	movl	%esi, %ebp
	movq	%rdi, %rbx
	movzbl	72(%rsp), %eax
	movq	64(%rsp), %rsi
	movb	$10, 511(%rdi)
	leaq	.LJTI27_0(%rip), %rcx
	movslq	(%rcx,%rax,4), %rax
	addq	%rcx, %rax
	jmpq	*%rax
.LBB27_1:
	movq	$504, 512(%rbx)
	leaq	.Lstatic.82(%rip), %rax
	negq	%rax
	addq	%rbx, %rax
	addq	$504, %rax
	cmpq	$6, %rax
	ja	.LBB27_3
	movl	$1970368101, 504(%rbx)
	movw	$30053, 508(%rbx)
	movb	$101, 510(%rbx)
	jmp	.LBB27_14
.LBB27_11:
	movq	$504, 512(%rbx)
	leaq	.Lstatic.86(%rip), %rax
	negq	%rax
	addq	%rbx, %rax
	addq	$504, %rax
	cmpq	$6, %rax
	ja	.LBB27_13
	movl	$1801675120, 504(%rbx)
	movw	$29797, 508(%rbx)
	movb	$115, 510(%rbx)
	jmp	.LBB27_14
.LBB27_5:
	movq	$506, 512(%rbx)
	leaq	.Lstatic.84(%rip), %rax
	negq	%rax
	addq	%rbx, %rax
	addq	$506, %rax
	cmpq	$4, %rax
	ja	.LBB27_7
	movl	$1819435365, 506(%rbx)
	movb	$121, 510(%rbx)
	jmp	.LBB27_14
.LBB27_8:
	movq	$506, 512(%rbx)
	leaq	.Lstatic.85(%rip), %rax
	negq	%rax
	addq	%rbx, %rax
	addq	$506, %rax
	cmpq	$4, %rax
	ja	.LBB27_10
	movl	$1702132066, 506(%rbx)
	movb	$115, 510(%rbx)
	jmp	.LBB27_14
.LBB27_4:
	movq	$507, 512(%rbx)
	leaq	507(%rbx), %rax
	leaq	.Lstatic.83(%rip), %rcx
	negq	%rcx
	addq	%rbx, %rcx
	addq	$507, %rcx
	cmpq	$3, %rcx
	movl	$1802658157, (%rax)
	jmp	.LBB27_14
.LBB27_13:
	leaq	504(%rbx), %rax
	movl	$1937007979, 3(%rax)
	movl	$1801675120, (%rax)
	jmp	.LBB27_14
.LBB27_7:
	leaq	506(%rbx), %rax
	movb	$121, 4(%rax)
	movl	$1819435365, (%rax)
	jmp	.LBB27_14
.LBB27_10:
	leaq	506(%rbx), %rax
	movb	$115, 4(%rax)
	movl	$1702132066, (%rax)
	jmp	.LBB27_14
.LBB27_3:
	leaq	504(%rbx), %rax
	movl	$1702192501, 3(%rax)
	movl	$1970368101, (%rax)
.LBB27_14:
	movq	%rbx, %rdi
	callq	"pie_record::row_buffer::RowBuffer::prepend_number"
	movq	512(%rbx), %rax
	leaq	-1(%rax), %rcx
	movq	%rcx, 512(%rbx)
	movb	$44, -1(%rbx,%rax)
	movq	512(%rbx), %rax
	movzbl	%r13b, %ecx
	leaq	.LJTI27_1(%rip), %rdx
	movslq	(%rdx,%rcx,4), %rcx
	addq	%rdx, %rcx
	jmpq	*%rcx
.LBB27_15:
	leaq	-3(%rax), %rcx
	movq	%rcx, 512(%rbx)
	addq	%rbx, %rax
	addq	$-3, %rax
	leaq	.Lstatic.78(%rip), %rcx
	movq	%rax, %rdx
	subq	%rcx, %rdx
	cmpq	$2, %rdx
	ja	.LBB27_17
	movw	$28526, (%rax)
	movb	$116, 2(%rax)
	jmp	.LBB27_21
.LBB27_19:
	leaq	-4(%rax), %rcx
	movq	%rcx, 512(%rbx)
	addq	%rbx, %rax
	addq	$-4, %rax
	leaq	.Lstatic.80(%rip), %rcx
	movq	%rax, %rdx
	subq	%rcx, %rdx
	cmpq	$3, %rdx
	movl	$812933989, (%rax)
	jmp	.LBB27_21
.LBB27_20:
	leaq	-2(%rax), %rcx
	movq	%rcx, 512(%rbx)
	addq	%rbx, %rax
	addq	$-2, %rax
	leaq	.Lstatic.81(%rip), %rcx
	movq	%rax, %rdx
	subq	%rcx, %rdx
	cmpq	$1, %rdx
	movw	$25955, (%rax)
	jmp	.LBB27_21
.LBB27_18:
	leaq	-4(%rax), %rcx
	movq	%rcx, 512(%rbx)
	addq	%rbx, %rax
	addq	$-4, %rax
	leaq	.Lstatic.79(%rip), %rcx
	movq	%rax, %rdx
	subq	%rcx, %rdx
	cmpq	$3, %rdx
	movl	$829711205, (%rax)
	jmp	.LBB27_21
.LBB27_17:
	movb	$116, 2(%rax)
	movw	$28526, (%rax)
.LBB27_21:
	movl	%r12d, %esi
	movq	%rbx, %rdi
	callq	"pie_record::row_buffer::RowBuffer::prepend_number"
	movq	%rbx, %rdi
	movq	%r15, %rsi
	callq	"pie_record::row_buffer::RowBuffer::prepend_number"
	movq	%rbx, %rdi
	movq	%r14, %rsi
	callq	"pie_record::row_buffer::RowBuffer::prepend_number"
	movzwl	%bp, %esi
	movq	%rbx, %rdi
	callq	"pie_record::row_buffer::RowBuffer::prepend_number"
	movq	512(%rbx), %rax
	leaq	-1(%rax), %rcx
	movq	%rcx, 512(%rbx)
	movb	$44, -1(%rbx,%rax)
	movq	512(%rbx), %rax
	leaq	-6(%rax), %rcx
	movq	%rcx, 512(%rbx)
	addq	%rbx, %rax
	addq	$-6, %rax
	leaq	.Lstatic.39(%rip), %rcx
	movq	%rax, %rdx
	subq	%rcx, %rdx
	cmpq	$5, %rdx
	ja	.LBB27_24
	movl	$1769108065, (%rax)
	movw	$25974, 4(%rax)
	jmp	.LBB27_23
.LBB27_24:
	movw	$25974, 4(%rax)
	movl	$1769108065, (%rax)
.LBB27_23:
	addq	$8, %rsp
	popq	%rbx
	popq	%r12
	popq	%r13
	popq	%r14
	popq	%r15
	popq	%rbp
	retq
.Lfunc_end27:
	.size	"pie_record::event::put_arrival", .Lfunc_end27-"pie_record::event::put_arrival"
	.section	".rodata.pie_record::event::put_arrival","a",@progbits
	.p2align	2, 0x0
.LJTI27_0:
	.long	.LBB27_1-.LJTI27_0
	.long	.LBB27_4-.LJTI27_0
	.long	.LBB27_5-.LJTI27_0
	.long	.LBB27_8-.LJTI27_0
	.long	.LBB27_11-.LJTI27_0
.LJTI27_1:
	.long	.LBB27_15-.LJTI27_1
	.long	.LBB27_18-.LJTI27_1
	.long	.LBB27_19-.LJTI27_1
	.long	.LBB27_20-.LJTI27_1

	.section	".text.pie_record::event::put_empty","ax",@progbits
	.p2align	4
	.type	"pie_record::event::put_empty",@function
"pie_record::event::put_empty":
	pushq	%rbp
	pushq	%rbx
	pushq	%rax
	movl	%esi, %ebp
	movq	%rdi, %rbx
	movb	$10, 511(%rdi)
	movq	$506, 512(%rdi)
	leaq	.Lstatic.88(%rip), %rax
	negq	%rax
	addq	%rdi, %rax
	addq	$506, %rax
	cmpq	$4, %rax
	ja	.LBB28_2
	movl	$1953525093, 506(%rbx)
	movb	$121, 510(%rbx)
	jmp	.LBB28_3
.LBB28_2:
	leaq	506(%rbx), %rax
	movb	$121, 4(%rax)
	movl	$1953525093, (%rax)
.LBB28_3:
	movq	%rbx, %rdi
	movq	%rdx, %rsi
	callq	"pie_record::row_buffer::RowBuffer::prepend_number"
	movzwl	%bp, %esi
	movq	%rbx, %rdi
	callq	"pie_record::row_buffer::RowBuffer::prepend_number"
	movq	512(%rbx), %rax
	leaq	-1(%rax), %rcx
	movq	%rcx, 512(%rbx)
	movb	$44, -1(%rbx,%rax)
	movq	512(%rbx), %rax
	leaq	-6(%rax), %rcx
	movq	%rcx, 512(%rbx)
	addq	%rbx, %rax
	addq	$-6, %rax
	leaq	.Lstatic.40(%rip), %rcx
	movq	%rax, %rdx
	subq	%rcx, %rdx
	cmpq	$5, %rdx
	ja	.LBB28_6
	movl	$1634755940, (%rax)
	movw	$29810, 4(%rax)
	addq	$8, %rsp
	popq	%rbx
	popq	%rbp
	retq
.LBB28_6:
	movw	$29810, 4(%rax)
	movl	$1634755940, (%rax)
	addq	$8, %rsp
	popq	%rbx
	popq	%rbp
	retq
.Lfunc_end28:
	.size	"pie_record::event::put_empty", .Lfunc_end28-"pie_record::event::put_empty"

	.section	".text.pie_record::event::put_left","ax",@progbits
	.p2align	4
	.type	"pie_record::event::put_left",@function
"pie_record::event::put_left":
	pushq	%rbp
	pushq	%r15
	pushq	%r14
	pushq	%rbx
	pushq	%rax
	movq	%rcx, %r15
	movq	%rdx, %r14
	movl	%esi, %ebp
	movq	%rdi, %rbx
	movb	$10, 511(%rdi)
	movzbl	%r9b, %eax
	leaq	.LJTI29_0(%rip), %rcx
	movslq	(%rcx,%rax,4), %rax
	addq	%rcx, %rax
	jmpq	*%rax
.LBB29_1:
	movq	$508, 512(%rbx)
	leaq	.Lstatic.78(%rip), %rax
	negq	%rax
	addq	%rbx, %rax
	addq	$508, %rax
	cmpq	$2, %rax
	ja	.LBB29_3
	movw	$28526, 508(%rbx)
	movb	$116, 510(%rbx)
	jmp	.LBB29_9
.LBB29_5:
	movq	$507, 512(%rbx)
	leaq	507(%rbx), %rax
	leaq	.Lstatic.80(%rip), %rcx
	negq	%rcx
	addq	%rbx, %rcx
	addq	$507, %rcx
	cmpq	$3, %rcx
	movl	$812933989, (%rax)
	jmp	.LBB29_9
.LBB29_6:
	movq	$509, 512(%rbx)
	leaq	.Lstatic.81(%rip), %rax
	negq	%rax
	addq	%rbx, %rax
	addq	$509, %rax
	cmpq	$1, %rax
	ja	.LBB29_8
	movw	$25955, 509(%rbx)
	jmp	.LBB29_9
.LBB29_4:
	movq	$507, 512(%rbx)
	leaq	507(%rbx), %rax
	leaq	.Lstatic.79(%rip), %rcx
	negq	%rcx
	addq	%rbx, %rcx
	addq	$507, %rcx
	cmpq	$3, %rcx
	movl	$829711205, (%rax)
	jmp	.LBB29_9
.LBB29_8:
	leaq	509(%rbx), %rax
	movw	$25955, (%rax)
	jmp	.LBB29_9
.LBB29_3:
	leaq	508(%rbx), %rax
	movb	$116, 2(%rax)
	movw	$28526, (%rax)
.LBB29_9:
	movl	%r8d, %esi
	movq	%rbx, %rdi
	callq	"pie_record::row_buffer::RowBuffer::prepend_number"
	movq	%rbx, %rdi
	movq	%r15, %rsi
	callq	"pie_record::row_buffer::RowBuffer::prepend_number"
	movq	512(%rbx), %rax
	leaq	-1(%rax), %rcx
	movq	%rcx, 512(%rbx)
	movb	$44, -1(%rbx,%rax)
	movq	512(%rbx), %rax
	leaq	-4(%rax), %rcx
	movq	%rcx, 512(%rbx)
	movl	$1952867692, -4(%rbx,%rax)
	movq	%rbx, %rdi
	movq	%r14, %rsi
	callq	"pie_record::row_buffer::RowBuffer::prepend_number"
	movzwl	%bp, %esi
	movq	%rbx, %rdi
	callq	"pie_record::row_buffer::RowBuffer::prepend_number"
	movq	512(%rbx), %rax
	leaq	-1(%rax), %rcx
	movq	%rcx, 512(%rbx)
	movb	$44, -1(%rbx,%rax)
	movq	512(%rbx), %rax
	leaq	-6(%rax), %rcx
	movq	%rcx, 512(%rbx)
	addq	%rbx, %rax
	addq	$-6, %rax
	leaq	.Lstatic.40(%rip), %rcx
	movq	%rax, %rdx
	subq	%rcx, %rdx
	cmpq	$5, %rdx
	ja	.LBB29_12
	movl	$1634755940, (%rax)
	movw	$29810, 4(%rax)
	jmp	.LBB29_11
.LBB29_12:
	movw	$29810, 4(%rax)
	movl	$1634755940, (%rax)
.LBB29_11:
	addq	$8, %rsp
	popq	%rbx
	popq	%r14
	popq	%r15
	popq	%rbp
	retq
.Lfunc_end29:
	.size	"pie_record::event::put_left", .Lfunc_end29-"pie_record::event::put_left"
	.section	".rodata.pie_record::event::put_left","a",@progbits
	.p2align	2, 0x0
.LJTI29_0:
	.long	.LBB29_1-.LJTI29_0
	.long	.LBB29_4-.LJTI29_0
	.long	.LBB29_5-.LJTI29_0
	.long	.LBB29_6-.LJTI29_0

	.section	".text.pie_record::event::put_update","ax",@progbits
	.p2align	4
	.type	"pie_record::event::put_update",@function
"pie_record::event::put_update":
	pushq	%rbp
	pushq	%r15
	pushq	%r14
	pushq	%rbx
	pushq	%rax
	movq	%rcx, %r15
	movq	%rdx, %r14
	movl	%esi, %ebp
	movq	%rdi, %rbx
	movb	$10, 511(%rdi)
	movl	$511, %ecx
	cmpq	$10000, %r9
	jb	.LBB30_1
	.p2align	4
.LBB30_2:
	movabsq	$3777893186295716171, %rdx
	movq	%r9, %rax
	mulq	%rdx
	shrq	$11, %rdx
	imull	$10000, %edx, %eax
	movl	%r9d, %esi
	subl	%eax, %esi
	imull	$5243, %esi, %eax
	shrl	$19, %eax
	imull	$100, %eax, %edi
	subl	%edi, %esi
	movzwl	%si, %esi
	leaq	.Lstatic.34(%rip), %rdi
	movzwl	(%rdi,%rsi,2), %esi
	movw	%si, -2(%rbx,%rcx)
	movzwl	(%rdi,%rax,2), %eax
	movw	%ax, -4(%rbx,%rcx)
	addq	$-4, %rcx
	cmpq	$99999999, %r9
	movq	%rdx, %r9
	ja	.LBB30_2
	cmpq	$99, %rdx
	ja	.LBB30_7
.LBB30_4:
	cmpq	$9, %rdx
	ja	.LBB30_6
	orb	$48, %dl
	movb	%dl, -1(%rbx,%rcx)
	decq	%rcx
	jmp	.LBB30_10
.LBB30_1:
	movq	%r9, %rdx
	cmpq	$99, %rdx
	jbe	.LBB30_4
.LBB30_7:
	movl	%edx, %eax
	shrl	$2, %eax
	movzwl	%ax, %eax
	imull	$5243, %eax, %eax
	shrl	$17, %eax
	imull	$100, %eax, %esi
	movl	%edx, %edi
	subl	%esi, %edi
	movzwl	%di, %edi
	leaq	.Lstatic.34(%rip), %rsi
	movzwl	(%rsi,%rdi,2), %edi
	movw	%di, -2(%rbx,%rcx)
	cmpq	$999, %rdx
	ja	.LBB30_9
	orb	$48, %al
	movb	%al, -3(%rbx,%rcx)
	addq	$-3, %rcx
	jmp	.LBB30_10
.LBB30_6:
	leaq	.Lstatic.34(%rip), %rax
	movzwl	(%rax,%rdx,2), %eax
	movw	%ax, -2(%rbx,%rcx)
	addq	$-2, %rcx
	jmp	.LBB30_10
.LBB30_9:
	movzwl	%ax, %eax
	movzwl	(%rsi,%rax,2), %eax
	movw	%ax, -4(%rbx,%rcx)
	addq	$-4, %rcx
.LBB30_10:
	movq	%rcx, 512(%rbx)
	movq	%rbx, %rdi
	movq	%r8, %rsi
	callq	"pie_record::row_buffer::RowBuffer::prepend_number"
	movq	%rbx, %rdi
	movq	%r15, %rsi
	callq	"pie_record::row_buffer::RowBuffer::prepend_number"
	movq	%rbx, %rdi
	movq	%r14, %rsi
	callq	"pie_record::row_buffer::RowBuffer::prepend_number"
	movzwl	%bp, %esi
	movq	%rbx, %rdi
	callq	"pie_record::row_buffer::RowBuffer::prepend_number"
	movq	512(%rbx), %rax
	leaq	-1(%rax), %rcx
	movq	%rcx, 512(%rbx)
	movb	$44, -1(%rbx,%rax)
	movq	512(%rbx), %rax
	leaq	-6(%rax), %rcx
	movq	%rcx, 512(%rbx)
	addq	%rbx, %rax
	addq	$-6, %rax
	leaq	.Lstatic.41(%rip), %rcx
	movq	%rax, %rdx
	subq	%rcx, %rdx
	cmpq	$5, %rdx
	ja	.LBB30_13
	movl	$1633972341, (%rax)
	movw	$25972, 4(%rax)
	jmp	.LBB30_12
.LBB30_13:
	movw	$25972, 4(%rax)
	movl	$1633972341, (%rax)
.LBB30_12:
	addq	$8, %rsp
	popq	%rbx
	popq	%r14
	popq	%r15
	popq	%rbp
	retq
.Lfunc_end30:
	.size	"pie_record::event::put_update", .Lfunc_end30-"pie_record::event::put_update"

	.section	.text.pie_check_params,"ax",@progbits
	.globl	pie_check_params
	.p2align	4
	.type	pie_check_params,@function
pie_check_params:
	pushq	%rbp
	pushq	%r15
	pushq	%r14
	pushq	%rbx
	movq	40(%rdi), %r8
	movq	48(%rdi), %rsi
	movq	64(%rdi), %rcx
	popcntq	%rcx, %rax
	cmpl	$1, %eax
	setne	%al
	rep		bsfq	%rcx, %rcx
	addq	$-17, %rcx
	cmpq	$-7, %rcx
	setb	%cl
	movabsq	$1000000000000, %r11
	cmpq	%r11, 56(%rdi)
	seta	%dl
	addq	$-1073741825, %rsi
	cmpq	$-1073741824, %rsi
	setb	%sil
	addq	$-65536, %r8
	cmpq	$-65535, %r8
	setb	%r8b
	cmpq	$1000001, 32(%rdi)
	setae	%r9b
	cmpq	$1000001, 24(%rdi)
	setae	%r10b
	cmpq	%r11, 16(%rdi)
	seta	%r11b
	movabsq	$-10000000001, %rbx
	movq	8(%rdi), %r14
	addq	%rbx, %r14
	leaq	1(%rbx), %r15
	cmpq	%r15, %r14
	setb	%bpl
	movq	(%rdi), %rdi
	addq	%rbx, %rdi
	addq	$2, %rbx
	xorl	%r14d, %r14d
	cmpq	%rbx, %rdi
	setae	%r14b
	setb	%dil
	orb	%bpl, %dil
	orb	%r11b, %r10b
	orb	%dil, %r10b
	xorb	$3, %r11b
	movzbl	%r11b, %r11d
	testb	%dil, %dil
	cmovnel	%r14d, %r11d
	orb	%r9b, %r8b
	orb	%r10b, %r8b
	xorb	$5, %r9b
	movzbl	%r9b, %edi
	testb	%r10b, %r10b
	cmovnel	%r11d, %edi
	orb	%sil, %dl
	orb	%r8b, %dl
	xorb	$7, %sil
	movzbl	%sil, %esi
	testb	%r8b, %r8b
	cmovnel	%edi, %esi
	orb	%al, %cl
	movzbl	%cl, %eax
	testb	$1, %dl
	movl	$1, %edi
	cmovel	%eax, %edi
	movzbl	%dil, %eax
	testb	%al, %al
	je	.LBB31_4
	testl	%eax, %eax
	je	.LBB31_3
	shlb	$3, %cl
	movzbl	%sil, %eax
	movzbl	%cl, %ecx
	testb	$1, %dl
	cmovnel	%eax, %ecx
	incb	%cl
	movzbl	%cl, %eax
	jmp	.LBB31_4
.LBB31_3:
	movl	$1, %eax
.LBB31_4:
	popq	%rbx
	popq	%r14
	popq	%r15
	popq	%rbp
	retq
.Lfunc_end31:
	.size	pie_check_params, .Lfunc_end31-pie_check_params

	.section	.rodata.cst16,"aM",@progbits,16
	.p2align	4, 0x0
.LCPI32_0:
	.quad	-2
	.quad	-1
.LCPI32_1:
	.quad	-9223372036854775808
	.quad	-9223372036854775808
.LCPI32_2:
	.quad	-9223371036854775808
	.quad	-9223372036853775808
.LCPI32_3:
	.quad	-9223372036853775808
	.quad	-9223371036854775808
.LCPI32_4:
	.quad	-9223372026854775810
	.quad	-9223372026854775809
.LCPI32_5:
	.quad	-9223372036854710274
	.quad	-9223372035781033985
	.section	.text.pie_check_state,"ax",@progbits
	.globl	pie_check_state
	.p2align	4
	.type	pie_check_state,@function
pie_check_state:
	movl	$110, %eax
	cmpq	$31, 168(%rdi)
	ja	.LBB32_22
	movabsq	$1099511627777, %rdx
	cmpq	%rdx, 176(%rdi)
	jae	.LBB32_22
	movq	64(%rdi), %rcx
	movdqu	(%rdi), %xmm0
	movdqu	16(%rdi), %xmm1
	movdqu	32(%rdi), %xmm2
	movdqu	48(%rdi), %xmm4
	movdqa	%xmm4, %xmm5
	palignr	$8, %xmm2, %xmm5
	pcmpeqd	%xmm3, %xmm3
	paddq	%xmm5, %xmm3
	paddq	.LCPI32_0(%rip), %xmm0
	pblendw	$240, %xmm4, %xmm2
	movdqa	.LCPI32_1(%rip), %xmm4
	pxor	%xmm4, %xmm1
	pcmpgtq	.LCPI32_2(%rip), %xmm1
	popcntq	%rcx, %rsi
	pxor	%xmm4, %xmm2
	pcmpgtq	.LCPI32_3(%rip), %xmm2
	cmpl	$1, %esi
	pxor	%xmm4, %xmm0
	pcmpgtq	.LCPI32_4(%rip), %xmm0
	sete	%sil
	pxor	%xmm4, %xmm3
	pcmpgtq	.LCPI32_5(%rip), %xmm3
	packssdw	%xmm2, %xmm1
	packssdw	%xmm3, %xmm0
	packssdw	%xmm1, %xmm0
	pmovmskb	%xmm0, %r8d
	testl	%r8d, %r8d
	sete	%r8b
	andb	%sil, %r8b
	cmpb	$1, %r8b
	jne	.LBB32_22
	rep		bsfq	%rcx, %rsi
	addl	$-10, %esi
	cmpl	$6, %esi
	ja	.LBB32_22
	movabsq	$1152921504606846975, %r8
	movq	72(%rdi), %rsi
	leaq	1(%r8), %r9
	cmpq	%r9, %rsi
	jae	.LBB32_22
	movabsq	$1000000000001, %r9
	cmpq	%r9, 80(%rdi)
	jae	.LBB32_22
	cmpq	%rdx, 88(%rdi)
	jae	.LBB32_22
	cmpq	%r9, 96(%rdi)
	jae	.LBB32_22
	cmpq	%rsi, 104(%rdi)
	ja	.LBB32_22
	movabsq	$8499999999999, %rdx
	cmpq	%rdx, 112(%rdi)
	ja	.LBB32_22
	cmpq	%r8, 120(%rdi)
	ja	.LBB32_22
	movq	128(%rdi), %rdx
	testq	%rdx, %rdx
	je	.LBB32_15
	cmpq	$1, %rdx
	jne	.LBB32_22
	cmpq	%rsi, 136(%rdi)
	ja	.LBB32_22
	cmpq	%rcx, 144(%rdi)
	jb	.LBB32_17
	jmp	.LBB32_22
.LBB32_15:
	cmpq	$0, 136(%rdi)
	jne	.LBB32_22
	cmpq	$0, 144(%rdi)
	jne	.LBB32_22
.LBB32_17:
	movq	152(%rdi), %rcx
	cmpq	$1, %rcx
	je	.LBB32_20
	cmpq	$2, %rcx
	jne	.LBB32_22
	cmpq	$2, 160(%rdi)
	jae	.LBB32_22
.LBB32_21:
	xorl	%eax, %eax
.LBB32_22:
	retq
.LBB32_20:
	cmpq	$1, 160(%rdi)
	je	.LBB32_21
	jmp	.LBB32_22
.Lfunc_end32:
	.size	pie_check_state, .Lfunc_end32-pie_check_state

	.section	.text.pie_default_opening,"ax",@progbits
	.globl	pie_default_opening
	.p2align	4
	.type	pie_default_opening,@function
pie_default_opening:
	testq	%rsi, %rsi
	je	.LBB33_1
	movabsq	$-3689348814741910323, %rcx
	movq	%rsi, %rax
	mulq	%rcx
	shrq	$5, %rdx
	shrdq	$3, %rax, %rax
	movabsq	$461168601842738790, %rcx
	xorl	%esi, %esi
	cmpq	%rcx, %rax
	seta	%sil
	addq	%rdx, %rsi
	cmpq	$25001, %rsi
	movl	$25000, %ecx
	cmovaeq	%rsi, %rcx
	cmpq	$1073741824, %rcx
	movl	$1073741824, %eax
	cmovbq	%rcx, %rax
	jmp	.LBB33_3
.LBB33_1:
	movl	$262144, %eax
.LBB33_3:
	movq	$15000000, (%rdi)
	movq	$15000000, 8(%rdi)
	movq	$150000000, 16(%rdi)
	movq	$125, 24(%rdi)
	movq	$1250, 32(%rdi)
	movq	$1024, 40(%rdi)
	movq	%rax, 48(%rdi)
	movabsq	$100000000000, %rax
	movq	%rax, 56(%rdi)
	movq	$16384, 64(%rdi)
	movq	$0, 72(%rdi)
	movq	$1, 80(%rdi)
	movq	$1, 88(%rdi)
	movq	$1, 96(%rdi)
	movq	$1048576, 104(%rdi)
	movq	$1024, 112(%rdi)
	movabsq	$140737488355328, %rax
	movq	%rax, 120(%rdi)
	retq
.Lfunc_end33:
	.size	pie_default_opening, .Lfunc_end33-pie_default_opening

	.section	.text.pie_default_params,"ax",@progbits
	.globl	pie_default_params
	.p2align	4
	.type	pie_default_params,@function
pie_default_params:
	movq	$15000000, (%rdi)
	movq	$15000000, 8(%rdi)
	movq	$150000000, 16(%rdi)
	movq	$125, 24(%rdi)
	movq	$1250, 32(%rdi)
	movq	$1024, 40(%rdi)
	movq	$262144, 48(%rdi)
	movabsq	$100000000000, %rax
	movq	%rax, 56(%rdi)
	movq	$16384, 64(%rdi)
	retq
.Lfunc_end34:
	.size	pie_default_params, .Lfunc_end34-pie_default_params

	.section	.text.pie_due,"ax",@progbits
	.globl	pie_due
	.p2align	4
	.type	pie_due,@function
pie_due:
	movq	8(%rdi), %rcx
	addq	104(%rdi), %rcx
	movq	$-1, %rax
	cmovaeq	%rcx, %rax
	retq
.Lfunc_end35:
	.size	pie_due, .Lfunc_end35-pie_due

	.section	.text.pie_empty,"ax",@progbits
	.globl	pie_empty
	.p2align	4
	.type	pie_empty,@function
pie_empty:
	movq	%rsi, %rax
	shrq	$60, %rax
	movl	$101, %eax
	jne	.LBB36_2
	movq	72(%rdi), %rax
	cmpq	%rax, %rsi
	cmovaq	%rsi, %rax
	movq	%rax, 72(%rdi)
	xorl	%eax, %eax
.LBB36_2:
	retq
.Lfunc_end36:
	.size	pie_empty, .Lfunc_end36-pie_empty

	.section	.text.pie_empty_event,"ax",@progbits
	.globl	pie_empty_event
	.p2align	4
	.type	pie_empty_event,@function
pie_empty_event:
	movq	(%rsi), %rcx
	movq	%rcx, %rax
	shrq	$60, %rax
	movl	$101, %eax
	jne	.LBB37_2
	movq	72(%rdi), %rax
	cmpq	%rax, %rcx
	cmovaq	%rcx, %rax
	movq	%rax, 72(%rdi)
	movl	$5, %eax
.LBB37_2:
	movl	%eax, 52(%rsi)
	movl	$0, 60(%rsi)
	xorps	%xmm0, %xmm0
	movups	%xmm0, 16(%rsi)
	movups	%xmm0, 32(%rsi)
	movw	$2, 58(%rsi)
	movq	$0, 8(%rsi)
	movl	$0, 48(%rsi)
	retq
.Lfunc_end37:
	.size	pie_empty_event, .Lfunc_end37-pie_empty_event

	.section	.text.pie_empty_summed,"ax",@progbits
	.globl	pie_empty_summed
	.p2align	4
	.type	pie_empty_summed,@function
pie_empty_summed:
	pushq	%rbp
	pushq	%r15
	pushq	%r14
	pushq	%r13
	pushq	%r12
	pushq	%rbx
	subq	$24, %rsp
	movq	%rdx, %rbx
	movq	160(%rdi), %rcx
	movq	(%rsi), %rdx
	movq	%rdx, %rax
	shrq	$60, %rax
	movl	$101, %ebp
	jne	.LBB38_2
	movq	72(%rdi), %r8
	cmpq	%r8, %rdx
	cmovaq	%rdx, %r8
	movq	%r8, 72(%rdi)
	movl	$5, %ebp
.LBB38_2:
	cmpq	$1, %rcx
	setne	%r15b
	movl	%ebp, 52(%rsi)
	movl	$0, 60(%rsi)
	xorps	%xmm0, %xmm0
	movups	%xmm0, 16(%rsi)
	movups	%xmm0, 32(%rsi)
	movw	$2, 58(%rsi)
	movq	$0, 8(%rsi)
	movl	$0, 48(%rsi)
	cmpq	$1, 160(%rdi)
	sete	%r12b
	testq	%rax, %rax
	jne	.LBB38_18
	movq	(%rdi), %rax
	movq	%rax, 16(%rsp)
	movq	72(%rdi), %r14
	movq	80(%rdi), %r13
	movq	96(%rdi), %rax
	movq	%rax, 8(%rsp)
	cmpq	%r14, 32(%rbx)
	ja	.LBB38_5
	cmpq	40(%rbx), %r14
	jae	.LBB38_5
	movq	48(%rbx), %rax
	cmpq	416(%rbx), %rax
	jne	.LBB38_7
.LBB38_8:
	incq	120(%rbx)
	je	.LBB38_9
.LBB38_10:
	movl	%r15d, %eax
	andb	%r12b, %al
	movq	%r14, 272(%rbx)
	cmpq	%r13, 360(%rbx)
	je	.LBB38_13
	movq	%r13, 360(%rbx)
	cmpq	%r13, 352(%rbx)
	jae	.LBB38_13
	movq	%r13, 352(%rbx)
.LBB38_13:
	orb	%r12b, %r15b
	testb	%al, %al
	je	.LBB38_15
	leaq	368(%rbx), %rdi
	movq	%r14, %rsi
	callq	"pie_explain::aggregates::Bounds::take_rare"
.LBB38_15:
	testb	%r15b, %r15b
	jne	.LBB38_17
	leaq	392(%rbx), %rdi
	movq	%r14, %rsi
	callq	"pie_explain::aggregates::Bounds::take_rare"
.LBB38_17:
	movq	16(%rsp), %rax
	movq	%rax, 464(%rbx)
	movq	8(%rsp), %rax
	movq	%rax, 472(%rbx)
.LBB38_18:
	movl	%ebp, %eax
	addq	$24, %rsp
	popq	%rbx
	popq	%r12
	popq	%r13
	popq	%r14
	popq	%r15
	popq	%rbp
	retq
.LBB38_5:
	movq	%rbx, %rdi
	movq	%r14, %rsi
	callq	"pie_explain::live_interval::LiveInterval::begin_interval"
	movq	48(%rbx), %rax
	cmpq	416(%rbx), %rax
	je	.LBB38_8
.LBB38_7:
	movq	%rbx, %rdi
	movq	%r14, %rsi
	callq	"pie_explain::live_interval::LiveInterval::note_first_time"
	incq	120(%rbx)
	jne	.LBB38_10
.LBB38_9:
	leaq	120(%rbx), %rdi
	callq	"pie_explain::explainer::saturate"
	jmp	.LBB38_10
.Lfunc_end38:
	.size	pie_empty_summed, .Lfunc_end38-pie_empty_summed

	.section	.text.pie_open,"ax",@progbits
	.globl	pie_open
	.p2align	4
	.type	pie_open,@function
pie_open:
	pushq	%r14
	pushq	%rbx
	subq	$88, %rsp
	movq	%rsi, %r14
	movq	%rdi, %rbx
	movq	%rsp, %rdi
	callq	"pie_abi::opening::checked"
	cmpb	$0, (%rsp)
	je	.LBB39_1
	movl	4(%rsp), %eax
	addq	$88, %rsp
	popq	%rbx
	popq	%r14
	retq
.LBB39_1:
	movq	8(%rsp), %rax
	movq	56(%rsp), %rcx
	xorl	%edx, %edx
	cmpb	$0, 81(%rsp)
	sete	%dl
	movq	64(%r14), %rsi
	movups	(%r14), %xmm0
	movups	16(%r14), %xmm1
	movups	32(%r14), %xmm2
	movups	48(%r14), %xmm3
	movups	%xmm0, (%rbx)
	movups	%xmm1, 16(%rbx)
	movups	%xmm2, 32(%rbx)
	movups	%xmm3, 48(%rbx)
	movq	%rsi, 64(%rbx)
	movq	80(%r14), %rsi
	movq	%rsi, 152(%rbx)
	movq	88(%r14), %rsi
	movq	%rsi, 168(%rbx)
	movq	%rax, 72(%rbx)
	xorps	%xmm0, %xmm0
	movups	%xmm0, 80(%rbx)
	movups	%xmm0, 120(%rbx)
	movups	%xmm0, 136(%rbx)
	movq	%rcx, 96(%rbx)
	movq	%rax, 104(%rbx)
	movq	$0, 112(%rbx)
	movq	%rdx, 160(%rbx)
	movq	$0, 176(%rbx)
	xorl	%eax, %eax
	addq	$88, %rsp
	popq	%rbx
	popq	%r14
	retq
.Lfunc_end39:
	.size	pie_open, .Lfunc_end39-pie_open

	.section	.text.pie_open_period,"ax",@progbits
	.globl	pie_open_period
	.p2align	4
	.type	pie_open_period,@function
pie_open_period:
	pushq	%rbx
	movabsq	$-1152921504606846976, %rax
	leaq	(%rsi,%rax), %rcx
	incq	%rax
	movl	$128, %ebx
	cmpq	%rax, %rcx
	jb	.LBB40_2
	xorl	%eax, %eax
	testl	%edx, %edx
	setne	%al
	movq	%rsi, (%rdi)
	movq	%rax, 8(%rdi)
	addq	$16, %rdi
	xorl	%ebx, %ebx
	movl	$14224, %edx
	xorl	%esi, %esi
	callq	memset@PLT
.LBB40_2:
	movl	%ebx, %eax
	popq	%rbx
	retq
.Lfunc_end40:
	.size	pie_open_period, .Lfunc_end40-pie_open_period

	.section	.text.pie_params_for,"ax",@progbits
	.globl	pie_params_for
	.p2align	4
	.type	pie_params_for,@function
pie_params_for:
	testq	%rdi, %rdi
	je	.LBB41_1
	movabsq	$-3689348814741910323, %rcx
	movq	%rdi, %rax
	mulq	%rcx
	shrq	$5, %rdx
	shrdq	$3, %rax, %rax
	movabsq	$461168601842738790, %rcx
	xorl	%edi, %edi
	cmpq	%rcx, %rax
	seta	%dil
	addq	%rdx, %rdi
	cmpq	$25001, %rdi
	movl	$25000, %ecx
	cmovaeq	%rdi, %rcx
	cmpq	$1073741824, %rcx
	movl	$1073741824, %eax
	cmovbq	%rcx, %rax
	jmp	.LBB41_3
.LBB41_1:
	movl	$262144, %eax
.LBB41_3:
	movq	$15000000, (%rsi)
	movq	$15000000, 8(%rsi)
	movq	$150000000, 16(%rsi)
	movq	$125, 24(%rsi)
	movq	$1250, 32(%rsi)
	movq	$1024, 40(%rsi)
	movq	%rax, 48(%rsi)
	movabsq	$100000000000, %rax
	movq	%rax, 56(%rsi)
	movq	$16384, 64(%rsi)
	retq
.Lfunc_end41:
	.size	pie_params_for, .Lfunc_end41-pie_params_for

	.section	.text.pie_period_clock,"ax",@progbits
	.globl	pie_period_clock
	.p2align	4
	.type	pie_period_clock,@function
pie_period_clock:
	movq	%rsi, %rax
	shrq	$60, %rax
	movl	$101, %eax
	jne	.LBB42_2
	movq	$1, 48(%rdi)
	movq	%rsi, 56(%rdi)
	movq	%rdx, 64(%rdi)
	xorl	%eax, %eax
.LBB42_2:
	retq
.Lfunc_end42:
	.size	pie_period_clock, .Lfunc_end42-pie_period_clock

	.section	.text.pie_read_packets,"ax",@progbits
	.globl	pie_read_packets
	.p2align	4
	.type	pie_read_packets,@function
pie_read_packets:
	pushq	%rbx
	subq	$16, %rsp
	movq	%rdx, %rbx
	movq	%rsi, %rcx
	xorl	%edx, %edx
	testq	%rdi, %rdi
	sete	%dl
	shll	$12, %edx
	addq	%rdi, %rdx
	xorps	%xmm0, %xmm0
	movaps	%xmm0, (%rsp)
	movq	%rsp, %rdi
	movl	$4, %esi
	callq	"pie_units::number::read"
	cmpb	$0, (%rsp)
	je	.LBB43_1
	movzbl	1(%rsp), %eax
	addl	$114, %eax
	addq	$16, %rsp
	popq	%rbx
	retq
.LBB43_1:
	movq	8(%rsp), %rax
	movq	%rax, (%rbx)
	xorl	%eax, %eax
	addq	$16, %rsp
	popq	%rbx
	retq
.Lfunc_end43:
	.size	pie_read_packets, .Lfunc_end43-pie_read_packets

	.section	.text.pie_read_rate,"ax",@progbits
	.globl	pie_read_rate
	.p2align	4
	.type	pie_read_rate,@function
pie_read_rate:
	pushq	%rbx
	subq	$16, %rsp
	movq	%rdx, %rbx
	movq	%rsi, %rcx
	xorl	%edx, %edx
	testq	%rdi, %rdi
	sete	%dl
	shll	$12, %edx
	addq	%rdi, %rdx
	xorps	%xmm0, %xmm0
	movaps	%xmm0, (%rsp)
	movq	%rsp, %rdi
	movl	$2, %esi
	callq	"pie_units::number::read"
	cmpb	$0, (%rsp)
	je	.LBB44_1
	movzbl	1(%rsp), %eax
	addl	$114, %eax
	addq	$16, %rsp
	popq	%rbx
	retq
.LBB44_1:
	movq	8(%rsp), %rax
	movq	%rax, (%rbx)
	xorl	%eax, %eax
	addq	$16, %rsp
	popq	%rbx
	retq
.Lfunc_end44:
	.size	pie_read_rate, .Lfunc_end44-pie_read_rate

	.section	.text.pie_read_size,"ax",@progbits
	.globl	pie_read_size
	.p2align	4
	.type	pie_read_size,@function
pie_read_size:
	pushq	%rbx
	subq	$16, %rsp
	movq	%rdx, %rbx
	movq	%rsi, %rcx
	xorl	%edx, %edx
	testq	%rdi, %rdi
	sete	%dl
	shll	$12, %edx
	addq	%rdi, %rdx
	xorps	%xmm0, %xmm0
	movaps	%xmm0, (%rsp)
	movq	%rsp, %rdi
	movl	$3, %esi
	callq	"pie_units::number::read"
	cmpb	$0, (%rsp)
	je	.LBB45_1
	movzbl	1(%rsp), %eax
	addl	$114, %eax
	addq	$16, %rsp
	popq	%rbx
	retq
.LBB45_1:
	movq	8(%rsp), %rax
	movq	%rax, (%rbx)
	xorl	%eax, %eax
	addq	$16, %rsp
	popq	%rbx
	retq
.Lfunc_end45:
	.size	pie_read_size, .Lfunc_end45-pie_read_size

	.section	.text.pie_read_time,"ax",@progbits
	.globl	pie_read_time
	.p2align	4
	.type	pie_read_time,@function
pie_read_time:
	pushq	%rbx
	subq	$16, %rsp
	movq	%rdx, %rbx
	movq	%rsi, %rcx
	xorl	%edx, %edx
	testq	%rdi, %rdi
	sete	%dl
	shll	$12, %edx
	addq	%rdi, %rdx
	xorps	%xmm0, %xmm0
	movaps	%xmm0, (%rsp)
	movq	%rsp, %rdi
	movl	$1, %esi
	callq	"pie_units::number::read"
	cmpb	$0, (%rsp)
	je	.LBB46_1
	movzbl	1(%rsp), %eax
	addl	$114, %eax
	addq	$16, %rsp
	popq	%rbx
	retq
.LBB46_1:
	movq	8(%rsp), %rax
	movq	%rax, (%rbx)
	xorl	%eax, %eax
	addq	$16, %rsp
	popq	%rbx
	retq
.Lfunc_end46:
	.size	pie_read_time, .Lfunc_end46-pie_read_time

	.section	.text.pie_write_clock,"ax",@progbits
	.globl	pie_write_clock
	.p2align	4
	.type	pie_write_clock,@function
pie_write_clock:
	pushq	%rbp
	pushq	%r15
	pushq	%r14
	pushq	%r13
	pushq	%r12
	pushq	%rbx
	subq	$536, %rsp
	movq	%rcx, %r15
	movq	%rdx, %r14
	movq	%rsi, %r12
	movq	%rdi, %r13
	xorl	%ebp, %ebp
	testq	%rdx, %rdx
	sete	7(%rsp)
	leaq	16(%rsp), %rdi
	movl	$512, %ebx
	movl	$512, %edx
	xorl	%esi, %esi
	callq	memset@PLT
	movq	$512, 528(%rsp)
	movq	%r13, %rax
	shrq	$60, %rax
	movl	$512, %eax
	jne	.LBB47_2
	movq	%r13, 8(%rsp)
	leaq	16(%rsp), %rdi
	leaq	8(%rsp), %rdx
	movl	$16, %esi
	movq	%r12, %rcx
	xorl	%r8d, %r8d
	callq	"pie_record::note::put_note"
	movq	528(%rsp), %rax
.LBB47_2:
	subq	%rax, %rbx
	cmpq	%rbx, %r15
	jae	.LBB47_4
	xorl	%ebx, %ebx
	jmp	.LBB47_5
.LBB47_4:
	movzbl	7(%rsp), %ecx
	movb	%cl, %bpl
	shll	$12, %ebp
	addq	%rbp, %r14
	leaq	(%rsp,%rax), %rsi
	addq	$16, %rsi
	movq	%r14, %rdi
	movq	%rbx, %rdx
	callq	memcpy@PLT
.LBB47_5:
	movq	%rbx, %rax
	addq	$536, %rsp
	popq	%rbx
	popq	%r12
	popq	%r13
	popq	%r14
	popq	%r15
	popq	%rbp
	retq
.Lfunc_end47:
	.size	pie_write_clock, .Lfunc_end47-pie_write_clock

	.section	.text.pie_write_lost,"ax",@progbits
	.globl	pie_write_lost
	.p2align	4
	.type	pie_write_lost,@function
pie_write_lost:
	pushq	%rbp
	pushq	%r15
	pushq	%r14
	pushq	%r13
	pushq	%r12
	pushq	%rbx
	subq	$520, %rsp
	movq	%rdx, %r15
	movq	%rsi, %r14
	movq	%rdi, %r12
	xorl	%r13d, %r13d
	testq	%rsi, %rsi
	sete	%bpl
	movq	%rsp, %rdi
	movl	$512, %ebx
	movl	$512, %edx
	xorl	%esi, %esi
	callq	memset@PLT
	movq	$512, 512(%rsp)
	movl	$512, %eax
	testq	%r12, %r12
	je	.LBB48_2
	movq	%rsp, %rdi
	movq	%r12, %rsi
	callq	"pie_record::note::put_lost"
	movq	512(%rsp), %rax
.LBB48_2:
	subq	%rax, %rbx
	cmpq	%rbx, %r15
	jae	.LBB48_4
	xorl	%ebx, %ebx
	jmp	.LBB48_5
.LBB48_4:
	movb	%bpl, %r13b
	shll	$12, %r13d
	addq	%r13, %r14
	leaq	(%rsp,%rax), %rsi
	movq	%r14, %rdi
	movq	%rbx, %rdx
	callq	memcpy@PLT
.LBB48_5:
	movq	%rbx, %rax
	addq	$520, %rsp
	popq	%rbx
	popq	%r12
	popq	%r13
	popq	%r14
	popq	%r15
	popq	%rbp
	retq
.Lfunc_end48:
	.size	pie_write_lost, .Lfunc_end48-pie_write_lost

	.section	.rodata.cst16,"aM",@progbits,16
	.p2align	4, 0x0
.LCPI49_0:
	.quad	150000000
	.quad	100000000000
.LCPI49_1:
	.quad	15000000
	.quad	15000000
.LCPI49_2:
	.byte	108
	.byte	108
	.byte	105
	.byte	110
	.zero	1
	.zero	1
	.zero	1
	.zero	1
	.zero	1
	.zero	1
	.zero	1
	.zero	1
	.zero	1
	.zero	1
	.zero	1
	.zero	1
.LCPI49_3:
	.byte	117
	.byte	110
	.byte	100
	.byte	101
	.zero	1
	.zero	1
	.zero	1
	.zero	1
	.zero	1
	.zero	1
	.zero	1
	.zero	1
	.zero	1
	.zero	1
	.zero	1
	.zero	1
.LCPI49_4:
	.byte	108
	.byte	108
	.byte	105
	.byte	110
	.byte	0
	.byte	0
	.byte	0
	.byte	0
	.byte	0
	.byte	0
	.byte	0
	.byte	0
	.byte	0
	.byte	0
	.byte	0
	.byte	0
	.section	.text.pie_write_opening,"ax",@progbits
	.globl	pie_write_opening
	.p2align	4
	.type	pie_write_opening,@function
pie_write_opening:
	pushq	%rbp
	pushq	%r15
	pushq	%r14
	pushq	%r13
	pushq	%r12
	pushq	%rbx
	subq	$776, %rsp
	movq	%rdx, %r15
	movq	%rsi, %r14
	movq	%rdi, %r12
	xorl	%r13d, %r13d
	testq	%rsi, %rsi
	sete	%bpl
	leaq	256(%rsp), %rdi
	movl	$512, %ebx
	movl	$512, %edx
	xorl	%esi, %esi
	callq	memset@PLT
	movq	$512, 768(%rsp)
	leaq	136(%rsp), %rdi
	movq	%r12, %rsi
	callq	"pie_abi::opening::checked"
	cmpb	$0, 136(%rsp)
	movl	$512, %eax
	je	.LBB49_1
	subq	%rax, %rbx
	cmpq	%rbx, %r15
	jae	.LBB49_44
.LBB49_43:
	xorl	%ebx, %ebx
	jmp	.LBB49_45
.LBB49_1:
	movb	%bpl, 4(%rsp)
	movq	%r15, 16(%rsp)
	movq	144(%rsp), %rax
	movq	%rax, 24(%rsp)
	movl	152(%rsp), %eax
	movq	%rax, 8(%rsp)
	movl	156(%rsp), %eax
	movq	%rax, 32(%rsp)
	movq	160(%rsp), %r13
	movl	168(%rsp), %r8d
	movl	208(%rsp), %ecx
	movl	212(%rsp), %edx
	movsd	216(%rsp), %xmm0
	movaps	%xmm0, 240(%rsp)
	movss	220(%rsp), %xmm0
	movaps	%xmm0, 224(%rsp)
	movzbl	221(%rsp), %eax
	movb	%al, 6(%rsp)
	movzbl	220(%rsp), %eax
	movb	%al, 5(%rsp)
	movzbl	222(%rsp), %eax
	movb	%al, 7(%rsp)
	movzwl	174(%rsp), %eax
	movzwl	172(%rsp), %r10d
	leaq	1(%r10), %r9
	cmpl	$125, %ecx
	sete	%r11b
	cmpl	$1250, %edx
	sete	%sil
	cmpl	$1024, %eax
	sete	%dil
	cmpl	$262144, %r8d
	sete	%r12b
	movdqu	192(%rsp), %xmm0
	movdqu	176(%rsp), %xmm1
	cmpq	$16384, %r9
	sete	%bpl
	movdqa	.LCPI49_0(%rip), %xmm2
	pxor	%xmm0, %xmm2
	movdqa	.LCPI49_1(%rip), %xmm3
	pxor	%xmm1, %xmm3
	por	%xmm2, %xmm3
	ptest	%xmm3, %xmm3
	sete	%r15b
	andb	%r11b, %bpl
	andb	%sil, %bpl
	andb	%r12b, %bpl
	andb	%dil, %bpl
	andb	%r15b, %bpl
	movb	$10, 767(%rsp)
	cmpb	$1, %bpl
	jne	.LBB49_13
	movl	$511, %r8d
	movq	%r13, %rdx
	cmpq	$10000, %r13
	jb	.LBB49_5
	movq	%r13, %rcx
	.p2align	4
.LBB49_4:
	movabsq	$3777893186295716171, %rdx
	movq	%rcx, %rax
	mulq	%rdx
	shrq	$11, %rdx
	imull	$10000, %edx, %eax
	movl	%ecx, %esi
	subl	%eax, %esi
	imull	$5243, %esi, %eax
	shrl	$19, %eax
	imull	$100, %eax, %edi
	subl	%edi, %esi
	movzwl	%si, %esi
	leaq	.Lstatic.34(%rip), %rdi
	movzwl	(%rdi,%rsi,2), %esi
	movw	%si, 254(%rsp,%r8)
	movzwl	(%rdi,%rax,2), %eax
	movw	%ax, 252(%rsp,%r8)
	addq	$-4, %r8
	cmpq	$99999999, %rcx
	movq	%rdx, %rcx
	ja	.LBB49_4
.LBB49_5:
	cmpq	$99, %rdx
	movq	16(%rsp), %r15
	movzbl	4(%rsp), %ebp
	movq	8(%rsp), %r12
	ja	.LBB49_9
	cmpq	$9, %rdx
	ja	.LBB49_8
	orb	$48, %dl
	movb	%dl, 255(%rsp,%r8)
	decq	%r8
	jmp	.LBB49_12
.LBB49_13:
	movl	%ecx, %ecx
	movl	%edx, %edx
	movl	%r8d, %r8d
	cmpl	$9999, %r10d
	jb	.LBB49_15
	imulq	$429497, %r9, %rsi
	shrq	$32, %rsi
	imull	$10000, %esi, %edi
	subl	%edi, %r9d
	imull	$5243, %r9d, %edi
	shrl	$19, %edi
	imull	$100, %edi, %r10d
	subl	%r10d, %r9d
	movzwl	%r9w, %r9d
	leaq	.Lstatic.34(%rip), %r10
	movzwl	(%r10,%r9,2), %r9d
	movw	%r9w, 765(%rsp)
	movzwl	(%r10,%rdi,2), %edi
	movw	%di, 763(%rsp)
	movl	$506, %r11d
	movq	%rsi, %r9
	movq	16(%rsp), %r15
	movzbl	4(%rsp), %ebp
	movq	8(%rsp), %r12
.LBB49_17:
	orb	$48, %r9b
	movb	%r9b, 256(%rsp,%r11)
.LBB49_22:
	movq	%r11, 768(%rsp)
	movq	24(%rsp), %rsi
	movq	%rsi, 40(%rsp)
	movq	%r12, 48(%rsp)
	movq	32(%rsp), %rsi
	movq	%rsi, 56(%rsp)
	movq	%r13, 64(%rsp)
	movdqu	%xmm1, 72(%rsp)
	movq	%xmm0, 88(%rsp)
	movq	%rcx, 96(%rsp)
	movq	%rdx, 104(%rsp)
	movq	%rax, 112(%rsp)
	movq	%r8, 120(%rsp)
	pextrq	$1, %xmm0, 128(%rsp)
	leaq	256(%rsp), %rdi
	leaq	40(%rsp), %rsi
	movl	$12, %edx
	jmp	.LBB49_23
.LBB49_9:
	movl	%edx, %eax
	shrl	$2, %eax
	movzwl	%ax, %eax
	imull	$5243, %eax, %eax
	shrl	$17, %eax
	imull	$100, %eax, %ecx
	movl	%edx, %esi
	subl	%ecx, %esi
	movzwl	%si, %esi
	leaq	.Lstatic.34(%rip), %rcx
	movzwl	(%rcx,%rsi,2), %esi
	movw	%si, 254(%rsp,%r8)
	cmpq	$999, %rdx
	ja	.LBB49_11
	orb	$48, %al
	movb	%al, 253(%rsp,%r8)
	addq	$-3, %r8
	jmp	.LBB49_12
.LBB49_15:
	cmpw	$98, %r10w
	movq	16(%rsp), %r15
	movzbl	4(%rsp), %ebp
	movq	8(%rsp), %r12
	ja	.LBB49_19
	movl	$510, %r11d
	cmpw	$8, %r10w
	jbe	.LBB49_17
	leaq	.Lstatic.34(%rip), %rsi
	movzbl	(%rsi,%r9,2), %edi
	movzbl	3(%rsi,%r10,2), %esi
	movb	%dil, 765(%rsp)
	movb	%sil, 766(%rsp)
	movl	$509, %r11d
	jmp	.LBB49_22
.LBB49_8:
	leaq	.Lstatic.34(%rip), %rax
	movzwl	(%rax,%rdx,2), %eax
	movw	%ax, 254(%rsp,%r8)
	addq	$-2, %r8
	jmp	.LBB49_12
.LBB49_11:
	movzwl	%ax, %eax
	movzwl	(%rcx,%rax,2), %eax
	movw	%ax, 252(%rsp,%r8)
	addq	$-4, %r8
.LBB49_12:
	movq	%r8, 768(%rsp)
	movq	24(%rsp), %rax
	movq	%rax, 40(%rsp)
	movq	%r12, 48(%rsp)
	movq	32(%rsp), %rax
	movq	%rax, 56(%rsp)
	leaq	256(%rsp), %rdi
	leaq	40(%rsp), %rsi
	movl	$3, %edx
.LBB49_23:
	callq	"pie_record::put_field::put_numbers"
	movdqa	240(%rsp), %xmm1
	movdqa	%xmm1, %xmm0
	psrld	$16, %xmm0
	punpcklwd	224(%rsp), %xmm0
	movzbl	7(%rsp), %edx
	testb	%dl, %dl
	sete	%al
	movd	%xmm0, %ecx
	testl	%ecx, %ecx
	sete	%cl
	andb	%al, %cl
	cmpb	$1, %cl
	jne	.LBB49_37
	cmpl	$65537, %r12d
	setb	%al
	movabsq	$1099511627777, %rcx
	cmpq	%rcx, %r13
	setb	%cl
	andb	%al, %cl
	cmpb	$1, %cl
	jne	.LBB49_37
	pextrb	$1, %xmm1, %eax
	movd	%xmm1, %ecx
	testl	%eax, %eax
	je	.LBB49_26
	testb	%cl, %cl
	leaq	.Lstatic.53(%rip), %rax
	leaq	.Lstatic.36(%rip), %rdx
	cmoveq	%rax, %rdx
	movq	768(%rsp), %rax
	leaq	-1(%rax), %rsi
	movq	%rsi, 768(%rsp)
	movb	$44, 255(%rsp,%rax)
	movq	768(%rsp), %rax
	leaq	-7(%rax), %rsi
	movq	%rsi, 768(%rsp)
	addq	%rsp, %rax
	addq	$249, %rax
	movq	%rax, %rsi
	subq	%rdx, %rsi
	cmpq	$6, %rsi
	ja	.LBB49_33
	xorl	%esi, %esi
	xorl	%edi, %edi
	testb	%cl, %cl
	sete	%sil
	movzbl	(%rdx), %ecx
	movb	%cl, (%rax)
	movb	$111, 1(%rax)
	movd	%esi, %xmm0
	punpcklbw	%xmm0, %xmm0
	pshuflw	$0, %xmm0, %xmm0
	psllw	$7, %xmm0
	movd	.LCPI49_4(%rip), %xmm1
	pblendvb	%xmm0, .LCPI49_3(%rip), %xmm1
	movd	%xmm1, 2(%rax)
	setne	%dil
	leal	(%rdi,%rdi,2), %ecx
	addl	$100, %ecx
	movb	%cl, 6(%rax)
	jmp	.LBB49_34
.LBB49_37:
	movd	%xmm1, 40(%rsp)
	movzbl	5(%rsp), %eax
	movb	%al, 44(%rsp)
	movzbl	6(%rsp), %eax
	movb	%al, 45(%rsp)
	movb	%dl, 46(%rsp)
	leaq	256(%rsp), %rdi
	leaq	40(%rsp), %rsi
	callq	"pie_record::opening::put_chosen"
	movq	768(%rsp), %rax
	leaq	-1(%rax), %rcx
	movq	%rcx, 768(%rsp)
	movb	$44, 255(%rsp,%rax)
	movq	768(%rsp), %rax
	leaq	-5(%rax), %rcx
	movq	%rcx, 768(%rsp)
	addq	%rsp, %rax
	addq	$251, %rax
	leaq	.Lstatic.38(%rip), %rcx
	movq	%rax, %rdx
	subq	%rcx, %rdx
	cmpq	$4, %rdx
	ja	.LBB49_39
	movl	$1852141679, (%rax)
	movb	$51, 4(%rax)
	jmp	.LBB49_40
.LBB49_39:
	movb	$51, 4(%rax)
	movl	$1852141679, (%rax)
.LBB49_40:
	xorl	%r13d, %r13d
.LBB49_41:
	movq	768(%rsp), %rax
	subq	%rax, %rbx
	cmpq	%rbx, %r15
	jb	.LBB49_43
.LBB49_44:
	movb	%bpl, %r13b
	shll	$12, %r13d
	addq	%r13, %r14
	leaq	(%rsp,%rax), %rsi
	addq	$256, %rsi
	movq	%r14, %rdi
	movq	%rbx, %rdx
	callq	memcpy@PLT
.LBB49_45:
	movq	%rbx, %rax
	addq	$776, %rsp
	popq	%rbx
	popq	%r12
	popq	%r13
	popq	%r14
	popq	%r15
	popq	%rbp
	retq
.LBB49_19:
	movl	%r9d, %esi
	shrl	$2, %esi
	imull	$5243, %esi, %r11d
	shrl	$17, %r11d
	imull	$100, %r11d, %esi
	subl	%esi, %r9d
	movzwl	%r9w, %esi
	leaq	.Lstatic.34(%rip), %r9
	movzwl	(%r9,%rsi,2), %esi
	movw	%si, 765(%rsp)
	cmpl	$998, %r10d
	ja	.LBB49_21
	orb	$48, %r11b
	movb	%r11b, 764(%rsp)
	movl	$508, %r11d
	jmp	.LBB49_22
.LBB49_26:
	movq	768(%rsp), %rax
	leaq	-1(%rax), %rdx
	movq	%rdx, 768(%rsp)
	movb	$44, 255(%rsp,%rax)
	movq	768(%rsp), %rax
	testb	%cl, %cl
	je	.LBB49_27
	leaq	-7(%rax), %rcx
	movq	%rcx, 768(%rsp)
	addq	%rsp, %rax
	addq	$249, %rax
	leaq	.Lstatic.36(%rip), %rcx
	movq	%rax, %rdx
	subq	%rcx, %rdx
	cmpq	$6, %rdx
	movl	$0, %r13d
	ja	.LBB49_30
	movl	$1819045746, (%rax)
	movw	$28265, 4(%rax)
	movb	$103, 6(%rax)
	jmp	.LBB49_41
.LBB49_33:
	movl	(%rdx), %ecx
	movl	3(%rdx), %edx
	movl	%edx, 3(%rax)
	movl	%ecx, (%rax)
.LBB49_34:
	xorl	%r13d, %r13d
	movq	768(%rsp), %rax
	leaq	-1(%rax), %rcx
	movq	%rcx, 768(%rsp)
	movb	$44, 255(%rsp,%rax)
	movq	768(%rsp), %rax
	leaq	-1(%rax), %rcx
	movq	%rcx, 768(%rsp)
	movb	$50, 255(%rsp,%rax)
	movq	768(%rsp), %rax
	leaq	-1(%rax), %rcx
	movq	%rcx, 768(%rsp)
	movb	$44, 255(%rsp,%rax)
	movq	768(%rsp), %rax
	leaq	-5(%rax), %rcx
	movq	%rcx, 768(%rsp)
	addq	%rsp, %rax
	addq	$251, %rax
	leaq	.Lstatic.37(%rip), %rcx
	movq	%rax, %rdx
	subq	%rcx, %rdx
	cmpq	$4, %rdx
	ja	.LBB49_36
	movl	$1852141679, (%rax)
	movb	$50, 4(%rax)
	jmp	.LBB49_41
.LBB49_36:
	movb	$50, 4(%rax)
	movl	$1852141679, (%rax)
	jmp	.LBB49_41
.LBB49_21:
	movzwl	%r11w, %esi
	movzwl	(%r9,%rsi,2), %esi
	movw	%si, 763(%rsp)
	movl	$507, %r11d
	jmp	.LBB49_22
.LBB49_27:
	leaq	-4(%rax), %rcx
	movq	%rcx, 768(%rsp)
	addq	%rsp, %rax
	addq	$252, %rax
	leaq	.Lstatic.35(%rip), %rcx
	movq	%rax, %rdx
	subq	%rcx, %rdx
	cmpq	$3, %rdx
	movl	$0, %r13d
	movl	$1852141679, (%rax)
	jmp	.LBB49_41
.LBB49_30:
	movl	$1735289196, 3(%rax)
	movl	$1819045746, (%rax)
	jmp	.LBB49_41
.Lfunc_end49:
	.size	pie_write_opening, .Lfunc_end49-pie_write_opening

	.section	.text.pie_write_period,"ax",@progbits
	.globl	pie_write_period
	.p2align	4
	.type	pie_write_period,@function
pie_write_period:
	pushq	%rbp
	pushq	%r15
	pushq	%r14
	pushq	%r13
	pushq	%r12
	pushq	%rbx
	subq	$1512, %rsp
	movq	%rdx, 24(%rsp)
	movq	%rsi, %r14
	movq	%rdi, %r15
	xorl	%r12d, %r12d
	testq	%rsi, %rsi
	sete	%bpl
	leaq	224(%rsp), %rdi
	xorl	%ebx, %ebx
	movl	$1288, %edx
	xorl	%esi, %esi
	callq	memset@PLT
	cmpq	$0, 16(%r15)
	je	.LBB50_51
	leaq	72(%r15), %rdi
	movq	112(%r15), %rsi
	movq	%rsi, %rax
	shrq	$2, %rax
	movabsq	$2951479051793528259, %rcx
	mulq	%rcx
	shrq	$2, %rdx
	movq	%rsi, %rax
	subq	%rdx, %rax
	xorl	%ecx, %ecx
	movq	%r14, 16(%rsp)
	movq	%rsi, 216(%rsp)
	.p2align	4
.LBB50_2:
	subq	480(%r15,%rcx,8), %rax
	jbe	.LBB50_11
	subq	488(%r15,%rcx,8), %rax
	jbe	.LBB50_8
	subq	496(%r15,%rcx,8), %rax
	jbe	.LBB50_9
	subq	504(%r15,%rcx,8), %rax
	jbe	.LBB50_10
	addq	$4, %rcx
	cmpq	$1720, %rcx
	jne	.LBB50_2
	movq	328(%r15), %rax
	movq	%rax, 80(%rsp)
	movq	%rax, 72(%rsp)
	jmp	.LBB50_19
.LBB50_8:
	incq	%rcx
	movq	328(%r15), %r9
	cmpq	$9, %rcx
	movq	%r9, 80(%rsp)
	jbe	.LBB50_12
	jmp	.LBB50_13
.LBB50_9:
	addq	$2, %rcx
.LBB50_11:
	movq	328(%r15), %r9
	cmpq	$9, %rcx
	movq	%r9, 80(%rsp)
	ja	.LBB50_13
.LBB50_12:
	cmpq	%r9, %rcx
	cmovaeq	%r9, %rcx
	movq	%rcx, 72(%rsp)
	jmp	.LBB50_19
.LBB50_10:
	addq	$3, %rcx
	movq	328(%r15), %r9
	cmpq	$9, %rcx
	movq	%r9, 80(%rsp)
	jbe	.LBB50_12
.LBB50_13:
	addq	$-10, %rcx
	movabsq	$3279421168659475843, %rdx
	movq	%rcx, %rax
	mulq	%rdx
	movq	%rdx, %rsi
	shrq	$4, %rsi
	imulq	$90, %rsi, %rax
	subq	%rax, %rcx
	addq	$11, %rcx
	testl	%esi, %esi
	je	.LBB50_14
	movq	$-1, %rax
	movq	$-1, %r8
	cmpl	$38, %esi
	ja	.LBB50_18
	movl	$1, %eax
	xorl	%r8d, %r8d
	.p2align	4
.LBB50_17:
	movl	$10, %edx
	mulq	%rdx
	leaq	(%r8,%r8,4), %r8
	leaq	(%rdx,%r8,2), %r8
	decl	%esi
	jne	.LBB50_17
	jmp	.LBB50_18
.LBB50_14:
	movl	$1, %eax
	xorl	%r8d, %r8d
.LBB50_18:
	mulq	%rcx
	movq	%rdx, %rsi
	movq	%rax, %r10
	movq	%r8, %rax
	mulq	%rcx
	addq	%rsi, %rax
	adcq	$0, %rdx
	xorl	%ecx, %ecx
	movq	%r10, %rsi
	orq	%rax, %rsi
	setne	%cl
	subq	%rcx, %r10
	sbbq	$0, %rax
	xorl	%ecx, %ecx
	cmpq	%r10, %r9
	sbbq	%rax, %rcx
	cmovbq	%r9, %r10
	testq	%rdx, %rdx
	cmovneq	%r9, %r10
	movq	%r10, 72(%rsp)
.LBB50_19:
	movq	8(%r15), %rax
	movq	%rax, 8(%rsp)
	movl	$9, %esi
	callq	"pie_explain::summary_record::together"
	movq	264(%r15), %rbx
	movq	272(%r15), %r14
	movq	288(%r15), %r12
	leaq	224(%rsp), %r13
	movq	%r13, %rdi
	movq	%rax, %rsi
	callq	"pie_record::long_row::LongRow::number"
	movq	%r13, %rdi
	movq	%rbx, %rsi
	callq	"pie_record::long_row::LongRow::number"
	movq	%r13, %rdi
	movq	%r14, %rsi
	callq	"pie_record::long_row::LongRow::number"
	movq	%r13, %rdi
	movq	%r12, %rsi
	callq	"pie_record::long_row::LongRow::number"
	xorps	%xmm0, %xmm0
	movaps	%xmm0, 48(%rsp)
	movaps	%xmm0, 32(%rsp)
	movq	$0, 64(%rsp)
	movq	296(%r15), %r9
	movq	304(%r15), %rcx
	movl	$40, %r8d
	testq	%r9, %r9
	je	.LBB50_23
	movq	%r9, %r10
	.p2align	4
.LBB50_21:
	movq	%r9, %rsi
	shldq	$63, %rcx, %rsi
	shrq	%r10
	movq	%rsi, %rdi
	addq	%r10, %rdi
	adcq	$0, %rdi
	movabsq	$-3689348814741910323, %r11
	movq	%rdi, %rax
	mulq	%r11
	shrq	$2, %rdx
	leaq	(%rdx,%rdx,4), %rax
	subq	%rax, %rdi
	subq	%rdi, %rsi
	sbbq	$0, %r10
	movq	%rsi, %rax
	mulq	%r11
	leaq	(%rax,%rax), %rdi
	leaq	(%rdi,%rdi,4), %rdi
	subl	%edi, %ecx
	orb	$48, %cl
	movb	%cl, 31(%rsp,%r8)
	decq	%r8
	movabsq	$-3689348814741910324, %rcx
	imulq	%rsi, %rcx
	addq	%rcx, %rdx
	imulq	%r11, %r10
	addq	%rdx, %r10
	movq	%rax, %rcx
	cmpq	$9, %r9
	movq	%r10, %r9
	ja	.LBB50_21
	movq	%rax, %rcx
.LBB50_23:
	movabsq	$3777893186295716171, %r13
	cmpq	$10000, %rcx
	jb	.LBB50_24
	.p2align	4
.LBB50_25:
	movq	%rcx, %rax
	mulq	%r13
	shrq	$11, %rdx
	imull	$10000, %edx, %eax
	movl	%ecx, %esi
	subl	%eax, %esi
	imull	$5243, %esi, %eax
	shrl	$19, %eax
	imull	$100, %eax, %edi
	subl	%edi, %esi
	movzwl	%si, %esi
	leaq	.Lstatic.34(%rip), %rdi
	movzwl	(%rdi,%rsi,2), %esi
	movw	%si, 30(%rsp,%r8)
	movzwl	(%rdi,%rax,2), %eax
	movw	%ax, 28(%rsp,%r8)
	addq	$-4, %r8
	cmpq	$99999999, %rcx
	movq	%rdx, %rcx
	ja	.LBB50_25
	cmpq	$99, %rdx
	movb	%bpl, 7(%rsp)
	ja	.LBB50_30
.LBB50_27:
	cmpq	$9, %rdx
	ja	.LBB50_29
	orb	$48, %dl
	movb	%dl, 31(%rsp,%r8)
	decq	%r8
	jmp	.LBB50_33
.LBB50_24:
	movq	%rcx, %rdx
	cmpq	$99, %rdx
	movb	%bpl, 7(%rsp)
	jbe	.LBB50_27
.LBB50_30:
	movl	%edx, %eax
	shrl	$2, %eax
	movzwl	%ax, %eax
	imull	$5243, %eax, %eax
	shrl	$17, %eax
	imull	$100, %eax, %ecx
	movl	%edx, %esi
	subl	%ecx, %esi
	movzwl	%si, %esi
	leaq	.Lstatic.34(%rip), %rcx
	movzwl	(%rcx,%rsi,2), %esi
	movw	%si, 30(%rsp,%r8)
	cmpq	$999, %rdx
	ja	.LBB50_32
	orb	$48, %al
	movb	%al, 29(%rsp,%r8)
	addq	$-3, %r8
	jmp	.LBB50_33
.LBB50_29:
	leaq	.Lstatic.34(%rip), %rax
	movzwl	(%rax,%rdx,2), %eax
	movw	%ax, 30(%rsp,%r8)
	addq	$-2, %r8
	jmp	.LBB50_33
.LBB50_32:
	movzwl	%ax, %eax
	movzwl	(%rcx,%rax,2), %eax
	movw	%ax, 28(%rsp,%r8)
	addq	$-4, %r8
.LBB50_33:
	leaq	(%rsp,%r8), %rsi
	addq	$32, %rsi
	movl	$40, %r12d
	movl	$40, %ebx
	subq	%r8, %rbx
	movq	1504(%rsp), %r14
	leaq	(%rsp,%r14), %rdi
	addq	$224, %rdi
	movq	%rbx, %rdx
	callq	memcpy@PLT
	leaq	(%r14,%rbx), %rax
	movb	$44, 224(%rsp,%rax)
	leaq	(%r14,%rbx), %rax
	incq	%rax
	movq	%rax, 1504(%rsp)
	movq	72(%r15), %rsi
	leaq	224(%rsp), %r14
	movq	%r14, %rdi
	callq	"pie_record::long_row::LongRow::number"
	movq	80(%r15), %rsi
	movq	%r14, %rdi
	callq	"pie_record::long_row::LongRow::number"
	movq	88(%r15), %rsi
	movq	%r14, %rdi
	callq	"pie_record::long_row::LongRow::number"
	movq	96(%r15), %rsi
	movq	%r14, %rdi
	callq	"pie_record::long_row::LongRow::number"
	movq	104(%r15), %rsi
	movq	%r14, %rdi
	callq	"pie_record::long_row::LongRow::number"
	movq	144(%r15), %rsi
	movq	%r14, %rdi
	callq	"pie_record::long_row::LongRow::number"
	movq	152(%r15), %rsi
	movq	%r14, %rdi
	callq	"pie_record::long_row::LongRow::number"
	movq	160(%r15), %rsi
	movq	%r14, %rdi
	callq	"pie_record::long_row::LongRow::number"
	movq	168(%r15), %rsi
	movq	%r14, %rdi
	callq	"pie_record::long_row::LongRow::number"
	movq	176(%r15), %rsi
	movq	%r14, %rdi
	callq	"pie_record::long_row::LongRow::number"
	movq	184(%r15), %rsi
	movq	%r14, %rdi
	callq	"pie_record::long_row::LongRow::number"
	movq	192(%r15), %rsi
	movq	%r14, %rdi
	callq	"pie_record::long_row::LongRow::number"
	movq	200(%r15), %rsi
	movq	%r14, %rdi
	callq	"pie_record::long_row::LongRow::number"
	movq	208(%r15), %rsi
	movq	%r14, %rdi
	callq	"pie_record::long_row::LongRow::number"
	movq	216(%r15), %rsi
	movq	%r14, %rdi
	callq	"pie_record::long_row::LongRow::number"
	movq	224(%r15), %rsi
	movq	%r14, %rdi
	callq	"pie_record::long_row::LongRow::number"
	movq	232(%r15), %rsi
	movq	%r14, %rdi
	callq	"pie_record::long_row::LongRow::number"
	movq	240(%r15), %rsi
	movq	%r14, %rdi
	callq	"pie_record::long_row::LongRow::number"
	movq	248(%r15), %rsi
	movq	%r14, %rdi
	callq	"pie_record::long_row::LongRow::number"
	movq	256(%r15), %rsi
	movq	%r14, %rdi
	callq	"pie_record::long_row::LongRow::number"
	movq	320(%r15), %rdi
	movq	128(%r15), %rax
	movq	%rax, 128(%rsp)
	movq	312(%r15), %rsi
	movq	216(%rsp), %rbx
	cmpq	$1, %rbx
	movq	%rbx, %rdx
	adcq	$0, %rdx
	xorl	%ebp, %ebp
	xorl	%ecx, %ecx
	callq	__udivti3@PLT
	negq	%rdx
	sbbq	%rbp, %rbp
	orq	%rax, %rbp
	movq	336(%r15), %rax
	movq	%rax, 88(%rsp)
	movq	344(%r15), %rax
	movq	%rax, 96(%rsp)
	movq	352(%r15), %rax
	movq	%rax, 104(%rsp)
	movq	360(%r15), %rax
	movq	%rax, 112(%rsp)
	movq	368(%r15), %rax
	movq	%rax, 120(%rsp)
	movq	376(%r15), %rax
	movq	%rax, 136(%rsp)
	movq	384(%r15), %rax
	movq	%rax, 144(%rsp)
	movq	392(%r15), %rax
	movq	%rax, 152(%rsp)
	movq	400(%r15), %rax
	movq	%rax, 160(%rsp)
	movq	408(%r15), %rax
	movq	%rax, 168(%rsp)
	movq	432(%r15), %rax
	movq	%rax, 176(%rsp)
	movq	464(%r15), %rax
	movq	%rax, 184(%rsp)
	movq	472(%r15), %rax
	movq	%rax, 192(%rsp)
	movq	440(%r15), %rax
	movq	%rax, 200(%rsp)
	movq	448(%r15), %rax
	movq	%rax, 208(%rsp)
	movq	%r14, %rdi
	movq	%rbx, %rsi
	callq	"pie_record::long_row::LongRow::number"
	movq	%r14, %rdi
	movq	80(%rsp), %rsi
	callq	"pie_record::long_row::LongRow::number"
	movq	%r14, %rdi
	movq	%rbp, %rsi
	callq	"pie_record::long_row::LongRow::number"
	movq	%r14, %rdi
	movq	128(%rsp), %rsi
	callq	"pie_record::long_row::LongRow::number"
	movq	%r14, %rdi
	movq	88(%rsp), %rsi
	callq	"pie_record::long_row::LongRow::number"
	movq	%r14, %rdi
	movq	96(%rsp), %rsi
	callq	"pie_record::long_row::LongRow::number"
	movq	%r14, %rdi
	movq	104(%rsp), %rsi
	callq	"pie_record::long_row::LongRow::number"
	movq	%r14, %rdi
	movq	112(%rsp), %rsi
	callq	"pie_record::long_row::LongRow::number"
	movq	%r14, %rdi
	movq	120(%rsp), %rsi
	callq	"pie_record::long_row::LongRow::number"
	movq	%r14, %rdi
	movq	136(%rsp), %rsi
	callq	"pie_record::long_row::LongRow::number"
	movq	%r14, %rdi
	movq	144(%rsp), %rsi
	callq	"pie_record::long_row::LongRow::number"
	movq	%r14, %rdi
	movq	152(%rsp), %rsi
	callq	"pie_record::long_row::LongRow::number"
	movq	%r14, %rdi
	movq	160(%rsp), %rsi
	callq	"pie_record::long_row::LongRow::number"
	movq	%r14, %rdi
	movq	168(%rsp), %rsi
	callq	"pie_record::long_row::LongRow::number"
	movq	%r14, %rdi
	movq	72(%rsp), %rsi
	callq	"pie_record::long_row::LongRow::number"
	movq	%r14, %rdi
	movq	176(%rsp), %rsi
	callq	"pie_record::long_row::LongRow::number"
	movq	%r14, %rdi
	movq	184(%rsp), %rsi
	callq	"pie_record::long_row::LongRow::number"
	movq	%r14, %rdi
	movq	192(%rsp), %rsi
	callq	"pie_record::long_row::LongRow::number"
	movq	%r14, %rdi
	movq	200(%rsp), %rsi
	callq	"pie_record::long_row::LongRow::number"
	movq	%r14, %rdi
	movq	208(%rsp), %rsi
	callq	"pie_record::long_row::LongRow::number"
	xorps	%xmm0, %xmm0
	movaps	%xmm0, 48(%rsp)
	movaps	%xmm0, 32(%rsp)
	movq	$0, 64(%rsp)
	movq	456(%r15), %rcx
	cmpq	$10000, %rcx
	jb	.LBB50_34
	movl	$40, %r12d
	movzbl	7(%rsp), %ebp
	.p2align	4
.LBB50_36:
	movq	%rcx, %rax
	mulq	%r13
	shrq	$11, %rdx
	imull	$10000, %edx, %eax
	movl	%ecx, %esi
	subl	%eax, %esi
	imull	$5243, %esi, %eax
	shrl	$19, %eax
	imull	$100, %eax, %edi
	subl	%edi, %esi
	movzwl	%si, %esi
	leaq	.Lstatic.34(%rip), %rdi
	movzwl	(%rdi,%rsi,2), %esi
	movw	%si, 30(%rsp,%r12)
	movzwl	(%rdi,%rax,2), %eax
	movw	%ax, 28(%rsp,%r12)
	addq	$-4, %r12
	cmpq	$99999999, %rcx
	movq	%rdx, %rcx
	ja	.LBB50_36
	cmpq	$99, %rdx
	ja	.LBB50_41
.LBB50_38:
	cmpq	$9, %rdx
	movq	8(%rsp), %r13
	ja	.LBB50_40
	orb	$48, %dl
	movb	%dl, 31(%rsp,%r12)
	decq	%r12
	jmp	.LBB50_44
.LBB50_34:
	movq	%rcx, %rdx
	movzbl	7(%rsp), %ebp
	cmpq	$99, %rdx
	jbe	.LBB50_38
.LBB50_41:
	movl	%edx, %eax
	shrl	$2, %eax
	movzwl	%ax, %eax
	imull	$5243, %eax, %eax
	shrl	$17, %eax
	imull	$100, %eax, %ecx
	movl	%edx, %esi
	subl	%ecx, %esi
	movzwl	%si, %esi
	leaq	.Lstatic.34(%rip), %rcx
	movzwl	(%rcx,%rsi,2), %esi
	movw	%si, 30(%rsp,%r12)
	cmpq	$999, %rdx
	movq	8(%rsp), %r13
	ja	.LBB50_43
	orb	$48, %al
	movb	%al, 29(%rsp,%r12)
	addq	$-3, %r12
	jmp	.LBB50_44
.LBB50_40:
	leaq	.Lstatic.34(%rip), %rax
	movzwl	(%rax,%rdx,2), %eax
	movw	%ax, 30(%rsp,%r12)
	addq	$-2, %r12
	jmp	.LBB50_44
.LBB50_43:
	movzwl	%ax, %eax
	movzwl	(%rcx,%rax,2), %eax
	movw	%ax, 28(%rsp,%r12)
	addq	$-4, %r12
.LBB50_44:
	leaq	(%rsp,%r12), %rsi
	addq	$32, %rsi
	movl	$40, %ebx
	subq	%r12, %rbx
	movq	1504(%rsp), %r14
	leaq	(%rsp,%r14), %rdi
	addq	$224, %rdi
	movq	%rbx, %rdx
	callq	memcpy@PLT
	addq	%r14, %rbx
	cmpq	$1, %r13
	jne	.LBB50_48
	cmpq	$0, 416(%r15)
	je	.LBB50_46
	movb	$44, 224(%rsp,%rbx)
	incq	%rbx
	movq	%rbx, 1504(%rsp)
	movq	424(%r15), %r13
	movabsq	$7512003556908026083, %rcx
	movq	%r13, %rax
	movq	%r13, 8(%rsp)
	mulq	%rcx
	movq	%rdx, %rcx
	shrq	$45, %rcx
	leal	719468(%rcx), %r15d
	imulq	$470369, %r15, %rax
	shrq	$36, %rax
	imull	$400, %eax, %edi
	imull	$146097, %eax, %eax
	subl	%eax, %r15d
	imulq	$2941759, %r15, %rax
	shrq	$32, %rax
	imulq	$470373, %r15, %rdx
	shrq	$34, %rdx
	cmpl	$146096, %r15d
	movq	%r15, %rsi
	adcq	$-1, %rsi
	addq	%rdx, %rsi
	subq	%rax, %rsi
	movabsq	$7429236654343298871, %rdx
	movq	%rsi, %rax
	mulq	%rdx
	movq	%rsi, %r9
	subq	%rdx, %r9
	shrq	%r9
	addq	%rdx, %r9
	movq	%r9, %r8
	shrq	$8, %r8
	imulq	$365, %r8, %r10
	shrq	$10, %r9
	shrq	$2, %rsi
	movabsq	$2070078458244228039, %rdx
	movq	%rsi, %rax
	mulq	%rdx
	shrq	$10, %rdx
	subq	%rdx, %r9
	addq	%r10, %r9
	xorl	%eax, %eax
	subq	%r9, %r15
	cmovbq	%rax, %r15
	leal	(%r15,%r15,4), %edx
	addl	$2, %edx
	imulq	$28071682, %rdx, %rdx
	shrq	$32, %rdx
	addq	%rdi, %r8
	cmpq	$306, %r15
	sbbq	$-1, %r8
	leaq	-9(%rdx), %rbp
	leaq	3(%rdx), %rsi
	cmpq	$306, %r15
	cmovbq	%rsi, %rbp
	imull	$153, %edx, %edx
	addl	$2, %edx
	movl	$3435973837, %esi
	imulq	%rdx, %rsi
	shrq	$34, %rsi
	subq	%rsi, %r15
	cmovbq	%rax, %r15
	incq	%r15
	movabsq	$86400000000000, %rax
	imulq	%rcx, %rax
	subq	%rax, %r13
	movabsq	$151115727451829, %rcx
	movq	%r13, %rax
	mulq	%rcx
	movq	%rdx, %rbx
	shrl	$13, %ebx
	leaq	.Lstatic.69(%rip), %r14
	leaq	224(%rsp), %r12
	movl	$4, %esi
	movq	%r12, %rdi
	movq	%r8, %rdx
	movq	%r14, %rcx
	callq	"pie_explain::summary_record::push_padded"
	movl	$2, %esi
	movq	%r12, %rdi
	movq	%rbp, %rdx
	movzbl	7(%rsp), %ebp
	movq	%r14, %rcx
	callq	"pie_explain::summary_record::push_padded"
	leaq	.Lstatic.70(%rip), %rcx
	movl	$2, %esi
	movq	%r12, %rdi
	movq	%r15, %rdx
	callq	"pie_explain::summary_record::push_padded"
	movabsq	$85968058283707, %rcx
	movq	%r13, %rax
	mulq	%rcx
	shrl	$24, %edx
	leaq	.Lstatic.71(%rip), %r14
	movl	$2, %esi
	movq	%r12, %rdi
	movq	%r14, %rcx
	callq	"pie_explain::summary_record::push_padded"
	movabsq	$161190109281951, %rcx
	movq	%r13, %rax
	mulq	%rcx
	shrl	$19, %edx
	imull	$2185, %edx, %eax
	shrl	$17, %eax
	imull	$60, %eax, %eax
	subl	%eax, %edx
	movzwl	%dx, %edx
	movl	$2, %esi
	movq	%r12, %rdi
	movq	%r14, %rcx
	callq	"pie_explain::summary_record::push_padded"
	imulq	$71582789, %rbx, %rax
	shrq	$32, %rax
	imull	$60, %eax, %eax
	subl	%eax, %ebx
	leaq	.Lstatic.72(%rip), %rcx
	movl	$2, %esi
	movq	%r12, %rdi
	movq	%rbx, %rdx
	callq	"pie_explain::summary_record::push_padded"
	movq	8(%rsp), %rsi
	movq	%rsi, %rax
	shrq	$9, %rax
	movabsq	$19342813113834067, %rcx
	mulq	%rcx
	shrq	$11, %rdx
	imulq	$1000000000, %rdx, %rax
	subq	%rax, %rsi
	movq	%rsi, %rdx
	leaq	.Lstatic.73(%rip), %rcx
	movl	$9, %esi
	movq	%r12, %rdi
	callq	"pie_explain::summary_record::push_padded"
	movq	1504(%rsp), %rbx
.LBB50_48:
	movb	$10, 224(%rsp,%rbx)
	incq	%rbx
	movq	%rbx, 1504(%rsp)
	movq	16(%rsp), %r14
	xorl	%r12d, %r12d
	movq	24(%rsp), %rax
	cmpq	%rbx, %rax
	jae	.LBB50_51
.LBB50_50:
	xorl	%ebx, %ebx
	jmp	.LBB50_52
.LBB50_46:
	leaq	(%rsp,%rbx), %rax
	addq	$224, %rax
	leaq	.Lstatic.68(%rip), %rcx
	movq	%rax, %rdx
	subq	%rcx, %rdx
	cmpq	$1, %rdx
	movw	$2604, (%rax)
	movq	16(%rsp), %r14
	xorl	%r12d, %r12d
	movq	24(%rsp), %rax
	addq	$2, %rbx
	movq	%rbx, 1504(%rsp)
	cmpq	%rbx, %rax
	jb	.LBB50_50
.LBB50_51:
	movb	%bpl, %r12b
	shll	$12, %r12d
	addq	%r12, %r14
	leaq	224(%rsp), %rsi
	movq	%r14, %rdi
	movq	%rbx, %rdx
	callq	memcpy@PLT
.LBB50_52:
	movq	%rbx, %rax
	addq	$1512, %rsp
	popq	%rbx
	popq	%r12
	popq	%r13
	popq	%r14
	popq	%r15
	popq	%rbp
	retq
.Lfunc_end50:
	.size	pie_write_period, .Lfunc_end50-pie_write_period

	.section	.text.pie_write_period_header,"ax",@progbits
	.globl	pie_write_period_header
	.p2align	4
	.type	pie_write_period_header,@function
pie_write_period_header:
	pushq	%rbp
	pushq	%r15
	pushq	%r14
	pushq	%r13
	pushq	%r12
	pushq	%rbx
	subq	$1288, %rsp
	movq	%rdx, %r14
	movq	%rsi, %rbx
	movq	%rdi, %r12
	xorl	%r13d, %r13d
	testq	%rsi, %rsi
	sete	%bpl
	leaq	652(%rsp), %r15
	movl	$628, %edx
	movq	%r15, %rdi
	xorl	%esi, %esi
	callq	memset@PLT
	leaq	.Lstatic.75(%rip), %rsi
	movq	%rsp, %rdi
	movl	$652, %edx
	callq	memcpy@PLT
	cmpq	$1, 8(%r12)
	jne	.LBB51_4
	leaq	.Lstatic.76(%rip), %rax
	movq	%r15, %rcx
	subq	%rax, %rcx
	cmpq	$5, %rcx
	ja	.LBB51_3
	movl	$1818326828, 652(%rsp)
	movw	$2668, 656(%rsp)
	movl	$658, %r15d
	movq	%r15, 1280(%rsp)
	cmpq	%r15, %r14
	jb	.LBB51_6
	jmp	.LBB51_7
.LBB51_4:
	movb	$10, 652(%rsp)
	movl	$653, %r15d
	movq	%r15, 1280(%rsp)
	cmpq	%r15, %r14
	jae	.LBB51_7
.LBB51_6:
	xorl	%r15d, %r15d
	jmp	.LBB51_8
.LBB51_3:
	movw	$2668, 4(%r15)
	movl	$1818326828, (%r15)
	movl	$658, %r15d
	movq	%r15, 1280(%rsp)
	cmpq	%r15, %r14
	jb	.LBB51_6
.LBB51_7:
	movb	%bpl, %r13b
	shll	$12, %r13d
	addq	%r13, %rbx
	movq	%rsp, %rsi
	movq	%rbx, %rdi
	movq	%r15, %rdx
	callq	memcpy@PLT
.LBB51_8:
	movq	%r15, %rax
	addq	$1288, %rsp
	popq	%rbx
	popq	%r12
	popq	%r13
	popq	%r14
	popq	%r15
	popq	%rbp
	retq
.Lfunc_end51:
	.size	pie_write_period_header, .Lfunc_end51-pie_write_period_header

	.section	.text.pie_write_queued,"ax",@progbits
	.globl	pie_write_queued
	.p2align	4
	.type	pie_write_queued,@function
pie_write_queued:
	pushq	%rbp
	pushq	%r15
	pushq	%r14
	pushq	%r13
	pushq	%r12
	pushq	%rbx
	subq	$552, %rsp
	movq	%r9, 24(%rsp)
	movq	%r8, %r14
	movq	%rcx, %r12
	movl	%edx, %ebp
	movl	%esi, %r13d
	movq	%rdi, 16(%rsp)
	xorl	%r15d, %r15d
	testq	%r8, %r8
	sete	15(%rsp)
	leaq	32(%rsp), %rdi
	movl	$512, %ebx
	movl	$512, %edx
	xorl	%esi, %esi
	callq	memset@PLT
	movq	$512, 544(%rsp)
	leal	-1(%r13), %eax
	cmpl	$65535, %eax
	setae	%al
	movq	%r12, %rcx
	shrq	$60, %rcx
	setne	%cl
	orb	%al, %cl
	jne	.LBB52_21
	cmpl	$3, %ebp
	ja	.LBB52_21
	movb	$10, 543(%rsp)
	movl	$511, %ecx
	cmpq	$10000, %r12
	jb	.LBB52_3
	.p2align	4
.LBB52_4:
	movabsq	$3777893186295716171, %rdx
	movq	%r12, %rax
	mulq	%rdx
	shrq	$11, %rdx
	imull	$10000, %edx, %eax
	movl	%r12d, %esi
	subl	%eax, %esi
	imull	$5243, %esi, %eax
	shrl	$19, %eax
	imull	$100, %eax, %edi
	subl	%edi, %esi
	movzwl	%si, %esi
	leaq	.Lstatic.34(%rip), %rdi
	movzwl	(%rdi,%rsi,2), %esi
	movw	%si, 30(%rsp,%rcx)
	movzwl	(%rdi,%rax,2), %eax
	movw	%ax, 28(%rsp,%rcx)
	addq	$-4, %rcx
	cmpq	$99999999, %r12
	movq	%rdx, %r12
	ja	.LBB52_4
	cmpq	$99, %rdx
	ja	.LBB52_9
.LBB52_6:
	cmpq	$9, %rdx
	ja	.LBB52_8
	orb	$48, %dl
	movb	%dl, 31(%rsp,%rcx)
	decq	%rcx
	leaq	-1(%rcx), %rax
	movq	%rax, 544(%rsp)
	movb	$44, 31(%rsp,%rcx)
	movq	544(%rsp), %rax
	movzbl	%bpl, %ecx
	leaq	.LJTI52_0(%rip), %rdx
	movslq	(%rdx,%rcx,4), %rcx
	addq	%rdx, %rcx
	jmpq	*%rcx
.LBB52_3:
	movq	%r12, %rdx
	cmpq	$99, %rdx
	jbe	.LBB52_6
.LBB52_9:
	movl	%edx, %eax
	shrl	$2, %eax
	movzwl	%ax, %eax
	imull	$5243, %eax, %eax
	shrl	$17, %eax
	imull	$100, %eax, %esi
	movl	%edx, %edi
	subl	%esi, %edi
	movzwl	%di, %edi
	leaq	.Lstatic.34(%rip), %rsi
	movzwl	(%rsi,%rdi,2), %edi
	movw	%di, 30(%rsp,%rcx)
	cmpq	$999, %rdx
	ja	.LBB52_11
	orb	$48, %al
	movb	%al, 29(%rsp,%rcx)
	addq	$-3, %rcx
	leaq	-1(%rcx), %rax
	movq	%rax, 544(%rsp)
	movb	$44, 31(%rsp,%rcx)
	movq	544(%rsp), %rax
	movzbl	%bpl, %ecx
	leaq	.LJTI52_0(%rip), %rdx
	movslq	(%rdx,%rcx,4), %rcx
	addq	%rdx, %rcx
	jmpq	*%rcx
.LBB52_8:
	leaq	.Lstatic.34(%rip), %rax
	movzwl	(%rax,%rdx,2), %eax
	movw	%ax, 30(%rsp,%rcx)
	addq	$-2, %rcx
	leaq	-1(%rcx), %rax
	movq	%rax, 544(%rsp)
	movb	$44, 31(%rsp,%rcx)
	movq	544(%rsp), %rax
	movzbl	%bpl, %ecx
	leaq	.LJTI52_0(%rip), %rdx
	movslq	(%rdx,%rcx,4), %rcx
	addq	%rdx, %rcx
	jmpq	*%rcx
.LBB52_11:
	movzwl	%ax, %eax
	movzwl	(%rsi,%rax,2), %eax
	movw	%ax, 28(%rsp,%rcx)
	addq	$-4, %rcx
	leaq	-1(%rcx), %rax
	movq	%rax, 544(%rsp)
	movb	$44, 31(%rsp,%rcx)
	movq	544(%rsp), %rax
	movzbl	%bpl, %ecx
	leaq	.LJTI52_0(%rip), %rdx
	movslq	(%rdx,%rcx,4), %rcx
	addq	%rdx, %rcx
	jmpq	*%rcx
.LBB52_12:
	leaq	-3(%rax), %rcx
	movq	%rcx, 544(%rsp)
	addq	%rsp, %rax
	addq	$29, %rax
	leaq	.Lstatic.78(%rip), %rcx
	movq	%rax, %rdx
	subq	%rcx, %rdx
	cmpq	$2, %rdx
	ja	.LBB52_14
	movw	$28526, (%rax)
	movb	$116, 2(%rax)
	jmp	.LBB52_18
.LBB52_16:
	leaq	-4(%rax), %rcx
	movq	%rcx, 544(%rsp)
	addq	%rsp, %rax
	addq	$28, %rax
	leaq	.Lstatic.80(%rip), %rcx
	movq	%rax, %rdx
	subq	%rcx, %rdx
	cmpq	$3, %rdx
	movl	$812933989, (%rax)
	jmp	.LBB52_18
.LBB52_17:
	leaq	-2(%rax), %rcx
	movq	%rcx, 544(%rsp)
	addq	%rsp, %rax
	addq	$30, %rax
	leaq	.Lstatic.81(%rip), %rcx
	movq	%rax, %rdx
	subq	%rcx, %rdx
	cmpq	$1, %rdx
	movw	$25955, (%rax)
	jmp	.LBB52_18
.LBB52_15:
	leaq	-4(%rax), %rcx
	movq	%rcx, 544(%rsp)
	addq	%rsp, %rax
	addq	$28, %rax
	leaq	.Lstatic.79(%rip), %rcx
	movq	%rax, %rdx
	subq	%rcx, %rdx
	cmpq	$3, %rdx
	movl	$829711205, (%rax)
	jmp	.LBB52_18
.LBB52_14:
	movb	$116, 2(%rax)
	movw	$28526, (%rax)
.LBB52_18:
	movl	%r13d, %esi
	leaq	32(%rsp), %r12
	movq	%r12, %rdi
	callq	"pie_record::row_buffer::RowBuffer::prepend_number"
	movq	%r12, %rdi
	movq	16(%rsp), %rsi
	callq	"pie_record::row_buffer::RowBuffer::prepend_number"
	movq	544(%rsp), %rax
	leaq	-1(%rax), %rcx
	movq	%rcx, 544(%rsp)
	movb	$44, 31(%rsp,%rax)
	movq	544(%rsp), %rax
	leaq	-6(%rax), %rcx
	movq	%rcx, 544(%rsp)
	addq	%rsp, %rax
	addq	$26, %rax
	leaq	.Lstatic.77(%rip), %rcx
	movq	%rax, %rdx
	subq	%rcx, %rdx
	cmpq	$5, %rdx
	ja	.LBB52_20
	movl	$1969583473, (%rax)
	movw	$25701, 4(%rax)
.LBB52_21:
	movq	544(%rsp), %rax
	subq	%rax, %rbx
	cmpq	%rbx, 24(%rsp)
	jae	.LBB52_23
.LBB52_22:
	xorl	%ebx, %ebx
	jmp	.LBB52_24
.LBB52_20:
	movw	$25701, 4(%rax)
	movl	$1969583473, (%rax)
	movq	544(%rsp), %rax
	subq	%rax, %rbx
	cmpq	%rbx, 24(%rsp)
	jb	.LBB52_22
.LBB52_23:
	movzbl	15(%rsp), %ecx
	movb	%cl, %r15b
	shll	$12, %r15d
	addq	%r15, %r14
	leaq	(%rsp,%rax), %rsi
	addq	$32, %rsi
	movq	%r14, %rdi
	movq	%rbx, %rdx
	callq	memcpy@PLT
.LBB52_24:
	movq	%rbx, %rax
	addq	$552, %rsp
	popq	%rbx
	popq	%r12
	popq	%r13
	popq	%r14
	popq	%r15
	popq	%rbp
	retq
.Lfunc_end52:
	.size	pie_write_queued, .Lfunc_end52-pie_write_queued
	.section	.rodata.pie_write_queued,"a",@progbits
	.p2align	2, 0x0
.LJTI52_0:
	.long	.LBB52_12-.LJTI52_0
	.long	.LBB52_15-.LJTI52_0
	.long	.LBB52_16-.LJTI52_0
	.long	.LBB52_17-.LJTI52_0

	.section	.text.pie_write_refused,"ax",@progbits
	.globl	pie_write_refused
	.p2align	4
	.type	pie_write_refused,@function
pie_write_refused:
	pushq	%rbp
	pushq	%r15
	pushq	%r14
	pushq	%r13
	pushq	%r12
	pushq	%rbx
	subq	$536, %rsp
	movq	%rcx, %r15
	movq	%rdx, %r14
	movl	%esi, %r12d
	movq	%rdi, %r13
	xorl	%ebp, %ebp
	testq	%rdx, %rdx
	sete	7(%rsp)
	leaq	16(%rsp), %rdi
	movl	$512, %ebx
	movl	$512, %edx
	xorl	%esi, %esi
	callq	memset@PLT
	movq	$512, 528(%rsp)
	movl	$512, %eax
	testq	%r13, %r13
	je	.LBB53_4
	leal	-101(%r12), %ecx
	cmpl	$6, %ecx
	ja	.LBB53_4
	movl	$71, %eax
	btl	%ecx, %eax
	movl	$512, %eax
	jae	.LBB53_4
	addl	$-100, %r12d
	movq	%r13, 8(%rsp)
	leaq	16(%rsp), %rdi
	leaq	8(%rsp), %rdx
	movl	$12, %esi
	movq	%r12, %rcx
	xorl	%r8d, %r8d
	callq	"pie_record::note::put_note"
	movq	528(%rsp), %rax
.LBB53_4:
	subq	%rax, %rbx
	cmpq	%rbx, %r15
	jae	.LBB53_6
	xorl	%ebx, %ebx
	jmp	.LBB53_7
.LBB53_6:
	movzbl	7(%rsp), %ecx
	movb	%cl, %bpl
	shll	$12, %ebp
	addq	%rbp, %r14
	leaq	(%rsp,%rax), %rsi
	addq	$16, %rsi
	movq	%r14, %rdi
	movq	%rbx, %rdx
	callq	memcpy@PLT
.LBB53_7:
	movq	%rbx, %rax
	addq	$536, %rsp
	popq	%rbx
	popq	%r12
	popq	%r13
	popq	%r14
	popq	%r15
	popq	%rbp
	retq
.Lfunc_end53:
	.size	pie_write_refused, .Lfunc_end53-pie_write_refused

	.section	.rodata.cst16,"aM",@progbits,16
	.p2align	4, 0x0
.LCPI54_0:
	.quad	-2
	.quad	-1
.LCPI54_1:
	.quad	-9223372036854775808
	.quad	-9223372036854775808
.LCPI54_2:
	.quad	-9223371036854775808
	.quad	-9223372036853775808
.LCPI54_3:
	.quad	-9223372036853775808
	.quad	-9223371036854775808
.LCPI54_4:
	.quad	-9223372026854775810
	.quad	-9223372026854775809
.LCPI54_5:
	.quad	-9223372036854710274
	.quad	-9223372035781033985
	.section	.text.pie_write_params,"ax",@progbits
	.globl	pie_write_params
	.p2align	4
	.type	pie_write_params,@function
pie_write_params:
	pushq	%rbp
	pushq	%r15
	pushq	%r14
	pushq	%r13
	pushq	%r12
	pushq	%rbx
	subq	$616, %rsp
	movq	%rcx, %r15
	movq	%rdx, %r14
	movq	%rsi, 8(%rsp)
	movq	%rdi, %r13
	xorl	%ebp, %ebp
	testq	%rdx, %rdx
	sete	%r12b
	leaq	96(%rsp), %rdi
	movl	$512, %ebx
	movl	$512, %edx
	xorl	%esi, %esi
	callq	memset@PLT
	movq	$512, 608(%rsp)
	movq	(%r13), %rdx
	movq	%rdx, %rax
	shrq	$60, %rax
	movl	$512, %eax
	jne	.LBB54_14
	cmpl	$0, 60(%r13)
	jne	.LBB54_14
	cmpb	$5, 58(%r13)
	jne	.LBB54_14
	cmpq	$0, 8(%r13)
	jne	.LBB54_14
	cmpq	$0, 16(%r13)
	jne	.LBB54_14
	cmpl	$0, 48(%r13)
	jne	.LBB54_14
	cmpb	$0, 59(%r13)
	jne	.LBB54_14
	cmpq	$0, 24(%r13)
	jne	.LBB54_14
	cmpq	$0, 32(%r13)
	jne	.LBB54_14
	cmpq	$0, 40(%r13)
	jne	.LBB54_14
	cmpl	$0, 52(%r13)
	jne	.LBB54_14
	movq	8(%rsp), %rax
	movq	64(%rax), %rcx
	movdqu	(%rax), %xmm0
	movdqu	16(%rax), %xmm1
	movdqu	32(%rax), %xmm3
	movdqu	48(%rax), %xmm4
	movdqa	%xmm4, %xmm5
	palignr	$8, %xmm3, %xmm5
	pcmpeqd	%xmm2, %xmm2
	paddq	%xmm5, %xmm2
	paddq	.LCPI54_0(%rip), %xmm0
	pblendw	$240, %xmm4, %xmm3
	xorl	%eax, %eax
	popcntq	%rcx, %rax
	movdqa	.LCPI54_1(%rip), %xmm4
	pxor	%xmm4, %xmm1
	pcmpgtq	.LCPI54_2(%rip), %xmm1
	cmpl	$1, %eax
	pxor	%xmm4, %xmm3
	pcmpgtq	.LCPI54_3(%rip), %xmm3
	sete	%al
	pxor	%xmm4, %xmm0
	pcmpgtq	.LCPI54_4(%rip), %xmm0
	packssdw	%xmm3, %xmm1
	pxor	%xmm4, %xmm2
	pcmpgtq	.LCPI54_5(%rip), %xmm2
	packssdw	%xmm2, %xmm0
	packssdw	%xmm1, %xmm0
	pmovmskb	%xmm0, %esi
	testl	%esi, %esi
	sete	%sil
	andb	%al, %sil
	movl	$512, %eax
	cmpb	$1, %sil
	jne	.LBB54_14
	rep		bsfq	%rcx, %rcx
	addl	$-10, %ecx
	cmpl	$6, %ecx
	ja	.LBB54_14
	movzwl	56(%r13), %esi
	movq	8(%rsp), %rcx
	movq	64(%rcx), %rax
	movq	%rax, 80(%rsp)
	movdqu	(%rcx), %xmm0
	movdqu	16(%rcx), %xmm1
	movdqu	32(%rcx), %xmm2
	movdqu	48(%rcx), %xmm3
	movdqa	%xmm3, 64(%rsp)
	movdqa	%xmm2, 48(%rsp)
	movdqa	%xmm1, 32(%rsp)
	movdqa	%xmm0, 16(%rsp)
	movb	$10, 607(%rsp)
	movq	$507, 608(%rsp)
	movl	$1701736292, 603(%rsp)
	leaq	96(%rsp), %rdi
	leaq	16(%rsp), %rcx
	callq	"pie_record::event::put_change"
	movq	608(%rsp), %rax
.LBB54_14:
	subq	%rax, %rbx
	cmpq	%rbx, %r15
	jae	.LBB54_16
	xorl	%ebx, %ebx
	jmp	.LBB54_17
.LBB54_16:
	movb	%r12b, %bpl
	shll	$12, %ebp
	addq	%rbp, %r14
	leaq	(%rsp,%rax), %rsi
	addq	$96, %rsi
	movq	%r14, %rdi
	movq	%rbx, %rdx
	callq	memcpy@PLT
.LBB54_17:
	movq	%rbx, %rax
	addq	$616, %rsp
	popq	%rbx
	popq	%r12
	popq	%r13
	popq	%r14
	popq	%r15
	popq	%rbp
	retq
.Lfunc_end54:
	.size	pie_write_params, .Lfunc_end54-pie_write_params

	.section	.rodata.cst16,"aM",@progbits,16
	.p2align	4, 0x0
.LCPI55_0:
	.quad	-2
	.quad	-1
.LCPI55_1:
	.quad	-9223372036854775808
	.quad	-9223372036854775808
.LCPI55_2:
	.quad	-9223371036854775808
	.quad	-9223372036853775808
.LCPI55_3:
	.quad	-9223372036853775808
	.quad	-9223371036854775808
.LCPI55_4:
	.quad	-9223372026854775810
	.quad	-9223372026854775809
.LCPI55_5:
	.quad	-9223372036854710274
	.quad	-9223372035781033985
	.section	.text.pie_reset,"ax",@progbits
	.globl	pie_reset
	.p2align	4
	.type	pie_reset,@function
pie_reset:
	movl	$110, %eax
	cmpq	$31, 168(%rdi)
	ja	.LBB55_23
	movabsq	$1099511627777, %r8
	cmpq	%r8, 176(%rdi)
	jae	.LBB55_23
	movq	64(%rdi), %rcx
	movdqu	(%rdi), %xmm0
	movdqu	16(%rdi), %xmm1
	movdqu	32(%rdi), %xmm2
	movdqu	48(%rdi), %xmm4
	movdqa	%xmm4, %xmm5
	palignr	$8, %xmm2, %xmm5
	pcmpeqd	%xmm3, %xmm3
	paddq	%xmm5, %xmm3
	paddq	.LCPI55_0(%rip), %xmm0
	pblendw	$240, %xmm4, %xmm2
	movdqa	.LCPI55_1(%rip), %xmm4
	pxor	%xmm4, %xmm1
	pcmpgtq	.LCPI55_2(%rip), %xmm1
	popcntq	%rcx, %rdx
	pxor	%xmm4, %xmm2
	pcmpgtq	.LCPI55_3(%rip), %xmm2
	cmpl	$1, %edx
	pxor	%xmm4, %xmm0
	pcmpgtq	.LCPI55_4(%rip), %xmm0
	sete	%dl
	pxor	%xmm4, %xmm3
	pcmpgtq	.LCPI55_5(%rip), %xmm3
	packssdw	%xmm2, %xmm1
	packssdw	%xmm3, %xmm0
	packssdw	%xmm1, %xmm0
	pmovmskb	%xmm0, %r9d
	testl	%r9d, %r9d
	sete	%r9b
	andb	%dl, %r9b
	cmpb	$1, %r9b
	jne	.LBB55_23
	rep		bsfq	%rcx, %rdx
	addl	$-10, %edx
	cmpl	$6, %edx
	ja	.LBB55_23
	movabsq	$1152921504606846975, %r9
	movq	72(%rdi), %rdx
	leaq	1(%r9), %r10
	cmpq	%r10, %rdx
	jae	.LBB55_23
	movabsq	$1000000000001, %r10
	cmpq	%r10, 80(%rdi)
	jae	.LBB55_23
	cmpq	%r8, 88(%rdi)
	jae	.LBB55_23
	cmpq	%r10, 96(%rdi)
	jae	.LBB55_23
	cmpq	%rdx, 104(%rdi)
	ja	.LBB55_23
	movabsq	$8499999999999, %r8
	cmpq	%r8, 112(%rdi)
	ja	.LBB55_23
	cmpq	%r9, 120(%rdi)
	ja	.LBB55_23
	movq	16(%rdi), %r8
	movq	128(%rdi), %r10
	testq	%r10, %r10
	je	.LBB55_15
	cmpq	$1, %r10
	jne	.LBB55_23
	cmpq	%rdx, 136(%rdi)
	ja	.LBB55_23
	cmpq	%rcx, 144(%rdi)
	jb	.LBB55_17
	jmp	.LBB55_23
.LBB55_15:
	cmpq	$0, 136(%rdi)
	jne	.LBB55_23
	cmpq	$0, 144(%rdi)
	jne	.LBB55_23
.LBB55_17:
	movq	152(%rdi), %rcx
	cmpq	$1, %rcx
	je	.LBB55_20
	cmpq	$2, %rcx
	jne	.LBB55_23
	movq	160(%rdi), %rcx
	cmpq	$2, %rcx
	jb	.LBB55_21
	jmp	.LBB55_23
.LBB55_20:
	movl	$1, %ecx
	cmpq	$1, 160(%rdi)
	jne	.LBB55_23
.LBB55_21:
	movl	$101, %eax
	cmpq	%r9, %rsi
	ja	.LBB55_23
	cmpq	%rdx, %rsi
	cmovaq	%rsi, %rdx
	leaq	80(%rdi), %rax
	leaq	120(%rdi), %rsi
	movq	%rdx, 72(%rdi)
	pxor	%xmm0, %xmm0
	movdqu	%xmm0, (%rax)
	movdqu	%xmm0, 16(%rsi)
	movdqu	%xmm0, (%rsi)
	movq	%r8, 96(%rdi)
	movq	$0, 112(%rdi)
	movq	%rcx, 160(%rdi)
	movq	$0, 176(%rdi)
	xorl	%eax, %eax
.LBB55_23:
	retq
.Lfunc_end55:
	.size	pie_reset, .Lfunc_end55-pie_reset

	.section	.text.pie_reset_event,"ax",@progbits
	.globl	pie_reset_event
	.p2align	4
	.type	pie_reset_event,@function
pie_reset_event:
	jmp	"pie_c::writing::pie_reset_event"
.Lfunc_end56:
	.size	pie_reset_event, .Lfunc_end56-pie_reset_event

	.section	.text.pie_reset_summed,"ax",@progbits
	.globl	pie_reset_summed
	.p2align	4
	.type	pie_reset_summed,@function
pie_reset_summed:
	pushq	%rbp
	pushq	%r15
	pushq	%r14
	pushq	%r13
	pushq	%r12
	pushq	%rbx
	subq	$24, %rsp
	movq	%rdx, %rbx
	movq	%rdi, %r15
	cmpq	$1, 160(%rdi)
	setne	%bpl
	callq	"pie_c::writing::pie_reset_event"
	cmpq	$1, 160(%r15)
	sete	%r12b
	testl	%eax, %eax
	jne	.LBB57_16
	movq	(%r15), %rcx
	movq	%rcx, 16(%rsp)
	movq	72(%r15), %r14
	movq	80(%r15), %r13
	movq	96(%r15), %rcx
	movq	%rcx, 8(%rsp)
	cmpq	%r14, 32(%rbx)
	movl	%eax, %r15d
	ja	.LBB57_3
	cmpq	40(%rbx), %r14
	jae	.LBB57_3
	movq	48(%rbx), %rcx
	cmpq	416(%rbx), %rcx
	jne	.LBB57_5
.LBB57_6:
	incq	136(%rbx)
	je	.LBB57_7
.LBB57_8:
	movl	%ebp, %ecx
	andb	%r12b, %cl
	movq	%r14, 272(%rbx)
	cmpq	%r13, 360(%rbx)
	je	.LBB57_11
	movq	%r13, 360(%rbx)
	cmpq	%r13, 352(%rbx)
	jae	.LBB57_11
	movq	%r13, 352(%rbx)
.LBB57_11:
	orb	%r12b, %bpl
	testb	%cl, %cl
	je	.LBB57_13
	leaq	368(%rbx), %rdi
	movq	%r14, %rsi
	callq	"pie_explain::aggregates::Bounds::take_rare"
	movl	%r15d, %eax
.LBB57_13:
	testb	%bpl, %bpl
	jne	.LBB57_15
	leaq	392(%rbx), %rdi
	movq	%r14, %rsi
	callq	"pie_explain::aggregates::Bounds::take_rare"
	movl	%r15d, %eax
.LBB57_15:
	movq	16(%rsp), %rcx
	movq	%rcx, 464(%rbx)
	movq	8(%rsp), %rcx
	movq	%rcx, 472(%rbx)
.LBB57_16:
	addq	$24, %rsp
	popq	%rbx
	popq	%r12
	popq	%r13
	popq	%r14
	popq	%r15
	popq	%rbp
	retq
.LBB57_3:
	movq	%rbx, %rdi
	movq	%r14, %rsi
	callq	"pie_explain::live_interval::LiveInterval::begin_interval"
	movl	%r15d, %eax
	movq	48(%rbx), %rcx
	cmpq	416(%rbx), %rcx
	je	.LBB57_6
.LBB57_5:
	movq	%rbx, %rdi
	movq	%r14, %rsi
	callq	"pie_explain::live_interval::LiveInterval::note_first_time"
	movl	%r15d, %eax
	incq	136(%rbx)
	jne	.LBB57_8
.LBB57_7:
	leaq	136(%rbx), %rdi
	callq	"pie_explain::explainer::saturate"
	movl	%r15d, %eax
	jmp	.LBB57_8
.Lfunc_end57:
	.size	pie_reset_summed, .Lfunc_end57-pie_reset_summed

	.section	.rodata.cst16,"aM",@progbits,16
	.p2align	4, 0x0
.LCPI58_0:
	.quad	-2
	.quad	-1
.LCPI58_1:
	.quad	-9223372036854775808
	.quad	-9223372036854775808
.LCPI58_2:
	.quad	-9223371036854775808
	.quad	-9223372036853775808
.LCPI58_3:
	.quad	-9223372036853775808
	.quad	-9223371036854775808
.LCPI58_4:
	.quad	-9223372026854775810
	.quad	-9223372026854775809
.LCPI58_5:
	.quad	-9223372036854710274
	.quad	-9223372035781033985
	.section	.text.pie_set_params,"ax",@progbits
	.globl	pie_set_params
	.p2align	4
	.type	pie_set_params,@function
pie_set_params:
	movl	$110, %eax
	cmpq	$31, 168(%rdi)
	ja	.LBB58_25
	movabsq	$1099511627777, %r10
	cmpq	%r10, 176(%rdi)
	jae	.LBB58_25
	movq	64(%rdi), %r9
	movdqu	(%rdi), %xmm1
	movdqu	16(%rdi), %xmm2
	movdqu	32(%rdi), %xmm3
	movdqu	48(%rdi), %xmm0
	movdqa	%xmm0, %xmm5
	palignr	$8, %xmm3, %xmm5
	pcmpeqd	%xmm4, %xmm4
	paddq	%xmm5, %xmm4
	paddq	.LCPI58_0(%rip), %xmm1
	pblendw	$240, %xmm0, %xmm3
	movdqa	.LCPI58_1(%rip), %xmm0
	pxor	%xmm0, %xmm2
	pcmpgtq	.LCPI58_2(%rip), %xmm2
	popcntq	%r9, %rcx
	pxor	%xmm0, %xmm3
	pcmpgtq	.LCPI58_3(%rip), %xmm3
	cmpl	$1, %ecx
	pxor	%xmm0, %xmm1
	pcmpgtq	.LCPI58_4(%rip), %xmm1
	sete	%cl
	pxor	%xmm0, %xmm4
	pcmpgtq	.LCPI58_5(%rip), %xmm4
	packssdw	%xmm3, %xmm2
	packssdw	%xmm4, %xmm1
	packssdw	%xmm2, %xmm1
	pmovmskb	%xmm1, %r8d
	testl	%r8d, %r8d
	sete	%r8b
	andb	%cl, %r8b
	cmpb	$1, %r8b
	jne	.LBB58_25
	rep		bsfq	%r9, %rcx
	addl	$-10, %ecx
	cmpl	$6, %ecx
	ja	.LBB58_25
	movabsq	$1152921504606846975, %r8
	movq	72(%rdi), %rcx
	leaq	1(%r8), %r11
	cmpq	%r11, %rcx
	jae	.LBB58_25
	movabsq	$1000000000001, %r11
	cmpq	%r11, 80(%rdi)
	jae	.LBB58_25
	cmpq	%r10, 88(%rdi)
	jae	.LBB58_25
	cmpq	%r11, 96(%rdi)
	jae	.LBB58_25
	cmpq	%rcx, 104(%rdi)
	ja	.LBB58_25
	movabsq	$8499999999999, %r10
	cmpq	%r10, 112(%rdi)
	ja	.LBB58_25
	cmpq	%r8, 120(%rdi)
	ja	.LBB58_25
	movq	128(%rdi), %r10
	testq	%r10, %r10
	je	.LBB58_15
	cmpq	$1, %r10
	jne	.LBB58_25
	cmpq	%rcx, 136(%rdi)
	ja	.LBB58_25
	cmpq	%r9, 144(%rdi)
	jb	.LBB58_17
	jmp	.LBB58_25
.LBB58_15:
	cmpq	$0, 136(%rdi)
	jne	.LBB58_25
	cmpq	$0, 144(%rdi)
	jne	.LBB58_25
.LBB58_17:
	movq	152(%rdi), %r9
	cmpq	$1, %r9
	je	.LBB58_20
	cmpq	$2, %r9
	jne	.LBB58_25
	cmpq	$2, 160(%rdi)
	jb	.LBB58_21
	jmp	.LBB58_25
.LBB58_20:
	cmpq	$1, 160(%rdi)
	jne	.LBB58_25
.LBB58_21:
	movq	64(%rsi), %r9
	movdqu	(%rsi), %xmm1
	movdqu	16(%rsi), %xmm2
	movdqu	32(%rsi), %xmm4
	movdqu	48(%rsi), %xmm5
	movdqa	%xmm5, %xmm6
	palignr	$8, %xmm4, %xmm6
	pcmpeqd	%xmm3, %xmm3
	paddq	%xmm6, %xmm3
	paddq	.LCPI58_0(%rip), %xmm1
	pblendw	$240, %xmm5, %xmm4
	popcntq	%r9, %rax
	pxor	%xmm0, %xmm2
	pcmpgtq	.LCPI58_2(%rip), %xmm2
	cmpl	$1, %eax
	pxor	%xmm0, %xmm4
	pcmpgtq	.LCPI58_3(%rip), %xmm4
	sete	%al
	pxor	%xmm0, %xmm1
	pcmpgtq	.LCPI58_4(%rip), %xmm1
	packssdw	%xmm4, %xmm2
	pxor	%xmm0, %xmm3
	pcmpgtq	.LCPI58_5(%rip), %xmm3
	packssdw	%xmm3, %xmm1
	packssdw	%xmm2, %xmm1
	pmovmskb	%xmm1, %r10d
	testl	%r10d, %r10d
	sete	%r10b
	andb	%al, %r10b
	movl	$107, %eax
	cmpb	$1, %r10b
	jne	.LBB58_25
	rep		bsfq	%r9, %r9
	addl	$-10, %r9d
	cmpl	$6, %r9d
	ja	.LBB58_25
	movl	$101, %eax
	cmpq	%r8, %rdx
	ja	.LBB58_25
	cmpq	%rcx, %rdx
	cmovaq	%rdx, %rcx
	leaq	120(%rdi), %rax
	movdqu	(%rsi), %xmm0
	movdqu	16(%rsi), %xmm1
	movdqu	32(%rsi), %xmm2
	movdqu	48(%rsi), %xmm3
	movq	64(%rsi), %rdx
	movq	%rdx, 64(%rdi)
	movdqu	%xmm3, 48(%rdi)
	movdqu	%xmm2, 32(%rdi)
	movdqu	%xmm1, 16(%rdi)
	movdqu	%xmm0, (%rdi)
	movq	%rcx, 72(%rdi)
	pxor	%xmm0, %xmm0
	movdqu	%xmm0, 16(%rax)
	movdqu	%xmm0, (%rax)
	xorl	%eax, %eax
.LBB58_25:
	retq
.Lfunc_end58:
	.size	pie_set_params, .Lfunc_end58-pie_set_params

	.section	.text.pie_set_params_event,"ax",@progbits
	.globl	pie_set_params_event
	.p2align	4
	.type	pie_set_params_event,@function
pie_set_params_event:
	jmp	"pie_c::writing::pie_set_params_event"
.Lfunc_end59:
	.size	pie_set_params_event, .Lfunc_end59-pie_set_params_event

	.section	.text.pie_set_params_summed,"ax",@progbits
	.globl	pie_set_params_summed
	.p2align	4
	.type	pie_set_params_summed,@function
pie_set_params_summed:
	pushq	%rbp
	pushq	%r15
	pushq	%r14
	pushq	%r13
	pushq	%r12
	pushq	%rbx
	subq	$24, %rsp
	movq	%rcx, %rbx
	movq	%rdi, %r15
	cmpq	$1, 160(%rdi)
	setne	%bpl
	callq	"pie_c::writing::pie_set_params_event"
	cmpq	$1, 160(%r15)
	sete	%r12b
	testl	%eax, %eax
	jne	.LBB60_16
	movq	(%r15), %rcx
	movq	%rcx, 16(%rsp)
	movq	72(%r15), %r14
	movq	80(%r15), %r13
	movq	96(%r15), %rcx
	movq	%rcx, 8(%rsp)
	cmpq	%r14, 32(%rbx)
	movl	%eax, %r15d
	ja	.LBB60_3
	cmpq	40(%rbx), %r14
	jae	.LBB60_3
	movq	48(%rbx), %rcx
	cmpq	416(%rbx), %rcx
	jne	.LBB60_5
.LBB60_6:
	incq	136(%rbx)
	je	.LBB60_7
.LBB60_8:
	movl	%ebp, %ecx
	andb	%r12b, %cl
	movq	%r14, 272(%rbx)
	cmpq	%r13, 360(%rbx)
	je	.LBB60_11
	movq	%r13, 360(%rbx)
	cmpq	%r13, 352(%rbx)
	jae	.LBB60_11
	movq	%r13, 352(%rbx)
.LBB60_11:
	orb	%r12b, %bpl
	testb	%cl, %cl
	je	.LBB60_13
	leaq	368(%rbx), %rdi
	movq	%r14, %rsi
	callq	"pie_explain::aggregates::Bounds::take_rare"
	movl	%r15d, %eax
.LBB60_13:
	testb	%bpl, %bpl
	jne	.LBB60_15
	leaq	392(%rbx), %rdi
	movq	%r14, %rsi
	callq	"pie_explain::aggregates::Bounds::take_rare"
	movl	%r15d, %eax
.LBB60_15:
	movq	16(%rsp), %rcx
	movq	%rcx, 464(%rbx)
	movq	8(%rsp), %rcx
	movq	%rcx, 472(%rbx)
.LBB60_16:
	addq	$24, %rsp
	popq	%rbx
	popq	%r12
	popq	%r13
	popq	%r14
	popq	%r15
	popq	%rbp
	retq
.LBB60_3:
	movq	%rbx, %rdi
	movq	%r14, %rsi
	callq	"pie_explain::live_interval::LiveInterval::begin_interval"
	movl	%r15d, %eax
	movq	48(%rbx), %rcx
	cmpq	416(%rbx), %rcx
	je	.LBB60_6
.LBB60_5:
	movq	%rbx, %rdi
	movq	%r14, %rsi
	callq	"pie_explain::live_interval::LiveInterval::note_first_time"
	movl	%r15d, %eax
	incq	136(%rbx)
	jne	.LBB60_8
.LBB60_7:
	leaq	136(%rbx), %rdi
	callq	"pie_explain::explainer::saturate"
	movl	%r15d, %eax
	jmp	.LBB60_8
.Lfunc_end60:
	.size	pie_set_params_summed, .Lfunc_end60-pie_set_params_summed

	.section	.rodata.cst16,"aM",@progbits,16
	.p2align	4, 0x0
.LCPI61_0:
	.quad	-2
	.quad	-1
.LCPI61_1:
	.quad	-9223372036854775808
	.quad	-9223372036854775808
.LCPI61_2:
	.quad	-9223371036854775808
	.quad	-9223372036853775808
.LCPI61_3:
	.quad	-9223372036853775808
	.quad	-9223371036854775808
.LCPI61_4:
	.quad	-9223372026854775810
	.quad	-9223372026854775809
.LCPI61_5:
	.quad	-9223372036854710274
	.quad	-9223372035781033985
	.section	.text.pie_update,"ax",@progbits
	.globl	pie_update
	.p2align	4
	.type	pie_update,@function
pie_update:
	pushq	%rbp
	pushq	%r15
	pushq	%r14
	pushq	%r13
	pushq	%r12
	pushq	%rbx
	subq	$72, %rsp
	movq	%rdi, %rax
	movq	168(%rsi), %r13
	cmpq	$31, %r13
	ja	.LBB61_23
	movabsq	$1099511627777, %r9
	movq	176(%rsi), %rdi
	cmpq	%r9, %rdi
	jae	.LBB61_23
	movq	64(%rsi), %r8
	movdqu	16(%rsi), %xmm0
	movdqu	(%rsi), %xmm1
	movdqu	32(%rsi), %xmm2
	movdqu	48(%rsi), %xmm4
	movdqa	%xmm4, %xmm5
	palignr	$8, %xmm2, %xmm5
	pcmpeqd	%xmm3, %xmm3
	paddq	%xmm5, %xmm3
	paddq	.LCPI61_0(%rip), %xmm1
	pblendw	$240, %xmm4, %xmm2
	movdqa	.LCPI61_1(%rip), %xmm4
	pxor	%xmm4, %xmm0
	pcmpgtq	.LCPI61_2(%rip), %xmm0
	popcntq	%r8, %r10
	pxor	%xmm4, %xmm2
	pcmpgtq	.LCPI61_3(%rip), %xmm2
	cmpl	$1, %r10d
	pxor	%xmm4, %xmm1
	pcmpgtq	.LCPI61_4(%rip), %xmm1
	sete	%r10b
	pxor	%xmm4, %xmm3
	pcmpgtq	.LCPI61_5(%rip), %xmm3
	packssdw	%xmm2, %xmm0
	packssdw	%xmm3, %xmm1
	packssdw	%xmm0, %xmm1
	pmovmskb	%xmm1, %r11d
	testl	%r11d, %r11d
	sete	%r11b
	andb	%r10b, %r11b
	cmpb	$1, %r11b
	jne	.LBB61_23
	rep		bsfq	%r8, %r10
	addl	$-10, %r10d
	cmpl	$6, %r10d
	ja	.LBB61_23
	movabsq	$1152921504606846975, %r10
	movq	72(%rsi), %rbx
	leaq	1(%r10), %r11
	cmpq	%r11, %rbx
	jae	.LBB61_23
	movabsq	$1000000000001, %r11
	movq	80(%rsi), %r15
	cmpq	%r11, %r15
	jae	.LBB61_23
	movq	88(%rsi), %rbp
	cmpq	%r9, %rbp
	jae	.LBB61_23
	movq	96(%rsi), %r14
	cmpq	%r11, %r14
	jae	.LBB61_23
	movq	104(%rsi), %r11
	cmpq	%rbx, %r11
	ja	.LBB61_23
	movabsq	$8499999999999, %r9
	cmpq	%r9, 112(%rsi)
	ja	.LBB61_23
	movq	120(%rsi), %r9
	cmpq	%r10, %r9
	ja	.LBB61_23
	movq	32(%rsi), %r12
	movq	%r12, 64(%rsp)
	movq	24(%rsi), %r12
	movq	%r12, 56(%rsp)
	movq	16(%rsi), %r12
	movq	%r12, 48(%rsp)
	movq	(%rsi), %r12
	movq	%r12, 8(%rsp)
	movq	8(%rsi), %r12
	movq	%r12, 16(%rsp)
	movq	128(%rsi), %r12
	testq	%r12, %r12
	je	.LBB61_15
	cmpq	$1, %r12
	jne	.LBB61_23
	cmpq	%rbx, 136(%rsi)
	ja	.LBB61_23
	cmpq	%r8, 144(%rsi)
	jb	.LBB61_17
	jmp	.LBB61_23
.LBB61_15:
	cmpq	$0, 136(%rsi)
	jne	.LBB61_23
	cmpq	$0, 144(%rsi)
	jne	.LBB61_23
.LBB61_17:
	movq	152(%rsi), %r12
	movq	%r12, 32(%rsp)
	cmpq	$1, %r12
	je	.LBB61_22
	cmpq	$2, 32(%rsp)
	jne	.LBB61_23
	movq	160(%rsi), %r12
	movq	%r12, 24(%rsp)
	cmpq	$2, %r12
	jae	.LBB61_23
.LBB61_20:
	movq	%rsi, 40(%rsp)
	movq	%rax, (%rsp)
	cmpq	%r10, %rcx
	jbe	.LBB61_25
	movq	(%rsp), %rax
	movq	$101, (%rax)
	jmp	.LBB61_24
.LBB61_22:
	movl	$1, %r12d
	movq	%r12, 24(%rsp)
	cmpq	$1, 160(%rsi)
	je	.LBB61_20
.LBB61_23:
	movq	$110, (%rax)
.LBB61_24:
	pxor	%xmm0, %xmm0
	movdqu	%xmm0, 8(%rax)
	movdqu	%xmm0, 24(%rax)
.LBB61_58:
	addq	$72, %rsp
	popq	%rbx
	popq	%r12
	popq	%r13
	popq	%r14
	popq	%r15
	popq	%rbp
	retq
.LBB61_25:
	cmpq	$1073741825, %rdx
	jb	.LBB61_27
	movq	(%rsp), %rax
	movq	$112, (%rax)
	jmp	.LBB61_24
.LBB61_27:
	cmpq	%rbx, %rcx
	cmovaq	%rcx, %rbx
	addq	16(%rsp), %r11
	cmpq	%r11, %rbx
	jae	.LBB61_29
	movq	(%rsp), %rax
	movq	$103, (%rax)
	movq	%r11, 8(%rax)
	movq	%rbp, 16(%rax)
	jmp	.LBB61_57
.LBB61_29:
	cmpq	$0, 24(%rsp)
	je	.LBB61_30
	testb	$1, %r13b
	jne	.LBB61_33
	movq	%rdx, %rdi
	movq	%r9, %rsi
	movq	%r8, %rdx
	callq	"pie_control::update::delay"
	movq	%rax, %rdi
.LBB61_33:
	movq	%rdi, %rax
	subq	8(%rsp), %rax
	imulq	56(%rsp), %rax
	movq	%rdi, %rdx
	subq	%rbp, %rdx
	imulq	64(%rsp), %rdx
	addq	%rax, %rdx
	cmpq	$999999, %r15
	ja	.LBB61_35
	leaq	2047(%rdx), %rax
	testq	%rdx, %rdx
	cmovnsq	%rdx, %rax
	sarq	$11, %rax
	movq	%rax, %rdx
	jmp	.LBB61_47
.LBB61_30:
	xorl	%eax, %eax
	movq	%rbp, %rdi
	xorl	%ecx, %ecx
	jmp	.LBB61_56
.LBB61_35:
	cmpq	$9999999, %r15
	ja	.LBB61_37
	leaq	511(%rdx), %rax
	testq	%rdx, %rdx
	cmovnsq	%rdx, %rax
	sarq	$9, %rax
	movq	%rax, %rdx
	jmp	.LBB61_47
.LBB61_37:
	cmpq	$99999999, %r15
	ja	.LBB61_39
	leaq	127(%rdx), %rax
	testq	%rdx, %rdx
	cmovnsq	%rdx, %rax
	sarq	$7, %rax
	movq	%rax, %rdx
	jmp	.LBB61_47
.LBB61_39:
	cmpq	$999999999, %r15
	ja	.LBB61_41
	leaq	31(%rdx), %rax
	testq	%rdx, %rdx
	cmovnsq	%rdx, %rax
	sarq	$5, %rax
	movq	%rax, %rdx
	jmp	.LBB61_47
.LBB61_41:
	movq	%r15, %rax
	shrq	$10, %rax
	cmpq	$9765624, %rax
	ja	.LBB61_43
	leaq	7(%rdx), %rax
	testq	%rdx, %rdx
	cmovnsq	%rdx, %rax
	sarq	$3, %rax
	movq	%rax, %rdx
	jmp	.LBB61_47
.LBB61_43:
	movq	%r15, %rax
	shrq	$11, %rax
	cmpq	$48828124, %rax
	ja	.LBB61_45
	movq	%rdx, %rax
	shrq	$63, %rax
	addq	%rdx, %rax
	sarq	%rax
	movq	%rax, %rdx
	jmp	.LBB61_47
.LBB61_45:
	testb	$4, %r13b
	jne	.LBB61_47
	movabsq	$20000000000, %rax
	cmpq	%rax, %rdx
	cmovgeq	%rax, %rdx
.LBB61_47:
	cmpq	$15, %r13
	ja	.LBB61_49
	addq	%r15, %rdx
	movq	%rdi, %rax
	orq	%rbp, %rax
	jne	.LBB61_52
	jmp	.LBB61_51
.LBB61_49:
	leaq	(,%rbp,2), %rax
	addq	%r15, %rdx
	cmpq	8(%rsp), %rax
	jae	.LBB61_52
	leaq	(%rdi,%rdi), %rax
	cmpq	8(%rsp), %rax
	jae	.LBB61_52
.LBB61_51:
	xorl	%eax, %eax
	testq	%rdx, %rdx
	cmovgq	%rdx, %rax
	movabsq	$2000000000000, %rcx
	cmpq	%rcx, %rax
	cmovgeq	%rcx, %rax
	imulq	$98, %rax, %rax
	movabsq	$184467440737095517, %rcx
	mulq	%rcx
.LBB61_52:
	xorl	%r15d, %r15d
	testq	%rdx, %rdx
	cmovgq	%rdx, %r15
	movabsq	$1000000000000, %rax
	cmpq	%rax, %r15
	cmovgeq	%rax, %r15
	testq	%rdx, %rdx
	jle	.LBB61_54
	xorl	%eax, %eax
	subq	16(%rsp), %r14
	cmovbq	%rax, %r14
	movb	$1, %al
	jmp	.LBB61_55
.LBB61_54:
	leaq	(%rdi,%rdi), %rax
	movq	8(%rsp), %rdx
	cmpq	%rdx, %rax
	setae	%cl
	addq	%rbp, %rbp
	cmpq	%rdx, %rbp
	setae	%al
	orb	%cl, %al
	xorl	%ecx, %ecx
	subq	16(%rsp), %r14
	cmovaeq	%r14, %rcx
	testb	%al, %al
	movq	48(%rsp), %r14
	cmovneq	%rcx, %r14
.LBB61_55:
	cmpq	$2, 32(%rsp)
	setne	%cl
	orb	%al, %cl
	movzbl	%cl, %eax
	andl	$1, %eax
	movq	%rdi, %rcx
.LBB61_56:
	movq	40(%rsp), %rdx
	movq	%rbx, 72(%rdx)
	movq	%r15, 80(%rdx)
	movq	%rdi, 88(%rdx)
	movq	%r14, 96(%rdx)
	movq	%rbx, 104(%rdx)
	movq	%rax, 160(%rdx)
	movq	16(%rsp), %rdx
	addq	%rbx, %rdx
	movq	(%rsp), %rax
	movq	$0, (%rax)
	movq	%rdx, 8(%rax)
	movq	%rcx, 16(%rax)
.LBB61_57:
	movq	%r15, 24(%rax)
	movq	%r14, 32(%rax)
	jmp	.LBB61_58
.Lfunc_end61:
	.size	pie_update, .Lfunc_end61-pie_update

	.section	.text.pie_update_event,"ax",@progbits
	.globl	pie_update_event
	.p2align	4
	.type	pie_update_event,@function
pie_update_event:
	jmp	"pie_c::writing::pie_update_event"
.Lfunc_end62:
	.size	pie_update_event, .Lfunc_end62-pie_update_event

	.section	.text.pie_update_summed,"ax",@progbits
	.globl	pie_update_summed
	.p2align	4
	.type	pie_update_summed,@function
pie_update_summed:
	pushq	%rbp
	pushq	%r15
	pushq	%r14
	pushq	%r13
	pushq	%r12
	pushq	%rbx
	subq	$56, %rsp
	movq	%rcx, %rbx
	movq	%rdx, %r14
	movq	%rdi, %r13
	movq	160(%rdi), %rbp
	cmpq	$1, %rbp
	sete	7(%rsp)
	movq	(%rdi), %r15
	movq	104(%rdi), %rax
	movq	%rax, 8(%rsp)
	callq	"pie_c::writing::pie_update_event"
	movq	160(%r13), %rcx
	cmpq	$1, %rcx
	setne	%dil
	movq	72(%r13), %r12
	cmpq	$1, %rbp
	jne	.LBB63_1
	xorl	%edx, %edx
	cmpq	$1, %rcx
	movq	24(%r14), %r8
	movl	$0, %esi
	cmovneq	%r12, %rsi
	cmpq	%r8, %r15
	jae	.LBB63_4
	xorl	%edx, %edx
	movq	%r12, %rcx
	subq	8(%rsp), %rcx
	cmovaeq	%rcx, %rdx
.LBB63_4:
	xorl	%ecx, %ecx
	movl	%edi, %r14d
	testl	%eax, %eax
	jne	.LBB63_27
	jmp	.LBB63_6
.LBB63_1:
	xorl	%r14d, %r14d
	cmpq	$1, %rcx
	movq	%r12, %rcx
	cmovneq	%r14, %rcx
	xorl	%r8d, %r8d
	xorl	%esi, %esi
	xorl	%edx, %edx
	testl	%eax, %eax
	jne	.LBB63_27
.LBB63_6:
	movq	%rcx, 40(%rsp)
	movq	(%r13), %rcx
	movq	%rcx, 48(%rsp)
	movq	80(%r13), %r9
	movq	96(%r13), %r13
	cmpq	%r12, 32(%rbx)
	movl	%eax, 8(%rsp)
	movq	%rdx, 32(%rsp)
	ja	.LBB63_8
	cmpq	40(%rbx), %r12
	jae	.LBB63_8
	movq	48(%rbx), %rcx
	cmpq	416(%rbx), %rcx
	jne	.LBB63_10
.LBB63_11:
	incq	128(%rbx)
	je	.LBB63_12
.LBB63_13:
	movq	%r12, 272(%rbx)
	cmpq	$1, %rbp
	jne	.LBB63_17
.LBB63_14:
	cmpq	%r8, 344(%rbx)
	je	.LBB63_17
	movq	%r8, 344(%rbx)
	cmpq	%r8, 336(%rbx)
	jae	.LBB63_17
	movq	%r8, 336(%rbx)
.LBB63_17:
	movzbl	7(%rsp), %ecx
	orb	%dil, %cl
	cmpq	%r9, 360(%rbx)
	je	.LBB63_20
	movq	%r9, 360(%rbx)
	cmpq	%r9, 352(%rbx)
	jae	.LBB63_20
	movq	%r9, 352(%rbx)
.LBB63_20:
	testb	%cl, %cl
	je	.LBB63_21
	testb	%r14b, %r14b
	jne	.LBB63_23
.LBB63_24:
	addq	%rdx, 440(%rbx)
	jb	.LBB63_25
.LBB63_26:
	movq	48(%rsp), %rcx
	movq	%rcx, 464(%rbx)
	movq	%r13, 472(%rbx)
.LBB63_27:
	addq	$56, %rsp
	popq	%rbx
	popq	%r12
	popq	%r13
	popq	%r14
	popq	%r15
	popq	%rbp
	retq
.LBB63_8:
	movq	%r14, 16(%rsp)
	movb	%dil, 6(%rsp)
	movq	%rbx, %rdi
	movq	%r13, 24(%rsp)
	movq	%rsi, %r13
	movq	%r12, %rsi
	movq	%r8, %r15
	movq	%r9, %r14
	callq	"pie_explain::live_interval::LiveInterval::begin_interval"
	movq	%r14, %r9
	movq	%r15, %r8
	movzbl	6(%rsp), %edi
	movq	16(%rsp), %r14
	movq	%r13, %rsi
	movq	24(%rsp), %r13
	movq	32(%rsp), %rdx
	movl	8(%rsp), %eax
	movq	48(%rbx), %rcx
	cmpq	416(%rbx), %rcx
	je	.LBB63_11
.LBB63_10:
	movq	%r14, 16(%rsp)
	movb	%dil, 6(%rsp)
	movq	%rbx, %rdi
	movq	%r13, 24(%rsp)
	movq	%rsi, %r13
	movq	%r12, %rsi
	movq	%r8, %r15
	movq	%r9, %r14
	callq	"pie_explain::live_interval::LiveInterval::note_first_time"
	movq	%r14, %r9
	movq	%r15, %r8
	movzbl	6(%rsp), %edi
	movq	16(%rsp), %r14
	movq	%r13, %rsi
	movq	24(%rsp), %r13
	movq	32(%rsp), %rdx
	movl	8(%rsp), %eax
	incq	128(%rbx)
	jne	.LBB63_13
.LBB63_12:
	movb	%dil, 6(%rsp)
	leaq	128(%rbx), %rdi
	movq	%r13, 24(%rsp)
	movq	%rsi, %r13
	movq	%r8, %r15
	movq	%r9, 16(%rsp)
	callq	"pie_explain::explainer::saturate"
	movq	16(%rsp), %r9
	movq	%r15, %r8
	movzbl	6(%rsp), %edi
	movq	%r13, %rsi
	movq	24(%rsp), %r13
	movq	32(%rsp), %rdx
	movl	8(%rsp), %eax
	movq	%r12, 272(%rbx)
	cmpq	$1, %rbp
	je	.LBB63_14
	jmp	.LBB63_17
.LBB63_21:
	leaq	368(%rbx), %rdi
	movq	%r14, %r15
	movq	%rsi, %r14
	movq	40(%rsp), %rsi
	callq	"pie_explain::aggregates::Bounds::take_rare"
	movq	%r14, %rsi
	movq	%r15, %r14
	movq	32(%rsp), %rdx
	movl	8(%rsp), %eax
	testb	%r14b, %r14b
	je	.LBB63_24
.LBB63_23:
	leaq	392(%rbx), %rdi
	callq	"pie_explain::aggregates::Bounds::take_rare"
	movq	32(%rsp), %rdx
	movl	8(%rsp), %eax
	addq	%rdx, 440(%rbx)
	jae	.LBB63_26
.LBB63_25:
	leaq	440(%rbx), %rdi
	callq	"pie_explain::explainer::saturate"
	movl	8(%rsp), %eax
	jmp	.LBB63_26
.Lfunc_end63:
	.size	pie_update_summed, .Lfunc_end63-pie_update_summed

	.section	.text.pie_depart,"ax",@progbits
	.globl	pie_depart
	.p2align	4
	.type	pie_depart,@function
pie_depart:
	movq	%rdx, %rax
	movl	%esi, %edx
	testl	%esi, %esi
	je	.LBB64_8
	cmpq	$1073741824, %rax
	ja	.LBB64_8
	movq	%rcx, %rsi
	shrq	$60, %rsi
	jne	.LBB64_8
	cmpq	$1, 128(%rdi)
	jne	.LBB64_8
	testb	$1, 168(%rdi)
	jne	.LBB64_8
	cmpq	$1, 160(%rdi)
	jne	.LBB64_8
	movq	64(%rdi), %rsi
	cmpq	$65536, %rsi
	movl	$65536, %r8d
	cmovbq	%rsi, %r8
	movl	%edx, %r9d
	addq	144(%rdi), %r9
	movq	$-1, %rsi
	cmovaeq	%r9, %rsi
	cmpq	%r8, %rsi
	jae	.LBB64_8
	movq	72(%rdi), %rax
	cmpq	%rax, %rcx
	cmovaq	%rcx, %rax
	movq	%rax, 72(%rdi)
	movq	%rsi, 144(%rdi)
	xorl	%eax, %eax
	retq
.LBB64_8:
	movq	%rcx, %rsi
	movq	%rax, %rcx
	jmp	"pie_c::calls::depart_otherwise"
.Lfunc_end64:
	.size	pie_depart, .Lfunc_end64-pie_depart

	.section	.text.pie_depart_waited,"ax",@progbits
	.globl	pie_depart_waited
	.p2align	4
	.type	pie_depart_waited,@function
pie_depart_waited:
	pushq	%r14
	pushq	%rbx
	pushq	%rax
	movq	%rdx, %r9
	movl	%esi, %edx
	movabsq	$1152921504606846975, %rsi
	testb	$1, 168(%rdi)
	jne	.LBB65_1
	testl	%edx, %edx
	je	.LBB65_18
	cmpq	$1073741824, %r9
	ja	.LBB65_18
	cmpq	%rsi, %r8
	ja	.LBB65_18
	cmpq	$1, 128(%rdi)
	jne	.LBB65_18
	cmpq	$1, 160(%rdi)
	jne	.LBB65_18
	movq	64(%rdi), %rax
	cmpq	$65536, %rax
	movl	$65536, %ecx
	cmovbq	%rax, %rcx
	movl	%edx, %esi
	addq	144(%rdi), %rsi
	movq	$-1, %rax
	cmovaeq	%rsi, %rax
	cmpq	%rcx, %rax
	jae	.LBB65_18
	movq	72(%rdi), %rcx
	cmpq	%rcx, %r8
	cmovaq	%r8, %rcx
	movq	%rcx, 72(%rdi)
	movq	%rax, 144(%rdi)
	jmp	.LBB65_16
.LBB65_1:
	movl	$101, %eax
	cmpq	%rsi, %r8
	ja	.LBB65_17
	addl	$-65536, %edx
	movl	$102, %eax
	cmpl	$-65535, %edx
	jb	.LBB65_17
	movl	$112, %eax
	cmpq	$1073741824, %r9
	ja	.LBB65_17
	movq	72(%rdi), %rbx
	movl	$118, %eax
	cmpq	%rcx, %rbx
	jb	.LBB65_17
	cmpq	%rbx, %r8
	cmovaq	%r8, %rbx
	cmpq	$1, 160(%rdi)
	jne	.LBB65_6
	movq	%rdi, %r14
	movq	%r9, %rdi
	movq	%rcx, %rsi
	movq	%rbx, %rdx
	callq	"pie_aqm::raw::wait"
	movq	%r14, %rdi
	jmp	.LBB65_8
.LBB65_18:
	movq	%r8, %rsi
	movq	%r9, %rcx
	addq	$8, %rsp
	popq	%rbx
	popq	%r14
	jmp	"pie_c::calls::depart_otherwise"
.LBB65_6:
	movq	176(%rdi), %rax
.LBB65_8:
	movq	%rbx, 72(%rdi)
	movq	%rax, 176(%rdi)
.LBB65_16:
	xorl	%eax, %eax
.LBB65_17:
	addq	$8, %rsp
	popq	%rbx
	popq	%r14
	retq
.Lfunc_end65:
	.size	pie_depart_waited, .Lfunc_end65-pie_depart_waited

	.section	.text.pie_depart_event,"ax",@progbits
	.globl	pie_depart_event
	.p2align	4
	.type	pie_depart_event,@function
pie_depart_event:
	pushq	%r15
	pushq	%r14
	pushq	%rbx
	movq	%rcx, %rbx
	movq	%rdx, %r8
	movq	%rsi, %rcx
	movabsq	$1152921504606846975, %r9
	movl	48(%rbx), %edx
	movq	(%rbx), %rsi
	testb	$1, 168(%rdi)
	jne	.LBB66_1
	testq	%rdx, %rdx
	je	.LBB66_16
	cmpq	$1073741824, %rcx
	ja	.LBB66_16
	cmpq	%r9, %rsi
	ja	.LBB66_16
	cmpq	$1, 128(%rdi)
	jne	.LBB66_16
	cmpq	$1, 160(%rdi)
	jne	.LBB66_16
	movq	64(%rdi), %rax
	cmpq	$65536, %rax
	movl	$65536, %r8d
	cmovbq	%rax, %r8
	movq	144(%rdi), %r9
	addq	%rdx, %r9
	movq	$-1, %rax
	cmovaeq	%r9, %rax
	cmpq	%r8, %rax
	jae	.LBB66_16
	movq	72(%rdi), %rcx
	cmpq	%rcx, %rsi
	cmovaq	%rsi, %rcx
	movq	%rcx, 72(%rdi)
	movq	%rax, 144(%rdi)
	xorl	%eax, %eax
	jmp	.LBB66_17
.LBB66_1:
	movl	$101, %eax
	cmpq	%r9, %rsi
	ja	.LBB66_17
	addl	$-65536, %edx
	movl	$102, %eax
	cmpl	$-65535, %edx
	jb	.LBB66_17
	movl	$112, %eax
	cmpq	$1073741824, %rcx
	ja	.LBB66_17
	movq	72(%rdi), %r14
	movl	$118, %eax
	cmpq	%r8, %r14
	jb	.LBB66_17
	cmpq	%r14, %rsi
	cmovaq	%rsi, %r14
	cmpq	$1, 160(%rdi)
	jne	.LBB66_6
	movq	%rdi, %r15
	movq	%rcx, %rdi
	movq	%r8, %rsi
	movq	%r14, %rdx
	callq	"pie_aqm::raw::wait"
	movq	%r15, %rdi
	jmp	.LBB66_8
.LBB66_16:
	callq	"pie_c::calls::depart_otherwise"
.LBB66_17:
	movl	%eax, 52(%rbx)
	movl	$0, 60(%rbx)
	xorps	%xmm0, %xmm0
	movups	%xmm0, 24(%rbx)
	movq	$0, 40(%rbx)
	movb	$2, 58(%rbx)
	movq	$0, 16(%rbx)
	popq	%rbx
	popq	%r14
	popq	%r15
	retq
.LBB66_6:
	movq	176(%rdi), %rax
.LBB66_8:
	movq	%r14, 72(%rdi)
	movq	%rax, 176(%rdi)
	xorl	%eax, %eax
	jmp	.LBB66_17
.Lfunc_end66:
	.size	pie_depart_event, .Lfunc_end66-pie_depart_event

	.section	.text.pie_depart_summed,"ax",@progbits
	.globl	pie_depart_summed
	.p2align	4
	.type	pie_depart_summed,@function
pie_depart_summed:
	pushq	%rbp
	pushq	%r15
	pushq	%r14
	pushq	%r13
	pushq	%r12
	pushq	%rbx
	subq	$24, %rsp
	movq	%r8, %rbx
	movq	%rcx, %r15
	movq	%rdx, %r9
	movq	%rsi, %rcx
	movq	%rdi, %r12
	movabsq	$1152921504606846975, %rax
	movl	48(%r15), %edx
	movq	(%r15), %rsi
	testb	$1, 168(%rdi)
	jne	.LBB67_1
	testq	%rdx, %rdx
	je	.LBB67_16
	cmpq	$1073741824, %rcx
	ja	.LBB67_16
	cmpq	%rax, %rsi
	ja	.LBB67_16
	cmpq	$1, 128(%r12)
	jne	.LBB67_16
	cmpq	$1, 160(%r12)
	jne	.LBB67_16
	movq	64(%r12), %rax
	cmpq	$65536, %rax
	movl	$65536, %edi
	cmovbq	%rax, %rdi
	movq	144(%r12), %r8
	addq	%rdx, %r8
	movq	$-1, %rax
	cmovaeq	%r8, %rax
	cmpq	%rdi, %rax
	jae	.LBB67_16
	movq	72(%r12), %rcx
	cmpq	%rcx, %rsi
	cmovaq	%rsi, %rcx
	movq	%rcx, 72(%r12)
	movq	%rax, 144(%r12)
	xorl	%edi, %edi
	jmp	.LBB67_17
.LBB67_1:
	movl	$101, %edi
	cmpq	%rax, %rsi
	ja	.LBB67_17
	addl	$-65536, %edx
	movl	$102, %edi
	cmpl	$-65535, %edx
	jb	.LBB67_17
	movl	$112, %edi
	cmpq	$1073741824, %rcx
	ja	.LBB67_17
	movq	72(%r12), %r14
	movl	$118, %edi
	cmpq	%r9, %r14
	jb	.LBB67_17
	cmpq	%r14, %rsi
	cmovaq	%rsi, %r14
	cmpq	$1, 160(%r12)
	jne	.LBB67_6
	movq	%rcx, %rdi
	movq	%r9, %rsi
	movq	%r14, %rdx
	movq	%r9, %r13
	callq	"pie_aqm::raw::wait"
	movq	%r13, %r9
	jmp	.LBB67_8
.LBB67_16:
	movq	%r12, %rdi
	movq	%r9, %r14
	callq	"pie_c::calls::depart_otherwise"
	movq	%r14, %r9
	movl	%eax, %edi
.LBB67_17:
	movl	%edi, 52(%r15)
	movl	$0, 60(%r15)
	xorps	%xmm0, %xmm0
	movups	%xmm0, 24(%r15)
	movq	$0, 40(%r15)
	movb	$2, 58(%r15)
	movq	$0, 16(%r15)
	movq	(%r12), %rdx
	movq	72(%r12), %rbp
	xorl	%eax, %eax
	movq	%rbp, %r13
	subq	%r9, %r13
	cmovbq	%rax, %r13
	movq	%r13, %r14
	subq	%rdx, %r14
	cmovbq	%rax, %r14
	testl	%edi, %edi
	jne	.LBB67_50
	movq	80(%r12), %rsi
	movq	96(%r12), %r12
	movl	48(%r15), %r8d
	cmpq	%rbp, 32(%rbx)
	movl	%edi, 4(%rsp)
	ja	.LBB67_20
	cmpq	40(%rbx), %rbp
	jae	.LBB67_20
	movq	48(%rbx), %rax
	cmpq	416(%rbx), %rax
	jne	.LBB67_22
.LBB67_23:
	incq	112(%rbx)
	je	.LBB67_24
.LBB67_25:
	movq	%rbp, 272(%rbx)
	cmpq	%r13, %rdx
	jae	.LBB67_30
.LBB67_26:
	incq	448(%rbx)
	je	.LBB67_27
.LBB67_28:
	xorl	%eax, %eax
	movq	%rbp, %rcx
	subq	280(%rbx), %rcx
	cmovaeq	%rcx, %rax
	cmpq	%r14, %rax
	cmovaeq	%r14, %rax
	addq	%rax, 456(%rbx)
	jb	.LBB67_29
.LBB67_30:
	movq	%rbp, 280(%rbx)
	addq	%r13, 320(%rbx)
	jb	.LBB67_31
	cmpq	%r13, 328(%rbx)
	jb	.LBB67_33
.LBB67_34:
	cmpq	%rsi, 360(%rbx)
	jne	.LBB67_35
	jmp	.LBB67_37
.LBB67_20:
	movq	%rbx, %rdi
	movq	%rsi, 8(%rsp)
	movq	%rbp, %rsi
	movq	%r12, %r15
	movq	%rdx, %r12
	movq	%rbx, 16(%rsp)
	movq	%r8, %rbx
	callq	"pie_explain::live_interval::LiveInterval::begin_interval"
	movq	%rbx, %r8
	movq	16(%rsp), %rbx
	movq	8(%rsp), %rsi
	movq	%r12, %rdx
	movq	%r15, %r12
	movl	4(%rsp), %edi
	movq	48(%rbx), %rax
	cmpq	416(%rbx), %rax
	je	.LBB67_23
.LBB67_22:
	movq	%rbx, %rdi
	movq	%rsi, 8(%rsp)
	movq	%rbp, %rsi
	movq	%r12, %r15
	movq	%rdx, %r12
	movq	%rbx, 16(%rsp)
	movq	%r8, %rbx
	callq	"pie_explain::live_interval::LiveInterval::note_first_time"
	movq	%rbx, %r8
	movq	16(%rsp), %rbx
	movq	8(%rsp), %rsi
	movq	%r12, %rdx
	movq	%r15, %r12
	movl	4(%rsp), %edi
	incq	112(%rbx)
	jne	.LBB67_25
.LBB67_24:
	leaq	112(%rbx), %rdi
	movq	%r12, 16(%rsp)
	movq	%rdx, %r12
	movq	%rsi, %r15
	movq	%r8, 8(%rsp)
	callq	"pie_explain::explainer::saturate"
	movq	8(%rsp), %r8
	movq	%r15, %rsi
	movq	%r12, %rdx
	movq	16(%rsp), %r12
	movl	4(%rsp), %edi
	movq	%rbp, 272(%rbx)
	cmpq	%r13, %rdx
	jb	.LBB67_26
	jmp	.LBB67_30
.LBB67_31:
	leaq	312(%rbx), %rdi
	movq	%rdx, %r14
	movq	%rsi, %r15
	movq	%r8, %rbp
	callq	"pie_explain::aggregates::Total::carry"
	movq	%rbp, %r8
	movq	%r15, %rsi
	movq	%r14, %rdx
	movl	4(%rsp), %edi
	cmpq	%r13, 328(%rbx)
	jae	.LBB67_34
.LBB67_33:
	movq	%r13, 328(%rbx)
	cmpq	%rsi, 360(%rbx)
	je	.LBB67_37
.LBB67_35:
	movq	%rsi, 360(%rbx)
	cmpq	%rsi, 352(%rbx)
	jae	.LBB67_37
	movq	%rsi, 352(%rbx)
.LBB67_37:
	addq	%r8, 432(%rbx)
	jb	.LBB67_38
.LBB67_39:
	movq	%rdx, 464(%rbx)
	movq	%r12, 472(%rbx)
	movabsq	$-10000000000, %rax
	leaq	(%rax,%r13), %rcx
	addq	$1000000, %rax
	cmpq	%rax, %rcx
	jae	.LBB67_41
	movq	%r13, %rdi
	callq	"pie_explain::ranges::range_place_out_of_line"
	movl	4(%rsp), %edi
	jmp	.LBB67_48
.LBB67_41:
	cmpq	$9999999, %r13
	ja	.LBB67_43
	shrl	$5, %r13d
	imulq	$175921861, %r13, %rax
	shrq	$39, %rax
	addl	$450, %eax
	jmp	.LBB67_48
.LBB67_43:
	cmpq	$99999999, %r13
	ja	.LBB67_45
	imulq	$1125899907, %r13, %rax
	shrq	$50, %rax
	addl	$540, %eax
	jmp	.LBB67_48
.LBB67_45:
	cmpq	$999999999, %r13
	ja	.LBB67_47
	imulq	$1801439851, %r13, %rax
	shrq	$54, %rax
	addl	$630, %eax
	jmp	.LBB67_48
.LBB67_47:
	movabsq	$-6067343680855748867, %rcx
	movq	%r13, %rax
	mulq	%rcx
	movq	%rdx, %rax
	shrq	$26, %rax
	addq	$720, %rax
.LBB67_48:
	incq	480(%rbx,%rax,8)
	je	.LBB67_49
.LBB67_50:
	movl	%edi, %eax
	addq	$24, %rsp
	popq	%rbx
	popq	%r12
	popq	%r13
	popq	%r14
	popq	%r15
	popq	%rbp
	retq
.LBB67_38:
	leaq	432(%rbx), %rdi
	movq	%rdx, %r14
	callq	"pie_explain::explainer::saturate"
	movq	%r14, %rdx
	movl	4(%rsp), %edi
	jmp	.LBB67_39
.LBB67_49:
	leaq	(%rbx,%rax,8), %rdi
	addq	$480, %rdi
	callq	"pie_explain::explainer::saturate"
	movl	4(%rsp), %edi
	jmp	.LBB67_50
.LBB67_6:
	movq	176(%r12), %rax
.LBB67_8:
	movq	%r14, 72(%r12)
	movq	%rax, 176(%r12)
	xorl	%edi, %edi
	jmp	.LBB67_17
.LBB67_27:
	leaq	448(%rbx), %rdi
	movq	%r12, 16(%rsp)
	movq	%rdx, %r12
	movq	%rsi, %r15
	movq	%r8, 8(%rsp)
	callq	"pie_explain::explainer::saturate"
	movq	8(%rsp), %r8
	movq	%r15, %rsi
	movq	%r12, %rdx
	movq	16(%rsp), %r12
	movl	4(%rsp), %edi
	jmp	.LBB67_28
.LBB67_29:
	leaq	456(%rbx), %rdi
	movq	%rdx, %r14
	movq	%rsi, %r15
	movq	%r8, 8(%rsp)
	callq	"pie_explain::explainer::saturate"
	movq	8(%rsp), %r8
	movq	%r15, %rsi
	movq	%r14, %rdx
	movl	4(%rsp), %edi
	jmp	.LBB67_30
.Lfunc_end67:
	.size	pie_depart_summed, .Lfunc_end67-pie_depart_summed

	.section	.rodata.cst16,"aM",@progbits,16
	.p2align	4, 0x0
.LCPI68_0:
	.quad	-2
	.quad	-1
.LCPI68_1:
	.quad	-9223372036854775808
	.quad	-9223372036854775808
.LCPI68_2:
	.quad	-9223371036854775808
	.quad	-9223372036853775808
.LCPI68_3:
	.quad	-9223372036853775808
	.quad	-9223371036854775808
.LCPI68_4:
	.quad	-9223372026854775810
	.quad	-9223372026854775809
.LCPI68_5:
	.quad	-9223372036854710274
	.quad	-9223372035781033985
.LCPI68_6:
	.byte	255
	.byte	1
	.byte	1
	.byte	1
	.zero	1
	.zero	1
	.zero	1
	.zero	1
	.zero	1
	.zero	1
	.zero	1
	.zero	1
	.zero	1
	.zero	1
	.zero	1
	.zero	1
	.section	.text.pie_write_resume,"ax",@progbits
	.globl	pie_write_resume
	.p2align	4
	.type	pie_write_resume,@function
pie_write_resume:
	pushq	%rbp
	pushq	%r15
	pushq	%r14
	pushq	%r13
	pushq	%r12
	pushq	%rbx
	subq	$2232, %rsp
	movq	%r9, 56(%rsp)
	movq	%r8, 48(%rsp)
	movq	%rcx, 24(%rsp)
	movq	%rdx, %r12
	movq	%rsi, %r15
	movq	%rdi, %r14
	movq	2296(%rsp), %rbx
	xorl	%r13d, %r13d
	testq	%rbx, %rbx
	sete	%bpl
	leaq	944(%rsp), %rdi
	movl	$1288, %edx
	xorl	%esi, %esi
	callq	memset@PLT
	leaq	416(%rsp), %rdi
	movq	%r14, %rsi
	callq	"pie_abi::opening::checked"
	cmpb	$0, 416(%rsp)
	jne	.LBB68_28
	movq	168(%r15), %rax
	cmpq	$31, %rax
	ja	.LBB68_28
	movabsq	$1099511627777, %rcx
	movq	176(%r15), %rdi
	cmpq	%rcx, %rdi
	jae	.LBB68_28
	movq	64(%r15), %r8
	movdqu	16(%r15), %xmm0
	movdqu	(%r15), %xmm1
	movdqu	32(%r15), %xmm2
	movdqu	48(%r15), %xmm4
	movdqa	%xmm4, %xmm5
	palignr	$8, %xmm2, %xmm5
	pcmpeqd	%xmm3, %xmm3
	paddq	%xmm5, %xmm3
	paddq	.LCPI68_0(%rip), %xmm1
	pblendw	$240, %xmm4, %xmm2
	movdqa	.LCPI68_1(%rip), %xmm4
	pxor	%xmm4, %xmm0
	pcmpgtq	.LCPI68_2(%rip), %xmm0
	xorl	%edx, %edx
	popcntq	%r8, %rdx
	pxor	%xmm4, %xmm2
	pcmpgtq	.LCPI68_3(%rip), %xmm2
	cmpl	$1, %edx
	pxor	%xmm4, %xmm1
	pcmpgtq	.LCPI68_4(%rip), %xmm1
	sete	%dl
	pxor	%xmm4, %xmm3
	pcmpgtq	.LCPI68_5(%rip), %xmm3
	packssdw	%xmm2, %xmm0
	packssdw	%xmm3, %xmm1
	packssdw	%xmm0, %xmm1
	pmovmskb	%xmm1, %esi
	testl	%esi, %esi
	sete	%sil
	andb	%dl, %sil
	cmpb	$1, %sil
	jne	.LBB68_28
	rep		bsfq	%r8, %rdx
	addl	$-10, %edx
	cmpl	$6, %edx
	ja	.LBB68_28
	movabsq	$1152921504606846975, %rdx
	movq	72(%r15), %r10
	leaq	1(%rdx), %rsi
	cmpq	%rsi, %r10
	jae	.LBB68_28
	movabsq	$1000000000001, %rsi
	movq	80(%r15), %r11
	cmpq	%rsi, %r11
	jae	.LBB68_28
	movq	88(%r15), %r9
	movq	%r9, 408(%rsp)
	cmpq	%rcx, %r9
	jae	.LBB68_28
	movq	96(%r15), %r9
	cmpq	%rsi, %r9
	jae	.LBB68_28
	movq	104(%r15), %rcx
	movq	%rcx, 400(%rsp)
	cmpq	%r10, %rcx
	ja	.LBB68_28
	movq	112(%r15), %rsi
	movabsq	$8499999999999, %rcx
	movq	%rsi, 392(%rsp)
	cmpq	%rcx, %rsi
	ja	.LBB68_28
	movq	120(%r15), %rcx
	movq	%rcx, 384(%rsp)
	cmpq	%rdx, %rcx
	ja	.LBB68_28
	movq	424(%rsp), %rcx
	movq	%rcx, 240(%rsp)
	movl	448(%rsp), %ecx
	movq	%rcx, 312(%rsp)
	movzwl	452(%rsp), %ecx
	movq	%rcx, 40(%rsp)
	movzwl	454(%rsp), %ecx
	movq	%rcx, 288(%rsp)
	movq	456(%rsp), %rcx
	movq	%rcx, 248(%rsp)
	movq	464(%rsp), %rcx
	movq	%rcx, 256(%rsp)
	movq	472(%rsp), %rcx
	movq	%rcx, 264(%rsp)
	movq	480(%rsp), %rcx
	movq	%rcx, 304(%rsp)
	movl	488(%rsp), %ecx
	movq	%rcx, 272(%rsp)
	movl	492(%rsp), %ecx
	movq	%rcx, 280(%rsp)
	movzbl	496(%rsp), %ecx
	movq	56(%r15), %rdx
	movq	%rdx, 368(%rsp)
	movq	48(%r15), %rdx
	movq	%rdx, 360(%rsp)
	movq	40(%r15), %rdx
	movq	%rdx, 352(%rsp)
	movq	32(%r15), %rdx
	movq	%rdx, 344(%rsp)
	movq	24(%r15), %rdx
	movq	%rdx, 336(%rsp)
	movq	16(%r15), %rdx
	movq	%rdx, 328(%rsp)
	movq	(%r15), %rdx
	movq	%rdx, 296(%rsp)
	movq	8(%r15), %rdx
	movq	%rdx, 320(%rsp)
	movq	128(%r15), %rdx
	testq	%rdx, %rdx
	movq	%rdx, 376(%rsp)
	je	.LBB68_16
	cmpq	$1, %rdx
	jne	.LBB68_28
	movq	136(%r15), %rsi
	movq	%rsi, 16(%rsp)
	cmpq	%r10, %rsi
	ja	.LBB68_28
	movq	144(%r15), %rsi
	movq	%rsi, 8(%rsp)
	cmpq	%r8, %rsi
	jb	.LBB68_19
	jmp	.LBB68_28
.LBB68_16:
	cmpq	$0, 136(%r15)
	jne	.LBB68_28
	cmpq	$0, 144(%r15)
	jne	.LBB68_28
	movq	$0, 8(%rsp)
	movq	$0, 16(%rsp)
.LBB68_19:
	movq	%r11, 200(%rsp)
	movq	%r10, 208(%rsp)
	movq	%r9, 216(%rsp)
	movq	%r8, 224(%rsp)
	movq	%rdi, 232(%rsp)
	movq	152(%r15), %rdx
	cmpq	$1, %rdx
	je	.LBB68_22
	cmpq	$2, %rdx
	jne	.LBB68_28
	movq	160(%r15), %rsi
	movq	%rsi, 32(%rsp)
	cmpq	$2, %rsi
	jb	.LBB68_23
	jmp	.LBB68_28
.LBB68_22:
	movl	$1, %esi
	movq	%rsi, 32(%rsp)
	cmpq	$1, 160(%r15)
	jne	.LBB68_28
.LBB68_23:
	cmpq	80(%r14), %rdx
	jne	.LBB68_28
	cmpq	88(%r14), %rax
	jne	.LBB68_28
	movq	24(%rsp), %rsi
	cmpq	120(%r14), %rsi
	jbe	.LBB68_26
.LBB68_28:
	xorl	%r14d, %r14d
.LBB68_29:
	movb	%bpl, %r13b
	shll	$12, %r13d
	addq	%r13, %rbx
	leaq	944(%rsp), %rsi
	movq	%rbx, %rdi
	movq	%r14, %rdx
	callq	memcpy@PLT
.LBB68_52:
	movq	%r14, %rax
	addq	$2232, %rsp
	popq	%rbx
	popq	%r12
	popq	%r13
	popq	%r14
	popq	%r15
	popq	%rbp
	retq
.LBB68_26:
	cmpq	$1073741824, 2288(%rsp)
	ja	.LBB68_28
	movq	56(%rsp), %rsi
	cmpq	104(%r14), %rsi
	ja	.LBB68_28
	incq	40(%rsp)
	xorl	%esi, %esi
	cmpq	$2, %rdx
	sete	%sil
	cmpq	$16, %rax
	movq	(%r12), %rdx
	movq	%rdx, 88(%rsp)
	movq	8(%r12), %rdx
	movq	%rdx, 96(%rsp)
	movq	16(%r12), %rdx
	movq	%rdx, 104(%rsp)
	movq	24(%r12), %rdx
	movq	%rdx, 112(%rsp)
	movq	32(%r12), %rdx
	movq	%rdx, 120(%rsp)
	movq	40(%r12), %rdx
	movq	%rdx, 128(%rsp)
	movq	48(%r12), %rdx
	movq	%rdx, 136(%rsp)
	movq	56(%r12), %rdx
	movq	%rdx, 144(%rsp)
	movq	64(%r12), %rdx
	movq	%rdx, 152(%rsp)
	movq	72(%r12), %rdx
	movq	%rdx, 160(%rsp)
	movq	80(%r12), %rdx
	movq	%rdx, 168(%rsp)
	movq	88(%r12), %rdx
	movq	%rdx, 176(%rsp)
	movq	96(%r12), %rdx
	movq	%rdx, 184(%rsp)
	movq	104(%r12), %rdx
	movq	%rdx, 192(%rsp)
	movq	120(%r12), %r15
	movq	112(%r12), %r12
	setae	7(%rsp)
	movd	%esi, %xmm0
	pinsrb	$1, %eax, %xmm0
	movl	%eax, %edx
	shrb	%dl
	movzbl	%dl, %edx
	pinsrb	$2, %edx, %xmm0
	movl	%eax, %edx
	shrb	$2, %dl
	movzbl	%dl, %edx
	pinsrb	$3, %edx, %xmm0
	movb	%cl, 1(%rsp)
	shrb	$3, %al
	andb	$1, %al
	movb	%al, 6(%rsp)
	pand	.LCPI68_6(%rip), %xmm0
	movd	%xmm0, 2(%rsp)
	leaq	.Lstatic.90(%rip), %rax
	negq	%rax
	addq	%rsp, %rax
	addq	$944, %rax
	movl	432(%rsp), %ecx
	movq	%rcx, 64(%rsp)
	movl	436(%rsp), %ecx
	movq	%rcx, 72(%rsp)
	movq	440(%rsp), %rcx
	movq	%rcx, 80(%rsp)
	cmpq	$5, %rax
	ja	.LBB68_32
	movl	$1970496882, 944(%rsp)
	movw	$25965, 948(%rsp)
	jmp	.LBB68_33
.LBB68_32:
	movw	$25965, 948(%rsp)
	movl	$1970496882, 944(%rsp)
.LBB68_33:
	movb	$44, 950(%rsp)
	leaq	416(%rsp), %r14
	movl	$512, %edx
	movq	%r14, %rdi
	xorl	%esi, %esi
	callq	memset@PLT
	movq	$512, 928(%rsp)
	leaq	1(%rsp), %rsi
	movq	%r14, %rdi
	callq	"pie_record::opening::put_chosen"
	movq	928(%rsp), %r14
	leaq	(%rsp,%r14), %rsi
	addq	$416, %rsi
	movl	$512, %edx
	subq	%r14, %rdx
	leaq	951(%rsp), %rdi
	callq	memcpy@PLT
	movl	$519, %eax
	subq	%r14, %rax
	movq	%rax, 2224(%rsp)
	leaq	944(%rsp), %r14
	movq	%r14, %rdi
	movq	240(%rsp), %rsi
	callq	"pie_record::long_row::LongRow::number"
	movq	%r14, %rdi
	movq	64(%rsp), %rsi
	callq	"pie_record::long_row::LongRow::number"
	movq	%r14, %rdi
	movq	72(%rsp), %rsi
	callq	"pie_record::long_row::LongRow::number"
	movq	%r14, %rdi
	movq	80(%rsp), %rsi
	callq	"pie_record::long_row::LongRow::number"
	movq	%r14, %rdi
	movq	248(%rsp), %rsi
	callq	"pie_record::long_row::LongRow::number"
	movq	%r14, %rdi
	movq	256(%rsp), %rsi
	callq	"pie_record::long_row::LongRow::number"
	movq	%r14, %rdi
	movq	264(%rsp), %rsi
	callq	"pie_record::long_row::LongRow::number"
	movq	%r14, %rdi
	movq	272(%rsp), %rsi
	callq	"pie_record::long_row::LongRow::number"
	movq	%r14, %rdi
	movq	280(%rsp), %rsi
	callq	"pie_record::long_row::LongRow::number"
	movq	%r14, %rdi
	movq	288(%rsp), %rsi
	callq	"pie_record::long_row::LongRow::number"
	movq	%r14, %rdi
	movq	312(%rsp), %rsi
	callq	"pie_record::long_row::LongRow::number"
	movq	%r14, %rdi
	movq	304(%rsp), %rsi
	callq	"pie_record::long_row::LongRow::number"
	movq	%r14, %rdi
	movq	40(%rsp), %rsi
	callq	"pie_record::long_row::LongRow::number"
	movq	%r14, %rdi
	movq	296(%rsp), %rsi
	callq	"pie_record::long_row::LongRow::number"
	movq	%r14, %rdi
	movq	320(%rsp), %rsi
	callq	"pie_record::long_row::LongRow::number"
	movq	%r14, %rdi
	movq	328(%rsp), %rsi
	callq	"pie_record::long_row::LongRow::number"
	movq	%r14, %rdi
	movq	336(%rsp), %rsi
	callq	"pie_record::long_row::LongRow::number"
	movq	%r14, %rdi
	movq	344(%rsp), %rsi
	callq	"pie_record::long_row::LongRow::number"
	movq	%r14, %rdi
	movq	352(%rsp), %rsi
	callq	"pie_record::long_row::LongRow::number"
	movq	%r14, %rdi
	movq	360(%rsp), %rsi
	callq	"pie_record::long_row::LongRow::number"
	movq	%r14, %rdi
	movq	368(%rsp), %rsi
	callq	"pie_record::long_row::LongRow::number"
	movq	%r14, %rdi
	movq	224(%rsp), %rsi
	callq	"pie_record::long_row::LongRow::number"
	movq	%r14, %rdi
	movq	24(%rsp), %rsi
	callq	"pie_record::long_row::LongRow::number"
	cmpq	$-1, 48(%rsp)
	je	.LBB68_35
	leaq	944(%rsp), %rdi
	movq	48(%rsp), %rsi
	callq	"pie_record::long_row::LongRow::number"
	jmp	.LBB68_36
.LBB68_35:
	movq	2224(%rsp), %rax
	movb	$44, 944(%rsp,%rax)
	incq	%rax
	movq	%rax, 2224(%rsp)
.LBB68_36:
	xorl	%eax, %eax
	xorl	%ecx, %ecx
	cmpq	$1, 376(%rsp)
	sete	%cl
	movq	%rcx, 24(%rsp)
	movq	16(%rsp), %rcx
	cmovneq	%rax, %rcx
	movq	%rcx, 16(%rsp)
	movq	8(%rsp), %rcx
	cmovneq	%rax, %rcx
	movq	%rcx, 8(%rsp)
	leaq	944(%rsp), %r14
	movq	%r14, %rdi
	movq	56(%rsp), %rsi
	callq	"pie_record::long_row::LongRow::number"
	movq	%r14, %rdi
	movq	2288(%rsp), %rsi
	callq	"pie_record::long_row::LongRow::number"
	movq	%r14, %rdi
	movq	208(%rsp), %rsi
	callq	"pie_record::long_row::LongRow::number"
	movq	%r14, %rdi
	movq	200(%rsp), %rsi
	callq	"pie_record::long_row::LongRow::number"
	movq	%r14, %rdi
	movq	408(%rsp), %rsi
	callq	"pie_record::long_row::LongRow::number"
	movq	%r14, %rdi
	movq	392(%rsp), %rsi
	callq	"pie_record::long_row::LongRow::number"
	movq	%r14, %rdi
	movq	216(%rsp), %rsi
	callq	"pie_record::long_row::LongRow::number"
	movq	%r14, %rdi
	movq	400(%rsp), %rsi
	callq	"pie_record::long_row::LongRow::number"
	movq	%r14, %rdi
	movq	384(%rsp), %rsi
	callq	"pie_record::long_row::LongRow::number"
	movq	%r14, %rdi
	movq	24(%rsp), %rsi
	callq	"pie_record::long_row::LongRow::number"
	movq	%r14, %rdi
	movq	16(%rsp), %rsi
	callq	"pie_record::long_row::LongRow::number"
	movq	%r14, %rdi
	movq	8(%rsp), %rsi
	callq	"pie_record::long_row::LongRow::number"
	movq	%r14, %rdi
	movq	232(%rsp), %rsi
	callq	"pie_record::long_row::LongRow::number"
	movq	%r14, %rdi
	movq	32(%rsp), %rsi
	callq	"pie_record::long_row::LongRow::number"
	movq	%r14, %rdi
	movq	88(%rsp), %rsi
	callq	"pie_record::long_row::LongRow::number"
	movq	%r14, %rdi
	movq	96(%rsp), %rsi
	callq	"pie_record::long_row::LongRow::number"
	movq	%r14, %rdi
	movq	104(%rsp), %rsi
	callq	"pie_record::long_row::LongRow::number"
	movq	%r14, %rdi
	movq	112(%rsp), %rsi
	callq	"pie_record::long_row::LongRow::number"
	movq	%r14, %rdi
	movq	120(%rsp), %rsi
	callq	"pie_record::long_row::LongRow::number"
	movq	%r14, %rdi
	movq	128(%rsp), %rsi
	callq	"pie_record::long_row::LongRow::number"
	movq	%r14, %rdi
	movq	136(%rsp), %rsi
	callq	"pie_record::long_row::LongRow::number"
	movq	%r14, %rdi
	movq	144(%rsp), %rsi
	callq	"pie_record::long_row::LongRow::number"
	movq	%r14, %rdi
	movq	152(%rsp), %rsi
	callq	"pie_record::long_row::LongRow::number"
	movq	%r14, %rdi
	movq	160(%rsp), %rsi
	callq	"pie_record::long_row::LongRow::number"
	movq	%r14, %rdi
	movq	168(%rsp), %rsi
	callq	"pie_record::long_row::LongRow::number"
	movq	%r14, %rdi
	movq	176(%rsp), %rsi
	callq	"pie_record::long_row::LongRow::number"
	movq	%r14, %rdi
	movq	184(%rsp), %rsi
	callq	"pie_record::long_row::LongRow::number"
	movq	%r14, %rdi
	movq	192(%rsp), %rsi
	callq	"pie_record::long_row::LongRow::number"
	pxor	%xmm0, %xmm0
	movdqa	%xmm0, 432(%rsp)
	movdqa	%xmm0, 416(%rsp)
	movq	$0, 448(%rsp)
	movl	$40, %edi
	testq	%r15, %r15
	je	.LBB68_40
	movq	%r15, %r8
.LBB68_38:
	movq	%r15, %rcx
	shldq	$63, %r12, %rcx
	shrq	%r8
	movq	%rcx, %rsi
	addq	%r8, %rsi
	adcq	$0, %rsi
	movabsq	$-3689348814741910323, %r9
	movq	%rsi, %rax
	mulq	%r9
	shrq	$2, %rdx
	leaq	(%rdx,%rdx,4), %rax
	subq	%rax, %rsi
	subq	%rsi, %rcx
	sbbq	$0, %r8
	movq	%rcx, %rax
	mulq	%r9
	leaq	(%rax,%rax), %rsi
	leaq	(%rsi,%rsi,4), %rsi
	subl	%esi, %r12d
	orb	$48, %r12b
	movb	%r12b, 415(%rsp,%rdi)
	decq	%rdi
	movabsq	$-3689348814741910324, %rsi
	imulq	%rcx, %rsi
	addq	%rsi, %rdx
	imulq	%r9, %r8
	addq	%rdx, %r8
	movq	%rax, %r12
	cmpq	$9, %r15
	movq	%r8, %r15
	ja	.LBB68_38
	movq	%rax, %r12
.LBB68_40:
	cmpq	$10000, %r12
	jb	.LBB68_41
.LBB68_42:
	movabsq	$3777893186295716171, %rcx
	movq	%r12, %rax
	mulq	%rcx
	shrq	$11, %rdx
	imull	$10000, %edx, %eax
	movl	%r12d, %ecx
	subl	%eax, %ecx
	imull	$5243, %ecx, %eax
	shrl	$19, %eax
	imull	$100, %eax, %esi
	subl	%esi, %ecx
	movzwl	%cx, %ecx
	leaq	.Lstatic.34(%rip), %rsi
	movzwl	(%rsi,%rcx,2), %ecx
	movw	%cx, 414(%rsp,%rdi)
	movzwl	(%rsi,%rax,2), %eax
	movw	%ax, 412(%rsp,%rdi)
	addq	$-4, %rdi
	cmpq	$99999999, %r12
	movq	%rdx, %r12
	ja	.LBB68_42
	jmp	.LBB68_43
.LBB68_41:
	movq	%r12, %rdx
.LBB68_43:
	movq	2304(%rsp), %r15
	cmpq	$99, %rdx
	ja	.LBB68_47
	cmpq	$9, %rdx
	ja	.LBB68_46
	orb	$48, %dl
	movb	%dl, 415(%rsp,%rdi)
	decq	%rdi
	jmp	.LBB68_50
.LBB68_47:
	movl	%edx, %eax
	shrl	$2, %eax
	movzwl	%ax, %eax
	imull	$5243, %eax, %eax
	shrl	$17, %eax
	imull	$100, %eax, %ecx
	movl	%edx, %esi
	subl	%ecx, %esi
	movzwl	%si, %esi
	leaq	.Lstatic.34(%rip), %rcx
	movzwl	(%rcx,%rsi,2), %esi
	movw	%si, 414(%rsp,%rdi)
	cmpq	$999, %rdx
	ja	.LBB68_49
	orb	$48, %al
	movb	%al, 413(%rsp,%rdi)
	addq	$-3, %rdi
	jmp	.LBB68_50
.LBB68_46:
	leaq	.Lstatic.34(%rip), %rax
	movzwl	(%rax,%rdx,2), %eax
	movw	%ax, 414(%rsp,%rdi)
	addq	$-2, %rdi
	jmp	.LBB68_50
.LBB68_49:
	movzwl	%ax, %eax
	movzwl	(%rcx,%rax,2), %eax
	movw	%ax, 412(%rsp,%rdi)
	addq	$-4, %rdi
.LBB68_50:
	leaq	(%rsp,%rdi), %rsi
	addq	$416, %rsi
	movl	$40, %r14d
	subq	%rdi, %r14
	movq	2224(%rsp), %r12
	leaq	(%rsp,%r12), %rdi
	addq	$944, %rdi
	movq	%r14, %rdx
	callq	memcpy@PLT
	leaq	(%r12,%r14), %rax
	movb	$10, 944(%rsp,%rax)
	addq	%r12, %r14
	incq	%r14
	movq	%r14, 2224(%rsp)
	cmpq	%r14, %r15
	jae	.LBB68_29
	xorl	%r14d, %r14d
	jmp	.LBB68_52
.Lfunc_end68:
	.size	pie_write_resume, .Lfunc_end68-pie_write_resume

	.section	.text.pie_arrive,"ax",@progbits
	.globl	pie_arrive
	.p2align	4
	.type	pie_arrive,@function
pie_arrive:
	testl	%ecx, %ecx
	je	.LBB69_25
	cmpq	$1, 160(%rdi)
	jne	.LBB69_25
	cmpq	$1, 168(%rdi)
	ja	.LBB69_25
	movq	8(%rsp), %rcx
	movq	%rcx, %rax
	shrq	$60, %rax
	movl	$101, %eax
	jne	.LBB69_24
	leal	-65536(%rdx), %r10d
	movl	$102, %eax
	cmpl	$-65535, %r10d
	jb	.LBB69_24
	movl	$111, %eax
	cmpl	$3, %r8d
	ja	.LBB69_24
	movl	$112, %eax
	cmpq	$1073741824, %rsi
	ja	.LBB69_24
	cmpq	%rcx, 72(%rdi)
	jae	.LBB69_9
	movq	%rcx, 72(%rdi)
.LBB69_9:
	movl	%edx, %ecx
	addq	%rsi, %rcx
	xorl	%eax, %eax
	cmpq	%rcx, 48(%rdi)
	jae	.LBB69_11
	movl	$3, %eax
	xorl	%ecx, %ecx
	jmp	.LBB69_23
.LBB69_25:
	jmp	"pie_c::calls::arrive_out_of_line"
.LBB69_11:
	movq	112(%rdi), %rcx
	cmpq	$0, 96(%rdi)
	jne	.LBB69_23
	movq	%rsi, %rdx
	shrq	%rdx
	subq	%rdx, %rsi
	cmpq	%rsi, 40(%rdi)
	jae	.LBB69_23
	movq	(%rdi), %rdx
	movq	56(%rdi), %rsi
	movq	80(%rdi), %r10
	movq	%rdx, %r11
	shrq	%r11
	subq	%r11, %rdx
	cmpq	%rdx, 88(%rdi)
	jae	.LBB69_21
	movq	%r10, %rdx
	shrq	$12, %rdx
	cmpq	$48828125, %rdx
	jae	.LBB69_15
	jmp	.LBB69_23
.LBB69_21:
	testq	%r10, %r10
	je	.LBB69_22
.LBB69_15:
	addq	%r10, %rcx
	jae	.LBB69_16
.LBB69_19:
	testl	%r8d, %r8d
	setne	%al
	cmpq	%rsi, %r10
	setb	%cl
	andb	%al, %cl
	movzbl	%cl, %ecx
	movl	$2, %eax
	subl	%ecx, %eax
	xorl	%ecx, %ecx
	jmp	.LBB69_23
.LBB69_16:
	movq	%rcx, %rdx
	shrq	$10, %rdx
	cmpq	$830078125, %rdx
	jb	.LBB69_23
	movabsq	$8499999999999, %rax
	cmpq	%rax, %rcx
	ja	.LBB69_19
	movabsq	$1000000000000, %rdx
	movq	%r9, %rax
	mulq	%rdx
	xorl	%eax, %eax
	cmpq	%r10, %rdx
	jb	.LBB69_19
	jmp	.LBB69_23
.LBB69_22:
	xorl	%ecx, %ecx
	xorl	%eax, %eax
.LBB69_23:
	movq	%rcx, 112(%rdi)
.LBB69_24:
	retq
.Lfunc_end69:
	.size	pie_arrive, .Lfunc_end69-pie_arrive

	.section	.text.pie_arrive_event,"ax",@progbits
	.globl	pie_arrive_event
	.p2align	4
	.type	pie_arrive_event,@function
pie_arrive_event:
	pushq	%rbx
	subq	$16, %rsp
	movq	%rcx, %rbx
	movl	%edx, %ecx
	movl	48(%rbx), %edx
	movzbl	59(%rbx), %r8d
	movq	(%rbx), %r10
	movq	16(%rbx), %r9
	testl	%ecx, %ecx
	je	.LBB70_24
	cmpq	$1, 160(%rdi)
	jne	.LBB70_24
	cmpq	$1, 168(%rdi)
	ja	.LBB70_24
	movq	%r10, %rax
	shrq	$60, %rax
	movl	$101, %eax
	jne	.LBB70_25
	leal	-65536(%rdx), %ecx
	movl	$102, %eax
	cmpl	$-65535, %ecx
	jb	.LBB70_25
	movl	$111, %eax
	cmpb	$3, %r8b
	ja	.LBB70_25
	movl	$112, %eax
	cmpq	$1073741824, %rsi
	ja	.LBB70_25
	cmpq	%r10, 72(%rdi)
	jae	.LBB70_9
	movq	%r10, 72(%rdi)
.LBB70_9:
	addq	%rsi, %rdx
	xorl	%eax, %eax
	cmpq	%rdx, 48(%rdi)
	jae	.LBB70_11
	movl	$3, %eax
	xorl	%ecx, %ecx
	movq	%rcx, 112(%rdi)
	jmp	.LBB70_25
.LBB70_24:
	movq	%r10, (%rsp)
	callq	"pie_c::calls::arrive_out_of_line"
.LBB70_25:
	movb	$1, 58(%rbx)
	movl	%eax, 52(%rbx)
	movl	$0, 60(%rbx)
	xorps	%xmm0, %xmm0
	movups	%xmm0, 24(%rbx)
	movq	$0, 40(%rbx)
	addq	$16, %rsp
	popq	%rbx
	retq
.LBB70_11:
	movq	112(%rdi), %rcx
	cmpq	$0, 96(%rdi)
	jne	.LBB70_23
	movq	%rsi, %rdx
	shrq	%rdx
	subq	%rdx, %rsi
	cmpq	%rsi, 40(%rdi)
	jae	.LBB70_23
	movq	(%rdi), %rdx
	movq	56(%rdi), %rsi
	movq	80(%rdi), %r10
	movq	%rdx, %r11
	shrq	%r11
	subq	%r11, %rdx
	cmpq	%rdx, 88(%rdi)
	jae	.LBB70_21
	movq	%r10, %rdx
	shrq	$12, %rdx
	cmpq	$48828125, %rdx
	jae	.LBB70_15
	jmp	.LBB70_23
.LBB70_21:
	testq	%r10, %r10
	je	.LBB70_22
.LBB70_15:
	addq	%r10, %rcx
	jae	.LBB70_16
.LBB70_19:
	testl	%r8d, %r8d
	setne	%al
	cmpq	%rsi, %r10
	setb	%cl
	andb	%al, %cl
	movzbl	%cl, %ecx
	movl	$2, %eax
	subl	%ecx, %eax
	xorl	%ecx, %ecx
	movq	%rcx, 112(%rdi)
	jmp	.LBB70_25
.LBB70_16:
	movq	%rcx, %rdx
	shrq	$10, %rdx
	cmpq	$830078125, %rdx
	jb	.LBB70_23
	movabsq	$8499999999999, %rax
	cmpq	%rax, %rcx
	ja	.LBB70_19
	movabsq	$1000000000000, %rdx
	movq	%r9, %rax
	mulq	%rdx
	xorl	%eax, %eax
	cmpq	%r10, %rdx
	jb	.LBB70_19
	jmp	.LBB70_23
.LBB70_22:
	xorl	%ecx, %ecx
	xorl	%eax, %eax
.LBB70_23:
	movq	%rcx, 112(%rdi)
	jmp	.LBB70_25
.Lfunc_end70:
	.size	pie_arrive_event, .Lfunc_end70-pie_arrive_event

	.section	.text.pie_arrive_summed,"ax",@progbits
	.globl	pie_arrive_summed
	.p2align	4
	.type	pie_arrive_summed,@function
pie_arrive_summed:
	testl	%edx, %edx
	je	"pie_c::summing::arrive_summed_out_of_line"
	cmpq	$1, 160(%rdi)
	jne	"pie_c::summing::arrive_summed_out_of_line"
	cmpq	$1, 168(%rdi)
	ja	"pie_c::summing::arrive_summed_out_of_line"
	pushq	%rbp
	pushq	%r15
	pushq	%r14
	pushq	%r13
	pushq	%r12
	pushq	%rbx
	subq	$40, %rsp
	movl	48(%rcx), %ebp
	movq	(%rcx), %rdx
	movq	%rdx, %rax
	shrq	$60, %rax
	je	.LBB71_6
	movl	$101, %ebx
	jmp	.LBB71_5
.LBB71_6:
	leal	-65536(%rbp), %eax
	cmpl	$-65535, %eax
	jae	.LBB71_8
	movl	$102, %ebx
	jmp	.LBB71_5
.LBB71_8:
	movzbl	59(%rcx), %r10d
	cmpb	$3, %r10b
	ja	.LBB71_9
	cmpq	$1073741824, %rsi
	jbe	.LBB71_12
	movl	$112, %ebx
	jmp	.LBB71_5
.LBB71_9:
	movl	$111, %ebx
.LBB71_5:
	xorl	%r12d, %r12d
	xorl	%edx, %edx
.LBB71_32:
	movb	$1, 58(%rcx)
	movl	%ebx, 52(%rcx)
	movl	$0, 60(%rcx)
	xorps	%xmm0, %xmm0
	movups	%xmm0, 24(%rcx)
	movq	$0, 40(%rcx)
	cmpl	$8, %ebx
	movl	$8, %r15d
	cmovbl	%ebx, %r15d
	cmpl	$4, %ebx
	ja	.LBB71_53
	movq	(%rdi), %r13
	movq	72(%rdi), %r14
	movq	160(%rdi), %rax
	movq	%rax, 24(%rsp)
	movq	80(%rdi), %rax
	movq	%rax, 16(%rsp)
	movq	96(%rdi), %rax
	movq	%rax, 32(%rsp)
	cmpq	%r14, 32(%r8)
	ja	.LBB71_35
	cmpq	40(%r8), %r14
	jae	.LBB71_35
	movq	48(%r8), %rax
	cmpq	416(%r8), %rax
	jne	.LBB71_37
.LBB71_38:
	movl	%r15d, %eax
	incq	72(%r8,%rax,8)
	je	.LBB71_39
.LBB71_40:
	movl	%ebp, %r15d
	testb	%dl, %dl
	je	.LBB71_43
.LBB71_41:
	incq	144(%r8,%r12)
	je	.LBB71_42
.LBB71_43:
	movq	%r14, 272(%r8)
	incq	288(%r8)
	je	.LBB71_44
	addq	%r15, 304(%r8)
	jb	.LBB71_46
.LBB71_47:
	movq	16(%rsp), %rax
	cmpq	%rax, 360(%r8)
	je	.LBB71_50
.LBB71_48:
	movq	%rax, 360(%r8)
	cmpq	%rax, 352(%r8)
	jae	.LBB71_50
	movq	%rax, 352(%r8)
.LBB71_50:
	cmpq	$1, 24(%rsp)
	je	.LBB71_52
	leaq	392(%r8), %rdi
	movq	%r14, %rsi
	movq	%r8, %r14
	callq	"pie_explain::aggregates::Bounds::take_rare"
	movq	%r14, %r8
.LBB71_52:
	movq	%r13, 464(%r8)
	movq	32(%rsp), %rax
	movq	%rax, 472(%r8)
.LBB71_53:
	movl	%ebx, %eax
	addq	$40, %rsp
	popq	%rbx
	popq	%r12
	popq	%r13
	popq	%r14
	popq	%r15
	popq	%rbp
	retq
.LBB71_35:
	movq	%r8, %rdi
	movq	%r14, %rsi
	movq	%r14, (%rsp)
	movq	%rbx, 8(%rsp)
	movq	%r13, %rbx
	movq	%rbp, %r13
	movq	%r12, %rbp
	movq	%r8, %r12
	movq	%rdx, %r14
	callq	"pie_explain::live_interval::LiveInterval::begin_interval"
	movq	%r14, %rdx
	movq	%r12, %r8
	movq	%rbp, %r12
	movq	%r13, %rbp
	movq	%rbx, %r13
	movq	8(%rsp), %rbx
	movq	(%rsp), %r14
	movq	48(%r8), %rax
	cmpq	416(%r8), %rax
	je	.LBB71_38
.LBB71_37:
	movq	%r8, %rdi
	movq	%r14, %rsi
	movq	%r14, (%rsp)
	movq	%rbx, 8(%rsp)
	movq	%r13, %rbx
	movq	%rbp, %r13
	movq	%r12, %rbp
	movq	%r8, %r12
	movq	%rdx, %r14
	callq	"pie_explain::live_interval::LiveInterval::note_first_time"
	movq	%r14, %rdx
	movq	%r12, %r8
	movq	%rbp, %r12
	movq	%r13, %rbp
	movq	%rbx, %r13
	movq	8(%rsp), %rbx
	movq	(%rsp), %r14
	movl	%r15d, %eax
	incq	72(%r8,%rax,8)
	jne	.LBB71_40
.LBB71_39:
	leaq	(%r8,%rax,8), %rdi
	addq	$72, %rdi
	movq	%r8, (%rsp)
	movq	%rdx, %r15
	callq	"pie_explain::explainer::saturate"
	movq	%r15, %rdx
	movq	(%rsp), %r8
	movl	%ebp, %r15d
	testb	%dl, %dl
	jne	.LBB71_41
	jmp	.LBB71_43
.LBB71_12:
	movq	16(%rcx), %rax
	cmpq	%rdx, 72(%rdi)
	jae	.LBB71_14
	movq	%rdx, 72(%rdi)
.LBB71_14:
	addq	%rsi, %rbp
	xorl	%ebx, %ebx
	cmpq	%rbp, 48(%rdi)
	jae	.LBB71_16
	movl	$3, %ebx
	xorl	%r12d, %r12d
.LBB71_30:
	xorl	%r9d, %r9d
	jmp	.LBB71_31
.LBB71_16:
	movq	112(%rdi), %r9
	movl	$24, %r12d
	cmpq	$0, 96(%rdi)
	jne	.LBB71_31
	movq	(%rdi), %rdx
	movq	80(%rdi), %r11
	movq	88(%rdi), %r14
	movq	%rsi, %r15
	shrq	%r15
	subq	%r15, %rsi
	movq	%rdx, %r15
	shrq	%r15
	subq	%r15, %rdx
	cmpq	%rsi, 40(%rdi)
	jae	.LBB71_20
	movq	56(%rdi), %rsi
	cmpq	%rdx, %r14
	jae	.LBB71_21
	movq	%r11, %r15
	shrq	$12, %r15
	cmpq	$48828124, %r15
	ja	.LBB71_23
.LBB71_20:
	xorl	%eax, %eax
	cmpq	%rdx, %r14
	setae	%al
	shrq	$12, %r11
	cmpq	$48828125, %r11
	leaq	32(,%rax,8), %rax
	movl	$40, %r12d
	cmovbq	%rax, %r12
.LBB71_31:
	movq	%r9, 112(%rdi)
	movl	48(%rcx), %ebp
	movb	$1, %dl
	jmp	.LBB71_32
.LBB71_44:
	leaq	288(%r8), %rdi
	movq	%r8, %r12
	callq	"pie_explain::explainer::saturate"
	movq	%r12, %r8
	addq	%r15, 304(%r8)
	jae	.LBB71_47
.LBB71_46:
	leaq	296(%r8), %rdi
	movq	%r8, %r15
	callq	"pie_explain::aggregates::Total::carry"
	movq	%r15, %r8
	movq	16(%rsp), %rax
	cmpq	%rax, 360(%r8)
	jne	.LBB71_48
	jmp	.LBB71_50
.LBB71_42:
	leaq	(%r8,%r12), %rdi
	addq	$144, %rdi
	movq	%r8, %r12
	callq	"pie_explain::explainer::saturate"
	movq	%r12, %r8
	jmp	.LBB71_43
.LBB71_21:
	testq	%r11, %r11
	je	.LBB71_22
.LBB71_23:
	addq	%r11, %r9
	jae	.LBB71_24
.LBB71_28:
	cmpq	%rsi, %r11
	setae	%al
	addb	%al, %al
	testb	%r10b, %r10b
	movzbl	%al, %eax
	movl	$1, %edx
	cmovnel	%eax, %edx
	leal	(,%rdx,8), %eax
	orb	$64, %al
.LBB71_29:
	movzbl	%al, %r12d
	movzbl	%dl, %eax
	leaq	.Lswitch.table.pie_arrive_summed.30(%rip), %rdx
	movl	(%rdx,%rax,4), %ebx
	jmp	.LBB71_30
.LBB71_24:
	movq	%r9, %rdx
	shrq	$10, %rdx
	movl	$56, %r12d
	cmpq	$830078125, %rdx
	jb	.LBB71_31
	movabsq	$8499999999999, %rdx
	cmpq	%rdx, %r9
	ja	.LBB71_28
	movabsq	$1000000000000, %rdx
	mulq	%rdx
	movl	$112, %r12d
	cmpq	%r11, %rdx
	jae	.LBB71_31
	cmpq	%rsi, %r11
	setae	%al
	addb	%al, %al
	testb	%r10b, %r10b
	movzbl	%al, %eax
	movl	$1, %edx
	cmovnel	%eax, %edx
	leal	(,%rdx,8), %eax
	addb	$88, %al
	jmp	.LBB71_29
.LBB71_22:
	xorl	%r9d, %r9d
	movl	$48, %r12d
	xorl	%ebx, %ebx
	jmp	.LBB71_31
.Lfunc_end71:
	.size	pie_arrive_summed, .Lfunc_end71-pie_arrive_summed

	.section	.text.pie_write_event,"ax",@progbits
	.globl	pie_write_event
	.p2align	4
	.type	pie_write_event,@function
pie_write_event:
	pushq	%rbp
	pushq	%r15
	pushq	%r14
	pushq	%r13
	pushq	%r12
	pushq	%rbx
	subq	$536, %rsp
	movq	%rdx, %r14
	movq	%rsi, %rbx
	movq	%rdi, %r15
	xorl	%r13d, %r13d
	testq	%rsi, %rsi
	sete	%bpl
	leaq	16(%rsp), %rdi
	movl	$512, %edx
	xorl	%esi, %esi
	callq	memset@PLT
	movq	$512, 528(%rsp)
	movzbl	58(%r15), %eax
	movq	(%r15), %rdx
	cmpl	$6, %eax
	jne	.LBB72_12
	shrq	$60, %rdx
	jne	.LBB72_60
	cmpl	$0, 60(%r15)
	jne	.LBB72_60
	cmpq	$0, 16(%r15)
	jne	.LBB72_60
	cmpl	$0, 48(%r15)
	jne	.LBB72_60
	cmpb	$0, 59(%r15)
	jne	.LBB72_60
	cmpl	$0, 52(%r15)
	jne	.LBB72_60
	cmpq	$0, 24(%r15)
	jne	.LBB72_60
	cmpq	$0, 32(%r15)
	jne	.LBB72_60
	cmpq	$0, 40(%r15)
	jne	.LBB72_60
	movq	8(%r15), %rsi
	testq	%rsi, %rsi
	je	.LBB72_60
	leaq	16(%rsp), %rdi
	callq	"pie_record::note::put_lost"
	jmp	.LBB72_60
.LBB72_12:
	movq	%rdx, %rcx
	shrq	$60, %rcx
	jne	.LBB72_60
	cmpl	$0, 60(%r15)
	je	.LBB72_14
.LBB72_60:
	movq	528(%rsp), %rax
	movl	$512, %r15d
	subq	%rax, %r15
	cmpq	%r15, %r14
	jae	.LBB72_62
	xorl	%r15d, %r15d
	jmp	.LBB72_63
.LBB72_62:
	movb	%bpl, %r13b
	shll	$12, %r13d
	addq	%r13, %rbx
	leaq	(%rsp,%rax), %rsi
	addq	$16, %rsi
	movq	%rbx, %rdi
	movq	%r15, %rdx
	callq	memcpy@PLT
.LBB72_63:
	movq	%r15, %rax
	addq	$536, %rsp
	popq	%rbx
	popq	%r12
	popq	%r13
	popq	%r14
	popq	%r15
	popq	%rbp
	retq
.LBB72_14:
	decl	%eax
	cmpl	$3, %eax
	ja	.LBB72_60
	leaq	.LJTI72_0(%rip), %rcx
	movslq	(%rcx,%rax,4), %rax
	addq	%rcx, %rax
	jmpq	*%rax
.LBB72_16:
	movl	48(%r15), %r8d
	leal	-65536(%r8), %eax
	cmpl	$-65535, %eax
	jb	.LBB72_60
	cmpq	$0, 24(%r15)
	jne	.LBB72_60
	cmpq	$0, 32(%r15)
	jne	.LBB72_60
	cmpq	$0, 40(%r15)
	jne	.LBB72_60
	movzbl	59(%r15), %eax
	cmpb	$3, %al
	ja	.LBB72_60
	movl	52(%r15), %edi
	cmpl	$4, %edi
	ja	.LBB72_60
	movq	8(%r15), %rcx
	movq	16(%r15), %r9
	movzwl	56(%r15), %esi
	movl	%edi, 8(%rsp)
	movq	%r9, (%rsp)
	movzbl	%al, %r9d
	leaq	16(%rsp), %rdi
	callq	"pie_record::event::put_arrival"
	jmp	.LBB72_60
.LBB72_40:
	cmpq	$0, 8(%r15)
	jne	.LBB72_60
	cmpq	$0, 16(%r15)
	jne	.LBB72_60
	cmpl	$0, 48(%r15)
	jne	.LBB72_60
	cmpb	$0, 59(%r15)
	jne	.LBB72_60
	cmpl	$0, 52(%r15)
	jne	.LBB72_60
	movq	24(%r15), %rcx
	movabsq	$1099511627776, %rax
	cmpq	%rax, %rcx
	ja	.LBB72_60
	movabsq	$1000000000001, %rax
	movq	32(%r15), %r8
	cmpq	%rax, %r8
	jae	.LBB72_60
	movq	40(%r15), %r9
	cmpq	%rax, %r9
	jae	.LBB72_60
	movzwl	56(%r15), %esi
	leaq	16(%rsp), %rdi
	callq	"pie_record::event::put_update"
	jmp	.LBB72_60
.LBB72_49:
	cmpq	$0, 8(%r15)
	jne	.LBB72_60
	cmpq	$0, 16(%r15)
	jne	.LBB72_60
	cmpl	$0, 48(%r15)
	jne	.LBB72_60
	cmpb	$0, 59(%r15)
	jne	.LBB72_60
	cmpq	$0, 24(%r15)
	jne	.LBB72_60
	cmpq	$0, 32(%r15)
	jne	.LBB72_60
	cmpq	$0, 40(%r15)
	jne	.LBB72_60
	cmpl	$0, 52(%r15)
	jne	.LBB72_60
	movzwl	56(%r15), %r15d
	movb	$10, 527(%rsp)
	movq	$507, 528(%rsp)
	movl	$1701736292, 523(%rsp)
	leaq	16(%rsp), %r12
	movq	%r12, %rdi
	movq	%rdx, %rsi
	callq	"pie_record::row_buffer::RowBuffer::prepend_number"
	movq	%r12, %rdi
	movq	%r15, %rsi
	callq	"pie_record::row_buffer::RowBuffer::prepend_number"
	movq	528(%rsp), %rax
	leaq	-1(%rax), %rcx
	movq	%rcx, 528(%rsp)
	movb	$44, 15(%rsp,%rax)
	movq	528(%rsp), %rax
	leaq	-5(%rax), %rcx
	movq	%rcx, 528(%rsp)
	addq	%rsp, %rax
	addq	$11, %rax
	leaq	.Lstatic.42(%rip), %rcx
	movq	%rax, %rdx
	subq	%rcx, %rdx
	cmpq	$4, %rdx
	ja	.LBB72_59
	movl	$1702061426, (%rax)
	movb	$116, 4(%rax)
	jmp	.LBB72_60
.LBB72_23:
	movl	52(%r15), %eax
	cmpl	$5, %eax
	jne	.LBB72_32
	cmpq	$0, 8(%r15)
	jne	.LBB72_60
	cmpq	$0, 16(%r15)
	jne	.LBB72_60
	cmpl	$0, 48(%r15)
	jne	.LBB72_60
	cmpb	$0, 59(%r15)
	jne	.LBB72_60
	cmpq	$0, 24(%r15)
	jne	.LBB72_60
	cmpq	$0, 32(%r15)
	jne	.LBB72_60
	cmpq	$0, 40(%r15)
	jne	.LBB72_60
	movzwl	56(%r15), %esi
	leaq	16(%rsp), %rdi
	callq	"pie_record::event::put_empty"
	jmp	.LBB72_60
.LBB72_32:
	movl	48(%r15), %r8d
	leal	-65536(%r8), %ecx
	cmpl	$-65535, %ecx
	jb	.LBB72_60
	cmpq	$0, 24(%r15)
	jne	.LBB72_60
	cmpq	$0, 32(%r15)
	jne	.LBB72_60
	cmpq	$0, 40(%r15)
	jne	.LBB72_60
	testl	%eax, %eax
	jne	.LBB72_60
	cmpq	$0, 16(%r15)
	jne	.LBB72_60
	movzbl	59(%r15), %eax
	cmpb	$3, %al
	ja	.LBB72_60
	movq	8(%r15), %rcx
	movzwl	56(%r15), %esi
	movzbl	%al, %r9d
	leaq	16(%rsp), %rdi
	callq	"pie_record::event::put_left"
	jmp	.LBB72_60
.LBB72_59:
	movb	$116, 4(%rax)
	movl	$1702061426, (%rax)
	jmp	.LBB72_60
.Lfunc_end72:
	.size	pie_write_event, .Lfunc_end72-pie_write_event
	.section	.rodata.pie_write_event,"a",@progbits
	.p2align	2, 0x0
.LJTI72_0:
	.long	.LBB72_16-.LJTI72_0
	.long	.LBB72_23-.LJTI72_0
	.long	.LBB72_40-.LJTI72_0
	.long	.LBB72_49-.LJTI72_0

	.type	.Lstatic.33,@object
	.section	.data.rel.ro..Lstatic.33,"aw",@progbits
	.p2align	3, 0x0
.Lstatic.33:
	.quad	.Lstatic.33+16
	.asciz	"\022\000\000\000\000\000\000\000000000000000000000\000\000\000\000\000"
	.size	.Lstatic.33, 40

	.type	.Lstatic.34,@object
	.section	.rodata..Lstatic.34,"a",@progbits
.Lstatic.34:
	.ascii	"00010203040506070809101112131415161718192021222324252627282930313233343536373839404142434445464748495051525354555657585960616263646566676869707172737475767778798081828384858687888990919293949596979899"
	.size	.Lstatic.34, 200

	.type	.Lstatic.35,@object
	.section	.rodata.cst4,"aM",@progbits,4
.Lstatic.35:
	.ascii	"open"
	.size	.Lstatic.35, 4

	.type	.Lstatic.36,@object
	.section	.rodata..Lstatic.36,"a",@progbits
.Lstatic.36:
	.ascii	"rolling"
	.size	.Lstatic.36, 7

	.type	.Lstatic.37,@object
	.section	.rodata..Lstatic.37,"a",@progbits
.Lstatic.37:
	.ascii	"open2"
	.size	.Lstatic.37, 5

	.type	.Lstatic.38,@object
	.section	.rodata..Lstatic.38,"a",@progbits
.Lstatic.38:
	.ascii	"open3"
	.size	.Lstatic.38, 5

	.type	.Lstatic.39,@object
	.section	.rodata..Lstatic.39,"a",@progbits
.Lstatic.39:
	.ascii	"arrive"
	.size	.Lstatic.39, 6

	.type	.Lstatic.40,@object
	.section	.rodata..Lstatic.40,"a",@progbits
.Lstatic.40:
	.ascii	"depart"
	.size	.Lstatic.40, 6

	.type	.Lstatic.41,@object
	.section	.rodata..Lstatic.41,"a",@progbits
.Lstatic.41:
	.ascii	"update"
	.size	.Lstatic.41, 6

	.type	.Lstatic.42,@object
	.section	.rodata..Lstatic.42,"a",@progbits
.Lstatic.42:
	.ascii	"reset"
	.size	.Lstatic.42, 5

	.type	.Lstatic.43,@object
	.section	.rodata..Lstatic.43,"a",@progbits
.Lstatic.43:
	.ascii	"params"
	.size	.Lstatic.43, 6

	.type	.Lstatic.47,@object
	.section	.rodata..Lstatic.47,"a",@progbits
.Lstatic.47:
	.ascii	"refused"
	.size	.Lstatic.47, 7

	.type	.Lstatic.48,@object
	.section	.rodata..Lstatic.48,"a",@progbits
.Lstatic.48:
	.ascii	"folded"
	.size	.Lstatic.48, 6

	.type	.Lstatic.49,@object
	.section	.rodata..Lstatic.49,"a",@progbits
.Lstatic.49:
	.ascii	"shown"
	.size	.Lstatic.49, 5

	.type	.Lstatic.50,@object
	.section	.rodata..Lstatic.50,"a",@progbits
.Lstatic.50:
	.ascii	"tallied"
	.size	.Lstatic.50, 7

	.type	.Lstatic.51,@object
	.section	.rodata..Lstatic.51,"a",@progbits
.Lstatic.51:
	.ascii	"clock"
	.size	.Lstatic.51, 5

	.type	.Lstatic.53,@object
	.section	.rodata..Lstatic.53,"a",@progbits
.Lstatic.53:
	.ascii	"bounded"
	.size	.Lstatic.53, 7

	.type	.Lstatic.57,@object
	.section	.rodata.cst4,"aM",@progbits,4
.Lstatic.57:
	.ascii	"half"
	.size	.Lstatic.57, 4

	.type	.Lstatic.58,@object
	.section	.rodata.cst8,"aM",@progbits,8
.Lstatic.58:
	.ascii	"unscaled"
	.size	.Lstatic.58, 8

	.type	.Lstatic.59,@object
	.section	.rodata..Lstatic.59,"a",@progbits
.Lstatic.59:
	.ascii	"scaled"
	.size	.Lstatic.59, 6

	.type	.Lstatic.60,@object
	.section	.rodata..Lstatic.60,"a",@progbits
.Lstatic.60:
	.ascii	"capped"
	.size	.Lstatic.60, 6

	.type	.Lstatic.61,@object
	.section	.rodata.cst8,"aM",@progbits,8
.Lstatic.61:
	.ascii	"uncapped"
	.size	.Lstatic.61, 8

	.type	.Lstatic.62,@object
	.section	.rodata..Lstatic.62,"a",@progbits
.Lstatic.62:
	.ascii	"derandomized"
	.size	.Lstatic.62, 12

	.type	.Lstatic.63,@object
	.section	.rodata..Lstatic.63,"a",@progbits
.Lstatic.63:
	.ascii	"random"
	.size	.Lstatic.63, 6

	.type	.Lstatic.64,@object
	.section	.rodata.cst4,"aM",@progbits,4
.Lstatic.64:
	.ascii	"rate"
	.size	.Lstatic.64, 4

	.type	.Lstatic.65,@object
	.section	.rodata..Lstatic.65,"a",@progbits
.Lstatic.65:
	.ascii	"stamp"
	.size	.Lstatic.65, 5

	.type	.Lstatic.68,@object
	.section	.rodata..Lstatic.68,"a",@progbits
.Lstatic.68:
	.ascii	",\n"
	.size	.Lstatic.68, 2

	.type	.Lstatic.69,@object
	.section	.rodata..Lstatic.69,"a",@progbits
.Lstatic.69:
	.byte	45
	.size	.Lstatic.69, 1

	.type	.Lstatic.70,@object
	.section	.rodata..Lstatic.70,"a",@progbits
.Lstatic.70:
	.byte	84
	.size	.Lstatic.70, 1

	.type	.Lstatic.71,@object
	.section	.rodata..Lstatic.71,"a",@progbits
.Lstatic.71:
	.byte	58
	.size	.Lstatic.71, 1

	.type	.Lstatic.72,@object
	.section	.rodata..Lstatic.72,"a",@progbits
.Lstatic.72:
	.byte	46
	.size	.Lstatic.72, 1

	.type	.Lstatic.73,@object
	.section	.rodata..Lstatic.73,"a",@progbits
.Lstatic.73:
	.byte	90
	.size	.Lstatic.73, 1

	.type	.Lstatic.74,@object
	.section	.data.rel.ro..Lstatic.74,"aw",@progbits
	.p2align	3, 0x0
.Lstatic.74:
	.quad	.Lstatic.74+16
	.asciz	"\t\000\000\000\000\000\000\000000000000\000\000\000\000\000\000"
	.size	.Lstatic.74, 32

	.type	.Lstatic.75,@object
	.section	.rodata..Lstatic.75,"a",@progbits
.Lstatic.75:
	.ascii	"events,first_moment,last_moment,arrivals,arrived_bytes,enqueue,mark,early,bytes,packets,no_room_in_bytes,no_room_in_packets,inactive,burst_allowed,low_delay,short_queue,no_probability,little_accumulated,picked_by_sum,picked_by_sum_not_capable,picked_by_sum_not_below,picked_by_word,picked_by_word_not_capable,picked_by_word_not_below,word_not_below,left,greatest_wait,mean_wait,updates,greatest_delay,last_delay,greatest_probability,last_probability,turned_on,first_turned_on,last_turned_on,turned_off,first_turned_off,last_turned_off,wait_99,carried_bytes,last_target,last_burst_allowance,time_above_target,waited_above_target,time_waited_above_target"
	.size	.Lstatic.75, 652

	.type	.Lstatic.76,@object
	.section	.rodata..Lstatic.76,"a",@progbits
.Lstatic.76:
	.ascii	",wall\n"
	.size	.Lstatic.76, 6

	.type	.Lstatic.77,@object
	.section	.rodata..Lstatic.77,"a",@progbits
.Lstatic.77:
	.ascii	"queued"
	.size	.Lstatic.77, 6

	.type	.Lstatic.78,@object
	.section	.rodata..Lstatic.78,"a",@progbits
.Lstatic.78:
	.ascii	"not"
	.size	.Lstatic.78, 3

	.type	.Lstatic.79,@object
	.section	.rodata.cst4,"aM",@progbits,4
.Lstatic.79:
	.ascii	"ect1"
	.size	.Lstatic.79, 4

	.type	.Lstatic.80,@object
.Lstatic.80:
	.ascii	"ect0"
	.size	.Lstatic.80, 4

	.type	.Lstatic.81,@object
	.section	.rodata..Lstatic.81,"a",@progbits
.Lstatic.81:
	.ascii	"ce"
	.size	.Lstatic.81, 2

	.type	.Lstatic.82,@object
	.section	.rodata..Lstatic.82,"a",@progbits
.Lstatic.82:
	.ascii	"enqueue"
	.size	.Lstatic.82, 7

	.type	.Lstatic.83,@object
	.section	.rodata.cst4,"aM",@progbits,4
.Lstatic.83:
	.ascii	"mark"
	.size	.Lstatic.83, 4

	.type	.Lstatic.84,@object
	.section	.rodata..Lstatic.84,"a",@progbits
.Lstatic.84:
	.ascii	"early"
	.size	.Lstatic.84, 5

	.type	.Lstatic.85,@object
	.section	.rodata..Lstatic.85,"a",@progbits
.Lstatic.85:
	.ascii	"bytes"
	.size	.Lstatic.85, 5

	.type	.Lstatic.86,@object
	.section	.rodata..Lstatic.86,"a",@progbits
.Lstatic.86:
	.ascii	"packets"
	.size	.Lstatic.86, 7

	.type	.Lstatic.88,@object
	.section	.rodata..Lstatic.88,"a",@progbits
.Lstatic.88:
	.ascii	"empty"
	.size	.Lstatic.88, 5

	.type	.Lstatic.90,@object
	.section	.rodata..Lstatic.90,"a",@progbits
.Lstatic.90:
	.ascii	"resume"
	.size	.Lstatic.90, 6

	.type	".Lswitch.table.pie_record::note::put_note",@object
	.section	".rodata..Lswitch.table.pie_record::note::put_note","a",@progbits
	.p2align	3, 0x0
".Lswitch.table.pie_record::note::put_note":
	.quad	7
	.quad	6
	.quad	5
	.quad	7
	.quad	5
	.size	".Lswitch.table.pie_record::note::put_note", 40

	.type	".Lswitch.table.pie_record::note::put_note.29",@object
	.section	".data.rel.ro..Lswitch.table.pie_record::note::put_note.29","aw",@progbits
	.p2align	3, 0x0
".Lswitch.table.pie_record::note::put_note.29":
	.quad	.Lstatic.47
	.quad	.Lstatic.48
	.quad	.Lstatic.49
	.quad	.Lstatic.50
	.quad	.Lstatic.51
	.size	".Lswitch.table.pie_record::note::put_note.29", 40

	.type	.Lswitch.table.pie_arrive_summed.30,@object
	.section	.rodata..Lswitch.table.pie_arrive_summed.30,"a",@progbits
	.p2align	2, 0x0
.Lswitch.table.pie_arrive_summed.30:
	.long	1
	.long	2
	.long	2
	.size	.Lswitch.table.pie_arrive_summed.30, 12

	.ident	"rattle logic=dac8208d650f15bf3e2dc313a14fa4c783a3acf887bdfab66e1714b038d9e11b"
	.section	".note.GNU-stack","",@progbits

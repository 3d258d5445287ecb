/* SPDX-License-Identifier: MIT OR Apache-2.0 */
/* Written by bindings/kernel/make.sh from the proved crate pie_c. Do not edit. */
#ifdef __KERNEL__
#include <linux/linkage.h>
#else
#define RET ret
#define SYM_FUNC_START_LOCAL(name) .p2align 4; .type name, @function; name:
#define SYM_FUNC_START(name) .globl name; SYM_FUNC_START_LOCAL(name)
#define SYM_FUNC_END(name) .size name, . - name
#endif
	.text
SYM_FUNC_START_LOCAL(pie_control__update__delay)
	movq	%rdx, %r8
	movq	%rsi, %rax
	mulq	%rdi
	leaq	-1(%r8), %rcx
	movq	%r8, %rsi
	xorq	%rcx, %rsi
	cmpq	%rcx, %rsi
	jbe	.LBB0_18
	rep		bsfq	%r8, %rcx
	cmpq	$12, %rcx
	jle	.LBB0_2
	cmpl	$14, %ecx
	jg	.LBB0_10
	cmpl	$13, %ecx
	je	.LBB0_16
	cmpl	$14, %ecx
	jne	.LBB0_18
	shrdq	$14, %rdx, %rax
	shrq	$14, %rdx
	jmp	.LBB0_14
.LBB0_2:
	cmpl	$10, %ecx
	je	.LBB0_13
	cmpl	$11, %ecx
	je	.LBB0_15
	cmpl	$12, %ecx
	jne	.LBB0_18
	shrdq	$12, %rdx, %rax
	shrq	$12, %rdx
	jmp	.LBB0_14
.LBB0_10:
	cmpl	$15, %ecx
	je	.LBB0_17
	cmpl	$16, %ecx
	jne	.LBB0_18
	shrdq	$16, %rdx, %rax
	shrq	$16, %rdx
	jmp	.LBB0_14
.LBB0_18:
	xorl	%ecx, %ecx
	cmpq	$1, %r8
	adcq	$0, %r8
	sete	%sil
	movq	%rax, %rdi
	orq	%rdx, %rdi
	sete	%dil
	orb	%sil, %dil
	bsrq	%r8, %rsi
	xorq	$63, %rsi
	orq	$64, %rsi
	bsrq	%rdx, %r9
	xorq	$63, %r9
	bsrq	%rax, %r10
	xorq	$63, %r10
	orq	$64, %r10
	testq	%rdx, %rdx
	cmovneq	%r9, %r10
	subq	%r10, %rsi
	movl	$0, %r9d
	sbbq	%r9, %r9
	movl	$127, %r10d
	cmpq	%rsi, %r10
	movl	$0, %r10d
	sbbq	%r9, %r10
	setb	%r10b
	orb	%dil, %r10b
	movq	%rdx, %rdi
	cmovneq	%rcx, %rdi
	cmoveq	%rax, %rcx
	jne	.LBB0_25
	movq	%rsi, %r10
	xorq	$127, %r10
	orq	%r9, %r10
	je	.LBB0_25
	movl	%esi, %ecx
	xorb	$127, %cl
	movq	%rdx, %rdi
	shldq	%cl, %rax, %rdi
	movq	%rax, %r10
	shlq	%cl, %r10
	xorl	%r11d, %r11d
	testb	$64, %cl
	cmovneq	%r10, %rdi
	cmovneq	%r11, %r10
	addq	$1, %rsi
	adcq	$0, %r9
	jb	.LBB0_24
	pushq	%r15
	pushq	%r14
	pushq	%rbx
	movl	%esi, %ecx
	shrdq	%cl, %rdx, %rax
	shrq	%cl, %rdx
	xorl	%r11d, %r11d
	testb	$64, %sil
	cmovneq	%rdx, %rax
	cmovneq	%r11, %rdx
	movq	%r8, %rcx
	addq	$-1, %rcx
	movl	$0, %ebx
	adcq	$-1, %rbx
	xorl	%r14d, %r14d
	.p2align	4
.LBB0_22:
	shldq	$1, %rax, %rdx
	shldq	$1, %rdi, %rax
	shldq	$1, %r10, %rdi
	orq	%r14, %rdi
	addq	%r10, %r10
	orq	%r11, %r10
	cmpq	%rax, %rcx
	movq	%rbx, %r15
	sbbq	%rdx, %r15
	sarq	$63, %r15
	movl	%r15d, %r11d
	andl	$1, %r11d
	xorl	%r14d, %r14d
	andq	%r8, %r15
	subq	%r15, %rax
	sbbq	$0, %rdx
	addq	$-1, %rsi
	adcq	$-1, %r9
	movq	%rsi, %r15
	orq	%r9, %r15
	jne	.LBB0_22
	popq	%rbx
	popq	%r14
	popq	%r15
.LBB0_24:
	shldq	$1, %r10, %rdi
	leaq	(%r11,%r10,2), %rcx
	jmp	.LBB0_25
.LBB0_13:
	shrdq	$10, %rdx, %rax
	shrq	$10, %rdx
	jmp	.LBB0_14
.LBB0_16:
	shrdq	$13, %rdx, %rax
	shrq	$13, %rdx
	jmp	.LBB0_14
.LBB0_17:
	shrdq	$15, %rdx, %rax
	shrq	$15, %rdx
	jmp	.LBB0_14
.LBB0_15:
	shrdq	$11, %rdx, %rax
	shrq	$11, %rdx
.LBB0_14:
	movq	%rax, %rcx
	movq	%rdx, %rdi
.LBB0_25:
	movabsq	$1099511627776, %rax
	cmpq	%rax, %rcx
	cmovaeq	%rax, %rcx
	testq	%rdi, %rdi
	cmovneq	%rax, %rcx
	movq	%rcx, %rax
	RET
SYM_FUNC_END(pie_control__update__delay)

SYM_FUNC_START_LOCAL(pie_c__calls__depart_otherwise)
	movq	%rsi, %rax
	shrq	$60, %rsi
	setne	%sil
	leal	-65536(%rdx), %r8d
	cmpl	$-65535, %r8d
	setb	%r8b
	orb	%sil, %r8b
	je	.LBB1_1
.LBB1_6:
	movl	%edx, %esi
	movq	%rcx, %rdx
	movq	%rax, %rcx
	jmp	pie_c__calls__depart
.LBB1_1:
	movq	64(%rdi), %r8
	cmpq	$65536, %r8
	movl	$65536, %esi
	cmovbq	%r8, %rsi
	cmpq	$1, 128(%rdi)
	je	.LBB1_6
	movq	168(%rdi), %r8
	andl	$1, %r8d
	jne	.LBB1_6
	cmpq	$1, 160(%rdi)
	jne	.LBB1_6
	cmpq	%rsi, %rcx
	jae	.LBB1_6
	leaq	128(%rdi), %rcx
	movq	$0, 16(%rcx)
	movq	$0, 8(%rcx)
	movq	$0, (%rcx)
	movq	72(%rdi), %rcx
	cmpq	%rcx, %rax
	cmovaq	%rax, %rcx
	movq	%rcx, 72(%rdi)
	xorl	%eax, %eax
	RET
SYM_FUNC_END(pie_c__calls__depart_otherwise)

SYM_FUNC_START_LOCAL(pie_c__calls__depart)
	movq	%rcx, %rax
	shrq	$60, %rax
	movl	$101, %eax
	jne	.LBB2_19
	leal	-65536(%rsi), %r8d
	movl	$102, %eax
	cmpl	$-65535, %r8d
	jb	.LBB2_19
	movl	$112, %eax
	cmpq	$1073741824, %rdx
	ja	.LBB2_19
	movl	$119, %eax
	testb	$1, 168(%rdi)
	jne	.LBB2_19
	movq	128(%rdi), %r10
	cmpq	$1, %r10
	jne	.LBB2_5
	movq	136(%rdi), %rax
	movq	144(%rdi), %r9
	movb	$1, %r8b
	jmp	.LBB2_7
.LBB2_5:
	xorl	%r8d, %r8d
	xorl	%eax, %eax
	xorl	%r9d, %r9d
.LBB2_7:
	pushq	%rbx
	movq	72(%rdi), %r11
	cmpq	%r11, %rcx
	cmovaq	%rcx, %r11
	movq	120(%rdi), %rcx
	cmpq	$1, 160(%rdi)
	jne	.LBB2_16
	movq	64(%rdi), %rbx
	cmpq	$65536, %rbx
	movl	$65536, %r8d
	cmovbq	%rbx, %r8
	cmpq	$1, %r10
	jne	.LBB2_15
	movl	%esi, %esi
	addq	%r9, %rsi
	movq	$-1, %r9
	cmovaeq	%rsi, %r9
	cmpq	%r8, %r9
	jae	.LBB2_12
	movq	%r11, 72(%rdi)
	jmp	.LBB2_11
.LBB2_12:
	xorl	%r9d, %r9d
	movq	%r11, %rsi
	subq	%rax, %rsi
	cmovaeq	%rsi, %r9
	cmpq	$1, %r9
	adcq	$0, %r9
	testq	%rcx, %rcx
	je	.LBB2_13
	movl	$65536, %esi
	subq	%r8, %rsi
	movq	%r8, %rax
	movq	%rdx, %rbx
	mulq	%r9
	movq	%rdx, %r9
	movq	%rax, %r10
	movq	%rsi, %rax
	mulq	%rcx
	addq	%r10, %rax
	movq	%rdx, %rcx
	movq	%rbx, %rdx
	adcq	%r9, %rcx
	shldq	$48, %rax, %rcx
	jmp	.LBB2_15
.LBB2_13:
	movq	%r9, %rcx
.LBB2_15:
	xorl	%r9d, %r9d
	cmpq	%r8, %rdx
	setae	%r8b
	movl	$0, %eax
	cmovaeq	%r11, %rax
.LBB2_16:
	movq	%r11, 72(%rdi)
	movq	%rcx, 120(%rdi)
	testb	%r8b, %r8b
	je	.LBB2_17
.LBB2_11:
	movl	$1, %ecx
	jmp	.LBB2_18
.LBB2_17:
	xorl	%ecx, %ecx
	xorl	%eax, %eax
	xorl	%r9d, %r9d
.LBB2_18:
	movq	%rcx, 128(%rdi)
	movq	%rax, 136(%rdi)
	movq	%r9, 144(%rdi)
	xorl	%eax, %eax
	popq	%rbx
.LBB2_19:
	RET
SYM_FUNC_END(pie_c__calls__depart)

SYM_FUNC_START_LOCAL(pie_aqm__raw__wait)
	testq	%rdi, %rdi
	je	.LBB3_2
	xorl	%eax, %eax
	subq	%rsi, %rdx
	cmovaeq	%rdx, %rax
	movabsq	$1099511627776, %rcx
	cmpq	%rcx, %rax
	cmovaeq	%rcx, %rax
	RET
.LBB3_2:
	xorl	%eax, %eax
	RET
SYM_FUNC_END(pie_aqm__raw__wait)

SYM_FUNC_START_LOCAL(pie_early__decision__scaled)
	movq	%rdx, %rcx
	movl	%esi, %edx
	cmpq	%rdx, %rdi
	jbe	.LBB4_7
	movq	%rcx, %rax
	mulq	%rdx
	xorl	%ecx, %ecx
	testq	%rdi, %rdi
	sete	%sil
	movq	%rax, %r8
	orq	%rdx, %r8
	sete	%r9b
	orb	%sil, %r9b
	bsrq	%rdi, %rsi
	xorq	$63, %rsi
	orq	$64, %rsi
	bsrq	%rdx, %r8
	xorq	$63, %r8
	bsrq	%rax, %r10
	xorq	$63, %r10
	orq	$64, %r10
	testq	%rdx, %rdx
	cmovneq	%r8, %r10
	subq	%r10, %rsi
	movl	$0, %r8d
	sbbq	%r8, %r8
	movl	$127, %r10d
	cmpq	%rsi, %r10
	movl	$0, %r10d
	sbbq	%r8, %r10
	setb	%r10b
	orb	%r9b, %r10b
	movq	%rsi, %r9
	xorq	$127, %r9
	orq	%r8, %r9
	sete	%r9b
	testb	%r10b, %r10b
	cmoveq	%rax, %rcx
	orb	%r10b, %r9b
	jne	.LBB4_7
	movl	%esi, %ecx
	xorb	$127, %cl
	movq	%rdx, %r10
	shldq	%cl, %rax, %r10
	movq	%rax, %r9
	shlq	%cl, %r9
	xorl	%r11d, %r11d
	testb	$64, %cl
	cmovneq	%r9, %r10
	cmovneq	%r11, %r9
	addq	$1, %rsi
	adcq	$0, %r8
	jb	.LBB4_6
	pushq	%r15
	pushq	%r14
	pushq	%rbx
	movl	%esi, %ecx
	shrdq	%cl, %rdx, %rax
	shrq	%cl, %rdx
	xorl	%r11d, %r11d
	testb	$64, %sil
	cmovneq	%rdx, %rax
	cmovneq	%r11, %rdx
	movq	%rdi, %rcx
	addq	$-1, %rcx
	movl	$0, %ebx
	adcq	$-1, %rbx
	xorl	%r14d, %r14d
	.p2align	4
.LBB4_4:
	shldq	$1, %rax, %rdx
	shldq	$1, %r10, %rax
	shldq	$1, %r9, %r10
	orq	%r14, %r10
	addq	%r9, %r9
	orq	%r11, %r9
	cmpq	%rax, %rcx
	movq	%rbx, %r15
	sbbq	%rdx, %r15
	sarq	$63, %r15
	movl	%r15d, %r11d
	andl	$1, %r11d
	xorl	%r14d, %r14d
	andq	%rdi, %r15
	subq	%r15, %rax
	sbbq	$0, %rdx
	addq	$-1, %rsi
	adcq	$-1, %r8
	movq	%rsi, %r15
	orq	%r8, %r15
	jne	.LBB4_4
	popq	%rbx
	popq	%r14
	popq	%r15
.LBB4_6:
	leaq	(%r11,%r9,2), %rcx
.LBB4_7:
	movq	%rcx, %rax
	RET
SYM_FUNC_END(pie_early__decision__scaled)

SYM_FUNC_START_LOCAL(pie_c__calls__arrive_out_of_line)
	pushq	%rbp
	pushq	%r15
	pushq	%r14
	pushq	%r13
	pushq	%r12
	pushq	%rbx
	pushq	%rax
	movq	64(%rsp), %r10
	movq	%r10, %rax
	shrq	$60, %rax
	movl	$101, %eax
	jne	.LBB5_16
	leal	-65536(%rdx), %r11d
	movl	$102, %eax
	cmpl	$-65535, %r11d
	jb	.LBB5_16
	movl	$111, %eax
	cmpl	$3, %r8d
	ja	.LBB5_16
	movl	$112, %eax
	cmpq	$1073741824, %rsi
	ja	.LBB5_16
	cmpq	%r10, 72(%rdi)
	jae	.LBB5_6
	movq	%r10, 72(%rdi)
.LBB5_6:
	testl	%ecx, %ecx
	sete	%bpl
	movq	16(%rdi), %rcx
	movq	48(%rdi), %r10
	movq	160(%rdi), %rbx
	movl	%edx, %r11d
	leaq	(%rsi,%r11), %rax
	cmpq	%rax, %r10
	setb	%r14b
	orb	%bpl, %r14b
	je	.LBB5_8
	cmpq	%rax, %r10
	movb	$4, %al
	sbbb	$0, %al
	xorl	%r11d, %r11d
	movl	$0, %r14d
	cmpq	$1, %rbx
	jne	.LBB5_12
	jmp	.LBB5_13
.LBB5_8:
	movq	112(%rdi), %r14
	cmpq	$1, %rbx
	jne	.LBB5_11
	cmpq	$0, 96(%rdi)
	jne	.LBB5_10
	movq	40(%rdi), %rax
	movq	%rsi, %rcx
	shrq	%rcx
	subq	%rcx, %rsi
	cmpq	%rsi, %rax
	jae	.LBB5_10
	movq	168(%rdi), %r12
	movq	56(%rdi), %r13
	movq	80(%rdi), %rbx
	movq	%rbx, %rcx
	shrq	$12, %rcx
	cmpq	$48828124, %rcx
	ja	.LBB5_22
	movq	(%rdi), %rcx
	movq	%rcx, %rsi
	shrq	%rsi
	subq	%rsi, %rcx
	cmpq	%rcx, 88(%rdi)
	jae	.LBB5_22
.LBB5_10:
	xorl	%eax, %eax
	jmp	.LBB5_13
.LBB5_11:
	xorl	%eax, %eax
.LBB5_12:
	addq	%rsi, %r11
	leaq	(%r11,%r11,2), %rdx
	cmpq	%rdx, %r10
	jbe	.LBB5_14
.LBB5_13:
	movq	%r14, 112(%rdi)
	jmp	.LBB5_15
.LBB5_14:
	leaq	120(%rdi), %rdx
	leaq	80(%rdi), %rsi
	movq	$0, 8(%rsi)
	movq	$0, (%rsi)
	movq	$0, 24(%rdx)
	movq	$0, 16(%rdx)
	movq	$0, 8(%rdx)
	movq	$0, (%rdx)
	movq	%rcx, 96(%rdi)
	movq	$0, 112(%rdi)
	movq	$1, 160(%rdi)
	movq	$0, 176(%rdi)
.LBB5_15:
	movzbl	%al, %eax
.LBB5_16:
	addq	$8, %rsp
	popq	%rbx
	popq	%r12
	popq	%r13
	popq	%r14
	popq	%r15
	popq	%rbp
	RET
.LBB5_22:
	movq	%rbx, %rcx
	testb	$8, %r12b
	je	.LBB5_24
	movq	%rdi, (%rsp)
	movq	%rax, %rdi
	movl	%edx, %esi
	movq	%rbx, %rdx
	movl	%r8d, %ebp
	movq	%r9, %r15
	callq	pie_early__decision__scaled
	movq	%r15, %r9
	movl	%ebp, %r8d
	movq	(%rsp), %rdi
	movq	%rax, %rcx
.LBB5_24:
	testq	%rcx, %rcx
	je	.LBB5_29
	testb	$2, %r12b
	jne	.LBB5_31
	addq	%rcx, %r14
	jb	.LBB5_32
	movq	%r14, %rax
	shrq	$10, %rax
	cmpq	$830078125, %rax
	jb	.LBB5_10
	movabsq	$8499999999999, %rax
	cmpq	%rax, %r14
	ja	.LBB5_32
.LBB5_31:
	movabsq	$1000000000000, %rdx
	movq	%r9, %rax
	mulq	%rdx
	cmpq	%rcx, %rdx
	jae	.LBB5_10
.LBB5_32:
	testl	%r8d, %r8d
	setne	%al
	cmpq	%r13, %rbx
	setb	%cl
	andb	%al, %cl
	movb	$2, %al
	subb	%cl, %al
	xorl	%r14d, %r14d
	jmp	.LBB5_13
.LBB5_29:
	xorl	%r14d, %r14d
	xorl	%eax, %eax
	jmp	.LBB5_13
SYM_FUNC_END(pie_c__calls__arrive_out_of_line)

SYM_FUNC_START(pie_check_params)
	pushq	%rbp
	pushq	%r15
	pushq	%r14
	pushq	%rbx
	movq	40(%rdi), %r8
	movq	48(%rdi), %rsi
	movq	64(%rdi), %rax
	leaq	-1(%rax), %rcx
	rep		bsfq	%rax, %rdx
	xorq	%rcx, %rax
	cmpq	%rcx, %rax
	setbe	%al
	addq	$-17, %rdx
	cmpq	$-7, %rdx
	setb	%cl
	movabsq	$1000000000000, %r11
	cmpq	%r11, 56(%rdi)
	seta	%dl
	addq	$-1073741825, %rsi
	cmpq	$-1073741824, %rsi
	setb	%sil
	addq	$-65536, %r8
	cmpq	$-65535, %r8
	setb	%r8b
	cmpq	$1000001, 32(%rdi)
	setae	%r9b
	cmpq	$1000001, 24(%rdi)
	setae	%r10b
	cmpq	%r11, 16(%rdi)
	seta	%r11b
	movabsq	$-10000000001, %rbx
	movq	8(%rdi), %r14
	addq	%rbx, %r14
	leaq	1(%rbx), %r15
	cmpq	%r15, %r14
	setb	%bpl
	movq	(%rdi), %rdi
	addq	%rbx, %rdi
	addq	$2, %rbx
	xorl	%r14d, %r14d
	cmpq	%rbx, %rdi
	setae	%r14b
	setb	%dil
	orb	%bpl, %dil
	orb	%r11b, %r10b
	orb	%dil, %r10b
	xorb	$3, %r11b
	movzbl	%r11b, %r11d
	testb	%dil, %dil
	cmovnel	%r14d, %r11d
	orb	%r9b, %r8b
	orb	%r10b, %r8b
	xorb	$5, %r9b
	movzbl	%r9b, %edi
	testb	%r10b, %r10b
	cmovnel	%r11d, %edi
	orb	%sil, %dl
	orb	%r8b, %dl
	xorb	$7, %sil
	movzbl	%sil, %esi
	testb	%r8b, %r8b
	cmovnel	%edi, %esi
	orb	%al, %cl
	movzbl	%cl, %eax
	testb	$1, %dl
	movl	$1, %edi
	cmovel	%eax, %edi
	movzbl	%dil, %eax
	testb	%al, %al
	je	.LBB6_4
	testl	%eax, %eax
	je	.LBB6_3
	shlb	$3, %cl
	movzbl	%sil, %eax
	movzbl	%cl, %ecx
	testb	$1, %dl
	cmovnel	%eax, %ecx
	incb	%cl
	movzbl	%cl, %eax
	jmp	.LBB6_4
.LBB6_3:
	movl	$1, %eax
.LBB6_4:
	popq	%rbx
	popq	%r14
	popq	%r15
	popq	%rbp
	RET
SYM_FUNC_END(pie_check_params)

SYM_FUNC_START(pie_default_opening)
	testq	%rsi, %rsi
	je	.LBB7_1
	movabsq	$-3689348814741910323, %rcx
	movq	%rsi, %rax
	mulq	%rcx
	shrq	$5, %rdx
	rorq	$3, %rax
	movabsq	$461168601842738790, %rcx
	xorl	%esi, %esi
	cmpq	%rcx, %rax
	seta	%sil
	addq	%rdx, %rsi
	cmpq	$25001, %rsi
	movl	$25000, %ecx
	cmovaeq	%rsi, %rcx
	cmpq	$1073741824, %rcx
	movl	$1073741824, %eax
	cmovbq	%rcx, %rax
	jmp	.LBB7_3
.LBB7_1:
	movl	$262144, %eax
.LBB7_3:
	movq	$15000000, (%rdi)
	movq	$15000000, 8(%rdi)
	movq	$150000000, 16(%rdi)
	movq	$125, 24(%rdi)
	movq	$1250, 32(%rdi)
	movq	$1024, 40(%rdi)
	movq	%rax, 48(%rdi)
	movabsq	$100000000000, %rax
	movq	%rax, 56(%rdi)
	movq	$16384, 64(%rdi)
	movq	$0, 72(%rdi)
	movq	$1, 80(%rdi)
	movq	$1, 88(%rdi)
	movq	$1, 96(%rdi)
	movq	$1048576, 104(%rdi)
	movq	$1024, 112(%rdi)
	movabsq	$140737488355328, %rax
	movq	%rax, 120(%rdi)
	RET
SYM_FUNC_END(pie_default_opening)

SYM_FUNC_START(pie_due)
	movq	8(%rdi), %rcx
	addq	104(%rdi), %rcx
	movq	$-1, %rax
	cmovaeq	%rcx, %rax
	RET
SYM_FUNC_END(pie_due)

SYM_FUNC_START(pie_open)
	movq	(%rsi), %rdx
	leaq	-2(%rdx), %r8
	movabsq	$9999999999, %rcx
	movl	$107, %eax
	cmpq	%rcx, %r8
	jae	.LBB9_21
	movq	8(%rsi), %r8
	leaq	-1(%r8), %r9
	incq	%rcx
	cmpq	%rcx, %r9
	jae	.LBB9_21
	pushq	%rbp
	pushq	%r15
	pushq	%r14
	pushq	%r13
	pushq	%r12
	pushq	%rbx
	subq	$16, %rsp
	movq	16(%rsi), %rcx
	movabsq	$1000000000001, %r15
	cmpq	%r15, %rcx
	jae	.LBB9_20
	movq	24(%rsi), %r9
	cmpq	$1000000, %r9
	ja	.LBB9_20
	movq	32(%rsi), %r10
	cmpq	$1000000, %r10
	ja	.LBB9_20
	movq	40(%rsi), %r11
	leaq	-1(%r11), %rbx
	cmpq	$65534, %rbx
	ja	.LBB9_20
	movq	48(%rsi), %rbx
	leaq	-1(%rbx), %r14
	cmpq	$1073741823, %r14
	ja	.LBB9_20
	movq	56(%rsi), %r14
	cmpq	%r15, %r14
	jae	.LBB9_20
	movq	64(%rsi), %r15
	leaq	-1(%r15), %r12
	movq	%r15, %r13
	xorq	%r12, %r13
	cmpq	%r12, %r13
	jbe	.LBB9_20
	rep		bsfq	%r15, %r12
	addl	$-10, %r12d
	cmpl	$6, %r12d
	ja	.LBB9_20
	movq	72(%rsi), %r12
	movq	%r12, %rax
	shrq	$60, %rax
	movl	$101, %eax
	jne	.LBB9_20
	movq	80(%rsi), %r13
	leaq	-1(%r13), %rbp
	movl	$113, %eax
	cmpq	$1, %rbp
	ja	.LBB9_20
	movl	$117, %eax
	cmpq	$31, 88(%rsi)
	ja	.LBB9_20
	movl	$120, %eax
	cmpq	$1, 96(%rsi)
	ja	.LBB9_20
	movq	104(%rsi), %rbp
	cmpq	$1048576, %rbp
	ja	.LBB9_20
	movq	%rbp, 8(%rsp)
	movq	112(%rsi), %rbp
	movq	%rbp, (%rsp)
	cmpq	$1048576, (%rsp)
	ja	.LBB9_20
	cmpq	$0, 8(%rsp)
	je	.LBB9_20
	cmpq	$0, (%rsp)
	je	.LBB9_20
	movq	120(%rsi), %rbp
	decq	%rbp
	shrq	$47, %rbp
	jne	.LBB9_20
	xorl	%eax, %eax
	cmpq	$2, %r13
	setne	%al
	movq	%rdx, (%rdi)
	movq	%r8, 8(%rdi)
	movq	%rcx, 16(%rdi)
	movq	%r9, 24(%rdi)
	movq	%r10, 32(%rdi)
	movq	%r11, 40(%rdi)
	movq	%rbx, 48(%rdi)
	movq	%r14, 56(%rdi)
	movq	%r15, 64(%rdi)
	movq	80(%rsi), %rdx
	movq	%rdx, 152(%rdi)
	movq	88(%rsi), %rdx
	movq	%rdx, 168(%rdi)
	movq	%r12, 72(%rdi)
	movq	$0, 80(%rdi)
	movq	$0, 88(%rdi)
	movq	$0, 120(%rdi)
	movq	$0, 128(%rdi)
	movq	$0, 136(%rdi)
	movq	$0, 144(%rdi)
	movq	%rcx, 96(%rdi)
	movq	%r12, 104(%rdi)
	movq	$0, 112(%rdi)
	movq	%rax, 160(%rdi)
	movq	$0, 176(%rdi)
	xorl	%eax, %eax
.LBB9_20:
	addq	$16, %rsp
	popq	%rbx
	popq	%r12
	popq	%r13
	popq	%r14
	popq	%r15
	popq	%rbp
.LBB9_21:
	RET
SYM_FUNC_END(pie_open)

SYM_FUNC_START(pie_reset_event)
	movl	$110, %eax
	cmpq	$31, 168(%rdi)
	ja	.LBB10_31
	movabsq	$1099511627777, %r9
	cmpq	%r9, 176(%rdi)
	jae	.LBB10_31
	movq	(%rdi), %rdx
	addq	$-2, %rdx
	movabsq	$9999999999, %rcx
	cmpq	%rcx, %rdx
	jae	.LBB10_31
	movq	8(%rdi), %rdx
	decq	%rdx
	incq	%rcx
	cmpq	%rcx, %rdx
	jae	.LBB10_31
	movabsq	$1000000000001, %r10
	movq	16(%rdi), %rcx
	cmpq	%r10, %rcx
	jae	.LBB10_31
	cmpq	$1000000, 24(%rdi)
	ja	.LBB10_31
	cmpq	$1000000, 32(%rdi)
	ja	.LBB10_31
	movq	40(%rdi), %rdx
	decq	%rdx
	cmpq	$65534, %rdx
	ja	.LBB10_31
	movq	48(%rdi), %rdx
	decq	%rdx
	cmpq	$1073741823, %rdx
	ja	.LBB10_31
	cmpq	%r10, 56(%rdi)
	jae	.LBB10_31
	movq	64(%rdi), %r11
	leaq	-1(%r11), %rdx
	movq	%r11, %r8
	xorq	%rdx, %r8
	cmpq	%rdx, %r8
	jbe	.LBB10_31
	rep		bsfq	%r11, %rdx
	addl	$-10, %edx
	cmpl	$6, %edx
	ja	.LBB10_31
	pushq	%rbx
	movabsq	$1152921504606846975, %r8
	movq	72(%rdi), %rdx
	leaq	1(%r8), %rbx
	cmpq	%rbx, %rdx
	popq	%rbx
	jae	.LBB10_31
	cmpq	%r10, 80(%rdi)
	jae	.LBB10_31
	cmpq	%r9, 88(%rdi)
	jae	.LBB10_31
	cmpq	%r10, 96(%rdi)
	jae	.LBB10_31
	cmpq	%rdx, 104(%rdi)
	ja	.LBB10_31
	movabsq	$8499999999999, %r9
	cmpq	%r9, 112(%rdi)
	ja	.LBB10_31
	cmpq	%r8, 120(%rdi)
	ja	.LBB10_31
	movq	(%rsi), %r9
	movq	128(%rdi), %r10
	testq	%r10, %r10
	je	.LBB10_23
	cmpq	$1, %r10
	jne	.LBB10_31
	cmpq	%rdx, 136(%rdi)
	ja	.LBB10_31
	cmpq	%r11, 144(%rdi)
	jb	.LBB10_25
	jmp	.LBB10_31
.LBB10_23:
	cmpq	$0, 136(%rdi)
	jne	.LBB10_31
	cmpq	$0, 144(%rdi)
	jne	.LBB10_31
.LBB10_25:
	movq	152(%rdi), %r10
	cmpq	$1, %r10
	je	.LBB10_28
	cmpq	$2, %r10
	jne	.LBB10_31
	movq	160(%rdi), %r10
	cmpq	$2, %r10
	jb	.LBB10_29
	jmp	.LBB10_31
.LBB10_28:
	movl	$1, %r10d
	cmpq	$1, 160(%rdi)
	jne	.LBB10_31
.LBB10_29:
	movl	$101, %eax
	cmpq	%r8, %r9
	ja	.LBB10_31
	leaq	80(%rdi), %rax
	leaq	120(%rdi), %r8
	cmpq	%rdx, %r9
	cmovaq	%r9, %rdx
	movq	%rdx, 72(%rdi)
	movq	$0, 8(%rax)
	movq	$0, (%rax)
	movq	$0, 24(%r8)
	movq	$0, 16(%r8)
	movq	$0, 8(%r8)
	movq	$0, (%r8)
	movq	%rcx, 96(%rdi)
	movq	$0, 112(%rdi)
	movq	%r10, 160(%rdi)
	movq	$0, 176(%rdi)
	xorl	%eax, %eax
.LBB10_31:
	movl	%eax, 52(%rsi)
	movl	$0, 60(%rsi)
	movq	$0, 16(%rsi)
	movq	$0, 24(%rsi)
	movq	$0, 32(%rsi)
	movq	$0, 40(%rsi)
	movw	$4, 58(%rsi)
	movq	$0, 8(%rsi)
	movl	$0, 48(%rsi)
	RET
SYM_FUNC_END(pie_reset_event)

SYM_FUNC_START(pie_set_params_event)
	movl	$110, %eax
	cmpq	$31, 168(%rdi)
	ja	.LBB11_52
	movabsq	$1099511627777, %r11
	cmpq	%r11, 176(%rdi)
	jae	.LBB11_52
	movabsq	$9999999999, %r8
	movq	(%rdi), %rcx
	addq	$-2, %rcx
	cmpq	%r8, %rcx
	jae	.LBB11_52
	movq	8(%rdi), %rcx
	decq	%rcx
	leaq	1(%r8), %r10
	cmpq	%r10, %rcx
	jae	.LBB11_52
	movabsq	$1000000000001, %rcx
	cmpq	%rcx, 16(%rdi)
	jae	.LBB11_52
	cmpq	$1000000, 24(%rdi)
	ja	.LBB11_52
	cmpq	$1000000, 32(%rdi)
	ja	.LBB11_52
	movq	40(%rdi), %r9
	decq	%r9
	cmpq	$65534, %r9
	ja	.LBB11_52
	movq	48(%rdi), %r9
	decq	%r9
	cmpq	$1073741823, %r9
	ja	.LBB11_52
	cmpq	%rcx, 56(%rdi)
	jae	.LBB11_52
	pushq	%r15
	pushq	%r14
	pushq	%r12
	pushq	%rbx
	pushq	%rax
	movq	64(%rdi), %rbx
	leaq	-1(%rbx), %r9
	movq	%rbx, %r14
	xorq	%r9, %r14
	cmpq	%r9, %r14
	jbe	.LBB11_51
	rep		bsfq	%rbx, %r9
	addl	$-10, %r9d
	cmpl	$6, %r9d
	ja	.LBB11_51
	movabsq	$1152921504606846975, %r9
	movq	72(%rdi), %r14
	leaq	1(%r9), %r15
	cmpq	%r15, %r14
	jae	.LBB11_51
	cmpq	%rcx, 80(%rdi)
	jae	.LBB11_51
	cmpq	%r11, 88(%rdi)
	jae	.LBB11_51
	cmpq	%rcx, 96(%rdi)
	jae	.LBB11_51
	cmpq	%r14, 104(%rdi)
	ja	.LBB11_51
	movabsq	$8499999999999, %r11
	cmpq	%r11, 112(%rdi)
	ja	.LBB11_51
	cmpq	%r9, 120(%rdi)
	ja	.LBB11_51
	movq	(%rdx), %r11
	movq	128(%rdi), %r15
	testq	%r15, %r15
	je	.LBB11_23
	cmpq	$1, %r15
	jne	.LBB11_51
	cmpq	%r14, 136(%rdi)
	ja	.LBB11_51
	cmpq	%rbx, 144(%rdi)
	jb	.LBB11_25
	jmp	.LBB11_51
.LBB11_23:
	cmpq	$0, 136(%rdi)
	jne	.LBB11_51
	cmpq	$0, 144(%rdi)
	jne	.LBB11_51
.LBB11_25:
	movq	%rdx, %r15
	movq	%rdi, %rbx
	movq	152(%rdi), %rdx
	cmpq	$1, %rdx
	je	.LBB11_28
	cmpq	$2, %rdx
	jne	.LBB11_50
	cmpq	$2, 160(%rbx)
	movq	%r15, %rdx
	jb	.LBB11_29
	jmp	.LBB11_51
.LBB11_28:
	cmpq	$1, 160(%rbx)
	movq	%r15, %rdx
	jne	.LBB11_51
.LBB11_29:
	movq	(%rsi), %rdx
	addq	$-2, %rdx
	movl	$107, %eax
	cmpq	%r8, %rdx
	jae	.LBB11_50
	movq	8(%rsi), %rdx
	decq	%rdx
	cmpq	%r10, %rdx
	jae	.LBB11_50
	cmpq	%rcx, 16(%rsi)
	jae	.LBB11_50
	cmpq	$1000000, 24(%rsi)
	ja	.LBB11_50
	cmpq	$1000000, 32(%rsi)
	ja	.LBB11_50
	movq	40(%rsi), %rdx
	decq	%rdx
	cmpq	$65534, %rdx
	ja	.LBB11_50
	movq	48(%rsi), %rdx
	decq	%rdx
	cmpq	$1073741823, %rdx
	ja	.LBB11_50
	cmpq	%rcx, 56(%rsi)
	jae	.LBB11_50
	movq	64(%rsi), %rcx
	leaq	-1(%rcx), %rdx
	movq	%rcx, %rdi
	xorq	%rdx, %rdi
	cmpq	%rdx, %rdi
	jbe	.LBB11_50
	rep		bsfq	%rcx, %rcx
	addl	$-10, %ecx
	cmpl	$6, %ecx
	movq	%r15, %rdx
	ja	.LBB11_51
	movl	$101, %eax
	cmpq	%r9, %r11
	ja	.LBB11_51
	leaq	120(%rbx), %r12
	cmpq	%r14, %r11
	cmovaq	%r11, %r14
	movl	$72, %edx
	movq	%rbx, %rdi
	callq	memmove@PLT
	movq	%r15, %rdx
	movq	%r14, 72(%rbx)
	movq	$0, (%r12)
	movq	$0, 8(%r12)
	movq	$0, 16(%r12)
	movq	$0, 24(%r12)
	xorl	%eax, %eax
	jmp	.LBB11_51
.LBB11_50:
	movq	%r15, %rdx
.LBB11_51:
	addq	$8, %rsp
	popq	%rbx
	popq	%r12
	popq	%r14
	popq	%r15
.LBB11_52:
	movl	%eax, 52(%rdx)
	movl	$0, 60(%rdx)
	movq	$0, 16(%rdx)
	movq	$0, 24(%rdx)
	movq	$0, 32(%rdx)
	movq	$0, 40(%rdx)
	movw	$5, 58(%rdx)
	movq	$0, 8(%rdx)
	movl	$0, 48(%rdx)
	RET
SYM_FUNC_END(pie_set_params_event)

SYM_FUNC_START(pie_update_event)
	pushq	%rbp
	pushq	%r15
	pushq	%r14
	pushq	%r13
	pushq	%r12
	pushq	%rbx
	subq	$72, %rsp
	movq	168(%rdi), %rbp
	movl	$110, %eax
	cmpq	$31, %rbp
	ja	.LBB12_1
	movabsq	$1099511627777, %r9
	movq	176(%rdi), %rcx
	cmpq	%r9, %rcx
	jae	.LBB12_1
	movabsq	$10000000000, %r11
	movq	(%rdi), %r14
	leaq	-2(%r14), %r8
	leaq	-1(%r11), %r10
	xorl	%ebx, %ebx
	cmpq	%r10, %r8
	jae	.LBB12_4
	movq	8(%rdi), %r15
	leaq	-1(%r15), %r8
	cmpq	%r11, %r8
	jae	.LBB12_4
	movabsq	$1000000000001, %r11
	movq	16(%rdi), %r10
	cmpq	%r11, %r10
	jae	.LBB12_4
	movq	24(%rdi), %r12
	cmpq	$1000000, %r12
	ja	.LBB12_4
	movq	32(%rdi), %r13
	cmpq	$1000000, %r13
	ja	.LBB12_4
	movq	40(%rdi), %r8
	decq	%r8
	cmpq	$65534, %r8
	ja	.LBB12_4
	movq	48(%rdi), %r8
	decq	%r8
	cmpq	$1073741823, %r8
	ja	.LBB12_4
	cmpq	%r11, 56(%rdi)
	jae	.LBB12_4
	movq	%r10, 64(%rsp)
	movq	%r14, 16(%rsp)
	movq	64(%rdi), %r8
	leaq	-1(%r8), %r10
	movq	%r8, %r14
	xorq	%r10, %r14
	cmpq	%r10, %r14
	jbe	.LBB12_4
	rep		bsfq	%r8, %r10
	addl	$-10, %r10d
	cmpl	$6, %r10d
	ja	.LBB12_1
	movq	%r15, 32(%rsp)
	movabsq	$1152921504606846975, %r10
	movq	72(%rdi), %r15
	leaq	1(%r10), %rbx
	cmpq	%rbx, %r15
	jae	.LBB12_1
	movq	80(%rdi), %r14
	cmpq	%r11, %r14
	jae	.LBB12_1
	movq	88(%rdi), %rbx
	cmpq	%r9, %rbx
	jae	.LBB12_1
	movq	%r15, 8(%rsp)
	movq	96(%rdi), %r15
	cmpq	%r11, %r15
	jae	.LBB12_1
	movq	104(%rdi), %r11
	cmpq	8(%rsp), %r11
	ja	.LBB12_1
	movabsq	$8499999999999, %r9
	cmpq	%r9, 112(%rdi)
	ja	.LBB12_1
	movq	120(%rdi), %r9
	cmpq	%r10, %r9
	ja	.LBB12_1
	movq	%r9, 56(%rsp)
	movq	(%rdx), %r9
	movq	%r9, 48(%rsp)
	movq	128(%rdi), %r9
	testq	%r9, %r9
	je	.LBB12_25
	cmpq	$1, %r9
	jne	.LBB12_1
	movq	8(%rsp), %r9
	cmpq	%r9, 136(%rdi)
	ja	.LBB12_1
	cmpq	%r8, 144(%rdi)
	jae	.LBB12_1
	jmp	.LBB12_27
.LBB12_25:
	cmpq	$0, 136(%rdi)
	jne	.LBB12_1
	cmpq	$0, 144(%rdi)
	je	.LBB12_27
.LBB12_1:
	xorl	%ebx, %ebx
.LBB12_4:
	xorl	%r14d, %r14d
	xorl	%r15d, %r15d
.LBB12_67:
	movl	%eax, 52(%rdx)
	movl	$0, 60(%rdx)
	movq	$0, 16(%rdx)
	movw	$3, 58(%rdx)
	movq	$0, 8(%rdx)
	movl	$0, 48(%rdx)
	movq	%rbx, 24(%rdx)
	movq	%r14, 32(%rdx)
	movq	%r15, 40(%rdx)
	addq	$72, %rsp
	popq	%rbx
	popq	%r12
	popq	%r13
	popq	%r14
	popq	%r15
	popq	%rbp
	RET
.LBB12_27:
	movq	%rdx, (%rsp)
	movq	%rdi, 24(%rsp)
	movq	152(%rdi), %rax
	movq	%rax, 40(%rsp)
	cmpq	$1, %rax
	je	.LBB12_31
	cmpq	$2, 40(%rsp)
	jne	.LBB12_29
	movq	24(%rsp), %rax
	movq	160(%rax), %rax
	cmpq	$2, %rax
	jae	.LBB12_29
.LBB12_32:
	cmpq	%r10, 48(%rsp)
	jbe	.LBB12_35
	movl	$101, %eax
	jmp	.LBB12_34
.LBB12_31:
	movl	$1, %eax
	movq	24(%rsp), %rdx
	cmpq	$1, 160(%rdx)
	je	.LBB12_32
.LBB12_29:
	xorl	%ebx, %ebx
	xorl	%r14d, %r14d
	xorl	%r15d, %r15d
	movq	(%rsp), %rdx
	movl	$110, %eax
	jmp	.LBB12_67
.LBB12_35:
	cmpq	$1073741824, %rsi
	jbe	.LBB12_37
	movl	$112, %eax
.LBB12_34:
	xorl	%ebx, %ebx
	xorl	%r14d, %r14d
	xorl	%r15d, %r15d
	movq	(%rsp), %rdx
	jmp	.LBB12_67
.LBB12_37:
	movq	8(%rsp), %rdx
	movq	48(%rsp), %rdi
	cmpq	%rdx, %rdi
	cmovaq	%rdi, %rdx
	addq	32(%rsp), %r11
	movq	%rdx, 8(%rsp)
	cmpq	%r11, %rdx
	jae	.LBB12_39
	movq	(%rsp), %rdx
	movl	$103, %eax
	jmp	.LBB12_67
.LBB12_39:
	testq	%rax, %rax
	je	.LBB12_40
	testb	$1, %bpl
	jne	.LBB12_43
	movq	%rsi, %rdi
	movq	56(%rsp), %rsi
	movq	%r8, %rdx
	callq	pie_control__update__delay
	movq	%rax, %rcx
.LBB12_43:
	movq	%rcx, %rax
	subq	16(%rsp), %rax
	imulq	%r12, %rax
	movq	%rcx, %rdx
	subq	%rbx, %rdx
	imulq	%r13, %rdx
	addq	%rax, %rdx
	cmpq	$999999, %r14
	ja	.LBB12_45
	leaq	2047(%rdx), %rax
	testq	%rdx, %rdx
	cmovnsq	%rdx, %rax
	sarq	$11, %rax
	movq	%rax, %rdx
	jmp	.LBB12_57
.LBB12_40:
	xorl	%eax, %eax
	movq	%rbx, %rcx
	xorl	%ebx, %ebx
	jmp	.LBB12_66
.LBB12_45:
	cmpq	$9999999, %r14
	ja	.LBB12_47
	leaq	511(%rdx), %rax
	testq	%rdx, %rdx
	cmovnsq	%rdx, %rax
	sarq	$9, %rax
	movq	%rax, %rdx
	jmp	.LBB12_57
.LBB12_47:
	cmpq	$99999999, %r14
	ja	.LBB12_49
	leaq	127(%rdx), %rax
	testq	%rdx, %rdx
	cmovnsq	%rdx, %rax
	sarq	$7, %rax
	movq	%rax, %rdx
	jmp	.LBB12_57
.LBB12_49:
	cmpq	$999999999, %r14
	ja	.LBB12_51
	leaq	31(%rdx), %rax
	testq	%rdx, %rdx
	cmovnsq	%rdx, %rax
	sarq	$5, %rax
	movq	%rax, %rdx
	jmp	.LBB12_57
.LBB12_51:
	movabsq	$10000000000, %rax
	cmpq	%rax, %r14
	jae	.LBB12_53
	leaq	7(%rdx), %rax
	testq	%rdx, %rdx
	cmovnsq	%rdx, %rax
	sarq	$3, %rax
	movq	%rax, %rdx
	jmp	.LBB12_57
.LBB12_53:
	movq	%r14, %rax
	shrq	$11, %rax
	cmpq	$48828124, %rax
	ja	.LBB12_55
	movq	%rdx, %rax
	shrq	$63, %rax
	addq	%rdx, %rax
	sarq	%rax
	movq	%rax, %rdx
	jmp	.LBB12_57
.LBB12_55:
	testb	$4, %bpl
	jne	.LBB12_57
	movabsq	$20000000000, %rax
	cmpq	%rax, %rdx
	cmovgeq	%rax, %rdx
.LBB12_57:
	cmpq	$15, %rbp
	ja	.LBB12_59
	addq	%r14, %rdx
	movq	%rcx, %rax
	orq	%rbx, %rax
	jne	.LBB12_62
	jmp	.LBB12_61
.LBB12_59:
	leaq	(%rbx,%rbx), %rax
	addq	%r14, %rdx
	cmpq	16(%rsp), %rax
	jae	.LBB12_62
	leaq	(%rcx,%rcx), %rax
	cmpq	16(%rsp), %rax
	jae	.LBB12_62
.LBB12_61:
	xorl	%eax, %eax
	testq	%rdx, %rdx
	cmovgq	%rdx, %rax
	movabsq	$2000000000000, %rdx
	cmpq	%rdx, %rax
	cmovgeq	%rdx, %rax
	imulq	$98, %rax, %rax
	movabsq	$184467440737095517, %rdx
	mulq	%rdx
.LBB12_62:
	xorl	%r14d, %r14d
	testq	%rdx, %rdx
	cmovgq	%rdx, %r14
	movabsq	$1000000000000, %rax
	cmpq	%rax, %r14
	cmovgeq	%rax, %r14
	testq	%rdx, %rdx
	jle	.LBB12_64
	xorl	%eax, %eax
	subq	32(%rsp), %r15
	cmovbq	%rax, %r15
	movb	$1, %al
	jmp	.LBB12_65
.LBB12_64:
	leaq	(%rcx,%rcx), %rax
	movq	16(%rsp), %rsi
	cmpq	%rsi, %rax
	setae	%dl
	addq	%rbx, %rbx
	cmpq	%rsi, %rbx
	setae	%al
	orb	%dl, %al
	xorl	%edx, %edx
	subq	32(%rsp), %r15
	cmovaeq	%r15, %rdx
	testb	%al, %al
	movq	64(%rsp), %r15
	cmovneq	%rdx, %r15
.LBB12_65:
	cmpq	$2, 40(%rsp)
	setne	%dl
	orb	%al, %dl
	movzbl	%dl, %eax
	andl	$1, %eax
	movq	%rcx, %rbx
.LBB12_66:
	movq	24(%rsp), %rdx
	movq	8(%rsp), %rsi
	movq	%rsi, 72(%rdx)
	movq	%r14, 80(%rdx)
	movq	%rcx, 88(%rdx)
	movq	%r15, 96(%rdx)
	movq	%rsi, 104(%rdx)
	movq	%rax, 160(%rdx)
	movq	(%rsp), %rdx
	xorl	%eax, %eax
	jmp	.LBB12_67
SYM_FUNC_END(pie_update_event)

SYM_FUNC_START(pie_depart_event)
	pushq	%r15
	pushq	%r14
	pushq	%rbx
	movq	%rcx, %rbx
	movq	%rdx, %r8
	movq	%rsi, %rcx
	movabsq	$1152921504606846975, %r9
	movl	48(%rbx), %edx
	movq	(%rbx), %rsi
	testb	$1, 168(%rdi)
	jne	.LBB13_1
	testq	%rdx, %rdx
	je	.LBB13_16
	cmpq	$1073741824, %rcx
	ja	.LBB13_16
	cmpq	%r9, %rsi
	ja	.LBB13_16
	cmpq	$1, 128(%rdi)
	jne	.LBB13_16
	cmpq	$1, 160(%rdi)
	jne	.LBB13_16
	movq	64(%rdi), %rax
	cmpq	$65536, %rax
	movl	$65536, %r8d
	cmovbq	%rax, %r8
	movq	144(%rdi), %r9
	addq	%rdx, %r9
	movq	$-1, %rax
	cmovaeq	%r9, %rax
	cmpq	%r8, %rax
	jae	.LBB13_16
	movq	72(%rdi), %rcx
	cmpq	%rcx, %rsi
	cmovaq	%rsi, %rcx
	movq	%rcx, 72(%rdi)
	movq	%rax, 144(%rdi)
	xorl	%eax, %eax
	jmp	.LBB13_17
.LBB13_1:
	movl	$101, %eax
	cmpq	%r9, %rsi
	ja	.LBB13_17
	addl	$-65536, %edx
	movl	$102, %eax
	cmpl	$-65535, %edx
	jb	.LBB13_17
	movl	$112, %eax
	cmpq	$1073741824, %rcx
	ja	.LBB13_17
	movq	72(%rdi), %r14
	movl	$118, %eax
	cmpq	%r8, %r14
	jb	.LBB13_17
	cmpq	%r14, %rsi
	cmovaq	%rsi, %r14
	cmpq	$1, 160(%rdi)
	jne	.LBB13_6
	movq	%rdi, %r15
	movq	%rcx, %rdi
	movq	%r8, %rsi
	movq	%r14, %rdx
	callq	pie_aqm__raw__wait
	movq	%r15, %rdi
	jmp	.LBB13_8
.LBB13_16:
	callq	pie_c__calls__depart_otherwise
.LBB13_17:
	movl	%eax, 52(%rbx)
	movl	$0, 60(%rbx)
	movq	$0, 24(%rbx)
	movq	$0, 32(%rbx)
	movq	$0, 40(%rbx)
	movb	$2, 58(%rbx)
	movq	$0, 16(%rbx)
	popq	%rbx
	popq	%r14
	popq	%r15
	RET
.LBB13_6:
	movq	176(%rdi), %rax
.LBB13_8:
	movq	%r14, 72(%rdi)
	movq	%rax, 176(%rdi)
	xorl	%eax, %eax
	jmp	.LBB13_17
SYM_FUNC_END(pie_depart_event)

SYM_FUNC_START(pie_arrive_event)
	pushq	%rbx
	subq	$16, %rsp
	movq	%rcx, %rbx
	movl	%edx, %ecx
	movl	48(%rbx), %edx
	movzbl	59(%rbx), %r8d
	movq	(%rbx), %r10
	movq	16(%rbx), %r9
	testl	%ecx, %ecx
	je	.LBB14_24
	cmpq	$1, 160(%rdi)
	jne	.LBB14_24
	cmpq	$1, 168(%rdi)
	ja	.LBB14_24
	movq	%r10, %rax
	shrq	$60, %rax
	movl	$101, %eax
	jne	.LBB14_25
	leal	-65536(%rdx), %ecx
	movl	$102, %eax
	cmpl	$-65535, %ecx
	jb	.LBB14_25
	movl	$111, %eax
	cmpb	$3, %r8b
	ja	.LBB14_25
	movl	$112, %eax
	cmpq	$1073741824, %rsi
	ja	.LBB14_25
	cmpq	%r10, 72(%rdi)
	jae	.LBB14_9
	movq	%r10, 72(%rdi)
.LBB14_9:
	addq	%rsi, %rdx
	xorl	%eax, %eax
	cmpq	%rdx, 48(%rdi)
	jae	.LBB14_11
	movl	$3, %eax
	xorl	%ecx, %ecx
	movq	%rcx, 112(%rdi)
	jmp	.LBB14_25
.LBB14_24:
	movq	%r10, (%rsp)
	callq	pie_c__calls__arrive_out_of_line
.LBB14_25:
	movb	$1, 58(%rbx)
	movl	%eax, 52(%rbx)
	movl	$0, 60(%rbx)
	movq	$0, 24(%rbx)
	movq	$0, 32(%rbx)
	movq	$0, 40(%rbx)
	addq	$16, %rsp
	popq	%rbx
	RET
.LBB14_11:
	movq	112(%rdi), %rcx
	cmpq	$0, 96(%rdi)
	jne	.LBB14_23
	movq	%rsi, %rdx
	shrq	%rdx
	subq	%rdx, %rsi
	cmpq	%rsi, 40(%rdi)
	jae	.LBB14_23
	movq	(%rdi), %rdx
	movq	56(%rdi), %rsi
	movq	80(%rdi), %r10
	movq	%rdx, %r11
	shrq	%r11
	subq	%r11, %rdx
	cmpq	%rdx, 88(%rdi)
	jae	.LBB14_21
	movq	%r10, %rdx
	shrq	$12, %rdx
	cmpq	$48828125, %rdx
	jae	.LBB14_15
	jmp	.LBB14_23
.LBB14_21:
	testq	%r10, %r10
	je	.LBB14_22
.LBB14_15:
	addq	%r10, %rcx
	jae	.LBB14_16
.LBB14_19:
	testl	%r8d, %r8d
	setne	%al
	cmpq	%rsi, %r10
	setb	%cl
	andb	%al, %cl
	movzbl	%cl, %ecx
	movl	$2, %eax
	subl	%ecx, %eax
	xorl	%ecx, %ecx
	movq	%rcx, 112(%rdi)
	jmp	.LBB14_25
.LBB14_16:
	movq	%rcx, %rdx
	shrq	$10, %rdx
	cmpq	$830078125, %rdx
	jb	.LBB14_23
	movabsq	$8499999999999, %rax
	cmpq	%rax, %rcx
	ja	.LBB14_19
	movabsq	$1000000000000, %rdx
	movq	%r9, %rax
	mulq	%rdx
	xorl	%eax, %eax
	cmpq	%r10, %rdx
	jb	.LBB14_19
	jmp	.LBB14_23
.LBB14_22:
	xorl	%ecx, %ecx
	xorl	%eax, %eax
.LBB14_23:
	movq	%rcx, 112(%rdi)
	jmp	.LBB14_25
SYM_FUNC_END(pie_arrive_event)

	.ident	"rattle logic=dac8208d650f15bf3e2dc313a14fa4c783a3acf887bdfab66e1714b038d9e11b"
	.section	".note.GNU-stack","",@progbits

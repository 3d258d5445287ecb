target datalayout = "e-m:e-p:64:64-i64:64-i128:128-n32:64-S128"
target triple = "bpf"

@static.0 = private unnamed_addr constant [9 x i8] c"\00\01\02\03\04\05\06\07\08", align 1

define internal void @"core::assertions::unreachable"() #0 {
start:
  br label %trap.1

trap.1:                                           ; preds = %start
  ; call void @llvm.trap()
  unreachable
}

define internal noundef i32 @"core::convert::U32FromU8::from"(i8 noundef %a0) #0 {
start:
  %r0 = alloca i32, align 4
  %r1 = zext i8 %a0 to i32
  store i32 %r1, ptr %r0, align 4
  %r2 = load i32, ptr %r0, align 4, !noundef !0
  ret i32 %r2
}

define internal noundef i64 @"core::convert::U64FromU16::from"(i16 noundef %a0) #0 {
start:
  %r0 = alloca i64, align 8
  %r1 = zext i16 %a0 to i64
  store i64 %r1, ptr %r0, align 8
  %r2 = load i64, ptr %r0, align 8, !noundef !0
  ret i64 %r2
}

define internal noundef i64 @"core::convert::U64FromU32::from"(i32 noundef %a0) #0 {
start:
  %r0 = alloca i64, align 8
  %r1 = zext i32 %a0 to i64
  store i64 %r1, ptr %r0, align 8
  %r2 = load i64, ptr %r0, align 8, !noundef !0
  ret i64 %r2
}

define internal noundef i64 @"core::convert::others::U64FromBool::from"(i1 noundef zeroext %a0) #0 {
start:
  %r0 = alloca i64, align 8
  %r1 = zext i1 %a0 to i64
  store i64 %r1, ptr %r0, align 8
  %r2 = load i64, ptr %r0, align 8, !noundef !0
  ret i64 %r2
}

define internal noundef i128 @"core::convert::wide::I128FromI64::from"(i64 noundef %a0) #0 {
start:
  %r0 = alloca i128, align 16
  %r1 = sext i64 %a0 to i128
  store i128 %r1, ptr %r0, align 16
  %r2 = load i128, ptr %r0, align 16, !noundef !0
  ret i128 %r2
}

define internal noundef i128 @"core::convert::wide::I128FromU64::from"(i64 noundef %a0) #0 {
start:
  %r0 = alloca i128, align 16
  %r1 = zext i64 %a0 to i128
  store i128 %r1, ptr %r0, align 16
  %r2 = load i128, ptr %r0, align 16, !noundef !0
  ret i128 %r2
}

define internal noundef i128 @"core::convert::wide::U128FromU32::from"(i32 noundef %a0) #0 {
start:
  %r0 = alloca i128, align 16
  %r1 = zext i32 %a0 to i128
  store i128 %r1, ptr %r0, align 16
  %r2 = load i128, ptr %r0, align 16, !noundef !0
  ret i128 %r2
}

define internal noundef i128 @"core::convert::wide::U128FromU64::from"(i64 noundef %a0) #0 {
start:
  %r0 = alloca i128, align 16
  %r1 = zext i64 %a0 to i128
  store i128 %r1, ptr %r0, align 16
  %r2 = load i128, ptr %r0, align 16, !noundef !0
  ret i128 %r2
}

define internal { i8, i64 } @"core::int::checked::u64::checked_add"(i64 noundef %a0, i64 noundef %a1) #0 {
start:
  %r0 = alloca [16 x i8], align 8
  %r1 = alloca i64, align 8
  %r2 = alloca i8, align 1
  %r3 = alloca [16 x i8], align 8
  %r4 = alloca i64, align 8
  call void @llvm.memset.p0.i64(ptr %r0, i8 0, i64 16, i1 false)
  call void @llvm.memset.p0.i64(ptr %r3, i8 0, i64 16, i1 false)
  %r5 = sub i64 -1, %a1
  store i64 %r5, ptr %r1, align 8
  %r6 = load i64, ptr %r1, align 8, !noundef !0
  %r7 = icmp ult i64 %r6, %a0
  %r8 = zext i1 %r7 to i8
  store i8 %r8, ptr %r2, align 1
  %r9 = load i8, ptr %r2, align 1, !range !1, !noundef !0
  %r10 = trunc i8 %r9 to i1
  br i1 %r10, label %then.1, label %else.2

then.1:                                           ; preds = %start
  store i64 0, ptr %r3, align 1
  br label %join.3

else.2:                                           ; preds = %start
  %r11 = add i64 %a0, %a1
  store i64 %r11, ptr %r4, align 8
  %r12 = load i64, ptr %r4, align 8, !noundef !0
  store i64 1, ptr %r3, align 1
  %r13 = getelementptr i8, ptr %r3, i64 8
  store i64 %r12, ptr %r13, align 8
  br label %join.3

join.3:                                           ; preds = %else.2, %then.1
  %r14 = load i8, ptr %r3, align 1
  %r15 = zext i8 %r14 to i64
  store i64 %r15, ptr %r0, align 1
  %r16 = getelementptr i8, ptr %r0, i64 8
  %r17 = getelementptr i8, ptr %r3, i64 8
  call void @llvm.memmove.p0.p0.i64(ptr %r16, ptr %r17, i64 8, i1 false)
  br label %return.4

return.4:                                         ; preds = %join.3
  %r18 = load { i8, i64 }, ptr %r0, align 8
  ret { i8, i64 } %r18
}

define internal noundef i64 @"core::int::i64::clamp"(i64 noundef %a0, i64 noundef %a1, i64 noundef %a2) #0 {
start:
  %r0 = alloca i64, align 8
  %r1 = alloca i8, align 1
  %r2 = alloca i64, align 8
  %r3 = alloca i8, align 1
  %r4 = alloca i64, align 8
  %r5 = icmp slt i64 %a0, %a1
  %r6 = zext i1 %r5 to i8
  store i8 %r6, ptr %r1, align 1
  %r7 = load i8, ptr %r1, align 1, !range !1, !noundef !0
  %r8 = trunc i8 %r7 to i1
  br i1 %r8, label %then.1, label %else.2

then.1:                                           ; preds = %start
  store i64 %a1, ptr %r2, align 8
  br label %join.3

else.2:                                           ; preds = %start
  %r9 = icmp slt i64 %a2, %a0
  %r10 = zext i1 %r9 to i8
  store i8 %r10, ptr %r3, align 1
  %r11 = load i8, ptr %r3, align 1, !range !1, !noundef !0
  %r12 = trunc i8 %r11 to i1
  br i1 %r12, label %then.4, label %else.5

then.4:                                           ; preds = %else.2
  store i64 %a2, ptr %r4, align 8
  br label %join.6

else.5:                                           ; preds = %else.2
  store i64 %a0, ptr %r4, align 8
  br label %join.6

join.6:                                           ; preds = %else.5, %then.4
  %r13 = load i64, ptr %r4, align 8, !noundef !0
  store i64 %r13, ptr %r2, align 8
  br label %join.3

join.3:                                           ; preds = %join.6, %then.1
  %r14 = load i64, ptr %r2, align 8, !noundef !0
  store i64 %r14, ptr %r0, align 8
  %r15 = load i64, ptr %r0, align 8, !noundef !0
  ret i64 %r15
}

define internal noundef i64 @"core::int::i64::min"(i64 noundef %a0, i64 noundef %a1) #0 {
start:
  %r0 = alloca i64, align 8
  %r1 = alloca i8, align 1
  %r2 = alloca i64, align 8
  %r3 = icmp slt i64 %a1, %a0
  %r4 = zext i1 %r3 to i8
  store i8 %r4, ptr %r1, align 1
  %r5 = load i8, ptr %r1, align 1, !range !1, !noundef !0
  %r6 = trunc i8 %r5 to i1
  br i1 %r6, label %then.1, label %else.2

then.1:                                           ; preds = %start
  store i64 %a1, ptr %r2, align 8
  br label %join.3

else.2:                                           ; preds = %start
  store i64 %a0, ptr %r2, align 8
  br label %join.3

join.3:                                           ; preds = %else.2, %then.1
  %r7 = load i64, ptr %r2, align 8, !noundef !0
  store i64 %r7, ptr %r0, align 8
  %r8 = load i64, ptr %r0, align 8, !noundef !0
  ret i64 %r8
}

define internal noundef i128 @"core::int::u128::min"(i128 noundef %a0, i128 noundef %a1) #0 {
start:
  %r0 = alloca i128, align 16
  %r1 = alloca i8, align 1
  %r2 = alloca i128, align 16
  %r3 = icmp ult i128 %a1, %a0
  %r4 = zext i1 %r3 to i8
  store i8 %r4, ptr %r1, align 1
  %r5 = load i8, ptr %r1, align 1, !range !1, !noundef !0
  %r6 = trunc i8 %r5 to i1
  br i1 %r6, label %then.1, label %else.2

then.1:                                           ; preds = %start
  store i128 %a1, ptr %r2, align 16
  br label %join.3

else.2:                                           ; preds = %start
  store i128 %a0, ptr %r2, align 16
  br label %join.3

join.3:                                           ; preds = %else.2, %then.1
  %r7 = load i128, ptr %r2, align 16, !noundef !0
  store i128 %r7, ptr %r0, align 16
  %r8 = load i128, ptr %r0, align 16, !noundef !0
  ret i128 %r8
}

define internal noundef i64 @"core::int::u64::max"(i64 noundef %a0, i64 noundef %a1) #0 {
start:
  %r0 = alloca i64, align 8
  %r1 = alloca i8, align 1
  %r2 = alloca i64, align 8
  %r3 = icmp ult i64 %a1, %a0
  %r4 = zext i1 %r3 to i8
  store i8 %r4, ptr %r1, align 1
  %r5 = load i8, ptr %r1, align 1, !range !1, !noundef !0
  %r6 = trunc i8 %r5 to i1
  br i1 %r6, label %then.1, label %else.2

then.1:                                           ; preds = %start
  store i64 %a0, ptr %r2, align 8
  br label %join.3

else.2:                                           ; preds = %start
  store i64 %a1, ptr %r2, align 8
  br label %join.3

join.3:                                           ; preds = %else.2, %then.1
  %r7 = load i64, ptr %r2, align 8, !noundef !0
  store i64 %r7, ptr %r0, align 8
  %r8 = load i64, ptr %r0, align 8, !noundef !0
  ret i64 %r8
}

define internal noundef i64 @"core::int::u64::min"(i64 noundef %a0, i64 noundef %a1) #0 {
start:
  %r0 = alloca i64, align 8
  %r1 = alloca i8, align 1
  %r2 = alloca i64, align 8
  %r3 = icmp ult i64 %a1, %a0
  %r4 = zext i1 %r3 to i8
  store i8 %r4, ptr %r1, align 1
  %r5 = load i8, ptr %r1, align 1, !range !1, !noundef !0
  %r6 = trunc i8 %r5 to i1
  br i1 %r6, label %then.1, label %else.2

then.1:                                           ; preds = %start
  store i64 %a1, ptr %r2, align 8
  br label %join.3

else.2:                                           ; preds = %start
  store i64 %a0, ptr %r2, align 8
  br label %join.3

join.3:                                           ; preds = %else.2, %then.1
  %r7 = load i64, ptr %r2, align 8, !noundef !0
  store i64 %r7, ptr %r0, align 8
  %r8 = load i64, ptr %r0, align 8, !noundef !0
  ret i64 %r8
}

define internal noundef i64 @"core::int::u64::saturating_add"(i64 noundef %a0, i64 noundef %a1) #0 {
start:
  %r0 = alloca i64, align 8
  %r1 = alloca i64, align 8
  %r2 = alloca i8, align 1
  %r3 = alloca i64, align 8
  %r4 = sub i64 -1, %a1
  store i64 %r4, ptr %r1, align 8
  %r5 = load i64, ptr %r1, align 8, !noundef !0
  %r6 = icmp ule i64 %a0, %r5
  %r7 = zext i1 %r6 to i8
  store i8 %r7, ptr %r2, align 1
  %r8 = load i8, ptr %r2, align 1, !range !1, !noundef !0
  %r9 = trunc i8 %r8 to i1
  br i1 %r9, label %then.1, label %else.2

then.1:                                           ; preds = %start
  %r10 = add i64 %a0, %a1
  store i64 %r10, ptr %r3, align 8
  br label %join.3

else.2:                                           ; preds = %start
  store i64 -1, ptr %r3, align 8
  br label %join.3

join.3:                                           ; preds = %else.2, %then.1
  %r11 = load i64, ptr %r3, align 8, !noundef !0
  store i64 %r11, ptr %r0, align 8
  %r12 = load i64, ptr %r0, align 8, !noundef !0
  ret i64 %r12
}

define internal noundef i64 @"core::int::u64::saturating_sub"(i64 noundef %a0, i64 noundef %a1) #0 {
start:
  %r0 = alloca i64, align 8
  %r1 = alloca i8, align 1
  %r2 = alloca i64, align 8
  %r3 = icmp ule i64 %a1, %a0
  %r4 = zext i1 %r3 to i8
  store i8 %r4, ptr %r1, align 1
  %r5 = load i8, ptr %r1, align 1, !range !1, !noundef !0
  %r6 = trunc i8 %r5 to i1
  br i1 %r6, label %then.1, label %else.2

then.1:                                           ; preds = %start
  %r7 = sub i64 %a0, %a1
  store i64 %r7, ptr %r2, align 8
  br label %join.3

else.2:                                           ; preds = %start
  store i64 0, ptr %r2, align 8
  br label %join.3

join.3:                                           ; preds = %else.2, %then.1
  %r8 = load i64, ptr %r2, align 8, !noundef !0
  store i64 %r8, ptr %r0, align 8
  %r9 = load i64, ptr %r0, align 8, !noundef !0
  ret i64 %r9
}

define internal { i8, i8 } @"core::iter::adapters::CopiedIterator::next::<#9b5029dc4184ce9f>"(ptr noundef %a0) #0 {
start:
  %r0 = alloca [2 x i8], align 1
  %r1 = alloca [16 x i8], align 8
  %r2 = alloca ptr, align 8
  call void @llvm.memset.p0.i64(ptr %r0, i8 0, i64 2, i1 false)
  call void @llvm.memset.p0.i64(ptr %r1, i8 0, i64 16, i1 false)
  store ptr %a0, ptr %r2, align 8
  %r3 = load ptr, ptr %r2, align 8, !noundef !0
  %r4 = call { i8, ptr } @"core::iter::slices::IterIterator::next::<22'pie_params::raw::Field>"(ptr %r3)
  %r5 = extractvalue { i8, ptr } %r4, 0
  %r6 = extractvalue { i8, ptr } %r4, 1
  %r7 = zext i8 %r5 to i64
  store i64 %r7, ptr %r1, align 1
  %r8 = getelementptr i8, ptr %r1, i64 8
  store ptr %r6, ptr %r8, align 8
  %r9 = load i8, ptr %r1, align 1, !noundef !0
  %r10 = getelementptr i8, ptr %r1, i64 8
  %r11 = load ptr, ptr %r10, align 8
  %r12 = call { i8, i8 } @"core::option::more::Option+ref+T::copied::<#578f9484b6d84114>"(i8 %r9, ptr %r11)
  %r13 = extractvalue { i8, i8 } %r12, 0
  %r14 = extractvalue { i8, i8 } %r12, 1
  store i8 %r13, ptr %r0, align 1
  %r15 = getelementptr i8, ptr %r0, i64 1
  store i8 %r14, ptr %r15, align 1
  br label %return.1

return.1:                                         ; preds = %start
  %r16 = load { i8, i8 }, ptr %r0, align 1
  ret { i8, i8 } %r16
}

define internal noundef { ptr, i64 } @"core::iter::base::Iterator::copied::<#fe1da720efc189be>"(ptr noundef %a0, i64 noundef %a1) #0 {
start:
  %r0 = alloca [16 x i8], align 8
  %r1 = alloca [16 x i8], align 8
  call void @llvm.memset.p0.i64(ptr %r1, i8 0, i64 16, i1 false)
  store ptr %a0, ptr %r1, align 8
  %r2 = getelementptr i8, ptr %r1, i64 8
  store i64 %a1, ptr %r2, align 8
  %r3 = alloca [16 x i8], align 8
  call void @llvm.memset.p0.i64(ptr %r0, i8 0, i64 16, i1 false)
  call void @llvm.memset.p0.i64(ptr %r3, i8 0, i64 16, i1 false)
  call void @llvm.memmove.p0.p0.i64(ptr %r3, ptr %r1, i64 16, i1 false)
  call void @llvm.memmove.p0.p0.i64(ptr %r0, ptr %r3, i64 16, i1 false)
  br label %return.1

return.1:                                         ; preds = %start
  %r4 = load { ptr, i64 }, ptr %r0, align 8
  ret { ptr, i64 } %r4
}

define internal { i8, i8 } @"core::iter::base::Iterator::find::<#982e5caaa8d4ff0e>"(ptr noundef %a0, ptr noundef %a1) #0 {
start:
  %r0 = alloca [2 x i8], align 1
  %r1 = alloca [8 x i8], align 8
  call void @llvm.memset.p0.i64(ptr %r1, i8 0, i64 8, i1 false)
  store ptr %a1, ptr %r1, align 8
  %r2 = alloca [8 x i8], align 8
  %r3 = alloca [1 x i8], align 1
  %r4 = alloca [2 x i8], align 1
  %r5 = alloca ptr, align 8
  %r6 = alloca i8, align 1
  %r7 = alloca ptr, align 8
  %r8 = alloca ptr, align 8
  %r9 = alloca [1 x i8], align 1
  %r10 = alloca [8 x i8], align 8
  %r11 = alloca [1 x i8], align 1
  %r12 = alloca [8 x i8], align 8
  call void @llvm.memset.p0.i64(ptr %r0, i8 0, i64 2, i1 false)
  call void @llvm.memset.p0.i64(ptr %r2, i8 0, i64 8, i1 false)
  call void @llvm.memset.p0.i64(ptr %r3, i8 0, i64 1, i1 false)
  call void @llvm.memset.p0.i64(ptr %r4, i8 0, i64 2, i1 false)
  call void @llvm.memset.p0.i64(ptr %r9, i8 0, i64 1, i1 false)
  call void @llvm.memset.p0.i64(ptr %r10, i8 0, i64 8, i1 false)
  call void @llvm.memset.p0.i64(ptr %r11, i8 0, i64 1, i1 false)
  call void @llvm.memset.p0.i64(ptr %r12, i8 0, i64 8, i1 false)
  call void @llvm.memmove.p0.p0.i64(ptr %r2, ptr %r1, i64 8, i1 false)
  br label %loop.2

loop.2:                                           ; preds = %join.6, %start
  store ptr %a0, ptr %r5, align 8
  %r13 = load ptr, ptr %r5, align 8, !noundef !0
  %r14 = call { i8, i8 } @"core::iter::adapters::CopiedIterator::next::<#9b5029dc4184ce9f>"(ptr %r13)
  %r15 = extractvalue { i8, i8 } %r14, 0
  %r16 = extractvalue { i8, i8 } %r14, 1
  store i8 %r15, ptr %r4, align 1
  %r17 = getelementptr i8, ptr %r4, i64 1
  store i8 %r16, ptr %r17, align 1
  %r18 = load i8, ptr %r4, align 1, !noundef !0
  switch i8 %r18, label %noarm.5 [
    i8 1, label %arm.3
    i8 0, label %arm.4
  ]

arm.3:                                            ; preds = %loop.2
  %r19 = getelementptr i8, ptr %r4, i64 1
  call void @llvm.memmove.p0.p0.i64(ptr %r3, ptr %r19, i64 1, i1 false)
  store ptr %r2, ptr %r7, align 8
  store ptr %r3, ptr %r8, align 8
  %r20 = load ptr, ptr %r7, align 8, !noundef !0
  %r21 = load ptr, ptr %r8, align 8, !noundef !0
  %r22 = call i1 @"pie_params::raw::fn::RawParams::first_bad::find+FnMut::call_mut"(ptr %r20, ptr %r21)
  %r23 = zext i1 %r22 to i8
  store i8 %r23, ptr %r6, align 1
  %r24 = load i8, ptr %r6, align 1, !range !1, !noundef !0
  %r25 = trunc i8 %r24 to i1
  br i1 %r25, label %then.7, label %else.8

then.7:                                           ; preds = %arm.3
  call void @llvm.memmove.p0.p0.i64(ptr %r9, ptr %r3, i64 1, i1 false)
  store i8 1, ptr %r0, align 1
  %r26 = getelementptr i8, ptr %r0, i64 1
  call void @llvm.memmove.p0.p0.i64(ptr %r26, ptr %r9, i64 1, i1 false)
  call void @llvm.memmove.p0.p0.i64(ptr %r10, ptr %r2, i64 8, i1 false)
  %r27 = load ptr, ptr %r10, align 8, !noundef !0
  call void @"pie_params::Destruct++none::drop::<#72b94c696a796d09>"(ptr %r27)
  br label %return.10

else.8:                                           ; preds = %arm.3
  br label %join.9

join.9:                                           ; preds = %else.8
  call void @llvm.memmove.p0.p0.i64(ptr %r11, ptr %r3, i64 1, i1 false)
  %r28 = load i8, ptr %r11, align 1, !noundef !0
  call void @"pie_params::Destruct++none::drop::<22'pie_params::raw::Field>"(i8 %r28)
  br label %join.6

arm.4:                                            ; preds = %loop.2
  br label %after.1

join.6:                                           ; preds = %join.9
  br label %loop.2

after.1:                                          ; preds = %arm.4
  store i8 0, ptr %r0, align 1
  call void @llvm.memmove.p0.p0.i64(ptr %r12, ptr %r2, i64 8, i1 false)
  %r29 = load ptr, ptr %r12, align 8, !noundef !0
  call void @"pie_params::Destruct++none::drop::<#72b94c696a796d09>"(ptr %r29)
  br label %return.10

return.10:                                        ; preds = %after.1, %then.7
  %r30 = load { i8, i8 }, ptr %r0, align 1
  ret { i8, i8 } %r30

noarm.5:                                          ; preds = %loop.2
  unreachable
}

define internal { i8, ptr } @"core::iter::slices::IterIterator::next::<22'pie_params::raw::Field>"(ptr noundef %a0) #0 {
start:
  %r0 = alloca [16 x i8], align 8
  %r1 = alloca [16 x i8], align 8
  %r2 = alloca i8, align 1
  %r3 = alloca i64, align 8
  %r4 = alloca ptr, align 8
  %r5 = alloca i64, align 8
  %r6 = alloca ptr, align 8
  %r7 = alloca [16 x i8], align 8
  %r8 = alloca ptr, align 8
  %r9 = alloca ptr, align 8
  call void @llvm.memset.p0.i64(ptr %r0, i8 0, i64 16, i1 false)
  call void @llvm.memset.p0.i64(ptr %r1, i8 0, i64 16, i1 false)
  call void @llvm.memset.p0.i64(ptr %r7, i8 0, i64 16, i1 false)
  call void @llvm.memmove.p0.p0.i64(ptr %r1, ptr %a0, i64 16, i1 false)
  %r10 = load ptr, ptr %r1, align 8, !noundef !0
  %r11 = getelementptr i8, ptr %r1, i64 8
  %r12 = load i64, ptr %r11, align 8, !noundef !0
  %r13 = call i1 @"core::slice::slice+T::is_empty::<22'pie_params::raw::Field>"(ptr %r10, i64 %r12)
  %r14 = zext i1 %r13 to i8
  store i8 %r14, ptr %r2, align 1
  %r15 = load i8, ptr %r2, align 1, !range !1, !noundef !0
  %r16 = trunc i8 %r15 to i1
  br i1 %r16, label %then.1, label %else.2

then.1:                                           ; preds = %start
  store i64 0, ptr %r0, align 1
  br label %return.4

else.2:                                           ; preds = %start
  br label %join.3

join.3:                                           ; preds = %else.2
  %r17 = mul i64 1, 1
  store i64 %r17, ptr %r3, align 8
  %r18 = load ptr, ptr %r1, align 8, !noundef !0
  %r19 = load i64, ptr %r3, align 8, !noundef !0
  %r20 = getelementptr i8, ptr %r18, i64 %r19
  store ptr %r20, ptr %r4, align 8
  %r21 = getelementptr i8, ptr %r1, i64 8
  %r22 = load i64, ptr %r21, align 8, !noundef !0
  %r23 = sub i64 %r22, 1
  store i64 %r23, ptr %r5, align 8
  %r24 = load ptr, ptr %r4, align 8, !noundef !0
  store ptr %r24, ptr %r6, align 8
  %r25 = load ptr, ptr %r6, align 8, !noundef !0
  %r26 = load i64, ptr %r5, align 8, !noundef !0
  store ptr %r25, ptr %r7, align 8
  %r27 = getelementptr i8, ptr %r7, i64 8
  store i64 %r26, ptr %r27, align 8
  call void @llvm.memmove.p0.p0.i64(ptr %a0, ptr %r7, i64 16, i1 false)
  %r28 = mul i64 0, 1
  store i64 %r28, ptr %r3, align 8
  %r29 = load ptr, ptr %r1, align 8, !noundef !0
  %r30 = load i64, ptr %r3, align 8, !noundef !0
  %r31 = getelementptr i8, ptr %r29, i64 %r30
  store ptr %r31, ptr %r8, align 8
  %r32 = load ptr, ptr %r8, align 8, !noundef !0
  store ptr %r32, ptr %r9, align 8
  %r33 = load ptr, ptr %r9, align 8, !noundef !0
  store i64 1, ptr %r0, align 1
  %r34 = getelementptr i8, ptr %r0, i64 8
  store ptr %r33, ptr %r34, align 8
  br label %return.4

return.4:                                         ; preds = %join.3, %then.1
  %r35 = load { i8, ptr }, ptr %r0, align 8
  ret { i8, ptr } %r35
}

define internal noundef { ptr, i64 } @"core::iter::slices::slice+T::iter::<22'pie_params::raw::Field>"(ptr noundef %a0, i64 noundef %a1) #0 {
start:
  %r0 = alloca [16 x i8], align 8
  %r1 = alloca [16 x i8], align 8
  call void @llvm.memset.p0.i64(ptr %r1, i8 0, i64 16, i1 false)
  store ptr %a0, ptr %r1, align 8
  %r2 = getelementptr i8, ptr %r1, i64 8
  store i64 %a1, ptr %r2, align 8
  call void @llvm.memset.p0.i64(ptr %r0, i8 0, i64 16, i1 false)
  call void @llvm.memmove.p0.p0.i64(ptr %r0, ptr %r1, i64 16, i1 false)
  br label %return.1

return.1:                                         ; preds = %start
  %r3 = load { ptr, i64 }, ptr %r0, align 8
  ret { ptr, i64 } %r3
}

define internal noundef zeroext i1 @"core::option::Option::is_none::<23'pie_rate::raw::RawCycle>"(ptr noundef %a0) #0 {
start:
  %r0 = alloca i8, align 1
  %r1 = alloca i8, align 1
  %r2 = load i8, ptr %a0, align 1, !noundef !0
  switch i8 %r2, label %noarm.3 [
    i8 1, label %arm.1
    i8 0, label %arm.2
  ]

arm.1:                                            ; preds = %start
  %r3 = zext i1 false to i8
  store i8 %r3, ptr %r1, align 1
  br label %join.4

arm.2:                                            ; preds = %start
  %r4 = zext i1 true to i8
  store i8 %r4, ptr %r1, align 1
  br label %join.4

join.4:                                           ; preds = %arm.2, %arm.1
  %r5 = load i8, ptr %r1, align 1, !range !1, !noundef !0
  %r6 = trunc i8 %r5 to i1
  %r7 = zext i1 %r6 to i8
  store i8 %r7, ptr %r0, align 1
  %r8 = load i8, ptr %r0, align 1, !range !1, !noundef !0
  %r9 = trunc i8 %r8 to i1
  ret i1 %r9

noarm.3:                                          ; preds = %start
  unreachable
}

define internal noundef zeroext i1 @"core::option::Option::is_some::<27'pie_params::checked::Params>"(ptr noundef %a0) #0 {
start:
  %r0 = alloca i8, align 1
  %r1 = alloca i8, align 1
  %r2 = load i8, ptr %a0, align 1, !noundef !0
  switch i8 %r2, label %noarm.3 [
    i8 1, label %arm.1
    i8 0, label %arm.2
  ]

arm.1:                                            ; preds = %start
  %r3 = zext i1 true to i8
  store i8 %r3, ptr %r1, align 1
  br label %join.4

arm.2:                                            ; preds = %start
  %r4 = zext i1 false to i8
  store i8 %r4, ptr %r1, align 1
  br label %join.4

join.4:                                           ; preds = %arm.2, %arm.1
  %r5 = load i8, ptr %r1, align 1, !range !1, !noundef !0
  %r6 = trunc i8 %r5 to i1
  %r7 = zext i1 %r6 to i8
  store i8 %r7, ptr %r0, align 1
  %r8 = load i8, ptr %r0, align 1, !range !1, !noundef !0
  %r9 = trunc i8 %r8 to i1
  ret i1 %r9

noarm.3:                                          ; preds = %start
  unreachable
}

define internal noundef ptr @"core::option::Option::unwrap::<*>"(i8 noundef %a0, ptr %a1) #0 {
start:
  %r0 = alloca ptr, align 8
  %r1 = alloca [16 x i8], align 8
  call void @llvm.memset.p0.i64(ptr %r1, i8 0, i64 16, i1 false)
  %r2 = zext i8 %a0 to i64
  store i64 %r2, ptr %r1, align 1
  %r3 = getelementptr i8, ptr %r1, i64 8
  store ptr %a1, ptr %r3, align 8
  %r4 = alloca ptr, align 8
  %r5 = alloca ptr, align 8
  %r6 = load i8, ptr %r1, align 1, !noundef !0
  switch i8 %r6, label %noarm.3 [
    i8 1, label %arm.1
    i8 0, label %arm.2
  ]

arm.1:                                            ; preds = %start
  %r7 = getelementptr i8, ptr %r1, i64 8
  %r8 = load ptr, ptr %r7, align 8, !noundef !0
  store ptr %r8, ptr %r4, align 8
  %r9 = load ptr, ptr %r4, align 8, !noundef !0
  store ptr %r9, ptr %r5, align 8
  br label %join.4

arm.2:                                            ; preds = %start
  call void @"core::assertions::unreachable"()
  br label %trap.5

join.4:                                           ; preds = %arm.1
  %r10 = load ptr, ptr %r5, align 8, !noundef !0
  store ptr %r10, ptr %r0, align 8
  %r11 = load ptr, ptr %r0, align 8, !noundef !0
  ret ptr %r11

trap.5:                                           ; preds = %arm.2
  ; call void @llvm.trap()
  unreachable

noarm.3:                                          ; preds = %start
  unreachable
}

define internal { i8, i64 } @"core::option::OptionFromResidualNoValue::from_residual::<i64>"() #0 {
start:
  %r0 = alloca [16 x i8], align 8
  %r1 = alloca [0 x i8], align 1
  call void @llvm.memset.p0.i64(ptr %r0, i8 0, i64 16, i1 false)
  store i64 0, ptr %r0, align 1
  br label %return.1

return.1:                                         ; preds = %start
  %r2 = load { i8, i64 }, ptr %r0, align 8
  ret { i8, i64 } %r2
}

define internal void @"core::option::OptionTry::branch::<23'pie_rate::raw::RawCycle>"(ptr noundef %a0, ptr noundef %a1) #0 {
start:
  %r0 = alloca [24 x i8], align 8
  %r1 = alloca [24 x i8], align 8
  call void @llvm.memset.p0.i64(ptr %r1, i8 0, i64 24, i1 false)
  %r2 = load i8, ptr %a1, align 1
  %r3 = zext i8 %r2 to i64
  store i64 %r3, ptr %r1, align 1
  %r4 = getelementptr i8, ptr %r1, i64 8
  %r5 = getelementptr i8, ptr %a1, i64 8
  call void @llvm.memmove.p0.p0.i64(ptr %r4, ptr %r5, i64 16, i1 false)
  %r6 = alloca [16 x i8], align 8
  %r7 = alloca [24 x i8], align 8
  %r8 = alloca [16 x i8], align 8
  %r9 = alloca [0 x i8], align 1
  call void @llvm.memset.p0.i64(ptr %r0, i8 0, i64 24, i1 false)
  call void @llvm.memset.p0.i64(ptr %r6, i8 0, i64 16, i1 false)
  call void @llvm.memset.p0.i64(ptr %r7, i8 0, i64 24, i1 false)
  call void @llvm.memset.p0.i64(ptr %r8, i8 0, i64 16, i1 false)
  %r10 = load i8, ptr %r1, align 1, !noundef !0
  switch i8 %r10, label %noarm.3 [
    i8 1, label %arm.1
    i8 0, label %arm.2
  ]

arm.1:                                            ; preds = %start
  %r11 = getelementptr i8, ptr %r1, i64 8
  call void @llvm.memmove.p0.p0.i64(ptr %r6, ptr %r11, i64 16, i1 false)
  call void @llvm.memmove.p0.p0.i64(ptr %r8, ptr %r6, i64 16, i1 false)
  store i8 0, ptr %r7, align 1
  %r12 = getelementptr i8, ptr %r7, i64 8
  call void @llvm.memmove.p0.p0.i64(ptr %r12, ptr %r8, i64 16, i1 false)
  br label %join.4

arm.2:                                            ; preds = %start
  store i8 1, ptr %r7, align 1
  %r13 = getelementptr i8, ptr %r7, i64 1
  br label %join.4

join.4:                                           ; preds = %arm.2, %arm.1
  call void @llvm.memmove.p0.p0.i64(ptr %r0, ptr %r7, i64 1, i1 false)
  %r14 = getelementptr i8, ptr %r0, i64 8
  %r15 = getelementptr i8, ptr %r7, i64 8
  call void @llvm.memmove.p0.p0.i64(ptr %r14, ptr %r15, i64 16, i1 false)
  call void @llvm.memmove.p0.p0.i64(ptr %a0, ptr %r0, i64 1, i1 false)
  %r16 = getelementptr i8, ptr %a0, i64 8
  %r17 = getelementptr i8, ptr %r0, i64 8
  call void @llvm.memmove.p0.p0.i64(ptr %r16, ptr %r17, i64 16, i1 false)
  ret void

noarm.3:                                          ; preds = %start
  unreachable
}

define internal { i8, i8 } @"core::option::more::Option+ref+T::copied::<#578f9484b6d84114>"(i8 noundef %a0, ptr %a1) #0 {
start:
  %r0 = alloca [2 x i8], align 1
  %r1 = alloca [16 x i8], align 8
  call void @llvm.memset.p0.i64(ptr %r1, i8 0, i64 16, i1 false)
  %r2 = zext i8 %a0 to i64
  store i64 %r2, ptr %r1, align 1
  %r3 = getelementptr i8, ptr %r1, i64 8
  store ptr %a1, ptr %r3, align 8
  %r4 = alloca [2 x i8], align 1
  %r5 = alloca ptr, align 8
  %r6 = alloca [16 x i8], align 8
  %r7 = alloca [1 x i8], align 1
  call void @llvm.memset.p0.i64(ptr %r0, i8 0, i64 2, i1 false)
  call void @llvm.memset.p0.i64(ptr %r4, i8 0, i64 2, i1 false)
  call void @llvm.memset.p0.i64(ptr %r6, i8 0, i64 16, i1 false)
  call void @llvm.memset.p0.i64(ptr %r7, i8 0, i64 1, i1 false)
  %r8 = load i8, ptr %r1, align 1, !noundef !0
  switch i8 %r8, label %noarm.3 [
    i8 1, label %arm.1
    i8 0, label %arm.2
  ]

arm.1:                                            ; preds = %start
  %r9 = load i8, ptr %r1, align 1
  %r10 = zext i8 %r9 to i64
  store i64 %r10, ptr %r6, align 1
  %r11 = getelementptr i8, ptr %r6, i64 8
  %r12 = getelementptr i8, ptr %r1, i64 8
  call void @llvm.memmove.p0.p0.i64(ptr %r11, ptr %r12, i64 8, i1 false)
  %r13 = load i8, ptr %r6, align 1, !noundef !0
  %r14 = getelementptr i8, ptr %r6, i64 8
  %r15 = load ptr, ptr %r14, align 8
  %r16 = call ptr @"core::option::Option::unwrap::<*>"(i8 %r13, ptr %r15)
  store ptr %r16, ptr %r5, align 8
  %r17 = load ptr, ptr %r5, align 8, !noundef !0
  call void @llvm.memmove.p0.p0.i64(ptr %r7, ptr %r17, i64 1, i1 false)
  store i8 1, ptr %r4, align 1
  %r18 = getelementptr i8, ptr %r4, i64 1
  call void @llvm.memmove.p0.p0.i64(ptr %r18, ptr %r7, i64 1, i1 false)
  br label %join.4

arm.2:                                            ; preds = %start
  store i8 0, ptr %r4, align 1
  br label %join.4

join.4:                                           ; preds = %arm.2, %arm.1
  call void @llvm.memmove.p0.p0.i64(ptr %r0, ptr %r4, i64 1, i1 false)
  %r19 = getelementptr i8, ptr %r0, i64 1
  %r20 = getelementptr i8, ptr %r4, i64 1
  call void @llvm.memmove.p0.p0.i64(ptr %r19, ptr %r20, i64 1, i1 false)
  br label %return.5

return.5:                                         ; preds = %join.4
  %r21 = load { i8, i8 }, ptr %r0, align 1
  ret { i8, i8 } %r21

noarm.3:                                          ; preds = %start
  unreachable
}

define internal noundef zeroext i1 @"core::slice::slice+T::is_empty::<22'pie_params::raw::Field>"(ptr noundef %a0, i64 noundef %a1) #0 {
start:
  %r0 = alloca i8, align 1
  %r1 = alloca [16 x i8], align 8
  call void @llvm.memset.p0.i64(ptr %r1, i8 0, i64 16, i1 false)
  store ptr %a0, ptr %r1, align 8
  %r2 = getelementptr i8, ptr %r1, i64 8
  store i64 %a1, ptr %r2, align 8
  %r3 = alloca i64, align 8
  %r4 = getelementptr i8, ptr %r1, i64 8
  %r5 = load i64, ptr %r4, align 8, !noundef !0
  store i64 %r5, ptr %r3, align 8
  %r6 = load i64, ptr %r3, align 8, !noundef !0
  %r7 = icmp eq i64 %r6, 0
  %r8 = zext i1 %r7 to i8
  store i8 %r8, ptr %r0, align 1
  %r9 = load i8, ptr %r0, align 1, !range !1, !noundef !0
  %r10 = trunc i8 %r9 to i1
  ret i1 %r10
}

define internal void @"pie_abi::choices::elements"(ptr noundef %a0, i64 noundef %a1) #1 {
start:
  %r0 = alloca [5 x i8], align 1
  %r1 = alloca [1 x i8], align 1
  %r2 = alloca [1 x i8], align 1
  %r3 = alloca [1 x i8], align 1
  %r4 = alloca [1 x i8], align 1
  %r5 = alloca [1 x i8], align 1
  %r6 = alloca i64, align 8
  %r7 = alloca i8, align 1
  %r8 = alloca [1 x i8], align 1
  %r9 = alloca i64, align 8
  %r10 = alloca [1 x i8], align 1
  %r11 = alloca [1 x i8], align 1
  %r12 = alloca [1 x i8], align 1
  %r13 = alloca [1 x i8], align 1
  call void @llvm.memset.p0.i64(ptr %r0, i8 0, i64 5, i1 false)
  call void @llvm.memset.p0.i64(ptr %r1, i8 0, i64 1, i1 false)
  call void @llvm.memset.p0.i64(ptr %r2, i8 0, i64 1, i1 false)
  call void @llvm.memset.p0.i64(ptr %r3, i8 0, i64 1, i1 false)
  call void @llvm.memset.p0.i64(ptr %r4, i8 0, i64 1, i1 false)
  call void @llvm.memset.p0.i64(ptr %r5, i8 0, i64 1, i1 false)
  call void @llvm.memset.p0.i64(ptr %r8, i8 0, i64 1, i1 false)
  call void @llvm.memset.p0.i64(ptr %r10, i8 0, i64 1, i1 false)
  call void @llvm.memset.p0.i64(ptr %r11, i8 0, i64 1, i1 false)
  call void @llvm.memset.p0.i64(ptr %r12, i8 0, i64 1, i1 false)
  call void @llvm.memset.p0.i64(ptr %r13, i8 0, i64 1, i1 false)
  %r14 = urem i64 %a1, 2
  store i64 %r14, ptr %r6, align 8
  %r15 = load i64, ptr %r6, align 8, !noundef !0
  %r16 = icmp eq i64 %r15, 1
  %r17 = zext i1 %r16 to i8
  store i8 %r17, ptr %r7, align 1
  %r18 = load i8, ptr %r7, align 1, !range !1, !noundef !0
  %r19 = trunc i8 %r18 to i1
  br i1 %r19, label %then.1, label %else.2

then.1:                                           ; preds = %start
  store i8 1, ptr %r8, align 1
  br label %join.3

else.2:                                           ; preds = %start
  store i8 0, ptr %r8, align 1
  br label %join.3

join.3:                                           ; preds = %else.2, %then.1
  call void @llvm.memmove.p0.p0.i64(ptr %r1, ptr %r8, i64 1, i1 false)
  %r20 = udiv i64 %a1, 2
  store i64 %r20, ptr %r6, align 8
  %r21 = load i64, ptr %r6, align 8, !noundef !0
  %r22 = urem i64 %r21, 2
  store i64 %r22, ptr %r9, align 8
  %r23 = load i64, ptr %r9, align 8, !noundef !0
  %r24 = icmp eq i64 %r23, 1
  %r25 = zext i1 %r24 to i8
  store i8 %r25, ptr %r7, align 1
  %r26 = load i8, ptr %r7, align 1, !range !1, !noundef !0
  %r27 = trunc i8 %r26 to i1
  br i1 %r27, label %then.4, label %else.5

then.4:                                           ; preds = %join.3
  store i8 1, ptr %r10, align 1
  br label %join.6

else.5:                                           ; preds = %join.3
  store i8 0, ptr %r10, align 1
  br label %join.6

join.6:                                           ; preds = %else.5, %then.4
  call void @llvm.memmove.p0.p0.i64(ptr %r2, ptr %r10, i64 1, i1 false)
  %r28 = udiv i64 %a1, 4
  store i64 %r28, ptr %r6, align 8
  %r29 = load i64, ptr %r6, align 8, !noundef !0
  %r30 = urem i64 %r29, 2
  store i64 %r30, ptr %r9, align 8
  %r31 = load i64, ptr %r9, align 8, !noundef !0
  %r32 = icmp eq i64 %r31, 1
  %r33 = zext i1 %r32 to i8
  store i8 %r33, ptr %r7, align 1
  %r34 = load i8, ptr %r7, align 1, !range !1, !noundef !0
  %r35 = trunc i8 %r34 to i1
  br i1 %r35, label %then.7, label %else.8

then.7:                                           ; preds = %join.6
  store i8 1, ptr %r11, align 1
  br label %join.9

else.8:                                           ; preds = %join.6
  store i8 0, ptr %r11, align 1
  br label %join.9

join.9:                                           ; preds = %else.8, %then.7
  call void @llvm.memmove.p0.p0.i64(ptr %r3, ptr %r11, i64 1, i1 false)
  %r36 = udiv i64 %a1, 8
  store i64 %r36, ptr %r6, align 8
  %r37 = load i64, ptr %r6, align 8, !noundef !0
  %r38 = urem i64 %r37, 2
  store i64 %r38, ptr %r9, align 8
  %r39 = load i64, ptr %r9, align 8, !noundef !0
  %r40 = icmp eq i64 %r39, 1
  %r41 = zext i1 %r40 to i8
  store i8 %r41, ptr %r7, align 1
  %r42 = load i8, ptr %r7, align 1, !range !1, !noundef !0
  %r43 = trunc i8 %r42 to i1
  br i1 %r43, label %then.10, label %else.11

then.10:                                          ; preds = %join.9
  store i8 1, ptr %r12, align 1
  br label %join.12

else.11:                                          ; preds = %join.9
  store i8 0, ptr %r12, align 1
  br label %join.12

join.12:                                          ; preds = %else.11, %then.10
  call void @llvm.memmove.p0.p0.i64(ptr %r4, ptr %r12, i64 1, i1 false)
  %r44 = udiv i64 %a1, 16
  store i64 %r44, ptr %r6, align 8
  %r45 = load i64, ptr %r6, align 8, !noundef !0
  %r46 = urem i64 %r45, 2
  store i64 %r46, ptr %r9, align 8
  %r47 = load i64, ptr %r9, align 8, !noundef !0
  %r48 = icmp eq i64 %r47, 1
  %r49 = zext i1 %r48 to i8
  store i8 %r49, ptr %r7, align 1
  %r50 = load i8, ptr %r7, align 1, !range !1, !noundef !0
  %r51 = trunc i8 %r50 to i1
  br i1 %r51, label %then.13, label %else.14

then.13:                                          ; preds = %join.12
  store i8 1, ptr %r13, align 1
  br label %join.15

else.14:                                          ; preds = %join.12
  store i8 0, ptr %r13, align 1
  br label %join.15

join.15:                                          ; preds = %else.14, %then.13
  call void @llvm.memmove.p0.p0.i64(ptr %r5, ptr %r13, i64 1, i1 false)
  call void @llvm.memmove.p0.p0.i64(ptr %r0, ptr %r1, i64 1, i1 false)
  %r52 = getelementptr i8, ptr %r0, i64 1
  call void @llvm.memmove.p0.p0.i64(ptr %r52, ptr %r2, i64 1, i1 false)
  %r53 = getelementptr i8, ptr %r0, i64 2
  call void @llvm.memmove.p0.p0.i64(ptr %r53, ptr %r3, i64 1, i1 false)
  %r54 = getelementptr i8, ptr %r0, i64 3
  call void @llvm.memmove.p0.p0.i64(ptr %r54, ptr %r4, i64 1, i1 false)
  %r55 = getelementptr i8, ptr %r0, i64 4
  call void @llvm.memmove.p0.p0.i64(ptr %r55, ptr %r5, i64 1, i1 false)
  call void @llvm.memmove.p0.p0.i64(ptr %a0, ptr %r0, i64 5, i1 false)
  ret void
}

define internal noundef i8 @"pie_abi::choices::profile"(i64 noundef %a0) #1 {
start:
  %r0 = alloca [1 x i8], align 1
  %r1 = alloca i8, align 1
  %r2 = alloca [1 x i8], align 1
  call void @llvm.memset.p0.i64(ptr %r0, i8 0, i64 1, i1 false)
  call void @llvm.memset.p0.i64(ptr %r2, i8 0, i64 1, i1 false)
  %r3 = icmp eq i64 %a0, 2
  %r4 = zext i1 %r3 to i8
  store i8 %r4, ptr %r1, align 1
  %r5 = load i8, ptr %r1, align 1, !range !1, !noundef !0
  %r6 = trunc i8 %r5 to i1
  br i1 %r6, label %then.1, label %else.2

then.1:                                           ; preds = %start
  store i8 1, ptr %r2, align 1
  br label %join.3

else.2:                                           ; preds = %start
  store i8 0, ptr %r2, align 1
  br label %join.3

join.3:                                           ; preds = %else.2, %then.1
  call void @llvm.memmove.p0.p0.i64(ptr %r0, ptr %r2, i64 1, i1 false)
  br label %return.4

return.4:                                         ; preds = %join.3
  %r7 = load i8, ptr %r0, align 1, !noundef !0
  ret i8 %r7
}

define internal noundef i32 @"pie_abi::code::of_verdict"(i8 noundef %a0) #0 {
start:
  %r0 = alloca i32, align 4
  %r1 = alloca [1 x i8], align 1
  call void @llvm.memset.p0.i64(ptr %r1, i8 0, i64 1, i1 false)
  store i8 %a0, ptr %r1, align 1
  %r2 = alloca i32, align 4
  %r3 = load i8, ptr %r1, align 1, !noundef !0
  switch i8 %r3, label %noarm.6 [
    i8 0, label %arm.1
    i8 1, label %arm.2
    i8 2, label %arm.3
    i8 3, label %arm.4
    i8 4, label %arm.5
  ]

arm.1:                                            ; preds = %start
  store i32 0, ptr %r2, align 4
  br label %join.7

arm.2:                                            ; preds = %start
  store i32 1, ptr %r2, align 4
  br label %join.7

arm.3:                                            ; preds = %start
  store i32 2, ptr %r2, align 4
  br label %join.7

arm.4:                                            ; preds = %start
  store i32 3, ptr %r2, align 4
  br label %join.7

arm.5:                                            ; preds = %start
  store i32 4, ptr %r2, align 4
  br label %join.7

join.7:                                           ; preds = %arm.5, %arm.4, %arm.3, %arm.2, %arm.1
  %r4 = load i32, ptr %r2, align 4, !noundef !0
  store i32 %r4, ptr %r0, align 4
  %r5 = load i32, ptr %r0, align 4, !noundef !0
  ret i32 %r5

noarm.6:                                          ; preds = %start
  unreachable
}

define internal void @"pie_abi::event::PieEvent::fill_arrival"(ptr noundef %a0, i32 noundef %a1) #1 {
start:
  %r0 = getelementptr i8, ptr %a0, i64 58
  store i8 1, ptr %r0, align 1
  %r1 = getelementptr i8, ptr %a0, i64 52
  store i32 %a1, ptr %r1, align 4
  %r2 = getelementptr i8, ptr %a0, i64 24
  store i64 0, ptr %r2, align 8
  %r3 = getelementptr i8, ptr %a0, i64 32
  store i64 0, ptr %r3, align 8
  %r4 = getelementptr i8, ptr %a0, i64 40
  store i64 0, ptr %r4, align 8
  %r5 = getelementptr i8, ptr %a0, i64 60
  store i32 0, ptr %r5, align 4
  ret void
}

define internal void @"pie_abi::event::PieEvent::fill_departure"(ptr noundef %a0, i32 noundef %a1) #1 {
start:
  %r0 = alloca ptr, align 8
  store ptr %a0, ptr %r0, align 8
  %r1 = load ptr, ptr %r0, align 8, !noundef !0
  call void @"pie_abi::event::PieEvent::fill_arrival"(ptr %r1, i32 %a1)
  %r2 = getelementptr i8, ptr %a0, i64 58
  store i8 2, ptr %r2, align 1
  %r3 = getelementptr i8, ptr %a0, i64 16
  store i64 0, ptr %r3, align 8
  ret void
}

define internal void @"pie_abi::event::PieEvent::fill_other"(ptr noundef %a0, i8 noundef %a1, i32 noundef %a2) #1 {
start:
  %r0 = alloca ptr, align 8
  store ptr %a0, ptr %r0, align 8
  %r1 = load ptr, ptr %r0, align 8, !noundef !0
  call void @"pie_abi::event::PieEvent::fill_departure"(ptr %r1, i32 %a2)
  %r2 = getelementptr i8, ptr %a0, i64 58
  store i8 %a1, ptr %r2, align 1
  %r3 = getelementptr i8, ptr %a0, i64 8
  store i64 0, ptr %r3, align 8
  %r4 = getelementptr i8, ptr %a0, i64 48
  store i32 0, ptr %r4, align 4
  %r5 = getelementptr i8, ptr %a0, i64 59
  store i8 0, ptr %r5, align 1
  ret void
}

define internal void @"pie_abi::opening::checked"(ptr noundef %a0, ptr noundef %a1) #0 {
start:
  %r0 = alloca [88 x i8], align 8
  %r1 = alloca [48 x i8], align 8
  %r2 = alloca [16 x i8], align 8
  %r3 = alloca [56 x i8], align 8
  %r4 = alloca [72 x i8], align 8
  %r5 = alloca i64, align 8
  %r6 = alloca i8, align 1
  %r7 = alloca i8, align 1
  %r8 = alloca i64, align 8
  %r9 = alloca i8, align 1
  %r10 = alloca [24 x i8], align 8
  %r11 = alloca [1 x i8], align 1
  %r12 = alloca i64, align 8
  %r13 = alloca [1 x i8], align 1
  %r14 = alloca i64, align 8
  %r15 = alloca [5 x i8], align 1
  %r16 = alloca i64, align 8
  %r17 = alloca [7 x i8], align 1
  %r18 = alloca [80 x i8], align 8
  call void @llvm.memset.p0.i64(ptr %r0, i8 0, i64 88, i1 false)
  call void @llvm.memset.p0.i64(ptr %r1, i8 0, i64 48, i1 false)
  call void @llvm.memset.p0.i64(ptr %r2, i8 0, i64 16, i1 false)
  call void @llvm.memset.p0.i64(ptr %r3, i8 0, i64 56, i1 false)
  call void @llvm.memset.p0.i64(ptr %r4, i8 0, i64 72, i1 false)
  call void @llvm.memset.p0.i64(ptr %r10, i8 0, i64 24, i1 false)
  call void @llvm.memset.p0.i64(ptr %r11, i8 0, i64 1, i1 false)
  call void @llvm.memset.p0.i64(ptr %r13, i8 0, i64 1, i1 false)
  call void @llvm.memset.p0.i64(ptr %r15, i8 0, i64 5, i1 false)
  call void @llvm.memset.p0.i64(ptr %r17, i8 0, i64 7, i1 false)
  call void @llvm.memset.p0.i64(ptr %r18, i8 0, i64 80, i1 false)
  call void @llvm.memmove.p0.p0.i64(ptr %r4, ptr %a1, i64 72, i1 false)
  call void @"pie_params::checked::Params::from_raw"(ptr %r3, ptr %r4)
  %r19 = load i8, ptr %r3, align 1, !noundef !0
  switch i8 %r19, label %noarm.3 [
    i8 1, label %arm.1
    i8 0, label %arm.2
  ]

arm.1:                                            ; preds = %start
  %r20 = getelementptr i8, ptr %r3, i64 8
  call void @llvm.memmove.p0.p0.i64(ptr %r1, ptr %r20, i64 48, i1 false)
  br label %join.4

arm.2:                                            ; preds = %start
  store i32 1, ptr %r0, align 1
  %r21 = getelementptr i8, ptr %r0, i64 4
  store i32 107, ptr %r21, align 4
  %r22 = load i8, ptr %r0, align 1
  %r23 = zext i8 %r22 to i32
  store i32 %r23, ptr %a0, align 1
  %r24 = getelementptr i8, ptr %a0, i64 4
  %r25 = getelementptr i8, ptr %r0, i64 4
  call void @llvm.memmove.p0.p0.i64(ptr %r24, ptr %r25, i64 4, i1 false)
  %r26 = getelementptr i8, ptr %a0, i64 8
  %r27 = getelementptr i8, ptr %r0, i64 8
  call void @llvm.memmove.p0.p0.i64(ptr %r26, ptr %r27, i64 80, i1 false)
  ret void

join.4:                                           ; preds = %arm.1
  %r28 = getelementptr i8, ptr %a1, i64 72
  %r29 = load i64, ptr %r28, align 8, !noundef !0
  store i64 %r29, ptr %r5, align 8
  %r30 = load i64, ptr %r5, align 8, !noundef !0
  %r31 = icmp ult i64 1152921504606846975, %r30
  %r32 = zext i1 %r31 to i8
  store i8 %r32, ptr %r6, align 1
  %r33 = load i8, ptr %r6, align 1, !range !1, !noundef !0
  %r34 = trunc i8 %r33 to i1
  br i1 %r34, label %then.5, label %else.6

then.5:                                           ; preds = %join.4
  store i32 1, ptr %r0, align 1
  %r35 = getelementptr i8, ptr %r0, i64 4
  store i32 101, ptr %r35, align 4
  %r36 = load i8, ptr %r0, align 1
  %r37 = zext i8 %r36 to i32
  store i32 %r37, ptr %a0, align 1
  %r38 = getelementptr i8, ptr %a0, i64 4
  %r39 = getelementptr i8, ptr %r0, i64 4
  call void @llvm.memmove.p0.p0.i64(ptr %r38, ptr %r39, i64 4, i1 false)
  %r40 = getelementptr i8, ptr %a0, i64 8
  %r41 = getelementptr i8, ptr %r0, i64 8
  call void @llvm.memmove.p0.p0.i64(ptr %r40, ptr %r41, i64 80, i1 false)
  ret void

else.6:                                           ; preds = %join.4
  br label %join.7

join.7:                                           ; preds = %else.6
  %r42 = getelementptr i8, ptr %a1, i64 80
  %r43 = load i64, ptr %r42, align 8, !noundef !0
  store i64 %r43, ptr %r5, align 8
  %r44 = load i64, ptr %r5, align 8, !noundef !0
  %r45 = icmp ne i64 %r44, 1
  %r46 = zext i1 %r45 to i8
  store i8 %r46, ptr %r7, align 1
  %r47 = load i8, ptr %r7, align 1, !range !1, !noundef !0
  %r48 = trunc i8 %r47 to i1
  br i1 %r48, label %then.9, label %else.10

then.9:                                           ; preds = %join.7
  %r49 = getelementptr i8, ptr %a1, i64 80
  %r50 = load i64, ptr %r49, align 8, !noundef !0
  store i64 %r50, ptr %r8, align 8
  %r51 = load i64, ptr %r8, align 8, !noundef !0
  %r52 = icmp ne i64 %r51, 2
  %r53 = zext i1 %r52 to i8
  store i8 %r53, ptr %r7, align 1
  %r54 = load i8, ptr %r7, align 1, !range !1, !noundef !0
  %r55 = trunc i8 %r54 to i1
  %r56 = zext i1 %r55 to i8
  store i8 %r56, ptr %r9, align 1
  %r57 = load i8, ptr %r9, align 1, !range !1, !noundef !0
  %r58 = trunc i8 %r57 to i1
  br i1 %r58, label %then.12, label %else.13

then.12:                                          ; preds = %then.9
  store i32 1, ptr %r0, align 1
  %r59 = getelementptr i8, ptr %r0, i64 4
  store i32 113, ptr %r59, align 4
  %r60 = load i8, ptr %r0, align 1
  %r61 = zext i8 %r60 to i32
  store i32 %r61, ptr %a0, align 1
  %r62 = getelementptr i8, ptr %a0, i64 4
  %r63 = getelementptr i8, ptr %r0, i64 4
  call void @llvm.memmove.p0.p0.i64(ptr %r62, ptr %r63, i64 4, i1 false)
  %r64 = getelementptr i8, ptr %a0, i64 8
  %r65 = getelementptr i8, ptr %r0, i64 8
  call void @llvm.memmove.p0.p0.i64(ptr %r64, ptr %r65, i64 80, i1 false)
  ret void

dead.15:                                          ; No predecessors!
  br label %after.8

else.13:                                          ; preds = %then.9
  br label %join.14

join.14:                                          ; preds = %else.13
  br label %join.11

else.10:                                          ; preds = %join.7
  br label %join.11

join.11:                                          ; preds = %else.10, %join.14
  br label %after.16

after.16:                                         ; preds = %join.11
  br label %after.8

after.8:                                          ; preds = %after.16, %dead.15
  %r66 = getelementptr i8, ptr %a1, i64 88
  %r67 = load i64, ptr %r66, align 8, !noundef !0
  store i64 %r67, ptr %r5, align 8
  %r68 = load i64, ptr %r5, align 8, !noundef !0
  %r69 = icmp ult i64 31, %r68
  %r70 = zext i1 %r69 to i8
  store i8 %r70, ptr %r6, align 1
  %r71 = load i8, ptr %r6, align 1, !range !1, !noundef !0
  %r72 = trunc i8 %r71 to i1
  br i1 %r72, label %then.17, label %else.18

then.17:                                          ; preds = %after.8
  store i32 1, ptr %r0, align 1
  %r73 = getelementptr i8, ptr %r0, i64 4
  store i32 117, ptr %r73, align 4
  %r74 = load i8, ptr %r0, align 1
  %r75 = zext i8 %r74 to i32
  store i32 %r75, ptr %a0, align 1
  %r76 = getelementptr i8, ptr %a0, i64 4
  %r77 = getelementptr i8, ptr %r0, i64 4
  call void @llvm.memmove.p0.p0.i64(ptr %r76, ptr %r77, i64 4, i1 false)
  %r78 = getelementptr i8, ptr %a0, i64 8
  %r79 = getelementptr i8, ptr %r0, i64 8
  call void @llvm.memmove.p0.p0.i64(ptr %r78, ptr %r79, i64 80, i1 false)
  ret void

else.18:                                          ; preds = %after.8
  br label %join.19

join.19:                                          ; preds = %else.18
  %r80 = getelementptr i8, ptr %a1, i64 96
  %r81 = load i64, ptr %r80, align 8, !noundef !0
  store i64 %r81, ptr %r5, align 8
  %r82 = load i64, ptr %r5, align 8, !noundef !0
  %r83 = icmp ult i64 1, %r82
  %r84 = zext i1 %r83 to i8
  store i8 %r84, ptr %r6, align 1
  %r85 = load i8, ptr %r6, align 1, !range !1, !noundef !0
  %r86 = trunc i8 %r85 to i1
  br i1 %r86, label %then.20, label %else.21

then.20:                                          ; preds = %join.19
  store i32 1, ptr %r0, align 1
  %r87 = getelementptr i8, ptr %r0, i64 4
  store i32 120, ptr %r87, align 4
  %r88 = load i8, ptr %r0, align 1
  %r89 = zext i8 %r88 to i32
  store i32 %r89, ptr %a0, align 1
  %r90 = getelementptr i8, ptr %a0, i64 4
  %r91 = getelementptr i8, ptr %r0, i64 4
  call void @llvm.memmove.p0.p0.i64(ptr %r90, ptr %r91, i64 4, i1 false)
  %r92 = getelementptr i8, ptr %a0, i64 8
  %r93 = getelementptr i8, ptr %r0, i64 8
  call void @llvm.memmove.p0.p0.i64(ptr %r92, ptr %r93, i64 80, i1 false)
  ret void

else.21:                                          ; preds = %join.19
  br label %join.22

join.22:                                          ; preds = %else.21
  call void @"pie_abi::opening::limits"(ptr %r10, ptr %a1)
  %r94 = load i8, ptr %r10, align 1, !noundef !0
  switch i8 %r94, label %noarm.3 [
    i8 1, label %arm.23
    i8 0, label %arm.24
  ]

arm.23:                                           ; preds = %join.22
  %r95 = getelementptr i8, ptr %r10, i64 8
  call void @llvm.memmove.p0.p0.i64(ptr %r2, ptr %r95, i64 16, i1 false)
  br label %join.25

arm.24:                                           ; preds = %join.22
  store i32 1, ptr %r0, align 1
  %r96 = getelementptr i8, ptr %r0, i64 4
  store i32 120, ptr %r96, align 4
  %r97 = load i8, ptr %r0, align 1
  %r98 = zext i8 %r97 to i32
  store i32 %r98, ptr %a0, align 1
  %r99 = getelementptr i8, ptr %a0, i64 4
  %r100 = getelementptr i8, ptr %r0, i64 4
  call void @llvm.memmove.p0.p0.i64(ptr %r99, ptr %r100, i64 4, i1 false)
  %r101 = getelementptr i8, ptr %a0, i64 8
  %r102 = getelementptr i8, ptr %r0, i64 8
  call void @llvm.memmove.p0.p0.i64(ptr %r101, ptr %r102, i64 80, i1 false)
  ret void

join.25:                                          ; preds = %arm.23
  %r103 = getelementptr i8, ptr %a1, i64 72
  %r104 = load i64, ptr %r103, align 8, !noundef !0
  store i64 %r104, ptr %r5, align 8
  %r105 = getelementptr i8, ptr %a1, i64 96
  %r106 = load i64, ptr %r105, align 8, !noundef !0
  store i64 %r106, ptr %r12, align 8
  %r107 = load i64, ptr %r12, align 8, !noundef !0
  %r108 = call i8 @"pie_abi::opening::mode"(i64 %r107)
  store i8 %r108, ptr %r11, align 1
  %r109 = getelementptr i8, ptr %a1, i64 80
  %r110 = load i64, ptr %r109, align 8, !noundef !0
  store i64 %r110, ptr %r14, align 8
  %r111 = load i64, ptr %r14, align 8, !noundef !0
  %r112 = call i8 @"pie_abi::choices::profile"(i64 %r111)
  store i8 %r112, ptr %r13, align 1
  %r113 = getelementptr i8, ptr %a1, i64 88
  %r114 = load i64, ptr %r113, align 8, !noundef !0
  store i64 %r114, ptr %r16, align 8
  %r115 = load i64, ptr %r16, align 8, !noundef !0
  call void @"pie_abi::choices::elements"(ptr %r15, i64 %r115)
  call void @llvm.memmove.p0.p0.i64(ptr %r17, ptr %r11, i64 1, i1 false)
  %r116 = getelementptr i8, ptr %r17, i64 1
  call void @llvm.memmove.p0.p0.i64(ptr %r116, ptr %r13, i64 1, i1 false)
  %r117 = getelementptr i8, ptr %r17, i64 2
  call void @llvm.memmove.p0.p0.i64(ptr %r117, ptr %r15, i64 5, i1 false)
  %r118 = load i64, ptr %r5, align 8, !noundef !0
  store i64 %r118, ptr %r18, align 8
  %r119 = getelementptr i8, ptr %r18, i64 8
  call void @llvm.memmove.p0.p0.i64(ptr %r119, ptr %r2, i64 16, i1 false)
  %r120 = getelementptr i8, ptr %r18, i64 24
  call void @llvm.memmove.p0.p0.i64(ptr %r120, ptr %r1, i64 48, i1 false)
  %r121 = getelementptr i8, ptr %r18, i64 72
  call void @llvm.memmove.p0.p0.i64(ptr %r121, ptr %r17, i64 7, i1 false)
  store i32 0, ptr %r0, align 1
  %r122 = getelementptr i8, ptr %r0, i64 8
  call void @llvm.memmove.p0.p0.i64(ptr %r122, ptr %r18, i64 80, i1 false)
  %r123 = load i8, ptr %r0, align 1
  %r124 = zext i8 %r123 to i32
  store i32 %r124, ptr %a0, align 1
  %r125 = getelementptr i8, ptr %a0, i64 4
  %r126 = getelementptr i8, ptr %r0, i64 4
  call void @llvm.memmove.p0.p0.i64(ptr %r125, ptr %r126, i64 4, i1 false)
  %r127 = getelementptr i8, ptr %a0, i64 8
  %r128 = getelementptr i8, ptr %r0, i64 8
  call void @llvm.memmove.p0.p0.i64(ptr %r127, ptr %r128, i64 80, i1 false)
  ret void

noarm.3:                                          ; preds = %join.22, %start
  unreachable
}

define internal void @"pie_abi::opening::limits"(ptr noundef %a0, ptr noundef %a1) #0 {
start:
  %r0 = alloca [24 x i8], align 8
  %r1 = alloca [16 x i8], align 8
  %r2 = alloca i8, align 1
  %r3 = alloca i64, align 8
  %r4 = alloca i64, align 8
  %r5 = alloca i64, align 8
  %r6 = alloca i64, align 8
  %r7 = alloca i8, align 1
  %r8 = alloca i32, align 4
  %r9 = alloca i32, align 4
  %r10 = alloca i64, align 8
  %r11 = alloca i8, align 1
  %r12 = alloca i8, align 1
  call void @llvm.memset.p0.i64(ptr %r0, i8 0, i64 24, i1 false)
  call void @llvm.memset.p0.i64(ptr %r1, i8 0, i64 16, i1 false)
  %r13 = getelementptr i8, ptr %a1, i64 104
  %r14 = load i64, ptr %r13, align 8, !noundef !0
  store i64 %r14, ptr %r3, align 8
  %r15 = call i64 @"core::convert::U64FromU32::from"(i32 1048576)
  store i64 %r15, ptr %r4, align 8
  %r16 = load i64, ptr %r4, align 8, !noundef !0
  %r17 = load i64, ptr %r3, align 8, !noundef !0
  %r18 = icmp ult i64 %r16, %r17
  %r19 = zext i1 %r18 to i8
  store i8 %r19, ptr %r2, align 1
  %r20 = load i8, ptr %r2, align 1, !range !1, !noundef !0
  %r21 = trunc i8 %r20 to i1
  br i1 %r21, label %then.3, label %else.4

then.3:                                           ; preds = %start
  br label %join.5

else.4:                                           ; preds = %start
  %r22 = getelementptr i8, ptr %a1, i64 112
  %r23 = load i64, ptr %r22, align 8, !noundef !0
  store i64 %r23, ptr %r5, align 8
  %r24 = call i64 @"core::convert::U64FromU32::from"(i32 1048576)
  store i64 %r24, ptr %r6, align 8
  %r25 = load i64, ptr %r6, align 8, !noundef !0
  %r26 = load i64, ptr %r5, align 8, !noundef !0
  %r27 = icmp ult i64 %r25, %r26
  %r28 = zext i1 %r27 to i8
  store i8 %r28, ptr %r2, align 1
  %r29 = load i8, ptr %r2, align 1, !range !1, !noundef !0
  %r30 = trunc i8 %r29 to i1
  %r31 = zext i1 %r30 to i8
  store i8 %r31, ptr %r7, align 1
  %r32 = load i8, ptr %r7, align 1, !range !1, !noundef !0
  %r33 = trunc i8 %r32 to i1
  br i1 %r33, label %then.6, label %else.7

then.6:                                           ; preds = %else.4
  br label %join.8

else.7:                                           ; preds = %else.4
  br label %after.2

join.8:                                           ; preds = %then.6
  br label %join.5

join.5:                                           ; preds = %join.8, %then.3
  store i64 0, ptr %r0, align 1
  %r34 = load i8, ptr %r0, align 1
  %r35 = zext i8 %r34 to i64
  store i64 %r35, ptr %a0, align 1
  %r36 = getelementptr i8, ptr %a0, i64 8
  %r37 = getelementptr i8, ptr %r0, i64 8
  call void @llvm.memmove.p0.p0.i64(ptr %r36, ptr %r37, i64 16, i1 false)
  ret void

after.9:                                          ; No predecessors!
  br label %after.1

after.2:                                          ; preds = %else.7
  br label %after.10

after.10:                                         ; preds = %after.2
  br label %after.1

after.1:                                          ; preds = %after.10, %after.9
  %r38 = getelementptr i8, ptr %a1, i64 104
  %r39 = load i64, ptr %r38, align 8, !noundef !0
  store i64 %r39, ptr %r3, align 8
  %r40 = load i64, ptr %r3, align 8, !noundef !0
  %r41 = trunc i64 %r40 to i32
  store i32 %r41, ptr %r8, align 4
  %r42 = getelementptr i8, ptr %a1, i64 112
  %r43 = load i64, ptr %r42, align 8, !noundef !0
  store i64 %r43, ptr %r4, align 8
  %r44 = load i64, ptr %r4, align 8, !noundef !0
  %r45 = trunc i64 %r44 to i32
  store i32 %r45, ptr %r9, align 4
  %r46 = getelementptr i8, ptr %a1, i64 120
  %r47 = load i64, ptr %r46, align 8, !noundef !0
  store i64 %r47, ptr %r10, align 8
  %r48 = load i32, ptr %r8, align 4, !noundef !0
  %r49 = load i32, ptr %r9, align 4, !noundef !0
  %r50 = load i64, ptr %r10, align 8, !noundef !0
  store i32 %r48, ptr %r1, align 4
  %r51 = getelementptr i8, ptr %r1, i64 4
  store i32 %r49, ptr %r51, align 4
  %r52 = getelementptr i8, ptr %r1, i64 8
  store i64 %r50, ptr %r52, align 8
  %r53 = call i1 @"pie_event::opening::Limits::are_in_range"(ptr %r1)
  %r54 = zext i1 %r53 to i8
  store i8 %r54, ptr %r11, align 1
  %r55 = load i8, ptr %r11, align 1, !range !1, !noundef !0
  %r56 = trunc i8 %r55 to i1
  %r57 = xor i1 %r56, true
  %r58 = zext i1 %r57 to i8
  store i8 %r58, ptr %r12, align 1
  %r59 = load i8, ptr %r12, align 1, !range !1, !noundef !0
  %r60 = trunc i8 %r59 to i1
  br i1 %r60, label %then.11, label %else.12

then.11:                                          ; preds = %after.1
  store i64 0, ptr %r0, align 1
  %r61 = load i8, ptr %r0, align 1
  %r62 = zext i8 %r61 to i64
  store i64 %r62, ptr %a0, align 1
  %r63 = getelementptr i8, ptr %a0, i64 8
  %r64 = getelementptr i8, ptr %r0, i64 8
  call void @llvm.memmove.p0.p0.i64(ptr %r63, ptr %r64, i64 16, i1 false)
  ret void

else.12:                                          ; preds = %after.1
  br label %join.13

join.13:                                          ; preds = %else.12
  store i64 1, ptr %r0, align 1
  %r65 = getelementptr i8, ptr %r0, i64 8
  call void @llvm.memmove.p0.p0.i64(ptr %r65, ptr %r1, i64 16, i1 false)
  %r66 = load i8, ptr %r0, align 1
  %r67 = zext i8 %r66 to i64
  store i64 %r67, ptr %a0, align 1
  %r68 = getelementptr i8, ptr %a0, i64 8
  %r69 = getelementptr i8, ptr %r0, i64 8
  call void @llvm.memmove.p0.p0.i64(ptr %r68, ptr %r69, i64 16, i1 false)
  ret void
}

define internal noundef i8 @"pie_abi::opening::mode"(i64 noundef %a0) #0 {
start:
  %r0 = alloca [1 x i8], align 1
  %r1 = alloca i8, align 1
  %r2 = alloca [1 x i8], align 1
  call void @llvm.memset.p0.i64(ptr %r0, i8 0, i64 1, i1 false)
  call void @llvm.memset.p0.i64(ptr %r2, i8 0, i64 1, i1 false)
  %r3 = icmp eq i64 %a0, 1
  %r4 = zext i1 %r3 to i8
  store i8 %r4, ptr %r1, align 1
  %r5 = load i8, ptr %r1, align 1, !range !1, !noundef !0
  %r6 = trunc i8 %r5 to i1
  br i1 %r6, label %then.1, label %else.2

then.1:                                           ; preds = %start
  store i8 1, ptr %r2, align 1
  br label %join.3

else.2:                                           ; preds = %start
  store i8 0, ptr %r2, align 1
  br label %join.3

join.3:                                           ; preds = %else.2, %then.1
  call void @llvm.memmove.p0.p0.i64(ptr %r0, ptr %r2, i64 1, i1 false)
  br label %return.4

return.4:                                         ; preds = %join.3
  %r7 = load i8, ptr %r0, align 1, !noundef !0
  ret i8 %r7
}

define internal { i8, i8 } @"pie_abi::packet::ecn"(i32 noundef %a0) #0 {
start:
  %r0 = alloca [2 x i8], align 1
  %r1 = alloca [2 x i8], align 1
  %r2 = alloca [1 x i8], align 1
  %r3 = alloca [1 x i8], align 1
  %r4 = alloca [1 x i8], align 1
  %r5 = alloca [1 x i8], align 1
  call void @llvm.memset.p0.i64(ptr %r0, i8 0, i64 2, i1 false)
  call void @llvm.memset.p0.i64(ptr %r1, i8 0, i64 2, i1 false)
  call void @llvm.memset.p0.i64(ptr %r2, i8 0, i64 1, i1 false)
  call void @llvm.memset.p0.i64(ptr %r3, i8 0, i64 1, i1 false)
  call void @llvm.memset.p0.i64(ptr %r4, i8 0, i64 1, i1 false)
  call void @llvm.memset.p0.i64(ptr %r5, i8 0, i64 1, i1 false)
  switch i32 %a0, label %default.5 [
    i32 0, label %arm.1
    i32 1, label %arm.2
    i32 2, label %arm.3
    i32 3, label %arm.4
  ]

arm.1:                                            ; preds = %start
  store i8 0, ptr %r2, align 1
  store i8 1, ptr %r1, align 1
  %r6 = getelementptr i8, ptr %r1, i64 1
  call void @llvm.memmove.p0.p0.i64(ptr %r6, ptr %r2, i64 1, i1 false)
  br label %join.6

arm.2:                                            ; preds = %start
  store i8 1, ptr %r3, align 1
  store i8 1, ptr %r1, align 1
  %r7 = getelementptr i8, ptr %r1, i64 1
  call void @llvm.memmove.p0.p0.i64(ptr %r7, ptr %r3, i64 1, i1 false)
  br label %join.6

arm.3:                                            ; preds = %start
  store i8 2, ptr %r4, align 1
  store i8 1, ptr %r1, align 1
  %r8 = getelementptr i8, ptr %r1, i64 1
  call void @llvm.memmove.p0.p0.i64(ptr %r8, ptr %r4, i64 1, i1 false)
  br label %join.6

arm.4:                                            ; preds = %start
  store i8 3, ptr %r5, align 1
  store i8 1, ptr %r1, align 1
  %r9 = getelementptr i8, ptr %r1, i64 1
  call void @llvm.memmove.p0.p0.i64(ptr %r9, ptr %r5, i64 1, i1 false)
  br label %join.6

default.5:                                        ; preds = %start
  store i8 0, ptr %r1, align 1
  br label %join.6

join.6:                                           ; preds = %default.5, %arm.4, %arm.3, %arm.2, %arm.1
  call void @llvm.memmove.p0.p0.i64(ptr %r0, ptr %r1, i64 1, i1 false)
  %r10 = getelementptr i8, ptr %r0, i64 1
  %r11 = getelementptr i8, ptr %r1, i64 1
  call void @llvm.memmove.p0.p0.i64(ptr %r10, ptr %r11, i64 1, i1 false)
  br label %return.7

return.7:                                         ; preds = %join.6
  %r12 = load { i8, i8 }, ptr %r0, align 1
  ret { i8, i8 } %r12
}

define internal noundef zeroext i1 @"pie_abi::packet::is_bad_size"(i32 noundef %a0) #0 {
start:
  %r0 = alloca i8, align 1
  %r1 = alloca i8, align 1
  %r2 = icmp eq i32 %a0, 0
  %r3 = zext i1 %r2 to i8
  store i8 %r3, ptr %r1, align 1
  %r4 = load i8, ptr %r1, align 1, !range !1, !noundef !0
  %r5 = trunc i8 %r4 to i1
  br i1 %r5, label %then.1, label %else.2

then.1:                                           ; preds = %start
  br label %join.3

else.2:                                           ; preds = %start
  %r6 = icmp ult i32 65535, %a0
  %r7 = zext i1 %r6 to i8
  store i8 %r7, ptr %r1, align 1
  br label %join.3

join.3:                                           ; preds = %else.2, %then.1
  %r8 = load i8, ptr %r1, align 1, !range !1, !noundef !0
  %r9 = trunc i8 %r8 to i1
  %r10 = zext i1 %r9 to i8
  store i8 %r10, ptr %r0, align 1
  %r11 = load i8, ptr %r0, align 1, !range !1, !noundef !0
  %r12 = trunc i8 %r11 to i1
  ret i1 %r12
}

define internal noundef zeroext i1 @"pie_abi::params::are_in_range"(ptr noundef %a0) #1 {
start:
  %r0 = alloca i8, align 1
  %r1 = alloca [56 x i8], align 8
  %r2 = alloca [72 x i8], align 8
  %r3 = alloca [56 x i8], align 8
  %r4 = alloca ptr, align 8
  call void @llvm.memset.p0.i64(ptr %r1, i8 0, i64 56, i1 false)
  call void @llvm.memset.p0.i64(ptr %r2, i8 0, i64 72, i1 false)
  call void @llvm.memset.p0.i64(ptr %r3, i8 0, i64 56, i1 false)
  call void @llvm.memmove.p0.p0.i64(ptr %r2, ptr %a0, i64 72, i1 false)
  call void @"pie_params::checked::Params::from_raw"(ptr %r1, ptr %r2)
  %r5 = load i8, ptr %r1, align 1
  %r6 = zext i8 %r5 to i64
  store i64 %r6, ptr %r3, align 1
  %r7 = getelementptr i8, ptr %r3, i64 8
  %r8 = getelementptr i8, ptr %r1, i64 8
  call void @llvm.memmove.p0.p0.i64(ptr %r7, ptr %r8, i64 48, i1 false)
  store ptr %r3, ptr %r4, align 8
  %r9 = load ptr, ptr %r4, align 8, !noundef !0
  %r10 = call i1 @"core::option::Option::is_some::<27'pie_params::checked::Params>"(ptr %r9)
  %r11 = zext i1 %r10 to i8
  store i8 %r11, ptr %r0, align 1
  %r12 = load i8, ptr %r0, align 1, !range !1, !noundef !0
  %r13 = trunc i8 %r12 to i1
  ret i1 %r13
}

define internal noundef i32 @"pie_abi::params::number"(i8 noundef %a0) #0 {
start:
  %r0 = alloca i32, align 4
  %r1 = alloca [1 x i8], align 1
  call void @llvm.memset.p0.i64(ptr %r1, i8 0, i64 1, i1 false)
  store i8 %a0, ptr %r1, align 1
  %r2 = alloca i32, align 4
  %r3 = load i8, ptr %r1, align 1, !noundef !0
  switch i8 %r3, label %noarm.10 [
    i8 0, label %arm.1
    i8 1, label %arm.2
    i8 2, label %arm.3
    i8 3, label %arm.4
    i8 4, label %arm.5
    i8 5, label %arm.6
    i8 6, label %arm.7
    i8 7, label %arm.8
    i8 8, label %arm.9
  ]

arm.1:                                            ; preds = %start
  store i32 1, ptr %r2, align 4
  br label %join.11

arm.2:                                            ; preds = %start
  store i32 2, ptr %r2, align 4
  br label %join.11

arm.3:                                            ; preds = %start
  store i32 3, ptr %r2, align 4
  br label %join.11

arm.4:                                            ; preds = %start
  store i32 4, ptr %r2, align 4
  br label %join.11

arm.5:                                            ; preds = %start
  store i32 5, ptr %r2, align 4
  br label %join.11

arm.6:                                            ; preds = %start
  store i32 6, ptr %r2, align 4
  br label %join.11

arm.7:                                            ; preds = %start
  store i32 7, ptr %r2, align 4
  br label %join.11

arm.8:                                            ; preds = %start
  store i32 8, ptr %r2, align 4
  br label %join.11

arm.9:                                            ; preds = %start
  store i32 9, ptr %r2, align 4
  br label %join.11

join.11:                                          ; preds = %arm.9, %arm.8, %arm.7, %arm.6, %arm.5, %arm.4, %arm.3, %arm.2, %arm.1
  %r4 = load i32, ptr %r2, align 4, !noundef !0
  store i32 %r4, ptr %r0, align 4
  %r5 = load i32, ptr %r0, align 4, !noundef !0
  ret i32 %r5

noarm.10:                                         ; preds = %start
  unreachable
}

define internal void @"pie_aqm::law::calls_keep_it_sound"() #0 {
start:
  ret void
}

define internal void @"pie_aqm::law::calls_look_back"() #0 {
start:
  ret void
}

define internal void @"pie_aqm::raw::RawController::advance_to"(ptr noundef %a0, i64 noundef %a1) #1 {
start:
  %r0 = alloca i64, align 8
  %r1 = alloca i64, align 8
  %r2 = getelementptr i8, ptr %a0, i64 80
  %r3 = load i64, ptr %r2, align 8, !noundef !0
  store i64 %r3, ptr %r1, align 8
  %r4 = load i64, ptr %r1, align 8, !noundef !0
  %r5 = call i64 @"core::int::u64::max"(i64 %r4, i64 %a1)
  store i64 %r5, ptr %r0, align 8
  %r6 = load i64, ptr %r0, align 8, !noundef !0
  %r7 = getelementptr i8, ptr %a0, i64 80
  store i64 %r6, ptr %r7, align 8
  ret void
}

define internal noundef { i8, i8 } @"pie_aqm::raw::RawController::arrive_by"(ptr noundef %a0, ptr noundef %a1, ptr noundef %a2, i64 noundef %a3) #1 {
start:
  %r0 = alloca [2 x i8], align 1
  %r1 = alloca [5 x i8], align 1
  call void @llvm.memset.p0.i64(ptr %r1, i8 0, i64 5, i1 false)
  call void @llvm.memmove.p0.p0.i64(ptr %r1, ptr %a1, i64 5, i1 false)
  %r2 = alloca [32 x i8], align 8
  call void @llvm.memset.p0.i64(ptr %r2, i8 0, i64 32, i1 false)
  call void @llvm.memmove.p0.p0.i64(ptr %r2, ptr %a2, i64 32, i1 false)
  %r3 = alloca [1 x i8], align 1
  %r4 = alloca i64, align 8
  %r5 = alloca [1 x i8], align 1
  %r6 = alloca [16 x i8], align 8
  %r7 = alloca ptr, align 8
  %r8 = alloca ptr, align 8
  %r9 = alloca i8, align 1
  %r10 = alloca i8, align 1
  %r11 = alloca i64, align 8
  %r12 = alloca ptr, align 8
  call void @llvm.memset.p0.i64(ptr %r0, i8 0, i64 2, i1 false)
  call void @llvm.memset.p0.i64(ptr %r3, i8 0, i64 1, i1 false)
  call void @llvm.memset.p0.i64(ptr %r5, i8 0, i64 1, i1 false)
  call void @llvm.memset.p0.i64(ptr %r6, i8 0, i64 16, i1 false)
  store ptr %a0, ptr %r7, align 8
  %r13 = load ptr, ptr %r7, align 8, !noundef !0
  %r14 = call { i8, i64 } @"pie_aqm::raw::RawController::judge"(ptr %r13, ptr %r1, ptr %r2)
  %r15 = extractvalue { i8, i64 } %r14, 0
  %r16 = extractvalue { i8, i64 } %r14, 1
  store i8 %r15, ptr %r6, align 1
  %r17 = getelementptr i8, ptr %r6, i64 8
  store i64 %r16, ptr %r17, align 8
  call void @llvm.memmove.p0.p0.i64(ptr %r3, ptr %r6, i64 1, i1 false)
  %r18 = getelementptr i8, ptr %r6, i64 8
  %r19 = load i64, ptr %r18, align 8, !noundef !0
  store i64 %r19, ptr %r4, align 8
  %r20 = load i8, ptr %r3, align 1, !noundef !0
  %r21 = call i8 @"pie_event::cause::CauseName::verdict"(i8 %r20)
  store i8 %r21, ptr %r5, align 1
  %r22 = load i64, ptr %r4, align 8, !noundef !0
  %r23 = getelementptr i8, ptr %a0, i64 168
  store i64 %r22, ptr %r23, align 8
  store ptr %a0, ptr %r8, align 8
  %r24 = load ptr, ptr %r8, align 8, !noundef !0
  call void @"pie_aqm::raw::RawController::advance_to"(ptr %r24, i64 %a3)
  %r25 = getelementptr i8, ptr %a0, i64 88
  %r26 = load i8, ptr %r25, align 1, !range !1, !noundef !0
  %r27 = trunc i8 %r26 to i1
  %r28 = zext i1 %r27 to i8
  store i8 %r28, ptr %r10, align 1
  %r29 = getelementptr i8, ptr %a0, i64 8
  %r30 = getelementptr i8, ptr %r29, i64 48
  %r31 = load i64, ptr %r30, align 8, !noundef !0
  store i64 %r31, ptr %r11, align 8
  %r32 = load i8, ptr %r10, align 1, !range !1, !noundef !0
  %r33 = trunc i8 %r32 to i1
  %r34 = load i64, ptr %r11, align 8, !noundef !0
  %r35 = load i8, ptr %r5, align 1, !noundef !0
  %r36 = call i1 @"pie_aqm::verdict::activates"(i1 %r33, i64 %r34, i8 %r35, ptr %r2)
  %r37 = zext i1 %r36 to i8
  store i8 %r37, ptr %r9, align 1
  %r38 = load i8, ptr %r9, align 1, !range !1, !noundef !0
  %r39 = trunc i8 %r38 to i1
  br i1 %r39, label %then.1, label %else.2

then.1:                                           ; preds = %start
  store ptr %a0, ptr %r12, align 8
  %r40 = load ptr, ptr %r12, align 8, !noundef !0
  call void @"pie_aqm::raw::RawController::start_anew"(ptr %r40)
  %r41 = getelementptr i8, ptr %a0, i64 88
  %r42 = zext i1 true to i8
  store i8 %r42, ptr %r41, align 1
  br label %join.3

else.2:                                           ; preds = %start
  br label %join.3

join.3:                                           ; preds = %else.2, %then.1
  call void @llvm.memmove.p0.p0.i64(ptr %r0, ptr %r5, i64 1, i1 false)
  %r43 = getelementptr i8, ptr %r0, i64 1
  call void @llvm.memmove.p0.p0.i64(ptr %r43, ptr %r3, i64 1, i1 false)
  br label %return.4

return.4:                                         ; preds = %join.3
  %r44 = load { i8, i8 }, ptr %r0, align 1
  ret { i8, i8 } %r44
}

define internal noundef { i8, i8 } @"pie_aqm::raw::RawController::arrive_with_name"(ptr noundef %a0, ptr noundef %a1, i64 noundef %a2) #1 {
start:
  %r0 = alloca [2 x i8], align 1
  %r1 = alloca [32 x i8], align 8
  call void @llvm.memset.p0.i64(ptr %r1, i8 0, i64 32, i1 false)
  call void @llvm.memmove.p0.p0.i64(ptr %r1, ptr %a1, i64 32, i1 false)
  %r2 = alloca ptr, align 8
  %r3 = alloca [5 x i8], align 1
  call void @llvm.memset.p0.i64(ptr %r0, i8 0, i64 2, i1 false)
  call void @llvm.memset.p0.i64(ptr %r3, i8 0, i64 5, i1 false)
  store ptr %a0, ptr %r2, align 8
  %r4 = getelementptr i8, ptr %a0, i64 1
  call void @llvm.memmove.p0.p0.i64(ptr %r3, ptr %r4, i64 5, i1 false)
  %r5 = load ptr, ptr %r2, align 8, !noundef !0
  %r6 = call { i8, i8 } @"pie_aqm::raw::RawController::arrive_by"(ptr %r5, ptr %r3, ptr %r1, i64 %a2)
  %r7 = extractvalue { i8, i8 } %r6, 0
  %r8 = extractvalue { i8, i8 } %r6, 1
  store i8 %r7, ptr %r0, align 1
  %r9 = getelementptr i8, ptr %r0, i64 1
  store i8 %r8, ptr %r9, align 1
  br label %return.1

return.1:                                         ; preds = %start
  %r10 = load { i8, i8 }, ptr %r0, align 1
  ret { i8, i8 } %r10
}

define internal { i8, i64 } @"pie_aqm::raw::RawController::counted"(ptr noundef %a0, i32 noundef %a1) #1 {
start:
  %r0 = alloca [16 x i8], align 8
  %r1 = alloca [16 x i8], align 8
  %r2 = alloca [16 x i8], align 8
  %r3 = alloca [0 x i8], align 1
  %r4 = alloca i8, align 1
  %r5 = alloca i8, align 1
  %r6 = alloca [24 x i8], align 8
  %r7 = alloca [24 x i8], align 8
  %r8 = alloca [16 x i8], align 8
  %r9 = alloca ptr, align 8
  %r10 = alloca i64, align 8
  call void @llvm.memset.p0.i64(ptr %r0, i8 0, i64 16, i1 false)
  call void @llvm.memset.p0.i64(ptr %r1, i8 0, i64 16, i1 false)
  call void @llvm.memset.p0.i64(ptr %r2, i8 0, i64 16, i1 false)
  call void @llvm.memset.p0.i64(ptr %r6, i8 0, i64 24, i1 false)
  call void @llvm.memset.p0.i64(ptr %r7, i8 0, i64 24, i1 false)
  call void @llvm.memset.p0.i64(ptr %r8, i8 0, i64 16, i1 false)
  %r11 = call i1 @"pie_aqm::raw::RawController::measures"(ptr %a0)
  %r12 = zext i1 %r11 to i8
  store i8 %r12, ptr %r4, align 1
  %r13 = load i8, ptr %r4, align 1, !range !1, !noundef !0
  %r14 = trunc i8 %r13 to i1
  %r15 = xor i1 %r14, true
  %r16 = zext i1 %r15 to i8
  store i8 %r16, ptr %r5, align 1
  %r17 = load i8, ptr %r5, align 1, !range !1, !noundef !0
  %r18 = trunc i8 %r17 to i1
  br i1 %r18, label %then.1, label %else.2

then.1:                                           ; preds = %start
  store i64 0, ptr %r0, align 1
  br label %return.4

else.2:                                           ; preds = %start
  br label %join.3

join.3:                                           ; preds = %else.2
  %r19 = getelementptr i8, ptr %a0, i64 96
  %r20 = getelementptr i8, ptr %r19, i64 8
  %r21 = load i8, ptr %r20, align 1
  %r22 = zext i8 %r21 to i64
  store i64 %r22, ptr %r7, align 1
  %r23 = getelementptr i8, ptr %r7, i64 8
  %r24 = getelementptr i8, ptr %r20, i64 8
  call void @llvm.memmove.p0.p0.i64(ptr %r23, ptr %r24, i64 16, i1 false)
  call void @"core::option::OptionTry::branch::<23'pie_rate::raw::RawCycle>"(ptr %r6, ptr %r7)
  %r25 = load i8, ptr %r6, align 1, !noundef !0
  switch i8 %r25, label %noarm.7 [
    i8 0, label %arm.5
    i8 1, label %arm.6
  ]

arm.5:                                            ; preds = %join.3
  %r26 = getelementptr i8, ptr %r6, i64 8
  call void @llvm.memmove.p0.p0.i64(ptr %r2, ptr %r26, i64 16, i1 false)
  call void @llvm.memmove.p0.p0.i64(ptr %r8, ptr %r2, i64 16, i1 false)
  br label %join.8

arm.6:                                            ; preds = %join.3
  %r27 = getelementptr i8, ptr %r6, i64 1
  %r28 = call { i8, i64 } @"core::option::OptionFromResidualNoValue::from_residual::<i64>"()
  %r29 = extractvalue { i8, i64 } %r28, 0
  %r30 = extractvalue { i8, i64 } %r28, 1
  %r31 = zext i8 %r29 to i64
  store i64 %r31, ptr %r0, align 1
  %r32 = getelementptr i8, ptr %r0, i64 8
  store i64 %r30, ptr %r32, align 8
  br label %return.4

join.8:                                           ; preds = %arm.5
  call void @llvm.memmove.p0.p0.i64(ptr %r1, ptr %r8, i64 16, i1 false)
  store ptr %r1, ptr %r9, align 8
  %r33 = call i64 @"pie_aqm::raw::RawController::threshold"(ptr %a0)
  store i64 %r33, ptr %r10, align 8
  %r34 = load ptr, ptr %r9, align 8, !noundef !0
  %r35 = load i64, ptr %r10, align 8, !noundef !0
  %r36 = call { i8, i64 } @"pie_rate::raw::RawCycle::counted"(ptr %r34, i32 %a1, i64 %r35)
  %r37 = extractvalue { i8, i64 } %r36, 0
  %r38 = extractvalue { i8, i64 } %r36, 1
  %r39 = zext i8 %r37 to i64
  store i64 %r39, ptr %r0, align 1
  %r40 = getelementptr i8, ptr %r0, i64 8
  store i64 %r38, ptr %r40, align 8
  br label %return.4

return.4:                                         ; preds = %join.8, %arm.6, %then.1
  %r41 = load { i8, i64 }, ptr %r0, align 8
  ret { i8, i64 } %r41

noarm.7:                                          ; preds = %join.3
  unreachable
}

define internal noundef i64 @"pie_aqm::raw::RawController::delay"(ptr noundef %a0, i64 noundef %a1) #1 {
start:
  %r0 = alloca i64, align 8
  %r1 = alloca i64, align 8
  %r2 = alloca i64, align 8
  %r3 = alloca i64, align 8
  %r4 = getelementptr i8, ptr %a0, i64 1
  %r5 = load i8, ptr %r4, align 1, !noundef !0
  switch i8 %r5, label %noarm.3 [
    i8 0, label %arm.1
    i8 1, label %arm.2
  ]

arm.1:                                            ; preds = %start
  %r6 = getelementptr i8, ptr %a0, i64 96
  %r7 = load i64, ptr %r6, align 8, !noundef !0
  store i64 %r7, ptr %r2, align 8
  %r8 = getelementptr i8, ptr %a0, i64 8
  %r9 = getelementptr i8, ptr %r8, i64 64
  %r10 = load i64, ptr %r9, align 8, !noundef !0
  store i64 %r10, ptr %r3, align 8
  %r11 = load i64, ptr %r2, align 8, !noundef !0
  %r12 = load i64, ptr %r3, align 8, !noundef !0
  %r13 = call i64 @"pie_control::update::delay"(i64 %a1, i64 %r11, i64 %r12)
  store i64 %r13, ptr %r1, align 8
  br label %join.4

arm.2:                                            ; preds = %start
  %r14 = getelementptr i8, ptr %a0, i64 128
  %r15 = load i64, ptr %r14, align 8, !noundef !0
  store i64 %r15, ptr %r1, align 8
  br label %join.4

join.4:                                           ; preds = %arm.2, %arm.1
  %r16 = load i64, ptr %r1, align 8, !noundef !0
  store i64 %r16, ptr %r0, align 8
  %r17 = load i64, ptr %r0, align 8, !noundef !0
  ret i64 %r17

noarm.3:                                          ; preds = %start
  unreachable
}

define internal void @"pie_aqm::raw::RawController::depart"(ptr noundef %a0, i32 noundef %a1, i64 noundef %a2, i64 noundef %a3, i64 noundef %a4) #1 {
start:
  %r0 = alloca i64, align 8
  %r1 = alloca ptr, align 8
  %r2 = alloca i8, align 1
  %r3 = alloca ptr, align 8
  %r4 = alloca ptr, align 8
  %r5 = alloca i64, align 8
  %r6 = alloca i64, align 8
  %r7 = alloca i64, align 8
  store ptr %a0, ptr %r1, align 8
  %r8 = load ptr, ptr %r1, align 8, !noundef !0
  call void @"pie_aqm::raw::RawController::advance_to"(ptr %r8, i64 %a4)
  %r9 = getelementptr i8, ptr %a0, i64 88
  %r10 = load i8, ptr %r9, align 1, !range !1, !noundef !0
  %r11 = trunc i8 %r10 to i1
  %r12 = zext i1 %r11 to i8
  store i8 %r12, ptr %r2, align 1
  %r13 = load i8, ptr %r2, align 1, !range !1, !noundef !0
  %r14 = trunc i8 %r13 to i1
  br i1 %r14, label %then.1, label %else.2

then.1:                                           ; preds = %start
  %r15 = getelementptr i8, ptr %a0, i64 1
  %r16 = load i8, ptr %r15, align 1, !noundef !0
  switch i8 %r16, label %noarm.6 [
    i8 0, label %arm.4
    i8 1, label %arm.5
  ]

arm.4:                                            ; preds = %then.1
  store ptr %a0, ptr %r3, align 8
  %r17 = load ptr, ptr %r3, align 8, !noundef !0
  %r18 = call i64 @"pie_aqm::raw::RawController::threshold"(ptr %r17)
  store i64 %r18, ptr %r0, align 8
  %r19 = getelementptr i8, ptr %a0, i64 96
  store ptr %r19, ptr %r4, align 8
  %r20 = getelementptr i8, ptr %a0, i64 80
  %r21 = load i64, ptr %r20, align 8, !noundef !0
  store i64 %r21, ptr %r5, align 8
  %r22 = load ptr, ptr %r4, align 8, !noundef !0
  %r23 = load i64, ptr %r5, align 8, !noundef !0
  %r24 = load i64, ptr %r0, align 8, !noundef !0
  call void @"pie_rate::raw::RawRate::departed"(ptr %r22, i32 %a1, i64 %a2, i64 %r23, i64 %r24)
  br label %join.7

arm.5:                                            ; preds = %then.1
  %r25 = getelementptr i8, ptr %a0, i64 80
  %r26 = load i64, ptr %r25, align 8, !noundef !0
  store i64 %r26, ptr %r7, align 8
  %r27 = load i64, ptr %r7, align 8, !noundef !0
  %r28 = call i64 @"pie_aqm::raw::wait"(i64 %a2, i64 %a3, i64 %r27)
  store i64 %r28, ptr %r6, align 8
  %r29 = load i64, ptr %r6, align 8, !noundef !0
  %r30 = getelementptr i8, ptr %a0, i64 128
  store i64 %r29, ptr %r30, align 8
  br label %join.7

join.7:                                           ; preds = %arm.5, %arm.4
  br label %join.3

else.2:                                           ; preds = %start
  br label %join.3

join.3:                                           ; preds = %else.2, %join.7
  ret void

noarm.6:                                          ; preds = %then.1
  unreachable
}

define internal noundef i64 @"pie_aqm::raw::RawController::due"(ptr noundef %a0) #1 {
start:
  %r0 = alloca i64, align 8
  %r1 = alloca i64, align 8
  %r2 = alloca i64, align 8
  %r3 = getelementptr i8, ptr %a0, i64 136
  %r4 = getelementptr i8, ptr %r3, i64 24
  %r5 = load i64, ptr %r4, align 8, !noundef !0
  store i64 %r5, ptr %r1, align 8
  %r6 = getelementptr i8, ptr %a0, i64 8
  %r7 = getelementptr i8, ptr %r6, i64 8
  %r8 = load i64, ptr %r7, align 8, !noundef !0
  store i64 %r8, ptr %r2, align 8
  %r9 = load i64, ptr %r1, align 8, !noundef !0
  %r10 = load i64, ptr %r2, align 8, !noundef !0
  %r11 = add i64 %r9, %r10
  store i64 %r11, ptr %r0, align 8
  %r12 = load i64, ptr %r0, align 8, !noundef !0
  ret i64 %r12
}

define internal noundef zeroext i1 @"pie_aqm::raw::RawController::is_between_cycles"(ptr noundef %a0, i64 noundef %a1) #1 {
start:
  %r0 = alloca i8, align 1
  %r1 = alloca i8, align 1
  %r2 = alloca i8, align 1
  %r3 = alloca ptr, align 8
  %r4 = alloca i64, align 8
  %r5 = call i1 @"pie_aqm::raw::RawController::measures"(ptr %a0)
  %r6 = zext i1 %r5 to i8
  store i8 %r6, ptr %r2, align 1
  %r7 = load i8, ptr %r2, align 1, !range !1, !noundef !0
  %r8 = trunc i8 %r7 to i1
  br i1 %r8, label %then.1, label %else.2

then.1:                                           ; preds = %start
  %r9 = getelementptr i8, ptr %a0, i64 96
  %r10 = getelementptr i8, ptr %r9, i64 8
  store ptr %r10, ptr %r3, align 8
  %r11 = load ptr, ptr %r3, align 8, !noundef !0
  %r12 = call i1 @"core::option::Option::is_none::<23'pie_rate::raw::RawCycle>"(ptr %r11)
  %r13 = zext i1 %r12 to i8
  store i8 %r13, ptr %r2, align 1
  br label %join.3

else.2:                                           ; preds = %start
  br label %join.3

join.3:                                           ; preds = %else.2, %then.1
  %r14 = load i8, ptr %r2, align 1, !range !1, !noundef !0
  %r15 = trunc i8 %r14 to i1
  %r16 = zext i1 %r15 to i8
  store i8 %r16, ptr %r1, align 1
  %r17 = load i8, ptr %r1, align 1, !range !1, !noundef !0
  %r18 = trunc i8 %r17 to i1
  br i1 %r18, label %then.4, label %else.5

then.4:                                           ; preds = %join.3
  %r19 = call i64 @"pie_aqm::raw::RawController::threshold"(ptr %a0)
  store i64 %r19, ptr %r4, align 8
  %r20 = load i64, ptr %r4, align 8, !noundef !0
  %r21 = icmp ult i64 %a1, %r20
  %r22 = zext i1 %r21 to i8
  store i8 %r22, ptr %r1, align 1
  br label %join.6

else.5:                                           ; preds = %join.3
  br label %join.6

join.6:                                           ; preds = %else.5, %then.4
  %r23 = load i8, ptr %r1, align 1, !range !1, !noundef !0
  %r24 = trunc i8 %r23 to i1
  %r25 = zext i1 %r24 to i8
  store i8 %r25, ptr %r0, align 1
  %r26 = load i8, ptr %r0, align 1, !range !1, !noundef !0
  %r27 = trunc i8 %r26 to i1
  ret i1 %r27
}

define internal noundef zeroext i1 @"pie_aqm::raw::RawController::is_too_soon"(ptr noundef %a0, i64 noundef %a1) #1 {
start:
  %r0 = alloca i8, align 1
  %r1 = alloca i64, align 8
  %r2 = alloca i64, align 8
  %r3 = alloca i64, align 8
  %r4 = getelementptr i8, ptr %a0, i64 80
  %r5 = load i64, ptr %r4, align 8, !noundef !0
  store i64 %r5, ptr %r2, align 8
  %r6 = load i64, ptr %r2, align 8, !noundef !0
  %r7 = call i64 @"core::int::u64::max"(i64 %r6, i64 %a1)
  store i64 %r7, ptr %r1, align 8
  %r8 = call i64 @"pie_aqm::raw::RawController::due"(ptr %a0)
  store i64 %r8, ptr %r3, align 8
  %r9 = load i64, ptr %r1, align 8, !noundef !0
  %r10 = load i64, ptr %r3, align 8, !noundef !0
  %r11 = icmp ult i64 %r9, %r10
  %r12 = zext i1 %r11 to i8
  store i8 %r12, ptr %r0, align 1
  %r13 = load i8, ptr %r0, align 1, !range !1, !noundef !0
  %r14 = trunc i8 %r13 to i1
  ret i1 %r14
}

define internal noundef { i8, i64 } @"pie_aqm::raw::RawController::judge"(ptr noundef %a0, ptr noundef %a1, ptr noundef %a2) #1 {
start:
  %r0 = alloca [16 x i8], align 8
  %r1 = alloca [5 x i8], align 1
  call void @llvm.memset.p0.i64(ptr %r1, i8 0, i64 5, i1 false)
  call void @llvm.memmove.p0.p0.i64(ptr %r1, ptr %a1, i64 5, i1 false)
  %r2 = alloca [32 x i8], align 8
  call void @llvm.memset.p0.i64(ptr %r2, i8 0, i64 32, i1 false)
  call void @llvm.memmove.p0.p0.i64(ptr %r2, ptr %a2, i64 32, i1 false)
  %r3 = alloca [16 x i8], align 8
  %r4 = alloca i64, align 8
  %r5 = alloca i64, align 8
  %r6 = alloca i64, align 8
  %r7 = alloca i8, align 1
  %r8 = alloca [1 x i8], align 1
  %r9 = alloca [1 x i8], align 1
  %r10 = alloca i8, align 1
  %r11 = alloca [1 x i8], align 1
  %r12 = alloca i64, align 8
  %r13 = alloca ptr, align 8
  %r14 = alloca ptr, align 8
  %r15 = alloca [24 x i8], align 8
  %r16 = alloca [1 x i8], align 1
  call void @llvm.memset.p0.i64(ptr %r0, i8 0, i64 16, i1 false)
  call void @llvm.memset.p0.i64(ptr %r3, i8 0, i64 16, i1 false)
  call void @llvm.memset.p0.i64(ptr %r8, i8 0, i64 1, i1 false)
  call void @llvm.memset.p0.i64(ptr %r9, i8 0, i64 1, i1 false)
  call void @llvm.memset.p0.i64(ptr %r11, i8 0, i64 1, i1 false)
  call void @llvm.memset.p0.i64(ptr %r15, i8 0, i64 24, i1 false)
  call void @llvm.memset.p0.i64(ptr %r16, i8 0, i64 1, i1 false)
  %r17 = getelementptr i8, ptr %a0, i64 8
  %r18 = getelementptr i8, ptr %r17, i64 48
  %r19 = load i64, ptr %r18, align 8, !noundef !0
  store i64 %r19, ptr %r4, align 8
  %r20 = getelementptr i8, ptr %r2, i64 12
  %r21 = load i32, ptr %r20, align 4, !noundef !0
  %r22 = call i64 @"core::convert::U64FromU32::from"(i32 %r21)
  store i64 %r22, ptr %r5, align 8
  %r23 = load i64, ptr %r2, align 8, !noundef !0
  %r24 = load i64, ptr %r5, align 8, !noundef !0
  %r25 = add i64 %r23, %r24
  store i64 %r25, ptr %r6, align 8
  %r26 = load i64, ptr %r4, align 8, !noundef !0
  %r27 = load i64, ptr %r6, align 8, !noundef !0
  %r28 = icmp ult i64 %r26, %r27
  %r29 = zext i1 %r28 to i8
  store i8 %r29, ptr %r7, align 1
  %r30 = load i8, ptr %r7, align 1, !range !1, !noundef !0
  %r31 = trunc i8 %r30 to i1
  br i1 %r31, label %then.1, label %else.2

then.1:                                           ; preds = %start
  store i8 0, ptr %r8, align 1
  call void @llvm.memmove.p0.p0.i64(ptr %r0, ptr %r8, i64 1, i1 false)
  %r32 = getelementptr i8, ptr %r0, i64 8
  store i64 0, ptr %r32, align 8
  br label %return.4

else.2:                                           ; preds = %start
  br label %join.3

join.3:                                           ; preds = %else.2
  %r33 = getelementptr i8, ptr %r2, i64 8
  %r34 = load i8, ptr %r33, align 1, !range !1, !noundef !0
  %r35 = trunc i8 %r34 to i1
  %r36 = zext i1 %r35 to i8
  store i8 %r36, ptr %r7, align 1
  %r37 = load i8, ptr %r7, align 1, !range !1, !noundef !0
  %r38 = trunc i8 %r37 to i1
  br i1 %r38, label %then.5, label %else.6

then.5:                                           ; preds = %join.3
  store i8 1, ptr %r9, align 1
  call void @llvm.memmove.p0.p0.i64(ptr %r0, ptr %r9, i64 1, i1 false)
  %r39 = getelementptr i8, ptr %r0, i64 8
  store i64 0, ptr %r39, align 8
  br label %return.4

else.6:                                           ; preds = %join.3
  br label %join.7

join.7:                                           ; preds = %else.6
  %r40 = getelementptr i8, ptr %a0, i64 88
  %r41 = load i8, ptr %r40, align 1, !range !1, !noundef !0
  %r42 = trunc i8 %r41 to i1
  %r43 = zext i1 %r42 to i8
  store i8 %r43, ptr %r7, align 1
  %r44 = load i8, ptr %r7, align 1, !range !1, !noundef !0
  %r45 = trunc i8 %r44 to i1
  %r46 = xor i1 %r45, true
  %r47 = zext i1 %r46 to i8
  store i8 %r47, ptr %r10, align 1
  %r48 = load i8, ptr %r10, align 1, !range !1, !noundef !0
  %r49 = trunc i8 %r48 to i1
  br i1 %r49, label %then.8, label %else.9

then.8:                                           ; preds = %join.7
  store i8 2, ptr %r11, align 1
  %r50 = getelementptr i8, ptr %a0, i64 168
  %r51 = load i64, ptr %r50, align 8, !noundef !0
  store i64 %r51, ptr %r12, align 8
  %r52 = load i64, ptr %r12, align 8, !noundef !0
  call void @llvm.memmove.p0.p0.i64(ptr %r0, ptr %r11, i64 1, i1 false)
  %r53 = getelementptr i8, ptr %r0, i64 8
  store i64 %r52, ptr %r53, align 8
  br label %return.4

else.9:                                           ; preds = %join.7
  br label %join.10

join.10:                                          ; preds = %else.9
  %r54 = getelementptr i8, ptr %a0, i64 8
  store ptr %r54, ptr %r13, align 8
  %r55 = getelementptr i8, ptr %a0, i64 136
  store ptr %r55, ptr %r14, align 8
  call void @"pie_aqm::verdict::ArrivingPacket::offered"(ptr %r15, ptr %r2)
  %r56 = getelementptr i8, ptr %a0, i64 168
  %r57 = load i64, ptr %r56, align 8, !noundef !0
  store i64 %r57, ptr %r4, align 8
  %r58 = load ptr, ptr %r13, align 8, !noundef !0
  %r59 = load ptr, ptr %r14, align 8, !noundef !0
  %r60 = load i64, ptr %r4, align 8, !noundef !0
  %r61 = call { i8, i64 } @"pie_early::decision::decide"(ptr %r58, ptr %r1, ptr %r59, ptr %r15, i64 %r60)
  %r62 = extractvalue { i8, i64 } %r61, 0
  %r63 = extractvalue { i8, i64 } %r61, 1
  store i8 %r62, ptr %r3, align 1
  %r64 = getelementptr i8, ptr %r3, i64 8
  store i64 %r63, ptr %r64, align 8
  call void @llvm.memmove.p0.p0.i64(ptr %r16, ptr %r3, i64 1, i1 false)
  %r65 = getelementptr i8, ptr %r3, i64 8
  %r66 = load i64, ptr %r65, align 8, !noundef !0
  call void @llvm.memmove.p0.p0.i64(ptr %r0, ptr %r16, i64 1, i1 false)
  %r67 = getelementptr i8, ptr %r0, i64 8
  store i64 %r66, ptr %r67, align 8
  br label %return.4

return.4:                                         ; preds = %join.10, %then.8, %then.5, %then.1
  %r68 = load { i8, i64 }, ptr %r0, align 8
  ret { i8, i64 } %r68
}

define internal noundef zeroext i1 @"pie_aqm::raw::RawController::measures"(ptr noundef %a0) #1 {
start:
  %r0 = alloca i8, align 1
  %r1 = alloca i8, align 1
  %r2 = alloca i8, align 1
  %r3 = getelementptr i8, ptr %a0, i64 88
  %r4 = load i8, ptr %r3, align 1, !range !1, !noundef !0
  %r5 = trunc i8 %r4 to i1
  %r6 = zext i1 %r5 to i8
  store i8 %r6, ptr %r1, align 1
  %r7 = load i8, ptr %r1, align 1, !range !1, !noundef !0
  %r8 = trunc i8 %r7 to i1
  br i1 %r8, label %then.1, label %else.2

then.1:                                           ; preds = %start
  %r9 = getelementptr i8, ptr %a0, i64 1
  %r10 = load i8, ptr %r9, align 1, !noundef !0
  switch i8 %r10, label %noarm.6 [
    i8 0, label %arm.4
    i8 1, label %arm.5
  ]

arm.4:                                            ; preds = %then.1
  %r11 = zext i1 true to i8
  store i8 %r11, ptr %r2, align 1
  br label %join.7

arm.5:                                            ; preds = %then.1
  %r12 = zext i1 false to i8
  store i8 %r12, ptr %r2, align 1
  br label %join.7

join.7:                                           ; preds = %arm.5, %arm.4
  %r13 = load i8, ptr %r2, align 1, !range !1, !noundef !0
  %r14 = trunc i8 %r13 to i1
  %r15 = zext i1 %r14 to i8
  store i8 %r15, ptr %r1, align 1
  br label %join.3

else.2:                                           ; preds = %start
  br label %join.3

join.3:                                           ; preds = %else.2, %join.7
  %r16 = load i8, ptr %r1, align 1, !range !1, !noundef !0
  %r17 = trunc i8 %r16 to i1
  %r18 = zext i1 %r17 to i8
  store i8 %r18, ptr %r0, align 1
  %r19 = load i8, ptr %r0, align 1, !range !1, !noundef !0
  %r20 = trunc i8 %r19 to i1
  ret i1 %r20

noarm.6:                                          ; preds = %then.1
  unreachable
}

define internal void @"pie_aqm::raw::RawController::opened"(ptr noundef %a0, i8 noundef %a1, ptr noundef %a2, ptr noundef %a3, i64 noundef %a4) #1 {
start:
  %r0 = alloca [176 x i8], align 8
  %r1 = alloca [1 x i8], align 1
  call void @llvm.memset.p0.i64(ptr %r1, i8 0, i64 1, i1 false)
  store i8 %a1, ptr %r1, align 1
  %r2 = alloca [5 x i8], align 1
  call void @llvm.memset.p0.i64(ptr %r2, i8 0, i64 5, i1 false)
  call void @llvm.memmove.p0.p0.i64(ptr %r2, ptr %a2, i64 5, i1 false)
  %r3 = alloca [72 x i8], align 8
  call void @llvm.memset.p0.i64(ptr %r3, i8 0, i64 72, i1 false)
  call void @llvm.memmove.p0.p0.i64(ptr %r3, ptr %a3, i64 72, i1 false)
  %r4 = alloca i8, align 1
  %r5 = alloca [32 x i8], align 8
  %r6 = alloca [32 x i8], align 8
  call void @llvm.memset.p0.i64(ptr %r0, i8 0, i64 176, i1 false)
  call void @llvm.memset.p0.i64(ptr %r5, i8 0, i64 32, i1 false)
  call void @llvm.memset.p0.i64(ptr %r6, i8 0, i64 32, i1 false)
  %r7 = load i8, ptr %r1, align 1, !noundef !0
  %r8 = call i1 @"pie_aqm::raw::opens_active"(i8 %r7)
  %r9 = zext i1 %r8 to i8
  store i8 %r9, ptr %r4, align 1
  call void @"pie_rate::raw::RawRate::cleared"(ptr %r5)
  %r10 = getelementptr i8, ptr %r3, i64 16
  %r11 = load i64, ptr %r10, align 8, !noundef !0
  call void @"pie_control::raw::RawControl::opened"(ptr %r6, i64 %r11, i64 %a4)
  %r12 = load i8, ptr %r4, align 1, !range !1, !noundef !0
  %r13 = trunc i8 %r12 to i1
  call void @llvm.memmove.p0.p0.i64(ptr %r0, ptr %r1, i64 1, i1 false)
  %r14 = getelementptr i8, ptr %r0, i64 1
  call void @llvm.memmove.p0.p0.i64(ptr %r14, ptr %r2, i64 5, i1 false)
  %r15 = getelementptr i8, ptr %r0, i64 8
  call void @llvm.memmove.p0.p0.i64(ptr %r15, ptr %r3, i64 72, i1 false)
  %r16 = getelementptr i8, ptr %r0, i64 80
  store i64 %a4, ptr %r16, align 8
  %r17 = getelementptr i8, ptr %r0, i64 88
  %r18 = zext i1 %r13 to i8
  store i8 %r18, ptr %r17, align 1
  %r19 = getelementptr i8, ptr %r0, i64 96
  call void @llvm.memmove.p0.p0.i64(ptr %r19, ptr %r5, i64 8, i1 false)
  %r20 = getelementptr i8, ptr %r19, i64 8
  %r21 = getelementptr i8, ptr %r5, i64 8
  %r22 = load i8, ptr %r21, align 1
  %r23 = zext i8 %r22 to i64
  store i64 %r23, ptr %r20, align 1
  %r24 = getelementptr i8, ptr %r19, i64 16
  %r25 = getelementptr i8, ptr %r5, i64 16
  call void @llvm.memmove.p0.p0.i64(ptr %r24, ptr %r25, i64 16, i1 false)
  %r26 = getelementptr i8, ptr %r0, i64 128
  store i64 0, ptr %r26, align 8
  %r27 = getelementptr i8, ptr %r0, i64 136
  call void @llvm.memmove.p0.p0.i64(ptr %r27, ptr %r6, i64 32, i1 false)
  %r28 = getelementptr i8, ptr %r0, i64 168
  store i64 0, ptr %r28, align 8
  call void @llvm.memmove.p0.p0.i64(ptr %a0, ptr %r0, i64 176, i1 false)
  ret void
}

define internal void @"pie_aqm::raw::RawController::reset"(ptr noundef %a0, i64 noundef %a1) #1 {
start:
  %r0 = alloca ptr, align 8
  %r1 = alloca ptr, align 8
  store ptr %a0, ptr %r0, align 8
  %r2 = load ptr, ptr %r0, align 8, !noundef !0
  call void @"pie_aqm::raw::RawController::advance_to"(ptr %r2, i64 %a1)
  store ptr %a0, ptr %r1, align 8
  %r3 = load ptr, ptr %r1, align 8, !noundef !0
  call void @"pie_aqm::raw::RawController::start_anew"(ptr %r3)
  ret void
}

define internal void @"pie_aqm::raw::RawController::set_params"(ptr noundef %a0, ptr noundef %a1, i64 noundef %a2) #1 {
start:
  %r0 = alloca [72 x i8], align 8
  call void @llvm.memset.p0.i64(ptr %r0, i8 0, i64 72, i1 false)
  call void @llvm.memmove.p0.p0.i64(ptr %r0, ptr %a1, i64 72, i1 false)
  %r1 = alloca ptr, align 8
  %r2 = alloca [32 x i8], align 8
  call void @llvm.memset.p0.i64(ptr %r2, i8 0, i64 32, i1 false)
  store ptr %a0, ptr %r1, align 8
  %r3 = load ptr, ptr %r1, align 8, !noundef !0
  call void @"pie_aqm::raw::RawController::advance_to"(ptr %r3, i64 %a2)
  %r4 = getelementptr i8, ptr %a0, i64 8
  call void @llvm.memmove.p0.p0.i64(ptr %r4, ptr %r0, i64 72, i1 false)
  call void @"pie_rate::raw::RawRate::cleared"(ptr %r2)
  %r5 = getelementptr i8, ptr %a0, i64 96
  call void @llvm.memmove.p0.p0.i64(ptr %r5, ptr %r2, i64 8, i1 false)
  %r6 = getelementptr i8, ptr %r5, i64 8
  %r7 = getelementptr i8, ptr %r2, i64 8
  %r8 = load i8, ptr %r7, align 1
  %r9 = zext i8 %r8 to i64
  store i64 %r9, ptr %r6, align 1
  %r10 = getelementptr i8, ptr %r5, i64 16
  %r11 = getelementptr i8, ptr %r2, i64 16
  call void @llvm.memmove.p0.p0.i64(ptr %r10, ptr %r11, i64 16, i1 false)
  ret void
}

define internal void @"pie_aqm::raw::RawController::start_anew"(ptr noundef %a0) #1 {
start:
  %r0 = alloca [32 x i8], align 8
  %r1 = alloca ptr, align 8
  %r2 = alloca i64, align 8
  call void @llvm.memset.p0.i64(ptr %r0, i8 0, i64 32, i1 false)
  call void @"pie_rate::raw::RawRate::cleared"(ptr %r0)
  %r3 = getelementptr i8, ptr %a0, i64 96
  call void @llvm.memmove.p0.p0.i64(ptr %r3, ptr %r0, i64 8, i1 false)
  %r4 = getelementptr i8, ptr %r3, i64 8
  %r5 = getelementptr i8, ptr %r0, i64 8
  %r6 = load i8, ptr %r5, align 1
  %r7 = zext i8 %r6 to i64
  store i64 %r7, ptr %r4, align 1
  %r8 = getelementptr i8, ptr %r3, i64 16
  %r9 = getelementptr i8, ptr %r0, i64 16
  call void @llvm.memmove.p0.p0.i64(ptr %r8, ptr %r9, i64 16, i1 false)
  %r10 = getelementptr i8, ptr %a0, i64 128
  store i64 0, ptr %r10, align 8
  %r11 = getelementptr i8, ptr %a0, i64 136
  store ptr %r11, ptr %r1, align 8
  %r12 = getelementptr i8, ptr %a0, i64 8
  %r13 = getelementptr i8, ptr %r12, i64 16
  %r14 = load i64, ptr %r13, align 8, !noundef !0
  store i64 %r14, ptr %r2, align 8
  %r15 = load ptr, ptr %r1, align 8, !noundef !0
  %r16 = load i64, ptr %r2, align 8, !noundef !0
  call void @"pie_control::raw::RawControl::reset"(ptr %r15, i64 %r16)
  %r17 = getelementptr i8, ptr %a0, i64 168
  store i64 0, ptr %r17, align 8
  ret void
}

define internal noundef i64 @"pie_aqm::raw::RawController::threshold"(ptr noundef %a0) #1 {
start:
  %r0 = alloca i64, align 8
  %r1 = alloca i64, align 8
  %r2 = getelementptr i8, ptr %a0, i64 8
  %r3 = getelementptr i8, ptr %r2, i64 64
  %r4 = load i64, ptr %r3, align 8, !noundef !0
  store i64 %r4, ptr %r1, align 8
  %r5 = load i64, ptr %r1, align 8, !noundef !0
  %r6 = call i64 @"core::int::u64::min"(i64 %r5, i64 65536)
  store i64 %r6, ptr %r0, align 8
  %r7 = load i64, ptr %r0, align 8, !noundef !0
  ret i64 %r7
}

define internal noundef i64 @"pie_aqm::raw::RawController::update"(ptr noundef %a0, i64 noundef %a1, i64 noundef %a2) #1 {
start:
  %r0 = alloca i64, align 8
  %r1 = alloca i64, align 8
  %r2 = alloca i8, align 1
  %r3 = alloca ptr, align 8
  %r4 = alloca i8, align 1
  %r5 = alloca i8, align 1
  %r6 = alloca ptr, align 8
  %r7 = alloca i64, align 8
  %r8 = alloca ptr, align 8
  %r9 = alloca ptr, align 8
  %r10 = alloca ptr, align 8
  %r11 = alloca [5 x i8], align 1
  %r12 = alloca i64, align 8
  %r13 = alloca i8, align 1
  call void @llvm.memset.p0.i64(ptr %r11, i8 0, i64 5, i1 false)
  store ptr %a0, ptr %r3, align 8
  %r14 = load ptr, ptr %r3, align 8, !noundef !0
  call void @"pie_aqm::raw::RawController::advance_to"(ptr %r14, i64 %a2)
  %r15 = getelementptr i8, ptr %a0, i64 88
  %r16 = load i8, ptr %r15, align 1, !range !1, !noundef !0
  %r17 = trunc i8 %r16 to i1
  %r18 = zext i1 %r17 to i8
  store i8 %r18, ptr %r4, align 1
  %r19 = load i8, ptr %r4, align 1, !range !1, !noundef !0
  %r20 = trunc i8 %r19 to i1
  %r21 = xor i1 %r20, true
  %r22 = zext i1 %r21 to i8
  store i8 %r22, ptr %r5, align 1
  %r23 = load i8, ptr %r5, align 1, !range !1, !noundef !0
  %r24 = trunc i8 %r23 to i1
  br i1 %r24, label %then.1, label %else.2

then.1:                                           ; preds = %start
  %r25 = getelementptr i8, ptr %a0, i64 136
  store ptr %r25, ptr %r6, align 8
  %r26 = getelementptr i8, ptr %a0, i64 80
  %r27 = load i64, ptr %r26, align 8, !noundef !0
  store i64 %r27, ptr %r7, align 8
  %r28 = load ptr, ptr %r6, align 8, !noundef !0
  %r29 = load i64, ptr %r7, align 8, !noundef !0
  call void @"pie_control::raw::RawControl::idle"(ptr %r28, i64 %r29)
  store i64 0, ptr %r0, align 8
  %r30 = load i64, ptr %r0, align 8, !noundef !0
  ret i64 %r30

else.2:                                           ; preds = %start
  br label %join.3

join.3:                                           ; preds = %else.2
  store ptr %a0, ptr %r8, align 8
  %r31 = load ptr, ptr %r8, align 8, !noundef !0
  %r32 = call i64 @"pie_aqm::raw::RawController::delay"(ptr %r31, i64 %a1)
  store i64 %r32, ptr %r1, align 8
  %r33 = getelementptr i8, ptr %a0, i64 136
  store ptr %r33, ptr %r9, align 8
  %r34 = getelementptr i8, ptr %a0, i64 8
  store ptr %r34, ptr %r10, align 8
  %r35 = getelementptr i8, ptr %a0, i64 1
  call void @llvm.memmove.p0.p0.i64(ptr %r11, ptr %r35, i64 5, i1 false)
  %r36 = getelementptr i8, ptr %a0, i64 80
  %r37 = load i64, ptr %r36, align 8, !noundef !0
  store i64 %r37, ptr %r12, align 8
  %r38 = load ptr, ptr %r9, align 8, !noundef !0
  %r39 = load ptr, ptr %r10, align 8, !noundef !0
  %r40 = load i64, ptr %r1, align 8, !noundef !0
  %r41 = load i64, ptr %r12, align 8, !noundef !0
  %r42 = call i1 @"pie_control::raw::RawControl::update"(ptr %r38, ptr %r39, ptr %r11, i64 %r40, i64 %r41)
  %r43 = zext i1 %r42 to i8
  store i8 %r43, ptr %r2, align 1
  %r44 = load i8, ptr %a0, align 1, !noundef !0
  switch i8 %r44, label %noarm.6 [
    i8 0, label %arm.4
    i8 1, label %arm.5
  ]

arm.4:                                            ; preds = %join.3
  %r45 = zext i1 true to i8
  store i8 %r45, ptr %r13, align 1
  br label %join.7

arm.5:                                            ; preds = %join.3
  %r46 = load i8, ptr %r2, align 1, !range !1, !noundef !0
  %r47 = trunc i8 %r46 to i1
  %r48 = xor i1 %r47, true
  %r49 = zext i1 %r48 to i8
  store i8 %r49, ptr %r13, align 1
  br label %join.7

join.7:                                           ; preds = %arm.5, %arm.4
  %r50 = load i8, ptr %r13, align 1, !range !1, !noundef !0
  %r51 = trunc i8 %r50 to i1
  %r52 = getelementptr i8, ptr %a0, i64 88
  %r53 = zext i1 %r51 to i8
  store i8 %r53, ptr %r52, align 1
  %r54 = load i64, ptr %r1, align 8, !noundef !0
  store i64 %r54, ptr %r0, align 8
  %r55 = load i64, ptr %r0, align 8, !noundef !0
  ret i64 %r55

noarm.6:                                          ; preds = %join.3
  unreachable
}

define internal noundef zeroext i1 @"pie_aqm::raw::opens_active"(i8 noundef %a0) #0 {
start:
  %r0 = alloca i8, align 1
  %r1 = alloca [1 x i8], align 1
  call void @llvm.memset.p0.i64(ptr %r1, i8 0, i64 1, i1 false)
  store i8 %a0, ptr %r1, align 1
  %r2 = alloca i8, align 1
  %r3 = load i8, ptr %r1, align 1, !noundef !0
  switch i8 %r3, label %noarm.3 [
    i8 0, label %arm.1
    i8 1, label %arm.2
  ]

arm.1:                                            ; preds = %start
  %r4 = zext i1 true to i8
  store i8 %r4, ptr %r2, align 1
  br label %join.4

arm.2:                                            ; preds = %start
  %r5 = zext i1 false to i8
  store i8 %r5, ptr %r2, align 1
  br label %join.4

join.4:                                           ; preds = %arm.2, %arm.1
  %r6 = load i8, ptr %r2, align 1, !range !1, !noundef !0
  %r7 = trunc i8 %r6 to i1
  %r8 = zext i1 %r7 to i8
  store i8 %r8, ptr %r0, align 1
  %r9 = load i8, ptr %r0, align 1, !range !1, !noundef !0
  %r10 = trunc i8 %r9 to i1
  ret i1 %r10

noarm.3:                                          ; preds = %start
  unreachable
}

define internal noundef i64 @"pie_aqm::raw::wait"(i64 noundef %a0, i64 noundef %a1, i64 noundef %a2) #2 {
start:
  %r0 = alloca i64, align 8
  %r1 = alloca i8, align 1
  %r2 = alloca i64, align 8
  %r3 = alloca i64, align 8
  %r4 = icmp eq i64 %a0, 0
  %r5 = zext i1 %r4 to i8
  store i8 %r5, ptr %r1, align 1
  %r6 = load i8, ptr %r1, align 1, !range !1, !noundef !0
  %r7 = trunc i8 %r6 to i1
  br i1 %r7, label %then.1, label %else.2

then.1:                                           ; preds = %start
  store i64 0, ptr %r2, align 8
  br label %join.3

else.2:                                           ; preds = %start
  %r8 = call i64 @"core::int::u64::saturating_sub"(i64 %a2, i64 %a1)
  store i64 %r8, ptr %r3, align 8
  %r9 = load i64, ptr %r3, align 8, !noundef !0
  %r10 = call i64 @"core::int::u64::min"(i64 %r9, i64 1099511627776)
  store i64 %r10, ptr %r2, align 8
  br label %join.3

join.3:                                           ; preds = %else.2, %then.1
  %r11 = load i64, ptr %r2, align 8, !noundef !0
  store i64 %r11, ptr %r0, align 8
  %r12 = load i64, ptr %r0, align 8, !noundef !0
  ret i64 %r12
}

define internal void @"pie_aqm::verdict::ArrivingPacket::offered"(ptr noundef %a0, ptr noundef %a1) #1 {
start:
  %r0 = alloca [24 x i8], align 8
  %r1 = alloca [32 x i8], align 8
  call void @llvm.memset.p0.i64(ptr %r1, i8 0, i64 32, i1 false)
  call void @llvm.memmove.p0.p0.i64(ptr %r1, ptr %a1, i64 32, i1 false)
  %r2 = alloca [1 x i8], align 1
  call void @llvm.memset.p0.i64(ptr %r0, i8 0, i64 24, i1 false)
  call void @llvm.memset.p0.i64(ptr %r2, i8 0, i64 1, i1 false)
  %r3 = getelementptr i8, ptr %r1, i64 16
  call void @llvm.memmove.p0.p0.i64(ptr %r2, ptr %r3, i64 1, i1 false)
  %r4 = load i64, ptr %r1, align 8, !noundef !0
  %r5 = getelementptr i8, ptr %r1, i64 12
  %r6 = load i32, ptr %r5, align 4, !noundef !0
  %r7 = getelementptr i8, ptr %r1, i64 24
  %r8 = load i64, ptr %r7, align 8, !noundef !0
  store i64 %r4, ptr %r0, align 8
  %r9 = getelementptr i8, ptr %r0, i64 8
  store i32 %r6, ptr %r9, align 4
  %r10 = getelementptr i8, ptr %r0, i64 12
  call void @llvm.memmove.p0.p0.i64(ptr %r10, ptr %r2, i64 1, i1 false)
  %r11 = getelementptr i8, ptr %r0, i64 16
  store i64 %r8, ptr %r11, align 8
  call void @llvm.memmove.p0.p0.i64(ptr %a0, ptr %r0, i64 24, i1 false)
  ret void
}

define internal noundef zeroext i1 @"pie_aqm::verdict::activates"(i1 noundef zeroext %a0, i64 noundef %a1, i8 noundef %a2, ptr noundef %a3) #1 {
start:
  %r0 = alloca i8, align 1
  %r1 = alloca [1 x i8], align 1
  call void @llvm.memset.p0.i64(ptr %r1, i8 0, i64 1, i1 false)
  store i8 %a2, ptr %r1, align 1
  %r2 = alloca [32 x i8], align 8
  call void @llvm.memset.p0.i64(ptr %r2, i8 0, i64 32, i1 false)
  call void @llvm.memmove.p0.p0.i64(ptr %r2, ptr %a3, i64 32, i1 false)
  %r3 = alloca i64, align 8
  %r4 = alloca i8, align 1
  %r5 = alloca i64, align 8
  %r6 = alloca i8, align 1
  %r7 = alloca i64, align 8
  %r8 = alloca i64, align 8
  %r9 = load i8, ptr %r1, align 1, !noundef !0
  %r10 = call i1 @"pie_event::command::Verdict::is_queued"(i8 %r9)
  %r11 = zext i1 %r10 to i8
  store i8 %r11, ptr %r4, align 1
  %r12 = load i8, ptr %r4, align 1, !range !1, !noundef !0
  %r13 = trunc i8 %r12 to i1
  br i1 %r13, label %then.1, label %else.2

then.1:                                           ; preds = %start
  %r14 = getelementptr i8, ptr %r2, i64 12
  %r15 = load i32, ptr %r14, align 4, !noundef !0
  %r16 = call i64 @"core::convert::U64FromU32::from"(i32 %r15)
  store i64 %r16, ptr %r5, align 8
  br label %join.3

else.2:                                           ; preds = %start
  store i64 0, ptr %r5, align 8
  br label %join.3

join.3:                                           ; preds = %else.2, %then.1
  %r17 = load i64, ptr %r5, align 8, !noundef !0
  store i64 %r17, ptr %r3, align 8
  %r18 = xor i1 %a0, true
  %r19 = zext i1 %r18 to i8
  store i8 %r19, ptr %r6, align 1
  %r20 = load i8, ptr %r6, align 1, !range !1, !noundef !0
  %r21 = trunc i8 %r20 to i1
  br i1 %r21, label %then.4, label %else.5

then.4:                                           ; preds = %join.3
  %r22 = load i64, ptr %r2, align 8, !noundef !0
  %r23 = load i64, ptr %r3, align 8, !noundef !0
  %r24 = add i64 %r22, %r23
  store i64 %r24, ptr %r7, align 8
  %r25 = load i64, ptr %r7, align 8, !noundef !0
  %r26 = mul i64 3, %r25
  store i64 %r26, ptr %r8, align 8
  %r27 = load i64, ptr %r8, align 8, !noundef !0
  %r28 = icmp ule i64 %a1, %r27
  %r29 = zext i1 %r28 to i8
  store i8 %r29, ptr %r6, align 1
  br label %join.6

else.5:                                           ; preds = %join.3
  br label %join.6

join.6:                                           ; preds = %else.5, %then.4
  %r30 = load i8, ptr %r6, align 1, !range !1, !noundef !0
  %r31 = trunc i8 %r30 to i1
  %r32 = zext i1 %r31 to i8
  store i8 %r32, ptr %r0, align 1
  %r33 = load i8, ptr %r0, align 1, !range !1, !noundef !0
  %r34 = trunc i8 %r33 to i1
  ret i1 %r34
}

define noundef i32 @pie_arrive_event(ptr noundef %a0, i64 noundef %a1, i32 noundef %a2, ptr noundef %a3) #0 {
start:
  %r0 = call i32 @"pie_c::writing::pie_arrive_event"(ptr %a0, i64 %a1, i32 %a2, ptr %a3)
  ret i32 %r0
}

define internal void @"pie_c::calls::arrive"(ptr noundef %a0, ptr noundef %a1, ptr noundef %a2, i64 noundef %a3, i32 noundef %a4, i32 noundef %a5, i32 noundef %a6, i64 noundef %a7, i64 noundef %a8) #1 {
start:
  %r0 = alloca [8 x i8], align 4
  %r1 = alloca [5 x i8], align 1
  call void @llvm.memset.p0.i64(ptr %r1, i8 0, i64 5, i1 false)
  call void @llvm.memmove.p0.p0.i64(ptr %r1, ptr %a2, i64 5, i1 false)
  %r2 = alloca [1 x i8], align 1
  %r3 = alloca [32 x i8], align 8
  %r4 = alloca [176 x i8], align 8
  %r5 = alloca [1 x i8], align 1
  %r6 = alloca [1 x i8], align 1
  %r7 = alloca i8, align 1
  %r8 = alloca [2 x i8], align 1
  %r9 = alloca i8, align 1
  %r10 = alloca [2 x i8], align 1
  %r11 = alloca [2 x i8], align 1
  %r12 = alloca [2 x i8], align 1
  %r13 = alloca [2 x i8], align 1
  %r14 = alloca ptr, align 8
  %r15 = alloca [176 x i8], align 8
  %r16 = alloca ptr, align 8
  %r17 = alloca [2 x i8], align 1
  %r18 = alloca ptr, align 8
  %r19 = alloca i64, align 8
  %r20 = alloca ptr, align 8
  %r21 = alloca ptr, align 8
  %r22 = alloca i32, align 4
  %r23 = alloca [2 x i8], align 1
  call void @llvm.memset.p0.i64(ptr %r0, i8 0, i64 8, i1 false)
  call void @llvm.memset.p0.i64(ptr %r2, i8 0, i64 1, i1 false)
  call void @llvm.memset.p0.i64(ptr %r3, i8 0, i64 32, i1 false)
  call void @llvm.memset.p0.i64(ptr %r4, i8 0, i64 176, i1 false)
  call void @llvm.memset.p0.i64(ptr %r5, i8 0, i64 1, i1 false)
  call void @llvm.memset.p0.i64(ptr %r6, i8 0, i64 1, i1 false)
  call void @llvm.memset.p0.i64(ptr %r8, i8 0, i64 2, i1 false)
  call void @llvm.memset.p0.i64(ptr %r10, i8 0, i64 2, i1 false)
  call void @llvm.memset.p0.i64(ptr %r11, i8 0, i64 2, i1 false)
  call void @llvm.memset.p0.i64(ptr %r12, i8 0, i64 2, i1 false)
  call void @llvm.memset.p0.i64(ptr %r13, i8 0, i64 2, i1 false)
  call void @llvm.memset.p0.i64(ptr %r15, i8 0, i64 176, i1 false)
  call void @llvm.memset.p0.i64(ptr %r17, i8 0, i64 2, i1 false)
  call void @llvm.memset.p0.i64(ptr %r23, i8 0, i64 2, i1 false)
  %r24 = icmp ult i64 1152921504606846975, %a8
  %r25 = zext i1 %r24 to i8
  store i8 %r25, ptr %r7, align 1
  %r26 = load i8, ptr %r7, align 1, !range !1, !noundef !0
  %r27 = trunc i8 %r26 to i1
  br i1 %r27, label %then.1, label %else.2

then.1:                                           ; preds = %start
  store i8 0, ptr %r8, align 1
  store i32 101, ptr %r0, align 4
  %r28 = getelementptr i8, ptr %r0, i64 4
  call void @llvm.memmove.p0.p0.i64(ptr %r28, ptr %r8, i64 1, i1 false)
  %r29 = getelementptr i8, ptr %r28, i64 1
  %r30 = getelementptr i8, ptr %r8, i64 1
  call void @llvm.memmove.p0.p0.i64(ptr %r29, ptr %r30, i64 1, i1 false)
  call void @llvm.memmove.p0.p0.i64(ptr %a0, ptr %r0, i64 4, i1 false)
  %r31 = getelementptr i8, ptr %a0, i64 4
  %r32 = getelementptr i8, ptr %r0, i64 4
  call void @llvm.memmove.p0.p0.i64(ptr %r31, ptr %r32, i64 1, i1 false)
  %r33 = getelementptr i8, ptr %a0, i64 5
  %r34 = getelementptr i8, ptr %r0, i64 5
  call void @llvm.memmove.p0.p0.i64(ptr %r33, ptr %r34, i64 1, i1 false)
  ret void

else.2:                                           ; preds = %start
  br label %join.3

join.3:                                           ; preds = %else.2
  %r35 = call i1 @"pie_abi::packet::is_bad_size"(i32 %a4)
  %r36 = zext i1 %r35 to i8
  store i8 %r36, ptr %r9, align 1
  %r37 = load i8, ptr %r9, align 1, !range !1, !noundef !0
  %r38 = trunc i8 %r37 to i1
  br i1 %r38, label %then.4, label %else.5

then.4:                                           ; preds = %join.3
  store i8 0, ptr %r10, align 1
  store i32 102, ptr %r0, align 4
  %r39 = getelementptr i8, ptr %r0, i64 4
  call void @llvm.memmove.p0.p0.i64(ptr %r39, ptr %r10, i64 1, i1 false)
  %r40 = getelementptr i8, ptr %r39, i64 1
  %r41 = getelementptr i8, ptr %r10, i64 1
  call void @llvm.memmove.p0.p0.i64(ptr %r40, ptr %r41, i64 1, i1 false)
  call void @llvm.memmove.p0.p0.i64(ptr %a0, ptr %r0, i64 4, i1 false)
  %r42 = getelementptr i8, ptr %a0, i64 4
  %r43 = getelementptr i8, ptr %r0, i64 4
  call void @llvm.memmove.p0.p0.i64(ptr %r42, ptr %r43, i64 1, i1 false)
  %r44 = getelementptr i8, ptr %a0, i64 5
  %r45 = getelementptr i8, ptr %r0, i64 5
  call void @llvm.memmove.p0.p0.i64(ptr %r44, ptr %r45, i64 1, i1 false)
  ret void

else.5:                                           ; preds = %join.3
  br label %join.6

join.6:                                           ; preds = %else.5
  %r46 = call { i8, i8 } @"pie_abi::packet::ecn"(i32 %a6)
  %r47 = extractvalue { i8, i8 } %r46, 0
  %r48 = extractvalue { i8, i8 } %r46, 1
  store i8 %r47, ptr %r11, align 1
  %r49 = getelementptr i8, ptr %r11, i64 1
  store i8 %r48, ptr %r49, align 1
  %r50 = load i8, ptr %r11, align 1, !noundef !0
  switch i8 %r50, label %noarm.9 [
    i8 1, label %arm.7
    i8 0, label %arm.8
  ]

arm.7:                                            ; preds = %join.6
  %r51 = getelementptr i8, ptr %r11, i64 1
  call void @llvm.memmove.p0.p0.i64(ptr %r2, ptr %r51, i64 1, i1 false)
  br label %join.10

arm.8:                                            ; preds = %join.6
  store i8 0, ptr %r12, align 1
  store i32 111, ptr %r0, align 4
  %r52 = getelementptr i8, ptr %r0, i64 4
  call void @llvm.memmove.p0.p0.i64(ptr %r52, ptr %r12, i64 1, i1 false)
  %r53 = getelementptr i8, ptr %r52, i64 1
  %r54 = getelementptr i8, ptr %r12, i64 1
  call void @llvm.memmove.p0.p0.i64(ptr %r53, ptr %r54, i64 1, i1 false)
  call void @llvm.memmove.p0.p0.i64(ptr %a0, ptr %r0, i64 4, i1 false)
  %r55 = getelementptr i8, ptr %a0, i64 4
  %r56 = getelementptr i8, ptr %r0, i64 4
  call void @llvm.memmove.p0.p0.i64(ptr %r55, ptr %r56, i64 1, i1 false)
  %r57 = getelementptr i8, ptr %a0, i64 5
  %r58 = getelementptr i8, ptr %r0, i64 5
  call void @llvm.memmove.p0.p0.i64(ptr %r57, ptr %r58, i64 1, i1 false)
  ret void

join.10:                                          ; preds = %arm.7
  %r59 = icmp ult i64 1073741824, %a3
  %r60 = zext i1 %r59 to i8
  store i8 %r60, ptr %r7, align 1
  %r61 = load i8, ptr %r7, align 1, !range !1, !noundef !0
  %r62 = trunc i8 %r61 to i1
  br i1 %r62, label %then.11, label %else.12

then.11:                                          ; preds = %join.10
  store i8 0, ptr %r13, align 1
  store i32 112, ptr %r0, align 4
  %r63 = getelementptr i8, ptr %r0, i64 4
  call void @llvm.memmove.p0.p0.i64(ptr %r63, ptr %r13, i64 1, i1 false)
  %r64 = getelementptr i8, ptr %r63, i64 1
  %r65 = getelementptr i8, ptr %r13, i64 1
  call void @llvm.memmove.p0.p0.i64(ptr %r64, ptr %r65, i64 1, i1 false)
  call void @llvm.memmove.p0.p0.i64(ptr %a0, ptr %r0, i64 4, i1 false)
  %r66 = getelementptr i8, ptr %a0, i64 4
  %r67 = getelementptr i8, ptr %r0, i64 4
  call void @llvm.memmove.p0.p0.i64(ptr %r66, ptr %r67, i64 1, i1 false)
  %r68 = getelementptr i8, ptr %a0, i64 5
  %r69 = getelementptr i8, ptr %r0, i64 5
  call void @llvm.memmove.p0.p0.i64(ptr %r68, ptr %r69, i64 1, i1 false)
  ret void

else.12:                                          ; preds = %join.10
  br label %join.13

join.13:                                          ; preds = %else.12
  %r70 = icmp eq i32 %a5, 0
  %r71 = zext i1 %r70 to i8
  store i8 %r71, ptr %r7, align 1
  %r72 = load i8, ptr %r7, align 1, !range !1, !noundef !0
  %r73 = trunc i8 %r72 to i1
  store i64 %a3, ptr %r3, align 8
  %r74 = getelementptr i8, ptr %r3, i64 8
  %r75 = zext i1 %r73 to i8
  store i8 %r75, ptr %r74, align 1
  %r76 = getelementptr i8, ptr %r3, i64 12
  store i32 %a4, ptr %r76, align 4
  %r77 = getelementptr i8, ptr %r3, i64 16
  call void @llvm.memmove.p0.p0.i64(ptr %r77, ptr %r2, i64 1, i1 false)
  %r78 = getelementptr i8, ptr %r3, i64 24
  store i64 %a7, ptr %r78, align 8
  store ptr %a1, ptr %r14, align 8
  %r79 = load ptr, ptr %r14, align 8, !noundef !0
  call void @"pie_c::state::PieState::reach"(ptr %r79, i64 %a8)
  store ptr %a1, ptr %r16, align 8
  %r80 = load ptr, ptr %r16, align 8, !noundef !0
  call void @"pie_c::checked::raw_with"(ptr %r15, ptr %r80, ptr %r1)
  call void @llvm.memmove.p0.p0.i64(ptr %r4, ptr %r15, i64 176, i1 false)
  store ptr %r4, ptr %r18, align 8
  %r81 = getelementptr i8, ptr %a1, i64 72
  %r82 = load i64, ptr %r81, align 8, !noundef !0
  store i64 %r82, ptr %r19, align 8
  %r83 = load ptr, ptr %r18, align 8, !noundef !0
  %r84 = load i64, ptr %r19, align 8, !noundef !0
  %r85 = call { i8, i8 } @"pie_aqm::raw::RawController::arrive_with_name"(ptr %r83, ptr %r3, i64 %r84)
  %r86 = extractvalue { i8, i8 } %r85, 0
  %r87 = extractvalue { i8, i8 } %r85, 1
  store i8 %r86, ptr %r17, align 1
  %r88 = getelementptr i8, ptr %r17, i64 1
  store i8 %r87, ptr %r88, align 1
  call void @llvm.memmove.p0.p0.i64(ptr %r5, ptr %r17, i64 1, i1 false)
  %r89 = getelementptr i8, ptr %r17, i64 1
  call void @llvm.memmove.p0.p0.i64(ptr %r6, ptr %r89, i64 1, i1 false)
  store ptr %a1, ptr %r20, align 8
  store ptr %r4, ptr %r21, align 8
  %r90 = load ptr, ptr %r20, align 8, !noundef !0
  %r91 = load ptr, ptr %r21, align 8, !noundef !0
  call void @"pie_c::state::PieState::keep_arrived"(ptr %r90, ptr %r91)
  call void @"pie_c::law::calls_are_lawful"()
  %r92 = load i8, ptr %r5, align 1, !noundef !0
  %r93 = call i32 @"pie_abi::code::of_verdict"(i8 %r92)
  store i32 %r93, ptr %r22, align 4
  store i8 1, ptr %r23, align 1
  %r94 = getelementptr i8, ptr %r23, i64 1
  call void @llvm.memmove.p0.p0.i64(ptr %r94, ptr %r6, i64 1, i1 false)
  %r95 = load i32, ptr %r22, align 4, !noundef !0
  store i32 %r95, ptr %r0, align 4
  %r96 = getelementptr i8, ptr %r0, i64 4
  call void @llvm.memmove.p0.p0.i64(ptr %r96, ptr %r23, i64 1, i1 false)
  %r97 = getelementptr i8, ptr %r96, i64 1
  %r98 = getelementptr i8, ptr %r23, i64 1
  call void @llvm.memmove.p0.p0.i64(ptr %r97, ptr %r98, i64 1, i1 false)
  call void @llvm.memmove.p0.p0.i64(ptr %a0, ptr %r0, i64 4, i1 false)
  %r99 = getelementptr i8, ptr %a0, i64 4
  %r100 = getelementptr i8, ptr %r0, i64 4
  call void @llvm.memmove.p0.p0.i64(ptr %r99, ptr %r100, i64 1, i1 false)
  %r101 = getelementptr i8, ptr %a0, i64 5
  %r102 = getelementptr i8, ptr %r0, i64 5
  call void @llvm.memmove.p0.p0.i64(ptr %r101, ptr %r102, i64 1, i1 false)
  ret void

noarm.9:                                          ; preds = %join.6
  unreachable
}

define internal noundef i32 @"pie_c::calls::arrive_out_of_line"(ptr noundef %a0, i64 noundef %a1, i32 noundef %a2, i32 noundef %a3, i32 noundef %a4, i64 noundef %a5, i64 noundef %a6) #2 {
start:
  %r0 = alloca i32, align 4
  %r1 = alloca [5 x i8], align 1
  %r2 = alloca i64, align 8
  %r3 = alloca [8 x i8], align 4
  %r4 = alloca ptr, align 8
  call void @llvm.memset.p0.i64(ptr %r1, i8 0, i64 5, i1 false)
  call void @llvm.memset.p0.i64(ptr %r3, i8 0, i64 8, i1 false)
  %r5 = getelementptr i8, ptr %a0, i64 168
  %r6 = load i64, ptr %r5, align 8, !noundef !0
  store i64 %r6, ptr %r2, align 8
  %r7 = load i64, ptr %r2, align 8, !noundef !0
  call void @"pie_abi::choices::elements"(ptr %r1, i64 %r7)
  store ptr %a0, ptr %r4, align 8
  %r8 = load ptr, ptr %r4, align 8, !noundef !0
  call void @"pie_c::calls::arrive"(ptr %r3, ptr %r8, ptr %r1, i64 %a1, i32 %a2, i32 %a3, i32 %a4, i64 %a5, i64 %a6)
  %r9 = load i32, ptr %r3, align 4, !noundef !0
  store i32 %r9, ptr %r0, align 4
  %r10 = load i32, ptr %r0, align 4, !noundef !0
  ret i32 %r10
}

define internal noundef i32 @"pie_c::calls::depart"(ptr noundef %a0, i32 noundef %a1, i64 noundef %a2, i64 noundef %a3) #2 {
start:
  %r0 = alloca i32, align 4
  %r1 = alloca [176 x i8], align 8
  %r2 = alloca i8, align 1
  %r3 = alloca i8, align 1
  %r4 = alloca i8, align 1
  %r5 = alloca ptr, align 8
  %r6 = alloca [176 x i8], align 8
  %r7 = alloca ptr, align 8
  %r8 = alloca ptr, align 8
  %r9 = alloca ptr, align 8
  %r10 = alloca ptr, align 8
  call void @llvm.memset.p0.i64(ptr %r1, i8 0, i64 176, i1 false)
  call void @llvm.memset.p0.i64(ptr %r6, i8 0, i64 176, i1 false)
  %r11 = icmp ult i64 1152921504606846975, %a3
  %r12 = zext i1 %r11 to i8
  store i8 %r12, ptr %r2, align 1
  %r13 = load i8, ptr %r2, align 1, !range !1, !noundef !0
  %r14 = trunc i8 %r13 to i1
  br i1 %r14, label %then.1, label %else.2

then.1:                                           ; preds = %start
  store i32 101, ptr %r0, align 4
  %r15 = load i32, ptr %r0, align 4, !noundef !0
  ret i32 %r15

else.2:                                           ; preds = %start
  br label %join.3

join.3:                                           ; preds = %else.2
  %r16 = call i1 @"pie_abi::packet::is_bad_size"(i32 %a1)
  %r17 = zext i1 %r16 to i8
  store i8 %r17, ptr %r3, align 1
  %r18 = load i8, ptr %r3, align 1, !range !1, !noundef !0
  %r19 = trunc i8 %r18 to i1
  br i1 %r19, label %then.4, label %else.5

then.4:                                           ; preds = %join.3
  store i32 102, ptr %r0, align 4
  %r20 = load i32, ptr %r0, align 4, !noundef !0
  ret i32 %r20

else.5:                                           ; preds = %join.3
  br label %join.6

join.6:                                           ; preds = %else.5
  %r21 = icmp ult i64 1073741824, %a2
  %r22 = zext i1 %r21 to i8
  store i8 %r22, ptr %r2, align 1
  %r23 = load i8, ptr %r2, align 1, !range !1, !noundef !0
  %r24 = trunc i8 %r23 to i1
  br i1 %r24, label %then.7, label %else.8

then.7:                                           ; preds = %join.6
  store i32 112, ptr %r0, align 4
  %r25 = load i32, ptr %r0, align 4, !noundef !0
  ret i32 %r25

else.8:                                           ; preds = %join.6
  br label %join.9

join.9:                                           ; preds = %else.8
  store ptr %a0, ptr %r5, align 8
  %r26 = load ptr, ptr %r5, align 8, !noundef !0
  %r27 = call i1 @"pie_c::checked::takes_stamps"(ptr %r26)
  %r28 = zext i1 %r27 to i8
  store i8 %r28, ptr %r4, align 1
  %r29 = load i8, ptr %r4, align 1, !range !1, !noundef !0
  %r30 = trunc i8 %r29 to i1
  br i1 %r30, label %then.10, label %else.11

then.10:                                          ; preds = %join.9
  store i32 119, ptr %r0, align 4
  %r31 = load i32, ptr %r0, align 4, !noundef !0
  ret i32 %r31

else.11:                                          ; preds = %join.9
  br label %join.12

join.12:                                          ; preds = %else.11
  store ptr %a0, ptr %r7, align 8
  %r32 = load ptr, ptr %r7, align 8, !noundef !0
  call void @"pie_c::checked::raw"(ptr %r6, ptr %r32)
  call void @llvm.memmove.p0.p0.i64(ptr %r1, ptr %r6, i64 176, i1 false)
  store ptr %r1, ptr %r8, align 8
  %r33 = load ptr, ptr %r8, align 8, !noundef !0
  call void @"pie_aqm::raw::RawController::depart"(ptr %r33, i32 %a1, i64 %a2, i64 0, i64 %a3)
  store ptr %a0, ptr %r9, align 8
  store ptr %r1, ptr %r10, align 8
  %r34 = load ptr, ptr %r9, align 8, !noundef !0
  %r35 = load ptr, ptr %r10, align 8, !noundef !0
  call void @"pie_c::state::PieState::keep_departed"(ptr %r34, ptr %r35)
  store i32 0, ptr %r0, align 4
  %r36 = load i32, ptr %r0, align 4, !noundef !0
  ret i32 %r36
}

define internal noundef zeroext i1 @"pie_c::calls::depart_counted"(ptr noundef %a0, i32 noundef %a1, i64 noundef %a2, i64 noundef %a3) #1 {
start:
  %r0 = alloca i8, align 1
  %r1 = alloca i64, align 8
  %r2 = alloca i8, align 1
  %r3 = alloca i8, align 1
  %r4 = alloca i8, align 1
  %r5 = alloca [16 x i8], align 8
  %r6 = alloca [176 x i8], align 8
  %r7 = alloca ptr, align 8
  %r8 = alloca [176 x i8], align 8
  %r9 = alloca ptr, align 8
  %r10 = alloca ptr, align 8
  call void @llvm.memset.p0.i64(ptr %r5, i8 0, i64 16, i1 false)
  call void @llvm.memset.p0.i64(ptr %r6, i8 0, i64 176, i1 false)
  call void @llvm.memset.p0.i64(ptr %r8, i8 0, i64 176, i1 false)
  %r11 = icmp ule i64 %a2, 1073741824
  %r12 = zext i1 %r11 to i8
  store i8 %r12, ptr %r3, align 1
  %r13 = load i8, ptr %r3, align 1, !range !1, !noundef !0
  %r14 = trunc i8 %r13 to i1
  br i1 %r14, label %then.2, label %else.3

then.2:                                           ; preds = %start
  %r15 = icmp ule i64 %a3, 1152921504606846975
  %r16 = zext i1 %r15 to i8
  store i8 %r16, ptr %r3, align 1
  %r17 = load i8, ptr %r3, align 1, !range !1, !noundef !0
  %r18 = trunc i8 %r17 to i1
  %r19 = zext i1 %r18 to i8
  store i8 %r19, ptr %r2, align 1
  %r20 = load i8, ptr %r2, align 1, !range !1, !noundef !0
  %r21 = trunc i8 %r20 to i1
  br i1 %r21, label %then.5, label %else.6

then.5:                                           ; preds = %then.2
  %r22 = icmp ne i32 %a1, 0
  %r23 = zext i1 %r22 to i8
  store i8 %r23, ptr %r2, align 1
  %r24 = load i8, ptr %r2, align 1, !range !1, !noundef !0
  %r25 = trunc i8 %r24 to i1
  %r26 = zext i1 %r25 to i8
  store i8 %r26, ptr %r4, align 1
  %r27 = load i8, ptr %r4, align 1, !range !1, !noundef !0
  %r28 = trunc i8 %r27 to i1
  br i1 %r28, label %then.8, label %else.9

then.8:                                           ; preds = %then.5
  store ptr %a0, ptr %r7, align 8
  %r29 = load ptr, ptr %r7, align 8, !noundef !0
  call void @"pie_c::checked::raw"(ptr %r6, ptr %r29)
  call void @llvm.memmove.p0.p0.i64(ptr %r8, ptr %r6, i64 176, i1 false)
  store ptr %r8, ptr %r9, align 8
  %r30 = load ptr, ptr %r9, align 8, !noundef !0
  %r31 = call { i8, i64 } @"pie_aqm::raw::RawController::counted"(ptr %r30, i32 %a1)
  %r32 = extractvalue { i8, i64 } %r31, 0
  %r33 = extractvalue { i8, i64 } %r31, 1
  %r34 = zext i8 %r32 to i64
  store i64 %r34, ptr %r5, align 1
  %r35 = getelementptr i8, ptr %r5, i64 8
  store i64 %r33, ptr %r35, align 8
  %r36 = load i8, ptr %r5, align 1, !noundef !0
  switch i8 %r36, label %noarm.13 [
    i8 1, label %arm.11
    i8 0, label %arm.12
  ]

arm.11:                                           ; preds = %then.8
  %r37 = getelementptr i8, ptr %r5, i64 8
  %r38 = load i64, ptr %r37, align 8, !noundef !0
  store i64 %r38, ptr %r1, align 8
  store ptr %a0, ptr %r10, align 8
  %r39 = load ptr, ptr %r10, align 8, !noundef !0
  %r40 = load i64, ptr %r1, align 8, !noundef !0
  call void @"pie_c::state::PieState::keep_counted"(ptr %r39, i64 %r40, i64 %a3)
  %r41 = zext i1 true to i8
  store i8 %r41, ptr %r0, align 1
  %r42 = load i8, ptr %r0, align 1, !range !1, !noundef !0
  %r43 = trunc i8 %r42 to i1
  ret i1 %r43

arm.12:                                           ; preds = %then.8
  br label %join.14

join.14:                                          ; preds = %arm.12
  br label %after.1

else.9:                                           ; preds = %then.5
  br label %join.10

join.10:                                          ; preds = %else.9
  br label %join.7

else.6:                                           ; preds = %then.2
  br label %join.7

join.7:                                           ; preds = %else.6, %join.10
  br label %join.4

else.3:                                           ; preds = %start
  br label %join.4

join.4:                                           ; preds = %else.3, %join.7
  br label %after.15

after.15:                                         ; preds = %join.4
  br label %after.1

after.1:                                          ; preds = %after.15, %join.14
  %r44 = zext i1 false to i8
  store i8 %r44, ptr %r0, align 1
  %r45 = load i8, ptr %r0, align 1, !range !1, !noundef !0
  %r46 = trunc i8 %r45 to i1
  ret i1 %r46

noarm.13:                                         ; preds = %then.8
  unreachable
}

define internal noundef i32 @"pie_c::calls::depart_otherwise"(ptr noundef %a0, i64 noundef %a1, i32 noundef %a2, i64 noundef %a3) #2 {
start:
  %r0 = alloca i32, align 4
  %r1 = alloca i8, align 1
  %r2 = alloca ptr, align 8
  %r3 = alloca ptr, align 8
  store ptr %a0, ptr %r2, align 8
  %r4 = load ptr, ptr %r2, align 8, !noundef !0
  %r5 = call i1 @"pie_c::calls::depart_unmeasured"(ptr %r4, i32 %a2, i64 %a3, i64 %a1)
  %r6 = zext i1 %r5 to i8
  store i8 %r6, ptr %r1, align 1
  %r7 = load i8, ptr %r1, align 1, !range !1, !noundef !0
  %r8 = trunc i8 %r7 to i1
  br i1 %r8, label %then.1, label %else.2

then.1:                                           ; preds = %start
  store i32 0, ptr %r0, align 4
  %r9 = load i32, ptr %r0, align 4, !noundef !0
  ret i32 %r9

else.2:                                           ; preds = %start
  br label %join.3

join.3:                                           ; preds = %else.2
  store ptr %a0, ptr %r3, align 8
  %r10 = load ptr, ptr %r3, align 8, !noundef !0
  %r11 = call i32 @"pie_c::calls::depart"(ptr %r10, i32 %a2, i64 %a3, i64 %a1)
  store i32 %r11, ptr %r0, align 4
  %r12 = load i32, ptr %r0, align 4, !noundef !0
  ret i32 %r12
}

define internal noundef i32 @"pie_c::calls::depart_stamped"(ptr noundef %a0, i32 noundef %a1, i64 noundef %a2, i64 noundef %a3, i64 noundef %a4) #1 {
start:
  %r0 = alloca i32, align 4
  %r1 = alloca [176 x i8], align 8
  %r2 = alloca i8, align 1
  %r3 = alloca i8, align 1
  %r4 = alloca i64, align 8
  %r5 = alloca [176 x i8], align 8
  %r6 = alloca ptr, align 8
  %r7 = alloca ptr, align 8
  call void @llvm.memset.p0.i64(ptr %r1, i8 0, i64 176, i1 false)
  call void @llvm.memset.p0.i64(ptr %r5, i8 0, i64 176, i1 false)
  %r8 = icmp ult i64 1152921504606846975, %a4
  %r9 = zext i1 %r8 to i8
  store i8 %r9, ptr %r2, align 1
  %r10 = load i8, ptr %r2, align 1, !range !1, !noundef !0
  %r11 = trunc i8 %r10 to i1
  br i1 %r11, label %then.1, label %else.2

then.1:                                           ; preds = %start
  store i32 101, ptr %r0, align 4
  %r12 = load i32, ptr %r0, align 4, !noundef !0
  ret i32 %r12

else.2:                                           ; preds = %start
  br label %join.3

join.3:                                           ; preds = %else.2
  %r13 = call i1 @"pie_abi::packet::is_bad_size"(i32 %a1)
  %r14 = zext i1 %r13 to i8
  store i8 %r14, ptr %r3, align 1
  %r15 = load i8, ptr %r3, align 1, !range !1, !noundef !0
  %r16 = trunc i8 %r15 to i1
  br i1 %r16, label %then.4, label %else.5

then.4:                                           ; preds = %join.3
  store i32 102, ptr %r0, align 4
  %r17 = load i32, ptr %r0, align 4, !noundef !0
  ret i32 %r17

else.5:                                           ; preds = %join.3
  br label %join.6

join.6:                                           ; preds = %else.5
  %r18 = icmp ult i64 1073741824, %a2
  %r19 = zext i1 %r18 to i8
  store i8 %r19, ptr %r2, align 1
  %r20 = load i8, ptr %r2, align 1, !range !1, !noundef !0
  %r21 = trunc i8 %r20 to i1
  br i1 %r21, label %then.7, label %else.8

then.7:                                           ; preds = %join.6
  store i32 112, ptr %r0, align 4
  %r22 = load i32, ptr %r0, align 4, !noundef !0
  ret i32 %r22

else.8:                                           ; preds = %join.6
  br label %join.9

join.9:                                           ; preds = %else.8
  %r23 = getelementptr i8, ptr %a0, i64 72
  %r24 = load i64, ptr %r23, align 8, !noundef !0
  store i64 %r24, ptr %r4, align 8
  %r25 = load i64, ptr %r4, align 8, !noundef !0
  %r26 = icmp ult i64 %r25, %a3
  %r27 = zext i1 %r26 to i8
  store i8 %r27, ptr %r2, align 1
  %r28 = load i8, ptr %r2, align 1, !range !1, !noundef !0
  %r29 = trunc i8 %r28 to i1
  br i1 %r29, label %then.10, label %else.11

then.10:                                          ; preds = %join.9
  store i32 118, ptr %r0, align 4
  %r30 = load i32, ptr %r0, align 4, !noundef !0
  ret i32 %r30

else.11:                                          ; preds = %join.9
  br label %join.12

join.12:                                          ; preds = %else.11
  store ptr %a0, ptr %r6, align 8
  %r31 = load ptr, ptr %r6, align 8, !noundef !0
  call void @"pie_c::checked::raw"(ptr %r5, ptr %r31)
  call void @llvm.memmove.p0.p0.i64(ptr %r1, ptr %r5, i64 176, i1 false)
  store ptr %r1, ptr %r7, align 8
  %r32 = load ptr, ptr %r7, align 8, !noundef !0
  call void @"pie_aqm::raw::RawController::depart"(ptr %r32, i32 %a1, i64 %a2, i64 %a3, i64 %a4)
  %r33 = getelementptr i8, ptr %r1, i64 80
  %r34 = load i64, ptr %r33, align 8, !noundef !0
  store i64 %r34, ptr %r4, align 8
  %r35 = load i64, ptr %r4, align 8, !noundef !0
  %r36 = getelementptr i8, ptr %a0, i64 72
  store i64 %r35, ptr %r36, align 8
  %r37 = getelementptr i8, ptr %r1, i64 128
  %r38 = load i64, ptr %r37, align 8, !noundef !0
  store i64 %r38, ptr %r4, align 8
  %r39 = load i64, ptr %r4, align 8, !noundef !0
  %r40 = getelementptr i8, ptr %a0, i64 176
  store i64 %r39, ptr %r40, align 8
  store i32 0, ptr %r0, align 4
  %r41 = load i32, ptr %r0, align 4, !noundef !0
  ret i32 %r41
}

define internal noundef zeroext i1 @"pie_c::calls::depart_unmeasured"(ptr noundef %a0, i32 noundef %a1, i64 noundef %a2, i64 noundef %a3) #1 {
start:
  %r0 = alloca i8, align 1
  %r1 = alloca i8, align 1
  %r2 = alloca i8, align 1
  %r3 = alloca i8, align 1
  %r4 = alloca [176 x i8], align 8
  %r5 = alloca ptr, align 8
  %r6 = alloca [176 x i8], align 8
  %r7 = alloca ptr, align 8
  %r8 = alloca i8, align 1
  %r9 = alloca ptr, align 8
  call void @llvm.memset.p0.i64(ptr %r4, i8 0, i64 176, i1 false)
  call void @llvm.memset.p0.i64(ptr %r6, i8 0, i64 176, i1 false)
  %r10 = icmp ult i64 1152921504606846975, %a3
  %r11 = zext i1 %r10 to i8
  store i8 %r11, ptr %r2, align 1
  %r12 = load i8, ptr %r2, align 1, !range !1, !noundef !0
  %r13 = trunc i8 %r12 to i1
  br i1 %r13, label %then.3, label %else.4

then.3:                                           ; preds = %start
  br label %join.5

else.4:                                           ; preds = %start
  %r14 = call i1 @"pie_abi::packet::is_bad_size"(i32 %a1)
  %r15 = zext i1 %r14 to i8
  store i8 %r15, ptr %r2, align 1
  %r16 = load i8, ptr %r2, align 1, !range !1, !noundef !0
  %r17 = trunc i8 %r16 to i1
  %r18 = zext i1 %r17 to i8
  store i8 %r18, ptr %r1, align 1
  %r19 = load i8, ptr %r1, align 1, !range !1, !noundef !0
  %r20 = trunc i8 %r19 to i1
  br i1 %r20, label %then.6, label %else.7

then.6:                                           ; preds = %else.4
  br label %join.8

else.7:                                           ; preds = %else.4
  store ptr %a0, ptr %r5, align 8
  %r21 = load ptr, ptr %r5, align 8, !noundef !0
  call void @"pie_c::checked::raw"(ptr %r4, ptr %r21)
  call void @llvm.memmove.p0.p0.i64(ptr %r6, ptr %r4, i64 176, i1 false)
  store ptr %r6, ptr %r7, align 8
  %r22 = load ptr, ptr %r7, align 8, !noundef !0
  %r23 = call i1 @"pie_aqm::raw::RawController::is_between_cycles"(ptr %r22, i64 %a2)
  %r24 = zext i1 %r23 to i8
  store i8 %r24, ptr %r3, align 1
  %r25 = load i8, ptr %r3, align 1, !range !1, !noundef !0
  %r26 = trunc i8 %r25 to i1
  %r27 = xor i1 %r26, true
  %r28 = zext i1 %r27 to i8
  store i8 %r28, ptr %r1, align 1
  %r29 = load i8, ptr %r1, align 1, !range !1, !noundef !0
  %r30 = trunc i8 %r29 to i1
  %r31 = zext i1 %r30 to i8
  store i8 %r31, ptr %r8, align 1
  %r32 = load i8, ptr %r8, align 1, !range !1, !noundef !0
  %r33 = trunc i8 %r32 to i1
  br i1 %r33, label %then.9, label %else.10

then.9:                                           ; preds = %else.7
  br label %join.11

else.10:                                          ; preds = %else.7
  br label %after.2

join.11:                                          ; preds = %then.9
  br label %join.8

join.8:                                           ; preds = %join.11, %then.6
  br label %join.5

join.5:                                           ; preds = %join.8, %then.3
  %r34 = zext i1 false to i8
  store i8 %r34, ptr %r0, align 1
  %r35 = load i8, ptr %r0, align 1, !range !1, !noundef !0
  %r36 = trunc i8 %r35 to i1
  ret i1 %r36

after.12:                                         ; No predecessors!
  br label %after.1

after.2:                                          ; preds = %else.10
  br label %after.13

after.13:                                         ; preds = %after.2
  br label %after.1

after.1:                                          ; preds = %after.13, %after.12
  store ptr %a0, ptr %r9, align 8
  %r37 = load ptr, ptr %r9, align 8, !noundef !0
  call void @"pie_c::state::PieState::keep_unmeasured"(ptr %r37, i64 %a3)
  %r38 = zext i1 true to i8
  store i8 %r38, ptr %r0, align 1
  %r39 = load i8, ptr %r0, align 1, !range !1, !noundef !0
  %r40 = trunc i8 %r39 to i1
  ret i1 %r40
}

define internal noundef i32 @"pie_c::calls::pie_arrive"(ptr noundef %a0, i64 noundef %a1, i32 noundef %a2, i32 noundef %a3, i32 noundef %a4, i64 noundef %a5, i64 noundef %a6) #1 {
start:
  %r0 = alloca i32, align 4
  %r1 = alloca i8, align 1
  %r2 = alloca [5 x i8], align 1
  %r3 = alloca i8, align 1
  %r4 = alloca i8, align 1
  %r5 = alloca i64, align 8
  %r6 = alloca i64, align 8
  %r7 = alloca i8, align 1
  %r8 = alloca i32, align 4
  %r9 = alloca i64, align 8
  %r10 = alloca [8 x i8], align 4
  %r11 = alloca ptr, align 8
  %r12 = alloca ptr, align 8
  call void @llvm.memset.p0.i64(ptr %r2, i8 0, i64 5, i1 false)
  call void @llvm.memset.p0.i64(ptr %r10, i8 0, i64 8, i1 false)
  %r13 = icmp ne i32 %a3, 0
  %r14 = zext i1 %r13 to i8
  store i8 %r14, ptr %r4, align 1
  %r15 = load i8, ptr %r4, align 1, !range !1, !noundef !0
  %r16 = trunc i8 %r15 to i1
  br i1 %r16, label %then.1, label %else.2

then.1:                                           ; preds = %start
  %r17 = getelementptr i8, ptr %a0, i64 160
  %r18 = load i64, ptr %r17, align 8, !noundef !0
  store i64 %r18, ptr %r5, align 8
  %r19 = load i64, ptr %r5, align 8, !noundef !0
  %r20 = icmp eq i64 %r19, 1
  %r21 = zext i1 %r20 to i8
  store i8 %r21, ptr %r4, align 1
  br label %join.3

else.2:                                           ; preds = %start
  br label %join.3

join.3:                                           ; preds = %else.2, %then.1
  %r22 = load i8, ptr %r4, align 1, !range !1, !noundef !0
  %r23 = trunc i8 %r22 to i1
  %r24 = zext i1 %r23 to i8
  store i8 %r24, ptr %r3, align 1
  %r25 = load i8, ptr %r3, align 1, !range !1, !noundef !0
  %r26 = trunc i8 %r25 to i1
  br i1 %r26, label %then.4, label %else.5

then.4:                                           ; preds = %join.3
  %r27 = getelementptr i8, ptr %a0, i64 168
  %r28 = load i64, ptr %r27, align 8, !noundef !0
  store i64 %r28, ptr %r6, align 8
  %r29 = load i64, ptr %r6, align 8, !noundef !0
  %r30 = icmp ule i64 %r29, 1
  %r31 = zext i1 %r30 to i8
  store i8 %r31, ptr %r3, align 1
  br label %join.6

else.5:                                           ; preds = %join.3
  br label %join.6

join.6:                                           ; preds = %else.5, %then.4
  %r32 = load i8, ptr %r3, align 1, !range !1, !noundef !0
  %r33 = trunc i8 %r32 to i1
  %r34 = zext i1 %r33 to i8
  store i8 %r34, ptr %r1, align 1
  %r35 = load i8, ptr %r1, align 1, !range !1, !noundef !0
  %r36 = trunc i8 %r35 to i1
  %r37 = zext i1 %r36 to i8
  store i8 %r37, ptr %r7, align 1
  %r38 = load i8, ptr %r7, align 1, !range !1, !noundef !0
  %r39 = trunc i8 %r38 to i1
  br i1 %r39, label %then.7, label %else.8

then.7:                                           ; preds = %join.6
  %r40 = getelementptr i8, ptr %a0, i64 168
  %r41 = load i64, ptr %r40, align 8, !noundef !0
  store i64 %r41, ptr %r9, align 8
  %r42 = load i64, ptr %r9, align 8, !noundef !0
  call void @"pie_c::checked::usual_but_delay"(ptr %r2, i64 %r42)
  store ptr %a0, ptr %r11, align 8
  %r43 = load ptr, ptr %r11, align 8, !noundef !0
  call void @"pie_c::calls::arrive"(ptr %r10, ptr %r43, ptr %r2, i64 %a1, i32 %a2, i32 %a3, i32 %a4, i64 %a5, i64 %a6)
  %r44 = load i32, ptr %r10, align 4, !noundef !0
  store i32 %r44, ptr %r8, align 4
  br label %join.9

else.8:                                           ; preds = %join.6
  store ptr %a0, ptr %r12, align 8
  %r45 = load ptr, ptr %r12, align 8, !noundef !0
  %r46 = call i32 @"pie_c::calls::arrive_out_of_line"(ptr %r45, i64 %a1, i32 %a2, i32 %a3, i32 %a4, i64 %a5, i64 %a6)
  store i32 %r46, ptr %r8, align 4
  br label %join.9

join.9:                                           ; preds = %else.8, %then.7
  %r47 = load i32, ptr %r8, align 4, !noundef !0
  store i32 %r47, ptr %r0, align 4
  %r48 = load i32, ptr %r0, align 4, !noundef !0
  ret i32 %r48
}

define internal noundef i32 @"pie_c::calls::pie_depart"(ptr noundef %a0, i32 noundef %a1, i64 noundef %a2, i64 noundef %a3) #0 {
start:
  %r0 = alloca i32, align 4
  %r1 = alloca i8, align 1
  %r2 = alloca ptr, align 8
  %r3 = alloca ptr, align 8
  call void @"pie_c::law::calls_are_lawful"()
  store ptr %a0, ptr %r2, align 8
  %r4 = load ptr, ptr %r2, align 8, !noundef !0
  %r5 = call i1 @"pie_c::calls::depart_counted"(ptr %r4, i32 %a1, i64 %a2, i64 %a3)
  %r6 = zext i1 %r5 to i8
  store i8 %r6, ptr %r1, align 1
  %r7 = load i8, ptr %r1, align 1, !range !1, !noundef !0
  %r8 = trunc i8 %r7 to i1
  br i1 %r8, label %then.1, label %else.2

then.1:                                           ; preds = %start
  store i32 0, ptr %r0, align 4
  %r9 = load i32, ptr %r0, align 4, !noundef !0
  ret i32 %r9

else.2:                                           ; preds = %start
  br label %join.3

join.3:                                           ; preds = %else.2
  store ptr %a0, ptr %r3, align 8
  %r10 = load ptr, ptr %r3, align 8, !noundef !0
  %r11 = call i32 @"pie_c::calls::depart_otherwise"(ptr %r10, i64 %a3, i32 %a1, i64 %a2)
  store i32 %r11, ptr %r0, align 4
  %r12 = load i32, ptr %r0, align 4, !noundef !0
  ret i32 %r12
}

define internal noundef i32 @"pie_c::calls::pie_depart_waited"(ptr noundef %a0, i32 noundef %a1, i64 noundef %a2, i64 noundef %a3, i64 noundef %a4) #1 {
start:
  %r0 = alloca i32, align 4
  %r1 = alloca i8, align 1
  %r2 = alloca ptr, align 8
  %r3 = alloca i32, align 4
  %r4 = alloca ptr, align 8
  %r5 = alloca ptr, align 8
  call void @"pie_c::law::calls_are_lawful"()
  store ptr %a0, ptr %r2, align 8
  %r6 = load ptr, ptr %r2, align 8, !noundef !0
  %r7 = call i1 @"pie_c::checked::takes_stamps"(ptr %r6)
  %r8 = zext i1 %r7 to i8
  store i8 %r8, ptr %r1, align 1
  %r9 = load i8, ptr %r1, align 1, !range !1, !noundef !0
  %r10 = trunc i8 %r9 to i1
  br i1 %r10, label %then.1, label %else.2

then.1:                                           ; preds = %start
  store ptr %a0, ptr %r4, align 8
  %r11 = load ptr, ptr %r4, align 8, !noundef !0
  %r12 = call i32 @"pie_c::calls::depart_stamped"(ptr %r11, i32 %a1, i64 %a2, i64 %a3, i64 %a4)
  store i32 %r12, ptr %r3, align 4
  br label %join.3

else.2:                                           ; preds = %start
  store ptr %a0, ptr %r5, align 8
  %r13 = load ptr, ptr %r5, align 8, !noundef !0
  %r14 = call i32 @"pie_c::calls::pie_depart"(ptr %r13, i32 %a1, i64 %a2, i64 %a4)
  store i32 %r14, ptr %r3, align 4
  br label %join.3

join.3:                                           ; preds = %else.2, %then.1
  %r15 = load i32, ptr %r3, align 4, !noundef !0
  store i32 %r15, ptr %r0, align 4
  %r16 = load i32, ptr %r0, align 4, !noundef !0
  ret i32 %r16
}

define internal noundef i64 @"pie_c::calls::pie_due"(ptr noundef %a0) #0 {
start:
  %r0 = alloca i64, align 8
  %r1 = alloca i64, align 8
  %r2 = alloca i64, align 8
  %r3 = getelementptr i8, ptr %a0, i64 104
  %r4 = load i64, ptr %r3, align 8, !noundef !0
  store i64 %r4, ptr %r1, align 8
  %r5 = getelementptr i8, ptr %a0, i64 8
  %r6 = load i64, ptr %r5, align 8, !noundef !0
  store i64 %r6, ptr %r2, align 8
  %r7 = load i64, ptr %r1, align 8, !noundef !0
  %r8 = load i64, ptr %r2, align 8, !noundef !0
  %r9 = call i64 @"core::int::u64::saturating_add"(i64 %r7, i64 %r8)
  store i64 %r9, ptr %r0, align 8
  %r10 = load i64, ptr %r0, align 8, !noundef !0
  ret i64 %r10
}

define internal noundef i32 @"pie_c::calls::pie_empty"(ptr noundef %a0, i64 noundef %a1) #1 {
start:
  %r0 = alloca i32, align 4
  %r1 = alloca i8, align 1
  %r2 = alloca i64, align 8
  %r3 = alloca i64, align 8
  %r4 = icmp ult i64 1152921504606846975, %a1
  %r5 = zext i1 %r4 to i8
  store i8 %r5, ptr %r1, align 1
  %r6 = load i8, ptr %r1, align 1, !range !1, !noundef !0
  %r7 = trunc i8 %r6 to i1
  br i1 %r7, label %then.1, label %else.2

then.1:                                           ; preds = %start
  store i32 101, ptr %r0, align 4
  %r8 = load i32, ptr %r0, align 4, !noundef !0
  ret i32 %r8

else.2:                                           ; preds = %start
  br label %join.3

join.3:                                           ; preds = %else.2
  %r9 = getelementptr i8, ptr %a0, i64 72
  %r10 = load i64, ptr %r9, align 8, !noundef !0
  store i64 %r10, ptr %r3, align 8
  %r11 = load i64, ptr %r3, align 8, !noundef !0
  %r12 = call i64 @"core::int::u64::max"(i64 %r11, i64 %a1)
  store i64 %r12, ptr %r2, align 8
  %r13 = load i64, ptr %r2, align 8, !noundef !0
  %r14 = getelementptr i8, ptr %a0, i64 72
  store i64 %r13, ptr %r14, align 8
  call void @"pie_c::law::calls_are_lawful"()
  store i32 0, ptr %r0, align 4
  %r15 = load i32, ptr %r0, align 4, !noundef !0
  ret i32 %r15
}

define internal noundef i32 @"pie_c::calls::pie_reset"(ptr noundef %a0, i64 noundef %a1) #1 {
start:
  %r0 = alloca i32, align 4
  %r1 = alloca [176 x i8], align 8
  %r2 = alloca i8, align 1
  %r3 = alloca ptr, align 8
  %r4 = alloca i8, align 1
  %r5 = alloca [176 x i8], align 8
  %r6 = alloca ptr, align 8
  %r7 = alloca ptr, align 8
  %r8 = alloca ptr, align 8
  %r9 = alloca ptr, align 8
  call void @llvm.memset.p0.i64(ptr %r1, i8 0, i64 176, i1 false)
  call void @llvm.memset.p0.i64(ptr %r5, i8 0, i64 176, i1 false)
  store ptr %a0, ptr %r3, align 8
  %r10 = load ptr, ptr %r3, align 8, !noundef !0
  %r11 = call i1 @"pie_c::checked::is_sound"(ptr %r10)
  %r12 = zext i1 %r11 to i8
  store i8 %r12, ptr %r2, align 1
  %r13 = load i8, ptr %r2, align 1, !range !1, !noundef !0
  %r14 = trunc i8 %r13 to i1
  %r15 = xor i1 %r14, true
  %r16 = zext i1 %r15 to i8
  store i8 %r16, ptr %r4, align 1
  %r17 = load i8, ptr %r4, align 1, !range !1, !noundef !0
  %r18 = trunc i8 %r17 to i1
  br i1 %r18, label %then.1, label %else.2

then.1:                                           ; preds = %start
  store i32 110, ptr %r0, align 4
  %r19 = load i32, ptr %r0, align 4, !noundef !0
  ret i32 %r19

else.2:                                           ; preds = %start
  br label %join.3

join.3:                                           ; preds = %else.2
  %r20 = icmp ult i64 1152921504606846975, %a1
  %r21 = zext i1 %r20 to i8
  store i8 %r21, ptr %r2, align 1
  %r22 = load i8, ptr %r2, align 1, !range !1, !noundef !0
  %r23 = trunc i8 %r22 to i1
  br i1 %r23, label %then.4, label %else.5

then.4:                                           ; preds = %join.3
  store i32 101, ptr %r0, align 4
  %r24 = load i32, ptr %r0, align 4, !noundef !0
  ret i32 %r24

else.5:                                           ; preds = %join.3
  br label %join.6

join.6:                                           ; preds = %else.5
  store ptr %a0, ptr %r6, align 8
  %r25 = load ptr, ptr %r6, align 8, !noundef !0
  call void @"pie_c::checked::raw"(ptr %r5, ptr %r25)
  call void @llvm.memmove.p0.p0.i64(ptr %r1, ptr %r5, i64 176, i1 false)
  store ptr %r1, ptr %r7, align 8
  %r26 = load ptr, ptr %r7, align 8, !noundef !0
  call void @"pie_aqm::raw::RawController::reset"(ptr %r26, i64 %a1)
  store ptr %a0, ptr %r8, align 8
  store ptr %r1, ptr %r9, align 8
  %r27 = load ptr, ptr %r8, align 8, !noundef !0
  %r28 = load ptr, ptr %r9, align 8, !noundef !0
  call void @"pie_c::state::PieState::keep_registers"(ptr %r27, ptr %r28)
  call void @"pie_c::law::calls_are_lawful"()
  store i32 0, ptr %r0, align 4
  %r29 = load i32, ptr %r0, align 4, !noundef !0
  ret i32 %r29
}

define internal noundef i32 @"pie_c::calls::pie_set_params"(ptr noundef %a0, ptr noundef %a1, i64 noundef %a2) #1 {
start:
  %r0 = alloca i32, align 4
  %r1 = alloca [176 x i8], align 8
  %r2 = alloca i8, align 1
  %r3 = alloca ptr, align 8
  %r4 = alloca i8, align 1
  %r5 = alloca [176 x i8], align 8
  %r6 = alloca ptr, align 8
  %r7 = alloca ptr, align 8
  %r8 = alloca [72 x i8], align 8
  %r9 = alloca ptr, align 8
  %r10 = alloca ptr, align 8
  call void @llvm.memset.p0.i64(ptr %r1, i8 0, i64 176, i1 false)
  call void @llvm.memset.p0.i64(ptr %r5, i8 0, i64 176, i1 false)
  call void @llvm.memset.p0.i64(ptr %r8, i8 0, i64 72, i1 false)
  store ptr %a0, ptr %r3, align 8
  %r11 = load ptr, ptr %r3, align 8, !noundef !0
  %r12 = call i1 @"pie_c::checked::is_sound"(ptr %r11)
  %r13 = zext i1 %r12 to i8
  store i8 %r13, ptr %r2, align 1
  %r14 = load i8, ptr %r2, align 1, !range !1, !noundef !0
  %r15 = trunc i8 %r14 to i1
  %r16 = xor i1 %r15, true
  %r17 = zext i1 %r16 to i8
  store i8 %r17, ptr %r4, align 1
  %r18 = load i8, ptr %r4, align 1, !range !1, !noundef !0
  %r19 = trunc i8 %r18 to i1
  br i1 %r19, label %then.1, label %else.2

then.1:                                           ; preds = %start
  store i32 110, ptr %r0, align 4
  %r20 = load i32, ptr %r0, align 4, !noundef !0
  ret i32 %r20

else.2:                                           ; preds = %start
  br label %join.3

join.3:                                           ; preds = %else.2
  %r21 = call i1 @"pie_abi::params::are_in_range"(ptr %a1)
  %r22 = zext i1 %r21 to i8
  store i8 %r22, ptr %r2, align 1
  %r23 = load i8, ptr %r2, align 1, !range !1, !noundef !0
  %r24 = trunc i8 %r23 to i1
  %r25 = xor i1 %r24, true
  %r26 = zext i1 %r25 to i8
  store i8 %r26, ptr %r4, align 1
  %r27 = load i8, ptr %r4, align 1, !range !1, !noundef !0
  %r28 = trunc i8 %r27 to i1
  br i1 %r28, label %then.4, label %else.5

then.4:                                           ; preds = %join.3
  store i32 107, ptr %r0, align 4
  %r29 = load i32, ptr %r0, align 4, !noundef !0
  ret i32 %r29

else.5:                                           ; preds = %join.3
  br label %join.6

join.6:                                           ; preds = %else.5
  %r30 = icmp ult i64 1152921504606846975, %a2
  %r31 = zext i1 %r30 to i8
  store i8 %r31, ptr %r2, align 1
  %r32 = load i8, ptr %r2, align 1, !range !1, !noundef !0
  %r33 = trunc i8 %r32 to i1
  br i1 %r33, label %then.7, label %else.8

then.7:                                           ; preds = %join.6
  store i32 101, ptr %r0, align 4
  %r34 = load i32, ptr %r0, align 4, !noundef !0
  ret i32 %r34

else.8:                                           ; preds = %join.6
  br label %join.9

join.9:                                           ; preds = %else.8
  store ptr %a0, ptr %r6, align 8
  %r35 = load ptr, ptr %r6, align 8, !noundef !0
  call void @"pie_c::checked::raw"(ptr %r5, ptr %r35)
  call void @llvm.memmove.p0.p0.i64(ptr %r1, ptr %r5, i64 176, i1 false)
  store ptr %r1, ptr %r7, align 8
  call void @llvm.memmove.p0.p0.i64(ptr %r8, ptr %a1, i64 72, i1 false)
  %r36 = load ptr, ptr %r7, align 8, !noundef !0
  call void @"pie_aqm::raw::RawController::set_params"(ptr %r36, ptr %r8, i64 %a2)
  call void @llvm.memmove.p0.p0.i64(ptr %r8, ptr %a1, i64 72, i1 false)
  call void @llvm.memmove.p0.p0.i64(ptr %a0, ptr %r8, i64 72, i1 false)
  store ptr %a0, ptr %r9, align 8
  store ptr %r1, ptr %r10, align 8
  %r37 = load ptr, ptr %r9, align 8, !noundef !0
  %r38 = load ptr, ptr %r10, align 8, !noundef !0
  call void @"pie_c::state::PieState::keep_departed"(ptr %r37, ptr %r38)
  call void @"pie_c::law::calls_are_lawful"()
  store i32 0, ptr %r0, align 4
  %r39 = load i32, ptr %r0, align 4, !noundef !0
  ret i32 %r39
}

define internal void @"pie_c::calls::pie_update"(ptr noundef %a0, ptr noundef %a1, i64 noundef %a2, i64 noundef %a3) #1 {
start:
  %r0 = alloca [40 x i8], align 8
  %r1 = alloca [176 x i8], align 8
  %r2 = alloca i64, align 8
  %r3 = alloca i8, align 1
  %r4 = alloca ptr, align 8
  %r5 = alloca i8, align 1
  %r6 = alloca [176 x i8], align 8
  %r7 = alloca ptr, align 8
  %r8 = alloca i8, align 1
  %r9 = alloca ptr, align 8
  %r10 = alloca i64, align 8
  %r11 = alloca ptr, align 8
  %r12 = alloca ptr, align 8
  %r13 = alloca ptr, align 8
  %r14 = alloca ptr, align 8
  %r15 = alloca ptr, align 8
  call void @llvm.memset.p0.i64(ptr %r0, i8 0, i64 40, i1 false)
  call void @llvm.memset.p0.i64(ptr %r1, i8 0, i64 176, i1 false)
  call void @llvm.memset.p0.i64(ptr %r6, i8 0, i64 176, i1 false)
  store ptr %a1, ptr %r4, align 8
  %r16 = load ptr, ptr %r4, align 8, !noundef !0
  %r17 = call i1 @"pie_c::checked::is_sound"(ptr %r16)
  %r18 = zext i1 %r17 to i8
  store i8 %r18, ptr %r3, align 1
  %r19 = load i8, ptr %r3, align 1, !range !1, !noundef !0
  %r20 = trunc i8 %r19 to i1
  %r21 = xor i1 %r20, true
  %r22 = zext i1 %r21 to i8
  store i8 %r22, ptr %r5, align 1
  %r23 = load i8, ptr %r5, align 1, !range !1, !noundef !0
  %r24 = trunc i8 %r23 to i1
  br i1 %r24, label %then.1, label %else.2

then.1:                                           ; preds = %start
  call void @"pie_c::state::PieUpdated::refused"(ptr %r0, i32 110)
  call void @llvm.memmove.p0.p0.i64(ptr %a0, ptr %r0, i64 40, i1 false)
  ret void

else.2:                                           ; preds = %start
  br label %join.3

join.3:                                           ; preds = %else.2
  %r25 = icmp ult i64 1152921504606846975, %a3
  %r26 = zext i1 %r25 to i8
  store i8 %r26, ptr %r3, align 1
  %r27 = load i8, ptr %r3, align 1, !range !1, !noundef !0
  %r28 = trunc i8 %r27 to i1
  br i1 %r28, label %then.4, label %else.5

then.4:                                           ; preds = %join.3
  call void @"pie_c::state::PieUpdated::refused"(ptr %r0, i32 101)
  call void @llvm.memmove.p0.p0.i64(ptr %a0, ptr %r0, i64 40, i1 false)
  ret void

else.5:                                           ; preds = %join.3
  br label %join.6

join.6:                                           ; preds = %else.5
  %r29 = icmp ult i64 1073741824, %a2
  %r30 = zext i1 %r29 to i8
  store i8 %r30, ptr %r5, align 1
  %r31 = load i8, ptr %r5, align 1, !range !1, !noundef !0
  %r32 = trunc i8 %r31 to i1
  br i1 %r32, label %then.7, label %else.8

then.7:                                           ; preds = %join.6
  call void @"pie_c::state::PieUpdated::refused"(ptr %r0, i32 112)
  call void @llvm.memmove.p0.p0.i64(ptr %a0, ptr %r0, i64 40, i1 false)
  ret void

else.8:                                           ; preds = %join.6
  br label %join.9

join.9:                                           ; preds = %else.8
  call void @"pie_c::law::calls_are_lawful"()
  store ptr %a1, ptr %r7, align 8
  %r33 = load ptr, ptr %r7, align 8, !noundef !0
  call void @"pie_c::checked::raw"(ptr %r6, ptr %r33)
  call void @llvm.memmove.p0.p0.i64(ptr %r1, ptr %r6, i64 176, i1 false)
  store ptr %r1, ptr %r9, align 8
  %r34 = load ptr, ptr %r9, align 8, !noundef !0
  %r35 = call i1 @"pie_aqm::raw::RawController::is_too_soon"(ptr %r34, i64 %a3)
  %r36 = zext i1 %r35 to i8
  store i8 %r36, ptr %r8, align 1
  %r37 = load i8, ptr %r8, align 1, !range !1, !noundef !0
  %r38 = trunc i8 %r37 to i1
  br i1 %r38, label %then.10, label %else.11

then.10:                                          ; preds = %join.9
  %r39 = getelementptr i8, ptr %r1, i64 136
  %r40 = getelementptr i8, ptr %r39, i64 8
  %r41 = load i64, ptr %r40, align 8, !noundef !0
  store i64 %r41, ptr %r10, align 8
  store ptr %r1, ptr %r11, align 8
  %r42 = load i64, ptr %r10, align 8, !noundef !0
  %r43 = load ptr, ptr %r11, align 8, !noundef !0
  call void @"pie_c::state::PieUpdated::made"(ptr %r0, i32 103, i64 %r42, ptr %r43)
  call void @llvm.memmove.p0.p0.i64(ptr %a0, ptr %r0, i64 40, i1 false)
  ret void

else.11:                                          ; preds = %join.9
  br label %join.12

join.12:                                          ; preds = %else.11
  store ptr %r1, ptr %r12, align 8
  %r44 = load ptr, ptr %r12, align 8, !noundef !0
  %r45 = call i64 @"pie_aqm::raw::RawController::update"(ptr %r44, i64 %a2, i64 %a3)
  store i64 %r45, ptr %r2, align 8
  store ptr %a1, ptr %r13, align 8
  store ptr %r1, ptr %r14, align 8
  %r46 = load ptr, ptr %r13, align 8, !noundef !0
  %r47 = load ptr, ptr %r14, align 8, !noundef !0
  call void @"pie_c::state::PieState::keep_updated"(ptr %r46, ptr %r47)
  store ptr %r1, ptr %r15, align 8
  %r48 = load i64, ptr %r2, align 8, !noundef !0
  %r49 = load ptr, ptr %r15, align 8, !noundef !0
  call void @"pie_c::state::PieUpdated::made"(ptr %r0, i32 0, i64 %r48, ptr %r49)
  call void @llvm.memmove.p0.p0.i64(ptr %a0, ptr %r0, i64 40, i1 false)
  ret void
}

define internal noundef zeroext i1 @"pie_c::checked::is_activity_sound"(ptr noundef %a0) #1 {
start:
  %r0 = alloca i8, align 1
  %r1 = alloca i64, align 8
  %r2 = alloca i8, align 1
  %r3 = alloca i8, align 1
  %r4 = alloca i64, align 8
  %r5 = alloca i8, align 1
  %r6 = alloca i64, align 8
  %r7 = alloca i64, align 8
  %r8 = getelementptr i8, ptr %a0, i64 152
  %r9 = load i64, ptr %r8, align 8, !noundef !0
  store i64 %r9, ptr %r1, align 8
  %r10 = load i64, ptr %r1, align 8, !noundef !0
  %r11 = icmp eq i64 %r10, 1
  %r12 = zext i1 %r11 to i8
  store i8 %r12, ptr %r2, align 1
  %r13 = load i8, ptr %r2, align 1, !range !1, !noundef !0
  %r14 = trunc i8 %r13 to i1
  br i1 %r14, label %then.1, label %else.2

then.1:                                           ; preds = %start
  %r15 = getelementptr i8, ptr %a0, i64 160
  %r16 = load i64, ptr %r15, align 8, !noundef !0
  store i64 %r16, ptr %r4, align 8
  %r17 = load i64, ptr %r4, align 8, !noundef !0
  %r18 = icmp eq i64 %r17, 1
  %r19 = zext i1 %r18 to i8
  store i8 %r19, ptr %r3, align 1
  br label %join.3

else.2:                                           ; preds = %start
  %r20 = getelementptr i8, ptr %a0, i64 152
  %r21 = load i64, ptr %r20, align 8, !noundef !0
  store i64 %r21, ptr %r6, align 8
  %r22 = load i64, ptr %r6, align 8, !noundef !0
  %r23 = icmp eq i64 %r22, 2
  %r24 = zext i1 %r23 to i8
  store i8 %r24, ptr %r5, align 1
  %r25 = load i8, ptr %r5, align 1, !range !1, !noundef !0
  %r26 = trunc i8 %r25 to i1
  br i1 %r26, label %then.4, label %else.5

then.4:                                           ; preds = %else.2
  %r27 = getelementptr i8, ptr %a0, i64 160
  %r28 = load i64, ptr %r27, align 8, !noundef !0
  store i64 %r28, ptr %r7, align 8
  %r29 = load i64, ptr %r7, align 8, !noundef !0
  %r30 = icmp ule i64 %r29, 1
  %r31 = zext i1 %r30 to i8
  store i8 %r31, ptr %r5, align 1
  br label %join.6

else.5:                                           ; preds = %else.2
  br label %join.6

join.6:                                           ; preds = %else.5, %then.4
  %r32 = load i8, ptr %r5, align 1, !range !1, !noundef !0
  %r33 = trunc i8 %r32 to i1
  %r34 = zext i1 %r33 to i8
  store i8 %r34, ptr %r3, align 1
  br label %join.3

join.3:                                           ; preds = %join.6, %then.1
  %r35 = load i8, ptr %r3, align 1, !range !1, !noundef !0
  %r36 = trunc i8 %r35 to i1
  %r37 = zext i1 %r36 to i8
  store i8 %r37, ptr %r0, align 1
  %r38 = load i8, ptr %r0, align 1, !range !1, !noundef !0
  %r39 = trunc i8 %r38 to i1
  ret i1 %r39
}

define internal noundef zeroext i1 @"pie_c::checked::is_rate_sound"(ptr noundef %a0) #1 {
start:
  %r0 = alloca i8, align 1
  %r1 = alloca i64, align 8
  %r2 = alloca i8, align 1
  %r3 = alloca i8, align 1
  %r4 = alloca i8, align 1
  %r5 = alloca i64, align 8
  %r6 = alloca i64, align 8
  %r7 = alloca i64, align 8
  %r8 = alloca i64, align 8
  %r9 = alloca i8, align 1
  %r10 = alloca i8, align 1
  %r11 = alloca i64, align 8
  %r12 = alloca i64, align 8
  %r13 = alloca i64, align 8
  %r14 = getelementptr i8, ptr %a0, i64 120
  %r15 = load i64, ptr %r14, align 8, !noundef !0
  store i64 %r15, ptr %r1, align 8
  %r16 = load i64, ptr %r1, align 8, !noundef !0
  %r17 = icmp ule i64 1152921504606846976, %r16
  %r18 = zext i1 %r17 to i8
  store i8 %r18, ptr %r2, align 1
  %r19 = load i8, ptr %r2, align 1, !range !1, !noundef !0
  %r20 = trunc i8 %r19 to i1
  br i1 %r20, label %then.1, label %else.2

then.1:                                           ; preds = %start
  %r21 = zext i1 false to i8
  store i8 %r21, ptr %r0, align 1
  %r22 = load i8, ptr %r0, align 1, !range !1, !noundef !0
  %r23 = trunc i8 %r22 to i1
  ret i1 %r23

else.2:                                           ; preds = %start
  br label %join.3

join.3:                                           ; preds = %else.2
  %r24 = getelementptr i8, ptr %a0, i64 128
  %r25 = load i64, ptr %r24, align 8, !noundef !0
  store i64 %r25, ptr %r1, align 8
  %r26 = load i64, ptr %r1, align 8, !noundef !0
  %r27 = icmp eq i64 %r26, 1
  %r28 = zext i1 %r27 to i8
  store i8 %r28, ptr %r2, align 1
  %r29 = load i8, ptr %r2, align 1, !range !1, !noundef !0
  %r30 = trunc i8 %r29 to i1
  br i1 %r30, label %then.4, label %else.5

then.4:                                           ; preds = %join.3
  %r31 = getelementptr i8, ptr %a0, i64 136
  %r32 = load i64, ptr %r31, align 8, !noundef !0
  store i64 %r32, ptr %r5, align 8
  %r33 = getelementptr i8, ptr %a0, i64 72
  %r34 = load i64, ptr %r33, align 8, !noundef !0
  store i64 %r34, ptr %r6, align 8
  %r35 = load i64, ptr %r5, align 8, !noundef !0
  %r36 = load i64, ptr %r6, align 8, !noundef !0
  %r37 = icmp ule i64 %r35, %r36
  %r38 = zext i1 %r37 to i8
  store i8 %r38, ptr %r4, align 1
  %r39 = load i8, ptr %r4, align 1, !range !1, !noundef !0
  %r40 = trunc i8 %r39 to i1
  br i1 %r40, label %then.7, label %else.8

then.7:                                           ; preds = %then.4
  %r41 = getelementptr i8, ptr %a0, i64 144
  %r42 = load i64, ptr %r41, align 8, !noundef !0
  store i64 %r42, ptr %r7, align 8
  %r43 = getelementptr i8, ptr %a0, i64 64
  %r44 = load i64, ptr %r43, align 8, !noundef !0
  store i64 %r44, ptr %r8, align 8
  %r45 = load i64, ptr %r7, align 8, !noundef !0
  %r46 = load i64, ptr %r8, align 8, !noundef !0
  %r47 = icmp ult i64 %r45, %r46
  %r48 = zext i1 %r47 to i8
  store i8 %r48, ptr %r4, align 1
  br label %join.9

else.8:                                           ; preds = %then.4
  br label %join.9

join.9:                                           ; preds = %else.8, %then.7
  %r49 = load i8, ptr %r4, align 1, !range !1, !noundef !0
  %r50 = trunc i8 %r49 to i1
  %r51 = zext i1 %r50 to i8
  store i8 %r51, ptr %r3, align 1
  br label %join.6

else.5:                                           ; preds = %join.3
  %r52 = getelementptr i8, ptr %a0, i64 128
  %r53 = load i64, ptr %r52, align 8, !noundef !0
  store i64 %r53, ptr %r11, align 8
  %r54 = load i64, ptr %r11, align 8, !noundef !0
  %r55 = icmp eq i64 %r54, 0
  %r56 = zext i1 %r55 to i8
  store i8 %r56, ptr %r10, align 1
  %r57 = load i8, ptr %r10, align 1, !range !1, !noundef !0
  %r58 = trunc i8 %r57 to i1
  br i1 %r58, label %then.10, label %else.11

then.10:                                          ; preds = %else.5
  %r59 = getelementptr i8, ptr %a0, i64 136
  %r60 = load i64, ptr %r59, align 8, !noundef !0
  store i64 %r60, ptr %r12, align 8
  %r61 = load i64, ptr %r12, align 8, !noundef !0
  %r62 = icmp eq i64 %r61, 0
  %r63 = zext i1 %r62 to i8
  store i8 %r63, ptr %r10, align 1
  br label %join.12

else.11:                                          ; preds = %else.5
  br label %join.12

join.12:                                          ; preds = %else.11, %then.10
  %r64 = load i8, ptr %r10, align 1, !range !1, !noundef !0
  %r65 = trunc i8 %r64 to i1
  %r66 = zext i1 %r65 to i8
  store i8 %r66, ptr %r9, align 1
  %r67 = load i8, ptr %r9, align 1, !range !1, !noundef !0
  %r68 = trunc i8 %r67 to i1
  br i1 %r68, label %then.13, label %else.14

then.13:                                          ; preds = %join.12
  %r69 = getelementptr i8, ptr %a0, i64 144
  %r70 = load i64, ptr %r69, align 8, !noundef !0
  store i64 %r70, ptr %r13, align 8
  %r71 = load i64, ptr %r13, align 8, !noundef !0
  %r72 = icmp eq i64 %r71, 0
  %r73 = zext i1 %r72 to i8
  store i8 %r73, ptr %r9, align 1
  br label %join.15

else.14:                                          ; preds = %join.12
  br label %join.15

join.15:                                          ; preds = %else.14, %then.13
  %r74 = load i8, ptr %r9, align 1, !range !1, !noundef !0
  %r75 = trunc i8 %r74 to i1
  %r76 = zext i1 %r75 to i8
  store i8 %r76, ptr %r3, align 1
  br label %join.6

join.6:                                           ; preds = %join.15, %join.9
  %r77 = load i8, ptr %r3, align 1, !range !1, !noundef !0
  %r78 = trunc i8 %r77 to i1
  %r79 = zext i1 %r78 to i8
  store i8 %r79, ptr %r0, align 1
  %r80 = load i8, ptr %r0, align 1, !range !1, !noundef !0
  %r81 = trunc i8 %r80 to i1
  ret i1 %r81
}

define internal noundef zeroext i1 @"pie_c::checked::is_sound"(ptr noundef %a0) #1 {
start:
  %r0 = alloca i8, align 1
  %r1 = alloca i8, align 1
  %r2 = alloca i8, align 1
  %r3 = alloca i8, align 1
  %r4 = alloca i8, align 1
  %r5 = alloca i8, align 1
  %r6 = alloca i8, align 1
  %r7 = alloca i8, align 1
  %r8 = alloca i8, align 1
  %r9 = alloca i8, align 1
  %r10 = alloca i8, align 1
  %r11 = alloca i64, align 8
  %r12 = alloca i64, align 8
  %r13 = alloca ptr, align 8
  %r14 = alloca i64, align 8
  %r15 = alloca i64, align 8
  %r16 = alloca i64, align 8
  %r17 = alloca i64, align 8
  %r18 = alloca i64, align 8
  %r19 = alloca i64, align 8
  %r20 = alloca i64, align 8
  %r21 = getelementptr i8, ptr %a0, i64 168
  %r22 = load i64, ptr %r21, align 8, !noundef !0
  store i64 %r22, ptr %r11, align 8
  %r23 = load i64, ptr %r11, align 8, !noundef !0
  %r24 = icmp ule i64 %r23, 31
  %r25 = zext i1 %r24 to i8
  store i8 %r25, ptr %r10, align 1
  %r26 = load i8, ptr %r10, align 1, !range !1, !noundef !0
  %r27 = trunc i8 %r26 to i1
  br i1 %r27, label %then.1, label %else.2

then.1:                                           ; preds = %start
  %r28 = getelementptr i8, ptr %a0, i64 176
  %r29 = load i64, ptr %r28, align 8, !noundef !0
  store i64 %r29, ptr %r12, align 8
  %r30 = load i64, ptr %r12, align 8, !noundef !0
  %r31 = icmp ule i64 %r30, 1099511627776
  %r32 = zext i1 %r31 to i8
  store i8 %r32, ptr %r10, align 1
  br label %join.3

else.2:                                           ; preds = %start
  br label %join.3

join.3:                                           ; preds = %else.2, %then.1
  %r33 = load i8, ptr %r10, align 1, !range !1, !noundef !0
  %r34 = trunc i8 %r33 to i1
  %r35 = zext i1 %r34 to i8
  store i8 %r35, ptr %r9, align 1
  %r36 = load i8, ptr %r9, align 1, !range !1, !noundef !0
  %r37 = trunc i8 %r36 to i1
  br i1 %r37, label %then.4, label %else.5

then.4:                                           ; preds = %join.3
  store ptr %a0, ptr %r13, align 8
  %r38 = load ptr, ptr %r13, align 8, !noundef !0
  %r39 = call i1 @"pie_abi::params::are_in_range"(ptr %r38)
  %r40 = zext i1 %r39 to i8
  store i8 %r40, ptr %r9, align 1
  br label %join.6

else.5:                                           ; preds = %join.3
  br label %join.6

join.6:                                           ; preds = %else.5, %then.4
  %r41 = load i8, ptr %r9, align 1, !range !1, !noundef !0
  %r42 = trunc i8 %r41 to i1
  %r43 = zext i1 %r42 to i8
  store i8 %r43, ptr %r8, align 1
  %r44 = load i8, ptr %r8, align 1, !range !1, !noundef !0
  %r45 = trunc i8 %r44 to i1
  br i1 %r45, label %then.7, label %else.8

then.7:                                           ; preds = %join.6
  %r46 = getelementptr i8, ptr %a0, i64 72
  %r47 = load i64, ptr %r46, align 8, !noundef !0
  store i64 %r47, ptr %r14, align 8
  %r48 = load i64, ptr %r14, align 8, !noundef !0
  %r49 = icmp ule i64 %r48, 1152921504606846975
  %r50 = zext i1 %r49 to i8
  store i8 %r50, ptr %r8, align 1
  br label %join.9

else.8:                                           ; preds = %join.6
  br label %join.9

join.9:                                           ; preds = %else.8, %then.7
  %r51 = load i8, ptr %r8, align 1, !range !1, !noundef !0
  %r52 = trunc i8 %r51 to i1
  %r53 = zext i1 %r52 to i8
  store i8 %r53, ptr %r7, align 1
  %r54 = load i8, ptr %r7, align 1, !range !1, !noundef !0
  %r55 = trunc i8 %r54 to i1
  br i1 %r55, label %then.10, label %else.11

then.10:                                          ; preds = %join.9
  %r56 = getelementptr i8, ptr %a0, i64 80
  %r57 = load i64, ptr %r56, align 8, !noundef !0
  store i64 %r57, ptr %r15, align 8
  %r58 = load i64, ptr %r15, align 8, !noundef !0
  %r59 = icmp ule i64 %r58, 1000000000000
  %r60 = zext i1 %r59 to i8
  store i8 %r60, ptr %r7, align 1
  br label %join.12

else.11:                                          ; preds = %join.9
  br label %join.12

join.12:                                          ; preds = %else.11, %then.10
  %r61 = load i8, ptr %r7, align 1, !range !1, !noundef !0
  %r62 = trunc i8 %r61 to i1
  %r63 = zext i1 %r62 to i8
  store i8 %r63, ptr %r6, align 1
  %r64 = load i8, ptr %r6, align 1, !range !1, !noundef !0
  %r65 = trunc i8 %r64 to i1
  br i1 %r65, label %then.13, label %else.14

then.13:                                          ; preds = %join.12
  %r66 = getelementptr i8, ptr %a0, i64 88
  %r67 = load i64, ptr %r66, align 8, !noundef !0
  store i64 %r67, ptr %r16, align 8
  %r68 = load i64, ptr %r16, align 8, !noundef !0
  %r69 = icmp ule i64 %r68, 1099511627776
  %r70 = zext i1 %r69 to i8
  store i8 %r70, ptr %r6, align 1
  br label %join.15

else.14:                                          ; preds = %join.12
  br label %join.15

join.15:                                          ; preds = %else.14, %then.13
  %r71 = load i8, ptr %r6, align 1, !range !1, !noundef !0
  %r72 = trunc i8 %r71 to i1
  %r73 = zext i1 %r72 to i8
  store i8 %r73, ptr %r5, align 1
  %r74 = load i8, ptr %r5, align 1, !range !1, !noundef !0
  %r75 = trunc i8 %r74 to i1
  br i1 %r75, label %then.16, label %else.17

then.16:                                          ; preds = %join.15
  %r76 = getelementptr i8, ptr %a0, i64 96
  %r77 = load i64, ptr %r76, align 8, !noundef !0
  store i64 %r77, ptr %r17, align 8
  %r78 = load i64, ptr %r17, align 8, !noundef !0
  %r79 = icmp ule i64 %r78, 1000000000000
  %r80 = zext i1 %r79 to i8
  store i8 %r80, ptr %r5, align 1
  br label %join.18

else.17:                                          ; preds = %join.15
  br label %join.18

join.18:                                          ; preds = %else.17, %then.16
  %r81 = load i8, ptr %r5, align 1, !range !1, !noundef !0
  %r82 = trunc i8 %r81 to i1
  %r83 = zext i1 %r82 to i8
  store i8 %r83, ptr %r4, align 1
  %r84 = load i8, ptr %r4, align 1, !range !1, !noundef !0
  %r85 = trunc i8 %r84 to i1
  br i1 %r85, label %then.19, label %else.20

then.19:                                          ; preds = %join.18
  %r86 = getelementptr i8, ptr %a0, i64 104
  %r87 = load i64, ptr %r86, align 8, !noundef !0
  store i64 %r87, ptr %r18, align 8
  %r88 = getelementptr i8, ptr %a0, i64 72
  %r89 = load i64, ptr %r88, align 8, !noundef !0
  store i64 %r89, ptr %r19, align 8
  %r90 = load i64, ptr %r18, align 8, !noundef !0
  %r91 = load i64, ptr %r19, align 8, !noundef !0
  %r92 = icmp ule i64 %r90, %r91
  %r93 = zext i1 %r92 to i8
  store i8 %r93, ptr %r4, align 1
  br label %join.21

else.20:                                          ; preds = %join.18
  br label %join.21

join.21:                                          ; preds = %else.20, %then.19
  %r94 = load i8, ptr %r4, align 1, !range !1, !noundef !0
  %r95 = trunc i8 %r94 to i1
  %r96 = zext i1 %r95 to i8
  store i8 %r96, ptr %r3, align 1
  %r97 = load i8, ptr %r3, align 1, !range !1, !noundef !0
  %r98 = trunc i8 %r97 to i1
  br i1 %r98, label %then.22, label %else.23

then.22:                                          ; preds = %join.21
  %r99 = getelementptr i8, ptr %a0, i64 112
  %r100 = load i64, ptr %r99, align 8, !noundef !0
  store i64 %r100, ptr %r20, align 8
  %r101 = load i64, ptr %r20, align 8, !noundef !0
  %r102 = icmp ult i64 %r101, 8500000000000
  %r103 = zext i1 %r102 to i8
  store i8 %r103, ptr %r3, align 1
  br label %join.24

else.23:                                          ; preds = %join.21
  br label %join.24

join.24:                                          ; preds = %else.23, %then.22
  %r104 = load i8, ptr %r3, align 1, !range !1, !noundef !0
  %r105 = trunc i8 %r104 to i1
  %r106 = zext i1 %r105 to i8
  store i8 %r106, ptr %r2, align 1
  %r107 = load i8, ptr %r2, align 1, !range !1, !noundef !0
  %r108 = trunc i8 %r107 to i1
  br i1 %r108, label %then.25, label %else.26

then.25:                                          ; preds = %join.24
  %r109 = call i1 @"pie_c::checked::is_rate_sound"(ptr %a0)
  %r110 = zext i1 %r109 to i8
  store i8 %r110, ptr %r2, align 1
  br label %join.27

else.26:                                          ; preds = %join.24
  br label %join.27

join.27:                                          ; preds = %else.26, %then.25
  %r111 = load i8, ptr %r2, align 1, !range !1, !noundef !0
  %r112 = trunc i8 %r111 to i1
  %r113 = zext i1 %r112 to i8
  store i8 %r113, ptr %r1, align 1
  %r114 = load i8, ptr %r1, align 1, !range !1, !noundef !0
  %r115 = trunc i8 %r114 to i1
  br i1 %r115, label %then.28, label %else.29

then.28:                                          ; preds = %join.27
  %r116 = call i1 @"pie_c::checked::is_activity_sound"(ptr %a0)
  %r117 = zext i1 %r116 to i8
  store i8 %r117, ptr %r1, align 1
  br label %join.30

else.29:                                          ; preds = %join.27
  br label %join.30

join.30:                                          ; preds = %else.29, %then.28
  %r118 = load i8, ptr %r1, align 1, !range !1, !noundef !0
  %r119 = trunc i8 %r118 to i1
  %r120 = zext i1 %r119 to i8
  store i8 %r120, ptr %r0, align 1
  %r121 = load i8, ptr %r0, align 1, !range !1, !noundef !0
  %r122 = trunc i8 %r121 to i1
  ret i1 %r122
}

define internal void @"pie_c::checked::raw"(ptr noundef %a0, ptr noundef %a1) #1 {
start:
  %r0 = alloca [176 x i8], align 8
  %r1 = alloca [5 x i8], align 1
  %r2 = alloca i64, align 8
  call void @llvm.memset.p0.i64(ptr %r0, i8 0, i64 176, i1 false)
  call void @llvm.memset.p0.i64(ptr %r1, i8 0, i64 5, i1 false)
  %r3 = getelementptr i8, ptr %a1, i64 168
  %r4 = load i64, ptr %r3, align 8, !noundef !0
  store i64 %r4, ptr %r2, align 8
  %r5 = load i64, ptr %r2, align 8, !noundef !0
  call void @"pie_abi::choices::elements"(ptr %r1, i64 %r5)
  call void @"pie_c::checked::raw_with"(ptr %r0, ptr %a1, ptr %r1)
  call void @llvm.memmove.p0.p0.i64(ptr %a0, ptr %r0, i64 176, i1 false)
  ret void
}

define internal void @"pie_c::checked::raw_with"(ptr noundef %a0, ptr noundef %a1, ptr noundef %a2) #1 {
start:
  %r0 = alloca [176 x i8], align 8
  %r1 = alloca [5 x i8], align 1
  call void @llvm.memset.p0.i64(ptr %r1, i8 0, i64 5, i1 false)
  call void @llvm.memmove.p0.p0.i64(ptr %r1, ptr %a2, i64 5, i1 false)
  %r2 = alloca [24 x i8], align 8
  %r3 = alloca i64, align 8
  %r4 = alloca i8, align 1
  %r5 = alloca [24 x i8], align 8
  %r6 = alloca i64, align 8
  %r7 = alloca i64, align 8
  %r8 = alloca [16 x i8], align 8
  %r9 = alloca [1 x i8], align 1
  %r10 = alloca [72 x i8], align 8
  %r11 = alloca i64, align 8
  %r12 = alloca i64, align 8
  %r13 = alloca i64, align 8
  %r14 = alloca [32 x i8], align 8
  %r15 = alloca i64, align 8
  %r16 = alloca i64, align 8
  %r17 = alloca i64, align 8
  %r18 = alloca i64, align 8
  %r19 = alloca i64, align 8
  %r20 = alloca [32 x i8], align 8
  %r21 = alloca i64, align 8
  call void @llvm.memset.p0.i64(ptr %r0, i8 0, i64 176, i1 false)
  call void @llvm.memset.p0.i64(ptr %r2, i8 0, i64 24, i1 false)
  call void @llvm.memset.p0.i64(ptr %r5, i8 0, i64 24, i1 false)
  call void @llvm.memset.p0.i64(ptr %r8, i8 0, i64 16, i1 false)
  call void @llvm.memset.p0.i64(ptr %r9, i8 0, i64 1, i1 false)
  call void @llvm.memset.p0.i64(ptr %r10, i8 0, i64 72, i1 false)
  call void @llvm.memset.p0.i64(ptr %r14, i8 0, i64 32, i1 false)
  call void @llvm.memset.p0.i64(ptr %r20, i8 0, i64 32, i1 false)
  %r22 = getelementptr i8, ptr %a1, i64 128
  %r23 = load i64, ptr %r22, align 8, !noundef !0
  store i64 %r23, ptr %r3, align 8
  %r24 = load i64, ptr %r3, align 8, !noundef !0
  %r25 = icmp eq i64 %r24, 1
  %r26 = zext i1 %r25 to i8
  store i8 %r26, ptr %r4, align 1
  %r27 = load i8, ptr %r4, align 1, !range !1, !noundef !0
  %r28 = trunc i8 %r27 to i1
  br i1 %r28, label %then.1, label %else.2

then.1:                                           ; preds = %start
  %r29 = getelementptr i8, ptr %a1, i64 136
  %r30 = load i64, ptr %r29, align 8, !noundef !0
  store i64 %r30, ptr %r6, align 8
  %r31 = getelementptr i8, ptr %a1, i64 144
  %r32 = load i64, ptr %r31, align 8, !noundef !0
  store i64 %r32, ptr %r7, align 8
  %r33 = load i64, ptr %r6, align 8, !noundef !0
  %r34 = load i64, ptr %r7, align 8, !noundef !0
  store i64 %r33, ptr %r8, align 8
  %r35 = getelementptr i8, ptr %r8, i64 8
  store i64 %r34, ptr %r35, align 8
  store i64 1, ptr %r5, align 1
  %r36 = getelementptr i8, ptr %r5, i64 8
  call void @llvm.memmove.p0.p0.i64(ptr %r36, ptr %r8, i64 16, i1 false)
  br label %join.3

else.2:                                           ; preds = %start
  store i64 0, ptr %r5, align 1
  br label %join.3

join.3:                                           ; preds = %else.2, %then.1
  %r37 = load i8, ptr %r5, align 1
  %r38 = zext i8 %r37 to i64
  store i64 %r38, ptr %r2, align 1
  %r39 = getelementptr i8, ptr %r2, i64 8
  %r40 = getelementptr i8, ptr %r5, i64 8
  call void @llvm.memmove.p0.p0.i64(ptr %r39, ptr %r40, i64 16, i1 false)
  %r41 = getelementptr i8, ptr %a1, i64 152
  %r42 = load i64, ptr %r41, align 8, !noundef !0
  store i64 %r42, ptr %r3, align 8
  %r43 = load i64, ptr %r3, align 8, !noundef !0
  %r44 = call i8 @"pie_abi::choices::profile"(i64 %r43)
  store i8 %r44, ptr %r9, align 1
  call void @llvm.memmove.p0.p0.i64(ptr %r10, ptr %a1, i64 72, i1 false)
  %r45 = getelementptr i8, ptr %a1, i64 72
  %r46 = load i64, ptr %r45, align 8, !noundef !0
  store i64 %r46, ptr %r11, align 8
  %r47 = getelementptr i8, ptr %a1, i64 160
  %r48 = load i64, ptr %r47, align 8, !noundef !0
  store i64 %r48, ptr %r12, align 8
  %r49 = load i64, ptr %r12, align 8, !noundef !0
  %r50 = icmp eq i64 %r49, 1
  %r51 = zext i1 %r50 to i8
  store i8 %r51, ptr %r4, align 1
  %r52 = getelementptr i8, ptr %a1, i64 120
  %r53 = load i64, ptr %r52, align 8, !noundef !0
  store i64 %r53, ptr %r13, align 8
  %r54 = load i64, ptr %r13, align 8, !noundef !0
  store i64 %r54, ptr %r14, align 8
  %r55 = getelementptr i8, ptr %r14, i64 8
  %r56 = load i8, ptr %r2, align 1
  %r57 = zext i8 %r56 to i64
  store i64 %r57, ptr %r55, align 1
  %r58 = getelementptr i8, ptr %r55, i64 8
  %r59 = getelementptr i8, ptr %r2, i64 8
  call void @llvm.memmove.p0.p0.i64(ptr %r58, ptr %r59, i64 16, i1 false)
  %r60 = getelementptr i8, ptr %a1, i64 176
  %r61 = load i64, ptr %r60, align 8, !noundef !0
  store i64 %r61, ptr %r15, align 8
  %r62 = getelementptr i8, ptr %a1, i64 80
  %r63 = load i64, ptr %r62, align 8, !noundef !0
  store i64 %r63, ptr %r16, align 8
  %r64 = getelementptr i8, ptr %a1, i64 88
  %r65 = load i64, ptr %r64, align 8, !noundef !0
  store i64 %r65, ptr %r17, align 8
  %r66 = getelementptr i8, ptr %a1, i64 96
  %r67 = load i64, ptr %r66, align 8, !noundef !0
  store i64 %r67, ptr %r18, align 8
  %r68 = getelementptr i8, ptr %a1, i64 104
  %r69 = load i64, ptr %r68, align 8, !noundef !0
  store i64 %r69, ptr %r19, align 8
  %r70 = load i64, ptr %r16, align 8, !noundef !0
  %r71 = load i64, ptr %r17, align 8, !noundef !0
  %r72 = load i64, ptr %r18, align 8, !noundef !0
  %r73 = load i64, ptr %r19, align 8, !noundef !0
  store i64 %r70, ptr %r20, align 8
  %r74 = getelementptr i8, ptr %r20, i64 8
  store i64 %r71, ptr %r74, align 8
  %r75 = getelementptr i8, ptr %r20, i64 16
  store i64 %r72, ptr %r75, align 8
  %r76 = getelementptr i8, ptr %r20, i64 24
  store i64 %r73, ptr %r76, align 8
  %r77 = getelementptr i8, ptr %a1, i64 112
  %r78 = load i64, ptr %r77, align 8, !noundef !0
  store i64 %r78, ptr %r21, align 8
  %r79 = load i64, ptr %r11, align 8, !noundef !0
  %r80 = load i8, ptr %r4, align 1, !range !1, !noundef !0
  %r81 = trunc i8 %r80 to i1
  %r82 = load i64, ptr %r15, align 8, !noundef !0
  %r83 = load i64, ptr %r21, align 8, !noundef !0
  call void @llvm.memmove.p0.p0.i64(ptr %r0, ptr %r9, i64 1, i1 false)
  %r84 = getelementptr i8, ptr %r0, i64 1
  call void @llvm.memmove.p0.p0.i64(ptr %r84, ptr %r1, i64 5, i1 false)
  %r85 = getelementptr i8, ptr %r0, i64 8
  call void @llvm.memmove.p0.p0.i64(ptr %r85, ptr %r10, i64 72, i1 false)
  %r86 = getelementptr i8, ptr %r0, i64 80
  store i64 %r79, ptr %r86, align 8
  %r87 = getelementptr i8, ptr %r0, i64 88
  %r88 = zext i1 %r81 to i8
  store i8 %r88, ptr %r87, align 1
  %r89 = getelementptr i8, ptr %r0, i64 96
  call void @llvm.memmove.p0.p0.i64(ptr %r89, ptr %r14, i64 8, i1 false)
  %r90 = getelementptr i8, ptr %r89, i64 8
  %r91 = getelementptr i8, ptr %r14, i64 8
  %r92 = load i8, ptr %r91, align 1
  %r93 = zext i8 %r92 to i64
  store i64 %r93, ptr %r90, align 1
  %r94 = getelementptr i8, ptr %r89, i64 16
  %r95 = getelementptr i8, ptr %r14, i64 16
  call void @llvm.memmove.p0.p0.i64(ptr %r94, ptr %r95, i64 16, i1 false)
  %r96 = getelementptr i8, ptr %r0, i64 128
  store i64 %r82, ptr %r96, align 8
  %r97 = getelementptr i8, ptr %r0, i64 136
  call void @llvm.memmove.p0.p0.i64(ptr %r97, ptr %r20, i64 32, i1 false)
  %r98 = getelementptr i8, ptr %r0, i64 168
  store i64 %r83, ptr %r98, align 8
  call void @llvm.memmove.p0.p0.i64(ptr %a0, ptr %r0, i64 176, i1 false)
  ret void
}

define internal noundef zeroext i1 @"pie_c::checked::takes_stamps"(ptr noundef %a0) #1 {
start:
  %r0 = alloca i8, align 1
  %r1 = alloca i64, align 8
  %r2 = alloca i64, align 8
  %r3 = getelementptr i8, ptr %a0, i64 168
  %r4 = load i64, ptr %r3, align 8, !noundef !0
  store i64 %r4, ptr %r1, align 8
  %r5 = load i64, ptr %r1, align 8, !noundef !0
  %r6 = urem i64 %r5, 2
  store i64 %r6, ptr %r2, align 8
  %r7 = load i64, ptr %r2, align 8, !noundef !0
  %r8 = icmp eq i64 %r7, 1
  %r9 = zext i1 %r8 to i8
  store i8 %r9, ptr %r0, align 1
  %r10 = load i8, ptr %r0, align 1, !range !1, !noundef !0
  %r11 = trunc i8 %r10 to i1
  ret i1 %r11
}

define internal void @"pie_c::checked::usual_but_delay"(ptr noundef %a0, i64 noundef %a1) #1 {
start:
  %r0 = alloca [5 x i8], align 1
  %r1 = alloca [5 x i8], align 1
  %r2 = alloca i8, align 1
  %r3 = alloca [5 x i8], align 1
  %r4 = alloca [1 x i8], align 1
  %r5 = alloca [1 x i8], align 1
  %r6 = alloca [1 x i8], align 1
  %r7 = alloca [1 x i8], align 1
  %r8 = alloca [1 x i8], align 1
  call void @llvm.memset.p0.i64(ptr %r0, i8 0, i64 5, i1 false)
  call void @llvm.memset.p0.i64(ptr %r1, i8 0, i64 5, i1 false)
  call void @llvm.memset.p0.i64(ptr %r3, i8 0, i64 5, i1 false)
  call void @llvm.memset.p0.i64(ptr %r4, i8 0, i64 1, i1 false)
  call void @llvm.memset.p0.i64(ptr %r5, i8 0, i64 1, i1 false)
  call void @llvm.memset.p0.i64(ptr %r6, i8 0, i64 1, i1 false)
  call void @llvm.memset.p0.i64(ptr %r7, i8 0, i64 1, i1 false)
  call void @llvm.memset.p0.i64(ptr %r8, i8 0, i64 1, i1 false)
  call void @"pie_params::elements::Elements::usual"(ptr %r1)
  %r9 = icmp eq i64 %a1, 1
  %r10 = zext i1 %r9 to i8
  store i8 %r10, ptr %r2, align 1
  %r11 = load i8, ptr %r2, align 1, !range !1, !noundef !0
  %r12 = trunc i8 %r11 to i1
  br i1 %r12, label %then.1, label %else.2

then.1:                                           ; preds = %start
  store i8 1, ptr %r4, align 1
  %r13 = getelementptr i8, ptr %r1, i64 1
  call void @llvm.memmove.p0.p0.i64(ptr %r5, ptr %r13, i64 1, i1 false)
  %r14 = getelementptr i8, ptr %r1, i64 2
  call void @llvm.memmove.p0.p0.i64(ptr %r6, ptr %r14, i64 1, i1 false)
  %r15 = getelementptr i8, ptr %r1, i64 3
  call void @llvm.memmove.p0.p0.i64(ptr %r7, ptr %r15, i64 1, i1 false)
  %r16 = getelementptr i8, ptr %r1, i64 4
  call void @llvm.memmove.p0.p0.i64(ptr %r8, ptr %r16, i64 1, i1 false)
  call void @llvm.memmove.p0.p0.i64(ptr %r3, ptr %r4, i64 1, i1 false)
  %r17 = getelementptr i8, ptr %r3, i64 1
  call void @llvm.memmove.p0.p0.i64(ptr %r17, ptr %r5, i64 1, i1 false)
  %r18 = getelementptr i8, ptr %r3, i64 2
  call void @llvm.memmove.p0.p0.i64(ptr %r18, ptr %r6, i64 1, i1 false)
  %r19 = getelementptr i8, ptr %r3, i64 3
  call void @llvm.memmove.p0.p0.i64(ptr %r19, ptr %r7, i64 1, i1 false)
  %r20 = getelementptr i8, ptr %r3, i64 4
  call void @llvm.memmove.p0.p0.i64(ptr %r20, ptr %r8, i64 1, i1 false)
  br label %join.3

else.2:                                           ; preds = %start
  call void @llvm.memmove.p0.p0.i64(ptr %r3, ptr %r1, i64 5, i1 false)
  br label %join.3

join.3:                                           ; preds = %else.2, %then.1
  call void @llvm.memmove.p0.p0.i64(ptr %r0, ptr %r3, i64 5, i1 false)
  call void @llvm.memmove.p0.p0.i64(ptr %a0, ptr %r0, i64 5, i1 false)
  ret void
}

define internal void @"pie_c::law::calls_are_lawful"() #1 {
start:
  call void @"pie_aqm::law::calls_keep_it_sound"()
  call void @"pie_aqm::law::calls_look_back"()
  ret void
}

define internal noundef i32 @"pie_c::opening::pie_check_params"(ptr noundef %a0) #0 {
start:
  %r0 = alloca i32, align 4
  %r1 = alloca [1 x i8], align 1
  %r2 = alloca [56 x i8], align 8
  %r3 = alloca [72 x i8], align 8
  %r4 = alloca i32, align 4
  call void @llvm.memset.p0.i64(ptr %r1, i8 0, i64 1, i1 false)
  call void @llvm.memset.p0.i64(ptr %r2, i8 0, i64 56, i1 false)
  call void @llvm.memset.p0.i64(ptr %r3, i8 0, i64 72, i1 false)
  call void @llvm.memmove.p0.p0.i64(ptr %r3, ptr %a0, i64 72, i1 false)
  call void @"pie_params::checked::Params::check"(ptr %r2, ptr %r3)
  %r5 = load i8, ptr %r2, align 1, !noundef !0
  switch i8 %r5, label %noarm.3 [
    i8 0, label %arm.1
    i8 1, label %arm.2
  ]

arm.1:                                            ; preds = %start
  store i32 0, ptr %r4, align 4
  br label %join.4

arm.2:                                            ; preds = %start
  %r6 = getelementptr i8, ptr %r2, i64 1
  call void @llvm.memmove.p0.p0.i64(ptr %r1, ptr %r6, i64 1, i1 false)
  %r7 = load i8, ptr %r1, align 1, !noundef !0
  %r8 = call i32 @"pie_abi::params::number"(i8 %r7)
  store i32 %r8, ptr %r4, align 4
  br label %join.4

join.4:                                           ; preds = %arm.2, %arm.1
  %r9 = load i32, ptr %r4, align 4, !noundef !0
  store i32 %r9, ptr %r0, align 4
  %r10 = load i32, ptr %r0, align 4, !noundef !0
  ret i32 %r10

noarm.3:                                          ; preds = %start
  unreachable
}

define internal noundef i32 @"pie_c::opening::pie_open"(ptr noundef %a0, ptr noundef %a1) #0 {
start:
  %r0 = alloca i32, align 4
  %r1 = alloca [80 x i8], align 8
  %r2 = alloca [80 x i8], align 8
  %r3 = alloca i32, align 4
  %r4 = alloca [1 x i8], align 1
  %r5 = alloca [5 x i8], align 1
  %r6 = alloca [176 x i8], align 8
  %r7 = alloca [88 x i8], align 8
  %r8 = alloca [80 x i8], align 8
  %r9 = alloca [176 x i8], align 8
  %r10 = alloca [72 x i8], align 8
  %r11 = alloca [48 x i8], align 8
  %r12 = alloca i64, align 8
  %r13 = alloca ptr, align 8
  %r14 = alloca ptr, align 8
  call void @llvm.memset.p0.i64(ptr %r1, i8 0, i64 80, i1 false)
  call void @llvm.memset.p0.i64(ptr %r2, i8 0, i64 80, i1 false)
  call void @llvm.memset.p0.i64(ptr %r4, i8 0, i64 1, i1 false)
  call void @llvm.memset.p0.i64(ptr %r5, i8 0, i64 5, i1 false)
  call void @llvm.memset.p0.i64(ptr %r6, i8 0, i64 176, i1 false)
  call void @llvm.memset.p0.i64(ptr %r7, i8 0, i64 88, i1 false)
  call void @llvm.memset.p0.i64(ptr %r8, i8 0, i64 80, i1 false)
  call void @llvm.memset.p0.i64(ptr %r9, i8 0, i64 176, i1 false)
  call void @llvm.memset.p0.i64(ptr %r10, i8 0, i64 72, i1 false)
  call void @llvm.memset.p0.i64(ptr %r11, i8 0, i64 48, i1 false)
  call void @"pie_abi::opening::checked"(ptr %r7, ptr %a1)
  %r15 = load i8, ptr %r7, align 1, !noundef !0
  switch i8 %r15, label %noarm.3 [
    i8 0, label %arm.1
    i8 1, label %arm.2
  ]

arm.1:                                            ; preds = %start
  %r16 = getelementptr i8, ptr %r7, i64 8
  call void @llvm.memmove.p0.p0.i64(ptr %r2, ptr %r16, i64 80, i1 false)
  call void @llvm.memmove.p0.p0.i64(ptr %r8, ptr %r2, i64 80, i1 false)
  br label %join.4

arm.2:                                            ; preds = %start
  %r17 = getelementptr i8, ptr %r7, i64 4
  %r18 = load i32, ptr %r17, align 4, !noundef !0
  store i32 %r18, ptr %r3, align 4
  %r19 = load i32, ptr %r3, align 4, !noundef !0
  store i32 %r19, ptr %r0, align 4
  %r20 = load i32, ptr %r0, align 4, !noundef !0
  ret i32 %r20

join.4:                                           ; preds = %arm.1
  call void @llvm.memmove.p0.p0.i64(ptr %r1, ptr %r8, i64 80, i1 false)
  %r21 = getelementptr i8, ptr %r1, i64 72
  %r22 = getelementptr i8, ptr %r21, i64 1
  call void @llvm.memmove.p0.p0.i64(ptr %r4, ptr %r22, i64 1, i1 false)
  %r23 = getelementptr i8, ptr %r1, i64 72
  %r24 = getelementptr i8, ptr %r23, i64 2
  call void @llvm.memmove.p0.p0.i64(ptr %r5, ptr %r24, i64 5, i1 false)
  %r25 = getelementptr i8, ptr %r1, i64 24
  call void @llvm.memmove.p0.p0.i64(ptr %r11, ptr %r25, i64 48, i1 false)
  call void @"pie_params::checked::Params::raw"(ptr %r10, ptr %r11)
  %r26 = load i8, ptr %r4, align 1, !noundef !0
  %r27 = load i64, ptr %r1, align 8, !noundef !0
  call void @"pie_aqm::raw::RawController::opened"(ptr %r9, i8 %r26, ptr %r5, ptr %r10, i64 %r27)
  call void @llvm.memmove.p0.p0.i64(ptr %r6, ptr %r9, i64 176, i1 false)
  call void @llvm.memmove.p0.p0.i64(ptr %r10, ptr %a1, i64 72, i1 false)
  call void @llvm.memmove.p0.p0.i64(ptr %a0, ptr %r10, i64 72, i1 false)
  %r28 = getelementptr i8, ptr %a1, i64 80
  %r29 = load i64, ptr %r28, align 8, !noundef !0
  store i64 %r29, ptr %r12, align 8
  %r30 = load i64, ptr %r12, align 8, !noundef !0
  %r31 = getelementptr i8, ptr %a0, i64 152
  store i64 %r30, ptr %r31, align 8
  %r32 = getelementptr i8, ptr %a1, i64 88
  %r33 = load i64, ptr %r32, align 8, !noundef !0
  store i64 %r33, ptr %r12, align 8
  %r34 = load i64, ptr %r12, align 8, !noundef !0
  %r35 = getelementptr i8, ptr %a0, i64 168
  store i64 %r34, ptr %r35, align 8
  store ptr %a0, ptr %r13, align 8
  store ptr %r6, ptr %r14, align 8
  %r36 = load ptr, ptr %r13, align 8, !noundef !0
  %r37 = load ptr, ptr %r14, align 8, !noundef !0
  call void @"pie_c::state::PieState::keep_registers"(ptr %r36, ptr %r37)
  call void @"pie_aqm::law::calls_keep_it_sound"()
  call void @"pie_aqm::law::calls_look_back"()
  store i32 0, ptr %r0, align 4
  %r38 = load i32, ptr %r0, align 4, !noundef !0
  ret i32 %r38

noarm.3:                                          ; preds = %start
  unreachable
}

define internal void @"pie_c::state::PieState::keep_arrived"(ptr noundef %a0, ptr noundef %a1) #1 {
start:
  %r0 = alloca i8, align 1
  %r1 = alloca i64, align 8
  %r2 = alloca i8, align 1
  %r3 = alloca ptr, align 8
  %r4 = alloca i64, align 8
  %r5 = getelementptr i8, ptr %a1, i64 88
  %r6 = load i8, ptr %r5, align 1, !range !1, !noundef !0
  %r7 = trunc i8 %r6 to i1
  %r8 = zext i1 %r7 to i8
  store i8 %r8, ptr %r0, align 1
  %r9 = load i8, ptr %r0, align 1, !range !1, !noundef !0
  %r10 = trunc i8 %r9 to i1
  br i1 %r10, label %then.2, label %else.3

then.2:                                           ; preds = %start
  %r11 = getelementptr i8, ptr %a0, i64 160
  %r12 = load i64, ptr %r11, align 8, !noundef !0
  store i64 %r12, ptr %r1, align 8
  %r13 = load i64, ptr %r1, align 8, !noundef !0
  %r14 = icmp ne i64 %r13, 1
  %r15 = zext i1 %r14 to i8
  store i8 %r15, ptr %r0, align 1
  %r16 = load i8, ptr %r0, align 1, !range !1, !noundef !0
  %r17 = trunc i8 %r16 to i1
  %r18 = zext i1 %r17 to i8
  store i8 %r18, ptr %r2, align 1
  %r19 = load i8, ptr %r2, align 1, !range !1, !noundef !0
  %r20 = trunc i8 %r19 to i1
  br i1 %r20, label %then.5, label %else.6

then.5:                                           ; preds = %then.2
  store ptr %a0, ptr %r3, align 8
  %r21 = load ptr, ptr %r3, align 8, !noundef !0
  call void @"pie_c::state::PieState::keep_registers"(ptr %r21, ptr %a1)
  ret void

dead.8:                                           ; No predecessors!
  br label %after.1

else.6:                                           ; preds = %then.2
  br label %join.7

join.7:                                           ; preds = %else.6
  br label %join.4

else.3:                                           ; preds = %start
  br label %join.4

join.4:                                           ; preds = %else.3, %join.7
  br label %after.9

after.9:                                          ; preds = %join.4
  br label %after.1

after.1:                                          ; preds = %after.9, %dead.8
  %r22 = getelementptr i8, ptr %a1, i64 168
  %r23 = load i64, ptr %r22, align 8, !noundef !0
  store i64 %r23, ptr %r4, align 8
  %r24 = load i64, ptr %r4, align 8, !noundef !0
  %r25 = getelementptr i8, ptr %a0, i64 112
  store i64 %r24, ptr %r25, align 8
  ret void
}

define internal void @"pie_c::state::PieState::keep_control"(ptr noundef %a0, ptr noundef %a1) #1 {
start:
  %r0 = alloca i64, align 8
  %r1 = getelementptr i8, ptr %a1, i64 136
  %r2 = load i64, ptr %r1, align 8, !noundef !0
  store i64 %r2, ptr %r0, align 8
  %r3 = load i64, ptr %r0, align 8, !noundef !0
  %r4 = getelementptr i8, ptr %a0, i64 80
  store i64 %r3, ptr %r4, align 8
  %r5 = getelementptr i8, ptr %a1, i64 136
  %r6 = getelementptr i8, ptr %r5, i64 8
  %r7 = load i64, ptr %r6, align 8, !noundef !0
  store i64 %r7, ptr %r0, align 8
  %r8 = load i64, ptr %r0, align 8, !noundef !0
  %r9 = getelementptr i8, ptr %a0, i64 88
  store i64 %r8, ptr %r9, align 8
  %r10 = getelementptr i8, ptr %a1, i64 136
  %r11 = getelementptr i8, ptr %r10, i64 16
  %r12 = load i64, ptr %r11, align 8, !noundef !0
  store i64 %r12, ptr %r0, align 8
  %r13 = load i64, ptr %r0, align 8, !noundef !0
  %r14 = getelementptr i8, ptr %a0, i64 96
  store i64 %r13, ptr %r14, align 8
  %r15 = getelementptr i8, ptr %a1, i64 136
  %r16 = getelementptr i8, ptr %r15, i64 24
  %r17 = load i64, ptr %r16, align 8, !noundef !0
  store i64 %r17, ptr %r0, align 8
  %r18 = load i64, ptr %r0, align 8, !noundef !0
  %r19 = getelementptr i8, ptr %a0, i64 104
  store i64 %r18, ptr %r19, align 8
  ret void
}

define internal void @"pie_c::state::PieState::keep_counted"(ptr noundef %a0, i64 noundef %a1, i64 noundef %a2) #1 {
start:
  %r0 = alloca i64, align 8
  %r1 = alloca i64, align 8
  %r2 = getelementptr i8, ptr %a0, i64 72
  %r3 = load i64, ptr %r2, align 8, !noundef !0
  store i64 %r3, ptr %r1, align 8
  %r4 = load i64, ptr %r1, align 8, !noundef !0
  %r5 = call i64 @"core::int::u64::max"(i64 %r4, i64 %a2)
  store i64 %r5, ptr %r0, align 8
  %r6 = load i64, ptr %r0, align 8, !noundef !0
  %r7 = getelementptr i8, ptr %a0, i64 72
  store i64 %r6, ptr %r7, align 8
  %r8 = getelementptr i8, ptr %a0, i64 144
  store i64 %a1, ptr %r8, align 8
  ret void
}

define internal void @"pie_c::state::PieState::keep_departed"(ptr noundef %a0, ptr noundef %a1) #1 {
start:
  %r0 = alloca i64, align 8
  %r1 = alloca i64, align 8
  %r2 = alloca i64, align 8
  %r3 = alloca [16 x i8], align 8
  %r4 = alloca i64, align 8
  %r5 = alloca [24 x i8], align 8
  %r6 = alloca [24 x i8], align 8
  call void @llvm.memset.p0.i64(ptr %r3, i8 0, i64 16, i1 false)
  call void @llvm.memset.p0.i64(ptr %r5, i8 0, i64 24, i1 false)
  call void @llvm.memset.p0.i64(ptr %r6, i8 0, i64 24, i1 false)
  %r7 = getelementptr i8, ptr %a1, i64 80
  %r8 = load i64, ptr %r7, align 8, !noundef !0
  store i64 %r8, ptr %r4, align 8
  %r9 = load i64, ptr %r4, align 8, !noundef !0
  %r10 = getelementptr i8, ptr %a0, i64 72
  store i64 %r9, ptr %r10, align 8
  %r11 = getelementptr i8, ptr %a1, i64 96
  %r12 = load i64, ptr %r11, align 8, !noundef !0
  store i64 %r12, ptr %r4, align 8
  %r13 = load i64, ptr %r4, align 8, !noundef !0
  %r14 = getelementptr i8, ptr %a0, i64 120
  store i64 %r13, ptr %r14, align 8
  %r15 = getelementptr i8, ptr %a1, i64 96
  %r16 = getelementptr i8, ptr %r15, i64 8
  %r17 = load i8, ptr %r16, align 1, !noundef !0
  switch i8 %r17, label %noarm.4 [
    i8 1, label %arm.2
    i8 0, label %arm.3
  ]

arm.2:                                            ; preds = %start
  %r18 = getelementptr i8, ptr %a1, i64 96
  %r19 = getelementptr i8, ptr %r18, i64 8
  %r20 = getelementptr i8, ptr %r19, i64 8
  call void @llvm.memmove.p0.p0.i64(ptr %r3, ptr %r20, i64 16, i1 false)
  %r21 = load i64, ptr %r3, align 8, !noundef !0
  %r22 = getelementptr i8, ptr %r3, i64 8
  %r23 = load i64, ptr %r22, align 8, !noundef !0
  store i64 1, ptr %r6, align 8
  %r24 = getelementptr i8, ptr %r6, i64 8
  store i64 %r21, ptr %r24, align 8
  %r25 = getelementptr i8, ptr %r6, i64 16
  store i64 %r23, ptr %r25, align 8
  br label %join.5

arm.3:                                            ; preds = %start
  store i64 0, ptr %r6, align 8
  %r26 = getelementptr i8, ptr %r6, i64 8
  store i64 0, ptr %r26, align 8
  %r27 = getelementptr i8, ptr %r6, i64 16
  store i64 0, ptr %r27, align 8
  br label %join.5

join.5:                                           ; preds = %arm.3, %arm.2
  call void @llvm.memmove.p0.p0.i64(ptr %r5, ptr %r6, i64 24, i1 false)
  %r28 = load i64, ptr %r5, align 8, !noundef !0
  store i64 %r28, ptr %r0, align 8
  %r29 = getelementptr i8, ptr %r5, i64 8
  %r30 = load i64, ptr %r29, align 8, !noundef !0
  store i64 %r30, ptr %r1, align 8
  %r31 = getelementptr i8, ptr %r5, i64 16
  %r32 = load i64, ptr %r31, align 8, !noundef !0
  store i64 %r32, ptr %r2, align 8
  %r33 = load i64, ptr %r0, align 8, !noundef !0
  %r34 = getelementptr i8, ptr %a0, i64 128
  store i64 %r33, ptr %r34, align 8
  %r35 = load i64, ptr %r1, align 8, !noundef !0
  %r36 = getelementptr i8, ptr %a0, i64 136
  store i64 %r35, ptr %r36, align 8
  %r37 = load i64, ptr %r2, align 8, !noundef !0
  %r38 = getelementptr i8, ptr %a0, i64 144
  store i64 %r37, ptr %r38, align 8
  br label %after.1

after.1:                                          ; preds = %join.5
  ret void

noarm.4:                                          ; preds = %start
  unreachable
}

define internal void @"pie_c::state::PieState::keep_registers"(ptr noundef %a0, ptr noundef %a1) #0 {
start:
  %r0 = alloca ptr, align 8
  %r1 = alloca ptr, align 8
  %r2 = alloca i64, align 8
  %r3 = alloca i8, align 1
  store ptr %a0, ptr %r0, align 8
  %r4 = load ptr, ptr %r0, align 8, !noundef !0
  call void @"pie_c::state::PieState::keep_departed"(ptr %r4, ptr %a1)
  store ptr %a0, ptr %r1, align 8
  %r5 = load ptr, ptr %r1, align 8, !noundef !0
  call void @"pie_c::state::PieState::keep_control"(ptr %r5, ptr %a1)
  %r6 = getelementptr i8, ptr %a1, i64 168
  %r7 = load i64, ptr %r6, align 8, !noundef !0
  store i64 %r7, ptr %r2, align 8
  %r8 = load i64, ptr %r2, align 8, !noundef !0
  %r9 = getelementptr i8, ptr %a0, i64 112
  store i64 %r8, ptr %r9, align 8
  %r10 = getelementptr i8, ptr %a1, i64 88
  %r11 = load i8, ptr %r10, align 1, !range !1, !noundef !0
  %r12 = trunc i8 %r11 to i1
  %r13 = zext i1 %r12 to i8
  store i8 %r13, ptr %r3, align 1
  %r14 = load i8, ptr %r3, align 1, !range !1, !noundef !0
  %r15 = trunc i8 %r14 to i1
  %r16 = call i64 @"core::convert::others::U64FromBool::from"(i1 %r15)
  store i64 %r16, ptr %r2, align 8
  %r17 = load i64, ptr %r2, align 8, !noundef !0
  %r18 = getelementptr i8, ptr %a0, i64 160
  store i64 %r17, ptr %r18, align 8
  %r19 = getelementptr i8, ptr %a1, i64 128
  %r20 = load i64, ptr %r19, align 8, !noundef !0
  store i64 %r20, ptr %r2, align 8
  %r21 = load i64, ptr %r2, align 8, !noundef !0
  %r22 = getelementptr i8, ptr %a0, i64 176
  store i64 %r21, ptr %r22, align 8
  ret void
}

define internal void @"pie_c::state::PieState::keep_unmeasured"(ptr noundef %a0, i64 noundef %a1) #1 {
start:
  %r0 = alloca i64, align 8
  %r1 = alloca i64, align 8
  %r2 = alloca i64, align 8
  %r3 = alloca i64, align 8
  %r4 = alloca i64, align 8
  %r5 = alloca i64, align 8
  %r6 = alloca i64, align 8
  %r7 = alloca i64, align 8
  store i64 0, ptr %r3, align 8
  store i64 0, ptr %r4, align 8
  store i64 0, ptr %r5, align 8
  %r8 = load i64, ptr %r3, align 8, !noundef !0
  store i64 %r8, ptr %r0, align 8
  %r9 = load i64, ptr %r4, align 8, !noundef !0
  store i64 %r9, ptr %r1, align 8
  %r10 = load i64, ptr %r5, align 8, !noundef !0
  store i64 %r10, ptr %r2, align 8
  %r11 = load i64, ptr %r0, align 8, !noundef !0
  %r12 = getelementptr i8, ptr %a0, i64 128
  store i64 %r11, ptr %r12, align 8
  %r13 = load i64, ptr %r1, align 8, !noundef !0
  %r14 = getelementptr i8, ptr %a0, i64 136
  store i64 %r13, ptr %r14, align 8
  %r15 = load i64, ptr %r2, align 8, !noundef !0
  %r16 = getelementptr i8, ptr %a0, i64 144
  store i64 %r15, ptr %r16, align 8
  br label %after.1

after.1:                                          ; preds = %start
  %r17 = getelementptr i8, ptr %a0, i64 72
  %r18 = load i64, ptr %r17, align 8, !noundef !0
  store i64 %r18, ptr %r7, align 8
  %r19 = load i64, ptr %r7, align 8, !noundef !0
  %r20 = call i64 @"core::int::u64::max"(i64 %r19, i64 %a1)
  store i64 %r20, ptr %r6, align 8
  %r21 = load i64, ptr %r6, align 8, !noundef !0
  %r22 = getelementptr i8, ptr %a0, i64 72
  store i64 %r21, ptr %r22, align 8
  ret void
}

define internal void @"pie_c::state::PieState::keep_updated"(ptr noundef %a0, ptr noundef %a1) #1 {
start:
  %r0 = alloca i64, align 8
  %r1 = alloca ptr, align 8
  %r2 = alloca i8, align 1
  %r3 = getelementptr i8, ptr %a1, i64 80
  %r4 = load i64, ptr %r3, align 8, !noundef !0
  store i64 %r4, ptr %r0, align 8
  %r5 = load i64, ptr %r0, align 8, !noundef !0
  %r6 = getelementptr i8, ptr %a0, i64 72
  store i64 %r5, ptr %r6, align 8
  store ptr %a0, ptr %r1, align 8
  %r7 = load ptr, ptr %r1, align 8, !noundef !0
  call void @"pie_c::state::PieState::keep_control"(ptr %r7, ptr %a1)
  %r8 = getelementptr i8, ptr %a1, i64 88
  %r9 = load i8, ptr %r8, align 1, !range !1, !noundef !0
  %r10 = trunc i8 %r9 to i1
  %r11 = zext i1 %r10 to i8
  store i8 %r11, ptr %r2, align 1
  %r12 = load i8, ptr %r2, align 1, !range !1, !noundef !0
  %r13 = trunc i8 %r12 to i1
  %r14 = call i64 @"core::convert::others::U64FromBool::from"(i1 %r13)
  store i64 %r14, ptr %r0, align 8
  %r15 = load i64, ptr %r0, align 8, !noundef !0
  %r16 = getelementptr i8, ptr %a0, i64 160
  store i64 %r15, ptr %r16, align 8
  ret void
}

define internal void @"pie_c::state::PieState::reach"(ptr noundef %a0, i64 noundef %a1) #1 {
start:
  %r0 = alloca i64, align 8
  %r1 = alloca i8, align 1
  %r2 = getelementptr i8, ptr %a0, i64 72
  %r3 = load i64, ptr %r2, align 8, !noundef !0
  store i64 %r3, ptr %r0, align 8
  %r4 = load i64, ptr %r0, align 8, !noundef !0
  %r5 = icmp ult i64 %r4, %a1
  %r6 = zext i1 %r5 to i8
  store i8 %r6, ptr %r1, align 1
  %r7 = load i8, ptr %r1, align 1, !range !1, !noundef !0
  %r8 = trunc i8 %r7 to i1
  br i1 %r8, label %then.1, label %else.2

then.1:                                           ; preds = %start
  %r9 = getelementptr i8, ptr %a0, i64 72
  store i64 %a1, ptr %r9, align 8
  br label %join.3

else.2:                                           ; preds = %start
  br label %join.3

join.3:                                           ; preds = %else.2, %then.1
  ret void
}

define internal void @"pie_c::state::PieUpdated::made"(ptr noundef %a0, i32 noundef %a1, i64 noundef %a2, ptr noundef %a3) #0 {
start:
  %r0 = alloca [40 x i8], align 8
  %r1 = alloca i64, align 8
  %r2 = alloca i64, align 8
  %r3 = alloca i64, align 8
  %r4 = alloca i64, align 8
  call void @llvm.memset.p0.i64(ptr %r0, i8 0, i64 40, i1 false)
  %r5 = call i64 @"core::convert::U64FromU32::from"(i32 %a1)
  store i64 %r5, ptr %r1, align 8
  %r6 = call i64 @"pie_aqm::raw::RawController::due"(ptr %a3)
  store i64 %r6, ptr %r2, align 8
  %r7 = getelementptr i8, ptr %a3, i64 136
  %r8 = load i64, ptr %r7, align 8, !noundef !0
  store i64 %r8, ptr %r3, align 8
  %r9 = getelementptr i8, ptr %a3, i64 136
  %r10 = getelementptr i8, ptr %r9, i64 16
  %r11 = load i64, ptr %r10, align 8, !noundef !0
  store i64 %r11, ptr %r4, align 8
  %r12 = load i64, ptr %r1, align 8, !noundef !0
  %r13 = load i64, ptr %r2, align 8, !noundef !0
  %r14 = load i64, ptr %r3, align 8, !noundef !0
  %r15 = load i64, ptr %r4, align 8, !noundef !0
  store i64 %r12, ptr %r0, align 8
  %r16 = getelementptr i8, ptr %r0, i64 8
  store i64 %r13, ptr %r16, align 8
  %r17 = getelementptr i8, ptr %r0, i64 16
  store i64 %a2, ptr %r17, align 8
  %r18 = getelementptr i8, ptr %r0, i64 24
  store i64 %r14, ptr %r18, align 8
  %r19 = getelementptr i8, ptr %r0, i64 32
  store i64 %r15, ptr %r19, align 8
  call void @llvm.memmove.p0.p0.i64(ptr %a0, ptr %r0, i64 40, i1 false)
  ret void
}

define internal void @"pie_c::state::PieUpdated::refused"(ptr noundef %a0, i32 noundef %a1) #0 {
start:
  %r0 = alloca [40 x i8], align 8
  %r1 = alloca i64, align 8
  call void @llvm.memset.p0.i64(ptr %r0, i8 0, i64 40, i1 false)
  %r2 = call i64 @"core::convert::U64FromU32::from"(i32 %a1)
  store i64 %r2, ptr %r1, align 8
  %r3 = load i64, ptr %r1, align 8, !noundef !0
  store i64 %r3, ptr %r0, align 8
  %r4 = getelementptr i8, ptr %r0, i64 8
  store i64 0, ptr %r4, align 8
  %r5 = getelementptr i8, ptr %r0, i64 16
  store i64 0, ptr %r5, align 8
  %r6 = getelementptr i8, ptr %r0, i64 24
  store i64 0, ptr %r6, align 8
  %r7 = getelementptr i8, ptr %r0, i64 32
  store i64 0, ptr %r7, align 8
  call void @llvm.memmove.p0.p0.i64(ptr %a0, ptr %r0, i64 40, i1 false)
  ret void
}

define internal noundef i32 @"pie_c::writing::pie_arrive_event"(ptr noundef %a0, i64 noundef %a1, i32 noundef %a2, ptr noundef %a3) #0 {
start:
  %r0 = alloca i32, align 4
  %r1 = alloca i32, align 4
  %r2 = alloca ptr, align 8
  %r3 = alloca i32, align 4
  %r4 = alloca i32, align 4
  %r5 = alloca i8, align 1
  %r6 = alloca i64, align 8
  %r7 = alloca i64, align 8
  %r8 = alloca ptr, align 8
  store ptr %a0, ptr %r2, align 8
  %r9 = getelementptr i8, ptr %a3, i64 48
  %r10 = load i32, ptr %r9, align 4, !noundef !0
  store i32 %r10, ptr %r3, align 4
  %r11 = getelementptr i8, ptr %a3, i64 59
  %r12 = load i8, ptr %r11, align 1, !noundef !0
  store i8 %r12, ptr %r5, align 1
  %r13 = load i8, ptr %r5, align 1, !noundef !0
  %r14 = call i32 @"core::convert::U32FromU8::from"(i8 %r13)
  store i32 %r14, ptr %r4, align 4
  %r15 = getelementptr i8, ptr %a3, i64 16
  %r16 = load i64, ptr %r15, align 8, !noundef !0
  store i64 %r16, ptr %r6, align 8
  %r17 = load i64, ptr %a3, align 8, !noundef !0
  store i64 %r17, ptr %r7, align 8
  %r18 = load ptr, ptr %r2, align 8, !noundef !0
  %r19 = load i32, ptr %r3, align 4, !noundef !0
  %r20 = load i32, ptr %r4, align 4, !noundef !0
  %r21 = load i64, ptr %r6, align 8, !noundef !0
  %r22 = load i64, ptr %r7, align 8, !noundef !0
  %r23 = call i32 @"pie_c::calls::pie_arrive"(ptr %r18, i64 %a1, i32 %r19, i32 %a2, i32 %r20, i64 %r21, i64 %r22)
  store i32 %r23, ptr %r1, align 4
  store ptr %a3, ptr %r8, align 8
  %r24 = load ptr, ptr %r8, align 8, !noundef !0
  %r25 = load i32, ptr %r1, align 4, !noundef !0
  call void @"pie_abi::event::PieEvent::fill_arrival"(ptr %r24, i32 %r25)
  %r26 = load i32, ptr %r1, align 4, !noundef !0
  store i32 %r26, ptr %r0, align 4
  %r27 = load i32, ptr %r0, align 4, !noundef !0
  ret i32 %r27
}

define internal noundef i32 @"pie_c::writing::pie_depart_event"(ptr noundef %a0, i64 noundef %a1, i64 noundef %a2, ptr noundef %a3) #0 {
start:
  %r0 = alloca i32, align 4
  %r1 = alloca i32, align 4
  %r2 = alloca ptr, align 8
  %r3 = alloca i32, align 4
  %r4 = alloca i64, align 8
  %r5 = alloca ptr, align 8
  store ptr %a0, ptr %r2, align 8
  %r6 = getelementptr i8, ptr %a3, i64 48
  %r7 = load i32, ptr %r6, align 4, !noundef !0
  store i32 %r7, ptr %r3, align 4
  %r8 = load i64, ptr %a3, align 8, !noundef !0
  store i64 %r8, ptr %r4, align 8
  %r9 = load ptr, ptr %r2, align 8, !noundef !0
  %r10 = load i32, ptr %r3, align 4, !noundef !0
  %r11 = load i64, ptr %r4, align 8, !noundef !0
  %r12 = call i32 @"pie_c::calls::pie_depart_waited"(ptr %r9, i32 %r10, i64 %a1, i64 %a2, i64 %r11)
  store i32 %r12, ptr %r1, align 4
  store ptr %a3, ptr %r5, align 8
  %r13 = load ptr, ptr %r5, align 8, !noundef !0
  %r14 = load i32, ptr %r1, align 4, !noundef !0
  call void @"pie_abi::event::PieEvent::fill_departure"(ptr %r13, i32 %r14)
  %r15 = load i32, ptr %r1, align 4, !noundef !0
  store i32 %r15, ptr %r0, align 4
  %r16 = load i32, ptr %r0, align 4, !noundef !0
  ret i32 %r16
}

define internal noundef i32 @"pie_c::writing::pie_empty_event"(ptr noundef %a0, ptr noundef %a1) #0 {
start:
  %r0 = alloca i32, align 4
  %r1 = alloca i32, align 4
  %r2 = alloca i32, align 4
  %r3 = alloca ptr, align 8
  %r4 = alloca i64, align 8
  %r5 = alloca i8, align 1
  %r6 = alloca i32, align 4
  %r7 = alloca ptr, align 8
  store ptr %a0, ptr %r3, align 8
  %r8 = load i64, ptr %a1, align 8, !noundef !0
  store i64 %r8, ptr %r4, align 8
  %r9 = load ptr, ptr %r3, align 8, !noundef !0
  %r10 = load i64, ptr %r4, align 8, !noundef !0
  %r11 = call i32 @"pie_c::calls::pie_empty"(ptr %r9, i64 %r10)
  store i32 %r11, ptr %r1, align 4
  %r12 = load i32, ptr %r1, align 4, !noundef !0
  %r13 = icmp eq i32 %r12, 0
  %r14 = zext i1 %r13 to i8
  store i8 %r14, ptr %r5, align 1
  %r15 = load i8, ptr %r5, align 1, !range !1, !noundef !0
  %r16 = trunc i8 %r15 to i1
  br i1 %r16, label %then.1, label %else.2

then.1:                                           ; preds = %start
  store i32 5, ptr %r6, align 4
  br label %join.3

else.2:                                           ; preds = %start
  %r17 = load i32, ptr %r1, align 4, !noundef !0
  store i32 %r17, ptr %r6, align 4
  br label %join.3

join.3:                                           ; preds = %else.2, %then.1
  %r18 = load i32, ptr %r6, align 4, !noundef !0
  store i32 %r18, ptr %r2, align 4
  store ptr %a1, ptr %r7, align 8
  %r19 = load ptr, ptr %r7, align 8, !noundef !0
  %r20 = load i32, ptr %r2, align 4, !noundef !0
  call void @"pie_abi::event::PieEvent::fill_other"(ptr %r19, i8 2, i32 %r20)
  %r21 = load i32, ptr %r2, align 4, !noundef !0
  store i32 %r21, ptr %r0, align 4
  %r22 = load i32, ptr %r0, align 4, !noundef !0
  ret i32 %r22
}

define internal noundef i32 @"pie_c::writing::pie_reset_event"(ptr noundef %a0, ptr noundef %a1) #0 {
start:
  %r0 = alloca i32, align 4
  %r1 = alloca i32, align 4
  %r2 = alloca ptr, align 8
  %r3 = alloca i64, align 8
  %r4 = alloca ptr, align 8
  store ptr %a0, ptr %r2, align 8
  %r5 = load i64, ptr %a1, align 8, !noundef !0
  store i64 %r5, ptr %r3, align 8
  %r6 = load ptr, ptr %r2, align 8, !noundef !0
  %r7 = load i64, ptr %r3, align 8, !noundef !0
  %r8 = call i32 @"pie_c::calls::pie_reset"(ptr %r6, i64 %r7)
  store i32 %r8, ptr %r1, align 4
  store ptr %a1, ptr %r4, align 8
  %r9 = load ptr, ptr %r4, align 8, !noundef !0
  %r10 = load i32, ptr %r1, align 4, !noundef !0
  call void @"pie_abi::event::PieEvent::fill_other"(ptr %r9, i8 4, i32 %r10)
  %r11 = load i32, ptr %r1, align 4, !noundef !0
  store i32 %r11, ptr %r0, align 4
  %r12 = load i32, ptr %r0, align 4, !noundef !0
  ret i32 %r12
}

define internal noundef i32 @"pie_c::writing::pie_set_params_event"(ptr noundef %a0, ptr noundef %a1, ptr noundef %a2) #0 {
start:
  %r0 = alloca i32, align 4
  %r1 = alloca i32, align 4
  %r2 = alloca ptr, align 8
  %r3 = alloca i64, align 8
  %r4 = alloca ptr, align 8
  store ptr %a0, ptr %r2, align 8
  %r5 = load i64, ptr %a2, align 8, !noundef !0
  store i64 %r5, ptr %r3, align 8
  %r6 = load ptr, ptr %r2, align 8, !noundef !0
  %r7 = load i64, ptr %r3, align 8, !noundef !0
  %r8 = call i32 @"pie_c::calls::pie_set_params"(ptr %r6, ptr %a1, i64 %r7)
  store i32 %r8, ptr %r1, align 4
  store ptr %a2, ptr %r4, align 8
  %r9 = load ptr, ptr %r4, align 8, !noundef !0
  %r10 = load i32, ptr %r1, align 4, !noundef !0
  call void @"pie_abi::event::PieEvent::fill_other"(ptr %r9, i8 5, i32 %r10)
  %r11 = load i32, ptr %r1, align 4, !noundef !0
  store i32 %r11, ptr %r0, align 4
  %r12 = load i32, ptr %r0, align 4, !noundef !0
  ret i32 %r12
}

define internal noundef i32 @"pie_c::writing::pie_update_event"(ptr noundef %a0, i64 noundef %a1, ptr noundef %a2) #0 {
start:
  %r0 = alloca i32, align 4
  %r1 = alloca [40 x i8], align 8
  %r2 = alloca i32, align 4
  %r3 = alloca ptr, align 8
  %r4 = alloca i64, align 8
  %r5 = alloca ptr, align 8
  %r6 = alloca i64, align 8
  %r7 = alloca i64, align 8
  %r8 = alloca i64, align 8
  call void @llvm.memset.p0.i64(ptr %r1, i8 0, i64 40, i1 false)
  store ptr %a0, ptr %r3, align 8
  %r9 = load i64, ptr %a2, align 8, !noundef !0
  store i64 %r9, ptr %r4, align 8
  %r10 = load ptr, ptr %r3, align 8, !noundef !0
  %r11 = load i64, ptr %r4, align 8, !noundef !0
  call void @"pie_c::calls::pie_update"(ptr %r1, ptr %r10, i64 %a1, i64 %r11)
  %r12 = load i64, ptr %r1, align 8, !noundef !0
  %r13 = trunc i64 %r12 to i32
  store i32 %r13, ptr %r2, align 4
  store ptr %a2, ptr %r5, align 8
  %r14 = load ptr, ptr %r5, align 8, !noundef !0
  %r15 = load i32, ptr %r2, align 4, !noundef !0
  call void @"pie_abi::event::PieEvent::fill_other"(ptr %r14, i8 3, i32 %r15)
  %r16 = getelementptr i8, ptr %r1, i64 16
  %r17 = load i64, ptr %r16, align 8, !noundef !0
  store i64 %r17, ptr %r6, align 8
  %r18 = load i64, ptr %r6, align 8, !noundef !0
  %r19 = getelementptr i8, ptr %a2, i64 24
  store i64 %r18, ptr %r19, align 8
  %r20 = getelementptr i8, ptr %r1, i64 24
  %r21 = load i64, ptr %r20, align 8, !noundef !0
  store i64 %r21, ptr %r7, align 8
  %r22 = load i64, ptr %r7, align 8, !noundef !0
  %r23 = getelementptr i8, ptr %a2, i64 32
  store i64 %r22, ptr %r23, align 8
  %r24 = getelementptr i8, ptr %r1, i64 32
  %r25 = load i64, ptr %r24, align 8, !noundef !0
  store i64 %r25, ptr %r8, align 8
  %r26 = load i64, ptr %r8, align 8, !noundef !0
  %r27 = getelementptr i8, ptr %a2, i64 40
  store i64 %r26, ptr %r27, align 8
  %r28 = load i32, ptr %r2, align 4, !noundef !0
  store i32 %r28, ptr %r0, align 4
  %r29 = load i32, ptr %r0, align 4, !noundef !0
  ret i32 %r29
}

define noundef i32 @pie_check_params(ptr noundef %a0) #0 {
start:
  %r0 = call i32 @"pie_c::opening::pie_check_params"(ptr %a0)
  ret i32 %r0
}

define internal void @"pie_control::raw::RawControl::idle"(ptr noundef %a0, i64 noundef %a1) #1 {
start:
  %r0 = getelementptr i8, ptr %a0, i64 24
  store i64 %a1, ptr %r0, align 8
  ret void
}

define internal void @"pie_control::raw::RawControl::opened"(ptr noundef %a0, i64 noundef %a1, i64 noundef %a2) #1 {
start:
  %r0 = alloca [32 x i8], align 8
  call void @llvm.memset.p0.i64(ptr %r0, i8 0, i64 32, i1 false)
  store i64 0, ptr %r0, align 8
  %r1 = getelementptr i8, ptr %r0, i64 8
  store i64 0, ptr %r1, align 8
  %r2 = getelementptr i8, ptr %r0, i64 16
  store i64 %a1, ptr %r2, align 8
  %r3 = getelementptr i8, ptr %r0, i64 24
  store i64 %a2, ptr %r3, align 8
  call void @llvm.memmove.p0.p0.i64(ptr %a0, ptr %r0, i64 32, i1 false)
  ret void
}

define internal void @"pie_control::raw::RawControl::reset"(ptr noundef %a0, i64 noundef %a1) #1 {
start:
  %r0 = alloca [32 x i8], align 8
  %r1 = alloca i64, align 8
  call void @llvm.memset.p0.i64(ptr %r0, i8 0, i64 32, i1 false)
  %r2 = getelementptr i8, ptr %a0, i64 24
  %r3 = load i64, ptr %r2, align 8, !noundef !0
  store i64 %r3, ptr %r1, align 8
  %r4 = load i64, ptr %r1, align 8, !noundef !0
  call void @"pie_control::raw::RawControl::opened"(ptr %r0, i64 %a1, i64 %r4)
  call void @llvm.memmove.p0.p0.i64(ptr %a0, ptr %r0, i64 32, i1 false)
  ret void
}

define internal noundef zeroext i1 @"pie_control::raw::RawControl::update"(ptr noundef %a0, ptr noundef %a1, ptr noundef %a2, i64 noundef %a3, i64 noundef %a4) #1 {
start:
  %r0 = alloca i8, align 1
  %r1 = alloca [5 x i8], align 1
  call void @llvm.memset.p0.i64(ptr %r1, i8 0, i64 5, i1 false)
  call void @llvm.memmove.p0.p0.i64(ptr %r1, ptr %a2, i64 5, i1 false)
  %r2 = alloca i64, align 8
  %r3 = alloca i8, align 1
  %r4 = alloca i64, align 8
  %r5 = alloca [8 x i8], align 8
  %r6 = alloca ptr, align 8
  %r7 = alloca [5 x i8], align 1
  %r8 = alloca i64, align 8
  %r9 = alloca i64, align 8
  %r10 = alloca i64, align 8
  %r11 = alloca i8, align 1
  %r12 = alloca i64, align 8
  %r13 = alloca ptr, align 8
  %r14 = alloca i64, align 8
  %r15 = alloca i64, align 8
  %r16 = alloca i64, align 8
  %r17 = alloca i64, align 8
  %r18 = alloca i64, align 8
  %r19 = alloca i64, align 8
  %r20 = alloca i64, align 8
  %r21 = alloca i8, align 1
  %r22 = alloca i64, align 8
  %r23 = alloca i64, align 8
  %r24 = alloca [32 x i8], align 8
  call void @llvm.memset.p0.i64(ptr %r5, i8 0, i64 8, i1 false)
  call void @llvm.memset.p0.i64(ptr %r7, i8 0, i64 5, i1 false)
  call void @llvm.memset.p0.i64(ptr %r24, i8 0, i64 32, i1 false)
  store ptr %a1, ptr %r6, align 8
  call void @llvm.memmove.p0.p0.i64(ptr %r7, ptr %r1, i64 5, i1 false)
  %r25 = load i64, ptr %a0, align 8, !noundef !0
  store i64 %r25, ptr %r8, align 8
  store i64 %a3, ptr %r9, align 8
  %r26 = getelementptr i8, ptr %a0, i64 8
  %r27 = load i64, ptr %r26, align 8, !noundef !0
  store i64 %r27, ptr %r10, align 8
  %r28 = load ptr, ptr %r6, align 8, !noundef !0
  %r29 = load i64, ptr %r8, align 8, !noundef !0
  %r30 = load i64, ptr %r9, align 8, !noundef !0
  %r31 = load i64, ptr %r10, align 8, !noundef !0
  %r32 = call i64 @"pie_control::update::next"(ptr %r28, ptr %r7, i64 %r29, i64 %r30, i64 %r31)
  store i64 %r32, ptr %r5, align 8
  %r33 = load i64, ptr %r5, align 8, !noundef !0
  %r34 = call i64 @"pie_fixed::units::Prob::units"(i64 %r33)
  store i64 %r34, ptr %r2, align 8
  %r35 = load i64, ptr %r2, align 8, !noundef !0
  store i64 %r35, ptr %r12, align 8
  %r36 = load i64, ptr %r12, align 8, !noundef !0
  %r37 = icmp eq i64 %r36, 0
  %r38 = zext i1 %r37 to i8
  store i8 %r38, ptr %r11, align 1
  %r39 = load i8, ptr %r11, align 1, !range !1, !noundef !0
  %r40 = trunc i8 %r39 to i1
  br i1 %r40, label %then.1, label %else.2

then.1:                                           ; preds = %start
  store ptr %a1, ptr %r13, align 8
  store i64 %a3, ptr %r14, align 8
  %r41 = getelementptr i8, ptr %a0, i64 8
  %r42 = load i64, ptr %r41, align 8, !noundef !0
  store i64 %r42, ptr %r15, align 8
  %r43 = load ptr, ptr %r13, align 8, !noundef !0
  %r44 = load i64, ptr %r14, align 8, !noundef !0
  %r45 = load i64, ptr %r15, align 8, !noundef !0
  %r46 = call i1 @"pie_control::update::are_below_half"(ptr %r43, i64 %r44, i64 %r45)
  %r47 = zext i1 %r46 to i8
  store i8 %r47, ptr %r11, align 1
  br label %join.3

else.2:                                           ; preds = %start
  br label %join.3

join.3:                                           ; preds = %else.2, %then.1
  %r48 = load i8, ptr %r11, align 1, !range !1, !noundef !0
  %r49 = trunc i8 %r48 to i1
  %r50 = zext i1 %r49 to i8
  store i8 %r50, ptr %r3, align 1
  %r51 = getelementptr i8, ptr %a0, i64 16
  %r52 = load i64, ptr %r51, align 8, !noundef !0
  store i64 %r52, ptr %r16, align 8
  %r53 = getelementptr i8, ptr %a1, i64 8
  %r54 = load i64, ptr %r53, align 8, !noundef !0
  store i64 %r54, ptr %r17, align 8
  %r55 = load i64, ptr %r16, align 8, !noundef !0
  %r56 = load i64, ptr %r17, align 8, !noundef !0
  %r57 = call i64 @"core::int::u64::saturating_sub"(i64 %r55, i64 %r56)
  store i64 %r57, ptr %r4, align 8
  %r58 = load i64, ptr %r2, align 8, !noundef !0
  store i64 %r58, ptr %r18, align 8
  store i64 %a3, ptr %r19, align 8
  %r59 = load i8, ptr %r3, align 1, !range !1, !noundef !0
  %r60 = trunc i8 %r59 to i1
  %r61 = zext i1 %r60 to i8
  store i8 %r61, ptr %r21, align 1
  %r62 = load i8, ptr %r21, align 1, !range !1, !noundef !0
  %r63 = trunc i8 %r62 to i1
  br i1 %r63, label %then.4, label %else.5

then.4:                                           ; preds = %join.3
  %r64 = getelementptr i8, ptr %a1, i64 16
  %r65 = load i64, ptr %r64, align 8, !noundef !0
  store i64 %r65, ptr %r22, align 8
  br label %join.6

else.5:                                           ; preds = %join.3
  %r66 = load i64, ptr %r4, align 8, !noundef !0
  store i64 %r66, ptr %r22, align 8
  br label %join.6

join.6:                                           ; preds = %else.5, %then.4
  %r67 = load i64, ptr %r22, align 8, !noundef !0
  store i64 %r67, ptr %r20, align 8
  store i64 %a4, ptr %r23, align 8
  %r68 = load i64, ptr %r18, align 8, !noundef !0
  %r69 = load i64, ptr %r19, align 8, !noundef !0
  %r70 = load i64, ptr %r20, align 8, !noundef !0
  %r71 = load i64, ptr %r23, align 8, !noundef !0
  store i64 %r68, ptr %r24, align 8
  %r72 = getelementptr i8, ptr %r24, i64 8
  store i64 %r69, ptr %r72, align 8
  %r73 = getelementptr i8, ptr %r24, i64 16
  store i64 %r70, ptr %r73, align 8
  %r74 = getelementptr i8, ptr %r24, i64 24
  store i64 %r71, ptr %r74, align 8
  call void @llvm.memmove.p0.p0.i64(ptr %a0, ptr %r24, i64 32, i1 false)
  %r75 = load i8, ptr %r3, align 1, !range !1, !noundef !0
  %r76 = trunc i8 %r75 to i1
  %r77 = zext i1 %r76 to i8
  store i8 %r77, ptr %r0, align 1
  %r78 = load i8, ptr %r0, align 1, !range !1, !noundef !0
  %r79 = trunc i8 %r78 to i1
  ret i1 %r79
}

define internal noundef zeroext i1 @"pie_control::update::are_below_half"(ptr noundef %a0, i64 noundef %a1, i64 noundef %a2) #1 {
start:
  %r0 = alloca i8, align 1
  %r1 = alloca i8, align 1
  %r2 = alloca i64, align 8
  %r3 = alloca i64, align 8
  %r4 = alloca i64, align 8
  %r5 = alloca i64, align 8
  %r6 = mul i64 2, %a1
  store i64 %r6, ptr %r2, align 8
  %r7 = load i64, ptr %a0, align 8, !noundef !0
  store i64 %r7, ptr %r3, align 8
  %r8 = load i64, ptr %r2, align 8, !noundef !0
  %r9 = load i64, ptr %r3, align 8, !noundef !0
  %r10 = icmp ult i64 %r8, %r9
  %r11 = zext i1 %r10 to i8
  store i8 %r11, ptr %r1, align 1
  %r12 = load i8, ptr %r1, align 1, !range !1, !noundef !0
  %r13 = trunc i8 %r12 to i1
  br i1 %r13, label %then.1, label %else.2

then.1:                                           ; preds = %start
  %r14 = mul i64 2, %a2
  store i64 %r14, ptr %r4, align 8
  %r15 = load i64, ptr %a0, align 8, !noundef !0
  store i64 %r15, ptr %r5, align 8
  %r16 = load i64, ptr %r4, align 8, !noundef !0
  %r17 = load i64, ptr %r5, align 8, !noundef !0
  %r18 = icmp ult i64 %r16, %r17
  %r19 = zext i1 %r18 to i8
  store i8 %r19, ptr %r1, align 1
  br label %join.3

else.2:                                           ; preds = %start
  br label %join.3

join.3:                                           ; preds = %else.2, %then.1
  %r20 = load i8, ptr %r1, align 1, !range !1, !noundef !0
  %r21 = trunc i8 %r20 to i1
  %r22 = zext i1 %r21 to i8
  store i8 %r22, ptr %r0, align 1
  %r23 = load i8, ptr %r0, align 1, !range !1, !noundef !0
  %r24 = trunc i8 %r23 to i1
  ret i1 %r24
}

define internal noundef i64 @"pie_control::update::as_probability"(i64 noundef %a0) #1 {
start:
  %r0 = alloca [8 x i8], align 8
  %r1 = alloca i128, align 16
  call void @llvm.memset.p0.i64(ptr %r0, i8 0, i64 8, i1 false)
  %r2 = call i128 @"core::convert::wide::I128FromI64::from"(i64 %a0)
  store i128 %r2, ptr %r1, align 16
  %r3 = load i128, ptr %r1, align 16, !noundef !0
  %r4 = call i64 @"pie_fixed::units::bounded"(i128 %r3)
  store i64 %r4, ptr %r0, align 8
  br label %return.1

return.1:                                         ; preds = %start
  %r5 = load i64, ptr %r0, align 8, !noundef !0
  ret i64 %r5
}

define internal noundef i64 @"pie_control::update::capped"(i8 noundef %a0, i64 noundef %a1, i64 noundef %a2) #1 {
start:
  %r0 = alloca i64, align 8
  %r1 = alloca [1 x i8], align 1
  call void @llvm.memset.p0.i64(ptr %r1, i8 0, i64 1, i1 false)
  store i8 %a0, ptr %r1, align 1
  %r2 = alloca i64, align 8
  %r3 = alloca i8, align 1
  %r4 = load i8, ptr %r1, align 1, !noundef !0
  switch i8 %r4, label %noarm.5 [
    i8 0, label %arm.3
    i8 1, label %arm.4
  ]

arm.3:                                            ; preds = %start
  %r5 = icmp ule i64 100000000000, %a1
  %r6 = zext i1 %r5 to i8
  store i8 %r6, ptr %r3, align 1
  %r7 = load i8, ptr %r3, align 1, !range !1, !noundef !0
  %r8 = trunc i8 %r7 to i1
  br i1 %r8, label %then.7, label %else.8

then.7:                                           ; preds = %arm.3
  %r9 = call i64 @"core::int::i64::min"(i64 %a2, i64 20000000000)
  store i64 %r9, ptr %r2, align 8
  br label %after.1

else.8:                                           ; preds = %arm.3
  br label %join.9

join.9:                                           ; preds = %else.8
  br label %after.2

arm.4:                                            ; preds = %start
  br label %after.2

join.6:                                           ; No predecessors!
  br label %after.2

after.2:                                          ; preds = %join.6, %arm.4, %join.9
  store i64 %a2, ptr %r2, align 8
  br label %after.1

after.1:                                          ; preds = %after.2, %then.7
  %r10 = load i64, ptr %r2, align 8, !noundef !0
  store i64 %r10, ptr %r0, align 8
  %r11 = load i64, ptr %r0, align 8, !noundef !0
  ret i64 %r11

noarm.5:                                          ; preds = %start
  unreachable
}

define internal noundef i64 @"pie_control::update::decayed"(i1 noundef zeroext %a0, i64 noundef %a1) #1 {
start:
  %r0 = alloca [8 x i8], align 8
  %r1 = alloca i64, align 8
  %r2 = alloca i8, align 1
  %r3 = alloca i64, align 8
  %r4 = alloca i64, align 8
  %r5 = alloca i64, align 8
  %r6 = alloca i64, align 8
  call void @llvm.memset.p0.i64(ptr %r0, i8 0, i64 8, i1 false)
  %r7 = zext i1 %a0 to i8
  store i8 %r7, ptr %r2, align 1
  %r8 = load i8, ptr %r2, align 1, !range !1, !noundef !0
  %r9 = trunc i8 %r8 to i1
  br i1 %r9, label %then.1, label %else.2

then.1:                                           ; preds = %start
  store i64 %a1, ptr %r5, align 8
  %r10 = load i64, ptr %r5, align 8, !noundef !0
  %r11 = call i64 @"core::int::i64::clamp"(i64 %r10, i64 0, i64 2000000000000)
  store i64 %r11, ptr %r4, align 8
  %r12 = load i64, ptr %r4, align 8, !noundef !0
  %r13 = mul i64 %r12, 98
  store i64 %r13, ptr %r6, align 8
  %r14 = load i64, ptr %r6, align 8, !noundef !0
  %r15 = sdiv i64 %r14, 100
  store i64 %r15, ptr %r3, align 8
  br label %join.3

else.2:                                           ; preds = %start
  store i64 %a1, ptr %r3, align 8
  br label %join.3

join.3:                                           ; preds = %else.2, %then.1
  %r16 = load i64, ptr %r3, align 8, !noundef !0
  store i64 %r16, ptr %r1, align 8
  %r17 = load i64, ptr %r1, align 8, !noundef !0
  %r18 = call i64 @"pie_control::update::as_probability"(i64 %r17)
  store i64 %r18, ptr %r0, align 8
  br label %return.4

return.4:                                         ; preds = %join.3
  %r19 = load i64, ptr %r0, align 8, !noundef !0
  ret i64 %r19
}

define internal noundef zeroext i1 @"pie_control::update::decays"(i8 noundef %a0, ptr noundef %a1, i64 noundef %a2, i64 noundef %a3) #1 {
start:
  %r0 = alloca i8, align 1
  %r1 = alloca [1 x i8], align 1
  call void @llvm.memset.p0.i64(ptr %r1, i8 0, i64 1, i1 false)
  store i8 %a0, ptr %r1, align 1
  %r2 = alloca i8, align 1
  %r3 = alloca i8, align 1
  %r4 = load i8, ptr %r1, align 1, !noundef !0
  switch i8 %r4, label %noarm.3 [
    i8 0, label %arm.1
    i8 1, label %arm.2
  ]

arm.1:                                            ; preds = %start
  %r5 = icmp eq i64 %a2, 0
  %r6 = zext i1 %r5 to i8
  store i8 %r6, ptr %r3, align 1
  %r7 = load i8, ptr %r3, align 1, !range !1, !noundef !0
  %r8 = trunc i8 %r7 to i1
  br i1 %r8, label %then.5, label %else.6

then.5:                                           ; preds = %arm.1
  %r9 = icmp eq i64 %a3, 0
  %r10 = zext i1 %r9 to i8
  store i8 %r10, ptr %r3, align 1
  br label %join.7

else.6:                                           ; preds = %arm.1
  br label %join.7

join.7:                                           ; preds = %else.6, %then.5
  %r11 = load i8, ptr %r3, align 1, !range !1, !noundef !0
  %r12 = trunc i8 %r11 to i1
  %r13 = zext i1 %r12 to i8
  store i8 %r13, ptr %r2, align 1
  br label %join.4

arm.2:                                            ; preds = %start
  %r14 = call i1 @"pie_control::update::are_below_half"(ptr %a1, i64 %a2, i64 %a3)
  %r15 = zext i1 %r14 to i8
  store i8 %r15, ptr %r2, align 1
  br label %join.4

join.4:                                           ; preds = %arm.2, %join.7
  %r16 = load i8, ptr %r2, align 1, !range !1, !noundef !0
  %r17 = trunc i8 %r16 to i1
  %r18 = zext i1 %r17 to i8
  store i8 %r18, ptr %r0, align 1
  %r19 = load i8, ptr %r0, align 1, !range !1, !noundef !0
  %r20 = trunc i8 %r19 to i1
  ret i1 %r20

noarm.3:                                          ; preds = %start
  unreachable
}

define internal noundef i64 @"pie_control::update::delay"(i64 noundef %a0, i64 noundef %a1, i64 noundef %a2) #0 {
start:
  %r0 = alloca i64, align 8
  %r1 = alloca i128, align 16
  %r2 = alloca i128, align 16
  %r3 = alloca i128, align 16
  %r4 = alloca i128, align 16
  %r5 = call i128 @"core::convert::wide::U128FromU64::from"(i64 %a0)
  store i128 %r5, ptr %r2, align 16
  %r6 = call i128 @"core::convert::wide::U128FromU64::from"(i64 %a1)
  store i128 %r6, ptr %r3, align 16
  %r7 = load i128, ptr %r2, align 16, !noundef !0
  %r8 = load i128, ptr %r3, align 16, !noundef !0
  %r9.al = trunc i128 %r7 to i64
  %r9.as = lshr i128 %r7, 64
  %r9.ah = trunc i128 %r9.as to i64
  %r9.bl = trunc i128 %r8 to i64
  %r9.bs = lshr i128 %r8, 64
  %r9.bh = trunc i128 %r9.bs to i64
  %r9.adl = and i64 %r9.al, 4294967295
  %r9.adh = lshr i64 %r9.al, 32
  %r9.bdl = and i64 %r9.bl, 4294967295
  %r9.bdh = lshr i64 %r9.bl, 32
  %r9.ll = mul i64 %r9.adl, %r9.bdl
  %r9.lh = mul i64 %r9.adl, %r9.bdh
  %r9.hl = mul i64 %r9.adh, %r9.bdl
  %r9.hh = mul i64 %r9.adh, %r9.bdh
  %r9.c1 = lshr i64 %r9.ll, 32
  %r9.m1 = add i64 %r9.hl, %r9.c1
  %r9.m2 = and i64 %r9.m1, 4294967295
  %r9.m3 = add i64 %r9.lh, %r9.m2
  %r9.c2 = lshr i64 %r9.m1, 32
  %r9.c3 = lshr i64 %r9.m3, 32
  %r9.u1 = add i64 %r9.hh, %r9.c2
  %r9.u2 = add i64 %r9.u1, %r9.c3
  %r9.low = mul i64 %r9.al, %r9.bl
  %r9.x1 = mul i64 %r9.ah, %r9.bl
  %r9.x2 = mul i64 %r9.al, %r9.bh
  %r9.u3 = add i64 %r9.u2, %r9.x1
  %r9.high = add i64 %r9.u3, %r9.x2
  %r9.jh = zext i64 %r9.high to i128
  %r9.js = shl i128 %r9.jh, 64
  %r9.jl = zext i64 %r9.low to i128
  %r9 = or i128 %r9.js, %r9.jl
  store i128 %r9, ptr %r4, align 16
  %r10 = load i128, ptr %r4, align 16, !noundef !0
  %r11 = call i128 @"pie_control::update::quotient"(i128 %r10, i64 %a2)
  store i128 %r11, ptr %r1, align 16
  %r12 = call i128 @"core::convert::wide::U128FromU64::from"(i64 1099511627776)
  store i128 %r12, ptr %r4, align 16
  %r13 = load i128, ptr %r1, align 16, !noundef !0
  %r14 = load i128, ptr %r4, align 16, !noundef !0
  %r15 = call i128 @"core::int::u128::min"(i128 %r13, i128 %r14)
  store i128 %r15, ptr %r2, align 16
  %r16 = load i128, ptr %r2, align 16, !noundef !0
  %r17 = trunc i128 %r16 to i64
  store i64 %r17, ptr %r0, align 8
  %r18 = load i64, ptr %r0, align 8, !noundef !0
  ret i64 %r18
}

define internal noundef i64 @"pie_control::update::next"(ptr noundef %a0, ptr noundef %a1, i64 noundef %a2, i64 noundef %a3, i64 noundef %a4) #1 {
start:
  %r0 = alloca [8 x i8], align 8
  %r1 = alloca [5 x i8], align 1
  call void @llvm.memset.p0.i64(ptr %r1, i8 0, i64 5, i1 false)
  call void @llvm.memmove.p0.p0.i64(ptr %r1, ptr %a1, i64 5, i1 false)
  %r2 = alloca i64, align 8
  %r3 = alloca i8, align 1
  %r4 = alloca [1 x i8], align 1
  %r5 = alloca i64, align 8
  %r6 = alloca [1 x i8], align 1
  %r7 = alloca i64, align 8
  call void @llvm.memset.p0.i64(ptr %r0, i8 0, i64 8, i1 false)
  call void @llvm.memset.p0.i64(ptr %r4, i8 0, i64 1, i1 false)
  call void @llvm.memset.p0.i64(ptr %r6, i8 0, i64 1, i1 false)
  %r8 = getelementptr i8, ptr %r1, i64 2
  call void @llvm.memmove.p0.p0.i64(ptr %r4, ptr %r8, i64 1, i1 false)
  %r9 = call i64 @"pie_control::update::raw_step"(ptr %a0, i64 %a3, i64 %a4)
  store i64 %r9, ptr %r5, align 8
  %r10 = load i8, ptr %r4, align 1, !noundef !0
  %r11 = load i64, ptr %r5, align 8, !noundef !0
  %r12 = call i64 @"pie_control::update::tuned_step"(i8 %r10, i64 %a2, i64 %r11)
  store i64 %r12, ptr %r2, align 8
  %r13 = getelementptr i8, ptr %r1, i64 4
  call void @llvm.memmove.p0.p0.i64(ptr %r6, ptr %r13, i64 1, i1 false)
  %r14 = load i8, ptr %r6, align 1, !noundef !0
  %r15 = call i1 @"pie_control::update::decays"(i8 %r14, ptr %a0, i64 %a3, i64 %a4)
  %r16 = zext i1 %r15 to i8
  store i8 %r16, ptr %r3, align 1
  store i64 %a2, ptr %r5, align 8
  %r17 = load i64, ptr %r5, align 8, !noundef !0
  %r18 = load i64, ptr %r2, align 8, !noundef !0
  %r19 = add i64 %r17, %r18
  store i64 %r19, ptr %r7, align 8
  %r20 = load i8, ptr %r3, align 1, !range !1, !noundef !0
  %r21 = trunc i8 %r20 to i1
  %r22 = load i64, ptr %r7, align 8, !noundef !0
  %r23 = call i64 @"pie_control::update::decayed"(i1 %r21, i64 %r22)
  store i64 %r23, ptr %r0, align 8
  br label %return.1

return.1:                                         ; preds = %start
  %r24 = load i64, ptr %r0, align 8, !noundef !0
  ret i64 %r24
}

define internal noundef i64 @"pie_control::update::product"(i64 noundef %a0, i64 noundef %a1) #1 {
start:
  %r0 = alloca i64, align 8
  %r1 = alloca i64, align 8
  store i64 %a0, ptr %r1, align 8
  %r2 = load i64, ptr %r1, align 8, !noundef !0
  %r3 = mul i64 %r2, %a1
  store i64 %r3, ptr %r0, align 8
  %r4 = load i64, ptr %r0, align 8, !noundef !0
  ret i64 %r4
}

define internal noundef i128 @"pie_control::update::quotient"(i128 noundef %a0, i64 noundef %a1) #1 {
start:
  %r0 = alloca i128, align 16
  %r1 = alloca i128, align 16
  %r2 = alloca i128, align 16
  %r3 = alloca i64, align 8
  switch i64 %a1, label %default.8 [
    i64 1024, label %arm.1
    i64 2048, label %arm.2
    i64 4096, label %arm.3
    i64 8192, label %arm.4
    i64 16384, label %arm.5
    i64 32768, label %arm.6
    i64 65536, label %arm.7
  ]

arm.1:                                            ; preds = %start
  %r4 = udiv i128 %a0, 1024
  store i128 %r4, ptr %r1, align 16
  br label %join.9

arm.2:                                            ; preds = %start
  %r5 = udiv i128 %a0, 2048
  store i128 %r5, ptr %r1, align 16
  br label %join.9

arm.3:                                            ; preds = %start
  %r6 = udiv i128 %a0, 4096
  store i128 %r6, ptr %r1, align 16
  br label %join.9

arm.4:                                            ; preds = %start
  %r7 = udiv i128 %a0, 8192
  store i128 %r7, ptr %r1, align 16
  br label %join.9

arm.5:                                            ; preds = %start
  %r8 = udiv i128 %a0, 16384
  store i128 %r8, ptr %r1, align 16
  br label %join.9

arm.6:                                            ; preds = %start
  %r9 = udiv i128 %a0, 32768
  store i128 %r9, ptr %r1, align 16
  br label %join.9

arm.7:                                            ; preds = %start
  %r10 = udiv i128 %a0, 65536
  store i128 %r10, ptr %r1, align 16
  br label %join.9

default.8:                                        ; preds = %start
  %r11 = call i64 @"core::int::u64::max"(i64 %a1, i64 1)
  store i64 %r11, ptr %r3, align 8
  %r12 = load i64, ptr %r3, align 8, !noundef !0
  %r13 = call i128 @"core::convert::wide::U128FromU64::from"(i64 %r12)
  store i128 %r13, ptr %r2, align 16
  %r14 = load i128, ptr %r2, align 16, !noundef !0
  %r15 = icmp eq i128 %r14, 0
  br i1 %r15, label %trap.10, label %ok.11

ok.11:                                            ; preds = %default.8
  %r16.al = trunc i128 %a0 to i64
  %r16.as = lshr i128 %a0, 64
  %r16.ah = trunc i128 %r16.as to i64
  %r16.by = trunc i128 %r14 to i64
  %r16.high = udiv i64 %r16.ah, %r16.by
  %r16.rest = urem i64 %r16.ah, %r16.by
  %r16.low = call i64 @pie_div_low(i64 %r16.rest, i64 %r16.al, i64 %r16.by)
  %r16.jh = zext i64 %r16.high to i128
  %r16.js = shl i128 %r16.jh, 64
  %r16.jl = zext i64 %r16.low to i128
  %r16 = or i128 %r16.js, %r16.jl
  store i128 %r16, ptr %r1, align 16
  br label %join.9

join.9:                                           ; preds = %ok.11, %arm.7, %arm.6, %arm.5, %arm.4, %arm.3, %arm.2, %arm.1
  %r17 = load i128, ptr %r1, align 16, !noundef !0
  store i128 %r17, ptr %r0, align 16
  %r18 = load i128, ptr %r0, align 16, !noundef !0
  ret i128 %r18

trap.10:                                          ; preds = %default.8
  ; call void @llvm.trap()
  unreachable
}

define internal noundef i64 @"pie_control::update::raw_step"(ptr noundef %a0, i64 noundef %a1, i64 noundef %a2) #1 {
start:
  %r0 = alloca i64, align 8
  %r1 = alloca i64, align 8
  %r2 = alloca i64, align 8
  %r3 = alloca i64, align 8
  %r4 = alloca i64, align 8
  %r5 = alloca i64, align 8
  %r6 = getelementptr i8, ptr %a0, i64 24
  %r7 = load i64, ptr %r6, align 8, !noundef !0
  store i64 %r7, ptr %r2, align 8
  %r8 = load i64, ptr %a0, align 8, !noundef !0
  store i64 %r8, ptr %r3, align 8
  %r9 = load i64, ptr %r2, align 8, !noundef !0
  %r10 = load i64, ptr %r3, align 8, !noundef !0
  %r11 = call i64 @"pie_control::update::weighted"(i64 %r9, i64 %a1, i64 %r10)
  store i64 %r11, ptr %r1, align 8
  %r12 = getelementptr i8, ptr %a0, i64 32
  %r13 = load i64, ptr %r12, align 8, !noundef !0
  store i64 %r13, ptr %r5, align 8
  %r14 = load i64, ptr %r5, align 8, !noundef !0
  %r15 = call i64 @"pie_control::update::weighted"(i64 %r14, i64 %a1, i64 %a2)
  store i64 %r15, ptr %r4, align 8
  %r16 = load i64, ptr %r1, align 8, !noundef !0
  %r17 = load i64, ptr %r4, align 8, !noundef !0
  %r18 = add i64 %r16, %r17
  store i64 %r18, ptr %r0, align 8
  %r19 = load i64, ptr %r0, align 8, !noundef !0
  ret i64 %r19
}

define internal noundef i64 @"pie_control::update::tuned"(i64 noundef %a0, i64 noundef %a1) #1 {
start:
  %r0 = alloca i64, align 8
  %r1 = alloca i64, align 8
  %r2 = alloca i8, align 1
  %r3 = icmp ult i64 %a0, 1000000
  %r4 = zext i1 %r3 to i8
  store i8 %r4, ptr %r2, align 1
  %r5 = load i8, ptr %r2, align 1, !range !1, !noundef !0
  %r6 = trunc i8 %r5 to i1
  br i1 %r6, label %then.2, label %else.3

then.2:                                           ; preds = %start
  %r7 = sdiv i64 %a1, 2048
  store i64 %r7, ptr %r1, align 8
  br label %after.1

else.3:                                           ; preds = %start
  br label %join.4

join.4:                                           ; preds = %else.3
  %r8 = icmp ult i64 %a0, 10000000
  %r9 = zext i1 %r8 to i8
  store i8 %r9, ptr %r2, align 1
  %r10 = load i8, ptr %r2, align 1, !range !1, !noundef !0
  %r11 = trunc i8 %r10 to i1
  br i1 %r11, label %then.5, label %else.6

then.5:                                           ; preds = %join.4
  %r12 = sdiv i64 %a1, 512
  store i64 %r12, ptr %r1, align 8
  br label %after.1

else.6:                                           ; preds = %join.4
  br label %join.7

join.7:                                           ; preds = %else.6
  %r13 = icmp ult i64 %a0, 100000000
  %r14 = zext i1 %r13 to i8
  store i8 %r14, ptr %r2, align 1
  %r15 = load i8, ptr %r2, align 1, !range !1, !noundef !0
  %r16 = trunc i8 %r15 to i1
  br i1 %r16, label %then.8, label %else.9

then.8:                                           ; preds = %join.7
  %r17 = sdiv i64 %a1, 128
  store i64 %r17, ptr %r1, align 8
  br label %after.1

else.9:                                           ; preds = %join.7
  br label %join.10

join.10:                                          ; preds = %else.9
  %r18 = icmp ult i64 %a0, 1000000000
  %r19 = zext i1 %r18 to i8
  store i8 %r19, ptr %r2, align 1
  %r20 = load i8, ptr %r2, align 1, !range !1, !noundef !0
  %r21 = trunc i8 %r20 to i1
  br i1 %r21, label %then.11, label %else.12

then.11:                                          ; preds = %join.10
  %r22 = sdiv i64 %a1, 32
  store i64 %r22, ptr %r1, align 8
  br label %after.1

else.12:                                          ; preds = %join.10
  br label %join.13

join.13:                                          ; preds = %else.12
  %r23 = icmp ult i64 %a0, 10000000000
  %r24 = zext i1 %r23 to i8
  store i8 %r24, ptr %r2, align 1
  %r25 = load i8, ptr %r2, align 1, !range !1, !noundef !0
  %r26 = trunc i8 %r25 to i1
  br i1 %r26, label %then.14, label %else.15

then.14:                                          ; preds = %join.13
  %r27 = sdiv i64 %a1, 8
  store i64 %r27, ptr %r1, align 8
  br label %after.1

else.15:                                          ; preds = %join.13
  br label %join.16

join.16:                                          ; preds = %else.15
  %r28 = icmp ult i64 %a0, 100000000000
  %r29 = zext i1 %r28 to i8
  store i8 %r29, ptr %r2, align 1
  %r30 = load i8, ptr %r2, align 1, !range !1, !noundef !0
  %r31 = trunc i8 %r30 to i1
  br i1 %r31, label %then.17, label %else.18

then.17:                                          ; preds = %join.16
  %r32 = sdiv i64 %a1, 2
  store i64 %r32, ptr %r1, align 8
  br label %after.1

else.18:                                          ; preds = %join.16
  br label %join.19

join.19:                                          ; preds = %else.18
  %r33 = sdiv i64 %a1, 1
  store i64 %r33, ptr %r1, align 8
  br label %after.1

after.1:                                          ; preds = %join.19, %then.17, %then.14, %then.11, %then.8, %then.5, %then.2
  %r34 = load i64, ptr %r1, align 8, !noundef !0
  store i64 %r34, ptr %r0, align 8
  %r35 = load i64, ptr %r0, align 8, !noundef !0
  ret i64 %r35
}

define internal noundef i64 @"pie_control::update::tuned_step"(i8 noundef %a0, i64 noundef %a1, i64 noundef %a2) #1 {
start:
  %r0 = alloca i64, align 8
  %r1 = alloca [1 x i8], align 1
  call void @llvm.memset.p0.i64(ptr %r1, i8 0, i64 1, i1 false)
  store i8 %a0, ptr %r1, align 1
  %r2 = alloca i64, align 8
  %r3 = call i64 @"pie_control::update::tuned"(i64 %a1, i64 %a2)
  store i64 %r3, ptr %r2, align 8
  %r4 = load i8, ptr %r1, align 1, !noundef !0
  %r5 = load i64, ptr %r2, align 8, !noundef !0
  %r6 = call i64 @"pie_control::update::capped"(i8 %r4, i64 %a1, i64 %r5)
  store i64 %r6, ptr %r0, align 8
  %r7 = load i64, ptr %r0, align 8, !noundef !0
  ret i64 %r7
}

define internal noundef i64 @"pie_control::update::weighted"(i64 noundef %a0, i64 noundef %a1, i64 noundef %a2) #1 {
start:
  %r0 = alloca i64, align 8
  %r1 = alloca i64, align 8
  %r2 = alloca i64, align 8
  %r3 = alloca i64, align 8
  store i64 %a1, ptr %r1, align 8
  store i64 %a2, ptr %r2, align 8
  %r4 = load i64, ptr %r1, align 8, !noundef !0
  %r5 = load i64, ptr %r2, align 8, !noundef !0
  %r6 = sub i64 %r4, %r5
  store i64 %r6, ptr %r3, align 8
  %r7 = load i64, ptr %r3, align 8, !noundef !0
  %r8 = call i64 @"pie_control::update::product"(i64 %a0, i64 %r7)
  store i64 %r8, ptr %r0, align 8
  %r9 = load i64, ptr %r0, align 8, !noundef !0
  ret i64 %r9
}

define noundef i32 @pie_depart_event(ptr noundef %a0, i64 noundef %a1, i64 noundef %a2, ptr noundef %a3) #0 {
start:
  %r0 = call i32 @"pie_c::writing::pie_depart_event"(ptr %a0, i64 %a1, i64 %a2, ptr %a3)
  ret i32 %r0
}

define noundef i64 @pie_due(ptr noundef %a0) #0 {
start:
  %r0 = call i64 @"pie_c::calls::pie_due"(ptr %a0)
  ret i64 %r0
}

define internal noundef { i8, i64 } @"pie_early::decision::decide"(ptr noundef %a0, ptr noundef %a1, ptr noundef %a2, ptr noundef %a3, i64 noundef %a4) #1 {
start:
  %r0 = alloca [16 x i8], align 8
  %r1 = alloca [5 x i8], align 1
  call void @llvm.memset.p0.i64(ptr %r1, i8 0, i64 5, i1 false)
  call void @llvm.memmove.p0.p0.i64(ptr %r1, ptr %a1, i64 5, i1 false)
  %r2 = alloca [24 x i8], align 8
  call void @llvm.memset.p0.i64(ptr %r2, i8 0, i64 24, i1 false)
  call void @llvm.memmove.p0.p0.i64(ptr %r2, ptr %a3, i64 24, i1 false)
  %r3 = alloca [1 x i8], align 1
  %r4 = alloca i64, align 8
  %r5 = alloca [2 x i8], align 1
  %r6 = alloca [1 x i8], align 1
  %r7 = alloca i64, align 8
  call void @llvm.memset.p0.i64(ptr %r0, i8 0, i64 16, i1 false)
  call void @llvm.memset.p0.i64(ptr %r3, i8 0, i64 1, i1 false)
  call void @llvm.memset.p0.i64(ptr %r5, i8 0, i64 2, i1 false)
  call void @llvm.memset.p0.i64(ptr %r6, i8 0, i64 1, i1 false)
  %r8 = load i64, ptr %r2, align 8, !noundef !0
  %r9 = call { i8, i8 } @"pie_early::decision::unconsidered"(ptr %a0, ptr %a2, i64 %r8)
  %r10 = extractvalue { i8, i8 } %r9, 0
  %r11 = extractvalue { i8, i8 } %r9, 1
  store i8 %r10, ptr %r5, align 1
  %r12 = getelementptr i8, ptr %r5, i64 1
  store i8 %r11, ptr %r12, align 1
  %r13 = load i8, ptr %r5, align 1, !noundef !0
  switch i8 %r13, label %noarm.3 [
    i8 1, label %arm.1
    i8 0, label %arm.2
  ]

arm.1:                                            ; preds = %start
  %r14 = getelementptr i8, ptr %r5, i64 1
  call void @llvm.memmove.p0.p0.i64(ptr %r3, ptr %r14, i64 1, i1 false)
  call void @llvm.memmove.p0.p0.i64(ptr %r0, ptr %r3, i64 1, i1 false)
  %r15 = getelementptr i8, ptr %r0, i64 8
  store i64 %a4, ptr %r15, align 8
  br label %return.5

arm.2:                                            ; preds = %start
  br label %join.4

join.4:                                           ; preds = %arm.2
  %r16 = getelementptr i8, ptr %r1, i64 3
  call void @llvm.memmove.p0.p0.i64(ptr %r6, ptr %r16, i64 1, i1 false)
  %r17 = load i64, ptr %a2, align 8, !noundef !0
  store i64 %r17, ptr %r7, align 8
  %r18 = load i8, ptr %r6, align 1, !noundef !0
  %r19 = getelementptr i8, ptr %r2, i64 8
  %r20 = load i32, ptr %r19, align 4, !noundef !0
  %r21 = load i64, ptr %r7, align 8, !noundef !0
  %r22 = call i64 @"pie_early::decision::effective_prob"(i8 %r18, ptr %a0, i32 %r20, i64 %r21)
  store i64 %r22, ptr %r4, align 8
  %r23 = load i64, ptr %a2, align 8, !noundef !0
  store i64 %r23, ptr %r7, align 8
  %r24 = load i64, ptr %r7, align 8, !noundef !0
  %r25 = load i64, ptr %r4, align 8, !noundef !0
  %r26 = call { i8, i64 } @"pie_early::decision::decide_considered"(ptr %a0, ptr %r1, i64 %r24, ptr %r2, i64 %r25, i64 %a4)
  %r27 = extractvalue { i8, i64 } %r26, 0
  %r28 = extractvalue { i8, i64 } %r26, 1
  store i8 %r27, ptr %r0, align 1
  %r29 = getelementptr i8, ptr %r0, i64 8
  store i64 %r28, ptr %r29, align 8
  br label %return.5

return.5:                                         ; preds = %join.4, %arm.1
  %r30 = load { i8, i64 }, ptr %r0, align 8
  ret { i8, i64 } %r30

noarm.3:                                          ; preds = %start
  unreachable
}

define internal noundef { i8, i64 } @"pie_early::decision::decide_considered"(ptr noundef %a0, ptr noundef %a1, i64 noundef %a2, ptr noundef %a3, i64 noundef %a4, i64 noundef %a5) #1 {
start:
  %r0 = alloca [16 x i8], align 8
  %r1 = alloca [5 x i8], align 1
  call void @llvm.memset.p0.i64(ptr %r1, i8 0, i64 5, i1 false)
  call void @llvm.memmove.p0.p0.i64(ptr %r1, ptr %a1, i64 5, i1 false)
  %r2 = alloca [24 x i8], align 8
  call void @llvm.memset.p0.i64(ptr %r2, i8 0, i64 24, i1 false)
  call void @llvm.memmove.p0.p0.i64(ptr %r2, ptr %a3, i64 24, i1 false)
  %r3 = alloca [16 x i8], align 8
  %r4 = alloca i64, align 8
  %r5 = alloca i64, align 8
  %r6 = alloca i64, align 8
  %r7 = alloca i64, align 8
  %r8 = alloca i8, align 1
  %r9 = alloca [1 x i8], align 1
  %r10 = alloca [16 x i8], align 8
  %r11 = alloca i64, align 8
  %r12 = alloca i64, align 8
  %r13 = alloca [16 x i8], align 8
  %r14 = alloca i64, align 8
  %r15 = alloca i8, align 1
  %r16 = alloca [1 x i8], align 1
  %r17 = alloca i64, align 8
  %r18 = alloca i8, align 1
  %r19 = alloca i64, align 8
  %r20 = alloca i8, align 1
  %r21 = alloca i64, align 8
  %r22 = alloca i64, align 8
  %r23 = alloca i8, align 1
  %r24 = alloca [1 x i8], align 1
  %r25 = alloca i64, align 8
  %r26 = alloca i64, align 8
  %r27 = alloca i64, align 8
  %r28 = alloca i8, align 1
  %r29 = alloca [1 x i8], align 1
  %r30 = alloca i64, align 8
  %r31 = alloca i64, align 8
  %r32 = alloca i64, align 8
  %r33 = alloca [16 x i8], align 8
  %r34 = alloca ptr, align 8
  %r35 = alloca i64, align 8
  %r36 = alloca [1 x i8], align 1
  %r37 = alloca [48 x i8], align 8
  %r38 = alloca [1 x i8], align 1
  %r39 = alloca i64, align 8
  %r40 = alloca i64, align 8
  %r41 = alloca [16 x i8], align 8
  %r42 = alloca ptr, align 8
  %r43 = alloca i64, align 8
  %r44 = alloca [1 x i8], align 1
  %r45 = alloca [48 x i8], align 8
  call void @llvm.memset.p0.i64(ptr %r0, i8 0, i64 16, i1 false)
  call void @llvm.memset.p0.i64(ptr %r3, i8 0, i64 16, i1 false)
  call void @llvm.memset.p0.i64(ptr %r9, i8 0, i64 1, i1 false)
  call void @llvm.memset.p0.i64(ptr %r10, i8 0, i64 16, i1 false)
  call void @llvm.memset.p0.i64(ptr %r13, i8 0, i64 16, i1 false)
  call void @llvm.memset.p0.i64(ptr %r16, i8 0, i64 1, i1 false)
  call void @llvm.memset.p0.i64(ptr %r24, i8 0, i64 1, i1 false)
  call void @llvm.memset.p0.i64(ptr %r29, i8 0, i64 1, i1 false)
  call void @llvm.memset.p0.i64(ptr %r33, i8 0, i64 16, i1 false)
  call void @llvm.memset.p0.i64(ptr %r36, i8 0, i64 1, i1 false)
  call void @llvm.memset.p0.i64(ptr %r37, i8 0, i64 48, i1 false)
  call void @llvm.memset.p0.i64(ptr %r38, i8 0, i64 1, i1 false)
  call void @llvm.memset.p0.i64(ptr %r41, i8 0, i64 16, i1 false)
  call void @llvm.memset.p0.i64(ptr %r44, i8 0, i64 1, i1 false)
  call void @llvm.memset.p0.i64(ptr %r45, i8 0, i64 48, i1 false)
  store i64 %a4, ptr %r7, align 8
  %r46 = load i64, ptr %r7, align 8, !noundef !0
  %r47 = icmp eq i64 %r46, 0
  %r48 = zext i1 %r47 to i8
  store i8 %r48, ptr %r8, align 1
  %r49 = load i8, ptr %r8, align 1, !range !1, !noundef !0
  %r50 = trunc i8 %r49 to i1
  br i1 %r50, label %then.1, label %else.2

then.1:                                           ; preds = %start
  store i8 6, ptr %r9, align 1
  call void @llvm.memmove.p0.p0.i64(ptr %r0, ptr %r9, i64 1, i1 false)
  %r51 = getelementptr i8, ptr %r0, i64 8
  store i64 0, ptr %r51, align 8
  br label %return.4

else.2:                                           ; preds = %start
  br label %join.3

join.3:                                           ; preds = %else.2
  %r52 = getelementptr i8, ptr %r1, i64 1
  %r53 = load i8, ptr %r52, align 1, !noundef !0
  switch i8 %r53, label %noarm.7 [
    i8 1, label %arm.5
    i8 0, label %arm.6
  ]

arm.5:                                            ; preds = %join.3
  store i64 1, ptr %r10, align 1
  %r54 = getelementptr i8, ptr %r10, i64 8
  store i64 850000000000, ptr %r54, align 8
  br label %join.8

arm.6:                                            ; preds = %join.3
  store i64 %a5, ptr %r11, align 8
  store i64 %a4, ptr %r12, align 8
  %r55 = load i64, ptr %r11, align 8, !noundef !0
  %r56 = load i64, ptr %r12, align 8, !noundef !0
  %r57 = call { i8, i64 } @"core::int::checked::u64::checked_add"(i64 %r55, i64 %r56)
  %r58 = extractvalue { i8, i64 } %r57, 0
  %r59 = extractvalue { i8, i64 } %r57, 1
  %r60 = zext i8 %r58 to i64
  store i64 %r60, ptr %r10, align 1
  %r61 = getelementptr i8, ptr %r10, i64 8
  store i64 %r59, ptr %r61, align 8
  br label %join.8

join.8:                                           ; preds = %arm.6, %arm.5
  %r62 = load i8, ptr %r10, align 1
  %r63 = zext i8 %r62 to i64
  store i64 %r63, ptr %r3, align 1
  %r64 = getelementptr i8, ptr %r3, i64 8
  %r65 = getelementptr i8, ptr %r10, i64 8
  call void @llvm.memmove.p0.p0.i64(ptr %r64, ptr %r65, i64 8, i1 false)
  %r66 = load i8, ptr %r3, align 1, !noundef !0
  switch i8 %r66, label %noarm.7 [
    i8 1, label %arm.11
    i8 0, label %arm.12
  ]

arm.11:                                           ; preds = %join.8
  %r67 = getelementptr i8, ptr %r3, i64 8
  %r68 = load i64, ptr %r67, align 8, !noundef !0
  store i64 %r68, ptr %r4, align 8
  %r69 = load i64, ptr %r4, align 8, !noundef !0
  store i64 %r69, ptr %r14, align 8
  %r70 = load i64, ptr %r14, align 8, !noundef !0
  %r71 = icmp ult i64 %r70, 850000000000
  %r72 = zext i1 %r71 to i8
  store i8 %r72, ptr %r15, align 1
  %r73 = load i8, ptr %r15, align 1, !range !1, !noundef !0
  %r74 = trunc i8 %r73 to i1
  br i1 %r74, label %then.14, label %else.15

then.14:                                          ; preds = %arm.11
  store i8 7, ptr %r16, align 1
  %r75 = load i64, ptr %r4, align 8, !noundef !0
  store i64 %r75, ptr %r17, align 8
  %r76 = load i64, ptr %r17, align 8, !noundef !0
  call void @llvm.memmove.p0.p0.i64(ptr %r13, ptr %r16, i64 1, i1 false)
  %r77 = getelementptr i8, ptr %r13, i64 8
  store i64 %r76, ptr %r77, align 8
  br label %after.9

else.15:                                          ; preds = %arm.11
  br label %join.16

join.16:                                          ; preds = %else.15
  %r78 = getelementptr i8, ptr %r3, i64 8
  %r79 = load i64, ptr %r78, align 8, !noundef !0
  store i64 %r79, ptr %r5, align 8
  %r80 = load i64, ptr %r5, align 8, !noundef !0
  store i64 %r80, ptr %r19, align 8
  %r81 = load i64, ptr %r19, align 8, !noundef !0
  %r82 = icmp ult i64 %r81, 8500000000000
  %r83 = zext i1 %r82 to i8
  store i8 %r83, ptr %r18, align 1
  %r84 = load i8, ptr %r18, align 1, !range !1, !noundef !0
  %r85 = trunc i8 %r84 to i1
  br i1 %r85, label %then.17, label %else.18

then.17:                                          ; preds = %join.16
  %r86 = getelementptr i8, ptr %r2, i64 16
  %r87 = load i64, ptr %r86, align 8, !noundef !0
  store i64 %r87, ptr %r21, align 8
  store i64 %a4, ptr %r22, align 8
  %r88 = load i64, ptr %r21, align 8, !noundef !0
  %r89 = load i64, ptr %r22, align 8, !noundef !0
  %r90 = call i1 @"pie_early::decision::is_below"(i64 %r88, i64 %r89)
  %r91 = zext i1 %r90 to i8
  store i8 %r91, ptr %r20, align 1
  %r92 = load i8, ptr %r20, align 1, !range !1, !noundef !0
  %r93 = trunc i8 %r92 to i1
  %r94 = xor i1 %r93, true
  %r95 = zext i1 %r94 to i8
  store i8 %r95, ptr %r18, align 1
  %r96 = load i8, ptr %r18, align 1, !range !1, !noundef !0
  %r97 = trunc i8 %r96 to i1
  %r98 = zext i1 %r97 to i8
  store i8 %r98, ptr %r23, align 1
  %r99 = load i8, ptr %r23, align 1, !range !1, !noundef !0
  %r100 = trunc i8 %r99 to i1
  br i1 %r100, label %then.20, label %else.21

then.20:                                          ; preds = %then.17
  store i8 14, ptr %r24, align 1
  %r101 = getelementptr i8, ptr %r1, i64 1
  %r102 = load i8, ptr %r101, align 1, !noundef !0
  switch i8 %r102, label %noarm.7 [
    i8 1, label %arm.23
    i8 0, label %arm.24
  ]

arm.23:                                           ; preds = %then.20
  store i64 %a5, ptr %r26, align 8
  br label %join.25

arm.24:                                           ; preds = %then.20
  %r103 = load i64, ptr %r5, align 8, !noundef !0
  store i64 %r103, ptr %r26, align 8
  br label %join.25

join.25:                                          ; preds = %arm.24, %arm.23
  %r104 = load i64, ptr %r26, align 8, !noundef !0
  store i64 %r104, ptr %r25, align 8
  %r105 = load i64, ptr %r25, align 8, !noundef !0
  call void @llvm.memmove.p0.p0.i64(ptr %r13, ptr %r24, i64 1, i1 false)
  %r106 = getelementptr i8, ptr %r13, i64 8
  store i64 %r105, ptr %r106, align 8
  br label %after.9

else.21:                                          ; preds = %then.17
  br label %join.22

join.22:                                          ; preds = %else.21
  br label %join.19

else.18:                                          ; preds = %join.16
  br label %join.19

join.19:                                          ; preds = %else.18, %join.22
  %r107 = getelementptr i8, ptr %r3, i64 8
  %r108 = load i64, ptr %r107, align 8, !noundef !0
  store i64 %r108, ptr %r6, align 8
  %r109 = load i64, ptr %r6, align 8, !noundef !0
  store i64 %r109, ptr %r27, align 8
  %r110 = load i64, ptr %r27, align 8, !noundef !0
  %r111 = icmp ult i64 %r110, 8500000000000
  %r112 = zext i1 %r111 to i8
  store i8 %r112, ptr %r28, align 1
  %r113 = load i8, ptr %r28, align 1, !range !1, !noundef !0
  %r114 = trunc i8 %r113 to i1
  br i1 %r114, label %then.26, label %else.27

then.26:                                          ; preds = %join.19
  store i64 %a5, ptr %r30, align 8
  store i64 %a4, ptr %r31, align 8
  %r115 = getelementptr i8, ptr %r2, i64 16
  %r116 = load i64, ptr %r115, align 8, !noundef !0
  store i64 %r116, ptr %r32, align 8
  store ptr %a0, ptr %r34, align 8
  store i64 %a2, ptr %r35, align 8
  %r117 = getelementptr i8, ptr %r2, i64 12
  call void @llvm.memmove.p0.p0.i64(ptr %r36, ptr %r117, i64 1, i1 false)
  %r118 = load ptr, ptr %r34, align 8, !noundef !0
  %r119 = load i64, ptr %r35, align 8, !noundef !0
  %r120 = load i8, ptr %r36, align 1, !noundef !0
  %r121 = call { i8, i64 } @"pie_early::decision::fate_of"(ptr %r118, i64 %r119, i8 %r120)
  %r122 = extractvalue { i8, i64 } %r121, 0
  %r123 = extractvalue { i8, i64 } %r121, 1
  %r124 = zext i8 %r122 to i64
  store i64 %r124, ptr %r33, align 1
  %r125 = getelementptr i8, ptr %r33, i64 8
  store i64 %r123, ptr %r125, align 8
  %r126 = load i64, ptr %r30, align 8, !noundef !0
  %r127 = load i64, ptr %r31, align 8, !noundef !0
  %r128 = load i64, ptr %r32, align 8, !noundef !0
  store i64 9, ptr %r37, align 1
  %r129 = getelementptr i8, ptr %r37, i64 8
  store i64 %r126, ptr %r129, align 8
  %r130 = getelementptr i8, ptr %r37, i64 16
  store i64 %r127, ptr %r130, align 8
  %r131 = getelementptr i8, ptr %r37, i64 24
  store i64 %r128, ptr %r131, align 8
  %r132 = getelementptr i8, ptr %r37, i64 32
  %r133 = load i8, ptr %r33, align 1
  %r134 = zext i8 %r133 to i64
  store i64 %r134, ptr %r132, align 1
  %r135 = getelementptr i8, ptr %r132, i64 8
  %r136 = getelementptr i8, ptr %r33, i64 8
  call void @llvm.memmove.p0.p0.i64(ptr %r135, ptr %r136, i64 8, i1 false)
  %r137 = call i8 @"pie_event::cause::Cause::name"(ptr %r37)
  store i8 %r137, ptr %r29, align 1
  call void @llvm.memmove.p0.p0.i64(ptr %r13, ptr %r29, i64 1, i1 false)
  %r138 = getelementptr i8, ptr %r13, i64 8
  store i64 0, ptr %r138, align 8
  br label %after.9

else.27:                                          ; preds = %join.19
  br label %join.28

join.28:                                          ; preds = %else.27
  br label %after.10

arm.12:                                           ; preds = %join.8
  br label %after.10

join.13:                                          ; No predecessors!
  br label %after.10

after.10:                                         ; preds = %join.13, %arm.12, %join.28
  store i64 %a5, ptr %r39, align 8
  store i64 %a4, ptr %r40, align 8
  store ptr %a0, ptr %r42, align 8
  store i64 %a2, ptr %r43, align 8
  %r139 = getelementptr i8, ptr %r2, i64 12
  call void @llvm.memmove.p0.p0.i64(ptr %r44, ptr %r139, i64 1, i1 false)
  %r140 = load ptr, ptr %r42, align 8, !noundef !0
  %r141 = load i64, ptr %r43, align 8, !noundef !0
  %r142 = load i8, ptr %r44, align 1, !noundef !0
  %r143 = call { i8, i64 } @"pie_early::decision::fate_of"(ptr %r140, i64 %r141, i8 %r142)
  %r144 = extractvalue { i8, i64 } %r143, 0
  %r145 = extractvalue { i8, i64 } %r143, 1
  %r146 = zext i8 %r144 to i64
  store i64 %r146, ptr %r41, align 1
  %r147 = getelementptr i8, ptr %r41, i64 8
  store i64 %r145, ptr %r147, align 8
  %r148 = load i64, ptr %r39, align 8, !noundef !0
  %r149 = load i64, ptr %r40, align 8, !noundef !0
  store i64 8, ptr %r45, align 1
  %r150 = getelementptr i8, ptr %r45, i64 8
  store i64 %r148, ptr %r150, align 8
  %r151 = getelementptr i8, ptr %r45, i64 16
  store i64 %r149, ptr %r151, align 8
  %r152 = getelementptr i8, ptr %r45, i64 24
  %r153 = load i8, ptr %r41, align 1
  %r154 = zext i8 %r153 to i64
  store i64 %r154, ptr %r152, align 1
  %r155 = getelementptr i8, ptr %r152, i64 8
  %r156 = getelementptr i8, ptr %r41, i64 8
  call void @llvm.memmove.p0.p0.i64(ptr %r155, ptr %r156, i64 8, i1 false)
  %r157 = call i8 @"pie_event::cause::Cause::name"(ptr %r45)
  store i8 %r157, ptr %r38, align 1
  call void @llvm.memmove.p0.p0.i64(ptr %r13, ptr %r38, i64 1, i1 false)
  %r158 = getelementptr i8, ptr %r13, i64 8
  store i64 0, ptr %r158, align 8
  br label %after.9

after.9:                                          ; preds = %after.10, %then.26, %join.25, %then.14
  call void @llvm.memmove.p0.p0.i64(ptr %r0, ptr %r13, i64 16, i1 false)
  br label %return.4

return.4:                                         ; preds = %after.9, %then.1
  %r159 = load { i8, i64 }, ptr %r0, align 8
  ret { i8, i64 } %r159

noarm.7:                                          ; preds = %then.20, %join.8, %join.3
  unreachable
}

define internal noundef i64 @"pie_early::decision::effective_prob"(i8 noundef %a0, ptr noundef %a1, i32 noundef %a2, i64 noundef %a3) #1 {
start:
  %r0 = alloca i64, align 8
  %r1 = alloca [1 x i8], align 1
  call void @llvm.memset.p0.i64(ptr %r1, i8 0, i64 1, i1 false)
  store i8 %a0, ptr %r1, align 1
  %r2 = alloca i64, align 8
  %r3 = load i8, ptr %r1, align 1, !noundef !0
  switch i8 %r3, label %noarm.3 [
    i8 0, label %arm.1
    i8 1, label %arm.2
  ]

arm.1:                                            ; preds = %start
  store i64 %a3, ptr %r2, align 8
  br label %join.4

arm.2:                                            ; preds = %start
  %r4 = call i64 @"pie_early::decision::scaled"(ptr %a1, i32 %a2, i64 %a3)
  store i64 %r4, ptr %r2, align 8
  br label %join.4

join.4:                                           ; preds = %arm.2, %arm.1
  %r5 = load i64, ptr %r2, align 8, !noundef !0
  store i64 %r5, ptr %r0, align 8
  %r6 = load i64, ptr %r0, align 8, !noundef !0
  ret i64 %r6

noarm.3:                                          ; preds = %start
  unreachable
}

define internal { i8, i64 } @"pie_early::decision::fate_of"(ptr noundef %a0, i64 noundef %a1, i8 noundef %a2) #1 {
start:
  %r0 = alloca [16 x i8], align 8
  %r1 = alloca [1 x i8], align 1
  call void @llvm.memset.p0.i64(ptr %r1, i8 0, i64 1, i1 false)
  store i8 %a2, ptr %r1, align 1
  %r2 = alloca i64, align 8
  %r3 = alloca i8, align 1
  %r4 = alloca i8, align 1
  %r5 = alloca [16 x i8], align 8
  %r6 = alloca i8, align 1
  %r7 = alloca [16 x i8], align 8
  call void @llvm.memset.p0.i64(ptr %r0, i8 0, i64 16, i1 false)
  call void @llvm.memset.p0.i64(ptr %r5, i8 0, i64 16, i1 false)
  call void @llvm.memset.p0.i64(ptr %r7, i8 0, i64 16, i1 false)
  %r8 = getelementptr i8, ptr %a0, i64 56
  %r9 = load i64, ptr %r8, align 8, !noundef !0
  store i64 %r9, ptr %r2, align 8
  %r10 = load i8, ptr %r1, align 1, !noundef !0
  %r11 = call i1 @"pie_queue::ecn::Ecn::capable"(i8 %r10)
  %r12 = zext i1 %r11 to i8
  store i8 %r12, ptr %r3, align 1
  %r13 = load i8, ptr %r3, align 1, !range !1, !noundef !0
  %r14 = trunc i8 %r13 to i1
  %r15 = xor i1 %r14, true
  %r16 = zext i1 %r15 to i8
  store i8 %r16, ptr %r4, align 1
  %r17 = load i8, ptr %r4, align 1, !range !1, !noundef !0
  %r18 = trunc i8 %r17 to i1
  br i1 %r18, label %then.1, label %else.2

then.1:                                           ; preds = %start
  store i64 1, ptr %r5, align 1
  br label %join.3

else.2:                                           ; preds = %start
  %r19 = load i64, ptr %r2, align 8, !noundef !0
  %r20 = icmp ult i64 %a1, %r19
  %r21 = zext i1 %r20 to i8
  store i8 %r21, ptr %r6, align 1
  %r22 = load i8, ptr %r6, align 1, !range !1, !noundef !0
  %r23 = trunc i8 %r22 to i1
  br i1 %r23, label %then.4, label %else.5

then.4:                                           ; preds = %else.2
  %r24 = load i64, ptr %r2, align 8, !noundef !0
  store i64 0, ptr %r7, align 1
  %r25 = getelementptr i8, ptr %r7, i64 8
  store i64 %r24, ptr %r25, align 8
  br label %join.6

else.5:                                           ; preds = %else.2
  %r26 = load i64, ptr %r2, align 8, !noundef !0
  store i64 2, ptr %r7, align 1
  %r27 = getelementptr i8, ptr %r7, i64 8
  store i64 %r26, ptr %r27, align 8
  br label %join.6

join.6:                                           ; preds = %else.5, %then.4
  %r28 = load i8, ptr %r7, align 1
  %r29 = zext i8 %r28 to i64
  store i64 %r29, ptr %r5, align 1
  %r30 = getelementptr i8, ptr %r5, i64 8
  %r31 = getelementptr i8, ptr %r7, i64 8
  call void @llvm.memmove.p0.p0.i64(ptr %r30, ptr %r31, i64 8, i1 false)
  br label %join.3

join.3:                                           ; preds = %join.6, %then.1
  %r32 = load i8, ptr %r5, align 1
  %r33 = zext i8 %r32 to i64
  store i64 %r33, ptr %r0, align 1
  %r34 = getelementptr i8, ptr %r0, i64 8
  %r35 = getelementptr i8, ptr %r5, i64 8
  call void @llvm.memmove.p0.p0.i64(ptr %r34, ptr %r35, i64 8, i1 false)
  br label %return.7

return.7:                                         ; preds = %join.3
  %r36 = load { i8, i64 }, ptr %r0, align 8
  ret { i8, i64 } %r36
}

define internal noundef i64 @"pie_early::decision::half"(i64 noundef %a0) #1 {
start:
  %r0 = alloca i64, align 8
  %r1 = alloca i64, align 8
  %r2 = udiv i64 %a0, 2
  store i64 %r2, ptr %r1, align 8
  %r3 = load i64, ptr %r1, align 8, !noundef !0
  %r4 = sub i64 %a0, %r3
  store i64 %r4, ptr %r0, align 8
  %r5 = load i64, ptr %r0, align 8, !noundef !0
  ret i64 %r5
}

define internal noundef zeroext i1 @"pie_early::decision::is_below"(i64 noundef %a0, i64 noundef %a1) #1 {
start:
  %r0 = alloca i8, align 1
  %r1 = call i1 @"pie_fixed::picks"(i64 %a1, i64 %a0)
  %r2 = zext i1 %r1 to i8
  store i8 %r2, ptr %r0, align 1
  %r3 = load i8, ptr %r0, align 1, !range !1, !noundef !0
  %r4 = trunc i8 %r3 to i1
  ret i1 %r4
}

define internal noundef zeroext i1 @"pie_early::decision::is_low"(ptr noundef %a0, ptr noundef %a1) #1 {
start:
  %r0 = alloca i8, align 1
  %r1 = alloca i8, align 1
  %r2 = alloca i64, align 8
  %r3 = alloca i64, align 8
  %r4 = alloca i64, align 8
  %r5 = alloca i64, align 8
  %r6 = getelementptr i8, ptr %a1, i64 8
  %r7 = load i64, ptr %r6, align 8, !noundef !0
  store i64 %r7, ptr %r2, align 8
  %r8 = load i64, ptr %a0, align 8, !noundef !0
  store i64 %r8, ptr %r4, align 8
  %r9 = load i64, ptr %r4, align 8, !noundef !0
  %r10 = call i64 @"pie_early::decision::half"(i64 %r9)
  store i64 %r10, ptr %r3, align 8
  %r11 = load i64, ptr %r2, align 8, !noundef !0
  %r12 = load i64, ptr %r3, align 8, !noundef !0
  %r13 = icmp ult i64 %r11, %r12
  %r14 = zext i1 %r13 to i8
  store i8 %r14, ptr %r1, align 1
  %r15 = load i8, ptr %r1, align 1, !range !1, !noundef !0
  %r16 = trunc i8 %r15 to i1
  br i1 %r16, label %then.1, label %else.2

then.1:                                           ; preds = %start
  %r17 = load i64, ptr %a1, align 8, !noundef !0
  store i64 %r17, ptr %r5, align 8
  %r18 = load i64, ptr %r5, align 8, !noundef !0
  %r19 = icmp ult i64 %r18, 200000000000
  %r20 = zext i1 %r19 to i8
  store i8 %r20, ptr %r1, align 1
  br label %join.3

else.2:                                           ; preds = %start
  br label %join.3

join.3:                                           ; preds = %else.2, %then.1
  %r21 = load i8, ptr %r1, align 1, !range !1, !noundef !0
  %r22 = trunc i8 %r21 to i1
  %r23 = zext i1 %r22 to i8
  store i8 %r23, ptr %r0, align 1
  %r24 = load i8, ptr %r0, align 1, !range !1, !noundef !0
  %r25 = trunc i8 %r24 to i1
  ret i1 %r25
}

define internal noundef i64 @"pie_early::decision::scaled"(ptr noundef %a0, i32 noundef %a1, i64 noundef %a2) #2 {
start:
  %r0 = alloca i64, align 8
  %r1 = alloca i64, align 8
  %r2 = alloca i64, align 8
  %r3 = alloca i8, align 1
  %r4 = alloca i64, align 8
  %r5 = alloca i128, align 16
  %r6 = alloca i128, align 16
  %r7 = alloca i128, align 16
  %r8 = alloca i128, align 16
  %r9 = alloca i64, align 8
  %r10 = alloca i128, align 16
  %r11 = call i64 @"core::convert::U64FromU32::from"(i32 %a1)
  store i64 %r11, ptr %r1, align 8
  %r12 = getelementptr i8, ptr %a0, i64 40
  %r13 = load i64, ptr %r12, align 8, !noundef !0
  store i64 %r13, ptr %r2, align 8
  %r14 = load i64, ptr %r1, align 8, !noundef !0
  %r15 = load i64, ptr %r2, align 8, !noundef !0
  %r16 = icmp ult i64 %r14, %r15
  %r17 = zext i1 %r16 to i8
  store i8 %r17, ptr %r3, align 1
  %r18 = load i8, ptr %r3, align 1, !range !1, !noundef !0
  %r19 = trunc i8 %r18 to i1
  br i1 %r19, label %then.1, label %else.2

then.1:                                           ; preds = %start
  %r20 = call i128 @"core::convert::wide::U128FromU64::from"(i64 %a2)
  store i128 %r20, ptr %r5, align 16
  %r21 = call i128 @"core::convert::wide::U128FromU32::from"(i32 %a1)
  store i128 %r21, ptr %r6, align 16
  %r22 = load i128, ptr %r5, align 16, !noundef !0
  %r23 = load i128, ptr %r6, align 16, !noundef !0
  %r24.al = trunc i128 %r22 to i64
  %r24.as = lshr i128 %r22, 64
  %r24.ah = trunc i128 %r24.as to i64
  %r24.bl = trunc i128 %r23 to i64
  %r24.bs = lshr i128 %r23, 64
  %r24.bh = trunc i128 %r24.bs to i64
  %r24.adl = and i64 %r24.al, 4294967295
  %r24.adh = lshr i64 %r24.al, 32
  %r24.bdl = and i64 %r24.bl, 4294967295
  %r24.bdh = lshr i64 %r24.bl, 32
  %r24.ll = mul i64 %r24.adl, %r24.bdl
  %r24.lh = mul i64 %r24.adl, %r24.bdh
  %r24.hl = mul i64 %r24.adh, %r24.bdl
  %r24.hh = mul i64 %r24.adh, %r24.bdh
  %r24.c1 = lshr i64 %r24.ll, 32
  %r24.m1 = add i64 %r24.hl, %r24.c1
  %r24.m2 = and i64 %r24.m1, 4294967295
  %r24.m3 = add i64 %r24.lh, %r24.m2
  %r24.c2 = lshr i64 %r24.m1, 32
  %r24.c3 = lshr i64 %r24.m3, 32
  %r24.u1 = add i64 %r24.hh, %r24.c2
  %r24.u2 = add i64 %r24.u1, %r24.c3
  %r24.low = mul i64 %r24.al, %r24.bl
  %r24.x1 = mul i64 %r24.ah, %r24.bl
  %r24.x2 = mul i64 %r24.al, %r24.bh
  %r24.u3 = add i64 %r24.u2, %r24.x1
  %r24.high = add i64 %r24.u3, %r24.x2
  %r24.jh = zext i64 %r24.high to i128
  %r24.js = shl i128 %r24.jh, 64
  %r24.jl = zext i64 %r24.low to i128
  %r24 = or i128 %r24.js, %r24.jl
  store i128 %r24, ptr %r7, align 16
  %r25 = getelementptr i8, ptr %a0, i64 40
  %r26 = load i64, ptr %r25, align 8, !noundef !0
  store i64 %r26, ptr %r9, align 8
  %r27 = load i64, ptr %r9, align 8, !noundef !0
  %r28 = call i128 @"core::convert::wide::U128FromU64::from"(i64 %r27)
  store i128 %r28, ptr %r8, align 16
  %r29 = load i128, ptr %r7, align 16, !noundef !0
  %r30 = load i128, ptr %r8, align 16, !noundef !0
  %r31 = icmp eq i128 %r30, 0
  br i1 %r31, label %trap.4, label %ok.5

ok.5:                                             ; preds = %then.1
  %r32.al = trunc i128 %r29 to i64
  %r32.as = lshr i128 %r29, 64
  %r32.ah = trunc i128 %r32.as to i64
  %r32.by = trunc i128 %r30 to i64
  %r32.high = udiv i64 %r32.ah, %r32.by
  %r32.rest = urem i64 %r32.ah, %r32.by
  %r32.low = call i64 @pie_div_low(i64 %r32.rest, i64 %r32.al, i64 %r32.by)
  %r32.jh = zext i64 %r32.high to i128
  %r32.js = shl i128 %r32.jh, 64
  %r32.jl = zext i64 %r32.low to i128
  %r32 = or i128 %r32.js, %r32.jl
  store i128 %r32, ptr %r10, align 16
  %r33 = load i128, ptr %r10, align 16, !noundef !0
  %r34 = trunc i128 %r33 to i64
  store i64 %r34, ptr %r4, align 8
  br label %join.3

else.2:                                           ; preds = %start
  store i64 %a2, ptr %r4, align 8
  br label %join.3

join.3:                                           ; preds = %else.2, %ok.5
  %r35 = load i64, ptr %r4, align 8, !noundef !0
  store i64 %r35, ptr %r0, align 8
  %r36 = load i64, ptr %r0, align 8, !noundef !0
  ret i64 %r36

trap.4:                                           ; preds = %then.1
  ; call void @llvm.trap()
  unreachable
}

define internal { i8, i8 } @"pie_early::decision::unconsidered"(ptr noundef %a0, ptr noundef %a1, i64 noundef %a2) #1 {
start:
  %r0 = alloca [2 x i8], align 1
  %r1 = alloca i64, align 8
  %r2 = alloca i8, align 1
  %r3 = alloca [1 x i8], align 1
  %r4 = alloca i8, align 1
  %r5 = alloca i64, align 8
  %r6 = alloca i64, align 8
  %r7 = alloca i64, align 8
  %r8 = alloca i8, align 1
  %r9 = alloca ptr, align 8
  %r10 = alloca ptr, align 8
  %r11 = alloca i8, align 1
  %r12 = alloca [1 x i8], align 1
  %r13 = alloca i8, align 1
  %r14 = alloca ptr, align 8
  %r15 = alloca ptr, align 8
  %r16 = alloca [1 x i8], align 1
  call void @llvm.memset.p0.i64(ptr %r0, i8 0, i64 2, i1 false)
  call void @llvm.memset.p0.i64(ptr %r3, i8 0, i64 1, i1 false)
  call void @llvm.memset.p0.i64(ptr %r12, i8 0, i64 1, i1 false)
  call void @llvm.memset.p0.i64(ptr %r16, i8 0, i64 1, i1 false)
  %r17 = getelementptr i8, ptr %a1, i64 16
  %r18 = load i64, ptr %r17, align 8, !noundef !0
  store i64 %r18, ptr %r1, align 8
  %r19 = load i64, ptr %r1, align 8, !noundef !0
  %r20 = icmp ult i64 0, %r19
  %r21 = zext i1 %r20 to i8
  store i8 %r21, ptr %r2, align 1
  %r22 = load i8, ptr %r2, align 1, !range !1, !noundef !0
  %r23 = trunc i8 %r22 to i1
  br i1 %r23, label %then.1, label %else.2

then.1:                                           ; preds = %start
  store i8 3, ptr %r3, align 1
  store i8 1, ptr %r0, align 1
  %r24 = getelementptr i8, ptr %r0, i64 1
  call void @llvm.memmove.p0.p0.i64(ptr %r24, ptr %r3, i64 1, i1 false)
  br label %return.4

else.2:                                           ; preds = %start
  br label %join.3

join.3:                                           ; preds = %else.2
  %r25 = getelementptr i8, ptr %a0, i64 40
  %r26 = load i64, ptr %r25, align 8, !noundef !0
  store i64 %r26, ptr %r5, align 8
  store i64 %a2, ptr %r7, align 8
  %r27 = load i64, ptr %r7, align 8, !noundef !0
  %r28 = call i64 @"pie_early::decision::half"(i64 %r27)
  store i64 %r28, ptr %r6, align 8
  %r29 = load i64, ptr %r5, align 8, !noundef !0
  %r30 = load i64, ptr %r6, align 8, !noundef !0
  %r31 = icmp ult i64 %r29, %r30
  %r32 = zext i1 %r31 to i8
  store i8 %r32, ptr %r4, align 1
  %r33 = load i8, ptr %r4, align 1, !range !1, !noundef !0
  %r34 = trunc i8 %r33 to i1
  br i1 %r34, label %then.6, label %else.7

then.6:                                           ; preds = %join.3
  store ptr %a0, ptr %r9, align 8
  store ptr %a1, ptr %r10, align 8
  %r35 = load ptr, ptr %r9, align 8, !noundef !0
  %r36 = load ptr, ptr %r10, align 8, !noundef !0
  %r37 = call i1 @"pie_early::decision::is_low"(ptr %r35, ptr %r36)
  %r38 = zext i1 %r37 to i8
  store i8 %r38, ptr %r8, align 1
  %r39 = load i8, ptr %r8, align 1, !range !1, !noundef !0
  %r40 = trunc i8 %r39 to i1
  %r41 = xor i1 %r40, true
  %r42 = zext i1 %r41 to i8
  store i8 %r42, ptr %r4, align 1
  %r43 = load i8, ptr %r4, align 1, !range !1, !noundef !0
  %r44 = trunc i8 %r43 to i1
  %r45 = zext i1 %r44 to i8
  store i8 %r45, ptr %r11, align 1
  %r46 = load i8, ptr %r11, align 1, !range !1, !noundef !0
  %r47 = trunc i8 %r46 to i1
  br i1 %r47, label %then.9, label %else.10

then.9:                                           ; preds = %then.6
  store i8 0, ptr %r0, align 1
  br label %return.4

dead.12:                                          ; No predecessors!
  br label %after.5

else.10:                                          ; preds = %then.6
  br label %join.11

join.11:                                          ; preds = %else.10
  br label %join.8

else.7:                                           ; preds = %join.3
  br label %join.8

join.8:                                           ; preds = %else.7, %join.11
  br label %after.13

after.13:                                         ; preds = %join.8
  br label %after.5

after.5:                                          ; preds = %after.13, %dead.12
  store ptr %a0, ptr %r14, align 8
  store ptr %a1, ptr %r15, align 8
  %r48 = load ptr, ptr %r14, align 8, !noundef !0
  %r49 = load ptr, ptr %r15, align 8, !noundef !0
  %r50 = call i1 @"pie_early::decision::is_low"(ptr %r48, ptr %r49)
  %r51 = zext i1 %r50 to i8
  store i8 %r51, ptr %r13, align 1
  %r52 = load i8, ptr %r13, align 1, !range !1, !noundef !0
  %r53 = trunc i8 %r52 to i1
  br i1 %r53, label %then.14, label %else.15

then.14:                                          ; preds = %after.5
  store i8 4, ptr %r16, align 1
  br label %join.16

else.15:                                          ; preds = %after.5
  store i8 5, ptr %r16, align 1
  br label %join.16

join.16:                                          ; preds = %else.15, %then.14
  call void @llvm.memmove.p0.p0.i64(ptr %r12, ptr %r16, i64 1, i1 false)
  store i8 1, ptr %r0, align 1
  %r54 = getelementptr i8, ptr %r0, i64 1
  call void @llvm.memmove.p0.p0.i64(ptr %r54, ptr %r12, i64 1, i1 false)
  br label %return.4

return.4:                                         ; preds = %join.16, %then.9, %then.1
  %r55 = load { i8, i8 }, ptr %r0, align 1
  ret { i8, i8 } %r55
}

define noundef i32 @pie_empty_event(ptr noundef %a0, ptr noundef %a1) #0 {
start:
  %r0 = call i32 @"pie_c::writing::pie_empty_event"(ptr %a0, ptr %a1)
  ret i32 %r0
}

define internal noundef i8 @"pie_event::cause::Cause::name"(ptr noundef %a0) #1 {
start:
  %r0 = alloca [1 x i8], align 1
  %r1 = alloca [48 x i8], align 8
  call void @llvm.memset.p0.i64(ptr %r1, i8 0, i64 48, i1 false)
  %r2 = load i8, ptr %a0, align 1
  %r3 = zext i8 %r2 to i64
  store i64 %r3, ptr %r1, align 1
  %r4 = getelementptr i8, ptr %r1, i64 8
  %r5 = getelementptr i8, ptr %a0, i64 8
  call void @llvm.memmove.p0.p0.i64(ptr %r4, ptr %r5, i64 8, i1 false)
  %r6 = getelementptr i8, ptr %r1, i64 16
  %r7 = getelementptr i8, ptr %a0, i64 16
  call void @llvm.memmove.p0.p0.i64(ptr %r6, ptr %r7, i64 8, i1 false)
  %r8 = getelementptr i8, ptr %r1, i64 24
  %r9 = getelementptr i8, ptr %a0, i64 24
  call void @llvm.memmove.p0.p0.i64(ptr %r8, ptr %r9, i64 8, i1 false)
  %r10 = getelementptr i8, ptr %r1, i64 32
  %r11 = getelementptr i8, ptr %a0, i64 32
  call void @llvm.memmove.p0.p0.i64(ptr %r10, ptr %r11, i64 8, i1 false)
  %r12 = getelementptr i8, ptr %r1, i64 40
  %r13 = getelementptr i8, ptr %a0, i64 40
  call void @llvm.memmove.p0.p0.i64(ptr %r12, ptr %r13, i64 8, i1 false)
  %r14 = alloca [16 x i8], align 8
  %r15 = alloca [16 x i8], align 8
  %r16 = alloca [1 x i8], align 1
  %r17 = alloca [1 x i8], align 1
  %r18 = alloca [1 x i8], align 1
  call void @llvm.memset.p0.i64(ptr %r0, i8 0, i64 1, i1 false)
  call void @llvm.memset.p0.i64(ptr %r14, i8 0, i64 16, i1 false)
  call void @llvm.memset.p0.i64(ptr %r15, i8 0, i64 16, i1 false)
  call void @llvm.memset.p0.i64(ptr %r16, i8 0, i64 1, i1 false)
  call void @llvm.memset.p0.i64(ptr %r17, i8 0, i64 1, i1 false)
  call void @llvm.memset.p0.i64(ptr %r18, i8 0, i64 1, i1 false)
  %r19 = load i8, ptr %r1, align 1, !noundef !0
  switch i8 %r19, label %noarm.12 [
    i8 0, label %arm.1
    i8 1, label %arm.2
    i8 2, label %arm.3
    i8 3, label %arm.4
    i8 4, label %arm.5
    i8 5, label %arm.6
    i8 6, label %arm.7
    i8 7, label %arm.8
    i8 8, label %arm.9
    i8 9, label %arm.10
    i8 10, label %arm.11
  ]

arm.1:                                            ; preds = %start
  store i8 0, ptr %r16, align 1
  br label %join.13

arm.2:                                            ; preds = %start
  store i8 1, ptr %r16, align 1
  br label %join.13

arm.3:                                            ; preds = %start
  store i8 2, ptr %r16, align 1
  br label %join.13

arm.4:                                            ; preds = %start
  store i8 3, ptr %r16, align 1
  br label %join.13

arm.5:                                            ; preds = %start
  store i8 4, ptr %r16, align 1
  br label %join.13

arm.6:                                            ; preds = %start
  store i8 5, ptr %r16, align 1
  br label %join.13

arm.7:                                            ; preds = %start
  store i8 6, ptr %r16, align 1
  br label %join.13

arm.8:                                            ; preds = %start
  store i8 7, ptr %r16, align 1
  br label %join.13

arm.9:                                            ; preds = %start
  %r20 = getelementptr i8, ptr %r1, i64 24
  %r21 = load i8, ptr %r20, align 1
  %r22 = zext i8 %r21 to i64
  store i64 %r22, ptr %r14, align 1
  %r23 = getelementptr i8, ptr %r14, i64 8
  %r24 = getelementptr i8, ptr %r20, i64 8
  call void @llvm.memmove.p0.p0.i64(ptr %r23, ptr %r24, i64 8, i1 false)
  %r25 = load i8, ptr %r14, align 1, !noundef !0
  switch i8 %r25, label %noarm.12 [
    i8 0, label %arm.14
    i8 1, label %arm.15
    i8 2, label %arm.16
  ]

arm.14:                                           ; preds = %arm.9
  store i8 8, ptr %r17, align 1
  br label %join.17

arm.15:                                           ; preds = %arm.9
  store i8 9, ptr %r17, align 1
  br label %join.17

arm.16:                                           ; preds = %arm.9
  store i8 10, ptr %r17, align 1
  br label %join.17

join.17:                                          ; preds = %arm.16, %arm.15, %arm.14
  call void @llvm.memmove.p0.p0.i64(ptr %r16, ptr %r17, i64 1, i1 false)
  br label %join.13

arm.10:                                           ; preds = %start
  %r26 = getelementptr i8, ptr %r1, i64 32
  %r27 = load i8, ptr %r26, align 1
  %r28 = zext i8 %r27 to i64
  store i64 %r28, ptr %r15, align 1
  %r29 = getelementptr i8, ptr %r15, i64 8
  %r30 = getelementptr i8, ptr %r26, i64 8
  call void @llvm.memmove.p0.p0.i64(ptr %r29, ptr %r30, i64 8, i1 false)
  %r31 = load i8, ptr %r15, align 1, !noundef !0
  switch i8 %r31, label %noarm.12 [
    i8 0, label %arm.18
    i8 1, label %arm.19
    i8 2, label %arm.20
  ]

arm.18:                                           ; preds = %arm.10
  store i8 11, ptr %r18, align 1
  br label %join.21

arm.19:                                           ; preds = %arm.10
  store i8 12, ptr %r18, align 1
  br label %join.21

arm.20:                                           ; preds = %arm.10
  store i8 13, ptr %r18, align 1
  br label %join.21

join.21:                                          ; preds = %arm.20, %arm.19, %arm.18
  call void @llvm.memmove.p0.p0.i64(ptr %r16, ptr %r18, i64 1, i1 false)
  br label %join.13

arm.11:                                           ; preds = %start
  store i8 14, ptr %r16, align 1
  br label %join.13

join.13:                                          ; preds = %arm.11, %join.21, %join.17, %arm.8, %arm.7, %arm.6, %arm.5, %arm.4, %arm.3, %arm.2, %arm.1
  call void @llvm.memmove.p0.p0.i64(ptr %r0, ptr %r16, i64 1, i1 false)
  br label %return.22

return.22:                                        ; preds = %join.13
  %r32 = load i8, ptr %r0, align 1, !noundef !0
  ret i8 %r32

noarm.12:                                         ; preds = %arm.10, %arm.9, %start
  unreachable
}

define internal noundef i8 @"pie_event::cause::CauseName::verdict"(i8 noundef %a0) #1 {
start:
  %r0 = alloca [1 x i8], align 1
  %r1 = alloca [1 x i8], align 1
  call void @llvm.memset.p0.i64(ptr %r1, i8 0, i64 1, i1 false)
  store i8 %a0, ptr %r1, align 1
  %r2 = alloca [1 x i8], align 1
  call void @llvm.memset.p0.i64(ptr %r0, i8 0, i64 1, i1 false)
  call void @llvm.memset.p0.i64(ptr %r2, i8 0, i64 1, i1 false)
  %r3 = load i8, ptr %r1, align 1, !noundef !0
  switch i8 %r3, label %noarm.6 [
    i8 0, label %arm.1
    i8 1, label %arm.2
    i8 8, label %arm.3
    i8 11, label %arm.3
    i8 9, label %arm.4
    i8 10, label %arm.4
    i8 12, label %arm.4
    i8 13, label %arm.4
    i8 2, label %arm.5
    i8 3, label %arm.5
    i8 4, label %arm.5
    i8 5, label %arm.5
    i8 6, label %arm.5
    i8 7, label %arm.5
    i8 14, label %arm.5
  ]

arm.1:                                            ; preds = %start
  store i8 3, ptr %r2, align 1
  br label %join.7

arm.2:                                            ; preds = %start
  store i8 4, ptr %r2, align 1
  br label %join.7

arm.3:                                            ; preds = %start, %start
  store i8 1, ptr %r2, align 1
  br label %join.7

arm.4:                                            ; preds = %start, %start, %start, %start
  store i8 2, ptr %r2, align 1
  br label %join.7

arm.5:                                            ; preds = %start, %start, %start, %start, %start, %start, %start
  store i8 0, ptr %r2, align 1
  br label %join.7

join.7:                                           ; preds = %arm.5, %arm.4, %arm.3, %arm.2, %arm.1
  call void @llvm.memmove.p0.p0.i64(ptr %r0, ptr %r2, i64 1, i1 false)
  br label %return.8

return.8:                                         ; preds = %join.7
  %r4 = load i8, ptr %r0, align 1, !noundef !0
  ret i8 %r4

noarm.6:                                          ; preds = %start
  unreachable
}

define internal noundef zeroext i1 @"pie_event::command::Verdict::is_queued"(i8 noundef %a0) #0 {
start:
  %r0 = alloca i8, align 1
  %r1 = alloca [1 x i8], align 1
  call void @llvm.memset.p0.i64(ptr %r1, i8 0, i64 1, i1 false)
  store i8 %a0, ptr %r1, align 1
  %r2 = alloca i8, align 1
  %r3 = load i8, ptr %r1, align 1, !noundef !0
  switch i8 %r3, label %noarm.3 [
    i8 0, label %arm.1
    i8 1, label %arm.1
    i8 2, label %arm.2
    i8 3, label %arm.2
    i8 4, label %arm.2
  ]

arm.1:                                            ; preds = %start, %start
  %r4 = zext i1 true to i8
  store i8 %r4, ptr %r2, align 1
  br label %join.4

arm.2:                                            ; preds = %start, %start, %start
  %r5 = zext i1 false to i8
  store i8 %r5, ptr %r2, align 1
  br label %join.4

join.4:                                           ; preds = %arm.2, %arm.1
  %r6 = load i8, ptr %r2, align 1, !range !1, !noundef !0
  %r7 = trunc i8 %r6 to i1
  %r8 = zext i1 %r7 to i8
  store i8 %r8, ptr %r0, align 1
  %r9 = load i8, ptr %r0, align 1, !range !1, !noundef !0
  %r10 = trunc i8 %r9 to i1
  ret i1 %r10

noarm.3:                                          ; preds = %start
  unreachable
}

define internal noundef zeroext i1 @"pie_event::opening::Limits::are_in_range"(ptr noundef %a0) #0 {
start:
  %r0 = alloca i8, align 1
  %r1 = alloca [16 x i8], align 8
  call void @llvm.memset.p0.i64(ptr %r1, i8 0, i64 16, i1 false)
  call void @llvm.memmove.p0.p0.i64(ptr %r1, ptr %a0, i64 16, i1 false)
  %r2 = alloca i8, align 1
  %r3 = alloca i8, align 1
  %r4 = alloca i8, align 1
  %r5 = alloca i8, align 1
  %r6 = alloca i8, align 1
  %r7 = load i32, ptr %r1, align 4, !noundef !0
  %r8 = icmp ule i32 1, %r7
  %r9 = zext i1 %r8 to i8
  store i8 %r9, ptr %r4, align 1
  %r10 = load i8, ptr %r4, align 1, !range !1, !noundef !0
  %r11 = trunc i8 %r10 to i1
  br i1 %r11, label %then.1, label %else.2

then.1:                                           ; preds = %start
  %r12 = load i32, ptr %r1, align 4, !noundef !0
  %r13 = icmp ule i32 %r12, 1048576
  %r14 = zext i1 %r13 to i8
  store i8 %r14, ptr %r4, align 1
  br label %join.3

else.2:                                           ; preds = %start
  br label %join.3

join.3:                                           ; preds = %else.2, %then.1
  %r15 = load i8, ptr %r4, align 1, !range !1, !noundef !0
  %r16 = trunc i8 %r15 to i1
  %r17 = zext i1 %r16 to i8
  store i8 %r17, ptr %r3, align 1
  %r18 = load i8, ptr %r3, align 1, !range !1, !noundef !0
  %r19 = trunc i8 %r18 to i1
  br i1 %r19, label %then.4, label %else.5

then.4:                                           ; preds = %join.3
  %r20 = getelementptr i8, ptr %r1, i64 4
  %r21 = load i32, ptr %r20, align 4, !noundef !0
  %r22 = icmp ule i32 1, %r21
  %r23 = zext i1 %r22 to i8
  store i8 %r23, ptr %r5, align 1
  %r24 = load i8, ptr %r5, align 1, !range !1, !noundef !0
  %r25 = trunc i8 %r24 to i1
  br i1 %r25, label %then.7, label %else.8

then.7:                                           ; preds = %then.4
  %r26 = getelementptr i8, ptr %r1, i64 4
  %r27 = load i32, ptr %r26, align 4, !noundef !0
  %r28 = icmp ule i32 %r27, 1048576
  %r29 = zext i1 %r28 to i8
  store i8 %r29, ptr %r5, align 1
  br label %join.9

else.8:                                           ; preds = %then.4
  br label %join.9

join.9:                                           ; preds = %else.8, %then.7
  %r30 = load i8, ptr %r5, align 1, !range !1, !noundef !0
  %r31 = trunc i8 %r30 to i1
  %r32 = zext i1 %r31 to i8
  store i8 %r32, ptr %r3, align 1
  br label %join.6

else.5:                                           ; preds = %join.3
  br label %join.6

join.6:                                           ; preds = %else.5, %join.9
  %r33 = load i8, ptr %r3, align 1, !range !1, !noundef !0
  %r34 = trunc i8 %r33 to i1
  %r35 = zext i1 %r34 to i8
  store i8 %r35, ptr %r2, align 1
  %r36 = load i8, ptr %r2, align 1, !range !1, !noundef !0
  %r37 = trunc i8 %r36 to i1
  br i1 %r37, label %then.10, label %else.11

then.10:                                          ; preds = %join.6
  %r38 = getelementptr i8, ptr %r1, i64 8
  %r39 = load i64, ptr %r38, align 8, !noundef !0
  %r40 = icmp ule i64 1, %r39
  %r41 = zext i1 %r40 to i8
  store i8 %r41, ptr %r6, align 1
  %r42 = load i8, ptr %r6, align 1, !range !1, !noundef !0
  %r43 = trunc i8 %r42 to i1
  br i1 %r43, label %then.13, label %else.14

then.13:                                          ; preds = %then.10
  %r44 = getelementptr i8, ptr %r1, i64 8
  %r45 = load i64, ptr %r44, align 8, !noundef !0
  %r46 = icmp ule i64 %r45, 140737488355328
  %r47 = zext i1 %r46 to i8
  store i8 %r47, ptr %r6, align 1
  br label %join.15

else.14:                                          ; preds = %then.10
  br label %join.15

join.15:                                          ; preds = %else.14, %then.13
  %r48 = load i8, ptr %r6, align 1, !range !1, !noundef !0
  %r49 = trunc i8 %r48 to i1
  %r50 = zext i1 %r49 to i8
  store i8 %r50, ptr %r2, align 1
  br label %join.12

else.11:                                          ; preds = %join.6
  br label %join.12

join.12:                                          ; preds = %else.11, %join.15
  %r51 = load i8, ptr %r2, align 1, !range !1, !noundef !0
  %r52 = trunc i8 %r51 to i1
  %r53 = zext i1 %r52 to i8
  store i8 %r53, ptr %r0, align 1
  %r54 = load i8, ptr %r0, align 1, !range !1, !noundef !0
  %r55 = trunc i8 %r54 to i1
  ret i1 %r55
}

define internal noundef zeroext i1 @"pie_fixed::picks"(i64 noundef %a0, i64 noundef %a1) #1 {
start:
  %r0 = alloca i8, align 1
  %r1 = alloca i128, align 16
  %r2 = alloca i128, align 16
  %r3 = alloca i128, align 16
  %r4 = alloca i128, align 16
  %r5 = alloca i128, align 16
  %r6 = call i128 @"core::convert::wide::U128FromU64::from"(i64 %a1)
  store i128 %r6, ptr %r1, align 16
  %r7 = call i128 @"core::convert::wide::U128FromU64::from"(i64 1000000000000)
  store i128 %r7, ptr %r2, align 16
  %r8 = load i128, ptr %r1, align 16, !noundef !0
  %r9 = load i128, ptr %r2, align 16, !noundef !0
  %r10.al = trunc i128 %r8 to i64
  %r10.as = lshr i128 %r8, 64
  %r10.ah = trunc i128 %r10.as to i64
  %r10.bl = trunc i128 %r9 to i64
  %r10.bs = lshr i128 %r9, 64
  %r10.bh = trunc i128 %r10.bs to i64
  %r10.adl = and i64 %r10.al, 4294967295
  %r10.adh = lshr i64 %r10.al, 32
  %r10.bdl = and i64 %r10.bl, 4294967295
  %r10.bdh = lshr i64 %r10.bl, 32
  %r10.ll = mul i64 %r10.adl, %r10.bdl
  %r10.lh = mul i64 %r10.adl, %r10.bdh
  %r10.hl = mul i64 %r10.adh, %r10.bdl
  %r10.hh = mul i64 %r10.adh, %r10.bdh
  %r10.c1 = lshr i64 %r10.ll, 32
  %r10.m1 = add i64 %r10.hl, %r10.c1
  %r10.m2 = and i64 %r10.m1, 4294967295
  %r10.m3 = add i64 %r10.lh, %r10.m2
  %r10.c2 = lshr i64 %r10.m1, 32
  %r10.c3 = lshr i64 %r10.m3, 32
  %r10.u1 = add i64 %r10.hh, %r10.c2
  %r10.u2 = add i64 %r10.u1, %r10.c3
  %r10.low = mul i64 %r10.al, %r10.bl
  %r10.x1 = mul i64 %r10.ah, %r10.bl
  %r10.x2 = mul i64 %r10.al, %r10.bh
  %r10.u3 = add i64 %r10.u2, %r10.x1
  %r10.high = add i64 %r10.u3, %r10.x2
  %r10.jh = zext i64 %r10.high to i128
  %r10.js = shl i128 %r10.jh, 64
  %r10.jl = zext i64 %r10.low to i128
  %r10 = or i128 %r10.js, %r10.jl
  store i128 %r10, ptr %r3, align 16
  %r11 = call i128 @"core::convert::wide::U128FromU64::from"(i64 %a0)
  store i128 %r11, ptr %r4, align 16
  %r12 = load i128, ptr %r4, align 16, !noundef !0
  %r13 = shl i128 %r12, 64
  store i128 %r13, ptr %r5, align 16
  %r14 = load i128, ptr %r3, align 16, !noundef !0
  %r15 = load i128, ptr %r5, align 16, !noundef !0
  %r16 = icmp ult i128 %r14, %r15
  %r17 = zext i1 %r16 to i8
  store i8 %r17, ptr %r0, align 1
  %r18 = load i8, ptr %r0, align 1, !range !1, !noundef !0
  %r19 = trunc i8 %r18 to i1
  ret i1 %r19
}

define internal noundef i32 @"pie_fixed::units::Gain::of_units"(i64 noundef %a0) #1 {
start:
  %r0 = alloca [4 x i8], align 4
  %r1 = alloca i32, align 4
  call void @llvm.memset.p0.i64(ptr %r0, i8 0, i64 4, i1 false)
  %r2 = trunc i64 %a0 to i32
  store i32 %r2, ptr %r1, align 4
  %r3 = load i32, ptr %r1, align 4, !noundef !0
  store i32 %r3, ptr %r0, align 4
  br label %return.1

return.1:                                         ; preds = %start
  %r4 = load i32, ptr %r0, align 4, !noundef !0
  ret i32 %r4
}

define internal noundef i64 @"pie_fixed::units::Gain::units"(i32 noundef %a0) #0 {
start:
  %r0 = alloca i64, align 8
  %r1 = alloca [4 x i8], align 4
  call void @llvm.memset.p0.i64(ptr %r1, i8 0, i64 4, i1 false)
  store i32 %a0, ptr %r1, align 4
  %r2 = load i32, ptr %r1, align 4, !noundef !0
  %r3 = call i64 @"core::convert::U64FromU32::from"(i32 %r2)
  store i64 %r3, ptr %r0, align 8
  %r4 = load i64, ptr %r0, align 8, !noundef !0
  ret i64 %r4
}

define internal noundef i64 @"pie_fixed::units::Nanos::of_units"(i64 noundef %a0) #1 {
start:
  %r0 = alloca [8 x i8], align 8
  call void @llvm.memset.p0.i64(ptr %r0, i8 0, i64 8, i1 false)
  store i64 %a0, ptr %r0, align 8
  br label %return.1

return.1:                                         ; preds = %start
  %r1 = load i64, ptr %r0, align 8, !noundef !0
  ret i64 %r1
}

define internal noundef i64 @"pie_fixed::units::Nanos::units"(i64 noundef %a0) #0 {
start:
  %r0 = alloca i64, align 8
  %r1 = alloca [8 x i8], align 8
  call void @llvm.memset.p0.i64(ptr %r1, i8 0, i64 8, i1 false)
  store i64 %a0, ptr %r1, align 8
  %r2 = load i64, ptr %r1, align 8, !noundef !0
  store i64 %r2, ptr %r0, align 8
  %r3 = load i64, ptr %r0, align 8, !noundef !0
  ret i64 %r3
}

define internal noundef i64 @"pie_fixed::units::Prob::of_units"(i64 noundef %a0) #1 {
start:
  %r0 = alloca [8 x i8], align 8
  call void @llvm.memset.p0.i64(ptr %r0, i8 0, i64 8, i1 false)
  store i64 %a0, ptr %r0, align 8
  br label %return.1

return.1:                                         ; preds = %start
  %r1 = load i64, ptr %r0, align 8, !noundef !0
  ret i64 %r1
}

define internal noundef i64 @"pie_fixed::units::Prob::units"(i64 noundef %a0) #0 {
start:
  %r0 = alloca i64, align 8
  %r1 = alloca [8 x i8], align 8
  call void @llvm.memset.p0.i64(ptr %r1, i8 0, i64 8, i1 false)
  store i64 %a0, ptr %r1, align 8
  %r2 = load i64, ptr %r1, align 8, !noundef !0
  store i64 %r2, ptr %r0, align 8
  %r3 = load i64, ptr %r0, align 8, !noundef !0
  ret i64 %r3
}

define internal noundef i64 @"pie_fixed::units::bounded"(i128 noundef %a0) #0 {
start:
  %r0 = alloca [8 x i8], align 8
  %r1 = alloca i8, align 1
  %r2 = alloca [8 x i8], align 8
  %r3 = alloca i128, align 16
  %r4 = alloca i8, align 1
  %r5 = alloca [8 x i8], align 8
  %r6 = alloca i64, align 8
  call void @llvm.memset.p0.i64(ptr %r0, i8 0, i64 8, i1 false)
  call void @llvm.memset.p0.i64(ptr %r2, i8 0, i64 8, i1 false)
  call void @llvm.memset.p0.i64(ptr %r5, i8 0, i64 8, i1 false)
  %r7 = icmp sle i128 %a0, 0
  %r8 = zext i1 %r7 to i8
  store i8 %r8, ptr %r1, align 1
  %r9 = load i8, ptr %r1, align 1, !range !1, !noundef !0
  %r10 = trunc i8 %r9 to i1
  br i1 %r10, label %then.1, label %else.2

then.1:                                           ; preds = %start
  store i64 0, ptr %r2, align 8
  br label %join.3

else.2:                                           ; preds = %start
  %r11 = call i128 @"core::convert::wide::I128FromU64::from"(i64 1000000000000)
  store i128 %r11, ptr %r3, align 16
  %r12 = load i128, ptr %r3, align 16, !noundef !0
  %r13 = icmp sle i128 %r12, %a0
  %r14 = zext i1 %r13 to i8
  store i8 %r14, ptr %r4, align 1
  %r15 = load i8, ptr %r4, align 1, !range !1, !noundef !0
  %r16 = trunc i8 %r15 to i1
  br i1 %r16, label %then.4, label %else.5

then.4:                                           ; preds = %else.2
  store i64 1000000000000, ptr %r5, align 8
  br label %join.6

else.5:                                           ; preds = %else.2
  %r17 = trunc i128 %a0 to i64
  store i64 %r17, ptr %r6, align 8
  %r18 = load i64, ptr %r6, align 8, !noundef !0
  store i64 %r18, ptr %r5, align 8
  br label %join.6

join.6:                                           ; preds = %else.5, %then.4
  call void @llvm.memmove.p0.p0.i64(ptr %r2, ptr %r5, i64 8, i1 false)
  br label %join.3

join.3:                                           ; preds = %join.6, %then.1
  call void @llvm.memmove.p0.p0.i64(ptr %r0, ptr %r2, i64 8, i1 false)
  br label %return.7

return.7:                                         ; preds = %join.3
  %r19 = load i64, ptr %r0, align 8, !noundef !0
  ret i64 %r19
}

define noundef i32 @pie_open(ptr noundef %a0, ptr noundef %a1) #0 {
start:
  %r0 = call i32 @"pie_c::opening::pie_open"(ptr %a0, ptr %a1)
  ret i32 %r0
}

define internal void @"pie_params::Destruct++none::drop::<#72b94c696a796d09>"(ptr noundef %a0) #0 {
start:
  %r0 = alloca [8 x i8], align 8
  call void @llvm.memset.p0.i64(ptr %r0, i8 0, i64 8, i1 false)
  store ptr %a0, ptr %r0, align 8
  ret void
}

define internal void @"pie_params::Destruct++none::drop::<22'pie_params::raw::Field>"(i8 noundef %a0) #0 {
start:
  %r0 = alloca [1 x i8], align 1
  call void @llvm.memset.p0.i64(ptr %r0, i8 0, i64 1, i1 false)
  store i8 %a0, ptr %r0, align 1
  ret void
}

define internal void @"pie_params::checked::Params::check"(ptr noundef %a0, ptr noundef %a1) #1 {
start:
  %r0 = alloca [56 x i8], align 8
  %r1 = alloca [72 x i8], align 8
  call void @llvm.memset.p0.i64(ptr %r1, i8 0, i64 72, i1 false)
  call void @llvm.memmove.p0.p0.i64(ptr %r1, ptr %a1, i64 72, i1 false)
  %r2 = alloca [1 x i8], align 1
  %r3 = alloca [2 x i8], align 1
  %r4 = alloca [56 x i8], align 8
  %r5 = alloca [1 x i8], align 1
  %r6 = alloca [48 x i8], align 8
  call void @llvm.memset.p0.i64(ptr %r0, i8 0, i64 56, i1 false)
  call void @llvm.memset.p0.i64(ptr %r2, i8 0, i64 1, i1 false)
  call void @llvm.memset.p0.i64(ptr %r3, i8 0, i64 2, i1 false)
  call void @llvm.memset.p0.i64(ptr %r4, i8 0, i64 56, i1 false)
  call void @llvm.memset.p0.i64(ptr %r5, i8 0, i64 1, i1 false)
  call void @llvm.memset.p0.i64(ptr %r6, i8 0, i64 48, i1 false)
  %r7 = call { i8, i8 } @"pie_params::raw::RawParams::first_bad"(ptr %r1)
  %r8 = extractvalue { i8, i8 } %r7, 0
  %r9 = extractvalue { i8, i8 } %r7, 1
  store i8 %r8, ptr %r3, align 1
  %r10 = getelementptr i8, ptr %r3, i64 1
  store i8 %r9, ptr %r10, align 1
  %r11 = load i8, ptr %r3, align 1, !noundef !0
  switch i8 %r11, label %noarm.3 [
    i8 1, label %arm.1
    i8 0, label %arm.2
  ]

arm.1:                                            ; preds = %start
  %r12 = getelementptr i8, ptr %r3, i64 1
  call void @llvm.memmove.p0.p0.i64(ptr %r2, ptr %r12, i64 1, i1 false)
  call void @llvm.memmove.p0.p0.i64(ptr %r5, ptr %r2, i64 1, i1 false)
  store i8 1, ptr %r4, align 1
  %r13 = getelementptr i8, ptr %r4, i64 1
  call void @llvm.memmove.p0.p0.i64(ptr %r13, ptr %r5, i64 1, i1 false)
  br label %join.4

arm.2:                                            ; preds = %start
  call void @"pie_params::checked::Params::in_range"(ptr %r6, ptr %r1)
  store i8 0, ptr %r4, align 1
  %r14 = getelementptr i8, ptr %r4, i64 8
  call void @llvm.memmove.p0.p0.i64(ptr %r14, ptr %r6, i64 48, i1 false)
  br label %join.4

join.4:                                           ; preds = %arm.2, %arm.1
  call void @llvm.memmove.p0.p0.i64(ptr %r0, ptr %r4, i64 1, i1 false)
  %r15 = getelementptr i8, ptr %r0, i64 1
  %r16 = getelementptr i8, ptr %r4, i64 1
  call void @llvm.memmove.p0.p0.i64(ptr %r15, ptr %r16, i64 1, i1 false)
  %r17 = getelementptr i8, ptr %r0, i64 8
  %r18 = getelementptr i8, ptr %r4, i64 8
  call void @llvm.memmove.p0.p0.i64(ptr %r17, ptr %r18, i64 48, i1 false)
  call void @llvm.memmove.p0.p0.i64(ptr %a0, ptr %r0, i64 1, i1 false)
  %r19 = getelementptr i8, ptr %a0, i64 1
  %r20 = getelementptr i8, ptr %r0, i64 1
  call void @llvm.memmove.p0.p0.i64(ptr %r19, ptr %r20, i64 1, i1 false)
  %r21 = getelementptr i8, ptr %a0, i64 8
  %r22 = getelementptr i8, ptr %r0, i64 8
  call void @llvm.memmove.p0.p0.i64(ptr %r21, ptr %r22, i64 48, i1 false)
  ret void

noarm.3:                                          ; preds = %start
  unreachable
}

define internal void @"pie_params::checked::Params::from_raw"(ptr noundef %a0, ptr noundef %a1) #1 {
start:
  %r0 = alloca [56 x i8], align 8
  %r1 = alloca [72 x i8], align 8
  call void @llvm.memset.p0.i64(ptr %r1, i8 0, i64 72, i1 false)
  call void @llvm.memmove.p0.p0.i64(ptr %r1, ptr %a1, i64 72, i1 false)
  %r2 = alloca i8, align 1
  %r3 = alloca [56 x i8], align 8
  %r4 = alloca [48 x i8], align 8
  call void @llvm.memset.p0.i64(ptr %r0, i8 0, i64 56, i1 false)
  call void @llvm.memset.p0.i64(ptr %r3, i8 0, i64 56, i1 false)
  call void @llvm.memset.p0.i64(ptr %r4, i8 0, i64 48, i1 false)
  %r5 = call i1 @"pie_params::raw::RawParams::are_in_range"(ptr %r1)
  %r6 = zext i1 %r5 to i8
  store i8 %r6, ptr %r2, align 1
  %r7 = load i8, ptr %r2, align 1, !range !1, !noundef !0
  %r8 = trunc i8 %r7 to i1
  br i1 %r8, label %then.1, label %else.2

then.1:                                           ; preds = %start
  call void @"pie_params::checked::Params::in_range"(ptr %r4, ptr %r1)
  store i64 1, ptr %r3, align 1
  %r9 = getelementptr i8, ptr %r3, i64 8
  call void @llvm.memmove.p0.p0.i64(ptr %r9, ptr %r4, i64 48, i1 false)
  br label %join.3

else.2:                                           ; preds = %start
  store i64 0, ptr %r3, align 1
  br label %join.3

join.3:                                           ; preds = %else.2, %then.1
  %r10 = load i8, ptr %r3, align 1
  %r11 = zext i8 %r10 to i64
  store i64 %r11, ptr %r0, align 1
  %r12 = getelementptr i8, ptr %r0, i64 8
  %r13 = getelementptr i8, ptr %r3, i64 8
  call void @llvm.memmove.p0.p0.i64(ptr %r12, ptr %r13, i64 48, i1 false)
  %r14 = load i8, ptr %r0, align 1
  %r15 = zext i8 %r14 to i64
  store i64 %r15, ptr %a0, align 1
  %r16 = getelementptr i8, ptr %a0, i64 8
  %r17 = getelementptr i8, ptr %r0, i64 8
  call void @llvm.memmove.p0.p0.i64(ptr %r16, ptr %r17, i64 48, i1 false)
  ret void
}

define internal void @"pie_params::checked::Params::in_range"(ptr noundef %a0, ptr noundef %a1) #1 {
start:
  %r0 = alloca [48 x i8], align 8
  %r1 = alloca [72 x i8], align 8
  call void @llvm.memset.p0.i64(ptr %r1, i8 0, i64 72, i1 false)
  call void @llvm.memmove.p0.p0.i64(ptr %r1, ptr %a1, i64 72, i1 false)
  %r2 = alloca [8 x i8], align 8
  %r3 = alloca [8 x i8], align 8
  %r4 = alloca [8 x i8], align 8
  %r5 = alloca [4 x i8], align 4
  %r6 = alloca [4 x i8], align 4
  %r7 = alloca i16, align 2
  %r8 = alloca i32, align 4
  %r9 = alloca [8 x i8], align 8
  %r10 = alloca i64, align 8
  %r11 = alloca i16, align 2
  call void @llvm.memset.p0.i64(ptr %r0, i8 0, i64 48, i1 false)
  call void @llvm.memset.p0.i64(ptr %r2, i8 0, i64 8, i1 false)
  call void @llvm.memset.p0.i64(ptr %r3, i8 0, i64 8, i1 false)
  call void @llvm.memset.p0.i64(ptr %r4, i8 0, i64 8, i1 false)
  call void @llvm.memset.p0.i64(ptr %r5, i8 0, i64 4, i1 false)
  call void @llvm.memset.p0.i64(ptr %r6, i8 0, i64 4, i1 false)
  call void @llvm.memset.p0.i64(ptr %r9, i8 0, i64 8, i1 false)
  %r12 = load i64, ptr %r1, align 8, !noundef !0
  %r13 = call i64 @"pie_fixed::units::Nanos::of_units"(i64 %r12)
  store i64 %r13, ptr %r2, align 8
  %r14 = getelementptr i8, ptr %r1, i64 8
  %r15 = load i64, ptr %r14, align 8, !noundef !0
  %r16 = call i64 @"pie_fixed::units::Nanos::of_units"(i64 %r15)
  store i64 %r16, ptr %r3, align 8
  %r17 = getelementptr i8, ptr %r1, i64 16
  %r18 = load i64, ptr %r17, align 8, !noundef !0
  %r19 = call i64 @"pie_fixed::units::Nanos::of_units"(i64 %r18)
  store i64 %r19, ptr %r4, align 8
  %r20 = getelementptr i8, ptr %r1, i64 24
  %r21 = load i64, ptr %r20, align 8, !noundef !0
  %r22 = call i32 @"pie_fixed::units::Gain::of_units"(i64 %r21)
  store i32 %r22, ptr %r5, align 4
  %r23 = getelementptr i8, ptr %r1, i64 32
  %r24 = load i64, ptr %r23, align 8, !noundef !0
  %r25 = call i32 @"pie_fixed::units::Gain::of_units"(i64 %r24)
  store i32 %r25, ptr %r6, align 4
  %r26 = getelementptr i8, ptr %r1, i64 40
  %r27 = load i64, ptr %r26, align 8, !noundef !0
  %r28 = trunc i64 %r27 to i16
  store i16 %r28, ptr %r7, align 2
  %r29 = getelementptr i8, ptr %r1, i64 48
  %r30 = load i64, ptr %r29, align 8, !noundef !0
  %r31 = trunc i64 %r30 to i32
  store i32 %r31, ptr %r8, align 4
  %r32 = getelementptr i8, ptr %r1, i64 56
  %r33 = load i64, ptr %r32, align 8, !noundef !0
  %r34 = call i64 @"pie_fixed::units::Prob::of_units"(i64 %r33)
  store i64 %r34, ptr %r9, align 8
  %r35 = getelementptr i8, ptr %r1, i64 64
  %r36 = load i64, ptr %r35, align 8, !noundef !0
  %r37 = sub i64 %r36, 1
  store i64 %r37, ptr %r10, align 8
  %r38 = load i64, ptr %r10, align 8, !noundef !0
  %r39 = trunc i64 %r38 to i16
  store i16 %r39, ptr %r11, align 2
  %r40 = load i32, ptr %r8, align 4, !noundef !0
  %r41 = load i16, ptr %r11, align 2, !noundef !0
  %r42 = load i16, ptr %r7, align 2, !noundef !0
  store i32 %r40, ptr %r0, align 4
  %r43 = getelementptr i8, ptr %r0, i64 4
  store i16 %r41, ptr %r43, align 2
  %r44 = getelementptr i8, ptr %r0, i64 6
  store i16 %r42, ptr %r44, align 2
  %r45 = getelementptr i8, ptr %r0, i64 8
  call void @llvm.memmove.p0.p0.i64(ptr %r45, ptr %r2, i64 8, i1 false)
  %r46 = getelementptr i8, ptr %r0, i64 16
  call void @llvm.memmove.p0.p0.i64(ptr %r46, ptr %r3, i64 8, i1 false)
  %r47 = getelementptr i8, ptr %r0, i64 24
  call void @llvm.memmove.p0.p0.i64(ptr %r47, ptr %r4, i64 8, i1 false)
  %r48 = getelementptr i8, ptr %r0, i64 32
  call void @llvm.memmove.p0.p0.i64(ptr %r48, ptr %r9, i64 8, i1 false)
  %r49 = getelementptr i8, ptr %r0, i64 40
  call void @llvm.memmove.p0.p0.i64(ptr %r49, ptr %r5, i64 4, i1 false)
  %r50 = getelementptr i8, ptr %r0, i64 44
  call void @llvm.memmove.p0.p0.i64(ptr %r50, ptr %r6, i64 4, i1 false)
  call void @llvm.memmove.p0.p0.i64(ptr %a0, ptr %r0, i64 48, i1 false)
  ret void
}

define internal void @"pie_params::checked::Params::raw"(ptr noundef %a0, ptr noundef %a1) #0 {
start:
  %r0 = alloca [72 x i8], align 8
  %r1 = alloca [48 x i8], align 8
  call void @llvm.memset.p0.i64(ptr %r1, i8 0, i64 48, i1 false)
  call void @llvm.memmove.p0.p0.i64(ptr %r1, ptr %a1, i64 48, i1 false)
  %r2 = alloca i64, align 8
  %r3 = alloca [8 x i8], align 8
  %r4 = alloca i64, align 8
  %r5 = alloca [8 x i8], align 8
  %r6 = alloca i64, align 8
  %r7 = alloca [8 x i8], align 8
  %r8 = alloca i64, align 8
  %r9 = alloca [4 x i8], align 4
  %r10 = alloca i64, align 8
  %r11 = alloca [4 x i8], align 4
  %r12 = alloca i64, align 8
  %r13 = alloca i64, align 8
  %r14 = alloca i64, align 8
  %r15 = alloca [8 x i8], align 8
  %r16 = alloca i64, align 8
  %r17 = alloca i64, align 8
  call void @llvm.memset.p0.i64(ptr %r0, i8 0, i64 72, i1 false)
  call void @llvm.memset.p0.i64(ptr %r3, i8 0, i64 8, i1 false)
  call void @llvm.memset.p0.i64(ptr %r5, i8 0, i64 8, i1 false)
  call void @llvm.memset.p0.i64(ptr %r7, i8 0, i64 8, i1 false)
  call void @llvm.memset.p0.i64(ptr %r9, i8 0, i64 4, i1 false)
  call void @llvm.memset.p0.i64(ptr %r11, i8 0, i64 4, i1 false)
  call void @llvm.memset.p0.i64(ptr %r15, i8 0, i64 8, i1 false)
  %r18 = getelementptr i8, ptr %r1, i64 8
  call void @llvm.memmove.p0.p0.i64(ptr %r3, ptr %r18, i64 8, i1 false)
  %r19 = load i64, ptr %r3, align 8, !noundef !0
  %r20 = call i64 @"pie_fixed::units::Nanos::units"(i64 %r19)
  store i64 %r20, ptr %r2, align 8
  %r21 = getelementptr i8, ptr %r1, i64 16
  call void @llvm.memmove.p0.p0.i64(ptr %r5, ptr %r21, i64 8, i1 false)
  %r22 = load i64, ptr %r5, align 8, !noundef !0
  %r23 = call i64 @"pie_fixed::units::Nanos::units"(i64 %r22)
  store i64 %r23, ptr %r4, align 8
  %r24 = getelementptr i8, ptr %r1, i64 24
  call void @llvm.memmove.p0.p0.i64(ptr %r7, ptr %r24, i64 8, i1 false)
  %r25 = load i64, ptr %r7, align 8, !noundef !0
  %r26 = call i64 @"pie_fixed::units::Nanos::units"(i64 %r25)
  store i64 %r26, ptr %r6, align 8
  %r27 = getelementptr i8, ptr %r1, i64 40
  call void @llvm.memmove.p0.p0.i64(ptr %r9, ptr %r27, i64 4, i1 false)
  %r28 = load i32, ptr %r9, align 4, !noundef !0
  %r29 = call i64 @"pie_fixed::units::Gain::units"(i32 %r28)
  store i64 %r29, ptr %r8, align 8
  %r30 = getelementptr i8, ptr %r1, i64 44
  call void @llvm.memmove.p0.p0.i64(ptr %r11, ptr %r30, i64 4, i1 false)
  %r31 = load i32, ptr %r11, align 4, !noundef !0
  %r32 = call i64 @"pie_fixed::units::Gain::units"(i32 %r31)
  store i64 %r32, ptr %r10, align 8
  %r33 = getelementptr i8, ptr %r1, i64 6
  %r34 = load i16, ptr %r33, align 2, !noundef !0
  %r35 = call i64 @"core::convert::U64FromU16::from"(i16 %r34)
  store i64 %r35, ptr %r12, align 8
  %r36 = load i32, ptr %r1, align 4, !noundef !0
  %r37 = call i64 @"core::convert::U64FromU32::from"(i32 %r36)
  store i64 %r37, ptr %r13, align 8
  %r38 = getelementptr i8, ptr %r1, i64 32
  call void @llvm.memmove.p0.p0.i64(ptr %r15, ptr %r38, i64 8, i1 false)
  %r39 = load i64, ptr %r15, align 8, !noundef !0
  %r40 = call i64 @"pie_fixed::units::Prob::units"(i64 %r39)
  store i64 %r40, ptr %r14, align 8
  %r41 = getelementptr i8, ptr %r1, i64 4
  %r42 = load i16, ptr %r41, align 2, !noundef !0
  %r43 = call i64 @"core::convert::U64FromU16::from"(i16 %r42)
  store i64 %r43, ptr %r16, align 8
  %r44 = load i64, ptr %r16, align 8, !noundef !0
  %r45 = add i64 %r44, 1
  store i64 %r45, ptr %r17, align 8
  %r46 = load i64, ptr %r2, align 8, !noundef !0
  %r47 = load i64, ptr %r4, align 8, !noundef !0
  %r48 = load i64, ptr %r6, align 8, !noundef !0
  %r49 = load i64, ptr %r8, align 8, !noundef !0
  %r50 = load i64, ptr %r10, align 8, !noundef !0
  %r51 = load i64, ptr %r12, align 8, !noundef !0
  %r52 = load i64, ptr %r13, align 8, !noundef !0
  %r53 = load i64, ptr %r14, align 8, !noundef !0
  %r54 = load i64, ptr %r17, align 8, !noundef !0
  store i64 %r46, ptr %r0, align 8
  %r55 = getelementptr i8, ptr %r0, i64 8
  store i64 %r47, ptr %r55, align 8
  %r56 = getelementptr i8, ptr %r0, i64 16
  store i64 %r48, ptr %r56, align 8
  %r57 = getelementptr i8, ptr %r0, i64 24
  store i64 %r49, ptr %r57, align 8
  %r58 = getelementptr i8, ptr %r0, i64 32
  store i64 %r50, ptr %r58, align 8
  %r59 = getelementptr i8, ptr %r0, i64 40
  store i64 %r51, ptr %r59, align 8
  %r60 = getelementptr i8, ptr %r0, i64 48
  store i64 %r52, ptr %r60, align 8
  %r61 = getelementptr i8, ptr %r0, i64 56
  store i64 %r53, ptr %r61, align 8
  %r62 = getelementptr i8, ptr %r0, i64 64
  store i64 %r54, ptr %r62, align 8
  call void @llvm.memmove.p0.p0.i64(ptr %a0, ptr %r0, i64 72, i1 false)
  ret void
}

define internal void @"pie_params::elements::Elements::usual"(ptr noundef %a0) #1 {
start:
  %r0 = alloca [5 x i8], align 1
  %r1 = alloca [1 x i8], align 1
  %r2 = alloca [1 x i8], align 1
  %r3 = alloca [1 x i8], align 1
  %r4 = alloca [1 x i8], align 1
  %r5 = alloca [1 x i8], align 1
  call void @llvm.memset.p0.i64(ptr %r0, i8 0, i64 5, i1 false)
  call void @llvm.memset.p0.i64(ptr %r1, i8 0, i64 1, i1 false)
  call void @llvm.memset.p0.i64(ptr %r2, i8 0, i64 1, i1 false)
  call void @llvm.memset.p0.i64(ptr %r3, i8 0, i64 1, i1 false)
  call void @llvm.memset.p0.i64(ptr %r4, i8 0, i64 1, i1 false)
  call void @llvm.memset.p0.i64(ptr %r5, i8 0, i64 1, i1 false)
  store i8 0, ptr %r1, align 1
  store i8 0, ptr %r2, align 1
  store i8 0, ptr %r3, align 1
  store i8 0, ptr %r4, align 1
  store i8 0, ptr %r5, align 1
  call void @llvm.memmove.p0.p0.i64(ptr %r0, ptr %r1, i64 1, i1 false)
  %r6 = getelementptr i8, ptr %r0, i64 1
  call void @llvm.memmove.p0.p0.i64(ptr %r6, ptr %r2, i64 1, i1 false)
  %r7 = getelementptr i8, ptr %r0, i64 2
  call void @llvm.memmove.p0.p0.i64(ptr %r7, ptr %r3, i64 1, i1 false)
  %r8 = getelementptr i8, ptr %r0, i64 3
  call void @llvm.memmove.p0.p0.i64(ptr %r8, ptr %r4, i64 1, i1 false)
  %r9 = getelementptr i8, ptr %r0, i64 4
  call void @llvm.memmove.p0.p0.i64(ptr %r9, ptr %r5, i64 1, i1 false)
  call void @llvm.memmove.p0.p0.i64(ptr %a0, ptr %r0, i64 5, i1 false)
  ret void
}

define internal noundef zeroext i1 @"pie_params::raw::RawParams::are_in_range"(ptr noundef %a0) #1 {
start:
  %r0 = alloca i8, align 1
  %r1 = alloca [72 x i8], align 8
  call void @llvm.memset.p0.i64(ptr %r1, i8 0, i64 72, i1 false)
  call void @llvm.memmove.p0.p0.i64(ptr %r1, ptr %a0, i64 72, i1 false)
  %r2 = alloca i8, align 1
  %r3 = alloca i8, align 1
  %r4 = alloca i8, align 1
  %r5 = alloca i8, align 1
  %r6 = alloca i8, align 1
  %r7 = alloca i8, align 1
  %r8 = alloca i8, align 1
  %r9 = alloca i8, align 1
  %r10 = alloca [1 x i8], align 1
  %r11 = alloca [1 x i8], align 1
  %r12 = alloca [1 x i8], align 1
  %r13 = alloca [1 x i8], align 1
  %r14 = alloca [1 x i8], align 1
  %r15 = alloca [1 x i8], align 1
  %r16 = alloca [1 x i8], align 1
  %r17 = alloca [1 x i8], align 1
  %r18 = alloca [1 x i8], align 1
  call void @llvm.memset.p0.i64(ptr %r10, i8 0, i64 1, i1 false)
  call void @llvm.memset.p0.i64(ptr %r11, i8 0, i64 1, i1 false)
  call void @llvm.memset.p0.i64(ptr %r12, i8 0, i64 1, i1 false)
  call void @llvm.memset.p0.i64(ptr %r13, i8 0, i64 1, i1 false)
  call void @llvm.memset.p0.i64(ptr %r14, i8 0, i64 1, i1 false)
  call void @llvm.memset.p0.i64(ptr %r15, i8 0, i64 1, i1 false)
  call void @llvm.memset.p0.i64(ptr %r16, i8 0, i64 1, i1 false)
  call void @llvm.memset.p0.i64(ptr %r17, i8 0, i64 1, i1 false)
  call void @llvm.memset.p0.i64(ptr %r18, i8 0, i64 1, i1 false)
  store i8 0, ptr %r10, align 1
  %r19 = load i8, ptr %r10, align 1, !noundef !0
  %r20 = call i1 @"pie_params::raw::RawParams::is_in_range"(ptr %r1, i8 %r19)
  %r21 = zext i1 %r20 to i8
  store i8 %r21, ptr %r9, align 1
  %r22 = load i8, ptr %r9, align 1, !range !1, !noundef !0
  %r23 = trunc i8 %r22 to i1
  br i1 %r23, label %then.1, label %else.2

then.1:                                           ; preds = %start
  store i8 1, ptr %r11, align 1
  %r24 = load i8, ptr %r11, align 1, !noundef !0
  %r25 = call i1 @"pie_params::raw::RawParams::is_in_range"(ptr %r1, i8 %r24)
  %r26 = zext i1 %r25 to i8
  store i8 %r26, ptr %r9, align 1
  br label %join.3

else.2:                                           ; preds = %start
  br label %join.3

join.3:                                           ; preds = %else.2, %then.1
  %r27 = load i8, ptr %r9, align 1, !range !1, !noundef !0
  %r28 = trunc i8 %r27 to i1
  %r29 = zext i1 %r28 to i8
  store i8 %r29, ptr %r8, align 1
  %r30 = load i8, ptr %r8, align 1, !range !1, !noundef !0
  %r31 = trunc i8 %r30 to i1
  br i1 %r31, label %then.4, label %else.5

then.4:                                           ; preds = %join.3
  store i8 2, ptr %r12, align 1
  %r32 = load i8, ptr %r12, align 1, !noundef !0
  %r33 = call i1 @"pie_params::raw::RawParams::is_in_range"(ptr %r1, i8 %r32)
  %r34 = zext i1 %r33 to i8
  store i8 %r34, ptr %r8, align 1
  br label %join.6

else.5:                                           ; preds = %join.3
  br label %join.6

join.6:                                           ; preds = %else.5, %then.4
  %r35 = load i8, ptr %r8, align 1, !range !1, !noundef !0
  %r36 = trunc i8 %r35 to i1
  %r37 = zext i1 %r36 to i8
  store i8 %r37, ptr %r7, align 1
  %r38 = load i8, ptr %r7, align 1, !range !1, !noundef !0
  %r39 = trunc i8 %r38 to i1
  br i1 %r39, label %then.7, label %else.8

then.7:                                           ; preds = %join.6
  store i8 3, ptr %r13, align 1
  %r40 = load i8, ptr %r13, align 1, !noundef !0
  %r41 = call i1 @"pie_params::raw::RawParams::is_in_range"(ptr %r1, i8 %r40)
  %r42 = zext i1 %r41 to i8
  store i8 %r42, ptr %r7, align 1
  br label %join.9

else.8:                                           ; preds = %join.6
  br label %join.9

join.9:                                           ; preds = %else.8, %then.7
  %r43 = load i8, ptr %r7, align 1, !range !1, !noundef !0
  %r44 = trunc i8 %r43 to i1
  %r45 = zext i1 %r44 to i8
  store i8 %r45, ptr %r6, align 1
  %r46 = load i8, ptr %r6, align 1, !range !1, !noundef !0
  %r47 = trunc i8 %r46 to i1
  br i1 %r47, label %then.10, label %else.11

then.10:                                          ; preds = %join.9
  store i8 4, ptr %r14, align 1
  %r48 = load i8, ptr %r14, align 1, !noundef !0
  %r49 = call i1 @"pie_params::raw::RawParams::is_in_range"(ptr %r1, i8 %r48)
  %r50 = zext i1 %r49 to i8
  store i8 %r50, ptr %r6, align 1
  br label %join.12

else.11:                                          ; preds = %join.9
  br label %join.12

join.12:                                          ; preds = %else.11, %then.10
  %r51 = load i8, ptr %r6, align 1, !range !1, !noundef !0
  %r52 = trunc i8 %r51 to i1
  %r53 = zext i1 %r52 to i8
  store i8 %r53, ptr %r5, align 1
  %r54 = load i8, ptr %r5, align 1, !range !1, !noundef !0
  %r55 = trunc i8 %r54 to i1
  br i1 %r55, label %then.13, label %else.14

then.13:                                          ; preds = %join.12
  store i8 5, ptr %r15, align 1
  %r56 = load i8, ptr %r15, align 1, !noundef !0
  %r57 = call i1 @"pie_params::raw::RawParams::is_in_range"(ptr %r1, i8 %r56)
  %r58 = zext i1 %r57 to i8
  store i8 %r58, ptr %r5, align 1
  br label %join.15

else.14:                                          ; preds = %join.12
  br label %join.15

join.15:                                          ; preds = %else.14, %then.13
  %r59 = load i8, ptr %r5, align 1, !range !1, !noundef !0
  %r60 = trunc i8 %r59 to i1
  %r61 = zext i1 %r60 to i8
  store i8 %r61, ptr %r4, align 1
  %r62 = load i8, ptr %r4, align 1, !range !1, !noundef !0
  %r63 = trunc i8 %r62 to i1
  br i1 %r63, label %then.16, label %else.17

then.16:                                          ; preds = %join.15
  store i8 6, ptr %r16, align 1
  %r64 = load i8, ptr %r16, align 1, !noundef !0
  %r65 = call i1 @"pie_params::raw::RawParams::is_in_range"(ptr %r1, i8 %r64)
  %r66 = zext i1 %r65 to i8
  store i8 %r66, ptr %r4, align 1
  br label %join.18

else.17:                                          ; preds = %join.15
  br label %join.18

join.18:                                          ; preds = %else.17, %then.16
  %r67 = load i8, ptr %r4, align 1, !range !1, !noundef !0
  %r68 = trunc i8 %r67 to i1
  %r69 = zext i1 %r68 to i8
  store i8 %r69, ptr %r3, align 1
  %r70 = load i8, ptr %r3, align 1, !range !1, !noundef !0
  %r71 = trunc i8 %r70 to i1
  br i1 %r71, label %then.19, label %else.20

then.19:                                          ; preds = %join.18
  store i8 7, ptr %r17, align 1
  %r72 = load i8, ptr %r17, align 1, !noundef !0
  %r73 = call i1 @"pie_params::raw::RawParams::is_in_range"(ptr %r1, i8 %r72)
  %r74 = zext i1 %r73 to i8
  store i8 %r74, ptr %r3, align 1
  br label %join.21

else.20:                                          ; preds = %join.18
  br label %join.21

join.21:                                          ; preds = %else.20, %then.19
  %r75 = load i8, ptr %r3, align 1, !range !1, !noundef !0
  %r76 = trunc i8 %r75 to i1
  %r77 = zext i1 %r76 to i8
  store i8 %r77, ptr %r2, align 1
  %r78 = load i8, ptr %r2, align 1, !range !1, !noundef !0
  %r79 = trunc i8 %r78 to i1
  br i1 %r79, label %then.22, label %else.23

then.22:                                          ; preds = %join.21
  store i8 8, ptr %r18, align 1
  %r80 = load i8, ptr %r18, align 1, !noundef !0
  %r81 = call i1 @"pie_params::raw::RawParams::is_in_range"(ptr %r1, i8 %r80)
  %r82 = zext i1 %r81 to i8
  store i8 %r82, ptr %r2, align 1
  br label %join.24

else.23:                                          ; preds = %join.21
  br label %join.24

join.24:                                          ; preds = %else.23, %then.22
  %r83 = load i8, ptr %r2, align 1, !range !1, !noundef !0
  %r84 = trunc i8 %r83 to i1
  %r85 = zext i1 %r84 to i8
  store i8 %r85, ptr %r0, align 1
  %r86 = load i8, ptr %r0, align 1, !range !1, !noundef !0
  %r87 = trunc i8 %r86 to i1
  ret i1 %r87
}

define internal { i8, i8 } @"pie_params::raw::RawParams::first_bad"(ptr noundef %a0) #0 {
start:
  %r0 = alloca [2 x i8], align 1
  %r1 = alloca [72 x i8], align 8
  call void @llvm.memset.p0.i64(ptr %r1, i8 0, i64 72, i1 false)
  call void @llvm.memmove.p0.p0.i64(ptr %r1, ptr %a0, i64 72, i1 false)
  %r2 = alloca [72 x i8], align 8
  %r3 = alloca [16 x i8], align 8
  %r4 = alloca [16 x i8], align 8
  %r5 = alloca ptr, align 8
  %r6 = alloca ptr, align 8
  %r7 = alloca [16 x i8], align 8
  %r8 = alloca [16 x i8], align 8
  %r9 = alloca ptr, align 8
  %r10 = alloca ptr, align 8
  %r11 = alloca [8 x i8], align 8
  call void @llvm.memset.p0.i64(ptr %r0, i8 0, i64 2, i1 false)
  call void @llvm.memset.p0.i64(ptr %r2, i8 0, i64 72, i1 false)
  call void @llvm.memset.p0.i64(ptr %r3, i8 0, i64 16, i1 false)
  call void @llvm.memset.p0.i64(ptr %r4, i8 0, i64 16, i1 false)
  call void @llvm.memset.p0.i64(ptr %r7, i8 0, i64 16, i1 false)
  call void @llvm.memset.p0.i64(ptr %r8, i8 0, i64 16, i1 false)
  call void @llvm.memset.p0.i64(ptr %r11, i8 0, i64 8, i1 false)
  call void @llvm.memmove.p0.p0.i64(ptr %r2, ptr %r1, i64 72, i1 false)
  store ptr @static.0, ptr %r5, align 8
  %r12 = load ptr, ptr %r5, align 8, !noundef !0
  store ptr %r12, ptr %r6, align 8
  %r13 = load ptr, ptr %r6, align 8, !noundef !0
  store ptr %r13, ptr %r7, align 8
  %r14 = getelementptr i8, ptr %r7, i64 8
  store i64 9, ptr %r14, align 8
  %r15 = load ptr, ptr %r7, align 8, !noundef !0
  %r16 = getelementptr i8, ptr %r7, i64 8
  %r17 = load i64, ptr %r16, align 8, !noundef !0
  %r18 = call { ptr, i64 } @"core::iter::slices::slice+T::iter::<22'pie_params::raw::Field>"(ptr %r15, i64 %r17)
  %r19 = extractvalue { ptr, i64 } %r18, 0
  %r20 = extractvalue { ptr, i64 } %r18, 1
  store ptr %r19, ptr %r4, align 8
  %r21 = getelementptr i8, ptr %r4, i64 8
  store i64 %r20, ptr %r21, align 8
  %r22 = load ptr, ptr %r4, align 8, !noundef !0
  %r23 = getelementptr i8, ptr %r4, i64 8
  %r24 = load i64, ptr %r23, align 8, !noundef !0
  %r25 = call { ptr, i64 } @"core::iter::base::Iterator::copied::<#fe1da720efc189be>"(ptr %r22, i64 %r24)
  %r26 = extractvalue { ptr, i64 } %r25, 0
  %r27 = extractvalue { ptr, i64 } %r25, 1
  store ptr %r26, ptr %r3, align 8
  %r28 = getelementptr i8, ptr %r3, i64 8
  store i64 %r27, ptr %r28, align 8
  call void @llvm.memmove.p0.p0.i64(ptr %r8, ptr %r3, i64 16, i1 false)
  store ptr %r8, ptr %r9, align 8
  store ptr %r2, ptr %r10, align 8
  %r29 = load ptr, ptr %r10, align 8, !noundef !0
  store ptr %r29, ptr %r11, align 8
  %r30 = load ptr, ptr %r9, align 8, !noundef !0
  %r31 = load ptr, ptr %r11, align 8, !noundef !0
  %r32 = call { i8, i8 } @"core::iter::base::Iterator::find::<#982e5caaa8d4ff0e>"(ptr %r30, ptr %r31)
  %r33 = extractvalue { i8, i8 } %r32, 0
  %r34 = extractvalue { i8, i8 } %r32, 1
  store i8 %r33, ptr %r0, align 1
  %r35 = getelementptr i8, ptr %r0, i64 1
  store i8 %r34, ptr %r35, align 1
  br label %return.1

return.1:                                         ; preds = %start
  %r36 = load { i8, i8 }, ptr %r0, align 1
  ret { i8, i8 } %r36
}

define internal noundef zeroext i1 @"pie_params::raw::RawParams::is_in_range"(ptr noundef %a0, i8 noundef %a1) #0 {
start:
  %r0 = alloca i8, align 1
  %r1 = alloca [72 x i8], align 8
  call void @llvm.memset.p0.i64(ptr %r1, i8 0, i64 72, i1 false)
  call void @llvm.memmove.p0.p0.i64(ptr %r1, ptr %a0, i64 72, i1 false)
  %r2 = alloca [1 x i8], align 1
  call void @llvm.memset.p0.i64(ptr %r2, i8 0, i64 1, i1 false)
  store i8 %a1, ptr %r2, align 1
  %r3 = alloca i8, align 1
  %r4 = alloca i8, align 1
  %r5 = alloca i8, align 1
  %r6 = alloca i8, align 1
  %r7 = alloca i8, align 1
  %r8 = alloca i64, align 8
  %r9 = alloca i8, align 1
  %r10 = load i8, ptr %r2, align 1, !noundef !0
  switch i8 %r10, label %noarm.10 [
    i8 0, label %arm.1
    i8 1, label %arm.2
    i8 2, label %arm.3
    i8 3, label %arm.4
    i8 4, label %arm.5
    i8 5, label %arm.6
    i8 6, label %arm.7
    i8 7, label %arm.8
    i8 8, label %arm.9
  ]

arm.1:                                            ; preds = %start
  %r11 = load i64, ptr %r1, align 8, !noundef !0
  %r12 = icmp ule i64 2, %r11
  %r13 = zext i1 %r12 to i8
  store i8 %r13, ptr %r4, align 1
  %r14 = load i8, ptr %r4, align 1, !range !1, !noundef !0
  %r15 = trunc i8 %r14 to i1
  br i1 %r15, label %then.12, label %else.13

then.12:                                          ; preds = %arm.1
  %r16 = load i64, ptr %r1, align 8, !noundef !0
  %r17 = icmp ule i64 %r16, 10000000000
  %r18 = zext i1 %r17 to i8
  store i8 %r18, ptr %r4, align 1
  br label %join.14

else.13:                                          ; preds = %arm.1
  br label %join.14

join.14:                                          ; preds = %else.13, %then.12
  %r19 = load i8, ptr %r4, align 1, !range !1, !noundef !0
  %r20 = trunc i8 %r19 to i1
  %r21 = zext i1 %r20 to i8
  store i8 %r21, ptr %r3, align 1
  br label %join.11

arm.2:                                            ; preds = %start
  %r22 = getelementptr i8, ptr %r1, i64 8
  %r23 = load i64, ptr %r22, align 8, !noundef !0
  %r24 = icmp ule i64 1, %r23
  %r25 = zext i1 %r24 to i8
  store i8 %r25, ptr %r5, align 1
  %r26 = load i8, ptr %r5, align 1, !range !1, !noundef !0
  %r27 = trunc i8 %r26 to i1
  br i1 %r27, label %then.15, label %else.16

then.15:                                          ; preds = %arm.2
  %r28 = getelementptr i8, ptr %r1, i64 8
  %r29 = load i64, ptr %r28, align 8, !noundef !0
  %r30 = icmp ule i64 %r29, 10000000000
  %r31 = zext i1 %r30 to i8
  store i8 %r31, ptr %r5, align 1
  br label %join.17

else.16:                                          ; preds = %arm.2
  br label %join.17

join.17:                                          ; preds = %else.16, %then.15
  %r32 = load i8, ptr %r5, align 1, !range !1, !noundef !0
  %r33 = trunc i8 %r32 to i1
  %r34 = zext i1 %r33 to i8
  store i8 %r34, ptr %r3, align 1
  br label %join.11

arm.3:                                            ; preds = %start
  %r35 = getelementptr i8, ptr %r1, i64 16
  %r36 = load i64, ptr %r35, align 8, !noundef !0
  %r37 = icmp ule i64 %r36, 1000000000000
  %r38 = zext i1 %r37 to i8
  store i8 %r38, ptr %r3, align 1
  br label %join.11

arm.4:                                            ; preds = %start
  %r39 = getelementptr i8, ptr %r1, i64 24
  %r40 = load i64, ptr %r39, align 8, !noundef !0
  %r41 = icmp ule i64 %r40, 1000000
  %r42 = zext i1 %r41 to i8
  store i8 %r42, ptr %r3, align 1
  br label %join.11

arm.5:                                            ; preds = %start
  %r43 = getelementptr i8, ptr %r1, i64 32
  %r44 = load i64, ptr %r43, align 8, !noundef !0
  %r45 = icmp ule i64 %r44, 1000000
  %r46 = zext i1 %r45 to i8
  store i8 %r46, ptr %r3, align 1
  br label %join.11

arm.6:                                            ; preds = %start
  %r47 = getelementptr i8, ptr %r1, i64 40
  %r48 = load i64, ptr %r47, align 8, !noundef !0
  %r49 = icmp ule i64 1, %r48
  %r50 = zext i1 %r49 to i8
  store i8 %r50, ptr %r6, align 1
  %r51 = load i8, ptr %r6, align 1, !range !1, !noundef !0
  %r52 = trunc i8 %r51 to i1
  br i1 %r52, label %then.18, label %else.19

then.18:                                          ; preds = %arm.6
  %r53 = getelementptr i8, ptr %r1, i64 40
  %r54 = load i64, ptr %r53, align 8, !noundef !0
  %r55 = icmp ule i64 %r54, 65535
  %r56 = zext i1 %r55 to i8
  store i8 %r56, ptr %r6, align 1
  br label %join.20

else.19:                                          ; preds = %arm.6
  br label %join.20

join.20:                                          ; preds = %else.19, %then.18
  %r57 = load i8, ptr %r6, align 1, !range !1, !noundef !0
  %r58 = trunc i8 %r57 to i1
  %r59 = zext i1 %r58 to i8
  store i8 %r59, ptr %r3, align 1
  br label %join.11

arm.7:                                            ; preds = %start
  %r60 = getelementptr i8, ptr %r1, i64 48
  %r61 = load i64, ptr %r60, align 8, !noundef !0
  %r62 = icmp ule i64 1, %r61
  %r63 = zext i1 %r62 to i8
  store i8 %r63, ptr %r7, align 1
  %r64 = load i8, ptr %r7, align 1, !range !1, !noundef !0
  %r65 = trunc i8 %r64 to i1
  br i1 %r65, label %then.21, label %else.22

then.21:                                          ; preds = %arm.7
  %r66 = shl i64 1, 30
  store i64 %r66, ptr %r8, align 8
  %r67 = getelementptr i8, ptr %r1, i64 48
  %r68 = load i64, ptr %r67, align 8, !noundef !0
  %r69 = load i64, ptr %r8, align 8, !noundef !0
  %r70 = icmp ule i64 %r68, %r69
  %r71 = zext i1 %r70 to i8
  store i8 %r71, ptr %r7, align 1
  br label %join.23

else.22:                                          ; preds = %arm.7
  br label %join.23

join.23:                                          ; preds = %else.22, %then.21
  %r72 = load i8, ptr %r7, align 1, !range !1, !noundef !0
  %r73 = trunc i8 %r72 to i1
  %r74 = zext i1 %r73 to i8
  store i8 %r74, ptr %r3, align 1
  br label %join.11

arm.8:                                            ; preds = %start
  %r75 = getelementptr i8, ptr %r1, i64 56
  %r76 = load i64, ptr %r75, align 8, !noundef !0
  %r77 = icmp ule i64 %r76, 1000000000000
  %r78 = zext i1 %r77 to i8
  store i8 %r78, ptr %r3, align 1
  br label %join.11

arm.9:                                            ; preds = %start
  %r79 = getelementptr i8, ptr %r1, i64 64
  %r80 = load i64, ptr %r79, align 8, !noundef !0
  switch i64 %r80, label %default.25 [
    i64 1024, label %arm.24
    i64 2048, label %arm.24
    i64 4096, label %arm.24
    i64 8192, label %arm.24
    i64 16384, label %arm.24
    i64 32768, label %arm.24
    i64 65536, label %arm.24
  ]

arm.24:                                           ; preds = %arm.9, %arm.9, %arm.9, %arm.9, %arm.9, %arm.9, %arm.9
  %r81 = zext i1 true to i8
  store i8 %r81, ptr %r9, align 1
  br label %join.26

default.25:                                       ; preds = %arm.9
  %r82 = zext i1 false to i8
  store i8 %r82, ptr %r9, align 1
  br label %join.26

join.26:                                          ; preds = %default.25, %arm.24
  %r83 = load i8, ptr %r9, align 1, !range !1, !noundef !0
  %r84 = trunc i8 %r83 to i1
  %r85 = zext i1 %r84 to i8
  store i8 %r85, ptr %r3, align 1
  br label %join.11

join.11:                                          ; preds = %join.26, %arm.8, %join.23, %join.20, %arm.5, %arm.4, %arm.3, %join.17, %join.14
  %r86 = load i8, ptr %r3, align 1, !range !1, !noundef !0
  %r87 = trunc i8 %r86 to i1
  %r88 = zext i1 %r87 to i8
  store i8 %r88, ptr %r0, align 1
  %r89 = load i8, ptr %r0, align 1, !range !1, !noundef !0
  %r90 = trunc i8 %r89 to i1
  ret i1 %r90

noarm.10:                                         ; preds = %start
  unreachable
}

define internal noundef zeroext i1 @"pie_params::raw::fn::RawParams::first_bad::find"(ptr noundef %a0, ptr noundef %a1) #0 {
start:
  %r0 = alloca i8, align 1
  %r1 = alloca [1 x i8], align 1
  %r2 = alloca ptr, align 8
  %r3 = alloca i8, align 1
  %r4 = alloca [72 x i8], align 8
  call void @llvm.memset.p0.i64(ptr %r1, i8 0, i64 1, i1 false)
  call void @llvm.memset.p0.i64(ptr %r4, i8 0, i64 72, i1 false)
  call void @llvm.memmove.p0.p0.i64(ptr %r1, ptr %a1, i64 1, i1 false)
  %r5 = load ptr, ptr %a0, align 8, !noundef !0
  store ptr %r5, ptr %r2, align 8
  %r6 = load ptr, ptr %r2, align 8, !noundef !0
  call void @llvm.memmove.p0.p0.i64(ptr %r4, ptr %r6, i64 72, i1 false)
  %r7 = load i8, ptr %r1, align 1, !noundef !0
  %r8 = call i1 @"pie_params::raw::RawParams::is_in_range"(ptr %r4, i8 %r7)
  %r9 = zext i1 %r8 to i8
  store i8 %r9, ptr %r3, align 1
  %r10 = load i8, ptr %r3, align 1, !range !1, !noundef !0
  %r11 = trunc i8 %r10 to i1
  %r12 = xor i1 %r11, true
  %r13 = zext i1 %r12 to i8
  store i8 %r13, ptr %r0, align 1
  %r14 = load i8, ptr %r0, align 1, !range !1, !noundef !0
  %r15 = trunc i8 %r14 to i1
  ret i1 %r15
}

define internal noundef zeroext i1 @"pie_params::raw::fn::RawParams::first_bad::find+FnMut::call_mut"(ptr noundef %a0, ptr noundef %a1) #0 {
start:
  %r0 = alloca i8, align 1
  %r1 = alloca ptr, align 8
  store ptr %a0, ptr %r1, align 8
  %r2 = load ptr, ptr %r1, align 8, !noundef !0
  %r3 = call i1 @"pie_params::raw::fn::RawParams::first_bad::find"(ptr %r2, ptr %a1)
  %r4 = zext i1 %r3 to i8
  store i8 %r4, ptr %r0, align 1
  %r5 = load i8, ptr %r0, align 1, !range !1, !noundef !0
  %r6 = trunc i8 %r5 to i1
  ret i1 %r6
}

define internal noundef zeroext i1 @"pie_queue::ecn::Ecn::capable"(i8 noundef %a0) #0 {
start:
  %r0 = alloca i8, align 1
  %r1 = alloca [1 x i8], align 1
  call void @llvm.memset.p0.i64(ptr %r1, i8 0, i64 1, i1 false)
  store i8 %a0, ptr %r1, align 1
  %r2 = alloca i8, align 1
  %r3 = alloca i8, align 1
  %r4 = load i8, ptr %r1, align 1, !noundef !0
  switch i8 %r4, label %noarm.3 [
    i8 0, label %arm.1
    i8 1, label %arm.2
    i8 2, label %arm.2
    i8 3, label %arm.2
  ]

arm.1:                                            ; preds = %start
  %r5 = zext i1 true to i8
  store i8 %r5, ptr %r3, align 1
  br label %join.4

arm.2:                                            ; preds = %start, %start, %start
  %r6 = zext i1 false to i8
  store i8 %r6, ptr %r3, align 1
  br label %join.4

join.4:                                           ; preds = %arm.2, %arm.1
  %r7 = load i8, ptr %r3, align 1, !range !1, !noundef !0
  %r8 = trunc i8 %r7 to i1
  %r9 = zext i1 %r8 to i8
  store i8 %r9, ptr %r2, align 1
  %r10 = load i8, ptr %r2, align 1, !range !1, !noundef !0
  %r11 = trunc i8 %r10 to i1
  %r12 = xor i1 %r11, true
  %r13 = zext i1 %r12 to i8
  store i8 %r13, ptr %r0, align 1
  %r14 = load i8, ptr %r0, align 1, !range !1, !noundef !0
  %r15 = trunc i8 %r14 to i1
  ret i1 %r15

noarm.3:                                          ; preds = %start
  unreachable
}

define internal { i8, i64 } @"pie_rate::raw::RawCycle::counted"(ptr noundef %a0, i32 noundef %a1, i64 noundef %a2) #1 {
start:
  %r0 = alloca [16 x i8], align 8
  %r1 = alloca i64, align 8
  %r2 = alloca i64, align 8
  %r3 = alloca i64, align 8
  %r4 = alloca i8, align 1
  %r5 = alloca [16 x i8], align 8
  call void @llvm.memset.p0.i64(ptr %r0, i8 0, i64 16, i1 false)
  call void @llvm.memset.p0.i64(ptr %r5, i8 0, i64 16, i1 false)
  %r6 = getelementptr i8, ptr %a0, i64 8
  %r7 = load i64, ptr %r6, align 8, !noundef !0
  store i64 %r7, ptr %r2, align 8
  %r8 = call i64 @"core::convert::U64FromU32::from"(i32 %a1)
  store i64 %r8, ptr %r3, align 8
  %r9 = load i64, ptr %r2, align 8, !noundef !0
  %r10 = load i64, ptr %r3, align 8, !noundef !0
  %r11 = call i64 @"core::int::u64::saturating_add"(i64 %r9, i64 %r10)
  store i64 %r11, ptr %r1, align 8
  %r12 = load i64, ptr %r1, align 8, !noundef !0
  %r13 = icmp ult i64 %r12, %a2
  %r14 = zext i1 %r13 to i8
  store i8 %r14, ptr %r4, align 1
  %r15 = load i8, ptr %r4, align 1, !range !1, !noundef !0
  %r16 = trunc i8 %r15 to i1
  br i1 %r16, label %then.1, label %else.2

then.1:                                           ; preds = %start
  %r17 = load i64, ptr %r1, align 8, !noundef !0
  store i64 1, ptr %r5, align 1
  %r18 = getelementptr i8, ptr %r5, i64 8
  store i64 %r17, ptr %r18, align 8
  br label %join.3

else.2:                                           ; preds = %start
  store i64 0, ptr %r5, align 1
  br label %join.3

join.3:                                           ; preds = %else.2, %then.1
  %r19 = load i8, ptr %r5, align 1
  %r20 = zext i8 %r19 to i64
  store i64 %r20, ptr %r0, align 1
  %r21 = getelementptr i8, ptr %r0, i64 8
  %r22 = getelementptr i8, ptr %r5, i64 8
  call void @llvm.memmove.p0.p0.i64(ptr %r21, ptr %r22, i64 8, i1 false)
  br label %return.4

return.4:                                         ; preds = %join.3
  %r23 = load { i8, i64 }, ptr %r0, align 8
  ret { i8, i64 } %r23
}

define internal void @"pie_rate::raw::RawRate::cleared"(ptr noundef %a0) #0 {
start:
  %r0 = alloca [32 x i8], align 8
  %r1 = alloca [24 x i8], align 8
  call void @llvm.memset.p0.i64(ptr %r0, i8 0, i64 32, i1 false)
  call void @llvm.memset.p0.i64(ptr %r1, i8 0, i64 24, i1 false)
  store i64 0, ptr %r1, align 1
  store i64 0, ptr %r0, align 8
  %r2 = getelementptr i8, ptr %r0, i64 8
  %r3 = load i8, ptr %r1, align 1
  %r4 = zext i8 %r3 to i64
  store i64 %r4, ptr %r2, align 1
  %r5 = getelementptr i8, ptr %r2, i64 8
  %r6 = getelementptr i8, ptr %r1, i64 8
  call void @llvm.memmove.p0.p0.i64(ptr %r5, ptr %r6, i64 16, i1 false)
  call void @llvm.memmove.p0.p0.i64(ptr %a0, ptr %r0, i64 8, i1 false)
  %r7 = getelementptr i8, ptr %a0, i64 8
  %r8 = getelementptr i8, ptr %r0, i64 8
  %r9 = load i8, ptr %r8, align 1
  %r10 = zext i8 %r9 to i64
  store i64 %r10, ptr %r7, align 1
  %r11 = getelementptr i8, ptr %a0, i64 16
  %r12 = getelementptr i8, ptr %r0, i64 16
  call void @llvm.memmove.p0.p0.i64(ptr %r11, ptr %r12, i64 16, i1 false)
  ret void
}

define internal void @"pie_rate::raw::RawRate::departed"(ptr noundef %a0, i32 noundef %a1, i64 noundef %a2, i64 noundef %a3, i64 noundef %a4) #1 {
start:
  %r0 = alloca ptr, align 8
  %r1 = alloca i64, align 8
  %r2 = alloca i64, align 8
  %r3 = alloca ptr, align 8
  %r4 = alloca [16 x i8], align 8
  %r5 = alloca ptr, align 8
  %r6 = alloca i64, align 8
  %r7 = alloca i64, align 8
  %r8 = alloca i8, align 1
  %r9 = alloca [24 x i8], align 8
  %r10 = alloca [16 x i8], align 8
  call void @llvm.memset.p0.i64(ptr %r4, i8 0, i64 16, i1 false)
  call void @llvm.memset.p0.i64(ptr %r9, i8 0, i64 24, i1 false)
  call void @llvm.memset.p0.i64(ptr %r10, i8 0, i64 16, i1 false)
  %r11 = getelementptr i8, ptr %a0, i64 8
  store ptr %r11, ptr %r3, align 8
  %r12 = load ptr, ptr %r3, align 8, !noundef !0
  %r13 = load i8, ptr %r12, align 1, !noundef !0
  switch i8 %r13, label %noarm.3 [
    i8 1, label %arm.1
    i8 0, label %arm.2
  ]

arm.1:                                            ; preds = %start
  %r14 = load ptr, ptr %r3, align 8, !noundef !0
  %r15 = getelementptr i8, ptr %r14, i64 8
  store ptr %r15, ptr %r0, align 8
  %r16 = load ptr, ptr %r0, align 8, !noundef !0
  store ptr %r16, ptr %r5, align 8
  %r17 = load ptr, ptr %r5, align 8, !noundef !0
  %r18 = call { i8, i64 } @"pie_rate::raw::RawCycle::counted"(ptr %r17, i32 %a1, i64 %a4)
  %r19 = extractvalue { i8, i64 } %r18, 0
  %r20 = extractvalue { i8, i64 } %r18, 1
  %r21 = zext i8 %r19 to i64
  store i64 %r21, ptr %r4, align 1
  %r22 = getelementptr i8, ptr %r4, i64 8
  store i64 %r20, ptr %r22, align 8
  %r23 = load i8, ptr %r4, align 1, !noundef !0
  switch i8 %r23, label %noarm.3 [
    i8 1, label %arm.5
    i8 0, label %arm.6
  ]

arm.5:                                            ; preds = %arm.1
  %r24 = getelementptr i8, ptr %r4, i64 8
  %r25 = load i64, ptr %r24, align 8, !noundef !0
  store i64 %r25, ptr %r1, align 8
  %r26 = load i64, ptr %r1, align 8, !noundef !0
  %r27 = load ptr, ptr %r0, align 8, !noundef !0
  %r28 = getelementptr i8, ptr %r27, i64 8
  store i64 %r26, ptr %r28, align 8
  ret void

arm.6:                                            ; preds = %arm.1
  br label %join.7

join.7:                                           ; preds = %arm.6
  %r29 = load ptr, ptr %r0, align 8, !noundef !0
  %r30 = load i64, ptr %r29, align 8, !noundef !0
  store i64 %r30, ptr %r6, align 8
  %r31 = load i64, ptr %r6, align 8, !noundef !0
  %r32 = call i64 @"pie_rate::raw::sample"(i64 %r31, i64 %a3)
  store i64 %r32, ptr %r2, align 8
  %r33 = load i64, ptr %a0, align 8, !noundef !0
  store i64 %r33, ptr %r7, align 8
  %r34 = load i64, ptr %r7, align 8, !noundef !0
  %r35 = load i64, ptr %r2, align 8, !noundef !0
  %r36 = call i64 @"pie_rate::raw::averaged"(i64 %r34, i64 %r35, i64 %a4)
  store i64 %r36, ptr %r6, align 8
  %r37 = load i64, ptr %r6, align 8, !noundef !0
  store i64 %r37, ptr %a0, align 8
  br label %join.4

arm.2:                                            ; preds = %start
  br label %join.4

join.4:                                           ; preds = %arm.2, %join.7
  %r38 = icmp ult i64 %a2, %a4
  %r39 = zext i1 %r38 to i8
  store i8 %r39, ptr %r8, align 1
  %r40 = load i8, ptr %r8, align 1, !range !1, !noundef !0
  %r41 = trunc i8 %r40 to i1
  br i1 %r41, label %then.8, label %else.9

then.8:                                           ; preds = %join.4
  store i64 0, ptr %r9, align 1
  br label %join.10

else.9:                                           ; preds = %join.4
  store i64 %a3, ptr %r10, align 8
  %r42 = getelementptr i8, ptr %r10, i64 8
  store i64 0, ptr %r42, align 8
  store i64 1, ptr %r9, align 1
  %r43 = getelementptr i8, ptr %r9, i64 8
  call void @llvm.memmove.p0.p0.i64(ptr %r43, ptr %r10, i64 16, i1 false)
  br label %join.10

join.10:                                          ; preds = %else.9, %then.8
  %r44 = getelementptr i8, ptr %a0, i64 8
  %r45 = load i8, ptr %r9, align 1
  %r46 = zext i8 %r45 to i64
  store i64 %r46, ptr %r44, align 1
  %r47 = getelementptr i8, ptr %r44, i64 8
  %r48 = getelementptr i8, ptr %r9, i64 8
  call void @llvm.memmove.p0.p0.i64(ptr %r47, ptr %r48, i64 16, i1 false)
  ret void

noarm.3:                                          ; preds = %arm.1, %start
  unreachable
}

define internal noundef i64 @"pie_rate::raw::averaged"(i64 noundef %a0, i64 noundef %a1, i64 noundef %a2) #0 {
start:
  %r0 = alloca i64, align 8
  %r1 = alloca i128, align 16
  %r2 = alloca i128, align 16
  %r3 = alloca i8, align 1
  %r4 = alloca i128, align 16
  %r5 = alloca i128, align 16
  %r6 = alloca i64, align 8
  %r7 = alloca i128, align 16
  %r8 = icmp eq i64 %a0, 0
  %r9 = zext i1 %r8 to i8
  store i8 %r9, ptr %r3, align 1
  %r10 = load i8, ptr %r3, align 1, !range !1, !noundef !0
  %r11 = trunc i8 %r10 to i1
  br i1 %r11, label %then.1, label %else.2

then.1:                                           ; preds = %start
  store i64 %a1, ptr %r0, align 8
  %r12 = load i64, ptr %r0, align 8, !noundef !0
  ret i64 %r12

else.2:                                           ; preds = %start
  br label %join.3

join.3:                                           ; preds = %else.2
  %r13 = call i128 @"core::convert::wide::U128FromU64::from"(i64 %a0)
  store i128 %r13, ptr %r4, align 16
  %r14 = sub i64 65536, %a2
  store i64 %r14, ptr %r6, align 8
  %r15 = load i64, ptr %r6, align 8, !noundef !0
  %r16 = call i128 @"core::convert::wide::U128FromU64::from"(i64 %r15)
  store i128 %r16, ptr %r5, align 16
  %r17 = load i128, ptr %r4, align 16, !noundef !0
  %r18 = load i128, ptr %r5, align 16, !noundef !0
  %r19.al = trunc i128 %r17 to i64
  %r19.as = lshr i128 %r17, 64
  %r19.ah = trunc i128 %r19.as to i64
  %r19.bl = trunc i128 %r18 to i64
  %r19.bs = lshr i128 %r18, 64
  %r19.bh = trunc i128 %r19.bs to i64
  %r19.adl = and i64 %r19.al, 4294967295
  %r19.adh = lshr i64 %r19.al, 32
  %r19.bdl = and i64 %r19.bl, 4294967295
  %r19.bdh = lshr i64 %r19.bl, 32
  %r19.ll = mul i64 %r19.adl, %r19.bdl
  %r19.lh = mul i64 %r19.adl, %r19.bdh
  %r19.hl = mul i64 %r19.adh, %r19.bdl
  %r19.hh = mul i64 %r19.adh, %r19.bdh
  %r19.c1 = lshr i64 %r19.ll, 32
  %r19.m1 = add i64 %r19.hl, %r19.c1
  %r19.m2 = and i64 %r19.m1, 4294967295
  %r19.m3 = add i64 %r19.lh, %r19.m2
  %r19.c2 = lshr i64 %r19.m1, 32
  %r19.c3 = lshr i64 %r19.m3, 32
  %r19.u1 = add i64 %r19.hh, %r19.c2
  %r19.u2 = add i64 %r19.u1, %r19.c3
  %r19.low = mul i64 %r19.al, %r19.bl
  %r19.x1 = mul i64 %r19.ah, %r19.bl
  %r19.x2 = mul i64 %r19.al, %r19.bh
  %r19.u3 = add i64 %r19.u2, %r19.x1
  %r19.high = add i64 %r19.u3, %r19.x2
  %r19.jh = zext i64 %r19.high to i128
  %r19.js = shl i128 %r19.jh, 64
  %r19.jl = zext i64 %r19.low to i128
  %r19 = or i128 %r19.js, %r19.jl
  store i128 %r19, ptr %r1, align 16
  %r20 = call i128 @"core::convert::wide::U128FromU64::from"(i64 %a1)
  store i128 %r20, ptr %r4, align 16
  %r21 = call i128 @"core::convert::wide::U128FromU64::from"(i64 %a2)
  store i128 %r21, ptr %r5, align 16
  %r22 = load i128, ptr %r4, align 16, !noundef !0
  %r23 = load i128, ptr %r5, align 16, !noundef !0
  %r24.al = trunc i128 %r22 to i64
  %r24.as = lshr i128 %r22, 64
  %r24.ah = trunc i128 %r24.as to i64
  %r24.bl = trunc i128 %r23 to i64
  %r24.bs = lshr i128 %r23, 64
  %r24.bh = trunc i128 %r24.bs to i64
  %r24.adl = and i64 %r24.al, 4294967295
  %r24.adh = lshr i64 %r24.al, 32
  %r24.bdl = and i64 %r24.bl, 4294967295
  %r24.bdh = lshr i64 %r24.bl, 32
  %r24.ll = mul i64 %r24.adl, %r24.bdl
  %r24.lh = mul i64 %r24.adl, %r24.bdh
  %r24.hl = mul i64 %r24.adh, %r24.bdl
  %r24.hh = mul i64 %r24.adh, %r24.bdh
  %r24.c1 = lshr i64 %r24.ll, 32
  %r24.m1 = add i64 %r24.hl, %r24.c1
  %r24.m2 = and i64 %r24.m1, 4294967295
  %r24.m3 = add i64 %r24.lh, %r24.m2
  %r24.c2 = lshr i64 %r24.m1, 32
  %r24.c3 = lshr i64 %r24.m3, 32
  %r24.u1 = add i64 %r24.hh, %r24.c2
  %r24.u2 = add i64 %r24.u1, %r24.c3
  %r24.low = mul i64 %r24.al, %r24.bl
  %r24.x1 = mul i64 %r24.ah, %r24.bl
  %r24.x2 = mul i64 %r24.al, %r24.bh
  %r24.u3 = add i64 %r24.u2, %r24.x1
  %r24.high = add i64 %r24.u3, %r24.x2
  %r24.jh = zext i64 %r24.high to i128
  %r24.js = shl i128 %r24.jh, 64
  %r24.jl = zext i64 %r24.low to i128
  %r24 = or i128 %r24.js, %r24.jl
  store i128 %r24, ptr %r2, align 16
  %r25 = load i128, ptr %r2, align 16, !noundef !0
  %r26 = load i128, ptr %r1, align 16, !noundef !0
  %r27 = add i128 %r25, %r26
  store i128 %r27, ptr %r4, align 16
  %r28 = call i128 @"core::convert::wide::U128FromU64::from"(i64 65536)
  store i128 %r28, ptr %r5, align 16
  %r29 = load i128, ptr %r4, align 16, !noundef !0
  %r30 = load i128, ptr %r5, align 16, !noundef !0
  %r31 = icmp eq i128 %r30, 0
  br i1 %r31, label %trap.4, label %ok.5

ok.5:                                             ; preds = %join.3
  %r32.al = trunc i128 %r29 to i64
  %r32.as = lshr i128 %r29, 64
  %r32.ah = trunc i128 %r32.as to i64
  %r32.by = trunc i128 %r30 to i64
  %r32.high = udiv i64 %r32.ah, %r32.by
  %r32.rest = urem i64 %r32.ah, %r32.by
  %r32.low = call i64 @pie_div_low(i64 %r32.rest, i64 %r32.al, i64 %r32.by)
  %r32.jh = zext i64 %r32.high to i128
  %r32.js = shl i128 %r32.jh, 64
  %r32.jl = zext i64 %r32.low to i128
  %r32 = or i128 %r32.js, %r32.jl
  store i128 %r32, ptr %r7, align 16
  %r33 = load i128, ptr %r7, align 16, !noundef !0
  %r34 = trunc i128 %r33 to i64
  store i64 %r34, ptr %r0, align 8
  %r35 = load i64, ptr %r0, align 8, !noundef !0
  ret i64 %r35

trap.4:                                           ; preds = %join.3
  ; call void @llvm.trap()
  unreachable
}

define internal noundef i64 @"pie_rate::raw::sample"(i64 noundef %a0, i64 noundef %a1) #0 {
start:
  %r0 = alloca i64, align 8
  %r1 = alloca i64, align 8
  %r2 = call i64 @"core::int::u64::saturating_sub"(i64 %a1, i64 %a0)
  store i64 %r2, ptr %r1, align 8
  %r3 = load i64, ptr %r1, align 8, !noundef !0
  %r4 = call i64 @"core::int::u64::max"(i64 %r3, i64 1)
  store i64 %r4, ptr %r0, align 8
  %r5 = load i64, ptr %r0, align 8, !noundef !0
  ret i64 %r5
}

define noundef i32 @pie_reset_event(ptr noundef %a0, ptr noundef %a1) #0 {
start:
  %r0 = call i32 @"pie_c::writing::pie_reset_event"(ptr %a0, ptr %a1)
  ret i32 %r0
}

define noundef i32 @pie_set_params_event(ptr noundef %a0, ptr noundef %a1, ptr noundef %a2) #0 {
start:
  %r0 = call i32 @"pie_c::writing::pie_set_params_event"(ptr %a0, ptr %a1, ptr %a2)
  ret i32 %r0
}

define noundef i32 @pie_update_event(ptr noundef %a0, i64 noundef %a1, ptr noundef %a2) #0 {
start:
  %r0 = call i32 @"pie_c::writing::pie_update_event"(ptr %a0, i64 %a1, ptr %a2)
  ret i32 %r0
}

declare void @llvm.memmove.p0.p0.i64(ptr writeonly nocapture, ptr readonly nocapture, i64, i1 immarg) #3

declare void @llvm.memset.p0.i64(ptr writeonly nocapture, i8, i64, i1 immarg) #4

declare void @llvm.trap() #5
declare i64 @pie_div_low(i64, i64, i64)

attributes #0 = { alwaysinline nounwind "target-cpu"="v4" }

attributes #1 = { alwaysinline nounwind "target-cpu"="v4" }

attributes #2 = { alwaysinline nounwind "target-cpu"="v4" }

attributes #3 = { nocallback nofree nounwind willreturn memory(argmem: readwrite) }

attributes #4 = { nocallback nofree nounwind willreturn memory(argmem: write) }

attributes #5 = { cold noreturn nounwind memory(inaccessiblemem: write) }

!0 = !{}

!1 = !{i8 0, i8 2}

; Modules for try/retarget.py. Each begins with a line that names it: `takes` those that must be rewritten and then answer as on x86-64, `refuses` those that must be refused.

; takes: a local that is a pointer, beside a number
define internal void @fill(ptr %small, ptr %chosen, ptr %other, i32 %n) noinline {
  store i32 %n, ptr %small, align 4
  store ptr %other, ptr %chosen, align 8
  ret void
}
define i32 @answer(i32 %n) {
  %small = alloca i32, align 4
  %chosen = alloca ptr, align 8
  %one = alloca i8, align 1
  call void @llvm.memset.p0.i64(ptr %small, i8 0, i64 4, i1 false)
  call void @llvm.memset.p0.i64(ptr %chosen, i8 0, i64 8, i1 false)
  call void @fill(ptr %small, ptr %chosen, ptr %one, i32 %n)
  %v = load i32, ptr %small, align 4
  ret i32 %v
}
declare void @llvm.memset.p0.i64(ptr, i8, i64, i1)

; takes: constants that hold pointers and lengths
@word = private unnamed_addr constant [13 x i8] c"out of memory", align 1
@words = private constant <{ ptr, [8 x i8], ptr, [8 x i8] }> <{ ptr @word, [8 x i8] c"\0D\00\00\00\00\00\00\00", ptr getelementptr (i8, ptr @word, i64 4), [8 x i8] c"\09\00\00\00\00\00\00\00" }>, align 8
define i32 @answer(i32 %n) {
  %which = and i32 %n, 1
  %wide = zext i32 %which to i64
  %by = mul i64 %wide, 16
  %at = getelementptr i8, ptr @words, i64 %by
  %at.length = getelementptr i8, ptr %at, i64 8
  %length = load i64, ptr %at.length, align 8
  %text = load ptr, ptr %at, align 8
  %first = load i8, ptr %text, align 1
  %a = trunc i64 %length to i32
  %b = zext i8 %first to i32
  %c = mul i32 %b, 1000
  %d = add i32 %a, %c
  ret i32 %d
}

; takes: a constant that points into itself
@record = private constant <{ ptr, [24 x i8] }> <{ ptr getelementptr (i8, ptr @record, i64 16), [24 x i8] c"\0D\00\00\00\00\00\00\00out of memory\00\00\00" }>, align 8
define i32 @answer(i32 %n) {
  %k = urem i32 %n, 13
  %wide = zext i32 %k to i64
  %text = load ptr, ptr @record, align 8
  %at = getelementptr inbounds nuw i8, ptr %text, i64 %wide
  %v = load i8, ptr %at, align 1, !range !0, !noundef !1
  %told = zext i8 %v to i32
  ret i32 %told
}
!0 = !{i8 0, i8 127}
!1 = !{}

; takes: three bytes, written and read at once
define i32 @answer(i32 %n) {
  %at = alloca [8 x i8], align 8
  store i64 -1, ptr %at, align 8
  %three = trunc i32 %n to i24
  store i24 %three, ptr %at, align 1
  %beside = load i32, ptr %at, align 4
  %again = load i24, ptr %at, align 1
  %wide = zext i24 %again to i32
  %sum = add i32 %beside, %wide
  ret i32 %sum
}

; takes: a pointer and a length, loaded at once
@bytes = private unnamed_addr constant [8 x i8] c"\01\02\04\08\10 @\80", align 1
define internal { ptr, i64 } @slice(ptr %at) noinline {
  %v = load { ptr, i64 }, ptr %at, align 8
  ret { ptr, i64 } %v
}
define i32 @answer(i32 %n) {
  %pair = alloca [16 x i8], align 8
  %k = and i32 %n, 7
  %wide = zext i32 %k to i64
  %length = sub i64 8, %wide
  %begin = getelementptr i8, ptr @bytes, i64 %wide
  store ptr %begin, ptr %pair, align 8
  %at.length = getelementptr i8, ptr %pair, i64 8
  store i64 %length, ptr %at.length, align 8
  %told = call { ptr, i64 } @slice(ptr %pair)
  %from = extractvalue { ptr, i64 } %told, 0
  %count = extractvalue { ptr, i64 } %told, 1
  %byte = load i8, ptr %from, align 1
  %a = zext i8 %byte to i32
  %b = trunc i64 %count to i32
  %c = shl i32 %b, 8
  %d = or i32 %a, %c
  ret i32 %d
}

; takes: a letter and a pointer, a letter and a number, loaded at once
define internal i32 @read(ptr %at) noinline {
  %one = load { i8, ptr }, ptr %at, align 8
  %letter = extractvalue { i8, ptr } %one, 0
  %to = extractvalue { i8, ptr } %one, 1
  %two = load { i8, i64 }, ptr %to, align 8
  %number = extractvalue { i8, i64 } %two, 1
  %three = load { i8, i16 }, ptr %to, align 8
  %small = extractvalue { i8, i16 } %three, 1
  %a = zext i8 %letter to i32
  %b = trunc i64 %number to i32
  %c = zext i16 %small to i32
  %d = add i32 %a, %b
  %e = mul i32 %c, 65537
  %f = xor i32 %d, %e
  ret i32 %f
}
define i32 @answer(i32 %n) {
  %outer = alloca [16 x i8], align 8
  %inner = alloca [16 x i8], align 8
  %letter = trunc i32 %n to i8
  %small = trunc i32 %n to i16
  %wide = zext i32 %n to i64
  store i8 %letter, ptr %outer, align 8
  %at.pointer = getelementptr i8, ptr %outer, i64 8
  store ptr %inner, ptr %at.pointer, align 8
  store i8 7, ptr %inner, align 8
  %at.small = getelementptr i8, ptr %inner, i64 2
  store i16 %small, ptr %at.small, align 2
  %at.number = getelementptr i8, ptr %inner, i64 8
  store i64 %wide, ptr %at.number, align 8
  %v = call i32 @read(ptr %outer)
  ret i32 %v
}

; takes: two numbers stored at once
define internal { i64, i64 } @both(i64 %n) noinline {
  %other = xor i64 %n, 4294967297
  %one = insertvalue { i64, i64 } poison, i64 %n, 0
  %two = insertvalue { i64, i64 } %one, i64 %other, 1
  ret { i64, i64 } %two
}
define i32 @answer(i32 %n) {
  %pair = alloca [16 x i8], align 8
  %wide = zext i32 %n to i64
  %told = call { i64, i64 } @both(i64 %wide)
  store { i64, i64 } %told, ptr %pair, align 8
  %at.high = getelementptr i8, ptr %pair, i64 12
  %high = load i32, ptr %at.high, align 4
  %at.low = getelementptr i8, ptr %pair, i64 8
  %low = load i32, ptr %at.low, align 4
  %v = add i32 %high, %low
  ret i32 %v
}

; takes: a record with a pointer in it, moved by bytes
define internal void @build(ptr %to, ptr %text, i32 %n) noinline {
  store ptr %text, ptr %to, align 8
  %at.number = getelementptr i8, ptr %to, i64 8
  store i32 %n, ptr %at.number, align 8
  %at.letter = getelementptr i8, ptr %to, i64 12
  store i8 65, ptr %at.letter, align 4
  ret void
}
define i32 @answer(i32 %n) {
  %text = alloca [4 x i8], align 4
  %record = alloca [16 x i8], align 8
  %moved = alloca [16 x i8], align 8
  %guard = alloca i32, align 4
  store i32 %n, ptr %text, align 4
  store i32 1000, ptr %guard, align 4
  call void @build(ptr %record, ptr %text, i32 %n)
  call void @llvm.memmove.p0.p0.i64(ptr align 8 %moved, ptr align 8 %record, i64 16, i1 false)
  %to = load ptr, ptr %moved, align 8
  %found = load i32, ptr %to, align 4
  %at.number = getelementptr i8, ptr %moved, i64 8
  %number = load i32, ptr %at.number, align 8
  %at.letter = getelementptr i8, ptr %moved, i64 12
  %letter = load i8, ptr %at.letter, align 4
  %a = zext i8 %letter to i32
  %kept = load i32, ptr %guard, align 4
  %b = sub i32 %found, %number
  %c = add i32 %a, %b
  %d = add i32 %c, %kept
  ret i32 %d
}
declare void @llvm.memmove.p0.p0.i64(ptr, ptr, i64, i1)

; takes: whether a pointer's eight bytes are a number with zeros above, and what it is a multiple of
define i32 @answer(i32 %n) {
  %place = alloca [8 x i8], align 8
  %number = alloca i64, align 8
  call void @llvm.memset.p0.i64(ptr %place, i8 -1, i64 8, i1 false)
  store ptr %number, ptr %place, align 8
  %stored = load i64, ptr %place, align 8
  %address = ptrtoaddr ptr %number to i64
  %same = icmp eq i64 %stored, %address
  %low = and i64 %address, 7
  %even = icmp eq i64 %low, 0
  %a = zext i1 %same to i32
  %b = zext i1 %even to i32
  %c = shl i32 %b, 1
  %d = or i32 %a, %c
  %e = add i32 %d, %n
  ret i32 %e
}
declare void @llvm.memset.p0.i64(ptr, i8, i64, i1)

; takes: a pointer to a pointer, changed on a way round
define internal void @follow(ptr %first, ptr %cursor, i32 %n) noinline {
start:
  br label %again
again:
  %left = phi i32 [ %n, %start ], [ %less, %again ]
  %at = load ptr, ptr %cursor, align 8, !noundef !0
  %next = load ptr, ptr %at, align 8
  store ptr %next, ptr %cursor, align 8
  %less = sub i32 %left, 1
  %more = icmp ne i32 %less, 0
  br i1 %more, label %again, label %out
out:
  ret void
}
define i32 @answer(i32 %n) {
  %a = alloca [12 x i8], align 8
  %b = alloca [12 x i8], align 8
  %c = alloca [12 x i8], align 8
  %before = alloca i8, align 1
  %cursor = alloca ptr, align 8
  %behind = alloca i8, align 1
  store i8 11, ptr %before, align 1
  store i8 22, ptr %behind, align 1
  store ptr %b, ptr %a, align 8
  store ptr %c, ptr %b, align 8
  store ptr %a, ptr %c, align 8
  %at.a = getelementptr i8, ptr %a, i64 8
  store i32 100, ptr %at.a, align 8
  %at.b = getelementptr i8, ptr %b, i64 8
  store i32 200, ptr %at.b, align 8
  %at.c = getelementptr i8, ptr %c, i64 8
  store i32 300, ptr %at.c, align 8
  store ptr %a, ptr %cursor, align 8
  %few = urem i32 %n, 7
  %steps = add i32 %few, 1
  call void @follow(ptr %a, ptr %cursor, i32 %steps)
  %to = load ptr, ptr %cursor, align 8
  %at.number = getelementptr i8, ptr %to, i64 8
  %number = load i32, ptr %at.number, align 8
  %x = load i8, ptr %before, align 1
  %y = load i8, ptr %behind, align 1
  %x.wide = zext i8 %x to i32
  %y.wide = zext i8 %y to i32
  %sum = add i32 %number, %x.wide
  %whole = add i32 %sum, %y.wide
  ret i32 %whole
}
!0 = !{}

; takes: numbers of 128 bits, doubles and vectors in memory
define i32 @answer(i32 %n) {
  %wide = alloca i128, align 16
  %real = alloca double, align 8
  %some = alloca [16 x i8], align 16
  %guard = alloca i16, align 2
  store i16 77, ptr %guard, align 2
  %long = zext i32 %n to i128
  %high = shl i128 %long, 70
  store i128 %high, ptr %wide, align 16
  %at = getelementptr i8, ptr %wide, i64 8
  %half = load i64, ptr %at, align 8
  %bits = zext i32 %n to i64
  %number = bitcast i64 %bits to double
  store double %number, ptr %real, align 8
  %back = load double, ptr %real, align 8
  %again = bitcast double %back to i64
  %whole = trunc i64 %again to i32
  store <16 x i8> splat (i8 3), ptr %some, align 16
  %all = load <16 x i8>, ptr %some, align 16
  %sum = add <16 x i8> %all, %all
  %one = extractelement <16 x i8> %sum, i64 9
  %a = trunc i64 %half to i32
  %b = add i32 %a, %whole
  %c = zext i8 %one to i32
  %d = add i32 %b, %c
  %kept = load volatile i16, ptr %guard, align 2
  %e = zext i16 %kept to i32
  %f = xor i32 %d, %e
  ret i32 %f
}

; takes: a request for memory
declare [2 x i64] @rattle_alloc(i64, i64)
define i32 @answer(i32 %n) {
  %place = alloca ptr, align 8
  %told = alloca [2 x i64], align 8
  %v = call [2 x i64] @rattle_alloc(i64 24, i64 8)
  store [2 x i64] %v, ptr %told, align 8
  %ok = load i64, ptr %told, align 8
  %at.pointer = getelementptr i8, ptr %told, i64 8
  %to = load ptr, ptr %at.pointer, align 8
  store ptr %to, ptr %place, align 8
  store i32 %n, ptr %to, align 4
  %again = load ptr, ptr %place, align 8
  %found = load i32, ptr %again, align 4
  %a = trunc i64 %ok to i32
  %b = add i32 %found, %a
  ret i32 %b
}

; refuses: several pointers loaded as one array
define ptr @answer(ptr %at) {
  %v = load [2 x ptr], ptr %at, align 8
  %one = extractvalue [2 x ptr] %v, 1
  ret ptr %one
}

; refuses: a vector of pointers stored
define void @answer(ptr %at, <2 x ptr> %v) {
  store <2 x ptr> %v, ptr %at, align 16
  ret void
}

; refuses: a pointer and a length stored at once
define void @answer(ptr %at, { ptr, i64 } %v) {
  store { ptr, i64 } %v, ptr %at, align 8
  ret void
}

; refuses: a local that is a record
define i32 @answer(i32 %n) {
  %v = alloca { ptr, i64 }, align 8
  ret i32 %n
}

; refuses: a local that is an array of pointers
define i32 @answer(i32 %n) {
  %v = alloca [4 x ptr], align 8
  ret i32 %n
}

; refuses: a constant that isn't packed
@word = private constant { ptr, i64 } { ptr @answer, i64 13 }, align 8
define i32 @answer(i32 %n) {
  ret i32 %n
}

; refuses: a constant array of pointers
@words = private constant [2 x ptr] [ptr @answer, ptr @answer], align 8
define i32 @answer(i32 %n) {
  ret i32 %n
}

; refuses: a record in a constant that holds pointers
@words = private constant <{ <{ ptr }>, [8 x i8] }> <{ <{ ptr }> <{ ptr @answer }>, [8 x i8] zeroinitializer }>, align 8
define i32 @answer(i32 %n) {
  ret i32 %n
}

; refuses: a place behind a pointer, told by its type
define ptr @answer(ptr %at) {
  %v = getelementptr ptr, ptr %at, i64 1
  ret ptr %v
}

; refuses: a place in a record, in a constant expression
@bytes = private constant [32 x i8] zeroinitializer, align 8
define ptr @answer() {
  ret ptr getelementptr inbounds ({ ptr, i64 }, ptr @bytes, i64 0, i32 1)
}

; refuses: a pointer that is made of a number
define ptr @answer(i64 %n) {
  %v = inttoptr i64 %n to ptr
  ret ptr %v
}

; refuses: a pointer that is exchanged
define ptr @answer(ptr %at, ptr %new) {
  %v = atomicrmw xchg ptr %at, ptr %new seq_cst, align 8
  ret ptr %v
}

; refuses: an argument that is a record in memory
define i32 @answer(ptr byval({ ptr, i64 }) align 8 %v) {
  ret i32 0
}

; refuses: arguments without a count
define ptr @answer(ptr %list) {
  %v = va_arg ptr %list, ptr
  ret ptr %v
}

; refuses: an instruction of one processor
declare void @llvm.x86.sse2.pause()
define i32 @answer(i32 %n) {
  call void @llvm.x86.sse2.pause()
  ret i32 %n
}

target datalayout = "x"
target triple = "x"
; The two functions of an allocator that give two words back, in LLVM's own convention, with which
; no C compiler agrees on every machine. They call storklocker_take and storklocker_retake, which
; are in C and give null where there is no memory; then the block is a byte that nobody uses.
@nobodys = internal global i8 0
declare ptr @storklocker_take(i64)
declare ptr @storklocker_retake(ptr, i64)
define internal { i64, i64 } @answer(ptr %block) {
  %granted = icmp ne ptr %block, null
  %word = zext i1 %granted to i64
  %given = select i1 %granted, ptr %block, ptr @nobodys
  %address = ptrtoint ptr %given to i64
  %first = insertvalue { i64, i64 } poison, i64 %word, 0
  %both = insertvalue { i64, i64 } %first, i64 %address, 1
  ret { i64, i64 } %both
}
define { i64, i64 } @rattle_alloc(i64 %size, i64 %alignment) {
  %block = call ptr @storklocker_take(i64 %size)
  %both = call { i64, i64 } @answer(ptr %block)
  ret { i64, i64 } %both
}
define { i64, i64 } @rattle_realloc(ptr %block, i64 %kept, i64 %size, i64 %alignment) {
  %new = call ptr @storklocker_retake(ptr %block, i64 %size)
  %both = call { i64, i64 } @answer(ptr %new)
  ret { i64, i64 } %both
}

; Memory for the program's module on Windows: whether there was some, and where, in two registers, which C can't say there.
target datalayout = "e-m:w-p270:32:32-p271:32:32-p272:64:64-i64:64-i128:128-f80:128-n8:16:32:64-S128"
target triple = "x86_64-w64-windows-gnu"

declare ptr @malloc(i64)
declare ptr @realloc(ptr, i64)
declare void @free(ptr)

define internal { i64, i64 } @block_of(ptr %at) {
  %is = icmp ne ptr %at, null
  %there = zext i1 %is to i64
  %address = ptrtoint ptr %at to i64
  %shown = select i1 %is, i64 %address, i64 16
  %half = insertvalue { i64, i64 } undef, i64 %there, 0
  %block = insertvalue { i64, i64 } %half, i64 %shown, 1
  ret { i64, i64 } %block
}

define { i64, i64 } @rattle_alloc(i64 %size, i64 %least) {
  %none = icmp eq i64 %size, 0
  %wanted = select i1 %none, i64 %least, i64 %size
  %at = call ptr @malloc(i64 %wanted)
  %block = call { i64, i64 } @block_of(ptr %at)
  ret { i64, i64 } %block
}

define { i64, i64 } @rattle_realloc(ptr %old, i64 %old_size, i64 %size, i64 %least) {
  %none = icmp eq i64 %size, 0
  %wanted = select i1 %none, i64 %least, i64 %size
  %at = call ptr @realloc(ptr %old, i64 %wanted)
  %block = call { i64, i64 } @block_of(ptr %at)
  ret { i64, i64 } %block
}

define void @rattle_dealloc(ptr %at) {
  call void @free(ptr %at)
  ret void
}

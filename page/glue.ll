; The three functions of the heap that Rattle's code calls, over those of heap.c: each answers whether there was memory, and where.
; No bytes are asked for as many as the alignment.
target datalayout = "e-m:e-p:64:64-p10:8:8-p20:8:8-i64:64-i128:128-n32:64-S128-ni:1:10:20"
target triple = "wasm64-unknown-unknown"
declare ptr @zk_malloc(i64)
declare ptr @zk_realloc(ptr, i64, i64)
declare void @zk_free(ptr)

define internal { i64, i64 } @answer(ptr %p) {
  %i = ptrtoint ptr %p to i64
  %ok = icmp ne i64 %i, 0
  %o = zext i1 %ok to i64
  %q = select i1 %ok, i64 %i, i64 16
  %r0 = insertvalue { i64, i64 } undef, i64 %o, 0
  %r1 = insertvalue { i64, i64 } %r0, i64 %q, 1
  ret { i64, i64 } %r1
}

define { i64, i64 } @rattle_alloc(i64 %n, i64 %a) {
  %z = icmp eq i64 %n, 0
  %m = select i1 %z, i64 %a, i64 %n
  %p = call ptr @zk_malloc(i64 %m)
  %r = call { i64, i64 } @answer(ptr %p)
  ret { i64, i64 } %r
}

define { i64, i64 } @rattle_realloc(ptr %old, i64 %kept, i64 %n, i64 %a) {
  %z = icmp eq i64 %n, 0
  %m = select i1 %z, i64 %a, i64 %n
  %p = call ptr @zk_realloc(ptr %old, i64 %kept, i64 %m)
  %r = call { i64, i64 } @answer(ptr %p)
  ret { i64, i64 } %r
}

define void @rattle_dealloc(ptr %p) {
  call void @zk_free(ptr %p)
  ret void
}

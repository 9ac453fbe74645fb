; prints its argument's successor where the argument is below 10
declare void @print_i64(i64)
define i64 @g(i64 %n) {
entry:
  %c = icmp slt i64 %n, 10
  br i1 %c, label %low, label %high
low:
  %a = add i64 %n, 1
  call void @print_i64(i64 %a)
  ret i64 %a
high:
  ret i64 %n
}

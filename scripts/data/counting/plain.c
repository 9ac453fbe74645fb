/* Functions of one block, of none that is reached again, and one that never returns. */
void stop(void) __attribute__((noreturn));

int same(int n) { return n; }
void nothing(void) {}
long mixed(signed char a, short b, int c, long d) { return a + b * (long)c - d; }

int checked(int n) {
  if (n < 0) stop();
  return n * 2;
}

int divided(int a, int b) {
  if (b == 0) __builtin_unreachable();
  return a / b;
}

/* Functions that are called through addresses. */
typedef long (*operation)(long);

static long twice(long x) { return 2 * x; }
static long square(long x) { return x * x; }
static long less(long x) { return x - 1; }
static const operation table[3] = {twice, square, less};
operation chosen = twice;

long apply(unsigned k, long x) { return table[k % 3](x); }

long again(operation f, int n, long x) {
  while (n-- > 0) x = f(x);
  return x;
}

long either(int c, long x) {
  operation f = c ? chosen : square;
  long y = f(x);
  if (y > 100) y = chosen(y);
  return y;
}

void each(void (*see)(int), int n) {
  for (int i = 0; i < n; i++) see(i);
}

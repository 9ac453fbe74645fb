/* Functions that call themselves and one another. */
long fibonacci(int n) { return n < 2 ? n : fibonacci(n - 1) + fibonacci(n - 2); }

int odd(unsigned n);
int even(unsigned n) { return n == 0 ? 1 : odd(n - 1); }
int odd(unsigned n) { return n == 0 ? 0 : even(n - 1); }

int ackermann(int m, int n) {
  if (m == 0) return n + 1;
  if (n == 0) return ackermann(m - 1, 1);
  return ackermann(m - 1, ackermann(m, n - 1));
}

long power(long base, unsigned exponent) {
  if (exponent == 0) return 1;
  long half = power(base, exponent / 2);
  return exponent % 2 ? half * half * base : half * half;
}

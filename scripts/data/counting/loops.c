/* Loops with one way out and with two, and one that runs at least once. */
long mixed_below(long n) {
  long sum = 0;
  for (long i = 0; i < n; i++) sum = 3 * sum ^ i;
  return sum;
}

unsigned gcd(unsigned a, unsigned b) {
  while (b != 0) {
    unsigned rest = a % b;
    a = b;
    b = rest;
  }
  return a;
}

int digits(unsigned long n) {
  int count = 0;
  do {
    count++;
    n /= 10;
  } while (n != 0);
  return count;
}

int first_factor(int n) {
  for (int d = 2; d * d <= n; d++) {
    if (n % d == 0) return d;
    if (d > 1000) break;
  }
  return n;
}

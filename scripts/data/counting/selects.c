/* Choices without a branch at the higher levels. */
int least(int a, int b) { return a < b ? a : b; }

unsigned char clamp(int n) {
  if (n < 0) n = 0;
  if (n > 255) n = 255;
  return (unsigned char)n;
}

long sign(long n) { return n > 0 ? 1 : n < 0 ? -1 : 0; }

short middle(short a, short b, short c) {
  short low = a < b ? a : b;
  short high = a < b ? b : a;
  return c < low ? low : c > high ? high : c;
}

int count_above(int n, int bar) {
  int count = 0;
  for (int i = 0; i < n; i++) count += (i * 7 & 15) > bar ? 1 : 2;
  return count;
}

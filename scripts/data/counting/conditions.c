/* Conditions of several parts, of which the later ones are not always tried. */
int seen(int);

int both(int a, int b) { return seen(a) && seen(b); }

int any(int a, int b, int c) {
  if (seen(a) || seen(b) || (a > 3 && seen(c))) return 1;
  return 0;
}

int between(int n, int low, int high) {
  if (n >= low && n <= high && n != 13) {
    if (!(n & 1) || n % 5 == 0) return 2;
    return 1;
  }
  return 0;
}

int counted(int n) {
  int count = 0;
  while (n > 0 && (seen(n) || n > 10)) {
    n -= 3;
    count++;
  }
  return count;
}

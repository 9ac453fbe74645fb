/* Nested loops, some of which are left or begun again from inside. */
int pairs(int n) {
  int found = 0;
  for (int a = 1; a < n; a++) {
    for (int b = a; b < n; b++) {
      if ((a * a + b * b) % 7 == 0) found++;
    }
  }
  return found;
}

int search(int n, int wanted) {
  int a;
  for (a = 0; a < n; a++) {
    if (a % 3 == 0) continue;
    for (int b = 0; b < n; b++) {
      for (int c = 0; c < b; c++) {
        if (a * b + c == wanted) goto found;
        if (c > a) break;
      }
    }
  }
found:
  return a;
}

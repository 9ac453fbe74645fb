/* Switches: cases that share a block, that fall through, of every width, and with nothing behind them. */
int kind(int c) {
  switch (c) {
    case 'a': case 'e': case 'i': case 'o': case 'u': return 1;
    case ' ': return -3;
    default: return c >= '0' && c <= '9' ? 2 : 0;
  }
}

int through(int n, int x) {
  switch (n) {
    case 4: x += 4;
    case 3: x *= 3;
    case 2: x ^= 2; break;
    case 1: x = -x;
    default: x++;
  }
  return x;
}

signed char small(signed char c) {
  switch (c) {
    case -128: return 127;
    case -1: return 0;
    case 5: return 6;
  }
  return c;
}

long large(long n) {
  long turns = 0;
  for (;;) {
    switch (n) {
      case 0: return turns;
      case 1000000000000: n = 1; break;
      case -5: n = 2; break;
      default: n = n > 0 ? n - 1 : n + 1;
    }
    turns++;
  }
}

/* Bits of integers of each width. */
int ones(unsigned long x) {
  int count = 0;
  while (x) {
    x &= x - 1;
    count++;
  }
  return count;
}

unsigned short reversed(unsigned short bits) {
  unsigned short turned = 0;
  for (int i = 0; i < 16; i++) {
    turned = (unsigned short)(turned << 1 | (bits & 1));
    bits >>= 1;
  }
  return turned;
}

unsigned char parity(unsigned char x) {
  x ^= x >> 4;
  x ^= x >> 2;
  x ^= x >> 1;
  return x & 1;
}

int highest(unsigned x) {
  int place = -1;
  for (int i = 16; i > 0; i /= 2) {
    if (x >> i) {
      place += i;
      x >>= i;
    }
  }
  return place + (x != 0);
}

_Bool is_power(unsigned x) { return x && !(x & (x - 1)); }

/* Texts that end in a zero byte. */
static const char hexadecimal[] = "0123456789abcdef";

int length(const char *text) {
  int n = 0;
  while (text[n]) n++;
  return n;
}

int compare(const char *a, const char *b) {
  while (*a && *a == *b) {
    a++;
    b++;
  }
  return *a < *b ? -1 : *a > *b;
}

long number(const char *text) {
  long value = 0;
  int negative = 0;
  if (*text == '-') {
    negative = 1;
    text++;
  }
  for (; *text; text++) {
    if (*text < '0' || *text > '9') return 0;
    value = value * 10 + (*text - '0');
  }
  return negative ? -value : value;
}

void write_byte(char *to, unsigned char byte) {
  to[0] = hexadecimal[byte >> 4];
  to[1] = hexadecimal[byte & 15];
  to[2] = 0;
}

/* Arrays in memory, of the program's own and of the caller's. */
int cells[64];
static short squares[8] = {0, 1, 4, 9, 16, 25, 36, 49};

long total(const long *from, int n) {
  long sum = 0;
  for (int i = 0; i < n; i++) {
    if (from[i] > 10) sum += from[i];
    else sum -= squares[i & 7];
  }
  return sum;
}

void sort(int *from, int n) {
  for (int i = 1; i < n; i++) {
    int held = from[i];
    int j = i;
    while (j > 0 && from[j - 1] > held) {
      from[j] = from[j - 1];
      j--;
    }
    from[j] = held;
  }
}

int sieve(int n) {
  char crossed[200];
  int count = 0;
  if (n > 200) n = 200;
  for (int i = 0; i < n; i++) crossed[i] = i < 2;
  for (int i = 2; i < n; i++) {
    if (crossed[i]) continue;
    count++;
    for (int j = i + i; j < n; j += i) crossed[j] = 1;
  }
  return count;
}

int find(const unsigned char *text, unsigned char wanted) {
  int at = 0;
  while (text[at] != 0 && text[at] != wanted) at++;
  return text[at] ? at : -1;
}

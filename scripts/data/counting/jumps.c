/* Jumps into loops and out of them, and a loop without an end. */
int states(int n) {
  int steps = 0;
start:
  steps++;
  if (n == 1) goto done;
  if (n % 2 == 0) goto half;
  n = 3 * n + 1;
  if (steps > 1000) goto failed;
  goto start;
half:
  n /= 2;
  goto start;
failed:
  return -1;
done:
  return steps;
}

int into(int n) {
  int sum = 0;
  if (n < 0) goto inside;
  while (n < 100) {
    sum += n;
  inside:
    n += 9;
    if (sum > 500) return sum;
  }
  return sum + n;
}

void tick(void);
void forever(void) {
  for (;;) tick();
}

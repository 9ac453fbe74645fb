/* A small machine of bytes: a switch in a loop, with calls and memory. */
int input(void);
void output(int);

long machine(const unsigned char *code, int most) {
  long stack[16];
  int top = 0;
  int at = 0;
  int halted = 0;
  for (int steps = 0; steps < most && !halted; steps++) {
    unsigned char op = code[at++];
    switch (op & 7) {
      case 0: stack[top++ & 15] = op >> 3; break;
      case 1: top--; stack[top & 15] += stack[(top - 1) & 15]; break;
      case 2: top--; stack[top & 15] -= stack[(top - 1) & 15]; break;
      case 3: if (stack[top & 15]) at += op >> 3; break;
      case 4: if (!stack[top & 15]) at -= op >> 3; break;
      case 5: stack[top++ & 15] = input(); break;
      case 6: output((int)stack[--top & 15]); break;
      default: halted = 1;
    }
  }
  return stack[top & 15];
}

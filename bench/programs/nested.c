/* Loops in loops, with all ways out of them. */
unsigned char steps;
void main(void) {
  unsigned char i;
  unsigned char j;
  i = 5;
  do {
    j = i;
    while (j) {
      j = j - 1;
      if (j == 1) continue;
      if (j == 3) break;
      steps = steps + 1;
    }
    i = i - 1;
  } while (i && steps < 20);
  P1 = steps;
}

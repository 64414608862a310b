/* Records in an array, read and written by pointers. */
struct sample { unsigned char channel; int value; };
struct sample samples[4];
int mean(struct sample *first, unsigned char count) {
  int sum;
  unsigned char left;
  sum = 0;
  left = count;
  while (left) { sum = sum + first->value; first = first + 1; left = left - 1; }
  return sum >> 2;
}
void main(void) {
  unsigned char i;
  int m;
  for (i = 0; i < 4; i = i + 1) { samples[i].channel = i; samples[i].value = (i << 2) - 40; }
  m = mean(samples, 4);
  P1 = m;
  P1 = m < 0;
}

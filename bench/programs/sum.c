/* The sum of the first hundred numbers. */
unsigned int total;
void main(void) {
  unsigned char i;
  for (i = 1; i <= 100; i = i + 1) total = total + i;
  P1 = total;
  P1 = total >> 8;
}

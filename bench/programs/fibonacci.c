/* A number of Fibonacci, by a function with a loop. */
unsigned int fibonacci(unsigned char n) {
  unsigned int a;
  unsigned int b;
  unsigned int c;
  a = 0;
  b = 1;
  while (n) { c = a + b; a = b; b = c; n = n - 1; }
  return a;
}
void main(void) {
  unsigned int x;
  x = fibonacci(20);
  P1 = x;
  P1 = x >> 8;
}

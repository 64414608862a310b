/* Functions with up to six parameters, one after another. */
int weigh(int a, int b, int c, int d, int e, int f) { return a - b + c - d + (e ^ f); }
unsigned char half(unsigned char x) { if (x == 0) return 0; return x >> 1; }
void main(void) {
  int w;
  unsigned char h;
  w = weigh(1, 20, 300, 4000, 5, -6);
  P1 = w;
  P1 = w >> 8;
  h = 200;
  while (h > 3) h = half(h);
  P1 = h;
}

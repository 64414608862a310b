/* Numbers of both widths and both signs, compared and converted. */
void main(void) {
  signed char a;
  unsigned char b;
  int c;
  unsigned int d;
  unsigned char ten;
  a = P1;
  b = P1;
  c = a;
  d = b;
  if (a < b) P1 = 1;
  if (a < 0 && c < 0) P1 = 2;
  if (d == 255) P1 = 3;
  c = c - 1000;
  if (c >> 4 < -60) P1 = 4;
  if ((unsigned char)c == 23) P1 = 5;
  ten = 10;
  P1 = b / ten;
  P1 = b % ten;
  P1 = b * ten >> 4;
}

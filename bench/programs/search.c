/* Finds a number by a pointer, and leaves the loop there. */
unsigned char table[6] = {9, 8, 7, 6, 5, 4};
unsigned char *find(unsigned char *from, unsigned char wanted) {
  while (1) {
    if (*from == wanted) break;
    from = from + 1;
  }
  return from;
}
void main(void) {
  unsigned char *place;
  place = find(table, 5);
  *place = 1;
  P1 = table[4];
  if (place == &table[4]) P1 = 2;
}

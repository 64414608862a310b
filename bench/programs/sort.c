/* Sorts ten numbers in place. */
int numbers[10] = {7, -3, 300, 0, -300, 12, 12, 1, 32767, -1};
void swap(int *a, int *b) { int c; c = *a; *a = *b; *b = c; }
void main(void) {
  unsigned char i;
  unsigned char j;
  for (i = 0; i < 9; i = i + 1)
    for (j = 0; j < 9 - i; j = j + 1)
      if (numbers[j] > numbers[j + 1]) swap(&numbers[j], &numbers[j + 1]);
  for (i = 0; i < 10; i = i + 1) P1 = numbers[i];
}

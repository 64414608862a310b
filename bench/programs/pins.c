/* Counts eight readings of the port that are high and not low. */
void main(void) {
  unsigned char i;
  unsigned char high;
  unsigned char level;
  high = 0;
  for (i = 0; i < 8; i = i + 1) {
    level = P1;
    if (level > 200 && !(level < 100)) high = high + 1;
    else continue;
    if (high == 7 || level == 0) break;
  }
  P1 = high;
}

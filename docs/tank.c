/* Holds the water of a tank between two marks. Port 1 gives the level, and takes 1 to open the inlet and 0 to close it. */
unsigned char low = 40;
unsigned char high = 200;
unsigned char recent[4];
unsigned char place;

unsigned char smoothed(unsigned char level) {
  unsigned char i;
  unsigned int sum;
  recent[place] = level;
  place = (place + 1) & 3;
  sum = 0;
  for (i = 0; i < 4; i = i + 1) sum = sum + recent[i];
  return sum >> 2;
}

void main(void) {
  unsigned char level;
  unsigned char open;
  open = 0;
  while (1) {
    level = P1;
    level = smoothed(level);
    if (level < low) open = 1; // the inlet
    if (level > high) open = 0;
    P1 = open;
  }
}

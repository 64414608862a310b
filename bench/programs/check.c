/* The checksum CRC-16 of nine digits. */
unsigned char text[9] = {49, 50, 51, 52, 53, 54, 55, 56, 57};
unsigned int crc = 0xFFFF;
void add(unsigned char b) {
  unsigned char i;
  crc = crc ^ (b << 8);
  for (i = 0; i < 8; i = i + 1) {
    if (crc & 0x8000) crc = (crc << 1) ^ 0x1021;
    else crc = crc << 1;
  }
}
void main(void) {
  unsigned char i;
  for (i = 0; i < 9; i = i + 1) add(text[i]);
  P1 = crc;
  P1 = crc >> 8;
}

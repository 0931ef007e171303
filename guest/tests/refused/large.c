static volatile char bytes[80 << 20];
int main(void) { return bytes[5]; }

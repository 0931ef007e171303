static __thread int local = 6;
int main(void) { return ++local; }

void *if_nameindex(void);
int main(void) { return if_nameindex() != 0; }

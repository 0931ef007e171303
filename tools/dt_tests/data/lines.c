struct { int first, others[7]; } table;
int counter;

__attribute__((noinline)) void add(int *number)
{
    *number += 1;
}

int main(void)
{
    add(&counter);
    add(&table.others[2]);
    return 0;
}

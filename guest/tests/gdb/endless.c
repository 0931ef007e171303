/* Counts for ever. */
volatile unsigned count;

int main(void)
{
    for (;;)
        count++;
}

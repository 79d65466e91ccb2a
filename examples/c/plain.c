/* Each hart adds to a count that nobody locks. It is built with the linker's own script, whose mark `__bss_start` stands where
   the count does. */
static volatile unsigned count;

int main(void)
{
    count++;
    return 0;
}

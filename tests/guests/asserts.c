/* An assert that fails. Ends with 134 and says: asserts.c:9: main: this does not hold: count == 1 */
#include <assert.h>

static int count = 2;

int main(void)
{
    assert(count == 2);
    assert(count == 1);
    return 4;
}

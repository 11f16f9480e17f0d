#include <huckleport.h>
#include <stdio.h>

#if HP_VERSION_NUMBER < 1000
#error "a version before 0.1.0"
#endif

int main(void)
{
    puts(HP_VERSION);
    return 0;
}

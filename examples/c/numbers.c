/* The version, which header and library must have alike, and what each number means. */
#include <hall.h>
#include <stdio.h>

int main(void)
{
    unsigned number;

    if (hall_version() != HALL_VERSION) {
        fprintf(stderr, "hall.h has version %u, the library %u\n", (unsigned)HALL_VERSION,
                (unsigned)hall_version());
        return 1;
    }
    printf("version %u\n", (unsigned)HALL_VERSION);
    for (number = 0; number <= UINT8_MAX; number++)
        printf("%u %s\n", number, hall_refusal_text((uint8_t)number));
    return 0;
}

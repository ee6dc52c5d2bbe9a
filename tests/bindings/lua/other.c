/* In place of the library, one of another version. */
#include <stdint.h>

uint32_t fazgrond_version(void);
uint32_t fazgrond_version(void) { return 0x000400; }

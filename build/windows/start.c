/* Windows calls it when fazgrond.dll comes and goes. There is nothing to prepare. */
#include <stdint.h>

int DllMainCRTStartup(void *self, uint32_t reason, void *reserved);
int DllMainCRTStartup(void *self, uint32_t reason, void *reserved) {
    (void)self;
    (void)reason;
    (void)reserved;
    return 1;
}

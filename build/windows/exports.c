/* The functions of fazgrond.h by Windows' calling convention: what fazgrond.dll exports, and libfazgrond.a has. Each calls the
 * library's function, which keeps Linux's, and has the name `sysv_fazgrond_..` in here. */
#include <fazgrond.h>

#define CALL(answer, name, parameters, arguments) \
    __attribute__((sysv_abi)) answer sysv_##name parameters; \
    answer name parameters { return sysv_##name arguments; }
#include "calls.h"

#include <fazgrond.h>

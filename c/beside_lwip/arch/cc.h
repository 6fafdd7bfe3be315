#include <stdint.h>
#include <sys/types.h>
#define LWIP_RAND() ((u32_t)4)
#define LWIP_PLATFORM_DIAG(x)
#define LWIP_PLATFORM_ASSERT(x)
#define LWIP_NO_CTYPE_H 1
#define LWIP_NO_UNISTD_H 1

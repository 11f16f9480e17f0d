/* As stdint.h here. */
#ifndef HUCKLEPORT_STDBOOL_H
#define HUCKLEPORT_STDBOOL_H
#define bool _Bool
#define true 1
#define false 0
#endif

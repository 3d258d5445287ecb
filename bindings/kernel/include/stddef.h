/* SPDX-License-Identifier: GPL-2.0 OR MIT */
/* The kernel has no C library. pie.h includes this header. */
#ifndef PIE_KERNEL_STDDEF_H
#define PIE_KERNEL_STDDEF_H

#include <linux/stddef.h>

#endif

/* SPDX-License-Identifier: GPL-2.0 OR MIT */
/* The kernel has no C library. pie.h includes this header. */
#ifndef PIE_KERNEL_STDINT_H
#define PIE_KERNEL_STDINT_H

#include <linux/limits.h>
#include <linux/types.h>

#define UINT32_MAX U32_MAX
#define UINT64_MAX U64_MAX
#define UINT32_C(number) number##U
#define UINT64_C(number) number##ULL

#endif

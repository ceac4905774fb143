/* size_t has 64 bits in the module, as usize has in the proved code. */
#pragma once
typedef __UINT64_TYPE__ size_t;
#define NULL ((void *)0)

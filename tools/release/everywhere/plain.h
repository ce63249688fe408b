/* The types of these files: the toolchain's compiler comes without the headers of a C library. */
#ifndef PLAIN_H
#define PLAIN_H

typedef __SIZE_TYPE__ size_t;
typedef __UINTPTR_TYPE__ uintptr_t;
typedef __UINT64_TYPE__ u64;
typedef __UINT32_TYPE__ u32;
typedef __INT64_TYPE__ i64;

#define NULL ((void *)0)

#endif

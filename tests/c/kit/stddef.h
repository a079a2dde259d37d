/* The kit's clang brings no headers; this is the type of stddef.h that include/togyamiru.h names. */
#pragma once
typedef __SIZE_TYPE__ size_t;

// What the kit's clang, which has no headers, needs of <stddef.h>.
#pragma once
typedef __SIZE_TYPE__ size_t;

/* The layouts of the header's structs, as C and C++ have them, against the numbers of layouts.def. */
#include "luspemaro.h"

#ifdef __cplusplus
#define CLAIM static_assert
#else
#define CLAIM _Static_assert
#endif

#define MEMBER(type, member, place) CLAIM(offsetof(struct type, member) == (place), #type "." #member);
#define STRUCT(type, size) CLAIM(sizeof(struct type) == (size), #type);
#include "layouts.def"

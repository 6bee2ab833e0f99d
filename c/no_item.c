/* What is no item, and must not compile: 1 is larger than 24 bytes when sent, 2 when its value is read, 3 has no type, and 4, in
   C++, has more to it than its bytes. 0 is an item, and compiles. */
#include "bale_run.h"

typedef struct {
    char bytes[WRONG == 1 || WRONG == 2 ? 25 : 24];
} large;

#if WRONG == 4
struct owner {
    owner(const owner &);
};
#else
typedef large owner;
#endif

int32_t send_it(bale_rank *rank, const large *it, const owner *own, const void *none, bale_take *take);

int32_t send_it(bale_rank *rank, const large *it, const owner *own, const void *none, bale_take *take) {
    (void)it, (void)own, (void)none, (void)rank, (void)take;
#if WRONG == 1
    return bale_send(rank, it, 0, take, NULL);
#elif WRONG == 2
    return bale_value(large, it).bytes[0];
#elif WRONG == 3
    return bale_send(rank, none, 0, take, NULL);
#else
    return bale_send(rank, own, 0, take, NULL) + bale_value(large, it).bytes[0];
#endif
}

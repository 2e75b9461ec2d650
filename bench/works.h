/* What the proved controller (meter_, of crate bench_meter) and the plain model (plain_) both offer. No header of this machine
   is used, so that the toolchain's own clang compiles all of this with nothing else installed.
   `first` and `second` are sheets of 56 bytes with the states that the turns start from; `first` has the state after a
   turn at the end. The answer folds what a turn told; the address error of a log, which is signed, is left in `error`. */
typedef unsigned char u8;
typedef unsigned short u16;
typedef unsigned int u32;
typedef unsigned long u64;
typedef unsigned long usize;

#define WORKS(side) \
    u64 side##_nothing(u8 *first, usize, const u8 *second, usize, u64 times); \
    u64 side##_write(u8 *first, usize, const u8 *second, usize, u32 reg, u32 other, u8 byte, u64 times); \
    u64 side##_read(u8 *first, usize, const u8 *second, usize, u32 reg, u32 other, u64 times); \
    u64 side##_run(u8 *first, usize, const u8 *second, usize, u8 *memory, usize, const u8 *device, usize, \
                   u8 *room, usize, u64 limit, u64 eop_at, u64 times); \
    u64 side##_round(u8 *first, usize, const u8 *second, usize, u8 *memory, usize, const u8 *device, usize, \
                     u8 *room, usize, u32 k, u64 times); \
    u64 side##_judge(u8 *first, usize, const u8 *second, usize, u8 *memory, usize, const u8 *log, usize, int *error, u64 times);

WORKS(meter)
WORKS(plain)

/* Whether a product needs more than 64 bits. It is the sum of three products of halves, if both upper halves aren't above 0. */
INLINE u8 overflows(u64 a, u64 b)
{
    u64 upper = (a >> 32) * (u32)b + (u32)a * (b >> 32);
    return (a >> 32 && b >> 32) || upper >> 32 || a * b < upper << 32;
}

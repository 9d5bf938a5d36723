// Stands in for the compiler's own library (libgcc), in libpmb.so and pmb for aarch64: divisions of
// 128 bits. The compiler writes these itself in place of calling them (-expand-div-rem-bits=64, with
// which release/aarch64/make compiles this).

typedef unsigned long long half;
typedef unsigned __int128 whole;

#pragma GCC visibility push(hidden)

whole __udivti3(whole dividend, whole divisor)
{
    if ((dividend | divisor) >> 64 == 0)
        return (half)dividend / (half)divisor;
    return dividend / divisor;
}

whole __umodti3(whole dividend, whole divisor)
{
    if ((dividend | divisor) >> 64 == 0)
        return (half)dividend % (half)divisor;
    return dividend % divisor;
}

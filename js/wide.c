/* Products, quotients and shifts of 128 bits, which WebAssembly hasn't and clang calls by these names; elsewhere libgcc has them. Each is made
 * of 64-bit steps, so it doesn't call itself. Quotients by less than 2^32 take four divisions, others 128 shifts: the library divides by
 * powers of ten and by small scales.
 *
 * Not proved. */
typedef unsigned long long half;
typedef unsigned __int128 whole;
typedef __int128 whole_signed;

static whole joined(half high, half low)
{
    return (whole)high << 64 | low;
}

whole_signed __multi3(whole_signed a, whole_signed b)
{
    half x = (half)a, y = (half)b, mask = 0xFFFFFFFF;
    half low = (x & mask) * (y & mask), left = (x >> 32) * (y & mask) + (low >> 32), right = (x & mask) * (y >> 32) + (left & mask);
    half high = (x >> 32) * (y >> 32) + (left >> 32) + (right >> 32);
    high += (half)((whole)a >> 64) * y + x * (half)((whole)b >> 64);
    return (whole_signed)joined(high, right << 32 | (low & mask));
}

static whole divided(whole a, whole b, whole *rest)
{
    half high = (half)(a >> 64), low = (half)a, by = (half)b;
    if (high == 0 && (half)(b >> 64) == 0) {
        *rest = low % by;
        return low / by;
    }
    if ((half)(b >> 64) == 0 && by >> 32 == 0) {
        half first = high / by, left = high % by;
        half second = left << 32 | low >> 32, third;
        left = second % by;
        second /= by;
        third = left << 32 | (low & 0xFFFFFFFF);
        *rest = third % by;
        return joined(first, second << 32 | third / by);
    }
    whole quotient = 0, left = 0;
    for (int i = 127; i >= 0; i--) { /* a shift of a whole by a variable would be a call too */
        half bit = (i > 63 ? high >> (i - 64) : low >> i) & 1;
        left = left << 1 | bit;
        quotient <<= 1;
        if (left >= b) {
            left -= b;
            quotient |= 1;
        }
    }
    *rest = left;
    return quotient;
}

whole __udivti3(whole a, whole b)
{
    whole rest;
    return divided(a, b, &rest);
}

whole __umodti3(whole a, whole b)
{
    whole rest;
    divided(a, b, &rest);
    return rest;
}

whole_signed __divti3(whole_signed a, whole_signed b)
{
    whole rest, quotient = divided(a < 0 ? -(whole)a : (whole)a, b < 0 ? -(whole)b : (whole)b, &rest);
    return (whole_signed)((a < 0) != (b < 0) ? -quotient : quotient);
}

whole_signed __modti3(whole_signed a, whole_signed b)
{
    whole rest;
    divided(a < 0 ? -(whole)a : (whole)a, b < 0 ? -(whole)b : (whole)b, &rest);
    return (whole_signed)(a < 0 ? -rest : rest);
}

/* By 0 to 127 bits. */
whole_signed __ashlti3(whole_signed a, int by)
{
    half high = (half)((whole)a >> 64), low = (half)a;
    if (by == 0)
        return a;
    if (by >= 64)
        return (whole_signed)joined(low << (by - 64), 0);
    return (whole_signed)joined(high << by | low >> (64 - by), low << by);
}

static whole shifted(half fill, whole a, int by)
{
    half high = (half)(a >> 64), low = (half)a;
    if (by == 0)
        return a;
    if (by == 64)
        return joined(fill, high);
    if (by > 64)
        return joined(fill, high >> (by - 64) | fill << (128 - by));
    return joined(high >> by | fill << (64 - by), low >> by | high << (64 - by));
}

whole __lshrti3(whole a, int by)
{
    return shifted(0, a, by);
}

whole_signed __ashrti3(whole_signed a, int by)
{
    return (whole_signed)shifted(a < 0 ? ~(half)0 : 0, (whole)a, by);
}

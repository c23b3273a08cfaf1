// A piecewise linear curve in 16.16 fixed point, asked at every half minute.
typedef unsigned long u64;
typedef long i64;

struct point {
    short minute, degrees;
};

static const struct point points[] = { { 0, 20 }, { 10, 80 }, { 25, 80 }, { 40, 210 }, { 70, 230 }, { 90, 60 } };

static i64 at(i64 x)
{
    const struct point *p = points;
    while (x > (i64)p[1].minute << 16)
        p++;
    i64 slope = (((i64)p[1].degrees - p[0].degrees) * 65536) / (p[1].minute - p[0].minute);
    return ((i64)p[0].degrees << 16) + (((x - ((i64)p[0].minute << 16)) * slope) >> 16);
}

u64 compiled(void)
{
    u64 total = 0;
    for (int k = 0; k <= 180; k++)
        total = total * 33 ^ (u64)at(k * 32768l);
    return total;
}

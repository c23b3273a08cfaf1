// Quicksort with an insertion sort for short runs.
typedef unsigned long u64;
typedef unsigned u32;

static u32 numbers[150];

static void insert(u32 *a, int n)
{
    for (int i = 1; i < n; i++) {
        u32 x = a[i];
        int j = i;
        for (; j > 0 && a[j - 1] > x; j--)
            a[j] = a[j - 1];
        a[j] = x;
    }
}

static void sort(u32 *a, int n)
{
    while (n > 8) {
        u32 pivot = a[n / 2];
        int i = 0, j = n - 1;
        while (i <= j) {
            while (a[i] < pivot)
                i++;
            while (a[j] > pivot)
                j--;
            if (i <= j) {
                u32 x = a[i];
                a[i++] = a[j];
                a[j--] = x;
            }
        }
        sort(a, j + 1);
        a += i;
        n -= i;
    }
    insert(a, n);
}

u64 compiled(void)
{
    u64 n = 12345, total = 0;
    for (int k = 0; k < 150; k++) {
        n = (n * 1103515245 + 12345) % (1ul << 31);
        numbers[k] = n;
    }
    sort(numbers, 150);
    for (int k = 0; k < 150; k++)
        total = total * 31 + numbers[k];
    return total;
}

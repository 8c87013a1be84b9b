/* Three ways of sorting the same numbers give the same list. */
#include "kernel.h"

#define COUNT 200

static i32 numbers[COUNT], copy[COUNT], heap[COUNT];

static void quick(i32 *list, i32 low, i32 high)
{
    while (low < high) {
        i32 pivot = list[(low + high) / 2], left = low, right = high;
        while (left <= right) {
            while (list[left] < pivot)
                left++;
            while (list[right] > pivot)
                right--;
            if (left <= right) {
                i32 kept = list[left];
                list[left++] = list[right];
                list[right--] = kept;
            }
        }
        quick(list, low, right);
        low = left;
    }
}

static void insertion(i32 *list, u32 count)
{
    for (u32 at = 1; at < count; at++) {
        i32 kept = list[at];
        u32 to = at;
        for (; to > 0 && list[to - 1] > kept; to--)
            list[to] = list[to - 1];
        list[to] = kept;
    }
}

static void sift(i32 *list, u32 at, u32 count)
{
    for (;;) {
        u32 child = 2 * at + 1;
        if (child >= count)
            return;
        if (child + 1 < count && list[child + 1] > list[child])
            child++;
        if (list[at] >= list[child])
            return;
        i32 kept = list[at];
        list[at] = list[child];
        list[child] = kept;
        at = child;
    }
}

static void heap_sort(i32 *list, u32 count)
{
    for (u32 at = count / 2; at-- > 0;)
        sift(list, at, count);
    while (count-- > 1) {
        i32 kept = list[0];
        list[0] = list[count];
        list[count] = kept;
        sift(list, 0, count);
    }
}

int main(void)
{
    for (u32 at = 0; at < COUNT; at++)
        numbers[at] = copy[at] = heap[at] = (i32)(draw() % 20001) - 10000;
    quick(numbers, 0, COUNT - 1);
    insertion(copy, COUNT);
    heap_sort(heap, COUNT);
    for (u32 at = 0; at < COUNT; at++)
        if (numbers[at] != copy[at] || numbers[at] != heap[at])
            return 1;
    for (u32 at = 0; at < COUNT; at += 20) {
        put_signed(numbers[at]);
        put("\n");
    }
    return 42;
}

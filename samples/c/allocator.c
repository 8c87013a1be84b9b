/* A small allocator with a list of free blocks, which are joined again, under a tree of nodes. */
#include "kernel.h"

struct block {
    u32 size;
    struct block *next;
};

static u8 room[16384] __attribute__((aligned(8)));
static struct block *blocks;

static void *take(u32 size)
{
    size = (size + 15) & ~7u;
    for (struct block **at = &blocks; *at; at = &(*at)->next) {
        struct block *found = *at;
        if (found->size < size)
            continue;
        if (found->size >= size + 16) {
            struct block *rest = (struct block *)((u8 *)found + size);
            rest->size = found->size - size;
            rest->next = found->next;
            found->size = size;
            *at = rest;
        } else {
            *at = found->next;
        }
        return (u8 *)found + 8;
    }
    return 0;
}

static void give(void *pointer)
{
    struct block *block = (struct block *)((u8 *)pointer - 8), **at = &blocks;
    while (*at && *at < block)
        at = &(*at)->next;
    block->next = *at;
    *at = block;
    for (struct block *now = blocks; now; now = now->next)
        while (now->next && (u8 *)now + now->size == (u8 *)now->next) {
            now->size += now->next->size;
            now->next = now->next->next;
        }
}

struct node {
    u32 key, count;
    struct node *left, *right;
};

static void count_key(struct node **tree, u32 key)
{
    while (*tree) {
        if ((*tree)->key == key) {
            (*tree)->count++;
            return;
        }
        tree = key < (*tree)->key ? &(*tree)->left : &(*tree)->right;
    }
    *tree = take(sizeof **tree);
    **tree = (struct node){ key, 1, 0, 0 };
}

static void put_tree(const struct node *tree)
{
    if (!tree)
        return;
    put_tree(tree->left);
    if (tree->count > 8) {
        put_number(tree->key);
        put(":");
        put_number(tree->count);
        put("\n");
    }
    put_tree(tree->right);
}

static void drop_tree(struct node *tree)
{
    if (!tree)
        return;
    drop_tree(tree->left);
    drop_tree(tree->right);
    give(tree);
}

int main(void)
{
    blocks = (struct block *)room;
    blocks->size = sizeof room;
    blocks->next = 0;
    struct node *tree = 0;
    for (u32 at = 0; at < 500; at++)
        count_key(&tree, draw() % 97);
    put_tree(tree);
    drop_tree(tree);
    put_line("whole", blocks->size);
    put_line("alone", blocks->next == 0);
    return take(20000) == 0 ? 5 : 6;
}

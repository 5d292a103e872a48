/* trees.h: binary trees, in the ways of two old benchmarks. A node has two references and perhaps data. */
#ifndef TREES_H
#define TREES_H

/* A tree from below: its nodes are made after their children. */
static ref tree_new(mutator *m, int depth, size_t data) {
    ref *const left = m->top;
    if (depth == 0) return heap_new(m, 2, data);
    push(m, tree_new(m, depth - 1, data));
    ref *const right = push(m, tree_new(m, depth - 1, data));
    ref *const node = push(m, heap_new(m, 2, data));
    heap_set_ref(m, node, 0, left);
    heap_set_ref(m, node, 1, right);
    m->top = left;
    return *node;
}

/* A tree from above: each node gets its children. */
static void tree_populate(mutator *m, int depth, const ref *node) {
    ref *const left = m->top;
    if (depth == 0) return;
    push(m, heap_new(m, 2, 1));
    heap_set_ref(m, node, 0, left);
    ref *const right = push(m, heap_new(m, 2, 1));
    heap_set_ref(m, node, 1, right);
    tree_populate(m, depth - 1, left);
    tree_populate(m, depth - 1, right);
    m->top = left;
}

static uint64_t tree_nodes(mutator *m, ref tree) {
    const ref left = heap_ref(m, tree, 0);
    return left != 0 ? 1 + tree_nodes(m, left) + tree_nodes(m, heap_ref(m, tree, 1)) : 1;
}

static void tree_free(mutator *m, ref tree) {
    if (!BY_HAND) return;
    const ref left = heap_ref(m, tree, 0);
    if (left != 0) {
        tree_free(m, left);
        tree_free(m, heap_ref(m, tree, 1));
    }
    heap_free(m, tree);
}

/* The nodes of a tree that is dropped then. */
static uint64_t tree_counted(mutator *m, ref tree) {
    const uint64_t count = tree_nodes(m, tree);
    tree_free(m, tree);
    return count;
}

/* Many short trees of each depth beside one that lives long. Live: the stretching tree, 12 << depth words. */
static uint64_t binary_trees(mutator *m, int depth) {
    uint64_t sum = tree_counted(m, tree_new(m, depth + 1, 0));
    ref *const keep = push(m, tree_new(m, depth, 0));
    for (int d = 4; d <= depth; d += 2)
        for (long k = 0; k < 1L << (depth - d + 4); k++) sum += tree_counted(m, tree_new(m, d, 0));
    sum += tree_counted(m, *keep);
    m->top = keep;
    return sum;
}

static uint64_t bits_of(double x) {
    uint64_t word;
    memcpy(&word, &x, sizeof word);
    return word;
}

/* So many short trees of the depth, from above and from below. */
static uint64_t short_trees(mutator *m, int depth, long count) {
    uint64_t sum = 0;
    for (long k = 0; k < count; k++) {
        ref *const node = push(m, heap_new(m, 2, 1));
        tree_populate(m, depth, node);
        if (k == 0) sum += tree_nodes(m, *node);
        tree_free(m, *node);
        m->top = node;
    }
    for (long k = 0; k < count; k++) {
        const ref made = tree_new(m, depth, 1);
        if (k == 0) sum += tree_nodes(m, made);
        tree_free(m, made);
    }
    return sum;
}

/* GCBench of Ellis, Kovac and Boehm: a long tree and an array of numbers live beside short trees. Live: the stretching
   tree, 8 << stretch words. */
static uint64_t gcbench(mutator *m, int stretch) {
    const size_t numbers = (size_t)2 << stretch;
    uint64_t sum = tree_counted(m, tree_new(m, stretch, 1));
    ref *const keep = push(m, heap_new(m, 2, 1));
    tree_populate(m, stretch - 2, keep);
    ref *const array = push(m, words_new(m, numbers));
    for (size_t k = 0; k < numbers / 2; k++) words_put(m, array, numbers, k, bits_of(1.0 / (double)(k + 1)));
    for (int depth = 4; depth <= stretch - 2; depth += 2)
        sum += short_trees(m, depth, 2 * ((2L << stretch) - 1) / ((2L << depth) - 1));
    sum += tree_counted(m, *keep) + words_at(m, *array, numbers, 1000);
    if (BY_HAND) heap_free(m, *array);
    m->top = keep;
    return sum;
}

#endif

/* A function that has nothing to do with the queue. Linked before it, it moves every instruction, as any change of a program may. */
__attribute__((used)) unsigned other(unsigned seed)
{
    return seed * 1664525u + 1013904223u;
}

/* Eight threads convert and list at once, each on inputs of its own and in an order of its own, and must give what one
   thread gave before.

       threads INPUT ..

   Status 0 where all do. */
#include <pthread.h>
#include <stdio.h>
#include <stdlib.h>
#include <string.h>

#include "objconv.h"

enum { THREADS = 8, ROUNDS = 40, MOST = 100, ROOM = 1 << 20 };

static const char *const targets[] = {"-felf32", "-felf64", "-fcoff32", "-fcoff64", "-fmac32", "-fmac64", "-fomf"};
enum { TARGETS = sizeof targets / sizeof *targets };

struct input {
    unsigned char *at;
    size_t size;
};

/* what a call gives: a status, and a sum over sizes and bytes */
struct answer {
    int status;
    unsigned long sum;
};

static struct input inputs[MOST];
static struct answer want[MOST][TARGETS + 1];
static int count;

static struct input read_all(const char *name)
{
    FILE *file = fopen(name, "rb");
    struct input input = {malloc(ROOM), 0};

    if (file == NULL || input.at == NULL)
        exit(2);
    input.size = fread(input.at, 1, ROOM, file);
    fclose(file);
    return input;
}

static unsigned long sum(unsigned long from, const void *at, size_t size)
{
    const unsigned char *bytes = at;
    size_t i;

    for (i = 0; i < size; i++)
        from = from * 31 + bytes[i];
    return from * 31 + size;
}

/* one call on a copy of an input; the last target is a listing */
static struct answer call(int i, int target, unsigned char *output)
{
    struct answer answer;
    size_t output_size, text_size;
    char text[OBJCONV_TEXT];
    unsigned char *copy = malloc(inputs[i].size + 1);

    if (copy == NULL)
        exit(2);
    memcpy(copy, inputs[i].at, inputs[i].size);
    if (target == TARGETS)
        answer.status = objconv_list(copy, inputs[i].size, (char *)output, ROOM, &output_size, text, sizeof text, &text_size);
    else
        answer.status = objconv_convert(copy, inputs[i].size, targets[target], strlen(targets[target]) + 1,
                                        output, ROOM, &output_size, text, sizeof text, &text_size);
    answer.sum = sum(sum(0, output, answer.status == OBJCONV_ROOM ? 0 : output_size), text, text_size);
    free(copy);
    return answer;
}

static void *run(void *first)
{
    unsigned char *output = malloc(ROOM);
    size_t differ = 0, k, all = (size_t)count * (TARGETS + 1), at = *(int *)first * 37u;
    struct answer got;

    if (output == NULL)
        exit(2);
    for (k = 0; k < all * ROUNDS; k++) {
        size_t it = (at + k * 101) % all;

        got = call((int)(it / (TARGETS + 1)), (int)(it % (TARGETS + 1)), output);
        differ += got.status != want[it / (TARGETS + 1)][it % (TARGETS + 1)].status;
        differ += got.sum != want[it / (TARGETS + 1)][it % (TARGETS + 1)].sum;
    }
    free(output);
    return (void *)differ;
}

int main(int n, char **names)
{
    pthread_t threads[THREADS];
    int numbers[THREADS], i, target;
    unsigned char *output = malloc(ROOM);
    size_t differ = 0;

    for (count = 0; count + 1 < n && count < MOST; count++) {
        inputs[count] = read_all(names[count + 1]);
        for (target = 0; target <= TARGETS; target++)
            want[count][target] = call(count, target, output);
    }
    for (i = 0; i < THREADS; i++) {
        numbers[i] = i;
        if (pthread_create(&threads[i], NULL, run, &numbers[i]) != 0)
            return 2;
    }
    for (i = 0; i < THREADS; i++) {
        void *got;

        if (pthread_join(threads[i], &got) != 0)
            return 2;
        differ += (size_t)got;
    }
    printf("%d calls, %lu differ\n", count * (TARGETS + 1) * ROUNDS * THREADS, (unsigned long)differ);
    return differ != 0;
}

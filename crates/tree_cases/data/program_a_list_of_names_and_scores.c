#include <stdio.h>
#include <stdlib.h>
#include <string.h>
#define NAME_MAX 16
#define COUNT 3

typedef struct Node {
    char name[NAME_MAX];
    int score;
    struct Node *next;
} Node;

static Node *head;

static Node *make(const char *name, int score) {
    Node *n = (Node *)malloc(sizeof(Node));
    if (n == NULL) return NULL;
    size_t len = strlen(name);
    if (len >= NAME_MAX) len = NAME_MAX - 1;
    memcpy(n->name, name, len);
    n->name[len] = '\0';
    n->score = score;
    n->next = NULL;
    return n;
}

static void push(Node *n) {
    n->next = head;
    head = n;
}

int main(void) {
    const char *names[COUNT] = { "ada", "grace", "edsger" };
    int i;
    for (i = 0; i < COUNT; i++) {
        Node *n = make(names[i], 10 * (i + 1));
        if (!n) return 1;
        push(n);
    }
    int sum = 0;
    for (Node *p = head; p != NULL; p = p->next) {
        printf("%-8s%4d\n", p->name, p->score);
        sum += p->score;
    }
    while (head) {
        Node *dead = head;
        head = head->next;
        free(dead);
    }
    printf("sum %d\n", sum);
    return 0;
}
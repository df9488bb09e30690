#define COUNT 3
typedef struct Node { struct Node *next; } Node;
static Node *head;
static void push(Node *n) { n->next = head; head = n; }
const char *names[COUNT] = { "ada", "grace", "edsger" };
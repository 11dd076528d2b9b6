/* Builds a search tree in a pool of nodes and divides along a path down to a node that holds 0: integer divide by zero, in a recursion. */
struct node { int key, value; struct node *left, *right; };
static struct node pool[64];
static unsigned used;
static long long walked = 0x123456789abcdefll;

static struct node *insert(struct node *at, int key, int value) {
  if (!at) {
    struct node *made = &pool[used++];
    made->key = key;
    made->value = value;
    return made;
  }
  if (key < at->key) at->left = insert(at->left, key, value);
  else at->right = insert(at->right, key, value);
  return at;
}

static int quotient(struct node *at, int key, int from) {
  int part = from / at->value;
  walked = walked * 31 + part;
  if (key == at->key) return part;
  return quotient(key < at->key ? at->left : at->right, key, part) + 1;
}

__attribute__((export_name("run"))) int run(int seed, int zero) {
  struct node *root = 0;
  used = 0;
  for (int i = 0; i < 40; i++) {
    int key = (int)((unsigned)(seed + i) * 2654435761u >> 8) % 1000;
    root = insert(root, key, i == 33 ? zero : i + 1);
  }
  return quotient(root, pool[33].key, 1 << 30);
}

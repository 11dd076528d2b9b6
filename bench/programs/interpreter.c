/* A stack machine of twelve instructions, which finds the primes below 4,000 by a sieve. */
enum { PUSH, LOAD, STORE, READ, WRITE, ADD, MULTIPLY, LESS, JUMP, JUMP_UNLESS, COPY, HALT };
struct instruction {
  unsigned char code;
  unsigned operand;
};
#define LIMIT 4000
enum { I, J, FOUND, VARIABLES };
static unsigned stack[32], variables[VARIABLES];
static unsigned char marks[LIMIT];

static const struct instruction program[] = {
    /* 0 */ {PUSH, 2}, {STORE, I}, {PUSH, 0}, {STORE, FOUND},
    /* 4: while i < LIMIT */ {LOAD, I}, {PUSH, LIMIT}, {LESS, 0}, {JUMP_UNLESS, 40},
    /* 8: if !marks[i] */ {LOAD, I}, {READ, 0}, {PUSH, 1}, {LESS, 0}, {JUMP_UNLESS, 34},
    /* 13: found += 1; j = i * i */ {LOAD, FOUND}, {PUSH, 1}, {ADD, 0}, {STORE, FOUND}, {LOAD, I}, {COPY, 0}, {MULTIPLY, 0}, {STORE, J},
    /* 21: while j < LIMIT */ {LOAD, J}, {PUSH, LIMIT}, {LESS, 0}, {JUMP_UNLESS, 34},
    /* 25: marks[j] = 1; j += i */ {LOAD, J}, {PUSH, 1}, {WRITE, 0}, {LOAD, J}, {LOAD, I}, {ADD, 0}, {STORE, J}, {JUMP, 21}, {HALT, 0},
    /* 34: i += 1 */ {LOAD, I}, {PUSH, 1}, {ADD, 0}, {STORE, I}, {JUMP, 4}, {HALT, 0},
    /* 40 */ {LOAD, FOUND}, {HALT, 0}};

static unsigned interpret(void) {
  unsigned at = 0, height = 0;
  for (;;) {
    const struct instruction *now = &program[at++];
    switch (now->code) {
      case PUSH: stack[height++] = now->operand; break;
      case LOAD: stack[height++] = variables[now->operand]; break;
      case STORE: variables[now->operand] = stack[--height]; break;
      case READ: stack[height - 1] = marks[stack[height - 1] % LIMIT]; break;
      case WRITE: height -= 2; marks[stack[height] % LIMIT] = (unsigned char)stack[height + 1]; break;
      case ADD: height--; stack[height - 1] += stack[height]; break;
      case MULTIPLY: height--; stack[height - 1] *= stack[height]; break;
      case LESS: height--; stack[height - 1] = stack[height - 1] < stack[height]; break;
      case JUMP: at = now->operand; break;
      case JUMP_UNLESS: if (!stack[--height]) at = now->operand; break;
      case COPY: stack[height] = stack[height - 1]; height++; break;
      case HALT: return stack[height - 1];
    }
  }
}

__attribute__((export_name("run"))) unsigned run(void) {
  unsigned sum = 0;
  for (unsigned round = 0; round < 10; round++) {
    for (unsigned i = 0; i < LIMIT; i++) marks[i] = 0;
    sum += interpret();
  }
  return sum;
}

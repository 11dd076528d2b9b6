/* A contract that pays a dividend, by the books that its host keeps: a run traps where the host tells of no holders. */
typedef unsigned long long amount;
#define HOST(NAME) __attribute__((import_module("env"), import_name(#NAME)))
HOST(caller) amount caller(void);
HOST(read) unsigned read(unsigned key, void *to);
HOST(write) void write(unsigned key, const void *from);
HOST(note) void note(const char *text, unsigned size);

struct account { amount balance; unsigned holders; };

__attribute__((export_name("run"))) unsigned run(unsigned key, unsigned sum) {
  struct account account;
  amount from = caller();
  if (!read(key, &account)) return 0;
  note("pays", 4);
  amount each = sum / account.holders + from % 2;
  account.balance -= each * account.holders;
  write(key, &account);
  return (unsigned)account.balance;
}

/* Notes how many letters stand behind each letter of a word. A sign outside the alphabet breaks the number behind the table, by which the
 * last line divides. */
static struct { int behind[26]; int scale; } table = {{0}, 3};

static void note(const char *word, int left) {
  while (left > 0) {
    int letter = *word++ - 'a';
    table.behind[letter] = --left;
  }
}

__attribute__((export_name("run"))) int run(int n) {
  note("dump{", 5);
  note("trap", 4);
  return n / table.scale;
}

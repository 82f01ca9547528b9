static int is_odd(int n) { return n & 1; }

int count(const int *values, int length) {
  int odd = 0;
  for (int i = 0; i < length; i++)
    if (is_odd(values[i])) odd++;
  return odd;
}

static const int VALUES[] = {3, 4, 5};

void _start(void) {
  for (;;) count(VALUES, 3);
}

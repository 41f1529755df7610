/*
 * The three functions of the C library that the functions for C call. The block
 * has its own, so that it needs nothing of the process that loads it. Their
 * arguments are those of the C standard.
 */
typedef __SIZE_TYPE__ size_t;

void *memcpy(void *restrict to, const void *restrict from, size_t length) {
  unsigned char *restrict target = to;
  const unsigned char *restrict source = from;
  for (size_t i = 0; i < length; i++) {
    target[i] = source[i];
  }
  return to;
}

/* The ends may overlap, so bytes are copied in the order in which none is
   overwritten before it is read. */
void *memmove(void *to, const void *from, size_t length) {
  unsigned char *target = to;
  const unsigned char *source = from;
  if ((size_t)target - (size_t)source >= length) {
    for (size_t i = 0; i < length; i++) {
      target[i] = source[i];
    }
  } else {
    for (size_t i = length; i > 0; i--) {
      target[i - 1] = source[i - 1];
    }
  }
  return to;
}

void *memset(void *at, int byte, size_t length) {
  unsigned char *target = at;
  for (size_t i = 0; i < length; i++) {
    target[i] = (unsigned char)byte;
  }
  return at;
}

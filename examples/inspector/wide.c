/* Arithmetic of 128 bits that the compiler calls, over numbers of 64 bits. */
typedef unsigned __int128 wide;
typedef __UINT64_TYPE__ word;

typedef union halves {
  wide all;
  struct {
    word low, high;
  } at;
} halves;

wide __ashlti3(wide number, int by) {
  halves from = {number}, to = {0};
  if (by == 0)
    return number;
  to.at.high = by < 64 ? from.at.high << by | from.at.low >> (64 - by) : from.at.low << (by - 64);
  to.at.low = by < 64 ? from.at.low << by : 0;
  return to.all;
}

wide __lshrti3(wide number, int by) {
  halves from = {number}, to = {0};
  if (by == 0)
    return number;
  to.at.low = by < 64 ? from.at.low >> by | from.at.high << (64 - by) : from.at.high >> (by - 64);
  to.at.high = by < 64 ? from.at.high >> by : 0;
  return to.all;
}

/* The compiler may replace the sum by a product of 128 bits, which is this function. */
__attribute__((optnone)) wide __multi3(wide first, wide second) {
  halves a = {first}, b = {second}, to;
  const word half = 0xffffffff;
  word al = a.at.low & half, ah = a.at.low >> 32, bl = b.at.low & half, bh = b.at.low >> 32;
  word low = al * bl, mid = ah * bl + (low >> 32), more = al * bh + (mid & half);
  to.at.low = more << 32 | (low & half);
  to.at.high = ah * bh + (mid >> 32) + (more >> 32) + a.at.low * b.at.high + a.at.high * b.at.low;
  return to.all;
}

/* Bit by bit; the library divides so only for the decimal digits of long numbers. */
wide __udivti3(wide number, wide by) {
  wide quotient = 0, rest = 0;
  for (int i = 0; i < 128; i++) {
    rest = rest << 1 | number >> 127;
    number <<= 1;
    quotient <<= 1;
    if (rest >= by) {
      rest -= by;
      quotient |= 1;
    }
  }
  return quotient;
}

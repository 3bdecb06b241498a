function twice(n) { return n * 2; }
function main() {
  i = 0;
  while (i < 3 && i != 7) {
    if (i == 1 || (i >= 2)) { i = i + 2; continue; } else { debugger; }
    println("é " + twice(i) / 1 - pl0(i));
    i = (i + 1);
    if (i > 9) { break; }
  }
  twice(twice)(i <= 3);
  return;
}

// The odd numbers up to 7.
function main() {
  i = 0;
  while (i < 100) {
    i = i + 1;
    if (i / 2 * 2 == i) { continue; }
    if (i > 7) { break; }
    println(i);
  }
}

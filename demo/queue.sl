// Each context works through a queue of its own.
function work(n) {
  return n * n;
}
function main() {
  i = 0;
  while (i < 1000) {
    work(i);
    i = i + 1;
  }
  println("worked " + i);
}

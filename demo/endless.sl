// A loop that never ends.
function main() {
  i = 1;
  while (i > 0) {
    println("turn " + i);
    i = i + 1;
  }
}

// A division by zero ends the run.
function share(sum, people) {
  return sum / people;
}
function main() {
  println(share(6, 3));
  println(share(6, 0));
}

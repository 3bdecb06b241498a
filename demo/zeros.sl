// Only `main` runs.
function main() {
  println("main");
}
function never() {
  println("never");
}

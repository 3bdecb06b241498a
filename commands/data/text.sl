function main() {
  println("a);
}
// Refused: the operand after + is missing.
function main() {
  println(1 + );
}

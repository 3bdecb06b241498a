// The shop sells through a procedure of the stock, which calls back when much is sold.
function low() {
  println("buy more");
}
function main() {
  println(sell(3));
  println(sell(4));
}

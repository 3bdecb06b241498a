// Which numbers are prime, and how many steps each takes down to 1; the call tree shows what that costs.
function even(n) {
  return n / 2 * 2 == n;
}
function steps(n) {
  if (n == 1) { return 0; }
  if (even(n)) { return 1 + steps(n / 2); }
  return 1 + steps(3 * n + 1);
}
function prime(n) {
  k = 2;
  while (k * k <= n && n / k * k != n) { k = k + 1; }
  return n < k * k;
}
function tell(n) {
  if (prime(n)) { println(n + " is prime"); }
  println(n + " takes " + steps(n));
}
function main() {
  n = 2;
  while (n < 6) { tell(n); n = n + 1; }
}

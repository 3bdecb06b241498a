function up(a) {
  if (a == 3) { println(a); }
}

function c(n) { println(n); return a(5); }

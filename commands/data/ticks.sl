function main() { tick1(); tick1(); tick8(); println(tick1() + " " + tick8() + " " + tick15()); return tick15; }

function main() { println("	é/<&"); return "	é/<&"; }

function nothing() {
}
